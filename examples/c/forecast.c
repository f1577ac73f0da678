/*
 * Reads a study from standard input and prints its listing, as the program `forecast` does.
 *
 * In the repository's root, after `./build study_c`:
 *
 *     cc -O2 -Iinclude examples/c/forecast.c target/staticlib/libstudy.a -o target/forecast-c
 *     target/forecast-c < studies/worked.study
 */

#include <inttypes.h>
#include <stdio.h>

#include "freeway_forecast.h"

/*
 * The longest study that is accepted takes 32,293 bytes: a road of 64 segments takes at most 901, and each of 96
 * periods at most 327. A longer one is refused for what stands within these bytes or the few after them, so that the
 * rest needs no reading.
 */
#define LONGEST_STUDY 32768

static void print_listing(const uint64_t *out)
{
    printf("arrived %" PRIu64 "\n", out[FREEWAY_ARRIVED]);
    printf("left %" PRIu64 "\n", out[FREEWAY_LEFT]);
    printf("stored %" PRIu64 "\n", out[FREEWAY_STORED]);
    printf("partsteps %" PRIu64 "\n", out[FREEWAY_PART_STEPS]);
    printf("origin %" PRIu64 "\n", out[FREEWAY_ORIGIN]);
    for (uint64_t i = 0; i < out[FREEWAY_SEGMENTS]; i++) {
        printf("%" PRIu64 " %" PRIu64 " %" PRIu64 " %c %" PRIu64 "\n", i + 1, out[FREEWAY_PARTS(i)], out[FREEWAY_QUEUE(i)],
               (char)out[FREEWAY_LETTER(i)], out[FREEWAY_PART_FEET_OF(i)]);
    }
    printf("partfeet %" PRIu64 "\n", out[FREEWAY_PART_FEET]);
}

int main(void)
{
    static uint8_t study[LONGEST_STUDY];
    uint64_t out[FREEWAY_FORECAST_NUMBERS];

    size_t length = fread(study, 1, sizeof study, stdin);
    if (ferror(stdin)) {
        perror("forecast: cannot read the study");
        return 1;
    }
    if (freeway_forecast(study, length, out, FREEWAY_FORECAST_NUMBERS) == 0) {
        print_listing(out);
    } else {
        printf("refused %" PRIu64 " %" PRIu64 "\n", out[FREEWAY_REFUSAL], out[FREEWAY_PLACE]);
    }
    if (fflush(stdout) != 0) {
        perror("forecast: cannot write the listing");
        return 1;
    }
    return 0;
}
