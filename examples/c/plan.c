/*
 * Reads planning sheets from standard input, one behind the other: the periods of one facility. Each is worked out with the
 * carryover that the one before left, zeros at first. Prints for each the facility's density and letter, and a line for each
 * section: its number, case, speed, density and carryover. A sheet that is refused ends the run, with status 1.
 *
 * In the repository's root, after `./build planning_c`:
 *
 *     cc -O2 -Iinclude examples/c/plan.c target/staticlib/libplanning.a -o target/plan-c
 *     printf '\001\240\051\003\074\350\007\364\053\000' | target/plan-c
 */

#include <inttypes.h>
#include <stdio.h>
#include <string.h>

#include "freeway_forecast.h"

/* The most sections of a sheet, and the most bytes: a count, then of each section four numbers and two. */
#define MOST_SECTIONS 64
#define LONGEST_SHEET (1 + MOST_SECTIONS * (3 + 1 + 1 + 2 + 3 + 3))

/* Room for a day of periods of 15 minutes, each of the longest sheet. */
#define MOST_SHEETS 96

/* A double by its bits. */
static double real(uint64_t bits)
{
    double value;
    memcpy(&value, &bits, sizeof value);
    return value;
}

static void print_plan(const uint64_t *out, const uint32_t *carryover, size_t sections)
{
    static const char *const name[] = {"free", "slowed", "queued"};

    printf("density %.4f %c\n", real(out[FREEWAY_PLAN_DENSITY]), (char)out[FREEWAY_PLAN_LETTER]);
    for (size_t i = 0; i < sections; i++) {
        printf("%zu %s %.4f %.4f %" PRIu32 "\n", i + 1, name[out[FREEWAY_PLAN_CASE(i)]], real(out[FREEWAY_PLAN_SPEED(i)]),
               real(out[FREEWAY_PLAN_DENSITY_OF(i)]), carryover[i]);
    }
}

int main(void)
{
    static uint8_t sheets[MOST_SHEETS * LONGEST_SHEET];
    uint32_t carryover[MOST_SECTIONS] = {0};
    uint64_t out[FREEWAY_PLAN_NUMBERS];

    size_t length = fread(sheets, 1, sizeof sheets, stdin);
    if (ferror(stdin)) {
        perror("plan: cannot read the sheets");
        return 1;
    }
    if (length == sizeof sheets && getchar() != EOF) {
        fputs("plan: too many sheets\n", stderr);
        return 1;
    }
    /* a sheet's first byte is its section count, since that is at most 64 */
    for (size_t at = 0; at < length; at += out[FREEWAY_PLAN_USED]) {
        size_t sections = sheets[at] < MOST_SECTIONS ? sheets[at] : MOST_SECTIONS;
        if (freeway_plan(sheets + at, length - at, carryover, sections, out, FREEWAY_PLAN_NUMBERS) != 0) {
            printf("refused %" PRIu64 " %" PRIu64 "\n", out[FREEWAY_PLAN_REFUSAL], out[FREEWAY_PLAN_OFFSET]);
            return 1;
        }
        print_plan(out, carryover, sections);
    }
    if (fflush(stdout) != 0) {
        perror("plan: cannot write");
        return 1;
    }
    return 0;
}
