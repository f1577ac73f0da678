/*
 * Rewrites a study from standard input in the other layout of period sheets: from the first to the second with every lane
 * open, or back. A refusal goes to standard error, with status 1; no byte is then written.
 *
 * In the repository's root, after `./build convert_c`:
 *
 *     cc -O2 -Iinclude examples/c/convert.c target/staticlib/libconvert.a -o target/convert-c
 *     target/convert-c to-second < studies/first/worked.study > target/worked.study
 */

#include <inttypes.h>
#include <stdio.h>
#include <string.h>

#include "freeway_forecast.h"

/*
 * No study that converts takes more than FREEWAY_LONGEST_SECOND bytes. A longer one is refused for what stands within
 * these bytes or the few after them, so that the rest needs no reading.
 */
#define LONGEST_STUDY 32768

typedef uint64_t conversion(const uint8_t *, size_t, uint8_t *, size_t, uint64_t *);

static conversion *named(int words, char **word)
{
    if (words == 2 && strcmp(word[1], "to-second") == 0) {
        return freeway_to_second;
    }
    if (words == 2 && strcmp(word[1], "to-first") == 0) {
        return freeway_to_first;
    }
    return NULL;
}

int main(int words, char **word)
{
    static uint8_t study[LONGEST_STUDY];
    static uint8_t target[FREEWAY_LONGEST_SECOND];
    uint64_t count;

    conversion *convert = named(words, word);
    if (convert == NULL) {
        fputs("usage: convert-c to-second|to-first < study > converted\n", stderr);
        return 2;
    }
    size_t length = fread(study, 1, sizeof study, stdin);
    if (ferror(stdin)) {
        perror("convert: cannot read the study");
        return 1;
    }
    uint64_t refusal = convert(study, length, target, sizeof target, &count);
    if (refusal != 0) {
        fprintf(stderr, "refused %" PRIu64 " %" PRIu64 "\n", refusal, count);
        return 1;
    }
    if (fwrite(target, 1, count, stdout) != count || fflush(stdout) != 0) {
        perror("convert: cannot write the study");
        return 1;
    }
    return 0;
}
