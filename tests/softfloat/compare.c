/* The binary32 call beside Berkeley SoftFloat's f32_div(1, x) and f32_sqrt(x):
   bits and flags, in every rounding, the status given being 0.

     tests/softfloat/build FOLDER
     cc -std=c99 -O2 -Wall -Wextra -Werror -Iinclude -Itarget/softfloat tests/softfloat/compare.c \
        build/lib/libplate.a target/softfloat/libsoftfloat.a -o target/compare
     target/compare                          all 2^32 patterns
     target/compare --from 3F800000 --to 3FFFFFFF --step 3

   It exits 1 if an answer differs. SoftFloat finds tininess before rounding, as
   document 01 does, and gives the NaN 7FC00000.
*/
#include <inttypes.h>
#include <stdio.h>
#include <stdlib.h>
#include <string.h>

#include "plate.h"
#include "softfloat.h"

#define SHOWN 5     /* differences that are printed for each operation and rounding */

static const float32_t one = { 0x3F800000 };

static const char *const operations[] = { "", "reciprocal", "root" };
static const char *const roundings[] = { "nearest", "up", "down", "toward zero" };

/* SoftFloat's number of each rounding. */
static const uint_fast8_t modes[] = {
    softfloat_round_near_even, softfloat_round_max, softfloat_round_min, softfloat_round_minMag,
};

struct slice {
    uint64_t from, to, step;
};

/* Document 01's status from SoftFloat's flags. */
static uint8_t status_of(uint_fast8_t flags)
{
    return (flags & softfloat_flag_invalid ? PLATE_INVALID : 0)
        | (flags & softfloat_flag_infinite ? PLATE_DIVISION_BY_ZERO : 0)
        | (flags & softfloat_flag_overflow ? PLATE_OVERFLOW : 0)
        | (flags & softfloat_flag_underflow ? PLATE_UNDERFLOW : 0)
        | (flags & softfloat_flag_inexact ? PLATE_INEXACT : 0);
}

/* What SoftFloat gives in the rounding that stands, put as the call puts it. */
static uint64_t softfloat(uint8_t operation, uint32_t bits, const uint8_t statuses[32])
{
    float32_t x = { bits };
    softfloat_exceptionFlags = 0;
    x = operation == PLATE_RECIPROCAL ? f32_div(one, x) : f32_sqrt(x);
    return (uint64_t)statuses[softfloat_exceptionFlags] << 32 | x.v;
}

/* Compares a slice in one operation and rounding, and gives the differences. */
static uint64_t compare(uint8_t operation, uint8_t rounding, struct slice slice, uint64_t *compared)
{
    uint8_t statuses[32];
    uint64_t count = 0, differences = 0;

    for (int flags = 0; flags < 32; flags++)
        statuses[flags] = status_of(flags);
    softfloat_roundingMode = modes[rounding];
    for (uint64_t bits = slice.from; bits <= slice.to; bits += slice.step) {
        uint64_t expected = softfloat(operation, (uint32_t)bits, statuses);
        uint64_t given = plate_binary32(operation, rounding, 0, (uint32_t)bits);
        count++;
        if (given != expected && ++differences <= SHOWN)
            printf("  %08" PRIX64 ": the unit gives %08X, status %d, SoftFloat %08X, status %d\n", bits,
                   plate_answer(given), plate_status(given), plate_answer(expected), plate_status(expected));
    }
    printf("%-10s %-11s %10" PRIu64 " compared, %" PRIu64 " differ\n", operations[operation],
           roundings[rounding], count, differences);
    fflush(stdout);
    *compared += count;
    return differences;
}

static void stop(const char *why)
{
    fprintf(stderr, "%s\nusage: compare [--from HEX] [--to HEX] [--step N]\n", why);
    exit(2);
}

static uint64_t number(const char *text, int base)
{
    char *end;
    uint64_t value = strtoull(text, &end, base);
    if (*text == '\0' || *end != '\0' || value > 0xFFFFFFFF)
        stop("no number of 32 bits");
    return value;
}

/* The slice that the words name, or all patterns. */
static struct slice slice_of(int count, char **words)
{
    struct slice slice = { 0, 0xFFFFFFFF, 1 };

    for (int k = 1; k < count; k += 2) {
        if (k + 1 == count)
            stop("a number is missing");
        if (strcmp(words[k], "--from") == 0)
            slice.from = number(words[k + 1], 16);
        else if (strcmp(words[k], "--to") == 0)
            slice.to = number(words[k + 1], 16);
        else if (strcmp(words[k], "--step") == 0)
            slice.step = number(words[k + 1], 10);
        else
            stop("unknown option");
    }
    if (slice.step == 0)
        stop("the step is at least 1");
    return slice;
}

int main(int count, char **words)
{
    struct slice slice = slice_of(count, words);
    uint64_t compared = 0, differences = 0;

    softfloat_detectTininess = softfloat_tininess_beforeRounding;
    for (uint8_t operation = PLATE_RECIPROCAL; operation <= PLATE_ROOT; operation++)
        for (uint8_t rounding = PLATE_NEAREST; rounding <= PLATE_TOWARD_ZERO; rounding++)
            differences += compare(operation, rounding, slice, &compared);
    printf("%" PRIu64 " compared, %" PRIu64 " differences\n", compared, differences);
    return differences != 0;
}
