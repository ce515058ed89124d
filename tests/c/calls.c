/* The calls through include/plate.h: rows of document 01's table, its example
   written by both list calls and read back, the example as document 01 writes it,
   a record that is lifted, rows of binary64 with their tables filled here, widths
   that are squared and come back, refusals of each call, their words, and the
   lengths of maps and lists.

     cc -std=c99 -Wall -Wextra -Werror -Ibuild/include tests/c/calls.c build/lib/libplate.a
*/
#include <stdio.h>
#include <string.h>

#include "plate.h"

static int differs(int line, uint64_t given, uint32_t answer, uint8_t status, uint8_t refusal)
{
    int same = plate_answer(given) == answer && plate_status(given) == status
        && plate_refusal(given) == refusal && given >> 48 == 0;
    if (!same)
        printf("calls.c:%d: %08x, status %d, refusal %d\n", line, (unsigned)plate_answer(given),
               plate_status(given), plate_refusal(given));
    return !same;
}

#define EXPECT(given, answer, status, refusal) \
    if (differs(__LINE__, (given), (answer), (status), (refusal))) return 1

/* The header's own: each refusal has words of its own, numbers of none the same. */
static int header_differs(void)
{
    int a, b;

    for (a = PLATE_ACCEPTED; a <= PLATE_REFUSED_ENTRY; a++)
        for (b = a + 1; b <= PLATE_REFUSED_ENTRY + 1; b++)
            if (strcmp(plate_refusal_words(a), plate_refusal_words(b)) == 0)
                return 1;
    return PLATE_REFUSED_ENTRY != 16 || strcmp(plate_refusal_words(17), plate_refusal_words(255)) != 0
        || PLATE_LIST_LENGTH(3, 3) != 30 || PLATE_LONGEST_LIST != 46146 || PLATE_LONGEST_MAP != 16400
        || PLATE_ANSWER(0x0000AABBCCDDEEFF) != 0xCCDDEEFF || PLATE_STATUS(0x0000AABBCCDDEEFF) != 0xBB
        || PLATE_REFUSAL(0x0000AABBCCDDEEFF) != 0xAA;
}

/* A width times itself, and the root of that. */
static int width_lost(float width)
{
    float squared = width * width;
    uint32_t before, bits;

    memcpy(&before, &width, 4);
    memcpy(&bits, &squared, 4);
    return plate_answer(plate_binary32(PLATE_ROOT, PLATE_NEAREST, 0, bits)) != before;
}

static int record_differs(int line, struct plate_record_reply given, struct plate_record_reply expected)
{
    int same = given.refusal == expected.refusal && given.rounding == expected.rounding
        && given.width == expected.width && given.depth == expected.depth
        && given.step == expected.step && given.radius == expected.radius
        && given.x == expected.x && given.y == expected.y && given.z == expected.z;
    if (!same)
        printf("calls.c:%d: refusal %d, rounding %d, sizes %lu %lu %lu %lu, record %ld %ld %ld\n",
               line, given.refusal, given.rounding, (unsigned long)given.width,
               (unsigned long)given.depth, (unsigned long)given.step,
               (unsigned long)given.radius, (long)given.x, (long)given.y, (long)given.z);
    return !same;
}

/* The members of the reply; those that are not named are 0. */
#define EXPECT_RECORD(given, ...) \
    if (record_differs(__LINE__, (given), (struct plate_record_reply){__VA_ARGS__})) return 1

#define EXPECT_REFUSED(given, number) \
    EXPECT_RECORD(given, .refusal = (number), .rounding = PLATE_ROUNDING_UNKNOWN)

/* A reply of plate_raw64 or plate_binary64, both written as the latter's. */
static int reply_differs(int line, struct plate_binary64_reply given, struct plate_binary64_reply expected)
{
    int same = given.refusal == expected.refusal && given.status == expected.status
        && given.bits == expected.bits;
    if (!same)
        printf("calls.c:%d: %08lx%08lx, status %d, refusal %d\n", line, (unsigned long)(given.bits >> 32),
               (unsigned long)(given.bits & 0xFFFFFFFF), given.status, given.refusal);
    return !same;
}

#define EXPECT_REPLY(given, refusal, status, bits) \
    if (reply_differs(__LINE__, (given), (struct plate_binary64_reply){(refusal), (status), (bits)})) return 1

/* The tables of binary64, and one number behind them. */
static uint64_t tables[PLATE_TABLES + 1];

static struct plate_binary64_reply raw64(uint8_t operation, uint64_t significand, uint8_t parity, size_t entries)
{
    struct plate_raw64_reply given = plate_raw64(operation, significand, parity, tables, entries);
    return (struct plate_binary64_reply){given.refusal, 0, given.answer};
}

/* The answers in the roundings 0 to 3, each with the flags. */
struct row {
    uint8_t operation, flags;
    uint64_t bits, answers[4];
};

static const struct row rows[] = {
    {PLATE_RECIPROCAL, PLATE_INEXACT, 0x4008000000000000,
     {0x3FD5555555555555, 0x3FD5555555555556, 0x3FD5555555555555, 0x3FD5555555555555}},
    {PLATE_RECIPROCAL, PLATE_INEXACT, 0xC008000000000000,
     {0xBFD5555555555555, 0xBFD5555555555555, 0xBFD5555555555556, 0xBFD5555555555555}},
    {PLATE_ROOT, PLATE_INEXACT, 0x4000000000000000,
     {0x3FF6A09E667F3BCD, 0x3FF6A09E667F3BCD, 0x3FF6A09E667F3BCC, 0x3FF6A09E667F3BCC}},
    {PLATE_INVERSE_ROOT, 0, 0x4010000000000000,
     {0x3FE0000000000000, 0x3FE0000000000000, 0x3FE0000000000000, 0x3FE0000000000000}},
    {PLATE_INVERSE_ROOT, PLATE_INEXACT, 0x3FF0000000000001,
     {0x3FEFFFFFFFFFFFFF, 0x3FF0000000000000, 0x3FEFFFFFFFFFFFFF, 0x3FEFFFFFFFFFFFFF}},
    {PLATE_RECIPROCAL, PLATE_OVERFLOW | PLATE_INEXACT, 0x0004000000000000,
     {0x7FF0000000000000, 0x7FF0000000000000, 0x7FEFFFFFFFFFFFFF, 0x7FEFFFFFFFFFFFFF}},
    {PLATE_RECIPROCAL, PLATE_INEXACT, 0x0004000000000001,
     {0x7FEFFFFFFFFFFFF8, 0x7FEFFFFFFFFFFFF9, 0x7FEFFFFFFFFFFFF8, 0x7FEFFFFFFFFFFFF8}},
    {PLATE_RECIPROCAL, 0, 0x0008000000000000,
     {0x7FE0000000000000, 0x7FE0000000000000, 0x7FE0000000000000, 0x7FE0000000000000}},
    {PLATE_RECIPROCAL, 0, 0x7FE0000000000000,
     {0x0008000000000000, 0x0008000000000000, 0x0008000000000000, 0x0008000000000000}},
    {PLATE_RECIPROCAL, PLATE_UNDERFLOW | PLATE_INEXACT, 0x7FD0000000000001,
     {0x000FFFFFFFFFFFFF, 0x0010000000000000, 0x000FFFFFFFFFFFFF, 0x000FFFFFFFFFFFFF}},
    {PLATE_RECIPROCAL, PLATE_UNDERFLOW | PLATE_INEXACT, 0xFFE0000000000001,
     {0x8008000000000000, 0x8007FFFFFFFFFFFF, 0x8008000000000000, 0x8007FFFFFFFFFFFF}},
    {PLATE_ROOT, 0, 1,
     {0x1E60000000000000, 0x1E60000000000000, 0x1E60000000000000, 0x1E60000000000000}},
    {PLATE_INVERSE_ROOT, 0, 1,
     {0x6180000000000000, 0x6180000000000000, 0x6180000000000000, 0x6180000000000000}},
};

/* The calls of binary64: 0, or 1 after a line about what differs. */
static int binary64_calls(void)
{
    const uint64_t two = 0x4000000000000000, nan = 0x7FF8000000000000;
    uint64_t entry;
    uint8_t rounding;
    size_t k;

    if (sizeof(struct plate_raw64_reply) != 16 || offsetof(struct plate_raw64_reply, answer) != 8
        || sizeof(struct plate_binary64_reply) != 16 || offsetof(struct plate_binary64_reply, status) != 1
        || offsetof(struct plate_binary64_reply, bits) != 8)
        return 1;

    /* A slice of another length is kept. Before the tables are filled no root is answered, but for operands that use none of their numbers. */
    for (k = 0; k <= PLATE_TABLES; k++)
        tables[k] = 7 * k + 3;
    if (plate_fill_tables(tables, 0) != 15 || plate_fill_tables(tables, 1) != 15
        || plate_fill_tables(tables, PLATE_TABLES - 1) != 15 || plate_fill_tables(tables, PLATE_TABLES + 1) != 15)
        return 1;
    for (k = 0; k <= PLATE_TABLES; k++)
        if (tables[k] != 7 * k + 3)
            return 1;
    EXPECT_REPLY(plate_binary64(PLATE_ROOT, PLATE_NEAREST, 255, two, tables, PLATE_TABLES), 16, 255, 0);
    EXPECT_REPLY(plate_binary64(PLATE_ROOT, PLATE_NEAREST, 0, nan, tables, PLATE_TABLES), 0, 0, nan);
    EXPECT_REPLY(plate_binary64(PLATE_INVERSE_ROOT, PLATE_UP, 0, 0xC000000000000000, tables, PLATE_TABLES), 0, PLATE_INVALID, nan);

    /* The first number of each table is that of Y = 1: 1 and the root of 2, 1 and its half. */
    if (plate_fill_tables(tables, PLATE_TABLES) != 0 || tables[PLATE_TABLES] != 7 * PLATE_TABLES + 3
        || tables[0] != 1152921504606846976 || tables[32768] != 1630477228166597777
        || tables[65536] != 1152921504606846976 || tables[98304] != 815238614083298888)
        return 1;

    EXPECT_REPLY(raw64(PLATE_RECIPROCAL, 6755399441055744, 0, PLATE_TABLES), 0, 0, 768614336404564650);
    EXPECT_REPLY(raw64(PLATE_ROOT, 4503599627370496, 1, PLATE_TABLES), 0, 0, 1630477228166597777);
    EXPECT_REPLY(raw64(PLATE_INVERSE_ROOT, 4503599627370496, 1, PLATE_TABLES), 0, 0, 815238614083298888);
    EXPECT_REPLY(raw64(4, 0, 2, 0), 1, 0, 0);
    EXPECT_REPLY(raw64(PLATE_ROOT, 4503599627370495, 2, 0), 3, 0, 0);
    EXPECT_REPLY(raw64(PLATE_ROOT, 9007199254740992, 0, PLATE_TABLES), 3, 0, 0);
    EXPECT_REPLY(raw64(PLATE_RECIPROCAL, 4503599627370496, 1, 0), 4, 0, 0);
    EXPECT_REPLY(raw64(PLATE_ROOT, 4503599627370496, 2, 0), 4, 0, 0);
    EXPECT_REPLY(raw64(PLATE_ROOT, 4503599627370496, 0, PLATE_TABLES - 1), 15, 0, 0);
    EXPECT_REPLY(raw64(PLATE_ROOT, 4503599627370496, 0, PLATE_TABLES + 1), 15, 0, 0);

    /* The other bits of the status given are dropped by an accepted call. */
    for (k = 0; k < sizeof rows / sizeof *rows; k++)
        for (rounding = PLATE_NEAREST; rounding <= PLATE_TOWARD_ZERO; rounding++)
            EXPECT_REPLY(plate_binary64(rows[k].operation, rounding, 224 | PLATE_INVALID, rows[k].bits, tables, PLATE_TABLES),
                         0, PLATE_INVALID | rows[k].flags, rows[k].answers[rounding]);
    EXPECT_REPLY(plate_binary64(0, 9, 255, two, tables, 0), 1, 255, 0);
    EXPECT_REPLY(plate_binary64(PLATE_ROOT, 9, 255, two, tables, PLATE_TABLES - 1), 2, 255, 0);
    EXPECT_REPLY(plate_binary64(PLATE_ROOT, PLATE_DOWN, 255, two, tables, PLATE_TABLES - 1), 15, 255, 0);
    EXPECT_REPLY(plate_binary64(PLATE_ROOT, PLATE_DOWN, 32, nan | 1, tables, 0), 15, 32, 0);

    /* One number spoilt: that of the root of 2 Y for Y from 1 up. It is missed only where it is used; a reciprocal uses none. */
    entry = tables[32768];
    tables[32768] = entry + 1;
    EXPECT_REPLY(raw64(PLATE_ROOT, 4503599627370496, 1, PLATE_TABLES), 16, 0, 0);
    EXPECT_REPLY(raw64(PLATE_ROOT, 4503599627370496 + 137438953471, 1, PLATE_TABLES), 16, 0, 0);
    EXPECT_REPLY(raw64(PLATE_ROOT, 4503599627370496, 1, PLATE_TABLES - 1), 15, 0, 0);
    EXPECT_REPLY(raw64(PLATE_ROOT, 4503599627370496, 0, PLATE_TABLES), 0, 0, 1152921504606846976);
    EXPECT_REPLY(raw64(PLATE_INVERSE_ROOT, 4503599627370496, 1, PLATE_TABLES), 0, 0, 815238614083298888);
    EXPECT_REPLY(plate_binary64(PLATE_ROOT, PLATE_NEAREST, 1, two, tables, PLATE_TABLES), 16, 1, 0);
    EXPECT_REPLY(plate_binary64(PLATE_ROOT, PLATE_NEAREST, 1, 2, tables, PLATE_TABLES), 16, 1, 0);
    EXPECT_REPLY(plate_binary64(PLATE_ROOT, PLATE_NEAREST, 0, 1, tables, PLATE_TABLES), 0, 0, 0x1E60000000000000);
    EXPECT_REPLY(plate_binary64(PLATE_INVERSE_ROOT, PLATE_UP, 0, 2, tables, PLATE_TABLES), 0, PLATE_INEXACT, 0x6176A09E667F3BCD);
    EXPECT_REPLY(plate_binary64(PLATE_RECIPROCAL, PLATE_UP, 0, two, tables, 0), 0, 0, 0x3FE0000000000000);
    tables[32768] = entry;
    EXPECT_REPLY(raw64(PLATE_ROOT, 4503599627370496, 1, PLATE_TABLES), 0, 0, 1630477228166597777);
    return 0;
}

/* Document 01's example: 3 x 3, each row 0, 1,500 and 3,000 high, step 2,000, radius 5,000. */
static const uint8_t map[52] = {
    0, 0, 0, 0, 0xDC, 0x05, 0, 0, 0xB8, 0x0B, 0, 0,
    0, 0, 0, 0, 0xDC, 0x05, 0, 0, 0xB8, 0x0B, 0, 0,
    0, 0, 0, 0, 0xDC, 0x05, 0, 0, 0xB8, 0x0B, 0, 0,
    'P', 'L', 'T', '1', 36, 0, 0, 0, 3, 0, 3, 0, 0xD0, 0x07, 0x88, 0x13,
};

/* One record, -1000 2000 5500, and the trailer up to the rounding. The offsets are
   whole, so every rounding has this record, and nothing lifts it. */
static const uint8_t list[28] = {
    0x18, 0xFC, 0xFF, 0xFF, 0xD0, 0x07, 0, 0, 0x7C, 0x15, 0, 0,
    'C', 'U', 'T', '2', 12, 0, 0, 0, 3, 0, 3, 0, 0xD0, 0x07, 0x88, 0x13,
};

/* The same as document 01 writes it. */
static const uint8_t old[28] = {
    0x18, 0xFC, 0xFF, 0xFF, 0xD0, 0x07, 0, 0, 0x7C, 0x15, 0, 0,
    'C', 'U', 'T', '1', 12, 0, 0, 0, 3, 0, 3, 0, 0xD0, 0x07, 0x88, 0x13,
};

/* 4 x 3, rounding 2: no two of its numbers are equal, and its second record has both ends of them, which no map yields. */
static const uint8_t apart[42] = {
    0, 0, 0, 0, 0, 0, 0, 0, 0, 0, 0, 0,
    0, 0, 0, 0x80, 0xFF, 0xFF, 0xFF, 0x7F, 0xFF, 0xFF, 0xFF, 0xFF,
    'C', 'U', 'T', '2', 24, 0, 0, 0, 4, 0, 3, 0, 0xD0, 0x07, 0x88, 0x13, 2, 0,
};

/* 3 x 3, flat but for the left height, which is 1; step 1, radius 3. To nearest, x is 2
   and z 3, and the left height, at 2, asks for 1 plus the root of 5. */
static const uint8_t lifting[52] = {
    0, 0, 0, 0, 0, 0, 0, 0, 0, 0, 0, 0,
    1, 0, 0, 0, 0, 0, 0, 0, 0, 0, 0, 0,
    0, 0, 0, 0, 0, 0, 0, 0, 0, 0, 0, 0,
    'P', 'L', 'T', '1', 36, 0, 0, 0, 3, 0, 3, 0, 1, 0, 3, 0,
};

typedef uint64_t list_call(uint8_t rounding, const uint8_t *map, size_t map_length,
                           uint8_t *list, size_t list_length);

static list_call *const list_calls[2] = {plate_list, plate_lifted_list};

int main(void)
{
    uint8_t buffer[31];
    uint8_t rounding;
    int k;

    /* The reply keeps its length and its older places. */
    if (sizeof(struct plate_record_reply) != 32 || offsetof(struct plate_record_reply, rounding) != 1
        || offsetof(struct plate_record_reply, width) != 4 || offsetof(struct plate_record_reply, z) != 28
        || PLATE_ROUNDING_UNKNOWN != 255 || header_differs())
        return 1;

    EXPECT(plate_raw(PLATE_RECIPROCAL, 12582912, 0), 178956970, 0, 0);
    EXPECT(plate_raw(PLATE_ROOT, 8388608, 1), 379625062, 0, 0);
    EXPECT(plate_raw(PLATE_RECIPROCAL, 8388608, 1), 0, 0, 4);

    EXPECT(plate_binary32(PLATE_RECIPROCAL, PLATE_DOWN, PLATE_INVALID, 0x40400000), 0x3EAAAAAA, PLATE_INVALID | PLATE_INEXACT, 0);
    EXPECT(plate_binary32(PLATE_RECIPROCAL, PLATE_UP, 0, 0x00200000), 0x7F800000, PLATE_OVERFLOW | PLATE_INEXACT, 0);
    EXPECT(plate_binary32(PLATE_INVERSE_ROOT, PLATE_NEAREST, 0, 0x40800000), 0x3F000000, 0, 0);
    EXPECT(plate_binary32(PLATE_ROOT, 4, 255, 0x40000000), 0, 255, 2);

    if (width_lost(0.1f) || width_lost(0x1p-63f) || width_lost(0x1.fffffep63f) || !width_lost(0x1p64f))
        return 1;

    if (binary64_calls() != 0)
        return 1;

    for (k = 0; k < 2; k++) {
        list_call *call = list_calls[k];

        memset(buffer, 0xAA, sizeof buffer);
        EXPECT(call(PLATE_NEAREST, map, sizeof map, buffer, 29), 0, 0, 11);
        EXPECT(call(PLATE_NEAREST, map, sizeof map, buffer, 28), 0, 0, 11);
        EXPECT(call(PLATE_NEAREST, map, 15, buffer, sizeof buffer), 0, 0, 5);
        EXPECT(call(4, map, sizeof map, buffer, sizeof buffer), 0, 0, 2);
        if (buffer[0] != 0xAA || buffer[28] != 0xAA || buffer[29] != 0xAA)
            return 1;

        /* x is negative. The buffer's last byte is not of the list. */
        for (rounding = PLATE_NEAREST; rounding <= PLATE_TOWARD_ZERO; rounding++) {
            EXPECT(call(rounding, map, sizeof map, buffer, sizeof buffer), 30, 0, 0);
            if (memcmp(buffer, list, sizeof list) != 0 || buffer[28] != rounding || buffer[29] != 0 || buffer[30] != 0xAA)
                return 1;
            EXPECT_RECORD(plate_record(buffer, 30, 0), 0, rounding, 3, 3, 2000, 5000, -1000, 2000, 5500);
        }

        EXPECT(call(PLATE_NEAREST, lifting, sizeof lifting, buffer, sizeof buffer), 30, 0, 0);
        EXPECT_RECORD(plate_record(buffer, 30, 0), 0, PLATE_NEAREST, 3, 3, 1, 3, 2, 1, k == 0 ? 3 : 4);
    }
    EXPECT(plate_list(PLATE_UP, map, sizeof map, buffer, 30), 30, 0, 0);
    EXPECT_REFUSED(plate_record(buffer, 30, 1), 14);
    EXPECT_REFUSED(plate_record(buffer, 30, (size_t)-1), 14);
    EXPECT_REFUSED(plate_record(buffer, 31, 0), 12);
    EXPECT_REFUSED(plate_record(buffer, 28, 0), 12);
    EXPECT_REFUSED(plate_record(map, sizeof map, 0), 12);
    EXPECT_REFUSED(plate_record(buffer, 15, 0), 5);
    EXPECT_REFUSED(plate_record(buffer + 1, 29, 0), 13);
    if (memcmp(buffer, list, sizeof list) != 0 || buffer[28] != PLATE_UP || buffer[29] != 0 || buffer[30] != 0xAA)
        return 1;

    /* The rounding has 16 bits: 4, then 256. Question 2 is between 13 and 14. */
    buffer[28] = 4;
    EXPECT_REFUSED(plate_record(buffer, 30, 0), 2);
    EXPECT_REFUSED(plate_record(buffer, 30, 1), 2);
    EXPECT_REFUSED(plate_record(buffer + 1, 29, 0), 13);
    buffer[28] = 0;
    buffer[29] = 1;
    EXPECT_REFUSED(plate_record(buffer, 30, 0), 2);

    EXPECT_RECORD(plate_record(old, sizeof old, 0), 0, PLATE_ROUNDING_UNKNOWN, 3, 3, 2000, 5000, -1000, 2000, 5500);
    EXPECT_REFUSED(plate_record(old, sizeof old, 1), 14);
    EXPECT_REFUSED(plate_record(old + 1, sizeof old - 1, 0), 13);

    EXPECT_RECORD(plate_record(apart, sizeof apart, 1), 0, PLATE_DOWN, 4, 3, 2000, 5000, INT32_MIN, INT32_MAX, -1);
    return 0;
}
