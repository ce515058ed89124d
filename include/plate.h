/* The plate unit: reciprocal, root and inverse root of a significand, of a binary32
   and of a binary64 number, and the list of centres that a ball cutter follows over
   a height map. For x86-64 under Linux, from C99 on and from C++.

   Every call
   - takes every value of its numbers and checks them itself; what it cannot take
     gets a refusal, one of the numbers PLATE_REFUSED_... below, and never relies on
     an earlier call;
   - allocates nothing, keeps nothing between calls, and may be made by any thread at
     any time, as long as no other writes to what is lent to it;
   - neither reads nor changes the machine's rounding mode or its flags.

   Bytes that are lent, maps and lists, may have any alignment; only the tables of
   binary64 are aligned as a uint64_t. A pointer spans the length given with it, and
   is not null, even where that is 0: pass the address of any byte instead. What a
   call writes does not overlap what it reads.

   An operation, a rounding, a parity and a status are bytes. C converts a wider
   argument to a byte without a word: 257 becomes 1, and the call never sees that it
   was something else. Check wider numbers before you pass them.

   Link with -lplate, or `pkg-config --cflags --libs plate`. */
#ifndef PLATE_H
#define PLATE_H

#include <stddef.h>
#include <stdint.h>

#ifdef __cplusplus
extern "C" {
#endif

/* The version of this header and of the library beside it. */
#define PLATE_VERSION "0.9.0"

/* Operations */
#define PLATE_RECIPROCAL 1   /* 1 / Y */
#define PLATE_ROOT 2         /* the square root of Y */
#define PLATE_INVERSE_ROOT 3 /* 1 over the square root of Y */

/* Roundings */
#define PLATE_NEAREST 0     /* to the nearest, of two that are as near the even one */
#define PLATE_UP 1          /* toward plus infinity */
#define PLATE_DOWN 2        /* toward minus infinity */
#define PLATE_TOWARD_ZERO 3

/* What plate_record tells of a list that does not say its rounding. No call takes it
   for a rounding. */
#define PLATE_ROUNDING_UNKNOWN 255

/* Flags of a status, as IEEE 754 has them. A status is the sum of the flags raised so
   far: a call adds its own to the status that it is given, and none takes one away.
   Begin with 0. Bits of no flag come back as 0, and after a refusal as they were. */
#define PLATE_INVALID 1          /* a root of a negative number, or a signalling NaN */
#define PLATE_DIVISION_BY_ZERO 2 /* reciprocal or inverse root of 0 */
#define PLATE_OVERFLOW 4         /* the result is beyond the greatest finite number */
#define PLATE_UNDERFLOW 8        /* inexact, and below the least normal number */
#define PLATE_INEXACT 16         /* the answer is not the exact result */

/* Refusals. A call asks the questions that concern it in the order that its comment
   gives, and the first that is answered "no" is its refusal. */
#define PLATE_ACCEPTED 0
#define PLATE_REFUSED_OPERATION 1
#define PLATE_REFUSED_ROUNDING 2
#define PLATE_REFUSED_SIGNIFICAND 3
#define PLATE_REFUSED_PARITY 4
#define PLATE_REFUSED_TOO_SHORT 5
#define PLATE_REFUSED_MAP_LETTERS 6
#define PLATE_REFUSED_COLUMNS_ROWS 7
#define PLATE_REFUSED_STEP_RADIUS 8
#define PLATE_REFUSED_MAP_LENGTH 9
#define PLATE_REFUSED_HEIGHT 10
#define PLATE_REFUSED_BUFFER 11
#define PLATE_REFUSED_LIST_LETTERS 12
#define PLATE_REFUSED_LIST_LENGTH 13
#define PLATE_REFUSED_INDEX 14
#define PLATE_REFUSED_TABLES 15
#define PLATE_REFUSED_ENTRY 16

/* A refusal in words. */
static inline const char *plate_refusal_words(uint8_t refusal)
{
  switch (refusal) {
  case PLATE_ACCEPTED:
    return "accepted";
  case PLATE_REFUSED_OPERATION:
    return "the operation is not 1, 2 or 3";
  case PLATE_REFUSED_ROUNDING:
    return "the rounding is not 0, 1, 2 or 3";
  case PLATE_REFUSED_SIGNIFICAND:
    return "the significand has not 24 bits, for binary64 53, with the highest one set";
  case PLATE_REFUSED_PARITY:
    return "the parity is not 0, nor 1 with a root or an inverse root";
  case PLATE_REFUSED_TOO_SHORT:
    return "there are fewer than 16 bytes";
  case PLATE_REFUSED_MAP_LETTERS:
    return "the letters at the end are not PLT1";
  case PLATE_REFUSED_COLUMNS_ROWS:
    return "the columns or the rows are not 3 to 64";
  case PLATE_REFUSED_STEP_RADIUS:
    return "the step is not 1 to 10,000 micrometres, or the radius not 1 to 12,500";
  case PLATE_REFUSED_MAP_LENGTH:
    return "the map's distance back or its length is not that of its columns and rows";
  case PLATE_REFUSED_HEIGHT:
    return "a height is not from -50,000 to 50,000 micrometres";
  case PLATE_REFUSED_BUFFER:
    return "the lent buffer is shorter than the list";
  case PLATE_REFUSED_LIST_LETTERS:
    return "the letters at the end are neither CUT1 nor CUT2";
  case PLATE_REFUSED_LIST_LENGTH:
    return "the list's distance back or its length is not that of its columns and rows";
  case PLATE_REFUSED_INDEX:
    return "the index is not below the number of records";
  case PLATE_REFUSED_TABLES:
    return "the lent tables are not 131,072 numbers";
  case PLATE_REFUSED_ENTRY:
    return "the number that is used of the lent tables is not the one filled in";
  }
  return "no refusal of this version";
}

/* plate_raw, plate_binary32 and the two list calls give one 64-bit number:

     bits  0 to 31   the answer, or the list's length in bytes; 0 after a refusal
     bits 32 to 39   the new status; 0 for the raw and the list calls
     bits 40 to 47   the refusal, 0 if the call was accepted
     bits 48 to 63   0

   These take it apart. */
static inline uint32_t plate_answer(uint64_t given)
{
  return given & 0xFFFFFFFFu;
}

static inline uint8_t plate_status(uint64_t given)
{
  return given >> 32 & 0xFFu;
}

static inline uint8_t plate_refusal(uint64_t given)
{
  return given >> 40 & 0xFFu;
}

/* The same under their older names. */
#define PLATE_ANSWER(given) plate_answer(given)
#define PLATE_STATUS(given) plate_status(given)
#define PLATE_REFUSAL(given) plate_refusal(given)

/* ---- One operation on a significand ---------------------------------------------

   A positive number is Y times a power of two, with Y from 1 to below 2. Its
   significand is the whole number that stands for Y: y / 2^23 for the y of 24 bits,
   from 8,388,608 to 16,777,215. A root halves the exponent of the power of two, so
   an odd exponent leaves a factor 2 with Y: the parity is 0 where the exponent is
   even and 1 where it is odd, and with 1 both roots are those of 2 Y. The reciprocal
   takes parity 0 alone. */

/* The raw answer g stands for g / 2^28. It is what a small table, a short series and
   one product give, not rounded, and lies less than 12 (reciprocal) or 7 (both
   roots) units of 1 / 2^28 from the exact value. Refusals: 1, 3, 4. */
uint64_t plate_raw(uint8_t operation, uint32_t significand, uint8_t parity);

/* ---- One operation on a binary32 number ------------------------------------------ */

/* Correctly rounded, by the bits of the operand and of the answer. status holds the
   flags so far. A NaN gives the NaN 0x7FC00000. Refusals: 1, 2; after one the status
   is the one given. A number from 2^-63 to below 2^64 comes back: its product with
   itself, to the nearest, has it as its root to the nearest. */
uint64_t plate_binary32(uint8_t operation, uint8_t rounding, uint8_t status,
                        uint32_t bits);

/* ---- The same with 53 bits and for binary64 --------------------------------------- */

/* How many numbers the tables of the roots of plate_raw64 and plate_binary64 hold,
   1 MiB in all: 32,768 each for the root with parity 0 and 1, then for the inverse
   root with parity 0 and 1. */
#define PLATE_TABLES 131072

/* Fills tables that the caller lends, PLATE_TABLES numbers. Filled once, they may
   be lent to any number of calls, which only read them. Gives 0, or the refusal 15
   if entries is not PLATE_TABLES; then every number is kept. */
uint8_t plate_fill_tables(uint64_t *tables, size_t entries);

/* What plate_raw64 gives: refusal 0 and the answer, or a refusal and 0. */
struct plate_raw64_reply {
  uint8_t refusal;
  uint64_t answer;
};

/* The raw unit for binary64. A significand y of 53 bits, from 2^52 to 2^53 - 1,
   stands for y / 2^52; parity as for plate_raw. An answer g stands for g / 2^60, and
   is less than 12 (reciprocal) or 7 (both roots) of these units from the exact value.
   Refusals: 1, 3, 4; for both roots then 15, if entries is not PLATE_TABLES, and last
   16, if the number in the tables that the call uses is not the one that
   plate_fill_tables writes there. That is number
   (2 (operation - 2) + parity) 32768 + significand / 2^37 - 32768, counted from 0;
   the others are not looked at. The reciprocal looks at none, and takes any entries,
   0 too. */
struct plate_raw64_reply plate_raw64(uint8_t operation, uint64_t significand,
                                     uint8_t parity, const uint64_t *tables,
                                     size_t entries);

/* What plate_binary64 gives: refusal 0, the new status and the answer's bits; or a
   refusal, the status given, and 0. */
struct plate_binary64_reply {
  uint8_t refusal;
  uint8_t status;
  uint64_t bits;
};

/* As plate_binary32, with the NaN 0x7FF8000000000000. Refusals: 1, 2; for both roots
   then 15 and 16, as plate_raw64 asks them of the operand's significand and parity.
   A zero, an infinity, a NaN and a negative operand use no number of the tables:
   they are refused with 15, but not with 16. The reciprocal takes any entries. */
struct plate_binary64_reply plate_binary64(uint8_t operation, uint8_t rounding,
                                           uint8_t status, uint64_t bits,
                                           const uint64_t *tables,
                                           size_t entries);

/* ---- From a map to a list ---------------------------------------------------------

   All fields are little-endian. A map is w columns by d rows of heights, row by row,
   4 bytes signed each, in micrometres: column c and row q, counted from 0, stand at
   x = c step, y = q step. Behind them stand 16 bytes:

     4      the letters PLT1
     4      the distance back from these letters to the first height, 4 w d
     2, 2   w and d, 3 to 64 each
     2, 2   the step, 1 to 10,000, and the cutter's radius, 1 to 12,500, in micrometres

   A list has a record for each point that is not on the map's border, row by row: x,
   y and z of the cutter's centre, 4 bytes signed each, in micrometres. Behind them
   stand 18 bytes: CUT2, the distance back 12 (w - 2) (d - 2), the map's w, d, step and
   radius, and in 2 bytes the rounding that made the list. Older lists have 16 bytes
   with the letters CUT1 there, and do not say their rounding. */
#define PLATE_LONGEST_MAP 16400
#define PLATE_LIST_LENGTH(w, d) (12 * ((w) - 2) * ((d) - 2) + 18)
#define PLATE_LONGEST_LIST PLATE_LIST_LENGTH(64, 64)

/* The list of a map. Each centre is its map point plus the offset along the surface's
   normal, radius long, of which each coordinate is rounded once. The map is only
   read. After an accepted call the list stands at the front of the lent buffer, its
   length, PLATE_LIST_LENGTH(w, d), is the answer, and the bytes behind it are kept;
   after a refusal the whole buffer is. Refusals: 2, 5 to 11. Of one map, the list
   rounded down and the list rounded up are a bracket: where two numbers of them
   differ, the upper is larger by one micrometre. */
uint64_t plate_list(uint8_t rounding, const uint8_t *map, size_t map_length,
                    uint8_t *list, size_t list_length);

/* The same list with each centre lifted until the ball keeps off its neighbours.
   x and y are those of plate_list in the same rounding. z is the least whole
   number that is not below plate_list's z and, for each of the nine heights round
   the point (its own too) whose level distance from x and y is below the radius,
   at least that height plus the root of radius^2 - distance^2: always up, whatever
   the rounding. Length, format and refusals are those of plate_list. A list does not
   say whether it is lifted. Lifted lists of two roundings are not a bracket: the lower
   z may lie above the upper. */
uint64_t plate_lifted_list(uint8_t rounding, const uint8_t *map,
                           size_t map_length, uint8_t *list,
                           size_t list_length);

/* ---- A list read back -------------------------------------------------------------- */

/* What plate_record gives: refusal 0 with the rounding and the sizes that the list's
   last bytes state and the coordinates of one record; or a refusal,
   PLATE_ROUNDING_UNKNOWN, and 0 in every other place. A list that ends in CUT2 says
   its rounding, 0 to 3; the rounding of one that ends in CUT1 is
   PLATE_ROUNDING_UNKNOWN. Width and depth are the map's columns and rows; the numbers
   from step on are micrometres. */
struct plate_record_reply {
  uint8_t refusal;
  uint8_t rounding;
  uint32_t width;
  uint32_t depth;
  uint32_t step;
  uint32_t radius;
  int32_t x;
  int32_t y;
  int32_t z;
};

/* Reads a list back: its rounding, its sizes, and its record at an index, which counts
   from 0, row by row, to below (w - 2) (d - 2). The list is only read. Its length is
   the list's own, as the list call reported it, not that of the buffer that holds it.
   Refusals: 5, 12, 7, 8, 13, 2 and 14, in this order. */
struct plate_record_reply plate_record(const uint8_t *list, size_t list_length,
                                       size_t index);

#ifdef __cplusplus
}
#endif

#endif
