/* Makes one kind of call so many times, for bench/instructions, which counts what a call takes. */
#include <stdint.h>
#include <stdio.h>
#include <stdlib.h>
#include <string.h>

#include "plate.h"

enum { OPERANDS = 4096, SIDE = 64 };

static uint64_t numbers[OPERANDS];
static uint64_t tables[PLATE_TABLES];
static uint8_t map[PLATE_LONGEST_MAP];
static uint8_t list[PLATE_LONGEST_LIST];
static uint64_t sum;

/* a fixed sequence of 64-bit numbers */
static uint64_t next(void) {
  static uint64_t state = 88172645463325252u;
  state ^= state << 13;
  state ^= state >> 7;
  state ^= state << 17;
  return state;
}

static void put(uint8_t *at, uint32_t x, int bytes) {
  for (int n = 0; n < bytes; n++)
    at[n] = (uint8_t)(x >> 8 * n);
}

/* an arch with a fine grain, 64 by 64, step and radius 6,000 micrometres */
static void make_map(void) {
  for (int row = 0; row < SIDE; row++)
    for (int column = 0; column < SIDE; column++) {
      int x = column - 32, y = row - 32;
      int32_t height = 20000 - 9 * (x * x + y * y) + (int32_t)(next() % 64);
      put(map + 4 * (row * SIDE + column), (uint32_t)height, 4);
    }
  uint8_t *end = map + 4 * SIDE * SIDE;
  memcpy(end, "PLT1", 4);
  put(end + 4, 4 * SIDE * SIDE, 4);
  put(end + 8, SIDE, 2);
  put(end + 10, SIDE, 2);
  put(end + 12, 6000, 2);
  put(end + 14, 6000, 2);
}

static int is(const char *word, const char *other) { return strcmp(word, other) == 0; }

int main(int count_of_words, char **words) {
  if (count_of_words != 5)
    return 2;
  const char *call = words[1];
  uint8_t operation = (uint8_t)atoi(words[2]);
  uint8_t rounding = (uint8_t)atoi(words[3]);
  long calls = atol(words[4]);
  int wide = is(call, "raw64") || is(call, "binary64");
  for (int n = 0; n < OPERANDS; n++)
    numbers[n] = next();
  if (wide && plate_fill_tables(tables, PLATE_TABLES) != 0)
    return 2;
  if (is(call, "list") || is(call, "lifted_list") || is(call, "record"))
    make_map();
  if (is(call, "record") && plate_list(rounding, map, sizeof map, list, sizeof list) >> 40 != 0)
    return 2;
  for (long n = 0; n < calls; n++) {
    uint64_t x = numbers[n % OPERANDS];
    uint8_t parity = operation == 1 ? 0 : x >> 63;
    if (is(call, "raw"))
      sum += plate_raw(operation, 0x800000 | (x & 0x7FFFFF), parity);
    else if (is(call, "raw64"))
      sum += plate_raw64(operation, UINT64_C(1) << 52 | x >> 12, parity, tables, PLATE_TABLES).answer;
    else if (is(call, "binary32"))
      sum += plate_binary32(operation, rounding, 0, 0x20000000 | (x & 0x3FFFFFFF));
    else if (is(call, "binary64"))
      sum += plate_binary64(operation, rounding, 0, UINT64_C(1) << 61 | x >> 2, tables, PLATE_TABLES).bits;
    else if (is(call, "fill_tables"))
      sum += plate_fill_tables(tables, PLATE_TABLES);
    else if (is(call, "list"))
      sum += plate_list(rounding, map, sizeof map, list, sizeof list);
    else if (is(call, "lifted_list"))
      sum += plate_lifted_list(rounding, map, sizeof map, list, sizeof list);
    else if (is(call, "record"))
      sum += plate_record(list, sizeof list, x % 3844).z;
    else
      return 2;
  }
  printf("%llu\n", (unsigned long long)sum);
  return 0;
}
