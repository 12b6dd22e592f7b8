/* Uses the C controller's calls as a controller would, and compares good and refused answers. The last line is 'N passed, M failed'. */
#include "cab.h"

#include <inttypes.h>
#include <stdio.h>
#include <string.h>

static int passed, failed;

static void same(const char *what, uint64_t got, uint32_t number, uint32_t place) {
  if (CAB_NUMBER(got) == number && CAB_PLACE(got) == place) {
    passed++;
    return;
  }
  failed++;
  printf("FAILED %s: got %" PRIu32 " %" PRIu32 ", should be %" PRIu32 " %" PRIu32 "\n", what, CAB_NUMBER(got), CAB_PLACE(got), number, place);
}

/* ---- a stored file of up to two blocks, written word by word as the format says */

#define BLOCK 512

static uint8_t file[2 * BLOCK + 1];

static void put(size_t block, size_t word, uint32_t x) {
  for (size_t k = 0; k < 4; k++)
    file[BLOCK * block + 4 * word + k] = (uint8_t)(x >> (8 * k));
}

static uint32_t get(size_t block, size_t word) {
  uint32_t x = 0;
  for (size_t k = 0; k < 4; k++)
    x |= (uint32_t)file[BLOCK * block + 4 * word + k] << (8 * k);
  return x;
}

/* words 126 and 127 */
static void seal(size_t block) {
  uint32_t a = 1, b = 0;
  for (size_t w = 0; w < 126; w++) {
    a += get(block, w);
    b += a;
  }
  put(block, 126, a);
  put(block, 127, b);
}

/* a list of n codes at a depth; tells the file's length */
static size_t store(uint32_t depth, const uint32_t *codes, size_t n) {
  size_t blocks = n <= 122 ? 1 : 2;
  memset(file, 0, sizeof file);
  for (size_t i = 0; i < blocks; i++) {
    size_t held = n - 122 * i < 122 ? n - 122 * i : 122;
    put(i, 0, (uint32_t)i);
    put(i, 1, (uint32_t)blocks);
    put(i, 2, depth);
    put(i, 3, (uint32_t)held);
    for (size_t j = 0; j < held; j++)
      put(i, 4 + j, codes[122 * i + j]);
    seal(i);
  }
  return BLOCK * blocks;
}

/* both calls on the file's first len bytes */
static void both(const char *what, size_t len, uint32_t checked, uint32_t held, uint32_t measured, uint32_t volume) {
  same(what, cab_check_blocks(file, len), checked, held);
  same(what, cab_stored_volume(file, len), measured, volume);
}

/* the names of cab.h are the numbers of document 01 */
static void names(void) {
  const uint32_t named[] = {CAB_OK, CAB_DEPTH, CAB_LEAF_NOT_PROPER, CAB_LEAF_EARLY, CAB_EIGHT_SIBLINGS, CAB_ARGUMENT, CAB_OUTSIDE, CAB_BAD_BLOCK};
  const uint32_t numbers[] = {0, 1, 2, 3, 4, 6, 7, 9};
  for (size_t i = 0; i < sizeof numbers / sizeof *numbers; i++)
    same("a name", named[i], 0, numbers[i]);
}

static void neighbours(void) {
  same("r742 by (-1, +1, +1)", cab_neighbour(3, 994, -1, 1, 1), 0, 957);
  same("r0 by x - 1", cab_neighbour(3, 8, -1, 0, 0), 7, 0);
  same("a depth above 10", cab_neighbour(11, 8, 1, 0, 0), 1, 0);
  same("no proper code", cab_neighbour(3, 2, 1, 0, 0), 6, 0);
  same("no step", cab_neighbour(3, 8, 0, 0, 0), 6, 1);
  same("a step too far", cab_neighbour(3, 8, INT32_MIN, 0, 0), 6, 1);
  same("the last code of depth 10", cab_neighbour(10, 2147483647, -1, -1, -1), 0, 2147483640);
}

static void stored(void) {
  uint32_t many[130];
  const uint32_t one[] = {559}, root[] = {1}, bad[] = {559, 2}, twice[] = {559, 559}, eight[] = {8, 9, 10, 11, 12, 13, 14, 15};
  size_t len = store(3, one, 1);
  both("[r057]", len, 0, 1, 0, 1);
  same("A", get(0, 126), 0, 565);
  same("B", get(0, 127), 0, 68944);
  both("a byte too few", len - 1, 9, 0, 9, 0);
  both("a byte too many", len + 1, 9, 1, 9, 1);
  both("the file in two blocks' length", 2 * len, 9, 0, 9, 0);
  file[100] ^= 1;
  both("an unused word", len, 9, 0, 9, 0);
  both("the empty list", store(3, one, 0), 0, 0, 0, 0);
  both("the root at depth 10", store(10, root, 1), 0, 1, 0, 1073741824);
  both("a depth above 10", store(11, root, 1), 9, 0, 9, 0);
  both("no proper code", store(3, bad, 2), 0, 2, 2, 1);
  both("a leaf twice", store(3, twice, 2), 0, 2, 3, 1);
  both("eight siblings", store(3, eight, 8), 0, 8, 4, 7);
  /* voxels 0, 2, 4, .. of depth 3, over two blocks */
  for (uint32_t j = 0; j < 130; j++)
    many[j] = 512 + 2 * j;
  len = store(3, many, 130);
  both("130 leaves", len, 0, 130, 0, 130);
  both("the first block alone", BLOCK, 9, 0, 9, 0);
  put(1, 0, 0);
  seal(1);
  both("a second block that says it is the first", len, 9, 1, 9, 1);
  many[125] = 7;
  both("a bad code in the second block", store(3, many, 130), 0, 130, 2, 125);
  same("no bytes: the block check", cab_check_blocks(NULL, 0), 9, 0);
  same("no bytes: the volume", cab_stored_volume(NULL, 0), 9, 0);
}

int main(void) {
  names();
  neighbours();
  stored();
  printf("%d passed, %d failed\n", passed, failed);
  return failed != 0;
}
