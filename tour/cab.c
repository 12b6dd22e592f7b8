/* The three calls for C on a stored file: its leaves, its volume in voxels, and neighbour cells. include/cab.h says how to link it; then
 *   ./cab FILE
 * The status is 0 where the file is sound and its list good, 1 where it is refused, 2 where it cannot be read. */
#include "cab.h"

#include <inttypes.h>
#include <stdio.h>

/* 128 blocks, and one byte by which a longer file is known */
static uint8_t file[128 * 512 + 1];

static const char *meaning(uint32_t number) {
  switch (number) {
  case CAB_DEPTH: return "the depth is above 10";
  case CAB_LEAF_NOT_PROPER: return "a code is not proper";
  case CAB_LEAF_EARLY: return "a leaf is out of order";
  case CAB_EIGHT_SIBLINGS: return "eight siblings are not one cell";
  case CAB_ARGUMENT: return "no cell or no direction";
  case CAB_OUTSIDE: return "outside the root cube";
  case CAB_BAD_BLOCK: return "a bad block";
  default: return "success";
  }
}

/* prints what was asked and, of a refusal, why and where; tells whether the call succeeded */
static int answered(const char *asked, uint64_t answer) {
  uint32_t number = CAB_NUMBER(answer);
  printf("%s: ", asked);
  if (number != CAB_OK)
    printf("refused %" PRIu32 ", %s, place %" PRIu32 "\n", number, meaning(number), CAB_PLACE(answer));
  return number == CAB_OK;
}

/* r and the labels of a code, three bits each, outermost first */
static void print_path(uint32_t code) {
  int level = 10;
  while (level > 0 && code >> (3 * level) == 0)
    level--;
  putchar('r');
  while (level-- > 0)
    putchar('0' + (int)(code >> (3 * level) & 7));
}

static void neighbour(const char *asked, uint32_t depth, uint32_t code, int32_t dx, int32_t dy, int32_t dz) {
  uint64_t answer = cab_neighbour(depth, code, dx, dy, dz);
  if (answered(asked, answer)) {
    print_path(CAB_PLACE(answer));
    printf(", code %" PRIu32 "\n", CAB_PLACE(answer));
  }
}

int main(int argc, char **argv) {
  FILE *in = argc == 2 ? fopen(argv[1], "rb") : NULL;
  size_t len = in ? fread(file, 1, sizeof file, in) : 0;
  if (!in || ferror(in) || len == sizeof file) {
    fprintf(stderr, "cab FILE: a file that can be read, of at most %zu bytes\n", sizeof file - 1);
    return 2;
  }
  fclose(in);

  uint64_t leaves = cab_check_blocks(file, len), volume = cab_stored_volume(file, len);
  if (answered("leaves", leaves))
    printf("%" PRIu32 "\n", CAB_PLACE(leaves));
  if (answered("volume", volume))
    printf("%" PRIu32 " voxels\n", CAB_PLACE(volume));
  neighbour("north of r057", 3, 559, 0, 1, 0);
  neighbour("west of r0", 3, 8, -1, 0, 0);
  return CAB_NUMBER(volume) != CAB_OK;
}
