/* The calls of the cut-volume layer for the C controller in the cab (archive libcab.a).
 *
 * `tools/archives` proves the calls and makes the archive, target/staticlib/libcab.a, for x86-64. It needs no other library. A program is linked by
 *
 *   gcc -O2 -Iinclude prog.c target/staticlib/libcab.a -o prog
 *
 * and tour/cab.c is such a program, a page long.
 *
 * Each call returns number * 2^32 + place. A number 0 is success; any other says why the call was refused. A place above 2^32 - 1 is given as 2^32 - 1.
 * No call allocates, writes memory or keeps a pointer, and each takes every input: nothing has to be tested before.
 *
 * AXES. A code is a one bit and then three bits for each label, outermost first. A label has 1 added for the eastern half of the cell around it (x), 2 for the
 * northern half (y) and 4 for the upper half (z). So r057 at depth 3, a root of 8 by 8 by 8 voxels, is the code 512 + 47 = 559:
 *
 *   label   halves of side   east, x   north, y   up, z
 *     0           4             0          0        0
 *     5 = 1 + 4   2             2          0        2
 *     7           1             1          1        1
 *   corner                      3          1        3
 *
 * No check can find axes that were exchanged: a maker who takes 1 for north writes a sound file of a good list, and it is another ground. Try the example first.
 *
 * THE CUT of the place is met in two cases, both of files beyond any record. With CAB_BAD_BLOCK and a length that is no multiple of 512 the place is the count of
 * whole blocks, and that reaches 2^32 in a file longer than 2 TiB. With CAB_OK of the block check it is the number of leaves, and that reaches 2^32 in a file of
 * 18 GB, which holds no good list: that has at most 939,524,096 leaves. No other place comes near. The index of a bad block is at most 2^32 - 2: each block tells
 * the number of blocks in one word, so that in a file of 2^32 blocks block 0 is itself a bad one. A neighbour's code is below 2^31, a volume at most 2^30, and so
 * is the index of a fault in a list, since no more leaves can stand before it.
 */
#ifndef CAB_H
#define CAB_H

#include <stddef.h>
#include <stdint.h>

/* The number and the place of an answer. */
#define CAB_NUMBER(answer) ((uint32_t)((answer) >> 32))
#define CAB_PLACE(answer) ((uint32_t)(answer))

/* The numbers that these calls give. 5 and 8 are of other calls of the layer. */
enum {
  CAB_OK = 0,              /* success */
  CAB_DEPTH = 1,           /* the depth is above 10 */
  CAB_LEAF_NOT_PROPER = 2, /* in a list: a code is not proper for the depth */
  CAB_LEAF_EARLY = 3,      /* in a list: a leaf starts before the end of the leaf before it */
  CAB_EIGHT_SIBLINGS = 4,  /* in a list: a leaf completes the eight children of one cell, which should stand as that cell */
  CAB_ARGUMENT = 6,        /* the code given is not proper for the depth (place 0), or the steps are no direction (place 1) */
  CAB_OUTSIDE = 7,         /* the neighbour lies outside the root cube */
  CAB_BAD_BLOCK = 9        /* a stored block has a wrong word, or the file is not whole blocks */
};

/* The neighbour address: the cell of the same level as `code`, displaced by its own side along each axis. Any numbers are taken.
 * CAB_OK        the place is the neighbour's code
 * CAB_DEPTH     place 0
 * CAB_ARGUMENT  place 0: the code is not proper for the depth; place 1: a step is not -1, 0 or 1, or all are 0
 * CAB_OUTSIDE   place 0
 */
uint64_t cab_neighbour(uint32_t depth, uint32_t code, int32_t dx, int32_t dy, int32_t dz);

/* The two calls on a stored file read `len` bytes at `bytes`. The host keeps them readable and unchanged until the call returns; any alignment will do.
 * NULL with a `len` of 0 is taken, and is a file of no block: CAB_BAD_BLOCK, place 0. The format is in docs/FORMAT.md.
 */

/* The block check: whether every word beside the codes is right. The codes themselves are not judged.
 * CAB_OK         the place is the number of leaves that the file holds, 0 for the empty list
 * CAB_BAD_BLOCK  the length is 0 or no multiple of 512: the place is the count of whole blocks;
 *                else the place is the index of the first block with a wrong word
 */
uint64_t cab_check_blocks(const uint8_t *bytes, size_t len);

/* The volume of a stored file: the file is checked, its list is checked, and its black voxels are counted.
 * CAB_OK         the place is the number of black voxels
 * CAB_BAD_BLOCK  as above
 * CAB_LEAF_NOT_PROPER, CAB_LEAF_EARLY, CAB_EIGHT_SIBLINGS
 *                the place is the index of the first leaf with a fault, counted over all blocks
 */
uint64_t cab_stored_volume(const uint8_t *bytes, size_t len);

#endif
