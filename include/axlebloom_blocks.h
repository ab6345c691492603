/* axlebloom_blocks.h - block rebuild for the archive box: many words at once
 *
 * Block rebuild is a separate library, libaxlebloom_blocks. It does not need libaxlebloom, but a
 * program can link both:
 *
 *     cc program.c $(pkg-config --cflags --libs axlebloom_blocks)
 *
 * n = m*w blocks of equal length are stored end to end. Byte x of every block, taken together, is
 * word x, a word of shape m, w, c as in axlebloom.h. Marks are n bytes, 1 for a lost block and 0 for
 * a present one. The bytes of a lost block have no effect on any answer.
 *
 * What axlebloom.h says about pointers, refusals, threads, kernels and time holds here too: each
 * buffer must really be as long as the length passed with it, and may be NULL if that is 0; blocks
 * and marks must not overlap; a refused call changes nothing; nothing is kept between calls and no
 * memory is allocated, so threads may call at once on buffers of their own. A call takes less than
 * 20 KB of stack (measured, not proved).
 */
#ifndef AXLEBLOOM_BLOCKS_H
#define AXLEBLOOM_BLOCKS_H

#include <stddef.h>
#include <stdint.h>

#if SIZE_MAX != 0xFFFFFFFFFFFFFFFF
#error "the library counts on a size_t of 64 bits"
#endif

#ifdef __cplusplus
extern "C" {
#endif

/* The version of this header, as 10000*major + 100*minor + patch, and a function that returns the
 * version of the library itself. The two libraries of one release have the same version. */
#define AXLEBLOOM_BLOCKS_VERSION 10101
uint32_t axlebloom_blocks_version(void);

/* The largest total length of all blocks, in bytes. */
#define AXLEBLOOM_BLOCKS_MAX_BYTES 65536

/* The refusal that only rebuild returns: blocks_length is not n*length, or length is 0, or n*length
 * is above 65536. The other numbers are those of enum axlebloom_number in axlebloom.h. */
enum axlebloom_blocks_number {
  AXLEBLOOM_BLOCKS_LENGTH = 27 /* the blocks' total length is wrong, zero or above 65536 */
};

/* Returned by rebuild. */
struct axlebloom_rebuild_answer {
  size_t word;    /* if number is 9, the lowest x whose word is contradictory; otherwise 0 */
  uint8_t number; /* 0, or the number of a refusal */
  uint8_t group;  /* if number is 9, the group of that word, as recover names it; otherwise 0 */
};

/* Recovers every word and clears the marks, or changes nothing.
 *
 *   m, w, c        the shape, as in axlebloom.h
 *   length         the bytes in one block
 *   blocks         blocks_length bytes, which must be n*length; the lost blocks are written
 *   marks          marks_length bytes, which must be n; all are cleared
 *
 * Refused with these numbers, in this order:
 *
 *   1 to 4  the shape is not good
 *   5       there are not n marks
 *   6       a mark is neither 0 nor 1
 *   27      the blocks are not n*length bytes, or length is 0, or n*length is above 65536
 *   8       too much is lost: the present blocks do not determine the words; bring back more of them
 *   9       the present bytes of some word fit no codeword: at least one byte at position x of a
 *           present block is wrong, or the marks or the shape are; more blocks do not help
 *
 * To encode a batch, put the data blocks in the data places, mark the check places as lost (they are
 * the places axlebloom_extract skips; axlebloom_check_marks in axlebloom.h marks them), and rebuild:
 *
 * @code
 *   uint8_t blocks[6 * 4] = "one.two.", marks[6] = {0, 0, 1, 1, 1, 1};
 *   struct axlebloom_rebuild_answer answer;
 *   answer = axlebloom_rebuild(2, 3, 1, 4, blocks, sizeof blocks, marks, sizeof marks);
 *   assert(answer.number == 0);
 *   memset(blocks, 0, 12);
 *   marks[0] = marks[1] = marks[2] = 1;
 *   answer = axlebloom_rebuild(2, 3, 1, 4, blocks, sizeof blocks, marks, sizeof marks);
 *   assert(answer.number == 0 && memcmp(blocks, "one.two.", 8) == 0);
 * @endcode
 */
struct axlebloom_rebuild_answer axlebloom_rebuild(size_t m, size_t w, size_t c, size_t length,
                                                  uint8_t *blocks, size_t blocks_length,
                                                  uint8_t *marks, size_t marks_length);

#ifdef __cplusplus
}
#endif

#endif
