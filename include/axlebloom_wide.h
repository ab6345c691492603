/* axlebloom_wide.h - the sixteen-bit edition, for wide racks
 *
 * The services of axlebloom.h over symbols of 16 bits, in the same library. A word is m groups of w
 * symbols, stored one group after another: n = m*w symbols in all, k = m*(w-c) - 2 of them data.
 * Marks are n bytes, 1 for a lost symbol and 0 for a present one.
 *
 * Lengths are numbers of symbols (uint16_t) or of marks, not of bytes. Pointers to symbols must be
 * aligned for uint16_t. Symbols are in the machine's own byte order; if you store them as bytes, you
 * choose the order.
 *
 * What axlebloom.h says about pointers, refusals, threads and kernels, and about the group that a 9
 * names, holds here too. This edition has no desk, gather, profile, edit or block rebuild. Calls take
 * less than 32 KB of stack (measured, not proved).
 *
 * @code
 *   uint16_t data[2] = {700, 900}, word[6], back[2];
 *   uint8_t marks[6] = {1, 1, 1, 0, 0, 0};
 *   struct axlebloom_answer answer;
 *   uint8_t refusal = axlebloom_wide_encode(2, 3, 1, data, 2, word, 6);
 *   assert(refusal == AXLEBLOOM_DONE);
 *   word[0] = word[1] = word[2] = 0;
 *   answer = axlebloom_wide_recover(2, 3, 1, word, 6, marks, 6);
 *   assert(answer.number == AXLEBLOOM_DONE);
 *   refusal = axlebloom_wide_extract(2, 3, 1, word, 6, back, 2);
 *   assert(refusal == AXLEBLOOM_DONE && back[0] == 700 && back[1] == 900);
 * @endcode
 */
#ifndef AXLEBLOOM_WIDE_H
#define AXLEBLOOM_WIDE_H

#include "axlebloom.h"

#ifdef __cplusplus
extern "C" {
#endif

#define AXLEBLOOM_WIDE_MAX_GROUPS 255        /* m is 1 to this */
#define AXLEBLOOM_WIDE_MAX_CHECKS 4          /* c is 1 to this */
#define AXLEBLOOM_WIDE_MAX_ENCODED_CHECKS 3  /* the largest c for encode and check_marks */
#define AXLEBLOOM_WIDE_MAX_WIDTH 256         /* w is c+2 to this */
#define AXLEBLOOM_WIDE_MAX_PLACES 4096       /* the largest n */

/* The refusal that only this edition returns: 26, after 4 and before all other numbers. 1 to 3 take
 * the limits above. */
enum axlebloom_wide_number {
  AXLEBLOOM_WIDE_PLACES = 26 /* the shape has more than 4096 places */
};

/* Returns 0 if the shape is good, otherwise its refusal: 1 to 4 or 26, in that order. */
uint8_t axlebloom_wide_describe(size_t m, size_t w, size_t c);

/* For a good shape these return n, the symbols in a word; k, the data symbols in it; and the sure
 * count, the largest number such that any loss of that many symbols or fewer is recovered, wherever
 * they are, provided no present symbol is wrong. They return 0 if the shape is refused. */
size_t axlebloom_wide_places(size_t m, size_t w, size_t c);
size_t axlebloom_wide_data(size_t m, size_t w, size_t c);
size_t axlebloom_wide_sure(size_t m, size_t w, size_t c);

/* Writes the one codeword that carries the data.
 *
 *   data  data_length symbols, which must be k
 *   word  word_length symbols, which must be n; written
 *
 * Refused with 1 to 4, 26, 29 (if c = 4) or 5, in that order. */
uint8_t axlebloom_wide_encode(size_t m, size_t w, size_t c, const uint16_t *data, size_t data_length,
                              uint16_t *word, size_t word_length);

/* Extracts the data of a word, codeword or not.
 *
 *   word  word_length symbols, which must be n
 *   data  data_length symbols, which must be k; written
 *
 * Refused with 1 to 4, 26 or 5, in that order. */
uint8_t axlebloom_wide_extract(size_t m, size_t w, size_t c, const uint16_t *word,
                               size_t word_length, uint16_t *data, size_t data_length);

/* Tests whether a word is a codeword: returns 0 if it is, 9 with a group if it is not.
 *
 *   word  word_length symbols, which must be n
 *
 * Refused with 1 to 4, 26, 5 or 9, in that order. */
struct axlebloom_answer axlebloom_wide_check(size_t m, size_t w, size_t c, const uint16_t *word,
                                             size_t word_length);

/* Writes the marks of a word that has lost its check places: 1 for every check place and 0 for every
 * data place. A recovery with these marks encodes: it leaves the data as they are and writes the
 * checks.
 *
 *   marks  marks_length bytes, which must be n; written
 *
 * Refused with 1 to 4, 26, 29 (if c = 4) or 5, in that order. */
uint8_t axlebloom_wide_check_marks(size_t m, size_t w, size_t c, uint8_t *marks,
                                   size_t marks_length);

/* Tests whether the losses can be recovered: returns 0 if the present places determine the word and
 * 8 if they do not.
 *
 *   marks  marks_length bytes, which must be n
 *
 * Refused with 1 to 4, 26, 5, 6 or 8, in that order. */
uint8_t axlebloom_wide_judge(size_t m, size_t w, size_t c, const uint8_t *marks,
                             size_t marks_length);

/* Repairs one group with its own checks, and clears its marks. No symbol or mark of another group is
 * touched.
 *
 *   g      the group, 0 to m-1
 *   word   word_length symbols, which must be n; the lost symbols of group g are written
 *   marks  marks_length bytes, which must be n; those of group g are cleared
 *
 * Returns 8 if more than c places of the group are lost; recover may still succeed. A group with no
 * lost places is still tested (9). A group that has lost exactly c places has no check to spare: a
 * wrong present symbol goes unnoticed, and the symbols written are computed from it.
 *
 * Refused with 1 to 4, 26, 5 to 9, in that order. */
struct axlebloom_answer axlebloom_wide_repair(size_t m, size_t w, size_t c, size_t g, uint16_t *word,
                                              size_t word_length, uint8_t *marks,
                                              size_t marks_length);

/* Recovers a whole word and clears all marks. Repairing groups first, in any order, changes neither
 * what it returns nor, if it returns 0, the word and marks it leaves.
 *
 *   word   word_length symbols, which must be n; the lost symbols are written
 *   marks  marks_length bytes, which must be n; all are cleared
 *
 * Returns 8 exactly if axlebloom_wide_judge does with these marks: the present places do not
 * determine the word; bring back more of them. Otherwise it returns 9 exactly if no codeword fits the
 * present symbols.
 *
 * Refused with 1 to 4, 26, 5, 6, 8 or 9, in that order. */
struct axlebloom_answer axlebloom_wide_recover(size_t m, size_t w, size_t c, uint16_t *word,
                                               size_t word_length, uint8_t *marks,
                                               size_t marks_length);

#ifdef __cplusplus
}
#endif

#endif
