/* The sums of blocks times constants that a block rebuild takes, for one set of marks: what must be 0, and what the lost blocks are. */
#ifndef ROWS_H
#define ROWS_H

#include <stddef.h>
#include <stdint.h>

#include "plain.h"

enum { MOST_ROWS = 4 };

/* up to four sums of the same blocks; a row of constants for each, and where it goes if it is written */
struct sums { int rows, sources, source[PLACES], to[MOST_ROWS]; uint8_t constant[MOST_ROWS][PLACES]; };

/* the sums that must be 0, then those to write, in order */
struct steps { int tests, writes; struct sums test[GROUPS + 1], write[GROUPS + 1]; };

/* good shapes, marks of 0 and 1 and an excess of at most two only */
void make_steps(int m, int w, int c, const uint8_t *marks, struct steps *);

/* takes the steps, with a row of 256 products for each constant; 9 if a sum is not 0 */
int steps_by_products(const struct steps *, size_t length, uint8_t *blocks);

/* takes the steps with the loops of crates/block_sums: tables of the sums of four blocks, 96 bytes at a time */
int steps_by_tables(const struct steps *, size_t length, uint8_t *blocks);

/* to be called once, after plain_tables */
void rows_tables(void);

#endif
