/* The same code by the stock libraries ISA-L and Jerasure. Both multiply a matrix by buffers: each place of the word is a buffer, byte i of
 * it belonging to word i, so that many words with the same losses are worked on at once. A plan is that matrix for one loss pattern: the lost
 * places of each group as sums over the present places that they depend on. */
#ifndef STOCK_H
#define STOCK_H

#include <stdint.h>

#include "plain.h"

enum { ROWS = 6 };

/* one call: the lost places of one group, and the sources they need */
struct part {
  int rows, sources, lost[ROWS], source[PLACES];
  uint8_t coefficient[ROWS * PLACES], tables[32 * ROWS * PLACES];
  int matrix[ROWS * PLACES];
};

struct plan { int parts; struct part part[GROUPS]; };

/* one stock library: its own inversion of a matrix of n rows, its tables, and the product of a plan and buffers of a length */
struct stock {
  int (*invert)(uint8_t *matrix, uint8_t *inverted, int n);
  void (*prepare)(struct part *);
  void (*run)(struct plan *, uint8_t *place[PLACES], int length);
};

extern const struct stock isal, jerasure;

/* whether a stock library's products are those of polynomial 285 */
int same_field(void);

/* makes the plan for these marks; 0, or 1 where the equations chosen don't determine the lost places */
int make_plan(const struct stock *, int m, int w, int c, const uint8_t *marks, struct plan *);

#endif
