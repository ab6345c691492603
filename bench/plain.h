/* Encode, repair and recover in plain C with logarithm tables, the same steps as the library takes: what the benchmarks set beside it. */
#ifndef PLAIN_H
#define PLAIN_H

#include <stdint.h>

enum { PLACES = 240, GROUPS = 15, WIDTH = 16 };

extern uint8_t power_of_two[510], logarithm[256];

/* the locators to the powers 0 to 3; for c local checks b and b^16 of every place, in row c */
extern uint8_t locator_power[4][WIDTH], first_row[5][WIDTH], second_row[5][WIDTH];

static inline uint8_t product(uint8_t a, uint8_t b) { return a && b ? power_of_two[logarithm[a] + logarithm[b]] : 0; }

/* to be called once, before all else */
void plain_tables(void);

/* good shapes and right lengths only; 0, or refusal 6, 8 or 9 */
int plain_encode(int m, int w, int c, const uint8_t *data, uint8_t *word);
int plain_repair(int m, int w, int c, int g, uint8_t *word, uint8_t *marks);
int plain_recover(int m, int w, int c, uint8_t *word, uint8_t *marks);

/* whether place p carries a check */
int is_check(int m, int w, int c, int p);

/* marks c places of every group as lost, and in the first groups one more, as many as the excess; for w other than 7 and 14 */
void lose(int m, int w, int c, int excess, uint8_t *marks);

#endif
