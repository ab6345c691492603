/* The sixteen-bit edition in plain C with logarithm tables, the same steps as bench/plain.c takes for bytes: what bench/wide sets beside the
 * library. */
#ifndef WIDE_PLAIN_H
#define WIDE_PLAIN_H

#include <stdint.h>

enum { PLACES = 4096, GROUPS = 255, WIDTH = 256 };

extern uint16_t power_of_two[131070], logarithm[65536];

static inline uint16_t product(uint16_t a, uint16_t b) { return a && b ? power_of_two[logarithm[a] + logarithm[b]] : 0; }

/* to be called once, before all else */
void plain_tables(void);

/* good shapes and right lengths only; 0, or refusal 6, 8 or 9 */
int plain_check(int m, int w, int c, const uint16_t *word);
int plain_encode(int m, int w, int c, const uint16_t *data, uint16_t *word);
int plain_repair(int m, int w, int c, int g, uint16_t *word, uint8_t *marks);
int plain_recover(int m, int w, int c, uint16_t *word, uint8_t *marks);

/* recovers without the test of all equations, so that it is linear in the present symbols */
int plain_candidate(int m, int w, int c, uint16_t *word, const uint8_t *marks);

/* whether place p carries a check */
int is_check(int m, int w, int c, int p);

/* marks c places of every group as lost, and in the first groups one more, as many as the excess; for w not divisible by 7 */
void lose(int m, int w, int c, int excess, uint8_t *marks);

#endif
