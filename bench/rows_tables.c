/* The steps of a block rebuild by tables of the sums of four blocks, the loops of crates/block_sums. */
#include "rows.h"

#include <string.h>

enum { STRIP = 96 };

static int any(const uint8_t *a, size_t n) {
  uint8_t r = 0;
  for (size_t i = 0; i < n; i++) r |= a[i];
  return r != 0;
}

static uint8_t doubled(uint8_t a) { return (uint8_t)(a << 1) ^ (a < 128 ? 0 : 29); }

/* the bits of four constants as digits of 16, the highest bits as the lowest digit */
static uint32_t selector(const uint8_t *k, int n) {
  uint32_t s = 0;
  for (int b = 0; b < 8; b++) {
    uint32_t digit = 0;
    for (int e = 0; e < n; e++) digit |= (uint32_t)(k[e] >> b & 1) << e;
    s = s * 16 + digit;
  }
  return s;
}

static void make_table(const uint8_t *const *from, int n, size_t bytes, uint8_t *restrict t) {
  for (int e = 0; e < n; e++) memcpy(t + (1 << e) * STRIP, from[e], bytes);
  for (int h = 2; h < 16; h *= 2)
    for (int u = 1; u < h; u++) {
      uint8_t *to = t + (h + u) * STRIP, *a = t + h * STRIP, *b = t + u * STRIP;
      for (int i = 0; i < STRIP; i++) to[i] = a[i] ^ b[i];
    }
}

static void add_row(const uint8_t *restrict t, const uint32_t *selectors, uint8_t *restrict out) {
  uint8_t r[STRIP] = {0};
  for (int n = 0; n < 8; n++) {
    const uint8_t *a = t + (selectors[0] >> 4 * n & 15) * STRIP, *b = t + (16 + (selectors[1] >> 4 * n & 15)) * STRIP;
    const uint8_t *c = t + (32 + (selectors[2] >> 4 * n & 15)) * STRIP, *d = t + (48 + (selectors[3] >> 4 * n & 15)) * STRIP;
    for (int i = 0; i < STRIP; i++) r[i] = doubled(r[i]) ^ a[i] ^ b[i] ^ c[i] ^ d[i];
  }
  for (int i = 0; i < STRIP; i++) out[i] ^= r[i];
}

static void strip(const struct sums *s, uint32_t (*selectors)[64], size_t length, const uint8_t *blocks, size_t x, size_t n, uint8_t *t, uint8_t (*sum)[STRIP]) {
  memset(sum, 0, MOST_ROWS * STRIP);
  for (int j = 0; j < s->sources; j += 16) {
    for (int q = 0; q < 4 && j + 4 * q < s->sources; q++) {
      const uint8_t *from[4];
      int few = s->sources - j - 4 * q < 4 ? s->sources - j - 4 * q : 4;
      for (int e = 0; e < few; e++) from[e] = blocks + (size_t)s->source[j + 4 * q + e] * length + x;
      make_table(from, few, n, t + q * 16 * STRIP);
    }
    for (int r = 0; r < s->rows; r++) add_row(t, selectors[r] + j / 4, sum[r]);
  }
}

static int take(const struct sums *s, size_t length, uint8_t *blocks, int write) {
  uint32_t selectors[MOST_ROWS][64] = {{0}};
  uint8_t t[64 * STRIP] = {0}, sum[MOST_ROWS][STRIP];
  for (int r = 0; r < s->rows; r++)
    for (int j = 0; j < s->sources; j += 4) selectors[r][j / 4] = selector(s->constant[r] + j, s->sources - j < 4 ? s->sources - j : 4);
  for (size_t x = 0; x < length; x += STRIP) {
    size_t n = length - x < STRIP ? length - x : STRIP;
    strip(s, selectors, length, blocks, x, n, t, sum);
    for (int r = 0; r < s->rows; r++) {
      if (write) memcpy(blocks + (size_t)s->to[r] * length + x, sum[r], n);
      else if (any(sum[r], n)) return 9;
    }
  }
  return 0;
}

int steps_by_tables(const struct steps *s, size_t length, uint8_t *blocks) {
  for (const struct sums *t = s->test; t < s->test + s->tests; t++) if (take(t, length, blocks, 0)) return 9;
  for (const struct sums *t = s->write; t < s->write + s->writes; t++) take(t, length, blocks, 1);
  return 0;
}
