/* The sixteen-bit edition in plain C with logarithm tables. */
#include "wide_plain.h"

#include <string.h>

uint16_t power_of_two[131070], logarithm[65536];

/* the locators to the powers 0 to 3; for c local checks b and b^256 of every place, in row c */
static uint16_t locator_power[4][WIDTH], first_row[5][WIDTH], second_row[5][WIDTH];

static uint16_t doubled(uint16_t a) { return (uint16_t)(a << 1) ^ (a & 32768 ? 4107 : 0); }
static uint16_t inverse(uint16_t a) { return power_of_two[65535 - logarithm[a]]; }
static uint16_t power(uint16_t a, int e) { return !e ? 1 : a ? power_of_two[logarithm[a] * e % 65535] : 0; }

void plain_tables(void) {
  uint16_t a = 1;
  for (int i = 0; i < 65535; i++, a = doubled(a)) power_of_two[i] = power_of_two[i + 65535] = a, logarithm[a] = (uint16_t)i;
  for (int j = 0; j < WIDTH; j++) {
    uint16_t locator = j < 255 ? power_of_two[257 * j] : 0;
    for (int e = 0; e < 4; e++) locator_power[e][j] = power(locator, e);
    for (int c = 1; c < 5; c++) {
      first_row[c][j] = power(locator, c) ^ product(2, power(locator, c + 1));
      second_row[c][j] = power(first_row[c][j], 256);
    }
  }
}

/* elimination of n equations in n unknowns, the right side in column n */
static void solve(uint16_t a[4][5], int n) {
  for (int k = 0; k < n; k++) {
    int p = k;
    while (p < n - 1 && !a[p][k]) p++;
    for (int i = 0; i <= n; i++) { uint16_t t = a[k][i]; a[k][i] = a[p][i]; a[p][i] = t; }
    uint16_t v = inverse(a[k][k]);
    for (int i = k; i <= n; i++) a[k][i] = product(a[k][i], v);
    for (int r = 0; r < n; r++) {
      uint16_t f = a[r][k];
      if (r != k && f) for (int i = k; i <= n; i++) a[r][i] ^= product(f, a[k][i]);
    }
  }
}

static uint16_t sum(int w, const uint16_t *part, const uint16_t *row) {
  uint16_t s = 0;
  for (int j = 0; j < w; j++) s ^= product(part[j], row[j]);
  return s;
}

/* fills the lost places of one group, at most 4, by its first equations */
static void fill(int w, uint16_t *part, const uint8_t *lost) {
  int at[4], n = 0;
  uint16_t a[4][5];
  for (int j = 0; j < w; j++) if (lost[j] && n < 4) at[n++] = j, part[j] = 0;
  for (int e = 0; e < n; e++) {
    for (int i = 0; i < n; i++) a[e][i] = locator_power[e][at[i]];
    a[e][n] = sum(w, part, locator_power[e]);
  }
  solve(a, n);
  for (int i = 0; i < n; i++) part[at[i]] = a[i][n];
}

static int local_zero(int w, int c, const uint16_t *part) {
  for (int e = 0; e < c; e++) if (sum(w, part, locator_power[e])) return 0;
  return 1;
}

/* adds one group's part of the two sums across */
static void add_across(int w, int c, int g, const uint16_t *part, uint16_t s[2]) {
  s[0] ^= sum(w, part, first_row[c]);
  s[1] ^= product(power_of_two[g], sum(w, part, second_row[c]));
}

static void across(int m, int w, int c, const uint16_t *word, uint16_t s[2]) {
  s[0] = s[1] = 0;
  for (int g = 0; g < m; g++) add_across(w, c, g, word + g * w, s);
}

int plain_check(int m, int w, int c, const uint16_t *word) {
  uint16_t s[2];
  for (int g = 0; g < m; g++) if (!local_zero(w, c, word + g * w)) return 9;
  across(m, w, c, word, s);
  return s[0] || s[1] ? 9 : 0;
}

/* a word with its lost places as zeros, those left to their group, and at most two more, left to the sums across */
struct losses { uint16_t found[PLACES]; uint8_t kept[PLACES]; int free_at[2], free_count; };

static int sort_losses(int m, int w, int c, const uint16_t *word, const uint8_t *marks, struct losses *l) {
  int excess = 0;
  for (int p = 0; p < m * w; p++) if (marks[p] > 1) return 6;
  for (int g = 0, p = 0; g < m; g++)
    for (int j = 0, lost = 0; j < w; j++, p++) {
      lost += marks[p];
      l->kept[p] = marks[p] && lost <= c;
      l->found[p] = marks[p] ? 0 : word[p];
      if (marks[p] && lost > c && excess++ < 2) l->free_at[excess - 1] = p;
    }
  l->free_count = excess;
  return excess > 2 ? 8 : 0;
}

/* the unknowns across: how a group and the sums change with each, and what they must be */
static void mend(int m, int w, int c, struct losses *l) {
  uint16_t way[2][WIDTH], a[4][5], s[2];
  int n = l->free_count;
  across(m, w, c, l->found, s);
  a[0][n] = s[0], a[1][n] = s[1];
  for (int i = 0; i < n; i++) {
    int g = l->free_at[i] / w;
    memset(way[i], 0, (size_t)w * sizeof **way);
    way[i][l->free_at[i] % w] = 1;
    fill(w, way[i], l->kept + g * w);
    s[0] = s[1] = 0;
    add_across(w, c, g, way[i], s);
    a[0][i] = s[0], a[1][i] = s[1];
  }
  if (n == 1 && !a[0][0]) a[0][0] = a[1][0], a[0][1] = a[1][1];
  solve(a, n);
  for (int i = 0; i < n; i++)
    for (int j = 0; j < w; j++) l->found[l->free_at[i] / w * w + j] ^= product(a[i][n], way[i][j]);
}

static int find(int m, int w, int c, const uint16_t *word, const uint8_t *marks, struct losses *l) {
  int refusal = sort_losses(m, w, c, word, marks, l);
  if (refusal) return refusal;
  for (int g = 0; g < m; g++) fill(w, l->found + g * w, l->kept + g * w);
  if (l->free_count) mend(m, w, c, l);
  return 0;
}

int plain_candidate(int m, int w, int c, uint16_t *word, const uint8_t *marks) {
  struct losses l;
  int refusal = find(m, w, c, word, marks, &l);
  if (!refusal) memcpy(word, l.found, (size_t)(m * w) * sizeof *word);
  return refusal;
}

int plain_recover(int m, int w, int c, uint16_t *word, uint8_t *marks) {
  struct losses l;
  int refusal = find(m, w, c, word, marks, &l);
  if (!refusal) refusal = plain_check(m, w, c, l.found);
  if (refusal) return refusal;
  memcpy(word, l.found, (size_t)(m * w) * sizeof *word);
  memset(marks, 0, (size_t)(m * w));
  return 0;
}

int plain_repair(int m, int w, int c, int g, uint16_t *word, uint8_t *marks) {
  uint16_t part[WIDTH];
  int lost = 0;
  for (int p = 0; p < m * w; p++) if (marks[p] > 1) return 6;
  for (int j = 0; j < w; j++) lost += marks[g * w + j];
  if (lost > c) return 8;
  memcpy(part, word + g * w, (size_t)w * sizeof *part);
  fill(w, part, marks + g * w);
  if (!local_zero(w, c, part)) return 9;
  memcpy(word + g * w, part, (size_t)w * sizeof *part);
  memset(marks + g * w, 0, (size_t)w);
  return 0;
}

int is_check(int m, int w, int c, int p) { return p % w + c >= w || (p / w + 1 == m && p % w + c + 2 >= w); }

int plain_encode(int m, int w, int c, const uint16_t *data, uint16_t *word) {
  uint8_t marks[PLACES];
  for (int p = 0, i = 0; p < m * w; p++) marks[p] = (uint8_t)is_check(m, w, c, p), word[p] = marks[p] ? 0 : data[i++];
  return plain_recover(m, w, c, word, marks);
}

void lose(int m, int w, int c, int excess, uint8_t *marks) {
  memset(marks, 0, (size_t)(m * w));
  for (int g = 0; g < m; g++)
    for (int i = 0; i < c + (g < excess); i++) marks[g * w + (i * 7 + g) % w] = 1;
}
