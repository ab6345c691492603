/* The sums of blocks times constants that a block rebuild takes, and the steps by rows of 256 products. */
#include "rows.h"

#include <string.h>

enum { MOST = 65536 };

static uint8_t products[256][256];

void rows_tables(void) {
  for (int a = 0; a < 256; a++)
    for (int b = 0; b < 256; b++) products[a][b] = product((uint8_t)a, (uint8_t)b);
}

static uint8_t inverse(uint8_t a) { return power_of_two[255 - logarithm[a]]; }

/* the places of a group that its own equations fill, at most c, and the rest; for each of these the filling of a single one there */
struct group { int kept, at[4], others, other[WIDTH]; uint8_t way[4][WIDTH]; };

/* Gauss-Jordan elimination on the columns of the kept places */
static void solve_group(struct group *g) {
  uint8_t a[4][4 + WIDTH];
  int t = g->kept, all = t + g->others;
  for (int e = 0; e < t; e++) {
    for (int i = 0; i < t; i++) a[e][i] = locator_power[e][g->at[i]];
    for (int j = 0; j < g->others; j++) a[e][t + j] = locator_power[e][g->other[j]];
  }
  for (int k = 0; k < t; k++) {
    int p = k;
    while (p < t - 1 && !a[p][k]) p++;
    if (p != k) for (int i = 0; i < all; i++) { uint8_t x = a[k][i]; a[k][i] = a[p][i]; a[p][i] = x; }
    uint8_t v = inverse(a[k][k]);
    for (int i = k; i < all; i++) a[k][i] = products[v][a[k][i]];
    for (int r = 0; r < t; r++) {
      uint8_t f = a[r][k];
      if (r != k && f) for (int i = k; i < all; i++) a[r][i] ^= products[f][a[k][i]];
    }
  }
  memset(g->way, 0, sizeof g->way);
  for (int i = 0; i < t; i++)
    for (int j = 0; j < g->others; j++) g->way[i][g->other[j]] = a[i][t + j];
}

/* the sum of an equation's row over the filling of a single one at j */
static uint8_t effect(const struct group *g, const uint8_t *row, int j) {
  uint8_t s = row[j];
  for (int i = 0; i < g->kept; i++) s ^= products[row[g->at[i]]][g->way[i][j]];
  return s;
}

static void find_group(int w, int c, const uint8_t *marks, struct group *g) {
  g->kept = g->others = 0;
  for (int j = 0; j < w; j++)
    if (marks[j] && g->kept < c) g->at[g->kept++] = j;
    else g->other[g->others++] = j;
  solve_group(g);
}

void make_steps(int m, int w, int c, const uint8_t *marks, struct steps *s) {
  static uint8_t across[2][PLACES];
  struct group g;
  struct sums *test = s->test, *write = s->write + 1;
  int at[2], excess = 0, present = 0, source[PLACES];
  for (int k = 0; k < m; k++) {
    const uint8_t *lost = marks + k * w;
    find_group(w, c, lost, &g);
    test->rows = c - g.kept, write->rows = g.kept, test->sources = write->sources = g.others;
    for (int j = 0; j < g.others; j++) {
      int o = g.other[j], p = k * w + o;
      test->source[j] = write->source[j] = p;
      for (int e = g.kept; e < c; e++) test->constant[e - g.kept][j] = effect(&g, locator_power[e], o);
      for (int i = 0; i < g.kept; i++) write->constant[i][j] = g.way[i][o], write->to[i] = k * w + g.at[i];
      across[0][p] = effect(&g, first_row[c], o);
      across[1][p] = products[power_of_two[k]][effect(&g, second_row[c], o)];
      if (lost[o]) at[excess++] = p;
      else source[present++] = p;
    }
    test += test->rows > 0, write += write->rows > 0;
  }
  /* the sums across: each free place takes one of them */
  struct sums *unknown = s->write;
  test->rows = 2 - excess, unknown->rows = excess, test->sources = unknown->sources = present;
  uint8_t f[2][2] = {{1, 0}, {0, 1}}, r[2] = {0, 0};
  if (excess == 1) {
    int k = !across[0][at[0]];
    f[0][k] = inverse(across[k][at[0]]), f[0][!k] = 0;
    r[k] = products[across[!k][at[0]]][f[0][k]], r[!k] = 1;
  }
  if (excess == 2) {
    uint8_t a = across[0][at[0]], b = across[0][at[1]], d = across[1][at[0]], e = across[1][at[1]];
    uint8_t v = inverse(products[a][e] ^ products[b][d]);
    f[0][0] = products[e][v], f[0][1] = products[b][v], f[1][0] = products[d][v], f[1][1] = products[a][v];
  }
  for (int i = 0; i < present; i++) {
    uint8_t x = across[0][source[i]], y = across[1][source[i]];
    test->source[i] = unknown->source[i] = source[i];
    if (excess == 0) test->constant[0][i] = x, test->constant[1][i] = y;
    if (excess == 1) test->constant[0][i] = products[r[0]][x] ^ products[r[1]][y];
    for (int k = 0; k < excess; k++) unknown->constant[k][i] = products[f[k][0]][x] ^ products[f[k][1]][y], unknown->to[k] = at[k];
  }
  test += test->rows > 0;
  s->tests = (int)(test - s->test), s->writes = (int)(write - s->write);
}

static int any(const uint8_t *a, size_t n) {
  uint8_t r = 0;
  for (size_t i = 0; i < n; i++) r |= a[i];
  return r != 0;
}

static void sum_by_products(const struct sums *s, int r, size_t length, const uint8_t *blocks, uint8_t *out) {
  static uint8_t sum[MOST];
  memset(sum, 0, length);
  for (int i = 0; i < s->sources; i++) {
    const uint8_t *row = products[s->constant[r][i]], *from = blocks + (size_t)s->source[i] * length;
    for (size_t x = 0; x < length; x++) sum[x] ^= row[from[x]];
  }
  memcpy(out, sum, length);
}

int steps_by_products(const struct steps *s, size_t length, uint8_t *blocks) {
  static uint8_t sum[MOST];
  for (const struct sums *t = s->test; t < s->test + s->tests; t++)
    for (int r = 0; r < t->rows; r++) {
      sum_by_products(t, r, length, blocks, sum);
      if (any(sum, length)) return 9;
    }
  for (const struct sums *t = s->write; t < s->write + s->writes; t++)
    for (int r = 0; r < t->rows; r++) sum_by_products(t, r, length, blocks, blocks + (size_t)t->to[r] * length);
  return 0;
}
