/* The same code by the stock libraries ISA-L and Jerasure. */
#include "stock.h"

#include <isa-l/erasure_code.h>
#include <jerasure.h>
#include <string.h>

enum { EQUATIONS = 62 };

int same_field(void) {
  for (int a = 0; a < 256; a++)
    for (int b = 0; b < 256; b++) {
      uint8_t p = product((uint8_t)a, (uint8_t)b);
      if (gf_mul((uint8_t)a, (uint8_t)b) != p || galois_single_multiply(a, b, 8) != p) return 0;
    }
  return 1;
}

/* equations as rows over all places; row i is zero outside places from[i] to to[i] */
struct equations { int count, from[EQUATIONS], to[EQUATIONS]; uint8_t row[EQUATIONS][PLACES]; };

static void add_local(struct equations *q, int w, int g, int e) {
  int i = q->count++;
  q->from[i] = g * w, q->to[i] = g * w + w;
  memset(q->row[i], 0, PLACES);
  memcpy(q->row[i] + g * w, locator_power[e], (size_t)w);
}

static void add_across(struct equations *q, int m, int w, int c, int second) {
  int i = q->count++;
  q->from[i] = 0, q->to[i] = m * w;
  for (int g = 0; g < m; g++)
    for (int j = 0; j < w; j++) q->row[i][g * w + j] = second ? product(power_of_two[g], second_row[c][j]) : first_row[c][j];
}

/* as many equations as places are lost: those of each group, and the ones across for the excess */
static void choose(struct equations *q, int m, int w, int c, const uint8_t *marks) {
  int excess = 0;
  q->count = 0;
  for (int g = 0; g < m; g++) {
    int lost = 0;
    for (int j = 0; j < w; j++) lost += marks[g * w + j];
    for (int e = 0; e < lost && e < c; e++) add_local(q, w, g, e);
    excess += lost > c ? lost - c : 0;
  }
  for (int i = 0; i < excess && i < 2; i++) add_across(q, m, w, c, i);
}

/* row r of the inverse times the equations: the coefficient of every present place in the r-th lost one */
static void combine(const struct equations *q, const uint8_t *inverse_row, uint8_t *row) {
  memset(row, 0, PLACES);
  for (int i = 0; i < q->count; i++)
    if (inverse_row[i])
      for (int p = q->from[i]; p < q->to[i]; p++) row[p] ^= product(inverse_row[i], q->row[i][p]);
}

/* the rows of one group's lost places, over those present places that any of them needs */
static void make_part(const struct equations *q, const uint8_t *inverted, int first, int n, const uint8_t *marks, struct part *part) {
  uint8_t row[ROWS][PLACES], needed[PLACES] = {0};
  for (int r = 0; r < part->rows; r++) {
    combine(q, inverted + (first + r) * q->count, row[r]);
    for (int p = 0; p < n; p++) needed[p] |= row[r][p];
  }
  part->sources = 0;
  for (int p = 0; p < n; p++) if (needed[p] && !marks[p]) part->source[part->sources++] = p;
  for (int r = 0; r < part->rows; r++)
    for (int i = 0; i < part->sources; i++) part->coefficient[r * part->sources + i] = row[r][part->source[i]];
}

int make_plan(const struct stock *stock, int m, int w, int c, const uint8_t *marks, struct plan *plan) {
  static struct equations q;
  uint8_t matrix[EQUATIONS * EQUATIONS], inverted[EQUATIONS * EQUATIONS];
  int column = 0;
  choose(&q, m, w, c, marks);
  for (int p = 0; p < m * w; p++)
    if (marks[p]) { for (int i = 0; i < q.count; i++) matrix[i * q.count + column] = q.row[i][p]; column++; }
  if (column != q.count || stock->invert(matrix, inverted, column)) return 1;
  plan->parts = column = 0;
  for (int g = 0; g < m; g++) {
    struct part *part = &plan->part[plan->parts];
    part->rows = 0;
    for (int p = g * w; p < g * w + w; p++) if (marks[p]) part->lost[part->rows++] = p;
    if (!part->rows) continue;
    make_part(&q, inverted, column, m * w, marks, part);
    stock->prepare(part);
    column += part->rows;
    plan->parts++;
  }
  return 0;
}

static void pointers(const struct part *part, uint8_t *place[PLACES], uint8_t **source, uint8_t **lost) {
  for (int i = 0; i < part->sources; i++) source[i] = place[part->source[i]];
  for (int r = 0; r < part->rows; r++) lost[r] = place[part->lost[r]];
}

static int isal_invert(uint8_t *matrix, uint8_t *inverted, int n) { return gf_invert_matrix(matrix, inverted, n); }
static void isal_prepare(struct part *part) { ec_init_tables(part->sources, part->rows, part->coefficient, part->tables); }

static void isal_run(struct plan *plan, uint8_t *place[PLACES], int length) {
  uint8_t *source[PLACES], *lost[ROWS];
  for (struct part *p = plan->part; p < plan->part + plan->parts; p++) {
    pointers(p, place, source, lost);
    ec_encode_data(length, p->sources, p->rows, p->tables, source, lost);
  }
}

static int jerasure_invert(uint8_t *matrix, uint8_t *inverted, int n) {
  static int from[EQUATIONS * EQUATIONS], to[EQUATIONS * EQUATIONS];
  for (int i = 0; i < n * n; i++) from[i] = matrix[i];
  int failed = jerasure_invert_matrix(from, to, n, 8);
  for (int i = 0; i < n * n; i++) inverted[i] = (uint8_t)to[i];
  return failed;
}

static void jerasure_prepare(struct part *part) {
  for (int i = 0; i < part->rows * part->sources; i++) part->matrix[i] = part->coefficient[i];
}

static void jerasure_run(struct plan *plan, uint8_t *place[PLACES], int length) {
  uint8_t *source[PLACES], *lost[ROWS];
  for (struct part *p = plan->part; p < plan->part + plan->parts; p++) {
    pointers(p, place, source, lost);
    jerasure_matrix_encode(p->sources, p->rows, 8, p->matrix, (char **)source, (char **)lost, length);
  }
}

const struct stock isal = {isal_invert, isal_prepare, isal_run};
const struct stock jerasure = {jerasure_invert, jerasure_prepare, jerasure_run};
