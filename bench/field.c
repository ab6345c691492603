/* Products per second of the field of bytes: the library's loops by shifts and through tables, beside the same two in C; and the time of a row times
 * a factor, by shifts and from two rows of sixteen made for the factor. */
#include <stdint.h>
#include <stdio.h>
#include <stdlib.h>

#include "clock.h"

uint8_t bench_dot_shifts(const uint8_t *u, size_t nu, const uint8_t *v, size_t nv);
uint8_t bench_dot_tables(const uint8_t *u, size_t nu, const uint8_t *v, size_t nv);
void bench_row_shifts(uint8_t *row, size_t n, uint8_t f);
void bench_row_halves(uint8_t *row, size_t n, uint8_t f);

static uint8_t powers[510], logs[256];

static uint8_t doubled(uint8_t a) { return (uint8_t)(a << 1) ^ (a & 128 ? 29 : 0); }

static uint8_t shifted(uint8_t a, uint8_t b) {
  uint8_t r = 0;
  for (int i = 0; i < 8; i++, a = doubled(a), b >>= 1)
    if (b & 1) r ^= a;
  return r;
}

static uint8_t c_dot_shifts(const uint8_t *u, size_t nu, const uint8_t *v, size_t nv) {
  uint8_t r = 0;
  for (size_t i = 0; i < nu && i < nv; i++) r ^= shifted(u[i], v[i]);
  return r;
}

static uint8_t c_dot_tables(const uint8_t *u, size_t nu, const uint8_t *v, size_t nv) {
  uint8_t r = 0;
  for (size_t i = 0; i < nu && i < nv; i++)
    if (u[i] && v[i]) r ^= powers[logs[u[i]] + logs[v[i]]];
  return r;
}

typedef uint8_t dot(const uint8_t *, size_t, const uint8_t *, size_t);

enum { N = 4096, TURNS = 20000 };
static uint8_t u[N], v[N];

static uint8_t measure(const char *name, dot *f) {
  uint8_t r = 0;
  double start = now();
  for (int i = 0; i < TURNS; i++) {
    u[i % N]++;
    r ^= f(u, N, v, N);
  }
  double seconds = now() - start;
  printf("%-28s %8.0f million products a second\n", name, N * (double)TURNS / seconds / 1e6);
  return r;
}

/* best of the rounds, in nanoseconds a row */
static double measure_rows(void f(uint8_t *, size_t, uint8_t), size_t n) {
  double best = 1e9;
  for (int round = 0; round < 200; round++) {
    double start = now();
    for (int i = 0; i < 1000; i++) f(u, n, (uint8_t)i);
    double t = (now() - start) * 1e6;
    if (t < best) best = t;
  }
  return best;
}

/* rows of the elimination: five bytes in use, or the sixteen that one has */
static int compare_rows(void) {
  static const size_t sizes[] = {3, 5, 16, 240};
  uint8_t a[N], b[N];
  for (int i = 0; i < N; i++) a[i] = b[i] = (uint8_t)i;
  for (int f = 0; f < 256; f++) {
    bench_row_shifts(a, N, (uint8_t)f);
    bench_row_halves(b, N, (uint8_t)f);
    for (int i = 0; i < N; i++) {
      if (a[i] != b[i]) return 0;
      a[i] = b[i] = (uint8_t)i;
    }
  }
  for (int k = 0; k < 4; k++)
    printf("a row of %3zu times a factor: by shifts %6.1f ns, from two rows of sixteen %6.1f ns\n", sizes[k], measure_rows(bench_row_shifts, sizes[k]), measure_rows(bench_row_halves, sizes[k]));
  return 1;
}

int main(void) {
  uint8_t a = 1;
  for (int i = 0; i < 255; i++, a = doubled(a)) {
    powers[i] = powers[i + 255] = a;
    logs[a] = (uint8_t)i;
  }
  uint8_t results[4];
  dot *loops[4] = {bench_dot_shifts, bench_dot_tables, c_dot_shifts, c_dot_tables};
  const char *names[4] = {"library, by shifts", "library, through tables", "C, by shifts", "C, through tables"};
  for (int k = 0; k < 4; k++) {
    srand(1);
    for (int i = 0; i < N; i++) u[i] = (uint8_t)rand(), v[i] = (uint8_t)rand();
    results[k] = measure(names[k], loops[k]);
  }
  for (int k = 1; k < 4; k++)
    if (results[k] != results[0]) return puts("the four do not agree"), 1;
  if (!compare_rows()) return puts("the two ways of a row do not agree"), 1;
  return 0;
}
