/* Block rebuild in megabytes of blocks per second of processor time, beside other ways to the same end, and the bytes of stack of its largest call.
 * Every group has lost c places, and the first group as many more as the excess says.
 *
 * - library: axlebloom_rebuild;
 * - word by word: axlebloom_recover on word after word, first all to test them and then all to write them;
 * - C products, C tables: plain C that takes the same steps and makes the same test, by a row of 256 products for each constant (gcc -O2), and by the
 *   library's own loops (gcc -O3, which works on sixteen bytes at once);
 * - I steps, J steps: the same steps and the same test by the sums of ISA-L and Jerasure, with the constants and their tables made for the call, or
 *   made before it (ready). Jerasure wants blocks that begin at multiples of sixteen and are as long: it has a copy of them, whose making is not timed.
 * Each way must give back the blocks that were lost, and must see a wrong byte if an equation is left over to see it by. */
#include <isa-l/erasure_code.h>
#include <jerasure.h>
#include <stdio.h>
#include <stdlib.h>
#include <string.h>
#include <time.h>
#include <ucontext.h>

#include "axlebloom.h"
#include "axlebloom_blocks.h"
#include "record.h"
#include "rows.h"

enum { MOST = 65536, STACK = 1 << 16, PAINT = 0xA5, WAYS = 8, ROUNDS = 25, SUMS = GROUPS + 1 };

static uint8_t blocks[MOST], whole[MOST], marks[PLACES], lost[PLACES], left[MOST_ROWS][MOST];
static uint8_t aligned[PLACES * 64 + MOST] __attribute__((aligned(64))), aligned_left[MOST_ROWS][MOST] __attribute__((aligned(64)));
static uint8_t stack[STACK] __attribute__((aligned(64)));
static size_t m, w, c, n, length, stride;
static ucontext_t here, there;

static void stop(const char *why) { fprintf(stderr, "rebuild: %s\n", why); exit(1); }

static double seconds(void) {
  struct timespec t;
  clock_gettime(CLOCK_PROCESS_CPUTIME_ID, &t);
  return (double)t.tv_sec + (double)t.tv_nsec * 1e-9;
}

static int any(const uint8_t *a, size_t bytes) {
  uint8_t r = 0;
  for (size_t i = 0; i < bytes; i++) r |= a[i];
  return r != 0;
}

/* ---- the ways; each answers 0, or 9 if a sum that must be 0 is not */
static struct steps steps;

static int library(void) { return axlebloom_rebuild(m, w, c, length, blocks, n * length, marks, n).number; }

static int columns(void) {
  uint8_t word[PLACES], copy[PLACES];
  for (int write = 0; write < 2; write++)
    for (size_t x = 0; x < length; x++) {
      for (size_t p = 0; p < n; p++) word[p] = blocks[p * length + x];
      memcpy(copy, marks, n);
      if (axlebloom_recover(m, w, c, word, n, copy, n).number) return 9;
      if (write) for (size_t p = 0; p < n; p++) blocks[p * length + x] = word[p];
    }
  return 0;
}

static void prepare(void) { make_steps((int)m, (int)w, (int)c, marks, &steps); }
static int by_products(void) { return prepare(), steps_by_products(&steps, length, blocks); }
static int by_tables(void) { return prepare(), steps_by_tables(&steps, length, blocks); }

/* ISA-L: its tables, and its sums of up to four rows at once */
static uint8_t test_tables[SUMS][32 * MOST_ROWS * PLACES], write_tables[SUMS][32 * MOST_ROWS * PLACES];

static void isal_tables(const struct sums *s, uint8_t *tables) {
  uint8_t matrix[MOST_ROWS * PLACES];
  for (int r = 0; r < s->rows; r++) memcpy(matrix + r * s->sources, s->constant[r], (size_t)s->sources);
  if (s->rows) ec_init_tables(s->sources, s->rows, matrix, tables);
}

static void isal_sums(const struct sums *s, uint8_t *tables, uint8_t **to) {
  uint8_t *from[PLACES];
  for (int i = 0; i < s->sources; i++) from[i] = blocks + (size_t)s->source[i] * length;
  if (s->rows) ec_encode_data((int)length, s->sources, s->rows, tables, from, to);
}

static void isal_prepare(void) {
  prepare();
  for (int i = 0; i < steps.tests; i++) isal_tables(&steps.test[i], test_tables[i]);
  for (int i = 0; i < steps.writes; i++) isal_tables(&steps.write[i], write_tables[i]);
}

static int isal_ready(void) {
  uint8_t *to[MOST_ROWS];
  for (int i = 0; i < steps.tests; i++) {
    for (int r = 0; r < steps.test[i].rows; r++) to[r] = left[r];
    isal_sums(&steps.test[i], test_tables[i], to);
    for (int r = 0; r < steps.test[i].rows; r++) if (any(left[r], length)) return 9;
  }
  for (int i = 0; i < steps.writes; i++) {
    for (int r = 0; r < steps.write[i].rows; r++) to[r] = blocks + (size_t)steps.write[i].to[r] * length;
    isal_sums(&steps.write[i], write_tables[i], to);
  }
  return 0;
}

static int isal_steps(void) { return isal_prepare(), isal_ready(); }

/* Jerasure, on the copy whose blocks begin at multiples of sixteen */
static int test_matrix[SUMS][MOST_ROWS * PLACES], write_matrix[SUMS][MOST_ROWS * PLACES];

static void jerasure_matrix(const struct sums *s, int *matrix) {
  for (int r = 0; r < s->rows; r++)
    for (int i = 0; i < s->sources; i++) matrix[r * s->sources + i] = s->constant[r][i];
}

static void jerasure_sums(const struct sums *s, int *matrix, uint8_t **to) {
  uint8_t *from[PLACES];
  for (int i = 0; i < s->sources; i++) from[i] = aligned + (size_t)s->source[i] * stride;
  if (s->rows) jerasure_matrix_encode(s->sources, s->rows, 8, matrix, (char **)from, (char **)to, (int)stride);
}

static void jerasure_prepare(void) {
  prepare();
  for (int i = 0; i < steps.tests; i++) jerasure_matrix(&steps.test[i], test_matrix[i]);
  for (int i = 0; i < steps.writes; i++) jerasure_matrix(&steps.write[i], write_matrix[i]);
}

static int jerasure_ready(void) {
  uint8_t *to[MOST_ROWS];
  for (int i = 0; i < steps.tests; i++) {
    for (int r = 0; r < steps.test[i].rows; r++) to[r] = aligned_left[r];
    jerasure_sums(&steps.test[i], test_matrix[i], to);
    for (int r = 0; r < steps.test[i].rows; r++) if (any(aligned_left[r], length)) return 9;
  }
  for (int i = 0; i < steps.writes; i++) {
    for (int r = 0; r < steps.write[i].rows; r++) to[r] = aligned + (size_t)steps.write[i].to[r] * stride;
    jerasure_sums(&steps.write[i], write_matrix[i], to);
  }
  return 0;
}

static int jerasure_steps(void) { return jerasure_prepare(), jerasure_ready(); }

static const struct way { const char *name; int (*call)(void); void (*before)(void); } ways[WAYS] = {
  {"library", library, NULL}, {"word by word", columns, NULL}, {"C products", by_products, NULL}, {"C tables", by_tables, NULL},
  {"I steps", isal_steps, NULL}, {"I steps ready", isal_ready, isal_prepare},
  {"J steps", jerasure_steps, NULL}, {"J steps ready", jerasure_ready, jerasure_prepare},
};

static int aligned_way(int i) { return i >= WAYS - 2; }

/* ---- a wrong byte in a lost block is mended; one in a present block is seen if it can be */
static void lay(void) {
  for (size_t p = 0; p < n; p++) {
    memset(aligned + p * stride, 0, stride);
    memcpy(aligned + p * stride, blocks + p * length, length);
  }
}

static void try_way(int i) {
  const struct way *way = &ways[i];
  memcpy(blocks, whole, n * length);
  for (size_t p = 0; p < n; p++) if (lost[p]) memset(blocks + p * length, 0x5A, length);
  memcpy(marks, lost, n), lay();
  if (way->before) way->before();
  if (way->call()) stop("a way refused");
  for (size_t p = 0; p < n; p++)
    if (memcmp(aligned_way(i) ? aligned + p * stride : blocks + p * length, whole + p * length, length)) stop("a way gave other blocks");
  memcpy(marks, lost, n);
  if (!steps.tests) return;
  size_t p = n - 1;
  while (lost[p]) p--;
  blocks[p * length + length / 2] ^= 1, lay();
  if (!way->call()) stop("a way did not see a wrong byte");
  memcpy(blocks, whole, n * length), lay();
}

/* ISA-L leaves the upper halves of vector registers in use, which slows the SSE2 code of whatever runs next */
static void clean_registers(void) {
  if (__builtin_cpu_supports("avx")) __asm__ volatile("vzeroupper" ::: "memory");
}

/* seconds a call, over a few milliseconds */
static double time_way(int i) {
  int turns = 0;
  memcpy(marks, lost, n);
  if (ways[i].before) ways[i].before();
  clean_registers();
  double begin = seconds(), took;
  do memcpy(marks, lost, n), ways[i].call(), turns++;
  while ((took = seconds() - begin) < 0.002);
  return took / turns;
}

static void call(void) { library(); }
static void nothing(void) {}

/* bytes of the painted stack down to the lowest that was written */
static size_t touched(void f(void)) {
  memset(stack, PAINT, STACK);
  getcontext(&there);
  there.uc_stack.ss_sp = stack, there.uc_stack.ss_size = STACK, there.uc_link = &here;
  makecontext(&there, f, 0);
  swapcontext(&here, &there);
  size_t low = 0;
  while (stack[low] == PAINT) low++;
  return STACK - low;
}

static void measure(size_t excess) {
  double best[WAYS];
  for (size_t p = 0; p < n; p++) marks[p] = p % w >= w - c || (p / w == m - 1 && p % w >= w - c - 2);
  for (size_t b = 0; b < n * length; b++) blocks[b] = (uint8_t)(b * 7 + b / 5);
  if (library()) stop("an encoding was refused");
  memcpy(whole, blocks, n * length);
  for (size_t p = 0; p < n; p++) lost[p] = p % w < c;
  for (size_t e = 0; e < excess; e++) lost[c + e] = 1;
  memcpy(marks, lost, n), prepare();
  for (int i = 0; i < WAYS; i++) try_way(i), best[i] = 1;
  memcpy(blocks, whole, n * length), lay();
  for (int r = 0; r < ROUNDS; r++)
    for (int i = 0; i < WAYS; i++) { double t = time_way(i); if (t < best[i]) best[i] = t; }
  printf("| %zu x %zu, %zu | %zu | %zu |", m, w, c, length, excess);
  for (int i = 0; i < WAYS; i++) printf(" %.*f |", n * length / best[i] < 1e8, n * length / best[i] / 1e6);
  printf("\n");
  char service[16];
  snprintf(service, sizeof service, "excess %d", (int)excess);
  for (int i = 0; i < WAYS; i++) record("steps", service, m, w, c, length, ways[i].name, n * length, best[i] * 1e9);
}

int main(void) {
  static const size_t shapes[][3] = {{15, 16, 4}, {15, 16, 2}, {8, 10, 2}, {2, 3, 1}};
  size_t most = 0;
  plain_tables(), rows_tables();
  printf("| groups x width, checks | length | excess |");
  for (int i = 0; i < WAYS; i++) printf(" %s |", ways[i].name);
  printf("\n|---|---|---|---|---|---|---|---|---|---|---|\n");
  for (size_t s = 0; s < 4; s++) {
    m = shapes[s][0], w = shapes[s][1], c = shapes[s][2], n = m * w;
    const size_t lengths[] = {16, 273, MOST / n};
    for (size_t i = 0; i < (MOST / n == 273 ? 2 : 3); i++) {
      length = lengths[i], stride = (length + 15) / 16 * 16;
      for (size_t excess = 0; excess < 3; excess++) {
        measure(excess);
        memcpy(marks, lost, n);
        size_t used = touched(call), none = touched(nothing);
        if (used - none > most) most = used - none;
      }
    }
  }
  printf("\nstack: %zu bytes\n", most);
  return 0;
}
