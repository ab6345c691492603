/* Block rebuild over the block's length, beside the stock libraries ISA-L and Jerasure on the same blocks: megabytes of blocks a second, lost ones
 * included. Every group has lost c places, and the first one none or two more. The library works everything out in each call and tests that the present
 * bytes contradict nothing; the stock libraries multiply a matrix by the blocks and test nothing, with the matrix ready before, or inverted in
 * each call by their own inversion. Best of many rounds; in each round every way is timed in turn. */
#include <stdio.h>
#include <stdlib.h>
#include <string.h>

#include "axlebloom_blocks.h"
#include "clock.h"
#include "plain.h"
#include "record.h"
#include "stock.h"

enum { MOST = 65536, WAYS = 5, ROUNDS = 15 };
static const char *ways[WAYS] = {"library", "ISA-L, matrix ready", "ISA-L, inverting", "Jerasure, matrix ready", "Jerasure, inverting"};

static uint8_t blocks[MOST] __attribute__((aligned(64))), whole[MOST], marks[PLACES], lost[PLACES];
static struct plan plans[2];
static size_t m, w, c, n, length, excess;

static void stop(const char *why) { fprintf(stderr, "blocks: %s\n", why), exit(1); }

static void run(int way) {
  const struct stock *stock = way < 3 ? &isal : &jerasure;
  struct plan *plan = &plans[way >= 3];
  uint8_t *place[PLACES];
  if (way == 0) {
    memcpy(marks, lost, n);
    if (axlebloom_rebuild(m, w, c, length, blocks, n * length, marks, n).number) stop("refused");
    return;
  }
  if (way % 2 == 0 && make_plan(stock, (int)m, (int)w, (int)c, lost, plan)) stop("no matrix");
  for (size_t p = 0; p < n; p++) place[p] = blocks + p * length;
  stock->run(plan, place, (int)length);
}

/* nanoseconds of one call, from one or more that take about a hundredth of a second */
static double timed(int way) {
  int calls = 0;
  if (__builtin_cpu_supports("avx")) __asm__ volatile("vzeroupper" ::: "memory");
  for (size_t p = 0; p < n; p++) if (lost[p]) memset(blocks + p * length, 0xEE, length);
  double start = now(), took;
  do run(way), calls++;
  while ((took = now() - start) < 0.004);
  if (memcmp(blocks, whole, n * length)) stop("the blocks are not those that were lost");
  return took * 1e9 / calls;
}

static void measure(void) {
  double best[WAYS];
  for (size_t p = 0; p < n; p++) marks[p] = p % w >= w - c || (p / w == m - 1 && p % w >= w - c - 2);
  for (size_t b = 0; b < n * length; b++) blocks[b] = (uint8_t)(b * 7 + b / 5);
  if (axlebloom_rebuild(m, w, c, length, blocks, n * length, marks, n).number) stop("not encoded");
  memcpy(whole, blocks, n * length);
  for (size_t p = 0; p < n; p++) lost[p] = p % w < c || p < c + excess;
  if (make_plan(&isal, (int)m, (int)w, (int)c, lost, &plans[0]) || make_plan(&jerasure, (int)m, (int)w, (int)c, lost, &plans[1])) stop("no matrix");
  for (int way = 0; way < WAYS; way++) best[way] = 1e18;
  for (int round = 0; round < ROUNDS; round++)
    for (int way = 0; way < WAYS; way++) {
      double t = timed(way);
      if (t < best[way]) best[way] = t;
    }
  printf("| %zux%zu c%zu | %zu | %zu |", m, w, c, excess, length);
  for (int way = 0; way < WAYS; way++) {
    printf(" %.1f |", (double)(n * length) / best[way] * 1e3);
    record("blocks", excess ? "rebuild, excess 2" : "rebuild, excess 0", m, w, c, length, ways[way], n * length, best[way]);
  }
  puts("");
}

int main(void) {
  static const size_t shapes[][3] = {{15, 16, 2}, {8, 10, 2}, {4, 8, 2}};
  plain_tables();
  printf("| shape | excess | length |");
  for (int way = 0; way < WAYS; way++) printf(" %s |", ways[way]);
  puts("\n|---|---|---|---|---|---|---|---|");
  for (size_t s = 0; s < 2 * (sizeof shapes / sizeof *shapes); s++) {
    m = shapes[s / 2][0], w = shapes[s / 2][1], c = shapes[s / 2][2], n = m * w, excess = s % 2 * 2;
    /* Jerasure takes lengths that are multiples of eight */
    for (length = 16; length < MOST / n; length *= 4) measure();
    length = MOST / n / 16 * 16;
    measure();
  }
  return 0;
}
