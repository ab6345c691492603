/* A gather of a word in 15 stretches, one a group, beside a plain recovery of what came. */
#include <stdio.h>
#include <string.h>

#include "axlebloom.h"
#include "clock.h"
#include "record.h"

enum { M = 15, W = 16, C = 3, N = M * W, K = M * (W - C) - 2, TURNS = 20000 };

static uint8_t word[N], marks[N], held[N], mended[N], data[K];
static struct axlebloom_gather gather;

/* the first lost[g] places of group g never come */
static int measure(const char *what, const int *lost) {
  memset(marks, 0, N);
  for (int g = 0; g < M; g++) memset(marks + g * W, 1, lost[g]);
  double start = now();
  for (int i = 0; i < TURNS; i++) {
    memcpy(held, marks, N), memcpy(mended, word, N);
    if (axlebloom_recover(M, W, C, mended, N, held, N).number) return 2;
  }
  double plain = (now() - start) / TURNS * 1e9;
  double takes = 0;
  start = now();
  for (int i = 0; i < TURNS; i++) {
    double from = now();
    if (axlebloom_gather_begin(&gather, M, W, C)) return 3;
    for (int g = M - 1; g >= 0; g--)
      if (axlebloom_gather_take(&gather, g * W + lost[g], word + g * W + lost[g], W - lost[g])) return 4;
    takes += now() - from;
    if (axlebloom_gather_finish(&gather, mended, N).number) return 5;
  }
  double all = (now() - start) / TURNS * 1e9;
  const char *service = lost[0] ? "gather, excess 2" : "gather, all come";
  record("bytes", service, M, W, C, 1, "library", N, all);
  record("bytes", service, M, W, C, 1, "its own recover", N, plain);
  printf("240 places in 15 stretches, %s: recover %.0f ns; gather %.0f ns, of which begin and takes %.0f ns\n", what, plain, all, takes / TURNS * 1e9);
  return memcmp(mended, word, N) ? 6 : 0;
}

int main(void) {
  for (int i = 0; i < K; i++) data[i] = (uint8_t)(i * 11 + 3);
  if (axlebloom_encode(M, W, C, data, K, word, N)) return 1;
  int none[M] = {0}, most[M];
  for (int g = 0; g < M; g++) most[g] = C + (g < 2);
  int bad = measure("all come", none);
  return bad ? bad : measure("c places of each group and two more don't", most);
}
