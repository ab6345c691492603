/* A serve of the desk beside a plain recovery of the same word. */
#include <stdio.h>
#include <string.h>

#include "axlebloom.h"
#include "clock.h"
#include "record.h"

enum { M = 15, W = 16, C = 4, N = M * W, TURNS = 20000 };

static uint8_t word[N], marks[N], held[N], data[N];
static struct axlebloom_desk desk;

int main(void) {
  for (int i = 0; i < 178; i++) data[i] = (uint8_t)(i * 11 + 3);
  // four checks are out of sale: a word with them is made by recovering its check places
  for (int p = 0, i = 0; p < N; p++) {
    marks[p] = p % W >= W - C || p >= N - C - 2;
    if (!marks[p]) word[p] = data[i++];
  }
  if (axlebloom_recover(M, W, C, word, N, marks, N).number) return 1;
  for (int g = 0; g < M; g++) for (int i = 0; i < C + (g < 2); i++) marks[g * W + (i * 3 + g) % W] = 1;
  double start = now();
  for (int i = 0; i < TURNS; i++) {
    memcpy(held, marks, N);
    if (axlebloom_recover(M, W, C, word, N, held, N).number) return 2;
  }
  double plain = (now() - start) / TURNS * 1e9;
  uint64_t handle;
  axlebloom_fresh(&desk);
  if (axlebloom_open(&desk, M, W, C, marks, N, &handle)) return 3;
  start = now();
  for (int i = 0; i < TURNS; i++)
    if (axlebloom_serve(&desk, handle, word, N).number) return 4;
  double served = (now() - start) / TURNS * 1e9;
  record("bytes", "serve, excess 2", M, W, C, 1, "library", N, served);
  record("bytes", "serve, excess 2", M, W, C, 1, "its own recover", N, plain);
  printf("240 places, excess 2: recover %.0f ns, serve %.0f ns; the tests of the desk and its copies cost %.0f ns\n", plain, served, served - plain);
  return 0;
}
