/* An edit of one data byte beside an encoding afresh, the test that the word is a codeword, and the repair of one group that has lost c places.
 * Best of many short rounds; in each round every way is timed in turn. */
#include <stdio.h>
#include <string.h>

#include "axlebloom.h"
#include "clock.h"
#include "record.h"

enum { ROUNDS = 400, TURNS = 200, WAYS = 4 };

static uint8_t word[240], data[240], marks[240], held[240];

/* one turn of a way; the number given back */
static int turn(int way, size_t m, size_t w, size_t c, size_t i) {
  size_t n = m * w, k = m * (w - c) - 2;
  switch (way) {
    case 0: return axlebloom_encode(m, w, c, data, k, word, n);
    case 1: return axlebloom_check(m, w, c, word, n).number;
    case 2: return axlebloom_edit(m, w, c, word, n, i * 7 % k, (uint8_t)(i * 31 + 5)).number;
    default: memcpy(held, marks, n); return axlebloom_repair(m, w, c, 0, word, n, held, n).number;
  }
}

static int measure(size_t m, size_t w, size_t c) {
  double best[WAYS] = {1e9, 1e9, 1e9, 1e9};
  memset(marks, 0, sizeof marks);
  for (size_t j = 0; j < c; j++) marks[j] = 1;
  for (size_t i = 0; i < 240; i++) data[i] = (uint8_t)(i * 11 + 3);
  for (int round = 0; round < ROUNDS; round++)
    for (int way = 0; way < WAYS; way++) {
      double start = now();
      for (size_t i = 0; i < TURNS; i++)
        if (turn(way, m, w, c, i)) return 1;
      double time = (now() - start) / TURNS * 1e9;
      if (time < best[way]) best[way] = time;
    }
  double after = best[2] - best[1];
  record("bytes", "edit", m, w, c, 1, "library", m * w, best[2]);
  record("bytes", "edit", m, w, c, 1, "its own encode", m * w, best[0]);
  record("bytes", "check", m, w, c, 1, "library", m * w, best[1]);
  printf("| %zux%zu c%zu | %.0f | %.0f | %.0f | %.0f | %.0f | %.2f |\n", m, w, c, best[0], best[2], best[1], after, best[3], after / best[3]);
  return 0;
}

int main(void) {
  static const size_t shapes[][3] = {{2, 16, 3}, {15, 16, 3}, {2, 16, 1}, {15, 16, 1}, {2, 10, 2}, {15, 10, 2}, {2, 5, 3}, {15, 5, 3}, {2, 3, 1}, {15, 3, 1}};
  printf("| shape | encode | edit | of it the test | after the test | repair | repairs |\n|---|---|---|---|---|---|---|\n");
  for (size_t i = 0; i < sizeof shapes / sizeof *shapes; i++)
    if (measure(shapes[i][0], shapes[i][1], shapes[i][2])) return 1;
  return 0;
}
