/* Edits from C: each beside an encoding of the changed data, and refusals, which change nothing. */
#include <stdio.h>
#include <string.h>

#include "axlebloom.h"

static int failures, calls;
static uint8_t data[240], word[240], fresh[240];

static void fail(const char *what) { printf("%s\n", what), failures++; }

/* every number of a shape, with a byte of its own each time; at the end all data are new */
static void all_numbers(size_t m, size_t w, size_t c) {
  size_t n = axlebloom_places(m, w, c), k = axlebloom_data(m, w, c);
  for (size_t i = 0; i < k; i++) data[i] = (uint8_t)(i * 29 + m + w * 3 + c);
  if (axlebloom_encode(m, w, c, data, k, word, n)) fail("encode");
  for (size_t i = 0; i < k; i++) {
    data[i] = (uint8_t)(i * 101 + w);
    struct axlebloom_answer answer = axlebloom_edit(m, w, c, word, n, i, data[i]);
    axlebloom_encode(m, w, c, data, k, fresh, n);
    calls++;
    if (answer.number || answer.group || memcmp(word, fresh, n)) printf("%zu groups of %zu, c %zu, number %zu: ", m, w, c, i), fail("not as encoded");
  }
}

/* the number and the group are the expected ones, and the word hasn't changed */
static void expect(const char *what, size_t m, size_t w, size_t c, size_t n, size_t number, int expected, int group) {
  memcpy(fresh, word, sizeof word);
  struct axlebloom_answer answer = axlebloom_edit(m, w, c, n ? word : NULL, n, number, 7);
  calls++;
  if (answer.number != expected || answer.group != group || memcmp(word, fresh, sizeof word)) fail(what);
}

static void refusals(void) {
  static const uint8_t paper[6] = {1, 1, 0, 78, 206, 128};
  memcpy(word, paper, 6);
  expect("no groups", 0, 3, 1, 6, 0, 1, 0);
  expect("too many groups", (size_t)-1, 3, 1, 6, 0, 1, 0);
  expect("no checks", 2, 3, 0, 6, 0, 2, 0);
  expect("too narrow", 2, 2, 1, 6, 0, 3, 0);
  expect("no data", 1, 3, 1, 3, 0, 4, 0);
  expect("four checks, before the length", 2, 6, 4, 6, 0, 29, 0);
  expect("null", 2, 3, 1, 0, 0, 5, 0);
  expect("one short, before the number", 2, 3, 1, 5, 2, 5, 0);
  expect("number k", 2, 3, 1, 6, 2, 30, 0);
  expect("the largest number", 2, 3, 1, 6, (size_t)-1, 30, 0);
  word[5] = 129;
  expect("the number, before the word", 2, 3, 1, 6, 2, 30, 0);
  expect("the second group contradicts", 2, 3, 1, 6, 0, 9, 1);
  word[0] = 2;
  expect("the first group contradicts", 2, 3, 1, 6, 1, 9, 0);
}

int main(void) {
  for (size_t c = 1; c <= 3; c++)
    for (size_t w = c + 2; w <= 16; w++)
      for (size_t m = 1; m <= 15; m++)
        if (axlebloom_describe(m, w, c) == 0) all_numbers(m, w, c);
  refusals();
  printf("%d calls of edit, %d failures\n", calls, failures);
  return failures != 0;
}
