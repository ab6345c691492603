/* The sixteen-bit edition: encodes a word for a rack of 32 groups of 100 places, loses three places of one group and five of another, and recovers
 * them. */
#include <stdio.h>
#include <string.h>

#include "axlebloom_wide.h"

enum { M = 32, W = 100, C = 3, N = M * W, K = M * (W - C) - 2 };

static uint16_t data[K], word[N], back[K];
static uint8_t marks[N];

static int stopped(const char *step, uint8_t number) {
  char text[AXLEBLOOM_TEXT_SIZE];
  axlebloom_text(number, text, sizeof text);
  if (number) printf("%s: refused %d, %s\n", step, number, text);
  return number;
}

int main(void) {
  if (axlebloom_wide_data(M, W, C) != K || axlebloom_wide_places(M, W, C) != N) return 1;
  for (size_t i = 0; i < K; i++) data[i] = (uint16_t)(i * i);
  if (stopped("encode", axlebloom_wide_encode(M, W, C, data, K, word, N))) return 1;

  /* group 7 loses three places, which its own checks can repair; group 20 loses five, two more than it can repair alone */
  const size_t lost[] = {7 * W, 7 * W + 50, 7 * W + 99, 20 * W, 20 * W + 1, 20 * W + 2, 20 * W + 3, 20 * W + 4};
  for (size_t i = 0; i < sizeof lost / sizeof *lost; i++) marks[lost[i]] = 1, word[lost[i]] = 0;

  if (stopped("repair of group 7", axlebloom_wide_repair(M, W, C, 7, word, N, marks, N).number)) return 1;
  printf("repair of group 20 alone: refused %d\n", axlebloom_wide_repair(M, W, C, 20, word, N, marks, N).number);
  if (stopped("recover", axlebloom_wide_recover(M, W, C, word, N, marks, N).number)) return 1;
  if (stopped("extract", axlebloom_wide_extract(M, W, C, word, N, back, K))) return 1;
  puts(memcmp(data, back, sizeof data) ? "other data" : "the data are back");
  return memcmp(data, back, sizeof data) != 0;
}
