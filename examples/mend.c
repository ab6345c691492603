/* Encodes a text, loses bytes, repairs one group with its own checks, recovers the rest with the checks across, and reads the text again. */
#include <stdio.h>
#include <string.h>

#include "axlebloom.h"

enum { M = 4, W = 8, C = 2, N = M * W };

static int stopped(const char *step, uint8_t number) {
  char text[AXLEBLOOM_TEXT_SIZE];
  axlebloom_text(number, text, sizeof text);
  if (number) printf("%s: refused %d, %s\n", step, number, text);
  return number;
}

int main(void) {
  uint8_t data[22] = "twenty-two bytes: text", word[N], marks[N] = {0}, back[22] = {0};
  if (axlebloom_data(M, W, C) != sizeof data || axlebloom_places(M, W, C) != N) return 1;
  if (stopped("encode", axlebloom_encode(M, W, C, data, sizeof data, word, N))) return 1;

  /* group 0 loses two places, which its own checks can repair; group 2 loses four, two more than it can repair alone */
  const int lost[] = {1, 6, 16, 17, 18, 20};
  for (size_t i = 0; i < sizeof lost / sizeof *lost; i++) marks[lost[i]] = 1, word[lost[i]] = '?';

  if (stopped("repair of group 0", axlebloom_repair(M, W, C, 0, word, N, marks, N).number)) return 1;
  printf("repair of group 2 alone: refused %d\n", axlebloom_repair(M, W, C, 2, word, N, marks, N).number);
  if (stopped("recover", axlebloom_recover(M, W, C, word, N, marks, N).number)) return 1;
  if (stopped("check", axlebloom_check(M, W, C, word, N).number)) return 1;
  if (stopped("extract", axlebloom_extract(M, W, C, word, N, back, sizeof back))) return 1;
  printf("%.22s\n", (const char *)back);

  /* if a byte is wrong but not marked, the word is refused and left unchanged, and the byte's group is named */
  word[2 * W + 5] ^= 1;
  uint8_t copy[N];
  memcpy(copy, word, N);
  struct axlebloom_answer answer = axlebloom_recover(M, W, C, word, N, marks, N);
  printf("a wrong byte: refused %d, group %d, %s\n", answer.number, answer.group, memcmp(copy, word, N) ? "changed" : "unchanged");
  return memcmp(data, back, sizeof data) != 0;
}
