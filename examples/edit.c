/* Changes single bytes of an index record in place: only the places that changed have to be written back. A word that is not a codeword is refused. */
#include <stdio.h>
#include <string.h>

#include "axlebloom.h"

enum { M = 4, W = 8, C = 2, N = M * W, K = 22 };

static int stopped(const char *step, uint8_t number) {
  char text[AXLEBLOOM_TEXT_SIZE];
  axlebloom_text(number, text, sizeof text);
  if (number) printf("%s: refused with %d, %s\n", step, number, text);
  return number;
}

int main(void) {
  uint8_t data[K], word[N], stored[N], marks[N] = {0};
  memcpy(data, "shelf 17, tape 4: full", K);
  if (stopped("encode", axlebloom_encode(M, W, C, data, K, word, N))) return 1;
  memcpy(stored, word, N);

  /* data byte 15 becomes a 5; that is byte 3 of group 2, since 6 bytes of each group but the last are data */
  if (stopped("edit", axlebloom_edit(M, W, C, word, N, 15, '5').number)) return 1;
  printf("places to write back:");
  for (int p = 0; p < N; p++) if (word[p] != stored[p]) printf(" %d", p);
  printf("\n");

  /* the word is the codeword of the changed data */
  if (stopped("check", axlebloom_check(M, W, C, word, N).number)) return 1;
  if (stopped("extract", axlebloom_extract(M, W, C, word, N, data, K))) return 1;
  printf("%.22s\n", (const char *)data);

  /* a byte of group 0 is wrong: the edit is refused, since it would hide that, and the group is named */
  word[1] ^= 1;
  struct axlebloom_answer answer = axlebloom_edit(M, W, C, word, N, 15, '6');
  printf("with a wrong byte: refused with %d, group %d\n", answer.number, answer.group);

  /* mark the byte that you suspect, recover, and edit again; in a box, compare a checksum first, since a 0 does not prove the suspicion */
  marks[1] = 1;
  if (stopped("recover", axlebloom_recover(M, W, C, word, N, marks, N).number)) return 1;
  if (stopped("edit", axlebloom_edit(M, W, C, word, N, 15, '6').number)) return 1;
  if (stopped("extract", axlebloom_extract(M, W, C, word, N, data, K))) return 1;
  printf("%.22s\n", (const char *)data);
  return 0;
}
