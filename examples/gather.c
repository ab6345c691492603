/* A word arrives in seven stretches, in the order in which the cartridges happen to mount; places that never arrive are recovered by Finish. */
#include <stdio.h>
#include <string.h>

#include "axlebloom.h"

enum { M = 4, W = 8, C = 2, N = M * W, K = 22 };

static int stopped(const char *step, uint8_t number) {
  char text[AXLEBLOOM_TEXT_SIZE];
  axlebloom_text(number, text, sizeof text);
  if (number) printf("%s: refused %d, %s\n", step, number, text);
  return number;
}

int main(void) {
  /* the word as the cartridges hold it */
  uint8_t data[K], stored[N], word[N];
  memcpy(data, "cartridges in any turn", K);
  if (stopped("encode", axlebloom_encode(M, W, C, data, K, stored, N))) return 1;

  struct axlebloom_gather gather;
  if (stopped("begin", axlebloom_gather_begin(&gather, M, W, C))) return 1;

  /* six of the seven stretches, out of order, one of them empty; places 4 to 7 and 20 are on a cartridge that cannot be mounted */
  const struct { size_t first, count; } stretches[6] = {{24, 8}, {0, 4}, {12, 5}, {32, 0}, {21, 3}, {8, 4}};
  for (int i = 0; i < 6; i++) {
    if (stopped("take", axlebloom_gather_take(&gather, stretches[i].first, stored + stretches[i].first, stretches[i].count))) return 1;
  }
  printf("a place twice: refused %d\n", axlebloom_gather_take(&gather, 11, stored + 11, 1));

  /* an 8 would finish the gather for good, so ask judge first: it accepts the record's marks as they are */
  uint8_t judged = axlebloom_judge(gather.m, gather.w, gather.c, gather.marks, N);
  printf("before the seventh: judge gives %d\n", judged);
  if (stopped("take", axlebloom_gather_take(&gather, 17, stored + 17, 3))) return 1;
  if (stopped("judge", axlebloom_judge(gather.m, gather.w, gather.c, gather.marks, N))) return 1;

  if (stopped("finish", axlebloom_gather_finish(&gather, word, N).number)) return 1;
  if (stopped("extract", axlebloom_extract(M, W, C, word, N, data, K))) return 1;
  printf("%.22s\n", (const char *)data);
  printf("after the finish: refused %d\n", axlebloom_gather_take(&gather, 4, stored + 4, 1));
  return 0;
}
