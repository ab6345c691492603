/* Place j of every group lies on disk j, and the manual promises "up to c whole disks and two sectors": is this loss covered, and by which disks? */
#include <stdio.h>
#include <string.h>

#include "axlebloom.h"

enum { M = 4, W = 8, C = 2, N = M * W };

static uint8_t marks[N];

static void disk_lost(int disk) {
  for (int group = 0; group < M; group++) marks[group * W + disk] = 1;
}

static void report(const char *what) {
  struct axlebloom_profile_answer answer = axlebloom_profile(M, W, C, marks, N);
  printf("%s: ", what);
  if (answer.number == AXLEBLOOM_DONE) {
    printf("covered; disks");
    for (int i = 0; i < answer.count; i++) printf(" %d", answer.place[i]);
    printf("\n");
  } else if (answer.number == AXLEBLOOM_NO_PROFILE) {
    /* more than the manual promises, but perhaps not more than the code can mend: ask before you fetch a disk */
    uint8_t judged = axlebloom_judge(M, W, C, marks, N);
    printf("not covered; %s\n", judged == AXLEBLOOM_DONE ? "it can be recovered all the same" : "it can't be recovered");
  } else {
    printf("refused with %d\n", answer.number);
  }
}

int main(void) {
  disk_lost(3);
  disk_lost(6);
  report("disks 3 and 6");
  marks[0 * W + 1] = marks[2 * W + 5] = 1;
  report("and two sectors");
  marks[3 * W + 0] = 1;
  report("and a third sector");

  /* two places of every group, but other ones in each */
  memset(marks, 0, N);
  for (int group = 0; group < M; group++) marks[group * W + 2 * group] = marks[group * W + 2 * group + 1] = 1;
  report("two places of every group");
  marks[0] = 2;
  report("a mark of 2");
  return 0;
}
