/* Losses change while a job is open: a disk dies in the middle of a rebuild, one death too many is refused, and a disk comes back. */
#include <stdio.h>
#include <string.h>

#include "axlebloom.h"

enum { M = 4, W = 8, C = 2, N = M * W, K = 22 };

static struct axlebloom_desk desk;
static uint64_t handle;
static uint8_t stored[N]; /* a word as it was written */

static int stopped(const char *step, uint8_t number) {
  char text[AXLEBLOOM_TEXT_SIZE];
  axlebloom_text(number, text, sizeof text);
  if (number) printf("%s: refused with %d, %s\n", step, number, text);
  return number;
}

/* Disk j holds place j of every group. If one of its places is refused, those that were lost before it stay lost, and the job does not know of the
 * others: until lose_disk has returned 0, nothing may be served with it. */
static uint8_t lose_disk(size_t disk) {
  uint8_t number = 0;
  for (size_t g = 0; g < M && !number; g++) number = axlebloom_lose(&desk, handle, g * W + disk);
  return number;
}

/* Serves the word with the bytes of these disks spoilt, and says whether it came back. */
static int serve(const char *spoilt) {
  uint8_t word[N];
  memcpy(word, stored, N);
  for (; *spoilt; spoilt++) for (int g = 0; g < M; g++) word[g * W + (*spoilt - '0')] = '?';
  if (stopped("serve", axlebloom_serve(&desk, handle, word, N).number)) return 1;
  printf("served: %s\n", memcmp(word, stored, N) ? "another word" : "the word as it was written");
  return 0;
}

int main(void) {
  uint8_t data[K], marks[N] = {0};
  memcpy(data, "twenty-two bytes again", K);
  if (stopped("encode", axlebloom_encode(M, W, C, data, K, stored, N))) return 1;
  axlebloom_fresh(&desk);
  for (int g = 0; g < M; g++) marks[g * W + 1] = 1;
  if (stopped("open", axlebloom_open(&desk, M, W, C, marks, N, &handle))) return 1;
  printf("disk 1 is lost; ");
  if (serve("1")) return 1;

  if (stopped("lose", lose_disk(4))) return 1;
  printf("disk 4 dies; ");
  if (serve("14")) return 1;

  /* a third disk is too much: serve nothing with this job until another disk is back */
  printf("disk 6 dies: refused with %d; nothing is served\n", lose_disk(6));

  /* disk 1 is back, with the bytes that it had: now disk 6 can be lost, and the job continues */
  for (size_t g = 0; g < M; g++) if (stopped("find", axlebloom_find(&desk, handle, g * W + 1))) return 1;
  if (stopped("lose", lose_disk(6))) return 1;
  printf("disk 1 is back; ");
  if (serve("46")) return 1;
  return stopped("close", axlebloom_close(&desk, handle));
}
