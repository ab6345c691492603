/* Opens a job for words that have all lost the same places, recovers two words with it, reads its served count and closes it. */
#include <stdio.h>
#include <string.h>

#include "axlebloom.h"

enum { M = 4, W = 8, C = 2, N = M * W, K = 22 };

static int stopped(const char *step, uint8_t number) {
  char text[AXLEBLOOM_TEXT_SIZE];
  axlebloom_text(number, text, sizeof text);
  if (number) printf("%s: refused %d, %s\n", step, number, text);
  return number;
}

int main(void) {
  struct axlebloom_desk desk;
  uint64_t handle;
  uint32_t served;
  axlebloom_fresh(&desk);

  /* group 2 has lost four places, two more than it can recover on its own */
  uint8_t marks[N] = {0};
  for (int i = 16; i < 20; i++) marks[i] = 1;
  if (stopped("open", axlebloom_open(&desk, M, W, C, marks, N, &handle))) return 1;
  printf("handle %d\n", (int)handle);

  const char *texts[] = {"the first of two boxes", "and the second of them"};
  for (int box = 0; box < 2; box++) {
    uint8_t data[K], word[N];
    memcpy(data, texts[box], K);
    if (stopped("encode", axlebloom_encode(M, W, C, data, K, word, N))) return 1;
    for (int i = 0; i < N; i++) if (marks[i]) word[i] = '?';
    memset(data, 0, K);
    if (stopped("serve", axlebloom_serve(&desk, handle, word, N).number)) return 1;
    if (stopped("extract", axlebloom_extract(M, W, C, word, N, data, K))) return 1;
    printf("%.22s\n", (const char *)data);
  }

  if (stopped("read", axlebloom_read(&desk, handle, &served))) return 1;
  printf("served %d\n", (int)served);
  if (stopped("close", axlebloom_close(&desk, handle))) return 1;
  printf("after the close: refused %d\n", axlebloom_read(&desk, handle, &served));
  return 0;
}
