/* A gather from C: every byte of the record after each call, bad records, and the one refusal that changes it. */
#include <stdio.h>
#include <string.h>

#include "axlebloom.h"

static int failures, calls;
static struct axlebloom_gather gather, before;
static uint8_t word[240], lent[240];

static void fail(const char *what) { printf("%s\n", what), failures++; }

static void save(void) { before = gather, memcpy(lent, word, sizeof word), calls++; }

/* record and word are as they were */
static void same(const char *what, uint8_t number, uint8_t expected) {
  if (number != expected) printf("%s: %d in place of %d\n", what, number, expected), failures++;
  if (memcmp(&gather, &before, sizeof gather) || memcmp(word, lent, sizeof word)) fail(what);
}

static void begin(const char *what, size_t m, size_t w, size_t c, uint8_t expected) {
  save();
  same(what, axlebloom_gather_begin(&gather, m, w, c), expected);
}

static void take(const char *what, size_t first, size_t count, uint8_t expected) {
  static const uint8_t bytes[240] = {1, 1, 0, 78, 206, 128};
  save();
  uint8_t number = axlebloom_gather_take(&gather, first, count ? bytes + first % 6 : NULL, count);
  if (!expected) {
    memcpy(before.bytes + first, bytes + first % 6, count);
    memset(before.marks + first, 0, count);
  }
  same(what, number, expected);
}

/* the finish; if it finishes the gather, nothing but the finished byte changes, and the word holds what is expected of it */
static void finish(const char *what, size_t n, uint8_t number, uint8_t group, const uint8_t *expected) {
  save();
  struct axlebloom_answer answer = axlebloom_gather_finish(&gather, n ? word : NULL, n);
  if (answer.group != group) fail(what);
  if (number == 0 || number == 8 || number == 9) before.finished = 1;
  if (expected) memcpy(lent, expected, n);
  same(what, answer.number, number);
}

/* the word of the requirements */
static const uint8_t paper[6] = {1, 1, 0, 78, 206, 128};

static void good_calls(void) {
  memset(&gather, 0xA5, sizeof gather);
  memset(word, 0x5A, sizeof word);
  if (axlebloom_gather_begin(&gather, 2, 3, 1)) fail("begin");
  memset(&before, 0, sizeof before), memset(before.marks, 1, 240), before.m = 2, before.w = 3, before.c = 1;
  if (memcmp(&gather, &before, sizeof gather)) fail("a gather that has begun");
  take("none at n", 6, 0, 0);
  take("the end", 5, 1, 0);
  take("the middle", 3, 1, 0);
  take("none at 0", 0, 0, 0);
  take("a place twice", 5, 1, 24);
  take("across one that came", 2, 2, 24);
  take("beyond", 6, 1, 23);
  take("none beyond", 7, 0, 23);
  take("far beyond", (size_t)-1, 1, 23);
  take("far beyond and long", (size_t)-1, 240, 23);
  take("too long", 0, 7, 23);
  take("two more", 1, 2, 0);
  finish("one short", 5, 5, 0, NULL);
  finish("none", 0, 5, 0, NULL);
  finish("too long", 240, 5, 0, NULL);
  finish("two lost", 6, 0, 0, paper);
  take("after the finish", 0, 1, 22);
  take("beyond, after the finish", 9, 1, 22);
  finish("a second finish", 6, 22, 0, NULL);
  finish("a second finish, one short", 5, 22, 0, NULL);
}

static void eight_and_nine(void) {
  axlebloom_gather_begin(&gather, 2, 3, 1);
  take("one place", 5, 1, 0);
  if (axlebloom_judge(gather.m, gather.w, gather.c, gather.marks, 6) != 8) fail("judge on the record's marks");
  struct axlebloom_gather copy = gather;
  finish("five lost", 6, 8, 0, NULL);
  take("after the 8", 0, 1, 22);
  finish("after the 8", 6, 22, 0, NULL);
  gather = copy;
  take("the copy goes on", 3, 1, 0);
  take("and on", 1, 2, 0);
  memset(gather.bytes, 0xEE, 1), memset(gather.bytes + 4, 0xEE, 1), memset(gather.bytes + 6, 0xEE, 234), memset(gather.marks + 6, 0xEE, 234);
  finish("the copy, with bytes in the lost places and past n", 6, 0, 0, paper);
  axlebloom_gather_begin(&gather, 2, 3, 1);
  uint8_t wrong[6] = {1, 1, 0, 78, 206, 129};
  if (axlebloom_gather_take(&gather, 0, wrong, 6)) fail("a wrong word");
  finish("a wrong byte", 6, 9, 1, NULL);
  finish("after the 9", 6, 22, 0, NULL);
}

static void bad_records(void) {
  begin("no groups", 0, 3, 1, 1);
  begin("too many checks", 2, 3, (size_t)-1, 2);
  begin("too narrow", 2, 2, 1, 3);
  begin("no data", 1, 3, 1, 4);
  axlebloom_gather_begin(&gather, 2, 3, 1);
  gather.m = 16, take("m of 16", 0, 1, 1), finish("m of 16", 6, 1, 0, NULL);
  gather.m = 2, gather.c = 0, take("c of 0", 0, 1, 2), finish("c of 0", 6, 2, 0, NULL);
  gather.c = 1, gather.w = 255, take("w of 255", 0, 1, 3), finish("w of 255", 6, 3, 0, NULL);
  gather.w = 3, gather.m = 1, take("no data", 0, 1, 4), finish("no data", 6, 4, 0, NULL);
  gather.m = 2, gather.marks[5] = 2, take("a mark of 2", 0, 1, 6), finish("a mark of 2", 6, 6, 0, NULL);
  gather.marks[5] = 1, gather.finished = 2, take("a finished byte of 2", 0, 1, 6), finish("a finished byte of 2", 6, 6, 0, NULL);
  gather.finished = 1, gather.marks[5] = 2, take("finished, and a mark of 2", 0, 1, 6);
  gather.marks[5] = 1, gather.marks[6] = 2, take("finished, a mark past n", 0, 1, 22);
}

int main(void) {
  good_calls();
  eight_and_nine();
  bad_records();
  printf("%d calls on a gather, %d failures\n", calls, failures);
  return failures != 0;
}
