/* The judge of the profile from C: patterns done by hand, and bad calls; no mark changes. */
#include <stdio.h>
#include <string.h>

#include "axlebloom.h"

static int failures, calls;
static uint8_t marks[240];

static void clear(void) { memset(marks, 0, sizeof marks); }

/* place j lost in m groups of w */
static void lose(size_t m, size_t w, size_t j) {
  for (size_t g = 0; g < m; g++) marks[g * w + j] = 1;
}

/* the answer is the expected one, place and all, and no mark has changed */
static void expect(const char *what, size_t m, size_t w, size_t c, size_t n, struct axlebloom_profile_answer expected) {
  uint8_t before[240];
  memcpy(before, marks, sizeof marks);
  struct axlebloom_profile_answer answer = axlebloom_profile(m, w, c, n ? marks : NULL, n);
  calls++;
  if (memcmp(&answer, &expected, sizeof answer) || memcmp(before, marks, sizeof marks)) {
    printf("%s: %d, %d places %d %d %d %d, or a mark changed\n", what, answer.number, answer.count, answer.place[0], answer.place[1], answer.place[2],
           answer.place[3]);
    failures++;
  }
  if (answer.number == 0 && axlebloom_judge(m, w, c, marks, n)) printf("%s: yes, but judge refuses\n", what), failures++;
}

#define YES(...) ((struct axlebloom_profile_answer){0, __VA_ARGS__})
#define REFUSED(number) ((struct axlebloom_profile_answer){number, 0, {0, 0, 0, 0}})

static void patterns(void) {
  expect("nothing lost", 15, 16, 4, 240, YES(0, {0, 0, 0, 0}));
  marks[0] = marks[239] = 1;
  expect("two sectors", 15, 16, 4, 240, YES(0, {0, 0, 0, 0}));
  marks[100] = 1;
  expect("three sectors: the first place is taken", 15, 16, 4, 240, YES(1, {0, 0, 0, 0}));
  clear(), lose(15, 16, 3), lose(15, 16, 7), lose(15, 16, 11), lose(15, 16, 15);
  expect("four disks", 15, 16, 4, 240, YES(4, {3, 7, 11, 15}));
  marks[0] = marks[238] = 1;
  expect("four disks and two sectors", 15, 16, 4, 240, YES(4, {3, 7, 11, 15}));
  marks[17] = 1;
  expect("and a third", 15, 16, 4, 240, REFUSED(28));
  marks[17] = 0, marks[239] = 0;
  expect("a disk less one place", 15, 16, 4, 240, YES(4, {3, 7, 11, 15}));
  clear(), marks[0] = marks[1] = marks[5] = 1;
  expect("fewer lost at 0 than at 1, but 0 is enough", 2, 4, 1, 8, YES(1, {0, 0, 0, 0}));
  clear(), marks[0] = marks[1] = marks[6] = marks[7] = 1;
  expect("four places lost crosswise", 2, 4, 1, 8, REFUSED(28));
  if (axlebloom_judge(2, 4, 1, marks, 8)) printf("crosswise: judge refuses\n"), failures++;
}

static void bad_calls(void) {
  clear();
  expect("no groups", 0, 16, 4, 240, REFUSED(1));
  expect("too many groups", (size_t)-1, 16, 4, 240, REFUSED(1));
  expect("no checks", 15, 16, 0, 240, REFUSED(2));
  expect("too narrow", 15, 5, 4, 75, REFUSED(3));
  expect("no data", 1, 3, 1, 3, REFUSED(4));
  expect("null", 15, 16, 4, 0, REFUSED(5));
  expect("one short", 15, 16, 4, 239, REFUSED(5));
  marks[239] = 2;
  expect("a mark of 2", 15, 16, 4, 240, REFUSED(6));
}

int main(void) {
  patterns();
  bad_calls();
  printf("%d calls of profile, %d failures\n", calls, failures);
  return failures != 0;
}
