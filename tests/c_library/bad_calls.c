/* Bad calls: each must be refused by the number the requirements give, and change no byte. */
#include <stdio.h>
#include <string.h>

#include "axlebloom.h"

static int failures, calls;
static uint8_t word[240], marks[240], data[240];

static void fill(void) {
  for (int i = 0; i < 240; i++) word[i] = (uint8_t)(i * 7 + 1), marks[i] = 0, data[i] = (uint8_t)(i * 5);
}

/* the answer is the expected one and no byte has changed since fill, but for the mark at odd */
static void expect(const char *what, int expected, int number, int odd, uint8_t mark) {
  uint8_t w[240], m[240], d[240];
  memcpy(w, word, 240), memcpy(m, marks, 240), memcpy(d, data, 240);
  fill();
  if (odd >= 0) marks[odd] = mark;
  calls++;
  if (number != expected || memcmp(w, word, 240) || memcmp(m, marks, 240) || memcmp(d, data, 240)) {
    printf("%s: %d for %d, or a byte changed\n", what, number, expected);
    failures++;
  }
  fill();
}

/* the number of an answer that carries this group, else 255 */
static int number_of(int group, struct axlebloom_answer answer) { return answer.group == group ? answer.number : 255; }

/* a refused call on marks of 7 has left each of them */
static void expect_marks(const char *what, int expected, int number) {
  calls++;
  for (int i = 0; i < 240; i++) {
    if (marks[i] != 7) number = 255;
  }
  if (number == expected) return;
  printf("%s: %d for %d, or a mark changed\n", what, number, expected);
  failures++;
}

/* the marks of the check places of 2 groups of 5 with 2 checks, and what a recovery by them makes of data */
static void check_marks(void) {
  const uint8_t expected[10] = {0, 0, 0, 1, 1, 0, 1, 1, 1, 1}, four[4] = {3, 1, 4, 1};
  uint8_t whole[10], some[10] = {3, 1, 4, 7, 7, 1, 7, 7, 7, 7}, lost[10];
  memset(lost, 7, 10);
  calls += 3;
  if (axlebloom_check_marks(2, 5, 2, lost, 10) || memcmp(lost, expected, 10)) printf("check marks of 2, 5, 2\n"), failures++;
  if (axlebloom_encode(2, 5, 2, four, 4, whole, 10)) printf("encode of 2, 5, 2\n"), failures++;
  if (number_of(0, axlebloom_recover(2, 5, 2, some, 10, lost, 10)) || memcmp(some, whole, 10)) printf("a recovery by check marks\n"), failures++;
}

/* the group that a 9 carries, in a word of zeroes where only the bytes at these two places are not 0; the second may be lost */
static void expect_group(const char *what, int group, int place, int other, int is_lost) {
  uint8_t zeroes[240] = {0}, lost[240] = {0};
  zeroes[place] = zeroes[other] = 1, lost[other] = (uint8_t)is_lost;
  struct axlebloom_answer answer = axlebloom_recover(15, 16, 4, zeroes, 240, lost, 240);
  calls++;
  if (answer.number == 9 && answer.group == group) return;
  printf("%s: %d and group %d\n", what, answer.number, answer.group);
  failures++;
}

/* ---- desks */

enum { OPEN, SERVE, READ, CLOSE, LOSE, FIND, CALLS };

/* all that is lent to a call on a desk, and the same with a sound one */
static struct lent {
  struct axlebloom_desk desk;
  uint8_t word[240], marks[240];
  uint64_t handle;
  uint32_t served;
} lent, sound;

static uint64_t state = 1;

static uint64_t next(void) {
  state ^= state << 13, state ^= state >> 7, state ^= state << 17;
  return state >> 8;
}

static int rarely(void) { return next() % 32 == 0; }

static void wrong(const char *what, int call, int number) {
  printf("%s, call %d: %d\n", what, call, number);
  failures++;
}

/* the group that the last call gave, 0 if it gives none */
static uint8_t group;

/* n is the place of a lose or find */
static uint8_t make(int call, size_t m, size_t w, size_t c, uint64_t handle, size_t n) {
  struct axlebloom_answer served;
  group = 0;
  switch (call) {
  case OPEN: return axlebloom_open(&lent.desk, m, w, c, n ? lent.marks : NULL, n, &lent.handle);
  case SERVE:
    served = axlebloom_serve(&lent.desk, handle, n ? lent.word : NULL, n);
    group = served.group;
    return served.number;
  case READ: return axlebloom_read(&lent.desk, handle, &lent.served);
  case CLOSE: return axlebloom_close(&lent.desk, handle);
  case LOSE: return axlebloom_lose(&lent.desk, handle, n);
  default: return axlebloom_find(&lent.desk, handle, n);
  }
}

/* The answer of a call: a number that the header lists for it, and if that is not 0, no byte that was lent has changed. */
static uint8_t answer(const char *what, int call, size_t m, size_t w, size_t c, uint64_t handle, size_t n) {
  static const uint8_t listed[CALLS][11] = {{0, 1, 2, 3, 4, 5, 6, 8, 10, 11, 31}, {0, 5, 9, 12, 13, 31}, {0, 12, 31}, {0, 12, 31}, {0, 8, 12, 25, 31}, {0, 12, 25, 31}};
  struct lent before;
  memcpy(&before, &lent, sizeof lent);
  uint8_t number = make(call, m, w, c, handle, n);
  calls++;
  if (!memchr(listed[call], number, sizeof listed[call])) wrong(what, call, number);
  if (number != 9 && group) wrong("a group without a 9", call, number);
  if ((number || call == READ) && memcmp(&before.desk, &lent.desk, sizeof lent.desk)) wrong("the desk has changed", call, number);
  if (number && memcmp(&before, &lent, sizeof lent)) wrong("a lent byte has changed", call, number);
  return number;
}

/* with the shape 15, 16, 4 and all its places */
static void expect_of_desk(const char *what, int expected, int call, uint64_t handle) {
  uint8_t number = answer(what, call, 15, 16, 4, handle, 240);
  if (number != expected) wrong(what, call, number);
}

/* the figures of a job worked from its marks, group after group; 0 if it has other ones */
static int has_figures(const struct axlebloom_job *job) {
  unsigned excess = 0;
  for (unsigned g = 0; g < 15; g++) {
    unsigned count = 0;
    for (unsigned j = 0; g < job->m && j < job->w; j++) count += job->marks[g * job->w + j];
    if (job->lost[g] != count) return 0;
    excess += count > job->c ? count - job->c : 0;
  }
  return job->excess == excess;
}

/* what the requirements call a sound desk, by the library's own judgement of marks */
static int is_sound(const struct axlebloom_desk *desk) {
  uint64_t issued[8] = {0};
  for (unsigned s = 0; s < 8; s++) {
    const struct axlebloom_job *job = &desk->jobs[s];
    if (job->taken == 0) continue;
    size_t n = (size_t)job->m * job->w;
    issued[s] = job->handle / 8;
    if (job->taken != 1 || n > 240 || axlebloom_judge(job->m, job->w, job->c, job->marks, n) || !has_figures(job)) return 0;
    if (job->handle % 8 != s || issued[s] < 1 || issued[s] > desk->t) return 0;
    for (unsigned r = 0; r < s; r++) if (issued[r] == issued[s]) return 0;
  }
  return desk->t <= 65535;
}

/* jobs 1 to 6 are opened in slots 0 to 5, and job 3 is closed; the word is a codeword, of zeroes */
static void make_sound(void) {
  memset(&lent, 0, sizeof lent);
  for (uint64_t s = 0; s < 6; s++) {
    lent.marks[s] = 1;
    expect_of_desk("opening", 0, OPEN, 0);
    if (lent.handle != 8 * (s + 1) + s) wrong("handle", OPEN, (int)lent.handle);
  }
  expect_of_desk("closing", 0, CLOSE, 26);
  memcpy(&sound, &lent, sizeof lent);
}

static void lend_sound(void) { memcpy(&lent, &sound, sizeof lent); }

/* a desk that may be sound, as no calls would leave it */
static void lend_likely(void) {
  lent.desk.t = rarely() ? 65536 : 65533 + next() % 3;
  for (unsigned s = 0; s < 8; s++) {
    struct axlebloom_job *job = &lent.desk.jobs[s];
    job->taken = rarely() ? 2 : next() % 4 != 0;
    job->m = rarely() ? 16 : 1 + next() % 15;
    job->w = rarely() ? 17 : 6 + next() % 11;
    job->c = 1 + next() % 4;
    job->handle = 8 * (1 + next() % (rarely() ? 70000 : 65530)) + (rarely() ? next() % 8 : s);
    for (int i = 0; i < 240; i++) job->marks[i] = rarely();
    memset(job->lost, 0, sizeof job->lost), job->excess = 0;
    for (int i = 0; i < job->m * job->w && i < 240; i++) {
      if (job->marks[i] && i / job->w < 15 && ++job->lost[i / job->w] > job->c) job->excess++;
    }
    if (rarely()) job->lost[next() % 15] ^= 1;
    if (rarely()) job->excess ^= 1;
  }
  memset(lent.marks, 0, sizeof lent.marks);
}

/* each call, good or bad otherwise, is refused 31 exactly if the desk is not sound */
static void all_calls(const char *what) {
  struct lent before;
  memcpy(&before, &lent, sizeof lent);
  int expected = !is_sound(&lent.desk);
  for (int call = 0; call < CALLS; call++) {
    const struct axlebloom_job *job = &lent.desk.jobs[next() % 8];
    int good = next() % 2;
    size_t m = good ? 15 : next() % 17, w = good ? 16 : next() % 18, c = good ? 4 : next() % 6;
    size_t n = call == SERVE && good ? (size_t)job->m * job->w % 241 : good && call < LOSE ? 240 : next() % 241;
    uint8_t number = answer(what, call, m, w, c, good ? job->handle : next() % 64, n);
    if ((number == 31) != expected) wrong(expected ? "a desk that is not sound" : "a sound desk", call, number);
    memcpy(&lent, &before, sizeof lent);
  }
}

static void random_desks(void) {
  for (int turn = 0; turn < 20000; turn++) {
    for (size_t i = 0; i < sizeof lent; i++) ((uint8_t *)&lent)[i] = (uint8_t)next();
    all_calls("random bytes");
    lend_likely();
    all_calls("likely fields");
    lend_sound();
    for (uint64_t i = next() % 4; i; i--) ((uint8_t *)&lent.desk)[next() % sizeof lent.desk] ^= (uint8_t)(1u << next() % 8);
    all_calls("a bit or three changed");
  }
}

#define BROKEN(change)                                                                                \
  do {                                                                                                \
    lend_sound();                                                                                     \
    change;                                                                                           \
    for (int call = 0; call < CALLS; call++) expect_of_desk(#change, 31, call, 8);                    \
    if (answer(#change, OPEN, 0, 0, 0, 0, 0) != 31) wrong("another number comes before 31", OPEN, 0); \
  } while (0)

static void broken_desks(void) {
  struct axlebloom_desk *desk = &lent.desk;
  BROKEN(desk->jobs[0].taken = 2);
  BROKEN(desk->jobs[0].taken = 255);
  BROKEN(desk->jobs[7].taken = 1);
  BROKEN(desk->jobs[0].m = 0);
  BROKEN(desk->jobs[0].m = 16);
  BROKEN(desk->jobs[0].w = 5);
  BROKEN(desk->jobs[0].w = 17);
  BROKEN(desk->jobs[0].c = 0);
  BROKEN(desk->jobs[0].c = 5);
  BROKEN(desk->jobs[5].marks[0] = 2);
  BROKEN(desk->jobs[5].marks[239] = 255);
  BROKEN(memset(desk->jobs[0].marks, 1, 7));
  BROKEN(desk->jobs[0].marks[1] = 1);
  BROKEN(desk->jobs[5].lost[0] = 5);
  BROKEN(desk->jobs[0].lost[14] = 1);
  BROKEN(desk->jobs[5].excess = 1);
  BROKEN(desk->jobs[0].excess = 255);
  BROKEN(desk->jobs[0].handle = desk->jobs[1].handle);
  BROKEN(desk->jobs[0].handle = 8 + 1);
  BROKEN(desk->jobs[0].handle = 0);
  BROKEN(desk->jobs[0].handle = 8 * 7);
  BROKEN(desk->jobs[0].handle = (uint64_t)-8);
  BROKEN(desk->jobs[0].handle = 8 * 2);
  BROKEN(desk->t = 5);
  BROKEN(desk->t = 65536);
  BROKEN(desk->t = (uint64_t)-1);
}

static void expect_of_place(const char *what, int expected, int call, size_t place) {
  uint8_t number = answer(what, call, 0, 0, 0, 8, place);
  if (number != expected) wrong(what, call, number);
}

/* places of job 8, of which one is lost, in a group with four checks */
static void places(void) {
  struct axlebloom_desk before;
  lend_sound();
  expect_of_place("place n", 25, LOSE, 240);
  expect_of_place("place n", 25, FIND, 240);
  expect_of_place("the largest place", 25, LOSE, SIZE_MAX);
  expect_of_place("a place that is lost already", 0, LOSE, 0);
  expect_of_place("a place that is present already", 0, FIND, 239);
  if (memcmp(&lent, &sound, sizeof lent)) wrong("something has changed", LOSE, 0);
  for (size_t p = 1; p < 6; p++) expect_of_place("losses up to excess 2", 0, LOSE, p);
  if (lent.desk.jobs[0].lost[0] != 6 || lent.desk.jobs[0].excess != 2) wrong("figures", LOSE, lent.desk.jobs[0].excess);
  memcpy(&before, &lent.desk, sizeof before);
  expect_of_place("a seventh place of the group", 8, LOSE, 15);
  expect_of_place("a lost place at excess 2", 0, LOSE, 5);
  expect_of_place("a present place at excess 2", 0, FIND, 15);
  if (memcmp(&lent.desk, &before, sizeof before)) wrong("something has changed", LOSE, 0);
  expect_of_place("the last place", 0, LOSE, 239);
  expect_of_place("a place found", 0, FIND, 3);
  expect_of_place("then another lost", 0, LOSE, 15);
  if (memcmp(&lent.desk.jobs[1], &before.jobs[1], 7 * sizeof before.jobs[1])) wrong("another job has changed", LOSE, 0);
  before.jobs[0].marks[239] = before.jobs[0].marks[15] = 1, before.jobs[0].marks[3] = 0, before.jobs[0].lost[14] = 1;
  if (memcmp(&lent.desk, &before, sizeof before)) wrong("another byte has changed", LOSE, 0);
}

static void sound_desks(void) {
  /* never issued, closed, of another slot or another issue */
  const uint64_t handles[] = {0, 1, 7, (uint64_t)-1, (uint64_t)-8, 26, 9, 16, 8 * 7, 8 * 7 + 2, 8 * 65535, (1ull << 32) + 8};
  lend_sound();
  for (size_t i = 0; i < sizeof handles / sizeof *handles; i++) {
    for (int call = SERVE; call < CALLS; call++) expect_of_desk("a handle that is not open", 12, call, handles[i]);
  }
  if (answer("null marks", OPEN, 15, 16, 4, 0, 0) != 5) wrong("null marks", OPEN, 0);
  if (answer("null word", SERVE, 15, 16, 4, 8, 0) != 5) wrong("null word", SERVE, 0);
  lent.word[9] = 1;
  expect_of_desk("a wrong byte", 9, SERVE, 8);
  if (group != 0) wrong("its group", SERVE, group);
  lent.word[9] = 0, lent.word[150] = 1;
  expect_of_desk("a wrong byte of group 9", 9, SERVE, 8);
  if (group != 9) wrong("its group", SERVE, group);
  lent.word[150] = 0, lent.word[9] = 1;
  lent.desk.jobs[0].served = UINT32_MAX;
  expect_of_desk("served out", 13, SERVE, 8);
  lent.desk.jobs[0].served--, lent.word[9] = 0;
  expect_of_desk("the last serve", 0, SERVE, 8);
  expect_of_desk("read after it", 0, READ, 8);
  if (lent.served != UINT32_MAX) wrong("served", READ, (int)lent.served);
  lent.desk.t = 65534;
  expect_of_desk("the last issue", 0, OPEN, 0);
  expect_of_desk("all issued", 10, OPEN, 0);
  lend_sound();
  for (int i = 0; i < 3; i++) expect_of_desk("slots 2, 6 and 7", 0, OPEN, 0);
  expect_of_desk("a ninth job", 11, OPEN, 0);
  if (answer("a ninth job, m 0", OPEN, 0, 16, 4, 0, 240) != 1) wrong("11 comes before 1", OPEN, 0);
  expect_of_desk("a job closed", 0, CLOSE, 8);
  expect_of_desk("the eighth again", 0, OPEN, 0);
  expect_of_desk("its handle", 0, CLOSE, 8 * 10);
}

int main(void) {
  const size_t most = (size_t)-1;
  fill();
  expect("groups 0", 1, number_of(0, axlebloom_recover(0, 16, 4, word, 240, marks, 240)), -1, 0);
  expect("groups 16", 1, number_of(0, axlebloom_recover(16, 16, 4, word, 240, marks, 240)), -1, 0);
  expect("groups at the end", 1, number_of(0, axlebloom_recover(most, most, most, word, 240, marks, 240)), -1, 0);
  expect("checks 5", 2, axlebloom_encode(15, 16, 5, data, 163, word, 240), -1, 0);
  expect("width 17", 3, number_of(0, axlebloom_repair(15, 17, 4, 0, word, 240, marks, 240)), -1, 0);
  expect("width 300", 3, number_of(0, axlebloom_repair(15, 300, 4, 0, word, 240, marks, 240)), -1, 0);
  expect("no data", 4, axlebloom_encode(1, 3, 1, data, 0, word, 3), -1, 0);
  expect("null word", 5, number_of(0, axlebloom_recover(15, 16, 4, NULL, 0, NULL, 0)), -1, 0);
  expect("null data", 5, axlebloom_encode(15, 16, 3, NULL, 0, word, 240), -1, 0);
  expect("short word", 5, number_of(0, axlebloom_recover(15, 16, 4, word, 239, marks, 240)), -1, 0);
  expect("short marks", 5, number_of(0, axlebloom_recover(15, 16, 4, word, 240, marks, 239)), -1, 0);
  expect("short data", 5, axlebloom_encode(15, 16, 3, data, 177, word, 240), -1, 0);
  expect("four checks", 29, axlebloom_encode(15, 16, 4, data, 178, word, 240), -1, 0);
  expect("four checks, no data", 4, axlebloom_encode(1, 6, 4, data, 0, word, 6), -1, 0);
  expect("four checks, short word", 29, axlebloom_encode(15, 16, 4, data, 178, word, 239), -1, 0);
  expect("short word of check", 5, number_of(0, axlebloom_check(15, 16, 4, word, 239)), -1, 0);
  memset(marks, 7, 240);
  expect_marks("check marks, groups 0", 1, axlebloom_check_marks(0, 16, 3, marks, 240));
  expect_marks("check marks, checks 5", 2, axlebloom_check_marks(15, 16, 5, marks, 240));
  expect_marks("check marks, width at the end", 3, axlebloom_check_marks(15, most, 3, marks, 240));
  expect_marks("check marks, no data", 4, axlebloom_check_marks(1, 3, 1, marks, 3));
  expect_marks("check marks, four checks", 29, axlebloom_check_marks(15, 16, 4, marks, 239));
  expect_marks("check marks, null", 5, axlebloom_check_marks(15, 16, 3, NULL, 0));
  expect_marks("check marks, one short", 5, axlebloom_check_marks(15, 16, 3, marks, 239));
  fill();
  check_marks();
  expect("group m", 7, number_of(0, axlebloom_repair(15, 16, 4, 15, word, 240, marks, 240)), -1, 0);
  expect("group at the end", 7, number_of(0, axlebloom_repair(15, 16, 4, most, word, 240, marks, 240)), -1, 0);
  for (int mark = 2; mark < 256; mark++) {
    marks[239] = (uint8_t)mark;
    expect("mark", 6, number_of(0, axlebloom_recover(15, 16, 4, word, 240, marks, 240)), 239, (uint8_t)mark);
    marks[0] = (uint8_t)mark;
    expect("mark before group", 6, number_of(0, axlebloom_repair(15, 16, 4, most, word, 240, marks, 240)), 0, (uint8_t)mark);
  }
  expect("no codeword", 9, number_of(0, axlebloom_recover(15, 16, 4, word, 240, marks, 240)), -1, 0);
  expect("last group wrong", 9, number_of(14, axlebloom_repair(15, 16, 4, 14, word, 240, marks, 240)), -1, 0);
  expect("no codeword, by check", 9, number_of(0, axlebloom_check(15, 16, 4, word, 240)), -1, 0);
  expect_group("two groups", 3, 50, 210, 0);
  expect_group("two groups, one byte lost", 13, 210, 50, 1);
  expect_group("the last group", 14, 239, 224, 1);
  for (int i = 0; i < 240; i++) word[i] = 0, marks[i] = i >= 32 && i < 36;
  word[36] = 1;
  if (number_of(15, axlebloom_recover(15, 16, 4, word, 240, marks, 240)) != 9) printf("c lost places: the group is not m\n"), failures++;
  make_sound();
  random_desks();
  broken_desks();
  sound_desks();
  places();
  printf("bad calls: %d made, %d failures\n", calls, failures);
  return failures != 0;
}
