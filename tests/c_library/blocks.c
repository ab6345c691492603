/* Block rebuild from C, beside the base in one program: every word of the blocks is what axlebloom_recover and axlebloom_encode give for it, and a
 * refused call changes no byte. */
#include <stdio.h>
#include <string.h>

#include "axlebloom.h"
#include "axlebloom_blocks.h"

enum { MOST = 65536 };

static uint8_t blocks[MOST + 1], before[MOST + 1], marks[240], lost[240];
static int failures, calls;
static uint64_t state = 9;

static uint64_t next(void) {
  state ^= state << 13, state ^= state >> 7, state ^= state << 17;
  return state >> 8;
}

static void fail(const char *what) { printf("%s\n", what), failures++; }

/* byte x of every block */
static void column(const uint8_t *from, size_t n, size_t length, size_t x, uint8_t *word) {
  for (size_t p = 0; p < n; p++) word[p] = from[p * length + x];
}

/* a rebuild beside a recovery of every word */
static void beside(size_t m, size_t w, size_t c, size_t length) {
  size_t n = m * w, all = n * length, x;
  struct axlebloom_answer expected = {0, 0};
  uint8_t word[240], clear[240];
  memcpy(before, blocks, all), memcpy(lost, marks, n);
  for (x = 0; x < length; x++) {
    column(before, n, length, x, word), memcpy(clear, lost, n);
    expected = axlebloom_recover(m, w, c, word, n, clear, n);
    if (expected.number) break;
  }
  struct axlebloom_rebuild_answer answer = axlebloom_rebuild(m, w, c, length, blocks, all, marks, n);
  calls++;
  if (answer.number != expected.number || answer.group != expected.group) fail("another number or group than recover's");
  if (answer.word != (expected.number == 9 ? x : 0)) fail("another word than the lowest");
  if (expected.number) {
    if (memcmp(blocks, before, all) || memcmp(marks, lost, n)) fail("a refusal has changed a byte");
    return;
  }
  for (x = 0; x < length; x++) {
    uint8_t rebuilt[240];
    column(before, n, length, x, word), memcpy(clear, lost, n), column(blocks, n, length, x, rebuilt);
    axlebloom_recover(m, w, c, word, n, clear, n);
    if (memcmp(rebuilt, word, n)) fail("a word is not what recover leaves");
  }
  for (size_t p = 0; p < n; p++) if (marks[p]) fail("a mark is not cleared");
}

/* a batch of random data is encoded by a rebuild with the check places marked; each word beside axlebloom_encode, which refuses c = 4 */
static void encode(size_t m, size_t w, size_t c, size_t length) {
  size_t n = m * w, k = m * (w - c) - 2;
  for (size_t p = 0; p < n; p++) {
    marks[p] = p % w >= w - c || (p / w == m - 1 && p % w >= w - c - 2);
    for (size_t x = 0; x < length; x++) blocks[p * length + x] = (uint8_t)next();
  }
  if (axlebloom_rebuild(m, w, c, length, blocks, n * length, marks, n).number) fail("a batch is not encoded");
  calls++;
  for (size_t x = 0; x < length; x++) {
    uint8_t word[240], data[240], made[240];
    column(blocks, n, length, x, word);
    if (axlebloom_check(m, w, c, word, n).number) fail("an encoded word is no codeword");
    if (c == 4) continue;
    axlebloom_extract(m, w, c, word, n, data, k);
    if (axlebloom_encode(m, w, c, data, k, made, n) || memcmp(made, word, n)) fail("a word is not what encode gives");
  }
}

static void refused(const char *what, int number, size_t m, size_t w, size_t c, size_t length, size_t all, size_t n) {
  memcpy(before, blocks, sizeof blocks), memcpy(lost, marks, sizeof marks);
  struct axlebloom_rebuild_answer answer = axlebloom_rebuild(m, w, c, length, all ? blocks : NULL, all, n ? marks : NULL, n);
  calls++;
  if (answer.number == number && !answer.word && !answer.group && !memcmp(before, blocks, sizeof blocks) && !memcmp(lost, marks, sizeof marks)) return;
  printf("%s: %d for %d, or a byte changed\n", what, answer.number, number);
  failures++;
}

static void bad_calls(void) {
  memset(marks, 0, sizeof marks);
  refused("no groups", 1, 0, 3, 1, 4, 24, 6);
  refused("too many groups", 1, (size_t)-1, 3, 1, 4, 24, 6);
  refused("no checks", 2, 2, 3, 0, 4, 24, 6);
  refused("five checks", 2, 2, 8, 5, 4, 64, 16);
  refused("too narrow", 3, 2, 2, 1, 4, 16, 4);
  refused("no data", 4, 1, 3, 1, 4, 12, 3);
  refused("a mark too few", 5, 2, 3, 1, 4, 24, 5);
  refused("no marks", 5, 2, 3, 1, 4, 24, 0);
  refused("a byte too few, and a mark", 5, 2, 3, 1, 4, 23, 5);
  marks[5] = 2;
  refused("a bad mark", 6, 2, 3, 1, 4, 24, 6);
  refused("a bad mark, and a byte too few", 6, 2, 3, 1, 4, 23, 6);
  memset(marks, 1, sizeof marks);
  refused("a byte too few, and all lost", 27, 2, 3, 1, 4, 23, 6);
  refused("a byte too many", 27, 2, 3, 1, 4, 25, 6);
  refused("no bytes", 27, 2, 3, 1, 4, 0, 6);
  refused("no length", 27, 2, 3, 1, 0, 0, 6);
  refused("length 1, one byte for six", 27, 2, 3, 1, 1, 1, 6);
  refused("above 65536", 27, 2, 4, 1, 8193, MOST, 8);
  refused("a length that wraps to the right product", 27, 2, 4, 1, ((size_t)1 << 61) + 3, 24, 8);
  refused("a length at its end", 27, 2, 3, 1, (size_t)-1, 24, 6);
  refused("all lost", 8, 2, 3, 1, 4, 24, 6);
  refused("all lost, the largest", 8, 2, 4, 1, 8192, MOST, 8);
}

int main(void) {
  static const size_t shapes[][3] = {{15, 16, 4}, {15, 16, 2}, {8, 10, 2}, {2, 3, 1}, {1, 4, 1}, {3, 6, 4}, {2, 4, 1}, {15, 16, 1}};
  bad_calls();
  for (size_t s = 0; s < sizeof shapes / sizeof *shapes; s++) {
    size_t m = shapes[s][0], w = shapes[s][1], c = shapes[s][2], n = m * w;
    size_t lengths[] = {1, 2, 16, MOST / n};
    for (size_t i = 0; i < 4; i++) {
      size_t length = lengths[i];
      if (s && length > 300) length = 300;
      encode(m, w, c, length);
      for (int turn = 0; turn < (length > 16 ? 3 : 40); turn++) {
        for (size_t losses = next() % (c + 4); losses; losses--) marks[next() % n] = 1;
        for (size_t wrong = next() % 3; wrong; wrong--) blocks[next() % (n * length)] ^= (uint8_t)(1 + next() % 255);
        beside(m, w, c, length);
        if (next() % 2) encode(m, w, c, length);
      }
    }
  }
  printf("%d calls, %d failures\n", calls, failures);
  return failures != 0;
}
