/* Both editions in one program: words of the sixteen-bit edition encoded, damaged, mended and refused, beside a word of bytes. */
#include "axlebloom_wide.h"
#include <assert.h>
#include <stdio.h>
#include <string.h>

static uint16_t word[4096], whole[4096], data[4096], back[4096];
static uint8_t marks[4096];

/* encode, lose the first `lost` places of the first group, recover */
static void round_trip(size_t m, size_t w, size_t c, size_t lost) {
  size_t n = axlebloom_wide_places(m, w, c), k = axlebloom_wide_data(m, w, c);
  assert(n == m * w && k == m * (w - c) - 2);
  for (size_t i = 0; i < k; i++) data[i] = (uint16_t)(40503u * (i + 1));
  assert(axlebloom_wide_encode(m, w, c, data, k, word, n) == 0);
  assert(axlebloom_wide_check(m, w, c, word, n).number == 0);
  assert(axlebloom_wide_extract(m, w, c, word, n, back, k) == 0 && memcmp(data, back, 2 * k) == 0);
  memcpy(whole, word, 2 * n);
  memset(marks, 0, n);
  for (size_t i = 0; i < lost; i++) word[i] = 0xBEEF, marks[i] = 1;
  assert(axlebloom_wide_judge(m, w, c, marks, n) == 0);
  assert(axlebloom_wide_recover(m, w, c, word, n, marks, n).number == 0);
  assert(memcmp(whole, word, 2 * n) == 0);
  for (size_t i = 0; i < n; i++) assert(marks[i] == 0);
  word[n - 1] ^= 1;
  struct axlebloom_answer a = axlebloom_wide_check(m, w, c, word, n);
  assert(a.number == 9 && a.group == m - 1);
  word[n - 1] ^= 1;
  for (size_t i = 0; i < c; i++) word[n - 1 - i] = 1, marks[n - 1 - i] = 1;
  a = axlebloom_wide_repair(m, w, c, m - 1, word, n, marks, n);
  assert(a.number == 0 && memcmp(whole, word, 2 * n) == 0);
}

int main(void) {
  uint16_t one[1] = {1}, two[2] = {1, 1};
  assert(axlebloom_wide_encode(1, 4, 1, one, 1, word, 4) == 0);
  assert(word[0] == 1 && word[1] == 20881 && word[2] == 23334 && word[3] == 2742);
  assert(axlebloom_wide_encode(2, 3, 1, two, 2, word, 6) == 0);
  assert(word[3] == 29321 && word[4] == 65233 && word[5] == 35928);
  round_trip(2, 3, 1, 3);
  round_trip(16, 256, 3, 5);
  round_trip(255, 16, 3, 5);
  round_trip(64, 64, 2, 4);
  assert(axlebloom_wide_describe(256, 3, 1) == 1 && axlebloom_wide_describe(255, 3, 1) == 0);
  assert(axlebloom_wide_describe(2, 257, 1) == 3 && axlebloom_wide_describe(2, 256, 1) == 0);
  assert(axlebloom_wide_describe(1, 3, 1) == 4 && axlebloom_wide_describe(17, 256, 4) == AXLEBLOOM_WIDE_PLACES);
  assert(axlebloom_wide_describe(2, 300 + 65536, 1) == 3 && axlebloom_wide_sure(2, 6, 4) == 10);
  assert(axlebloom_wide_encode(2, 6, 4, two, 2, word, 12) == AXLEBLOOM_RETIRED);
  const uint8_t checks[12] = {0, 0, 0, 1, 0, 0, 0, 1, 0, 1, 1, 1};
  memset(marks, 7, 13);
  assert(axlebloom_wide_check_marks(3, 4, 1, marks, 11) == AXLEBLOOM_LENGTH && axlebloom_wide_check_marks(17, 256, 4, marks, 0) == AXLEBLOOM_WIDE_PLACES);
  assert(axlebloom_wide_check_marks(2, 6, 4, marks, 0) == AXLEBLOOM_RETIRED && axlebloom_wide_check_marks(0, 4, 1, NULL, 0) == AXLEBLOOM_GROUPS);
  for (size_t i = 0; i < 13; i++) assert(marks[i] == 7);
  assert(axlebloom_wide_check_marks(3, 4, 1, marks, 12) == 0 && memcmp(marks, checks, 12) == 0 && marks[12] == 7);
  uint8_t bytes[6], small[2] = {1, 1};
  assert(axlebloom_encode(2, 3, 1, small, 2, bytes, 6) == 0 && bytes[3] == 78);
  puts("both editions answer");
  return 0;
}
