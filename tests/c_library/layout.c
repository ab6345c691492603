/* Where the library puts the fields of a desk: each byte of a lent record is compared with the place that the header gives to its field. */
#include <stdio.h>
#include <string.h>

#include "axlebloom.h"

static struct axlebloom_desk desk;
static int failures;

/* the bytes at a place of the desk are those of a number, lowest first */
static void holds(const char *what, size_t at, size_t bytes, uint64_t number) {
  for (size_t i = 0; i < bytes; i++, number >>= 8) {
    if (((const uint8_t *)&desk)[at + i] == (uint8_t)number) continue;
    printf("%s: byte %zu differs\n", what, i);
    failures++;
  }
}

#define FIELD(s, field, number) holds(#field, slot_at(s) + offsetof(struct axlebloom_job, field), sizeof desk.jobs[s].field, number)

static size_t slot_at(size_t s) { return offsetof(struct axlebloom_desk, jobs) + s * sizeof(struct axlebloom_job); }

/* a taken slot, with 240 marks, 15 lost counts and the excess */
static void slot(size_t s, uint8_t m, uint8_t w, uint8_t c, uint32_t served, uint64_t handle, const uint8_t *marks, const uint8_t *lost, uint8_t excess) {
  FIELD(s, taken, 1);
  FIELD(s, m, m);
  FIELD(s, w, w);
  FIELD(s, c, c);
  FIELD(s, served, served);
  FIELD(s, handle, handle);
  for (size_t i = 0; i < 240; i++) holds("marks", slot_at(s) + offsetof(struct axlebloom_job, marks) + i, 1, marks[i]);
  for (size_t g = 0; g < 15; g++) holds("lost", slot_at(s) + offsetof(struct axlebloom_job, lost) + g, 1, lost[g]);
  FIELD(s, excess, excess);
}

int main(void) {
  uint8_t marks[240] = {0}, few[240] = {1, 0, 0, 0, 0, 1}, zeroes[sizeof desk] = {0}, word[240] = {0};
  uint64_t handle;
  uint32_t served;
  for (int i = 3; i < 240; i += 16) marks[i] = 1;
  marks[239] = 1;

  memset(&desk, 0xA5, sizeof desk);
  axlebloom_fresh(&desk);
  if (memcmp(&desk, zeroes, sizeof desk)) printf("a fresh desk is not all 0\n"), failures++;

  /* slots 0 to 3, with 300 jobs before the last, so that t, its handle and its count take two bytes each */
  if (axlebloom_open(&desk, 15, 16, 4, marks, 240, &handle) || handle != 8) return 1;
  if (axlebloom_serve(&desk, handle, word, 240).number) return 2;
  for (int i = 0; i < 2; i++) if (axlebloom_open(&desk, 4, 5, 2, zeroes, 20, &handle)) return 3;
  for (int i = 0; i < 300; i++) if (axlebloom_open(&desk, 4, 5, 2, zeroes, 20, &handle) || axlebloom_close(&desk, handle)) return 4;
  if (axlebloom_open(&desk, 2, 6, 3, few, 12, &handle) || handle != 8 * 304 + 3) return 5;
  for (int i = 0; i < 259; i++) if (axlebloom_serve(&desk, handle, word, 12).number) return 6;

  /* five places lost of a group with three checks: excess 2 */
  for (size_t p = 1; p < 4; p++, few[p - 1] = 1) if (axlebloom_lose(&desk, handle, p)) return 7;

  holds("t", offsetof(struct axlebloom_desk, t), sizeof desk.t, 304);
  slot(0, 15, 16, 4, 1, 8, marks, (const uint8_t[]){1, 1, 1, 1, 1, 1, 1, 1, 1, 1, 1, 1, 1, 1, 2}, 0);
  slot(3, 2, 6, 3, 259, 8 * 304 + 3, few, (const uint8_t[15]){5}, 2);
  if (memcmp(&desk.jobs[4], zeroes, 4 * sizeof desk.jobs[4])) printf("a free slot is not all 0\n"), failures++;

  /* and it reads what C puts there */
  desk.jobs[3].served = 0x12345678;
  if (axlebloom_read(&desk, handle, &served) || served != 0x12345678) printf("served: %x\n", (unsigned)served), failures++;
  desk.jobs[3].excess = 1;
  if (axlebloom_read(&desk, handle, &served) != 31) printf("another excess is not seen\n"), failures++;
  desk.jobs[3].excess = 2, desk.jobs[3].lost[2] = 1;
  if (axlebloom_read(&desk, handle, &served) != 31) printf("a count past the groups is not seen\n"), failures++;
  printf("layout: %d failures\n", failures);
  return failures != 0;
}
