/* What the library says about itself: versions, layouts, limits and texts, as header and library have them. */
#include <stdio.h>
#include <string.h>

#include "axlebloom.h"
#include "axlebloom_blocks.h"
#include "axlebloom_wide.h"

static int failures;

static void expect(int fact, const char *what) {
  if (!fact) printf("not so: %s\n", what), failures++;
}
#define EXPECT(fact) expect(fact, #fact)

/* a text, at every length of its buffer: cut, ended by a zero byte, and no byte past that one is written */
static void text_of(size_t number) {
  char whole[AXLEBLOOM_TEXT_SIZE], part[AXLEBLOOM_TEXT_SIZE];
  size_t length = axlebloom_text(number, whole, sizeof whole);
  EXPECT(length < AXLEBLOOM_TEXT_SIZE);
  EXPECT(length > 0);
  EXPECT(whole[length] == 0 && strlen(whole) == length);
  for (size_t size = 0; size <= sizeof part; size++) {
    memset(part, '#', sizeof part);
    EXPECT(axlebloom_text(number, part, size) == length);
    size_t kept = size == 0 ? 0 : size - 1 < length ? size - 1 : length;
    EXPECT(memcmp(part, whole, kept) == 0);
    EXPECT(size == 0 || part[kept] == 0);
    for (size_t i = size == 0 ? 0 : kept + 1; i < sizeof part; i++) EXPECT(part[i] == '#');
  }
  if (number <= 32) printf("%zu %s\n", number, whole);
}

/* the limits are those of the shapes */
static void limits(void) {
  EXPECT(axlebloom_describe(AXLEBLOOM_MAX_GROUPS, AXLEBLOOM_MAX_WIDTH, AXLEBLOOM_MAX_CHECKS) == AXLEBLOOM_DONE);
  EXPECT(axlebloom_describe(AXLEBLOOM_MAX_GROUPS + 1, AXLEBLOOM_MAX_WIDTH, 1) == AXLEBLOOM_GROUPS);
  EXPECT(axlebloom_describe(1, AXLEBLOOM_MAX_WIDTH + 1, 1) == AXLEBLOOM_WIDTH);
  EXPECT(axlebloom_describe(1, AXLEBLOOM_MAX_WIDTH, AXLEBLOOM_MAX_CHECKS + 1) == AXLEBLOOM_CHECKS);
  EXPECT(axlebloom_encode(1, 8, AXLEBLOOM_MAX_ENCODED_CHECKS + 1, NULL, 0, NULL, 0) == AXLEBLOOM_RETIRED);
  EXPECT(axlebloom_encode(1, 8, AXLEBLOOM_MAX_ENCODED_CHECKS, NULL, 0, NULL, 0) == AXLEBLOOM_LENGTH);
  size_t places = 0, data = 0, wide = 0;
  for (size_t m = 0; m <= 20; m++) for (size_t w = 0; w <= 20; w++) for (size_t c = 0; c <= 6; c++) {
    if (places < axlebloom_places(m, w, c)) places = axlebloom_places(m, w, c);
    if (data < axlebloom_data(m, w, c)) data = axlebloom_data(m, w, c);
  }
  EXPECT(places == AXLEBLOOM_MAX_PLACES);
  EXPECT(data == AXLEBLOOM_MAX_DATA);
  for (size_t m = 0; m <= 300; m++) for (size_t w = 0; w <= 300; w++) if (wide < axlebloom_wide_places(m, w, 1)) wide = axlebloom_wide_places(m, w, 1);
  EXPECT(wide == AXLEBLOOM_WIDE_MAX_PLACES);
  EXPECT(axlebloom_wide_describe(AXLEBLOOM_WIDE_MAX_GROUPS, 16, AXLEBLOOM_WIDE_MAX_CHECKS) == AXLEBLOOM_DONE);
  EXPECT(axlebloom_wide_describe(AXLEBLOOM_WIDE_MAX_GROUPS + 1, 16, 1) == AXLEBLOOM_GROUPS);
  EXPECT(axlebloom_wide_describe(16, AXLEBLOOM_WIDE_MAX_WIDTH, 1) == AXLEBLOOM_DONE);
  EXPECT(axlebloom_wide_describe(1, AXLEBLOOM_WIDE_MAX_WIDTH + 1, 1) == AXLEBLOOM_WIDTH);
  EXPECT(axlebloom_wide_describe(1, 16, AXLEBLOOM_WIDE_MAX_CHECKS + 1) == AXLEBLOOM_CHECKS);
  EXPECT(axlebloom_wide_describe(17, 256, 1) == AXLEBLOOM_WIDE_PLACES);
  EXPECT(axlebloom_wide_encode(1, 8, AXLEBLOOM_WIDE_MAX_ENCODED_CHECKS + 1, NULL, 0, NULL, 0) == AXLEBLOOM_RETIRED);
}

/* a desk opens eight jobs, and its last handle is the 65535th */
static void desks(void) {
  static struct axlebloom_desk desk;
  uint8_t none[3] = {0};
  uint64_t handle = 0;
  EXPECT(sizeof desk == AXLEBLOOM_DESK_SIZE && sizeof desk.jobs / sizeof *desk.jobs == AXLEBLOOM_JOBS);
  EXPECT(sizeof(struct axlebloom_gather) == AXLEBLOOM_GATHER_SIZE);
  axlebloom_fresh(&desk);
  for (int i = 0; i < AXLEBLOOM_JOBS; i++) EXPECT(axlebloom_open(&desk, 2, 3, 1, (const uint8_t[6]){0}, 6, &handle) == AXLEBLOOM_DONE);
  EXPECT(axlebloom_open(&desk, 2, 3, 1, (const uint8_t[6]){0}, 6, &handle) == AXLEBLOOM_DESK_FULL);
  desk.jobs[0].served = AXLEBLOOM_MAX_SERVED;
  EXPECT(axlebloom_serve(&desk, 8, none, 3).number == AXLEBLOOM_LENGTH);
  EXPECT(axlebloom_serve(&desk, 8, (uint8_t[6]){0}, 6).number == AXLEBLOOM_SERVED_OUT);
  axlebloom_fresh(&desk);
  desk.t = AXLEBLOOM_MAX_HANDLES;
  EXPECT(axlebloom_open(&desk, 2, 3, 1, (const uint8_t[6]){0}, 6, &handle) == AXLEBLOOM_ALL_ISSUED);
}

static void blocks(void) {
  static uint8_t lent[AXLEBLOOM_BLOCKS_MAX_BYTES + 4];
  uint8_t marks[4] = {0};
  EXPECT(axlebloom_rebuild(1, 4, 1, AXLEBLOOM_BLOCKS_MAX_BYTES / 4, lent, AXLEBLOOM_BLOCKS_MAX_BYTES, marks, 4).number == 0);
  EXPECT(axlebloom_rebuild(1, 4, 1, AXLEBLOOM_BLOCKS_MAX_BYTES / 4 + 1, lent, sizeof lent, marks, 4).number == AXLEBLOOM_BLOCKS_LENGTH);
}

int main(void) {
  char version[16];
  enum axlebloom_number done = AXLEBLOOM_DONE;
  EXPECT(done == 0);
  EXPECT(axlebloom_version() == AXLEBLOOM_VERSION);
  EXPECT(AXLEBLOOM_VERSION == 10000 * AXLEBLOOM_VERSION_MAJOR + 100 * AXLEBLOOM_VERSION_MINOR + AXLEBLOOM_VERSION_PATCH);
  snprintf(version, sizeof version, "%d.%d.%d", AXLEBLOOM_VERSION_MAJOR, AXLEBLOOM_VERSION_MINOR, AXLEBLOOM_VERSION_PATCH);
  EXPECT(strcmp(version, AXLEBLOOM_VERSION_TEXT) == 0);
  EXPECT(axlebloom_blocks_version() == AXLEBLOOM_BLOCKS_VERSION && AXLEBLOOM_BLOCKS_VERSION == AXLEBLOOM_VERSION);
  EXPECT(axlebloom_desk_layout() == AXLEBLOOM_DESK_LAYOUT);
  EXPECT(axlebloom_gather_layout() == AXLEBLOOM_GATHER_LAYOUT);
  limits();
  desks();
  blocks();
  for (size_t number = 0; number <= 300; number++) text_of(number);
  text_of((size_t)-1);
  return failures != 0;
}
