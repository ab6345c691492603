/* box.c - spreads a file over W disks, each of them a file, so that lost disks and lost sectors can be mended
 *
 *   box spread  M W C FILE DISK...   writes the W disks of FILE
 *   box mend    M W C DISK...        tests everything that is present, and rewrites the disks that have lost something
 *   box collect M W C DISK... FILE   writes FILE from what is present, and changes no disk
 * M, W and C are a shape as in axlebloom.h, with C at most 3. Disk j, the j-th DISK counted from 0, holds place j of every group. So any C disks may
 * be lost and, in every word, two more places. Exit status: 0 done, 1 refused or failed, 2 wrong use.
 *
 * A DISK that is missing or has a damaged header is lost. So is everything after the end of a DISK that ends too early, what cannot be read, and what
 * the text file DISK.lost lists, if it exists, one stretch per line: offset in DISK, blank, number of bytes. If mend is refused with 9, list a byte
 * that you suspect and mend again; mend removes the list when it rewrites the disk. A wrong suspicion can pass if too few checks are left; mend and
 * collect then stop at the checksum of FILE, which every header holds. A DISK with a sound header of another shape, number or file is refused and
 * left alone. New files are NAME.box-part until all of them are complete.
 *
 * A disk is a header and blocks. FILE is cut into k = M*(W-C) - 2 data blocks at a time, as long as one rebuild allows, the last k as short as
 * possible and filled up with zeros. With their check blocks they are M*W; byte x of each makes word x. A disk has M of them, one of each group. */
#define _POSIX_C_SOURCE 200809L
#include <errno.h>
#include <fcntl.h>
#include <inttypes.h>
#include <stdio.h>
#include <stdlib.h>
#include <string.h>
#include <unistd.h>

#include "axlebloom.h"
#include "axlebloom_blocks.h"

enum { MOST_NAME = 4096, LONG_FILE = 16000000 /* from this length on, progress is shown */ };
#define NO_BYTES UINT64_C(14695981039346656037) /* the checksum of no bytes */
#define FAIL(...) (fputs("box: ", stderr), fprintf(stderr, __VA_ARGS__), fputc('\n', stderr), quit())

static struct header { /* the start of a disk, with numbers as this machine stores them */
  char magic[8];       /* the last byte is the version */
  uint8_t m, w, c, disk, zero[4];
  uint64_t length, sum, check; /* the bytes of FILE; their checksum; the checksum of this header up to here */
} box = {{'a', 'x', 'l', 'e', 'b', 'o', 'x', 1}, 0, 0, 0, 0, {0}, 0, 0, 0};
static struct file {
  const char *path, *lost;                        /* lost: why a new file is needed, or NULL */
  char new_path[MOST_NAME], list_path[MOST_NAME]; /* of the new file while it is written, and of the list of lost bytes */
  int old;                                        /* the file that is read, or -1 for a disk that is wholly lost */
  FILE *new, *list;                               /* either may be NULL */
} files[AXLEBLOOM_MAX_WIDTH + 1];                 /* disks 0 to w-1, then FILE */
static size_t m, w, c, n, k;
static int again;                            /* a disk has turned out to need a new file */
static uint64_t words, disk_size;            /* how many words FILE makes, and how many bytes a disk has then */
static uint8_t checks[AXLEBLOOM_MAX_PLACES]; /* 1 for a check place, 0 for a data place */
static uint8_t blocks[AXLEBLOOM_BLOCKS_MAX_BYTES], lost[AXLEBLOOM_BLOCKS_MAX_BYTES]; /* n blocks; 1 for each lost byte */

/* Drops the new files, and ends with status 1. */
static void quit(void) {
  for (size_t j = 0; j <= AXLEBLOOM_MAX_WIDTH; j++) if (files[j].new) fclose(files[j].new), remove(files[j].new_path);
  exit(1);
}

static void wrong_use(const char *why) {
  fprintf(stderr, "box: %s\nusage: box spread M W C FILE DISK...\n       box mend M W C DISK...\n       box collect M W C DISK... FILE\n%s", why,
          "M groups, W disks, C checks per group. A missing DISK is lost; one that ends too early is lost from its end on.\n"
          "DISK.lost, a text file, lists other lost bytes of DISK, one stretch per line: offset, blank, number of bytes.\n");
  exit(2);
}

static void stop_if(uint8_t refusal) {
  char text[AXLEBLOOM_TEXT_SIZE];
  axlebloom_text(refusal, text, sizeof text);
  if (refusal) FAIL("refused with %d: %s", refusal, text);
}

/* A checksum (FNV-1a), continued from that of the bytes before these. */
static uint64_t summed(uint64_t sum, const void *bytes, size_t count) {
  for (const uint8_t *byte = bytes; count--; byte++) sum = (sum ^ *byte) * UINT64_C(1099511628211);
  return sum;
}

static void set_length(uint64_t length) { box.length = length, words = length / k + (length % k != 0), disk_size = sizeof box + m * words; }

/* Reads the header of an open disk. The first sound one settles the length and the checksum of FILE; one that disagrees is refused. */
static void read_header(size_t j, const char **first) {
  struct file *f = &files[j];
  struct header is;
  if (pread(f->old, &is, sizeof is, 0) != sizeof is || is.check != summed(NO_BYTES, &is, offsetof(struct header, check))) {
    f->old = -1, f->lost = "has a damaged header";
    return;
  }
  if (!*first) *first = f->path, set_length(is.length), box.sum = is.sum;
  box.disk = (uint8_t)j;
  if (memcmp(&is, &box, offsetof(struct header, length)))
    FAIL("%s is disk %d of shape %d %d %d, version %d, and not disk %zu of shape %zu %zu %zu, version 1",
         f->path, is.disk, is.m, is.w, is.c, is.magic[7], j, m, w, c);
  if (is.length != box.length || is.sum != box.sum)
    FAIL("%s is of a file of %" PRIu64 " bytes, and %s of another one, of %" PRIu64 " bytes", f->path, is.length, *first, box.length);
}

/* Returns where in a disk its byte in group g of word first + x is, which is one of the `count` words that are stored together. */
static uint64_t offset(uint64_t first, size_t count, size_t g, size_t x) { return sizeof box + first * m + g * count + x; }

/* Opens the disks, says what they have lost, and refuses at once if too many whole disks are lost. */
static void open_disks(void) {
  const char *first = NULL;
  uint8_t marks[AXLEBLOOM_MAX_PLACES];
  for (size_t j = 0; j < w; j++) {
    files[j].list = fopen(files[j].list_path, "r");
    if (!files[j].list && errno != ENOENT) FAIL("%s: %s", files[j].list_path, strerror(errno));
    files[j].old = open(files[j].path, O_RDONLY);
    if (files[j].old < 0 && errno != ENOENT) FAIL("%s: %s", files[j].path, strerror(errno));
    files[j].lost = files[j].old < 0 ? "is missing" : files[j].list ? "has a list of lost bytes" : NULL;
    if (files[j].old >= 0) read_header(j, &first);
  }
  for (size_t j = 0; j < w; j++) {
    if (files[j].old >= 0 && lseek(files[j].old, 0, SEEK_END) < (off_t)disk_size) files[j].lost = "ends too early";
    if (files[j].lost) fprintf(stderr, "box: %s %s\n", files[j].path, files[j].lost);
    for (size_t g = 0; g < m; g++) marks[g * w + j] = files[j].old < 0;
  }
  stop_if(axlebloom_judge(m, w, c, marks, n));
}

static void add(struct file *f, const void *bytes, size_t count) {
  if (fwrite(bytes, 1, count, f->new) != count) FAIL("%s: %s", f->new_path, strerror(errno));
}

/* Reads the data blocks of `count` words from FILE, and fills the last ones up with zeros. The check blocks count as lost. */
static void read_file(uint64_t first, size_t count) {
  uint64_t at = first * k;
  for (size_t p = 0; p < n; p++) {
    size_t here = checks[p] ? 0 : box.length - at < count ? (size_t)(box.length - at) : count;
    memset(lost + p * count, checks[p], count), memset(blocks + p * count, 0, count);
    if (pread(files[w].old, blocks + p * count, here, (off_t)at) != (ssize_t)here) FAIL("%s cannot be read to its end", files[w].path);
    at += here;
  }
}

/* Marks those of the `count` bytes from `at` on as lost that the list of a disk names. */
static void read_list(struct file *f, uint64_t at, size_t count, uint8_t *row) {
  uint64_t first, size;
  int got;
  rewind(f->list);
  while ((got = fscanf(f->list, "%" SCNu64 "%" SCNu64, &first, &size)) == 2) {
    if (first > disk_size || size > disk_size - first) FAIL("%s: the disk has only %" PRIu64 " bytes", f->list_path, disk_size);
    uint64_t from = first > at ? first : at, to = first + size < at + count ? first + size : at + count;
    if (from < to) memset(row + (from - at), 1, to - from);
  }
  if (got != EOF || ferror(f->list)) FAIL("%s: a line is not an offset and a number of bytes", f->list_path);
}

/* Reads the blocks of `count` words from the disks. What cannot be read or is listed is lost. */
static void read_disks(uint64_t first, size_t count) {
  for (size_t p = 0; p < n; p++) {
    struct file *f = &files[p % w];
    uint64_t at = offset(first, count, p / w, 0);
    ssize_t got = f->old < 0 ? 0 : pread(f->old, blocks + p * count, count, (off_t)at);
    memset(lost + p * count, 1, count);
    if (got > 0) memset(lost + p * count, 0, (size_t)got);
    if (got < (ssize_t)count && !f->lost) again = 1, f->lost = "cannot be read everywhere", fprintf(stderr, "box: %s %s\n", f->path, f->lost);
    if (f->list) read_list(f, at, count, lost + p * count);
  }
}

/* Says where a refused word is: with 8 its lost bytes, with 9 the present bytes of the group that contradicts, or of all groups. */
static void say_where(struct axlebloom_rebuild_answer answer, const uint8_t *marks, uint64_t first, size_t count, size_t x) {
  int undetermined = answer.number == AXLEBLOOM_UNDETERMINED;
  if (undetermined) fprintf(stderr, "box: word %" PRIu64 " has lost these bytes:\n", first + x);
  else fprintf(stderr, "box: word %" PRIu64 ", group %d; at least one of these bytes is wrong:\n", first + x, answer.group);
  for (size_t p = 0; p < n; p++) if (marks[p] == undetermined && (undetermined || answer.group == m || answer.group == p / w))
    fprintf(stderr, "box:   %s, byte %" PRIu64 "\n", files[p % w].path, offset(first, count, p / w, x));
}

/* Rebuilds `count` words, in one call those neighbours that have lost the same places. */
static void rebuild(uint64_t first, size_t count) {
  static uint8_t some[AXLEBLOOM_BLOCKS_MAX_BYTES], marks[AXLEBLOOM_MAX_PLACES];
  for (size_t x = 0, end; x < count; x = end) {
    end = count;
    for (size_t p = 0; p < n; p++) {
      const uint8_t *row = lost + p * count, *other = memchr(row + x, !row[x], end - x);
      marks[p] = row[x];
      if (other) end = (size_t)(other - row);
    }
    for (size_t p = 0; p < n; p++) memcpy(some + p * (end - x), blocks + p * count + x, end - x);
    struct axlebloom_rebuild_answer answer = axlebloom_rebuild(m, w, c, end - x, some, n * (end - x), marks, n);
    if (answer.number) say_where(answer, marks, first, count, x + answer.word);
    stop_if(answer.number);
    for (size_t p = 0; p < n; p++) memcpy(blocks + p * count + x, some + p * (end - x), end - x);
  }
}

/* Reads and rebuilds all words, and writes those of the files from j to end - 1 that need it. Returns the checksum of the data. */
static uint64_t walk(int spread, size_t j, size_t end) {
  uint64_t sum = NO_BYTES, left = box.length, shown = 0;
  size_t most = AXLEBLOOM_BLOCKS_MAX_BYTES / n;
  for (; j < end; j++) if (files[j].lost) {
    if (!files[j].new) files[j].new = fopen(files[j].new_path, "wb");
    if (!files[j].new || fseek(files[j].new, j < w ? sizeof box : 0, SEEK_SET)) FAIL("%s: %s", files[j].new_path, strerror(errno));
  }
  for (uint64_t first = 0; first < words; first += most) {
    size_t count = words - first < most ? (size_t)(words - first) : most;
    if (spread) read_file(first, count); else read_disks(first, count);
    rebuild(first, count);
    for (size_t p = 0; p < n; p++) if (!checks[p]) {
      size_t here = left < count ? (size_t)left : count;
      sum = summed(sum, blocks + p * count, here), left -= here;
      if (files[w].new) add(&files[w], blocks + p * count, here);
    }
    for (j = 0; j < w; j++) for (size_t g = 0; g < m && files[j].new; g++) add(&files[j], blocks + (g * w + j) * count, count);
    if (box.length >= LONG_FILE && 10 * first / words > shown) shown = 10 * first / words, fprintf(stderr, "box: %" PRIu64 "0 %%\n", shown);
  }
  return sum;
}

/* Completes the new files, each disk with its header, and then renames them. */
static void finish(void) {
  for (size_t j = 0; j <= w; j++) if (files[j].new) {
    box.disk = (uint8_t)j, box.check = summed(NO_BYTES, &box, offsetof(struct header, check));
    if (j < w) rewind(files[j].new), add(&files[j], &box, sizeof box);
    if (fflush(files[j].new) || fsync(fileno(files[j].new))) FAIL("%s: %s", files[j].new_path, strerror(errno));
  }
  for (size_t j = 0; j <= w; j++) if (files[j].new) {
    if (rename(files[j].new_path, files[j].path)) FAIL("%s: %s", files[j].path, strerror(errno));
    fclose(files[j].new), files[j].new = NULL;
    if (j < w) remove(files[j].list_path);
    printf("%s is written\n", files[j].path);
  }
}

int main(int argc, char **argv) {
  const char *task = argc > 4 ? argv[1] : "";
  int spread = !strcmp(task, "spread"), mend = !strcmp(task, "mend"), collect = !strcmp(task, "collect");
  if (!spread && !mend && !collect) wrong_use("no task, or no shape");
  for (int i = 2; i < 5; i++) if (!*argv[i] || strlen(argv[i]) > 4 || argv[i][strspn(argv[i], "0123456789")]) wrong_use("M, W and C are numbers");
  m = strtoul(argv[2], NULL, 10), w = strtoul(argv[3], NULL, 10), c = strtoul(argv[4], NULL, 10);
  if ((size_t)argc != 5 + w + !mend) wrong_use("the number of files does not fit W");
  for (int i = 5; i < argc; i++) for (int j = 5; j < i; j++) if (!strcmp(argv[i], argv[j])) wrong_use("a file is named twice");
  n = axlebloom_places(m, w, c), k = axlebloom_data(m, w, c);
  stop_if(axlebloom_check_marks(m, w, c, checks, n));
  box.m = (uint8_t)m, box.w = (uint8_t)w, box.c = (uint8_t)c;
  for (size_t j = 0; j <= w; j++) {
    files[j].path = argv[j < w ? 5 + j + (size_t)spread : spread ? 5 : (size_t)argc - 1];
    files[j].lost = (spread && j < w) || (collect && j == w) ? "is new" : NULL;
    if (snprintf(files[j].new_path, MOST_NAME, "%s.box-part", files[j].path) >= MOST_NAME) wrong_use("a path is too long");
    snprintf(files[j].list_path, MOST_NAME, "%s.lost", files[j].path);
  }
  files[w].old = spread ? open(files[w].path, O_RDONLY) : 0;
  off_t size = spread && files[w].old >= 0 ? lseek(files[w].old, 0, SEEK_END) : files[w].old;
  if (size < 0) FAIL("%s: %s", files[w].path, strerror(errno));
  if (spread) set_length((uint64_t)size); else open_disks();
  uint64_t sum = walk(spread, collect ? w : 0, collect ? w + 1 : w);
  while (mend && again) again = 0, sum = walk(spread, 0, w);
  if (!spread && sum != box.sum) FAIL("the checksum of FILE does not fit: a present byte is wrong, and no check is left to say where");
  box.sum = sum, finish();
  if (mend) printf("all %" PRIu64 " words were tested\n", words);
  return 0;
}
