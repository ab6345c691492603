/* axlebloom_catalogue.h - named shapes, each with a revision
 *
 * A catalogue is a short text that the caller keeps, in a buffer or in a file. It is part of
 * libaxlebloom.
 *
 * THE TEXT has one record per line. Fields are separated by one tab, and every line, including the
 * last, ends with a line feed. The first line is shapes, 2 and the floor, 0 to 65535. Every other
 * line is a name, a revision, m, w and c or, if the name was removed, a name, a revision and the word
 * gone. Lines are sorted by name in byte order, and no name appears twice. A name is 1 to 16 letters
 * a to z, digits or hyphens; numbers are decimal without leading zeros; a revision is 1 to 65535; the
 * shape is good.
 *
 * This is version 2. In version 1 the first line is shapes and 1, and there are no gone lines. A
 * version 1 text is read as having floor 0. The first put or remove that succeeds converts it to
 * version 2, whose first line is two bytes longer. A library from before version 2 refuses that text
 * with 16.
 *
 * REVISIONS. In a text changed by these functions alone, a name with a revision never stands for two
 * shapes. A gone line keeps its name's revision, and a later put continues from there. Compaction
 * drops the gone lines and makes the floor the largest revision ever dropped; a name that has no line
 * starts one above the floor. A saved copy that is lent later behaves as the text it was when saved.
 *
 * All functions take the text as
 *
 *   text      the buffer, with the text at its start
 *   capacity  the length of the buffer in bytes
 *   size      the length of the text in bytes; at most capacity, and at most 4096
 *
 * and a name as its bytes, without a zero byte, and their number. What axlebloom.h says about
 * pointers, refusals, threads and kernels holds here too; a name must not point into the text. Bytes
 * of the buffer past the new text are never changed. Calls take less than 1 KB of stack (measured,
 * not proved).
 *
 * @code
 *   uint8_t text[AXLEBLOOM_CATALOGUE_MOST] = AXLEBLOOM_CATALOGUE_EMPTY;
 *   const uint8_t rack[] = {'r', 'a', 'c', 'k'};
 *   struct axlebloom_change_answer put;
 *   struct axlebloom_lookup_answer found;
 *   put = axlebloom_put(15, 16, 3, rack, 4, 0, text, sizeof text, AXLEBLOOM_CATALOGUE_EMPTY_SIZE);
 *   assert(put.number == 0 && put.revision == 1);
 *   found = axlebloom_lookup(text, sizeof text, put.size, rack, 4);
 *   assert(found.number == 0 && found.m == 15 && found.w == 16 && found.c == 3);
 *   put = axlebloom_put(8, 16, 3, rack, 4, found.revision, text, sizeof text, put.size);
 *   assert(put.number == 0 && put.revision == 2);
 *   put = axlebloom_put(4, 16, 3, rack, 4, found.revision, text, sizeof text, put.size);
 *   assert(put.number == AXLEBLOOM_REVISION);
 * @endcode
 *
 * TWO LIMITS TO PLAN FOR
 *
 * - If a version 1 text fills its buffer, every put and remove may be refused with 21, because the
 *   first line of version 2 is longer and there are no gone lines to drop. Lend a larger buffer. If a
 *   buffer of 4096 bytes does not help, which can happen with texts of 4095 and 4096 bytes, start a
 *   new catalogue.
 * - A name removed at revision 65534 is gone at 65535. Compaction then makes the floor 65535, and
 *   every new name is refused with 20, for good; names that have a line can still be put. A name at
 *   revision 65535 can be looked up, but neither put nor removed.
 */
#ifndef AXLEBLOOM_CATALOGUE_H
#define AXLEBLOOM_CATALOGUE_H

#include <stddef.h>
#include <stdint.h>

#if SIZE_MAX != 0xFFFFFFFFFFFFFFFF
#error "the library counts on a size_t of 64 bits"
#endif

#ifdef __cplusplus
extern "C" {
#endif

/* A catalogue without names: its first line alone, with floor 0. To start, copy it into the buffer
 * and pass this size. */
#define AXLEBLOOM_CATALOGUE_EMPTY "shapes\t2\t0\n"
#define AXLEBLOOM_CATALOGUE_EMPTY_SIZE 11

/* The greatest length of a text. A larger buffer never allows a put or remove that is refused in a
 * buffer of this length. */
#define AXLEBLOOM_CATALOGUE_MOST 4096

#define AXLEBLOOM_MAX_NAME 16        /* the greatest length of a name */
#define AXLEBLOOM_MAX_REVISION 65535 /* the last revision, and the highest floor */

/* The refusals of a catalogue. The refusals of a shape, 1 to 4 and 29, are in axlebloom.h. */
enum axlebloom_catalogue_number {
  AXLEBLOOM_CATALOGUE_TEXT = 16, /* the catalogue text is malformed or its length is wrong */
  AXLEBLOOM_NAME = 17,           /* not a valid name: use 1 to 16 of a to z, 0 to 9 and hyphen */
  AXLEBLOOM_NO_SUCH_NAME = 18,   /* the catalogue has no such name, or it is gone */
  AXLEBLOOM_REVISION = 19,       /* the name's revision is not the one you expected */
  AXLEBLOOM_REVISION_END = 20,   /* no revision is left: 65535 is the last */
  AXLEBLOOM_CATALOGUE_FULL = 21  /* the new catalogue text would exceed its buffer or 4096 bytes */
};

/* Returned by lookup. */
struct axlebloom_lookup_answer {
  uint8_t number;    /* 0, or the number of a refusal */
  uint8_t m, w, c;   /* if number is 0, the shape; otherwise 0 */
  uint16_t revision; /* if number is 0, its revision; otherwise 0 */
};

/* Finds the shape and the revision of a name. A stored shape with c = 4 is found, although it can no
 * longer be put. Refused with 16, 17 or 18 (there is no such name, or it is gone), in that order. */
struct axlebloom_lookup_answer axlebloom_lookup(const uint8_t *text, size_t capacity, size_t size,
                                                const uint8_t *name, size_t name_size);

/* Returned by put and remove. */
struct axlebloom_change_answer {
  uint8_t number;    /* 0, or the number of a refusal */
  uint16_t revision; /* if number is 0, the name's new revision; otherwise 0 */
  size_t size;       /* if number is 0, the new length of the text, for the next call; otherwise 0 */
};

/* Puts a shape under a name. If the name already has a line, gone or not, that line takes the shape
 * and its revision goes up by one. A new name starts at the floor plus one. No other line changes,
 * except the first if the text was version 1.
 *
 *   m, w, c   the shape; c is 1 to 3
 *   name      name_size bytes
 *   expected  the revision that the name has now, 0 for a name that is new or gone; a number above
 *             65535 is never the right one
 *
 * Returns 19 if the name's revision is not the one you passed as expected: someone else may have
 * changed, added or removed the name; look it up and decide again. Returns 20 if the name, gone or
 * not, is at revision 65535, or if it is new and the floor is 65535. Returns 21 if the new text would
 * exceed 4096 bytes or the buffer: compact, or lend a larger buffer.
 *
 * Refused with 1 to 4, 29 (if c = 4), 16, 17, 19, 20 or 21, in that order. */
struct axlebloom_change_answer axlebloom_put(size_t m, size_t w, size_t c, const uint8_t *name,
                                             size_t name_size, size_t expected, uint8_t *text,
                                             size_t capacity, size_t size);

/* Removes a name. Its line keeps the name, with the revision raised by one and the word gone in place
 * of the shape. No other line changes, except the first if the text was version 1.
 *
 *   name      name_size bytes
 *   expected  the revision that the name has now
 *
 * Refused with 16 to 21, in that order; 18 if the name does not exist or is gone, and 19, 20 and 21
 * as for put. */
struct axlebloom_change_answer axlebloom_remove(const uint8_t *name, size_t name_size,
                                                size_t expected, uint8_t *text, size_t capacity,
                                                size_t size);

/* Returned by compact. */
struct axlebloom_compact_answer {
  uint8_t number; /* 0, or 16 */
  size_t size;    /* if number is 0, the length of the text, for the next call; otherwise 0 */
};

/* Drops all gone lines; the floor becomes the largest of itself and their revisions. No other line
 * changes. If no line is gone, nothing changes, not even in a version 1 text. Refused with 16 only. */
struct axlebloom_compact_answer axlebloom_compact(uint8_t *text, size_t capacity, size_t size);

#ifdef __cplusplus
}
#endif

#endif
