/* axlebloom.h - erasure repair for archive boxes
 *
 * A word is m groups of w bytes, stored one group after another: n = m*w bytes in all. The last c
 * bytes of each group are its own checks. In the last group, the two bytes before them are checks
 * across all groups. The other k = m*(w-c) - 2 bytes carry data. m, w and c together are the shape.
 * A codeword is a word in which every check is right; any k bytes of data have exactly one.
 *
 * Marks say which bytes of a word are lost: n bytes, 1 for a lost byte and 0 for a present one. The
 * value of a lost byte has no effect on any answer.
 *
 * COMPILING. Include this header and link with libaxlebloom, a static or a shared library:
 *
 *     cc program.c $(pkg-config --cflags --libs axlebloom)
 *
 * The library is for x86-64 Linux and calls only memcpy and memset. The folder
 * glibc-hwcaps/x86-64-v3 beside it has the same library for processors of that level (AVX2), which
 * glibc's loader takes by itself, and never on other processors. This header works in C99 and
 * later, and in C++11 and later; size_t must have 64 bits.
 *
 * A FIRST PROGRAM. Two bytes of data become a word of six; three of the six are lost and recovered.
 *
 * @code
 *   #include <stdio.h>
 *   #include <string.h>
 *
 *   #include "axlebloom.h"
 *
 *   static int stopped(const char *step, uint8_t number) {
 *     char text[AXLEBLOOM_TEXT_SIZE];
 *     axlebloom_text(number, text, sizeof text);
 *     if (number) fprintf(stderr, "%s: refused with %d: %s\n", step, number, text);
 *     return number != AXLEBLOOM_DONE;
 *   }
 *
 *   int main(void) {
 *     uint8_t data[2] = {7, 9}, word[6], marks[6] = {1, 1, 1, 0, 0, 0}, back[2];
 *     if (stopped("encode", axlebloom_encode(2, 3, 1, data, 2, word, 6))) return 1;
 *     memset(word, 0, 3);
 *     if (stopped("recover", axlebloom_recover(2, 3, 1, word, 6, marks, 6).number)) return 1;
 *     if (stopped("extract", axlebloom_extract(2, 3, 1, word, 6, back, 2))) return 1;
 *     printf("%d %d\n", back[0], back[1]);
 *     return memcmp(back, data, 2) != 0;
 *   }
 * @endcode
 *
 * WHAT HOLDS FOR EVERY FUNCTION
 *
 * Answers. A function that can be refused returns 0 (AXLEBLOOM_DONE) or the number of a refusal,
 * directly or in a struct. Every function returns for all argument values, and accesses only the
 * memory lent to it.
 *
 * Refusals. A refused call changes nothing that was lent to it. There is one exception: if
 * axlebloom_gather_finish returns 8 or 9, it still finishes the gather. It changes nothing else.
 * Each function lists its refusals in the order in which they are checked, and returns the first
 * that applies.
 *
 * Pointers. Each buffer is passed with its length in bytes, which is checked against the shape. The
 * buffer must really be that long; it may be NULL if the length is 0. A pointer without a length
 * (to a desk, a gather, a handle or a count) must point to an object of that type, which may hold
 * any value, and must be aligned for it: 8 bytes for a desk and a handle, 4 for a served count, 1
 * for a gather. Buffers need no alignment. Two buffers or records lent to the same call must not
 * overlap.
 *
 * Numbering. Groups, places and data bytes are counted from 0. Place p of a word is byte p, and
 * belongs to group p / w.
 *
 * Threads. No function keeps anything between calls, allocates memory or takes a lock. Any number
 * of threads may call at once, as long as none of them writes what another one is using.
 *
 * Stack. Calls on words, and axlebloom_text, take less than 3 KB of stack, calls on a gather less
 * than 4 KB, and calls on a desk less than 8 KB. This was measured, not proved: the proofs are
 * about a machine whose stack has no end. axlebloom_profile searches by recursion, at most sixteen
 * levels deep, which the figure includes; no other function is recursive. The stack pointer must be
 * aligned as the x86-64 ABI requires.
 *
 * Kernels and interrupt handlers. The library uses the vector registers xmm0 to xmm15 and the red
 * zone, the 128 bytes below the stack pointer. Do not call it where these are not preserved: save
 * the registers around a call, and do not call it on a stack on which an interrupt may run. It has
 * no variables, calls nothing through pointers and needs no start-up code.
 *
 * Debuggers and exceptions. The library has no unwind tables and keeps no frame pointer, so a
 * debugger or profiler cannot walk through its frames, and no exception can pass through them. None
 * has to: the library never calls back.
 *
 * Time. Running time is not part of any promise. In particular, it may depend on the bytes of a
 * word.
 */
#ifndef AXLEBLOOM_H
#define AXLEBLOOM_H

#include <stddef.h>
#include <stdint.h>

#if SIZE_MAX != 0xFFFFFFFFFFFFFFFF
#error "the library counts on a size_t of 64 bits"
#endif

#ifdef __cplusplus
extern "C" {
#endif

/* ---- Version ---------------------------------------------------------------------------------- */

/* The version of this header. MAJOR changes when programs must be recompiled, MINOR when something
 * is added, and PATCH in all other cases. */
#define AXLEBLOOM_VERSION_MAJOR 1
#define AXLEBLOOM_VERSION_MINOR 1
#define AXLEBLOOM_VERSION_PATCH 1
#define AXLEBLOOM_VERSION 10101 /* 10000*major + 100*minor + patch */
#define AXLEBLOOM_VERSION_TEXT "1.1.1"

/* The layouts of the two records that a program may save. Save this number with the record, and
 * lend a saved record only if the number is still the same: a record with another layout is not
 * always refused. */
#define AXLEBLOOM_DESK_LAYOUT 2
#define AXLEBLOOM_GATHER_LAYOUT 1

/* Return the version and the layouts of the library itself. A program that may run with a different
 * version of the library from the one it was compiled with should compare these numbers once, at
 * start-up:
 *
 * @code
 *   assert(axlebloom_version() / 10000 == AXLEBLOOM_VERSION_MAJOR);
 *   assert(axlebloom_version() >= AXLEBLOOM_VERSION);
 *   assert(axlebloom_desk_layout() == AXLEBLOOM_DESK_LAYOUT);
 *   assert(axlebloom_gather_layout() == AXLEBLOOM_GATHER_LAYOUT);
 * @endcode
 */
uint32_t axlebloom_version(void);
uint32_t axlebloom_desk_layout(void);
uint32_t axlebloom_gather_layout(void);

/* ---- Limits ----------------------------------------------------------------------------------- */

#define AXLEBLOOM_MAX_GROUPS 15         /* m is 1 to this */
#define AXLEBLOOM_MAX_CHECKS 4          /* c is 1 to this */
#define AXLEBLOOM_MAX_ENCODED_CHECKS 3  /* the largest c for encode, edit and check_marks */
#define AXLEBLOOM_MAX_WIDTH 16          /* w is c+2 to this */
#define AXLEBLOOM_MAX_PLACES 240        /* the largest n */
#define AXLEBLOOM_MAX_DATA 223          /* the largest k */
#define AXLEBLOOM_JOBS 8                /* jobs a desk can keep open */
#define AXLEBLOOM_MAX_HANDLES 65535     /* handles a desk can issue before the next axlebloom_fresh */
#define AXLEBLOOM_MAX_SERVED 4294967295 /* words a job can serve before it must be opened again */
#define AXLEBLOOM_DESK_SIZE 2184        /* bytes in a struct axlebloom_desk */
#define AXLEBLOOM_GATHER_SIZE 484       /* bytes in a struct axlebloom_gather */
#define AXLEBLOOM_TEXT_SIZE 64          /* room for any text of axlebloom_text and its zero byte */

/* ---- Numbers ---------------------------------------------------------------------------------- */

/* What a call returns. The comments are the texts that axlebloom_text writes. 16 to 21 are declared
 * in axlebloom_catalogue.h, 26 in axlebloom_wide.h and 27 in axlebloom_blocks.h; 14 and 15 are given
 * by the programs only. What an 8 or a 9 asks of you depends on the function: read it there. */
enum axlebloom_number {
  AXLEBLOOM_DONE = 0,          /* done */
  AXLEBLOOM_GROUPS = 1,        /* the number of groups is out of range */
  AXLEBLOOM_CHECKS = 2,        /* the number of local checks is out of range */
  AXLEBLOOM_WIDTH = 3,         /* the group width is out of range */
  AXLEBLOOM_NO_DATA = 4,       /* the shape has no room for data */
  AXLEBLOOM_LENGTH = 5,        /* the number of bytes, symbols or marks does not match the shape */
  AXLEBLOOM_MARK = 6,          /* a mark or a gather's finished byte is neither 0 nor 1 */
  AXLEBLOOM_GROUP_NUMBER = 7,  /* there is no such group */
  AXLEBLOOM_UNDETERMINED = 8,  /* too many places are lost */
  AXLEBLOOM_CONTRADICTORY = 9, /* the present bytes fit no codeword */
  AXLEBLOOM_ALL_ISSUED = 10,   /* the desk has issued all its handles */
  AXLEBLOOM_DESK_FULL = 11,    /* the desk is full: eight jobs are open */
  AXLEBLOOM_NOT_OPEN = 12,     /* no open job has this handle */
  AXLEBLOOM_SERVED_OUT = 13,   /* the job has served as many words as it can count */
  AXLEBLOOM_FINISHED = 22,     /* the gather is finished */
  AXLEBLOOM_BEYOND = 23,       /* the stretch ends beyond the word */
  AXLEBLOOM_CAME_BEFORE = 24,  /* a place in the stretch has already arrived */
  AXLEBLOOM_PLACE = 25,        /* the word has no such place */
  AXLEBLOOM_NO_PROFILE = 28,   /* outside the profile; the word may still be recoverable */
  AXLEBLOOM_RETIRED = 29,      /* shapes with four local checks are retired */
  AXLEBLOOM_DATA_NUMBER = 30,  /* there is no such byte of data */
  AXLEBLOOM_UNSOUND = 31       /* the desk is not sound */
};

/* Writes what a number means in English, for example for a log: "too many places are lost" for 8,
 * and "not a number of this library" for a number above 31.
 *
 *   number  any number
 *   text    receives the text, followed by a zero byte; a text that does not fit is truncated, but
 *           still ends with a zero byte
 *   size    the length of that buffer in bytes; if it is 0, nothing is written, and text may be NULL
 *
 * Returns the length of the whole text without its zero byte, as snprintf does: less than
 * AXLEBLOOM_TEXT_SIZE. Never refused. */
size_t axlebloom_text(size_t number, char *text, size_t size);

/* Returned by check, edit, repair, recover, serve and gather_finish. */
struct axlebloom_answer {
  uint8_t number; /* 0, or the number of a refusal */
  uint8_t group;  /* if number is 9, the group it names (see below); otherwise 0 */
};

/* Which group a 9 names.
 *
 * A 9 means that the present bytes fit no codeword: at least one of them is wrong, or the marks or
 * the shape are. Bringing back more places does not help. From repair, the group is the one that was
 * to be repaired: at least one of its present bytes is wrong. From the other functions it is one of
 * these:
 *
 * - A group below m. Whatever its lost places held, this group would break its own checks, so at
 *   least one of its present bytes is wrong. It is the lowest such group; there may be others.
 * - m. Every group can meet its own checks; only the checks across fail. A single group may still be
 *   at fault. First suspect the groups that had c or more lost places before any repair: such a
 *   group can always be filled to meet its own checks, so it is never named.
 *
 * Repairing groups before a recovery does not change the group it names. If each disk holds place j
 * of every group, the group tells you which part of the disks to look at, not which disk.
 *
 * To test a suspicion, mark the place as lost on a copy and call axlebloom_recover, not repair. A 0
 * DOES NOT PROVE THE SUSPICION: every mark uses up a check, and if too few are left, a wrong word
 * passes as well. If exactly one byte is wrong, a 0 proves that it is the marked one provided judge
 * still returns 0 whichever one further place is marked. Compare the data with a checksum of your
 * own before you write anything back. */

/* ---- Shapes ----------------------------------------------------------------------------------- */

/* All functions that take a shape take it as
 *
 *   m  the number of groups, 1 to 15
 *   w  the number of bytes in a group, c+2 to 16
 *   c  the number of local checks in a group, 1 to 4
 */

/* Returns 0 if the shape is good, otherwise its refusal, 1 to 4. A good shape with c = 4 is retired:
 * encode, edit and check_marks refuse it (29), and so does axlebloom_put; all other functions accept
 * it. */
uint8_t axlebloom_describe(size_t m, size_t w, size_t c);

/* For a good shape these return n, the bytes in a word; k, the data bytes in it; and the sure count,
 * the largest number such that any loss of that many bytes or fewer is recovered, wherever they are,
 * provided no present byte is wrong. They return 0 if the shape is refused. */
size_t axlebloom_places(size_t m, size_t w, size_t c);
size_t axlebloom_data(size_t m, size_t w, size_t c);
size_t axlebloom_sure(size_t m, size_t w, size_t c);

/* ---- Words ------------------------------------------------------------------------------------ */

/* Writes the one codeword that carries the data.
 *
 *   data  k bytes
 *   word  n bytes, written
 *
 * Refused with 1 to 4, 29 (if c = 4) or 5, in that order. */
uint8_t axlebloom_encode(size_t m, size_t w, size_t c, const uint8_t *data, size_t k, uint8_t *word,
                         size_t n);

/* Extracts the data of a word, codeword or not.
 *
 *   word  n bytes
 *   data  k bytes, written
 *
 * Refused with 1 to 5, in that order. */
uint8_t axlebloom_extract(size_t m, size_t w, size_t c, const uint8_t *word, size_t n, uint8_t *data,
                          size_t k);

/* Tests whether a word is a codeword: returns 0 if it is, 9 with a group if it is not.
 *
 *   word  n bytes
 *
 * Refused with 1 to 5 or 9, in that order. */
struct axlebloom_answer axlebloom_check(size_t m, size_t w, size_t c, const uint8_t *word, size_t n);

/* Changes one data byte of a codeword, and leaves the word as axlebloom_encode would have made it
 * from the changed data. Only that byte, the c checks of its group and the c+2 checks at the end of
 * the word can change.
 *
 *   word    n bytes, a codeword, changed
 *   number  which data byte, 0 to k-1
 *   byte    its new value
 *
 * A word that is not a codeword is refused (9): otherwise a wrong byte would be absorbed into the
 * new checks and could no longer be noticed. Find the wrong place, mark it as lost and recover the
 * word; then edit.
 *
 * Refused with 1 to 4, 29 (if c = 4), 5, 30 or 9, in that order. */
struct axlebloom_answer axlebloom_edit(size_t m, size_t w, size_t c, uint8_t *word, size_t n,
                                       size_t number, uint8_t byte);

/* Writes the marks of a word that has lost its check places: 1 for every check place and 0 for every
 * data place. The check places are the last c places of each group and, in the last group, also the
 * two before them. A recovery or a block rebuild with these marks encodes: it leaves the data as they
 * are and writes the checks.
 *
 *   marks  n bytes, written
 *
 * Refused with 1 to 4, 29 (if c = 4) or 5, in that order. */
uint8_t axlebloom_check_marks(size_t m, size_t w, size_t c, uint8_t *marks, size_t n);

/* Tests whether the losses can be recovered: returns 0 if the present places determine the word and
 * 8 if they do not. If it returns 0, axlebloom_recover with these marks and n bytes returns 0 too,
 * or 9 if the present bytes fit no codeword.
 *
 *   marks  n bytes
 *
 * Refused with 1 to 6 or 8, in that order. */
uint8_t axlebloom_judge(size_t m, size_t w, size_t c, const uint8_t *marks, size_t n);

/* Returned by profile. */
struct axlebloom_profile_answer {
  uint8_t number;   /* 0, or the number of a refusal */
  uint8_t count;    /* if number is 0, how many place numbers the set has, at most c; otherwise 0 */
  uint8_t place[4]; /* if number is 0, these numbers, 0 to w-1, ascending; 0 past the last */
};

/* For boxes that put place j of every group on the same disk. Returns 0 exactly if some set of at
 * most c place numbers j leaves at most two lost places outside it, and returns such a set. If there
 * are several, it returns one with the fewest numbers and, among those, the lexicographically first
 * (each set written in ascending order). A place in the set need not be lost in every group.
 *
 *   marks  n bytes
 *
 * If it returns 0, axlebloom_judge returns 0 too. If there is no such set, it returns 28. A 28 DOES
 * NOT MEAN THAT THE WORD IS LOST: judge may still return 0. Ask judge, or call recover, before a
 * disk is fetched.
 *
 * Refused with 1 to 6 or 28, in that order. */
struct axlebloom_profile_answer axlebloom_profile(size_t m, size_t w, size_t c, const uint8_t *marks,
                                                  size_t n);

/* Repairs one group with its own checks, and clears its marks. No byte or mark of another group is
 * touched.
 *
 *   g      the group, 0 to m-1
 *   word   n bytes; the lost bytes of group g are written
 *   marks  marks_n bytes, which must be n; those of group g are cleared
 *
 * Returns 8 if more than c places of the group are lost; recover may still succeed. A group with no
 * lost places is still tested (9). A group that has lost exactly c places has no check to spare: a
 * wrong present byte goes unnoticed, and the bytes written are computed from it.
 *
 * Refused with 1 to 9, in that order. */
struct axlebloom_answer axlebloom_repair(size_t m, size_t w, size_t c, size_t g, uint8_t *word,
                                         size_t n, uint8_t *marks, size_t marks_n);

/* Recovers a whole word and clears all marks. Repairing groups first, in any order, changes neither
 * what it returns nor, if it returns 0, the word and marks it leaves.
 *
 *   word   n bytes; the lost bytes are written
 *   marks  marks_n bytes, which must be n; all are cleared
 *
 * Returns 8 exactly if judge does with these marks: the present places do not determine the word;
 * bring back more of them. Otherwise it returns 9 exactly if no codeword fits the present bytes.
 *
 * Refused with 1 to 6, 8 or 9, in that order. */
struct axlebloom_answer axlebloom_recover(size_t m, size_t w, size_t c, uint8_t *word, size_t n,
                                          uint8_t *marks, size_t marks_n);

/* ---- The desk --------------------------------------------------------------------------------- */

/* A desk keeps up to eight jobs open. Each job recovers words that have all lost the same places.
 * The caller owns the record and lends it to every call. Only the functions below should write to
 * it. It may be copied, and saved as bytes, together with AXLEBLOOM_DESK_LAYOUT, for machines of the
 * same byte order. A copy that is lent later behaves as the desk it was when copied: report to its
 * jobs (lose) every place that was lost since then.
 *
 * @code
 *   struct axlebloom_desk desk;
 *   uint64_t handle;
 *   uint32_t served = 0;
 *   uint8_t data[2] = {7, 9}, word[6], marks[6] = {1, 1, 1, 0, 0, 0}, back[2];
 *   struct axlebloom_answer answer;
 *   uint8_t refusal;
 *   axlebloom_fresh(&desk);
 *   refusal = axlebloom_open(&desk, 2, 3, 1, marks, 6, &handle);
 *   assert(refusal == AXLEBLOOM_DONE);
 *   axlebloom_encode(2, 3, 1, data, 2, word, 6);
 *   memset(word, 0, 3);
 *   answer = axlebloom_serve(&desk, handle, word, 6);
 *   assert(answer.number == AXLEBLOOM_DONE);
 *   axlebloom_extract(2, 3, 1, word, 6, back, 2);
 *   assert(memcmp(back, data, 2) == 0);
 *   axlebloom_read(&desk, handle, &served);
 *   assert(served == 1);
 *   axlebloom_close(&desk, handle);
 * @endcode
 *
 * Every call except axlebloom_fresh checks the record first, and refuses it with 31 if it is not
 * sound. A desk is sound if t is at most 65535, the byte taken of each slot is 0 or 1, and each taken
 * slot s holds a good shape; n marks of 0 or 1 for which axlebloom_judge returns 0; the lost counts
 * and the excess of these marks, with counts of 0 past group m-1; and a handle 8u+s with u from 1 to
 * t, no u twice. The functions leave every sound desk sound. What a free slot holds does not
 * matter. */
struct axlebloom_job {
  uint8_t taken;      /* 1, or 0 for a free slot */
  uint8_t m, w, c;    /* the shape */
  uint32_t served;    /* words served since the job was opened */
  uint64_t handle;    /* 8u+s in slot s, if this was the u-th job opened since the last fresh */
  uint8_t marks[240]; /* the n marks; axlebloom_open writes 0 past them */
  uint8_t lost[15];   /* how many places of each group are lost; 0 past the last group */
  uint8_t excess;     /* the lost places above c in each group, summed over the groups; at most 2 */
};

struct axlebloom_desk {
  uint64_t t; /* handles issued since the last fresh, at most 65535 */
  struct axlebloom_job jobs[8];
};

/* Makes the desk a fresh one, whatever it held: no handle issued, every slot free, every byte 0. Any
 * open job is dropped. Never refused. */
void axlebloom_fresh(struct axlebloom_desk *desk);

/* Opens a job in the lowest free slot, with copies of the shape and the marks.
 *
 *   desk    the desk, changed
 *   marks   n bytes, which the job copies
 *   handle  receives the handle that identifies the job in later calls
 *
 * Between two calls of axlebloom_fresh a desk never issues the same handle twice, and it never
 * issues 0 to 7. Use a handle only with the desk that issued it, and only until that desk's next
 * fresh. The same number from another desk, from before a fresh, or from a copy that has since been
 * used separately may refer to a different job here, and this cannot be detected.
 *
 * Refused with 31, 1 to 6, 8, 10 or 11, in that order. After a 10 the open jobs can still be served;
 * open further ones on a second desk. */
uint8_t axlebloom_open(struct axlebloom_desk *desk, size_t m, size_t w, size_t c,
                       const uint8_t *marks, size_t n, uint64_t *handle);

/* Recovers a word using the job's current marks, which do not change, and adds one to the job's
 * served count. After a lose or a find, the same word may get a different answer.
 *
 *   handle  the job
 *   word    n bytes of the job's shape; the lost bytes are written
 *
 * Refused with 31, 12, 5, 13 or 9, in that order; the served count then stays as it was. After a 13,
 * close the job and open it again, with the marks that it had last. */
struct axlebloom_answer axlebloom_serve(struct axlebloom_desk *desk, uint64_t handle, uint8_t *word,
                                        size_t n);

/* Writes a job's served count to served. Refused with 31 or 12, in that order. */
uint8_t axlebloom_read(const struct axlebloom_desk *desk, uint64_t handle, uint32_t *served);

/* Report to an open job that a place has been lost (lose) or is back (find). They set the place's
 * mark and the job's lost counts and excess; nothing else on the desk changes. If the place is
 * already in that state, the call returns 0 and changes nothing.
 *
 *   handle  the job
 *   place   the place within the whole word, 0 to n-1
 *
 * A lose is refused with 8 if too much would then be lost. THE JOB STILL TREATS THAT PLACE AS
 * PRESENT: serve takes whatever byte is there as good, and if no remaining check exposes it, serve
 * returns 0 with a word that looks right but is wrong. After an 8, serve nothing with this job until
 * another place has been found and the lose has returned 0; or close the job.
 *
 * Call find only if the bytes at that place are as up to date as those at the other present places.
 * A disk that missed writes while it was away is still lost; do not report it as found.
 *
 * Lose is refused with 31, 12, 25 or 8, in that order, find with 31, 12 or 25. */
uint8_t axlebloom_lose(struct axlebloom_desk *desk, uint64_t handle, size_t place);
uint8_t axlebloom_find(struct axlebloom_desk *desk, uint64_t handle, size_t place);

/* Closes a job: its slot is free at once, and every byte of it is 0. Refused with 31 or 12, in that
 * order. */
uint8_t axlebloom_close(struct axlebloom_desk *desk, uint64_t handle);

/* ---- The gather ------------------------------------------------------------------------------- */

/* A gather is a word that arrives in stretches, in any order. The caller owns the record and lends
 * it to every call. It may be copied, and saved as bytes, together with AXLEBLOOM_GATHER_LAYOUT, for
 * any machine. You may read its fields; only the functions below should write to them.
 *
 * @code
 *   struct axlebloom_gather gather;
 *   uint8_t data[2] = {7, 9}, stored[6], word[6];
 *   struct axlebloom_answer answer;
 *   axlebloom_encode(2, 3, 1, data, 2, stored, 6);
 *   axlebloom_gather_begin(&gather, 2, 3, 1);
 *   axlebloom_gather_take(&gather, 3, stored + 3, 3);
 *   axlebloom_gather_take(&gather, 0, stored, 1);
 *   if (axlebloom_judge(gather.m, gather.w, gather.c, gather.marks, 6) != AXLEBLOOM_DONE) {
 *     return 1;
 *   }
 *   answer = axlebloom_gather_finish(&gather, word, 6);
 *   assert(answer.number == AXLEBLOOM_DONE && memcmp(word, stored, 6) == 0);
 * @endcode
 *
 * Every call except axlebloom_gather_begin checks the record first and refuses it with 1 to 4 if its
 * shape is bad, 6 if one of its n marks or its finished byte is neither 0 nor 1, and 22 if it is
 * finished. Bytes and marks past the first n, and the bytes of places that have not arrived, have no
 * effect on any answer. */
struct axlebloom_gather {
  uint8_t m, w, c;    /* the shape */
  uint8_t finished;   /* 1, or 0 while it takes stretches */
  uint8_t bytes[240]; /* the bytes that have arrived, each at its place */
  uint8_t marks[240]; /* 0 for a place that has arrived, 1 for one that has not, as judge reads them */
};

/* Begins a gather of the given shape. Every byte of the record is overwritten, and no place has
 * arrived yet. Refused with 1 to 4, in that order. */
uint8_t axlebloom_gather_begin(struct axlebloom_gather *gather, size_t m, size_t w, size_t c);

/* Takes a stretch. As long as no stretch is refused, it makes no difference how the bytes of a word
 * are divided into stretches or in what order they arrive.
 *
 *   gather  the record, changed
 *   first   the place of the first byte within the whole word
 *   bytes   count bytes, for the places first to first+count-1; count may be 0
 *
 * Refused with 1 to 4, 6, 22, 23 or 24, in that order; then no byte of the stretch was taken. */
uint8_t axlebloom_gather_take(struct axlebloom_gather *gather, size_t first, const uint8_t *bytes,
                              size_t count);

/* Finishes a gather. Places that never arrived count as lost, and the answer is the one
 * axlebloom_recover would give.
 *
 *   gather  the record; it is finished afterwards
 *   word    n bytes; if the call returns 0, the recovered word is written
 *
 * AN 8 OR A 9 WRITES NO WORD BUT STILL FINISHES THE GATHER, for good. To avoid finishing too early,
 * call axlebloom_judge first, as above, or finish a copy of the record. After a 9 a copy does not
 * help by itself, since it holds the wrong byte too: begin another gather without the place you
 * suspect, or call axlebloom_recover on copies of the record's first n bytes and marks.
 *
 * Refused with 1 to 4, 6, 22, 5, 8 or 9, in that order. */
struct axlebloom_answer axlebloom_gather_finish(struct axlebloom_gather *gather, uint8_t *word,
                                                size_t n);

/* ---- The layout that the library counts on; your compiler must agree -------------------------- */

#if defined(__cplusplus)
#define AXLEBLOOM_HOLDS(fact) static_assert(fact, #fact)
#elif defined(__STDC_VERSION__) && __STDC_VERSION__ >= 201112L
#define AXLEBLOOM_HOLDS(fact) _Static_assert(fact, #fact)
#else
#define AXLEBLOOM_HOLDS_NAME(line) axlebloom_holds_##line
#define AXLEBLOOM_HOLDS_AT(fact, line) struct AXLEBLOOM_HOLDS_NAME(line) { unsigned holds : (fact) ? 1 : -1; }
#define AXLEBLOOM_HOLDS(fact) AXLEBLOOM_HOLDS_AT(fact, __LINE__)
#endif
AXLEBLOOM_HOLDS(sizeof(struct axlebloom_answer) == 2);
AXLEBLOOM_HOLDS(offsetof(struct axlebloom_answer, number) == 0);
AXLEBLOOM_HOLDS(offsetof(struct axlebloom_answer, group) == 1);
AXLEBLOOM_HOLDS(sizeof(struct axlebloom_profile_answer) == 6);
AXLEBLOOM_HOLDS(offsetof(struct axlebloom_profile_answer, number) == 0);
AXLEBLOOM_HOLDS(offsetof(struct axlebloom_profile_answer, count) == 1);
AXLEBLOOM_HOLDS(offsetof(struct axlebloom_profile_answer, place) == 2);
AXLEBLOOM_HOLDS(sizeof(struct axlebloom_job) == 272);
AXLEBLOOM_HOLDS(offsetof(struct axlebloom_job, taken) == 0);
AXLEBLOOM_HOLDS(offsetof(struct axlebloom_job, m) == 1);
AXLEBLOOM_HOLDS(offsetof(struct axlebloom_job, w) == 2);
AXLEBLOOM_HOLDS(offsetof(struct axlebloom_job, c) == 3);
AXLEBLOOM_HOLDS(offsetof(struct axlebloom_job, served) == 4);
AXLEBLOOM_HOLDS(offsetof(struct axlebloom_job, handle) == 8);
AXLEBLOOM_HOLDS(offsetof(struct axlebloom_job, marks) == 16);
AXLEBLOOM_HOLDS(offsetof(struct axlebloom_job, lost) == 256);
AXLEBLOOM_HOLDS(offsetof(struct axlebloom_job, excess) == 271);
AXLEBLOOM_HOLDS(sizeof(struct axlebloom_desk) == AXLEBLOOM_DESK_SIZE);
AXLEBLOOM_HOLDS(offsetof(struct axlebloom_desk, t) == 0);
AXLEBLOOM_HOLDS(offsetof(struct axlebloom_desk, jobs) == 8);
AXLEBLOOM_HOLDS(sizeof(struct axlebloom_gather) == AXLEBLOOM_GATHER_SIZE);
AXLEBLOOM_HOLDS(offsetof(struct axlebloom_gather, m) == 0);
AXLEBLOOM_HOLDS(offsetof(struct axlebloom_gather, w) == 1);
AXLEBLOOM_HOLDS(offsetof(struct axlebloom_gather, c) == 2);
AXLEBLOOM_HOLDS(offsetof(struct axlebloom_gather, finished) == 3);
AXLEBLOOM_HOLDS(offsetof(struct axlebloom_gather, bytes) == 4);
AXLEBLOOM_HOLDS(offsetof(struct axlebloom_gather, marks) == 244);
#undef AXLEBLOOM_HOLDS
#undef AXLEBLOOM_HOLDS_AT
#undef AXLEBLOOM_HOLDS_NAME

#ifdef __cplusplus
}
#endif
#endif
