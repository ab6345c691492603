/* Encode, recover and repair through the exported functions, beside plain C with logarithm tables and the stock libraries ISA-L and
 * Jerasure, which work with the same polynomial and so do the very same code.
 *
 * The library and plain C take one word a call, and compute everything from its marks each time; both also test that the present bytes
 * contradict nothing. The stock libraries multiply a matrix by buffers and test nothing. They are timed in three ways:
 * - batch: 4,096 words with the same losses a call, place p of all of them in one buffer; the matrix and its tables are ready before;
 * - single: one word a call, spread over buffers of 64 bytes, the shortest for which both have fast loops; matrix and tables are ready before;
 * - inverting: as single, but matrix and tables are made for every word, with the stock library's own inversion.
 * They are called group by group, with only those sources that its lost places depend on. Every word that is made must be the codeword.
 * Rounds are many and short, a millisecond or so each way, so that the best of them was not interrupted. */
#include <stdio.h>
#include <stdlib.h>
#include <string.h>

#include "axlebloom.h"
#include "clock.h"
#include "plain.h"
#include "record.h"
#include "stock.h"

enum { BATCH = 4096, CALLS = 128, SINGLES = 16, INVERSIONS = 1, ROUNDS = 300, SLOT = 64, STRIDE = BATCH + SLOT, WAYS = 8 };
enum service { ENCODE, RECOVER, REPAIR };

/* a service on a shape with these marks; it needs the places from one to before another, all or one group's */
struct scene { enum service service; int m, w, c, n, k, excess, group, from, to; uint8_t marks[PLACES]; };

static uint8_t data[BATCH][PLACES], words[BATCH][PLACES], lent[CALLS][PLACES], lent_marks[CALLS][PLACES];
static uint8_t column[PLACES][STRIDE] __attribute__((aligned(64))), found[PLACES][STRIDE] __attribute__((aligned(64)));
static uint8_t slot[PLACES][SLOT] __attribute__((aligned(64)));

static const char rule[] = "-------------------";

static void stop(const char *why) { fprintf(stderr, "compare: %s\n", why); exit(1); }

/* the words of a shape, as words and as columns */
static void make_words(const struct scene *s) {
  for (int i = 0; i < BATCH; i++) {
    for (int p = 0; p < s->k; p++) data[i][p] = (uint8_t)rand();
    if (plain_encode(s->m, s->w, s->c, data[i], words[i])) stop("plain C refused an encoding");
    if (axlebloom_check((size_t)s->m, (size_t)s->w, (size_t)s->c, words[i], (size_t)s->n).number) stop("plain C made no codeword");
    for (int p = 0; p < s->n; p++) column[p][i] = words[i][p];
  }
}

/* lends words with other bytes in the lost places */
static void damage(const struct scene *s) {
  for (int i = 0; i < CALLS; i++) {
    for (int p = 0; p < s->n; p++) lent[i][p] = (uint8_t)(words[i][p] + s->marks[p]);
    memcpy(lent_marks[i], s->marks, PLACES);
  }
}

static void compare_words(const struct scene *s, int count) {
  for (int i = 0; i < count; i++)
    if (memcmp(lent[i], words[i], (size_t)s->n)) stop("a word is not the codeword");
}

static int library_call(const struct scene *s, int i) {
  size_t m = (size_t)s->m, w = (size_t)s->w, c = (size_t)s->c, n = (size_t)s->n;
  if (s->service == ENCODE) return axlebloom_encode(m, w, c, data[i], (size_t)s->k, lent[i], n);
  if (s->service == REPAIR) return axlebloom_repair(m, w, c, (size_t)s->group, lent[i], n, lent_marks[i], n).number;
  return axlebloom_recover(m, w, c, lent[i], n, lent_marks[i], n).number;
}

static int plain_call(const struct scene *s, int i) {
  if (s->service == ENCODE) return plain_encode(s->m, s->w, s->c, data[i], lent[i]);
  if (s->service == REPAIR) return plain_repair(s->m, s->w, s->c, s->group, lent[i], lent_marks[i]);
  return plain_recover(s->m, s->w, s->c, lent[i], lent_marks[i]);
}

static double time_calls(const struct scene *s, int call(const struct scene *, int)) {
  int refused = 0;
  double start = now();
  for (int i = 0; i < CALLS; i++) refused |= call(s, i);
  double t = now() - start;
  if (refused) stop("a word was refused");
  compare_words(s, CALLS);
  return t / CALLS;
}

static double time_batch(const struct scene *s, const struct stock *stock) {
  static struct plan plan;
  uint8_t *place[PLACES];
  if (make_plan(stock, s->m, s->w, s->c, s->marks, &plan)) stop("no matrix for these losses");
  memset(found, 0, sizeof found);
  for (int p = 0; p < s->n; p++) place[p] = s->marks[p] ? found[p] : column[p];
  double start = now();
  stock->run(&plan, place, BATCH);
  double t = now() - start;
  for (int p = 0; p < s->n; p++)
    if (s->marks[p] && memcmp(found[p], column[p], BATCH)) stop("a batch is not the codewords");
  return t / BATCH;
}

/* one word: its bytes spread over the slots, the product, and the lost bytes back from the slots */
static void single(const struct scene *s, const struct stock *stock, struct plan *plan, uint8_t *word) {
  uint8_t *place[PLACES];
  for (int p = s->from; p < s->to; p++) slot[p][0] = word[p], place[p] = slot[p];
  stock->run(plan, place, SLOT);
  for (int p = s->from; p < s->to; p++) if (s->marks[p]) word[p] = slot[p][0];
}

static double time_singles(const struct scene *s, const struct stock *stock, int count, int inverting) {
  static struct plan plan;
  int refused = make_plan(stock, s->m, s->w, s->c, s->marks, &plan);
  double start = now();
  for (int i = 0; i < count; i++) {
    if (inverting) refused |= make_plan(stock, s->m, s->w, s->c, s->marks, &plan);
    single(s, stock, &plan, lent[i]);
  }
  double t = now() - start;
  if (refused) stop("no matrix for these losses");
  compare_words(s, count);
  return t / count;
}

/* ISA-L leaves the upper halves of vector registers in use, which slows the SSE2 code of whatever runs next */
static void clean_registers(void) {
  if (__builtin_cpu_supports("avx")) __asm__ volatile("vzeroupper" ::: "memory");
}

static double time_way(const struct scene *s, int way) {
  const struct stock *stock = way < 5 ? &isal : &jerasure;
  damage(s);
  clean_registers();
  if (way < 2) return time_calls(s, way ? plain_call : library_call);
  if (way % 3 == 2) return time_batch(s, stock);
  return way % 3 ? time_singles(s, stock, INVERSIONS, 1) : time_singles(s, stock, SINGLES, 0);
}

/* nanoseconds a word each way, best of the rounds; an encoding needs no inversion: its matrix is the shape's own */
static void measure(const struct scene *s, double best[WAYS]) {
  make_words(s);
  for (int way = 0; way < WAYS; way++) best[way] = 1e9;
  for (int round = 0; round < ROUNDS; round++)
    for (int way = 0; way < WAYS; way++) {
      double t = s->service == ENCODE && (way == 4 || way == 7) ? 0 : time_way(s, way) * 1e9;
      if (t < best[way]) best[way] = t;
    }
}

static struct scene scene(enum service service, const int shape[3], int excess) {
  int m = shape[0], w = shape[1], c = shape[2], n = m * w;
  struct scene s = {.service = service, .m = m, .w = w, .c = c, .n = n, .k = n - m * c - 2, .excess = excess, .group = m / 2, .to = n};
  if (service == REPAIR) s.from = s.group * w, s.to = s.from + w;
  lose(m, w, c, excess, s.marks);
  for (int p = 0; p < n; p++) {
    if (service == ENCODE) s.marks[p] = (uint8_t)is_check(m, w, c, p);
    if (p < s.from || p >= s.to) s.marks[p] = 0;
  }
  return s;
}

/* digits after the point, so that about three count */
static int digits(double x) { return x >= 100 ? 0 : x >= 10 ? 1 : x >= 0.1 ? 2 : 4; }

static void print_line(const struct scene *s, const double value[WAYS]) {
  static const char *names[] = {"encode", "recover, excess", "repair, c lost"};
  char name[32];
  snprintf(name, sizeof name, s->service == RECOVER ? "%s %d" : "%s", names[s->service], s->excess);
  printf("| %-17s | %2dx%-2d c%d |", name, s->m, s->w, s->c);
  for (int way = 0; way < WAYS; way++)
    if (value[way] <= 0) printf(" %8s |", "-");
    else printf(" %8.*f |", digits(value[way]), value[way]);
  puts("");
}

static void record_line(const struct scene *s, const double value[WAYS]) {
  static const char *ways[] = {"library", "plain C", "ISA-L, batch", "ISA-L, single", "ISA-L, inverting", "Jerasure, batch", "Jerasure, single", "Jerasure, inverting"};
  static const char *names[] = {"encode", "recover, excess", "repair of a group"};
  char name[32];
  snprintf(name, sizeof name, s->service == RECOVER ? "%s %d" : "%s", names[s->service], s->excess);
  for (int way = 0; way < WAYS; way++)
    if (value[way] > 0) record("bytes", name, (size_t)s->m, (size_t)s->w, (size_t)s->c, 1, ways[way], (size_t)(s->to - s->from), value[way]);
}

static void print_head(const char *title) {
  static const char *ways[] = {"library", "plain C", "I batch", "I single", "I invert", "J batch", "J single", "J invert"};
  printf("\n%s; I is ISA-L, J is Jerasure\n\n| %-17s | %-8s |", title, "service", "shape");
  for (int way = 0; way < WAYS; way++) printf(" %8s |", ways[way]);
  printf("\n|%.*s|%.*s|", 19, rule, 10, rule);
  for (int way = 0; way < WAYS; way++) printf("%.*s|", 10, rule);
  puts("");
}

int main(void) {
  static const int shapes[][3] = {{15, 16, 4}, {15, 16, 1}, {15, 12, 4}, {8, 10, 2}, {2, 3, 1}};
  /* four checks are out of sale: words are encoded with three in their place */
  static const int sold[][3] = {{15, 16, 3}, {15, 16, 1}, {15, 12, 3}, {8, 10, 2}, {2, 3, 1}};
  enum { SHAPES = sizeof shapes / sizeof shapes[0], LINES = 5 * SHAPES };
  static struct scene s[LINES];
  static double time[LINES][WAYS], ratio[WAYS];
  plain_tables();
  if (!same_field()) stop("a stock library has another field");
  for (int i = 0; i < LINES; i++) {
    int kind = i / SHAPES;
    const int *shape = kind == 0 ? sold[i % SHAPES] : shapes[i % SHAPES];
    s[i] = scene(kind == 0 ? ENCODE : kind == 4 ? REPAIR : RECOVER, shape, kind == 2 || kind == 3 ? kind - 1 : 0);
    measure(&s[i], time[i]);
  }
  print_head("nanoseconds a word");
  for (int i = 0; i < LINES; i++) print_line(&s[i], time[i]), record_line(&s[i], time[i]);
  print_head("the library's time divided by each");
  for (int i = 0; i < LINES; i++) {
    for (int way = 0; way < WAYS; way++) ratio[way] = time[i][way] > 0 ? time[i][0] / time[i][way] : 0;
    print_line(&s[i], ratio);
  }
  return 0;
}
