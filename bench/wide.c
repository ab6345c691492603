/* The sixteen-bit edition through the exported functions, beside plain C with logarithm tables and beside Jerasure with GF-Complete at w = 16,
 * whose own polynomial for it is 69643: nanoseconds a call in one run, and the stack that calls on a word of 4,096 symbols take.
 *
 * The library and plain C take one word a call, and compute everything from its marks; both also test that the present symbols contradict
 * nothing. Jerasure multiplies a matrix, ready before, by buffers, and tests nothing:
 * - batch: 512 words with the same losses a call, place p of all of them in one buffer;
 * - single: one word a call, spread over buffers of 64 bytes.
 * Every word that is made must be the codeword. Rounds are short, and in each every way is timed in turn, so that the best of them was not
 * interrupted. */
#include <galois.h>
#include <jerasure.h>
#include <pthread.h>
#include <stdio.h>
#include <stdlib.h>
#include <string.h>

#include "axlebloom_wide.h"
#include "clock.h"
#include "record.h"
#include "wide_plain.h"

enum { BATCH = 512, SLOT = 32, CALLS = 64, ROUNDS = 60, ROWS = 6, WAYS = 4 };
enum service { CHECK, ENCODE, RECOVER, REPAIR };

/* a service on a shape with these marks; it needs the places from one to before another, all or one group's */
struct scene { enum service service; int m, w, c, n, k, excess, group, from, to, calls; uint8_t marks[PLACES]; };

/* the lost places of one group as sums over the present places that they depend on */
struct part { int rows, sources, lost[ROWS], source[PLACES], matrix[ROWS * PLACES]; };

static struct part plan[GROUPS];
static int parts;
static uint16_t data[CALLS][PLACES], words[CALLS][PLACES], lent[CALLS][PLACES];
static uint8_t lent_marks[CALLS][PLACES];
static uint16_t column[PLACES][BATCH] __attribute__((aligned(64))), found[PLACES][BATCH] __attribute__((aligned(64)));
static uint16_t slot[PLACES][SLOT] __attribute__((aligned(64)));

static void stop(const char *why) { fprintf(stderr, "wide: %s\n", why); exit(1); }

static void same_field(void) {
  for (int i = 0; i < 1000000; i++) {
    int a = rand() % 65536, b = rand() % 65536;
    if (galois_single_multiply(a, b, 16) != product((uint16_t)a, (uint16_t)b)) stop("Jerasure has another field");
  }
}

/* what a 1 in each present place adds to the lost places */
static void make_plan(const struct scene *s) {
  static uint16_t unit[PLACES];
  memset(plan, 0, sizeof plan);
  parts = 0;
  for (int g = 0; g < s->m; g++) {
    for (int p = g * s->w; p < g * s->w + s->w; p++) if (s->marks[p]) plan[parts].lost[plan[parts].rows++] = p;
    if (plan[parts].rows) parts++;
  }
  for (int p = s->from; p < s->to; p++) {
    if (s->marks[p]) continue;
    memset(unit, 0, sizeof unit);
    unit[p] = 1;
    if (plain_candidate(s->m, s->w, s->c, unit, s->marks)) stop("no matrix for these losses");
    for (struct part *q = plan; q < plan + parts; q++) {
      int needed = 0;
      for (int r = 0; r < q->rows; r++) needed |= unit[q->lost[r]];
      if (!needed) continue;
      for (int r = 0; r < q->rows; r++) q->matrix[r * PLACES + q->sources] = unit[q->lost[r]];
      q->source[q->sources++] = p;
    }
  }
  for (struct part *q = plan; q < plan + parts; q++)
    for (int r = 1; r < q->rows; r++) memmove(q->matrix + r * q->sources, q->matrix + r * PLACES, (size_t)q->sources * sizeof(int));
}

static void run_plan(uint16_t *place[PLACES], int length) {
  static char *source[PLACES], *lost[ROWS];
  for (struct part *q = plan; q < plan + parts; q++) {
    for (int i = 0; i < q->sources; i++) source[i] = (char *)place[q->source[i]];
    for (int r = 0; r < q->rows; r++) lost[r] = (char *)place[q->lost[r]];
    jerasure_matrix_encode(q->sources, q->rows, 16, q->matrix, source, lost, length * 2);
  }
}

static void make_words(const struct scene *s) {
  for (int i = 0; i < CALLS; i++) {
    for (int p = 0; p < s->k; p++) data[i][p] = (uint16_t)rand();
    if (plain_encode(s->m, s->w, s->c, data[i], words[i])) stop("plain C refused an encoding");
    if (axlebloom_wide_check((size_t)s->m, (size_t)s->w, (size_t)s->c, words[i], (size_t)s->n).number) stop("plain C made no codeword");
  }
  for (int p = 0; p < s->n; p++) for (int i = 0; i < BATCH; i++) column[p][i] = words[i % CALLS][p];
}

/* lends words with other symbols in the lost places */
static void damage(const struct scene *s) {
  for (int i = 0; i < s->calls; i++) {
    for (int p = 0; p < s->n; p++) lent[i][p] = (uint16_t)(words[i][p] + s->marks[p]);
    memcpy(lent_marks[i], s->marks, PLACES);
  }
}

static int library_call(const struct scene *s, int i) {
  size_t m = (size_t)s->m, w = (size_t)s->w, c = (size_t)s->c, n = (size_t)s->n;
  if (s->service == CHECK) return axlebloom_wide_check(m, w, c, lent[i], n).number;
  if (s->service == ENCODE) return axlebloom_wide_encode(m, w, c, data[i], (size_t)s->k, lent[i], n);
  if (s->service == REPAIR) return axlebloom_wide_repair(m, w, c, (size_t)s->group, lent[i], n, lent_marks[i], n).number;
  return axlebloom_wide_recover(m, w, c, lent[i], n, lent_marks[i], n).number;
}

static int plain_call(const struct scene *s, int i) {
  if (s->service == CHECK) return plain_check(s->m, s->w, s->c, lent[i]);
  if (s->service == ENCODE) return plain_encode(s->m, s->w, s->c, data[i], lent[i]);
  if (s->service == REPAIR) return plain_repair(s->m, s->w, s->c, s->group, lent[i], lent_marks[i]);
  return plain_recover(s->m, s->w, s->c, lent[i], lent_marks[i]);
}

static void compare_words(const struct scene *s, int count) {
  for (int i = 0; i < count; i++)
    if (memcmp(lent[i], words[i], (size_t)s->n * 2)) stop("a word is not the codeword");
}

static double time_calls(const struct scene *s, int call(const struct scene *, int)) {
  int refused = 0;
  double start = now();
  for (int i = 0; i < s->calls; i++) refused |= call(s, i);
  double t = now() - start;
  if (refused) stop("a word was refused");
  compare_words(s, s->calls);
  return t / s->calls;
}

static double time_batch(const struct scene *s) {
  static uint16_t *place[PLACES];
  memset(found, 0, sizeof found);
  for (int p = 0; p < s->n; p++) place[p] = s->marks[p] ? found[p] : column[p];
  double start = now();
  run_plan(place, BATCH);
  double t = now() - start;
  for (int p = 0; p < s->n; p++)
    if (s->marks[p] && memcmp(found[p], column[p], sizeof *found)) stop("a batch is not the codewords");
  return t / BATCH;
}

static double time_single(const struct scene *s) {
  static uint16_t *place[PLACES];
  double start = now();
  for (int p = s->from; p < s->to; p++) slot[p][0] = lent[0][p], place[p] = slot[p];
  run_plan(place, SLOT);
  for (int p = s->from; p < s->to; p++) if (s->marks[p]) lent[0][p] = slot[p][0];
  double t = now() - start;
  compare_words(s, 1);
  return t;
}

static double time_way(const struct scene *s, int way) {
  damage(s);
  if (way < 2) return time_calls(s, way ? plain_call : library_call);
  return way == 2 ? time_batch(s) : time_single(s);
}

/* nanoseconds a word each way, best of the rounds; Jerasure has no check, and is timed in every fourth round */
static void measure(const struct scene *s, double best[WAYS]) {
  make_words(s);
  if (s->service != CHECK) make_plan(s);
  for (int way = 0; way < WAYS; way++) best[way] = 1e18;
  for (int round = 0; round < ROUNDS; round++)
    for (int way = 0; way < WAYS; way++) {
      if (way > 1 && (s->service == CHECK || round % 4)) continue;
      double t = time_way(s, way) * 1e9;
      if (t < best[way]) best[way] = t;
    }
}

static struct scene scene(enum service service, const int shape[3], int excess) {
  int m = shape[0], w = shape[1], c = shape[2], n = m * w;
  struct scene s = {.service = service, .m = m, .w = w, .c = c, .n = n, .k = n - m * c - 2, .excess = excess, .group = m / 2, .to = n};
  s.calls = n > 100 && service != REPAIR ? 4 : CALLS;
  if (service == REPAIR) s.from = s.group * w, s.to = s.from + w;
  lose(m, w, c, excess, s.marks);
  for (int p = 0; p < n; p++) {
    if (service == ENCODE) s.marks[p] = (uint8_t)is_check(m, w, c, p);
    if (service == CHECK || p < s.from || p >= s.to) s.marks[p] = 0;
  }
  return s;
}

static void record_line(const struct scene *s, const double value[WAYS]) {
  static const char *ways[] = {"library", "plain C", "Jerasure, batch", "Jerasure, single"};
  static const char *names[] = {"check", "encode", "recover, excess", "repair of a group"};
  char name[32];
  snprintf(name, sizeof name, s->service == RECOVER ? "%s %d" : "%s", names[s->service], s->excess);
  size_t bytes = 2 * (size_t)(s->service == REPAIR ? s->w : s->n);
  for (int way = 0; way < WAYS; way++)
    if (value[way] < 1e17) record("sixteen bits", name, (size_t)s->m, (size_t)s->w, (size_t)s->c, 1, ways[way], bytes, value[way]);
}

static void print_line(const struct scene *s, const double value[WAYS]) {
  static const char *names[] = {"check", "encode", "recover, excess", "repair, c lost"};
  char name[32];
  snprintf(name, sizeof name, s->service == RECOVER ? "%s %d" : "%s", names[s->service], s->excess);
  printf("| %s | %dx%d c%d |", name, s->m, s->w, s->c);
  for (int way = 0; way < WAYS; way++)
    if (value[way] > 1e17) printf(" - |");
    else printf(" %.*f |", value[way] < 100, value[way]);
  printf(" %.2f |\n", value[0] / value[1]);
  fflush(stdout);
}

static void *run(void *call) {
  (*(void (**)(void))call)();
  return NULL;
}

/* bytes of a painted stack that a call has written */
static size_t stack(void call(void)) {
  enum { SIZE = 1 << 18, PAINT = 0xA5 };
  static unsigned char painted[SIZE] __attribute__((aligned(4096)));
  pthread_attr_t attributes;
  pthread_t thread;
  memset(painted, PAINT, SIZE);
  pthread_attr_init(&attributes);
  pthread_attr_setstack(&attributes, painted, SIZE);
  if (pthread_create(&thread, &attributes, run, &call) || pthread_join(thread, NULL)) exit(1);
  size_t i = 0;
  while (i < SIZE && painted[i] == PAINT) i++;
  return SIZE - i;
}

static struct scene now_lent;
static void nothing(void) {}
static void lent_call(void) { if (library_call(&now_lent, 0)) stop("a word was refused"); }

static void print_stack(void) {
  static const char *names[] = {"check", "encode", "recover", "repair"};
  static const int shape[3] = {16, 256, 3};
  size_t base = stack(nothing);
  printf("\nstack in bytes, for 16x256 c3:");
  for (int i = CHECK; i <= REPAIR; i++) {
    now_lent = scene((enum service)i, shape, i == RECOVER ? 2 : 0);
    make_words(&now_lent);
    damage(&now_lent);
    printf(" %s %zu%s", names[i], stack(lent_call) - base, i < REPAIR ? "," : "\n");
  }
}

int main(void) {
  static const int shapes[][3] = {{255, 16, 3}, {16, 256, 4}, {64, 64, 2}, {2, 3, 1}};
  enum { SHAPES = sizeof shapes / sizeof shapes[0] };
  plain_tables();
  same_field();
  puts("| service | shape | library | plain C | J batch | J single | library / plain C |");
  puts("|---|---|---|---|---|---|---|");
  for (int kind = 0; kind < 6; kind++)
    for (int i = 0; i < SHAPES; i++) {
      static struct scene s;
      double best[WAYS];
      /* four checks are out of sale */
      const int sold[3] = {shapes[i][0], shapes[i][1], kind == 1 && shapes[i][2] == 4 ? 3 : shapes[i][2]};
      s = scene(kind == 0 ? CHECK : kind == 1 ? ENCODE : kind == 5 ? REPAIR : RECOVER, sold, kind == 3 || kind == 4 ? kind - 2 : 0);
      measure(&s, best);
      print_line(&s, best);
      record_line(&s, best);
    }
  print_stack();
  return 0;
}
