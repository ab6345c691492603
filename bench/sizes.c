/* The bytes of stack that each exported function takes: it is called on a painted stack, and what stands below the lowest byte it has
 * written was not needed. Of several calls (shapes, losses, a contradiction) the largest counts. */
#include <stdio.h>
#include <stdlib.h>
#include <string.h>
#include <ucontext.h>

#include "axlebloom.h"

enum { M = 15, W = 16, N = M * W, STACK = 1 << 16, PAINT = 0xA5 };

static uint8_t stack[STACK] __attribute__((aligned(64)));
static uint8_t data[N], word[N], held[N], marks[N], held_marks[N];
static size_t c, k;
static struct axlebloom_desk desk, held_desk;
static struct axlebloom_gather gather;
static uint64_t handle, given;
static uint32_t served;
static volatile size_t answer;

static void nothing(void) { answer = 0; }
static void describe(void) { answer = axlebloom_describe(M, W, c); }
static void places(void) { answer = axlebloom_places(M, W, c); }
static void data_bytes(void) { answer = axlebloom_data(M, W, c); }
static void sure(void) { answer = axlebloom_sure(M, W, c); }
static void encode(void) { answer = axlebloom_encode(M, W, c, data, k, held, N); }
static void extract(void) { answer = axlebloom_extract(M, W, c, held, N, data, k); }
static void check(void) { answer = axlebloom_check(M, W, c, held, N).number; }
static void judge(void) { answer = axlebloom_judge(M, W, c, held_marks, N); }
static void edit(void) { answer = axlebloom_edit(M, W, c, held, N, 7, 99).number; }
static void profile(void) { answer = axlebloom_profile(M, W, c, held_marks, N).number; }
static void repair(void) { answer = axlebloom_repair(M, W, c, M - 1, held, N, held_marks, N).number; }
static void recover(void) { answer = axlebloom_recover(M, W, c, held, N, held_marks, N).number; }
static void fresh(void) { axlebloom_fresh(&held_desk); }
static void open_job(void) { answer = axlebloom_open(&held_desk, M, W, c, held_marks, N, &given); }
static void serve(void) { answer = axlebloom_serve(&held_desk, handle, held, N).number; }
static void read_served(void) { answer = axlebloom_read(&held_desk, handle, &served); }
static void lose(void) { answer = axlebloom_lose(&held_desk, handle, N - 1); }
static void find(void) { answer = axlebloom_find(&held_desk, handle, 0); }
static void close_job(void) { answer = axlebloom_close(&held_desk, handle); }
static void gather_begin(void) { answer = axlebloom_gather_begin(&gather, M, W, c); }
static void gather_take(void) { answer = axlebloom_gather_take(&gather, 0, held, 0); }
static void gather_finish(void) { answer = axlebloom_gather_finish(&gather, word, N).number; }

/* bytes of the painted stack down to the lowest that a call has written */
static size_t touched(void call(void)) {
  ucontext_t here, there;
  memset(stack, PAINT, sizeof stack);
  if (getcontext(&there)) exit(1);
  there.uc_stack.ss_sp = stack, there.uc_stack.ss_size = sizeof stack, there.uc_link = &here;
  makecontext(&there, call, 0);
  if (swapcontext(&here, &there)) exit(1);
  size_t i = 0;
  while (i < sizeof stack && stack[i] == PAINT) i++;
  return sizeof stack - i;
}

/* the codeword that carries the data, by recovering its check places: four checks are out of sale */
static int make_word(void) {
  for (size_t p = 0, i = 0; p < N; p++) {
    marks[p] = p % W >= W - c || p >= N - c - 2;
    word[p] = marks[p] ? 0 : data[i++];
  }
  return axlebloom_recover(M, W, c, word, N, marks, N).number;
}

/* a codeword for c local checks, marks with this excess, and a desk with such a job */
static void set_scene(size_t checks, size_t excess) {
  c = checks, k = axlebloom_data(M, W, c);
  if (make_word()) exit(2);
  for (size_t g = 0; g < M; g++)
    for (size_t i = 0; i < c + (g < excess); i++) marks[g * W + (i * 7 + g) % W] = 1;
  axlebloom_fresh(&desk);
  if (axlebloom_open(&desk, M, W, c, marks, N, &handle)) exit(2);
}

/* the most that a call takes, beyond an empty one: good calls with each c and excess, and then with one present byte changed */
static size_t most(void call(void)) {
  size_t result = 0, none = touched(nothing);
  for (size_t turn = 0; turn < 24; turn++) {
    set_scene(turn % 4 + 1, turn / 4 % 3);
    memcpy(held, word, sizeof held), memcpy(held_marks, marks, sizeof marks), held_desk = desk;
    held[N - W] = (uint8_t)(held[N - W] + turn / 12);
    if (axlebloom_gather_begin(&gather, M, W, c)) exit(2);
    memcpy(gather.bytes, held, sizeof held), memcpy(gather.marks, marks, sizeof marks);
    size_t t = touched(call);
    if (t > none + result) result = t - none;
  }
  return result;
}

int main(void) {
  static const struct { const char *name; void (*call)(void); } calls[] = {
      {"describe", describe}, {"places", places}, {"data", data_bytes}, {"sure", sure}, {"encode", encode}, {"extract", extract},
      {"check", check}, {"judge", judge}, {"profile", profile}, {"edit", edit}, {"repair", repair}, {"recover", recover}, {"fresh", fresh}, {"open", open_job},
      {"serve", serve}, {"read", read_served}, {"close", close_job}, {"lose", lose}, {"find", find},
      {"gather_begin", gather_begin}, {"gather_take", gather_take}, {"gather_finish", gather_finish}};
  for (int i = 0; i < N; i++) data[i] = (uint8_t)(i * 11 + 3);
  printf("\n| function      | stack |\n|---------------|-------|\n");
  for (size_t i = 0; i < sizeof calls / sizeof calls[0]; i++) printf("| %-13s | %5zu |\n", calls[i].name, most(calls[i].call));
  return 0;
}
