/* A figure for the table and the plot that bench/all makes: one line of the file that the environment variable BENCH_TABLE names, fields separated by
 * tabs. Where it is not set, nothing is written.
 *   edition      bytes, sixteen bits, blocks, or steps for the second table
 *   service      as encode, or recover, excess 2
 *   m, w, c      the shape
 *   length       the bytes of a block; 1 for words
 *   way          library, or what stands beside it, as plain C. Where the variable BENCH_BUILD is set, its text stands for library: another build of it
 *   bytes        what one call works on, lost bytes included
 *   nanoseconds  what it takes */
#ifndef RECORD_H
#define RECORD_H

#include <stdio.h>
#include <stdlib.h>
#include <string.h>

static inline void record(const char *edition, const char *service, size_t m, size_t w, size_t c, size_t length, const char *way, size_t bytes,
                          double nanoseconds) {
  const char *name = getenv("BENCH_TABLE");
  const char *build = getenv("BENCH_BUILD");
  FILE *file = name ? fopen(name, "a") : NULL;
  if (!file) return;
  if (build && strcmp(way, "library") == 0) way = build;
  fprintf(file, "%s\t%s\t%zux%zu c%zu\t%zu\t%s\t%zu\t%.4g\n", edition, service, m, w, c, length, way, bytes, nanoseconds);
  fclose(file);
}

#endif
