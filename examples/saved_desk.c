/* A desk in a file: opened jobs outlast the program. Each run reads the desk, or starts a fresh one, opens a job and saves the desk with its layout number.
 * A file of another layout, or of another length, is refused and stays as it is. Before you serve with a job of a saved desk, report to it (lose)
 * every place that was lost since the desk was saved. Run one program at a time: two that read the same desk issue the same handle. Argument: FILE */
#include <errno.h>
#include <stdio.h>
#include <string.h>

#include "axlebloom.h"

/* What is saved: the layout's number beside the record. It is for machines of the same byte order. */
static struct {
  uint64_t layout;
  struct axlebloom_desk desk;
} saved;

/* Reads the desk; only a file that isn't there is a new one. Returns NULL, or why there is no desk. */
static const char *read_desk(const char *path) {
  FILE *file = fopen(path, "rb");
  if (!file && errno == ENOENT) {
    saved.layout = AXLEBLOOM_DESK_LAYOUT;
    axlebloom_fresh(&saved.desk);
    return NULL;
  }
  if (!file) return strerror(errno);
  size_t size = fread(&saved, 1, sizeof saved, file);
  int more = fgetc(file) != EOF, failed = ferror(file);
  fclose(file);
  if (failed) return "it can't be read";
  if (size != sizeof saved || more) return "it has another length";
  if (saved.layout != AXLEBLOOM_DESK_LAYOUT) return "it has another layout";
  return NULL;
}

/* Writes the desk beside the old one and then puts it in its place. */
static int write_desk(const char *path) {
  char beside[4096];
  if (snprintf(beside, sizeof beside, "%s.new", path) >= (int)sizeof beside) return 1;
  FILE *file = fopen(beside, "wb");
  if (!file) return 1;
  size_t size = fwrite(&saved, 1, sizeof saved, file);
  return fclose(file) != 0 || size != sizeof saved || rename(beside, path) != 0;
}

int main(int argc, char **argv) {
  uint8_t marks[32] = {1};
  uint64_t handle;
  if (argc != 2) return printf("argument: FILE\n"), 2;
  /* the library that is linked may be another one than the header */
  if (axlebloom_desk_layout() != AXLEBLOOM_DESK_LAYOUT) return printf("header and library have different layouts\n"), 1;
  const char *why = read_desk(argv[1]);
  if (why) return printf("%s: no desk: %s\n", argv[1], why), 1;

  /* a record that is damaged is refused with 31 by this call, as by every other */
  uint8_t number = axlebloom_open(&saved.desk, 4, 8, 2, marks, sizeof marks, &handle);
  char text[AXLEBLOOM_TEXT_SIZE];
  axlebloom_text(number, text, sizeof text);
  if (number) return printf("open: refused with %d, %s\n", number, text), 1;
  if (write_desk(argv[1])) return printf("%s can't be written\n", argv[1]), 1;
  printf("handle %d\n", (int)handle);
  return 0;
}
