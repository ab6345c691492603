/* Keeps a catalogue in a file: reads it, or starts a new one if there is no such file; puts a shape under a name, removes a name or drops the lines of
 * removed names; writes the result beside the old file and renames it, and prints the length before and after.
 * Run it once at a time: of two runs that read the same text, the later one drops the change of the other.
 * Arguments: FILE put NAME M W C, or FILE remove NAME, or FILE compact */
#include <errno.h>
#include <stdio.h>
#include <stdlib.h>
#include <string.h>

#include "axlebloom_catalogue.h"

static uint8_t text[AXLEBLOOM_CATALOGUE_MOST + 1];

/* Returns the size of the catalogue that was read. Only a file that isn't there is a new catalogue. */
static size_t read_or_start(const char *path) {
  FILE *file = fopen(path, "rb");
  size_t size = AXLEBLOOM_CATALOGUE_EMPTY_SIZE;
  if (!file && errno == ENOENT) return memcpy(text, AXLEBLOOM_CATALOGUE_EMPTY, size), size;
  if (file) size = fread(text, 1, sizeof text, file); /* a longer file is refused by its size */
  if (!file || ferror(file)) printf("%s can't be read\n", path), exit(1);
  fclose(file);
  return size;
}

static int write_back(const char *path, size_t before, size_t size) {
  char beside[4096];
  FILE *file = snprintf(beside, sizeof beside, "%s.new", path) < (int)sizeof beside ? fopen(beside, "wb") : NULL;
  size_t written = file ? fwrite(text, 1, size, file) : 0;
  if (!file || fclose(file) || written != size || rename(beside, path)) return printf("%s can't be written\n", path), 1;
  printf("%d bytes before, %d now\n", (int)before, (int)size);
  return 0;
}

/* Puts or removes a name, expecting the revision that it has now; shape is NULL for a remove. */
static int change(const char *path, size_t size, const char *name, char **shape) {
  const uint8_t *bytes = (const uint8_t *)name;
  size_t length = strlen(name);
  struct axlebloom_lookup_answer now = axlebloom_lookup(text, sizeof text, size, bytes, length);
  if (now.number && now.number != AXLEBLOOM_NO_SUCH_NAME) return printf("lookup: refused %d\n", now.number), 1;
  struct axlebloom_change_answer done;
  if (shape) {
    size_t m = strtoul(shape[0], NULL, 10), w = strtoul(shape[1], NULL, 10), c = strtoul(shape[2], NULL, 10);
    done = axlebloom_put(m, w, c, bytes, length, now.revision, text, sizeof text, size);
  } else {
    done = axlebloom_remove(bytes, length, now.revision, text, sizeof text, size);
  }
  if (done.number) return printf("%s: refused %d\n", shape ? "put" : "remove", done.number), 1;
  printf("%s: revision %d%s; ", name, done.revision, shape ? "" : ", gone");
  return write_back(path, size, done.size);
}

int main(int argc, char **argv) {
  const char *task = argc > 2 ? argv[2] : "";
  size_t size = argc > 2 ? read_or_start(argv[1]) : 0;
  if (argc == 7 && !strcmp(task, "put")) return change(argv[1], size, argv[3], argv + 4);
  if (argc == 4 && !strcmp(task, "remove")) return change(argv[1], size, argv[3], NULL);
  if (argc == 3 && !strcmp(task, "compact")) {
    struct axlebloom_compact_answer done = axlebloom_compact(text, sizeof text, size);
    if (done.number) return printf("compact: refused %d\n", done.number), 1;
    printf("compacted; ");
    return write_back(argv[1], size, done.size);
  }
  return printf("arguments: FILE put NAME M W C, or FILE remove NAME, or FILE compact\n"), 2;
}
