/* The catalogue from C: a new one, lookups, puts, removes and compactions in the order of the refusals, both versions of the text, bytes past it,
 * and bad calls. */
#include <stdio.h>
#include <string.h>

#include "axlebloom_catalogue.h"

static int failures, calls;
static uint8_t text[5000];
static size_t size;

static void expect(const char *what, int holds) {
  calls++;
  if (!holds) printf("%s\n", what), failures++;
}

/* starts with a text, and 0xEE past it */
static void start(const char *with) {
  memset(text, 0xEE, sizeof text);
  size = strlen(with);
  memcpy(text, with, size);
}

/* what a change has to leave alone, from the bytes before it; the size to go on with */
static struct axlebloom_change_answer changed(const uint8_t *before, struct axlebloom_change_answer answer) {
  if (answer.number) {
    expect("a refused change changes a byte", !memcmp(before, text, sizeof text));
    expect("a refused change has figures", answer.revision == 0 && answer.size == 0);
  } else {
    expect("a byte past the text changes", !memcmp(before + answer.size, text + answer.size, sizeof text - answer.size));
    size = answer.size;
  }
  return answer;
}

static struct axlebloom_change_answer put_in(size_t capacity, const char *name, size_t expected, size_t m, size_t w, size_t c) {
  uint8_t before[sizeof text];
  memcpy(before, text, sizeof text);
  return changed(before, axlebloom_put(m, w, c, (const uint8_t *)name, name ? strlen(name) : 0, expected, capacity ? text : NULL, capacity, size));
}

static struct axlebloom_change_answer remove_in(size_t capacity, const char *name, size_t expected) {
  uint8_t before[sizeof text];
  memcpy(before, text, sizeof text);
  return changed(before, axlebloom_remove((const uint8_t *)name, name ? strlen(name) : 0, expected, capacity ? text : NULL, capacity, size));
}

static int compact_in(size_t capacity) {
  uint8_t before[sizeof text];
  memcpy(before, text, sizeof text);
  struct axlebloom_compact_answer answer = axlebloom_compact(capacity ? text : NULL, capacity, size);
  changed(before, (struct axlebloom_change_answer){answer.number, 0, answer.size});
  return answer.number;
}

static int put(const char *name, size_t expected, size_t m, size_t w, size_t c) { return put_in(4096, name, expected, m, w, c).number; }

static int taken(const char *name, size_t expected) { return remove_in(4096, name, expected).number; }

static struct axlebloom_lookup_answer look(const char *name) {
  return axlebloom_lookup(text, 4096, size, (const uint8_t *)name, name ? strlen(name) : 0);
}

static int is_text(const char *with) { return size == strlen(with) && !memcmp(text, with, size); }

static void puts_and_lookups(void) {
  start(AXLEBLOOM_CATALOGUE_EMPTY);
  expect("the empty text's size", size == AXLEBLOOM_CATALOGUE_EMPTY_SIZE);
  expect("no name yet", look("rack").number == 18);
  struct axlebloom_change_answer first = put_in(4096, "rack", 0, 2, 3, 1);
  expect("the first put", first.number == 0 && first.revision == 1 && first.size == 24);
  expect("a name before it", put("desk-box", 0, 15, 16, 3) == 0);
  expect("a name between", put("net", 0, 4, 8, 2) == 0);
  expect("a name that another begins with", put("desk", 0, 2, 3, 1) == 0);
  expect("sorted", is_text("shapes\t2\t0\ndesk\t1\t2\t3\t1\ndesk-box\t1\t15\t16\t3\nnet\t1\t4\t8\t2\nrack\t1\t2\t3\t1\n"));
  struct axlebloom_lookup_answer found = look("desk-box");
  expect("found", found.number == 0 && found.revision == 1 && found.m == 15 && found.w == 16 && found.c == 3);
  for (size_t revision = 1; revision < 10; revision++) expect("put again", put("net", revision, 1, 16, 3) == 0);
  expect("a longer line", is_text("shapes\t2\t0\ndesk\t1\t2\t3\t1\ndesk-box\t1\t15\t16\t3\nnet\t10\t1\t16\t3\nrack\t1\t2\t3\t1\n"));
  expect("a shorter line", put("desk-box", 1, 2, 3, 1) == 0 && look("rack").revision == 1 && look("net").revision == 10);
}

static void refusals(void) {
  start("shapes\t1\nlast\t65535\t2\t3\t1\nold\t7\t3\t6\t4\n");
  expect("a stored shape with c = 4 is found", look("old").number == 0 && look("old").c == 4);
  expect("1", put("A", 1, 16, 3, 1) == 1);
  expect("2", put("A", 1, 2, 3, 0) == 2);
  expect("3", put("A", 1, 2, 17, 1) == 3);
  expect("4", put("A", 1, 1, 3, 1) == 4);
  expect("29 before 16", (size--, put("A", 1, 3, 6, 4)) == 29);
  expect("16 before 17", put("A", 1, 2, 3, 1) == 16 && look("A").number == 16);
  size++;
  expect("17 before 18 and 19", look("A").number == 17 && put("A", 1, 2, 3, 1) == 17);
  expect("18", look("new").number == 18);
  expect("19 for a new name", put("new", 1, 2, 3, 1) == 19);
  expect("19 for an old name", put("old", 0, 2, 3, 1) == 19 && put("old", 6, 2, 3, 1) == 19 && put("old", 7 + 65536, 2, 3, 1) == 19);
  expect("19 before 20", put("last", 0, 2, 3, 1) == 19 && put("last", (size_t)65535 << 16, 2, 3, 1) == 19);
  expect("20", put("last", 65535, 2, 3, 1) == 20);
  expect("21 by the buffer", put_in(size + 13, "new", 0, 2, 3, 1).number == 21 && put_in(size + 14, "new", 0, 2, 3, 1).number == 0);
  size = 4097;
  expect("16 by 4096", put_in(5000, "new", 0, 2, 3, 1).number == 16);
  size = 10;
  expect("16 by the buffer", put_in(9, "new", 0, 2, 3, 1).number == 16 && put_in(0, "new", 0, 2, 3, 1).number == 16);
  size = 0;
  expect("no text at all", put_in(0, "new", 0, 2, 3, 1).number == 16 && axlebloom_lookup(NULL, 0, 0, NULL, 0).number == 16);
}

static void removes(void) {
  start("shapes\t1\ndesk\t7\t2\t3\t1\nold\t9\t3\t6\t4\nrack\t65535\t2\t3\t1\n");
  expect("16 before 17", (size--, taken("A", 0)) == 16);
  size++;
  expect("17 before 18", taken("A", 0) == 17 && taken("", 0) == 17 && taken(NULL, 0) == 17);
  expect("18 before 19", taken("new", 1) == 18);
  expect("19", taken("desk", 0) == 19 && taken("desk", 6) == 19 && taken("desk", 7 + 65536) == 19 && taken("rack", 0) == 19);
  expect("20", taken("rack", 65535) == 20);
  expect("21 by the buffer", remove_in(size, "desk", 7).number == 21 && remove_in(size + 1, "old", 9).number == 21);
  struct axlebloom_change_answer gone = remove_in(size + 1, "desk", 7);
  expect("a remove to the buffer's end", gone.number == 0 && gone.revision == 8);
  expect("version 2", is_text("shapes\t2\t0\ndesk\t8\tgone\nold\t9\t3\t6\t4\nrack\t65535\t2\t3\t1\n"));
  expect("a gone name is not there", look("desk").number == 18 && taken("desk", 8) == 18 && taken("desk", 7) == 18);
  expect("19 of a gone name", put("desk", 8, 2, 3, 1) == 19 && put("desk", 7, 2, 3, 1) == 19);
  expect("a retired shape is removed, and its revision is longer", taken("old", 9) == 0);
  expect("two gone", is_text("shapes\t2\t0\ndesk\t8\tgone\nold\t10\tgone\nrack\t65535\t2\t3\t1\n"));
  struct axlebloom_change_answer again = put_in(4096, "desk", 0, 4, 8, 2);
  expect("a put on a gone name", again.number == 0 && again.revision == 9 && look("desk").m == 4);
  expect("18 before 19 in version 2", taken("old", 0) == 18);
}

static void compactions(void) {
  start("shapes\t1\na\t5\t2\t3\t1\n");
  expect("no gone line in version 1", compact_in(size) == 0 && is_text("shapes\t1\na\t5\t2\t3\t1\n"));
  start("shapes\t2\t3\na\t5\t2\t3\t1\n");
  expect("no gone line in version 2", compact_in(size) == 0 && is_text("shapes\t2\t3\na\t5\t2\t3\t1\n"));
  start("shapes\t2\t3\na\t5\t2\t3\t1\nb\t12\tgone\nc\t4\tgone\nd\t1\t4\t8\t2\n");
  expect("the floor is the largest", compact_in(size) == 0 && is_text("shapes\t2\t12\na\t5\t2\t3\t1\nd\t1\t4\t8\t2\n"));
  expect("a new name starts above the floor", put("b", 0, 2, 3, 1) == 0 && look("b").revision == 13 && put("e", 0, 2, 3, 1) == 0 && look("e").revision == 13);
  expect("names that stay go on", put("a", 5, 2, 3, 1) == 0 && look("a").revision == 6);
  expect("the floor stays", taken("d", 1) == 0 && compact_in(4096) == 0 && !memcmp(text, "shapes\t2\t12\na\t6", 15));
  expect("dropped names are not there", look("d").number == 18 && taken("c", 4) == 18 && put("c", 4, 2, 3, 1) == 19);
  size--;
  expect("16 alone", compact_in(4096) == 16);
  size = 4097;
  expect("16 by 4096", compact_in(5000) == 16);
  size = 10;
  expect("16 by the buffer", compact_in(9) == 16 && compact_in(0) == 16);
  size = 0;
  expect("no text at all", compact_in(0) == 16 && remove_in(0, NULL, 0).number == 16 && remove_in(0, "a", 1).number == 16);
}

/* revisions and floors at their end */
static void ends(void) {
  start("shapes\t2\t0\na\t65534\t2\t3\t1\nb\t3\t2\t3\t1\n");
  struct axlebloom_change_answer last = remove_in(4096, "a", 65534);
  expect("gone at the last revision", last.number == 0 && last.revision == 65535);
  expect("20 of a gone name, after 19", put("a", 65535, 2, 3, 1) == 19 && put("a", 0, 2, 3, 1) == 20);
  expect("new names still start at 1", put("c", 0, 2, 3, 1) == 0 && look("c").revision == 1);
  expect("the highest floor", compact_in(4096) == 0 && is_text("shapes\t2\t65535\nb\t3\t2\t3\t1\nc\t1\t2\t3\t1\n"));
  expect("20 by the floor, after 19", put("a", 1, 2, 3, 1) == 19 && put("a", 0, 2, 3, 1) == 20 && put("new", 0, 2, 3, 1) == 20);
  expect("names that are there can be put", put("b", 3, 4, 8, 2) == 0 && look("b").revision == 4);
  expect("and removed, and put again", taken("c", 1) == 0 && put("c", 0, 2, 3, 1) == 0 && look("c").revision == 3);
  expect("but not once dropped", taken("c", 3) == 0 && compact_in(4096) == 0 && put("c", 0, 2, 3, 1) == 20);
}

static void texts(void) {
  const char *bad[] = {"", "shapes\t1", "shapes\t2\n", "shapes\t1\na\t2\tgone\n", "shapes\t1\t0\n", "shapes\t3\t0\n", "shapes\t2\t00\n", "shapes\t2\t65536\n",
                       "shapes\t2\t0\t\n", "shapes\t2\t0\na\t2\tGone\n", "shapes\t2\t0\na\t2\tgone\t\n", "shapes\t2\t0\na\t0\tgone\n",
                       "shapes\t2\t0\na\t65536\tgone\n", "shapes\t2\t0\na\tgone\n", "shapes\t2\t0\na\t1\tgone\na\t2\t2\t3\t1\n", "shapes\t2\t0",
                       "shapes 1\n", "shapes\t01\n", "shapes\t1\n\n", "shapes\t1\nb\t1\t2\t3\t1\na\t1\t2\t3\t1\n",
                       "shapes\t1\na\t1\t2\t3\t1\na\t2\t2\t3\t1\n", "shapes\t1\na\t01\t2\t3\t1\n", "shapes\t1\na\t0\t2\t3\t1\n", "shapes\t1\na\t65536\t2\t3\t1\n",
                       "shapes\t1\na\t1\t2\t3\t1", "shapes\t1\na\t1\t2\t3\t1\t\n", "shapes\t1\na\t1\t2\t3\n", "shapes\t1\na\t1\t1\t3\t1\n",
                       "shapes\t1\nA\t1\t2\t3\t1\n", "shapes\t1\r\na\t1\t2\t3\t1\r\n", "shapes\t1\na\t+1\t2\t3\t1\n"};
  for (size_t i = 0; i < sizeof bad / sizeof *bad; i++) {
    start(bad[i]);
    expect(bad[i], look("a").number == 16 && put("a", 1, 2, 3, 1) == 16 && taken("a", 1) == 16 && compact_in(4096) == 16);
  }
}

/* a name of 16 bytes: the letter, four digits of the number, zeros */
static const char *numbered(char letter, int number) {
  static char name[] = "a000000000000000";
  name[0] = letter;
  for (int i = 4; i > 0; i--, number /= 10) name[i] = (char)('0' + number % 10);
  return name;
}

/* puts names with this letter and the smallest shape until one is refused */
static void fill(char letter) {
  int number = 0;
  for (int count = 0; !number; count++) number = put(numbered(letter, count), 0, 2, 3, 1);
  expect("full", number == 21);
}

/* to the last byte of 4,096 and no further; room comes back with a compaction */
static void full(void) {
  start(AXLEBLOOM_CATALOGUE_EMPTY);
  fill('a');
  expect("still read", size <= 4096 && size > 4096 - 25 && look("a000000000000000").number == 0);
  size_t most = size;
  for (int i = 0; i < 100; i++) expect("a remove in a full text", taken(numbered('a', i), 1) == 0);
  expect("gone lines take room", size == most - 100);
  expect("compaction gives it back", compact_in(4096) == 0 && size == most - 100 * 25 && !memcmp(text, "shapes\t2\t2\na0100", 16));
  fill('b');
  expect("as many names as before, at revision 3", size == most && look("b009900000000000").revision == 3);
}

/* a text of version 1 with no room for the two bytes more of version 2 */
static void full_first_version(void) {
  char line[32];
  start("shapes\t1\n");
  for (int i = 0; i < 164; i++) {
    size_t length = (size_t)sprintf(line, "%s\t1\t2\t3\t1\n", i < 163 ? numbered('a', i) : "bbb");
    memcpy(text + size, line, length), size += length;
  }
  expect("a text of 4096 bytes", size == 4096 && look("bbb").number == 0);
  expect("no put fits", put("bbb", 1, 2, 3, 1) == 21 && put("c", 0, 2, 3, 1) == 21 && put_in(5000, "bbb", 1, 2, 3, 1).number == 21);
  expect("no remove fits", taken("bbb", 1) == 21 && remove_in(5000, "bbb", 1).number == 21);
  expect("nothing to drop", compact_in(4096) == 0 && size == 4096);
}

int main(void) {
  puts_and_lookups();
  refusals();
  removes();
  compactions();
  ends();
  texts();
  full();
  full_first_version();
  if (!failures) printf("catalogue: %d checks\n", calls);
  return failures != 0;
}
