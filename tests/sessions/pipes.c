// pipes reader|writer|idle|broken PROGRAM: runs the program on standard input, and hands on what it writes.
// reader: its output is a pipe that says "not now" when full, and is read slowly.
// writer: its input is a pipe that says "not now" when empty, and is written slowly.
// idle: the same, but nothing comes for a second; if the program takes more than 200 ms of processor time, the status is 4.
// broken: its input is a terminal that goes away after the last byte, so that a read fails.
#define _GNU_SOURCE
#include <fcntl.h>
#include <stdlib.h>
#include <string.h>
#include <sys/resource.h>
#include <sys/wait.h>
#include <termios.h>
#include <time.h>
#include <unistd.h>

static void rest(long nanoseconds) {
  struct timespec time = {0, nanoseconds};
  nanosleep(&time, 0);
}

static void all(int to, const char *bytes, ssize_t count) {
  for (ssize_t done = 0, put; done < count; done += put)
    if ((put = write(to, bytes + done, count - done)) < 0) exit(3);
}

// copies to the end, so many bytes at a time, with a pause after each
static void copy(int from, int to, size_t most, long pause) {
  char bytes[4096];
  for (ssize_t got; (got = read(from, bytes, most)) > 0;) {
    all(to, bytes, got);
    if (pause) rest(pause);
  }
}

int main(int count, char **words) {
  if (count != 3) return 2;
  int reader = !strcmp(words[1], "reader"), broken = !strcmp(words[1], "broken"), idle = !strcmp(words[1], "idle");
  int ends[2];
  if (broken) {
    struct termios raw;
    ends[0] = posix_openpt(O_RDWR | O_NOCTTY);
    if (ends[0] < 0 || grantpt(ends[0]) || unlockpt(ends[0])) return 2;
    ends[1] = open(ptsname(ends[0]), O_RDWR | O_NOCTTY);
    if (ends[1] < 0 || tcgetattr(ends[1], &raw)) return 2;
    cfmakeraw(&raw);
    if (tcsetattr(ends[1], TCSANOW, &raw)) return 2;
  } else {
    if (pipe(ends)) return 2;
    int mine = reader ? ends[1] : ends[0];
    if (fcntl(mine, F_SETFL, fcntl(mine, F_GETFL) | O_NONBLOCK)) return 2;
  }
  pid_t child = fork();
  if (child < 0) return 2;
  if (!child) {
    dup2(reader ? ends[1] : ends[0], reader ? 1 : 0);
    close(ends[0]);
    close(ends[1]);
    execl(words[2], words[2], (char *)0);
    _exit(2);
  }
  close(reader ? ends[1] : ends[0]);
  if (idle) rest(999999999);
  if (reader) copy(ends[0], 1, 512, 1000000);
  else copy(0, ends[1], broken ? 512 : 7, broken ? 0 : 1000000);
  close(reader ? ends[0] : ends[1]);
  int status;
  struct rusage used;
  if (wait4(child, &status, 0, &used) != child || !WIFEXITED(status)) return 3;
  long busy = (used.ru_utime.tv_sec + used.ru_stime.tv_sec) * 1000 + (used.ru_utime.tv_usec + used.ru_stime.tv_usec) / 1000;
  return idle && busy > 200 ? 4 : WEXITSTATUS(status);
}
