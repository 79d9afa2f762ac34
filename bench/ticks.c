// When ticks came, a line of seconds each.
//
// Preloaded as a shared object: the time of each give of 320 octets, which are the samples of one tick, to the file that TICKS
// names. As a program of its own, `ticks COUNT`: a bare thread that sleeps until each tick, and does nothing else: what the
// machine itself makes late.
#define _GNU_SOURCE
#include <errno.h>
#include <stdatomic.h>
#include <stdio.h>
#include <stdlib.h>
#include <sys/syscall.h>
#include <time.h>
#include <unistd.h>

#define ROOM (1 << 18)
static struct timespec came[ROOM];
static atomic_uint count;

static void note(void) {
  unsigned at = count++;
  if (at < ROOM) clock_gettime(CLOCK_MONOTONIC, &came[at]);
}

static void print_to(FILE *out) {
  for (unsigned at = 0; at < count && at < ROOM; at++) fprintf(out, "%ld.%09ld\n", came[at].tv_sec, came[at].tv_nsec);
  fflush(out);
}

#ifdef BARE
int main(int argc, char **argv) {
  struct timespec due;
  clock_gettime(CLOCK_MONOTONIC, &due);
  for (long left = argc > 1 ? atol(argv[1]) : 0; left > 0; left--) {
    due.tv_nsec += 20000000;
    if (due.tv_nsec >= 1000000000) due.tv_sec++, due.tv_nsec -= 1000000000;
    while (clock_nanosleep(CLOCK_MONOTONIC, TIMER_ABSTIME, &due, NULL) == EINTR) {}
    note();
  }
  print_to(stdout);
}
#else
ssize_t write(int fd, const void *octets, size_t len) {
  if (len == 320) note();
  return syscall(SYS_write, fd, octets, len);
}

void _exit(int status) {
  FILE *out = fopen(getenv("TICKS"), "w");
  if (out) print_to(out);
  syscall(SYS_exit_group, status);
  __builtin_unreachable();
}
#endif
