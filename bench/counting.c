// Preloaded: how many allocations there were, and how many of them behind the first datagram.
#define _GNU_SOURCE
#include <dlfcn.h>
#include <stdatomic.h>
#include <stdio.h>
#include <stdlib.h>
#include <sys/types.h>
#include <sys/socket.h>
#include <sys/syscall.h>
#include <unistd.h>
static atomic_ulong all, behind;
static atomic_int opened;
static void count(void) { all++; if (opened) behind++; }
void *malloc(size_t n) { static void *(*real)(size_t); if (!real) real = dlsym(RTLD_NEXT, "malloc"); count(); return real(n); }
void *realloc(void *p, size_t n) { static void *(*real)(void *, size_t); if (!real) real = dlsym(RTLD_NEXT, "realloc"); count(); return real(p, n); }
ssize_t recvfrom(int fd, void *b, size_t n, int f, struct sockaddr *a, socklen_t *l) {
  static ssize_t (*real)(int, void *, size_t, int, struct sockaddr *, socklen_t *);
  if (!real) real = dlsym(RTLD_NEXT, "recvfrom");
  ssize_t came = real(fd, b, n, f, a, l);
  if (came >= 0) opened = 1;
  return came;
}
void _exit(int status) {
  fprintf(stderr, "allocations %lu, behind the first datagram %lu\n", all, behind);
  fflush(stderr);
  syscall(SYS_exit_group, status);
  __builtin_unreachable();
}
