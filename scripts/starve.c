// Preloaded: makes one call of the program fail or fall short, or counts the calls.
//
// STARVE is `KIND N`, and the Nth call of that kind (from 1) is refused; with N 0 none is. Kinds: `alloc`, an allocation; `read` and
// `write` on files, pipes and standard output, and `open` of a file, which fail with EIO, ENOSPC and EACCES; `receive`, `send` and `bind`
// of a socket, which fail with ENETDOWN; `short`, a read or a write of several octets, which moves one; `again`, a read or a write that a
// signal interrupts (EINTR); `thread`, the making of a thread (EAGAIN). The number of calls of the kind goes to the file that STARVE_COUNT names. Calls that the C library and
// the loader make before `main` are not counted.
#define _GNU_SOURCE
#include <dlfcn.h>
#include <errno.h>
#include <fcntl.h>
#include <pthread.h>
#include <stdarg.h>
#include <stdatomic.h>
#include <stdio.h>
#include <stdlib.h>
#include <string.h>
#include <sys/socket.h>
#include <sys/syscall.h>
#include <unistd.h>

static const char *kind = "";
static unsigned long wanted;
static atomic_ulong seen;
static int main_runs;

// Whether this call of one of the kinds is the one that fails.
static int is_it(const char *of) {
  return main_runs && !strcmp(kind, of) && ++seen == wanted;
}

static int refuse(int error) {
  errno = error;
  return -1;
}

#define REAL(name) static __typeof__(name) *real; if (!real) real = (__typeof__(name) *)dlsym(RTLD_NEXT, #name)

void *malloc(size_t n) { REAL(malloc); if (is_it("alloc")) { errno = ENOMEM; return NULL; } return real(n); }
void *realloc(void *p, size_t n) { REAL(realloc); if (is_it("alloc")) { errno = ENOMEM; return NULL; } return real(p, n); }
void *aligned_alloc(size_t a, size_t n) { REAL(aligned_alloc); if (is_it("alloc")) { errno = ENOMEM; return NULL; } return real(a, n); }
int posix_memalign(void **p, size_t a, size_t n) { REAL(posix_memalign); return is_it("alloc") ? ENOMEM : real(p, a, n); }

// (calloc is the loader's too, before dlsym can answer)
extern void *__libc_calloc(size_t, size_t);
void *calloc(size_t m, size_t n) { if (is_it("alloc")) { errno = ENOMEM; return NULL; } return __libc_calloc(m, n); }

ssize_t read(int fd, void *to, size_t n) {
  if (is_it("read")) return refuse(EIO);
  if (is_it("again")) return refuse(EINTR);
  if (n > 1 && is_it("short")) n = 1;
  return syscall(SYS_read, fd, to, n);
}

ssize_t write(int fd, const void *from, size_t n) {
  if (is_it("write")) return refuse(ENOSPC);
  if (is_it("again")) return refuse(EINTR);
  if (n > 1 && is_it("short")) n = 1;
  return syscall(SYS_write, fd, from, n);
}

static int mode_of(int flags, va_list more) { return flags & (O_CREAT | O_TMPFILE) ? va_arg(more, int) : 0; }

int open(const char *path, int flags, ...) {
  va_list more;
  va_start(more, flags);
  int mode = mode_of(flags, more);
  va_end(more);
  return is_it("open") ? refuse(EACCES) : (int)syscall(SYS_openat, AT_FDCWD, path, flags, mode);
}

int openat(int at, const char *path, int flags, ...) {
  va_list more;
  va_start(more, flags);
  int mode = mode_of(flags, more);
  va_end(more);
  return is_it("open") ? refuse(EACCES) : (int)syscall(SYS_openat, at, path, flags, mode);
}

int bind(int fd, const struct sockaddr *at, socklen_t n) { REAL(bind); return is_it("bind") ? refuse(ENETDOWN) : real(fd, at, n); }

ssize_t recvfrom(int fd, void *to, size_t n, int flags, struct sockaddr *from, socklen_t *m) {
  REAL(recvfrom);
  return is_it("receive") ? refuse(ENETDOWN) : real(fd, to, n, flags, from, m);
}

ssize_t sendto(int fd, const void *octets, size_t n, int flags, const struct sockaddr *to, socklen_t m) {
  REAL(sendto);
  return is_it("send") ? refuse(ENETDOWN) : real(fd, octets, n, flags, to, m);
}

int pthread_create(pthread_t *thread, const pthread_attr_t *with, void *(*what)(void *), void *of) {
  REAL(pthread_create);
  return is_it("thread") ? EAGAIN : real(thread, with, what, of);
}

static void note(void) {
  static int noted;
  const char *file = getenv("STARVE_COUNT");
  main_runs = 0;
  if (!file || noted++) return;
  char line[32];
  int n = snprintf(line, sizeof line, "%lu\n", seen), fd = syscall(SYS_openat, AT_FDCWD, file, O_WRONLY | O_CREAT | O_TRUNC, 0600);
  if (syscall(SYS_write, fd, line, n) < 0) abort();
  syscall(SYS_close, fd);
}

void _exit(int status) {
  note();
  syscall(SYS_exit_group, status);
  __builtin_unreachable();
}

__attribute__((destructor)) static void ended(void) { note(); }

__attribute__((constructor)) static void begin(void) {
  static char of[16];
  const char *said = getenv("STARVE");
  if (said && sscanf(said, "%15s %lu", of, &wanted) == 2) {
    kind = of;
    main_runs = 1;
  }
}
