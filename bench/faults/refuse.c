/* Refuses or cuts requests of a program to the system, for faults.sh, which preloads it. Requests are counted from the start of `main`,
   for each kind from 1, over all threads.
   REFUSE holds up to four plans with a comma between two, of which the last that fits a request stands: KIND HOW FIRST LAST, with one
   space between two; LAST 0 has no end. KIND is memory (malloc and the like), thread (pthread_create), read (of standard input) or write
   (to standard output). HOW is fail, none (0 bytes), one (1 byte) or stop (a signal came). When the last plan is first
   carried out, a byte is written to the descriptor that REFUSE_TOLD names. It needs the GNU C library. */
#define _GNU_SOURCE
#include <dlfcn.h>
#include <errno.h>
#include <pthread.h>
#include <stdatomic.h>
#include <stdio.h>
#include <stdlib.h>
#include <string.h>
#include <sys/syscall.h>
#include <sys/uio.h>
#include <unistd.h>

enum kind { MEMORY, THREAD, READ, WRITE, KINDS };
enum how { GRANT, FAIL, NONE, ONE, STOP };
static const char *const KIND_NAMES[] = {"memory", "thread", "read", "write"};
static const char *const HOW_NAMES[] = {"grant", "fail", "none", "one", "stop"};

static struct { int kind, how; unsigned long first, last; } plans[4];
static int planned, told = -1, started;
static atomic_ulong counts[KINDS];
static atomic_int was_told;

static int named(const char *name, const char *const *names, int count) {
  for (int i = 0; i < count; i++)
    if (!strcmp(name, names[i])) return i;
  _exit(99);
}

static void read_plans(void) {
  const char *text = getenv("REFUSE"), *to = getenv("REFUSE_TOLD");
  char kind[8], how[8];
  int length;
  if (to) told = atoi(to);
  while (text && planned < 4 &&
         sscanf(text, "%7[a-z] %7[a-z] %lu %lu%n", kind, how, &plans[planned].first, &plans[planned].last, &length) == 4) {
    plans[planned].kind = named(kind, KIND_NAMES, KINDS);
    plans[planned].how = named(how, HOW_NAMES, 5);
    planned++;
    text = text[length] == ',' ? text + length + 1 : NULL;
  }
}

/* What becomes of the next request of a kind. */
static int next(int kind) {
  if (!started) return GRANT;
  unsigned long number = atomic_fetch_add(&counts[kind], 1) + 1;
  for (int i = planned - 1; i >= 0; i--)
    if (plans[i].kind == kind && plans[i].first <= number && (!plans[i].last || number <= plans[i].last)) {
      if (i == planned - 1 && told >= 0 && !atomic_exchange(&was_told, 1)) syscall(SYS_write, told, "!", 1);
      return plans[i].how;
    }
  return GRANT;
}

static int (*real_main)(int, char **, char **);

static int counted_main(int count, char **words, char **settings) {
  read_plans();
  started = 1;
  return real_main(count, words, settings);
}

int __libc_start_main(int (*main)(int, char **, char **), int count, char **words, void (*init)(void), void (*end)(void),
                      void (*loader_end)(void), void *stack) {
  int (*real)(int (*)(int, char **, char **), int, char **, void (*)(void), void (*)(void), void (*)(void), void *) =
      dlsym(RTLD_NEXT, "__libc_start_main");
  real_main = main;
  return real(counted_main, count, words, init, end, loader_end, stack);
}

extern void *__libc_malloc(size_t), *__libc_calloc(size_t, size_t), *__libc_realloc(void *, size_t), *__libc_memalign(size_t, size_t);

static int refused(void) {
  if (next(MEMORY) == GRANT) return 0;
  errno = ENOMEM;
  return 1;
}

void *malloc(size_t size) { return refused() ? NULL : __libc_malloc(size); }
void *calloc(size_t count, size_t size) { return refused() ? NULL : __libc_calloc(count, size); }
void *realloc(void *old, size_t size) { return refused() ? NULL : __libc_realloc(old, size); }
void *memalign(size_t line, size_t size) { return refused() ? NULL : __libc_memalign(line, size); }
void *aligned_alloc(size_t line, size_t size) { return refused() ? NULL : __libc_memalign(line, size); }

void *reallocarray(void *old, size_t count, size_t size) {
  size_t whole;
  if (__builtin_mul_overflow(count, size, &whole)) {
    errno = ENOMEM;
    return NULL;
  }
  return realloc(old, whole);
}

int posix_memalign(void **to, size_t line, size_t size) {
  void *found = refused() ? NULL : __libc_memalign(line, size);
  if (found) *to = found;
  return found ? 0 : ENOMEM;
}

int pthread_create(pthread_t *thread, const pthread_attr_t *form, void *(*body)(void *), void *with) {
  static int (*real)(pthread_t *, const pthread_attr_t *, void *(*)(void *), void *);
  if (next(THREAD) != GRANT) return EAGAIN;
  if (!real) real = dlsym(RTLD_NEXT, "pthread_create");
  return real(thread, form, body, with);
}

/* Carries out a request over bytes, or what becomes of it in its place. */
static ssize_t carried(int kind, long call, int file, char *bytes, size_t size) {
  switch (next(kind)) {
    case FAIL: errno = EIO; return -1;
    case STOP: errno = EINTR; return -1;
    case NONE: return 0;
    case ONE: size = size ? 1 : 0;
  }
  return syscall(call, file, bytes, size);
}

ssize_t read(int file, void *bytes, size_t size) {
  return file == 0 ? carried(READ, SYS_read, file, bytes, size) : syscall(SYS_read, file, bytes, size);
}
ssize_t write(int file, const void *bytes, size_t size) {
  return file == 1 ? carried(WRITE, SYS_write, file, (char *)bytes, size) : syscall(SYS_write, file, bytes, size);
}

/* A list of pieces counts as a request for its first one that isn't empty. */
static ssize_t first_piece(int kind, long call, int file, const struct iovec *pieces, int count) {
  while (count > 1 && !pieces->iov_len) pieces++, count--;
  return carried(kind, call, file, count > 0 ? pieces->iov_base : NULL, count > 0 ? pieces->iov_len : 0);
}
ssize_t readv(int file, const struct iovec *pieces, int count) {
  return file == 0 ? first_piece(READ, SYS_read, file, pieces, count) : syscall(SYS_readv, file, pieces, count);
}
ssize_t writev(int file, const struct iovec *pieces, int count) {
  return file == 1 ? first_piece(WRITE, SYS_write, file, pieces, count) : syscall(SYS_writev, file, pieces, count);
}
