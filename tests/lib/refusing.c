/* Stands before the C library of a program (LD_PRELOAD) and refuses what REFUSING says: pairs of a word and a number,
   with a comma between two pairs. The call with this number is refused, or each call if the number is 0.

     growth N       memory: malloc, calloc, realloc, posix_memalign, aligned_alloc
     read N         a read of standard input fails
     write N        a write to standard output fails
     short-read N   a read of standard input gives one byte at most
     short-write N  a write to standard output takes one byte at most
     thread N       a thread can't be made

   When it ends by `_exit`, it writes how many growths, reads, writes and threads were asked for to the file descriptor REFUSING_TOLD. */
#define _GNU_SOURCE
#include <dlfcn.h>
#include <errno.h>
#include <pthread.h>
#include <stdatomic.h>
#include <stdio.h>
#include <stdlib.h>
#include <string.h>
#include <sys/syscall.h>
#include <sys/uio.h>
#include <unistd.h>

enum kind { GROWTH, READ, WRITE, SHORT_READ, SHORT_WRITE, THREAD, KINDS };

static const char *const words[KINDS] = {"growth", "read", "write", "short-read", "short-write", "thread"};
static unsigned long numbers[KINDS];
static int given[KINDS];
static atomic_ulong counts[KINDS];
static int begun;

void *__libc_malloc(size_t size);
void *__libc_calloc(size_t count, size_t size);
void *__libc_realloc(void *old, size_t size);
void *__libc_memalign(size_t align, size_t size);

/* Whether this call is refused. */
static int refused(enum kind kind) {
  if (!begun) return 0;
  unsigned long number = atomic_fetch_add(&counts[kind], 1) + 1;
  return given[kind] && (numbers[kind] == 0 || numbers[kind] == number);
}

__attribute__((constructor)) static void begin(void) {
  const char *said = getenv("REFUSING");
  while (said && *said) {
    size_t length = strcspn(said, " ");
    for (int kind = 0; kind < KINDS; kind++) {
      if (strlen(words[kind]) == length && !strncmp(words[kind], said, length)) {
        given[kind] = 1;
        numbers[kind] = strtoul(said + length, NULL, 10);
      }
    }
    said = strchr(said, ',');
    if (said) said++;
  }
  begun = 1;
}

static void tell(void) {
  begun = 0;
  const char *told = getenv("REFUSING_TOLD");
  char line[128];
  if (!told) return;
  int length = snprintf(line, sizeof line, "%lu %lu %lu %lu\n", counts[GROWTH], counts[READ], counts[WRITE], counts[THREAD]);
  syscall(SYS_write, atoi(told), line, length);
}

static void *no_memory(void) {
  errno = ENOMEM;
  return NULL;
}

void *malloc(size_t size) { return refused(GROWTH) ? no_memory() : __libc_malloc(size); }

void *calloc(size_t count, size_t size) { return refused(GROWTH) ? no_memory() : __libc_calloc(count, size); }

void *realloc(void *old, size_t size) { return refused(GROWTH) ? no_memory() : __libc_realloc(old, size); }

void *aligned_alloc(size_t align, size_t size) { return refused(GROWTH) ? no_memory() : __libc_memalign(align, size); }

int posix_memalign(void **place, size_t align, size_t size) {
  void *made = refused(GROWTH) ? NULL : __libc_memalign(align, size);
  if (!made) return ENOMEM;
  *place = made;
  return 0;
}

ssize_t read(int fd, void *bytes, size_t size) {
  if (fd == 0) {
    if (refused(READ)) return errno = EIO, -1;
    if (refused(SHORT_READ) && size > 1) size = 1;
  }
  return syscall(SYS_read, fd, bytes, size);
}

/* What a write to standard output may take; -1 if it fails. */
static ssize_t taken(size_t size) {
  if (refused(WRITE)) return errno = EIO, -1;
  return refused(SHORT_WRITE) && size > 1 ? 1 : (ssize_t)size;
}

ssize_t write(int fd, const void *bytes, size_t size) {
  ssize_t most = fd == 1 ? taken(size) : (ssize_t)size;
  return most < 0 ? -1 : syscall(SYS_write, fd, bytes, most);
}

/* The program may call it by this name. */
ssize_t __write(int fd, const void *bytes, size_t size) { return write(fd, bytes, size); }

/* A program without threads ends by a return from main. */
static void __attribute__((destructor)) at_end(void) {
  if (begun) tell();
}

/* One with threads ends by this call. */
void _exit(int status) {
  tell();
  syscall(SYS_exit_group, status);
  for (;;) {}
}

ssize_t writev(int fd, const struct iovec *parts, int count) {
  if (fd == 1 && count > 0) return write(fd, parts[0].iov_base, parts[0].iov_len);
  return syscall(SYS_writev, fd, parts, count);
}

int pthread_create(pthread_t *made, const pthread_attr_t *how, void *(*body)(void *), void *with) {
  static int (*next)(pthread_t *, const pthread_attr_t *, void *(*)(void *), void *);
  if (refused(THREAD)) return EAGAIN;
  if (!next) next = (int (*)(pthread_t *, const pthread_attr_t *, void *(*)(void *), void *))dlsym(RTLD_NEXT, "pthread_create");
  return next(made, how, body, with);
}
