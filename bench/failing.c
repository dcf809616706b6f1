// Standard input, an output and memory that fail, put before the C library by LD_PRELOAD.
//
//   XP_READ=6:5     a read of standard input gives one octet; those behind 6 octets fail by the error 5.
//   XP_READ=6:4     the first one behind 6 octets is interrupted (EINTR).
//   XP_WRITE=20:5   a write of the output takes one octet; those behind 20 octets fail by the error 5, or the first is interrupted.
//   XP_WRITE=20:0   they take nothing, and that is no failure.
//   XP_OUTPUT=PATH  the output is this file; without it, standard output.
//   XP_LARGEST=N    a request for memory of more than N octets is refused. (A program with an address sanitizer has its own requests.)
#define _GNU_SOURCE
#include <errno.h>
#include <stdio.h>
#include <stdlib.h>
#include <sys/stat.h>
#include <sys/syscall.h>
#include <unistd.h>

// How many octets have passed, and whether a call was interrupted.
struct passed {
  long octets;
  int is_interrupted;
};

// Whether this call fails as `AT:ERROR` says, and its error.
static int fails(const char *words, struct passed *passed, int *error) {
  long at;
  if (sscanf(words, "%ld:%d", &at, error) != 2 || at != passed->octets || passed->is_interrupted) return 0;
  passed->is_interrupted = *error == EINTR;
  return 1;
}

static ssize_t pass(long call, int descriptor, const void *octets, size_t count, const char *words, struct passed *passed) {
  int error;
  if (fails(words, passed, &error)) {
    errno = error;
    return error ? -1 : 0;
  }
  ssize_t done = syscall(call, descriptor, octets, count < 1 ? count : 1);
  if (done > 0) passed->octets += done;
  return done;
}

static int is_output(int descriptor) {
  const char *path = getenv("XP_OUTPUT");
  struct stat there, this;
  if (!path) return descriptor == STDOUT_FILENO;
  return !stat(path, &there) && !fstat(descriptor, &this) && there.st_dev == this.st_dev && there.st_ino == this.st_ino;
}

// Whether a request for so much memory is refused.
static int is_refused(size_t count) {
  const char *largest = getenv("XP_LARGEST");
  if (!largest || count <= strtoul(largest, NULL, 10)) return 0;
  errno = ENOMEM;
  return 1;
}

void *__libc_malloc(size_t count);
void *__libc_realloc(void *block, size_t count);

void *malloc(size_t count) { return is_refused(count) ? NULL : __libc_malloc(count); }

void *realloc(void *block, size_t count) { return is_refused(count) ? NULL : __libc_realloc(block, count); }

ssize_t read(int descriptor, void *octets, size_t count) {
  static struct passed passed;
  const char *words = getenv("XP_READ");
  if (!words || descriptor != STDIN_FILENO) return syscall(SYS_read, descriptor, octets, count);
  return pass(SYS_read, descriptor, octets, count, words, &passed);
}

ssize_t write(int descriptor, const void *octets, size_t count) {
  static struct passed passed;
  const char *words = getenv("XP_WRITE");
  if (!words || !is_output(descriptor)) return syscall(SYS_write, descriptor, octets, count);
  return pass(SYS_write, descriptor, octets, count, words, &passed);
}
