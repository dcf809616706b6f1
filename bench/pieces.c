// Reads of standard input that give as many octets as XP_PIECE says at most, put before the C library by LD_PRELOAD.
#define _GNU_SOURCE
#include <stdlib.h>
#include <sys/syscall.h>
#include <unistd.h>

ssize_t read(int descriptor, void *octets, size_t count) {
  const char *most = getenv("XP_PIECE");
  size_t piece = most && descriptor == 0 ? strtoul(most, NULL, 10) : count;
  return syscall(SYS_read, descriptor, octets, piece < count ? piece : count);
}
