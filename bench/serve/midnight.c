// A time of day that begins where XP_CLOCK says, in seconds since 1970, put before the C library by LD_PRELOAD. It goes on from there as
// time passes. Where the file that XP_CLOCK_LATER names has a number, the system began so many seconds earlier.
#define _GNU_SOURCE
#include <fcntl.h>
#include <stdlib.h>
#include <sys/syscall.h>
#include <time.h>
#include <unistd.h>

static long later(void) {
  const char *path = getenv("XP_CLOCK_LATER");
  char text[24] = "";
  int file = path ? open(path, O_RDONLY) : -1;
  if (file < 0) return 0;
  ssize_t count = read(file, text, sizeof text - 1);
  close(file);
  return count > 0 ? atol(text) : 0;
}

int clock_gettime(clockid_t clock, struct timespec *time) {
  static long shift;
  static int is_read;
  const char *begins = getenv("XP_CLOCK");
  int result = syscall(SYS_clock_gettime, clock, time);
  if (clock == CLOCK_MONOTONIC_COARSE && !result) time->tv_sec += later();
  if (clock != CLOCK_REALTIME || result || !begins) return result;
  if (!is_read) {
    shift = atol(begins) - time->tv_sec;
    is_read = 1;
  }
  time->tv_sec += shift;
  return 0;
}
