// A disk that fails, put before the C library by LD_PRELOAD. It looks at the file that XP_DISK_FILE names.
//
//   XP_DISK_SYNCS=2,4,7   its 2nd, 4th and 7th syncs fail, and what the last good one has not brought to the disk is lost.
//   XP_DISK_SYNCS=3-      its 3rd sync and all that follow fail so.
//   XP_DISK_WRITE=5       its 5th write never ends.
#define _GNU_SOURCE
#include <dlfcn.h>
#include <errno.h>
#include <fcntl.h>
#include <pthread.h>
#include <stdlib.h>
#include <string.h>
#include <sys/stat.h>
#include <sys/syscall.h>
#include <unistd.h>

static pthread_mutex_t mutex = PTHREAD_MUTEX_INITIALIZER;
static long syncs, writes;
// How long the file was at its last good sync.
static off_t synced = -1;

static int is_of_disk(int descriptor, struct stat *now) {
  const char *path = getenv("XP_DISK_FILE");
  struct stat there;
  return path && !fstat(descriptor, now) && !stat(path, &there) && now->st_dev == there.st_dev && now->st_ino == there.st_ino;
}

// Whether this number is one of the list, whose last may be followed by `-`.
static int is_listed(const char *list, long number) {
  while (list && *list) {
    char *end;
    long listed = strtol(list, &end, 10);
    if (listed == number || (*end == '-' && number > listed)) return 1;
    list = *end == ',' ? end + 1 : NULL;
  }
  return 0;
}

static int sync_by(long call, int descriptor) {
  struct stat now;
  if (!is_of_disk(descriptor, &now)) return syscall(call, descriptor);
  pthread_mutex_lock(&mutex);
  int fails = is_listed(getenv("XP_DISK_SYNCS"), ++syncs);
  if (fails) {
    if (synced >= 0 && now.st_size > synced && syscall(SYS_ftruncate, descriptor, synced)) abort();
  } else {
    synced = now.st_size;
  }
  pthread_mutex_unlock(&mutex);
  if (fails) {
    errno = EIO;
    return -1;
  }
  return syscall(call, descriptor);
}

int fsync(int descriptor) { return sync_by(SYS_fsync, descriptor); }

int fdatasync(int descriptor) { return sync_by(SYS_fdatasync, descriptor); }

ssize_t write(int descriptor, const void *octets, size_t count) {
  struct stat now;
  const char *hung = getenv("XP_DISK_WRITE");
  if (hung && is_of_disk(descriptor, &now)) {
    pthread_mutex_lock(&mutex);
    int hangs = ++writes >= atol(hung);
    pthread_mutex_unlock(&mutex);
    while (hangs) pause();
  }
  return syscall(SYS_write, descriptor, octets, count);
}
