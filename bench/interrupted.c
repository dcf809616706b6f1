/* Loaded before the C library: each read of standard input is interrupted. How many there were stands in the file that
   READS_TOLD_IN names, as a number of eight octets, however the program ends. */
#define _GNU_SOURCE
#include <dlfcn.h>
#include <errno.h>
#include <fcntl.h>
#include <stdint.h>
#include <stdlib.h>
#include <sys/mman.h>
#include <unistd.h>

static uint64_t *told(void)
{
    int file = open(getenv("READS_TOLD_IN"), O_RDWR | O_CREAT, 0600);
    void *there;

    if (file < 0 || ftruncate(file, sizeof(uint64_t)) != 0)
        abort();
    there = mmap(NULL, sizeof(uint64_t), PROT_READ | PROT_WRITE, MAP_SHARED, file, 0);
    if (there == MAP_FAILED)
        abort();
    close(file);
    return there;
}

ssize_t read(int file, void *octets, size_t count)
{
    static ssize_t (*next)(int, void *, size_t);
    static uint64_t *reads;

    if (file == STDIN_FILENO) {
        if (!reads)
            reads = told();
        ++*reads;
        errno = EINTR;
        return -1;
    }
    if (!next)
        next = (ssize_t (*)(int, void *, size_t))dlsym(RTLD_NEXT, "read");
    return next(file, octets, count);
}
