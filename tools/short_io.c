// Makes reads and writes at an offset short: loaded before the C library (LD_PRELOAD), it moves at most MOST bytes a call, seven where it is built
// without -DMOST=N.
#define _GNU_SOURCE
#include <sys/syscall.h>
#include <sys/types.h>
#include <unistd.h>

#ifndef MOST
#define MOST 7
#endif

static size_t part(size_t size) { return size < MOST ? size : MOST; }

ssize_t pread64(int fd, void *bytes, size_t size, off_t at) { return syscall(SYS_pread64, fd, bytes, part(size), at); }

ssize_t pwrite64(int fd, const void *bytes, size_t size, off_t at) { return syscall(SYS_pwrite64, fd, bytes, part(size), at); }

ssize_t pread(int fd, void *bytes, size_t size, off_t at) { return pread64(fd, bytes, size, at); }

ssize_t pwrite(int fd, const void *bytes, size_t size, off_t at) { return pwrite64(fd, bytes, size, at); }
