// The calls that an append over a file makes, alone: a write of a record, a sync, a write of its gate, a sync.
//
// bench_sync PATH BYTES COUNT makes the file PATH of 262,144 bytes, has it kept, makes so many such rounds in it with records of
// BYTES bytes, one behind the other, and takes the file away. It prints the nanoseconds of one round.
#include <errno.h>
#include <fcntl.h>
#include <stdio.h>
#include <stdlib.h>
#include <string.h>
#include <time.h>
#include <unistd.h>

enum { FILE_SIZE = 262144, FIRST = 16 };

static void fail(const char *what) {
    fprintf(stderr, "%s: %s\n", what, strerror(errno));
    exit(1);
}

static void put(int fd, const void *bytes, size_t size, off_t at) {
    if (pwrite(fd, bytes, size, at) != (ssize_t)size) fail("pwrite");
}

static void keep(int fd) {
    if (fdatasync(fd) != 0) fail("fdatasync");
}

int main(int argc, char **argv) {
    if (argc != 4) {
        fprintf(stderr, "usage: bench_sync PATH BYTES COUNT\n");
        return 2;
    }
    const char *path = argv[1];
    size_t bytes = strtoul(argv[2], NULL, 10);
    long count = strtol(argv[3], NULL, 10);
    if (bytes == 0 || bytes + 6 > FILE_SIZE - FIRST || count < 1) {
        fprintf(stderr, "usage: bench_sync PATH BYTES COUNT\n");
        return 2;
    }
    static char zeros[FILE_SIZE];
    char *body = malloc(bytes);
    if (!body) fail("malloc");
    memset(body, 0x61, bytes);
    int fd = open(path, O_RDWR | O_CREAT | O_EXCL, 0666);
    if (fd < 0) fail(path);
    put(fd, zeros, sizeof zeros, 0);
    if (fsync(fd) != 0) fail("fsync");

    struct timespec start, end;
    clock_gettime(CLOCK_MONOTONIC, &start);
    off_t at = FIRST;
    for (long k = 0; k < count; k++) {
        if (at + 1 + (off_t)bytes > FILE_SIZE) at = FIRST;
        put(fd, body, bytes, at + 1);
        keep(fd);
        put(fd, "\1", 1, at);
        keep(fd);
        at += (off_t)bytes;
    }
    clock_gettime(CLOCK_MONOTONIC, &end);
    close(fd);
    unlink(path);
    long long took = (end.tv_sec - start.tv_sec) * 1000000000LL + (end.tv_nsec - start.tv_nsec);
    printf("two writes and two syncs of %zu bytes: %lld ns\n", bytes, took / count);
    return 0;
}
