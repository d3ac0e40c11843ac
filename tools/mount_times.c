// Keeps the times of files over the orderly end of a mount: when each was changed last. See strata_mount.c, which asks for it.
//
// A mounter holds the tree of its mount by a handle of its own. Once the folder shows it no longer, nobody else can change it: then what it tells
// of times is written to FILE.times, beside the world FILE, with the length of FILE and when FILE itself was changed last. The next mount takes
// FILE.times away before its server starts, and sets the times, if FILE is as that says. So behind a kill there is none, and none where
// anything else has changed FILE since.
#define _GNU_SOURCE
#include "mount_times.h"

#include <fcntl.h>
#include <ftw.h>
#include <libgen.h>
#include <limits.h>
#include <poll.h>
#include <stdio.h>
#include <stdlib.h>
#include <string.h>
#include <sys/stat.h>
#include <sys/syscall.h>
#include <sys/sysmacros.h>
#include <time.h>
#include <unistd.h>

#ifndef OPEN_TREE_CLONE
#define OPEN_TREE_CLONE 1
#endif

// A file that is written twice within this time may be told as changed once: Linux tells times by ticks of 10 ms at most.
enum { TICK = 20 * 1000 * 1000 };

// ---- the file of times

static int beside(char *path, const char *file, const char *end) {
    return snprintf(path, PATH_MAX, "%s.times%s", file, end) < PATH_MAX;
}

// The first text: how the world's file is known again.
static int describe(char *text, size_t room, const struct stat *file) {
    return snprintf(text, room, "strata times 1 %lld %lld.%09ld", (long long)file->st_size, (long long)file->st_mtim.tv_sec, file->st_mtim.tv_nsec);
}

static void sync_folder_of(const char *path) {
    char text[PATH_MAX];
    int folder = open(dirname(strcpy(text, path)), O_RDONLY | O_DIRECTORY | O_CLOEXEC);
    if (folder < 0) return;
    fsync(folder);
    close(folder);
}

static void drop_times(const char *path) {
    if (unlink(path) == 0) sync_folder_of(path);
}

static struct times read_all(const char *path) {
    struct times times = {NULL, 0};
    struct stat found;
    FILE *stream = fopen(path, "r");
    if (stream == NULL) return times;
    if (fstat(fileno(stream), &found) == 0 && (times.texts = malloc(found.st_size + 1)) != NULL) {
        times.length = fread(times.texts, 1, found.st_size, stream);
        times.texts[times.length] = 0;
    }
    fclose(stream);
    return times;
}

// Takes away the times that stand beside a file, and answers them if the file is as it was when they were written.
struct times take_times(const char *file) {
    char path[PATH_MAX], wanted[128];
    struct stat found;
    struct times times = {NULL, 0};
    if (!beside(path, file, "")) return times;
    times = read_all(path);
    drop_times(path);
    if (times.texts == NULL) return times;
    if (stat(file, &found) == 0 && describe(wanted, sizeof wanted, &found) > 0 && strcmp(times.texts, wanted) == 0) return times;
    free(times.texts);
    return (struct times){NULL, 0};
}

static int write_times(const char *path, const char *first, struct times times) {
    int file = open(path, O_WRONLY | O_CREAT | O_TRUNC | O_NOFOLLOW | O_CLOEXEC, 0600);
    FILE *stream = file < 0 ? NULL : fdopen(file, "w");
    if (stream == NULL) return 0;
    fwrite(first, 1, strlen(first) + 1, stream);
    fwrite(times.texts, 1, times.length, stream);
    int fine = fflush(stream) == 0 && !ferror(stream) && fsync(file) == 0;
    return fclose(stream) == 0 && fine;
}

// ---- the times of a tree

static int is_below(const char *path) {
    size_t length = strlen(path);
    return path[0] == '.' && (path[1] == 0 || path[1] == '/') && strstr(path, "/../") == NULL && (length < 3 || strcmp(path + length - 3, "/..") != 0);
}

static void set_time(int folder, const char *text) {
    long long seconds;
    long nanoseconds;
    int path = 0;
    if (sscanf(text, "%lld.%9ld %n", &seconds, &nanoseconds, &path) < 2 || !is_below(text + path)) return;
    struct timespec wanted[2] = {{.tv_nsec = UTIME_OMIT}, {.tv_sec = seconds, .tv_nsec = nanoseconds}};
    utimensat(folder, text + path, wanted, AT_SYMLINK_NOFOLLOW);
}

// Sets the times of what is in a folder, as they were told of it, and lets them go.
void set_times(const char *folder, struct times times) {
    int place = open(folder, O_RDONLY | O_DIRECTORY | O_CLOEXEC);
    for (size_t at = 0; place >= 0 && at < times.length; at += strlen(times.texts + at) + 1) set_time(place, times.texts + at);
    if (place >= 0) close(place);
    free(times.texts);
}

static FILE *noted;

static int note_one(const char *path, const struct stat *found, int kind, struct FTW *where) {
    (void)where;
    if (kind == FTW_NS || kind == FTW_DNR) return -1;
    return fprintf(noted, "%lld.%09ld %s%c", (long long)found->st_mtim.tv_sec, found->st_mtim.tv_nsec, path, 0) < 0;
}

// The times of all that is in a tree; none where it does not answer.
static struct times times_in(int tree) {
    struct times times = {NULL, 0};
    noted = open_memstream(&times.texts, &times.length);
    if (noted == NULL) return times;
    int failed = fchdir(tree) != 0 || nftw(".", note_one, 16, FTW_PHYS) != 0;
    if (chdir("/") != 0) failed = 1;
    if (fclose(noted) == 0 && !failed) return times;
    free(times.texts);
    return (struct times){NULL, 0};
}

// ---- the end of a mount

// A handle of the mount in a folder, by which its tree stays there when the folder shows it no longer; -1 where there is none to be had.
int hold_tree(const char *folder) {
    return syscall(SYS_open_tree, AT_FDCWD, folder, OPEN_TREE_CLONE | O_CLOEXEC);
}

// Whether some folder shows what is on a device.
static int is_shown(dev_t device) {
    FILE *stream = fopen("/proc/self/mountinfo", "r");
    char *line = NULL;
    size_t room = 0;
    unsigned found[2];
    int shown = stream == NULL;
    while (!shown && getline(&line, &room, stream) >= 0) {
        shown = sscanf(line, "%*d %*d %u:%u", &found[0], &found[1]) == 2 && makedev(found[0], found[1]) == device;
    }
    free(line);
    if (stream != NULL) fclose(stream);
    return shown;
}

// Waits until no folder shows a tree any more, and answers whether that is so: it is not where the server ends before.
int wait_for_unmount(int tree, pid_t server) {
    struct stat own;
    struct pollfd events[2] = {
        {.fd = open("/proc/self/mountinfo", O_RDONLY | O_CLOEXEC), .events = POLLPRI},
        {.fd = syscall(SYS_pidfd_open, server, 0), .events = POLLIN},
    };
    int can = fstat(tree, &own) == 0 && events[0].fd >= 0 && events[1].fd >= 0;
    while (can && events[1].revents == 0 && is_shown(own.st_dev)) poll(events, 2, -1);
    for (int which = 0; which < 2; which++) {
        if (events[which].fd >= 0) close(events[which].fd);
    }
    return can && events[1].revents == 0;
}

// Whether a file was not changed within the last tick, which is waited for, so that its next change is told as another time.
static int is_at_rest(const char *file, struct stat *found) {
    struct stat again;
    struct timespec tick = {.tv_nsec = TICK};
    if (stat(file, found) != 0) return 0;
    nanosleep(&tick, NULL);
    return stat(file, &again) == 0 && again.st_size == found->st_size && again.st_mtim.tv_sec == found->st_mtim.tv_sec
        && again.st_mtim.tv_nsec == found->st_mtim.tv_nsec;
}

// Writes the times of a tree beside the file of its world.
void keep_times(int tree, const char *file) {
    char path[PATH_MAX], made[PATH_MAX], first[128];
    struct stat found;
    struct times times = times_in(tree);
    if (times.texts == NULL) return;
    if (beside(path, file, "") && beside(made, file, ".new") && is_at_rest(file, &found) && describe(first, sizeof first, &found) > 0) {
        if (write_times(made, first, times) && rename(made, path) == 0) sync_folder_of(path);
        else unlink(made);
    }
    free(times.texts);
}
