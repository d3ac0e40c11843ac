// Mounts a folder and starts the server that answers for it: see tools/strata_mount, which builds this, and mount.strata(8).
//
// The kernel's device is the server's input and output: no message is copied on its way. This process only waits, and keeps no end of the
// device, so that it is closed as soon as the server has gone, whichever way.
#define _GNU_SOURCE
#include "mount_times.h"

#include <errno.h>
#include <fcntl.h>
#include <libgen.h>
#include <limits.h>
#include <signal.h>
#include <stdio.h>
#include <stdlib.h>
#include <string.h>
#include <sys/mount.h>
#include <sys/prctl.h>
#include <sys/stat.h>
#include <sys/wait.h>
#include <syslog.h>
#include <unistd.h>

enum { ENDED = 0, SERVER_GONE = 1, USAGE = 2, NO_MOUNT = 3 };

// How the words ask for it: whether others are let in, whether nothing may be changed, or run, and whether the mounter goes on by itself once the mount
// answers, and what it says then goes to the system's log.
struct how { int for_others, read_only, no_exec, detached; };

static char *folder;

static int refuse(const char *what, const char *why) {
    fprintf(stderr, "strata_mount: %s: %s\n", what, why);
    return NO_MOUNT;
}

// What a server that was killed left: every call on it fails so, and nothing can be mounted over it.
static int is_dead(const char *path) {
    struct stat found;
    return stat(path, &found) != 0 && (errno == ENOTCONN || errno == ECONNABORTED);
}

// A call that waits for a server as it dies fails in one way, each later call in the other: so it is looked at again.
static void clear_dead_mount(const char *path) {
    for (int tries = 0; tries < 8 && is_dead(path); tries++) umount2(path, MNT_DETACH);
}

// Ends the mount: in order where nothing is open in it; else the device is closed under those who have something open.
static void end_mount(void) {
    if (umount2(folder, 0) == 0 || errno != EBUSY) return;
    umount2(folder, MNT_FORCE);
    umount2(folder, MNT_DETACH);
}

static void on_signal(int number) {
    (void)number;
    int before = errno;
    end_mount();
    errno = before;
}

static unsigned long flags_of(struct how how) {
    return MS_NOSUID | MS_NODEV | (how.read_only ? MS_RDONLY : 0) | (how.no_exec ? MS_NOEXEC : 0);
}

// The modes that the server tells are held against others, where others are let in.
static int mount_device(int device, const char *source, struct how how) {
    char options[128];
    snprintf(options, sizeof options, "fd=%d,rootmode=40000,user_id=%u,group_id=%u%s", device, getuid(), getgid(),
             how.for_others ? ",allow_other,default_permissions" : "");
    return mount(source, folder, "fuse.strata", flags_of(how), options);
}

// Sets the times that were told as an earlier mount ended. One in which nothing may be changed lets them be set all the same.
static int restore_times(struct times times, struct how how) {
    struct how writable = how;
    writable.read_only = 0;
    if (times.texts == NULL) return 1;
    if (how.read_only && mount(NULL, folder, NULL, MS_REMOUNT | flags_of(writable), NULL) != 0) return 1;
    set_times(folder, times);
    return !how.read_only || mount(NULL, folder, NULL, MS_REMOUNT | flags_of(how), NULL) == 0;
}

// The word behind the option --disk.
static const char *disk_in(char **words) {
    for (; words[0] != NULL; words++) {
        if (strcmp(words[0], "--disk") == 0) return words[1];
        if (strncmp(words[0], "--disk=", 7) == 0) return words[0] + 7;
    }
    return NULL;
}

// The whole path of a file that may not be there yet; nothing where its folder isn't.
static int find_path(const char *file, char *path) {
    char text[PATH_MAX], name[PATH_MAX];
    if (strlen(file) >= sizeof text - 1) return 0;
    if (realpath(file, path) != NULL) return 1;
    if (realpath(dirname(strcpy(text, file)), path) == NULL) return 0;
    size_t length = strlen(path);
    snprintf(path + length, PATH_MAX - length, "%s%s", length > 1 ? "/" : "", basename(strcpy(name, file)));
    return 1;
}

// Whether a path is that of the folder or of something below it, which the mount would hide from its own server.
static int lies_below(const char *path) {
    size_t length = strlen(folder);
    return strcmp(folder, "/") == 0 || (strncmp(path, folder, length) == 0 && (path[length] == '/' || path[length] == 0));
}

static void run_server(int device, int err, pid_t parent, char **words) {
    prctl(PR_SET_PDEATHSIG, SIGKILL);  // what was answered is kept: a server without its mounter has nothing to put in order
    if (getppid() != parent) _exit(SERVER_GONE);
    setpgid(0, 0);                     // a key that interrupts the mounter ends the mount, not the server within a call
    if (dup2(device, 0) < 0 || dup2(device, 1) < 0 || (err >= 0 && dup2(err, 2) < 0)) _exit(SERVER_GONE);
    execv(words[0], words);
    fprintf(stderr, "strata_mount: %s: %s\n", words[0], strerror(errno));
    _exit(SERVER_GONE);
}

// How many bytes a process has read or written, by the name of the count; -1 where that can't be found out.
static long long count_of(pid_t process, const char *name) {
    char path[64], line[128];
    snprintf(path, sizeof path, "/proc/%d/io", process);
    FILE *file = fopen(path, "r");
    long long count = -1;
    while (file != NULL && fgets(line, sizeof line, file) != NULL) {
        if (strncmp(line, name, strlen(name)) == 0) count = atoll(line + strlen(name));
    }
    if (file != NULL) fclose(file);
    return count;
}

// A process that tells, from the third second on, how far a long opening has come, until it is ended.
static pid_t tell_progress(pid_t server, const char *disk) {
    pid_t teller = fork();
    if (teller != 0) return teller;
    prctl(PR_SET_PDEATHSIG, SIGKILL);
    struct stat file = {0};
    for (sleep(3); kill(server, 0) == 0; sleep(2)) {
        if (stat(disk, &file) != 0) file.st_size = 0;
        fprintf(stderr, "strata_mount: %s is being opened: %lld MiB read and %lld written, of %lld\n", disk, count_of(server, "rchar:") >> 20,
                count_of(server, "wchar:") >> 20, (long long)file.st_size >> 20);
    }
    _exit(0);
}

static void end_process(pid_t process) {
    if (process <= 0) return;
    kill(process, SIGKILL);
    while (waitpid(process, NULL, 0) < 0 && errno == EINTR) {}
}

// Closes what a process has of who started it, from one of its three ends on.
static void close_outputs(int from) {
    int nowhere = open("/dev/null", O_RDWR | O_CLOEXEC);
    for (int end = from; end < 3; end++) dup2(nowhere, end);
}

static void be_quiet(int number) {
    (void)number;
    int before = errno;
    close_outputs(2);
    errno = before;
}

static pid_t logger;

// A process to which the server tells its errors: they go to the system's log, and are told on until SIGUSR1 comes.
static int log_errors(int told) {
    int ends[2];
    if (pipe(ends) != 0) return -1;
    logger = fork();
    if (logger == 0) {
        struct sigaction action = {.sa_handler = be_quiet, .sa_flags = SA_RESTART};
        sigaction(SIGUSR1, &action, NULL);
        close(told);
        close(ends[1]);
        int nowhere = open("/dev/null", O_RDWR | O_CLOEXEC);
        dup2(nowhere, 0);
        dup2(nowhere, 1);
        openlog("strata_fuse", LOG_PID, LOG_DAEMON);
        FILE *lines = fdopen(ends[0], "r");
        char line[1024];
        while (fgets(line, sizeof line, lines) != NULL) {
            fputs(line, stderr);
            syslog(LOG_ERR, "%s: %s", folder, line);
        }
        _exit(0);
    }
    close(ends[0]);
    return ends[1];
}

// Goes on without who started it: that one waits in `main` for a byte.
static void let_go(int told) {
    char fine = ENDED;
    if (logger > 0) kill(logger, SIGUSR1);
    close_outputs(0);
    if (write(told, &fine, 1) != 1 || chdir("/") != 0) {}
    close(told);
}

static void tell_mounted(int told) {
    if (told >= 0) {
        let_go(told);
        return;
    }
    printf("%s: mounted\n", folder);
    fflush(stdout);
}

// Waits until the mount has ended or the server has. Where the mount ended in order, its times are kept beside the world's file.
static void wait_for_end(pid_t server, const char *path, int told) {
    int tree = hold_tree(folder);
    tell_mounted(told);
    if (tree < 0) return;
    if (wait_for_unmount(tree, server) && path != NULL) keep_times(tree, path);
    close(tree);
}

// Waits for the server's end. The first call within the mount waits for the server too; then the mount is told of. By the end another one may
// have mounted the folder anew, and that mount stays.
static int wait_for_server(pid_t server, pid_t teller, struct how how, const char *path, struct times times, int told) {
    struct stat own = {0}, found;
    int stands = stat(folder, &own) == 0;
    end_process(teller);
    if (stands && !restore_times(times, how)) end_mount();
    else if (stands) wait_for_end(server, path, told);
    int status = 0;
    while (waitpid(server, &status, 0) < 0 && errno == EINTR) {}
    if (stat(folder, &found) != 0 || found.st_dev == own.st_dev) umount2(folder, MNT_DETACH);
    if (WIFEXITED(status)) return WEXITSTATUS(status);
    fprintf(stderr, "strata_mount: %s: the server was ended by signal %d\n", folder, WTERMSIG(status));
    return SERVER_GONE;
}

// Mounts, starts the server, and waits for its end; once the mount answers, `told` gets a byte, where it is an end of a pipe.
static int serve(char **words, struct how how, int told) {
    char path[PATH_MAX];
    const char *disk = disk_in(words + 1);
    int is_found = disk != NULL && find_path(disk, path);
    if (is_found && lies_below(path)) return refuse(disk, "it lies in the folder that is to be mounted, which would hide it");
    int device = open("/dev/fuse", O_RDWR | O_CLOEXEC);
    if (device < 0) return refuse("/dev/fuse", strerror(errno));
    if (mount_device(device, is_found ? path : "strata", how) != 0) {
        return refuse(folder, errno == EPERM ? "it takes the rights of root to mount" : strerror(errno));
    }
    struct sigaction action = {.sa_handler = on_signal};
    sigaction(SIGTERM, &action, NULL);
    sigaction(SIGINT, &action, NULL);
    sigaction(SIGHUP, &action, NULL);
    int err = told >= 0 ? log_errors(told) : -1;
    struct times times = is_found ? take_times(path) : (struct times){NULL, 0};
    pid_t self = getpid(), server = fork();
    if (server < 0) {
        umount2(folder, MNT_DETACH);
        return refuse("fork", strerror(errno));
    }
    if (server == 0) run_server(device, err, self, words);
    close(device);
    if (err >= 0) close(err);
    return wait_for_server(server, disk != NULL ? tell_progress(server, disk) : 0, how, is_found ? path : NULL, times, told);
}

// Has another process serve, and waits until the mount answers, or for the status with which that process ended before.
static int serve_detached(char **words, struct how how) {
    int ends[2], status = 0;
    if (pipe2(ends, O_CLOEXEC) != 0) return refuse("pipe", strerror(errno));
    pid_t child = fork();
    if (child < 0) return refuse("fork", strerror(errno));
    if (child == 0) {
        close(ends[0]);
        setsid();
        _exit(serve(words, how, ends[1]));
    }
    close(ends[1]);
    char fine;
    if (read(ends[0], &fine, 1) == 1) return ENDED;
    while (waitpid(child, &status, 0) < 0 && errno == EINTR) {}
    return WIFEXITED(status) && WEXITSTATUS(status) != ENDED ? WEXITSTATUS(status) : SERVER_GONE;
}

int main(int count, char **words) {
    struct how how = {0};
    for (; count > 1 && words[1][0] == '-'; words++, count--) {
        if (strcmp(words[1], "--allow-other") == 0) how.for_others = 1;
        else if (strcmp(words[1], "--read-only") == 0) how.read_only = 1;
        else if (strcmp(words[1], "--no-exec") == 0) how.no_exec = 1;
        else if (strcmp(words[1], "--detach") == 0) how.detached = 1;
        else break;
    }
    if (count < 3 || words[1][0] == '-') {
        fprintf(stderr, "usage: strata_mount [--allow-other] [--read-only] [--no-exec] [--detach] FOLDER SERVER [WORD]...\n");
        return USAGE;
    }
    clear_dead_mount(words[1]);
    struct stat found;
    folder = realpath(words[1], NULL);
    if (folder == NULL || stat(folder, &found) != 0) return refuse(words[1], strerror(errno));
    if (!S_ISDIR(found.st_mode)) return refuse(folder, "it is no folder");
    if (access(words[2], X_OK) != 0) return refuse(words[2], strerror(errno));
    return how.detached ? serve_detached(words + 2, how) : serve(words + 2, how, -1);
}
