// Makes one allocation of a program fail. Loaded before the C library (LD_PRELOAD), it runs the program once for each allocation from
// ALLOC_FIRST to ALLOC_LAST, in a child each time, from the point before `main`, until a run makes fewer of them; number 0 fails none.
// Counted are calls from the program itself. For each run it writes to file descriptor ALLOC_TO a line `NUMBER MADE STATUS OUT ERR`:
// how many allocations were asked for, the exit status, and how many bytes of standard output and of standard error follow. Before each
// run the file ALLOC_CLEAR is removed, and the one of this name with `.new` behind it.
#define _GNU_SOURCE
#include <errno.h>
#include <link.h>
#include <stdint.h>
#include <stdio.h>
#include <stdlib.h>
#include <sys/mman.h>
#include <sys/wait.h>
#include <unistd.h>

void *__libc_malloc(size_t);
void *__libc_calloc(size_t, size_t);
void *__libc_realloc(void *, size_t);
void *__libc_memalign(size_t, size_t);

static uintptr_t first_byte, last_byte; // of the program's code
static long failing, *made;             // the allocation that fails, and how many were asked for

static int fails(void *caller) {
    if (!made || (uintptr_t)caller < first_byte || last_byte < (uintptr_t)caller || __atomic_add_fetch(made, 1, __ATOMIC_SEQ_CST) != failing) {
        return 0;
    }
    errno = ENOMEM;
    return 1;
}

#define HERE fails(__builtin_return_address(0))

void *malloc(size_t size) { return HERE ? NULL : __libc_malloc(size); }

void *calloc(size_t count, size_t size) { return HERE ? NULL : __libc_calloc(count, size); }

void *realloc(void *old, size_t size) { return HERE ? NULL : __libc_realloc(old, size); }

void *memalign(size_t align, size_t size) { return HERE ? NULL : __libc_memalign(align, size); }

void *aligned_alloc(size_t align, size_t size) { return HERE ? NULL : __libc_memalign(align, size); }

int posix_memalign(void **to, size_t align, size_t size) {
    void *found = HERE ? NULL : __libc_memalign(align, size);
    if (found) {
        *to = found;
    }
    return found ? 0 : ENOMEM;
}

// The first that is told is the program itself.
static int note_code(struct dl_phdr_info *info, size_t size, void *none) {
    (void)size, (void)none;
    for (int k = 0; k < info->dlpi_phnum; k++) {
        if (info->dlpi_phdr[k].p_type == PT_LOAD && (info->dlpi_phdr[k].p_flags & PF_X)) {
            first_byte = info->dlpi_addr + info->dlpi_phdr[k].p_vaddr;
            last_byte = first_byte + info->dlpi_phdr[k].p_memsz;
        }
    }
    return 1;
}

static long number(const char *name, long otherwise) {
    const char *text = getenv(name);
    return text ? atol(text) : otherwise;
}

// Whether all of it could be written.
static int put(int to, const char *bytes, size_t size) {
    while (size) {
        ssize_t count = write(to, bytes, size);
        if (count <= 0) {
            return 0;
        }
        bytes += count;
        size -= (size_t)count;
    }
    return 1;
}

static int copy(int to, int from, off_t size) {
    char bytes[4096];
    for (off_t at = 0; at < size;) {
        ssize_t count = pread(from, bytes, sizeof bytes, at);
        if (count <= 0 || !put(to, bytes, (size_t)count)) {
            return 0;
        }
        at += count;
    }
    return 1;
}

// Runs the program in a child, and waits for it. In the child, which goes on to `main`, it answers 0.
static int run(int to) {
    int out = memfd_create("out", 0), err = memfd_create("err", 0), status = 0;
    const char *clear = getenv("ALLOC_CLEAR");
    if (clear) {
        char unfinished[256];
        snprintf(unfinished, sizeof unfinished, "%s.new", clear);
        unlink(clear), unlink(unfinished);
    }
    lseek(0, 0, SEEK_SET);
    *made = 0;
    pid_t child = fork();
    if (child == 0) {
        dup2(out, 1);
        dup2(err, 2);
        close(out), close(err), close(to);
        alarm(60);
        return 0;
    }
    if (child < 0 || waitpid(child, &status, 0) != child) {
        _exit(125);
    }
    char line[128];
    off_t told = lseek(out, 0, SEEK_END), said = lseek(err, 0, SEEK_END);
    int ended = WIFEXITED(status) ? WEXITSTATUS(status) : -WTERMSIG(status);
    int size = snprintf(line, sizeof line, "%ld %ld %d %lld %lld\n", failing, *made, ended, (long long)told, (long long)said);
    if (!put(to, line, (size_t)size) || !copy(to, out, told) || !copy(to, err, said)) {
        _exit(125);
    }
    close(out), close(err);
    return 1;
}

__attribute__((constructor)) static void begin(void) {
    int to = (int)number("ALLOC_TO", -1);
    if (to < 0) {
        return;
    }
    dl_iterate_phdr(note_code, NULL);
    made = mmap(NULL, sizeof *made, PROT_READ | PROT_WRITE, MAP_SHARED | MAP_ANONYMOUS, -1, 0);
    if (made == MAP_FAILED) {
        _exit(125);
    }
    long last = number("ALLOC_LAST", 1L << 40), step = number("ALLOC_STEP", 1);
    for (failing = number("ALLOC_FIRST", 0); failing <= last; failing += step) {
        if (!run(to)) {
            return;
        }
        if (failing && *made < failing) {
            break;
        }
    }
    _exit(0);
}
