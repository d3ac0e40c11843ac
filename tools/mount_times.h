// Times of files, kept over an orderly end of their mount: see mount_times.c.
#include <stddef.h>
#include <sys/types.h>

// What is told of each file of a mount: when its bytes or entries were changed last. A list of texts, each with a byte 0 behind it.
struct times {
    char *texts;
    size_t length;
};

struct times take_times(const char *file);
void set_times(const char *folder, struct times times);
int hold_tree(const char *folder);
int wait_for_unmount(int tree, pid_t server);
void keep_times(int tree, const char *file);
