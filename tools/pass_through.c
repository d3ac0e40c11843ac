// A server for a mount that hands each request on to a folder of another file system: what tools/mount_timings times beside Strata, so that
// both pay for the way through the kernel. Its word is that folder. It keeps no more than the paths of nodes, and serves one program at a time.
#define _GNU_SOURCE
#include <errno.h>
#include <fcntl.h>
#include <linux/fuse.h>
#include <stdint.h>
#include <stdio.h>
#include <stdlib.h>
#include <string.h>
#include <sys/stat.h>
#include <sys/statvfs.h>
#include <unistd.h>

enum { NODES = 100000, FOREVER = 1000000 };

static char *paths[NODES];
static uint64_t next = 2;
static char request[300000], reply[300000];

static const char *path_below(uint64_t folder, const char *name) {
    static char kept[2][8192];
    static int turn;
    turn = !turn;
    snprintf(kept[turn], sizeof kept[turn], "%s/%s", paths[folder], name);
    return kept[turn];
}

static uint64_t node_of(const char *path) {
    for (uint64_t node = 1; node < next; node++)
        if (paths[node] && strcmp(paths[node], path) == 0) return node;
    if (next == NODES) exit(1);
    paths[next] = strdup(path);
    return next++;
}

static void forget(const char *path) {
    for (uint64_t node = 2; node < next; node++)
        if (paths[node] && strcmp(paths[node], path) == 0) paths[node] = NULL;
}

static void put_attributes(struct fuse_attr *to, const struct stat *from, uint64_t node) {
    memset(to, 0, sizeof *to);
    to->ino = node, to->size = from->st_size, to->blocks = from->st_blocks, to->mode = from->st_mode;
    to->nlink = from->st_nlink, to->mtime = from->st_mtime, to->blksize = 4096;
}

static int put_entry(struct fuse_entry_out *to, const char *path) {
    struct stat found;
    if (lstat(path, &found)) return -errno;
    memset(to, 0, sizeof *to);
    to->nodeid = node_of(path), to->entry_valid = to->attr_valid = FOREVER;
    put_attributes(&to->attr, &found, to->nodeid);
    return sizeof *to;
}

static int put_stat(struct fuse_attr_out *to, const struct stat *found, uint64_t node) {
    memset(to, 0, sizeof *to);
    to->attr_valid = FOREVER;
    put_attributes(&to->attr, found, node);
    return sizeof *to;
}

static int put_open(struct fuse_open_out *to, int file) {
    if (file < 0) return -errno;
    memset(to, 0, sizeof *to);
    to->fh = file, to->open_flags = FOPEN_KEEP_CACHE;
    return sizeof *to;
}

static int agree(const struct fuse_init_in *asked, struct fuse_init_out *to) {
    memset(to, 0, 64);
    to->major = 7, to->minor = 31, to->max_readahead = 131072, to->max_background = 12, to->congestion_threshold = 9;
    to->flags = asked->flags & (FUSE_MAX_PAGES | FUSE_BIG_WRITES), to->max_write = 65536, to->time_gran = 1, to->max_pages = 16;
    return 64;
}

static int rename_node(uint64_t from_folder, const struct fuse_rename_in *asked, const char *names) {
    const char *from = path_below(from_folder, names), *to = path_below(asked->newdir, names + strlen(names) + 1);
    if (rename(from, to)) return -errno;
    forget(to);
    paths[node_of(from)] = strdup(to);
    return 0;
}

static int sync_folder(uint64_t node) {
    int file = open(paths[node], O_RDONLY), failed = fsync(file) ? -errno : 0;
    close(file);
    return failed;
}

// The length of what is replied, or an error below 0.
static int serve(const struct fuse_in_header *head, const char *body, char *to) {
    struct stat found;
    uint64_t node = head->nodeid;
    switch (head->opcode) {
    case FUSE_INIT: return agree((void *)body, (void *)to);
    case FUSE_LOOKUP: return put_entry((void *)to, path_below(node, body));
    case FUSE_GETATTR: {
        const struct fuse_getattr_in *asked = (void *)body;
        int failed = asked->getattr_flags & 1 ? fstat(asked->fh, &found) : lstat(paths[node], &found);
        return failed ? -errno : put_stat((void *)to, &found, node);
    }
    case FUSE_SETATTR: {
        const struct fuse_setattr_in *asked = (void *)body;
        if (asked->valid & FATTR_SIZE)
            if (asked->valid & FATTR_FH ? ftruncate(asked->fh, asked->size) : truncate(paths[node], asked->size)) return -errno;
        return lstat(paths[node], &found) ? -errno : put_stat((void *)to, &found, node);
    }
    case FUSE_MKDIR: return mkdir(path_below(node, body + 8), 0755) ? -errno : put_entry((void *)to, path_below(node, body + 8));
    case FUSE_UNLINK: return unlink(path_below(node, body)) ? -errno : (forget(path_below(node, body)), 0);
    case FUSE_RMDIR: return rmdir(path_below(node, body)) ? -errno : (forget(path_below(node, body)), 0);
    case FUSE_RENAME: return rename_node(node, (void *)body, body + sizeof(struct fuse_rename_in));
    case FUSE_LINK: {
        const char *name = path_below(node, body + 8);
        return link(paths[((struct fuse_link_in *)body)->oldnodeid], name) ? -errno : put_entry((void *)to, name);
    }
    case FUSE_OPEN: return put_open((void *)to, open(paths[node], ((struct fuse_open_in *)body)->flags & O_ACCMODE));
    case FUSE_CREATE: {
        const char *name = path_below(node, body + 16);
        int flags = ((struct fuse_create_in *)body)->flags & (O_ACCMODE | O_EXCL | O_TRUNC);
        int file = open(name, flags | O_CREAT, 0644), length = file < 0 ? -errno : put_entry((void *)to, name);
        return length < 0 ? length : length + put_open((void *)(to + length), file);
    }
    case FUSE_READ: {
        const struct fuse_read_in *asked = (void *)body;
        int count = pread(asked->fh, to, asked->size, asked->offset);
        return count < 0 ? -errno : count;
    }
    case FUSE_WRITE: {
        const struct fuse_write_in *asked = (void *)body;
        int count = pwrite(asked->fh, body + sizeof *asked, asked->size, asked->offset);
        if (count < 0) return -errno;
        *(struct fuse_write_out *)to = (struct fuse_write_out){.size = count};
        return sizeof(struct fuse_write_out);
    }
    case FUSE_RELEASE: return close(((struct fuse_release_in *)body)->fh), 0;
    case FUSE_FSYNC: return fdatasync(((struct fuse_fsync_in *)body)->fh) ? -errno : 0;
    case FUSE_FSYNCDIR: return sync_folder(node);
    case FUSE_OPENDIR: return memset(to, 0, 16), 16;
    case FUSE_READDIR: case FUSE_RELEASEDIR: return 0;
    case FUSE_STATFS:
        memset(to, 0, 80);
        ((struct fuse_statfs_out *)to)->st.namelen = 255;
        return 80;
    default: return -ENOSYS;
    }
}

int main(int count, char **words) {
    if (count != 2) return 2;
    paths[1] = words[1];
    for (;;) {
        ssize_t length = read(0, request, sizeof request);
        if (length < 0 && (errno == EINTR || errno == ENOENT)) continue;
        if (length <= 0) return 0;
        const struct fuse_in_header *head = (void *)request;
        if (head->opcode == FUSE_FORGET || head->opcode == FUSE_BATCH_FORGET || head->opcode == FUSE_INTERRUPT) continue;
        int given = serve(head, request + sizeof *head, reply + sizeof(struct fuse_out_header));
        struct fuse_out_header *out = (void *)reply;
        *out = (struct fuse_out_header){.len = sizeof *out + (given > 0 ? given : 0), .error = given < 0 ? given : 0, .unique = head->unique};
        if (write(1, reply, out->len) < 0 && errno != ENOENT) return 1;
    }
}
