/* What a file is. By statx, whose answer has one layout on every machine: on Arm this program is compiled for x86-64 with Arm's headers, in
   which `struct stat`, and some flags of `open`, are others. */
#define _GNU_SOURCE
#include "common.h"

#include <fcntl.h>
#include <sys/stat.h>

static bool looked(int file, const char *path, int flags, struct look *look) {
    struct statx kind;
    if (statx(file, path, flags, STATX_BASIC_STATS, &kind) != 0)
        return false;
    *look = (struct look){.is_file = S_ISREG(kind.stx_mode),
                          .is_folder = S_ISDIR(kind.stx_mode),
                          .is_link = S_ISLNK(kind.stx_mode),
                          .is_fifo = S_ISFIFO(kind.stx_mode),
                          .mode = kind.stx_mode & 07777u,
                          .owner = kind.stx_uid,
                          .group = kind.stx_gid,
                          .names = kind.stx_nlink,
                          .bytes = kind.stx_size,
                          .inode = kind.stx_ino,
                          .device = (uint64_t)kind.stx_dev_major << 32 | kind.stx_dev_minor};
    return true;
}

bool look_at(const char *path, struct look *look) { return looked(AT_FDCWD, path, 0, look); }

bool look_at_name(const char *path, struct look *look) { return looked(AT_FDCWD, path, AT_SYMLINK_NOFOLLOW, look); }

bool look_into(int file, struct look *look) { return looked(file, "", AT_EMPTY_PATH, look); }

bool look_is_same(const struct look *one, const struct look *other) { return one->device == other->device && one->inode == other->inode; }
