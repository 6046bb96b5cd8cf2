/* The flash file: 65,536 bytes, the words of a bench flash, low byte first; or 524,288, those of a full one.

   One that is kept is written whole to a file beside it, .NAME.audit-new, which then takes its name: at no time a part of it stands there.
   It keeps its mode and its owner, and a link that leads to it stays. From reading to writing it is locked, by a lock on the empty file
   .NAME.audit-lock beside it: a second audit waits, and reads what the first has written. The system ends the lock of an audit that was
   killed, so what that leaves behind keeps nobody out. */
#define _XOPEN_SOURCE 700
#include "audit.h"

#include <errno.h>
#include <fcntl.h>
#include <stdlib.h>
#include <string.h>
#include <sys/stat.h> /* fchmod */
#include <unistd.h>

/* Why a file is not kept, by the system's error. */
static bool is_not_kept(const struct flash_file *file, const char *what, char *why) {
    struct text one, other;
    const char *cause = strerror(errno);
    return say(why, "%s is not kept: %s: %s", shown(file->path, &one), shown(what, &other), cause);
}

/* Why it can't be kept, in words. */
static bool can_not_be_kept(const struct flash_file *file, const char *cause, char *why) {
    struct text text;
    return say(why, "%s: %s; without --keep it is only read", shown(file->path, &text), cause);
}

/* Where it stands. */

static bool is_placed(struct flash_file *file, char *why) {
    file->real = place_of(file->path);
    if (file->real == NULL && place_is_astray(file->path))
        return can_not_be_kept(file, "a link that leads nowhere", why);
    if (file->real == NULL)
        return is_not_kept(file, file->path, why);
    file->lock_path = place_beside(file->real, ".audit-lock");
    file->beside = place_beside(file->real, ".audit-new");
    return (file->lock_path != NULL && file->beside != NULL) || say(why, "out of memory");
}

/* The lock. */

static bool is_held(int lock, int command, struct flock *held) {
    *held = (struct flock){.l_type = F_WRLCK, .l_whence = SEEK_SET};
    return fcntl(lock, command, held) != -1;
}

/* Says who holds the lock, and waits. */
static bool is_waited_for(const struct flash_file *file, int lock) {
    struct flock other;
    struct text text;
    if (is_held(lock, F_GETLK, &other) && other.l_type != F_UNLCK && other.l_pid > 0)
        fprintf(stderr, "audit: waiting for %s, which process %ld keeps\n", shown(file->path, &text), (long)other.l_pid);
    else
        fprintf(stderr, "audit: waiting for %s, which another process keeps\n", shown(file->path, &text));
    bool is_locked;
    do
        is_locked = is_held(lock, F_SETLKW, &other);
    while (!is_locked && errno == EINTR);
    return is_locked;
}

static bool is_locked(struct flash_file *file, char *why) {
    for (;;) {
        struct flock held;
        struct look look;
        if (look_at_name(file->lock_path, &look) && !look.is_file)
            return can_not_be_kept(file, "something stands where its lock should", why);
        int lock = open(file->lock_path, O_RDWR | O_CREAT | O_NONBLOCK, 0666);
        if (lock < 0)
            return is_not_kept(file, file->lock_path, why);
        fchmod(lock, 0666); /* so that what one user's killed audit leaves keeps no other user out; it is empty */
        if (!is_held(lock, F_SETLK, &held) && ((errno != EACCES && errno != EAGAIN) || !is_waited_for(file, lock))) {
            is_not_kept(file, file->lock_path, why);
            close(lock);
            return false;
        }
        if (place_is_there(file->lock_path, lock)) { /* else the one before has taken it away */
            file->lock = lock;
            return true;
        }
        close(lock);
    }
}

/* The lock goes while it is held, so that nobody holds one on a file without a name and believes it good. */
static void unlock(struct flash_file *file) {
    struct look look;
    if (file->lock < 0)
        return;
    if (look_into(file->lock, &look) && look.is_file && look.bytes == 0)
        unlink(file->lock_path);
    close(file->lock);
    file->lock = -1;
}

/* Whether it may be written over by another that has its name, mode and owner. */
static bool may_be_kept(struct flash_file *file, char *why) {
    file->is_new = !look_at(file->real, &file->look);
    if (file->is_new)
        return errno == ENOENT || is_not_kept(file, file->real, why);
    if (!file->look.is_file)
        return can_not_be_kept(file, "no regular file, so it can't be kept", why);
    const char *objection = place_objection(file->real, &file->look);
    return objection == NULL || can_not_be_kept(file, objection, why);
}

/* Reading. */

/* A file of this size was read; false where a flash has none such, or another was asked for. */
static bool is_size_right(const struct flash_file *file, const struct size *size, const struct size *asked, size_t bytes, char *why) {
    struct text text;
    const char *path = shown(file->path, &text);
    bool is_longer = bytes > LOGODWEN_FLASH_FULL_BYTES; /* by one: it is not read on */
    if (size == NULL)
        return say(why, "%s: %s%zu bytes; a flash has 65,536 (bench size) or 524,288 (full size), the low byte of each word first", path,
                   is_longer ? "more than " : "", is_longer ? bytes - 1 : bytes);
    return asked == NULL || asked == size
           || say(why, "--size %s: %s has %s bytes, which is %s size; leave --size out, or give another --flash FILE", asked->name, path,
                  size->in_digits, size->name);
}

static bool is_read(struct flash_file *file, const struct size *asked, struct logodwen_node *node, char *why) {
    struct text text;
    int bytes = open(file->path, O_RDONLY | O_NONBLOCK);
    if (bytes < 0)
        return say(why, "%s: %s; with --keep a flash file that isn't there is made, blank", shown(file->path, &text), strerror(errno));
    fcntl(bytes, F_SETFL, 0);
    uint8_t more;
    size_t count = 0;
    ssize_t got = 1;
    while (got > 0 && count < LOGODWEN_FLASH_FULL_BYTES) {
        got = read(bytes, node->flash + count, LOGODWEN_FLASH_FULL_BYTES - count);
        count += got > 0 ? (size_t)got : 0;
    }
    count += got > 0 && read(bytes, &more, 1) == 1;
    close(bytes);
    if (got < 0)
        return say(why, "%s: can't be read", shown(file->path, &text));
    node->flash_len = count;
    return is_size_right(file, size_of(count), asked, count, why);
}

bool flash_file_open(struct flash_file *file, const char *path, bool is_kept, const struct size *size, struct logodwen_node *node, char *why) {
    *file = (struct flash_file){.path = path, .lock = -1};
    if (is_kept && !(is_placed(file, why) && is_locked(file, why) && may_be_kept(file, why)))
        return false;
    if (!file->is_new)
        return is_read(file, size, node, why);
    node_blank(node, size);
    return true;
}

void flash_file_close(struct flash_file *file) {
    unlock(file);
    free(file->real);
    free(file->beside);
    free(file->lock_path);
    *file = (struct flash_file){.lock = -1};
}

/* Writing. */

/* The file beside it, anew (O_EXCL follows no link): one that stands there was left by an audit that was killed, since the lock is ours. */
static int made_beside(const struct flash_file *file) {
    int flags = O_WRONLY | O_CREAT | O_EXCL, out = open(file->beside, flags, file->is_new ? 0666 : 0600);
    if (out < 0 && errno == EEXIST && unlink(file->beside) == 0)
        out = open(file->beside, flags, file->is_new ? 0666 : 0600);
    return out;
}

bool flash_file_write(struct flash_file *file, const struct logodwen_node *node, char *why) {
    int out = made_beside(file);
    if (out < 0)
        return is_not_kept(file, file->beside, why);
    bool is_done = place_is_written(out, node->flash, node->flash_len) && (file->is_new || place_is_alike(out, &file->look));
    is_done = is_done && fsync(out) == 0;
    if (close(out) == 0 && is_done && rename(file->beside, file->real) == 0) {
        place_settle(file->real);
        return true;
    }
    is_not_kept(file, file->beside, why);
    unlink(file->beside);
    return false;
}
