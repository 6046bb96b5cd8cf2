/* The second dump: a blank file of the first one's size, or one that is made where there is none.

   It is written whole to a file beside it, .NAME.salvage-new, which then takes its name: at no time a part of it stands there. It keeps its
   mode and its owner, and a link that leads to it stays. The file beside it is locked from beginning to end, so of two salvages at once the
   second stops. Where one is interrupted it takes that file away; what one that was killed leaves behind is not locked any more, and the next
   one takes it away. */
#define _XOPEN_SOURCE 700
#include "salvage.h"

#include <errno.h>
#include <fcntl.h>
#include <signal.h>
#include <stdlib.h>
#include <string.h>
#include <sys/mman.h>
#include <unistd.h>

enum { PIECE = 4096, FILE_SECTORS = 8 }; /* bytes written at a time: those of a bench flash's smallest sector */

#define ANOTHER "name a SECOND that isn't there, which is made"

/* Why it can't be written, by the system's error. */
static bool is_not_written(const struct second *second, const char *what, char *why) {
    struct text one, other;
    const char *cause = strerror(errno);
    return say(why, "%s is not written: %s: %s; name a SECOND at another place", shown(second->path, &one), shown(what, &other), cause);
}

/* Why it is not, in words. */
static bool can_not_be(const struct second *second, const char *cause, char *why) {
    struct text text;
    return say(why, "%s: %s", shown(second->path, &text), cause);
}

/* What stands at its place. */

static bool is_placed(struct second *second, char *why) {
    second->real = place_of(second->path);
    if (second->real == NULL && place_is_astray(second->path))
        return can_not_be(second, "a link that leads nowhere; name the file itself", why);
    if (second->real == NULL && errno == ENOENT)
        return can_not_be(second, "its folder isn't there; make it first, or name another", why);
    if (second->real == NULL)
        return is_not_written(second, second->path, why);
    second->beside = place_beside(second->real, ".salvage-new");
    return second->beside != NULL || say(why, "out of memory");
}

/* Whether all bytes of the file are FF, or why it is not the second flash. */
static bool are_blank(const struct second *second, int file, char *why) {
    uint8_t piece[PIECE];
    struct text text;
    ssize_t got;
    for (size_t at = 0; at < second->count; at += (size_t)got) {
        got = read(file, piece, sizeof piece);
        if (got <= 0)
            return say(why, "%s: can't be read: %s", shown(second->path, &text), got < 0 ? strerror(errno) : "it was cut short meanwhile");
        for (size_t i = 0; i < (size_t)got; i++)
            if (piece[i] != 0xFF)
                return say(why, "%s: refusal 12: it isn't blank: byte %zu, of word %zu, is not FF; " ANOTHER ", or a blank one",
                           shown(second->path, &text), at + i, (at + i) / 2);
    }
    return true;
}

static bool is_blank(const struct second *second, char *why) {
    struct text text;
    int file = open(second->real, O_RDONLY | O_NONBLOCK);
    if (file < 0)
        return say(why, "%s: can't be read: %s", shown(second->path, &text), strerror(errno));
    bool is_done = are_blank(second, file, why);
    close(file);
    return is_done;
}

static bool may_be_replaced(const struct second *second, char *why) {
    struct text text;
    const char *objection = place_objection(second->real, &second->look);
    return objection == NULL || say(why, "%s: %s; or " ANOTHER, shown(second->path, &text), objection);
}

/* Whether what stands at its place, if anything, is a second flash that may be written. */
static bool is_fit(struct second *second, const struct first *first, char *why) {
    struct text text;
    second->is_new = !look_at(second->real, &second->look);
    if (second->is_new)
        return errno == ENOENT || is_not_written(second, second->real, why);
    if (look_is_same(&second->look, &first->look))
        return can_not_be(second, "it is FIRST itself, by whatever path or link; FIRST is only read: " ANOTHER, why);
    if (!second->look.is_file)
        return can_not_be(second, "no regular file; " ANOTHER, why);
    if (second->look.bytes != first->count)
        return say(why, "%s: refusal 12: it has %llu bytes, and FIRST %zu; " ANOTHER ", or a blank one of that size", shown(second->path, &text),
                   (unsigned long long)second->look.bytes, first->count);
    return is_blank(second, why) && may_be_replaced(second, why);
}

/* What is interrupted takes away what it has begun. */

static const char *volatile begun; /* the path of the file beside, while it stands there */

static void on_signal(int number) {
    static const char cut[] = "salvage: a dump was cut short, or its disk failed, while it was mapped; nothing is written\n";
    if (begun != NULL)
        unlink(begun);
    if (number == SIGBUS && write(STDERR_FILENO, cut, sizeof cut - 1) != 0) /* said or not */
        _exit(NOT_READ);
    signal(number, SIG_DFL);
    raise(number);
}

static void watch_signals(void) {
    static const int numbers[] = {SIGINT, SIGTERM, SIGHUP, SIGQUIT, SIGBUS};
    for (size_t i = 0; i < sizeof numbers / sizeof *numbers; i++)
        if (signal(numbers[i], on_signal) == SIG_IGN)
            signal(numbers[i], SIG_IGN); /* as the caller has it */
    signal(SIGXFSZ, SIG_IGN);            /* a file that may not become so long is an error that can be told */
}

/* The file beside it. */

static bool is_anothers(const struct second *second, char *why) {
    return can_not_be(second, "another salvage is writing it; wait until that has ended", why);
}

/* Locks it; or says that another has, or why it can't be, as on a file system that has no locks. */
static bool is_locked(const struct second *second, int file, char *why) {
    struct flock held = {.l_type = F_WRLCK, .l_whence = SEEK_SET};
    if (fcntl(file, F_SETLK, &held) != -1)
        return true;
    return errno == EACCES || errno == EAGAIN ? is_anothers(second, why) : is_not_written(second, second->beside, why);
}

static void unlink_if_there(const struct second *second, int file) {
    if (place_is_there(second->beside, file))
        unlink(second->beside);
}

/* Whether a file that stands there may be taken away: a salvage's, and not FIRST. */
static bool is_left_behind(const struct second *second, const struct first *first, char *why) {
    struct look look;
    struct text text;
    if (!look_at_name(second->beside, &look)) /* it went meanwhile */
        return errno == ENOENT || is_not_written(second, second->beside, why);
    return (look.is_file && look.names == 1 && !look_is_same(&look, &first->look))
           || say(why, "%s stands where SECOND is to be written, and is no salvage's; give it another name", shown(second->beside, &text));
}

/* Takes away what a salvage that was killed has left behind. */
static bool is_cleared(const struct second *second, const struct first *first, char *why) {
    if (!is_left_behind(second, first, why))
        return false;
    int file = open(second->beside, O_RDWR | O_NONBLOCK);
    if (file < 0)
        return errno == ENOENT || is_not_written(second, second->beside, why);
    bool is_ours = is_locked(second, file, why);
    if (is_ours)
        unlink_if_there(second, file);
    close(file);
    return is_ours;
}

/* Makes the file and locks it: between the two another salvage may take it for one that was left behind. */
static bool is_begun(struct second *second, const struct first *first, char *why) {
    int file;
    while ((file = open(second->beside, O_RDWR | O_CREAT | O_EXCL, second->is_new ? 0666 : 0600)) < 0)
        if (errno != EEXIST ? !is_not_written(second, second->beside, why) : !is_cleared(second, first, why))
            return false;
    if (is_locked(second, file, why) && (place_is_there(second->beside, file) || is_anothers(second, why))) {
        second->file = file;
        begun = second->beside;
        return true;
    }
    unlink_if_there(second, file);
    close(file);
    return false;
}

/* All of it is written before it is mapped: a full disk is then an error that can be told. */
static bool is_mapped(struct second *second, char *why) {
    uint8_t piece[PIECE];
    memset(piece, 0xFF, sizeof piece);
    for (size_t at = 0; at < second->count; at += PIECE) {
        lines_progress(at / PIECE, second->count / PIECE + FILE_SECTORS);
        if (!place_is_written(second->file, piece, PIECE))
            return is_not_written(second, second->beside, why);
    }
    void *bytes = mmap(NULL, second->count, PROT_READ | PROT_WRITE, MAP_SHARED, second->file, 0);
    if (bytes == MAP_FAILED)
        return is_not_written(second, second->beside, why);
    second->bytes = bytes;
    return true;
}

bool second_open(struct second *second, const char *path, const struct first *first, char *why) {
    *second = (struct second){.path = path, .count = first->count, .file = -1};
    watch_signals();
    if (is_placed(second, why) && is_fit(second, first, why) && is_begun(second, first, why) && is_mapped(second, why))
        return true;
    second_drop(second);
    return false;
}

void second_drop(struct second *second) {
    if (second->bytes != NULL)
        munmap(second->bytes, second->count);
    if (begun != NULL)
        unlink(second->beside);
    begun = NULL;
    if (second->file >= 0)
        close(second->file);
    free(second->real);
    free(second->beside);
    *second = (struct second){.file = -1};
}

/* All of it is on the disk, with the mode and owner of the file whose place it takes. */
static bool is_stored(const struct second *second, char *why) {
    bool is_done = msync(second->bytes, second->count, MS_SYNC) == 0 && (second->is_new || place_is_alike(second->file, &second->look));
    return (is_done && fsync(second->file) == 0) || is_not_written(second, second->beside, why);
}

static bool is_put(const struct second *second, char *why) {
    if (rename(second->beside, second->real) != 0)
        return is_not_written(second, second->beside, why);
    begun = NULL;
    place_settle(second->real);
    return true;
}

/* What stands at its place is looked at again: another salvage, or anything else, may have written there meanwhile. */
bool second_keep(struct second *second, const struct first *first, char *why) {
    bool is_done = is_stored(second, why) && is_fit(second, first, why) && is_put(second, why);
    second_drop(second);
    return is_done;
}
