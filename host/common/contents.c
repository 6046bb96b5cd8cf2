/* The words of a file: raw words, the low byte first, or hex text (hex.c). */
#define _POSIX_C_SOURCE 200809L
#include "common.h"

#include <errno.h>
#include <fcntl.h>
#include <string.h>
#include <unistd.h>

static bool take_hex(struct contents *contents, size_t count, char *why) { return hex_take(contents->bytes, count, &contents->words, why); }

static bool take_raw(struct contents *contents, size_t count, char *why) {
    contents->words = count / 2;
    return count % 2 == 0 || say(why, "%zu bytes; a raw word has two, so one is missing or left over", count);
}

/* Text that is hex and, taken as raw words, what is meant too could be either. What looks like hex text but isn't ASCII, and is not what is
   meant as raw words, is not guessed at. */
static bool take_by_content(struct contents *contents, size_t count, const struct meant *meant, char *why) {
    bool is_raw = meant != NULL && count % 2 == 0 && meant->is(contents->bytes, count / 2), is_ascii = hex_is_ascii(contents->bytes, count);
    const char *kind = is_raw || is_ascii ? NULL : hex_kind(contents->bytes, count);
    if (kind != NULL)
        return say(why, "%s; to have it read as hex text give --hex, as raw words --raw", kind);
    if (count == 0 || !is_ascii)
        return take_raw(contents, count, why);
    if (!take_hex(contents, count, why))
        return false;
    return !is_raw || say(why, "%s as raw words, and hex text too; say which by --raw or --hex", meant->name);
}

/* Opens a file without waiting, as for a FIFO that nobody writes to; the reading itself waits. -1 where it can't be opened. */
static int opened(const char *path) {
    int file = strcmp(path, "-") == 0 ? dup(STDIN_FILENO) : open(path, O_RDONLY | O_NONBLOCK | O_NOCTTY);
    if (file >= 0 && strcmp(path, "-") != 0)
        fcntl(file, F_SETFL, fcntl(file, F_GETFL) & ~O_NONBLOCK);
    return file;
}

static bool is_fifo(int file) {
    struct look look;
    return look_into(file, &look) && look.is_fifo;
}

/* Reads to the end, or as much as there is room for. */
static bool read_all(int file, struct contents *contents, size_t *count, char *why) {
    ssize_t got = 1;
    for (*count = 0; got != 0 && *count < sizeof contents->bytes;) {
        got = read(file, contents->bytes + *count, sizeof contents->bytes - *count);
        if (got < 0 && errno != EINTR)
            return say(why, "%s", strerror(errno));
        *count += got > 0 ? (size_t)got : 0;
    }
    return true;
}

static bool load(const char *path, struct contents *contents, size_t *count, char *why) {
    int file = opened(path);
    if (file < 0)
        return say(why, "%s", strerror(errno));
    bool is_read = read_all(file, contents, count, why);
    if (is_read && *count == 0 && is_fifo(file) && strcmp(path, "-") != 0)
        is_read = say(why, "a FIFO that nobody writes to");
    close(file);
    return is_read;
}

bool contents_read(const char *path, enum reading reading, const struct meant *meant, struct contents *contents, char *why) {
    size_t count = 0;
    contents->words = 0;
    contents->is_too_long = false;
    if (!load(path, contents, &count, why))
        return false;
    if (count > FILE_BYTES) {
        contents->is_too_long = true;
        return true;
    }
    switch (reading) {
    case AS_HEX: return take_hex(contents, count, why);
    case AS_RAW: return take_raw(contents, count, why);
    default: return take_by_content(contents, count, meant, why);
    }
}
