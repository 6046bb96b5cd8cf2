/* The first dump: a file of 65,536 bytes, the words of a bench flash, low byte first; or of 524,288, those of a full one. */
#define _XOPEN_SOURCE 700
#include "salvage.h"

#include <errno.h>
#include <fcntl.h>
#include <string.h>
#include <sys/mman.h>
#include <unistd.h>

static bool is_size_right(const struct first *first, const char *shown_path, char *why) {
    if (first->count == LOGODWEN_FLASH_BYTES || first->count == LOGODWEN_FLASH_FULL_BYTES)
        return true;
    return say(why, "%s: refusal 1: it has %zu bytes; a flash has 65,536 (bench size) or 524,288 (full size), so this is no whole dump of one: "
               "read the flash again", shown_path, first->count);
}

static bool is_mapped(struct first *first, int file, char *why) {
    struct text text;
    const char *path = shown(first->path, &text);
    if (!look_into(file, &first->look))
        return say(why, "%s: %s", path, strerror(errno));
    if (!first->look.is_file)
        return say(why, "%s: no regular file; FIRST is a dump, a file with the bytes of a flash", path);
    first->count = (size_t)first->look.bytes;
    if (!is_size_right(first, path, why))
        return false;
    void *bytes = mmap(NULL, first->count, PROT_READ, MAP_PRIVATE, file, 0);
    if (bytes == MAP_FAILED)
        return say(why, "%s: can't be read: %s", path, strerror(errno));
    first->bytes = bytes;
    return true;
}

bool first_open(struct first *first, const char *path, char *why) {
    struct text text;
    *first = (struct first){.path = path};
    int file = open(path, O_RDONLY | O_NONBLOCK); /* so that a pipe is not waited for */
    if (file < 0)
        return say(why, "%s: %s; FIRST is the dump that is read", shown(path, &text), strerror(errno));
    bool is_open = is_mapped(first, file, why);
    close(file); /* what is mapped stays */
    return is_open;
}
