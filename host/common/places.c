/* Where a file stands that is written whole or not at all: it is written beside its place, and then takes its name. */
#define _XOPEN_SOURCE 700
#include "common.h"

#include <errno.h>
#include <fcntl.h>
#include <stdlib.h>
#include <string.h>
#include <sys/stat.h> /* fchmod */
#include <unistd.h>

/* Of a file that isn't there: its folder's place, and its name. */
static char *place_of_new(const char *path) {
    const char *slash = strrchr(path, '/'), *name = slash == NULL ? path : slash + 1;
    size_t length = strlen(path) + 3;
    char *folder = malloc(length), *real = NULL;
    if (folder == NULL)
        return NULL;
    snprintf(folder, length, "%.*s.", (int)(name - path), path);
    char *found = realpath(folder, NULL);
    free(folder);
    if (found == NULL || (real = malloc(strlen(found) + strlen(name) + 2)) == NULL)
        return NULL;
    sprintf(real, "%s/%s", strcmp(found, "/") == 0 ? "" : found, name);
    free(found);
    return real;
}

char *place_of(const char *path) {
    struct look look;
    char *real = realpath(path, NULL);
    return real == NULL && errno == ENOENT && !look_at_name(path, &look) ? place_of_new(path) : real;
}

bool place_is_astray(const char *path) {
    struct look look;
    return errno == ENOENT && look_at_name(path, &look) && look.is_link;
}

char *place_beside(const char *real, const char *ending) {
    size_t room = strlen(real) + strlen(ending) + 2, folder = (size_t)(strrchr(real, '/') + 1 - real);
    char *path = malloc(room);
    if (path != NULL)
        snprintf(path, room, "%.*s.%s%s", (int)folder, real, real + folder, ending);
    return path;
}

bool place_is_written(int out, const uint8_t *bytes, size_t count) {
    while (count > 0) {
        ssize_t put = write(out, bytes, count);
        if (put < 0 && errno == EINTR)
            continue;
        if (put <= 0)
            return false;
        bytes += put;
        count -= (size_t)put;
    }
    return true;
}

bool place_is_there(const char *path, int file) {
    struct look named, opened;
    return look_at_name(path, &named) && look_into(file, &opened) && look_is_same(&named, &opened);
}

const char *place_objection(const char *real, const struct look *look) {
    if ((look->mode & 0222u) == 0 || access(real, W_OK) != 0)
        return "read-only, so it is not written; to allow it: chmod u+w";
    if (look->names > 1)
        return "it has more than one name (hard links), of which only one would be written";
    return look->owner == geteuid() || geteuid() == 0 ? NULL : "another user owns it, and writing it would change that";
}

bool place_is_alike(int out, const struct look *look) {
    struct look made;
    if (!look_into(out, &made))
        return false;
    bool is_owned = made.owner == look->owner && made.group == look->group;
    return (is_owned || fchown(out, look->owner, look->group) == 0) && fchmod(out, look->mode) == 0;
}

void place_settle(const char *real) {
    char *folder = strdup(real);
    if (folder == NULL)
        return;
    strrchr(folder, '/')[1] = 0;
    int at = open(folder, O_RDONLY);
    if (at >= 0) {
        fsync(at);
        close(at);
    }
    free(folder);
}
