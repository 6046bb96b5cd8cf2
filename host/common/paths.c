/* Which files: those that are named, and every file in a folder that is named, by order of name. What begins with a dot, folders in a
   folder unless they are asked for, and what is no file are left out, and that is said of each. */
#define _POSIX_C_SOURCE 200809L
#include "common.h"

#include <dirent.h>
#include <stdlib.h>
#include <string.h>

static void *or_stop(void *room) {
    if (room == NULL) {
        complain("out of memory", NOT_READ);
        exit(NOT_READ);
    }
    return room;
}

/* Takes over the name. */
static void add(struct paths *paths, char *name, const char *left_out) {
    paths->at = or_stop(realloc(paths->at, (paths->count + 1) * sizeof *paths->at));
    paths->at[paths->count++] = (struct path){name, left_out};
    paths->files += left_out == NULL;
}

static char *joined(const char *folder, const char *name) {
    const char *parting = folder[strlen(folder) - 1] == '/' ? "" : "/";
    size_t room = strlen(folder) + strlen(parting) + strlen(name) + 1;
    char *path = or_stop(malloc(room));
    snprintf(path, room, "%s%s%s", folder, parting, name);
    return path;
}

static int is_listed(const struct dirent *entry) { return strcmp(entry->d_name, ".") != 0 && strcmp(entry->d_name, "..") != 0; }

static int by_name(const struct dirent **one, const struct dirent **other) { return strcmp((*one)->d_name, (*other)->d_name); }

/* A folder by its own name, and not by a link. */
static bool is_folder(const char *path) {
    struct look look;
    return look_at_name(path, &look) && look.is_folder;
}

/* Why something in a folder is left out, NULL where it is not. A link is followed to a file; one that leads nowhere is a file that can't be
   read. */
static const char *why_left_out(const char *path, const char *name) {
    struct look look;
    if (name[0] == '.')
        return "its name begins with a dot; name it to have it read";
    if (!look_at(path, &look) || look.is_file)
        return NULL;
    if (look.is_folder)
        return is_folder(path) ? "a folder; -r goes into it" : "a link to a folder; name it to have its files read";
    return "a FIFO, a socket or a device, and no file";
}

/* What a folder holds; false where it is none that can be read. */
static bool add_folder(struct paths *paths, const char *folder, bool recursive) {
    struct dirent **entries;
    int count = scandir(folder, &entries, is_listed, by_name);
    if (count < 0)
        return false;
    for (int i = 0; i < count; i++) {
        char *path = joined(folder, entries[i]->d_name);
        bool is_entered = recursive && entries[i]->d_name[0] != '.' && is_folder(path) && add_folder(paths, path, recursive);
        if (is_entered)
            free(path);
        else
            add(paths, path, why_left_out(path, entries[i]->d_name));
        free(entries[i]);
    }
    free(entries);
    return true;
}

bool paths_add(struct paths *paths, const char *path, bool recursive, char *why) {
    size_t before = paths->files;
    if (!add_folder(paths, path, recursive)) { /* a file, or nothing: reading it tells */
        add(paths, strcpy(or_stop(malloc(strlen(path) + 1)), path), NULL);
        return true;
    }
    struct text text;
    return paths->files > before || say(why, "%s: a folder without files; give files, or a folder that has some", shown(path, &text));
}

void paths_each(const struct paths *paths, void (*each)(void *with, const char *path), void *with) {
    size_t done = 0;
    for (size_t i = 0; i < paths->count; i++) {
        const struct path *path = &paths->at[i];
        if (path->left_out != NULL) {
            lines_progress_end();
            lines_left_out(path->name, path->left_out);
        } else {
            lines_progress(done++, paths->files);
            each(with, path->name);
        }
    }
    lines_progress_end();
}
