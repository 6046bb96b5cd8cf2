/* What is printed: lines of fields parted by tabs, and other lines with # before them; or, as JSON, an object a line. */
#define _POSIX_C_SOURCE 200809L
#include "common.h"

#include <fcntl.h>
#include <stdlib.h>
#include <unistd.h>

static bool is_json;

void lines_as(bool json) { is_json = json; }

bool lines_are_json(void) { return is_json; }

/* An object of JSON: its members, each with what parts it from the one before. */

static bool has_member;

void object_begin(void) {
    putchar('{');
    has_member = false;
}

void object_end(void) { printf("}\n"); }

static void print_key(const char *key) {
    printf("%s\"%s\":", has_member ? "," : "", key);
    has_member = true;
}

void object_text(const char *key, const char *value) {
    struct text text;
    print_key(key);
    printf("%s", value == NULL ? "null" : in_json(value, &text));
}

void object_number(const char *key, bool is_known, size_t value) {
    print_key(key);
    if (is_known)
        printf("%zu", value);
    else
        printf("null");
}

void object_hex(const char *key, bool is_known, int digits, unsigned value) {
    char hex[9];
    snprintf(hex, sizeof hex, "%0*X", digits, value);
    object_text(key, is_known ? hex : NULL);
}

void lines_field(bool is_known, const char *form, unsigned value) {
    putchar('\t');
    if (is_known)
        printf(form, value);
    else
        putchar('-');
}

/* The archive. What the command says of it comes by the environment, where no argument of its caller's can change it. */

static const char *archive_text(void) {
    const char *said = getenv("LOGODWEN_ARCHIVE");
    return said == NULL || said[0] == 0 ? "not told" : said;
}

static void print_archive(void) {
    printf("# archive: ");
    for (const char *at = archive_text(); *at != 0; at++)
        putchar((unsigned char)*at < 0x20 || *at == 0x7F ? '?' : *at); /* it is one line, whatever is said */
    printf("\n");
}

void lines_archive(void) {
    if (!is_json) {
        print_archive();
        return;
    }
    object_begin();
    object_text("archive", archive_text());
    object_end();
}

void lines_version(void) {
    char name[TEXT];
    say(name, "logodwen %s", program);
    if (!is_json) {
        printf("%s, release " RELEASE "\ninterface: %d\n", name, LOGODWEN_VERSION);
        print_archive();
        return;
    }
    object_begin();
    object_text("program", name);
    object_text("release", RELEASE);
    object_number("interface", true, LOGODWEN_VERSION);
    object_text("archive", archive_text());
    object_end();
}

/* Progress, on a terminal: one line that is written over, and wiped before any other. */

static bool is_progress_shown;

void lines_progress(size_t done, size_t of) {
    enum { MANY = 20 };
    if (of < MANY || !isatty(STDERR_FILENO))
        return;
    fflush(stdout);
    fprintf(stderr, "\r%s: %zu of %zu ", program, done, of);
    is_progress_shown = true;
}

void lines_progress_end(void) {
    if (is_progress_shown)
        fprintf(stderr, "\r%40s\r", "");
    is_progress_shown = false;
}

void lines_left_out(const char *path, const char *why) {
    struct text text;
    if (!is_json) {
        printf("# left out: %s: %s\n", shown(path, &text), why);
        return;
    }
    object_begin();
    object_text("left_out", path);
    object_text("why", why);
    object_end();
}

static void totals_in_json(const struct tally *tally, size_t all, size_t left_out) {
    char files[TEXT];
    say(files, "%ss", tally->what);
    object_begin();
    object_number(files, true, all);
    for (size_t i = 0; i < tally->count; i++)
        object_number(tally->verdicts[i], true, tally->totals[i]);
    object_number("left_out", true, left_out);
    object_end();
}

void lines_totals(const struct tally *tally, size_t left_out) {
    size_t all = 0, others = 0;
    for (size_t i = 0; i < tally->count; i++)
        all += tally->totals[i];
    if (is_json) {
        totals_in_json(tally, all, left_out);
        return;
    }
    printf("# %zu %s%s: %zu %s", all, tally->what, all == 1 ? "" : "s", tally->totals[0], tally->good[tally->totals[0] != 1]);
    for (size_t i = 1; i < tally->count; i++)
        if (tally->totals[i] != 0)
            printf("%s%zu %s", others++ == 0 ? "; " : ", ", tally->totals[i], tally->verdicts[i]);
    if (left_out != 0)
        printf("; left out: %zu", left_out);
    printf("\n");
}

/* The end. */

static int highest = ALL_RIGHT;

void ends_with(int status) {
    if (highest < status)
        highest = status;
}

int ended_with(void) { return highest; }

void complain(const char *why, int status) {
    lines_progress_end();
    fflush(stdout);
    fprintf(stderr, "%s: %s\n", program, why);
    ends_with(status);
}

/* A descriptor of the first three that is closed would be given to the next file that is opened, and the report would be written there. */
bool lines_can_be_written(char *why) {
    bool is_there = fcntl(STDOUT_FILENO, F_GETFD) != -1;
    for (int file = 0; file <= STDERR_FILENO; file++)
        if (fcntl(file, F_GETFD) == -1 && open("/dev/null", O_RDWR) != file)
            return say(why, "/dev/null can't be opened");
    return is_there || say(why, "the report can't be written: standard output is closed");
}

bool lines_are_written(void) { return fflush(stdout) == 0 && !ferror(stdout); }
