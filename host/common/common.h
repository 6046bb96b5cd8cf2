/* What the programs behind host/audit, host/capture and host/salvage have in common: texts, which files, files as words, where files stand, the
   command line, and the lines that are printed. Words are two bytes, the low byte first, and count from 0. */
#ifndef COMMON_H
#define COMMON_H

#include "logodwen.h"

#include <stdbool.h>
#include <stdio.h>

#define RELEASE "1.0" /* of the audit, the bench, the capture and the salvage: the tools around the node */

/* Which of the programs it is, as its command is called; each says so in its main.c. */
extern const char program[];

enum { ALL_RIGHT = 0, SOME_WRONG = 1, NOT_READ = 2, NOT_TRUSTED = 3 }; /* the exit status: the highest that holds */

/* Texts (text.c). */

enum { TEXT = 5000 }; /* bytes of a detail or a message, at most: a path can have 4,096 */

/* A text in a room of TEXT bytes; answers false, so that what fails can say why in one line. */
bool say(char *room, const char *form, ...);

/* Room for a name: a path of 4,096 bytes, each of them six between quotes. What is longer is cut. */
struct text {
    char room[32768];
};

/* A name as it is, or between quotes where it could be taken for something else: for a comment, for a number at the beginning of a line,
   for another field or line. Quoted, a byte that is no text is \xHH, a control character \uHHHH or as C has it. */
const char *shown(const char *name, struct text *text);
const char *in_json(const char *name, struct text *text); /* always between quotes */

/* Sets of numbers below 32, bit n for number n: of sectors, of slaves (set.c). */

unsigned set_count(uint32_t set);
bool set_is_one(uint32_t set);
unsigned set_lowest(uint32_t set);                                           /* 0 of none */
void set_list(uint32_t set, const char *word, const char *last, char *text); /* each behind a word, `last` before the last one */
void set_text(uint32_t set, const char *what, char *text);                   /* as "slaves 3, 5 and 7" */

/* What a file is (look.c); false where that can't be told, with errno. */

struct look {
    bool is_file, is_folder, is_link, is_fifo;
    unsigned mode, owner, group;
    uint64_t names, bytes, inode, device;
};

bool look_at(const char *path, struct look *look);      /* where links lead */
bool look_at_name(const char *path, struct look *look); /* a link itself */
bool look_into(int file, struct look *look);
bool look_is_same(const struct look *one, const struct look *other); /* one file, by whatever names */

/* Where a file stands that is written whole or not at all (places.c): it is written beside its place, and then takes its name. */

char *place_of(const char *path);          /* where it stands, or is to stand, with no link on the way; NULL where it can't, with errno */
bool place_is_astray(const char *path);    /* whether place_of can't say since it is a link that leads nowhere */
char *place_beside(const char *real, const char *ending); /* a hidden file in its folder, of its name and an ending; NULL without memory */
bool place_is_written(int out, const uint8_t *bytes, size_t count);
bool place_is_there(const char *path, int file); /* whether an open file still has its name */
void place_settle(const char *real);             /* the name's change, written through to the disk as far as the system can */

/* Of a file that is there: why no other may take its name, mode and owner, or NULL; and that an open one takes its mode and owner. */
const char *place_objection(const char *real, const struct look *look);
bool place_is_alike(int out, const struct look *look);

/* What is asked (asked.c): the options that every program has, and its files and folders. */

enum reading { BY_CONTENT, AS_HEX, AS_RAW };

struct asked {
    bool quiet, json, recursive, version;
    enum reading reading;
    char **paths; /* as they were given */
    size_t path_count;
};

/* An option of one program alone: a flag to set, or what takes its value. A list of them ends with no name. */
struct own_option {
    const char *name;
    bool *flag;
    bool (*take)(void *into, const char *option, const char *value, char *why); /* NULL of a flag */
};

/* Takes the command line apart, or says in `why` what is wrong with it; `into` goes to what takes a value. */
bool asked_read(int count, char **arguments, struct asked *asked, const struct own_option *own, void *into, char *why);

/* Which files (paths.c). */

/* A file, or what a folder has beside its files. */
struct path {
    char *name;
    const char *left_out; /* why it is left out; NULL for a file */
};

struct paths {
    struct path *at;
    size_t count, files;
};

/* Adds a file, or what a folder holds, by order of name: each file, and what is left out; with `recursive` what the folders in it hold
   too. False where a folder has no file or can't be read. */
bool paths_add(struct paths *paths, const char *path, bool recursive, char *why);

/* Does something with each file, in order, says of the others why they are left out, and shows how far it is. */
void paths_each(const struct paths *paths, void (*each)(void *with, const char *path), void *with);

/* The words of a file (contents.c). */

enum { FILE_BYTES = 1048576 }; /* a longer file is not read on */

struct contents {
    uint8_t bytes[FILE_BYTES + 1];
    size_t words;
    bool is_too_long;
};

/* What words are meant to be, and the test of that: text that would be so as raw words too is not guessed at. */
struct meant {
    const char *name; /* as "a valid file" */
    bool (*is)(const uint8_t *words, size_t count);
};

/* The words of a file, raw or in hex; or why it can't be read. The path - is standard input. `meant` is NULL where raw words that are what
   is meant never look like text. */
bool contents_read(const char *path, enum reading reading, const struct meant *meant, struct contents *contents, char *why);

/* Hex text to words, in place: the text may begin with a byte-order mark, and be in UTF-16 (hex.c). */
bool hex_take(uint8_t *bytes, size_t count, size_t *words, char *why);

/* What kind of text the bytes are that are not plain ASCII but look like hex text, or NULL (hex.c). */
const char *hex_kind(const uint8_t *bytes, size_t count);

/* Whether each byte is a printable character of ASCII or white space (hex.c). */
bool hex_is_ascii(const uint8_t *bytes, size_t count);

/* What is printed (lines.c): lines of fields parted by tabs and comments, or an object of JSON a line. */

void lines_as(bool json);
bool lines_are_json(void);

void object_begin(void);
void object_text(const char *key, const char *value); /* null of NULL */
void object_number(const char *key, bool is_known, size_t value);
void object_hex(const char *key, bool is_known, int digits, unsigned value);
void object_end(void);

void lines_field(bool is_known, const char *form, unsigned value); /* with the tab before it; - where it is not known */
void lines_archive(void);                                          /* which archive answers */
void lines_version(void);
void lines_left_out(const char *path, const char *why);
void lines_progress(size_t done, size_t of);
void lines_progress_end(void); /* before any other line */

/* How many files had each verdict. The first verdict is the good one. */
struct tally {
    const char *what;    /* as "image" */
    const char *good[2]; /* said of one that is good, and of several */
    const char *const *verdicts;
    const size_t *totals;
    size_t count;
};

void lines_totals(const struct tally *tally, size_t left_out);

bool lines_can_be_written(char *why); /* at the very beginning */
bool lines_are_written(void);

/* How the program ends (lines.c). */

void ends_with(int status);                 /* or with a higher one that was said before */
int ended_with(void);                       /* the highest so far */
void complain(const char *why, int status); /* says on standard error what is wrong, with the program's name, and ends with a status */

#endif
