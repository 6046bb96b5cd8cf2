/* The program behind host/audit: each image is written into a node's flash by File Write, read back by File Read, and compared word by
   word with the file that was signed. main.c has the order of things; the other files have one subject each. Word 0 of an image is the
   file's header. */
#ifndef AUDIT_H
#define AUDIT_H

#include "../common/common.h"

/* The sizes of a flash (size.c). */

struct size {
    const char *name, *in_digits, *what; /* as it is asked for, its bytes, and what it holds, for people */
    size_t bytes;
};

const struct size *size_usual(void);
const struct size *size_named(const char *name); /* NULL where none has that name */
const struct size *size_of(size_t bytes);        /* NULL where a flash may not have so many */
bool size_holds(const struct size *size, size_t words); /* whether a sector has room for so many */

/* What a flash holds that is too small for so many words; and where a larger one would do, what to ask for. */
void size_say_too_small(const struct size *size, size_t words, char *text);

/* Options (options.c). */

/* Something to erase: a file by its name, or a sector by its number. */
struct erasure {
    bool is_sector;
    unsigned which;
};

struct options {
    struct asked asked;
    bool together, keep, summary;
    const char *flash;       /* the flash file, or NULL */
    const struct size *size; /* as it was asked for, or NULL */
    struct erasure *erasures;
    size_t erasure_count;
};

/* Takes the command line apart, or says in `why` what is wrong with it. */
bool options_read(int count, char **arguments, struct options *options, char *why);

/* The rules for a file (rules.c). */

/* The length of the valid file that begins some words, those of an image or of a sector (`whole`); 0 where there is none, with the rule that
   is broken, and at which word. */
size_t rules_file_length(const uint8_t *words, size_t count, const char *whole, char *why);

/* Whether the words are a valid file and no word more. */
bool rules_is_file(const uint8_t *words, size_t count, char *why);

/* Whether a word can begin a file: type 00 or 01, 1 to 14 segments. */
bool rules_may_begin(unsigned header);

static inline unsigned name_of(unsigned header) { return header >> 4 & 0xFFu; }

/* The node and its flash (node.c). */

enum { SECTOR_FIRST = 3, SECTOR_LAST = 10, SECTORS = 8 };

/* What the directory says of a sector: its first word, its status, and the length of its file, 0 unless it is good. */
struct entry {
    unsigned first, status, words;
};

/* What became of a file that was written and read back. What a reply has stands until the next one is; one that did not come has BC
   LOGODWEN_NONE. */
struct course {
    struct logodwen_packet written; /* the reply to the first packet of File Write that was not NEXT */
    size_t sent;                    /* words of the file up to there */
    struct logodwen_packet summary, read;
};

void node_blank(struct logodwen_node *node, const struct size *size); /* of the usual size where that is NULL */
uint32_t node_start(struct logodwen_node *node);
void node_write_and_read(struct logodwen_node *node, const uint8_t *words, size_t count, unsigned name, struct course *course);
uint64_t node_erase(struct logodwen_node *node, struct erasure erasure);
uint32_t node_erase_on(struct logodwen_node *node); /* goes on to the end; how many words were set */
bool node_directory(struct logodwen_node *node, struct entry *directory);
bool directory_of(const uint8_t *reply, size_t words, struct entry *directory); /* a reply to Flash Summary */
void node_answer_text(uint64_t answered, char *text);
const char *reply_text(const struct logodwen_packet *reply);

bool entry_is_empty(struct entry entry);
const char *entry_status(struct entry entry);
void entry_text(struct entry entry, char *text); /* its status and its length */
const struct size *node_size(const struct logodwen_node *node); /* of its flash */
size_t sector_words(const struct logodwen_node *node, unsigned sector);
const uint8_t *sector_begin(const struct logodwen_node *node, unsigned sector);
unsigned directory_place(const struct logodwen_node *node, const struct entry *directory, size_t words); /* the lowest empty sector with
                                                                                                            room, or 0 */

/* Sets of sectors, bit s for sector s (named.c). */

unsigned directory_named(const struct entry *directory, unsigned name); /* those with that name: none, one or several (02, request 10) */
void sectors_text(unsigned sectors, char *text);     /* as "sectors 3, 5 and 7" */
void sectors_erasures(unsigned sectors, char *text); /* the options that erase them */

/* What a sector is by the rules (sector.c). */

/* Whether a sector is bad by the rules; the one that is broken, and at which word. */
bool sector_is_bad(const struct logodwen_node *node, unsigned sector, char *rule);

/* Whether the directory says of a sector what its words are by the rules; where not, how the two differ. */
bool sector_is_right(const struct logodwen_node *node, unsigned sector, struct entry entry, char *why);

/* What is wrong with a sector, and what to do about it; no text where nothing is. */
void sector_detail(const struct logodwen_node *node, const struct entry *directory, unsigned sector, char *detail);

/* The verdict on an image (verdict.c). */

enum verdict { AGREES, DIFFERS, INVALID, TOO_LARGE, NAME_USED, NO_ROOM, UNREADABLE, DISPUTED, VERDICTS };

struct finding {
    enum verdict verdict;
    bool has_words; /* whether the words could be read */
    size_t words;
    unsigned header, fcs; /* of the words; the header is 0 where there are none */
    unsigned sector;      /* 0 where the directory has no such file */
    char detail[TEXT];
};

void verdict_on_image(struct logodwen_node *node, const struct contents *image, struct finding *finding);

/* The flash file (flash_file.c). */

/* A flash file. One that is to be kept is locked from reading to writing, so that no two audits write over each other's. */
struct flash_file {
    const char *path; /* as it was given */
    char *real;       /* where it stands, links followed */
    char *beside;     /* what is written, and takes its place */
    char *lock_path;
    int lock; /* -1 where it isn't locked */
    bool is_new;
    struct look look; /* at the file that stands there */
};

/* Reads it into the node's flash, where a full one has room; that then has as many bytes as the file. To be kept it is locked first, which may
   mean waiting for another audit. `size` is the one that was asked for, or NULL. */
bool flash_file_open(struct flash_file *file, const char *path, bool is_kept, const struct size *size, struct logodwen_node *node, char *why);
bool flash_file_write(struct flash_file *file, const struct logodwen_node *node, char *why);
void flash_file_close(struct flash_file *file);

/* What is printed (report.c). */

void report_flash(const struct options *options, const struct size *size);
void report_new_flash(const char *path);
void report_columns(void);
void report_erased(unsigned sector, unsigned words);
void report_finding(const char *path, const struct finding *finding);
bool report_directory(struct logodwen_node *node, bool is_whole, char *why); /* all of it as a table, or what is wrong in it */
void report_totals(const size_t *totals, size_t left_out);

#endif
