/* The program behind host/capture: whether captured words are a group's reply for a mask of slaves, by the proved reader of the archive;
   and, found out beside it from the rules, the fragments that they have, and which rule the first wrong word breaks. main.c has the order
   of things; the other files have one subject each. */
#ifndef CAPTURE_H
#define CAPTURE_H

#include "../common/common.h"

/* Options (options.c). */

struct options {
    struct asked asked;
    uint32_t mask; /* bit s for slave s; 0 where none was given */
};

/* Takes the command line apart, or says in `why` what is wrong with it. */
bool options_read(int count, char **arguments, struct options *options, char *why);

/* The rules for a group's reply (rules.c). */

/* A fragment that breaks no rule. */
struct part {
    size_t at, length; /* the place of its length word, and what that says */
    unsigned status;   /* its status word */
    struct logodwen_fragment fragment;
};

/* What words are by the rules: fragments, then the node's status word and the FCS. */
struct found {
    struct part parts[LOGODWEN_SLAVES];
    size_t count;     /* of the parts */
    size_t tail;      /* the place past them */
    size_t tail_read; /* the words from there on that break no rule, of two */
    const char *rule; /* the one that is broken, by name; NULL where none is */
    size_t place;     /* of the first word that breaks it */
    char why[TEXT];   /* what that word is, and what it should be */
};

void rules_find(uint32_t mask, const uint8_t *words, size_t count, struct found *found);

/* The verdict on a capture (verdict.c). */

enum verdict { ACCEPTED, BROKEN, UNREADABLE, DISPUTED, VERDICTS };

struct finding {
    enum verdict verdict;
    bool has_words; /* whether the words could be read */
    size_t words;
    struct found found;
    char detail[TEXT];
};

void verdict_on_capture(uint32_t mask, const struct contents *capture, struct finding *finding);

/* What is printed (report.c). */

void report_head(uint32_t mask);
void report_columns(void);
void report_finding(const char *path, const struct contents *capture, const struct finding *finding);
void report_totals(const size_t *totals, size_t left_out);

#endif
