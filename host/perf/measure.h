/* Timing of proved code against plain C that does the same work on the same bytes, in one process, turn and turn about: each is given
   the least of its turns. The other files of this folder rest on this one. */
#ifndef LOGODWEN_MEASURE_H
#define LOGODWEN_MEASURE_H

#include <stdbool.h>
#include <stddef.h>

/* A row of the table. */
struct row {
    const char *what;
    void (*prepare)(void);    /* before each turn, not timed; NULL where there is nothing to prepare */
    void (*work)(bool plain); /* one call: of the proved code, or of plain C */
    int times;                /* calls a turn */
    double limit;             /* of the ratio */
};

/* Times the rows and prints them. Answers how many are above their limits. */
int measure(const struct row *rows, size_t count);

/* A row that compares one work of the proved code with another, which has a name, in the place of plain C. */
int measure_against(const struct row *row, const char *other);

/* Says that the two differ, and answers 1: no time is worth anything then. */
int measure_differs(const char *what);

#endif
