/* The program behind host/salvage: saves what is readable of the flash that one file holds in a second one, by the proved function of the
   archive. Both files are mapped, and no buffer here is larger than a sector. main.c has the order of things; the other files have one
   subject each. */
#ifndef SALVAGE_H
#define SALVAGE_H

#include "../common/common.h"

/* The command line (options.c). */

struct options {
    bool version;
    const char *first, *second;
};

/* Takes the command line apart, or says in `why` what is wrong with it. */
bool options_read(int count, char **arguments, struct options *options, char *why);

/* The first dump (first.c), which is only read. */

struct first {
    const char *path;
    struct look look;
    const uint8_t *bytes;
    size_t count;
};

bool first_open(struct first *first, const char *path, char *why);

/* The second dump (second.c): blank, of the first one's size, and not yet at its place. */

struct second {
    const char *path;
    char *real, *beside; /* its place, and the file beside it that is written */
    bool is_new;         /* nothing stands at its place; else what `look` says */
    struct look look;
    int file; /* the one beside it, locked; -1 where there is none */
    uint8_t *bytes;
    size_t count;
};

/* Makes it ready to be written, or says in `why` why it can't be; then nothing is left of it. */
bool second_open(struct second *second, const char *path, const struct first *first, char *why);
bool second_keep(struct second *second, const struct first *first, char *why); /* puts it at its place, whole; or leaves nothing of it */
void second_drop(struct second *second);

/* What came of each sector, by the number that logodwen_salvage answers (report.c). */

void report_sectors(uint64_t answered);
bool report_is_lost(uint64_t answered); /* whether any is lost */

#endif
