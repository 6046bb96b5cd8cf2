/* The two sizes that a flash has: what each is called, and what it holds. */
#include "audit.h"

#include <string.h>

enum { BENCH, FULL, SIZES };

static const struct size sizes[SIZES] = {
    {"bench", "65,536", "a bench flash holds eight files, one of at most 2,048 and seven of at most 4,096 words", LOGODWEN_FLASH_BYTES},
    {"full", "524,288", "a full flash holds eight files, one of at most 16,384 and seven of at most 32,768 words", LOGODWEN_FLASH_FULL_BYTES},
};

const struct size *size_usual(void) { return &sizes[BENCH]; }

const struct size *size_named(const char *name) {
    for (int i = 0; i < SIZES; i++)
        if (strcmp(sizes[i].name, name) == 0)
            return &sizes[i];
    return NULL;
}

const struct size *size_of(size_t bytes) {
    for (int i = 0; i < SIZES; i++)
        if (sizes[i].bytes == bytes)
            return &sizes[i];
    return NULL;
}

bool size_holds(const struct size *size, size_t words) { return words <= logodwen_sector_words(size->bytes, SECTOR_LAST); }

void size_say_too_small(const struct size *size, size_t words, char *text) {
    bool has_room_in_full = size != &sizes[FULL] && size_holds(&sizes[FULL], words);
    say(text, "%s%s", size->what, has_room_in_full ? "; a full flash has room for it (--size full)" : "");
}
