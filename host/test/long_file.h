/* Files of any length for the tests: DM segments of at most 8,000 words, so that each fits into the data memory that is lent. */
#ifndef LOGODWEN_LONG_FILE_H
#define LOGODWEN_LONG_FILE_H

#include "../../include/logodwen.h"

/* Lays a file of so many words, 5 or more, with a name; of no words it lays nothing. Answers how many it has. */
static inline size_t lay_long_file(uint8_t *bytes, unsigned name, size_t words) {
    enum { MOST_DATA = 8000 };
    static uint16_t data[MOST_DATA];
    struct logodwen_file file;
    for (size_t i = 0; i < MOST_DATA; i++)
        data[i] = (uint16_t)(i * 40503u);
    logodwen_file_begin(&file, bytes, words, LOGODWEN_TYPE_DATA, LOGODWEN_ATTRIBUTE_PLAIN, name);
    while (file.words != 0 && file.words < words) {
        size_t left = words - file.words, part = left > MOST_DATA + 100 ? MOST_DATA : left > MOST_DATA ? 100 : left; /* a rest is long enough */
        logodwen_file_dm(&file, 0, 0x2000, data, part - 3);
    }
    return file.words;
}

#endif
