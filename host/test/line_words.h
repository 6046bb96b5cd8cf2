/* Lines of words in hex, as the programs that run stored vectors read them. */
#ifndef LOGODWEN_LINE_WORDS_H
#define LOGODWEN_LINE_WORDS_H

#include <stdint.h>
#include <stdlib.h>

enum { MOST_WORDS = 4096 }; /* those of a sector */

/* The words of a line, one after the other; past its end a word is 0. */
static uint16_t line_words[MOST_WORDS];
static size_t line_length, line_at;

static inline uint64_t number(int count) {
    uint64_t value = 0;
    for (; count > 0; count--, line_at++)
        value = value << 16 | (line_at < line_length ? line_words[line_at] : 0u);
    return value;
}

static inline void read_line(char *text) {
    line_length = line_at = 0;
    for (char *end; line_length < MOST_WORDS; text = end) {
        unsigned long word = strtoul(text, &end, 16);
        if (end == text)
            break;
        line_words[line_length++] = (uint16_t)word;
    }
}

/* A run that begins with a word: each next one follows from the one before. */
static inline uint16_t next_word(uint16_t word) { return (uint16_t)(word * 25173u + 13849u); }

#endif
