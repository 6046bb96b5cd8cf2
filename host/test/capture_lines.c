/* Runs captured group replies on the model, by lines of mask and words, as the program `captures` reads them: lines on standard input, the
   line's number and what is found on standard output. Lines that say nothing, or can't be read, print nothing. */
#include "../model/model.h"

#include <stdio.h>
#include <stdlib.h>
#include <string.h>

enum { LONGEST = 199999, MOST_WORDS = LONGEST / 5 };

static uint8_t words[2 * MOST_WORDS];

/* A field of hex digits, at least so many and at most so many, up to a tab or the line's end; false where it is none. */
static bool number(const char **text, size_t least, size_t most, uint32_t *value) {
    size_t digits = strspn(*text, "0123456789ABCDEFabcdef");
    if (digits < least || digits > most || ((*text)[digits] != '\t' && (*text)[digits] != 0))
        return false;
    *value = (uint32_t)strtoul(*text, NULL, 16);
    *text += digits;
    return true;
}

/* Reads a line's mask and words; answers how many words, or SIZE_MAX where it can't be read. */
static size_t read_line(const char *text, uint32_t *mask) {
    size_t count = 0;
    if (!number(&text, 1, 8, mask))
        return SIZE_MAX;
    while (*text == '\t') {
        uint32_t word;
        text++;
        if (!number(&text, 4, 4, &word))
            return SIZE_MAX;
        put_word(words, count++, word);
    }
    return count;
}

/* The next line without its end; false at the end of the input. One too long becomes one that can't be read. */
static bool next_line(char text[LONGEST + 2]) {
    size_t length = 0;
    int byte = getchar();
    if (byte == EOF)
        return false;
    for (; byte != '\n' && byte != EOF; byte = getchar(), length++)
        if (length <= LONGEST)
            text[length] = byte == 0 ? ' ' : (char)byte;
    if (length > LONGEST)
        length = 0;
    if (length > 0 && text[length - 1] == '\r')
        length--;
    text[length] = 0;
    return true;
}

int main(void) {
    static char text[LONGEST + 2];
    for (unsigned long line = 1; next_line(text); line++) {
        uint32_t mask;
        size_t count = read_line(text, &mask);
        if (count == SIZE_MAX)
            continue;
        uint64_t found = model_capture(mask, words, 2 * count);
        if (found == 4u << 8)
            printf("%lu\tYES\n", line);
        else if ((uint32_t)found == 5u << 8)
            printf("%lu\t%lu\n", line, (unsigned long)(found >> 32));
        else
            printf("%lu\tno answer: %llx\n", line, (unsigned long long)found);
    }
    return 0;
}
