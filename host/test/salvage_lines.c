/* Runs sectors on the model, by the lines of model/salvage_vectors.py: a sector's words on standard input; on standard output the segments kept,
   how it goes over, and the words of the new sector. */
#include "../model/model.h"
#include "line_words.h"

#include <stdio.h>
#include <string.h>

static uint8_t from[2 * MOST_WORDS], to[2 * MOST_WORDS];

static void print_new(unsigned answer, size_t n) {
    static const char *const hows[] = {"?", "copied", "reduced", "lost"};
    printf("%u\t%s", answer & 15, hows[answer >> 4 & 3]);
    for (size_t at = 0; at < n; at++)
        printf("%c%04x", at == 0 ? '\t' : ' ', (unsigned)word_at(to, at));
    printf("\n");
}

int main(void) {
    static char text[5 * MOST_WORDS + 2];
    while (fgets(text, sizeof text, stdin) != NULL) {
        read_line(text);
        for (size_t at = 0; at < line_length; at++)
            put_word(from, at, line_words[at]);
        memset(to, 0xFF, sizeof to);
        print_new(model_salvage_sector(from, line_length, to), line_length);
    }
    return 0;
}
