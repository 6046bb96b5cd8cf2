/* Runs event builds on the model, by the lines that model/event_vectors.py describes: lines on standard input, what they print on standard
   output. */
#include "../model/model.h"
#include "line_words.h"

#include <stdio.h>

enum { EVENT_AREA = 12300, MARK = 0xA5A5, MOST_RUN = 65535, STEP_WORDS = 12, IS_POLL = 1 };

static uint8_t events[2 * EVENT_AREA], packet[2 * MOST_RUN];
static struct node node;

/* The words of a packet, by the line's next five words; answers how many. */
static size_t packet_of_line(void) {
    size_t n = number(1);
    uint16_t word = (uint16_t)number(1), first = (uint16_t)number(1), status = (uint16_t)number(1), last = (uint16_t)number(1);
    for (size_t at = 0; at < n; at++, word = next_word(word))
        put_word(packet, at, word);
    if (n >= 1)
        put_word(packet, 0, first);
    if (n >= 2)
        put_word(packet, n - 2, status);
    if (n >= 1)
        put_word(packet, n - 1, last);
    return n;
}

static uint64_t step(void) {
    bool is_poll = number(1) == IS_POLL;
    uint32_t now = (uint32_t)number(2);
    struct answer answer = {.late = model_is_late(&node, now), .packet = packet};
    answer.errors = number(1) != 0;
    answer.rx_status = (unsigned)number(1);
    answer.rx_address = (unsigned)number(1);
    answer.bc = number(1) & 3;
    answer.n = packet_of_line();
    return is_poll && !answer.late ? waiting() : model_event_take(&node, now, &answer, events);
}

/* Prints what a step is answered, and tells whether the build goes on. */
static bool print_answer(uint64_t answer) {
    unsigned slave = answer >> 16 & 0xFF, words = (unsigned)(answer >> 32);
    switch (answer >> 8 & 0xFF) {
    case 3: printf("W "); return true;
    case 8: printf("N%u:%u:%04x ", slave, node.received, node.rx_status); return true;
    case 9: printf("A%u:%u:%u:%u:%06x ", slave, node.asks, node.built, node.tally, node.left_out); return true;
    case 10: printf("O "); return false;
    default: printf("E%u:%u ", words, word_at(events, words - 2) >> 9 & 1); return false;
    }
}

static void begin(void) {
    node = (struct node){.kind = CDDC};
    node.masks[0] = (uint32_t)number(2);
    node.event = (uint16_t)number(1);
    unsigned own = (unsigned)number(1);
    node.start_tests = own & 0x0100;
    node.mode = own >> 6 & 3;
    for (size_t at = 0; at < EVENT_AREA; at++)
        put_word(events, at, MARK);
    unsigned slave = model_event_begin(&node, (uint32_t)number(2)) >> 16 & 0xFF;
    printf("A%u:%u ", slave, node.asks);
}

static uint32_t digest(void) {
    uint64_t value = 0;
    for (size_t at = 0; at < EVENT_AREA; at++)
        value = (value * 31 + word_at(events, at)) % 4294967291u;
    return (uint32_t)value;
}

int main(void) {
    static char text[8192];
    while (fgets(text, sizeof text, stdin) != NULL) {
        read_line(text);
        begin();
        bool goes_on = true;
        while (goes_on && line_length - line_at >= STEP_WORDS)
            goes_on = print_answer(step());
        printf("%08x\n", digest());
    }
    return 0;
}
