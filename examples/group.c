/* Forwards a request to a group of slaves and prints the group's reply. The slaves are nodes too, in this same program; slave 7 sends its
   reply in packets. */
#include "logodwen.h"
#include <stdio.h>

static struct logodwen_node master, slaves[LOGODWEN_SLAVES];
static uint8_t flash[LOGODWEN_FLASH_BYTES], flashes[LOGODWEN_SLAVES][LOGODWEN_FLASH_BYTES]; /* the master's, and one for each slave */

static void start(struct logodwen_node *node, uint8_t *bytes, uint32_t kind) {
    const struct logodwen_given given = {kind, 1, 0, 0, 0, 0, 0};
    node->flash = bytes;
    node->flash_len = LOGODWEN_FLASH_BYTES;
    logodwen_node_blank(node);
    logodwen_node_start(node, &given);
}

/* What a slave says to what it is sent: its whole reply; but slave 7 says two words of it, and two more to each NEXT. */
static struct logodwen_packet say(unsigned slave, const struct logodwen_packet *sent) {
    static const uint8_t *rest; /* of the reply: what is not said yet, and how many words that is */
    static size_t left;
    struct logodwen_packet said = {NULL, 0, 0};
    if (sent->words != 0) { /* the request: NEXT has no words */
        rest = slaves[slave].reply;
        left = logodwen_words(logodwen_node_send(&slaves[slave], 0, 0, sent->bytes, sent->words));
        said.bc |= LOGODWEN_BC_FIRST;
    }
    said.bytes = rest;
    said.words = slave == 7 && left > 2 ? 2 : left;
    rest += 2 * said.words;
    left -= said.words;
    if (left == 0) said.bc |= LOGODWEN_BC_LAST;
    return said;
}

int main(void) {
    const uint8_t data[8] = {1, 0, 2, 0, 3, 0, 4, 0};
    uint8_t request[14]; /* to slaves 5 and 7: Ping with four words; kept until the reply */
    size_t words = logodwen_make_to_slaves(request, 1u << 5 | 1u << 7);
    words += logodwen_make_ping(request + 2 * words, 5, data, 4);
    start(&master, flash, LOGODWEN_CDDC);
    for (unsigned i = 0; i < LOGODWEN_SLAVES; i++) start(&slaves[i], flashes[i], LOGODWEN_CDP);

    uint64_t answered = logodwen_node_send(&master, 0, 0, request, words);
    struct logodwen_packet sent, said;
    while (logodwen_to_send(answered, request, words, &sent)) {
        unsigned slave = logodwen_slave(answered);
        said = say(slave, &sent);
        printf("%s slave %u: %zu words with BC %u%u\n", sent.words != 0 ? "request to" : "NEXT to", slave, said.words,
               (unsigned)said.bc >> 1, (unsigned)said.bc & 1);
        answered = logodwen_node_reply(&master, 0, slave, said.bc, 0, 0, 0, said.bytes, said.words);
    }

    words = logodwen_words(answered);
    if (!logodwen_is_sealed(master.reply, words)) return 1;
    struct logodwen_fragment fragment;
    for (size_t at = 0; at + LOGODWEN_TAIL_WORDS < words;) {
        at = logodwen_read_fragment(master.reply, words, at, &fragment);
        if (at == 0) return 1;
        printf("slave %u: %s", fragment.slave, logodwen_code_text(fragment.code));
        for (size_t i = 0; i < fragment.data_words; i++) printf(" %04X", (unsigned)logodwen_get(fragment.data, i));
        printf("\n");
    }
    return 0;
}
