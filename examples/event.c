/* Builds an event of what four slaves answer, and reads it out. Slaves 5, 7 and 9 are functions here: 7 has nothing but its status word to tell,
   9 has no event when it is asked first, and then sends it in packets. Slave 12 is a node of its own, and never has one. */
#include "logodwen.h"
#include <stdio.h>

static uint8_t flash[LOGODWEN_FLASH_BYTES], slave_flash[LOGODWEN_FLASH_BYTES];
static struct logodwen_node master = {.flash = flash, .flash_len = sizeof flash};
static struct logodwen_node slave_12 = {.flash = slave_flash, .flash_len = sizeof slave_flash};

static void start(struct logodwen_node *node, uint32_t kind) {
    const struct logodwen_given given = {kind, 1, 0, 0, 0, 0, 0};
    logodwen_node_blank(node);
    logodwen_node_start(node, &given);
}

/* The event of a slave: the event's number, data, its status word and FCS. It answers how many words that is. */
static size_t lay_event(unsigned slave, uint8_t *to) {
    size_t words = 0;
    logodwen_put(to, words++, 1);
    for (unsigned data = 1; slave != 7 && data <= 3; data++) logodwen_put(to, words++, (uint16_t)(data << 8 | slave));
    logodwen_put(to, words++, LOGODWEN_STATUS_OWN);
    logodwen_put(to, words, logodwen_fcs(to, words));
    return words + 1;
}

/* What a slave says to Read Event or, without words, to NEXT. */
static struct logodwen_packet say(unsigned slave, const struct logodwen_packet *sent) {
    static uint8_t event[12];
    static unsigned asked; /* slave 9: how often */
    const struct logodwen_packet none = {NULL, 0, LOGODWEN_BC_END};
    if (slave == 12) {
        uint64_t answered = logodwen_node_send(&slave_12, 0, 0, sent->bytes, sent->words);
        const struct logodwen_packet said = {slave_12.reply, logodwen_words(answered), logodwen_bc(answered)};
        return said;
    }
    size_t words = lay_event(slave, event), part = slave == 9 ? 4 : words;
    const struct logodwen_packet first = {event, part, slave == 9 ? LOGODWEN_BC_FIRST : LOGODWEN_BC_WHOLE};
    const struct logodwen_packet last = {event + 2 * part, words - part, LOGODWEN_BC_LAST};
    if (sent->words == 0) return last;
    return slave == 9 && asked++ == 0 ? none : first;
}

int main(void) {
    uint8_t request[LOGODWEN_COMMAND_BYTES];
    struct logodwen_packet sent, said;
    start(&master, LOGODWEN_CDDC);
    start(&slave_12, LOGODWEN_CDP);
    logodwen_node_send(&master, 0, 0, request, logodwen_make_mask_write(request, 0, 1u << 5 | 1u << 7 | 1u << 9 | 1u << 12));

    uint64_t answered = logodwen_node_build(&master, 0);
    while (logodwen_to_send(answered, NULL, 0, &sent)) {
        unsigned slave = logodwen_slave(answered);
        said = say(slave, &sent);
        printf("%s slave %u: %s", sent.words != 0 ? "Read Event to" : "NEXT to", slave, logodwen_packet_text(&said));
        if (said.words != 0) printf(", %zu words with BC %u%u", said.words, (unsigned)said.bc >> 1, (unsigned)said.bc & 1);
        printf("\n");
        answered = logodwen_node_reply(&master, 0, slave, said.bc, 0, 0, 0, said.bytes, said.words);
    }
    if (logodwen_answer(answered) != LOGODWEN_BUILT) return 1;

    size_t words = logodwen_words(logodwen_node_send(&master, 0, 0, request, logodwen_make_event_read(request)));
    struct logodwen_event event;
    struct logodwen_fragment fragment;
    if (!logodwen_read_event(master.reply, words, &event)) return 1;
    printf("event %u of %zu words, left out: %06X\n", event.number, words, (unsigned)event.left_out);
    for (size_t at = LOGODWEN_EVENT_HEAD_WORDS; at + LOGODWEN_EVENT_TAIL_WORDS < words;) {
        at = logodwen_read_event_fragment(master.reply, words, at, &fragment);
        if (at == 0) return 1;
        printf("slave %u: %s", fragment.slave, logodwen_code_text(fragment.code));
        for (size_t i = 0; i < fragment.data_words; i++) printf(" %04X", (unsigned)logodwen_get(fragment.data, i));
        printf("\n");
    }
    printf("read again: %s\n", logodwen_reply_text(logodwen_node_send(&master, 0, 0, request, logodwen_make_event_read(request))));
    return 0;
}
