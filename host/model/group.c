/* 01 'Group assembly' and 02, request 8: what becomes of a slave's answer, in one packet or in several, and of a group. An event build
   (event.c) has most of it too. */
#include "model.h"

#include <string.h>

enum { TIMEOUT = 60 };

/* Slaves to ask. */

/* The lowest slave of a set that is not empty. */
static unsigned lowest(uint32_t set) {
    unsigned slave = 0;
    while ((set >> slave & 1) == 0)
        slave++;
    return slave;
}

unsigned model_how_many(uint32_t set) {
    unsigned count = 0;
    for (; set != 0; set &= set - 1)
        count++;
    return count;
}

/* The slaves of the asked set above the one asked. */
uint32_t model_yet_to_ask(const struct node *node) { return node->asked & ~((2u << node->slave) - 1); }

void model_ask(struct node *node, uint32_t now, uint32_t set) {
    node->slave = lowest(set);
    node->asked_at = now;
    node->received = node->rx_status = 0;
}

bool model_is_late(const struct node *node, uint32_t now) { return (uint32_t)(now - node->asked_at) >= TIMEOUT; }

/* An answer to its judgement. */

bool model_has_room(const struct node *node, const struct answer *answer, unsigned kept) {
    return node->built + node->received + answer->n + 5 * model_how_many(model_yet_to_ask(node)) + kept <= AREA;
}

/* Of a first packet. */
static unsigned judged_first(const struct answer *answer, bool has_room) {
    static const unsigned zero_codes[4] = {1, 3, 2, 4}; /* NEXT, ERROR, ABORT, END */
    if (answer->late)
        return without_data(5);
    if (answer->errors)
        return without_data(6);
    if (answer->n == 0)
        return without_data(zero_codes[answer->bc]);
    if ((answer->bc & 2) == 0)
        return with_data(1);
    if (answer->bc == 2)
        return has_room ? MORE : with_data(0xA);
    return COMPLETE;
}

/* Of a later one, the answer to NEXT (02, request 8). */
static unsigned judged_later(const struct answer *answer, bool has_room) {
    if (answer->late)
        return with_data(6);
    if (answer->errors)
        return without_data(6);
    if (answer->n == 0)
        return with_data(7);
    if ((answer->bc & 2) != 0)
        return with_data(8);
    if (!has_room)
        return with_data(0xA);
    return answer->bc == 0 ? MORE : COMPLETE;
}

unsigned model_packet_judged(const struct node *node, const struct answer *answer, bool has_room) {
    return node->received == 0 ? judged_first(answer, has_room) : judged_later(answer, has_room);
}

bool model_is_sealed(const struct node *node, const struct answer *answer, const uint8_t *fragment) {
    uint16_t sequence = model_fcs_on(model_fcs(fragment + 2, node->received), answer->packet, answer->n - 1);
    return word_at(answer->packet, answer->n - 1) == sequence;
}

/* Of a complete reply. One in packets has two words at least, and room by now. */
static unsigned reply_judged(const struct node *node, const struct answer *answer, bool has_room, const uint8_t *fragment) {
    bool in_packets = node->received != 0;
    if (answer->n == 1 && !in_packets)
        return with_data(3);
    if (!model_is_sealed(node, answer, fragment))
        return with_data(in_packets ? 0xC : 5);
    return with_data(has_room ? 0 : 2);
}

/* A judgement to its fragment. */

unsigned model_first_word(const struct node *node, const struct answer *answer, const uint8_t *fragment) {
    return node->received != 0 ? word_at(fragment, 1) : word_at(answer->packet, 0);
}

/* The five-word fragment: RX status and count of the words that came in time, and the first of them, which may stand where the fragment is
   put. */
static size_t put_fault(const struct node *node, const struct answer *answer, uint8_t *fragment) {
    size_t count = node->received + (answer->late ? 0 : answer->n);
    unsigned first = model_first_word(node, answer, fragment);
    put_word(fragment, 1, answer->late ? node->rx_status : answer->rx_status);
    put_word(fragment, 2, count > 0xFFFF ? 0xFFFF : (unsigned)count);
    put_word(fragment, 3, first);
    return 4;
}

/* The data behind those that stand in the buffer already. Slave's status and FCS aren't put; of a last packet of one word, the FCS, the
   status stands there as the last word before. */
static size_t put_data(const struct node *node, const struct answer *answer, uint8_t *fragment) {
    if (answer->n > 2)
        memcpy(fragment + 2 * (1 + (size_t)node->received), answer->packet, 2 * (answer->n - 2));
    return node->received + answer->n - 1;
}

/* The slave's own status word, the last but one of its reply. */
static unsigned status_of_slave(const struct node *node, const struct answer *answer, const uint8_t *fragment) {
    return answer->n > 1 ? word_at(answer->packet, answer->n - 2) : word_at(fragment, node->received);
}

size_t model_put_fragment(const struct node *node, unsigned judgement, const struct answer *answer, uint8_t *fragment,
                          model_put_data *put_its_data) {
    unsigned status = judgement | node->slave;
    size_t words = 1;
    if (judgement == with_data(0) || judgement == with_data(2))
        status |= status_of_slave(node, answer, fragment) & 0x07E0;
    if (judgement == with_data(0)) {
        words = put_its_data(node, answer, fragment);
    } else if (judgement >= with_data(0)) {
        words = put_fault(node, answer, fragment);
    } else if (judgement == without_data(6)) {
        put_word(fragment, words++, answer->rx_status);
        put_word(fragment, words++, answer->rx_address);
    }
    put_word(fragment, words, status);
    put_word(fragment, 0, (unsigned)words);
    return words + 1;
}

uint64_t model_keep_packet(struct node *node, uint32_t now, const struct answer *answer, uint8_t *fragment) {
    memcpy(fragment + 2 * (1 + (size_t)node->received), answer->packet, 2 * answer->n);
    node->received += (uint32_t)answer->n;
    node->rx_status = (uint16_t)answer->rx_status;
    node->asked_at = now;
    return next_of(node->slave);
}

/* What is assembled. */

unsigned model_tally_with(unsigned tally, unsigned kind) { return tally == 0 || tally == kind ? kind : TALLY_MIXED; }

size_t model_put_end(const struct node *node, unsigned tally, uint8_t *words, size_t n) {
    unsigned status = (model_own_status(node) & ~0x0020u) | (tally == TALLY_WHOLE ? 0 : 0x0200);
    put_word(words, n, status);
    put_word(words, n + 1, model_fcs(words, n + 1));
    return n + 2;
}

/* A group. */

/* 1 to 4 a 0-length reply, 5 data with code 0, 6 anything else; mixed as soon as two differ. */
static unsigned tally_with(unsigned tally, unsigned judgement) {
    unsigned code = judgement >> 11 & 15, kind = TALLY_MIXED;
    if (judgement >= with_data(0))
        kind = code == 0 ? TALLY_WHOLE : TALLY_MIXED;
    else if (code <= 4)
        kind = code;
    return model_tally_with(tally, kind);
}

static uint64_t group_ends(struct node *node, uint8_t *reply, size_t built, unsigned tally) {
    static const unsigned zero_bcs[5] = {0, NEXT, ABORT, ERROR, END};
    model_drop(node);
    if (tally >= 1 && tally <= 4)
        return reply_of(zero_bcs[tally], 0);
    return reply_of(DATA, model_put_end(node, tally, reply, built));
}

uint64_t model_group_take(struct node *node, uint32_t now, const struct answer *answer, uint8_t *reply) {
    uint32_t rest = model_yet_to_ask(node);
    uint8_t *fragment = reply + 2 * (size_t)node->built;
    bool has_room = model_has_room(node, answer, GROUP_KEPT);
    unsigned judgement = model_packet_judged(node, answer, has_room);
    if (judgement == MORE)
        return model_keep_packet(node, now, answer, fragment);
    if (judgement == COMPLETE)
        judgement = reply_judged(node, answer, has_room, fragment);
    unsigned tally = tally_with(node->tally, judgement);
    size_t built = node->built + model_put_fragment(node, judgement, answer, fragment, put_data);
    if (rest == 0)
        return group_ends(node, reply, built, tally);
    node->built = (uint32_t)built;
    node->tally = tally;
    model_ask(node, now, rest);
    return ask_of(node->slave, node->from);
}
