/* 02, request 12, with sections 6.4, 12 and 12.2 of the note: an event build, in place in the event area. Word 0 is for the event's number,
   and the fragments stand from word 1 on. A slave's answer goes as in a group, but for what is said here. */
#include "model.h"

#include <string.h>

enum { LEAST_WORDS = 3 }; /* of a reply: event number, status and FCS */

/* The number of the event that is built, one more than the last. */
static uint16_t number_of(const struct node *node) { return (uint16_t)(node->event + 1); }

static uint64_t ask(struct node *node, uint32_t now, uint32_t set) {
    model_ask(node, now, set);
    node->asks = 1;
    return ask_event_of(node->slave);
}

static uint64_t ask_again(struct node *node, uint32_t now) {
    node->asked_at = now;
    node->asks++;
    return ask_event_of(node->slave);
}

/* Of a complete reply: the number behind the FCS and before the room, which one in packets has by now. */
static unsigned reply_judged(const struct node *node, const struct answer *answer, bool has_room, const uint8_t *fragment) {
    bool in_packets = node->received != 0;
    if (node->received + answer->n < LEAST_WORDS)
        return with_data(3);
    if (!model_is_sealed(node, answer, fragment))
        return with_data(in_packets ? 0xC : 5);
    if (model_first_word(node, answer, fragment) != number_of(node))
        return with_data(in_packets ? 0xB : 4);
    return with_data(has_room ? 0 : 2);
}

/* The data without the event number. Of a reply in packets they stand in the area, a word too high. Slave's status and FCS aren't put; of a
   last packet of one word, the FCS, the status is moved to where the fragment's will stand. */
static size_t put_data(const struct node *node, const struct answer *answer, uint8_t *fragment) {
    size_t received = node->received, n = answer->n;
    if (received == 0) {
        memcpy(fragment + 2, answer->packet + 2, 2 * (n - LEAST_WORDS));
        return n - 2;
    }
    memmove(fragment + 2, fragment + 4, 2 * (received - 1));
    if (n > 2)
        memcpy(fragment + 2 * received, answer->packet, 2 * (n - 2));
    return received + n - 2;
}

static unsigned tally_with(unsigned tally, unsigned judgement) {
    bool is_whole = judgement == with_data(0), has_data = judgement >= with_data(0);
    return model_tally_with(tally, is_whole ? TALLY_WHOLE : has_data ? TALLY_MIXED : TALLY_NO_DATA);
}

static uint64_t build_ends(struct node *node, uint8_t *events) {
    size_t n = 1 + (size_t)node->built;
    uint32_t left_out = node->left_out;
    unsigned tally = node->tally;
    model_drop(node);
    if (tally == TALLY_NO_DATA)
        return no_event();
    node->event = number_of(node);
    put_word(events, 0, node->event);
    put_word(events, n, left_out >> 16);
    put_word(events, n + 1, left_out & 0xFFFF);
    return built_of(model_put_end(node, tally, events, n + 2));
}

uint64_t model_event_begin(struct node *node, uint32_t now) {
    node->pending = PENDING_BUILD;
    node->asked = node->masks[0];
    node->built = node->tally = node->left_out = 0;
    return ask(node, now, node->asked);
}

uint64_t model_event_take(struct node *node, uint32_t now, const struct answer *answer, uint8_t *events) {
    uint32_t rest = model_yet_to_ask(node);
    uint8_t *fragment = events + 2 * (1 + (size_t)node->built);
    bool has_room = model_has_room(node, answer, EVENT_KEPT);
    unsigned judgement = model_packet_judged(node, answer, has_room);
    if (judgement == MORE)
        return model_keep_packet(node, now, answer, fragment);
    if (judgement == without_data(4) && node->asks < MOST_ASKS)
        return ask_again(node, now);
    if (judgement == COMPLETE)
        judgement = reply_judged(node, answer, has_room, fragment);
    node->tally = tally_with(node->tally, judgement);
    if (judgement == with_data(0) && node->received + answer->n == LEAST_WORDS)
        node->left_out |= 1u << node->slave;
    else
        node->built += (uint32_t)model_put_fragment(node, judgement, answer, fragment, put_data);
    return rest == 0 ? build_ends(node, events) : ask(node, now, rest);
}
