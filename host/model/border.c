/* The model at the C border: runs of bytes for words, 208 bytes for the node; and 02, request 11: a flash is bytes, and none is over. */
#include "model.h"

#include <string.h>

enum { STATE = 208 };
static const struct limits border = {8192, 8192, 4096, 32768};

static struct run words_of(uint8_t *bytes, size_t length) { return (struct run){bytes, length / 2}; }

/* A run that is lent to be read. */
static uint8_t *read_only(const uint8_t *bytes) { return (uint8_t *)(uintptr_t)bytes; }

/* A flash with an odd byte over is none: no words, which 1 refuses. */
static struct run flash_of(uint8_t *bytes, size_t length) { return (struct run){bytes, length % 2 == 0 ? length / 2 : 0}; }

/* The node that some bytes say, and whether they are those of a state as far as its form goes: what a case does not use is 0. */
static bool decoded(const uint8_t *state, struct node *node) {
    *node = (struct node){0};
    node->kind = state[0];
    node->ports = state[1];
    node->subdetector = state[2];
    node->mode = state[3];
    node->program_version = word_at(state + 4, 0);
    node->subdetector_version = word_at(state + 6, 0);
    node->start_tests = word_at(state + 8, 0);
    node->amswire_errors = word_at(state + 10, 0);
    node->flash_errors = word_at(state + 12, 0);
    node->erasing = state[14] != 0;
    node->sector = state[14];
    node->pending = state[15];
    node->start_clock = long_at(state, 16);
    node->flash_words = long_at(state, 20);
    node->done = long_at(state, 24);
    node->link = state[28];
    node->slave = state[29];
    node->from = state[30];
    node->tally = state[31];
    node->asked = long_at(state, 32);
    node->asked_at = long_at(state, 36);
    node->built = long_at(state, 40);
    for (int i = 0; i < 16; i++)
        node->masks[i] = long_at(state, 44 + 4 * (size_t)i);
    for (int i = 0; i < 32; i++)
        node->directory[i] = word_at(state + 108, (size_t)i);
    node->writing = state[172] != 0;
    node->writer = state[173];
    node->joined = long_at(state, 176);
    node->received = long_at(state, 180);
    node->rx_status = word_at(state + 184, 0);
    node->listed = word_at(state + 188, 0);
    node->turn = word_at(state + 190, 0);
    node->event = word_at(state + 192, 0);
    node->build_errors = word_at(state + 194, 0);
    node->unread = long_at(state, 196);
    node->asks = state[200];
    node->left_out = long_at(state, 204);
    if (word_at(state + 186, 0) != 0 || state[201] != 0 || word_at(state + 202, 0) != 0)
        return false;
    if (state[172] > 1 || word_at(state + 174, 0) != 0 || (!node->writing && (node->writer != 0 || node->joined != 0)))
        return false;
    if (!node->erasing && node->done != 0)
        return false;
    if (node->pending == PENDING_NOTHING && (node->link != 0 || node->slave != 0 || node->asked_at != 0))
        return false;
    if (node->pending == PENDING_BUILD)
        return node->link == 0 && node->from == 0;
    if (node->asks != 0 || node->left_out != 0)
        return false;
    if (node->pending == PENDING_GROUP)
        return true;
    return node->from == 0 && node->tally == 0 && node->asked == 0 && node->built == 0 && node->received == 0 && node->rx_status == 0;
}

static void encode(const struct node *node, uint8_t *state) {
    state[0] = (uint8_t)node->kind;
    state[1] = (uint8_t)node->ports;
    state[2] = (uint8_t)node->subdetector;
    state[3] = (uint8_t)node->mode;
    put_word(state + 4, 0, node->program_version);
    put_word(state + 6, 0, node->subdetector_version);
    put_word(state + 8, 0, node->start_tests);
    put_word(state + 10, 0, node->amswire_errors);
    put_word(state + 12, 0, node->flash_errors);
    state[14] = (uint8_t)node->sector;
    state[15] = (uint8_t)node->pending;
    put_long(state, 16, node->start_clock);
    put_long(state, 20, node->flash_words);
    put_long(state, 24, node->done);
    state[28] = (uint8_t)node->link;
    state[29] = (uint8_t)node->slave;
    state[30] = (uint8_t)node->from;
    state[31] = (uint8_t)node->tally;
    put_long(state, 32, node->asked);
    put_long(state, 36, node->asked_at);
    put_long(state, 40, node->built);
    for (int i = 0; i < 16; i++)
        put_long(state, 44 + 4 * (size_t)i, node->masks[i]);
    for (int i = 0; i < 32; i++)
        put_word(state + 108, (size_t)i, node->directory[i]);
    state[172] = node->writing;
    state[173] = (uint8_t)node->writer;
    put_word(state + 174, 0, 0);
    put_long(state, 176, node->joined);
    put_long(state, 180, node->received);
    put_word(state + 184, 0, node->rx_status);
    put_word(state + 186, 0, 0);
    put_word(state + 188, 0, node->listed);
    put_word(state + 190, 0, node->turn);
    put_word(state + 192, 0, node->event);
    put_word(state + 194, 0, node->build_errors);
    put_long(state, 196, node->unread);
    put_long(state, 200, node->asks);
    put_long(state, 204, node->left_out);
}

/* The node to make a call on. Where the bytes are no state's, its kind is none, so 5 refuses it; 1, 9 and 4, which come first,
   still see the kept size, the entries listed and the ports. Where their number is wrong, those have nothing kept to see. */
static struct node node_for_call(const uint8_t *state, size_t length, size_t flash_words) {
    struct node node = {0};
    if (length != STATE) {
        node.flash_words = (uint32_t)flash_words;
        node.ports = UINT32_MAX;
    } else if (!decoded(state, &node)) {
        node.kind = 0;
    }
    return node;
}

uint32_t model_start(uint32_t kind, uint32_t ports, uint32_t subdetector, uint16_t program_version, uint16_t subdetector_version,
                     uint16_t start_tests, uint32_t clock, const uint8_t *flash, size_t flash_len, uint8_t *state,
                     size_t state_len) {
    struct node node;
    struct run words = flash_of(read_only(flash), flash_len);
    uint32_t refusal =
        model_node_start(&node, kind, ports, subdetector, program_version, subdetector_version, start_tests, clock, words);
    if (refusal != 0 || state_len != STATE)
        return refusal != 0 ? refusal : 5;
    encode(&node, state);
    return 0;
}

static uint64_t kept(const struct node *node, uint64_t answer, uint8_t *state) {
    if ((answer & 0xFF) == 0)
        encode(node, state);
    return answer;
}

uint64_t model_request(uint32_t now, uint32_t link, uint32_t bc, uint32_t receive_error, const uint8_t *packet, size_t packet_len,
                       uint8_t *state, size_t state_len, uint8_t *flash, size_t flash_len, uint8_t *pm, size_t pm_len, uint8_t *dm,
                       size_t dm_len, uint8_t *io, size_t io_len, uint8_t *area, size_t area_len, uint8_t *list, size_t list_len,
                       const uint8_t *events, size_t events_len, uint8_t *reply, size_t reply_len) {
    struct lent lent = {flash_of(flash, flash_len), {pm, pm_len / 4},         words_of(dm, dm_len),
                        words_of(io, io_len),       words_of(area, area_len), words_of(list, list_len),
                        words_of(read_only(events), events_len),              words_of(reply, reply_len)};
    struct node node = node_for_call(state, state_len, lent.flash.words);
    if (state_len != STATE)
        link = 0;
    return kept(&node, model_node_request(&border, &node, now, link, bc, receive_error, packet, packet_len / 2, &lent), state);
}

/* Where no packet is done the state stays as it is: its bytes may be no state's. */
uint64_t model_requests(uint32_t now, const uint8_t *packets, size_t packets_len, uint8_t *state, size_t state_len, uint8_t *flash,
                        size_t flash_len, uint8_t *pm, size_t pm_len, uint8_t *dm, size_t dm_len, uint8_t *io, size_t io_len,
                        uint8_t *area, size_t area_len, uint8_t *list, size_t list_len, const uint8_t *events, size_t events_len,
                        uint8_t *replies, size_t replies_len) {
    struct lent lent = {flash_of(flash, flash_len), {pm, pm_len / 4},         words_of(dm, dm_len),
                        words_of(io, io_len),       words_of(area, area_len), words_of(list, list_len),
                        words_of(read_only(events), events_len),              words_of(replies, replies_len)};
    struct node node = node_for_call(state, state_len, lent.flash.words);
    uint64_t answer = model_node_requests(&border, &node, now, packets, packets_len / 2, &lent);
    if (answer >> 32 != 0)
        encode(&node, state);
    return answer;
}

uint64_t model_reply(uint32_t now, uint32_t slave, uint32_t bc, uint32_t receive_error, uint16_t rx_status, uint16_t rx_address,
                     const uint8_t *packet, size_t packet_len, uint8_t *state, size_t state_len, uint8_t *events, size_t events_len,
                     uint8_t *reply, size_t reply_len) {
    struct node node = node_for_call(state, state_len, 0);
    return kept(&node,
                model_node_reply(&border, &node, now, slave, bc, receive_error, rx_status, rx_address, packet, packet_len / 2,
                                 words_of(events, events_len), words_of(reply, reply_len)),
                state);
}

uint64_t model_poll(uint32_t now, uint8_t *state, size_t state_len, uint8_t *events, size_t events_len, uint8_t *reply, size_t reply_len) {
    struct node node = node_for_call(state, state_len, 0);
    return kept(&node, model_node_poll(&node, now, words_of(events, events_len), words_of(reply, reply_len)), state);
}

uint64_t model_build(uint32_t now, uint8_t *state, size_t state_len, const uint8_t *events, size_t events_len) {
    struct node node = node_for_call(state, state_len, 0);
    return kept(&node, model_node_build(&node, now, words_of(read_only(events), events_len)), state);
}

uint64_t model_erase(uint64_t budget, uint8_t *state, size_t state_len, uint8_t *flash, size_t flash_len) {
    struct run words = flash_of(flash, flash_len);
    struct node node = node_for_call(state, state_len, words.words);
    return kept(&node, model_node_erase(&node, budget, words), state);
}

uint64_t model_slow(uint32_t now, uint8_t *state, size_t state_len, uint8_t *list, size_t list_len) {
    struct node node = node_for_call(state, state_len, 0);
    return kept(&node, model_node_slow(&node, now, words_of(list, list_len)), state);
}
