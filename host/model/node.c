/* 01 'Call refusals', 'Requests', 'State and status reply', and 02, requests 1, 2, 7, 9 and 12: the node and its eight calls. */
#include "model.h"

#include <string.h>

enum { ALL_SLAVES = 0xFFFFFF, ALL_ENTRIES = 0xFFFF };

static bool is_reply(uint64_t answer) { return (answer & 0xFFFF) == 1u << 8; }
static bool is_ask(uint64_t answer) { return (answer & 0xFFFF) == 2u << 8; }
static bool is_built(uint64_t answer) { return (answer & 0xFFFF) == 11u << 8; }
static unsigned reply_bc(uint64_t reply) { return reply >> 16 & 0xFF; }
static size_t reply_words(uint64_t reply) { return (size_t)(reply >> 32); }

static void count_error(uint16_t *count) {
    if (*count != 0xFFFF)
        ++*count;
}

/* Own status word: bit 8 the OR of bits 11-8, bit 7 compressed, bit 6 raw, bit 5 set. */
unsigned model_own_status(const struct node *node) {
    return (node->start_tests & 0x0F00 ? 0x0100 : 0) | (node->mode & 3) << 6 | 0x0020;
}

/* Refusals. */

static bool is_flash_size(size_t words) { return words == BENCH || words == FULL; }

static bool is_unknown(uint32_t kind, uint32_t ports, uint32_t subdetector) {
    return (kind != CDP && kind != CDDC) || ports < 1 || ports > 4 || subdetector > 7;
}

static bool is_list_wrong(const struct node *node, struct run list) {
    return model_records(list) > MOST_RECORDS || model_records(list) < node->listed;
}

/* What a group and a build have in common, but for the words that are kept free around the fragments. */
static bool is_gathered_wrong(const struct node *node, unsigned kept) {
    if (node->asked > ALL_SLAVES || (node->asked >> node->slave & 1) == 0)
        return true;
    unsigned left = model_how_many(model_yet_to_ask(node));
    if ((uint64_t)node->built + 5 * (left + 1) + kept > AREA || (uint64_t)node->built + node->received + 5 * left + kept > AREA)
        return true;
    return node->received == 0 && node->rx_status != 0;
}

static bool is_group_wrong(const struct node *node) {
    return is_gathered_wrong(node, GROUP_KEPT) || node->from < 1 || node->from > 2 || node->tally > TALLY_MIXED;
}

static bool is_build_wrong(const struct node *node) {
    if (node->tally != 0 && node->tally != TALLY_NO_DATA && node->tally != TALLY_WHOLE && node->tally != TALLY_MIXED)
        return true;
    return is_gathered_wrong(node, EVENT_KEPT) || node->asks < 1 || node->asks > MOST_ASKS || node->left_out > ALL_SLAVES;
}

static bool is_state_wrong(const struct node *node) {
    if (is_unknown(node->kind, node->ports, node->subdetector) || node->mode > 3)
        return true;
    if (!is_flash_size(node->flash_words))
        return true;
    for (int i = 0; i < 16; i++)
        if (node->masks[i] > ALL_SLAVES)
            return true;
    if (node->erasing) {
        if (node->sector < SECTOR_FIRST || node->sector > SECTOR_LAST)
            return true;
        if (node->done >= model_sector_size(node->flash_words, node->sector))
            return true;
    }
    if (node->writing && (node->writer >= node->ports || node->joined > JOIN_AREA))
        return true;
    if (node->listed > MOST_RECORDS || (node->turn >= node->listed && node->turn != 0))
        return true;
    if (node->unread > AREA)
        return true;
    if (node->pending == PENDING_NOTHING)
        return false;
    if (node->pending > PENDING_BUILD || node->link >= node->ports || node->slave >= SLAVES)
        return true;
    return node->pending == PENDING_GROUP ? is_group_wrong(node) : node->pending == PENDING_BUILD && is_build_wrong(node);
}

/* Own commands. Each answers with the number of data words that it put into the reply, or with the BC of a reply that gets no status word
   and no FCS: a 0-length one, or an event. */

struct outcome {
    bool is_data;
    unsigned bc;
    size_t words;
};

static struct outcome zero(unsigned bc) { return (struct outcome){false, bc, 0}; }
static struct outcome as_it_is(size_t words) { return (struct outcome){false, DATA, words}; }
static struct outcome data(size_t words) { return (struct outcome){true, DATA, words}; }

/* The parameters of an own command. */
struct parameters {
    const uint8_t *words;
    size_t n;
};

static struct outcome read_status(const struct node *node, uint32_t now, uint32_t link, uint8_t *reply) {
    uint32_t elapsed = now - node->start_clock;
    unsigned counts = (node->build_errors != 0 ? 0x4000 : 0) | (node->amswire_errors != 0 ? 0x2000 : 0)
                      | (node->flash_errors != 0 ? 0x1000 : 0);
    put_word(reply, 0, node->program_version);
    put_word(reply, 1, 1u << 12 | node->kind << 8 | node->subdetector << 4 | node->ports);
    put_word(reply, 2, node->subdetector_version);
    put_word(reply, 3, elapsed & 0xFFFF);
    put_word(reply, 4, elapsed >> 16);
    put_word(reply, 5, counts | (node->start_tests & 0x0F00) | link);
    put_word(reply, 6, node->event);
    put_word(reply, 7, node->build_errors);
    put_word(reply, 8, node->amswire_errors);
    put_word(reply, 9, node->flash_errors);
    return data(10);
}

static struct outcome ping(struct parameters with, uint8_t *reply) {
    if (with.n > 8000)
        return zero(ABORT);
    if (with.n != 0)
        memcpy(reply, with.words, 2 * with.n);
    return data(with.n);
}

static struct outcome mode_write(struct node *node, unsigned mode) {
    if (mode > 3)
        return zero(ABORT);
    node->mode = mode;
    return zero(END);
}

/* 24 words, one a slave, bit i for mask i. */
static struct outcome mask_read(const struct node *node, uint8_t *reply) {
    for (unsigned slave = 0; slave < SLAVES; slave++) {
        unsigned word = 0;
        for (unsigned i = 0; i < 16; i++)
            word |= (node->masks[i] >> slave & 1) << i;
        put_word(reply, slave, word);
    }
    return data(SLAVES);
}

static struct outcome mask_write(struct node *node, unsigned first, unsigned second) {
    if (first >> 12 != 0)
        return zero(ABORT);
    node->masks[first >> 8] = (uint32_t)(first & 0xFF) << 16 | second;
    return zero(END);
}

/* A command's segment must be valid, of its own memory, and exact. */
static bool is_exact(struct parameters with, enum memory memory, struct segment *segment) {
    return model_segment_at(with.words, with.n, 0, segment) && segment->memory == memory && segment->body + segment->size == with.n;
}

static struct outcome perform_io(struct parameters with, const struct lent *lent) {
    struct segment segment;
    if (!is_exact(with, IO, &segment) || !model_fits(with.words, &segment, lent))
        return zero(ABORT);
    model_perform(with.words, &segment, lent);
    return data(with.n);
}

static struct outcome memory_write(struct parameters with, enum memory memory, const struct lent *lent) {
    struct segment segment;
    if (!is_exact(with, memory, &segment) || !model_fits(with.words, &segment, lent))
        return zero(ABORT);
    model_store(with.words, &segment, lent);
    return zero(END);
}

static struct outcome memory_read(unsigned first, unsigned second, enum memory memory, const struct lent *lent) {
    struct segment header;
    if (!model_segment_header(first, second, &header) || header.memory != memory || !model_run_is_lent(&header, lent))
        return zero(ABORT);
    if (model_read_size(&header) + 2 > AREA)
        return zero(ABORT);
    model_read(&header, lent);
    return data(model_read_size(&header));
}

static uint8_t *sector_bytes(const struct lent *lent, unsigned sector) {
    return lent->flash.bytes + 2 * model_sector_start(lent->flash.words, sector);
}

static struct outcome file_read(struct node *node, unsigned header, const struct lent *lent) {
    unsigned sector = model_named(node->directory, header);
    if (sector == NO_SECTOR)
        return zero(END);
    size_t length = model_good_file(node->directory, lent->flash, sector);
    if (length == 0) {
        count_error(&node->flash_errors);
        return zero(ABORT);
    }
    if (length + 2 > AREA)
        return zero(ABORT);
    memcpy(lent->reply.bytes, sector_bytes(lent, sector), 2 * length);
    return data(length);
}

static struct outcome file_test(struct node *node, unsigned header, const struct lent *lent) {
    unsigned sector = model_named(node->directory, header);
    if (sector == NO_SECTOR || sector == SEVERAL)
        return zero(ABORT);
    bool bad = model_good_file(node->directory, lent->flash, sector) == 0;
    if (bad)
        count_error(&node->flash_errors);
    put_word(lent->reply.bytes, 0, bad ? 0x8000 : 0);
    return data(1);
}

static struct outcome file_load(struct node *node, unsigned header, const struct lent *lent) {
    unsigned sector = model_named(node->directory, header);
    if (sector == NO_SECTOR)
        return zero(ABORT);
    size_t length = model_good_file(node->directory, lent->flash, sector);
    if (length == 0) {
        count_error(&node->flash_errors);
        return zero(ABORT);
    }
    const uint8_t *words = sector_bytes(lent, sector);
    for (int storing = 0; storing < 2; storing++) {
        struct segment segment;
        for (size_t at = 1; at < length; at = segment.body + segment.size) {
            model_segment_at(words, length, at, &segment);
            if (storing)
                model_store(words, &segment, lent);
            else if (!model_fits(words, &segment, lent))
                return zero(ABORT);
        }
    }
    return zero(END);
}

static struct outcome file_write(struct node *node, struct parameters with, const struct lent *lent) {
    if (with.n == 0 || model_file_length(with.words, with.n) != with.n)
        return zero(ABORT);
    if (model_named(node->directory, word_at(with.words, 0)) != NO_SECTOR)
        return zero(ABORT);
    unsigned sector = model_place(node->directory, lent->flash, with.n);
    if (sector == NO_SECTOR)
        return zero(ABORT);
    memcpy(sector_bytes(lent, sector), with.words, 2 * with.n);
    model_lay_entry(node->directory, sector, word_at(with.words, 0), 0, with.n);
    return zero(END);
}

static struct outcome flash_summary(const struct node *node, uint8_t *reply) {
    for (unsigned i = 0; i < 32; i++)
        put_word(reply, i, node->directory[i]);
    return data(32);
}

static struct outcome erase_begin(struct node *node, unsigned parameter, const struct lent *lent) {
    unsigned sector = model_sector_to_erase(node->directory, parameter);
    if (sector == NO_SECTOR || sector == SEVERAL)
        return zero(ABORT);
    model_lay_entry(node->directory, sector, word_at(sector_bytes(lent, sector), 0), 0x4000, 0);
    node->erasing = true;
    node->sector = sector;
    node->done = 0;
    return zero(END);
}

static struct outcome attribute_set(struct node *node, unsigned header, unsigned value, const struct lent *lent) {
    unsigned sector = model_named(node->directory, header);
    size_t length = model_good_file(node->directory, lent->flash, sector);
    if (length == 0)
        return zero(ABORT);
    unsigned first = word_at(sector_bytes(lent, sector), 0);
    if (!model_attribute(&first, value))
        return zero(ABORT);
    put_word(sector_bytes(lent, sector), 0, first);
    model_lay_entry(node->directory, sector, first, 0, length);
    return zero(END);
}

/* The Q-List. */

static struct outcome list_write(struct node *node, struct parameters with, uint32_t now, struct run list) {
    struct segment segment;
    if (!is_exact(with, DM, &segment) || segment.page != 0 || segment.address != 0x2000)
        return zero(ABORT);
    return zero(model_list_write(list, &node->listed, with.words + 2 * segment.body, segment.size - 1, now) ? END : ABORT);
}

/* Of an entry by its place, of all, or of the expired ones; the turn goes back where places may be freed. */
static struct outcome list_delete(struct node *node, struct parameters with, struct run list) {
    unsigned place = with.n > 0 ? word_at(with.words, 0) : 0;
    if (with.n > 1 || (with.n == 1 && place != ALL_ENTRIES && place >= node->listed))
        return zero(ABORT);
    if (with.n == 1 && place != ALL_ENTRIES) {
        model_list_clear(list, place);
        return zero(END);
    }
    node->listed = with.n == 1 ? 0 : model_list_close_up(list, node->listed);
    node->turn = 0;
    return zero(END);
}

/* Events. */

static struct outcome event_read(struct node *node, const struct lent *lent) {
    size_t words = node->unread;
    if (words == 0)
        return zero(END);
    memcpy(lent->reply.bytes, lent->events.bytes, 2 * words);
    node->unread = 0;
    return as_it_is(words);
}

/* The last number, and 0 for the average time. */
static struct outcome event_number(const struct node *node, uint8_t *reply) {
    put_word(reply, 0, node->event);
    put_word(reply, 1, 0);
    return data(2);
}

static struct outcome event_reset(struct node *node) {
    node->unread = 0;
    node->event = 0;
    return zero(END);
}

/* How many parameters a command takes; -1 where its own content tells, -2 where the ID is not in the list. */
static int parameter_count(unsigned id) {
    switch (id) {
    case 0x01:
    case 0x02:
    case 0x42:
    case 0x0C:
    case 0x07:
    case 0x12:
    case 0x17:
    case 0x1C: return 0;
    case 0x05:
    case 0x06:
    case 0x46:
    case 0x47:
    case 0x52: return 1;
    case 0x48:
    case 0x10:
    case 0x11:
    case 0x57: return 2;
    case 0x0D:
    case 0x45:
    case 0x0F:
    case 0x50:
    case 0x51:
    case 0x5B:
    case 0x5C: return -1;
    default: return -2;
    }
}

static bool is_file_command(unsigned id) {
    return id == 0x05 || id == 0x45 || id == 0x06 || id == 0x46 || id == 0x47 || id == 0x48;
}

static struct outcome command(struct node *node, unsigned id, struct parameters with, uint32_t now, uint32_t link,
                              const struct lent *lent) {
    int count = parameter_count(id);
    if (count == -2 || (node->kind == CDP && (id == 0x17 || id == 0x57)) || (node->erasing && is_file_command(id)))
        return zero(ABORT);
    if (count >= 0 && with.n != (size_t)count)
        return zero(ABORT);
    unsigned first = with.n > 0 ? word_at(with.words, 0) : 0, second = with.n > 1 ? word_at(with.words, 1) : 0;
    switch (id) {
    case 0x01: return event_read(node, lent);
    case 0x02: return event_number(node, lent->reply.bytes);
    case 0x42: return event_reset(node);
    case 0x0C: return read_status(node, now, link, lent->reply.bytes);
    case 0x0D: return ping(with, lent->reply.bytes);
    case 0x05: return file_read(node, first, lent);
    case 0x45: return file_write(node, with, lent);
    case 0x06: return file_test(node, first, lent);
    case 0x46: return file_load(node, first, lent);
    case 0x07: return flash_summary(node, lent->reply.bytes);
    case 0x47: return erase_begin(node, first, lent);
    case 0x48: return attribute_set(node, first, second, lent);
    case 0x0F: return perform_io(with, lent);
    case 0x10: return memory_read(first, second, PM, lent);
    case 0x50: return memory_write(with, PM, lent);
    case 0x11: return memory_read(first, second, DM, lent);
    case 0x51: return memory_write(with, DM, lent);
    case 0x12: put_word(lent->reply.bytes, 0, node->mode); return data(1);
    case 0x52: return mode_write(node, first);
    case 0x17: return mask_read(node, lent->reply.bytes);
    case 0x57: return mask_write(node, first, second);
    case 0x5B: return list_delete(node, with, lent->list);
    case 0x5C: return list_write(node, with, now, lent->list);
    default: return data(model_list_read(lent->list, node->listed, lent->reply.bytes));
    }
}

/* A read reply is data, reply status, FCS. */
static uint64_t finished(const struct node *node, struct outcome outcome, uint8_t *reply) {
    if (!outcome.is_data)
        return reply_of(outcome.bc, outcome.words);
    put_word(reply, outcome.words, model_own_status(node));
    put_word(reply, outcome.words + 1, model_fcs(reply, outcome.words + 1));
    return reply_of(DATA, outcome.words + 2);
}

/* Steps 4 and 5 for slaves: ABORT, or the first slave of the set is asked. */
static uint64_t forward(struct node *node, uint32_t now, uint32_t link, const uint8_t *packet, size_t n) {
    unsigned first = packet[0], second = packet[1], stripped = first == 0x23 ? 2 : 1;
    uint32_t set;
    if (node->kind == CDP || n <= stripped)
        return reply_of(ABORT, 0);
    if (first < SLAVES)
        set = second == 0x04 || second == 0x05 || second == 0x3F ? 1u << first : 0;
    else if (first == 0x40)
        set = second <= 15 ? node->masks[second] : 0;
    else if (first == 0x23)
        set = second | (uint32_t)packet[2] << 8 | (uint32_t)packet[3] << 16;
    else
        set = ALL_SLAVES;
    if (set == 0)
        return reply_of(ABORT, 0);
    node->pending = first < SLAVES ? PENDING_SLAVE : PENDING_GROUP;
    node->link = link;
    node->asked = first < SLAVES ? 0 : set;
    node->from = first < SLAVES ? 0 : stripped;
    node->built = node->tally = 0;
    model_ask(node, now, set);
    return ask_of(node->slave, stripped);
}

void model_drop(struct node *node) {
    node->pending = PENDING_NOTHING;
    node->link = node->slave = node->asked_at = node->asked = node->from = node->built = node->tally = node->received = 0;
    node->rx_status = 0;
    node->asks = node->left_out = 0;
}

static uint64_t error_of(struct node *node) {
    count_error(&node->amswire_errors);
    return reply_of(ERROR, 0);
}

static void drop_write(struct node *node) {
    node->writing = false;
    node->writer = node->joined = 0;
}

/* Step 2. A build is no link's. */
static uint64_t no_words(struct node *node, uint32_t link, unsigned bc) {
    bool is_request = node->pending == PENDING_SLAVE || node->pending == PENDING_GROUP;
    bool has_request = is_request && node->link == link, has_write = node->writing && node->writer == link;
    if (bc != 2 || (!has_request && !has_write))
        return reply_of(ABORT, 0);
    if (has_request)
        model_drop(node);
    if (has_write)
        drop_write(node);
    return reply_of(END, 0);
}

/* Steps 4 to 6. */
static uint64_t whole(struct node *node, uint32_t now, uint32_t link, const uint8_t *packet, size_t n, const struct lent *lent) {
    unsigned first = packet[0];
    if (first == 0x2E)
        return finished(node, command(node, packet[1], (struct parameters){packet + 2, n - 1}, now, link, lent), lent->reply.bytes);
    if (first < SLAVES || first == 0x40 || first == 0x23 || first == 0x2A)
        return forward(node, now, link, packet, n);
    return error_of(node);
}

/* Step 3: a packet with words and without a receive error. By 02, request 1, a File Write may come in several: first BC 10, then
   00, last 01. What goes wrong with one of another link leaves the write that stands. */
static uint64_t with_words(struct node *node, uint32_t now, uint32_t link, unsigned bc, const uint8_t *packet, size_t n,
                           const struct lent *lent) {
    if (n > 8192)
        return error_of(node);
    bool is_writer = node->writing && node->writer == link, is_first = (bc & 2) != 0, is_last = (bc & 1) != 0;
    if (is_first == is_writer) { /* the writing link begins anew, or a link goes on that has begun nothing */
        if (is_writer)
            drop_write(node);
        return error_of(node);
    }
    if (is_first && is_last)
        return whole(node, now, link, packet, n, lent);
    if (is_first) {
        if (word_at(packet, 0) != 0x452E)
            return error_of(node);
        if (node->writing)
            return reply_of(ABORT, 0);
        node->writing = true;
        node->writer = link;
        packet += 2; /* the header word is not joined */
        n--;
    }
    if (n > JOIN_AREA - node->joined) {
        drop_write(node);
        return reply_of(ABORT, 0);
    }
    memcpy(lent->area.bytes + 2 * (size_t)node->joined, packet, 2 * n);
    node->joined += (uint32_t)n;
    if (!is_last)
        return reply_of(NEXT, 0);
    struct parameters file = {lent->area.bytes, node->joined};
    drop_write(node);
    return finished(node, command(node, 0x45, file, now, link, lent), lent->reply.bytes);
}

uint64_t model_node_request(const struct limits *limits, struct node *node, uint32_t now, uint32_t link, uint32_t bc,
                            uint32_t receive_error, const uint8_t *packet, size_t n, const struct lent *lent) {
    if (!is_flash_size(lent->flash.words) || lent->flash.words != node->flash_words)
        return 1;
    if (lent->reply.words < AREA)
        return 2;
    if (lent->pm.words > limits->pm || lent->dm.words > limits->dm || lent->io.words > limits->io)
        return 3;
    if (lent->area.words < JOIN_AREA)
        return 8;
    if (is_list_wrong(node, lent->list))
        return 9;
    if (lent->events.words < AREA)
        return 11;
    if (link >= node->ports)
        return 4;
    if (is_state_wrong(node))
        return 5;
    if (n > 0 && node->pending != PENDING_NOTHING)
        return 6;
    if (receive_error != 0)
        return error_of(node);
    return n == 0 ? no_words(node, link, bc & 3) : with_words(node, now, link, bc & 3, packet, n, lent);
}

/* A list of requests (02, request 9). */

enum { BEFORE_PACKET = 3, BEFORE_REPLY = 2, REPLY_ROOM = BEFORE_REPLY + AREA }; /* link, BC, length; BC, length */

/* The words of packets, and of the three words before each, up to the first that runs past the end. */
static size_t whole_packets(const uint8_t *packets, size_t n) {
    size_t at = 0;
    while (n - at >= BEFORE_PACKET && n - at - BEFORE_PACKET >= word_at(packets, at + 2))
        at += BEFORE_PACKET + word_at(packets, at + 2);
    return at;
}

/* The call of the packet whose three words stand there. Its reply, behind two words, is put at the start of what is left of the run; it
   answers how many words that took, 0 where the list stops before the packet. */
static size_t next_request(const struct limits *limits, struct node *node, uint32_t now, const uint8_t *packet, const struct lent *lent,
                           struct run left) {
    unsigned link = word_at(packet, 0), bc = word_at(packet, 1);
    if (bc > 3 || left.words < REPLY_ROOM)
        return 0;
    struct lent alone = *lent;
    alone.reply = (struct run){left.bytes + 2 * BEFORE_REPLY, AREA}; /* no reply has more words */
    uint64_t answer = model_node_request(limits, node, now, link, bc, 0, packet + 2 * BEFORE_PACKET, word_at(packet, 2), &alone);
    if (is_ask(answer))
        model_drop(node); /* nothing was pending before it, or it would have been refused */
    if (!is_reply(answer))
        return 0;
    put_word(left.bytes, 0, reply_bc(answer));
    put_word(left.bytes, 1, (unsigned)reply_words(answer));
    return BEFORE_REPLY + reply_words(answer);
}

uint64_t model_node_requests(const struct limits *limits, struct node *node, uint32_t now, const uint8_t *packets, size_t n,
                             const struct lent *lent) {
    struct run left = lent->reply;
    uint64_t done = 0;
    if (whole_packets(packets, n) != n)
        return 10;
    for (size_t at = 0; at < n; at += BEFORE_PACKET + word_at(packets, at + 2)) {
        size_t filled = next_request(limits, node, now, packets + 2 * at, lent, left);
        if (filled == 0)
            break;
        left = (struct run){left.bytes + 2 * filled, left.words - filled};
        done++;
    }
    return done << 32;
}

/* Slave replies. */

static uint64_t single(struct node *node, const struct answer *answer, uint8_t *reply) {
    model_drop(node);
    if (answer->late)
        return reply_of(ABORT, 0);
    if (answer->errors)
        return reply_of(ERROR, 0);
    if (answer->n > AREA)
        return reply_of(ABORT, 0);
    if (answer->n != 0)
        memcpy(reply, answer->packet, 2 * answer->n);
    return reply_of(answer->bc, answer->n);
}

/* An event that is built is unread, and bit 9 of its status word is an error of the build. */
static uint64_t take_event(struct node *node, uint32_t now, const struct answer *answer, uint8_t *events) {
    uint64_t answered = model_event_take(node, now, answer, events);
    if (is_built(answered)) {
        node->unread = (uint32_t)reply_words(answered);
        if ((word_at(events, node->unread - 2) & 0x0200) != 0)
            count_error(&node->build_errors);
    }
    return answered;
}

static uint64_t take(struct node *node, uint32_t now, const struct answer *answer, uint8_t *events, uint8_t *reply) {
    if (answer->errors && !answer->late)
        count_error(&node->amswire_errors);
    switch (node->pending) {
    case PENDING_SLAVE: return single(node, answer, reply);
    case PENDING_GROUP: return model_group_take(node, now, answer, reply);
    default: return take_event(node, now, answer, events);
    }
}

uint64_t model_node_reply(const struct limits *limits, struct node *node, uint32_t now, uint32_t slave, uint32_t bc,
                          uint32_t receive_error, uint16_t rx_status, uint16_t rx_address, const uint8_t *packet, size_t n,
                          struct run events, struct run reply) {
    if (reply.words < AREA)
        return 2;
    if (n > limits->slave_reply)
        return 3;
    if (events.words < AREA)
        return 11;
    if (slave >= SLAVES)
        return 4;
    if (is_state_wrong(node))
        return 5;
    if (node->pending == PENDING_NOTHING || node->slave != slave)
        return 7;
    struct answer answer = {model_is_late(node, now), receive_error != 0, bc & 3, rx_status, rx_address, packet, n};
    return take(node, now, &answer, events.bytes, reply.bytes);
}

uint64_t model_node_poll(struct node *node, uint32_t now, struct run events, struct run reply) {
    if (reply.words < AREA)
        return 2;
    if (events.words < AREA)
        return 11;
    if (is_state_wrong(node))
        return 5;
    if (node->pending == PENDING_NOTHING)
        return 7;
    if (!model_is_late(node, now))
        return waiting();
    struct answer answer = {true, false, 0, 0, 0, NULL, 0};
    return take(node, now, &answer, events.bytes, reply.bytes);
}

/* An event build begins, of the slaves of mask 0. */

uint64_t model_node_build(struct node *node, uint32_t now, struct run events) {
    if (events.words < AREA)
        return 11;
    if (is_state_wrong(node))
        return 5;
    if (node->pending != PENDING_NOTHING)
        return 6;
    if (node->kind == CDP || node->masks[0] == 0 || node->unread != 0)
        return reply_of(ABORT, 0);
    return model_event_begin(node, now);
}

/* Start, erase progress and the slow-control step. */

uint32_t model_node_start(struct node *node, uint32_t kind, uint32_t ports, uint32_t subdetector, uint16_t program_version,
                          uint16_t subdetector_version, uint16_t start_tests, uint32_t clock, struct run flash) {
    *node = (struct node){0};
    if (!is_flash_size(flash.words))
        return 1;
    if (is_unknown(kind, ports, subdetector))
        return 4;
    node->kind = kind;
    node->ports = ports;
    node->subdetector = subdetector;
    node->mode = kind == CDP ? 2 : 0;
    node->program_version = program_version;
    node->subdetector_version = subdetector_version;
    node->start_tests = start_tests & 0x0F00;
    node->start_clock = clock;
    node->flash_words = (uint32_t)flash.words;
    if (kind == CDDC)
        node->masks[0] = ALL_SLAVES; /* 02, request 2 */
    model_directory(node->directory, flash);
    return 0;
}

uint64_t model_node_erase(struct node *node, uint64_t budget, struct run flash) {
    if (!is_flash_size(flash.words) || flash.words != node->flash_words)
        return 1;
    if (is_state_wrong(node))
        return 5;
    if (!node->erasing || budget == 0)
        return 0;
    size_t size = model_sector_size(flash.words, node->sector), start = model_sector_start(flash.words, node->sector);
    size_t rest = size - node->done, count = budget < rest ? (size_t)budget : rest;
    memset(flash.bytes + 2 * (start + node->done), 0xFF, 2 * count);
    node->done += (uint32_t)count;
    bool over = node->done == size;
    model_lay_entry(node->directory, node->sector, word_at(flash.bytes, start), over ? 0 : 0x4000, 0);
    if (over) {
        node->erasing = false;
        node->sector = node->done = 0;
    }
    return (uint64_t)count << 32;
}

/* The entry in turn alone is looked at, and the turn moves on either way, after the last to the first. */
uint64_t model_node_slow(struct node *node, uint32_t now, struct run list) {
    if (is_list_wrong(node, list))
        return 9;
    if (is_state_wrong(node))
        return 5;
    if (node->listed == 0)
        return nothing();
    uint16_t place = node->turn;
    node->turn = (uint16_t)((place + 1) % node->listed);
    return model_list_step(list, place, now) ? handed(place) : nothing();
}
