/* Runs scripts of calls on the model, by the lines that model/node_lines.py describes: the same lines that the model in Python runs,
   so that the two can be compared. Lines on standard input, what they print on standard output. */
#include "../model/model.h"
#include "line_words.h"

#include <stdio.h>
#include <stdlib.h>

enum { FLASH, PROGRAM, DATA_MEMORY, REGISTERS, BUFFER, JOINING, LISTING, EVENTS, MEMORIES };
enum { MOST_RUN = 65552, NODE_WORDS = 108 };
static const size_t rooms[MEMORIES] = {262160, 32784, 32784, 4112, 16400, 32784, 6386, 12304};
static const struct limits wide = {32768, 32768, 4096, SIZE_MAX};

static uint8_t *memories[MEMORIES];
static size_t lent_words[MEMORIES];
static struct node node;
static uint8_t run_bytes[2 * MOST_RUN];

/* A run of words into bytes; answers how many. */
static size_t run_of_line(uint8_t *to) {
    size_t front = number(1), count = number(2), at = 0;
    uint16_t seed = (uint16_t)number(1);
    for (; front > 0 && line_at < line_length; front--)
        put_word(to, at++, line_words[line_at++]);
    for (; count > 0; count--, seed = next_word(seed))
        put_word(to, at++, seed);
    while (line_at < line_length)
        put_word(to, at++, line_words[line_at++]);
    return at;
}

static unsigned digest_word(unsigned value, unsigned word) { return (value * 17 + word) % 65521; }

static unsigned digest_of(int memory, size_t at, size_t count) {
    unsigned value = 1;
    for (size_t i = at; i < at + count; i++) {
        if (memory != PROGRAM) {
            value = digest_word(value, word_at(memories[memory], i));
            continue;
        }
        value = digest_word(value, word_at(memories[memory], 2 * i + 1));
        value = digest_word(value, word_at(memories[memory], 2 * i));
    }
    return value;
}

/* The node's words. */
static void put_halves(uint16_t **to, uint32_t value) {
    *(*to)++ = (uint16_t)(value >> 16);
    *(*to)++ = (uint16_t)value;
}

static void words_of_node(uint16_t words[NODE_WORDS]) {
    uint16_t *to = words;
    *to++ = (uint16_t)node.kind;
    *to++ = (uint16_t)node.ports;
    *to++ = (uint16_t)node.subdetector;
    *to++ = (uint16_t)node.mode;
    *to++ = node.program_version;
    *to++ = node.subdetector_version;
    *to++ = node.start_tests;
    put_halves(&to, node.start_clock);
    put_halves(&to, node.flash_words);
    *to++ = node.amswire_errors;
    *to++ = node.flash_errors;
    for (int i = 0; i < 16; i++)
        put_halves(&to, node.masks[i]);
    for (int i = 0; i < 32; i++)
        *to++ = node.directory[i];
    *to++ = node.erasing;
    *to++ = (uint16_t)node.sector;
    put_halves(&to, node.done);
    *to++ = (uint16_t)node.pending;
    *to++ = (uint16_t)node.link;
    *to++ = (uint16_t)node.slave;
    put_halves(&to, node.asked_at);
    put_halves(&to, node.asked);
    *to++ = (uint16_t)node.from;
    put_halves(&to, node.built);
    *to++ = (uint16_t)node.tally;
    put_halves(&to, node.received);
    *to++ = (uint16_t)node.rx_status;
    *to++ = node.writing;
    *to++ = (uint16_t)node.writer;
    put_halves(&to, node.joined);
    *to++ = node.listed;
    *to++ = node.turn;
    *to++ = node.event;
    *to++ = node.build_errors;
    put_halves(&to, node.unread);
    *to++ = (uint16_t)node.asks;
    put_halves(&to, node.left_out);
}

static void print_node(void) {
    uint16_t words[NODE_WORDS];
    words_of_node(words);
    for (int i = 0; i < NODE_WORDS; i++)
        printf(i == 0 ? "%04x" : " %04x", words[i]);
}

static unsigned digest_of_node(void) {
    uint16_t words[NODE_WORDS];
    unsigned value = 1;
    words_of_node(words);
    for (int i = 0; i < NODE_WORDS; i++)
        value = digest_word(value, words[i]);
    return value;
}

/* Lines that are no calls. */

static void fill(void) {
    int memory = (int)number(1);
    size_t at = number(2), count = number(2);
    uint16_t word = (uint16_t)number(1);
    bool step = number(1) != 0;
    for (size_t i = 0; i < (memory == PROGRAM ? 2 * count : count); i++, word = step ? next_word(word) : word)
        put_word(memories[memory], memory == PROGRAM ? 2 * at + (i ^ 1) : at + i, word);
}

static void poke(void) {
    int memory = (int)number(1);
    size_t at = number(2);
    run_of_line(memories[memory] + 2 * at);
}

static void set_pending(unsigned kind, unsigned link, uint32_t at) {
    node.pending = kind;
    node.link = link;
    node.asked_at = at;
    node.slave = (uint32_t)number(1);
    node.asked = (uint32_t)number(2);
    node.from = (uint32_t)number(1);
    node.built = (uint32_t)number(2);
    node.tally = (uint32_t)number(1);
    node.received = (uint32_t)number(2);
    node.rx_status = (uint16_t)number(1);
    node.asks = (uint32_t)number(1);
    node.left_out = (uint32_t)number(2);
    if (kind == PENDING_BUILD) {
        node.link = node.from = 0;
        return;
    }
    node.asks = node.left_out = 0;
    if (kind != PENDING_GROUP)
        node.asked = node.from = node.built = node.tally = node.received = node.rx_status = 0;
    if (kind == PENDING_NOTHING)
        node.link = node.slave = node.asked_at = 0;
}

static void set(void) {
    unsigned field = (unsigned)number(1), index = (unsigned)number(1);
    uint32_t value = (uint32_t)number(2);
    switch (field) {
    case 0: node.kind = value; break;
    case 1: node.ports = value; break;
    case 2: node.subdetector = value; break;
    case 3: node.mode = value; break;
    case 4: node.program_version = (uint16_t)value; break;
    case 5: node.subdetector_version = (uint16_t)value; break;
    case 6: node.start_tests = (uint16_t)value; break;
    case 7: node.start_clock = value; break;
    case 8: node.flash_words = value; break;
    case 9: node.amswire_errors = (uint16_t)value; break;
    case 10: node.flash_errors = (uint16_t)value; break;
    case 11: node.masks[index] = value; break;
    case 12: node.directory[index] = (uint16_t)value; break;
    case 13:
        node.erasing = false;
        node.sector = node.done = 0;
        break;
    case 14:
        node.erasing = true;
        node.sector = index;
        node.done = value;
        break;
    case 18:
        node.writing = false;
        node.writer = node.joined = 0;
        break;
    case 19:
        node.writing = true;
        node.writer = index;
        node.joined = value;
        break;
    case 20: node.listed = (uint16_t)value; break;
    case 21: node.turn = (uint16_t)value; break;
    case 22: node.event = (uint16_t)value; break;
    case 23: node.build_errors = (uint16_t)value; break;
    case 24: node.unread = value; break;
    case 25: set_pending(PENDING_BUILD, index, value); break;
    default: set_pending(field - 15, index, value); break;
    }
}

/* Calls. */

static struct run lent_run(int memory) { return (struct run){memories[memory], lent_words[memory]}; }

static uint64_t start(void) {
    uint32_t kind = (uint32_t)number(2), ports = (uint32_t)number(2), subdetector = (uint32_t)number(2);
    uint16_t program_version = (uint16_t)number(1), subdetector_version = (uint16_t)number(1), tests = (uint16_t)number(1);
    return model_node_start(&node, kind, ports, subdetector, program_version, subdetector_version, tests, (uint32_t)number(2),
                            lent_run(FLASH));
}

static struct lent all_lent(void) {
    return (struct lent){lent_run(FLASH),   lent_run(PROGRAM), lent_run(DATA_MEMORY), lent_run(REGISTERS),
                         lent_run(JOINING), lent_run(LISTING), lent_run(EVENTS),      lent_run(BUFFER)};
}

static uint64_t request(void) {
    uint32_t now = (uint32_t)number(2), link = (uint32_t)number(2), bc = (uint32_t)number(1), error = (uint32_t)number(1);
    struct lent lent = all_lent();
    return model_node_request(&wide, &node, now, link, bc, error, run_bytes, run_of_line(run_bytes), &lent);
}

static uint64_t requests(void) {
    uint32_t now = (uint32_t)number(2);
    struct lent lent = all_lent();
    return model_node_requests(&wide, &node, now, run_bytes, run_of_line(run_bytes), &lent);
}

static uint64_t reply(void) {
    uint32_t now = (uint32_t)number(2), slave = (uint32_t)number(2), bc = (uint32_t)number(1), error = (uint32_t)number(1);
    uint16_t status = (uint16_t)number(1), address = (uint16_t)number(1);
    return model_node_reply(&wide, &node, now, slave, bc, error, status, address, run_bytes, run_of_line(run_bytes),
                            lent_run(EVENTS), lent_run(BUFFER));
}

static void print_words(int memory, unsigned words) {
    printf(" %u %04x", words, digest_of(memory, 0, words));
    for (unsigned i = 0; words <= 16 && i < words; i++)
        printf(" %04x", word_at(memories[memory], i));
}

static void print_reply(uint64_t answer) {
    printf("reply %u", (unsigned)(answer >> 16 & 0xFF));
    print_words(BUFFER, (unsigned)(answer >> 32));
}

static void print_built(uint64_t answer) {
    printf("built");
    print_words(EVENTS, (unsigned)(answer >> 32));
}

static void print_answer(int does, uint64_t answer) {
    unsigned kind = answer >> 8 & 0xFF;
    if ((answer & 0xFF) != 0)
        printf("refused %u", (unsigned)(answer & 0xFF));
    else if (does == 1)
        printf("started");
    else if (does == 5)
        printf("erased %u", (unsigned)(answer >> 32));
    else if (does == 13)
        printf("done %u", (unsigned)(answer >> 32));
    else if (kind == 1)
        print_reply(answer);
    else if (kind == 2)
        printf("ask %u %u", (unsigned)(answer >> 16 & 0xFF), (unsigned)(answer >> 24 & 0xFF));
    else if (kind == 8)
        printf("next %u", (unsigned)(answer >> 16 & 0xFF));
    else if (kind == 6)
        printf("handed %u", (unsigned)(answer >> 32));
    else if (kind == 7)
        printf("nothing");
    else if (kind == 9)
        printf("read %u", (unsigned)(answer >> 16 & 0xFF));
    else if (kind == 10)
        printf("no event");
    else if (kind == 11)
        print_built(answer);
    else
        printf("waiting");
}

static void call(int does) {
    unsigned show = (unsigned)number(1);
    uint64_t answer = does == 1    ? start()
                      : does == 2  ? request()
                      : does == 3  ? reply()
                      : does == 4  ? model_node_poll(&node, (uint32_t)number(2), lent_run(EVENTS), lent_run(BUFFER))
                      : does == 5  ? model_node_erase(&node, number(4), lent_run(FLASH))
                      : does == 13 ? requests()
                      : does == 14 ? model_node_build(&node, (uint32_t)number(2), lent_run(EVENTS))
                                   : model_node_slow(&node, (uint32_t)number(2), lent_run(LISTING));
    printf("%04x ", digest_of_node());
    print_answer(does, answer);
    for (int memory = 0; memory < MEMORIES; memory++)
        if (show >> memory & 1)
            printf(" %c %04x", "fpdirale"[memory], digest_of(memory, 0, lent_words[memory]));
}

static void lend(void) {
    for (int memory = 0; memory < MEMORIES; memory++)
        lent_words[memory] = number(2);
}

static void print_digest(void) {
    int memory = (int)number(1);
    size_t at = number(2), count = number(2);
    printf("%04x", digest_of(memory, at, count));
}

int main(void) {
    static char text[8192];
    for (int memory = 0; memory < MEMORIES; memory++)
        if ((memories[memory] = calloc(rooms[memory], memory == PROGRAM ? 4 : 2)) == NULL)
            return 2;
    while (fgets(text, sizeof text, stdin) != NULL) {
        read_line(text);
        int does = (int)number(1);
        switch (does) {
        case 6: fill(); break;
        case 7: poke(); break;
        case 8: set(); break;
        case 9: lend(); break;
        case 10: print_digest(); break;
        case 11: print_node(); break;
        default: call(does); break;
        }
        putchar('\n');
    }
    return 0;
}
