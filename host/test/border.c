/* Tests of the border: each refusal and their order, odd lengths, NULL with length 0, guard bytes round every run, alignment, a flash of
   either size, files in several packets, lengths in the directory, remains behind a file, names that several sectors have, slaves that answer in
   packets, the Q-List, captured group replies, lists of requests, event builds, saving what is readable, the parts of what is answered, and
   the layout of the state.
   Every run stands between guard bytes; after each call they are looked at, and after a refused one every byte of every run too. */
#include "../../include/logodwen.h"
#include "long_file.h"

#include <stdio.h>
#include <stdlib.h>
#include <string.h>

static int failures, checks;

static void check(int holds, const char *text, int line) {
    checks++;
    if (!holds) {
        failures++;
        printf("border: line %d: not so: %s\n", line, text);
    }
}
#define CHECK(holds) check((holds) != 0, #holds, __LINE__)

/* Runs. */

enum { STATE, FLASH, PM, DM, IO, AREA, LIST, EVENTS, REPLY, PACKET, REPLIES, SECOND, RUNS }; /* of a list of requests PACKET has its packets */
enum { GUARD = 64 };
static const char *const names[RUNS] = {"state", "flash", "pm", "dm", "io", "area", "list", "events", "reply", "packet", "replies", "second"};
static size_t rooms[RUNS] = {LOGODWEN_STATE_BYTES + 8, 0,                        LOGODWEN_PM_BYTES + 16,         LOGODWEN_DM_BYTES + 8,
                             LOGODWEN_IO_BYTES + 8,    LOGODWEN_AREA_BYTES + 8,  LOGODWEN_LIST_BYTES + 28,       LOGODWEN_EVENTS_BYTES + 8,
                             LOGODWEN_REPLY_BYTES + 8, LOGODWEN_SLAVE_REPLY_BYTES + 8, 2 * LOGODWEN_REPLIES_BYTES + 8, 0};
static size_t flash_bytes = LOGODWEN_FLASH_BYTES; /* of the flash that is lent, and of the second one: their room goes by that */
static uint8_t *blocks[RUNS], *runs[RUNS], *copies[RUNS]; /* a block holds guard bytes, a run, guard bytes */
static size_t lengths[RUNS];

static uint8_t guard_byte(size_t at) { return (uint8_t)(0xA5 ^ at); }

static int are_guards(int run, size_t from, size_t to) {
    while (from < to && blocks[run][from] == guard_byte(from))
        from++;
    return from == to;
}

/* How many words sector 3 has; each other one has twice as many. */
static size_t unit(void) { return flash_bytes / 2 / 16; }

/* Runs that begin `shift` bytes past an aligned place. */
static void lay_out(size_t shift) {
    rooms[FLASH] = rooms[SECOND] = flash_bytes + 8;
    for (int run = 0; run < RUNS; run++) {
        size_t size = rooms[run] + 2 * GUARD + 16;
        free(blocks[run]);
        free(copies[run]);
        blocks[run] = malloc(size);
        copies[run] = malloc(rooms[run]);
        if (blocks[run] == NULL || copies[run] == NULL)
            exit(2);
        for (size_t at = 0; at < size; at++)
            blocks[run][at] = guard_byte(at);
        runs[run] = blocks[run] + GUARD + shift;
        for (size_t at = 0; at < rooms[run]; at++)
            runs[run][at] = (uint8_t)(at * 7 + (size_t)run);
    }
    memset(runs[STATE], 0, rooms[STATE]);
    memset(runs[FLASH], 0xFF, rooms[FLASH]);
    memset(runs[SECOND], 0xFF, rooms[SECOND]);
    const size_t usual[RUNS] = {LOGODWEN_STATE_BYTES, flash_bytes,           256, 128, 128, LOGODWEN_AREA_BYTES, LOGODWEN_LIST_BYTES,
                                LOGODWEN_EVENTS_BYTES, LOGODWEN_REPLY_BYTES, 0,   2 * LOGODWEN_REPLIES_BYTES, flash_bytes};
    memcpy(lengths, usual, sizeof lengths);
}

static uint8_t *lent(int run) { return lengths[run] == 0 ? NULL : runs[run]; }

static void remember(void) {
    for (int run = 0; run < RUNS; run++)
        memcpy(copies[run], runs[run], rooms[run]);
}

/* The bytes of a run that are of a whole word, or of a whole record. */
static size_t whole_bytes(int run) {
    size_t unit = run == PM ? 4 : run == LIST ? LOGODWEN_RECORD_BYTES : run == STATE ? 1 : 2;
    return lengths[run] / unit * unit;
}

static int is_same(int run, size_t from, size_t to) { return memcmp(copies[run] + from, runs[run] + from, to - from) == 0; }

/* No byte outside a lent run has changed, none of a packet, and none at all where the call was refused. */
static void look_round(unsigned refusal, int line) {
    for (int run = 0; run < RUNS; run++) {
        size_t size = rooms[run] + 2 * GUARD + 16, before = (size_t)(runs[run] - blocks[run]), from = 0;
        int whole = are_guards(run, 0, before) && are_guards(run, before + rooms[run], size);
        if (refusal == 0 && run != PACKET)
            from = whole_bytes(run);
        if (!is_same(run, from, rooms[run]))
            whole = 0;
        if (!whole)
            printf("border: line %d: bytes of or around %s have changed\n", line, names[run]);
        check(whole, "every byte that isn't lent, or of a refused call, stays", line);
    }
}

/* Calls on these runs. */

static uint32_t start_as(uint32_t kind, uint32_t ports, uint32_t subdetector, int line) {
    remember();
    uint32_t refusal = logodwen_start(kind, ports, subdetector, 0x1234, 0x5678, 0xFFFF, 1000, lent(FLASH), lengths[FLASH],
                                      lent(STATE), lengths[STATE]);
    look_round(refusal, line);
    check(is_same(FLASH, 0, rooms[FLASH]), "start leaves the flash", line);
    return refusal;
}

static uint64_t request_at(uint32_t now, uint32_t link, uint32_t bc, uint32_t error, int line) {
    remember();
    uint64_t answered = logodwen_request(now, link, bc, error, lent(PACKET), lengths[PACKET], lent(STATE), lengths[STATE],
                                         lent(FLASH), lengths[FLASH], lent(PM), lengths[PM], lent(DM), lengths[DM], lent(IO),
                                         lengths[IO], lent(AREA), lengths[AREA], lent(LIST), lengths[LIST], lent(EVENTS),
                                         lengths[EVENTS], lent(REPLY), lengths[REPLY]);
    look_round(logodwen_refusal(answered), line);
    check(is_same(EVENTS, 0, rooms[EVENTS]), "a request leaves the event area", line);
    return answered;
}

static uint64_t requests_at(uint32_t now, int line) {
    remember();
    uint64_t answered = logodwen_requests(now, lent(PACKET), lengths[PACKET], lent(STATE), lengths[STATE], lent(FLASH),
                                          lengths[FLASH], lent(PM), lengths[PM], lent(DM), lengths[DM], lent(IO), lengths[IO],
                                          lent(AREA), lengths[AREA], lent(LIST), lengths[LIST], lent(EVENTS), lengths[EVENTS],
                                          lent(REPLIES), lengths[REPLIES]);
    look_round(logodwen_refusal(answered), line);
    check(is_same(EVENTS, 0, rooms[EVENTS]), "a list leaves the event area", line);
    return answered;
}

static uint16_t rx_status = 0x00AA; /* of what a slave sends */

static uint64_t reply_at(uint32_t now, uint32_t slave, uint32_t bc, uint32_t error, int line) {
    remember();
    uint64_t answered = logodwen_reply(now, slave, bc, error, rx_status, 0x00BB, lent(PACKET), lengths[PACKET], lent(STATE),
                                       lengths[STATE], lent(EVENTS), lengths[EVENTS], lent(REPLY), lengths[REPLY]);
    look_round(logodwen_refusal(answered), line);
    return answered;
}

static uint64_t poll_at(uint32_t now, int line) {
    remember();
    uint64_t answered = logodwen_poll(now, lent(STATE), lengths[STATE], lent(EVENTS), lengths[EVENTS], lent(REPLY), lengths[REPLY]);
    look_round(logodwen_refusal(answered), line);
    return answered;
}

static uint64_t build_at(uint32_t now, int line) {
    remember();
    uint64_t answered = logodwen_build(now, lent(STATE), lengths[STATE], lent(EVENTS), lengths[EVENTS]);
    look_round(logodwen_refusal(answered), line);
    check(is_same(EVENTS, 0, rooms[EVENTS]), "no byte of the event area is written yet", line);
    return answered;
}

static uint64_t erase_by(uint64_t budget, int line) {
    remember();
    uint64_t answered = logodwen_erase(budget, lent(STATE), lengths[STATE], lent(FLASH), lengths[FLASH]);
    look_round(logodwen_refusal(answered), line);
    return answered;
}

static uint64_t slow_at(uint32_t now, int line) {
    remember();
    uint64_t answered = logodwen_slow(now, lent(STATE), lengths[STATE], lent(LIST), lengths[LIST]);
    look_round(logodwen_refusal(answered), line);
    return answered;
}

#define START(kind, ports, subdetector) start_as(kind, ports, subdetector, __LINE__)
#define REQUEST(now, link, bc, error) request_at(now, link, bc, error, __LINE__)
#define REQUESTS(now) requests_at(now, __LINE__)
#define SLAVE_REPLY(now, slave, bc, error) reply_at(now, slave, bc, error, __LINE__)
#define POLL(now) poll_at(now, __LINE__)
#define BUILD(now) build_at(now, __LINE__)
#define ERASE(budget) erase_by(budget, __LINE__)
#define SLOW(now) slow_at(now, __LINE__)

static void packet(size_t count, const uint16_t *words) {
    for (size_t i = 0; i < count; i++)
        logodwen_put(runs[PACKET], i, words[i]);
    lengths[PACKET] = 2 * count;
}
#define PACKET_OF(...) packet(sizeof((uint16_t[]){__VA_ARGS__}) / 2, (uint16_t[]){__VA_ARGS__})

static uint16_t reply_word(size_t at) { return logodwen_get(runs[REPLY], at); }
static uint32_t state_long(size_t at) { return logodwen_get_pm(runs[STATE] + at, 0); }
static uint16_t state_word(size_t at) { return logodwen_get(runs[STATE] + at, 0); }

static uint64_t zero_length(uint64_t bc) { return (uint64_t)LOGODWEN_REPLY << 8 | bc << 16; }
static uint64_t with_words(uint64_t words) {
    return (uint64_t)LOGODWEN_REPLY << 8 | (uint64_t)LOGODWEN_BC_WHOLE << 16 | words << 32;
}
static uint64_t ask(uint64_t slave, uint64_t from) { return (uint64_t)LOGODWEN_ASK << 8 | slave << 16 | from << 24; }
static uint64_t send_next(uint64_t slave) { return (uint64_t)LOGODWEN_SEND_NEXT << 8 | slave << 16; }
static uint64_t handed(uint64_t place) { return (uint64_t)LOGODWEN_HANDED << 8 | place << 32; }
static uint64_t nothing(void) { return (uint64_t)LOGODWEN_NOTHING << 8; }
static uint64_t done(uint64_t packets) { return packets << 32; }
static uint64_t ask_event(uint64_t slave) { return (uint64_t)LOGODWEN_ASK_EVENT << 8 | slave << 16; }
static uint64_t no_event(void) { return (uint64_t)LOGODWEN_NO_EVENT << 8; }
static uint64_t built(uint64_t words) { return (uint64_t)LOGODWEN_BUILT << 8 | words << 32; }

/* File 21: one DM segment of two words, with its File Write. */
static void file_write(uint16_t header) {
    PACKET_OF(0x452E, header, 0x4003, 0x2000, 0xCAFE, 0xF00D, 0);
    logodwen_put(runs[PACKET], 6, logodwen_fcs(runs[PACKET] + 8, 2));
}

/* Whether a write stands, of this link with so many words joined; or none. */
static int is_standing(unsigned link, uint32_t words) {
    const uint8_t *at = runs[STATE] + LOGODWEN_AT_WRITE;
    return at[0] == 1 && at[1] == link && at[2] == 0 && at[3] == 0 && state_long(LOGODWEN_AT_JOINED) == words;
}

static const uint8_t zeros[8];

static int is_none_standing(void) { return memcmp(runs[STATE] + LOGODWEN_AT_WRITE, zeros, sizeof zeros) == 0; }

/* Whether so many words of the asked slave's reply have come in packets, the last with that RX status; or none. */
static int is_received(uint32_t words, uint16_t status) {
    return state_long(LOGODWEN_AT_RECEIVED) == words && state_word(LOGODWEN_AT_RX_STATUS) == status
           && state_word(LOGODWEN_AT_RX_STATUS + 2) == 0;
}

/* Whether so many entries are listed, and that place has its turn next. */
static int is_listing(unsigned listed, unsigned turn) {
    return state_word(LOGODWEN_AT_LISTED) == listed && state_word(LOGODWEN_AT_TURN) == turn;
}

static void put_listing(unsigned listed, unsigned turn) {
    logodwen_put(runs[STATE] + LOGODWEN_AT_LISTED, 0, (uint16_t)listed);
    logodwen_put(runs[STATE] + LOGODWEN_AT_TURN, 0, (uint16_t)turn);
}

/* Whether this is the last event's number, so many builds had errors, and so many words are unread. */
static int is_kept(unsigned number, unsigned errors, uint32_t unread) {
    return state_word(LOGODWEN_AT_EVENT) == number && state_word(LOGODWEN_AT_BUILD_ERRORS) == errors
           && state_long(LOGODWEN_AT_UNREAD) == unread;
}

/* Whether the bytes that are a build's alone are 0. */
static int is_no_build(void) { return memcmp(runs[STATE] + LOGODWEN_AT_ASKS, zeros, sizeof zeros) == 0; }

/* Tests. */

static void test_start(void) {
    lay_out(0);
    CHECK(START(LOGODWEN_CDDC, 4, 7) == LOGODWEN_DONE);
    const uint8_t *state = runs[STATE];
    CHECK(state[LOGODWEN_AT_KIND] == 2 && state[LOGODWEN_AT_PORTS] == 4 && state[LOGODWEN_AT_SUBDETECTOR] == 7
          && state[LOGODWEN_AT_MODE] == 0);
    CHECK(state_word(LOGODWEN_AT_PROGRAM_VERSION) == 0x1234 && state_word(LOGODWEN_AT_SUBDETECTOR_VERSION) == 0x5678);
    CHECK(state_word(LOGODWEN_AT_START_TESTS) == 0x0F00);
    CHECK(state_long(LOGODWEN_AT_CLOCK) == 1000 && state_long(LOGODWEN_AT_FLASH_WORDS) == flash_bytes / 2);
    for (size_t at = LOGODWEN_AT_AMSWIRE_ERRORS; at < LOGODWEN_AT_CLOCK; at++)
        CHECK(state[at] == 0);
    for (size_t at = LOGODWEN_AT_ERASED; at < LOGODWEN_AT_MASKS; at++)
        CHECK(state[at] == 0);
    CHECK(is_none_standing() && is_received(0, 0) && is_listing(0, 0) && is_kept(0, 0, 0) && is_no_build());
    for (unsigned i = 0; i < 8; i++) {
        static const uint16_t addresses[8] = {0x0200, 0x0400, 0x0800, 0x0C00, 0x1000, 0x1400, 0x1800, 0x1C00};
        const uint8_t *entry = state + LOGODWEN_AT_DIRECTORY + 8 * i;
        CHECK(logodwen_get(entry, 0) == 0xFFFF && logodwen_get(entry, 1) == addresses[i] && logodwen_get(entry, 2) == 0
              && logodwen_get(entry, 3) == 0);
    }
    CHECK(START(LOGODWEN_CDP, 1, 0) == LOGODWEN_DONE && runs[STATE][LOGODWEN_AT_MODE] == 2);
}

/* Mask 0 of a CDDC names all slaves at start; every other mask is 0, and so are all of a CDP (02, request 2). */
static void test_start_masks(void) {
    static const uint32_t kinds[2] = {LOGODWEN_CDP, LOGODWEN_CDDC}, firsts[2] = {0, 0xFFFFFF};
    lay_out(0);
    for (unsigned i = 0; i < 4; i++) { /* each after the other too, on the state bytes that it left */
        CHECK(START(kinds[i % 2], 4, 0) == LOGODWEN_DONE);
        for (unsigned mask = 0; mask < LOGODWEN_MASKS; mask++)
            CHECK(state_long(LOGODWEN_AT_MASKS + 4 * mask) == (mask == 0 ? firsts[i % 2] : 0));
    }
    PACKET_OF(0x172E);
    CHECK(REQUEST(1000, 0, LOGODWEN_BC_WHOLE, 0) == with_words(LOGODWEN_SLAVES + 2));
    for (unsigned slave = 0; slave < LOGODWEN_SLAVES; slave++)
        CHECK(reply_word(slave) == 0x0001);
    PACKET_OF(0x0140, 0x122E);
    CHECK(REQUEST(1000, 0, LOGODWEN_BC_WHOLE, 0) == zero_length(LOGODWEN_BC_ABORT));
    PACKET_OF(0x0040, 0x122E);
    CHECK(REQUEST(1000, 0, LOGODWEN_BC_WHOLE, 0) == ask(0, 1) && state_long(LOGODWEN_AT_ASKED) == 0xFFFFFF);
    lengths[PACKET] = 0;
    CHECK(REQUEST(1000, 0, LOGODWEN_BC_ABORT, 0) == zero_length(LOGODWEN_BC_END));
    PACKET_OF(0x572E, 0x0000, 0x0000); /* what counts on an empty mask 0 writes zero first */
    CHECK(REQUEST(1000, 0, LOGODWEN_BC_WHOLE, 0) == zero_length(LOGODWEN_BC_END));
    PACKET_OF(0x0040, 0x122E);
    CHECK(REQUEST(1000, 0, LOGODWEN_BC_WHOLE, 0) == zero_length(LOGODWEN_BC_ABORT));
}

static void test_start_refusals(void) {
    static const uint32_t numbers[][3] = {{0, 1, 0},   {3, 1, 0}, {257, 1, 0}, {1, 0, 0},      {1, 5, 0},
                                          {1, 257, 0}, {1, 1, 8}, {2, 4, 256}, {0x10002, 4, 0}};
    lay_out(0);
    for (size_t i = 0; i < sizeof numbers / sizeof *numbers; i++)
        CHECK(START(numbers[i][0], numbers[i][1], numbers[i][2]) == LOGODWEN_REFUSED_NUMBER);
    lengths[STATE] = LOGODWEN_STATE_BYTES + 1;
    CHECK(START(1, 1, 0) == LOGODWEN_REFUSED_STATE);
    CHECK(START(0, 1, 0) == LOGODWEN_REFUSED_NUMBER);
    lengths[STATE] = LOGODWEN_STATE_BYTES - 1;
    CHECK(START(1, 1, 0) == LOGODWEN_REFUSED_STATE);
    lengths[STATE] = 0;
    CHECK(START(1, 1, 0) == LOGODWEN_REFUSED_STATE);
    lengths[FLASH] = 0;
    CHECK(START(0, 0, 9) == LOGODWEN_REFUSED_FLASH_SIZE);
}

/* The first of several causes answers. A cause is one bit: bit n - 1 for refusal n. */
static void lend_with(unsigned causes) {
    lay_out(causes % 8);
    CHECK(START(LOGODWEN_CDDC, 2, 0) == LOGODWEN_DONE);
    if (causes & 0x20) {
        PACKET_OF(0x0405, 0x122E);
        CHECK(REQUEST(1000, 0, LOGODWEN_BC_WHOLE, 0) == ask(5, 1));
    }
    PACKET_OF(0x122E);
    if (causes & 1)
        lengths[FLASH] = flash_bytes - 1;
    if (causes & 2)
        lengths[REPLY] = LOGODWEN_REPLY_BYTES - 1;
    if (causes & 4)
        lengths[PM] = LOGODWEN_PM_BYTES + 4;
    if (causes & 0x80)
        lengths[AREA] = LOGODWEN_AREA_BYTES - 1;
    if (causes & 0x100)
        lengths[LIST] = LOGODWEN_LIST_BYTES + LOGODWEN_RECORD_BYTES;
    if (causes & 0x400)
        lengths[EVENTS] = LOGODWEN_EVENTS_BYTES - 1;
    if (causes & 0x10)
        runs[STATE][LOGODWEN_AT_MODE] = 4;
}

static unsigned first_of(unsigned causes, unsigned tested) {
    static const unsigned order[10] = {1, 2, 3, 8, 9, 11, 4, 5, 6, 7};
    for (size_t i = 0; i < 10; i++)
        if (causes & tested & 1u << (order[i] - 1))
            return order[i];
    return 0;
}

static void test_order(void) {
    for (unsigned turn = 0; turn < 512; turn++) {
        unsigned causes = turn % 64 | turn / 64 % 4 * 0x80 | turn / 256 * 0x400;
        lend_with(causes);
        uint32_t link = causes & 8 ? 2 : 0;
        uint64_t answered = REQUEST(1000, link, LOGODWEN_BC_WHOLE, 0);
        CHECK(logodwen_refusal(answered) == first_of(causes, 0x5BF));
        CHECK(logodwen_refusal(answered) == 0 || answered == logodwen_refusal(answered));
        lend_with(causes);
        CHECK(logodwen_refusal(ERASE(1)) == first_of(causes, 0x11));
        lend_with(causes);
        CHECK(logodwen_refusal(SLOW(1000)) == first_of(causes, 0x110));
        lend_with(causes);
        CHECK(logodwen_refusal(BUILD(1000)) == first_of(causes, 0x430));
        lend_with(causes);
        CHECK(logodwen_refusal(POLL(1000)) == (first_of(causes, 0x412) != 0 ? first_of(causes, 0x412) : causes & 0x20 ? 0u : 7u));
        lend_with(causes);
        lengths[PACKET] = causes & 4 ? LOGODWEN_SLAVE_REPLY_BYTES + 2 : 0;
        unsigned expected = first_of(causes, 0x41E);
        CHECK(logodwen_refusal(SLAVE_REPLY(1000, causes & 8 ? 24 : 5, LOGODWEN_BC_END, 0))
              == (expected != 0   ? expected
                  : causes & 0x20 ? 0u
                                  : 7u));
    }
}

static void test_each_refusal(void) {
    static const uint32_t links[] = {2, 3, 255, 256, 0x10000, 0xFFFFFFFF}, slaves[] = {24, 255, 256 + 5, 0x10005, 0xFFFFFFFF};
    lend_with(0x20);
    for (size_t i = 0; i < sizeof links / sizeof *links; i++)
        CHECK(REQUEST(1000, links[i], LOGODWEN_BC_WHOLE, 0) == LOGODWEN_REFUSED_NUMBER);
    for (size_t i = 0; i < sizeof slaves / sizeof *slaves; i++)
        CHECK(SLAVE_REPLY(1000, slaves[i], LOGODWEN_BC_END, 0) == LOGODWEN_REFUSED_NUMBER);
    CHECK(SLAVE_REPLY(1000, 6, LOGODWEN_BC_END, 0) == LOGODWEN_REFUSED_UNASKED);
    CHECK(REQUEST(1000, 0, LOGODWEN_BC_WHOLE, 1) == LOGODWEN_REFUSED_BUSY && BUILD(1000) == LOGODWEN_REFUSED_BUSY);
    lend_with(0);
    lengths[DM] = LOGODWEN_DM_BYTES + 2;
    CHECK(REQUEST(1000, 0, LOGODWEN_BC_WHOLE, 0) == LOGODWEN_REFUSED_MEMORY_SIZE);
    lengths[DM] = 0;
    lengths[IO] = LOGODWEN_IO_BYTES + 2;
    CHECK(REQUEST(1000, 0, LOGODWEN_BC_WHOLE, 0) == LOGODWEN_REFUSED_MEMORY_SIZE);
    lengths[IO] = LOGODWEN_IO_BYTES + 1;
    lengths[DM] = LOGODWEN_DM_BYTES + 1;
    lengths[PM] = LOGODWEN_PM_BYTES + 3;
    CHECK(REQUEST(1000, 0, LOGODWEN_BC_WHOLE, 0) == with_words(3));
    memset(runs[STATE], 0, LOGODWEN_STATE_BYTES); /* zero is no node's state */
    CHECK(REQUEST(1000, 0, LOGODWEN_BC_WHOLE, 0) == LOGODWEN_REFUSED_FLASH_SIZE);
    CHECK(ERASE(1) == LOGODWEN_REFUSED_FLASH_SIZE && POLL(0) == LOGODWEN_REFUSED_STATE
          && SLAVE_REPLY(0, 0, 3, 0) == LOGODWEN_REFUSED_STATE && SLOW(0) == LOGODWEN_REFUSED_STATE
          && BUILD(0) == LOGODWEN_REFUSED_STATE);
}

/* Of another length than 208 bytes, the state's part of 1, 9 and 4 is left out. */
static void test_state_length(void) {
    for (size_t length = LOGODWEN_STATE_BYTES - 2; length <= LOGODWEN_STATE_BYTES + 2; length++) {
        lend_with(0);
        lengths[STATE] = length;
        unsigned expected = length == LOGODWEN_STATE_BYTES ? 0 : LOGODWEN_REFUSED_STATE;
        CHECK(logodwen_refusal(REQUEST(1000, 1, LOGODWEN_BC_WHOLE, 0)) == expected);
        CHECK(logodwen_refusal(ERASE(1)) == expected && logodwen_refusal(BUILD(1000)) == expected);
        if (expected == 0)
            continue;
        CHECK(REQUEST(1000, 0xFFFFFFFF, LOGODWEN_BC_WHOLE, 0) == LOGODWEN_REFUSED_STATE);
        CHECK(POLL(1000) == LOGODWEN_REFUSED_STATE && SLAVE_REPLY(1000, 5, 3, 0) == LOGODWEN_REFUSED_STATE);
        CHECK(SLAVE_REPLY(1000, 24, 3, 0) == LOGODWEN_REFUSED_NUMBER);
        put_listing(2, 0);
        lengths[LIST] = LOGODWEN_RECORD_BYTES;
        CHECK(SLOW(1000) == LOGODWEN_REFUSED_STATE && REQUEST(1000, 0, LOGODWEN_BC_WHOLE, 0) == LOGODWEN_REFUSED_STATE);
        lengths[LIST] = LOGODWEN_LIST_BYTES + LOGODWEN_RECORD_BYTES;
        CHECK(SLOW(1000) == LOGODWEN_REFUSED_LIST_SIZE && REQUEST(1000, 0, LOGODWEN_BC_WHOLE, 0) == LOGODWEN_REFUSED_LIST_SIZE);
        lengths[LIST] = LOGODWEN_LIST_BYTES;
        lengths[EVENTS] = 0;
        CHECK(BUILD(1000) == LOGODWEN_REFUSED_EVENTS_SIZE && POLL(1000) == LOGODWEN_REFUSED_EVENTS_SIZE);
        CHECK(REQUEST(1000, 0, LOGODWEN_BC_WHOLE, 0) == LOGODWEN_REFUSED_EVENTS_SIZE);
        lengths[FLASH] = 0;
        CHECK(ERASE(1) == LOGODWEN_REFUSED_FLASH_SIZE);
    }
}

/* What a case does not use is 0; each byte of it that is not is refused. Bits that are not looked at are handed back. */
static void test_state_bytes(void) {
    lend_with(0);
    static const uint8_t unused[] = {24, 25, 26, 27, 28, 29, 30, 31, 32, 33,  34,  35,  36,  37,
                                     38, 39, 40, 41, 42, 43, 180, 181, 182, 183, 184, 185, 186, 187,
                                     200, 201, 202, 203, 204, 205, 206, 207};
    for (size_t i = 0; i < sizeof unused; i++) {
        runs[STATE][unused[i]] = 1;
        CHECK(REQUEST(1000, 0, LOGODWEN_BC_WHOLE, 0) == LOGODWEN_REFUSED_STATE && ERASE(1) == LOGODWEN_REFUSED_STATE);
        runs[STATE][unused[i]] = 0;
    }
    static const uint8_t wrong[][2] = {{0, 3}, {1, 5}, {2, 8}, {3, 4}, {14, 2}, {14, 11}, {15, 3}, {15, 4}, {47, 1}, {107, 255}};
    for (size_t i = 0; i < sizeof wrong / sizeof *wrong; i++) {
        uint8_t before = runs[STATE][wrong[i][0]];
        runs[STATE][wrong[i][0]] = wrong[i][1];
        CHECK(ERASE(1) == LOGODWEN_REFUSED_STATE && POLL(0) == LOGODWEN_REFUSED_STATE);
        runs[STATE][wrong[i][0]] = before;
    }
    runs[STATE][LOGODWEN_AT_START_TESTS] = 0xFF;
    runs[STATE][LOGODWEN_AT_START_TESTS + 1] = 0xF0;
    CHECK(REQUEST(1000, 0, LOGODWEN_BC_WHOLE, 0) == with_words(3) && reply_word(1) == 0x0020);
    CHECK(state_word(LOGODWEN_AT_START_TESTS) == 0xF0FF);
}

/* A write that stands has a link that is a port, and at most 32,768 words joined; where none stands all eight bytes are 0. */
static void check_write(uint8_t stands, uint8_t link, uint8_t zero, uint8_t another, uint32_t words, unsigned expected) {
    const uint8_t bytes[4] = {stands, link, zero, another};
    lend_with(0);
    memcpy(runs[STATE] + LOGODWEN_AT_WRITE, bytes, sizeof bytes);
    logodwen_put_pm(runs[STATE] + LOGODWEN_AT_JOINED, 0, words);
    CHECK(logodwen_refusal(REQUEST(1000, 1, LOGODWEN_BC_END, 1)) == expected && logodwen_refusal(ERASE(1)) == expected);
    unsigned unasked = expected == 0 ? LOGODWEN_REFUSED_UNASKED : expected;
    CHECK(POLL(1000) == unasked && SLAVE_REPLY(1000, 5, LOGODWEN_BC_END, 0) == unasked);
    CHECK(expected != 0 || (stands ? is_standing(link, words) : is_none_standing()));
}

static void test_write_bytes(void) {
    check_write(0, 0, 0, 0, 0, 0);
    for (uint8_t link = 0; link < 2; link++) {
        check_write(1, link, 0, 0, 0, 0);
        check_write(1, link, 0, 0, 1, 0);
        check_write(1, link, 0, 0, LOGODWEN_AREA_WORDS, 0);
    }
    static const uint32_t words[] = {LOGODWEN_AREA_WORDS + 1, 65535, 65536, 0x1000000, 0x80000000, 0xFFFFFFFF};
    for (size_t i = 0; i < sizeof words / sizeof *words; i++) {
        check_write(1, 0, 0, 0, words[i], LOGODWEN_REFUSED_STATE);
        check_write(0, 0, 0, 0, words[i], LOGODWEN_REFUSED_STATE);
    }
    static const uint8_t wrong[][4] = {{2, 0, 0, 0}, {255, 0, 0, 0}, {1, 2, 0, 0}, {1, 255, 0, 0}, {1, 0, 1, 0},
                                       {1, 0, 0, 1}, {0, 1, 0, 0},   {0, 0, 1, 0}, {0, 0, 0, 128}};
    for (size_t i = 0; i < sizeof wrong / sizeof *wrong; i++)
        check_write(wrong[i][0], wrong[i][1], wrong[i][2], wrong[i][3], 0, LOGODWEN_REFUSED_STATE);
    check_write(0, 0, 0, 0, 1, LOGODWEN_REFUSED_STATE);
}

/* Slaves 5 and 7 are asked for link 1, from word 2 on of its request. */
static void ask_two(size_t shift) {
    lay_out(shift);
    CHECK(START(LOGODWEN_CDDC, 2, 0) == LOGODWEN_DONE);
    PACKET_OF(0xA023, 0x0000, 0x122E);
    CHECK(REQUEST(1000, 1, LOGODWEN_BC_WHOLE, 0) == ask(5, 2));
}

/* Of a group: the words that have come in packets have room, with those built and what is to come; the RX status is 0 where none has. */
static void check_received(uint32_t built, uint32_t words, uint16_t status, uint16_t zero, unsigned expected) {
    ask_two(0);
    logodwen_put_pm(runs[STATE] + LOGODWEN_AT_BUILT, 0, built);
    logodwen_put_pm(runs[STATE] + LOGODWEN_AT_RECEIVED, 0, words);
    logodwen_put(runs[STATE] + LOGODWEN_AT_RX_STATUS, 0, status);
    logodwen_put(runs[STATE] + LOGODWEN_AT_RX_STATUS, 1, zero);
    CHECK(logodwen_refusal(ERASE(1)) == expected && logodwen_refusal(POLL(1000)) == expected);
    CHECK(expected != 0 || is_received(words, status));
    lengths[PACKET] = 0;
    CHECK(logodwen_refusal(REQUEST(1000, 0, LOGODWEN_BC_END, 0)) == expected);
    CHECK(logodwen_refusal(SLAVE_REPLY(1000, 5, LOGODWEN_BC_END, 0)) == expected);
}

static void test_received_bytes(void) {
    static const uint32_t builts[] = {0, 100, 12271}; /* with 12,271 there is room for two slaves' fragments of five, and the end */
    for (size_t i = 0; i < sizeof builts / sizeof *builts; i++) {
        uint32_t room = LOGODWEN_REPLY_WORDS - builts[i] - 5 - LOGODWEN_TAIL_WORDS;
        check_received(builts[i], 0, 0, 0, 0);
        check_received(builts[i], 1, 0, 0, 0);
        check_received(builts[i], room, 0xFFFF, 0, 0);
        check_received(builts[i], room + 1, 0, 0, LOGODWEN_REFUSED_STATE);
        check_received(builts[i], 0xFFFFFFFF - builts[i], 0, 0, LOGODWEN_REFUSED_STATE); /* nothing wraps */
        check_received(builts[i], 0xFFFFFFFF, 0, 0, LOGODWEN_REFUSED_STATE);
    }
    check_received(0, 0, 1, 0, LOGODWEN_REFUSED_STATE);
    check_received(0, 0, 0x8000, 0, LOGODWEN_REFUSED_STATE);
    for (uint32_t words = 0; words < 2; words++) {
        check_received(0, words, 0, 1, LOGODWEN_REFUSED_STATE);
        check_received(0, words, 0, 0x8000, LOGODWEN_REFUSED_STATE);
    }
    lend_with(0x20); /* a single slave has none of it */
    for (size_t at = LOGODWEN_AT_RECEIVED; at < LOGODWEN_AT_LISTED; at++) {
        runs[STATE][at] = 1;
        CHECK(POLL(1000) == LOGODWEN_REFUSED_STATE && SLAVE_REPLY(1000, 5, LOGODWEN_BC_END, 0) == LOGODWEN_REFUSED_STATE);
        runs[STATE][at] = 0;
    }
}

/* An unfinished last word is ignored, and stays, of every run but the flash. (look_round sees that it does.) */
static void test_odd_lengths(void) {
    for (size_t extra = 0; extra < 4; extra++) {
        lend_with(0);
        lengths[PM] = 256 + extra;
        lengths[DM] = 128 + extra % 2;
        lengths[IO] = 128 + extra % 2;
        lengths[REPLY] = LOGODWEN_REPLY_BYTES + extra % 2;
        lengths[AREA] = LOGODWEN_AREA_BYTES + extra;
        lengths[EVENTS] = LOGODWEN_EVENTS_BYTES + extra;
        file_write(0x7211);
        lengths[PACKET] += extra % 2;
        CHECK(REQUEST(1000, 0, LOGODWEN_BC_WHOLE, 0) == zero_length(LOGODWEN_BC_END));
        PACKET_OF(0x462E, 0x0210);
        CHECK(REQUEST(1000, 0, LOGODWEN_BC_WHOLE, 0) == zero_length(LOGODWEN_BC_END));
        CHECK(logodwen_get(runs[DM], 0) == 0xCAFE && logodwen_get(runs[DM], 1) == 0xF00D);
        PACKET_OF(0x472E, 0x0200);
        CHECK(REQUEST(1000, 0, LOGODWEN_BC_WHOLE, 0) == zero_length(LOGODWEN_BC_END));
        CHECK(ERASE(2047) == (uint64_t)2047 << 32 && ERASE(UINT64_MAX) == (uint64_t)1 << 32 && ERASE(1) == 0);
    }
    lend_with(0x20);
    lengths[PACKET] = 1; /* no word, so never refusal 6 */
    CHECK(REQUEST(1000, 0, LOGODWEN_BC_WHOLE, 0) == zero_length(LOGODWEN_BC_ABORT));
    CHECK(REQUEST(1000, 0, LOGODWEN_BC_ABORT, 0) == zero_length(LOGODWEN_BC_END));
}

static void test_null(void) {
    lend_with(0);
    lengths[PM] = lengths[DM] = lengths[IO] = 0;
    CHECK(REQUEST(1000, 0, LOGODWEN_BC_WHOLE, 0) == with_words(3));
    lengths[PACKET] = 0;
    CHECK(REQUEST(1000, 0, LOGODWEN_BC_WHOLE, 0) == zero_length(LOGODWEN_BC_ABORT));
    lengths[REPLY] = 0;
    CHECK(REQUEST(1000, 0, LOGODWEN_BC_WHOLE, 0) == LOGODWEN_REFUSED_REPLY_SIZE && POLL(0) == LOGODWEN_REFUSED_REPLY_SIZE);
    CHECK(SLAVE_REPLY(0, 0, 0, 0) == LOGODWEN_REFUSED_REPLY_SIZE);
    lengths[REPLY] = LOGODWEN_REPLY_BYTES;
    lengths[LIST] = 0; /* no record, and none listed */
    CHECK(REQUEST(1000, 0, LOGODWEN_BC_WHOLE, 0) == zero_length(LOGODWEN_BC_ABORT) && SLOW(1000) == nothing());
    put_listing(1, 0);
    CHECK(REQUEST(1000, 0, LOGODWEN_BC_WHOLE, 0) == LOGODWEN_REFUSED_LIST_SIZE && SLOW(1000) == LOGODWEN_REFUSED_LIST_SIZE);
    put_listing(0, 0);
    lengths[EVENTS] = 0;
    CHECK(REQUEST(1000, 0, LOGODWEN_BC_WHOLE, 0) == LOGODWEN_REFUSED_EVENTS_SIZE && BUILD(0) == LOGODWEN_REFUSED_EVENTS_SIZE);
    CHECK(POLL(0) == LOGODWEN_REFUSED_EVENTS_SIZE && SLAVE_REPLY(0, 0, 0, 0) == LOGODWEN_REFUSED_EVENTS_SIZE);
    lengths[AREA] = 0;
    CHECK(REQUEST(1000, 0, LOGODWEN_BC_WHOLE, 0) == LOGODWEN_REFUSED_AREA_SIZE);
    lengths[FLASH] = 0;
    CHECK(REQUEST(1000, 0, LOGODWEN_BC_WHOLE, 0) == LOGODWEN_REFUSED_FLASH_SIZE && ERASE(1) == LOGODWEN_REFUSED_FLASH_SIZE);
    lengths[STATE] = 0;
    CHECK(REQUEST(1000, 0, LOGODWEN_BC_WHOLE, 0) == LOGODWEN_REFUSED_FLASH_SIZE && SLOW(1000) == LOGODWEN_REFUSED_STATE);
}

/* Write and read back with every run at every shift from an aligned place. */
static void test_alignment(void) {
    for (size_t shift = 0; shift < 9; shift++) {
        lay_out(shift);
        CHECK(START(LOGODWEN_CDP, 1, 0) == LOGODWEN_DONE);
        file_write(0x7211);
        CHECK(REQUEST(0, 0, LOGODWEN_BC_WHOLE, 0) == zero_length(LOGODWEN_BC_END));
        uint8_t kept[12];
        memcpy(kept, runs[PACKET] + 2, sizeof kept);
        PACKET_OF(0x052E, 0x0210);
        CHECK(REQUEST(0, 0, LOGODWEN_BC_WHOLE, 0) == with_words(8) && memcmp(runs[REPLY], kept, sizeof kept) == 0);
        CHECK(reply_word(6) == 0x01A0 && reply_word(7) == logodwen_fcs(runs[REPLY], 7));
        PACKET_OF(0x502E, 0x0002, 0x0000, 0xAABB, 0xCC00, 0);
        logodwen_put(runs[PACKET], 5, logodwen_fcs(runs[PACKET] + 6, 2));
        CHECK(REQUEST(0, 0, LOGODWEN_BC_WHOLE, 0) == zero_length(LOGODWEN_BC_END) && logodwen_get_pm(runs[PM], 0) == 0xAABBCC);
    }
}

/* The directory: its words, and what becomes of a request on files. */

static uint8_t *entry_word(unsigned sector, size_t place) {
    return runs[STATE] + LOGODWEN_AT_DIRECTORY + 8 * (sector - LOGODWEN_SECTOR_FIRST) + 2 * place;
}

static uint16_t kept_length(unsigned sector) { return logodwen_get(entry_word(sector, 3), 0); }

/* Read, Test, Load and Attribute Set of file 21 find it bad: the first three count an error, and nothing else changes. */
static void check_bad(int line) {
    static const uint16_t ids[4] = {0x052E, 0x062E, 0x462E, 0x482E};
    for (size_t i = 0; i < 4; i++) {
        PACKET_OF(ids[i], 0x0210, 0x0001);
        lengths[PACKET] = ids[i] == 0x482E ? 6 : 4;
        uint16_t errors = state_word(LOGODWEN_AT_FLASH_ERRORS);
        uint64_t answered = request_at(1000, 0, LOGODWEN_BC_WHOLE, 0, line);
        check(ids[i] == 0x062E ? answered == with_words(3) && reply_word(0) == 0x8000 : answered == zero_length(LOGODWEN_BC_ABORT),
              "a bad file", line);
        check(state_word(LOGODWEN_AT_FLASH_ERRORS) == errors + (ids[i] != 0x482E), "Read, Test and Load count it", line);
        check(is_same(FLASH, 0, rooms[FLASH]) && is_same(STATE, LOGODWEN_AT_DIRECTORY, rooms[STATE]), "nothing else changes", line);
    }
}
#define CHECK_BAD() check_bad(__LINE__)

/* The fourth word is the length of a good sector's file, and 0 for any other sector (02, request 6). */
static void test_lengths(void) {
    lend_with(0);
    file_write(0x7211);
    CHECK(REQUEST(1000, 0, LOGODWEN_BC_WHOLE, 0) == zero_length(LOGODWEN_BC_END) && kept_length(3) == 6 && kept_length(4) == 0);
    PACKET_OF(0x482E, 0x0210, 0x0001);
    CHECK(REQUEST(1000, 0, LOGODWEN_BC_WHOLE, 0) == zero_length(LOGODWEN_BC_END) && kept_length(3) == 6);
    PACKET_OF(0x072E);
    CHECK(REQUEST(1000, 0, LOGODWEN_BC_WHOLE, 0) == with_words(34)
          && memcmp(runs[REPLY], runs[STATE] + LOGODWEN_AT_DIRECTORY, 64) == 0 && reply_word(3) == 6);
    CHECK(START(LOGODWEN_CDDC, 2, 0) == LOGODWEN_DONE && kept_length(3) == 6);
    static const uint16_t others[] = {0, 5, 7, 0x0106, 0x8006};
    for (size_t i = 0; i < sizeof others / sizeof *others; i++) { /* an entry with another length differs */
        logodwen_put(entry_word(3, 3), 0, others[i]);
        CHECK_BAD();
    }
    logodwen_put(entry_word(3, 3), 0, 6);
    PACKET_OF(0x052E, 0x0210);
    CHECK(REQUEST(1000, 0, LOGODWEN_BC_WHOLE, 0) == with_words(8));
    logodwen_put(entry_word(4, 3), 0, 1); /* a sector that is empty but has a length is not empty to a write */
    file_write(0x7221);
    CHECK(REQUEST(1000, 0, LOGODWEN_BC_WHOLE, 0) == zero_length(LOGODWEN_BC_END) && kept_length(4) == 1 && kept_length(5) == 6);
    PACKET_OF(0x472E, 0x0211);
    CHECK(REQUEST(1000, 0, LOGODWEN_BC_WHOLE, 0) == zero_length(LOGODWEN_BC_END) && kept_length(3) == 0);
    CHECK(ERASE(1) == (uint64_t)1 << 32 && kept_length(3) == 0 && ERASE(unit() - 1) == (uint64_t)(unit() - 1) << 32 && kept_length(3) == 0);
    runs[FLASH][2 * logodwen_sector_start(flash_bytes, 5) + 8] ^= 1; /* a bad sector has none */
    CHECK(START(LOGODWEN_CDDC, 2, 0) == LOGODWEN_DONE && kept_length(4) == 0 && kept_length(5) == 0
          && logodwen_get(entry_word(5, 2), 0) == 0x8000);
}

/* Words behind a file that are not all FFFF make its sector bad; the sector's last word counts, and the next sector's first does not (02,
   request 5). */
static void test_remains(void) {
    const size_t words[] = {6, 7, 1000, unit() - 2, unit() - 1}, start = logodwen_sector_start(flash_bytes, 3);
    for (size_t i = 0; i < sizeof words / sizeof *words; i++) {
        lend_with(0);
        file_write(0x7211);
        CHECK(REQUEST(1000, 0, LOGODWEN_BC_WHOLE, 0) == zero_length(LOGODWEN_BC_END));
        logodwen_put(runs[FLASH], start + words[i], (uint16_t)(0xFFFF ^ 1u << 3 * i));
        CHECK_BAD(); /* its entry differs now */
        CHECK(START(LOGODWEN_CDDC, 2, 0) == LOGODWEN_DONE && logodwen_get(entry_word(3, 2), 0) == 0x8000 && kept_length(3) == 0);
        CHECK_BAD();
        file_write(0x7211);
        CHECK(REQUEST(1000, 0, LOGODWEN_BC_WHOLE, 0) == zero_length(LOGODWEN_BC_ABORT)); /* the name is used */
        PACKET_OF(0x472E, 0x0211);
        CHECK(REQUEST(1000, 0, LOGODWEN_BC_WHOLE, 0) == zero_length(LOGODWEN_BC_END) && ERASE(unit()) == (uint64_t)unit() << 32);
        file_write(0x7211);
        CHECK(REQUEST(1000, 0, LOGODWEN_BC_WHOLE, 0) == zero_length(LOGODWEN_BC_END) && kept_length(3) == 6);
    }
    for (size_t length = unit() - 1; length <= unit(); length++) { /* with one word behind it, and with none */
        lend_with(0);
        CHECK(lay_long_file(runs[FLASH] + 2 * start, 0x21, length) == length);
        logodwen_put(runs[FLASH], start + unit(), 0); /* sector 4 */
        CHECK(START(LOGODWEN_CDDC, 2, 0) == LOGODWEN_DONE && kept_length(3) == length && kept_length(4) == 0);
        PACKET_OF(0x062E, 0x0210);
        CHECK(REQUEST(1000, 0, LOGODWEN_BC_WHOLE, 0) == with_words(3) && reply_word(0) == 0);
        PACKET_OF(0x052E, 0x0210);
        CHECK(REQUEST(1000, 0, LOGODWEN_BC_WHOLE, 0) == (length <= 12286 ? with_words(length + 2) : zero_length(LOGODWEN_BC_ABORT)));
    }
}

/* Of a name that several sectors have, Read, Test, Load, Attribute Set and Erase by name are ABORT; Read and Load count an error, and
   nothing else changes. Write finds it used (02, request 10). */
static void check_several(int line) {
    static const uint16_t ids[6] = {0x052E, 0x062E, 0x462E, 0x482E, 0x472E, 0x452E};
    for (size_t i = 0; i < 6; i++) {
        PACKET_OF(ids[i], 0x0211, 0x0001);
        lengths[PACKET] = ids[i] == 0x482E ? 6 : 4;
        if (ids[i] == 0x452E)
            file_write(0x7211);
        uint16_t errors = state_word(LOGODWEN_AT_FLASH_ERRORS);
        check(request_at(1000, 0, LOGODWEN_BC_WHOLE, 0, line) == zero_length(LOGODWEN_BC_ABORT), "several: ABORT", line);
        check(state_word(LOGODWEN_AT_FLASH_ERRORS) == errors + (ids[i] == 0x052E || ids[i] == 0x462E), "Read and Load count it", line);
        check(is_same(FLASH, 0, rooms[FLASH]) && is_same(STATE, LOGODWEN_AT_ERASING, rooms[STATE]), "nothing else changes", line);
    }
}
#define CHECK_SEVERAL() check_several(__LINE__)

static void test_names_twice(void) {
    for (unsigned bad = 0; bad < 4; bad++) { /* a bit for each of two sectors */
        lend_with(0);
        file_write(0x7211);
        for (unsigned sector = 3; sector <= 5; sector += 2) {
            uint8_t *to = runs[FLASH] + 2 * logodwen_sector_start(flash_bytes, sector);
            memcpy(to, runs[PACKET] + 2, 12);
            to[8] ^= (uint8_t)(sector == 3 ? bad & 1 : bad >> 1);
        }
        CHECK(START(LOGODWEN_CDDC, 2, 0) == LOGODWEN_DONE && kept_length(3) == (bad & 1 ? 0 : 6) && kept_length(5) == (bad & 2 ? 0 : 6));
        CHECK_SEVERAL();
        PACKET_OF(0x472E, 0x0200); /* by address as before */
        CHECK(REQUEST(1000, 0, LOGODWEN_BC_WHOLE, 0) == zero_length(LOGODWEN_BC_END) && ERASE(1) == (uint64_t)1 << 32);
        PACKET_OF(0x052E, 0x0210);
        CHECK(REQUEST(1000, 0, LOGODWEN_BC_WHOLE, 0) == zero_length(LOGODWEN_BC_ABORT) && ERASE(unit() - 1) == (uint64_t)(unit() - 1) << 32);
        CHECK(state_word(LOGODWEN_AT_FLASH_ERRORS) == 2);
        if (bad & 2)
            CHECK_BAD();
        PACKET_OF(0x052E, 0x0210); /* one is left, and serves */
        CHECK(REQUEST(1000, 0, LOGODWEN_BC_WHOLE, 0) == (bad & 2 ? zero_length(LOGODWEN_BC_ABORT) : with_words(8)));
        PACKET_OF(0x472E, 0x0211);
        CHECK(REQUEST(1000, 0, LOGODWEN_BC_WHOLE, 0) == zero_length(LOGODWEN_BC_END) && ERASE(2 * unit()) == (uint64_t)(2 * unit()) << 32);
        PACKET_OF(0x052E, 0x0210);
        CHECK(REQUEST(1000, 0, LOGODWEN_BC_WHOLE, 0) == zero_length(LOGODWEN_BC_END));
    }
    lend_with(0); /* the search goes by the directory */
    file_write(0x7211);
    CHECK(REQUEST(1000, 0, LOGODWEN_BC_WHOLE, 0) == zero_length(LOGODWEN_BC_END));
    logodwen_put(entry_word(10, 0), 0, 0x021E);
    CHECK_SEVERAL();
    logodwen_put(entry_word(10, 0), 0, 0x021F); /* which starts no file */
    PACKET_OF(0x052E, 0x0210);
    CHECK(REQUEST(1000, 0, LOGODWEN_BC_WHOLE, 0) == with_words(8));
}

/* A flash of either size (02, request 11). */

/* Bytes that are no size's, a byte over or short of one included, and the size that was not used at start, are refused by 1 in every call that
   is lent a flash, before all other causes; and by a list with none done. */
static void test_flash_lengths(void) {
    const size_t used = flash_bytes, other = LOGODWEN_FLASH_BYTES + LOGODWEN_FLASH_FULL_BYTES - used;
    const size_t wrong[] = {0,        1,        2,         used / 2,     used - 2,  used - 1,  used + 1, used + 2,
                            other - 2, other - 1, other + 1, other + 2, other / 2, other};
    flash_bytes = LOGODWEN_FLASH_FULL_BYTES; /* so that each of these is really there */
    lay_out(0);
    lengths[FLASH] = used;
    CHECK(START(LOGODWEN_CDDC, 2, 0) == LOGODWEN_DONE && state_long(LOGODWEN_AT_FLASH_WORDS) == used / 2);
    for (size_t i = 0; i < sizeof wrong / sizeof *wrong; i++) {
        lengths[FLASH] = wrong[i];
        PACKET_OF(0x122E);
        CHECK(REQUEST(1000, 9, LOGODWEN_BC_WHOLE, 0) == LOGODWEN_REFUSED_FLASH_SIZE && ERASE(1) == LOGODWEN_REFUSED_FLASH_SIZE);
        PACKET_OF(0, 3, 1, 0x122E);
        CHECK(REQUESTS(1000) == done(0) && is_same(STATE, 0, rooms[STATE]) && is_same(FLASH, 0, rooms[FLASH])
              && is_same(REPLIES, 0, rooms[REPLIES]));
        lengths[STATE]--; /* the size used at start is not told then */
        CHECK(ERASE(1) == (wrong[i] == other ? LOGODWEN_REFUSED_STATE : LOGODWEN_REFUSED_FLASH_SIZE));
        lengths[STATE]++;
        if (wrong[i] != other)
            CHECK(START(0, 0, 9) == LOGODWEN_REFUSED_FLASH_SIZE);
        CHECK(POLL(1000) == LOGODWEN_REFUSED_UNASKED && SLOW(1000) == nothing()); /* these are not lent it */
    }
    lengths[FLASH] = other; /* another start, another size */
    CHECK(START(LOGODWEN_CDDC, 2, 0) == LOGODWEN_DONE && state_long(LOGODWEN_AT_FLASH_WORDS) == other / 2);
    lengths[FLASH] = used;
    CHECK(ERASE(1) == LOGODWEN_REFUSED_FLASH_SIZE);
    flash_bytes = used;
}

/* Whether the last call has changed no words of the flash but so many from one on. */
static int is_only_changed(size_t from, size_t words) {
    return is_same(FLASH, 0, 2 * from) && is_same(FLASH, 2 * (from + words), rooms[FLASH]);
}

static int are_blank(size_t from, size_t words) {
    size_t at = 2 * from;
    while (at < 2 * (from + words) && runs[FLASH][at] == 0xFF)
        at++;
    return at == 2 * (from + words);
}

/* Each file sector is where its number says: a file goes to the lowest, is read back from there, and is erased there and nowhere else. */
static void test_sectors(void) {
    static const uint16_t addresses[8] = {0x0200, 0x0400, 0x0800, 0x0C00, 0x1000, 0x1400, 0x1800, 0x1C00};
    lend_with(0);
    for (unsigned sector = 3; sector <= 10; sector++) {
        size_t words = sector == 3 ? unit() : 2 * unit(), from = sector == 3 ? unit() : 2 * unit() * (sector - 3);
        CHECK(logodwen_sector_words(flash_bytes, sector) == words && logodwen_sector_start(flash_bytes, sector) == from);
        file_write((uint16_t)(0x7001 | sector << 4));
        CHECK(REQUEST(1000, 0, LOGODWEN_BC_WHOLE, 0) == zero_length(LOGODWEN_BC_END) && kept_length(sector) == 6);
        CHECK(is_only_changed(from, 6) && memcmp(runs[FLASH] + 2 * from, runs[PACKET] + 2, 12) == 0);
        PACKET_OF(0x482E, (uint16_t)(sector << 4), 0x0001);
        CHECK(REQUEST(1000, 0, LOGODWEN_BC_WHOLE, 0) == zero_length(LOGODWEN_BC_END) && is_only_changed(from, 1));
        PACKET_OF(0x052E, (uint16_t)(sector << 4));
        CHECK(REQUEST(1000, 0, LOGODWEN_BC_WHOLE, 0) == with_words(8) && memcmp(runs[REPLY], runs[FLASH] + 2 * from, 12) == 0);
    }
    for (unsigned sector = 3; sector <= 10; sector++) {
        size_t words = logodwen_sector_words(flash_bytes, sector), from = logodwen_sector_start(flash_bytes, sector);
        PACKET_OF(0x472E, addresses[sector - 3]);
        CHECK(REQUEST(1000, 0, LOGODWEN_BC_WHOLE, 0) == zero_length(LOGODWEN_BC_END) && is_same(FLASH, 0, rooms[FLASH]));
        CHECK(ERASE(100) == (uint64_t)100 << 32 && is_only_changed(from, 100) && are_blank(from, 100));
        memset(runs[FLASH] + 2 * from, 0, 2 * words); /* what an erasure goes on with is set, whatever stood there */
        CHECK(ERASE(UINT64_MAX) == (uint64_t)(words - 100) << 32 && is_only_changed(from + 100, words - 100));
        CHECK(are_blank(from + 100, words - 100) && ERASE(1) == 0);
        memset(runs[FLASH] + 2 * from, 0xFF, 2 * words);
    }
    CHECK(logodwen_sector_words(flash_bytes, 2) == 0 && logodwen_sector_start(flash_bytes, 11) == 0);
    CHECK(logodwen_sector_words(flash_bytes / 2, 3) == 0 && logodwen_sector_start(flash_bytes + 1, 3) == 0);
}

/* A file in packets of 8,192 words, and the answer to the last. */
static uint64_t write_long(const uint8_t *file, size_t words) {
    uint64_t answered = zero_length(LOGODWEN_BC_NEXT);
    uint32_t bc;
    for (size_t at = 0, laid; (laid = logodwen_make_file_packet(runs[PACKET], LOGODWEN_REQUEST_WORDS, file, words, &at, &bc)) != 0;) {
        CHECK(logodwen_is_next(answered));
        lengths[PACKET] = 2 * laid;
        answered = REQUEST(1000, 0, bc, 0);
    }
    return answered;
}

/* Long files: up to 32,768 words find a sector of a full flash, and none of a bench flash; up to 12,286 are read back, and all others stand in
   the flash as they came, tested and listed. */
static void test_long_files(void) {
    static const size_t all[] = {4096, 4097, 12286, 12287, 16384, 16385, 32767, 32768, 32769};
    static uint8_t file[LOGODWEN_AREA_BYTES + 2];
    for (size_t i = 0; i < sizeof all / sizeof *all; i++) {
        unsigned sector = all[i] <= unit() ? 3 : 4;
        size_t words = all[i], from = logodwen_sector_start(flash_bytes, sector), size = logodwen_sector_words(flash_bytes, sector);
        size_t last = from + size - 1;
        lay_out(i); /* at every shift from an aligned place */
        lengths[DM] = LOGODWEN_DM_BYTES;
        CHECK(START(LOGODWEN_CDDC, 2, 0) == LOGODWEN_DONE && lay_long_file(file, 0x21, words) == words);
        uint64_t answered = write_long(file, words);
        if (words > 2 * unit()) {
            CHECK(answered == zero_length(LOGODWEN_BC_ABORT) && is_same(FLASH, 0, rooms[FLASH]) && is_none_standing());
            continue;
        }
        CHECK(answered == zero_length(LOGODWEN_BC_END) && is_only_changed(from, words) && kept_length(sector) == words);
        CHECK(memcmp(runs[FLASH] + 2 * from, file, 2 * words) == 0);
        PACKET_OF(0x052E, 0x0210);
        answered = REQUEST(1000, 0, LOGODWEN_BC_WHOLE, 0);
        CHECK(answered == (words <= 12286 ? with_words(words + 2) : zero_length(LOGODWEN_BC_ABORT)));
        CHECK(words > 12286 || memcmp(runs[REPLY], file, 2 * words) == 0);
        PACKET_OF(0x062E, 0x0210);
        CHECK(REQUEST(1000, 0, LOGODWEN_BC_WHOLE, 0) == with_words(3) && reply_word(0) == 0);
        PACKET_OF(0x072E);
        CHECK(REQUEST(1000, 0, LOGODWEN_BC_WHOLE, 0) == with_words(34) && reply_word(4 * (sector - 3) + 3) == words);
        PACKET_OF(0x462E, 0x0210); /* all its segments begin alike */
        CHECK(REQUEST(1000, 0, LOGODWEN_BC_WHOLE, 0) == zero_length(LOGODWEN_BC_END) && memcmp(runs[DM], file + 6, 2 * 90) == 0);
        CHECK(START(LOGODWEN_CDDC, 2, 0) == LOGODWEN_DONE && kept_length(sector) == words);
        logodwen_put(runs[FLASH], last, logodwen_get(runs[FLASH], last) ^ 0x8000); /* in the file, or behind it */
        CHECK_BAD();
        PACKET_OF(0x472E, 0x0211);
        CHECK(REQUEST(1000, 0, LOGODWEN_BC_WHOLE, 0) == zero_length(LOGODWEN_BC_END) && ERASE(1000) == (uint64_t)1000 << 32);
        CHECK(state_long(LOGODWEN_AT_ERASED) == 1000 && runs[STATE][LOGODWEN_AT_ERASING] == sector);
        CHECK(ERASE(UINT64_MAX) == (uint64_t)(size - 1000) << 32 && are_blank(from, size) && runs[STATE][LOGODWEN_AT_ERASING] == 0);
    }
}

/* A list writes a long file in packets, and reads it back. */
static void test_series_of_long_file(void) {
    enum { WORDS = 12000 };
    static uint8_t file[2 * WORDS];
    uint8_t read[LOGODWEN_COMMAND_BYTES];
    struct logodwen_packets list;
    lend_with(0);
    logodwen_packets_begin(&list, runs[PACKET], rooms[PACKET] / 2);
    CHECK(lay_long_file(file, 0x21, WORDS) == WORDS && logodwen_packets_add_file(&list, 0, file, WORDS));
    CHECK(logodwen_packets_add(&list, 0, LOGODWEN_BC_WHOLE, read, logodwen_make_file_read(read, 0x21)));
    lengths[PACKET] = 2 * list.words;
    CHECK(REQUESTS(1000) == done(3) && kept_length(3) == WORDS && is_only_changed(unit(), WORDS));
    CHECK(logodwen_get(runs[REPLIES], 5) == WORDS + 2 && memcmp(runs[REPLIES] + 12, file, sizeof file) == 0);
}

static void test_group(void) {
    lay_out(3);
    CHECK(START(LOGODWEN_CDDC, 2, 0) == LOGODWEN_DONE);
    PACKET_OF(0xA023, 0x8000, 0x0C2E);
    CHECK(REQUEST(0xFFFFFFF0, 1, LOGODWEN_BC_WHOLE, 0) == ask(5, 2));
    const uint8_t *state = runs[STATE];
    CHECK(state[LOGODWEN_AT_PENDING] == 2 && state[LOGODWEN_AT_LINK] == 1 && state[LOGODWEN_AT_SLAVE] == 5
          && state[LOGODWEN_AT_FROM] == 2);
    CHECK(state_long(LOGODWEN_AT_ASKED) == 0x8000A0 && state_long(LOGODWEN_AT_ASKED_AT) == 0xFFFFFFF0);
    lengths[PACKET] = 0;
    CHECK(SLAVE_REPLY(0xFFFFFFF8, 5, LOGODWEN_BC_ABORT, 0) == ask(7, 2));
    CHECK(runs[STATE][LOGODWEN_AT_TALLY] == 2 && state_long(LOGODWEN_AT_BUILT) == 2);
    PACKET_OF(0xAAAA, 0x0001, 0x01A0, 0);
    logodwen_put(runs[PACKET], 3, logodwen_fcs(runs[PACKET], 3));
    CHECK(SLAVE_REPLY(0xFFFFFFF9, 7, LOGODWEN_BC_WHOLE, 0) == ask(23, 2) && runs[STATE][LOGODWEN_AT_TALLY] == 6);
    CHECK(POLL(0x34) == (uint64_t)LOGODWEN_WAITING << 8);
    uint64_t answered = POLL(0x35);
    CHECK(answered == with_words(10) && logodwen_words(answered) == 10 && logodwen_bc(answered) == 3);
    static const uint16_t words[9] = {0x0001, 0x1005, 0x0003, 0xAAAA, 0x0001, 0x81A7, 0x0001, 0x2817, 0x0300};
    for (size_t i = 0; i < 9; i++)
        CHECK(reply_word(i) == words[i]);
    CHECK(reply_word(9) == logodwen_fcs(runs[REPLY], 9));
    CHECK(POLL(0x36) == LOGODWEN_REFUSED_UNASKED);
}

/* Slaves that answer in packets (02, request 8). */

/* Whether these words stand in a run from a word on. */
static int are_words(int run, size_t from, size_t count, const uint16_t *words) {
    for (size_t i = 0; i < count; i++)
        if (logodwen_get(runs[run], from + i) != words[i])
            return 0;
    return 1;
}

static int is_buffer(size_t from, size_t count, const uint16_t *words) { return are_words(REPLY, from, count, words); }
#define IS_BUFFER(from, ...) is_buffer(from, sizeof(uint16_t[]){__VA_ARGS__} / 2, (const uint16_t[]){__VA_ARGS__})

/* Packets of a reply stand behind the fragments, each asks anew, and the last makes a fragment of all; no other word of the buffer changes. */
static void test_packets(void) {
    ask_two(3);
    const size_t end = rooms[REPLY];
    rx_status = 0x1234;
    PACKET_OF(0xAAAA, 0x0001);
    lengths[PACKET]++; /* an odd byte is no word */
    CHECK(SLAVE_REPLY(1059, 5, 0x100 | LOGODWEN_BC_FIRST, 0) == send_next(5) && is_received(2, 0x1234));
    CHECK(state_long(LOGODWEN_AT_ASKED_AT) == 1059 && state_long(LOGODWEN_AT_BUILT) == 0 && runs[STATE][LOGODWEN_AT_TALLY] == 0);
    CHECK(IS_BUFFER(1, 0xAAAA, 0x0001) && is_same(REPLY, 0, 2) && is_same(REPLY, 6, end));
    CHECK(SLAVE_REPLY(1059, 7, LOGODWEN_BC_MIDDLE, 0) == LOGODWEN_REFUSED_UNASKED);
    CHECK(POLL(1118) == (uint64_t)LOGODWEN_WAITING << 8);
    rx_status = 0;
    PACKET_OF(0x0002);
    CHECK(SLAVE_REPLY(1118, 5, LOGODWEN_BC_MIDDLE, 0) == send_next(5) && is_received(3, 0));
    CHECK(IS_BUFFER(3, 0x0002) && is_same(REPLY, 0, 6) && is_same(REPLY, 8, end));
    PACKET_OF(0xAAAA, 0x0001, 0x0002, 0x01A0, 0);
    uint16_t seal = logodwen_fcs(runs[PACKET], 4);
    PACKET_OF(0x01A0, seal);
    CHECK(SLAVE_REPLY(1177, 5, LOGODWEN_BC_LAST, 0) == ask(7, 2) && is_received(0, 0) && state_long(LOGODWEN_AT_BUILT) == 5);
    CHECK(IS_BUFFER(0, 0x0004, 0xAAAA, 0x0001, 0x0002, 0x81A5) && is_same(REPLY, 2, 8) && is_same(REPLY, 10, end));
    CHECK(runs[STATE][LOGODWEN_AT_TALLY] == 5 && state_long(LOGODWEN_AT_ASKED_AT) == 1177);
    PACKET_OF(0x0027); /* status word and FCS alone, each in a packet */
    seal = logodwen_fcs(runs[PACKET], 1);
    CHECK(SLAVE_REPLY(1177, 7, LOGODWEN_BC_FIRST, 0) == send_next(7) && is_received(1, 0) && IS_BUFFER(6, 0x0027));
    PACKET_OF(seal);
    CHECK(SLAVE_REPLY(1177, 7, LOGODWEN_BC_LAST, 0) == with_words(9) && IS_BUFFER(5, 0x0001, 0x8027, 0x0100));
    CHECK(reply_word(8) == logodwen_fcs(runs[REPLY], 8) && is_received(0, 0) && runs[STATE][LOGODWEN_AT_PENDING] == 0);
}

/* A reply in packets gives the fragment that it gives in one, however it is divided, with every run at every shift. */
static void test_packet_divisions(void) {
    static const uint16_t words[5] = {0xAAAA, 0x0001, 0x8000, 0xFFFF, 0x05E0};
    for (size_t first = 1; first <= 5; first++)
        for (size_t second = 0; first + second <= 5; second++) { /* 0: two packets */
            static uint8_t state[LOGODWEN_STATE_BYTES], reply[14];
            uint8_t whole[12];
            ask_two(first + second);
            packet(5, words);
            logodwen_put(runs[PACKET], 5, logodwen_fcs(runs[PACKET], 5));
            memcpy(whole, runs[PACKET], lengths[PACKET] = sizeof whole);
            CHECK(SLAVE_REPLY(1009, 5, LOGODWEN_BC_WHOLE, 0) == ask(7, 2));
            memcpy(state, runs[STATE], sizeof state);
            memcpy(reply, runs[REPLY], sizeof reply);
            ask_two(first + second);
            memcpy(runs[PACKET], whole, lengths[PACKET] = 2 * first);
            CHECK(SLAVE_REPLY(1007, 5, LOGODWEN_BC_FIRST, 0) == send_next(5));
            memcpy(runs[PACKET], whole + 2 * first, lengths[PACKET] = 2 * second);
            CHECK(second == 0 || SLAVE_REPLY(1008, 5, LOGODWEN_BC_MIDDLE, 0) == send_next(5));
            CHECK(is_received((uint32_t)(first + second), rx_status));
            memcpy(runs[PACKET], whole + 2 * (first + second), lengths[PACKET] = 2 * (6 - first - second));
            CHECK(SLAVE_REPLY(1009, 5, LOGODWEN_BC_LAST, 0) == ask(7, 2));
            CHECK(memcmp(state, runs[STATE], sizeof state) == 0 && memcmp(reply, runs[REPLY], sizeof reply) == 0);
        }
}

/* Six words of slave 5's reply have come, with RX status 1234, at 1001. */
static void begin_packets(void) {
    ask_two(5);
    rx_status = 0x1234;
    PACKET_OF(0x1111, 0x2222, 0x3333, 0x4444, 0x5555, 0x6666);
    CHECK(SLAVE_REPLY(1001, 5, LOGODWEN_BC_FIRST, 0) == send_next(5) && is_received(6, 0x1234));
    rx_status = 0x5678;
}

/* The reply has ended in a fragment of five words, with this code, RX status and count; what had come past it stays. The group goes on,
   and is a group's reply. */
static void check_ended(uint64_t answered, unsigned code, uint16_t status, uint16_t count, int line) {
    static const uint16_t past[2] = {0x5555, 0x6666};
    const uint16_t words[5] = {0x0004, status, count, 0x1111, (uint16_t)(code << 11 | 5)};
    check(answered == ask(7, 2) && is_buffer(0, 5, words), "a fragment of five words", line);
    check(is_received(0, 0) && state_long(LOGODWEN_AT_BUILT) == 5 && runs[STATE][LOGODWEN_AT_TALLY] == 6, "the next is asked", line);
    check(is_buffer(5, 2, past) && is_same(REPLY, 14, rooms[REPLY]), "what had come stays, and nothing more is stored", line);
    check(state_word(LOGODWEN_AT_AMSWIRE_ERRORS) == 0, "no error is counted", line);
    lengths[PACKET] = 0;
    uint64_t ended = reply_at(1060, 7, LOGODWEN_BC_END, 0, line);
    check(ended == with_words(9) && logodwen_capture(0xA0, runs[REPLY], 18) == (uint64_t)LOGODWEN_ACCEPTED << 8, "a group's reply", line);
}
#define CHECK_ENDED(answered, code, status, count) check_ended(answered, code, status, count, __LINE__)

/* Each code of a later packet, first that applies. */
static void test_packet_codes(void) {
    begin_packets();
    CHECK_ENDED(POLL(1061), LOGODWEN_CODE_NEXT_LATE, 0x1234, 6);
    begin_packets();
    CHECK_ENDED(SLAVE_REPLY(1061, 5, LOGODWEN_BC_WHOLE, 1), LOGODWEN_CODE_NEXT_LATE, 0x1234, 6); /* it isn't looked at */
    for (uint32_t bc = 0; bc < 4; bc++) {
        begin_packets();
        lengths[PACKET] = 1;
        CHECK_ENDED(SLAVE_REPLY(1060, 5, bc, 0), LOGODWEN_CODE_NEXT_EMPTY, 0x5678, 6);
    }
    for (uint32_t bc = LOGODWEN_BC_FIRST; bc <= LOGODWEN_BC_WHOLE; bc++) {
        begin_packets();
        PACKET_OF(0x7777, 0x8888, 0x9999);
        CHECK_ENDED(SLAVE_REPLY(1060, 5, bc, 0), LOGODWEN_CODE_NEXT_FIRST, 0x5678, 9);
        begin_packets();
        lengths[PACKET] = LOGODWEN_SLAVE_REPLY_BYTES; /* room or not */
        CHECK_ENDED(SLAVE_REPLY(1060, 5, bc, 0), LOGODWEN_CODE_NEXT_FIRST, 0x5678, 6 + 32768);
    }
    for (uint32_t bc = LOGODWEN_BC_MIDDLE; bc <= LOGODWEN_BC_LAST; bc++) {
        begin_packets();
        lengths[PACKET] = 2 * (12281 - 6 + 1);
        CHECK_ENDED(SLAVE_REPLY(1060, 5, bc, 0), LOGODWEN_CODE_PACKET_NO_ROOM, 0x5678, 12282);
    }
    begin_packets();
    PACKET_OF(0x7777, 0x8888);
    CHECK_ENDED(SLAVE_REPLY(1060, 5, LOGODWEN_BC_LAST, 0), LOGODWEN_CODE_JOINED_FCS, 0x5678, 8);
    begin_packets(); /* the FCS of the last packet's own words is none */
    PACKET_OF(0x7777, 0);
    logodwen_put(runs[PACKET], 1, logodwen_fcs(runs[PACKET], 1));
    CHECK_ENDED(SLAVE_REPLY(1060, 5, LOGODWEN_BC_LAST, 0), LOGODWEN_CODE_JOINED_FCS, 0x5678, 8);
}

/* Receive errors on a later packet: the fragment of four words, with that packet's RX status and address, and one error counted. */
static void test_packet_errors(void) {
    for (uint32_t bc = 0; bc < 4; bc++) {
        begin_packets();
        lengths[PACKET] = bc == LOGODWEN_BC_LAST ? 0 : 4;
        CHECK(SLAVE_REPLY(1060, 5, bc, 0x100) == ask(7, 2) && IS_BUFFER(0, 0x0003, 0x5678, 0x00BB, 0x3005, 0x4444, 0x5555, 0x6666));
        CHECK(state_word(LOGODWEN_AT_AMSWIRE_ERRORS) == 1 && is_received(0, 0) && state_long(LOGODWEN_AT_BUILT) == 4);
    }
}

/* Up to the last word that there is room for; and a first packet without. Its words are looked at where they stand: in the packet. */
static void test_packet_room(void) {
    const size_t room = LOGODWEN_REPLY_WORDS - 5 - LOGODWEN_TAIL_WORDS; /* slave 7 is to come */
    for (size_t last = 1; last <= 2; last++) {
        ask_two(1);
        PACKET_OF(0x1111);
        lengths[PACKET] = 2 * (room - 1);
        logodwen_put(runs[PACKET], room - 2, 0x0020);
        uint16_t seal = logodwen_fcs(runs[PACKET], room - 1);
        CHECK(SLAVE_REPLY(1000, 5, LOGODWEN_BC_FIRST, 0) == send_next(5) && is_received((uint32_t)room - 1, rx_status));
        PACKET_OF(seal, 0);
        lengths[PACKET] = 2 * last;
        CHECK(SLAVE_REPLY(1000, 5, LOGODWEN_BC_LAST, 0) == ask(7, 2));
        CHECK(reply_word(0) == (last == 1 ? room - 1 : 4) && state_long(LOGODWEN_AT_BUILT) == (last == 1 ? room : 5));
        lengths[PACKET] = 0;
        CHECK(SLAVE_REPLY(1000, 7, LOGODWEN_BC_END, 0) == with_words(last == 1 ? room + 4 : 9));
    }
    static const size_t lengths_of_first[] = {12282, 32768};
    for (size_t i = 0; i < 2; i++) {
        ask_two(2);
        PACKET_OF(0xBEEF);
        lengths[PACKET] = 2 * lengths_of_first[i];
        CHECK(SLAVE_REPLY(1000, 5, LOGODWEN_BC_FIRST, 0) == ask(7, 2) && is_received(0, 0) && is_same(REPLY, 10, rooms[REPLY]));
        CHECK(IS_BUFFER(0, 0x0004, rx_status, (uint16_t)lengths_of_first[i], 0xBEEF, 0xD005));
    }
}

/* Its own link drops a group with what has come of a reply, and the buffer stays; a single slave's packet passes, whatever its BC. */
static void test_packets_dropped(void) {
    begin_packets();
    CHECK(REQUEST(1001, 1, LOGODWEN_BC_MIDDLE, 0) == LOGODWEN_REFUSED_BUSY);
    lengths[PACKET] = 0;
    CHECK(REQUEST(1001, 0, LOGODWEN_BC_ABORT, 0) == zero_length(LOGODWEN_BC_ABORT) && is_received(6, 0x1234));
    CHECK(REQUEST(1001, 1, LOGODWEN_BC_ABORT, 0) == zero_length(LOGODWEN_BC_END) && is_received(0, 0));
    CHECK(is_same(REPLY, 0, rooms[REPLY]) && IS_BUFFER(1, 0x1111, 0x2222));
    for (uint32_t bc = 0; bc < 4; bc++) {
        lend_with(0x20);
        PACKET_OF(0x1111, 0x2222);
        CHECK(SLAVE_REPLY(1000, 5, bc, 0) == ((uint64_t)LOGODWEN_REPLY << 8 | bc << 16 | (uint64_t)2 << 32) && is_received(0, 0));
        CHECK(IS_BUFFER(0, 0x1111, 0x2222));
    }
}

/* Captured group replies (02, request 3). */

static uint64_t capture_of(uint32_t mask, int line) {
    remember();
    uint64_t answered = logodwen_capture(mask, lent(PACKET), lengths[PACKET]);
    look_round(1, line); /* it changes no byte, refused or not */
    return answered;
}
#define CAPTURE(mask) capture_of(mask, __LINE__)

static uint64_t accepted(void) { return (uint64_t)LOGODWEN_ACCEPTED << 8; }
static uint64_t broken(uint64_t place) { return (uint64_t)LOGODWEN_BROKEN << 8 | place << 32; }

/* Lays a reply of these words and their FCS. */
static void capture_packet(size_t count, const uint16_t *words) {
    packet(count, words);
    logodwen_put(runs[PACKET], count, logodwen_fcs(runs[PACKET], count));
    lengths[PACKET] += 2;
}
#define CAPTURE_OF(...) capture_packet(sizeof(uint16_t[]){__VA_ARGS__} / 2, (const uint16_t[]){__VA_ARGS__})

/* 01's examples in one reply, with an odd byte behind it and without, at every shift from an aligned place; cut short anywhere; and with
   any one of its words changed where no other will do. */
static void test_capture(void) {
    for (size_t shift = 0; shift < 9; shift++) {
        lay_out(shift);
        CAPTURE_OF(0x0001, 0x1005, 0x0003, 0xAAAA, 0x0001, 0x81A7, 0x0001, 0x2817, 0x0300);
        CHECK(CAPTURE(0x8000A0) == accepted());
        lengths[PACKET]++;
        CHECK(CAPTURE(0x8000A0) == accepted());
        lengths[PACKET]++;
        CHECK(CAPTURE(0x8000A0) == broken(10));
        for (size_t words = 0; words < 10; words++)
            for (size_t odd = 0; odd < 2; odd++) {
                lengths[PACKET] = 2 * words + odd;
                CHECK(CAPTURE(0x8000A0) == broken(words));
            }
        lengths[PACKET] = 20;
        static const size_t judged[5] = {1, 5, 7, 8, 9}; /* statuses, node status, FCS */
        for (size_t i = 0; i < 5; i++) {
            runs[PACKET][2 * judged[i]] ^= 1;
            CHECK(CAPTURE(0x8000A0) == broken(judged[i]));
            runs[PACKET][2 * judged[i]] ^= 1;
        }
        CHECK(CAPTURE(0x8000A1) == broken(1) && CAPTURE(0x0000A0) == broken(6));
        CHECK(CAPTURE(0) == broken(0) && CAPTURE(0x1000000) == broken(0) && CAPTURE(0x18000A0) == broken(0));
    }
}

/* What the parts of the answer are, and that no other entry's part is among them. */
static void test_capture_answers(void) {
    CHECK(logodwen_answer(broken(7)) == LOGODWEN_BROKEN && logodwen_answer(accepted()) == LOGODWEN_ACCEPTED);
    CHECK(logodwen_refusal(broken(7)) == LOGODWEN_DONE && logodwen_refusal(accepted()) == LOGODWEN_DONE);
    CHECK(logodwen_place(broken(7)) == 7 && logodwen_place(broken(0)) == 0 && logodwen_place(accepted()) == LOGODWEN_NONE);
    CHECK(logodwen_words(broken(7)) == 0 && logodwen_words(accepted()) == 0);
    CHECK(logodwen_place(with_words(7)) == LOGODWEN_NONE && logodwen_place((uint64_t)7 << 32) == LOGODWEN_NONE);
    CHECK(logodwen_bc(broken(7)) == LOGODWEN_NONE && logodwen_slave(broken(7)) == LOGODWEN_NONE && !logodwen_is_next(broken(0)));
    CHECK(strcmp(logodwen_reply_text(broken(7)), "not a reply") == 0);
}

/* A fragment of each code of a reply in packets, at the bounds of its count and past them; slave 5 alone, so the room is 12,286. */
static void test_capture_packets(void) {
    static const struct {
        unsigned code;
        uint16_t least, most;
    } codes[] = {{LOGODWEN_CODE_NEXT_LATE, 1, 12286},
                 {LOGODWEN_CODE_NEXT_EMPTY, 1, 12286},
                 {LOGODWEN_CODE_NEXT_FIRST, 2, 0xFFFF},
                 {LOGODWEN_CODE_PACKET_NO_ROOM, 12287, 0xFFFF},
                 {LOGODWEN_CODE_JOINED_FCS, 2, 12286}};
    lay_out(0);
    for (size_t i = 0; i < sizeof codes / sizeof *codes; i++) {
        const uint16_t status = (uint16_t)(codes[i].code << 11 | 5), least = codes[i].least, most = codes[i].most;
        const uint16_t counts[5] = {0, (uint16_t)(least - 1), least, most, (uint16_t)(most + 1)};
        for (size_t j = 0; j < 5; j++) {
            CAPTURE_OF(0x0004, 0xFFFF, counts[j], 0xFFFF, status, 0x0200);
            CHECK(CAPTURE(0x20) == (least <= counts[j] && counts[j] <= most ? accepted() : broken(4)));
        }
        CAPTURE_OF(0x0004, 0, least, 0, (uint16_t)(status | 0x0020), 0x0200); /* it has none of the slave's bits */
        CHECK(CAPTURE(0x20) == broken(4));
        CAPTURE_OF(0x0003, 0, least, status, 0x0200);
        CHECK(CAPTURE(0x20) == broken(3));
    }
    CAPTURE_OF(0x0004, 0, 4, 0, 0xC805, 0x0200); /* code 9 is gone */
    CHECK(CAPTURE(0x20) == broken(4));
}

/* The longest reply: a sole slave's 12,286 words, of which its FCS and status go and a length, a status and the tail come; and a length
   word that says one more. */
static void test_longest_capture(void) {
    lay_out(0);
    memset(runs[PACKET], 0, LOGODWEN_REPLY_BYTES);
    logodwen_put(runs[PACKET], 0, 12285);
    logodwen_put(runs[PACKET], 12285, 0x8000);
    logodwen_put(runs[PACKET], 12287, logodwen_fcs(runs[PACKET], 12287));
    lengths[PACKET] = LOGODWEN_REPLY_BYTES;
    CHECK(CAPTURE(1) == accepted());
    lengths[PACKET] += 2;
    CHECK(CAPTURE(1) == broken(12288));
    logodwen_put(runs[PACKET], 0, 12286);
    CHECK(CAPTURE(1) == broken(0));
    logodwen_put(runs[PACKET], 0, 12285); /* a second slave's fragment has no room behind it */
    CHECK(CAPTURE(3) == broken(0));
}

/* Files in several packets. */

/* A first packet of this link, of two words that begin no file, on a node with two links. */
static void begin_write(uint32_t link) {
    lend_with(0);
    PACKET_OF(0x452E, 0xDEAD, 0xBEEF);
    CHECK(REQUEST(1000, link, LOGODWEN_BC_FIRST, 0) == zero_length(LOGODWEN_BC_NEXT) && is_standing(link, 2));
}

static void test_area(void) {
    static const size_t short_ones[] = {0, 1, 2, LOGODWEN_AREA_BYTES - 2, LOGODWEN_AREA_BYTES - 1};
    for (size_t i = 0; i < sizeof short_ones / sizeof *short_ones; i++)
        for (uint32_t bc = 0; bc < 4; bc++) {
            begin_write(1);
            lengths[AREA] = short_ones[i];
            CHECK(REQUEST(1000, 1, bc, 0) == LOGODWEN_REFUSED_AREA_SIZE && REQUEST(1000, 0, bc, 1) == LOGODWEN_REFUSED_AREA_SIZE);
            lengths[PACKET] = 0;
            CHECK(REQUEST(1000, 1, bc, 0) == LOGODWEN_REFUSED_AREA_SIZE && is_standing(1, 2));
            CHECK(ERASE(1) == 0 && POLL(1000) == LOGODWEN_REFUSED_UNASKED); /* these aren't lent it */
        }
}

/* Words join behind each other, whatever they are, and no other word of the area changes. */
static void test_joining(void) {
    begin_write(1);
    CHECK(logodwen_get(runs[AREA], 0) == 0xDEAD && logodwen_get(runs[AREA], 1) == 0xBEEF && is_same(AREA, 4, rooms[AREA]));
    PACKET_OF(0x452E, 0x3333);
    lengths[PACKET]++; /* an odd byte is no word */
    CHECK(REQUEST(1000, 1, 0x100 | LOGODWEN_BC_MIDDLE, 0) == zero_length(LOGODWEN_BC_NEXT) && is_standing(1, 4));
    CHECK(logodwen_get(runs[AREA], 2) == 0x452E && logodwen_get(runs[AREA], 3) == 0x3333);
    CHECK(is_same(AREA, 0, 4) && is_same(AREA, 8, rooms[AREA]));
    PACKET_OF(0x4444);
    CHECK(REQUEST(1000, 1, LOGODWEN_BC_LAST, 0) == zero_length(LOGODWEN_BC_ABORT) && is_none_standing()); /* no file */
    CHECK(logodwen_get(runs[AREA], 4) == 0x4444 && is_same(AREA, 0, 8) && is_same(AREA, 10, rooms[AREA]));
    CHECK(is_same(FLASH, 0, rooms[FLASH]) && state_word(LOGODWEN_AT_AMSWIRE_ERRORS) == 0
          && state_word(LOGODWEN_AT_FLASH_ERRORS) == 0);
    PACKET_OF(0x452E);
    CHECK(REQUEST(1000, 0, LOGODWEN_BC_FIRST, 0) == zero_length(LOGODWEN_BC_NEXT) && is_standing(0, 0));
    CHECK(is_same(AREA, 0, rooms[AREA]));
}

/* A file in three packets is written as in one, with every run at every shift from an aligned place. */
static void test_divisions(void) {
    for (size_t first = 1; first <= 6; first++)
        for (size_t second = 1; first + second <= 6; second++) {
            static uint8_t state[LOGODWEN_STATE_BYTES], flash[LOGODWEN_FLASH_BYTES]; /* as one packet leaves them */
            lay_out(first + second);
            CHECK(START(LOGODWEN_CDDC, 4, 0) == LOGODWEN_DONE);
            file_write(0x7211);
            CHECK(REQUEST(0, 3, LOGODWEN_BC_WHOLE, 0) == zero_length(LOGODWEN_BC_END));
            memcpy(state, runs[STATE], sizeof state);
            memcpy(flash, runs[FLASH], sizeof flash);
            lay_out(first + second);
            CHECK(START(LOGODWEN_CDDC, 4, 0) == LOGODWEN_DONE);
            lengths[AREA] = LOGODWEN_AREA_BYTES + first; /* an odd byte is ignored, and stays */
            file_write(0x7211);
            uint8_t words[14];
            memcpy(words, runs[PACKET], sizeof words);
            lengths[PACKET] = 2 * first;
            CHECK(REQUEST(0, 3, LOGODWEN_BC_FIRST, 0) == zero_length(LOGODWEN_BC_NEXT) && is_standing(3, (uint32_t)first - 1));
            memcpy(runs[PACKET], words + 2 * first, lengths[PACKET] = 2 * second);
            CHECK(REQUEST(9, 3, LOGODWEN_BC_MIDDLE, 0) == zero_length(LOGODWEN_BC_NEXT));
            CHECK(is_standing(3, (uint32_t)(first + second) - 1));
            memcpy(runs[PACKET], words + 2 * (first + second), lengths[PACKET] = 2 * (7 - first - second));
            CHECK(REQUEST(8, 3, LOGODWEN_BC_LAST, 0) == zero_length(LOGODWEN_BC_END) && is_none_standing());
            CHECK(memcmp(state, runs[STATE], sizeof state) == 0 && memcmp(flash, runs[FLASH], sizeof flash) == 0);
            CHECK(memcmp(runs[AREA], words + 2, sizeof words - 2) == 0);
        }
}

/* Up to 32,768 words join; one more, or any number more, is ABORT and drops the write. */
static void test_longest(void) {
    for (unsigned turn = 0; turn < 4; turn++) {
        lend_with(0);
        PACKET_OF(0x452E);
        lengths[PACKET] = LOGODWEN_REQUEST_BYTES;
        CHECK(REQUEST(1000, 1, LOGODWEN_BC_FIRST, 0) == zero_length(LOGODWEN_BC_NEXT) && is_standing(1, 8191));
        for (uint32_t joined = 16383; joined < 32768; joined += 8192)
            CHECK(REQUEST(1000, 1, LOGODWEN_BC_MIDDLE, 0) == zero_length(LOGODWEN_BC_NEXT) && is_standing(1, joined));
        lengths[PACKET] = LOGODWEN_REQUEST_BYTES + 2; /* too long for a packet */
        CHECK(REQUEST(1000, 1, turn, 0) == zero_length(LOGODWEN_BC_ERROR) && is_standing(1, 32767)
              && is_same(AREA, 0, rooms[AREA]));
        CHECK(state_word(LOGODWEN_AT_AMSWIRE_ERRORS) == 1);
        lengths[PACKET] = 2;
        CHECK(REQUEST(1000, 1, LOGODWEN_BC_MIDDLE, 0) == zero_length(LOGODWEN_BC_NEXT) && is_standing(1, 32768));
        CHECK(logodwen_get(runs[AREA], 32767) == logodwen_get(runs[PACKET], 0));
        lengths[PACKET] = turn < 2 ? 2 : LOGODWEN_REQUEST_BYTES;
        CHECK(REQUEST(1000, 1, turn % 2, 0) == zero_length(LOGODWEN_BC_ABORT) && is_none_standing()
              && is_same(AREA, 0, rooms[AREA]));
        CHECK(state_word(LOGODWEN_AT_AMSWIRE_ERRORS) == 1 && is_same(FLASH, 0, rooms[FLASH]));
        CHECK(REQUEST(1000, 1, LOGODWEN_BC_LAST, 0) == zero_length(LOGODWEN_BC_ERROR)
              && state_word(LOGODWEN_AT_AMSWIRE_ERRORS) == 2);
    }
}

/* What another link sends leaves the write that stands, and the area. */
static void test_other_link(void) {
    begin_write(1);
    uint16_t errors = 0;
    for (uint32_t bc = 0; bc < 3; bc++) {
        PACKET_OF(0x452E, 0x1111);
        unsigned expected = bc == LOGODWEN_BC_FIRST ? LOGODWEN_BC_ABORT : LOGODWEN_BC_ERROR;
        errors += expected == LOGODWEN_BC_ERROR;
        CHECK(REQUEST(1000, 0, bc, 0) == zero_length(expected) && state_word(LOGODWEN_AT_AMSWIRE_ERRORS) == errors);
        PACKET_OF(0x122E);
        CHECK(REQUEST(1000, 0, bc, 0) == zero_length(LOGODWEN_BC_ERROR) && state_word(LOGODWEN_AT_AMSWIRE_ERRORS) == ++errors);
        lengths[PACKET] = 0;
        CHECK(REQUEST(1000, 0, bc, 0) == zero_length(LOGODWEN_BC_ABORT) && is_standing(1, 2));
    }
    file_write(0x7211); /* whole requests go on */
    CHECK(REQUEST(1000, 0, LOGODWEN_BC_WHOLE, 0) == zero_length(LOGODWEN_BC_END) && is_standing(1, 2));
    PACKET_OF(0x052E, 0x0210);
    CHECK(REQUEST(1000, 0, LOGODWEN_BC_WHOLE, 0) == with_words(8) && is_standing(1, 2));
    PACKET_OF(0x472E, 0x0211);
    CHECK(REQUEST(1000, 0, LOGODWEN_BC_WHOLE, 0) == zero_length(LOGODWEN_BC_END) && ERASE(7) == (uint64_t)7 << 32
          && is_standing(1, 2));
    PACKET_OF(0x0405, 0x122E);
    CHECK(REQUEST(1000, 0, LOGODWEN_BC_WHOLE, 0) == ask(5, 1) && is_standing(1, 2));
    for (uint32_t bc = 0; bc < 4; bc++) /* pending: no packet of words is taken */
        CHECK(REQUEST(1000, 1, bc, 0) == LOGODWEN_REFUSED_BUSY && REQUEST(1000, 0, bc, 0) == LOGODWEN_REFUSED_BUSY);
    CHECK(POLL(1001) == (uint64_t)LOGODWEN_WAITING << 8 && SLAVE_REPLY(1001, 5, LOGODWEN_BC_WHOLE, 0) == with_words(2));
    CHECK(is_standing(1, 2) && logodwen_get(runs[AREA], 0) == 0xDEAD && logodwen_get(runs[AREA], 1) == 0xBEEF);
    PACKET_OF(0x3333); /* and the write, while the erasure runs too */
    CHECK(REQUEST(1000, 1, LOGODWEN_BC_MIDDLE, 0) == zero_length(LOGODWEN_BC_NEXT) && is_standing(1, 3));
}

/* A file is written as in one packet: an erasure in progress is ABORT, at the last packet and not before. */
static void test_while_erasing(void) {
    lend_with(0);
    PACKET_OF(0x472E, 0x0200);
    CHECK(REQUEST(1000, 0, LOGODWEN_BC_WHOLE, 0) == zero_length(LOGODWEN_BC_END));
    file_write(0x7211);
    lengths[PACKET] = 12;
    CHECK(REQUEST(1000, 0, LOGODWEN_BC_FIRST, 0) == zero_length(LOGODWEN_BC_NEXT) && is_standing(0, 5));
    uint16_t last = logodwen_get(runs[PACKET], 6);
    PACKET_OF(last);
    CHECK(REQUEST(1000, 0, LOGODWEN_BC_LAST, 0) == zero_length(LOGODWEN_BC_ABORT) && is_none_standing());
    file_write(0x7211);
    lengths[PACKET] = 12;
    CHECK(REQUEST(1000, 0, LOGODWEN_BC_FIRST, 0) == zero_length(LOGODWEN_BC_NEXT) && ERASE(2048) == (uint64_t)2048 << 32);
    PACKET_OF(last);
    CHECK(REQUEST(1000, 0, LOGODWEN_BC_LAST, 0) == zero_length(LOGODWEN_BC_END) && is_none_standing());
}

/* From the writing link: what keeps the write, and what drops it. */
static void test_drops(void) {
    for (uint32_t bc = 0; bc < 4; bc++) {
        begin_write(1);
        CHECK(REQUEST(1000, 1, bc, 0x100) == zero_length(LOGODWEN_BC_ERROR) && is_standing(1, 2)); /* receive errors */
        lengths[PACKET] = 0;
        CHECK(REQUEST(1000, 1, bc, 1) == zero_length(LOGODWEN_BC_ERROR) && is_standing(1, 2));
        CHECK(state_word(LOGODWEN_AT_AMSWIRE_ERRORS) == 2);
        if (bc == LOGODWEN_BC_ABORT) {
            CHECK(REQUEST(1000, 1, bc, 0) == zero_length(LOGODWEN_BC_END) && is_none_standing());
            CHECK(REQUEST(1000, 1, bc, 0) == zero_length(LOGODWEN_BC_ABORT));
        } else {
            CHECK(REQUEST(1000, 1, bc, 0) == zero_length(LOGODWEN_BC_ABORT) && is_standing(1, 2));
        }
        CHECK(is_same(AREA, 0, rooms[AREA]) && state_word(LOGODWEN_AT_AMSWIRE_ERRORS) == 2);
    }
    static const uint16_t begins[] = {0x452E, 0x122E, 0x0405};
    for (size_t i = 0; i < 3; i++)
        for (uint32_t bc = LOGODWEN_BC_FIRST; bc <= LOGODWEN_BC_WHOLE; bc++) {
            begin_write(0);
            PACKET_OF(begins[i], 0x122E);
            CHECK(REQUEST(1000, 0, bc, 0) == zero_length(LOGODWEN_BC_ERROR) && is_none_standing());
            CHECK(state_word(LOGODWEN_AT_AMSWIRE_ERRORS) == 1 && is_same(AREA, 0, rooms[AREA]) && is_same(FLASH, 0, rooms[FLASH]));
        }
    for (unsigned links = 0; links < 4; links++) { /* link 0 has a pending request, a link a write; a link drops what it has */
        uint8_t writer = links & 1, dropper = links >> 1;
        lend_with(0x20);
        runs[STATE][LOGODWEN_AT_WRITE] = 1;
        runs[STATE][LOGODWEN_AT_WRITE_LINK] = writer;
        logodwen_put(runs[STATE] + LOGODWEN_AT_JOINED, 0, 7);
        lengths[PACKET] = 0;
        int drops = dropper == 0 || writer == 1;
        CHECK(REQUEST(1000, dropper, LOGODWEN_BC_ABORT, 0) == zero_length(drops ? LOGODWEN_BC_END : LOGODWEN_BC_ABORT));
        CHECK((runs[STATE][LOGODWEN_AT_PENDING] == 0) == (dropper == 0));
        CHECK(writer == dropper ? is_none_standing() : is_standing(writer, 7));
    }
}

static void test_slave_length(void) {
    lend_with(0x20);
    lengths[PACKET] = LOGODWEN_SLAVE_REPLY_BYTES + 3;
    CHECK(SLAVE_REPLY(1000, 5, LOGODWEN_BC_WHOLE, 0) == LOGODWEN_REFUSED_MEMORY_SIZE);
    lengths[PACKET] = LOGODWEN_SLAVE_REPLY_BYTES + 1;
    CHECK(SLAVE_REPLY(1000, 5, LOGODWEN_BC_WHOLE, 0) == zero_length(LOGODWEN_BC_ABORT));
    lend_with(0x20);
    lengths[PACKET] = LOGODWEN_REPLY_BYTES + 1;
    CHECK(SLAVE_REPLY(1000, 5, 0x101, 0) == ((uint64_t)LOGODWEN_REPLY << 8 | 1u << 16 | (uint64_t)LOGODWEN_REPLY_WORDS << 32));
    CHECK(memcmp(runs[REPLY], runs[PACKET], LOGODWEN_REPLY_BYTES) == 0);
    lend_with(0x20);
    lengths[PACKET] = 2;
    CHECK(SLAVE_REPLY(1000, 5, LOGODWEN_BC_WHOLE, 0x100) == zero_length(LOGODWEN_BC_ERROR)
          && state_word(LOGODWEN_AT_AMSWIRE_ERRORS) == 1);
}

/* The Q-List (02, request 7). */

/* A Q-List Write of entries of five words each. */
static void list_write(size_t entries, const uint16_t *words) {
    PACKET_OF(0x5C2E, (uint16_t)(0x4000 | (5 * entries + 2)), 0x2000, (uint16_t)entries);
    for (size_t i = 0; i < 5 * entries; i++)
        logodwen_put(runs[PACKET], 4 + i, words[i]);
    logodwen_put(runs[PACKET], 4 + 5 * entries, logodwen_fcs(runs[PACKET] + 6, 1 + 5 * entries));
    lengths[PACKET] = 2 * (5 + 5 * entries);
}
#define LIST_WRITE_OF(...) list_write(sizeof((uint16_t[]){__VA_ARGS__}) / 10, (uint16_t[]){__VA_ARGS__})

static uint8_t *record_at(size_t place) { return runs[LIST] + LOGODWEN_RECORD_BYTES * place; }

static unsigned repetitions_at(size_t place) { return logodwen_get(record_at(place), 1); }

static uint32_t due_at(size_t place) { return logodwen_get_pm(record_at(place) + 10, 0); }

static int is_record(size_t place, const uint16_t *words, uint32_t due) {
    for (size_t i = 0; i < 5; i++)
        if (logodwen_get(record_at(place), i) != words[i])
            return 0;
    return due_at(place) == due;
}
#define IS_RECORD(place, due, ...) is_record(place, (uint16_t[]){__VA_ARGS__}, due)

/* The record at a place as a host might have it, whether a node could have written it or not. */
static void put_record(size_t place, unsigned header, unsigned repetitions, unsigned frequency, uint32_t due) {
    const unsigned words[5] = {header, repetitions, frequency, 0x5000 + (unsigned)place, 0x6000 + (unsigned)place};
    for (size_t i = 0; i < 5; i++)
        logodwen_put(record_at(place), i, (uint16_t)words[i]);
    logodwen_put_pm(record_at(place) + 10, 0, due);
}

/* Whether no byte of the list has changed but those from one on, so many. */
static int is_list_same_but(size_t from, size_t count) {
    return is_same(LIST, 0, from) && is_same(LIST, from + count, rooms[LIST]);
}

static int is_list_same(void) { return is_list_same_but(0, 0); }

/* Whether the state is what it was but for what is listed and whose turn it is. */
static int is_state_same_but_listing(void) {
    return is_same(STATE, 0, LOGODWEN_AT_LISTED) && is_same(STATE, LOGODWEN_AT_EVENT, rooms[STATE]);
}

static int is_all_same(void) {
    for (int run = 0; run < RUNS; run++)
        if (!is_same(run, 0, rooms[run]))
            return 0;
    return 1;
}

/* At most 910 entries are listed, and the place in turn is below them, 0 where there are none. Calls that are lent no list see no 9. */
static void check_listing(unsigned listed, unsigned turn, unsigned expected) {
    unsigned of_list = listed > LOGODWEN_LIST_RECORDS ? LOGODWEN_REFUSED_LIST_SIZE : expected;
    unsigned unasked = expected == 0 ? LOGODWEN_REFUSED_UNASKED : expected;
    lend_with(0);
    put_listing(listed, turn);
    CHECK(logodwen_refusal(ERASE(1)) == expected && POLL(1000) == unasked && SLAVE_REPLY(1000, 5, LOGODWEN_BC_END, 0) == unasked);
    CHECK(logodwen_refusal(REQUEST(1000, 0, LOGODWEN_BC_WHOLE, 0)) == of_list && is_listing(listed, turn));
    CHECK(logodwen_refusal(SLOW(1000)) == of_list);
}

static void test_listing_bytes(void) {
    check_listing(0, 0, 0);
    check_listing(1, 0, 0);
    check_listing(2, 1, 0);
    check_listing(910, 0, 0);
    check_listing(910, 909, 0);
    static const unsigned wrong[][2] = {{0, 1},     {0, 0xFFFF}, {1, 1},   {1, 256},   {2, 2},       {909, 909},
                                        {910, 910}, {911, 0},    {912, 5}, {0x8000, 0}, {0xFFFF, 0}, {0xFFFF, 0xFFFF}};
    for (size_t i = 0; i < sizeof wrong / sizeof *wrong; i++)
        check_listing(wrong[i][0], wrong[i][1], LOGODWEN_REFUSED_STATE);
}

/* More than 910 records, or fewer than are listed, are refused; bytes that are no whole record are ignored, and stay (look_round). */
static void test_list_lengths(void) {
    static const size_t bytes[] = {0, 1, 13, 14, 15, 27, 28, 12739, 12740, 12741, 12753, 12754, 12755};
    static const unsigned listed[] = {0, 1, 2, 909, 910};
    for (size_t i = 0; i < sizeof bytes / sizeof *bytes; i++)
        for (size_t j = 0; j < sizeof listed / sizeof *listed; j++) {
            size_t records = bytes[i] / LOGODWEN_RECORD_BYTES;
            unsigned expected = records > LOGODWEN_LIST_RECORDS || records < listed[j] ? LOGODWEN_REFUSED_LIST_SIZE : 0;
            lend_with(0);
            lengths[LIST] = bytes[i];
            put_listing(listed[j], 0);
            CHECK(logodwen_refusal(REQUEST(1000, 0, LOGODWEN_BC_WHOLE, 0)) == expected && is_list_same());
            CHECK(logodwen_refusal(SLOW(1000)) == expected);
            lengths[PACKET] = 0; /* every request is lent the list, whatever it says */
            CHECK(logodwen_refusal(REQUEST(1000, 0, LOGODWEN_BC_END, 1)) == expected);
        }
}

/* Entries go behind those listed, as they are written, due one frequency later; and nowhere else. */
static void test_list_write(void) {
    static const uint8_t bytes[LOGODWEN_RECORD_BYTES] = {0x0C, 0, 3, 0, 100, 0, 0x11, 0x10, 0x22, 0x20, 0x54, 0, 0, 0};
    for (uint32_t kind = LOGODWEN_CDP; kind <= LOGODWEN_CDDC; kind++) {
        lay_out(kind);
        CHECK(START(kind, 2, 0) == LOGODWEN_DONE && is_listing(0, 0));
        LIST_WRITE_OF(0x000C, 3, 100, 0x1011, 0x2022, 0x01FB, 0xFFFF, 0, 0x3333, 0x4444);
        CHECK(REQUEST(0xFFFFFFF0, 1, LOGODWEN_BC_WHOLE, 0) == zero_length(LOGODWEN_BC_END) && is_listing(2, 0));
        CHECK(memcmp(record_at(0), bytes, sizeof bytes) == 0 && IS_RECORD(1, 0xFFF0, 0x01FB, 0xFFFF, 0, 0x3333, 0x4444));
        CHECK(is_list_same_but(0, 2 * LOGODWEN_RECORD_BYTES) && is_state_same_but_listing());
        for (int run = FLASH; run < RUNS; run++) /* nothing goes to DM, though the segment says so */
            CHECK(run == LIST || is_same(run, 0, rooms[run]));
        put_listing(2, 1);
        LIST_WRITE_OF(0xFF08, 0, 0xFFFF, 5, 6);
        CHECK(REQUEST(7, 0, LOGODWEN_BC_WHOLE, 0) == zero_length(LOGODWEN_BC_END) && is_listing(3, 1));
        CHECK(IS_RECORD(2, 0x1000006, 0xFF08, 0, 0xFFFF, 5, 6) && is_list_same_but(2 * LOGODWEN_RECORD_BYTES, LOGODWEN_RECORD_BYTES));
        list_write(0, NULL);
        CHECK(REQUEST(7, 0, LOGODWEN_BC_WHOLE, 0) == zero_length(LOGODWEN_BC_END) && is_all_same());
        CHECK(START(kind, 2, 0) == LOGODWEN_DONE && is_listing(0, 0)); /* a start lists none, and leaves the records */
    }
}

/* A write of two entries with one word changed, under a right FCS, is ABORT and changes nothing. */
static void test_list_not_written(void) {
    static const uint16_t changes[][2] = {{1, 0x000C}, {1, 0x800C}, {1, 0xC00C}, {1, 0x400B}, {1, 0x400D}, {1, 0x4000},
                                          {2, 0x0000}, {2, 0x2001}, {2, 0x1FFF}, {2, 0x6000}, {2, 0xA000}, {2, 0xE000},
                                          {3, 0},      {3, 1},      {3, 3},      {3, 0x0102}, {4, 0x0004}, {4, 0x01F7},
                                          {6, 0},      {9, 0x0000}, {9, 0xFF00}, {11, 0}};
    lend_with(0);
    for (size_t i = 0; i < sizeof changes / sizeof *changes; i++) {
        LIST_WRITE_OF(0x0008, 1, 1, 0, 0, 0x000C, 2, 2, 0, 0);
        logodwen_put(runs[PACKET], changes[i][0], changes[i][1]);
        logodwen_put(runs[PACKET], 14, logodwen_fcs(runs[PACKET] + 6, 11));
        CHECK(REQUEST(1000, 0, LOGODWEN_BC_WHOLE, 0) == zero_length(LOGODWEN_BC_ABORT) && is_all_same());
    }
    LIST_WRITE_OF(0x0008, 1, 1, 0, 0);
    logodwen_put(runs[PACKET], 1, 0x8007); /* three pairs of IO: a segment, but none of DM */
    CHECK(REQUEST(1000, 0, LOGODWEN_BC_WHOLE, 0) == zero_length(LOGODWEN_BC_ABORT) && is_all_same());
    LIST_WRITE_OF(0x0008, 1, 1, 0, 0);
    runs[PACKET][2 * 9] ^= 1; /* the FCS */
    CHECK(REQUEST(1000, 0, LOGODWEN_BC_WHOLE, 0) == zero_length(LOGODWEN_BC_ABORT) && is_all_same());
    for (size_t words = 1; words <= 11; words++) { /* cut short, or with a word left over */
        LIST_WRITE_OF(0x0008, 1, 1, 0, 0);
        lengths[PACKET] = 2 * words;
        CHECK(REQUEST(1000, 0, LOGODWEN_BC_WHOLE, 0) == zero_length(words == 10 ? LOGODWEN_BC_END : LOGODWEN_BC_ABORT));
        CHECK(words == 10 ? is_listing(1, 0) : is_all_same());
    }
}

/* A write adds whole or not at all. */
static void test_list_room(void) {
    static const uint16_t entry[5] = {0x0008, 1, 1, 0, 0};
    static uint16_t many[5 * 911];
    for (size_t i = 0; i < sizeof many / sizeof *many; i++)
        many[i] = entry[i % 5];
    lend_with(0);
    for (size_t extra = 0; extra < LOGODWEN_RECORD_BYTES; extra++) {
        put_listing(0, 0);
        lengths[LIST] = 2 * LOGODWEN_RECORD_BYTES + extra;
        list_write(3, many);
        CHECK(REQUEST(1000, 0, LOGODWEN_BC_WHOLE, 0) == zero_length(LOGODWEN_BC_ABORT) && is_all_same());
        list_write(2, many);
        CHECK(REQUEST(1000, 0, LOGODWEN_BC_WHOLE, 0) == zero_length(LOGODWEN_BC_END) && is_listing(2, 0));
        list_write(1, many);
        CHECK(REQUEST(1000, 0, LOGODWEN_BC_WHOLE, 0) == zero_length(LOGODWEN_BC_ABORT) && is_all_same());
    }
    lend_with(0);
    list_write(911, many);
    CHECK(REQUEST(1000, 0, LOGODWEN_BC_WHOLE, 0) == zero_length(LOGODWEN_BC_ABORT) && is_all_same());
    list_write(910, many);
    CHECK(REQUEST(1000, 0, LOGODWEN_BC_WHOLE, 0) == zero_length(LOGODWEN_BC_END) && is_listing(910, 0));
    CHECK(is_record(0, entry, 1001) && is_record(909, entry, 1001));
    list_write(1, many);
    CHECK(REQUEST(1000, 0, LOGODWEN_BC_WHOLE, 0) == zero_length(LOGODWEN_BC_ABORT) && is_all_same());
    list_write(0, NULL);
    CHECK(REQUEST(1000, 0, LOGODWEN_BC_WHOLE, 0) == zero_length(LOGODWEN_BC_END) && is_all_same());
}

/* The count, five words for each entry, status word and FCS; the records stay as they are. */
static void check_read(unsigned listed) {
    lend_with(0);
    for (size_t place = 0; place < listed; place++)
        put_record(place, (unsigned)(place * 259), (unsigned)(place * 7), (unsigned)(place * 31), (uint32_t)(place * 65537));
    put_listing(listed, 0);
    PACKET_OF(0x1C2E);
    CHECK(REQUEST(1000, 0, LOGODWEN_BC_WHOLE, 0) == with_words(1 + 5 * listed + 2) && reply_word(0) == listed);
    CHECK(is_list_same() && is_same(STATE, 0, rooms[STATE]) && is_same(REPLY, 2 * (1 + 5 * (size_t)listed + 2), rooms[REPLY]));
    for (size_t place = 0; place < listed; place++)
        CHECK(memcmp(runs[REPLY] + 2 + 10 * place, record_at(place), 10) == 0);
    CHECK(reply_word(1 + 5 * listed) == 0x0120 && reply_word(2 + 5 * listed) == logodwen_fcs(runs[REPLY], 2 + 5 * (size_t)listed));
    struct logodwen_record record;
    size_t told = 9999;
    CHECK(logodwen_read_list(runs[REPLY], 3 + 5 * (size_t)listed, &told) && told == listed);
    CHECK(!logodwen_read_listed(runs[REPLY], 3 + 5 * (size_t)listed, listed, &record));
    PACKET_OF(0x1C2E, 0);
    CHECK(REQUEST(1000, 0, LOGODWEN_BC_WHOLE, 0) == zero_length(LOGODWEN_BC_ABORT) && is_all_same());
}

static void test_list_read(void) {
    check_read(0);
    check_read(1);
    check_read(3);
    check_read(910);
}

/* By entry: its repetitions alone. Of those expired: the others close up. Of all: none is listed. The turn stays with the first of these, and
   goes to 0 with the others; places that are freed keep what stood in them. */
static void test_list_delete(void) {
    static const uint16_t places[] = {4, 5, 909, 910, 0x0101, 0x8000, 0xFFFE};
    lend_with(0);
    for (size_t place = 0; place < 5; place++)
        put_record(place, 0x0108, place == 3 ? 0 : 2, 9, (uint32_t)(1000 * place));
    put_listing(4, 2);
    for (size_t i = 0; i < sizeof places / sizeof *places; i++) {
        PACKET_OF(0x5B2E, places[i]);
        CHECK(REQUEST(1000, 0, LOGODWEN_BC_WHOLE, 0) == zero_length(LOGODWEN_BC_ABORT) && is_all_same());
        PACKET_OF(0x5B2E, 0xFFFF, places[i]);
        CHECK(REQUEST(1000, 0, LOGODWEN_BC_WHOLE, 0) == zero_length(LOGODWEN_BC_ABORT) && is_all_same());
    }
    for (int turn = 0; turn < 2; turn++) { /* again is END too */
        PACKET_OF(0x5B2E, 1);
        CHECK(REQUEST(1000, 0, LOGODWEN_BC_WHOLE, 0) == zero_length(LOGODWEN_BC_END) && is_listing(4, 2) && repetitions_at(1) == 0);
        CHECK(is_list_same_but(LOGODWEN_RECORD_BYTES + 2, 2) && is_state_same_but_listing());
    }
    PACKET_OF(0x5B2E);
    CHECK(REQUEST(1000, 0, LOGODWEN_BC_WHOLE, 0) == zero_length(LOGODWEN_BC_END) && is_listing(2, 0) && is_state_same_but_listing());
    CHECK(IS_RECORD(1, 2000, 0x0108, 2, 9, 0x5002, 0x6002) && is_list_same_but(LOGODWEN_RECORD_BYTES, LOGODWEN_RECORD_BYTES));
    put_listing(2, 1); /* none is expired */
    CHECK(REQUEST(1000, 0, LOGODWEN_BC_WHOLE, 0) == zero_length(LOGODWEN_BC_END) && is_listing(2, 0) && is_list_same());
    put_listing(2, 1);
    for (int turn = 0; turn < 2; turn++) {
        PACKET_OF(0x5B2E, 0xFFFF);
        CHECK(REQUEST(1000, 0, LOGODWEN_BC_WHOLE, 0) == zero_length(LOGODWEN_BC_END) && is_listing(0, 0) && is_list_same());
        PACKET_OF(0x5B2E);
        CHECK(REQUEST(1000, 0, LOGODWEN_BC_WHOLE, 0) == zero_length(LOGODWEN_BC_END) && is_listing(0, 0) && is_list_same());
        PACKET_OF(0x5B2E, 0);
        CHECK(REQUEST(1000, 0, LOGODWEN_BC_WHOLE, 0) == zero_length(LOGODWEN_BC_ABORT) && is_all_same());
    }
}

/* A step looks at the entry in turn alone, changes at most its 14 bytes, and moves the turn on, after the last to the first. */
static void test_slow(void) {
    lend_with(0);
    CHECK(SLOW(1000) == nothing() && is_all_same());
    put_record(0, 0x0008, 2, 10, 1000);
    put_record(1, 0x0108, 5, 1, 1001);
    put_record(2, 0x0008, 0, 1, 0);
    put_record(3, 0x0008, 9, 1, 0); /* not listed */
    put_listing(3, 0);
    CHECK(SLOW(1000) == handed(0) && is_listing(3, 1) && IS_RECORD(0, 1010, 0x0008, 1, 10, 0x5000, 0x6000));
    CHECK(is_list_same_but(0, LOGODWEN_RECORD_BYTES) && is_state_same_but_listing());
    CHECK(SLOW(1000) == nothing() && is_listing(3, 2) && is_list_same());
    CHECK(SLOW(1000) == nothing() && is_listing(3, 0) && is_list_same());
    CHECK(SLOW(1009) == nothing() && is_listing(3, 1) && is_list_same());
    CHECK(SLOW(1009) == handed(1) && is_listing(3, 2) && IS_RECORD(1, 1001 + 65537, 0x0108, 4, 1, 0x5001, 0x6001));
    CHECK(is_list_same_but(LOGODWEN_RECORD_BYTES, LOGODWEN_RECORD_BYTES));
    CHECK(SLOW(1009) == nothing() && SLOW(1010) == handed(0) && is_listing(3, 1));
    CHECK(IS_RECORD(0, 1020, 0x0008, 0, 10, 0x5000, 0x6000)); /* the last time moves the due time too */
    put_listing(1, 0);
    CHECK(SLOW(2000) == nothing() && is_all_same()); /* a sole entry has every turn */
    put_record(909, 0x0008, 1, 1, 0);
    put_listing(910, 909);
    CHECK(SLOW(5) == handed(909) && is_listing(910, 0) && is_list_same_but(909 * LOGODWEN_RECORD_BYTES, LOGODWEN_RECORD_BYTES));
}

/* Due is where now less the due time, modulo 2^32, is below 2^31. */
static void test_slow_times(void) {
    static const struct {
        uint32_t now, due;
        int is_due;
    } times[] = {{0, 0, 1},          {0x7FFFFFFF, 0, 1}, {0x80000000, 0, 0}, {0xFFFFFFFF, 0, 0}, {0, 1, 0}, {0, 0xFFFFFFFF, 1},
                 {0, 0x80000001, 1}, {0, 0x80000000, 0}, {0, 0x7FFFFFFF, 0}, {5, 6, 0},          {6, 5, 1}, {0xFFFFFFFF, 0xFFFFFFFF, 1}};
    for (size_t i = 0; i < sizeof times / sizeof *times; i++) {
        lend_with(0);
        put_record(0, 0xFF08, 1, 0xFFFF, times[i].due);
        put_listing(1, 0);
        CHECK(SLOW(times[i].now) == (times[i].is_due ? handed(0) : nothing()));
        CHECK(due_at(0) == (uint32_t)(times[i].due + (times[i].is_due ? 0xFFFFFFu : 0)));
    }
}

/* Repetitions are a number of 16 bits; a record that the node did not write is stepped as it stands, and no bit of its header is set. */
static void test_slow_record(void) {
    static const uint16_t repetitions[] = {1, 2, 0x00FF, 0x0100, 0x7FFF, 0x8000, 0x8001, 0xFFFF};
    lend_with(0);
    put_listing(1, 0);
    for (size_t i = 0; i < sizeof repetitions / sizeof *repetitions; i++) {
        put_record(0, 0x0000, repetitions[i], 0, 77); /* delayed, with frequency 0 */
        CHECK(SLOW(77) == handed(0) && IS_RECORD(0, 77, 0, (uint16_t)(repetitions[i] - 1), 0, 0x5000, 0x6000));
    }
}

/* A step goes on whatever else does, and leaves it alone; so do the commands while a sector is erased or a file comes in packets. */
static void test_slow_meanwhile(void) {
    for (unsigned busy = 0; busy < 2; busy++) {
        lend_with(0);
        PACKET_OF(0x472E, 0x0200);
        CHECK(REQUEST(1000, 0, LOGODWEN_BC_WHOLE, 0) == zero_length(LOGODWEN_BC_END));
        PACKET_OF(0x452E, 0x1111);
        CHECK(REQUEST(1000, 1, LOGODWEN_BC_FIRST, 0) == zero_length(LOGODWEN_BC_NEXT) && is_standing(1, 1));
        LIST_WRITE_OF(0x0008, 2, 1, 0, 0);
        CHECK(REQUEST(1000, 0, LOGODWEN_BC_WHOLE, 0) == zero_length(LOGODWEN_BC_END) && is_standing(1, 1) && is_listing(1, 0));
        PACKET_OF(0x1C2E);
        CHECK(REQUEST(1000, 0, LOGODWEN_BC_WHOLE, 0) == with_words(8) && is_standing(1, 1));
        PACKET_OF(busy == 0 ? 0x0405 : 0x2023, busy == 0 ? 0x122E : 0x0000, 0x122E);
        CHECK(logodwen_answer(REQUEST(1000, 0, LOGODWEN_BC_WHOLE, 0)) == LOGODWEN_ASK);
        CHECK(SLOW(1001) == handed(0) && is_state_same_but_listing() && SLOW(1001) == nothing() && is_state_same_but_listing());
        lengths[PACKET] = 0;
        CHECK(SLAVE_REPLY(1001, 5, LOGODWEN_BC_END, 0) == zero_length(LOGODWEN_BC_END) && is_listing(1, 0));
        PACKET_OF(0x5B2E);
        CHECK(REQUEST(1000, 0, LOGODWEN_BC_WHOLE, 0) == zero_length(LOGODWEN_BC_END) && is_listing(1, 0) && is_standing(1, 1));
        CHECK(ERASE(1) == (uint64_t)1 << 32 && is_listing(1, 0));
    }
}

static unsigned long repetitions_listed(void) {
    unsigned long sum = 0;
    for (size_t place = 0; place < state_word(LOGODWEN_AT_LISTED); place++)
        sum += repetitions_at(place);
    return sum;
}

/* Repetitions listed, handed out, and cleared or deleted are those written since the start. */
static void test_repetitions(void) {
    unsigned long written = 0, gone = 0, handed_out = 0;
    lend_with(0);
    lengths[LIST] = 20 * LOGODWEN_RECORD_BYTES;
    for (unsigned turn = 0; turn < 3000; turn++) {
        unsigned draw = turn * 40503u / 7 % 97;
        unsigned long before = repetitions_listed();
        if (draw < 12) {
            LIST_WRITE_OF(0x0008, (uint16_t)(draw % 4), (uint16_t)(1 + draw), 0, 0, 0x0008, (uint16_t)draw, 3, 0, 0);
            if (REQUEST(turn, 0, LOGODWEN_BC_WHOLE, 0) == zero_length(LOGODWEN_BC_END))
                written += draw % 4 + draw;
        } else if (draw < 16) {
            PACKET_OF(0x5B2E, draw == 12 && turn % 8 == 0 ? 0xFFFF : (uint16_t)(turn % 23));
            CHECK(logodwen_refusal(REQUEST(turn, 0, LOGODWEN_BC_WHOLE, 0)) == 0);
            gone += before - repetitions_listed();
        } else if (draw < 22) {
            PACKET_OF(0x5B2E);
            CHECK(REQUEST(turn, 0, LOGODWEN_BC_WHOLE, 0) == zero_length(LOGODWEN_BC_END) && repetitions_listed() == before);
        } else {
            handed_out += logodwen_answer(SLOW(turn)) == LOGODWEN_HANDED;
        }
        CHECK(repetitions_listed() + handed_out + gone == written);
    }
    CHECK(written > 500 && handed_out > 200 && gone > 50);
}

/* Lists of requests (02, request 9). */

/* Whether the replies are these in a row, from word 0 on, each BC, length and words, and every word behind them is as it was. The FCS that
   ends a reply stands as 0 here. */
static int are_replies(size_t count, const uint16_t *words) {
    for (size_t at = 0; at < count; at += 2 + words[at + 1]) {
        const uint8_t *row = runs[REPLIES] + 2 * at;
        size_t length = words[at + 1], last = 1 + length;
        for (size_t i = 0; i < 2 + length; i++)
            if (logodwen_get(row, i) != (i == last && length != 0 ? logodwen_fcs(row + 4, length - 1) : words[at + i]))
                return 0;
    }
    return is_same(REPLIES, 2 * count, rooms[REPLIES]);
}
#define ARE_REPLIES(...) are_replies(sizeof((uint16_t[]){__VA_ARGS__}) / 2, (uint16_t[]){__VA_ARGS__})

static int is_all_same_but_replies(void) {
    for (int run = 0; run < REPLIES; run++)
        if (!is_same(run, 0, rooms[run]))
            return 0;
    return 1;
}

/* Three packets of two links, of which the second answers what the first has set. An odd byte behind them is ignored; so is one behind the
   replies' words, and none but those of the replies is written, the assembly area's neither. */
static void test_series(void) {
    for (size_t odd = 0; odd < 2; odd++) {
        lend_with(0);
        lengths[PACKET] = odd;
        CHECK(REQUESTS(1000) == done(0) && is_all_same());
        PACKET_OF(0, 3, 2, 0x522E, 0x0001, 1, 3, 1, 0x122E, 0, 3, 3, 0x0D2E, 0x1111, 0x2222);
        lengths[PACKET] += odd;
        lengths[REPLIES] -= odd;
        CHECK(REQUESTS(1000) == done(3) && ARE_REPLIES(3, 0, 3, 3, 0x0001, 0x0160, 0, 3, 4, 0x1111, 0x2222, 0x0160, 0));
        CHECK(runs[STATE][LOGODWEN_AT_MODE] == 1 && is_same(STATE, LOGODWEN_AT_MODE + 1, rooms[STATE]));
        for (int run = FLASH; run < REPLIES; run++)
            CHECK(is_same(run, 0, rooms[run]));
        PACKET_OF(0, 2, 0, 1, 3, 1, 0x00FF, 0, 3, 1, 0x052E); /* ABORT, ERROR, which counts, ABORT */
        lengths[PACKET] += odd;
        CHECK(REQUESTS(1000) == done(3) && ARE_REPLIES(2, 0, 1, 0, 2, 0) && state_word(LOGODWEN_AT_AMSWIRE_ERRORS) == 1);
    }
}

/* A packet at which a list stops, alone, in front of a Mode Read, behind one, and between two: what stands before it is done, and it changes
   nothing. */
static void check_stop(const uint16_t *stop, int line) {
    static const uint16_t mode_read[4] = {0, 3, 1, 0x122E};
    size_t words = 3 + (size_t)stop[2];
    for (size_t before = 0; before < 2; before++)
        for (size_t behind = 0; behind < 2; behind++) {
            uint16_t row[16];
            memcpy(row, mode_read, sizeof mode_read);
            memcpy(row + 4 * before, stop, 2 * words);
            memcpy(row + 4 * before + words, mode_read, sizeof mode_read);
            lend_with(0);
            packet(4 * before + words + 4 * behind, row);
            check(requests_at(1000, line) == done(before) && is_all_same_but_replies(), "a list stops there", line);
            check(before == 0 ? is_all_same() : ARE_REPLIES(3, 3, 0x0000, 0x0120, 0), "what stands before it is answered", line);
        }
}
#define CHECK_STOP(...) check_stop((uint16_t[]){__VA_ARGS__}, __LINE__)

static void test_series_stops(void) {
    CHECK_STOP(0, 3, 2, 0x0405, 0x122E); /* would ask a slave, or a group */
    CHECK_STOP(1, 3, 2, 0x0040, 0x122E);
    CHECK_STOP(1, 3, 2, 0x002A, 0x122E);
    CHECK_STOP(0, 3, 3, 0x2023, 0x0000, 0x122E);
    CHECK_STOP(2, 3, 1, 0x122E); /* alone is refused by 4: numbers are compared whole */
    CHECK_STOP(0x0100, 3, 1, 0x122E);
    CHECK_STOP(0xFFFF, 2, 0);
    CHECK_STOP(0, 4, 1, 0x122E); /* has a BC above 3 */
    CHECK_STOP(0, 7, 1, 0x122E);
    CHECK_STOP(1, 0x0103, 1, 0x122E);
    CHECK_STOP(0, 0xFFFF, 0);
}

/* While a request is pending a list stops before the first packet with words, unless one of no words has dropped what is pending. */
static void test_series_pending(void) {
    lend_with(0x20);
    PACKET_OF(0, 3, 1, 0x122E);
    CHECK(REQUESTS(1000) == done(0) && is_all_same());
    PACKET_OF(1, 2, 0, 0, 3, 0, 1, 3, 1, 0x122E); /* of a link that has nothing pending, and not BC 10: ABORT */
    CHECK(REQUESTS(1000) == done(2) && is_all_same_but_replies() && ARE_REPLIES(2, 0, 2, 0));
    PACKET_OF(0, 2, 0, 1, 3, 1, 0x122E);
    CHECK(REQUESTS(1000) == done(2) && ARE_REPLIES(3, 0, 3, 3, 0x0000, 0x0120, 0) && runs[STATE][LOGODWEN_AT_PENDING] == 0);
}

/* Each packet finds 12,290 words of room behind the replies before it, or isn't done, however short its reply is. */
static void test_series_room(void) {
    static const size_t rows[][2] = {{0, 0},     {1, 0},     {24578, 0}, {24579, 0}, {24580, 1}, /* bytes, and packets done */
                                     {24589, 1}, {24590, 2}, {24599, 2}, {24600, 3}, {24603, 3}};
    for (size_t i = 0; i < sizeof rows / sizeof *rows; i++) {
        lend_with(0);
        lengths[REPLIES] = rows[i][0];
        PACKET_OF(0, 3, 1, 0x122E, 0, 3, 1, 0x122E, 0, 3, 2, 0x522E, 0x0003);
        CHECK(REQUESTS(1000) == done(rows[i][1]) && runs[STATE][LOGODWEN_AT_MODE] == (rows[i][1] == 3 ? 3 : 0));
        CHECK(is_same(REPLIES, 2 * (rows[i][1] == 3 ? 12 : 5 * rows[i][1]), rooms[REPLIES]));
    }
    lend_with(0); /* the longest reply of a bench node, and a Ping behind it that finds just its room */
    lengths[PM] = LOGODWEN_PM_BYTES;
    lengths[REPLIES] = 2 * (12290 + 12288);
    PACKET_OF(0, 3, 3, 0x102E, 0x1FFC, 0x0000, 1, 3, 1, 0x0D2E);
    CHECK(REQUESTS(1000) == done(2) && logodwen_get(runs[REPLIES], 1) == 12286 && is_same(REPLIES, 2 * (12288 + 4), rooms[REPLIES]));
    lengths[REPLIES] -= 1;
    CHECK(REQUESTS(1000) == done(1) && is_same(REPLIES, 2 * 12288, rooms[REPLIES]));
}

/* As many packets as find room: 3,000 Mode Reads, of which each leaves five words less of 24,580. */
static void test_series_long(void) {
    enum { PACKETS = 3000, DONE = 1 + 12290 / 5 };
    static uint16_t row[4 * PACKETS];
    for (size_t i = 0; i < PACKETS; i++) {
        row[4 * i + 1] = 3;
        row[4 * i + 2] = 1;
        row[4 * i + 3] = 0x122E;
    }
    lend_with(0);
    packet(4 * PACKETS, row);
    CHECK(REQUESTS(1000) == done(DONE) && is_all_same_but_replies() && is_same(REPLIES, 2 * 5 * (size_t)DONE, rooms[REPLIES]));
    CHECK(memcmp(runs[REPLIES], runs[REPLIES] + 2 * 5 * ((size_t)DONE - 1), 10) == 0);
}

/* A file that comes in packets is written by a list, also by two; what a packet does, the next one finds: an erasure, entries of the Q-List,
   which are due from the list's one clock on. */
static void test_series_effects(void) {
    lend_with(0);
    PACKET_OF(1, 2, 4, 0x452E, 0x7211, 0x4003, 0x2000, 0, 3, 1, 0x122E, 1, 1, 3, 0xCAFE, 0xF00D, 0x65F0, 0, 3, 2, 0x052E, 0x0211);
    CHECK(REQUESTS(1000) == done(4) && is_none_standing());
    CHECK(ARE_REPLIES(0, 0, 3, 3, 0x0000, 0x0120, 0, 3, 0, 3, 8, 0x7211, 0x4003, 0x2000, 0xCAFE, 0xF00D, 0x65F0, 0x0120, 0));
    PACKET_OF(0, 3, 2, 0x472E, 0x0211, 0, 3, 2, 0x052E, 0x0211, 1, 2, 4, 0x452E, 0x7221, 0x4003, 0x2000);
    CHECK(REQUESTS(1000) == done(3) && ARE_REPLIES(3, 0, 2, 0, 0, 0) && is_standing(1, 3) && runs[STATE][LOGODWEN_AT_ERASING] == 3);
    CHECK(ERASE(UINT64_MAX) == (uint64_t)2048 << 32);
    PACKET_OF(1, 1, 3, 0xCAFE, 0xF00D, 0x65F0, 1, 3, 2, 0x062E, 0x0221);
    CHECK(REQUESTS(1000) == done(2) && ARE_REPLIES(3, 0, 3, 3, 0x0000, 0x0120, 0) && is_none_standing());
    PACKET_OF(0, 3, 10, 0x5C2E, 0x4007, 0x2000, 1, 8, 2, 10, 0x1234, 0x5678, 0xE72E,
              0, 3, 10, 0x5C2E, 0x4007, 0x2000, 1, 8, 2, 10, 0x1234, 0x5678, 0xE72E);
    CHECK(REQUESTS(7000) == done(2) && ARE_REPLIES(3, 0, 3, 0) && is_listing(2, 0) && due_at(0) == 7010 && due_at(1) == 7010);
}

/* A packet, or its three words, past the end: refused by 10, with nothing done (look_round), whatever else is lent, and wherever it is. */
static void check_overrun(size_t words, const uint16_t *row, size_t odd, int line) {
    for (unsigned way = 0; way < 3; way++) { /* nothing else is wrong, all that can be, or no other run is lent */
        lend_with(way == 1 ? 0x1B7 : 0);
        packet(words, row);
        lengths[PACKET] += odd;
        for (int run = 0; way == 2 && run < RUNS; run++)
            lengths[run] = run == PACKET ? lengths[run] : 0;
        check(requests_at(1000, line) == LOGODWEN_REFUSED_OVERRUN, "a packet past the end is refused by 10", line);
    }
}
#define CHECK_OVERRUN(odd, ...) check_overrun(sizeof((uint16_t[]){__VA_ARGS__}) / 2, (uint16_t[]){__VA_ARGS__}, odd, __LINE__)

static void test_series_overrun(void) {
    CHECK_OVERRUN(0, 0);
    CHECK_OVERRUN(1, 0, 3);
    CHECK_OVERRUN(0, 0, 3, 1);
    CHECK_OVERRUN(1, 0, 3, 1); /* half a word */
    CHECK_OVERRUN(0, 0, 3, 0xFFFF, 0x122E);
    CHECK_OVERRUN(0, 0, 3, 2, 0x522E, 0x0003, 0);
    CHECK_OVERRUN(0, 0, 3, 2, 0x522E, 0x0003, 0, 3);
    CHECK_OVERRUN(0, 0, 3, 2, 0x522E, 0x0003, 0, 3, 2, 0x0D2E);
    CHECK_OVERRUN(0, 0, 3, 2, 0x522E, 0x0003, 0, 3, 0xFFFF, 0x0D2E);
    CHECK_OVERRUN(0, 0, 3, 2, 0x522E, 0x0003, 0, 3, 0, 0); /* behind one of no words */
    CHECK_OVERRUN(0, 0, 3, 2, 0x0405, 0x122E, 0, 3, 2, 0x0D2E); /* behind one at which it would stop */
    CHECK_OVERRUN(0, 0, 4, 1, 0x122E, 0);
    CHECK_OVERRUN(0, 9, 3, 1, 0x122E, 0, 3);
}

/* What refuses each of the packets refuses no list: none is done. */
static void test_series_refused(void) {
    static const uint16_t row[] = {0, 3, 1, 0x122E, 0, 3, 1, 0x122E};
    for (unsigned causes = 0; causes < 0x800; causes++) {
        if (causes & 0x24A) /* 2 and 4 are not of what is lent here, 7 not of a request, 10 of the list alone */
            continue;
        lend_with(causes);
        packet(8, row);
        CHECK(REQUESTS(1000) == done(causes == 0 ? 2 : 0) && (causes == 0 || is_all_same()));
    }
    for (size_t length = LOGODWEN_STATE_BYTES - 2; length <= LOGODWEN_STATE_BYTES + 2; length++) {
        lend_with(0);
        packet(8, row);
        lengths[STATE] = length;
        CHECK(REQUESTS(1000) == done(length == LOGODWEN_STATE_BYTES ? 2 : 0) && is_all_same_but_replies());
    }
    lend_with(0);
    packet(8, row);
    memset(runs[STATE], 0, LOGODWEN_STATE_BYTES);
    CHECK(REQUESTS(1000) == done(0) && is_all_same());
}

static void test_series_null(void) {
    lend_with(0);
    PACKET_OF(0, 3, 1, 0x122E, 0, 3, 3, 0x112E, 0x4003, 0x2000);
    lengths[PM] = lengths[DM] = lengths[IO] = lengths[LIST] = 0;
    CHECK(REQUESTS(1000) == done(2) && ARE_REPLIES(3, 3, 0x0000, 0x0120, 0, 2, 0)); /* no DM to read */
    static const int needed[] = {REPLIES, EVENTS, AREA, FLASH, STATE};
    for (size_t i = 0; i < sizeof needed / sizeof *needed; i++) {
        lengths[needed[i]] = 0;
        CHECK(REQUESTS(1000) == done(0) && is_all_same());
    }
    lengths[PACKET] = 0;
    CHECK(REQUESTS(1000) == done(0) && is_all_same());
}

/* Lists by chance: all runs, and the replies in a row, are those of the calls one by one, up to the packet at which a list stops. */

static uint32_t drawn = 1;

static uint32_t draw(uint32_t below) {
    drawn = drawn * 1664525u + 1013904223u;
    return (drawn >> 8) % below;
}

/* A packet of a list by chance: it lays link, BC, length and words, and answers how many these are. */
static size_t lay_by_chance(uint16_t *to) {
    static const uint16_t kinds[][11] = {{1, 0x122E},
                                         {2, 0x522E, 0x0001},
                                         {2, 0x522E, 0x0002},
                                         {3, 0x0D2E, 0x1234, 0x5678},
                                         {1, 0x0C2E},
                                         {1, 0x072E},
                                         {1, 0x00FF},
                                         {7, 0x452E, 0x7211, 0x4003, 0x2000, 0xCAFE, 0xF00D, 0x65F0},
                                         {3, 0x452E, 0x7221, 0x4003},
                                         {4, 0x2000, 0xCAFE, 0xF00D, 0x65F0},
                                         {2, 0x052E, 0x0211},
                                         {2, 0x062E, 0x0221},
                                         {2, 0x462E, 0x0211},
                                         {3, 0x482E, 0x0211, 0x0001},
                                         {2, 0x472E, 0x0211},
                                         {3, 0x112E, 0x4003, 0x2000},
                                         {6, 0x512E, 0x4003, 0x2000, 0xCAFE, 0xF00D, 0x65F0},
                                         {3, 0x102E, 0x0002, 0x0000},
                                         {10, 0x5C2E, 0x4007, 0x2000, 0x0001, 0x0008, 0x0002, 0x000A, 0x1234, 0x5678, 0xE72E},
                                         {1, 0x1C2E},
                                         {1, 0x012E},
                                         {1, 0x022E},
                                         {1, 0x422E},
                                         {2, 0x5B2E, 0x0000},
                                         {1, 0x5B2E},
                                         {0}};
    const uint16_t *kind = kinds[draw(sizeof kinds / sizeof *kinds)];
    to[0] = (uint16_t)draw(2);
    to[1] = (uint16_t)(kind[0] == 3 && kind[1] == 0x452E ? 2 : kind[0] == 4 ? draw(2) : draw(20) == 0 ? draw(5) : 3);
    memcpy(to + 2, kind, 2 * (1 + (size_t)kind[0]));
    if (draw(30) == 0) { /* to a slave */
        to[2] = 2;
        to[3] = 0x0405;
        to[4] = 0x122E;
    }
    return 3 + (size_t)to[2];
}

static uint8_t kept_runs[RUNS][LOGODWEN_FLASH_FULL_BYTES + 8]; /* what a list has left */

/* The calls one by one on what was lent to the list, whose packets are given: how many are done, their replies laid in a row. */
static size_t by_singles(const uint16_t *row, size_t words) {
    uint8_t state[LOGODWEN_STATE_BYTES];
    size_t singles = 0, laid = 0;
    for (size_t at = 0; at < words; at += 3 + (size_t)row[at + 2], singles++) {
        memcpy(state, runs[STATE], sizeof state);
        packet(row[at + 2], row + at + 3);
        if (row[at + 1] > 3 || lengths[REPLIES] / 2 - laid < LOGODWEN_REPLIES_WORDS)
            return singles;
        uint64_t answered = REQUEST(5000, row[at], row[at + 1], 0);
        if (logodwen_answer(answered) == LOGODWEN_ASK)
            memcpy(runs[STATE], state, sizeof state);
        if (logodwen_answer(answered) != LOGODWEN_REPLY)
            return singles;
        logodwen_put(runs[REPLIES], laid, (uint16_t)logodwen_bc(answered));
        logodwen_put(runs[REPLIES], laid + 1, (uint16_t)logodwen_words(answered));
        memcpy(runs[REPLIES] + 2 * (laid + 2), runs[REPLY], 2 * (size_t)logodwen_words(answered));
        laid += 2 + logodwen_words(answered);
    }
    return singles;
}

static void test_series_by_chance(void) {
    enum { PACKETS = 12, TURNS = 120 };
    size_t stopped = 0, all = 0;
    for (unsigned turn = 0; turn < TURNS; turn++) {
        uint16_t row[PACKETS * 13];
        size_t words = 0, packets = 1 + draw(PACKETS);
        if (turn % 20 == 0)
            lend_with(0);
        if (draw(10) == 0)
            ERASE(UINT64_MAX);
        if (draw(4) == 0) { /* an event is unread, as it stands in the area */
            logodwen_put(runs[STATE] + LOGODWEN_AT_EVENT, 0, (uint16_t)draw(65536));
            logodwen_put_pm(runs[STATE] + LOGODWEN_AT_UNREAD, 0, 5 + draw(30));
        }
        lengths[REPLIES] = draw(6) == 0 ? LOGODWEN_REPLIES_BYTES + draw(60) : 2 * LOGODWEN_REPLIES_BYTES;
        for (size_t i = 0; i < packets; i++)
            words += lay_by_chance(row + words);
        packet(words, row);
        uint64_t answered = REQUESTS(5000);
        for (int run = 0; run < RUNS; run++) {
            memcpy(kept_runs[run], runs[run], rooms[run]);
            memcpy(runs[run], copies[run], rooms[run]);
        }
        size_t singles = by_singles(row, words);
        CHECK(answered == done(singles));
        for (int run = 0; run < RUNS; run++)
            CHECK(run == REPLY || run == PACKET || memcmp(kept_runs[run], runs[run], rooms[run]) == 0);
        stopped += singles < packets;
        all += singles;
    }
    CHECK(stopped > TURNS / 10 && all > 3 * TURNS);
}

/* Event builds (02, request 12). */

/* Slaves 5 and 7 are those of mask 0, and 5 is asked for its event, at 1000. */
static void build_two(size_t shift) {
    lay_out(shift);
    CHECK(START(LOGODWEN_CDDC, 2, 0) == LOGODWEN_DONE);
    PACKET_OF(0x572E, 0x0000, 0x00A0);
    CHECK(REQUEST(1000, 0, LOGODWEN_BC_WHOLE, 0) == zero_length(LOGODWEN_BC_END));
    CHECK(BUILD(1000) == ask_event(5));
}

#define IS_EVENT(from, ...) are_words(EVENTS, from, sizeof((uint16_t[]){__VA_ARGS__}) / 2, (uint16_t[]){__VA_ARGS__})

/* A packet of words and their FCS. */
static void sealed(size_t count, const uint16_t *words) {
    packet(count, words);
    logodwen_put(runs[PACKET], count, logodwen_fcs(runs[PACKET], count));
    lengths[PACKET] += 2;
}
#define SEALED_OF(...) sealed(sizeof((uint16_t[]){__VA_ARGS__}) / 2, (uint16_t[]){__VA_ARGS__})

/* Whether the event area ends its event of so many words with the FCS of the others, and every byte behind stays. */
static int is_event_sealed(size_t words) {
    return logodwen_get(runs[EVENTS], words - 1) == logodwen_fcs(runs[EVENTS], words - 1) && is_same(EVENTS, 2 * words, rooms[EVENTS]);
}

/* Whether a build is pending: the slave asked so many times, at that time, with so many words built, that tally and those left out. */
static int is_building(unsigned slave, unsigned asks, uint32_t at, uint32_t words, unsigned tally, uint32_t left_out) {
    const uint8_t *state = runs[STATE];
    return state[LOGODWEN_AT_PENDING] == 3 && state[LOGODWEN_AT_LINK] == 0 && state[LOGODWEN_AT_FROM] == 0
           && state[LOGODWEN_AT_SLAVE] == slave && state[LOGODWEN_AT_TALLY] == tally && state_long(LOGODWEN_AT_ASKED) == 0xA0
           && state_long(LOGODWEN_AT_ASKED_AT) == at && state_long(LOGODWEN_AT_BUILT) == words && state_long(LOGODWEN_AT_ASKS) == asks
           && state_long(LOGODWEN_AT_LEFT_OUT) == left_out;
}

static int is_nothing_pending(void) {
    for (size_t at = LOGODWEN_AT_LINK; at < LOGODWEN_AT_MASKS; at++)
        if (runs[STATE][at] != 0)
            return 0;
    return runs[STATE][LOGODWEN_AT_PENDING] == 0 && is_received(0, 0) && is_no_build();
}

/* An event of two slaves, one of which is left out, at every shift; it is read once, and no byte of the reply buffer is written before. */
static void test_build(void) {
    for (size_t shift = 0; shift < 4; shift++) {
        build_two(shift);
        CHECK(is_building(5, 1, 1000, 0, 0, 0) && is_kept(0, 0, 0) && is_received(0, 0));
        SEALED_OF(0x0001, 0xAAAA, 0xBBBB, 0x01A0);
        CHECK(SLAVE_REPLY(1059, 5, LOGODWEN_BC_WHOLE, 0) == ask_event(7) && is_building(7, 1, 1059, 4, 5, 0));
        CHECK(IS_EVENT(1, 0x0003, 0xAAAA, 0xBBBB, 0x81A5) && is_same(EVENTS, 0, 2) && is_same(EVENTS, 10, rooms[EVENTS]));
        CHECK(is_same(REPLY, 0, rooms[REPLY]) && POLL(1118) == (uint64_t)LOGODWEN_WAITING << 8);
        SEALED_OF(0x0001, 0x0020);
        CHECK(SLAVE_REPLY(1118, 7, LOGODWEN_BC_WHOLE, 0) == built(9) && is_same(REPLY, 0, rooms[REPLY]));
        CHECK(IS_EVENT(0, 0x0001, 0x0003, 0xAAAA, 0xBBBB, 0x81A5, 0x0000, 0x0080, 0x0100) && is_event_sealed(9));
        CHECK(is_nothing_pending() && is_kept(1, 0, 9) && BUILD(1118) == zero_length(LOGODWEN_BC_ABORT) && is_all_same());
        PACKET_OF(0x012E);
        CHECK(REQUEST(1118, 1, LOGODWEN_BC_WHOLE, 0) == with_words(9) && is_kept(1, 0, 0));
        CHECK(memcmp(runs[REPLY], runs[EVENTS], 18) == 0 && is_same(REPLY, 18, rooms[REPLY]));
        CHECK(REQUEST(1118, 1, LOGODWEN_BC_WHOLE, 0) == zero_length(LOGODWEN_BC_END) && is_all_same());
        CHECK(BUILD(1200) == ask_event(5) && is_building(5, 1, 1200, 0, 0, 0) && is_kept(1, 0, 0));
    }
}

/* END is asked again, twice, each time at this clock; the third is the fragment. */
static void test_build_asks(void) {
    build_two(1);
    lengths[PACKET] = 0;
    CHECK(SLAVE_REPLY(1059, 5, LOGODWEN_BC_END, 0) == ask_event(5) && is_building(5, 2, 1059, 0, 0, 0));
    CHECK(SLAVE_REPLY(1118, 5, LOGODWEN_BC_END, 0) == ask_event(5) && is_building(5, 3, 1118, 0, 0, 0));
    CHECK(is_same(EVENTS, 0, rooms[EVENTS]));
    CHECK(SLAVE_REPLY(1177, 5, LOGODWEN_BC_END, 0) == ask_event(7) && is_building(7, 1, 1177, 2, 1, 0) && IS_EVENT(1, 0x0001, 0x2005));
    CHECK(SLAVE_REPLY(1177, 7, LOGODWEN_BC_END, 0) == ask_event(7) && is_building(7, 2, 1177, 2, 1, 0));
    CHECK(POLL(1236) == (uint64_t)LOGODWEN_WAITING << 8 && POLL(1237) == no_event()); /* nobody had data */
    CHECK(IS_EVENT(3, 0x0001, 0x2807) && is_same(EVENTS, 0, 6) && is_nothing_pending() && is_kept(0, 0, 0));
    PACKET_OF(0x012E);
    CHECK(REQUEST(1237, 1, LOGODWEN_BC_WHOLE, 0) == zero_length(LOGODWEN_BC_END) && BUILD(1237) == ask_event(5));
}

/* A reply in packets: its words stand a word higher until the last has come. */
static void test_build_packets(void) {
    for (size_t cut = 1; cut <= 4; cut++) {
        uint8_t whole[10];
        build_two(cut);
        SEALED_OF(0x0001, 0xAAAA, 0xBBBB, 0x01A0);
        memcpy(whole, runs[PACKET], sizeof whole);
        lengths[PACKET] = 2 * cut;
        rx_status = 0x1234;
        CHECK(SLAVE_REPLY(1059, 5, LOGODWEN_BC_FIRST, 0) == send_next(5) && is_received((uint32_t)cut, 0x1234));
        CHECK(is_building(5, 1, 1059, 0, 0, 0) && memcmp(runs[EVENTS] + 4, whole, 2 * cut) == 0);
        CHECK(is_same(EVENTS, 0, 4) && is_same(EVENTS, 4 + 2 * cut, rooms[EVENTS]) && is_same(REPLY, 0, rooms[REPLY]));
        memcpy(runs[PACKET], whole + 2 * cut, lengths[PACKET] = 10 - 2 * cut);
        CHECK(SLAVE_REPLY(1118, 5, LOGODWEN_BC_LAST, 0) == ask_event(7) && is_received(0, 0) && is_building(7, 1, 1118, 4, 5, 0));
        CHECK(IS_EVENT(1, 0x0003, 0xAAAA, 0xBBBB, 0x81A5) && is_same(EVENTS, 10, rooms[EVENTS]));
    }
    build_two(0); /* another number; then a packet with receive errors, which is counted */
    SEALED_OF(0x0002, 0xAAAA, 0x01A0);
    lengths[PACKET] = 4;
    rx_status = 0x5678;
    uint16_t seal = logodwen_get(runs[PACKET], 3);
    CHECK(SLAVE_REPLY(1001, 5, LOGODWEN_BC_FIRST, 0) == send_next(5));
    PACKET_OF(0x01A0, seal);
    CHECK(SLAVE_REPLY(1001, 5, LOGODWEN_BC_LAST, 0) == ask_event(7) && IS_EVENT(1, 0x0004, 0x5678, 0x0004, 0x0002, 0xD805));
    CHECK(SLAVE_REPLY(1001, 7, LOGODWEN_BC_WHOLE, 1) == built(14) && state_word(LOGODWEN_AT_AMSWIRE_ERRORS) == 1 && is_kept(1, 1, 14));
    CHECK(IS_EVENT(6, 0x0003, 0x5678, 0x00BB, 0x3007, 0x0000, 0x0000, 0x0300) && is_event_sealed(14));
    rx_status = 0x00AA;
}

/* A reply with another number, one without number and tail, and one that just has room; an event of 12,288 words, which is read whole. */
static void test_build_codes(void) {
    const size_t room = LOGODWEN_EVENTS_WORDS - 5 - 5; /* slave 7 is to come */
    build_two(2);
    SEALED_OF(0x0000, 0xAAAA, 0x01A0);
    CHECK(SLAVE_REPLY(1000, 5, LOGODWEN_BC_WHOLE, 0) == ask_event(7) && IS_EVENT(1, 0x0004, 0x00AA, 0x0004, 0x0000, 0xA005));
    SEALED_OF(0x0001);
    CHECK(SLAVE_REPLY(1000, 7, LOGODWEN_BC_WHOLE, 0) == built(15) && IS_EVENT(6, 0x0004, 0x00AA, 0x0002, 0x0001, 0x9807) && is_kept(1, 1, 15));
    for (size_t n = room; n <= room + 1; n++) {
        build_two(3);
        PACKET_OF(0x0001);
        lengths[PACKET] = 2 * n;
        logodwen_put(runs[PACKET], n - 2, 0x0020);
        logodwen_put(runs[PACKET], n - 1, logodwen_fcs(runs[PACKET], n - 1));
        CHECK(SLAVE_REPLY(1000, 5, LOGODWEN_BC_WHOLE, 0) == ask_event(7) && state_long(LOGODWEN_AT_BUILT) == (n == room ? n - 1 : 5));
        CHECK(logodwen_get(runs[EVENTS], n == room ? n - 1 : 5) == (n == room ? 0x8025 : 0x9025));
    }
    build_two(0);
    logodwen_put_pm(runs[STATE] + LOGODWEN_AT_BUILT, 0, (uint32_t)LOGODWEN_EVENTS_WORDS - 5 - 10);
    PACKET_OF(9, 9);
    CHECK(SLAVE_REPLY(1000, 5, LOGODWEN_BC_WHOLE, 0) == ask_event(7));
    CHECK(SLAVE_REPLY(1000, 7, LOGODWEN_BC_WHOLE, 0) == built(LOGODWEN_EVENTS_WORDS) && is_kept(1, 1, LOGODWEN_EVENTS_WORDS));
    PACKET_OF(0x012E);
    CHECK(REQUEST(1000, 0, LOGODWEN_BC_WHOLE, 0) == with_words(LOGODWEN_EVENTS_WORDS));
    CHECK(memcmp(runs[REPLY], runs[EVENTS], LOGODWEN_EVENTS_BYTES) == 0 && is_kept(1, 1, 0));
}

/* ABORT where no build begins, and nothing changes. */
static void test_build_aborts(void) {
    lay_out(0);
    CHECK(START(LOGODWEN_CDP, 2, 0) == LOGODWEN_DONE);
    CHECK(BUILD(1000) == zero_length(LOGODWEN_BC_ABORT) && is_all_same());
    logodwen_put_pm(runs[STATE] + LOGODWEN_AT_MASKS, 0, 0xFFFFFF);
    CHECK(BUILD(1000) == zero_length(LOGODWEN_BC_ABORT) && is_all_same());
    CHECK(START(LOGODWEN_CDDC, 2, 0) == LOGODWEN_DONE);
    PACKET_OF(0x572E, 0x0000, 0x0000);
    CHECK(REQUEST(1000, 0, LOGODWEN_BC_WHOLE, 0) == zero_length(LOGODWEN_BC_END));
    logodwen_put_pm(runs[STATE] + LOGODWEN_AT_MASKS + 4, 0, 0xFFFFFF); /* mask 1 does not count */
    CHECK(BUILD(1000) == zero_length(LOGODWEN_BC_ABORT) && is_all_same());
    PACKET_OF(0x572E, 0x0080, 0x0000);
    CHECK(REQUEST(1000, 0, LOGODWEN_BC_WHOLE, 0) == zero_length(LOGODWEN_BC_END));
    static const uint32_t unread[] = {1, 5, LOGODWEN_EVENTS_WORDS};
    for (size_t i = 0; i < sizeof unread / sizeof *unread; i++) {
        logodwen_put_pm(runs[STATE] + LOGODWEN_AT_UNREAD, 0, unread[i]);
        CHECK(BUILD(1000) == zero_length(LOGODWEN_BC_ABORT) && is_all_same());
    }
    logodwen_put_pm(runs[STATE] + LOGODWEN_AT_UNREAD, 0, 0);
    CHECK(BUILD(1000) == ask_event(23) && runs[STATE][LOGODWEN_AT_SLAVE] == 23);
}

/* Status words 7 and 8 with bit 14, Event Number and reset; each command without parameters, on both kinds of node. */
static void test_event_commands(void) {
    for (uint32_t kind = LOGODWEN_CDP; kind <= LOGODWEN_CDDC; kind++) {
        unsigned number = 0;
        lay_out(0);
        CHECK(START(kind, 2, 0) == LOGODWEN_DONE);
        logodwen_put(runs[STATE] + LOGODWEN_AT_EVENT, 0, 0xABCD);
        logodwen_put_pm(runs[STATE] + LOGODWEN_AT_UNREAD, 0, 7);
        PACKET_OF(0x0C2E);
        CHECK(REQUEST(1000, 1, LOGODWEN_BC_WHOLE, 0) == with_words(12) && reply_word(5) == 0x0F01 && reply_word(6) == 0xABCD && reply_word(7) == 0);
        logodwen_put(runs[STATE] + LOGODWEN_AT_BUILD_ERRORS, 0, 0x8001);
        CHECK(REQUEST(1000, 1, LOGODWEN_BC_WHOLE, 0) == with_words(12) && reply_word(5) == 0x4F01 && reply_word(7) == 0x8001);
        PACKET_OF(0x022E);
        CHECK(REQUEST(1000, 1, LOGODWEN_BC_WHOLE, 0) == with_words(4) && reply_word(0) == 0xABCD && reply_word(1) == 0);
        CHECK(logodwen_read_event_number(runs[REPLY], 4, &number) && number == 0xABCD && is_kept(0xABCD, 0x8001, 7));
        static const uint16_t ids[3] = {0x012E, 0x022E, 0x422E};
        for (size_t i = 0; i < 3; i++) {
            PACKET_OF(ids[i], 0x0000);
            CHECK(REQUEST(1000, 1, LOGODWEN_BC_WHOLE, 0) == zero_length(LOGODWEN_BC_ABORT) && is_all_same());
        }
        PACKET_OF(0x012E);
        CHECK(REQUEST(1000, 1, LOGODWEN_BC_WHOLE, 0) == with_words(7) && memcmp(runs[REPLY], runs[EVENTS], 14) == 0);
        CHECK(is_kept(0xABCD, 0x8001, 0) && is_same(REPLY, 14, rooms[REPLY]));
        logodwen_put_pm(runs[STATE] + LOGODWEN_AT_UNREAD, 0, 7);
        PACKET_OF(0x422E);
        CHECK(REQUEST(1000, 1, LOGODWEN_BC_WHOLE, 0) == zero_length(LOGODWEN_BC_END) && is_kept(0, 0x8001, 0));
    }
}

/* The errors are counted up to FFFF, and the number goes round. */
static void test_build_counts(void) {
    build_two(0);
    logodwen_put(runs[STATE] + LOGODWEN_AT_BUILD_ERRORS, 0, 0xFFFE);
    logodwen_put(runs[STATE] + LOGODWEN_AT_EVENT, 0, 0xFFFE);
    for (unsigned turn = 0; turn < 3; turn++) {
        PACKET_OF(9);
        CHECK(SLAVE_REPLY(1000, 5, LOGODWEN_BC_WHOLE, 0) == ask_event(7) && POLL(1060) == built(12));
        CHECK(is_kept((0xFFFF + turn) & 0xFFFF, 0xFFFF, 12) && logodwen_get(runs[EVENTS], 0) == ((0xFFFF + turn) & 0xFFFF));
        PACKET_OF(0x012E);
        CHECK(REQUEST(1000, 0, LOGODWEN_BC_WHOLE, 0) == with_words(12) && BUILD(1000) == ask_event(5));
    }
}

/* 6 covers both, and no link drops a build; other calls leave it alone. */
static void test_build_meanwhile(void) {
    build_two(0);
    CHECK(BUILD(1000) == LOGODWEN_REFUSED_BUSY);
    PACKET_OF(0x122E);
    CHECK(REQUEST(1000, 0, LOGODWEN_BC_WHOLE, 0) == LOGODWEN_REFUSED_BUSY && REQUEST(1000, 0, LOGODWEN_BC_FIRST, 1) == LOGODWEN_REFUSED_BUSY);
    for (uint32_t link = 0; link < 2; link++)
        for (uint32_t bc = 0; bc < 4; bc++) {
            lengths[PACKET] = bc % 2;
            CHECK(REQUEST(1000, link, bc, 0) == zero_length(LOGODWEN_BC_ABORT) && is_all_same());
        }
    lengths[PACKET] = 0;
    CHECK(ERASE(1) == 0 && is_all_same() && SLOW(1000) == nothing() && is_all_same());
    runs[STATE][LOGODWEN_AT_WRITE] = 1; /* a file of link 0 comes in packets */
    logodwen_put_pm(runs[STATE] + LOGODWEN_AT_JOINED, 0, 3);
    CHECK(REQUEST(1000, 1, LOGODWEN_BC_ABORT, 0) == zero_length(LOGODWEN_BC_ABORT) && is_standing(0, 3));
    CHECK(REQUEST(1000, 0, LOGODWEN_BC_ABORT, 0) == zero_length(LOGODWEN_BC_END) && is_none_standing() && is_building(5, 1, 1000, 0, 0, 0));
    CHECK(SLAVE_REPLY(1000, 7, LOGODWEN_BC_END, 0) == LOGODWEN_REFUSED_UNASKED && SLAVE_REPLY(1000, 0, LOGODWEN_BC_END, 0) == LOGODWEN_REFUSED_UNASKED);
    PACKET_OF(0, 3, 1, 0x122E, 0, 2, 0);
    CHECK(REQUESTS(1000) == done(0) && is_all_same());
    PACKET_OF(0, 2, 0, 0, 3, 1, 0x122E);
    CHECK(REQUESTS(1000) == done(1) && ARE_REPLIES(2, 0) && is_all_same_but_replies());
    ask_two(0);
    CHECK(BUILD(1000) == LOGODWEN_REFUSED_BUSY);
    lend_with(0x20);
    CHECK(BUILD(1000) == LOGODWEN_REFUSED_BUSY);
}

/* A byte of a build's state, set: whether it is one still. */
static void check_building(size_t at, uint32_t value, size_t bytes, unsigned expected) {
    build_two(0);
    for (size_t i = 0; i < bytes; i++)
        runs[STATE][at + i] = (uint8_t)(value >> 8 * i);
    lengths[PACKET] = 0;
    CHECK(logodwen_refusal(POLL(1000)) == expected && logodwen_refusal(ERASE(1)) == expected);
    CHECK(logodwen_refusal(REQUEST(1000, 0, LOGODWEN_BC_END, 0)) == expected);
    CHECK(logodwen_refusal(BUILD(1000)) == (expected == 0 ? LOGODWEN_REFUSED_BUSY : expected));
    CHECK(expected == 0 || SLAVE_REPLY(1000, 5, LOGODWEN_BC_NEXT, 0) == expected);
}

static void test_build_bytes(void) {
    static const struct {
        uint32_t at, value, bytes, refusal;
    } cases[] = {{LOGODWEN_AT_ASKS, 0, 1, 5}, {LOGODWEN_AT_ASKS, 1, 1, 0}, {LOGODWEN_AT_ASKS, 3, 1, 0}, {LOGODWEN_AT_ASKS, 4, 1, 5},
                 {LOGODWEN_AT_ASKS, 255, 1, 5}, {201, 1, 1, 5}, {202, 1, 1, 5}, {203, 0x80, 1, 5},
                 {LOGODWEN_AT_LEFT_OUT, 0xFFFFFF, 4, 0}, {LOGODWEN_AT_LEFT_OUT, 0x1000000, 4, 5}, {LOGODWEN_AT_LEFT_OUT, 0x80000000, 4, 5},
                 {LOGODWEN_AT_TALLY, 1, 1, 0}, {LOGODWEN_AT_TALLY, 2, 1, 5}, {LOGODWEN_AT_TALLY, 3, 1, 5}, {LOGODWEN_AT_TALLY, 4, 1, 5},
                 {LOGODWEN_AT_TALLY, 5, 1, 0}, {LOGODWEN_AT_TALLY, 6, 1, 0}, {LOGODWEN_AT_TALLY, 7, 1, 5},
                 {LOGODWEN_AT_LINK, 1, 1, 5}, {LOGODWEN_AT_LINK, 2, 1, 5}, {LOGODWEN_AT_FROM, 1, 1, 5}, {LOGODWEN_AT_FROM, 2, 1, 5},
                 {LOGODWEN_AT_SLAVE, 7, 1, 0}, {LOGODWEN_AT_SLAVE, 6, 1, 5}, {LOGODWEN_AT_SLAVE, 24, 1, 5}, {LOGODWEN_AT_SLAVE, 255, 1, 5},
                 {LOGODWEN_AT_ASKED, 0xFFFFFF, 4, 0}, {LOGODWEN_AT_ASKED, 0x10000A0, 4, 5}, {LOGODWEN_AT_ASKED, 0x80, 4, 5},
                 {LOGODWEN_AT_BUILT, 12273, 4, 0}, {LOGODWEN_AT_BUILT, 12274, 4, 5}, {LOGODWEN_AT_BUILT, 0xFFFFFFFF, 4, 5},
                 {LOGODWEN_AT_RECEIVED, 12278, 4, 0}, {LOGODWEN_AT_RECEIVED, 12279, 4, 5}, {LOGODWEN_AT_RECEIVED, 0xFFFFFFFF, 4, 5},
                 {LOGODWEN_AT_RX_STATUS, 1, 2, 5}, {186, 1, 1, 5}, {LOGODWEN_AT_UNREAD, 12288, 4, 0}, {LOGODWEN_AT_UNREAD, 12289, 4, 5},
                 {LOGODWEN_AT_UNREAD, 0x80000000, 4, 5}, {LOGODWEN_AT_EVENT, 0xFFFF, 2, 0}, {LOGODWEN_AT_BUILD_ERRORS, 0xFFFF, 2, 0},
                 {LOGODWEN_AT_PENDING, 0, 1, 5}, {LOGODWEN_AT_PENDING, 1, 1, 5}, {LOGODWEN_AT_PENDING, 2, 1, 5}, {LOGODWEN_AT_PENDING, 4, 1, 5}};
    for (size_t i = 0; i < sizeof cases / sizeof *cases; i++)
        check_building(cases[i].at, cases[i].value, cases[i].bytes, cases[i].refusal);
    lend_with(0); /* an event unread, where nothing is pending */
    logodwen_put_pm(runs[STATE] + LOGODWEN_AT_UNREAD, 0, LOGODWEN_EVENTS_WORDS + 1);
    CHECK(ERASE(1) == LOGODWEN_REFUSED_STATE && BUILD(1) == LOGODWEN_REFUSED_STATE && SLOW(1) == LOGODWEN_REFUSED_STATE);
}

/* The event area is long enough to the byte; a longer one, with an odd byte too, is as good. */
static void test_build_lengths(void) {
    static const struct {
        size_t bytes;
        int fits;
    } cases[] = {{0, 0}, {1, 0}, {LOGODWEN_EVENTS_BYTES - 2, 0}, {LOGODWEN_EVENTS_BYTES - 1, 0}, {LOGODWEN_EVENTS_BYTES, 1},
                 {LOGODWEN_EVENTS_BYTES + 1, 1}, {LOGODWEN_EVENTS_BYTES + 7, 1}};
    for (size_t i = 0; i < sizeof cases / sizeof *cases; i++) {
        unsigned expected = cases[i].fits ? 0 : LOGODWEN_REFUSED_EVENTS_SIZE;
        build_two(i);
        lengths[EVENTS] = cases[i].bytes;
        CHECK(logodwen_refusal(POLL(1000)) == expected);
        SEALED_OF(0x0001, 0x1234, 0x0020);
        CHECK(logodwen_refusal(SLAVE_REPLY(1000, 5, LOGODWEN_BC_WHOLE, 0)) == expected);
        lengths[PACKET] = 0;
        CHECK(logodwen_refusal(REQUEST(1000, 0, LOGODWEN_BC_END, 0)) == expected);
        lend_with(0);
        lengths[EVENTS] = cases[i].bytes;
        CHECK(logodwen_refusal(BUILD(1000)) == expected);
        lend_with(0);
        lengths[EVENTS] = cases[i].bytes;
        PACKET_OF(0, 3, 1, 0x122E);
        CHECK(REQUESTS(1000) == done(cases[i].fits ? 1 : 0));
    }
}

/* Read Event in a list, twice: the event, then END; it is done as often as there are events. */
static void test_series_event(void) {
    build_two(0);
    SEALED_OF(0x0001, 0x0020);
    CHECK(SLAVE_REPLY(1000, 5, LOGODWEN_BC_WHOLE, 0) == ask_event(7) && SLAVE_REPLY(1000, 7, LOGODWEN_BC_WHOLE, 0) == built(5));
    PACKET_OF(1, 3, 1, 0x022E, 0, 3, 1, 0x012E, 1, 3, 1, 0x012E);
    CHECK(REQUESTS(1000) == done(3) && ARE_REPLIES(3, 4, 0x0001, 0, 0x0120, 0, 3, 5, 0x0001, 0x0000, 0x00A0, 0x0100, 0, 3, 0));
    CHECK(is_kept(1, 0, 0));
}

/* Saving what is readable (02, request 14): the flash is the first one, and SECOND the second. */

static uint64_t salvage_at(int line) {
    remember();
    uint64_t answered = logodwen_salvage(lent(FLASH), lengths[FLASH], lent(SECOND), lengths[SECOND]);
    look_round(logodwen_refusal(answered), line);
    check(is_same(FLASH, 0, rooms[FLASH]), "the first flash stays", line);
    return answered;
}
#define SALVAGE() salvage_at(__LINE__)

/* A number that says of a sector what came of it, and how many segments are kept. */
static uint64_t saved(unsigned sector, uint64_t how, uint64_t kept) { return (how << 4 | kept) << (8 + 6 * (sector - LOGODWEN_SECTOR_FIRST)); }

static void put_in_sector(uint8_t *flash, unsigned sector, size_t count, const uint16_t *words) {
    for (size_t i = 0; i < count; i++)
        logodwen_put(flash, logodwen_sector_start(flash_bytes, sector) + i, words[i]);
}
#define SECTOR_OF(flash, sector, ...) \
    put_in_sector(flash, sector, sizeof(uint16_t[]){__VA_ARGS__} / 2, (const uint16_t[]){__VA_ARGS__})

/* A segment of two DM words; its FCS, or a wrong one. */
#define SEGMENT(fcs) 0x4003, 0x2000, 0xCAFE, 0xF00D, fcs

/* Lays the flash, and what the second one then has. Answers the number that a salvage answers. A header of blank words says 16,383 words of IO: it
   leads out of a sector of bench size, and in one of full size to the place behind them. */
static uint64_t lay_damaged(uint8_t *expected) {
    static const uint8_t data[4] = {0xFE, 0xCA, 0x0D, 0xF0};
    const uint16_t right = logodwen_fcs(data, 2), wrong = right ^ 1;
    const bool is_followed = flash_bytes == LOGODWEN_FLASH_FULL_BYTES;
    uint8_t *flash = runs[FLASH];
    memset(expected, 0xFF, flash_bytes);
    memset(flash, 0x5A, 2 * unit()); /* sectors 0 to 2 do not go over */
    SECTOR_OF(flash, 3, 0x7211, SEGMENT(right));
    SECTOR_OF(expected, 3, 0x7211, SEGMENT(right));
    SECTOR_OF(flash, 4, 0x7213, SEGMENT(wrong), SEGMENT(right), SEGMENT(wrong));
    SECTOR_OF(expected, 4, 0x7211, SEGMENT(right));
    SECTOR_OF(flash, 5, 0x6212, SEGMENT(right), SEGMENT(right));
    SECTOR_OF(expected, 5, 0x6212, SEGMENT(right), SEGMENT(right));
    logodwen_put(flash, logodwen_sector_start(flash_bytes, 6) - 1, 0x7FFF); /* behind that file, up to the last bit of the sector */
    SECTOR_OF(flash, 6, 0x7211, SEGMENT(wrong));
    SECTOR_OF(flash, 7, 0xB211, SEGMENT(right));
    SECTOR_OF(flash, 8, 0x7212, SEGMENT(right), 0x0003, 0x0000);
    SECTOR_OF(flash, 9, 0x7212, SEGMENT(right), 0xFFFF, 0xFFFF);
    if (is_followed)
        SECTOR_OF(expected, 9, 0x7211, SEGMENT(right));
    return saved(3, LOGODWEN_SAVED_COPIED, 1) | saved(4, LOGODWEN_SAVED_REDUCED, 1) | saved(5, LOGODWEN_SAVED_REDUCED, 2)
           | saved(6, LOGODWEN_SAVED_LOST, 0) | saved(7, LOGODWEN_SAVED_LOST, 0) | saved(8, LOGODWEN_SAVED_LOST, 0)
           | (is_followed ? saved(9, LOGODWEN_SAVED_REDUCED, 1) : saved(9, LOGODWEN_SAVED_LOST, 0)) | saved(10, LOGODWEN_SAVED_COPIED, 0);
}

/* At every shift from an aligned place; and a salvage of what was saved, which changes nothing. */
static void test_salvage(void) {
    static uint8_t expected[LOGODWEN_FLASH_FULL_BYTES];
    for (size_t shift = 0; shift < 9; shift++) {
        lay_out(shift);
        uint64_t answered = lay_damaged(expected), again = 0;
        CHECK(SALVAGE() == answered && memcmp(runs[SECOND], expected, flash_bytes) == 0);
        for (unsigned sector = LOGODWEN_SECTOR_FIRST; sector <= LOGODWEN_SECTOR_LAST; sector++)
            again |= saved(sector, LOGODWEN_SAVED_COPIED, logodwen_kept(answered, sector));
        memcpy(runs[FLASH], expected, flash_bytes);
        memset(runs[SECOND], 0xFF, flash_bytes);
        CHECK(SALVAGE() == again && memcmp(runs[SECOND], expected, flash_bytes) == 0);
    }
}

/* Refusal 1 before 12; of the second flash each byte counts, and none behind it. */
static void test_salvage_refusals(void) {
    const size_t others[] = {0, 1, 2, flash_bytes / 2, flash_bytes - 2, flash_bytes - 1, flash_bytes + 1, flash_bytes + 2};
    const size_t places[] = {0, 1, 2 * unit(), flash_bytes / 2 + 1, flash_bytes - 2, flash_bytes - 1};
    static uint8_t expected[LOGODWEN_FLASH_FULL_BYTES];
    lay_out(0);
    uint64_t answered = lay_damaged(expected);
    for (size_t i = 0; i < sizeof others / sizeof *others; i++) {
        lengths[FLASH] = others[i];
        CHECK(SALVAGE() == LOGODWEN_REFUSED_FLASH_SIZE);
        lengths[SECOND] = others[i];
        CHECK(SALVAGE() == LOGODWEN_REFUSED_FLASH_SIZE);
        lengths[FLASH] = flash_bytes;
        CHECK(SALVAGE() == LOGODWEN_REFUSED_SECOND);
        lengths[SECOND] = flash_bytes;
    }
    for (size_t i = 0; i < sizeof places / sizeof *places; i++) {
        runs[SECOND][places[i]] ^= (uint8_t)(1u << i);
        CHECK(SALVAGE() == LOGODWEN_REFUSED_SECOND);
        lengths[FLASH]--;
        CHECK(SALVAGE() == LOGODWEN_REFUSED_FLASH_SIZE);
        lengths[FLASH]++;
        runs[SECOND][places[i]] = 0xFF;
    }
    runs[SECOND][flash_bytes] = 0;
    CHECK(SALVAGE() == answered && memcmp(runs[SECOND], expected, flash_bytes) == 0);
    CHECK(SALVAGE() == LOGODWEN_REFUSED_SECOND); /* now it is written */
}

/* Two flashes, each of a size that a flash may have. */
static void test_salvage_sizes(void) {
    const size_t sizes[2] = {LOGODWEN_FLASH_BYTES, LOGODWEN_FLASH_FULL_BYTES};
    uint64_t empty = 0;
    for (unsigned sector = LOGODWEN_SECTOR_FIRST; sector <= LOGODWEN_SECTOR_LAST; sector++)
        empty |= saved(sector, LOGODWEN_SAVED_COPIED, 0);
    lay_out(0);
    for (size_t first = 0; first < 2; first++)
        for (size_t second = 0; second < 2; second++) {
            lengths[FLASH] = sizes[first];
            lengths[SECOND] = sizes[second];
            CHECK(SALVAGE() == (first == second ? empty : LOGODWEN_REFUSED_SECOND));
        }
}

/* The parts of the number, of each sector; a refusal has none, and neither has a number that is no sector's. */
static void test_salvage_answers(void) {
    for (unsigned sector = LOGODWEN_SECTOR_FIRST; sector <= LOGODWEN_SECTOR_LAST; sector++)
        for (unsigned other = 0; other < 14; other++) {
            unsigned how = other == sector ? LOGODWEN_SAVED_LOST : 0, kept = other == sector ? 15 : 0;
            uint64_t answered = saved(sector, LOGODWEN_SAVED_LOST, 15);
            CHECK(logodwen_saved(answered, other) == how && logodwen_kept(answered, other) == kept);
            CHECK(logodwen_refusal(answered) == LOGODWEN_DONE && logodwen_saved(LOGODWEN_REFUSED_SECOND, other) == 0);
        }
    uint64_t fourth = saved(4, LOGODWEN_SAVED_COPIED, 9);
    CHECK(logodwen_saved(fourth, 4) == LOGODWEN_SAVED_COPIED && logodwen_kept(fourth, 4) == 9);
    CHECK(logodwen_saved(UINT64_MAX, UINT32_MAX) == 0 && logodwen_kept(UINT64_MAX, 2) == 0 && logodwen_kept(UINT64_MAX, 11) == 0);
    CHECK(strcmp(logodwen_saved_text(LOGODWEN_SAVED_COPIED), "copied") == 0);
    CHECK(strcmp(logodwen_saved_text(LOGODWEN_SAVED_REDUCED), "reduced") == 0);
    CHECK(strcmp(logodwen_saved_text(LOGODWEN_SAVED_LOST), "lost") == 0 && strcmp(logodwen_saved_text(0), "not told") == 0);
}

static void test_texts(void) {
    CHECK(strcmp(logodwen_reply_text(zero_length(0)), "NEXT") == 0 && strcmp(logodwen_reply_text(zero_length(1)), "ERROR") == 0);
    CHECK(strcmp(logodwen_reply_text(zero_length(2)), "ABORT") == 0 && strcmp(logodwen_reply_text(zero_length(3)), "END") == 0);
    CHECK(strcmp(logodwen_reply_text(with_words(1)), "DATA") == 0 && strcmp(logodwen_reply_text(5), "not a reply") == 0);
    CHECK(logodwen_is_next(zero_length(0)) && !logodwen_is_next(zero_length(3)) && !logodwen_is_next(LOGODWEN_REFUSED_BUSY));
    CHECK(!logodwen_is_next((uint64_t)LOGODWEN_REPLY << 8 | (uint64_t)1 << 32)
          && !logodwen_is_next((uint64_t)LOGODWEN_WAITING << 8));
    for (unsigned refusal = 1; refusal <= 12; refusal++)
        CHECK(strtoul(logodwen_refusal_text(refusal), NULL, 10) == refusal);
    CHECK(strcmp(logodwen_refusal_text(0), "done") == 0 && strcmp(logodwen_refusal_text(13), "not a refusal") == 0);
    CHECK(logodwen_done(done(0xFFFFFFFF)) == 0xFFFFFFFF && logodwen_done(LOGODWEN_REFUSED_OVERRUN) == 0);
    CHECK(logodwen_refusal(done(3)) == LOGODWEN_DONE && logodwen_answer(done(3)) == 0 && logodwen_bc(done(3)) == LOGODWEN_NONE);
    CHECK(logodwen_place(done(3)) == LOGODWEN_NONE && !logodwen_is_next(done(3)) && logodwen_slave(done(3)) == LOGODWEN_NONE);
    CHECK(logodwen_slave(ask(23, 2)) == 23 && logodwen_from(ask(23, 2)) == 2 && logodwen_answer(ask(23, 2)) == LOGODWEN_ASK);
    CHECK(logodwen_bc(ask(2, 1)) == LOGODWEN_NONE && logodwen_words(ask(2, 1)) == 0);
    CHECK(logodwen_slave(send_next(23)) == 23 && logodwen_slave(send_next(0)) == 0 && logodwen_from(send_next(23)) == LOGODWEN_NONE);
    CHECK(logodwen_answer(send_next(0)) == LOGODWEN_SEND_NEXT && logodwen_refusal(send_next(0)) == LOGODWEN_DONE);
    CHECK(logodwen_bc(send_next(0)) == LOGODWEN_NONE && logodwen_words(send_next(0)) == 0 && !logodwen_is_next(send_next(0)));
    CHECK(strcmp(logodwen_reply_text(send_next(0)), "not a reply") == 0 && logodwen_place(send_next(0)) == LOGODWEN_NONE);
    CHECK(logodwen_slave(ask_event(23)) == 23 && logodwen_slave(ask_event(0)) == 0 && logodwen_from(ask_event(23)) == LOGODWEN_NONE);
    CHECK(logodwen_answer(ask_event(0)) == LOGODWEN_ASK_EVENT && logodwen_words(ask_event(23)) == 0 && logodwen_bc(ask_event(2)) == LOGODWEN_NONE);
    CHECK(logodwen_answer(built(12288)) == LOGODWEN_BUILT && logodwen_words(built(12288)) == 12288 && logodwen_place(built(5)) == LOGODWEN_NONE);
    CHECK(logodwen_slave(built(5)) == LOGODWEN_NONE && logodwen_bc(built(5)) == LOGODWEN_NONE && !logodwen_is_next(built(5)));
    CHECK(logodwen_answer(no_event()) == LOGODWEN_NO_EVENT && logodwen_words(no_event()) == 0 && logodwen_slave(no_event()) == LOGODWEN_NONE);
    CHECK(logodwen_answer(handed(909)) == LOGODWEN_HANDED && logodwen_place(handed(909)) == 909 && logodwen_words(handed(909)) == 0);
    CHECK(logodwen_answer(nothing()) == LOGODWEN_NOTHING && logodwen_place(nothing()) == LOGODWEN_NONE && logodwen_words(nothing()) == 0);
    CHECK(logodwen_refusal(handed(0)) == LOGODWEN_DONE && logodwen_slave(handed(0)) == LOGODWEN_NONE && !logodwen_is_next(nothing()));
    CHECK(logodwen_slave(zero_length(2)) == LOGODWEN_NONE && logodwen_from(with_words(3)) == LOGODWEN_NONE);
    for (uint64_t other = 0; other < 8; other++) /* refused, waiting, words set */
        CHECK(logodwen_bc(other) == LOGODWEN_NONE && logodwen_slave((uint64_t)LOGODWEN_WAITING << 8) == LOGODWEN_NONE
              && logodwen_from(other << 32) == LOGODWEN_NONE);
    static const uint8_t text[8] = {0x32, 0x31, 0x34, 0x33, 0x36, 0x35, 0x38, 0x37};
    CHECK(logodwen_fcs(text, 4) == 0xA12B && logodwen_fcs(NULL, 0) == 0xFFFF && logodwen6_fcs(text, 7) == logodwen_fcs(text, 3));
}

/* What a slave is to be sent: the request from some word on, whole; or no words with BC 0; or nothing. */
static void test_to_send(void) {
    static const uint8_t request[6];
    struct logodwen_packet sent = {NULL, 0, 9};
    CHECK(logodwen_to_send(ask(5, 2), request, 3, &sent) && sent.bytes == request + 4 && sent.words == 1 && sent.bc == LOGODWEN_BC_WHOLE);
    CHECK(logodwen_to_send(ask(5, 1), request, 3, &sent) && sent.bytes == request + 2 && sent.words == 2 && sent.bc == LOGODWEN_BC_WHOLE);
    CHECK(logodwen_to_send(send_next(5), request, 3, &sent) && sent.bytes == NULL && sent.words == 0 && sent.bc == LOGODWEN_BC_MIDDLE);
    for (size_t words = 0; words < 4; words += 3) { /* whatever request is kept */
        CHECK(logodwen_to_send(ask_event(5), words == 0 ? NULL : request, words, &sent) && sent.words == 1 && sent.bc == LOGODWEN_BC_WHOLE);
        CHECK(logodwen_get(sent.bytes, 0) == 0x012E);
    }
    sent.bc = 9;
    CHECK(!logodwen_to_send(no_event(), request, 3, &sent) && !logodwen_to_send(built(5), request, 3, &sent));
    CHECK(!logodwen_to_send(ask(5, 2), request, 2, &sent) && !logodwen_to_send(ask(5, 2), NULL, 0, &sent));
    CHECK(!logodwen_to_send(zero_length(0), request, 3, &sent) && !logodwen_to_send(with_words(3), request, 3, &sent));
    CHECK(!logodwen_to_send((uint64_t)LOGODWEN_WAITING << 8, request, 3, &sent) && !logodwen_to_send(broken(0), request, 3, &sent));
    CHECK(!logodwen_to_send(handed(1), request, 3, &sent) && !logodwen_to_send(nothing(), request, 3, &sent));
    for (uint64_t refusal = 0; refusal < 13; refusal++)
        CHECK(!logodwen_to_send(refusal, request, 3, &sent) && sent.bc == 9);
}

/* A test on a flash of each size. */
static void at_both_sizes(void (*test)(void)) {
    static const size_t sizes[2] = {LOGODWEN_FLASH_FULL_BYTES, LOGODWEN_FLASH_BYTES}; /* the last one stays */
    for (size_t i = 0; i < 2; i++) {
        flash_bytes = sizes[i];
        test();
    }
}

int main(void) {
    at_both_sizes(test_start);
    test_start_masks();
    test_start_refusals();
    test_order();
    test_each_refusal();
    at_both_sizes(test_state_length);
    test_state_bytes();
    test_write_bytes();
    test_received_bytes();
    test_odd_lengths();
    test_null();
    at_both_sizes(test_alignment);
    at_both_sizes(test_lengths);
    at_both_sizes(test_remains);
    at_both_sizes(test_names_twice);
    at_both_sizes(test_flash_lengths);
    at_both_sizes(test_sectors);
    at_both_sizes(test_long_files);
    flash_bytes = LOGODWEN_FLASH_FULL_BYTES;
    test_series_of_long_file();
    test_salvage_sizes();
    flash_bytes = LOGODWEN_FLASH_BYTES;
    test_group();
    test_packets();
    test_packet_divisions();
    test_packet_codes();
    test_packet_errors();
    test_packet_room();
    test_packets_dropped();
    test_capture();
    test_capture_answers();
    test_capture_packets();
    test_longest_capture();
    test_area();
    test_joining();
    test_divisions();
    test_longest();
    test_other_link();
    test_while_erasing();
    test_drops();
    test_slave_length();
    test_listing_bytes();
    test_list_lengths();
    test_list_write();
    test_list_not_written();
    test_list_room();
    test_list_read();
    test_list_delete();
    test_slow();
    test_slow_times();
    test_slow_record();
    test_slow_meanwhile();
    test_repetitions();
    test_series();
    test_series_stops();
    test_series_pending();
    test_series_room();
    test_series_long();
    test_series_effects();
    test_series_overrun();
    test_series_refused();
    test_series_null();
    at_both_sizes(test_series_by_chance);
    test_build();
    test_build_asks();
    test_build_packets();
    test_build_codes();
    test_build_aborts();
    test_event_commands();
    test_build_counts();
    test_build_meanwhile();
    test_build_bytes();
    test_build_lengths();
    test_series_event();
    at_both_sizes(test_salvage);
    at_both_sizes(test_salvage_refusals);
    test_salvage_answers();
    test_texts();
    test_to_send();
    for (int run = 0; run < RUNS; run++) {
        free(blocks[run]);
        free(copies[run]);
    }
    printf("border: %d checks, %d failed\n", checks, failures);
    return failures == 0 ? 0 : 1;
}
