/* The calls at the C border, against the independent node in plain C, which works on the lent bytes in place: both are lent the same
   bytes. And calls on a flash of full size against the same on one of bench size. */
#include "measure.h"
#include "runs.h"

#include "../../include/logodwen.h"
#include "../model/model.h"
#include "../test/long_file.h"

#include <string.h>

enum { TIMES = 200, LARGE = 4000, PING = 8000, DM_RUN = 8000, PM_READ = 7998, PM_WRITE = 5400, REPLIED = 500, PACKETS = 5, ERASED = 4096 };
enum { ENTRIES = 900, NOW = 1000 }; /* of the Q-List, and the time of a step: all are due */
enum { LISTED = 100, LONG_LISTED = 24, PINGED = 500, REPLIES = LONG_LISTED * (LARGE + 4) + LOGODWEN_REPLIES_WORDS }; /* of lists of requests */

/* Above what plain C does in under a microsecond, above what takes longer, above what looks at a whole sector for a short file, and above a
   list of what is short. */
static const double SHORT = 4.00, LONG = 1.30, SECTOR = 1.50, LIST = 2.00;

/* A flash of each size, and which is lent. */
enum { AT_BENCH, AT_FULL, SIZES };
static const size_t flash_len[SIZES] = {LOGODWEN_FLASH_BYTES, LOGODWEN_FLASH_FULL_BYTES};
static unsigned size = AT_BENCH;

/* Everything that a call is lent, the flash apart: as it stands, as a turn begins, and as the proved call left it. */
static struct {
    uint8_t state[LOGODWEN_STATE_BYTES], pm[LOGODWEN_PM_BYTES], dm[LOGODWEN_DM_BYTES], io[LOGODWEN_IO_BYTES], area[LOGODWEN_AREA_BYTES],
        list[LOGODWEN_LIST_BYTES], events[LOGODWEN_EVENTS_BYTES], reply[LOGODWEN_REPLY_BYTES], replies[2 * REPLIES];
} lent, first[SIZES], after;
static uint8_t flash[SIZES][LOGODWEN_FLASH_FULL_BYTES], first_flash[SIZES][LOGODWEN_FLASH_FULL_BYTES], after_flash[LOGODWEN_FLASH_FULL_BYTES];

static uint64_t answered;

static uint8_t *state = lent.state; /* the state that is lent: that one, or one of many */

static void packet_into(bool plain, uint32_t bc, const uint8_t *packet, size_t words, uint8_t *reply, size_t reply_len) {
    answered = plain ? model_request(0, 0, bc, 0, packet, 2 * words, state, sizeof lent.state, flash[size],
                                     flash_len[size], lent.pm, sizeof lent.pm, lent.dm, sizeof lent.dm, lent.io, sizeof lent.io,
                                     lent.area, sizeof lent.area, lent.list, sizeof lent.list, lent.events, sizeof lent.events, reply,
                                     reply_len)
                     : logodwen_request(0, 0, bc, 0, packet, 2 * words, state, sizeof lent.state, flash[size],
                                        flash_len[size], lent.pm, sizeof lent.pm, lent.dm, sizeof lent.dm, lent.io, sizeof lent.io,
                                        lent.area, sizeof lent.area, lent.list, sizeof lent.list, lent.events, sizeof lent.events,
                                        reply, reply_len);
}

static void packet_with(bool plain, uint32_t bc, const uint8_t *packet, size_t words) {
    packet_into(plain, bc, packet, words, lent.reply, sizeof lent.reply);
}

static void request(bool plain, const uint8_t *packet, size_t words) { packet_with(plain, LOGODWEN_BC_WHOLE, packet, words); }

static void reply_with(bool plain, unsigned slave, uint32_t bc, const uint8_t *packet, size_t words) {
    answered = plain ? model_reply(0, slave, bc, 0, 0, 0, packet, 2 * words, state, sizeof lent.state, lent.events, sizeof lent.events,
                                   lent.reply, sizeof lent.reply)
                     : logodwen_reply(0, slave, bc, 0, 0, 0, packet, 2 * words, state, sizeof lent.state, lent.events,
                                      sizeof lent.events, lent.reply, sizeof lent.reply);
}

static void reply(bool plain, unsigned slave, const uint8_t *packet, size_t words) {
    reply_with(plain, slave, LOGODWEN_BC_WHOLE, packet, words);
}

static void poll(bool plain) {
    answered = plain ? model_poll(0, state, sizeof lent.state, lent.events, sizeof lent.events, lent.reply, sizeof lent.reply)
                     : logodwen_poll(0, state, sizeof lent.state, lent.events, sizeof lent.events, lent.reply, sizeof lent.reply);
}

static void build(bool plain) {
    answered = plain ? model_build(0, state, sizeof lent.state, lent.events, sizeof lent.events)
                     : logodwen_build(0, state, sizeof lent.state, lent.events, sizeof lent.events);
}

static void erase(bool plain, uint64_t budget) {
    answered = plain ? model_erase(budget, state, sizeof lent.state, flash[size], flash_len[size])
                     : logodwen_erase(budget, state, sizeof lent.state, flash[size], flash_len[size]);
}

static void slow(bool plain) {
    answered = plain ? model_slow(NOW, state, sizeof lent.state, lent.list, sizeof lent.list)
                     : logodwen_slow(NOW, state, sizeof lent.state, lent.list, sizeof lent.list);
}

/* A list by the calls one by one, with each reply in a row behind its BC and its length. */
static void list_singly(bool plain, const struct logodwen_packets *list) {
    struct logodwen_packet packet;
    uint32_t link;
    size_t laid = 0;
    for (size_t at = 0; (at = logodwen_read_packet(list->bytes, list->words, at, &link, &packet)) != 0;) {
        uint8_t *to = lent.replies + 2 * laid;
        packet_into(plain, packet.bc, packet.bytes, packet.words, to + 4, sizeof lent.replies - 2 * laid - 4);
        logodwen_put(to, 0, (uint16_t)logodwen_bc(answered));
        logodwen_put(to, 1, (uint16_t)logodwen_words(answered));
        laid += 2 + logodwen_words(answered);
    }
    answered = (uint64_t)list->count << 32;
}

static void list_at_once(bool plain, const struct logodwen_packets *list) {
    if (plain)
        list_singly(true, list);
    else
        answered = logodwen_requests(0, list->bytes, 2 * list->words, state, sizeof lent.state, flash[size], flash_len[size], lent.pm,
                                     sizeof lent.pm, lent.dm, sizeof lent.dm, lent.io, sizeof lent.io, lent.area, sizeof lent.area,
                                     lent.list, sizeof lent.list, lent.events, sizeof lent.events, lent.replies, sizeof lent.replies);
}

static void start(bool plain) {
    answered = plain ? model_start(LOGODWEN_CDDC, 1, 0, 0, 0, 0, 0, flash[size], flash_len[size], state, sizeof lent.state)
                     : logodwen_start(LOGODWEN_CDDC, 1, 0, 0, 0, 0, 0, flash[size], flash_len[size], state, sizeof lent.state);
}

/* Packets. */

struct packet {
    uint8_t bytes[LOGODWEN_REQUEST_BYTES];
    size_t words;
};

static void word(struct packet *packet, unsigned value) { logodwen_put(packet->bytes, packet->words++, (uint16_t)value); }

static void command(struct packet *packet, unsigned id) {
    packet->words = 0;
    word(packet, id << 8 | 0x2E);
}

/* A segment of a memory by its bits, with so many memory words, from an address on page 0. */
static void segment(struct packet *packet, unsigned bits, unsigned count, unsigned address) {
    size_t from = packet->words + 2, size = bits == 0 ? (count + 1) / 2 * 3 : count + 1;
    word(packet, bits << 14 | (count + 1));
    word(packet, address);
    for (size_t i = 1; i < size; i++)
        word(packet, bits == 0 && i == size - 1 ? 0x1200 : bits == 2 ? i % 2 ? 0x1000 | i / 2 : i : i * 40503u);
    word(packet, logodwen_fcs(packet->bytes + 2 * from, size - 1));
}

/* The two header words of a memory read. */
static void header(struct packet *packet, unsigned id, unsigned bits, unsigned count, unsigned address) {
    command(packet, id);
    word(packet, bits << 14 | (count + 1));
    word(packet, address);
}

/* A file of one DM segment that has so many words, with its name. */
static void file(struct packet *packet, unsigned name, unsigned words) {
    word(packet, 0x3001 | name << 4);
    segment(packet, 1, words - 4, 0x2000);
}

/* A Q-List Write of so many entries with frequency 1, of which some have no repetitions. */
static void list_write(struct packet *packet, unsigned entries, bool some_expired) {
    command(packet, 0x5C);
    word(packet, 0x4000 | (5 * entries + 2));
    word(packet, 0x2000);
    word(packet, entries);
    for (unsigned i = 0; i < 5 * entries; i++) {
        const unsigned entry[5] = {0x0008, some_expired && i % 3 == 0 ? 0 : 0xFFFF, 1, i, i * 40503u};
        word(packet, entry[i % 5]);
    }
    word(packet, logodwen_fcs(packet->bytes + 6, 5 * entries + 1));
}

enum { FIRST_NAME = 7, SMALL_NAME = 8, LARGE_NAME = 9 }; /* in sectors 3, 4 and 5 */

static struct packet mode_read, mode_write, status, summary, mask_read, mask_write, wrong, unserved, small_read, small_test, dm_two,
    pm_three, io_pair, ping, dm_read, dm_write, pm_read, pm_write, large_read, large_write, load, one_slave, group, ten, fivehundred,
    of_event, entries, all_entries, some_expired, list_read, delete_expired;

static void lay_packets(void) {
    command(&mode_read, 0x12);
    command(&mode_write, 0x52);
    word(&mode_write, 1);
    command(&status, 0x0C);
    command(&summary, 0x07);
    command(&mask_read, 0x17);
    command(&mask_write, 0x57);
    word(&mask_write, 0x00FF);
    word(&mask_write, 0xFFFF);
    word(&wrong, 0x00FF);
    command(&unserved, 0x52);
    word(&unserved, 4);
    command(&small_read, 0x05);
    word(&small_read, SMALL_NAME << 4);
    command(&small_test, 0x06);
    word(&small_test, SMALL_NAME << 4);
    header(&dm_two, 0x11, 1, 2, 0x2000);
    header(&pm_three, 0x10, 0, 3, 0);
    command(&io_pair, 0x0F);
    segment(&io_pair, 2, 2, 0);
    command(&ping, 0x0D);
    for (unsigned i = 0; i < PING; i++)
        word(&ping, i);
    header(&dm_read, 0x11, 1, DM_RUN, 0x2000);
    command(&dm_write, 0x51);
    segment(&dm_write, 1, DM_RUN, 0x2000);
    header(&pm_read, 0x10, 0, PM_READ + 1, 0);
    command(&pm_write, 0x50);
    segment(&pm_write, 0, PM_WRITE + 1, 0);
    command(&large_read, 0x05);
    word(&large_read, LARGE_NAME << 4);
    command(&large_write, 0x45);
    file(&large_write, LARGE_NAME, LARGE);
    command(&load, 0x46);
    word(&load, LARGE_NAME << 4);
    list_write(&entries, ENTRIES, false);
    list_write(&all_entries, LOGODWEN_LIST_RECORDS, false);
    list_write(&some_expired, LOGODWEN_LIST_RECORDS, true);
    command(&list_read, 0x1C);
    command(&delete_expired, 0x5B);
    word(&one_slave, 0x0403);
    word(&one_slave, 0x122E);
    word(&group, 0x002A);
    word(&group, 0x122E);
    for (unsigned i = 0; i < 9; i++)
        word(&ten, i);
    word(&ten, logodwen_fcs(ten.bytes, 9));
    for (unsigned i = 0; i < REPLIED - 1; i++)
        word(&fivehundred, i * 40503u);
    word(&fivehundred, logodwen_fcs(fivehundred.bytes, REPLIED - 1));
    for (unsigned i = 0; i < REPLIED - 1; i++)
        word(&of_event, i == 0 ? 1 : i * 40503u); /* the first event's number */
    word(&of_event, logodwen_fcs(of_event.bytes, REPLIED - 1));
}

/* Lists of one packet again and again. */

static struct logodwen_packets mode_reads, large_reads, short_pings;

static void lay_list(struct logodwen_packets *list, uint8_t *bytes, size_t room, const struct packet *packet, size_t words, int times) {
    logodwen_packets_begin(list, bytes, room);
    for (int i = 0; i < times; i++)
        logodwen_packets_add(list, 0, LOGODWEN_BC_WHOLE, packet->bytes, words);
}

static void lay_lists(void) {
    static uint8_t rows[3][2 * LONG_LISTED * (PINGED + 4)];
    lay_list(&mode_reads, rows[0], sizeof rows[0] / 2, &mode_read, mode_read.words, LISTED);
    lay_list(&large_reads, rows[1], sizeof rows[1] / 2, &large_read, large_read.words, LONG_LISTED);
    lay_list(&short_pings, rows[2], sizeof rows[2] / 2, &ping, 1 + PINGED, LONG_LISTED);
}

/* How a turn begins. */

static void as_first(void) {
    memcpy(&lent, &first[size], sizeof lent);
    memcpy(flash[size], first_flash[size], flash_len[size]);
    state = lent.state;
}

/* A state for each call of a turn, where a call makes another one of it. */
static uint8_t states[TIMES][LOGODWEN_STATE_BYTES];
static size_t next;

static void many_states(void) {
    as_first();
    for (size_t i = 0; i < TIMES; i++)
        memcpy(states[i], lent.state, sizeof lent.state);
    next = 0;
}

static void next_state(void) { state = states[next++]; }

static void pending_slave(void) {
    as_first();
    request(true, one_slave.bytes, one_slave.words);
}

static void pending_group(void) {
    as_first();
    request(true, group.bytes, group.words);
    for (size_t i = 0; i < TIMES; i++)
        memcpy(states[i], lent.state, sizeof lent.state);
    next = 0;
}

/* The sector where a file stands is being erased: the large one, or the long one of a full flash. */
static void erasing_named(unsigned name) {
    struct packet packet;
    as_first();
    command(&packet, 0x47);
    word(&packet, name << 4 | 1);
    request(true, packet.bytes, packet.words);
}

static void erasing(void) { erasing_named(LARGE_NAME); }

/* Entries are listed: so many, as many as can be, or some of them expired. */
static void listing(const struct packet *packet) {
    as_first();
    request(true, packet->bytes, packet->words);
}

static void some_listed(void) { listing(&entries); }
static void all_listed(void) { listing(&all_entries); }
static void some_are_expired(void) { listing(&some_expired); }

/* The large file is not there. */
static void without_large(void) {
    erasing();
    erase(true, ERASED);
}

/* The rows. */

static void reads_mode(bool plain) { request(plain, mode_read.bytes, mode_read.words); }
static void writes_mode(bool plain) { request(plain, mode_write.bytes, mode_write.words); }
static void tells_status(bool plain) { request(plain, status.bytes, status.words); }
static void sums_up(bool plain) { request(plain, summary.bytes, summary.words); }
static void reads_masks(bool plain) { request(plain, mask_read.bytes, mask_read.words); }
static void writes_mask(bool plain) { request(plain, mask_write.bytes, mask_write.words); }
static void says_error(bool plain) { request(plain, wrong.bytes, wrong.words); }
static void says_abort(bool plain) { request(plain, unserved.bytes, unserved.words); }
static void reads_small(bool plain) { request(plain, small_read.bytes, small_read.words); }
static void tests_small(bool plain) { request(plain, small_test.bytes, small_test.words); }
static void reads_dm_two(bool plain) { request(plain, dm_two.bytes, dm_two.words); }
static void reads_pm_three(bool plain) { request(plain, pm_three.bytes, pm_three.words); }
static void performs_io(bool plain) { request(plain, io_pair.bytes, io_pair.words); }
static void erases_nothing(bool plain) { erase(plain, 0); }
static void erases_one(bool plain) { erase(plain, 1); }
static void polls(bool plain) { poll(plain); }
static void pings(bool plain) { request(plain, ping.bytes, ping.words); }
static void reads_dm(bool plain) { request(plain, dm_read.bytes, dm_read.words); }
static void writes_dm(bool plain) { request(plain, dm_write.bytes, dm_write.words); }
static void reads_pm(bool plain) { request(plain, pm_read.bytes, pm_read.words); }
static void writes_pm(bool plain) { request(plain, pm_write.bytes, pm_write.words); }
static void reads_large(bool plain) { request(plain, large_read.bytes, large_read.words); }
static void writes_large(bool plain) { request(plain, large_write.bytes, large_write.words); }
static void loads(bool plain) { request(plain, load.bytes, load.words); }
static void starts(bool plain) { start(plain); }
static void erases_all(bool plain) { erase(plain, ERASED); }

static void steps(bool plain) { slow(plain); }
static void reads_list(bool plain) { request(plain, list_read.bytes, list_read.words); }
static void removes_expired(bool plain) { request(plain, delete_expired.bytes, delete_expired.words); }

static void lists_mode_reads(bool plain) { list_at_once(plain, &mode_reads); }
static void calls_mode_reads(bool plain) { list_singly(plain, &mode_reads); }
static void lists_reads(bool plain) { list_at_once(plain, &large_reads); }
static void lists_pings(bool plain) { list_at_once(plain, &short_pings); }

static void writes_list(bool plain) {
    next_state();
    request(plain, entries.bytes, entries.words);
}

static void asks(bool plain) {
    next_state();
    request(plain, one_slave.bytes, one_slave.words);
}

static void replies_ten(bool plain) {
    next_state();
    reply(plain, 0, ten.bytes, ten.words);
}

static void gather(bool plain, const struct packet *packet) {
    for (unsigned slave = 0; slave < LOGODWEN_SLAVES; slave++)
        reply(plain, slave, packet->bytes, packet->words);
}

static void gathers(bool plain) { gather(plain, &fivehundred); }

/* The same replies, each in five packets (02, request 8). */
static void gather_packets(bool plain, const struct packet *packet) {
    const size_t part = REPLIED / PACKETS;
    for (unsigned slave = 0; slave < LOGODWEN_SLAVES; slave++)
        for (size_t at = 0; at < REPLIED; at += part) {
            uint32_t bc = at == 0 ? LOGODWEN_BC_FIRST : at == REPLIED - part ? LOGODWEN_BC_LAST : LOGODWEN_BC_MIDDLE;
            reply_with(plain, slave, bc, packet->bytes + 2 * at, part);
        }
}

static void gathers_packets(bool plain) { gather_packets(plain, &fivehundred); }

/* An event of such replies (02, request 12). */

static void builds(bool plain) {
    build(plain);
    gather(plain, &of_event);
}

static void builds_packets(bool plain) {
    build(plain);
    gather_packets(plain, &of_event);
}

static void begins_build(bool plain) {
    next_state();
    build(plain);
}

static void one_group(void) {
    pending_group();
    state = lent.state;
}

/* A packet of 8,192 words in the middle of a file, as its fourth and as its second: a packet costs what it brings, and nothing for what
   joined before it. */

static uint8_t middle[LOGODWEN_REQUEST_BYTES];

static void joins_behind(uint32_t joined) {
    memcpy(state, first[size].state, sizeof lent.state);
    state[LOGODWEN_AT_WRITE] = 1;
    logodwen_put_pm(state + LOGODWEN_AT_JOINED, 0, joined);
    packet_with(false, LOGODWEN_BC_MIDDLE, middle, LOGODWEN_REQUEST_WORDS);
}

static void joins(bool is_second) { joins_behind(is_second ? 8191 : 8191 + 2 * 8192); }

static int perf_joining(void) {
    static const struct row row = {"a middle packet of 8,192 words, the fourth", as_first, joins, 20, 1.20};
    for (size_t i = 0; i < sizeof middle; i++)
        middle[i] = (uint8_t)(i * 29u);
    for (int is_second = 0; is_second < 2; is_second++) {
        as_first();
        joins(is_second != 0);
        const uint8_t *joined = lent.area + 2 * (is_second ? 8191 : 8191 + 2 * 8192);
        if (!logodwen_is_next(answered) || memcmp(joined, middle, sizeof middle) != 0)
            return measure_differs(row.what);
    }
    return measure_against(&row, "the second");
}

/* A step takes as long with 910 entries listed as with one. */

static void one_and_all_listed(void) {
    all_listed();
    memcpy(states[0], lent.state, sizeof lent.state);
    logodwen_put(states[0] + LOGODWEN_AT_LISTED, 0, 1);
}

static void steps_of(bool is_one) {
    state = is_one ? states[0] : lent.state;
    slow(false);
}

static int perf_stepping(void) {
    static const struct row row = {"a slow-control step, 910 entries listed", one_and_all_listed, steps_of, TIMES, 1.10};
    one_and_all_listed();
    for (uint64_t turn = 0; turn < 4; turn++) { /* of one entry every turn is its own */
        bool is_one = turn % 2 != 0;
        steps_of(is_one);
        if (answered != ((uint64_t)LOGODWEN_HANDED << 8 | (is_one ? 0 : turn / 2) << 32))
            return measure_differs(row.what);
    }
    return measure_against(&row, "one entry");
}

/* Whether the proved calls of a row leave other bytes than plain C, or answer otherwise. */
static bool is_different(const struct row *row) {
    row->prepare();
    row->work(false);
    uint64_t said = answered;
    uint8_t left[LOGODWEN_STATE_BYTES];
    memcpy(left, state, sizeof left);
    memcpy(&after, &lent, sizeof after);
    memcpy(after_flash, flash[size], flash_len[size]);
    row->prepare();
    row->work(true);
    return answered != said || memcmp(&after, &lent, sizeof after) != 0 || memcmp(left, state, sizeof left) != 0
           || memcmp(after_flash, flash[size], flash_len[size]) != 0;
}

static int perf_rows(const struct row *rows, size_t count) {
    for (size_t i = 0; i < count; i++)
        if (is_different(&rows[i]))
            return measure_differs(rows[i].what);
    return measure(rows, count);
}

/* A node as a turn begins, started on a blank flash, with three files in it. */
static void begin_first(void) {
    state = lent.state;
    memset(flash[size], 0xFF, flash_len[size]);
    start(true);
    for (size_t i = 0; i < sizeof lent.dm; i++)
        lent.dm[i] = lent.pm[i] = (uint8_t)(i * 37u);
    for (unsigned name = FIRST_NAME; name <= SMALL_NAME; name++) {
        struct packet small;
        command(&small, 0x45);
        file(&small, name, 6);
        request(true, small.bytes, small.words);
    }
    request(true, large_write.bytes, large_write.words);
}

static void end_first(void) {
    memcpy(&first[size], &lent, sizeof lent);
    memcpy(first_flash[size], flash[size], flash_len[size]);
}

/* A flash of full size (02, request 11): with a file that File Read just answers, and files that come in packets. */

enum { READ_NAME = 10, LONG_NAME = 11, OTHER_NAME = 12, READ = 12000, LONG_WORDS = 30000, FULL_SECTOR = 32768 };

static uint8_t long_file[LOGODWEN_AREA_BYTES];
static struct packet long_read, long_test, long_load, attribute;

static void write_long_file(bool plain, size_t words) {
    static uint8_t packet[LOGODWEN_REQUEST_BYTES];
    uint32_t bc;
    for (size_t at = 0, laid; (laid = logodwen_make_file_packet(packet, LOGODWEN_REQUEST_WORDS, long_file, words, &at, &bc)) != 0;)
        packet_with(plain, bc, packet, laid);
}

static void begin_full(void) {
    static const struct {
        unsigned name;
        size_t words;
    } files[] = {{READ_NAME, READ}, {OTHER_NAME, FULL_SECTOR}, {LONG_NAME, LONG_WORDS}};
    begin_first();
    for (size_t i = 0; i < sizeof files / sizeof *files; i++)
        write_long_file(true, lay_long_file(long_file, files[i].name, files[i].words)); /* the last one stays laid */
    long_read.words = logodwen_make_file_read(long_read.bytes, READ_NAME);
    long_test.words = logodwen_make_file_test(long_test.bytes, LONG_NAME);
    long_load.words = logodwen_make_file_load(long_load.bytes, LONG_NAME);
    attribute.words = logodwen_make_attribute_set(attribute.bytes, LONG_NAME, false);
}

static void erasing_long(void) { erasing_named(LONG_NAME); }

static void without_long(void) {
    erasing_long();
    erase(true, FULL_SECTOR);
}

static void reads_long(bool plain) { request(plain, long_read.bytes, long_read.words); }
static void tests_long(bool plain) { request(plain, long_test.bytes, long_test.words); }
static void loads_long(bool plain) { request(plain, long_load.bytes, long_load.words); }
static void sets_attribute(bool plain) { request(plain, attribute.bytes, attribute.words); }
static void writes_long(bool plain) { write_long_file(plain, LONG_WORDS); }
static void erases_long(bool plain) { erase(plain, FULL_SECTOR); }

/* Both flashes in turn, with the state of each: a call on the full one against one on the bench flash, or against as many as have as many
   words in their sectors. */

enum { SECTORS_IN_ONE = 8 };

static uint8_t of_size[SIZES][LOGODWEN_STATE_BYTES];

static void on_both(void (*prepare)(void)) {
    for (size = AT_BENCH; size < SIZES; size++) {
        prepare();
        memcpy(of_size[size], lent.state, sizeof lent.state);
    }
}

/* A sector of the bench flash filled as the large file fills one of the full flash. */
static void filled_alike(void) {
    struct packet packet;
    if (size == AT_FULL) {
        as_first();
        return;
    }
    without_large();
    command(&packet, 0x45);
    file(&packet, LARGE_NAME, LARGE / SECTORS_IN_ONE);
    request(true, packet.bytes, packet.words);
}

static void both_first(void) { on_both(as_first); }
static void both_filled(void) { on_both(filled_alike); }
static void both_erasing(void) { on_both(erasing); }

static void lend(bool is_bench) {
    size = is_bench ? AT_BENCH : AT_FULL;
    state = of_size[size];
}

static void reads_sectors(bool is_bench) {
    lend(is_bench);
    for (int i = 0; i < (is_bench ? SECTORS_IN_ONE : 1); i++)
        reads_large(false);
}

static void erases_hundred(bool is_bench) {
    lend(is_bench);
    erase(false, 100);
}

static void reads_mode_of(bool is_bench) {
    lend(is_bench);
    reads_mode(false);
}

static int perf_sizes(void) {
    static const struct row rows[] = {
        {"Read of 4,000 words in a sector of 32,768", both_first, reads_sectors, 2, 1.30},
        {".. with sectors filled alike", both_filled, reads_sectors, 2, 1.30},
        {"erase of 100 words, full size", both_erasing, erases_hundred, 20, 1.10},
        {"Mode Read, full size", both_first, reads_mode_of, 10 * TIMES, 1.10},
    };
    static const char *const others[] = {"8 in 4,096", "8 in 4,096", "bench", "bench"};
    static const uint32_t words[][SIZES] = {{LARGE + 2, LARGE + 2}, {LARGE / SECTORS_IN_ONE + 2, LARGE + 2}, {100, 100}, {3, 3}};
    int over = 0;
    for (size_t i = 0; i < sizeof rows / sizeof *rows; i++) {
        rows[i].prepare();
        for (unsigned which = AT_BENCH; which < SIZES; which++) {
            rows[i].work(which == AT_BENCH);
            if (logodwen_words(answered) != words[i][which])
                return measure_differs(rows[i].what);
        }
        over += measure_against(&rows[i], others[i]);
    }
    size = AT_BENCH;
    return over;
}

static int perf_full(void) {
    const struct row rows[] = {
        {"start on a full flash with six files", as_first, starts, 1, 1.15},
        {"Read of 12,000 words, full size", as_first, reads_long, 1, LONG},
        {"Test of 30,000 words, full size", as_first, tests_long, 1, LONG},
        {"Load of 30,000 words, full size", as_first, loads_long, 1, LONG},
        {"Attribute Set of 30,000 words, full size", as_first, sets_attribute, 1, LONG},
        {"Write of 30,000 words in packets, full size", without_long, writes_long, 1, LONG},
        {"erase of 32,768 words", erasing_long, erases_long, 1, LONG},
    };
    size = AT_FULL;
    begin_full();
    end_first();
    int over = perf_rows(rows, sizeof rows / sizeof *rows);
    return over + perf_sizes();
}

int perf_border_runs(void) {
    const struct row rows[] = {
        {"Mode Read", as_first, reads_mode, TIMES, SHORT},
        {"Mode Write", as_first, writes_mode, TIMES, SHORT},
        {"Status", as_first, tells_status, TIMES, SHORT},
        {"Summary", as_first, sums_up, TIMES, SHORT},
        {"Slave Mask Read", as_first, reads_masks, TIMES, SHORT},
        {"Slave Mask Write", as_first, writes_mask, TIMES, SHORT},
        {"ERROR", as_first, says_error, TIMES, SHORT},
        {"ABORT", as_first, says_abort, TIMES, SHORT},
        {"DM Read of 2 words", as_first, reads_dm_two, TIMES, SHORT},
        {"PM Read of 3 words", as_first, reads_pm_three, TIMES, SHORT},
        {"Perform IO of one pair", as_first, performs_io, TIMES, SHORT},
        {"erase with nothing going on", as_first, erases_nothing, TIMES, SHORT},
        {"erase of 1 word", erasing, erases_one, TIMES, SHORT},
        {"poll that waits", pending_slave, polls, TIMES, SHORT},
        {"ask", many_states, asks, TIMES, SHORT},
        {"reply of 10 words to a group", pending_group, replies_ten, TIMES, SHORT},
        {"slow-control step that hands out", all_listed, steps, TIMES, SHORT},
        {"Read of 6 words in a sector of 4,096", as_first, reads_small, 20, SECTOR},
        {"Test of 6 words in a sector of 4,096", as_first, tests_small, 20, SECTOR},
        {"Ping of 8,000 words", as_first, pings, 2, LONG},
        {"DM Read of 8,000 words", as_first, reads_dm, 2, LONG},
        {"DM Write of 8,000 words", as_first, writes_dm, 2, LONG},
        {"PM Read of 7,999 words", as_first, reads_pm, 2, LONG},
        {"PM Write of 5,401 words", as_first, writes_pm, 2, LONG},
        {"Read of a file of 4,000 words", as_first, reads_large, 2, LONG},
        {"Write of a file of 4,000 words", without_large, writes_large, 1, LONG},
        {"Load of a file of 4,000 words", as_first, loads, 2, LONG},
        {"start", as_first, starts, 2, LONG},
        {"a group of 24 replies of 500 words", one_group, gathers, 1, LONG},
        {"24 replies of 500 words in five packets each", one_group, gathers_packets, 1, LONG},
        {"build that begins", many_states, begins_build, TIMES, SHORT},
        {"a build of 24 replies of 500 words", as_first, builds, 1, LONG},
        {"a build of these in five packets each", as_first, builds_packets, 1, LONG},
        {"erase of 4,096 words", erasing, erases_all, 1, LONG},
        {"Q-List Write of 900 entries", many_states, writes_list, 2, LONG},
        {"Q-List Read of 900 entries", some_listed, reads_list, 2, LONG},
        {"Entry Delete of those expired of 910", some_are_expired, removes_expired, 1, SHORT},
        {"a list of 100 Mode Reads", as_first, lists_mode_reads, 2, LIST},
        {"100 Mode Reads, a call each", as_first, calls_mode_reads, 2, SHORT},
        {"a list of 24 Reads of 4,000 words", as_first, lists_reads, 1, LONG},
        {"a list of 24 Pings of 500 words", as_first, lists_pings, 2, LONG},
    };
    lay_packets();
    lay_lists();
    begin_first();
    end_first();
    int over = perf_rows(rows, sizeof rows / sizeof *rows);
    return over + perf_joining() + perf_stepping() + perf_full();
}
