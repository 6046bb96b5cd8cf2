/* How much stack each entry needs: calls that go through all of its work run in a thread whose stack was painted before, and the
   deepest byte that lost its paint is looked for. (What a thread itself needs at its end, a few kB, counts too.) The numbers are held
   to those that include/logodwen.h states, and to 160 KiB, on a flash of either size. */
#define _POSIX_C_SOURCE 200809L
#include "../../include/logodwen.h"
#include "long_file.h"

#include <pthread.h>
#include <stdio.h>
#include <stdlib.h>
#include <string.h>

enum { STACK = 4 << 20, PAINT = 0xC5, MOST = 160 * 1024 };

static uint8_t flash[LOGODWEN_FLASH_FULL_BYTES], second[LOGODWEN_FLASH_FULL_BYTES], pm[LOGODWEN_PM_BYTES], dm[LOGODWEN_DM_BYTES], io[LOGODWEN_IO_BYTES],
    packet[LOGODWEN_SLAVE_REPLY_BYTES];
static struct logodwen_node node = {
    .flash = flash, .pm = pm, .dm = dm, .io = io, .pm_len = sizeof pm, .dm_len = sizeof dm, .io_len = sizeof io};

/* Requests are done as they come, or laid in a list first. */
static uint8_t row[1 << 18], listed_replies[1 << 17];
static struct logodwen_packets list;
static bool is_listing;
static uint64_t answered; /* to the last that was done */

static void packet_with(uint32_t bc, size_t words) {
    if (!is_listing)
        answered = logodwen_node_request(&node, 0, 0, bc, 0, packet, words);
    else if (!logodwen_packets_add(&list, 0, bc, packet, words))
        exit(2);
}

static void request(size_t words) { packet_with(LOGODWEN_BC_WHOLE, words); }

static void write_in_packets(size_t room, const uint8_t *file, size_t words) {
    uint32_t bc;
    for (size_t at = 0, laid; (laid = logodwen_make_file_packet(packet, room, file, words, &at, &bc)) != 0;)
        packet_with(bc, laid);
}

/* That the last request did its work, without which there is nothing to measure. */
static void expect(unsigned bc, size_t words) {
    if (!is_listing && (logodwen_bc(answered) != bc || logodwen_words(answered) != words))
        exit(2);
}

/* The work of each entry. */

enum { NAME = 1, LONG_NAME = 2, READ_NAME = 3 };

static bool is_full(void) { return node.flash_len == LOGODWEN_FLASH_FULL_BYTES; }

static void starts(void) {
    static const struct logodwen_given given = {LOGODWEN_CDDC, 1, 0, 0, 0, 0, 0};
    logodwen_node_start(&node, &given);
}

static void group_request(void) {
    size_t words = logodwen_make_to_all(packet);
    request(words + logodwen_make_status(packet + 2 * words));
}

/* As many entries as a list has room for, all of them told, and half of them removed; those that stay are due at tick 1. */
static void list_requests(void) {
    static struct logodwen_record records[LOGODWEN_LIST_RECORDS];
    for (unsigned i = 0; i < LOGODWEN_LIST_RECORDS; i++) {
        const struct logodwen_record record = {LOGODWEN_RECORD_FIRST, i % 2 * 0xFFFFu, 1, 0, 0, 0};
        records[i] = record;
    }
    request(logodwen_make_list_write(packet, LOGODWEN_REQUEST_WORDS, records, LOGODWEN_LIST_RECORDS));
    request(logodwen_make_list_read(packet));
    request(logodwen_make_list_delete(packet, 5));
    request(logodwen_make_list_delete_expired(packet));
}

/* A file of so many words in packets, and each command on it. */
static void long_requests(unsigned name, size_t words) {
    static uint8_t file[LOGODWEN_AREA_BYTES];
    write_in_packets(LOGODWEN_REQUEST_WORDS, file, lay_long_file(file, name, words));
    expect(LOGODWEN_BC_END, 0);
    request(logodwen_make_file_read(packet, name));
    expect(words > LOGODWEN_FILE_READ_WORDS ? LOGODWEN_BC_ABORT : LOGODWEN_BC_WHOLE, words > LOGODWEN_FILE_READ_WORDS ? 0 : words + 2);
    request(logodwen_make_file_test(packet, name));
    expect(LOGODWEN_BC_WHOLE, 3);
    request(logodwen_make_file_load(packet, name));
    expect(LOGODWEN_BC_END, 0);
    request(logodwen_make_attribute_set(packet, name, true));
    expect(LOGODWEN_BC_END, 0);
}

static void requests(void) {
    enum { ROOM = LOGODWEN_REQUEST_WORDS };
    static const uint32_t code[99];
    static const uint16_t data[100];
    static uint8_t image[2 * ROOM];
    struct logodwen_file file;
    logodwen_file_begin(&file, image, ROOM, LOGODWEN_TYPE_PROGRAM, LOGODWEN_ATTRIBUTE_PLAIN, NAME);
    logodwen_file_pm(&file, 0, 0, code, 99);
    logodwen_file_dm(&file, 0, 0x2000, data, 99);
    logodwen_file_io(&file, data, 100);
    request(logodwen_make_file_write(packet, ROOM, image, file.words));
    logodwen_put(image, 0, (uint16_t)(logodwen_get(image, 0) ^ 0x0100)); /* another name: and in packets */
    write_in_packets(100, image, file.words);
    write_in_packets(ROOM, image, ROOM);
    request(logodwen_make_status(packet));
    request(logodwen_make_summary(packet));
    request(logodwen_make_mode_read(packet));
    request(logodwen_make_event_read(packet));
    request(logodwen_make_event_number(packet));
    request(logodwen_make_event_reset(packet));
    request(logodwen_make_mask_read(packet));
    request(logodwen_make_ping(packet, ROOM, NULL, 0));
    request(logodwen_make_ping(packet, ROOM, image, 8000));
    request(logodwen_make_pm_write(packet, ROOM, 0, 0, code, 99));
    request(logodwen_make_dm_write(packet, ROOM, 0, 0x2000, data, 99));
    request(logodwen_make_perform_io(packet, ROOM, data, 100));
    request(logodwen_make_pm_read(packet, 0, 0, 999));
    request(logodwen_make_dm_read(packet, 0, 0x2000, 999));
    request(logodwen_make_mask_write(packet, 0, 0xFFFFFF));
    request(logodwen_make_mode_write(packet, 1));
    request(logodwen_make_file_read(packet, NAME));
    request(logodwen_make_file_test(packet, NAME));
    request(logodwen_make_file_load(packet, NAME));
    request(logodwen_make_attribute_set(packet, NAME, true));
    if (is_full()) {
        long_requests(LONG_NAME, LOGODWEN_FILE_FULL_WORDS);
        long_requests(READ_NAME, LOGODWEN_FILE_READ_WORDS);
    }
    request(logodwen_make_erase_start(packet, is_full() ? LONG_NAME : NAME));
    expect(LOGODWEN_BC_END, 0);
    list_requests();
    group_request();
}

/* The same requests in one call, up to the last, which asks a slave. */
static void lay_list(void) {
    logodwen_packets_begin(&list, row, sizeof row / 2);
    is_listing = true;
    requests();
    is_listing = false;
}

static void lists(void) {
    if (logodwen_node_requests(&node, 0, &list, listed_replies, sizeof listed_replies / 2) != (uint64_t)(list.count - 1) << 32)
        exit(2);
}

/* All replies of the group or the build that was asked last, and the words of its own; in a build they begin with the event's number. */
static size_t replied;
static uint16_t first_word;

/* A slave's reply of so many words, sealed, in packets of so many; the last with an FCS that is wrong, or a receive error. */
static void reply_in_packets(unsigned slave, size_t words, size_t part, unsigned wrong, uint32_t error) {
    for (size_t i = 0; i < words; i++)
        logodwen_put(packet, i, i == 0 ? first_word : (uint16_t)i);
    logodwen_put(packet, words - 1, (uint16_t)(logodwen_fcs(packet, words - 1) ^ wrong));
    for (size_t at = 0, next; at < words; at = next) {
        next = words - at > part ? at + part : words;
        uint32_t bc = (at == 0 ? LOGODWEN_BC_FIRST : 0) | (next == words ? LOGODWEN_BC_LAST : 0);
        replied = logodwen_words(logodwen_node_reply(&node, 0, slave, bc, next == words && error, 0, 0, packet + 2 * at, next - at));
    }
}

static void replies(void) {
    reply_in_packets(0, 12281, 12281, 0, 0); /* without room, in one and in two */
    reply_in_packets(1, 32768, 32768, 0, 0);
    reply_in_packets(2, 12200, 10000, 0, 0);
    reply_in_packets(3, 4, 4, 1, 0);
    reply_in_packets(4, 4, 3, 1, 0);
    reply_in_packets(5, 4, 3, 0, 1);
    reply_in_packets(6, 11000, 4000, 0, 0);
    for (unsigned slave = 7; slave < LOGODWEN_SLAVES; slave++)
        reply_in_packets(slave, 4, slave % 4 + 1, 0, 0);
}

static void builds(void) {
    if (logodwen_answer(logodwen_node_build(&node, 0)) != LOGODWEN_ASK_EVENT)
        exit(2);
}

static void event_replies(void) {
    first_word = (uint16_t)(logodwen_get(node.state + LOGODWEN_AT_EVENT, 0) + 1);
    replies();
    first_word = 0;
}

/* The event that these make is read whole. */
static void event_reads(void) {
    request(logodwen_make_event_read(packet));
    expect(LOGODWEN_BC_WHOLE, replied);
}

static void polls(void) {
    logodwen_node_poll(&node, 0);
    for (uint32_t now = 0; now < 60 * 25; now += 60)
        logodwen_node_poll(&node, now);
}

static void erases(void) {
    uint64_t first = logodwen_node_erase(&node, 100), rest = logodwen_node_erase(&node, UINT64_MAX);
    unsigned sector = is_full() ? LOGODWEN_SECTOR_LAST : LOGODWEN_SECTOR_FIRST; /* one as long as that of LONG_NAME, and that of NAME */
    if (logodwen_words(first) + logodwen_words(rest) != logodwen_sector_words(node.flash_len, sector))
        exit(2);
}

static void steps(void) {
    if (logodwen_answer(logodwen_node_slow(&node, 1)) != LOGODWEN_HANDED || logodwen_answer(logodwen_node_slow(&node, 0)) != LOGODWEN_NOTHING)
        exit(2);
}

static void sequences(void) { logodwen_put(packet, 0, logodwen_fcs(packet, 1000)); }

/* That group's reply, and the same with words left over. */
static void captures(void) {
    if (logodwen_answer(logodwen_capture(0xFFFFFF, node.reply, 2 * replied)) != LOGODWEN_ACCEPTED
        || logodwen_answer(logodwen_capture(0xFFFFFF, node.reply, sizeof node.reply)) != LOGODWEN_BROKEN)
        exit(2);
}

/* A flash of which sectors go over whole, in part and not at all: files that fill their sectors, with one segment of each broken, or a word behind
   them, or their first word no file's. */
static void lay_damaged(void) {
    logodwen_node_blank(&node);
    memset(second, 0xFF, sizeof second);
    for (unsigned sector = LOGODWEN_SECTOR_FIRST; sector <= LOGODWEN_SECTOR_LAST; sector++) {
        uint8_t *bytes = flash + 2 * logodwen_sector_start(node.flash_len, sector);
        size_t words = logodwen_sector_words(node.flash_len, sector) - 1;
        lay_long_file(bytes, NAME, words);
        if (sector % 4 == 1)
            bytes[10] ^= 1;
        else if (sector % 4 == 2)
            bytes[2 * words] ^= 1;
        else if (sector % 4 == 3)
            bytes[1] ^= 0x80;
    }
}

static void salvages(void) {
    answered = logodwen_salvage(flash, node.flash_len, second, node.flash_len);
    if (logodwen_saved(answered, 3) != LOGODWEN_SAVED_LOST || logodwen_saved(answered, 4) != LOGODWEN_SAVED_COPIED
        || logodwen_saved(answered, 5) != (is_full() ? LOGODWEN_SAVED_REDUCED : LOGODWEN_SAVED_LOST) /* the only segment of a bench sector */
        || logodwen_saved(answered, 6) != LOGODWEN_SAVED_REDUCED)
        exit(2);
}

/* Measuring. */

static void (*work)(void);
static uint8_t *frame; /* where the stack stands when the work begins */

static void *run_work(void *unused) {
    uint8_t here;
    frame = &here;
    work();
    return unused;
}

static size_t depth_of(void (*of)(void)) {
    static uint8_t *stack;
    pthread_attr_t attributes;
    pthread_t thread;
    if (stack == NULL && posix_memalign((void **)&stack, 65536, STACK) != 0)
        exit(2);
    memset(stack, PAINT, STACK);
    work = of;
    if (pthread_attr_init(&attributes) != 0 || pthread_attr_setstack(&attributes, stack, STACK) != 0
        || pthread_create(&thread, &attributes, run_work, NULL) != 0 || pthread_join(thread, NULL) != 0)
        exit(2);
    pthread_attr_destroy(&attributes);
    size_t at = 0;
    while (at < STACK && stack[at] == PAINT)
        at++;
    return (size_t)(frame - stack) - at;
}

static int measure(const char *entry, void (*of)(void), size_t stated) {
    size_t depth = depth_of(of);
    printf("stack: %-8s needs %7zu bytes on a %s flash; the header states %7zu%s%s\n", entry, depth, is_full() ? "full" : "bench", stated,
           depth > stated ? ", TOO FEW" : "", depth > MOST ? ", ABOVE 160 KiB" : "");
    return depth > stated || depth > MOST;
}

static int measure_all(size_t flash_len) {
    node.flash_len = flash_len;
    logodwen_node_blank(&node);
    int wrong = measure("start", starts, LOGODWEN_STACK_START);
    wrong += measure("request", requests, LOGODWEN_STACK_REQUEST);
    wrong += measure("reply", replies, LOGODWEN_STACK_REPLY);
    wrong += measure("capture", captures, LOGODWEN_STACK_CAPTURE);
    group_request();
    wrong += measure("poll", polls, LOGODWEN_STACK_POLL);
    wrong += measure("build", builds, LOGODWEN_STACK_BUILD);
    wrong += measure("poll", polls, LOGODWEN_STACK_POLL); /* none has an event */
    builds();
    wrong += measure("reply", event_replies, LOGODWEN_STACK_REPLY);
    wrong += measure("request", event_reads, LOGODWEN_STACK_REQUEST);
    wrong += measure("erase", erases, LOGODWEN_STACK_ERASE);
    wrong += measure("slow", steps, LOGODWEN_STACK_SLOW);
    wrong += measure("fcs", sequences, LOGODWEN_STACK_FCS);
    logodwen_node_blank(&node);
    starts();
    lay_list();
    wrong += measure("requests", lists, LOGODWEN_STACK_REQUESTS);
    wrong += measure("start", starts, LOGODWEN_STACK_START); /* with files to judge */
    lay_damaged();
    wrong += measure("salvage", salvages, LOGODWEN_STACK_SALVAGE);
    return wrong;
}

int main(void) { return measure_all(LOGODWEN_FLASH_BYTES) + measure_all(LOGODWEN_FLASH_FULL_BYTES) == 0 ? 0 : 1; }
