/* What a call touches of a full flash (02, request 11). The pages of all other sectors can't be reached while the call is made, so that one
   which reads or writes a byte there ends this program, with the name of the call. Sectors 4 to 10 of a full flash have 65,536 bytes each,
   which is a multiple of any page; what stands before them is one more such part, with sector 3 in it. */
#define _DEFAULT_SOURCE
#include "../../include/logodwen.h"
#include "long_file.h"

#include <signal.h>
#include <stdio.h>
#include <stdlib.h>
#include <sys/mman.h>
#include <unistd.h>

enum { PART = LOGODWEN_FLASH_FULL_BYTES / 8, EMPTY = 9, WORDS = 30000, READABLE = 12000 };
enum { NONE = 0, ALL = 0xFF }; /* parts: bit 0 for what has sector 3, bit s - 3 for a sector s above it */

static uint8_t pm[LOGODWEN_PM_BYTES], dm[LOGODWEN_DM_BYTES], io[LOGODWEN_IO_BYTES];
static struct logodwen_node node = {.pm = pm, .dm = dm, .io = io, .pm_len = sizeof pm, .dm_len = sizeof dm, .io_len = sizeof io};
static uint8_t packet[LOGODWEN_REQUEST_BYTES], image[2 * LOGODWEN_FILE_FULL_WORDS];
static const char *call = "start"; /* that is being made */
static int failures, calls;

static unsigned part_of(unsigned sector) { return 1u << (sector - LOGODWEN_SECTOR_FIRST); }

/* Nothing but these parts can be reached. */
static void open_parts(unsigned parts) {
    for (unsigned part = 0; part < 8; part++)
        if (mprotect(node.flash + (size_t)PART * part, PART, parts >> part & 1 ? PROT_READ | PROT_WRITE : PROT_NONE) != 0)
            exit(2);
}

static void say_touched(int unused) {
    static const char text[] = "touched: a part of the flash that is not its own is touched by ";
    (void)unused;
    if (write(1, text, sizeof text - 1) < 0 || write(1, call, strlen(call)) < 0 || write(1, "\n", 1) < 0)
        _exit(2);
    _exit(1);
}

static void expect(const char *name, uint64_t answered, uint64_t expected) {
    calls++;
    if (answered == expected)
        return;
    failures++;
    printf("touched: %s: answered %llx and not %llx\n", name, (unsigned long long)answered, (unsigned long long)expected);
}

static uint64_t zero_length(uint64_t bc) { return (uint64_t)LOGODWEN_REPLY << 8 | bc << 16; }
static uint64_t with_words(uint64_t words) { return (uint64_t)LOGODWEN_REPLY << 8 | (uint64_t)LOGODWEN_BC_WHOLE << 16 | words << 32; }

/* A request that stands in the packet, with some parts open. */
static void request(const char *name, unsigned parts, uint32_t bc, size_t words, uint64_t expected) {
    call = name;
    open_parts(parts);
    expect(name, logodwen_node_request(&node, 0, 0, bc, 0, packet, words), expected);
}

static void whole(const char *name, unsigned parts, size_t words, uint64_t expected) {
    request(name, parts, LOGODWEN_BC_WHOLE, words, expected);
}

static void erase(const char *name, unsigned parts, uint64_t budget, uint64_t words) {
    call = name;
    open_parts(parts);
    expect(name, logodwen_node_erase(&node, budget), words << 32);
}

/* A file in each sector but the empty one, by the sector's number: those that File Read answers are in the even ones. Sector 7 has a bad one. */
static void program(void) {
    for (unsigned sector = LOGODWEN_SECTOR_FIRST; sector <= LOGODWEN_SECTOR_LAST; sector++)
        if (sector != EMPTY)
            lay_long_file(node.flash + 2 * logodwen_sector_start(node.flash_len, sector), sector, sector % 2 == 0 || sector == 3 ? READABLE : WORDS);
    node.flash[2 * (logodwen_sector_start(node.flash_len, 7) + WORDS)] = 0;
}

/* Commands that are not on a file, and those that find none. */
static void test_none(void) {
    static const uint16_t pairs[4] = {0x1001, 7, 2, 0};
    static const uint16_t data[2];
    static const uint32_t code[1];
    static const struct logodwen_record entry = {LOGODWEN_RECORD_FIRST, 1, 1, 0, 0, 0};
    const uint64_t end = zero_length(LOGODWEN_BC_END), aborted = zero_length(LOGODWEN_BC_ABORT);
    whole("Status", NONE, logodwen_make_status(packet), with_words(12));
    whole("Ping", NONE, logodwen_make_ping(packet, 100, (const uint8_t *)data, 2), with_words(4));
    whole("Summary", NONE, logodwen_make_summary(packet), with_words(34));
    whole("Mode Read", NONE, logodwen_make_mode_read(packet), with_words(3));
    whole("Mode Write", NONE, logodwen_make_mode_write(packet, 1), end);
    whole("Mask Read", NONE, logodwen_make_mask_read(packet), with_words(26));
    whole("Mask Write", NONE, logodwen_make_mask_write(packet, 1, 3), end);
    whole("PM Write", NONE, logodwen_make_pm_write(packet, 100, 0, 0, code, 1), end);
    whole("PM Read", NONE, logodwen_make_pm_read(packet, 0, 0, 1), with_words(7));
    whole("DM Write", NONE, logodwen_make_dm_write(packet, 100, 0, 0x2000, data, 2), end);
    whole("DM Read", NONE, logodwen_make_dm_read(packet, 0, 0x2000, 2), with_words(7));
    whole("Perform IO", NONE, logodwen_make_perform_io(packet, 100, pairs, 4), with_words(9));
    whole("Q-List Write", NONE, logodwen_make_list_write(packet, 100, &entry, 1), end);
    whole("Q-List Read", NONE, logodwen_make_list_read(packet), with_words(8));
    whole("Q-List Delete", NONE, logodwen_make_list_delete_all(packet), end);
    whole("Event Number", NONE, logodwen_make_event_number(packet), with_words(4));
    whole("Event Reset", NONE, logodwen_make_event_reset(packet), end);
    whole("Read Event of none", NONE, logodwen_make_event_read(packet), end);
    whole("File Read of no file", NONE, logodwen_make_file_read(packet, 0xEE), end);
    whole("File Load of no file", NONE, logodwen_make_file_load(packet, 0xEE), aborted);
    whole("Erase of no file", NONE, logodwen_make_erase_start(packet, 0xEE), aborted);
    whole("no command", NONE, logodwen_make_command_1(packet, 0xFF, 0), aborted);
    packet[0] = 0xFF;
    whole("no request", NONE, 1, zero_length(LOGODWEN_BC_ERROR));
    erase("erase progress with nothing to erase", NONE, 100, 0);
    open_parts(NONE);
    expect("a refused request", logodwen_node_request(&node, 0, 9, LOGODWEN_BC_WHOLE, 0, packet, 1), LOGODWEN_REFUSED_NUMBER);
}

/* A build, and its event read: none. */
static void test_build(void) {
    const uint64_t asked = (uint64_t)LOGODWEN_ASK_EVENT << 8 | 5u << 16;
    whole("Mask Write", NONE, logodwen_make_mask_write(packet, 0, 1u << 5), zero_length(LOGODWEN_BC_END));
    call = "build";
    expect(call, logodwen_node_build(&node, 0), asked);
    call = "a slave's END";
    expect(call, logodwen_node_reply(&node, 0, 5, LOGODWEN_BC_END, 0, 0, 0, NULL, 0), asked);
    call = "a slave's event";
    logodwen_put(packet, 0, 1);
    logodwen_put(packet, 1, 0x1234);
    expect(call, logodwen_node_reply(&node, 0, 5, LOGODWEN_BC_FIRST, 0, 0, 0, packet, 2), (uint64_t)LOGODWEN_SEND_NEXT << 8 | 5u << 16);
    call = "a late slave";
    expect(call, logodwen_node_poll(&node, LOGODWEN_LATE_TICKS), (uint64_t)LOGODWEN_BUILT << 8 | (uint64_t)10 << 32);
    whole("Read Event", NONE, logodwen_make_event_read(packet), with_words(10));
}

/* A command on a file: its own sector. */
static void test_own_sector(void) {
    const uint64_t end = zero_length(LOGODWEN_BC_END), aborted = zero_length(LOGODWEN_BC_ABORT);
    for (unsigned sector = LOGODWEN_SECTOR_FIRST; sector <= LOGODWEN_SECTOR_LAST; sector++) {
        if (sector == EMPTY)
            continue;
        unsigned own = part_of(sector);
        bool is_bad = sector == 7, is_readable = sector % 2 == 0 || sector == 3;
        whole("File Read", own, logodwen_make_file_read(packet, sector), is_readable ? with_words(READABLE + 2) : aborted);
        whole("File Test", own, logodwen_make_file_test(packet, sector), with_words(3));
        whole("File Load", own, logodwen_make_file_load(packet, sector), is_bad ? aborted : end);
        whole("Attribute Set", own, logodwen_make_attribute_set(packet, sector, true), is_bad ? aborted : end);
    }
}

/* A file in packets: none but the last touches the flash, and that one the sectors up to the one that it takes. */
static void test_write(void) {
    const uint64_t end = zero_length(LOGODWEN_BC_END);
    uint32_t bc;
    lay_long_file(image, 0x42, WORDS);
    for (size_t at = 0, laid; (laid = logodwen_make_file_packet(packet, LOGODWEN_REQUEST_WORDS, image, WORDS, &at, &bc)) != 0;) {
        bool is_last = (bc & LOGODWEN_BC_LAST) != 0;
        request(is_last ? "the last packet of a file" : "a packet of a file", is_last ? part_of(EMPTY + 1) - 1 : NONE, bc, laid,
                is_last ? end : zero_length(LOGODWEN_BC_NEXT));
    }
    whole("File Test of what is written", part_of(EMPTY), logodwen_make_file_test(packet, 0x42), with_words(3));
}

/* Erase and its progress: the sector that is erased. */
static void test_erase(void) {
    const unsigned own = part_of(5);
    whole("Erase", own, logodwen_make_erase_start(packet, 5), zero_length(LOGODWEN_BC_END));
    whole("File Read while a sector is erased", NONE, logodwen_make_file_read(packet, 4), zero_length(LOGODWEN_BC_ABORT));
    erase("erase progress", own, 100, 100);
    erase("erase progress to the end", own, UINT64_MAX, logodwen_sector_words(node.flash_len, 5) - 100);
}

/* A list touches what its packets do. */
static void test_list(void) {
    static uint8_t row[100], replies[2 * LOGODWEN_REPLIES_BYTES];
    struct logodwen_packets list;
    logodwen_packets_begin(&list, row, sizeof row / 2);
    logodwen_packets_add(&list, 0, LOGODWEN_BC_WHOLE, packet, logodwen_make_mode_read(packet));
    logodwen_packets_add(&list, 0, LOGODWEN_BC_WHOLE, packet, logodwen_make_summary(packet));
    call = "a list that is not on files";
    open_parts(NONE);
    expect(call, logodwen_node_requests(&node, 0, &list, replies, sizeof replies / 2), (uint64_t)2 << 32);
    logodwen_packets_add(&list, 0, LOGODWEN_BC_WHOLE, packet, logodwen_make_file_test(packet, 4));
    logodwen_packets_add(&list, 0, LOGODWEN_BC_WHOLE, packet, logodwen_make_file_load(packet, 8));
    call = "a list on two files";
    open_parts(part_of(4) | part_of(8));
    expect(call, logodwen_node_requests(&node, 0, &list, replies, sizeof replies / 2), (uint64_t)4 << 32);
}

int main(void) {
    static const struct logodwen_given given = {LOGODWEN_CDDC, 1, 0, 0, 0, 0, 0};
    struct sigaction on_touch = {.sa_handler = say_touched};
    node.flash_len = LOGODWEN_FLASH_FULL_BYTES;
    node.flash = mmap(NULL, node.flash_len, PROT_READ | PROT_WRITE, MAP_PRIVATE | MAP_ANONYMOUS, -1, 0);
    if (node.flash == MAP_FAILED || sigaction(SIGSEGV, &on_touch, NULL) != 0 || sigaction(SIGBUS, &on_touch, NULL) != 0)
        return 2;
    logodwen_node_blank(&node);
    program();
    expect(call, logodwen_node_start(&node, &given), LOGODWEN_DONE);
    test_none();
    test_build();
    test_own_sector();
    test_write();
    test_erase();
    test_list();
    open_parts(ALL);
    printf("touched: %d calls on a full flash, %d failed; each touches its own sectors\n", calls, failures);
    return failures == 0 ? 0 : 1;
}
