/* Writes three entries to the Q-List of a node, carries out what its slow-control steps hand out, and removes what has expired. */
#include "logodwen.h"
#include <stdio.h>

enum { ENTRIES = 3, ROOM = 5 + 5 * ENTRIES };

static uint8_t flash[LOGODWEN_FLASH_BYTES];
static struct logodwen_node node = {.flash = flash, .flash_len = sizeof flash};
static uint8_t packet[2 * ROOM];

/* What is listed, by the node's own words. */
static void list(uint32_t now) {
    struct logodwen_record record;
    size_t words = logodwen_words(logodwen_node_send(&node, now, 0, packet, logodwen_make_list_read(packet))), count;
    if (!logodwen_read_list(node.reply, words, &count)) return;
    printf("tick %u: %zu listed", (unsigned)now, count);
    for (size_t place = 0; place < count; place++) {
        if (!logodwen_read_listed(node.reply, words, place, &record)) return;
        printf("; register %02X: %u to go", record.first, record.repetitions);
    }
    printf("\n");
}

int main(void) {
    const struct logodwen_given given = {LOGODWEN_CDP, 1, 0, 0, 0, 0, 0};
    const unsigned header = LOGODWEN_RECORD_FIRST | LOGODWEN_RECORD_LAST | LOGODWEN_RECORD_IO;
    const struct logodwen_record entries[ENTRIES] = { /* header, repetitions, frequency, two parameters: here a register to read */
        {header, 2, 100, 0x21, 0, 0}, {header, 1, 150, 0x22, 0, 0}, {header, 3, 400, 0x23, 0, 0}};
    logodwen_node_blank(&node);
    if (logodwen_node_start(&node, &given) != LOGODWEN_DONE) return 1;
    uint64_t answered = logodwen_node_send(&node, 0, 0, packet, logodwen_make_list_write(packet, ROOM, entries, ENTRIES));
    printf("write: %s\n", logodwen_reply_text(answered));
    list(0);

    for (uint32_t now = 0; now <= 450; now += 10) { /* a pass of the host's loop: one step */
        struct logodwen_record record;
        answered = logodwen_node_slow(&node, now);
        if (logodwen_read_record(node.list, LOGODWEN_LIST_RECORDS, logodwen_place(answered), &record))
            printf("tick %u: read register %02X; %u to go, due at tick %u\n", (unsigned)now, record.first, record.repetitions,
                   (unsigned)record.due);
    }
    list(450);

    answered = logodwen_node_send(&node, 450, 0, packet, logodwen_make_list_delete_expired(packet));
    printf("delete expired: %s\n", logodwen_reply_text(answered));
    list(450);
    return 0;
}
