/* Does three requests in one call, and prints their replies. */
#include "logodwen.h"
#include <stdio.h>

enum { ROOM = 2 * LOGODWEN_REPLIES_WORDS };

static uint8_t flash[LOGODWEN_FLASH_BYTES];
static struct logodwen_node node = {.flash = flash, .flash_len = sizeof flash};
static uint8_t replies[2 * ROOM];

int main(void) {
    const struct logodwen_given given = {LOGODWEN_CDP, 1, 0, 0, 0, 0, 0};
    uint8_t row[64], packet[LOGODWEN_COMMAND_BYTES];
    struct logodwen_packets list; /* all of link 0, and whole */
    logodwen_packets_begin(&list, row, sizeof row / 2);
    logodwen_packets_add(&list, 0, LOGODWEN_BC_WHOLE, packet, logodwen_make_mode_read(packet));
    logodwen_packets_add(&list, 0, LOGODWEN_BC_WHOLE, packet, logodwen_make_mode_write(packet, 1));
    logodwen_packets_add(&list, 0, LOGODWEN_BC_WHOLE, packet, logodwen_make_mode_read(packet));

    logodwen_node_blank(&node);
    if (logodwen_node_start(&node, &given) != LOGODWEN_DONE) return 1;
    uint64_t answered = logodwen_node_requests(&node, 0, &list, replies, ROOM);
    printf("%u of %zu done\n", (unsigned)logodwen_done(answered), list.count);
    struct logodwen_packet reply;
    for (size_t i = 0, at = 0; i < logodwen_done(answered); i++) {
        at = logodwen_read_reply(replies, ROOM, at, &reply);
        if (at == 0) return 1;
        printf("packet %zu: %s", i, logodwen_packet_text(&reply));
        for (size_t word = 0; word + LOGODWEN_TAIL_WORDS < reply.words; word++) printf(" %04X", (unsigned)logodwen_get(reply.bytes, word));
        printf("\n");
    }
    return 0;
}
