/* Writes an image that is too long for one packet into a flash of full size, in three packets, and reads it back. */
#include "logodwen.h"
#include <stdio.h>

enum { DATA = 12000, ROOM = 5000 };

static uint8_t flash[LOGODWEN_FLASH_FULL_BYTES];
static struct logodwen_node node = {.flash = flash, .flash_len = sizeof flash};
static uint16_t data[DATA];
static uint8_t image[2 * (DATA + 4)], packet[2 * ROOM];

int main(void) {
    const struct logodwen_given given = {LOGODWEN_CDP, 1, 0, 0, 0, 0, 0};
    struct logodwen_file file; /* file 22: one DM segment */
    for (unsigned i = 0; i < DATA; i++) data[i] = (uint16_t)(i * i);
    logodwen_file_begin(&file, image, DATA + 4, LOGODWEN_TYPE_DATA, LOGODWEN_ATTRIBUTE_PLAIN, 0x22);
    logodwen_file_dm(&file, 0, 0x2000, data, DATA);

    logodwen_node_blank(&node);
    if (logodwen_node_start(&node, &given) != LOGODWEN_DONE) return 1;
    uint64_t answered;
    uint32_t bc;
    for (size_t at = 0, laid; (laid = logodwen_make_file_packet(packet, ROOM, image, file.words, &at, &bc)) != 0;) {
        answered = logodwen_node_request(&node, 0, 0, bc, 0, packet, laid);
        printf("%zu words with BC %u%u: %s\n", laid, (unsigned)bc >> 1, (unsigned)bc & 1, logodwen_reply_text(answered));
    }
    answered = logodwen_node_send(&node, 0, 0, packet, logodwen_make_file_read(packet, 0x22));
    bool is_same = logodwen_is_sealed(node.reply, logodwen_words(answered)) && memcmp(node.reply, image, sizeof image) == 0;
    printf("read: %s, %s\n", logodwen_reply_text(answered), is_same ? "the same words" : "other words");
    return is_same ? 0 : 1;
}
