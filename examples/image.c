/* Writes an image into the flash of a fresh node, and reads it back. */
#include "logodwen.h"
#include <stdio.h>

static uint8_t flash[LOGODWEN_FLASH_BYTES];
static struct logodwen_node node = {.flash = flash, .flash_len = sizeof flash};

int main(void) {
    const struct logodwen_given given = {LOGODWEN_CDP, 1, 0, 0, 0, 0, 0};
    const uint16_t data[2] = {0xCAFE, 0xF00D};
    uint8_t image[12], packet[14];
    struct logodwen_file file; /* file 21: one DM segment of two words */
    logodwen_file_begin(&file, image, 6, LOGODWEN_TYPE_DATA, LOGODWEN_ATTRIBUTE_PLAIN, 0x21);
    logodwen_file_dm(&file, 0, 0x2000, data, 2);

    logodwen_node_blank(&node);
    if (logodwen_node_start(&node, &given) != LOGODWEN_DONE) return 1;
    uint64_t answered = logodwen_node_send(&node, 0, 0, packet, logodwen_make_file_write(packet, 7, image, file.words));
    printf("write: %s\n", logodwen_reply_text(answered));
    answered = logodwen_node_send(&node, 0, 0, packet, logodwen_make_file_read(packet, 0x21));
    bool is_same = logodwen_is_sealed(node.reply, logodwen_words(answered)) && memcmp(node.reply, image, sizeof image) == 0;
    printf("read: %s, %s\n", logodwen_reply_text(answered), is_same ? "the same words" : "other words");
    return is_same ? 0 : 1;
}
