/* The node: a CDP on a flash of either size, and the calls that an audit makes of it. */
#include "audit.h"

#include <string.h>

void node_blank(struct logodwen_node *node, const struct size *size) {
    node->flash_len = (size != NULL ? size : size_usual())->bytes;
    logodwen_node_blank(node);
}

const struct size *node_size(const struct logodwen_node *node) { return size_of(node->flash_len); }

uint32_t node_start(struct logodwen_node *node) {
    static const struct logodwen_given given = {LOGODWEN_CDP, 1, 0, 0, 0, 0, 0};
    memset(node->state, 0, sizeof node->state);
    return logodwen_node_start(node, &given);
}

static uint64_t request(struct logodwen_node *node, const uint8_t *packet, size_t words) {
    return logodwen_node_send(node, 0, 0, packet, words);
}

/* A file is written and read back by one list of requests (02, request 9): File Write in as many packets as it takes, Flash Summary and File
   Read. Each finds the room that a reply can need, whatever those before it were answered. */
enum {
    WRITE_PACKETS = 5, /* of the longest file that is sent */
    REQUESTS = WRITE_PACKETS + 2,
    LIST_WORDS = REQUESTS * (LOGODWEN_BEFORE_PACKET + LOGODWEN_REQUEST_WORDS),
    REPLIES_WORDS = REQUESTS * LOGODWEN_REPLIES_WORDS
};

static uint8_t replies[2 * REPLIES_WORDS];

static void add_request(struct logodwen_packets *list, const uint8_t *packet, size_t words) {
    logodwen_packets_add(list, 0, LOGODWEN_BC_WHOLE, packet, words);
}

static void lay_list(struct logodwen_packets *list, const uint8_t *words, size_t count, unsigned name) {
    static uint8_t row[2 * LIST_WORDS];
    uint8_t packet[LOGODWEN_COMMAND_BYTES];
    logodwen_packets_begin(list, row, LIST_WORDS);
    if (count == 0)
        add_request(list, packet, logodwen_make_command(packet, LOGODWEN_ID_FILE_WRITE));
    else
        logodwen_packets_add_file(list, 0, words, count);
    add_request(list, packet, logodwen_make_summary(packet));
    add_request(list, packet, logodwen_make_file_read(packet, name));
}

static bool is_next(const struct logodwen_packet *reply) { return reply->bc == LOGODWEN_BC_NEXT && reply->words == 0; }

void node_write_and_read(struct logodwen_node *node, const uint8_t *words, size_t count, unsigned name, struct course *course) {
    struct logodwen_packets list;
    struct logodwen_packet replied[REQUESTS];
    lay_list(&list, words, count, name);
    uint32_t done = logodwen_done(logodwen_node_requests(node, 0, &list, replies, REPLIES_WORDS));
    for (size_t i = 0, at = 0; i < REQUESTS; i++) {
        replied[i] = (struct logodwen_packet){NULL, 0, LOGODWEN_NONE};
        if (i < done)
            at = logodwen_read_reply(replies, REPLIES_WORDS, at, &replied[i]);
    }
    size_t last = list.count - 3, write = 0; /* packets of File Write: the last, and the first that was not answered NEXT */
    while (write < last && is_next(&replied[write]))
        write++;
    size_t sent = (write + 1) * LOGODWEN_REQUEST_WORDS - 1; /* the first packet begins with a word that is not the file's */
    *course = (struct course){replied[write], sent < count ? sent : count, replied[last + 1], replied[last + 2]};
}

uint64_t node_erase(struct logodwen_node *node, struct erasure erasure) {
    uint8_t packet[LOGODWEN_COMMAND_BYTES];
    return request(node, packet,
                   erasure.is_sector ? logodwen_make_erase_start_at(packet, erasure.which)
                                     : logodwen_make_erase_start(packet, erasure.which));
}

uint32_t node_erase_on(struct logodwen_node *node) {
    enum { BUDGET = 512 }; /* words a call, as a host does that has other work between */
    uint32_t all = 0, set;
    do {
        uint64_t answered = logodwen_node_erase(node, BUDGET);
        set = logodwen_refusal(answered) == LOGODWEN_DONE ? logodwen_words(answered) : 0;
        all += set;
    } while (set != 0 && all <= node->flash_len / 2);
    return all;
}

bool directory_of(const uint8_t *reply, size_t words, struct entry *directory) {
    for (unsigned sector = SECTOR_FIRST; sector <= SECTOR_LAST; sector++) {
        struct logodwen_entry entry;
        if (!logodwen_read_entry(reply, words, sector, &entry))
            return false;
        directory[sector - SECTOR_FIRST] = (struct entry){entry.first, entry.status, entry.words};
    }
    return true;
}

bool node_directory(struct logodwen_node *node, struct entry *directory) {
    uint8_t packet[LOGODWEN_COMMAND_BYTES];
    uint64_t answered = request(node, packet, logodwen_make_summary(packet));
    return directory_of(node->reply, logodwen_words(answered), directory);
}

void node_answer_text(uint64_t answered, char *text) {
    if (logodwen_refusal(answered) != LOGODWEN_DONE)
        say(text, "refusal %s", logodwen_refusal_text(logodwen_refusal(answered)));
    else
        say(text, "%s", logodwen_reply_text(answered));
}

const char *reply_text(const struct logodwen_packet *reply) {
    return reply->bc == LOGODWEN_NONE ? "nothing" : logodwen_packet_text(reply);
}

bool entry_is_empty(struct entry entry) { return entry.status == LOGODWEN_SECTOR_EMPTY; }

const char *entry_status(struct entry entry) {
    static const char *const told[] = {"empty", "good", "bad", "erasing"};
    return told[entry.status];
}

void entry_text(struct entry entry, char *text) {
    if (entry.words == 0)
        say(text, "%s", entry_status(entry));
    else
        say(text, "%s with length %u", entry_status(entry), entry.words);
}

size_t sector_words(const struct logodwen_node *node, unsigned sector) { return logodwen_sector_words(node->flash_len, sector); }

const uint8_t *sector_begin(const struct logodwen_node *node, unsigned sector) {
    return node->flash + 2 * logodwen_sector_start(node->flash_len, sector);
}

unsigned directory_place(const struct logodwen_node *node, const struct entry *directory, size_t words) {
    for (unsigned sector = SECTOR_FIRST; sector <= SECTOR_LAST; sector++)
        if (words <= sector_words(node, sector) && entry_is_empty(directory[sector - SECTOR_FIRST]))
            return sector;
    return 0;
}
