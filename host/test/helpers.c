/* helpers: the helpers of include/logodwen.h on lines of standard input, as model/helpers.py writes them: each line names a helper and what
   it is given, in hex, and what it comes to is printed. helpers SEED COUNT: the readers on bytes by chance and on damaged files and
   replies, against the model in C. Every run of words is a block of its own of just its length, so that under the sanitizers a byte
   read or written past it is noticed. */
#include "../../include/logodwen.h"
#include "../model/model.h"
#include "long_file.h"

#include <stdio.h>
#include <stdlib.h>

/* A block of just so many words. */
static uint8_t *block_of(size_t words) {
    uint8_t *block = malloc(2 * words + (words == 0));
    if (block == NULL)
        exit(2);
    return block;
}

/* What a line gives: numbers, and a copy of those from one on as words. */

enum { MOST = 40000 };
static uint32_t given[MOST];
static size_t count;

static uint8_t *words_from(size_t first) {
    uint8_t *words = block_of(count - first);
    for (size_t i = first; i < count; i++)
        logodwen_put(words, i - first, (uint16_t)given[i]);
    return words;
}

/* The same as an array. */
static uint16_t *array_from(size_t first, size_t length) {
    uint16_t *array = malloc(2 * length + (length == 0));
    if (array == NULL)
        exit(2);
    for (size_t i = 0; i < length; i++)
        array[i] = (uint16_t)given[first + i];
    return array;
}

static void print_words(const uint8_t *bytes, size_t words) {
    if (words == 0)
        printf("0");
    for (size_t i = 0; i < words; i++)
        printf("%s%X", i == 0 ? "" : " ", (unsigned)logodwen_get(bytes, i));
    printf("\n");
}

static void print_numbers(const uint32_t *numbers, size_t length) {
    for (size_t i = 0; i < length; i++)
        printf("%s%X", i == 0 ? "" : " ", (unsigned)numbers[i]);
}

/* Requests without a room, by how many numbers they take. */

static const struct {
    const char *name;
    size_t (*make)(uint8_t *);
} plain[] = {{"status", logodwen_make_status},
             {"summary", logodwen_make_summary},
             {"mode_read", logodwen_make_mode_read},
             {"mask_read", logodwen_make_mask_read},
             {"list_read", logodwen_make_list_read},
             {"event_read", logodwen_make_event_read},
             {"event_number", logodwen_make_event_number},
             {"event_reset", logodwen_make_event_reset},
             {"list_delete_expired", logodwen_make_list_delete_expired},
             {"list_delete_all", logodwen_make_list_delete_all},
             {"to_all", logodwen_make_to_all}};

static const struct {
    const char *name;
    size_t (*make)(uint8_t *, unsigned);
} with_one[] = {{"file_read", logodwen_make_file_read},     {"file_test", logodwen_make_file_test},
                {"file_load", logodwen_make_file_load},     {"erase_start", logodwen_make_erase_start},
                {"mode_write", logodwen_make_mode_write},   {"erase_start_at", logodwen_make_erase_start_at},
                {"to_slave", logodwen_make_to_slave},       {"to_mask", logodwen_make_to_mask},
                {"to_slaves", logodwen_make_to_slaves},     {"list_delete", logodwen_make_list_delete}};

static bool is_request(const char *name) {
    static uint8_t packet[LOGODWEN_COMMAND_BYTES];
    for (size_t i = 0; i < sizeof plain / sizeof *plain; i++)
        if (strcmp(plain[i].name, name) == 0)
            return print_words(packet, plain[i].make(packet)), true;
    for (size_t i = 0; i < sizeof with_one / sizeof *with_one; i++)
        if (strcmp(with_one[i].name, name) == 0)
            return print_words(packet, with_one[i].make(packet, given[0])), true;
    if (strcmp(name, "attribute_set") == 0)
        return print_words(packet, logodwen_make_attribute_set(packet, given[0], given[1] != 0)), true;
    if (strcmp(name, "mask_write") == 0)
        return print_words(packet, logodwen_make_mask_write(packet, given[0], given[1])), true;
    if (strcmp(name, "pm_read") == 0)
        return print_words(packet, logodwen_make_pm_read(packet, given[0], given[1], given[2])), true;
    if (strcmp(name, "dm_read") == 0)
        return print_words(packet, logodwen_make_dm_read(packet, given[0], given[1], given[2])), true;
    return false;
}

/* A Q-List Write of entries of five numbers each: header, repetitions, frequency and parameters. */
static size_t make_list_write(uint8_t *packet, size_t room) {
    static struct logodwen_record records[MOST / 5];
    size_t entries = (count - 1) / 5;
    for (size_t i = 0; i < entries; i++) {
        const uint32_t *numbers = given + 1 + 5 * i;
        const struct logodwen_record record = {numbers[0], numbers[1], numbers[2], numbers[3], numbers[4], 0};
        records[i] = record;
    }
    return logodwen_make_list_write(packet, room, records, entries);
}

/* Requests that have words: the first number is the room. */
static bool is_long_request(const char *name) {
    size_t room = given[0], laid;
    uint8_t *packet = block_of(room), *words = words_from(1);
    uint16_t *array = array_from(0, count);
    if (strcmp(name, "pm_write") == 0)
        laid = logodwen_make_pm_write(packet, room, given[1], given[2], given + 3, count - 3);
    else if (strcmp(name, "dm_write") == 0)
        laid = logodwen_make_dm_write(packet, room, given[1], given[2], array + 3, count - 3);
    else if (strcmp(name, "perform_io") == 0)
        laid = logodwen_make_perform_io(packet, room, array + 1, count - 1);
    else if (strcmp(name, "file_write") == 0)
        laid = logodwen_make_file_write(packet, room, words, count - 1);
    else if (strcmp(name, "ping") == 0)
        laid = logodwen_make_ping(packet, room, words, count - 1);
    else if (strcmp(name, "list_write") == 0)
        laid = make_list_write(packet, room);
    else
        laid = SIZE_MAX;
    if (laid != SIZE_MAX)
        print_words(packet, laid);
    free(packet);
    free(words);
    free(array);
    return laid != SIZE_MAX;
}

/* A file in packets: the first number is the room, and each packet is printed behind its BC and its length. */
static void make_packets(void) {
    size_t room = given[0], words = count - 1, laid;
    uint8_t *packet = block_of(room), *file = words_from(1);
    uint32_t bc;
    for (size_t at = 0; (laid = logodwen_make_file_packet(packet, room, file, words, &at, &bc)) != 0;) {
        printf("%X %X ", (unsigned)bc, (unsigned)laid);
        for (size_t i = 0; i < laid; i++)
            printf("%X ", (unsigned)logodwen_get(packet, i));
    }
    printf("%X\n", (unsigned)bc); /* of no packet any more */
    free(packet);
    free(file);
}

/* Lists of requests. */

/* What was laid of a list: how many packets, and all its words. */
static void print_row(const struct logodwen_packets *list) {
    printf("%X ", (unsigned)list->count);
    print_words(list->bytes, list->words);
}

/* A list of packets, each given as link, BC, length and words: the first number is the room, and of each it is told whether it was added. */
static void add_packets(void) {
    struct logodwen_packets list;
    logodwen_packets_begin(&list, block_of(given[0]), given[0]);
    for (size_t at = 1; at < count; at += 3 + given[at + 2]) {
        uint8_t *words = words_from(at + 3);
        printf("%X ", (unsigned)logodwen_packets_add(&list, given[at], given[at + 1], words, given[at + 2]));
        free(words);
    }
    print_row(&list);
    free(list.bytes);
}

/* A File Write in a list, behind a packet of one word: room, link and the file's words. */
static void add_file(void) {
    uint8_t *file = words_from(2), *bytes = block_of(given[0]);
    struct logodwen_packets list;
    logodwen_packets_begin(&list, bytes, given[0]);
    if (logodwen_packets_left(&list) != 0) /* laid where it is to stand */
        logodwen_packets_add(&list, 1, LOGODWEN_BC_WHOLE, logodwen_packets_next(&list), logodwen_make_mode_read(logodwen_packets_next(&list)));
    printf("%X ", (unsigned)logodwen_packets_add_file(&list, given[1], file, count - 2));
    print_row(&list);
    free(file);
    free(bytes);
}

/* The walk over a list, or over replies, up to the first that doesn't stand there: each with BC and length, and the place past the last. */
static void read_row(bool is_list) {
    uint8_t *row = words_from(0);
    struct logodwen_packet packet;
    uint32_t link;
    size_t at = 0, past;
    while ((past = is_list ? logodwen_read_packet(row, count, at, &link, &packet) : logodwen_read_reply(row, count, at, &packet)) != 0) {
        if (is_list)
            printf("%X ", (unsigned)link);
        printf("%X %X ", (unsigned)packet.bc, (unsigned)packet.words);
        for (size_t i = 0; i < packet.words; i++)
            printf("%X ", (unsigned)logodwen_get(packet.bytes, i));
        at = past;
    }
    printf("%X\n", (unsigned)at);
    free(row);
}

/* Files. */

static void add_segment(struct logodwen_file *file, const uint32_t *numbers) {
    uint16_t *array = array_from((size_t)(numbers + 4 - given), numbers[3]);
    if (numbers[0] == LOGODWEN_PM)
        logodwen_file_pm(file, numbers[1], numbers[2], numbers + 4, numbers[3]);
    else if (numbers[0] == LOGODWEN_DM)
        logodwen_file_dm(file, numbers[1], numbers[2], array, numbers[3]);
    else
        logodwen_file_io(file, array, numbers[3]);
    free(array);
}

static void build_file(void) {
    size_t room = given[0];
    uint8_t *bytes = block_of(room);
    struct logodwen_file file;
    logodwen_file_begin(&file, bytes, room, given[1], given[2], given[3]);
    for (size_t at = 4; at < count; at += 4 + given[at + 3])
        add_segment(&file, given + at);
    print_words(bytes, file.words);
    free(bytes);
}

static void print_segment(const struct logodwen_segment *segment) {
    const uint32_t numbers[4] = {segment->memory, segment->page, segment->address, (uint32_t)segment->count};
    printf(" ");
    print_numbers(numbers, 4);
    for (size_t i = 0; i < segment->count; i++)
        printf(" %X", (unsigned)logodwen_segment_word(segment, i));
    if (logodwen_segment_word(segment, segment->count) != 0 || logodwen_segment_word(segment, SIZE_MAX) != 0)
        printf(" (a word past the last)");
}

static void read_file(void) {
    uint8_t *words = words_from(0);
    struct logodwen_header header;
    size_t length = logodwen_read_file(words, count, &header);
    printf("%X", (unsigned)length);
    if (length != 0) {
        const uint32_t numbers[4] = {header.type, header.attribute, header.name, header.segments};
        printf(" ");
        print_numbers(numbers, 4);
        if (logodwen_header_word(&header) != logodwen_get(words, 0))
            printf(" (another header word)");
    }
    struct logodwen_segment segment;
    for (size_t at = 1; at < length;) {
        at = logodwen_read_segment(words, length, at, &segment);
        print_segment(&segment);
    }
    printf("\n");
    free(words);
}

/* Replies. */

static void read_status(void) {
    uint8_t *reply = words_from(0);
    struct logodwen_status s;
    if (logodwen_read_status(reply, count, &s)) {
        const uint32_t numbers[15] = {s.program_version, s.program_type, s.kind,           s.subdetector,  s.ports,
                                      s.subdetector_version, s.time,     s.node_status,    s.start_tests,  s.link,
                                      s.event_number,    s.build_errors, s.amswire_errors, s.flash_errors, s.reply_status};
        print_numbers(numbers, 15);
        printf("\n");
    } else {
        printf("0\n");
    }
    free(reply);
}

/* A sector in a flash of so many bytes. */
static void sector(void) {
    const uint32_t numbers[4] = {logodwen_is_flash_len(given[0]), (uint32_t)logodwen_sector_words(given[0], given[1]),
                                 (uint32_t)logodwen_sector_start(given[0], given[1]), logodwen_sector_address(given[1])};
    print_numbers(numbers, 4);
    printf("\n");
}

static void read_entry(void) {
    uint8_t *reply = words_from(1);
    struct logodwen_entry entry;
    if (logodwen_read_entry(reply, count - 1, given[0], &entry))
        printf("%X %X %X %X %X\n", entry.sector, entry.address, entry.first, entry.status, entry.words);
    else
        printf("0\n");
    free(reply);
}

static void read_named(void) {
    uint8_t *reply = words_from(1);
    printf("%X\n", (unsigned)logodwen_read_named(reply, count - 1, given[0]));
    free(reply);
}

/* The Q-List: an entry at a place of a list, or of a reply to Q-List Read; and how many such a reply has. */

static void print_record(bool is_there, const struct logodwen_record *record) {
    const uint32_t numbers[6] = {record->header, record->repetitions, record->frequency, record->first, record->second, record->due};
    print_numbers(numbers, is_there ? 6 : 1);
    printf("\n");
}

static void read_record(bool is_reply) {
    uint8_t *words = words_from(1);
    struct logodwen_record record = {0, 0, 0, 0, 0, 0};
    print_record(is_reply ? logodwen_read_listed(words, count - 1, given[0], &record)
                          : logodwen_read_record(words, (count - 1) / 7, given[0], &record),
                 &record);
    free(words);
}

static void read_list(void) {
    uint8_t *reply = words_from(0);
    size_t entries;
    if (logodwen_read_list(reply, count, &entries))
        printf("1 %X\n", (unsigned)entries);
    else
        printf("0\n");
    free(reply);
}

/* The whole walk, into a text: a reply that breaks off has none of it. Of an event its number, the slaves left out and its status come first. */
static void read_group(bool is_event) {
    static uint32_t numbers[MOST];
    uint8_t *reply = words_from(0);
    struct logodwen_fragment fragment;
    struct logodwen_event event;
    size_t at = is_event ? LOGODWEN_EVENT_HEAD_WORDS : 0, tail = is_event ? LOGODWEN_EVENT_TAIL_WORDS : LOGODWEN_TAIL_WORDS, told = 0;
    bool is_whole = is_event ? logodwen_read_event(reply, count, &event) : logodwen_is_sealed(reply, count) && count > tail;
    if (is_whole && is_event) {
        numbers[told++] = event.number;
        numbers[told++] = event.left_out;
        numbers[told++] = event.status;
    }
    while (is_whole && at + tail < count) {
        at = is_event ? logodwen_read_event_fragment(reply, count, at, &fragment) : logodwen_read_fragment(reply, count, at, &fragment);
        is_whole = at != 0;
        if (!is_whole)
            break;
        const uint32_t fields[8] = {fragment.slave,      fragment.code,        fragment.slave_status, fragment.rx_status,
                                    fragment.rx_address, fragment.reply_words, fragment.first_word,   (uint32_t)fragment.data_words};
        memcpy(numbers + told, fields, sizeof fields);
        told += 8;
        for (size_t i = 0; i < fragment.data_words; i++)
            numbers[told++] = logodwen_get(fragment.data, i);
    }
    printf(is_whole ? "1 " : "0");
    if (is_whole)
        print_numbers(numbers, told);
    printf("\n");
    free(reply);
}

static void read_event_number(void) {
    uint8_t *reply = words_from(0);
    unsigned number;
    if (logodwen_read_event_number(reply, count, &number))
        printf("1 %X\n", number);
    else
        printf("0\n");
    free(reply);
}

/* A text, as its letters' numbers. */
static void print_text(const char *text) {
    for (size_t i = 0; text[i] != 0; i++)
        printf("%s%X", i == 0 ? "" : " ", (unsigned)text[i]);
    printf("\n");
}

/* What a packet is called: by its BC, and how many words it has. */
static void packet_text(void) {
    const struct logodwen_packet packet = {NULL, given[1], given[0]};
    print_text(logodwen_packet_text(&packet));
}

static void of_words(const char *name) {
    uint8_t *words = words_from(0);
    printf("%X\n", strcmp(name, "fcs") == 0 ? logodwen_fcs(words, count) : (unsigned)logodwen_is_sealed(words, count));
    free(words);
}

static void answer_line(const char *name) {
    if (strcmp(name, "file") == 0)
        build_file();
    else if (strcmp(name, "packets") == 0)
        make_packets();
    else if (strcmp(name, "read_file") == 0)
        read_file();
    else if (strcmp(name, "read_status") == 0)
        read_status();
    else if (strcmp(name, "sector") == 0)
        sector();
    else if (strcmp(name, "read_entry") == 0)
        read_entry();
    else if (strcmp(name, "read_named") == 0)
        read_named();
    else if (strcmp(name, "read_record") == 0 || strcmp(name, "read_listed") == 0)
        read_record(strcmp(name, "read_listed") == 0);
    else if (strcmp(name, "read_list") == 0)
        read_list();
    else if (strcmp(name, "read_group") == 0 || strcmp(name, "read_event") == 0)
        read_group(strcmp(name, "read_event") == 0);
    else if (strcmp(name, "read_event_number") == 0)
        read_event_number();
    else if (strcmp(name, "code_text") == 0)
        print_text(logodwen_code_text(given[0]));
    else if (strcmp(name, "packet_text") == 0)
        packet_text();
    else if (strcmp(name, "packets_add") == 0)
        add_packets();
    else if (strcmp(name, "packets_add_file") == 0)
        add_file();
    else if (strcmp(name, "read_packet") == 0 || strcmp(name, "read_reply") == 0)
        read_row(strcmp(name, "read_packet") == 0);
    else if (strcmp(name, "fcs") == 0 || strcmp(name, "sealed") == 0)
        of_words(name);
    else if (!is_request(name) && !is_long_request(name))
        printf("no helper %s\n", name);
}

static void answer_lines(void) {
    static char line[16 * MOST];
    while (fgets(line, sizeof line, stdin) != NULL) {
        char *name = strtok(line, " \n");
        count = 0;
        for (char *field = strtok(NULL, " \n"); field != NULL && count < MOST; field = strtok(NULL, " \n"))
            given[count++] = (uint32_t)strtoul(field, NULL, 16);
        if (name != NULL)
            answer_line(name);
    }
}

/* By chance. */

static uint64_t chance;

static uint32_t any(void) {
    chance = chance * 6364136223846793005u + 1442695040888963407u;
    return (uint32_t)(chance >> 33);
}

static void differs(const char *what, unsigned long turn) {
    printf("helpers: turn %lu: %s is not the model's\n", turn, what);
    exit(1);
}

/* Words that may be a file: some segments, with headers by chance, some sealed; then some bits changed. */
static size_t lay_file(uint8_t *words, size_t room) {
    size_t at = 1;
    logodwen_put(words, 0, (uint16_t)(any() & (any() % 4 == 0 ? 0xFFFFu : 0x7FFFu)));
    while (at + 2 < room && any() % 5 != 0) {
        unsigned bits = any() % 4, length = any() % 20, page = any() % 8 == 0 ? 1 : any() % 2 * 3;
        size_t size = bits == 0 ? length / 2 * 3 : length;
        if (size == 0 || at + 2 + size > room)
            continue;
        logodwen_put(words, at, (uint16_t)(bits << 14 | length));
        logodwen_put(words, at + 1, (uint16_t)(page << 14 | (any() & 0x3FFFu)));
        for (size_t i = 0; i < size; i++)
            logodwen_put(words, at + 2 + i, (uint16_t)any());
        if (bits == 0 && size > 1 && any() % 8 != 0)
            words[2 * (at + size)] = 0;
        if (any() % 8 != 0)
            logodwen_put(words, at + 1 + size, model_fcs(words + 2 * (at + 2), size - 1));
        at += 2 + size;
    }
    return at;
}

static void try_file(unsigned long turn) {
    static uint8_t room[400];
    size_t length = lay_file(room, 200), words = any() % 4 == 0 ? any() % (length + 1) : length;
    if (words != 0 && any() % 3 != 0) /* as many segments as there are, mostly */
        room[0] = (uint8_t)((room[0] & 0xF0u) | (1 + any() % 4));
    uint8_t *exact = block_of(words);
    memcpy(exact, room, 2 * words);
    struct logodwen_header header;
    if (logodwen_read_file(exact, words, &header) != model_file_length(exact, words))
        differs("the length of a file", turn);
    for (size_t at = 0; at <= words + 1; at++) {
        struct logodwen_segment found;
        struct segment expected;
        size_t past = logodwen_read_segment(exact, words, at, &found);
        bool is_there = model_segment_at(exact, words, at, &expected);
        if (is_there != (past != 0) || (is_there && past != expected.body + expected.size))
            differs("the end of a segment", turn);
        if (is_there && (found.memory != (unsigned)expected.memory || found.count + 1 != expected.length))
            differs("a segment's header", turn);
        if (is_there && found.memory != LOGODWEN_IO
            && (logodwen_page_bits(found.page) != expected.page || found.address != expected.address))
            differs("a segment's place", turn);
    }
    free(exact);
}

/* The walk over fragments on any words: it ends, inside them, and each fragment is of the length that it says. */
static void try_group(unsigned long turn) {
    size_t words = any() % 40;
    uint8_t *reply = block_of(words);
    for (size_t i = 0; i < words; i++)
        logodwen_put(reply, i, (uint16_t)(any() % 3 == 0 ? any() : any() % 6));
    for (size_t from = 0; from < words + 2; from++) {
        struct logodwen_fragment fragment;
        size_t past = logodwen_read_fragment(reply, words, from, &fragment);
        if (past != 0 && (past > words - LOGODWEN_TAIL_WORDS || past != from + 1 + logodwen_get(reply, from)))
            differs("the end of a fragment", turn);
        if (past != 0 && logodwen_get(reply, past - 1) != (fragment.code << 11 | fragment.slave_status | fragment.slave))
            differs("a fragment's status word", turn);
        past = logodwen_read_event_fragment(reply, words, from, &fragment);
        if (past != 0 && (past > words - LOGODWEN_EVENT_TAIL_WORDS || past != from + 1 + logodwen_get(reply, from)))
            differs("the end of an event's fragment", turn);
    }
    struct logodwen_event event;
    unsigned number;
    logodwen_read_event(reply, words, &event);
    logodwen_read_event_number(reply, words, &number);
    struct logodwen_status status;
    struct logodwen_entry entry;
    logodwen_read_status(reply, words, &status);
    logodwen_read_entry(reply, words, any() % 12, &entry);
    free(reply);
}

/* What the slaves of a group say by chance: the reply that one has begun, what it has said of it, and the time. */
struct talk {
    uint8_t reply[2 * 12];
    size_t words, said;
    uint32_t now;
    unsigned number; /* that replies mostly begin with; 0 for any */
};

static void reply_by_chance(struct talk *talk) {
    talk->said = 0;
    talk->words = any() % 3 == 0 ? 0 : 1 + any() % 12;
    for (size_t i = 0; i < talk->words; i++)
        logodwen_put(talk->reply, i, (uint16_t)any());
    if (talk->words > 1 && talk->number != 0 && any() % 8 != 0)
        logodwen_put(talk->reply, 0, (uint16_t)talk->number);
    if (talk->words > 1 && any() % 8 != 0)
        logodwen_put(talk->reply, talk->words - 1, logodwen_fcs(talk->reply, talk->words - 1));
}

/* Nothing in time, or a packet: all that is left of its reply or less, seldom with receive errors or a BC by chance. */
static uint64_t answer_by_chance(struct logodwen_node *node, const struct logodwen_packet *sent, unsigned slave, struct talk *talk) {
    if (sent->words != 0)
        reply_by_chance(talk);
    if (any() % 8 == 0)
        return logodwen_node_poll(node, talk->now += LOGODWEN_LATE_TICKS);
    size_t at = talk->said, left = talk->words - at, words = any() % 2 == 0 ? left : any() % (left + 1);
    uint32_t bc = (at == 0 ? LOGODWEN_BC_FIRST : 0) | (words == left ? LOGODWEN_BC_LAST : 0);
    talk->said += words;
    talk->now += any() % LOGODWEN_LATE_TICKS;
    return logodwen_node_reply(node, talk->now, slave, words == 0 || any() % 8 == 0 ? any() % 4 : bc, any() % 8 == 0, (uint16_t)any(),
                               (uint16_t)any(), talk->reply + 2 * at, words);
}

/* Flashes with room for either size: two to compare, and one for all nodes that write no file. */
static uint8_t flashes[3][LOGODWEN_FLASH_FULL_BYTES];
static uint8_t *const unwritten = flashes[2];

/* A node that starts on a blank flash. */
static void start_on(struct logodwen_node *node, uint8_t *flash, size_t flash_len, uint32_t kind, uint32_t ports) {
    const struct logodwen_given given = {kind, ports, 0, 0, 0, 0, 0};
    node->flash = flash;
    node->flash_len = flash_len;
    logodwen_node_blank(node);
    if (logodwen_node_start(node, &given) != LOGODWEN_DONE)
        differs("a start", (unsigned long)flash_len);
}

/* A group's reply of a node is accepted for its mask, and the walk goes over a fragment of each slave of it, in order, to the tail. Cut
   short it breaks at its length, and with a word more behind its end. */
static void try_capture(unsigned long turn) {
    static struct logodwen_node node;
    static struct talk talk;
    uint32_t mask = (uint32_t)1 << any() % LOGODWEN_SLAVES | (any() & (any() % 4 == 0 ? 0xFFFFFFu : 0x3Cu)), slaves = mask;
    uint8_t request[2 * 3];
    struct logodwen_packet sent;
    if (turn == 0)
        start_on(&node, unwritten, LOGODWEN_FLASH_BYTES, LOGODWEN_CDDC, 1);
    size_t at = logodwen_make_to_slaves(request, mask);
    at += logodwen_make_status(request + 2 * at);
    uint64_t answered = logodwen_node_send(&node, talk.now, 0, request, at);
    while (logodwen_to_send(answered, request, at, &sent))
        answered = answer_by_chance(&node, &sent, logodwen_slave(answered), &talk);
    size_t words = logodwen_words(answered), cut = words == 0 ? 0 : any() % words;
    if (logodwen_answer(answered) != LOGODWEN_REPLY)
        differs("the end of a group", turn);
    if (words == 0)
        return;
    if (logodwen_capture(mask, node.reply, 2 * words + 1) != (uint64_t)LOGODWEN_ACCEPTED << 8)
        differs("a node's own group reply, captured,", turn);
    if (logodwen_place(logodwen_capture(mask, node.reply, 2 * cut)) != cut
        || logodwen_place(logodwen_capture(mask, node.reply, 2 * words + 2)) != words)
        differs("the place where a captured reply breaks", turn);
    for (at = 0; at + LOGODWEN_TAIL_WORDS < words; slaves &= slaves - 1) {
        struct logodwen_fragment fragment;
        at = logodwen_read_fragment(node.reply, words, at, &fragment);
        if (at == 0 || slaves == 0 || (slaves & (0 - slaves)) != (uint32_t)1 << fragment.slave)
            differs("a fragment of a captured reply", turn);
    }
    if (slaves != 0)
        differs("the number of fragments in a captured reply", turn);
}

/* An event of a node, from slaves that mostly begin with its number: the walk goes over a fragment of each slave that is not left out, in order,
   to the tail, and Read Event hands out what stands in the event area. */
static void try_event(unsigned long turn) {
    static struct logodwen_node node;
    static struct talk talk;
    uint32_t mask = (uint32_t)1 << any() % LOGODWEN_SLAVES | (any() & (any() % 4 == 0 ? 0xFFFFFFu : 0x3Cu));
    uint8_t request[LOGODWEN_COMMAND_BYTES];
    struct logodwen_packet sent;
    struct logodwen_event event;
    if (turn == 0)
        start_on(&node, unwritten, LOGODWEN_FLASH_BYTES, LOGODWEN_CDDC, 1);
    logodwen_node_send(&node, talk.now, 0, request, logodwen_make_mask_write(request, 0, mask));
    unsigned number = logodwen_get(node.state + LOGODWEN_AT_EVENT, 0);
    uint64_t answered = logodwen_node_build(&node, talk.now);
    talk.number = number + 1;
    while (logodwen_to_send(answered, NULL, 0, &sent))
        answered = answer_by_chance(&node, &sent, logodwen_slave(answered), &talk);
    talk.number = 0;
    if (logodwen_answer(answered) == LOGODWEN_NO_EVENT)
        return;
    size_t words = logodwen_words(answered);
    if (logodwen_answer(answered) != LOGODWEN_BUILT || !logodwen_read_event(node.events, words, &event))
        differs("the end of a build", turn);
    if (event.number != ((number + 1) & 0xFFFF) || (event.left_out & ~mask) != 0)
        differs("an event's number, or the slaves left out,", turn);
    uint32_t slaves = mask & ~event.left_out;
    for (size_t at = LOGODWEN_EVENT_HEAD_WORDS; at + LOGODWEN_EVENT_TAIL_WORDS < words; slaves &= slaves - 1) {
        struct logodwen_fragment fragment;
        at = logodwen_read_event_fragment(node.events, words, at, &fragment);
        if (at == 0 || slaves == 0 || (slaves & (0 - slaves)) != (uint32_t)1 << fragment.slave)
            differs("a fragment of an event", turn);
    }
    if (slaves != 0 || logodwen_node_build(&node, talk.now) != (LOGODWEN_REPLY << 8 | LOGODWEN_BC_ABORT << 16))
        differs("the number of fragments in an event", turn);
    if (logodwen_words(logodwen_node_send(&node, talk.now, 0, request, logodwen_make_event_read(request))) != words
        || memcmp(node.reply, node.events, 2 * words) != 0)
        differs("an event that is read", turn);
    answered = logodwen_node_send(&node, talk.now, 0, request, logodwen_make_event_number(request));
    if (!logodwen_read_event_number(node.reply, logodwen_words(answered), &number) || number != event.number)
        differs("the number of the last event", turn);
}

static void try_sequence(unsigned long turn) {
    size_t words = any() % 70;
    uint8_t *bytes = malloc(2 * words + 1);
    if (bytes == NULL)
        exit(2);
    for (size_t i = 0; i <= 2 * words; i++)
        bytes[i] = (uint8_t)any();
    uint16_t expected = model_fcs(bytes, words);
    if (logodwen_fcs(bytes, words) != expected || logodwen6_fcs(bytes, 2 * words + 1) != expected)
        differs("a check sequence", turn);
    if (logodwen_is_sealed(bytes, words) != (words >= 2 && model_fcs(bytes, words - 1) == word_at(bytes, words - 1)))
        differs("whether a reply is sealed", turn);
    free(bytes);
}

/* A file of some segments, seldom damaged. */
static size_t build_by_chance(uint8_t *bytes, size_t room) {
    uint16_t data[40];
    struct logodwen_file file;
    for (size_t i = 0; i < 40; i++)
        data[i] = (uint16_t)any();
    logodwen_file_begin(&file, bytes, room, any() % 2, any() % 4, any() % 256);
    for (unsigned left = 1 + any() % 3; left > 0; left--)
        logodwen_file_dm(&file, 0, 0x2000, data, 1 + any() % 40);
    if (any() % 8 == 0)
        bytes[any() % (2 * file.words)] ^= 1;
    return file.words;
}

/* Whether two nodes have the same state, and flashes of the same bytes. */
static bool are_alike(const struct logodwen_node *one, const struct logodwen_node *other) {
    return memcmp(one->state, other->state, sizeof one->state) == 0 && one->flash_len == other->flash_len
           && memcmp(one->flash, other->flash, one->flash_len) == 0;
}

/* What Summary says of each sector of a node that files were written to: good with the file's length where one stands there. */
static void try_entries(struct logodwen_node *node, unsigned long turn) {
    uint8_t packet[LOGODWEN_COMMAND_BYTES];
    uint64_t answered = logodwen_node_send(node, 0, 0, packet, logodwen_make_summary(packet));
    for (unsigned sector = LOGODWEN_SECTOR_FIRST; sector <= LOGODWEN_SECTOR_LAST; sector++) {
        size_t length = model_file_length(node->flash + 2 * logodwen_sector_start(node->flash_len, sector),
                                          logodwen_sector_words(node->flash_len, sector));
        struct logodwen_entry entry;
        if (!logodwen_read_entry(node->reply, logodwen_words(answered), sector, &entry) || entry.words != length
            || entry.status != (length != 0 ? LOGODWEN_SECTOR_GOOD : LOGODWEN_SECTOR_EMPTY))
            differs("a sector's entry", turn);
    }
}

/* A file in packets of any length is written as the model writes it in one, and nothing of one that is dropped stays but in the area. */
static void try_write(unsigned long turn) {
    enum { ROOM = 130 };
    static struct logodwen_node ours, other; /* in packets, and in one by the model */
    uint8_t file[2 * ROOM], whole[2 * ROOM + 2];
    if (turn % 16 == 0) {
        size_t flash_len = turn % 32 == 0 ? LOGODWEN_FLASH_BYTES : LOGODWEN_FLASH_FULL_BYTES;
        start_on(&ours, flashes[0], flash_len, LOGODWEN_CDP, 2);
        start_on(&other, flashes[1], flash_len, LOGODWEN_CDP, 2);
    }
    size_t words = build_by_chance(file, ROOM), length = logodwen_make_file_write(whole, ROOM + 1, file, words);
    size_t room = 2 + any() % (words + 2);
    uint32_t link = any() % 2;
    uint8_t *packet = block_of(room);
    size_t sent;
    uint64_t answered = logodwen_node_write(&ours, 0, link, packet, room, file, words, &sent);
    uint64_t expected = model_request(0, link, LOGODWEN_BC_WHOLE, 0, whole, 2 * length, other.state, sizeof other.state, other.flash,
                                      other.flash_len, NULL, 0, NULL, 0, NULL, 0, other.area, sizeof other.area, other.list,
                                      sizeof other.list, other.events, sizeof other.events, other.reply, sizeof other.reply);
    if (answered != expected || sent != words || !are_alike(&ours, &other))
        differs("a file in packets", turn);
    bool is_next = logodwen_is_next(logodwen_node_request(&ours, 0, link, LOGODWEN_BC_FIRST, 0, whole, length));
    if (!is_next || logodwen_bc(logodwen_node_drop(&ours, 0, 1 - link)) != LOGODWEN_BC_ABORT
        || logodwen_bc(logodwen_node_drop(&ours, 0, link)) != LOGODWEN_BC_END)
        differs("a file that is dropped", turn);
    if (!are_alike(&ours, &other))
        differs("what a dropped file leaves", turn);
    try_entries(&ours, turn);
    free(packet);
}

/* Entries by chance are listed as they were given, by the records and by Q-List Read, and handed out in turn when they are due. */
static void try_list(unsigned long turn) {
    enum { MOST_ENTRIES = 9, PACKET_WORDS = 5 + 5 * MOST_ENTRIES };
    static struct logodwen_node node;
    struct logodwen_record entries[MOST_ENTRIES], record, listed;
    uint8_t packet[2 * PACKET_WORDS];
    size_t written = 1 + any() % MOST_ENTRIES, told;
    uint32_t now = any() << 1 | (any() & 1);
    if (turn == 0)
        start_on(&node, unwritten, LOGODWEN_FLASH_BYTES, LOGODWEN_CDP, 1);
    for (size_t i = 0; i < written; i++) {
        const struct logodwen_record entry = {(any() & 0xFFu) | LOGODWEN_RECORD_FIRST, any() % 3, 1 + any() % LOGODWEN_FREQUENCY_MOST,
                                              any() & 0xFFFFu, any() & 0xFFFFu, 0};
        entries[i] = entry;
        entries[i].due = now + entry.frequency;
    }
    size_t words = logodwen_make_list_write(packet, PACKET_WORDS, entries, written);
    logodwen_node_send(&node, now, 0, packet, words);
    words = logodwen_words(logodwen_node_send(&node, now, 0, packet, logodwen_make_list_read(packet)));
    if (!logodwen_read_list(node.reply, words, &told) || told != written)
        differs("how many entries are listed", turn);
    for (size_t i = 0; i < written; i++) {
        if (!logodwen_read_record(node.list, LOGODWEN_LIST_RECORDS, i, &record) || memcmp(&record, &entries[i], sizeof record) != 0)
            differs("a record", turn);
        record.due = 0;
        if (!logodwen_read_listed(node.reply, words, i, &listed) || memcmp(&listed, &record, sizeof listed) != 0)
            differs("an entry that is told", turn);
        uint32_t expected = entries[i].repetitions == 0 ? LOGODWEN_NONE : (uint32_t)i;
        if (logodwen_place(logodwen_node_slow(&node, entries[i].due)) != expected)
            differs("an entry that is handed out", turn);
    }
    logodwen_node_send(&node, now, 0, packet, logodwen_make_list_delete_all(packet));
}

/* A request by chance, in so many words: one of the node's own, one that is no command, or one to a slave. */
static size_t request_by_chance(uint8_t *packet, size_t room) {
    static const uint8_t data[8];
    uint32_t kind = any() % 16;
    if (room < 3 || kind < 5)
        return logodwen_make_ping(packet, room, data, any() % 4);
    if (kind == 5)
        return logodwen_make_to_slave(packet, 5) + logodwen_make_mode_read(packet + 2);
    if (kind < 9)
        return logodwen_make_mode_write(packet, any() % 4);
    return kind < 13 ? logodwen_make_mode_read(packet) : logodwen_make_command_1(packet, 0xFF, any());
}

/* As many packets as a list has room for, each laid where it is to stand. */
static void list_by_chance(struct logodwen_packets *list, uint8_t *bytes, size_t room) {
    bool is_added = true;
    logodwen_packets_begin(list, bytes, room);
    while (is_added) {
        uint8_t *next = logodwen_packets_next(list);
        size_t words = request_by_chance(next, logodwen_packets_left(list));
        is_added = logodwen_packets_add(list, any() % 2, any() % 9 == 0 ? any() % 4 : LOGODWEN_BC_WHOLE, next, words);
    }
}

/* A list by chance is answered as its packets are one by one, up to one that would ask a slave. */
static void try_requests(unsigned long turn) {
    enum { ROOM = 40, REPLIES = LOGODWEN_REPLIES_WORDS + 2 * ROOM };
    static struct logodwen_node listed, single;
    static uint8_t replies[2 * REPLIES];
    size_t room = any() % ROOM, at = 0, past = 0;
    uint8_t *row = block_of(room);
    struct logodwen_packets list;
    struct logodwen_packet packet, reply;
    uint32_t link;
    if (turn == 0) {
        start_on(&listed, unwritten, LOGODWEN_FLASH_BYTES, LOGODWEN_CDDC, 2);
        single = listed;
    }
    list_by_chance(&list, row, room);
    uint64_t answered = logodwen_node_requests(&listed, 7, &list, replies, REPLIES);
    for (uint32_t i = 0; i < logodwen_done(answered); i++) {
        at = logodwen_read_packet(row, list.words, at, &link, &packet);
        past = logodwen_read_reply(replies, REPLIES, past, &reply);
        if (at == 0 || past == 0)
            differs("the walk over a list", turn);
        uint64_t alone = logodwen_node_request(&single, 7, link, packet.bc, 0, packet.bytes, packet.words);
        if (strcmp(logodwen_reply_text(alone), logodwen_packet_text(&reply)) != 0 || reply.bc != logodwen_bc(alone)
            || reply.words != logodwen_words(alone) || (reply.words != 0 && memcmp(reply.bytes, single.reply, 2 * reply.words) != 0))
            differs("a reply of a list", turn);
    }
    if (memcmp(listed.state, single.state, sizeof single.state) != 0 || (logodwen_done(answered) == list.count) != (at == list.words))
        differs("what a list leaves", turn);
    if (at != list.words && logodwen_read_packet(row, list.words, at, &link, &packet) != 0
        && logodwen_answer(logodwen_node_request(&single, 7, link, packet.bc, 0, packet.bytes, packet.words)) != LOGODWEN_ASK)
        differs("where a list stops", turn);
    single = listed;
    free(row);
}

/* Files around the longest request, the longest that is read back, and the longest in packets: a full flash takes all up to 32,768 words, a
   bench flash none of these. What it does not take is ABORT, stops where that is answered, and leaves the node. */
static void try_long_writes(size_t flash_len) {
    static const size_t lengths[] = {0, 8191, 8192, 8193, 12286, 12287, 16384, 16385, 32767, 32768, 32769, 40959, 40960};
    static struct logodwen_node node, blank;
    static uint8_t bytes[2 * 40960], packet[LOGODWEN_REQUEST_BYTES];
    start_on(&blank, flashes[1], flash_len, LOGODWEN_CDP, 1);
    for (size_t i = 0; i < sizeof lengths / sizeof *lengths; i++) {
        size_t words = lengths[i], sent, expected = words < 40959 ? words : 40959; /* up to the fifth packet */
        bool is_taken = flash_len == LOGODWEN_FLASH_FULL_BYTES && words != 0 && words <= LOGODWEN_FILE_FULL_WORDS;
        lay_long_file(bytes, 0x42, words);
        start_on(&node, flashes[0], flash_len, LOGODWEN_CDP, 1);
        uint64_t answered = logodwen_node_write(&node, 0, 0, packet, LOGODWEN_REQUEST_WORDS, bytes, words, &sent);
        if (sent != expected || logodwen_words(answered) != 0 || logodwen_bc(answered) != (is_taken ? LOGODWEN_BC_END : LOGODWEN_BC_ABORT)
            || are_alike(&node, &blank) == is_taken)
            differs("a long file", (unsigned long)words);
        if (!is_taken)
            continue;
        try_entries(&node, (unsigned long)words);
        answered = logodwen_node_send(&node, 0, 0, packet, logodwen_make_file_read(packet, 0x42));
        if (words <= LOGODWEN_FILE_READ_WORDS ? logodwen_words(answered) != words + 2 || memcmp(node.reply, bytes, 2 * words) != 0
                                              : logodwen_words(answered) != 0 || logodwen_bc(answered) != LOGODWEN_BC_ABORT)
            differs("a long file that is read", (unsigned long)words);
    }
}

int main(int arguments, char **argument) {
    if (arguments == 1) {
        answer_lines();
        return 0;
    }
    unsigned long turns = arguments == 3 ? strtoul(argument[2], NULL, 10) : 0;
    chance = strtoul(argument[1], NULL, 10);
    for (unsigned long turn = 0; turn < turns; turn++) {
        try_file(turn);
        try_group(turn);
        try_capture(turn);
        try_event(turn);
        try_sequence(turn);
        try_write(turn);
        try_list(turn);
        try_requests(turn);
    }
    try_long_writes(LOGODWEN_FLASH_BYTES);
    try_long_writes(LOGODWEN_FLASH_FULL_BYTES);
    printf("helpers: %lu turns by chance as the model has them\n", turns);
    return 0;
}
