/* An independent node in plain C, written from documents 01 and 02 and not from the proved code: the second hand of the
   differential test, and what `make perf` compares with. Lent runs are bytes, low byte of each word first; lengths are in words. */
#ifndef MODEL_H
#define MODEL_H

#include <stdbool.h>
#include <stddef.h>
#include <stdint.h>

enum { CDP = 1, CDDC = 2 };
enum { NEXT = 0, ERROR = 1, ABORT = 2, END = 3, DATA = 3 }; /* the BC of a reply */
enum { PENDING_NOTHING = 0, PENDING_SLAVE = 1, PENDING_GROUP = 2, PENDING_BUILD = 3 };
enum { TALLY_WHOLE = 5, TALLY_MIXED = 6 }; /* all code 0 with DAT; otherwise */
enum { AREA = 12288, JOIN_AREA = 32768, SLAVES = 24 };
enum { NO_SECTOR = 0, SEVERAL = 1, SECTOR_FIRST = 3, SECTOR_LAST = 10 }; /* what a search finds: none, several, or one of 3 to 10 */
enum { BENCH = 32768, FULL = 262144 }; /* words of a flash */
enum { RECORD_BYTES = 14, MOST_RECORDS = 910 }; /* of the Q-List */

/* A lent run: its bytes, and how many words they are; a PM word is four bytes, any other two. Of the Q-List whole records count. */
struct run {
    uint8_t *bytes;
    size_t words;
};

struct lent {
    struct run flash, pm, dm, io, area, list, events, reply;
};

/* How much of each memory may be lent, and of a slave's reply: 01's table, and less at the C border. */
struct limits {
    size_t pm, dm, io, slave_reply;
};

struct node {
    uint32_t kind, ports, subdetector, mode;
    uint16_t program_version, subdetector_version, start_tests;
    uint16_t amswire_errors, flash_errors;
    uint32_t start_clock, flash_words;
    uint32_t masks[16];
    uint16_t directory[32];
    bool erasing;
    uint32_t sector, done; /* while erasing */
    uint32_t pending, link, slave, asked_at;
    uint32_t asked, from, built, tally; /* of a group; of a build too, but for `from` */
    uint32_t received;                  /* of a reply in packets (02, request 8): words so far, behind the fragment's length word */
    uint16_t rx_status;                 /* of its last packet */
    bool writing;                       /* a File Write in several packets stands (02, request 1) */
    uint32_t writer, joined;            /* its link, and the words joined so far */
    uint16_t listed, turn;              /* entries of the Q-List (02, request 7), and the place whose turn is next */
    uint16_t event, build_errors;       /* the last event's number (02, request 12), and the builds with bit 9 set */
    uint32_t unread;                    /* words of the event that is built and not read, 0 for none */
    uint32_t asks, left_out;            /* of a build: times that the slave has been asked, and the slaves left out so far */
};

/* What came of the slave now being asked: a packet, or nothing in time. */
struct answer {
    bool late, errors;
    unsigned bc, rx_status, rx_address;
    const uint8_t *packet;
    size_t n;
};

/* Words in bytes. */

static inline uint16_t word_at(const uint8_t *bytes, size_t at) { return (uint16_t)(bytes[2 * at] | bytes[2 * at + 1] << 8); }

static inline void put_word(uint8_t *bytes, size_t at, unsigned word) {
    bytes[2 * at] = (uint8_t)word;
    bytes[2 * at + 1] = (uint8_t)(word >> 8);
}

/* Two words from a byte on, the low one first. */

static inline uint32_t long_at(const uint8_t *bytes, size_t at) { return word_at(bytes + at, 0) | (uint32_t)word_at(bytes + at, 1) << 16; }

static inline void put_long(uint8_t *bytes, size_t at, uint32_t value) {
    put_word(bytes + at, 0, value & 0xFFFF);
    put_word(bytes + at, 1, value >> 16);
}

/* The numbers that calls answer. */

static inline uint64_t reply_of(unsigned bc, size_t words) { return 1u << 8 | bc << 16 | (uint64_t)words << 32; }
static inline uint64_t ask_of(unsigned slave, unsigned from) { return 2u << 8 | slave << 16 | from << 24; }
static inline uint64_t waiting(void) { return 3u << 8; }
static inline uint64_t handed(unsigned place) { return 6u << 8 | (uint64_t)place << 32; }
static inline uint64_t nothing(void) { return 7u << 8; }
static inline uint64_t next_of(unsigned slave) { return 8u << 8 | slave << 16; }
static inline uint64_t ask_event_of(unsigned slave) { return 9u << 8 | slave << 16; }
static inline uint64_t no_event(void) { return 10u << 8; }
static inline uint64_t built_of(size_t words) { return 11u << 8 | (uint64_t)words << 32; }

uint16_t model_fcs(const uint8_t *bytes, size_t words);
uint16_t model_fcs_on(uint16_t before, const uint8_t *bytes, size_t words); /* behind words that have an FCS */

/* Files (files.c). */

enum memory { PM, DM, IO };

/* A segment's header words, and where its body stands in the words that it was found in. */
struct segment {
    enum memory memory;
    unsigned length, page, address; /* the page as its two bits */
    size_t body, size;              /* of the body in packet words, FCS included */
};

bool model_segment_header(unsigned first, unsigned second, struct segment *segment);
bool model_segment_at(const uint8_t *words, size_t n, size_t at, struct segment *segment);
bool model_may_start(unsigned header);
size_t model_file_length(const uint8_t *words, size_t n); /* 0 where no valid file starts the words */

/* Flash (flash.c). */

size_t model_sector_start(size_t flash_words, unsigned sector);
size_t model_sector_size(size_t flash_words, unsigned sector);
unsigned model_sector_address(unsigned sector);
void model_lay_entry(uint16_t *directory, unsigned sector, unsigned first, unsigned status, size_t length);
void model_directory(uint16_t *directory, struct run flash);
unsigned model_named(const uint16_t *directory, unsigned header);
size_t model_good_file(const uint16_t *directory, struct run flash, unsigned sector); /* its length, 0 where it is not good, or no sector */
unsigned model_place(const uint16_t *directory, struct run flash, size_t length);
unsigned model_sector_to_erase(const uint16_t *directory, unsigned parameter);
bool model_attribute(unsigned *header, unsigned value);

/* Memories (memory.c). */

bool model_fits(const uint8_t *words, const struct segment *segment, const struct lent *lent);
void model_store(const uint8_t *words, const struct segment *segment, const struct lent *lent);
void model_perform(const uint8_t *words, const struct segment *segment, const struct lent *lent);
bool model_run_is_lent(const struct segment *header, const struct lent *lent);
size_t model_read_size(const struct segment *header);
void model_read(const struct segment *header, const struct lent *lent);

/* The Q-List (qlist.c): entries stand in the lent bytes, the first so many of its records are listed. */

size_t model_records(struct run list);
bool model_list_write(struct run list, uint16_t *listed, const uint8_t *body, size_t n, uint32_t now);
void model_list_clear(struct run list, size_t place);
uint16_t model_list_close_up(struct run list, uint16_t listed); /* answers how many stay listed */
size_t model_list_read(struct run list, uint16_t listed, uint8_t *reply); /* answers how many words it put there */
bool model_list_step(struct run list, size_t place, uint32_t now); /* whether the entry is handed out */

/* Slaves' answers (group.c), in a group and in a build. A judgement is DAT in bit 15 and the code in bits 14-11, as in the status word; or that
   a packet is stored, and the next one sent for; or that the reply is complete, and its words decide. A reply in packets stands in the
   fragment that is to be, from its second word on, but for its last packet. */

enum { MORE = 1, COMPLETE = 2 };
enum { GROUP_KEPT = 2 }; /* words kept free behind a group's fragments: status and FCS */

static inline unsigned with_data(unsigned code) { return 0x8000 | code << 11; }
static inline unsigned without_data(unsigned code) { return code << 11; }

unsigned model_how_many(uint32_t set);
uint32_t model_yet_to_ask(const struct node *node);
void model_ask(struct node *node, uint32_t now, uint32_t set); /* the lowest slave of a set */
bool model_is_late(const struct node *node, uint32_t now);
bool model_has_room(const struct node *node, const struct answer *answer, unsigned kept); /* so many words kept free */
unsigned model_packet_judged(const struct node *node, const struct answer *answer, bool has_room);
bool model_is_sealed(const struct node *node, const struct answer *answer, const uint8_t *fragment); /* a complete reply, by its FCS */
unsigned model_first_word(const struct node *node, const struct answer *answer, const uint8_t *fragment);
unsigned model_tally_with(unsigned tally, unsigned kind); /* it stays while all are of one kind */

/* Puts the data of a code 0 fragment, and answers how many words stand before its status. */
typedef size_t model_put_data(const struct node *node, const struct answer *answer, uint8_t *fragment);

size_t model_put_fragment(const struct node *node, unsigned judgement, const struct answer *answer, uint8_t *fragment,
                          model_put_data *put_its_data); /* answers how many words it has */
uint64_t model_keep_packet(struct node *node, uint32_t now, const struct answer *answer, uint8_t *fragment); /* 60 ticks begin anew */
size_t model_put_end(const struct node *node, unsigned tally, uint8_t *words, size_t n); /* status and FCS: how many words with them */
uint64_t model_group_take(struct node *node, uint32_t now, const struct answer *answer, uint8_t *reply);

/* An event build (event.c), of the slaves of mask 0 in an event area of 12,288 words or more; what it answers is a number as above. */

enum { EVENT_KEPT = 5 }; /* words kept free around the fragments: event number, two mask words, status and FCS */
enum { TALLY_NO_DATA = 1, MOST_ASKS = 3 };

uint64_t model_event_begin(struct node *node, uint32_t now);
uint64_t model_event_take(struct node *node, uint32_t now, const struct answer *answer, uint8_t *events);

/* Of the node (node.c): its status word, and that nothing is pending any more. */

unsigned model_own_status(const struct node *node);
void model_drop(struct node *node);

/* The eight calls (node.c), with the number that they answer. */

uint32_t model_node_start(struct node *node, uint32_t kind, uint32_t ports, uint32_t subdetector, uint16_t program_version,
                          uint16_t subdetector_version, uint16_t start_tests, uint32_t clock, struct run flash);
uint64_t model_node_request(const struct limits *limits, struct node *node, uint32_t now, uint32_t link, uint32_t bc,
                            uint32_t receive_error, const uint8_t *packet, size_t n, const struct lent *lent);
uint64_t model_node_requests(const struct limits *limits, struct node *node, uint32_t now, const uint8_t *packets, size_t n,
                             const struct lent *lent); /* lent the run of the replies as its reply buffer */
uint64_t model_node_reply(const struct limits *limits, struct node *node, uint32_t now, uint32_t slave, uint32_t bc,
                          uint32_t receive_error, uint16_t rx_status, uint16_t rx_address, const uint8_t *packet, size_t n,
                          struct run events, struct run reply);
uint64_t model_node_poll(struct node *node, uint32_t now, struct run events, struct run reply);
uint64_t model_node_build(struct node *node, uint32_t now, struct run events);
uint64_t model_node_erase(struct node *node, uint64_t budget, struct run flash);
uint64_t model_node_slow(struct node *node, uint32_t now, struct run list);

/* The same at the C border (border.c): numbers and bytes, as include/logodwen.h has them. */

uint32_t model_start(uint32_t kind, uint32_t ports, uint32_t subdetector, uint16_t program_version, uint16_t subdetector_version,
                     uint16_t start_tests, uint32_t clock, const uint8_t *flash, size_t flash_len, uint8_t *state,
                     size_t state_len);
uint64_t model_request(uint32_t now, uint32_t link, uint32_t bc, uint32_t receive_error, const uint8_t *packet, size_t packet_len,
                       uint8_t *state, size_t state_len, uint8_t *flash, size_t flash_len, uint8_t *pm, size_t pm_len, uint8_t *dm,
                       size_t dm_len, uint8_t *io, size_t io_len, uint8_t *area, size_t area_len, uint8_t *list, size_t list_len,
                       const uint8_t *events, size_t events_len, uint8_t *reply, size_t reply_len);
uint64_t model_requests(uint32_t now, const uint8_t *packets, size_t packets_len, uint8_t *state, size_t state_len, uint8_t *flash,
                        size_t flash_len, uint8_t *pm, size_t pm_len, uint8_t *dm, size_t dm_len, uint8_t *io, size_t io_len,
                        uint8_t *area, size_t area_len, uint8_t *list, size_t list_len, const uint8_t *events, size_t events_len,
                        uint8_t *replies, size_t replies_len);
uint64_t model_reply(uint32_t now, uint32_t slave, uint32_t bc, uint32_t receive_error, uint16_t rx_status, uint16_t rx_address,
                     const uint8_t *packet, size_t packet_len, uint8_t *state, size_t state_len, uint8_t *events, size_t events_len,
                     uint8_t *reply, size_t reply_len);
uint64_t model_poll(uint32_t now, uint8_t *state, size_t state_len, uint8_t *events, size_t events_len, uint8_t *reply, size_t reply_len);
uint64_t model_build(uint32_t now, uint8_t *state, size_t state_len, const uint8_t *events, size_t events_len);
uint64_t model_erase(uint64_t budget, uint8_t *state, size_t state_len, uint8_t *flash, size_t flash_len);
uint64_t model_slow(uint32_t now, uint8_t *state, size_t state_len, uint8_t *list, size_t list_len);

/* A captured group reply (capture.c), by the number that logodwen_capture answers. */

uint64_t model_capture(uint32_t mask, const uint8_t *words, size_t words_len);

/* Saving what is readable (salvage.c). Of a sector, into one that is blank: the segments kept in the low four bits, above them 1 copied,
   2 reduced, 3 lost. Of a flash, by the number that logodwen_salvage answers. */

unsigned model_salvage_sector(const uint8_t *from, size_t n, uint8_t *to);
uint64_t model_salvage(const uint8_t *first, size_t first_len, uint8_t *second, size_t second_len);

#endif
