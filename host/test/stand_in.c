/* The model in the place of the archive, under the archive's names: for the tests of the C side where no archive can be linked
   (under a sanitizer on Arm), and, with FAULT above 0, for the tests that the differential test and the audit notice a fault. */
#include "../../include/logodwen.h"
#include "../model/model.h"

#include <string.h>

#ifndef FAULT
#define FAULT 0
#endif
enum { NO_FAULT, STALE_DIRECTORY, REFUSED_YET_CHANGED, ODD_BYTE_CLEARED, CLOCK_COMPARED, TALLY_FORGOTTEN };
enum { READ_WRONG = 6, READ_SHORT, READ_UNSEALED, NOTHING_STORED, ALL_ACCEPTED, ALL_REFUSED }; /* of File Read and File Write */
enum { FIRST_JUDGED = 12, HEADER_JOINED, OTHER_LET_IN, JOINED_TOO_MUCH };                      /* of a file in several packets */
enum { MASK_0_EMPTY = 16, ALL_MASKS_FULL, CDP_WITH_SLAVES };                                    /* of the masks at start */
enum { FIRST_OFF = 19, LENGTH_OFF, LENGTH_LEFT };                                               /* of the summary's words */
enum { REMAINS_OVERLOOKED = 22 };                                                               /* of words behind a file */
enum { LOWEST_TAKEN = 23 };                                                                     /* of a name in several sectors */
enum { ALL_READABLE = 24, PLACE_OFF, SEAL_OVERLOOKED, LEFT_OVER_OVERLOOKED, KIND_UNKNOWN, MASK_CUT }; /* of a captured group reply */
enum { OLD_CLOCK = 30, RX_STATUS_LOST };                                                        /* of a slave that is sent NEXT */
enum { DUE_COMPARED = 32, TURN_WAITS, LAST_DUE_LEFT, CLEARED_TURN, HALF_ADDED, TURN_KEPT };     /* of the Q-List */
enum { BARE_REPLIES = 38, LITTLE_ROOM, STOPPED_YET_CHANGED, REFUSED_YET_BEGUN, COUNT_LOW, ASKED_IN_LIST }; /* of a list of requests */
enum { LONG_STORED_WRONG = 44, ABORT_ENDED };                                                   /* of a file that is too long for File Read */
enum { ODD_TAKEN = 46, OTHER_SIZE_TAKEN, FRONT_ALONE, BYTES_SWAPPED, LONG_REFUSED, LENGTH_CUT }; /* of a flash of either size */
enum { ALL_TOUCHED = 52 };                                                                      /* of what a call looks at */
enum { HANDED_TWICE = 53, NUMBER_LOST, LINK_DROPS_BUILD, BUILT_OVER, ERRORS_UNCOUNTED, EVENT_SEALED, NUMBER_NOT_RESET }; /* of events */
enum { SECOND_OVERLOOKED = 60, SECOND_ODD_TAKEN, SECOND_TESTED_FIRST, REFUSED_YET_SAVED, FRONT_COPIED, FIRST_BLANKED, KEPT_SWAPPED }; /* of a salvage */
enum { DIRECTORY_BYTES = 64, ENTRY_WORDS = 4, FIRST = 0, STATUS = 2, LENGTH = 3 };
enum { REPETITIONS = 1, DUE = 10 }; /* in a record: a word, and a byte */

static bool is_own(const uint8_t *packet, size_t packet_len, unsigned id) {
    return packet_len >= 2 && packet[0] == 0x2E && packet[1] == id;
}

/* The reply to a File Read with words, with a fault. One word of the file is wrong, a different one each time, under a right FCS. */
static uint64_t read_with_fault(uint64_t answered, uint8_t *reply) {
    static size_t reads;
    size_t words = logodwen_words(answered);
    if (FAULT == READ_WRONG) {
        reply[2 * (reads++ % (words - 2))] ^= 1;
        logodwen_put(reply, words - 1, logodwen_fcs(reply, words - 1));
    }
    if (FAULT == READ_UNSEALED)
        reply[2 * words - 1] ^= 1;
    return FAULT == READ_SHORT ? answered - ((uint64_t)1 << 32) : answered;
}

/* The reply to a File Write, with a fault. */
static uint64_t write_with_fault(uint64_t answered) {
    if (FAULT != ALL_ACCEPTED && FAULT != ALL_REFUSED)
        return answered;
    return LOGODWEN_REPLY << 8 | (FAULT == ALL_ACCEPTED ? LOGODWEN_BC_END : LOGODWEN_BC_ABORT) << 16;
}

/* The reply to a File Read without words, with a fault. */
static uint64_t no_read_with_fault(uint64_t answered) {
    return FAULT == ABORT_ENDED && logodwen_bc(answered) == LOGODWEN_BC_ABORT ? LOGODWEN_REPLY << 8 | LOGODWEN_BC_END << 16 : answered;
}

/* The flash once a file has come in packets, with a fault: the last word of one that is too long for File Read is another. */
static void stored_with_fault(const uint8_t *directory, uint8_t *flash, size_t flash_len) {
    for (unsigned sector = LOGODWEN_SECTOR_FIRST; FAULT == LONG_STORED_WRONG && sector <= LOGODWEN_SECTOR_LAST; sector++) {
        size_t words = logodwen_get(directory, ENTRY_WORDS * (size_t)(sector - LOGODWEN_SECTOR_FIRST) + LENGTH);
        if (words > LOGODWEN_FILE_READ_WORDS)
            flash[2 * (logodwen_sector_start(flash_len, sector) + words) - 1] ^= 1;
    }
}

/* The state of a write that stands, NULL where none does. */
static uint8_t *standing(uint8_t *state, size_t state_len) {
    return state_len == LOGODWEN_STATE_BYTES && state[LOGODWEN_AT_WRITE] == 1 ? state : NULL;
}

/* The answer NEXT to a first packet, with a fault: it is ABORT where the file's first word can't begin one, or that packet's header
   word counts among the words joined. */
static uint64_t first_with_fault(uint64_t answered, const uint8_t *packet, size_t packet_len, uint8_t *state) {
    struct logodwen_header header;
    if (FAULT == FIRST_JUDGED && packet_len >= 4 && !logodwen_read_header(logodwen_get(packet, 1), &header))
        return LOGODWEN_REPLY << 8 | LOGODWEN_BC_ABORT << 16;
    if (FAULT == HEADER_JOINED)
        logodwen_put_pm(state + LOGODWEN_AT_JOINED, 0, (uint32_t)(packet_len / 2));
    return answered;
}

/* The masks that an accepted start leaves, with a fault. */
static void masks_with_fault(uint32_t kind, uint8_t *state) {
    uint8_t *masks = state + LOGODWEN_AT_MASKS;
    if (FAULT == MASK_0_EMPTY && kind == LOGODWEN_CDDC)
        logodwen_put_pm(masks, 0, 0);
    if (FAULT == CDP_WITH_SLAVES && kind == LOGODWEN_CDP)
        logodwen_put_pm(masks, 0, 0xFFFFFF);
    for (unsigned mask = 1; FAULT == ALL_MASKS_FULL && kind == LOGODWEN_CDDC && mask < LOGODWEN_MASKS; mask++)
        logodwen_put_pm(masks, mask, 0xFFFFFF);
}

/* The directory that an accepted start leaves, with a fault: a sector is good if a file begins it, whatever stands behind that. */
static void remains_with_fault(const uint8_t *flash, size_t flash_len, uint8_t *directory) {
    for (unsigned sector = LOGODWEN_SECTOR_FIRST; FAULT == REMAINS_OVERLOOKED && sector <= LOGODWEN_SECTOR_LAST; sector++) {
        size_t at = ENTRY_WORDS * (size_t)(sector - LOGODWEN_SECTOR_FIRST);
        const uint8_t *words = flash + 2 * logodwen_sector_start(flash_len, sector);
        size_t length = model_file_length(words, logodwen_sector_words(flash_len, sector));
        if (length != 0) {
            logodwen_put(directory, at + STATUS, 0);
            logodwen_put(directory, at + LENGTH, (uint16_t)length);
        }
    }
}

/* The directory that a call leaves, with a fault: a file that is being erased, or was, has its length still. */
static void lengths_with_fault(const uint8_t *before, uint8_t *directory) {
    for (size_t at = LENGTH; FAULT == LENGTH_LEFT && at < DIRECTORY_BYTES / 2; at += ENTRY_WORDS)
        if (logodwen_get(directory, at) == 0)
            logodwen_put(directory, at, logodwen_get(before, at));
}

/* The reply to a Flash Summary, with a fault: it tells another attribute of each good file, or a word more, under a right FCS. */
static void summary_with_fault(uint64_t answered, uint8_t *reply) {
    size_t words = logodwen_words(answered);
    if (FAULT != FIRST_OFF && FAULT != LENGTH_OFF)
        return;
    for (size_t at = 0; at < DIRECTORY_BYTES / 2; at += ENTRY_WORDS) {
        unsigned first = logodwen_get(reply, at + FIRST), length = logodwen_get(reply, at + LENGTH);
        if (length != 0 && FAULT == FIRST_OFF)
            logodwen_put(reply, at + FIRST, (uint16_t)(first ^ 0x1000u));
        if (length != 0 && FAULT == LENGTH_OFF)
            logodwen_put(reply, at + LENGTH, (uint16_t)(length + 1));
    }
    logodwen_put(reply, words - 1, logodwen_fcs(reply, words - 1));
}

/* An Erase by name, with a fault: by the address of the lowest sector that has the name, though several have it. */
static const uint8_t *erase_with_fault(const uint8_t *packet, size_t packet_len, const uint8_t *directory) {
    static uint8_t at_lowest[4];
    struct logodwen_header header;
    if (FAULT != LOWEST_TAKEN || packet_len != sizeof at_lowest || !is_own(packet, packet_len, 0x47) || (packet[2] & 15u) == 0)
        return packet;
    for (unsigned sector = LOGODWEN_SECTOR_FIRST; sector <= LOGODWEN_SECTOR_LAST; sector++)
        if (logodwen_read_header(logodwen_get(directory, ENTRY_WORDS * (size_t)(sector - LOGODWEN_SECTOR_FIRST) + FIRST), &header)
            && header.name == (logodwen_get(packet, 1) >> 4 & 0xFFu)) {
            logodwen_make_erase_start_at(at_lowest, sector);
            return at_lowest;
        }
    return packet;
}

static unsigned listed_in(const uint8_t *state) { return logodwen_get(state + LOGODWEN_AT_LISTED, 0); }

/* What a command on the Q-List leaves, with a fault: an entry that is cleared moves the turn to the first; entries that are not added leave a
   byte; or those that are removed leave the turn. */
static void list_with_fault(uint64_t answered, const uint8_t *packet, size_t packet_len, uint16_t turn, uint8_t *state, uint8_t *list,
                            size_t list_len) {
    bool is_end = logodwen_bc(answered) == LOGODWEN_BC_END, is_abort = logodwen_bc(answered) == LOGODWEN_BC_ABORT;
    bool is_delete = is_own(packet, packet_len, 0x5B) && is_end;
    if (FAULT == CLEARED_TURN && is_delete && packet_len >= 4)
        logodwen_put(state + LOGODWEN_AT_TURN, 0, 0);
    if (FAULT == HALF_ADDED && is_own(packet, packet_len, 0x5C) && is_abort && listed_in(state) < list_len / LOGODWEN_RECORD_BYTES)
        list[LOGODWEN_RECORD_BYTES * listed_in(state)] ^= 1;
    if (FAULT == TURN_KEPT && is_delete && turn < listed_in(state))
        logodwen_put(state + LOGODWEN_AT_TURN, 0, turn);
}

/* How much of a flash a call is lent, with a fault: a byte over is let go, a flash of another size than at start is taken, or of a full one the
   first 65,536 bytes alone; or the bytes of each word of a full one stand the other way round. What is changed for that is changed back
   behind the call. */

static void put_size(uint8_t *state, size_t state_len, size_t flash_len) {
    if (state_len == LOGODWEN_STATE_BYTES)
        logodwen_put_pm(state + LOGODWEN_AT_FLASH_WORDS, 0, (uint32_t)(flash_len / 2));
}

static void swap_bytes(uint8_t *flash, size_t flash_len) {
    for (size_t at = 0; at < flash_len; at += 2) {
        uint8_t low = flash[at];
        flash[at] = flash[at + 1];
        flash[at + 1] = low;
    }
}

static size_t lent_with_fault(uint8_t *state, size_t state_len, uint8_t *flash, size_t flash_len) {
    bool is_full = flash_len == LOGODWEN_FLASH_FULL_BYTES;
    if (FAULT == OTHER_SIZE_TAKEN && logodwen_is_flash_len(flash_len))
        put_size(state, state_len, flash_len);
    if (FAULT == FRONT_ALONE && is_full)
        put_size(state, state_len, LOGODWEN_FLASH_BYTES);
    if (FAULT == BYTES_SWAPPED && is_full)
        swap_bytes(flash, flash_len);
    return FAULT == FRONT_ALONE && is_full ? LOGODWEN_FLASH_BYTES : FAULT == ODD_TAKEN ? flash_len / 2 * 2 : flash_len;
}

static void change_back(uint8_t *state, size_t state_len, uint8_t *flash, size_t flash_len) {
    bool is_full = flash_len == LOGODWEN_FLASH_FULL_BYTES;
    if (FAULT == FRONT_ALONE && is_full)
        put_size(state, state_len, flash_len);
    if (FAULT == BYTES_SWAPPED && is_full)
        swap_bytes(flash, flash_len);
}

/* The directory that a call leaves, with a fault: a length has 15 bits. */
static void cut_with_fault(uint8_t *directory) {
    for (size_t at = LENGTH; FAULT == LENGTH_CUT && at < DIRECTORY_BYTES / 2; at += ENTRY_WORDS)
        logodwen_put(directory, at, logodwen_get(directory, at) & 0x7FFFu);
}

/* The answer to a File Write, with a fault: a file above 4,096 words is ABORT, and nothing of it stored. */
static uint64_t long_with_fault(uint64_t answered, const uint8_t *before, uint8_t *directory, uint8_t *flash, size_t flash_len) {
    for (unsigned sector = LOGODWEN_SECTOR_FIRST; FAULT == LONG_REFUSED && sector <= LOGODWEN_SECTOR_LAST; sector++) {
        size_t at = ENTRY_WORDS * (size_t)(sector - LOGODWEN_SECTOR_FIRST) + LENGTH;
        if (logodwen_get(before, at) != 0 || logodwen_get(directory, at) <= LOGODWEN_FILE_WORDS)
            continue;
        memset(flash + 2 * logodwen_sector_start(flash_len, sector), 0xFF, 2 * logodwen_sector_words(flash_len, sector));
        memcpy(directory, before, DIRECTORY_BYTES);
        return LOGODWEN_REPLY << 8 | LOGODWEN_BC_ABORT << 16;
    }
    return answered;
}

/* What is kept of events, 0 of bytes that are no state's. */

struct kept_of_events {
    uint16_t number, errors;
    uint32_t unread;
};

static struct kept_of_events events_in(const uint8_t *state, size_t state_len) {
    if (state_len != LOGODWEN_STATE_BYTES)
        return (struct kept_of_events){0, 0, 0};
    return (struct kept_of_events){logodwen_get(state + LOGODWEN_AT_EVENT, 0), logodwen_get(state + LOGODWEN_AT_BUILD_ERRORS, 0),
                                   logodwen_get_pm(state + LOGODWEN_AT_UNREAD, 0)};
}

/* The answer to a command on events, with a fault: an event is there still when it has been handed out, has the node's own status word and
   another FCS behind its own, or a reset leaves the number. */
static uint64_t event_with_fault(uint64_t answered, const uint8_t *packet, size_t packet_len, struct kept_of_events before, uint8_t *state,
                                 uint8_t *reply) {
    size_t words = logodwen_words(answered);
    if (FAULT == NUMBER_NOT_RESET && is_own(packet, packet_len, 0x42) && logodwen_bc(answered) == LOGODWEN_BC_END)
        logodwen_put(state + LOGODWEN_AT_EVENT, 0, before.number);
    if (!is_own(packet, packet_len, 0x01) || words == 0)
        return answered;
    if (FAULT == HANDED_TWICE)
        logodwen_put_pm(state + LOGODWEN_AT_UNREAD, 0, before.unread);
    if (FAULT != EVENT_SEALED || words + 2 > LOGODWEN_REPLY_WORDS)
        return answered;
    logodwen_put(reply, words, LOGODWEN_STATUS_OWN);
    logodwen_put(reply, words + 1, logodwen_fcs(reply, words + 1));
    return answered + ((uint64_t)2 << 32);
}

/* A request of no words that drops a build, with a fault: link 0 does, since that is what its state has for a link. */
static bool drops_build(uint32_t link, uint32_t bc, uint32_t receive_error, size_t packet_len, const uint8_t *state, size_t state_len) {
    bool is_drop = link == 0 && (bc & 3) == LOGODWEN_BC_ABORT && receive_error == 0 && packet_len < 2;
    return FAULT == LINK_DROPS_BUILD && is_drop && state_len == LOGODWEN_STATE_BYTES && state[LOGODWEN_AT_PENDING] == 3;
}

/* The state behind a build, with a fault: its number, or its errors, are as they were. */
static void built_with_fault(uint64_t answered, struct kept_of_events before, uint8_t *state) {
    if (logodwen_answer(answered) != LOGODWEN_BUILT)
        return;
    if (FAULT == NUMBER_LOST)
        logodwen_put(state + LOGODWEN_AT_EVENT, 0, before.number);
    if (FAULT == ERRORS_UNCOUNTED)
        logodwen_put(state + LOGODWEN_AT_BUILD_ERRORS, 0, before.errors);
}

/* What a request looks at, with a fault: every sector. */
static void look_with_fault(const uint8_t *flash, size_t flash_len) {
    static volatile uint8_t seen;
    for (size_t at = 0; FAULT == ALL_TOUCHED && at < flash_len; at += LOGODWEN_FLASH_BYTES)
        seen = flash[at];
    (void)seen;
}

uint32_t logodwen6_start(uint32_t kind, uint32_t ports, uint32_t subdetector, uint16_t program_version,
                         uint16_t subdetector_version, uint16_t start_tests, uint32_t clock, const uint8_t *flash, size_t flash_len,
                         uint8_t *state, size_t state_len) {
    uint8_t *changed = (uint8_t *)(uintptr_t)flash; /* and changed back */
    size_t lent = lent_with_fault(state, 0, changed, flash_len);
    uint32_t refusal = model_start(kind, ports, subdetector, program_version, subdetector_version, start_tests, clock, flash,
                                   lent, state, state_len);
    change_back(state, refusal == 0 ? state_len : 0, changed, flash_len);
    if (refusal == 0) {
        cut_with_fault(state + LOGODWEN_AT_DIRECTORY);
        masks_with_fault(kind, state);
        remains_with_fault(flash, flash_len, state + LOGODWEN_AT_DIRECTORY);
    }
    return refusal;
}

uint64_t logodwen6_request(uint32_t now, uint32_t link, uint32_t bc, uint32_t receive_error, const uint8_t *packet,
                           size_t packet_len, uint8_t *state, size_t state_len, uint8_t *flash, size_t flash_len, uint8_t *pm,
                           size_t pm_len, uint8_t *dm, size_t dm_len, uint8_t *io, size_t io_len, uint8_t *area, size_t area_len,
                           uint8_t *list, size_t list_len, const uint8_t *events, size_t events_len, uint8_t *reply, size_t reply_len) {
    static uint8_t spare_state[LOGODWEN_STATE_BYTES], spare_flash[LOGODWEN_FLASH_FULL_BYTES];
    uint8_t before[DIRECTORY_BYTES];
    bool is_write = is_own(packet, packet_len, 0x45), is_read = is_own(packet, packet_len, 0x05);
    bool is_summary = is_own(packet, packet_len, 0x07);
    if (FAULT == NOTHING_STORED && is_write && state_len == sizeof spare_state && flash_len <= sizeof spare_flash) {
        state = memcpy(spare_state, state, state_len);
        flash = memcpy(spare_flash, flash, flash_len);
    }
    const uint8_t *written = standing(state, state_len);
    uint32_t joined = written == NULL ? 0 : logodwen_get_pm(written + LOGODWEN_AT_JOINED, 0);
    uint16_t turn = state_len == LOGODWEN_STATE_BYTES ? logodwen_get(state + LOGODWEN_AT_TURN, 0) : 0;
    if (FAULT == OTHER_LET_IN && written != NULL && packet_len >= 2 && (bc & 2) == 0)
        link = written[LOGODWEN_AT_WRITE_LINK];
    if (state_len == LOGODWEN_STATE_BYTES) {
        memcpy(before, state + LOGODWEN_AT_DIRECTORY, sizeof before);
        packet = erase_with_fault(packet, packet_len, before);
    }
    look_with_fault(flash, flash_len);
    struct kept_of_events kept = events_in(state, state_len);
    bool is_dropped = drops_build(link, bc, receive_error, packet_len, state, state_len);
    size_t lent = lent_with_fault(state, state_len, flash, flash_len);
    uint64_t answered = model_request(now, link, bc, receive_error, packet, packet_len, state, state_len, flash, lent, pm,
                                      pm_len, dm, dm_len, io, io_len, area, area_len, list, list_len, events, events_len, reply,
                                      reply_len);
    change_back(state, state_len, flash, flash_len);
    if (is_dropped && logodwen_refusal(answered) == 0) {
        state[LOGODWEN_AT_PENDING] = 0;
        memset(state + LOGODWEN_AT_LINK, 0, LOGODWEN_AT_MASKS - LOGODWEN_AT_LINK);
        memset(state + LOGODWEN_AT_RECEIVED, 0, LOGODWEN_AT_LISTED - LOGODWEN_AT_RECEIVED);
        memset(state + LOGODWEN_AT_ASKS, 0, LOGODWEN_STATE_BYTES - LOGODWEN_AT_ASKS);
    }
    if (FAULT == ODD_BYTE_CLEARED && logodwen_answer(answered) == LOGODWEN_REPLY && dm_len % 2 == 1)
        dm[dm_len - 1] = 0;
    if (FAULT == JOINED_TOO_MUCH && (bc & 2) == 0 && joined + packet_len / 2 > LOGODWEN_AREA_WORDS &&
        logodwen_refusal(answered) == 0)
        area[LOGODWEN_AREA_BYTES - 1] ^= 1;
    if (state_len == LOGODWEN_STATE_BYTES) {
        lengths_with_fault(before, state + LOGODWEN_AT_DIRECTORY);
        cut_with_fault(state + LOGODWEN_AT_DIRECTORY);
        answered = long_with_fault(answered, before, state + LOGODWEN_AT_DIRECTORY, flash, flash_len);
    }
    list_with_fault(answered, packet, packet_len, turn, state, list, list_len);
    answered = event_with_fault(answered, packet, packet_len, kept, state, reply);
    if (is_summary && logodwen_words(answered) != 0)
        summary_with_fault(answered, reply);
    if (written == NULL && is_write && standing(state, state_len) != NULL)
        return first_with_fault(answered, packet, packet_len, state);
    if (written != NULL && logodwen_bc(answered) == LOGODWEN_BC_END && standing(state, state_len) == NULL)
        stored_with_fault(state + LOGODWEN_AT_DIRECTORY, flash, flash_len);
    if (is_read && logodwen_answer(answered) == LOGODWEN_REPLY)
        return logodwen_words(answered) != 0 ? read_with_fault(answered, reply) : no_read_with_fault(answered);
    return is_write && logodwen_answer(answered) == LOGODWEN_REPLY ? write_with_fault(answered) : answered;
}

/* Whether the packets of a list end where it does. */
static bool is_whole(const uint8_t *packets, size_t words) {
    size_t at = 0;
    while (at < words && words - at >= LOGODWEN_BEFORE_PACKET && words - at - LOGODWEN_BEFORE_PACKET >= logodwen_get(packets, at + 2))
        at += LOGODWEN_BEFORE_PACKET + logodwen_get(packets, at + 2);
    return at == words;
}

/* Lays a reply behind others, as far as there is room; answers how many words it takes. */
static size_t lay_reply(uint64_t answered, const uint8_t *reply, uint8_t *to, size_t room) {
    size_t before = FAULT == BARE_REPLIES ? 0 : LOGODWEN_BEFORE_REPLY, words = logodwen_words(answered), left = room - before;
    if (before != 0) {
        logodwen_put(to, 0, (uint16_t)logodwen_bc(answered));
        logodwen_put(to, 1, (uint16_t)words);
    }
    words = words < left ? words : left;
    memcpy(to + 2 * before, reply, 2 * words);
    return before + words;
}

/* A list, by the model; with a fault, by the requests above one after the other, so that it has theirs too. */
uint64_t logodwen6_requests(uint32_t now, const uint8_t *packets, size_t packets_len, uint8_t *state, size_t state_len, uint8_t *flash,
                            size_t flash_len, uint8_t *pm, size_t pm_len, uint8_t *dm, size_t dm_len, uint8_t *io, size_t io_len,
                            uint8_t *area, size_t area_len, uint8_t *list, size_t list_len, const uint8_t *events, size_t events_len,
                            uint8_t *replies, size_t replies_len) {
    static uint8_t reply[LOGODWEN_REPLY_BYTES], before[LOGODWEN_STATE_BYTES];
    size_t words = packets_len / 2, room = replies_len / 2, laid = 0, done = 0, end = 0;
    size_t least = FAULT == LITTLE_ROOM ? LOGODWEN_REPLY_WORDS : LOGODWEN_REPLIES_WORDS;
    bool is_refused = !is_whole(packets, words), is_state = state_len == sizeof before;
    struct logodwen_packet packet;
    uint32_t link;
    if (FAULT == NO_FAULT)
        return model_requests(now, packets, packets_len, state, state_len, flash, flash_len, pm, pm_len, dm, dm_len, io, io_len, area,
                              area_len, list, list_len, events, events_len, replies, replies_len);
    for (size_t at = 0; (FAULT == REFUSED_YET_BEGUN || !is_refused) && room - laid >= least; end = at, done++) {
        at = logodwen_read_packet(packets, words, at, &link, &packet);
        if (at == 0)
            break;
        memcpy(before, is_state ? state : before, sizeof before);
        uint64_t answered = logodwen6_request(now, link, packet.bc, 0, packet.bytes, 2 * packet.words, state, state_len, flash, flash_len, pm,
                                              pm_len, dm, dm_len, io, io_len, area, area_len, list, list_len, events, events_len, reply,
                                              sizeof reply);
        if (logodwen_answer(answered) == LOGODWEN_ASK && FAULT != ASKED_IN_LIST)
            memcpy(state, before, sizeof before);
        if (logodwen_answer(answered) != LOGODWEN_REPLY)
            break;
        laid += lay_reply(answered, reply, replies + 2 * laid, room - laid);
    }
    if (FAULT == STOPPED_YET_CHANGED && end != words && is_state)
        state[LOGODWEN_AT_AMSWIRE_ERRORS] ^= 1;
    return is_refused ? LOGODWEN_REFUSED_OVERRUN : (uint64_t)done << (FAULT == COUNT_LOW ? 8 : 32);
}

/* The state of a node that has a slave sent NEXT, with a fault: its 60 ticks go on from when it was asked, or the RX status is not kept. */
static void next_with_fault(uint32_t asked_at, uint8_t *state) {
    if (FAULT == OLD_CLOCK)
        logodwen_put_pm(state + LOGODWEN_AT_ASKED_AT, 0, asked_at);
    if (FAULT == RX_STATUS_LOST)
        logodwen_put(state + LOGODWEN_AT_RX_STATUS, 0, 0);
}

uint64_t logodwen6_reply(uint32_t now, uint32_t slave, uint32_t bc, uint32_t receive_error, uint16_t rx_status, uint16_t rx_address,
                         const uint8_t *packet, size_t packet_len, uint8_t *state, size_t state_len, uint8_t *events, size_t events_len,
                         uint8_t *reply, size_t reply_len) {
    struct kept_of_events kept = events_in(state, state_len);
    uint32_t asked_at = state_len == LOGODWEN_STATE_BYTES ? logodwen_get_pm(state + LOGODWEN_AT_ASKED_AT, 0) : 0;
    uint64_t answered = model_reply(now, slave, bc, receive_error, rx_status, rx_address, packet, packet_len, state, state_len, events,
                                    events_len, reply, reply_len);
    if (FAULT == REFUSED_YET_CHANGED && logodwen_refusal(answered) == LOGODWEN_REFUSED_UNASKED)
        state[LOGODWEN_AT_AMSWIRE_ERRORS] ^= 1;
    if (FAULT == TALLY_FORGOTTEN && logodwen_answer(answered) == LOGODWEN_ASK)
        state[LOGODWEN_AT_TALLY] = 6;
    if (logodwen_answer(answered) == LOGODWEN_SEND_NEXT)
        next_with_fault(asked_at, state);
    built_with_fault(answered, kept, state);
    return answered;
}

uint64_t logodwen6_poll(uint32_t now, uint8_t *state, size_t state_len, uint8_t *events, size_t events_len, uint8_t *reply,
                        size_t reply_len) {
    struct kept_of_events kept = events_in(state, state_len);
    if (FAULT == CLOCK_COMPARED && state_len == LOGODWEN_STATE_BYTES && now < logodwen_get_pm(state + LOGODWEN_AT_ASKED_AT, 0))
        now = logodwen_get_pm(state + LOGODWEN_AT_ASKED_AT, 0);
    uint64_t answered = model_poll(now, state, state_len, events, events_len, reply, reply_len);
    built_with_fault(answered, kept, state);
    return answered;
}

/* An event build, with a fault: it begins over an event that is not read. */
uint64_t logodwen6_build(uint32_t now, uint8_t *state, size_t state_len, const uint8_t *events, size_t events_len) {
    struct kept_of_events kept = events_in(state, state_len);
    if (FAULT == BUILT_OVER && 0 < kept.unread && kept.unread <= LOGODWEN_EVENTS_WORDS)
        logodwen_put_pm(state + LOGODWEN_AT_UNREAD, 0, 0);
    uint64_t answered = model_build(now, state, state_len, events, events_len);
    if (FAULT == BUILT_OVER && logodwen_answer(answered) != LOGODWEN_ASK_EVENT && kept.unread != 0)
        logodwen_put_pm(state + LOGODWEN_AT_UNREAD, 0, kept.unread);
    return answered;
}

uint64_t logodwen6_erase(uint64_t budget, uint8_t *state, size_t state_len, uint8_t *flash, size_t flash_len) {
    uint8_t before[DIRECTORY_BYTES];
    if (state_len == LOGODWEN_STATE_BYTES)
        memcpy(before, state + LOGODWEN_AT_DIRECTORY, sizeof before);
    size_t lent = lent_with_fault(state, state_len, flash, flash_len);
    uint64_t answered = model_erase(budget, state, state_len, flash, lent);
    change_back(state, state_len, flash, flash_len);
    if (FAULT == STALE_DIRECTORY && state_len == LOGODWEN_STATE_BYTES)
        memcpy(state + LOGODWEN_AT_DIRECTORY, before, sizeof before);
    if (state_len == LOGODWEN_STATE_BYTES)
        lengths_with_fault(before, state + LOGODWEN_AT_DIRECTORY);
    return answered;
}

/* The record of the entry whose turn it is, NULL where none is lent. */
static uint8_t *in_turn(const uint8_t *state, size_t state_len, uint8_t *list, size_t list_len) {
    if (state_len != LOGODWEN_STATE_BYTES)
        return NULL;
    size_t turn = logodwen_get(state + LOGODWEN_AT_TURN, 0);
    return turn < list_len / LOGODWEN_RECORD_BYTES ? list + LOGODWEN_RECORD_BYTES * turn : NULL;
}

/* The slow-control step, with a fault: times are compared as they stand; the turn waits until its entry is handed out; or an entry that is
   handed out for the last time keeps its due time. */
uint64_t logodwen6_slow(uint32_t now, uint8_t *state, size_t state_len, uint8_t *list, size_t list_len) {
    uint8_t *record = in_turn(state, state_len, list, list_len);
    if (record == NULL)
        return model_slow(now, state, state_len, list, list_len);
    uint32_t due = logodwen_get_pm(record + DUE, 0);
    uint16_t turn = logodwen_get(state + LOGODWEN_AT_TURN, 0);
    if (FAULT == DUE_COMPARED && now < due)
        now = due - 1;
    uint64_t answered = model_slow(now, state, state_len, list, list_len);
    if (FAULT == TURN_WAITS && logodwen_answer(answered) == LOGODWEN_NOTHING)
        logodwen_put(state + LOGODWEN_AT_TURN, 0, turn);
    if (FAULT == LAST_DUE_LEFT && logodwen_answer(answered) == LOGODWEN_HANDED && logodwen_get(record, REPETITIONS) == 0)
        logodwen_put_pm(record + DUE, 0, due);
    return answered;
}

uint16_t logodwen6_fcs(const uint8_t *bytes, size_t len) { return model_fcs(bytes, len / 2); }

/* A salvage that is refused, with a fault: 12 is answered before 1, or the second flash is written all the same. */
static uint64_t refused_with_fault(uint64_t answered, const uint8_t *first, size_t first_len, uint8_t *second, size_t second_len) {
    if (FAULT == SECOND_TESTED_FIRST && second_len != first_len)
        return LOGODWEN_REFUSED_SECOND;
    if (FAULT == REFUSED_YET_SAVED && answered == LOGODWEN_REFUSED_SECOND && second_len == first_len)
        memcpy(second, first, first_len);
    return answered;
}

/* One that is done, with a fault: sectors 0 to 2 go over too, those of the first flash are erased, or the two parts of what is told of a sector
   stand in the other order. */
static uint64_t saved_with_fault(uint64_t answered, const uint8_t *first, size_t len, uint8_t *second) {
    if (FAULT == FRONT_COPIED)
        memcpy(second, first, len / 16);
    if (FAULT == FIRST_BLANKED)
        memset((uint8_t *)(uintptr_t)first, 0xFF, len / 16);
    if (FAULT != KEPT_SWAPPED)
        return answered;
    uint64_t swapped = 0;
    for (unsigned sector = LOGODWEN_SECTOR_FIRST; sector <= LOGODWEN_SECTOR_LAST; sector++) {
        uint64_t told = logodwen_kept(answered, sector) << 2 | logodwen_saved(answered, sector);
        swapped |= told << (8 + 6 * (sector - LOGODWEN_SECTOR_FIRST));
    }
    return swapped;
}

uint64_t logodwen6_salvage(const uint8_t *first, size_t first_len, uint8_t *second, size_t second_len) {
    if (FAULT == SECOND_OVERLOOKED && second_len == first_len && logodwen_is_flash_len(first_len))
        memset(second, 0xFF, second_len);
    uint64_t answered = model_salvage(first, first_len, second, FAULT == SECOND_ODD_TAKEN ? second_len & ~(size_t)1 : second_len);
    if (logodwen_refusal(answered) != LOGODWEN_DONE)
        return refused_with_fault(answered, first, first_len, second, second_len);
    return saved_with_fault(answered, first, first_len, second);
}

/* A captured group reply, with a fault: an FCS is taken for right, whatever it is, or words left over are not looked at. */
static uint64_t capture_with_fault(uint64_t answered, uint32_t mask, const uint8_t *words) {
    static uint8_t resealed[LOGODWEN_REPLY_BYTES];
    size_t place = logodwen_place(answered);
    if (FAULT == LEFT_OVER_OVERLOOKED && model_capture(mask, words, 2 * place) == LOGODWEN_ACCEPTED << 8)
        return LOGODWEN_ACCEPTED << 8;
    if (FAULT != SEAL_OVERLOOKED || place >= LOGODWEN_REPLY_WORDS)
        return answered;
    memcpy(resealed, words, 2 * place);
    logodwen_put(resealed, place, logodwen_fcs(words, place));
    return model_capture(mask, resealed, 2 * place + 2) == LOGODWEN_ACCEPTED << 8 ? LOGODWEN_ACCEPTED << 8 : answered;
}

uint64_t logodwen6_capture(uint32_t mask, const uint8_t *words, size_t words_len) {
    uint64_t answered = model_capture(FAULT == MASK_CUT ? mask & 0xFFFFFFu : mask, words, words_len);
    if (FAULT == ALL_READABLE)
        return LOGODWEN_ACCEPTED << 8;
    if (FAULT == KIND_UNKNOWN)
        return LOGODWEN_ASK << 8;
    if (logodwen_answer(answered) != LOGODWEN_BROKEN)
        return answered;
    return FAULT == PLACE_OFF ? answered + ((uint64_t)1 << 32) : capture_with_fault(answered, mask, words);
}
