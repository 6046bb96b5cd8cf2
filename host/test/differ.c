/* differ SEED COUNT: drives the library and the model over the same calls, and compares what they answer and every byte that they
   leave. It says which call differs, and in what, or how many calls of each kind agreed. */
#include "../../include/logodwen.h"
#include "../model/model.h"
#include "chance.h"

#include <inttypes.h>
#include <limits.h>
#include <stdio.h>
#include <stdlib.h>
#include <string.h>

/* What is lent, twice: to the library and to the model. Guard bytes stand before and behind each run. */

enum { STATE_RUN, FLASH_RUN, PM_RUN, DM_RUN, IO_RUN, AREA_RUN, LIST_RUN, EVENTS_RUN, REPLY_RUN, REPLIES_RUN, RUNS };
enum { GUARD = 16 };
enum { REPLY_ROOM = 12290, REPLIES_BYTES = 2 * (REPLY_ROOM + 8000) }; /* words that a packet of a list has to find; what is lent */
static const char *const run_names[RUNS] = {"state", "flash", "pm", "dm", "io", "area", "list", "events", "reply", "replies"};
static const size_t room[RUNS] = {LOGODWEN_STATE_BYTES + 8, LOGODWEN_FLASH_FULL_BYTES + 8,
                                  LOGODWEN_PM_BYTES + 8,    LOGODWEN_DM_BYTES + 8,
                                  LOGODWEN_IO_BYTES + 8,    LOGODWEN_AREA_BYTES + 8,
                                  LOGODWEN_LIST_BYTES + 2 * LOGODWEN_RECORD_BYTES, LOGODWEN_EVENTS_BYTES + 8,
                                  LOGODWEN_REPLY_BYTES + 8, REPLIES_BYTES + 8};
static uint8_t *library[RUNS], *model[RUNS]; /* two worlds */
static size_t lent_bytes[RUNS];
static size_t flash_bytes; /* of the node now tried: bench size or full size. A call may be lent other lengths */

static const size_t usual_bytes[RUNS] = {LOGODWEN_STATE_BYTES, 0, 0, 0, 0, LOGODWEN_AREA_BYTES, 0, LOGODWEN_EVENTS_BYTES,
                                         LOGODWEN_REPLY_BYTES, REPLIES_BYTES};

static bool is_full(void) { return flash_bytes == LOGODWEN_FLASH_FULL_BYTES; }

static size_t other_size(void) { return is_full() ? LOGODWEN_FLASH_BYTES : LOGODWEN_FLASH_FULL_BYTES; }

/* Where a length of 0 is lent, sometimes as NULL. */
static uint8_t *lend(uint8_t *const *world, int run) { return lent_bytes[run] == 0 ? NULL : world[run]; }

static void put_both(int run, size_t at, uint8_t byte) { library[run][at] = model[run][at] = byte; }

static void put_state_word(size_t at, uint32_t value) {
    put_both(STATE_RUN, at, (uint8_t)value);
    put_both(STATE_RUN, at + 1, (uint8_t)(value >> 8));
}

static void put_state_long(size_t at, uint32_t value) {
    put_state_word(at, value);
    put_state_word(at + 2, value >> 16);
}

/* The call now being made, for what is said of a difference. */

static uint64_t seed;
static unsigned long calls;
static char call_text[256];
static uint64_t answered;                /* the last one */
static unsigned long tallies[8][16][12]; /* by call, by refusal, by answer */
static unsigned long commands[256][3];   /* own commands answered with words, END, ABORT */

enum { NOT_A_BYTE = INT_MIN };

static void differs(const char *what, int at, uint64_t by_library, uint64_t by_model) {
    printf("differ: seed %" PRIu64 ", call %lu: %s: %s", seed, calls, call_text, what);
    if (at != NOT_A_BYTE)
        printf(" byte %d", at);
    printf(" is %" PRIx64 " by the library, %" PRIx64 " by the model\n", by_library, by_model);
    exit(1);
}

/* So many bytes of a run, and the guard bytes before and behind them. */
static void compare_run(int run, size_t bytes) {
    const uint8_t *ours = library[run] - GUARD, *other = model[run] - GUARD;
    if (memcmp(ours, other, bytes + 2 * GUARD) == 0)
        return;
    for (size_t at = 0; at < bytes + 2 * GUARD; at++)
        if (ours[at] != other[at])
            differs(run_names[run], (int)at - GUARD, ours[at], other[at]);
}

/* What is looked at after a call: of the flash as much as the node has or the call was lent, since all of its room takes long. */
static size_t looked_at(int run) {
    return run != FLASH_RUN ? room[run] : lent_bytes[run] > flash_bytes ? lent_bytes[run] : flash_bytes;
}

static void compare(int call, uint64_t by_library, uint64_t by_model, const int *runs) {
    calls++;
    if (by_library != by_model)
        differs("the number answered", NOT_A_BYTE, by_library, by_model);
    for (; *runs >= 0; runs++)
        compare_run(*runs, looked_at(*runs));
    answered = by_model;
    tallies[call][logodwen_refusal(by_model) & 15][logodwen_answer(by_model) % 12]++;
}

static const int start_runs[] = {STATE_RUN, -1}, slave_runs[] = {STATE_RUN, EVENTS_RUN, REPLY_RUN, -1},
                 erase_runs[] = {STATE_RUN, FLASH_RUN, -1}, slow_runs[] = {STATE_RUN, LIST_RUN, -1}, build_runs[] = {STATE_RUN, EVENTS_RUN, -1},
                 request_runs[] = {STATE_RUN, FLASH_RUN, PM_RUN, DM_RUN, IO_RUN, AREA_RUN, LIST_RUN, EVENTS_RUN, REPLY_RUN, -1},
                 series_runs[] = {STATE_RUN, FLASH_RUN, PM_RUN, DM_RUN, IO_RUN, AREA_RUN, LIST_RUN, EVENTS_RUN, REPLIES_RUN, -1};

/* A File Write in several packets that stands, as the state says it, and how many requests of each kind acted on one: by 02,
   request 1, and by what came of it. The last two kinds, which leave it alone, count as none. */

struct standing {
    bool stands, pending;
    uint32_t link, joined, pending_link;
};

static struct standing standing(void) {
    const uint8_t *state = model[STATE_RUN];
    bool is_state = lent_bytes[STATE_RUN] == LOGODWEN_STATE_BYTES;
    return (struct standing){is_state && state[LOGODWEN_AT_WRITE] == 1, state[LOGODWEN_AT_PENDING] != 0,
                             state[LOGODWEN_AT_WRITE_LINK], logodwen_get_pm(state + LOGODWEN_AT_JOINED, 0),
                             state[LOGODWEN_AT_LINK]};
}

enum write_kind {
    JOINS,
    ENDS,
    LAST_ABORTS,
    JOINS_TOO_MUCH,
    BEGINS_ANEW,
    BEGINS_OTHER,
    SENDS_WHOLE,
    DROPS_IT,
    DROPS_BOTH,
    NO_WORDS_KEEP,
    RECEIVED_WRONG,
    TOO_LONG,
    OTHER_FIRST,
    OTHER_FIRST_ERROR,
    OTHER_LATER,
    ACTING,
    OTHER_WHOLE = ACTING,
    REFUSED,
    WRITE_KINDS
};
static const char *const write_names[WRITE_KINDS] = {
    [JOINS] = "middle packet joined",
    [ENDS] = "last packet, END",
    [LAST_ABORTS] = "last packet, ABORT",
    [JOINS_TOO_MUCH] = "joined above 32,768 words",
    [BEGINS_ANEW] = "BC 10 of its link for File Write",
    [BEGINS_OTHER] = "BC 10 of its link for another command",
    [SENDS_WHOLE] = "BC 11 of its link",
    [DROPS_IT] = "dropped by no words",
    [DROPS_BOTH] = "dropped by no words with the request pending",
    [NO_WORDS_KEEP] = "no words, kept",
    [RECEIVED_WRONG] = "receive error",
    [TOO_LONG] = "packet too long",
    [OTHER_FIRST] = "BC 10 of another link for File Write",
    [OTHER_FIRST_ERROR] = "BC 10 of another link, ERROR",
    [OTHER_LATER] = "BC 00 or 01 of another link",
    [OTHER_WHOLE] = "BC 11 of another link",
    [REFUSED] = "refused",
};
static unsigned long writes[WRITE_KINDS], writes_begun, later_without_write;

static enum write_kind write_kind(struct standing was, uint32_t link, unsigned bc, bool error, const uint8_t *words, size_t count,
                                  uint64_t answer) {
    bool own = was.link == link, of_file_write = count > 0 && words[0] == 0x2E && words[1] == 0x45;
    if (logodwen_refusal(answer) != 0)
        return REFUSED;
    if (error)
        return RECEIVED_WRONG;
    if (count == 0)
        return bc != 2 || !own ? NO_WORDS_KEEP : was.pending && was.pending_link == link ? DROPS_BOTH : DROPS_IT;
    if (count > LOGODWEN_REQUEST_WORDS)
        return TOO_LONG;
    if (bc == 3)
        return own ? SENDS_WHOLE : OTHER_WHOLE;
    if (bc == 2)
        return own ? of_file_write ? BEGINS_ANEW : BEGINS_OTHER : of_file_write ? OTHER_FIRST : OTHER_FIRST_ERROR;
    if (!own)
        return OTHER_LATER;
    if (was.joined + count > LOGODWEN_AREA_WORDS)
        return JOINS_TOO_MUCH;
    return bc == 0 ? JOINS : logodwen_bc(answer) == LOGODWEN_BC_END ? ENDS : LAST_ABORTS;
}

static void count_write(struct standing was, uint32_t link, unsigned bc, bool error, const uint8_t *words, size_t count,
                        uint64_t answer) {
    if (was.stands)
        writes[write_kind(was, link, bc, error, words, count, answer)]++;
    else if (bc == 2 && standing().stands)
        writes_begun++;
    else if (bc < 2 && count > 0 && logodwen_refusal(answer) == 0)
        later_without_write++;
}

/* The reply that the asked slave of a group gives, as the state says it, and how many calls of each kind fell in groups that have replies
   in packets (02, request 8), from a group's first packet on. */

struct group {
    bool pending, building; /* a group; or an event build, which has the same of its own */
    uint32_t slave, built, received, room; /* room: how many more words fit */
};

static unsigned slaves_above(uint32_t set, unsigned slave) {
    unsigned count = 0;
    for (set &= ~((2u << slave % 32) - 1); set != 0; set &= set - 1)
        count++;
    return count;
}

static struct group group(void) {
    const uint8_t *state = model[STATE_RUN];
    uint32_t slave = state[LOGODWEN_AT_SLAVE], asked = logodwen_get_pm(state + LOGODWEN_AT_ASKED, 0);
    uint32_t built = logodwen_get_pm(state + LOGODWEN_AT_BUILT, 0), received = logodwen_get_pm(state + LOGODWEN_AT_RECEIVED, 0);
    bool is_state = lent_bytes[STATE_RUN] == LOGODWEN_STATE_BYTES, is_build = state[LOGODWEN_AT_PENDING] == PENDING_BUILD;
    uint64_t taken = (uint64_t)built + received + 5 * slaves_above(asked, slave) + (is_build ? EVENT_KEPT : GROUP_KEPT);
    return (struct group){is_state && state[LOGODWEN_AT_PENDING] == PENDING_GROUP, is_state && is_build, slave, built, received,
                          taken < LOGODWEN_REPLY_WORDS ? (uint32_t)(LOGODWEN_REPLY_WORDS - taken) : 0};
}

enum packet_kind {
    FIRST_STORED,
    FIRST_WITHOUT_ROOM,
    MIDDLE_STORED,
    JOINED_WHOLE,
    LATE_BY_REPLY,
    LATE_BY_POLL,
    EMPTY,
    FIRST_AGAIN,
    WITHOUT_ROOM,
    WRONG_JOINED,
    WITH_ERRORS,
    WAITS,
    IN_ONE,
    GROUP_DROPPED,
    PACKET_KINDS
};
static const char *const packet_names[PACKET_KINDS] = {
    [FIRST_STORED] = "first packet stored",
    [FIRST_WITHOUT_ROOM] = "first packet without room",
    [MIDDLE_STORED] = "middle packet stored",
    [JOINED_WHOLE] = "joined and whole",
    [LATE_BY_REPLY] = "late after NEXT, by a reply",
    [LATE_BY_POLL] = "late after NEXT, by a poll",
    [EMPTY] = "no words after NEXT",
    [FIRST_AGAIN] = "BC1 set on a later packet",
    [WITHOUT_ROOM] = "later packet without room",
    [WRONG_JOINED] = "wrong FCS of the joined reply",
    [WITH_ERRORS] = "receive errors on a later packet",
    [WAITS] = "a poll that waits for a later packet",
    [IN_ONE] = "another slave's answer in one packet",
    [GROUP_DROPPED] = "dropped between packets",
};
static unsigned long in_packets[PACKET_KINDS];
static bool has_packets; /* the group that is pending */

/* What an answer of the asked slave came to, by the status word of the fragment that it left. */
static enum packet_kind packet_kind(struct group was, bool by_poll, uint64_t answer) {
    if (logodwen_answer(answer) == LOGODWEN_SEND_NEXT)
        return was.received == 0 ? FIRST_STORED : MIDDLE_STORED;
    if (logodwen_answer(answer) == LOGODWEN_WAITING)
        return was.received == 0 ? IN_ONE : WAITS;
    const uint8_t *fragment = model[REPLY_RUN] + 2 * (size_t)was.built;
    unsigned code = logodwen_get(fragment, logodwen_get(fragment, 0)) >> 11;
    if (was.received == 0)
        return code == LOGODWEN_CODE_PACKET_NO_ROOM ? FIRST_WITHOUT_ROOM : IN_ONE;
    switch (code) {
    case LOGODWEN_CODE_NEXT_LATE: return by_poll ? LATE_BY_POLL : LATE_BY_REPLY;
    case LOGODWEN_CODE_NEXT_EMPTY: return EMPTY;
    case LOGODWEN_CODE_NEXT_FIRST: return FIRST_AGAIN;
    case LOGODWEN_CODE_PACKET_NO_ROOM: return WITHOUT_ROOM;
    case LOGODWEN_CODE_JOINED_FCS: return WRONG_JOINED;
    case LOGODWEN_CODE_ERRORS: return WITH_ERRORS;
    default: return JOINED_WHOLE;
    }
}

static void count_packet(struct group was, bool by_poll, uint64_t answer) {
    if (logodwen_refusal(answer) != 0 || !was.pending)
        return;
    enum packet_kind kind = packet_kind(was, by_poll, answer);
    has_packets = has_packets || kind != IN_ONE;
    in_packets[kind] += has_packets;
    has_packets = has_packets && group().pending;
}

static void count_dropped(struct group was) {
    if (group().pending)
        return;
    in_packets[GROUP_DROPPED] += was.pending && was.received != 0;
    has_packets = false;
}

static uint8_t packet[2 * 70000]; /* of the call now made */
static size_t packet_bytes;

/* Event builds, as the state says them, and how many calls of each kind fell on one or on its event (02, request 12). */

static uint32_t unread(void) { return logodwen_get_pm(model[STATE_RUN] + LOGODWEN_AT_UNREAD, 0); }

static unsigned next_event(void) { return (logodwen_get(model[STATE_RUN] + LOGODWEN_AT_EVENT, 0) + 1u) & 0xFFFF; }

enum event_kind {
    BEGUN,
    OVER_AN_EVENT,
    NO_SLAVES,
    WHILE_PENDING,
    ASKED_AGAIN,
    LAST_END,
    FRAGMENT_WHOLE,
    FRAGMENT_LEFT_OUT,
    JOINED_FRAGMENT,
    JOINED_LEFT_OUT,
    ANOTHER_NUMBER,
    JOINED_NUMBER,
    FEW_WORDS,
    NO_ROOM_LEFT,
    OTHER_FAULT,
    PACKET_KEPT,
    BUILD_LATE,
    BUILD_WAITS,
    WITHOUT_EVENT,
    BUILT_WHOLE,
    BUILT_WITH_ERRORS,
    KEPT_FROM_LINK,
    EVENT_READ,
    NO_EVENT_READ,
    NUMBER_READ,
    EVENTS_RESET,
    EVENTS_REFUSED,
    EVENT_KINDS
};
static const char *const event_names[EVENT_KINDS] = {
    [BEGUN] = "begun",
    [OVER_AN_EVENT] = "ABORT, an event unread",
    [NO_SLAVES] = "ABORT, no slaves",
    [WHILE_PENDING] = "refused by 6",
    [ASKED_AGAIN] = "asked again",
    [LAST_END] = "the third END",
    [FRAGMENT_WHOLE] = "a reply in one packet, whole",
    [FRAGMENT_LEFT_OUT] = "a reply in one packet, left out",
    [JOINED_FRAGMENT] = "a reply in packets, whole",
    [JOINED_LEFT_OUT] = "a reply in packets, left out",
    [ANOTHER_NUMBER] = "another number",
    [JOINED_NUMBER] = "another number in packets",
    [FEW_WORDS] = "below three words",
    [NO_ROOM_LEFT] = "no room",
    [OTHER_FAULT] = "another answer",
    [PACKET_KEPT] = "a packet stored",
    [BUILD_LATE] = "late",
    [BUILD_WAITS] = "a poll that waits",
    [WITHOUT_EVENT] = "ended without an event",
    [BUILT_WHOLE] = "ended with an event",
    [BUILT_WITH_ERRORS] = "ended with an event that has bit 9",
    [KEPT_FROM_LINK] = "not dropped by a link",
    [EVENT_READ] = "an event read",
    [NO_EVENT_READ] = "no event to read",
    [NUMBER_READ] = "the number read",
    [EVENTS_RESET] = "a reset",
    [EVENTS_REFUSED] = "refused by 11",
};
static unsigned long on_events[EVENT_KINDS];

static void count_begun(uint64_t answer) {
    unsigned refusal = logodwen_refusal(answer);
    on_events[EVENTS_REFUSED] += refusal == LOGODWEN_REFUSED_EVENTS_SIZE;
    on_events[WHILE_PENDING] += refusal == LOGODWEN_REFUSED_BUSY;
    if (refusal == 0)
        on_events[logodwen_answer(answer) == LOGODWEN_ASK_EVENT ? BEGUN : unread() != 0 ? OVER_AN_EVENT : NO_SLAVES]++;
}

/* Whether a build, by what it has kept or by the event that it ended in, has left a slave out. */
static bool is_left_out(uint32_t slave, uint64_t answer) {
    uint32_t set = logodwen_get_pm(model[STATE_RUN] + LOGODWEN_AT_LEFT_OUT, 0);
    if (logodwen_answer(answer) == LOGODWEN_BUILT) {
        const uint8_t *masks = model[EVENTS_RUN] + 2 * (logodwen_words(answer) - (size_t)LOGODWEN_EVENT_TAIL_WORDS);
        set = (uint32_t)logodwen_get(masks, 0) << 16 | logodwen_get(masks, 1);
    }
    return (set >> slave & 1) != 0;
}

/* What an answer of the asked slave came to, by the status word of the fragment that it left. */
static enum event_kind answer_kind(struct group was, uint64_t answer) {
    bool is_joined = was.received != 0;
    if (is_left_out(was.slave, answer))
        return is_joined ? JOINED_LEFT_OUT : FRAGMENT_LEFT_OUT;
    const uint8_t *fragment = model[EVENTS_RUN] + 2 * ((size_t)was.built + 1);
    switch (logodwen_get(fragment, logodwen_get(fragment, 0)) >> 11) {
    case LOGODWEN_CODE_WHOLE: return is_joined ? JOINED_FRAGMENT : FRAGMENT_WHOLE;
    case LOGODWEN_CODE_END: return LAST_END;
    case LOGODWEN_CODE_LATE:
    case LOGODWEN_CODE_NEXT_LATE: return BUILD_LATE;
    case LOGODWEN_CODE_OTHER_NUMBER: return ANOTHER_NUMBER;
    case LOGODWEN_CODE_JOINED_NUMBER: return JOINED_NUMBER;
    case LOGODWEN_CODE_ONE_WORD: return FEW_WORDS;
    case LOGODWEN_CODE_NO_ROOM:
    case LOGODWEN_CODE_PACKET_NO_ROOM: return NO_ROOM_LEFT;
    default: return OTHER_FAULT;
    }
}

static void count_in_build(struct group was, uint64_t answer) {
    unsigned kind = logodwen_answer(answer);
    on_events[EVENTS_REFUSED] += logodwen_refusal(answer) == LOGODWEN_REFUSED_EVENTS_SIZE;
    if (logodwen_refusal(answer) != 0 || !was.building)
        return;
    if (kind == LOGODWEN_WAITING || kind == LOGODWEN_SEND_NEXT)
        on_events[kind == LOGODWEN_WAITING ? BUILD_WAITS : PACKET_KEPT]++;
    else if (kind == LOGODWEN_ASK_EVENT && logodwen_slave(answer) == was.slave)
        on_events[ASKED_AGAIN]++;
    else
        on_events[answer_kind(was, answer)]++;
    on_events[WITHOUT_EVENT] += kind == LOGODWEN_NO_EVENT;
    if (kind == LOGODWEN_BUILT)
        on_events[logodwen_get(model[EVENTS_RUN], logodwen_words(answer) - 2) & LOGODWEN_STATUS_ASSEMBLY ? BUILT_WITH_ERRORS : BUILT_WHOLE]++;
}

/* Of a whole own command that was answered, or of one without words while a build is pending. */
static void count_on_events(struct group was, uint64_t answer) {
    bool is_abort = logodwen_bc(answer) == LOGODWEN_BC_ABORT;
    on_events[EVENTS_REFUSED] += logodwen_refusal(answer) == LOGODWEN_REFUSED_EVENTS_SIZE;
    on_events[KEPT_FROM_LINK] += was.building && packet_bytes < 2 && is_abort;
    if (packet_bytes != 2 || packet[0] != LOGODWEN_TO_OWN || logodwen_answer(answer) != LOGODWEN_REPLY || is_abort)
        return;
    switch (packet[1]) {
    case LOGODWEN_ID_EVENT_READ: on_events[logodwen_words(answer) != 0 ? EVENT_READ : NO_EVENT_READ]++; break;
    case LOGODWEN_ID_EVENT_NUMBER: on_events[NUMBER_READ]++; break;
    case LOGODWEN_ID_EVENT_RESET: on_events[EVENTS_RESET]++; break;
    default: break;
    }
}

/* The Q-List, as the state says it, and how many calls of each kind fell on it (02, request 7). */

enum { ENTRY_WORDS = 5 };

static unsigned listed(void) { return logodwen_get(model[STATE_RUN] + LOGODWEN_AT_LISTED, 0); }

static unsigned records(void) { return (unsigned)(lent_bytes[LIST_RUN] / LOGODWEN_RECORD_BYTES); }

/* The entry whose turn it is, all of it 0 where that is not lent. */
static struct logodwen_record in_turn(void) {
    struct logodwen_record record = {0, 0, 0, 0, 0, 0};
    logodwen_read_record(model[LIST_RUN], records(), logodwen_get(model[STATE_RUN] + LOGODWEN_AT_TURN, 0), &record);
    return record;
}

enum list_kind {
    ADDED,
    FILLED,
    NONE_ADDED,
    NO_PLACE,
    NO_FREQUENCY,
    DELAYED,
    COUNT_WRONG,
    SEGMENT_WRONG,
    CLEARED,
    NO_ENTRY,
    REMOVED,
    NONE_EXPIRED,
    ALL_REMOVED,
    TOO_MANY_PARAMETERS,
    LISTED,
    HANDED,
    HANDED_LAST,
    NOT_DUE,
    EXPIRED,
    NONE_LISTED,
    LIST_REFUSED,
    LIST_KINDS
};
static const char *const list_names[LIST_KINDS] = {
    [ADDED] = "entries added",
    [FILLED] = "entries added up to the last record",
    [NONE_ADDED] = "a write of no entries",
    [NO_PLACE] = "more entries than fit",
    [NO_FREQUENCY] = "an entry of frequency 0",
    [DELAYED] = "a delayed entry",
    [COUNT_WRONG] = "a count that does not match",
    [SEGMENT_WRONG] = "a wrong segment",
    [CLEARED] = "repetitions cleared",
    [NO_ENTRY] = "an unknown entry",
    [REMOVED] = "expired entries removed",
    [NONE_EXPIRED] = "no entry expired",
    [ALL_REMOVED] = "all removed",
    [TOO_MANY_PARAMETERS] = "too many parameters",
    [LISTED] = "read",
    [HANDED] = "handed out",
    [HANDED_LAST] = "handed out for the last time",
    [NOT_DUE] = "a step at an entry that is not due",
    [EXPIRED] = "a step at an expired entry",
    [NONE_LISTED] = "a step with nothing listed",
    [LIST_REFUSED] = "refused by 9",
};
static unsigned long on_list[LIST_KINDS];

/* Why a write was answered ABORT: its words are the header word, two of the segment's, the count, the entries and an FCS. */
static enum list_kind why_not_added(unsigned before) {
    size_t words = packet_bytes / 2, count = words > 3 ? logodwen_get(packet, 3) : 0;
    if (words != 5 + ENTRY_WORDS * count)
        return COUNT_WRONG;
    if (logodwen_get(packet, 1) != (0x4002 + ENTRY_WORDS * count) || logodwen_get(packet, 2) != 0x2000 ||
        logodwen_get(packet, words - 1) != logodwen_fcs(packet + 6, words - 4))
        return SEGMENT_WRONG;
    if (before + count > records())
        return NO_PLACE;
    for (size_t at = 4; at < words - 1; at += ENTRY_WORDS)
        if ((logodwen_get(packet, at) & LOGODWEN_RECORD_FIRST) == 0)
            return DELAYED;
    return NO_FREQUENCY;
}

static enum list_kind deleted_kind(unsigned before, bool is_end) {
    if (packet_bytes / 2 > 2)
        return TOO_MANY_PARAMETERS;
    if (packet_bytes / 2 == 1)
        return listed() < before ? REMOVED : NONE_EXPIRED;
    return !is_end ? NO_ENTRY : logodwen_get(packet, 1) == 0xFFFF ? ALL_REMOVED : CLEARED;
}

/* Counts a whole own command that was answered, if it is one of the list's. */
static void count_command(unsigned before, uint64_t answer) {
    bool is_end = logodwen_bc(answer) == LOGODWEN_BC_END;
    if (packet[1] == LOGODWEN_ID_LIST_WRITE)
        on_list[!is_end ? why_not_added(before) : listed() == before ? NONE_ADDED : listed() == records() ? FILLED : ADDED]++;
    else if (packet[1] == LOGODWEN_ID_LIST_DELETE)
        on_list[deleted_kind(before, is_end)]++;
    else if (packet[1] == LOGODWEN_ID_LIST_READ)
        on_list[logodwen_words(answer) != 0 ? LISTED : TOO_MANY_PARAMETERS]++;
}

static void count_step(struct logodwen_record was, uint64_t answer) {
    if (logodwen_answer(answer) == LOGODWEN_HANDED)
        on_list[was.repetitions == 1 ? HANDED_LAST : HANDED]++;
    else if (logodwen_refusal(answer) == 0)
        on_list[listed() == 0 ? NONE_LISTED : was.repetitions == 0 ? EXPIRED : NOT_DUE]++;
}

/* A list of requests (02, request 9): its packets in a row, and how many calls of each kind had one. */

enum { BEFORE_PACKET = 6, BEFORE_REPLY = 4 }; /* bytes: link, BC and length; BC and length */

static uint8_t series[400000]; /* of the call now made */
static size_t series_bytes, series_last; /* all of it, and where its last packet begins */

enum series_kind {
    NO_PACKETS,
    ALL_DONE,
    STOPS_ASKING,
    STOPS_AT_LINK,
    STOPS_AT_BC,
    STOPS_WITHOUT_ROOM,
    STOPS_WHILE_PENDING,
    STOPS_REFUSED,
    ENDS_IN_FIRST,
    ENDS_IN_LATER,
    SERIES_KINDS
};
static const char *const series_names[SERIES_KINDS] = {
    [NO_PACKETS] = "no packets",
    [ALL_DONE] = "all done",
    [STOPS_ASKING] = "stops at a packet that would ask a slave",
    [STOPS_AT_LINK] = "stops at a link that is no port",
    [STOPS_AT_BC] = "stops at a BC above 3",
    [STOPS_WITHOUT_ROOM] = "stops without room",
    [STOPS_WHILE_PENDING] = "stops while a request is pending",
    [STOPS_REFUSED] = "stops where a size or the state is refused",
    [ENDS_IN_FIRST] = "its first packet runs past its end",
    [ENDS_IN_LATER] = "a later packet runs past its end",
};
static unsigned long in_series[SERIES_KINDS], packets_done;

/* The packet behind so many others. */
static const uint8_t *packet_behind(uint32_t packets) {
    const uint8_t *at = series;
    for (; packets > 0; packets--)
        at += BEFORE_PACKET + 2 * (size_t)logodwen_get(at, 2);
    return at;
}

/* The bytes that so many replies take. */
static size_t bytes_of_replies(uint32_t replies) {
    size_t at = 0;
    for (; replies > 0; replies--)
        at += BEFORE_REPLY + 2 * (size_t)logodwen_get(model[REPLIES_RUN] + at, 1);
    return at;
}

static enum series_kind why_stopped(uint32_t done) {
    const uint8_t *at = packet_behind(done);
    size_t words = logodwen_get(at, 2);
    if (logodwen_get(at, 1) > 3)
        return STOPS_AT_BC;
    if (logodwen_get(at, 0) >= model[STATE_RUN][LOGODWEN_AT_PORTS])
        return STOPS_AT_LINK;
    if ((lent_bytes[REPLIES_RUN] - bytes_of_replies(done)) / 2 < REPLY_ROOM)
        return STOPS_WITHOUT_ROOM;
    if (model[STATE_RUN][LOGODWEN_AT_PENDING] != 0 && words != 0)
        return STOPS_WHILE_PENDING;
    return words == 0 || at[BEFORE_PACKET] == 0x2E ? STOPS_REFUSED : STOPS_ASKING;
}

static enum series_kind series_kind(uint64_t answer) {
    size_t bytes = series_bytes - series_bytes % 2;
    uint32_t done = (uint32_t)(answer >> 32);
    if (logodwen_refusal(answer) != 0)
        return bytes < BEFORE_PACKET || bytes - BEFORE_PACKET < 2 * (size_t)logodwen_get(series, 2) ? ENDS_IN_FIRST : ENDS_IN_LATER;
    if (packet_behind(done) == series + bytes)
        return bytes == 0 ? NO_PACKETS : ALL_DONE;
    return why_stopped(done);
}

/* A flash of either size (02, request 11), and how many calls of each kind fell on a file that no bench flash holds, a long one, or were
   lent another count of bytes than the node was started on. */

enum flash_kind {
    LONG_WRITTEN,
    LONG_READ,
    LONG_NOT_READ,
    LONG_TESTED,
    LONG_LOADED,
    LONG_NOT_LOADED,
    LONG_BAD,
    LONG_SET,
    LONG_NOT_SET,
    LONG_ERASURE,
    LONG_ERASED,
    LONG_ERASED_TO_END,
    LONG_LISTED,
    LONG_KINDS,
    ODD_BYTE = LONG_KINDS,
    OTHER_SIZE,
    NO_SIZE,
    STOPS_A_LIST,
    FLASH_KINDS
};
static const char *const flash_names[FLASH_KINDS] = {
    [LONG_WRITTEN] = "written",
    [LONG_READ] = "read",
    [LONG_NOT_READ] = "too long to read",
    [LONG_TESTED] = "tested",
    [LONG_LOADED] = "loaded",
    [LONG_NOT_LOADED] = "not loaded",
    [LONG_BAD] = "not as the directory has it",
    [LONG_SET] = "attribute set",
    [LONG_NOT_SET] = "attribute not set",
    [LONG_ERASURE] = "erasure begun",
    [LONG_ERASED] = "erased behind word 4,096",
    [LONG_ERASED_TO_END] = "erased to the end",
    [LONG_LISTED] = "written or erased in a list of requests",
    [ODD_BYTE] = "refused for an odd byte",
    [OTHER_SIZE] = "refused for the other size",
    [NO_SIZE] = "refused for a count that is no size",
    [STOPS_A_LIST] = "a list of requests with none done",
};
static unsigned long on_flash[FLASH_KINDS];

static bool is_long(size_t words) { return words > LOGODWEN_FILE_WORDS; }

/* What the state says of a flash before a call. */
struct kept_flash {
    size_t named;        /* the length of the file that the packet names, 0 where none is good */
    unsigned long_files; /* how many there are */
    uint32_t erased, flash_errors;
};

static struct kept_flash kept_flash(void) {
    const uint8_t *state = model[STATE_RUN], *directory = state + LOGODWEN_AT_DIRECTORY;
    unsigned name = packet_bytes < 4 ? 0x100 : logodwen_get(packet, 1) >> 4 & 0xFF;
    struct kept_flash kept = {0, 0, logodwen_get_pm(state + LOGODWEN_AT_ERASED, 0), logodwen_get(state + LOGODWEN_AT_FLASH_ERRORS, 0)};
    for (size_t entry = 0; entry < LOGODWEN_SECTORS; entry++) {
        size_t length = logodwen_get(directory, 4 * entry + 3);
        kept.long_files += is_long(length);
        if (length != 0 && (logodwen_get(directory, 4 * entry) >> 4 & 0xFF) == name)
            kept.named = length;
    }
    return kept;
}

/* Counts a call that is refused for its flash. */
static void count_refused_flash(uint64_t answer) {
    size_t bytes = lent_bytes[FLASH_RUN];
    if (logodwen_refusal(answer) == LOGODWEN_REFUSED_FLASH_SIZE)
        on_flash[bytes % 2 != 0 ? ODD_BYTE : logodwen_is_flash_len(bytes) ? OTHER_SIZE : NO_SIZE]++;
}

/* Counts a whole own command that was answered, if it is on a long file. */
static void count_on_file(struct kept_flash was, uint64_t answer) {
    bool is_end = logodwen_bc(answer) == LOGODWEN_BC_END;
    if (!is_long(was.named))
        return;
    if (kept_flash().flash_errors != was.flash_errors)
        on_flash[LONG_BAD]++;
    else if (packet[1] == LOGODWEN_ID_FILE_READ)
        on_flash[logodwen_words(answer) != 0 ? LONG_READ : LONG_NOT_READ]++;
    else if (packet[1] == LOGODWEN_ID_FILE_TEST)
        on_flash[LONG_TESTED]++;
    else if (packet[1] == LOGODWEN_ID_FILE_LOAD)
        on_flash[is_end ? LONG_LOADED : LONG_NOT_LOADED]++;
    else if (packet[1] == LOGODWEN_ID_ATTRIBUTE_SET)
        on_flash[is_end ? LONG_SET : LONG_NOT_SET]++;
}

/* Counts what a request or a list of them did with long files. */
static void count_long_files(struct kept_flash was, bool is_list) {
    unsigned files = kept_flash().long_files;
    if (files != was.long_files)
        on_flash[is_list ? LONG_LISTED : files > was.long_files ? LONG_WRITTEN : LONG_ERASURE]++;
}

/* Counts erase progress behind what a bench flash's sector has. */
static void count_erased(struct kept_flash was, uint64_t answer) {
    if (is_long(was.erased + logodwen_words(answer)))
        on_flash[model[STATE_RUN][LOGODWEN_AT_ERASING] != 0 ? LONG_ERASED : LONG_ERASED_TO_END]++;
}

/* Calls. */

static uint32_t now;

static uint32_t call_start(uint32_t kind, uint32_t ports, uint32_t subdetector) {
    uint16_t first = (uint16_t)any(), second = (uint16_t)any(), tests = (uint16_t)(one_in(2) ? 0 : any());
    snprintf(call_text, sizeof call_text, "start(kind %u, ports %u, sub-detector %u, tests %04x, flash %zu bytes, state %zu)", kind,
             ports, subdetector, tests, lent_bytes[FLASH_RUN], lent_bytes[STATE_RUN]);
    uint32_t a = logodwen_start(kind, ports, subdetector, first, second, tests, now, lend(library, FLASH_RUN),
                                lent_bytes[FLASH_RUN], lend(library, STATE_RUN), lent_bytes[STATE_RUN]);
    uint32_t b = model_start(kind, ports, subdetector, first, second, tests, now, lend(model, FLASH_RUN), lent_bytes[FLASH_RUN],
                             lend(model, STATE_RUN), lent_bytes[STATE_RUN]);
    compare(0, a, b, start_runs);
    count_refused_flash(b);
    return b;
}

static uint64_t call_request(uint32_t link, uint32_t bc, uint32_t receive_error) {
    snprintf(
        call_text, sizeof call_text,
        "request(now %08x, link %u, bc %u, error %x, packet %zu bytes from %02x%02x, flash %zu, pm %zu, dm %zu, io %zu, area %zu, "
        "list %zu, events %zu, reply %zu)",
        now, link, bc, receive_error, packet_bytes, packet[1], packet[0], lent_bytes[FLASH_RUN], lent_bytes[PM_RUN],
        lent_bytes[DM_RUN], lent_bytes[IO_RUN], lent_bytes[AREA_RUN], lent_bytes[LIST_RUN], lent_bytes[EVENTS_RUN],
        lent_bytes[REPLY_RUN]);
    const uint8_t *words = packet_bytes == 0 ? NULL : packet;
    struct standing was = standing();
    struct group asked = group();
    struct kept_flash had = kept_flash();
    unsigned before = listed();
    uint64_t a =
        logodwen_request(now, link, bc, receive_error, words, packet_bytes, lend(library, STATE_RUN), lent_bytes[STATE_RUN],
                         lend(library, FLASH_RUN), lent_bytes[FLASH_RUN], lend(library, PM_RUN), lent_bytes[PM_RUN],
                         lend(library, DM_RUN), lent_bytes[DM_RUN], lend(library, IO_RUN), lent_bytes[IO_RUN],
                         lend(library, AREA_RUN), lent_bytes[AREA_RUN], lend(library, LIST_RUN), lent_bytes[LIST_RUN],
                         lend(library, EVENTS_RUN), lent_bytes[EVENTS_RUN], lend(library, REPLY_RUN), lent_bytes[REPLY_RUN]);
    uint64_t b = model_request(now, link, bc, receive_error, words, packet_bytes, lend(model, STATE_RUN), lent_bytes[STATE_RUN],
                               lend(model, FLASH_RUN), lent_bytes[FLASH_RUN], lend(model, PM_RUN), lent_bytes[PM_RUN],
                               lend(model, DM_RUN), lent_bytes[DM_RUN], lend(model, IO_RUN), lent_bytes[IO_RUN],
                               lend(model, AREA_RUN), lent_bytes[AREA_RUN], lend(model, LIST_RUN), lent_bytes[LIST_RUN],
                               lend(model, EVENTS_RUN), lent_bytes[EVENTS_RUN], lend(model, REPLY_RUN), lent_bytes[REPLY_RUN]);
    compare(1, a, b, request_runs);
    count_write(was, link, bc & 3, receive_error != 0, words, packet_bytes / 2, b);
    count_dropped(asked);
    count_on_events(asked, b);
    count_refused_flash(b);
    count_long_files(had, false);
    on_list[LIST_REFUSED] += logodwen_refusal(b) == LOGODWEN_REFUSED_LIST_SIZE;
    if (packet_bytes >= 2 && packet[0] == 0x2E && (bc & 3) == 3 && logodwen_refusal(b) == 0 && logodwen_bc(b) != LOGODWEN_BC_ERROR) {
        commands[packet[1]][logodwen_words(b) != 0 ? 0 : logodwen_bc(b) == LOGODWEN_BC_END ? 1 : 2]++;
        count_command(before, b);
        count_on_file(had, b);
    }
    return b;
}

static uint64_t call_requests(void) {
    snprintf(
        call_text, sizeof call_text,
        "requests(now %08x, packets %zu bytes, state %zu, flash %zu, pm %zu, dm %zu, io %zu, area %zu, list %zu, events %zu, replies %zu)",
        now,
        series_bytes, lent_bytes[STATE_RUN], lent_bytes[FLASH_RUN], lent_bytes[PM_RUN], lent_bytes[DM_RUN], lent_bytes[IO_RUN],
        lent_bytes[AREA_RUN], lent_bytes[LIST_RUN], lent_bytes[EVENTS_RUN], lent_bytes[REPLIES_RUN]);
    const uint8_t *packets = series_bytes == 0 ? NULL : series;
    struct group asked = group();
    struct kept_flash had = kept_flash();
    uint64_t a =
        logodwen_requests(now, packets, series_bytes, lend(library, STATE_RUN), lent_bytes[STATE_RUN], lend(library, FLASH_RUN),
                          lent_bytes[FLASH_RUN], lend(library, PM_RUN), lent_bytes[PM_RUN], lend(library, DM_RUN),
                          lent_bytes[DM_RUN], lend(library, IO_RUN), lent_bytes[IO_RUN], lend(library, AREA_RUN),
                          lent_bytes[AREA_RUN], lend(library, LIST_RUN), lent_bytes[LIST_RUN], lend(library, EVENTS_RUN),
                          lent_bytes[EVENTS_RUN], lend(library, REPLIES_RUN), lent_bytes[REPLIES_RUN]);
    uint64_t b = model_requests(now, packets, series_bytes, lend(model, STATE_RUN), lent_bytes[STATE_RUN], lend(model, FLASH_RUN),
                                lent_bytes[FLASH_RUN], lend(model, PM_RUN), lent_bytes[PM_RUN], lend(model, DM_RUN),
                                lent_bytes[DM_RUN], lend(model, IO_RUN), lent_bytes[IO_RUN], lend(model, AREA_RUN),
                                lent_bytes[AREA_RUN], lend(model, LIST_RUN), lent_bytes[LIST_RUN], lend(model, EVENTS_RUN),
                                lent_bytes[EVENTS_RUN], lend(model, REPLIES_RUN), lent_bytes[REPLIES_RUN]);
    compare(6, a, b, series_runs);
    count_dropped(asked);
    count_long_files(had, true);
    on_flash[STOPS_A_LIST] += lent_bytes[FLASH_RUN] != flash_bytes && series_bytes >= BEFORE_PACKET && b == 0;
    in_series[series_kind(b)]++;
    packets_done += b >> 32;
    return b;
}

static uint64_t call_reply(uint32_t slave, uint32_t bc, uint32_t receive_error) {
    uint16_t status = (uint16_t)any(), address = (uint16_t)any();
    snprintf(call_text, sizeof call_text, "reply(now %08x, slave %u, bc %u, error %x, packet %zu bytes, state %zu, events %zu, reply %zu)",
             now, slave, bc, receive_error, packet_bytes, lent_bytes[STATE_RUN], lent_bytes[EVENTS_RUN], lent_bytes[REPLY_RUN]);
    const uint8_t *words = packet_bytes == 0 ? NULL : packet;
    struct group was = group();
    uint64_t a = logodwen_reply(now, slave, bc, receive_error, status, address, words, packet_bytes, lend(library, STATE_RUN),
                                lent_bytes[STATE_RUN], lend(library, EVENTS_RUN), lent_bytes[EVENTS_RUN], lend(library, REPLY_RUN),
                                lent_bytes[REPLY_RUN]);
    uint64_t b = model_reply(now, slave, bc, receive_error, status, address, words, packet_bytes, lend(model, STATE_RUN),
                             lent_bytes[STATE_RUN], lend(model, EVENTS_RUN), lent_bytes[EVENTS_RUN], lend(model, REPLY_RUN),
                             lent_bytes[REPLY_RUN]);
    compare(2, a, b, slave_runs);
    count_packet(was, false, b);
    count_in_build(was, b);
    return b;
}

static uint64_t call_poll(void) {
    snprintf(call_text, sizeof call_text, "poll(now %08x, state %zu, events %zu, reply %zu)", now, lent_bytes[STATE_RUN],
             lent_bytes[EVENTS_RUN], lent_bytes[REPLY_RUN]);
    struct group was = group();
    uint64_t a =
        logodwen_poll(now, lend(library, STATE_RUN), lent_bytes[STATE_RUN], lend(library, EVENTS_RUN), lent_bytes[EVENTS_RUN],
                      lend(library, REPLY_RUN), lent_bytes[REPLY_RUN]);
    uint64_t b = model_poll(now, lend(model, STATE_RUN), lent_bytes[STATE_RUN], lend(model, EVENTS_RUN), lent_bytes[EVENTS_RUN],
                            lend(model, REPLY_RUN), lent_bytes[REPLY_RUN]);
    compare(3, a, b, slave_runs);
    count_packet(was, true, b);
    count_in_build(was, b);
    return b;
}

static uint64_t call_build(void) {
    snprintf(call_text, sizeof call_text, "build(now %08x, state %zu, events %zu)", now, lent_bytes[STATE_RUN], lent_bytes[EVENTS_RUN]);
    uint64_t a = logodwen_build(now, lend(library, STATE_RUN), lent_bytes[STATE_RUN], lend(library, EVENTS_RUN), lent_bytes[EVENTS_RUN]);
    uint64_t b = model_build(now, lend(model, STATE_RUN), lent_bytes[STATE_RUN], lend(model, EVENTS_RUN), lent_bytes[EVENTS_RUN]);
    compare(7, a, b, build_runs);
    count_begun(b);
    return b;
}

static uint64_t call_erase(uint64_t budget) {
    snprintf(call_text, sizeof call_text, "erase(budget %" PRIu64 ", state %zu, flash %zu)", budget, lent_bytes[STATE_RUN],
             lent_bytes[FLASH_RUN]);
    struct kept_flash had = kept_flash();
    uint64_t a =
        logodwen_erase(budget, lend(library, STATE_RUN), lent_bytes[STATE_RUN], lend(library, FLASH_RUN), lent_bytes[FLASH_RUN]);
    uint64_t b = model_erase(budget, lend(model, STATE_RUN), lent_bytes[STATE_RUN], lend(model, FLASH_RUN), lent_bytes[FLASH_RUN]);
    compare(4, a, b, erase_runs);
    count_refused_flash(b);
    count_erased(had, b);
    return b;
}

static uint64_t call_slow(uint32_t at) {
    snprintf(call_text, sizeof call_text, "slow(now %08x, state %zu, list %zu)", at, lent_bytes[STATE_RUN], lent_bytes[LIST_RUN]);
    struct logodwen_record was = in_turn();
    uint64_t a = logodwen_slow(at, lend(library, STATE_RUN), lent_bytes[STATE_RUN], lend(library, LIST_RUN), lent_bytes[LIST_RUN]);
    uint64_t b = model_slow(at, lend(model, STATE_RUN), lent_bytes[STATE_RUN], lend(model, LIST_RUN), lent_bytes[LIST_RUN]);
    compare(5, a, b, slow_runs);
    on_list[LIST_REFUSED] += logodwen_refusal(b) == LOGODWEN_REFUSED_LIST_SIZE;
    count_step(was, b);
    return b;
}

/* Packets. */

static void word(unsigned value) {
    logodwen_put(packet, packet_bytes / 2, (uint16_t)value);
    packet_bytes += 2;
}

static void own(unsigned id) {
    packet_bytes = 0;
    word(id << 8 | 0x2E);
}

static void seal(size_t from) { word(logodwen_fcs(packet + 2 * from, packet_bytes / 2 - from)); }

/* A name that the directory has, mostly; else any. */
static unsigned some_name(void) {
    if (one_in(4))
        return below(256);
    return logodwen_get(model[STATE_RUN] + LOGODWEN_AT_DIRECTORY, 4 * below(8)) >> 4 & 0xFF;
}

static unsigned lent_count(int run, unsigned least) {
    size_t words = lent_bytes[run] / (run == PM_RUN ? 4 : 2);
    return words < least ? least : (unsigned)words;
}

/* A segment of the memory by its two bits, `count` memory words besides the FCS; its run is mostly inside what is lent. Of a long one, which
   has few places, little else is wrong: a long file is to be valid at times, and to be loaded. */
static void put_segment(unsigned bits, unsigned count) {
    unsigned most = lent_count(bits == 0 ? PM_RUN : bits == 1 ? DM_RUN : IO_RUN, 1), spare = most > count ? most - count : 1;
    bool is_long_run = count > 100;
    unsigned address = one_in(is_long_run ? 40 : 12) ? below(0x4000) : below(is_long_run ? spare : most) % 0x2000;
    if (bits == 1 && !one_in(is_long_run ? 40 : 10))
        address = (address + 0x2000) % 0x4000; /* fixed memory stands there */
    static const unsigned pages[] = {0, 2, 3, 0, 2, 3, 0, 1};
    if (bits == 0)
        count |= 1;
    if (bits >= 2)
        count += count % 2;
    word(bits << 14 | (count + 1));
    word(pages[below(is_long_run ? 7 : 8)] << 14 | address);
    size_t body = packet_bytes / 2, size = bits == 0 ? (3 * count + 1) / 2 : count;
    for (size_t i = 0; i < size; i++) {
        uint32_t value = any();
        word(bits >= 2 && i % 2 == 0 && !one_in(is_long_run ? 40000 : 30) ? (value & 1) << 12 | (value >> 1) % most : value & 0xFFFF);
    }
    if (bits == 0)
        packet[packet_bytes - 2] = 0; /* the zero byte */
    seal(body);
}

static void put_file_header(unsigned name, unsigned segments) {
    static const unsigned attributes[] = {3, 3, 3, 2, 1, 0};
    uint32_t type = below(2);
    word(type << 14 | attributes[below(6)] << 12 | name << 4 | segments);
}

static void put_file(unsigned name) {
    unsigned segments = one_in(40) ? 14 : 1 + below(3), most = one_in(6) ? 1500 : 12;
    put_file_header(name, segments);
    for (unsigned i = 0; i < segments; i++)
        put_segment(below(4), 1 + below(segments > 3 ? 100 : most));
}

/* A file of just so many words, hundreds or more: segments of any memory, none above what a host may lend, and one of DM for the rest. */
static void put_long_file(unsigned name, unsigned length) {
    enum { MOST = 8000 };
    size_t header = packet_bytes, end = packet_bytes + 2 * (size_t)length;
    unsigned segments = 1, left = length - 1;
    put_file_header(name, 0);
    for (; left > MOST || (left > 200 && segments < 10 && one_in(3)); segments++) {
        unsigned count = left / 3 < MOST ? left / 3 : MOST;
        put_segment(below(4), count - below(count / 2));
        left = (unsigned)(end - packet_bytes) / 2;
    }
    put_segment(1, left - 3);
    packet[header] |= (uint8_t)segments;
}

/* The words of a long file: around what a bench sector, a packet, File Read and the sectors of a full flash take, or any. */
static unsigned long_length(void) {
    static const unsigned edges[] = {LOGODWEN_FILE_WORDS + 1, LOGODWEN_REQUEST_WORDS - 1, LOGODWEN_FILE_READ_WORDS,
                                     LOGODWEN_FLASH_FULL_WORDS / 16, LOGODWEN_FILE_FULL_WORDS};
    unsigned edge = edges[below(5)];
    return one_in(2) ? edge - 1 + below(3) : LOGODWEN_FILE_WORDS + 1 + below(LOGODWEN_FILE_FULL_WORDS - LOGODWEN_FILE_WORDS);
}

static void flip(uint8_t *bytes, size_t count) {
    uint8_t *byte = bytes + below((uint32_t)count);
    *byte ^= (uint8_t)(1 << below(8));
}

/* One of the ways in which a packet goes wrong. */
static void damage(void) {
    if (packet_bytes < 4)
        return;
    switch (below(6)) {
    case 0: flip(packet + 2, packet_bytes - 2); break;
    case 1: packet_bytes -= 2; break;
    case 2: packet_bytes = below((uint32_t)packet_bytes); break;
    case 3: word(any() & 0xFFFF); break;
    case 4: flip(packet + packet_bytes - 1, 1); break;
    default: packet[packet_bytes++] = (uint8_t)any(); break; /* an unfinished last word */
    }
}

static const unsigned addresses[] = {0x200, 0x400, 0x800, 0xC00, 0x1000, 0x1400, 0x1800, 0x1C00, 0, 0x600, 0x2000, 0x300};

/* A read header of some memory. */
static void put_header(unsigned bits) {
    unsigned most = lent_count(bits == 0 ? PM_RUN : DM_RUN, 4);
    unsigned length = 2 + below(one_in(8) ? 0x3FFE : most < 60 ? most : 60);
    unsigned address = one_in(6) ? below(0x4000) : below(most) / 2;
    if (bits == 0 && !one_in(8))
        length &= ~1u;
    word((one_in(20) ? below(4) : bits) << 14 | length);
    word((one_in(8) ? below(4) : 0) << 14 | ((address + (bits == 1 ? 0x2000 : 0)) & 0x3FFF));
}

/* A parameter that names a file. */
static void put_name(void) {
    unsigned name = some_name();
    word(name << 4 | (any() & 0xF00F));
}

/* A command on a file of that name, or one that looks at every sector. */
static void file_command(unsigned name) {
    static const unsigned ids[] = {0x05, 0x05, 0x06, 0x46, 0x48, 0x47, 0x45, 0x07};
    unsigned id = ids[below(8)];
    own(id);
    if (id == 0x45)
        put_file(one_in(2) ? name : below(256));
    else if (id != 0x07)
        word(name << 4 | (any() & 0xF00F));
    if (id == 0x48)
        word(below(2));
}

/* An entry of a Q-List Write, mostly soon due; a wrong one is delayed, or has frequency 0. */
static void put_entry(bool is_wrong) {
    unsigned header = (any() & 0xFF) | LOGODWEN_RECORD_FIRST, frequency = 1 + below(60);
    if (one_in(5)) { /* of 24 bits */
        header |= 0x100 + 0x100 * below(255);
        frequency = one_in(2) ? 0 : any() & 0xFFFF;
    }
    if (is_wrong && one_in(2)) {
        header &= 0xFF;
        frequency = 0;
    } else if (is_wrong) {
        header &= ~LOGODWEN_RECORD_FIRST;
    }
    word(header);
    word(one_in(8) ? any() & 0xFFFF : below(4));
    word(frequency);
    word(any() & 0xFFFF);
    word(any() & 0xFFFF);
}

/* The segment of a Q-List Write: few entries, or as many as fit, or one more. */
static void put_entries(void) {
    static const unsigned seconds[] = {0x2001, 0x1FFF, 0x0000, 0x6000, 0xA000, 0xE000};
    unsigned before = listed(), left = records() > before ? records() - before : 0;
    unsigned count = one_in(8) && left <= LOGODWEN_LIST_RECORDS ? left + below(2) : one_in(6) ? 0 : 1 + below(4);
    word(0x4002 + ENTRY_WORDS * count);
    word(one_in(20) ? seconds[below(6)] : 0x2000);
    word(one_in(20) ? below(count + 3) : count);
    unsigned wrong = one_in(8) && count > 0 ? below(count) : count;
    for (unsigned i = 0; i < count; i++)
        put_entry(i == wrong);
    seal(3);
}

/* A command on the Q-List, mostly one that changes it. */
static void list_command(void) {
    static const unsigned ids[] = {LOGODWEN_ID_LIST_WRITE, LOGODWEN_ID_LIST_WRITE, LOGODWEN_ID_LIST_DELETE, LOGODWEN_ID_LIST_READ};
    unsigned id = ids[below(listed() == 0 && !one_in(4) ? 2 : 4)];
    own(id);
    if (id == LOGODWEN_ID_LIST_WRITE)
        put_entries();
    else if (id == LOGODWEN_ID_LIST_DELETE && !one_in(3))
        word(one_in(5) ? 0xFFFF : one_in(10) ? any() & 0xFFFF : below(listed() + 1));
    if (id != LOGODWEN_ID_LIST_WRITE && one_in(12))
        word(any() & 0xFFFF);
    if (one_in(20))
        damage();
}

static void own_command(void) {
    static const unsigned ids[] = {0x0C, 0x0D, 0x05, 0x05, 0x45, 0x45, 0x45, 0x06, 0x46, 0x46, 0x07, 0x47,
                                   0x48, 0x48, 0x0F, 0x10, 0x50, 0x11, 0x51, 0x12, 0x52, 0x17, 0x57, 0x57,
                                   0x01, 0x01, 0x02, 0x42};
    unsigned id = one_in(50) ? below(256) : ids[below(sizeof ids / sizeof *ids)];
    own(id);
    switch (id) {
    case 0x0D:
        for (unsigned left = one_in(30) ? 7990 + below(20) : below(20); left > 0; left--)
            word(any() & 0xFFFF);
        break;
    case 0x05:
    case 0x06:
    case 0x46: put_name(); break;
    case 0x45: put_file(one_in(8) ? some_name() : below(256)); break;
    case 0x47:
        if (one_in(2))
            word(addresses[below(12)]);
        else
            put_name();
        break;
    case 0x48:
        put_name();
        word(one_in(10) ? any() & 0xFFFF : below(2));
        break;
    case 0x0F: put_segment(2 + below(2), 1 + below(20)); break;
    case 0x50: put_segment(0, 1 + below(20)); break;
    case 0x51: put_segment(1, 1 + below(20)); break;
    case 0x10: put_header(0); break;
    case 0x11: put_header(1); break;
    case 0x52: word(one_in(6) ? any() & 0xFFFF : below(4)); break;
    case 0x01:
    case 0x02:
    case 0x42:
        if (one_in(8))
            word(any() & 0xFFFF);
        break;
    case 0x57:
        word(below(one_in(20) ? 0x2000 : 0x1000));
        word(one_in(3) ? 1u << below(16) : any() & 0xFFFF);
        break;
    default: break;
    }
}

static void forwarded_request(void) {
    static const unsigned ports[] = {0x04, 0x05, 0x3F, 0x04, 0x05, 0x3F, 0x00};
    unsigned first;
    packet_bytes = 0;
    switch (below(4)) {
    case 0:
        first = ports[below(7)] << 8;
        word(first | below(25));
        break;
    case 1: word(below(18) << 8 | 0x40); break;
    case 2:
        word((one_in(2) ? 1u << below(8) : below(256)) << 8 | 0x23);
        word(one_in(2) ? 1u << below(16) : one_in(2) ? 0 : any() & 0xFFFF);
        break;
    default: word(below(256) << 8 | 0x2A); break;
    }
    for (unsigned left = below(4); left > 0; left--)
        word(any() & 0xFFFF);
}

static void any_packet(void) {
    packet_bytes = 0;
    uint32_t bytes = one_in(40) ? 16380 + below(10) : below(12);
    for (uint32_t i = 0; i < bytes; i++)
        packet[packet_bytes++] = (uint8_t)any();
    if (bytes > 0 && one_in(2)) {
        static const uint8_t firsts[] = {0x2E, 0x2A, 0x40, 0x23, 0x17, 0x18, 0x00};
        packet[0] = firsts[below(7)];
    }
}

/* Steps. */

static unsigned pending(void) { return model[STATE_RUN][LOGODWEN_AT_PENDING]; }

static void step_request(void) {
    uint32_t ports = model[STATE_RUN][LOGODWEN_AT_PORTS], link = one_in(25) ? wild() : below(ports == 0 ? 1 : ports);
    if (one_in(6))
        forwarded_request();
    else if (one_in(20))
        any_packet();
    else if (one_in(12))
        list_command();
    else
        own_command();
    if (one_in(12))
        damage();
    if (one_in(50))
        packet_bytes = 0;
    if (pending() != 0 && one_in(2)) {
        packet_bytes = below(2);
        link = one_in(3) ? link : model[STATE_RUN][LOGODWEN_AT_LINK];
    }
    uint32_t bc = packet_bytes < 2 && one_in(2) ? (one_in(8) ? 6 : 2) : one_in(30) ? wild() : 3;
    call_request(link, bc, one_in(30) ? wild() : 0);
}

/* The file that comes in several packets, and how many words of it have been sent. It knows nothing of what became of them. */
static uint8_t image[sizeof packet];
static size_t image_words, image_sent;

/* What stands behind the header word of the packet is the image. */
static void take_image(void) {
    image_words = packet_bytes < 2 ? 0 : packet_bytes / 2 - 1;
    image_sent = 0;
    memcpy(image, packet + 2, 2 * image_words);
}

static void new_image(void) {
    own(0x45);
    if (one_in(12)) /* up to the most words that are joined, and above */
        for (unsigned left = one_in(3) ? LOGODWEN_AREA_WORDS - 2 + below(5) : 5000 + below(30000); left > 0; left--)
            word(any() & 0xFFFF);
    else if (is_full() && one_in(3))
        put_long_file(below(256), long_length());
    else
        put_file(one_in(8) ? some_name() : below(256));
    if (one_in(10))
        damage();
    take_image();
}

/* Puts so many more words of the image behind what the packet has, or as many as it takes or are left, and answers whether all of it is sent
   then. */
static bool put_words(size_t count) {
    size_t left = image_words - image_sent, most = LOGODWEN_REQUEST_WORDS - packet_bytes / 2;
    if (count > most)
        count = most;
    if (count > left)
        count = left;
    memcpy(packet + packet_bytes, image + 2 * image_sent, 2 * count);
    packet_bytes += 2 * count;
    image_sent += count;
    return image_sent == image_words;
}

/* The same of some words. If all were sent before, any words follow. */
static bool put_piece(void) {
    size_t left = image_words - image_sent, most = LOGODWEN_REQUEST_WORDS - packet_bytes / 2;
    size_t count = one_in(3) ? 1 + below(5) : one_in(2) ? most - below(3) : 1 + below((uint32_t)left + 1);
    if (left == 0)
        for (unsigned i = 1 + below(4); i > 0; i--)
            word(any() & 0xFFFF);
    return put_words(count);
}

/* A first packet; at times its header word is all that it has, or has a wrong bit. */
static void put_first(void) {
    own(0x45);
    if (!one_in(6))
        put_piece();
    if (one_in(15))
        flip(packet, 2);
}

/* A link below the ports that isn't that one, where there is one. */
static uint32_t other_link(uint32_t link) {
    uint32_t ports = model[STATE_RUN][LOGODWEN_AT_PORTS];
    return ports < 2 ? link + 1 : (link + 1 + below(ports - 1)) % ports;
}

static void step_first_packet(void) {
    uint32_t ports = model[STATE_RUN][LOGODWEN_AT_PORTS], link = below(ports == 0 ? 1 : ports);
    new_image();
    put_first();
    uint32_t bc = one_in(20) ? below(4) : one_in(10) ? wild() << 2 | 2 : 2;
    call_request(link, bc, one_in(60) ? wild() : 0);
}

static void step_next_packet(uint32_t link) {
    packet_bytes = 0;
    bool over = put_piece();
    uint32_t bc = over ? !one_in(8) : one_in(20), high = one_in(10) ? wild() << 2 : 0;
    if (one_in(20))
        packet[packet_bytes++] = (uint8_t)any(); /* an unfinished last word */
    call_request(link, high | bc, 0);
}

/* A packet while a write stands: most go on with it, the others are what 02 has a rule for. If none stands, one begins, mostly. */
static void step_write(void) {
    struct standing was = standing();
    if (!was.stands && !one_in(12)) {
        step_first_packet();
        return;
    }
    uint32_t other = other_link(was.link), either = one_in(2) ? was.link : other, bc = below(4);
    switch (was.pending && one_in(2) ? 0 : below(28)) { /* with a request pending, words are refused */
    case 0:
    case 1:
        packet_bytes = below(2);
        bc = one_in(was.pending ? 5 : 2) ? bc : 2;
        call_request(either, bc, one_in(6) ? wild() : 0);
        break;
    case 2:
        any_packet();
        call_request(was.link, bc, 1 + wild() % 0xFFFF);
        break;
    case 3:
        own(0x45);
        for (unsigned left = LOGODWEN_REQUEST_WORDS + below(3); left > 0; left--)
            word(any() & 0xFFFF);
        call_request(either, bc, 0);
        break;
    case 4:
        put_first();
        call_request(was.link, 2, 0);
        break;
    case 5:
        own_command();
        call_request(was.link, one_in(2) ? 2 : 3, 0);
        break;
    case 6:
    case 7:
        put_first();
        call_request(other, 2, 0);
        break;
    case 8:
        own_command();
        call_request(other, 2, 0);
        break;
    case 9:
    case 10:
        packet_bytes = 0;
        put_piece();
        call_request(other, below(2), 0);
        break;
    case 11:
    case 12:
    case 13:
        own_command();
        call_request(other, 3, 0);
        break;
    case 14:
        if (was.stands)
            put_state_long(LOGODWEN_AT_JOINED, LOGODWEN_AREA_WORDS - below(one_in(2) ? 6 : LOGODWEN_REQUEST_WORDS));
        step_next_packet(was.link);
        break;
    default: step_next_packet(was.link); break;
    }
}

/* Lists of requests. */

static void put_series_word(unsigned value) {
    logodwen_put(series + series_bytes, 0, (uint16_t)value);
    series_bytes += 2;
}

/* The packet made last joins the list, where it has room. */
static void add_packet(uint32_t link, uint32_t bc) {
    size_t words = packet_bytes / 2;
    if (words > 0xFFFF || series_bytes + BEFORE_PACKET + 2 * words > sizeof series - 8) /* what breaks a list adds a few bytes */
        return;
    series_last = series_bytes;
    put_series_word(link);
    put_series_word(bc);
    put_series_word((unsigned)words);
    memcpy(series + series_bytes, packet, 2 * words);
    series_bytes += 2 * words;
}

/* A link, mostly not that of a write that stands, which would break it off. */
static uint32_t some_link(void) {
    struct standing was = standing();
    uint32_t ports = model[STATE_RUN][LOGODWEN_AT_PORTS];
    return was.stands && ports > 1 && !one_in(10) ? other_link(was.link) : below(ports == 0 ? 1 : ports);
}

/* A packet of any kind, mostly of an own command. */
static void add_some(void) {
    uint32_t link = one_in(60) ? wild() : some_link(), bc = one_in(60) ? wild() : one_in(25) ? below(4) : 3;
    if (one_in(40))
        forwarded_request();
    else if (one_in(25))
        any_packet();
    else if (one_in(8))
        list_command();
    else
        own_command();
    if (one_in(15))
        damage();
    if (one_in(pending() != 0 ? 2 : 20)) { /* with a request pending, words stop the list */
        packet_bytes = 0;
        bc = one_in(4) ? 3 : 2;
    }
    add_packet(link, bc);
}

/* A file, and commands on it behind. */
static void add_file(uint32_t link) {
    unsigned name = below(256);
    own(0x45);
    put_file(name);
    add_packet(link, 3);
    for (unsigned left = 1 + below(3); left > 0; left--) {
        file_command(name);
        add_packet(link, 3);
    }
}

/* A file in several packets, mostly all of it, with those of other links between. */
static void add_file_in_packets(uint32_t link) {
    new_image();
    put_first();
    add_packet(link, 2);
    for (bool over = false; !over && !one_in(8);) {
        packet_bytes = 0;
        over = put_piece();
        add_packet(link, over);
        if (one_in(4)) {
            own_command();
            add_packet(other_link(link), 3);
        }
    }
    if (image_sent == image_words && image_words != 0 && one_in(2)) {
        file_command(logodwen_get(image, 0) >> 4 & 0xFF);
        add_packet(link, 3);
    }
}

/* One of the ways in which a list runs past its end: a word or two left over, a length too large, an end that comes too soon. */
static void break_series(void) {
    unsigned length = series_bytes == 0 ? 0 : logodwen_get(series + series_last, 2);
    unsigned way = below(4);
    if (way == 0 || series_bytes == 0)
        for (unsigned left = 1 + below(2); left > 0; left--)
            put_series_word(any() & 0xFFFF);
    else if (way == 1)
        logodwen_put(series + series_last, 2, (uint16_t)(length + 1));
    else if (way == 2)
        logodwen_put(series + series_last, 2, (uint16_t)(one_in(2) ? 0xFFFF : any()));
    else
        series_bytes = below((uint32_t)series_bytes);
}

/* Just the room that a packet has to find, or a word less or more; for a few replies more; or any. */
static size_t few_bytes_for_replies(void) {
    unsigned odd = below(2);
    return one_in(8) ? below((uint32_t)room[REPLIES_RUN]) : odd + 2 * (one_in(2) ? REPLY_ROOM - 1 + below(3) : REPLY_ROOM + below(300));
}

static void step_series(void) {
    size_t before = lent_bytes[REPLIES_RUN];
    series_bytes = series_last = 0;
    for (unsigned left = below(one_in(3) ? 21 : 6); left > 0; left--)
        one_in(12) ? add_file(some_link()) : one_in(is_full() ? 5 : 12) ? add_file_in_packets(some_link()) : add_some();
    if (one_in(8))
        break_series();
    if (one_in(8))
        series[series_bytes++] = (uint8_t)any(); /* an unfinished last word */
    if (one_in(3))
        lent_bytes[REPLIES_RUN] = few_bytes_for_replies();
    call_requests();
    lent_bytes[REPLIES_RUN] = before;
}

/* What a slave says: nothing, or words that end with their FCS. */
static void slave_words(void) {
    packet_bytes = 0;
    if (one_in(3))
        return;
    unsigned count = one_in(30) ? 12270 + below(30) : one_in(100) ? 32760 + below(10) : one_in(4) ? below(600) : below(12);
    for (unsigned i = 0; i < count; i++)
        word(any() & 0xFFFF);
    seal(0);
    if (one_in(8))
        damage();
}

static void step_reply(void) {
    slave_words();
    uint32_t slave = one_in(25) ? wild() : model[STATE_RUN][LOGODWEN_AT_SLAVE];
    uint32_t bc = one_in(4) ? wild() : 3;
    call_reply(slave, bc, one_in(20) ? wild() : 0);
}

/* Puts the FCS of a reply in packets behind its last words: of those that stand in the buffer, or in the event area, and of the packet's. */
static void seal_joined(struct group was) {
    static uint8_t joined[sizeof packet];
    size_t before = 2 * (size_t)was.received;
    if (was.built >= LOGODWEN_REPLY_WORDS || was.received >= LOGODWEN_REPLY_WORDS - was.built)
        return;
    memcpy(joined, model[was.building ? EVENTS_RUN : REPLY_RUN] + 2 * ((size_t)was.built + 1 + was.building), before);
    memcpy(joined + before, packet, packet_bytes);
    word(logodwen_fcs(joined, (before + packet_bytes) / 2));
}

/* What stands in the packet, from the asked slave with a BC: at times damaged, empty, with another BC, late or with receive errors. */
static void give_packet(uint32_t slave, uint32_t bc) {
    uint32_t high = one_in(8) ? wild() << 2 : 0;
    if (one_in(12))
        damage();
    if (one_in(12))
        packet_bytes = below(2);
    if (one_in(12))
        bc = below(4);
    if (one_in(12))
        now += one_in(2) ? 58 + below(4) : wild();
    call_reply(one_in(40) ? wild() : slave, high | bc, one_in(16) ? wild() : 0);
}

/* A packet of a reply in packets, first, middle or last, as it should be in most cases. */
static void step_packet(void) {
    struct group was = group();
    bool is_last = was.received != 0 && one_in(3);
    unsigned count = one_in(25) ? was.room + below(3) : one_in(6) ? 1 + below(300) : one_in(3) ? 1 : 1 + below(8);
    packet_bytes = 0;
    for (unsigned i = is_last; i < count; i++)
        word(any() & 0xFFFF);
    if (is_last)
        seal_joined(was);
    give_packet(was.slave, was.received == 0 ? 2 : is_last);
}

/* What the asked slave of a build answers: END, a reply in one packet or in several, now and then one that is left out, as they should be in most
   cases. */
static void step_event(void) {
    struct group was = group();
    bool is_first = was.received == 0, is_last = is_first ? !one_in(4) : one_in(3);
    unsigned count = one_in(25) ? was.room + below(3) : one_in(6) ? 1 + below(300) : 2 + below(8);
    packet_bytes = 0;
    if (one_in(3)) { /* three words in all */
        count = is_last || !is_first ? 3 - was.received % 3 : 1 + below(2);
        is_last = is_last || !is_first;
    }
    if (is_first && one_in(5)) {
        call_reply(was.slave, LOGODWEN_BC_END, one_in(20) ? wild() : 0);
        return;
    }
    for (unsigned i = is_last; i < count; i++)
        word(is_first && i == is_last ? one_in(10) ? next_event() + (one_in(2) ? 1 : any()) : next_event() : any() & 0xFFFF);
    if (is_last)
        seal_joined(was);
    give_packet(was.slave, (is_first ? 2 : 0) | is_last);
}

/* A command on events, from a link that doesn't drop the write that stands. */
static void step_event_command(unsigned id) {
    struct standing was = standing();
    own(id);
    call_request(was.stands ? other_link(was.link) : 0, 3, 0);
}

/* An event area that is just too short, or not, for a call whose link or slave may be none, or whose Q-List is too long. */
static void step_short_events(void) {
    size_t usual = lent_bytes[EVENTS_RUN], usual_list = lent_bytes[LIST_RUN];
    lent_bytes[EVENTS_RUN] = LOGODWEN_EVENTS_BYTES - 3 + below(4);
    if (one_in(4))
        lent_bytes[LIST_RUN] = LOGODWEN_LIST_BYTES + LOGODWEN_RECORD_BYTES;
    own(LOGODWEN_ID_EVENT_READ);
    one_in(3) ? (void)call_build() : one_in(2) ? (void)call_reply(22 + below(4), wild(), 0) : (void)call_request(below(6), LOGODWEN_BC_WHOLE, 0);
    lent_bytes[EVENTS_RUN] = usual;
    lent_bytes[LIST_RUN] = usual_list;
}

/* A build, mostly with few slaves and with the event before read; and what is asked meanwhile. */
static void step_build(void) {
    struct standing was = standing();
    if (one_in(10))
        step_short_events();
    uint32_t set = one_in(8) ? 0 : one_in(30) ? 0xFFFFFF : 1u << below(24) | (any() & any() & any() & any() & 0xFFFFFF);
    if (unread() != 0 && !one_in(4))
        step_event_command(one_in(8) ? LOGODWEN_ID_EVENT_RESET : LOGODWEN_ID_EVENT_READ);
    if (!one_in(12)) {
        own(LOGODWEN_ID_MASK_WRITE);
        word(set >> 16);
        word(set & 0xFFFF);
        call_request(was.stands ? other_link(was.link) : 0, 3, 0);
    }
    if (model[STATE_RUN][LOGODWEN_AT_KIND] == LOGODWEN_CDP && one_in(2)) /* no command gives it slaves */
        put_state_long(LOGODWEN_AT_MASKS, set);
    if (one_in(5)) { /* the number goes round, and the errors stop */
        put_state_word(LOGODWEN_AT_EVENT, 0xFFFE + below(2));
        put_state_word(LOGODWEN_AT_BUILD_ERRORS, 0xFFFE + below(2));
    }
    call_build();
    if (one_in(10))
        call_build();
    if (one_in(6)) {
        packet_bytes = below(2);
        call_request(one_in(4) ? below(4) : 0, 2, 0);
    }
}

/* Words received of a reply in packets, as many as have room, or one more, or any number, and an RX status. */
static void put_received(bool is_group) {
    put_state_long(LOGODWEN_AT_RECEIVED, 0);
    uint32_t room = group().room, received = one_in(3) ? 0 : one_in(2) ? room + below(2) : one_in(4) ? wild() : below(room + 1);
    put_state_long(LOGODWEN_AT_RECEIVED, is_group ? received : 0);
    put_state_word(LOGODWEN_AT_RX_STATUS, is_group && (received != 0 || one_in(8)) ? any() : 0);
}

/* A reply under way that no packets led to; back to where it was if that is refused. */
static void step_received(void) {
    uint8_t before[LOGODWEN_STATE_BYTES];
    memcpy(before, model[STATE_RUN], sizeof before);
    put_received(true);
    one_in(2) ? (void)call_poll() : step_packet();
    for (size_t at = LOGODWEN_AT_RECEIVED; logodwen_refusal(answered) != 0 && at < sizeof before; at++)
        put_both(STATE_RUN, at, before[at]);
}

static void step_slave(void) {
    if (one_in(pending() == PENDING_SLAVE ? 8 : 60))
        call_build();
    if (pending() >= PENDING_GROUP && one_in(30)) {
        step_received();
        return;
    }
    if (pending() == PENDING_BUILD && !one_in(8)) {
        one_in(16) ? (void)call_poll() : step_event();
        return;
    }
    if (pending() == 2 && !one_in(5)) {
        one_in(16) ? (void)call_poll() : step_packet();
        return;
    }
    if (one_in(6))
        now += one_in(2) ? 58 + below(4) : wild();
    if (one_in(3))
        call_poll();
    else
        step_reply();
}

/* A request to a group of a few slaves, while none is pending. */
static void step_group(void) {
    uint32_t ports = model[STATE_RUN][LOGODWEN_AT_PORTS], set = 1u << below(24) | (any() & any() & (one_in(4) ? 0xFFFFFF : any()));
    packet_bytes = 0;
    word((set & 0xFF) << 8 | LOGODWEN_TO_SLAVES);
    word(set >> 8 & 0xFFFF);
    word(0x0C2E);
    call_request(below(ports == 0 ? 1 : ports), 3, 0);
}

/* The same 0-length reply of each slave of a group. */
static void step_all_alike(void) {
    uint32_t bc = below(4);
    for (int turn = 0; turn < 72 && pending() >= PENDING_GROUP && calls % 1000 != 999; turn++) {
        packet_bytes = 0;
        call_reply(model[STATE_RUN][LOGODWEN_AT_SLAVE], bc, 0);
    }
}

static void step_erase(void) {
    static const uint64_t budgets[] = {0,       1,        7,        100, 1000, 2048, 4096, 16384, 32767, 1u << 31, (uint64_t)1 << 32,
                                       ((uint64_t)1 << 32) + 1, UINT64_MAX};
    call_erase(one_in(2) ? budgets[below(13)] : below((uint32_t)flash_bytes / 22));
}

static void start(uint32_t kind) {
    uint32_t ports = 1 + below(4);
    call_start(kind, ports, below(8));
}

static void step_start(void) {
    if (!one_in(10)) {
        start(1 + below(2));
        return;
    }
    uint32_t kind = wild(), ports = wild();
    call_start(kind, ports, wild());
}

/* A slow-control step: now, a little later, or where the entry in turn is just due, not yet, or not any more. */
static void step_slow(void) {
    static const uint32_t since[] = {UINT32_MAX, 0, 1, 0x7FFFFFFF, 0x80000000};
    if (one_in(3))
        now += below(40);
    call_slow(one_in(4) ? in_turn().due + since[below(5)] : one_in(40) ? wild() : now);
}

/* Commands on the Q-List and steps among them, from a link that doesn't drop the write that stands. */
static void step_list(void) {
    struct standing was = standing();
    uint32_t link = was.stands ? other_link(was.link) : 0;
    for (unsigned left = 1 + below(4); left > 0; left--) {
        if (link < model[STATE_RUN][LOGODWEN_AT_PORTS] && one_in(listed() == 0 ? 1 : 3)) {
            list_command();
            call_request(link, 3, 0);
        } else {
            step_slow();
        }
    }
}

/* One byte of a stretch of the state, below a number. */
static void put_any(size_t from, uint32_t count, uint32_t most) {
    size_t at = from + below(count);
    put_both(STATE_RUN, at, (uint8_t)below(most));
}

/* Entries listed and a turn that no calls led to, within their ranges or not, at times in bytes that are no state's; and records that no call
   stored. */
static void put_listing(void) {
    unsigned count = one_in(8) ? wild() & 0xFFFF : one_in(3) ? LOGODWEN_LIST_RECORDS - 1 + below(3) : below(records() + 2);
    put_state_word(LOGODWEN_AT_LISTED, count);
    put_state_word(LOGODWEN_AT_TURN, one_in(4) ? count : one_in(8) ? wild() : count == 0 ? below(2) : below(count));
    if (one_in(4))
        put_any(LOGODWEN_AT_RX_STATUS + 2, 2, 4);
    for (unsigned i = below(20); i > 0; i--) {
        size_t at = below((uint32_t)room[LIST_RUN]);
        put_both(LIST_RUN, at, (uint8_t)(one_in(2) ? 0 : any()));
    }
}

/* Words erased, around the end of a sector of either length or behind it, of which 16 bits would be few; or any number. */
static uint32_t some_erased(void) {
    uint32_t words = (uint32_t)logodwen_sector_words(flash_bytes, 3 + below(2)), high = one_in(4) ? 0x10000 : 0;
    return one_in(3) ? wild() : one_in(3) ? high + below(words) : high + words - 2 + below(4);
}

/* A build that no calls led to, in most cases with one field that is at an end of its range, or past it. */
static void put_build(uint32_t set) {
    static const uint8_t tallies_of_builds[] = {0, TALLY_NO_DATA, TALLY_WHOLE, TALLY_MIXED};
    unsigned slave = below(24);
    put_both(STATE_RUN, LOGODWEN_AT_PENDING, PENDING_BUILD);
    put_both(STATE_RUN, LOGODWEN_AT_LINK, 0);
    put_both(STATE_RUN, LOGODWEN_AT_SLAVE, (uint8_t)slave);
    put_both(STATE_RUN, LOGODWEN_AT_FROM, 0);
    put_both(STATE_RUN, LOGODWEN_AT_TALLY, tallies_of_builds[below(4)]);
    put_state_long(LOGODWEN_AT_ASKED, (set & 0xFFFFFF) | 1u << slave);
    put_state_long(LOGODWEN_AT_ASKED_AT, one_in(3) ? any() : now);
    put_state_long(LOGODWEN_AT_BUILT, one_in(3) ? 12160 + below(130) : below(12000));
    put_state_long(LOGODWEN_AT_ASKS, 1 + below(3));
    put_state_long(LOGODWEN_AT_LEFT_OUT, any() & 0xFFFFFF);
    put_received(true);
    switch (below(14)) {
    case 0:
    case 8: put_any(LOGODWEN_AT_ASKS, 1, 5); break;
    case 9:
    case 5: put_any(LOGODWEN_AT_TALLY, 1, 8); break;
    case 1: put_any(LOGODWEN_AT_ASKS + 1, 3, 4); break;
    case 2: put_any(LOGODWEN_AT_LEFT_OUT + 3, 1, 3); break;
    case 3: put_any(LOGODWEN_AT_LINK, 1, 4); break;
    case 4: put_any(LOGODWEN_AT_FROM, 1, 3); break;
    case 6: put_any(LOGODWEN_AT_SLAVE, 1, 30); break;
    case 7: put_state_long(LOGODWEN_AT_ASKED, set); break;
    default: break;
    }
}

/* A state that no start leads to: one field, within its range or not; or any byte. */
static void step_state(void) {
    uint8_t before[LOGODWEN_STATE_BYTES];
    memcpy(before, model[STATE_RUN], sizeof before);
    uint32_t set = one_in(4) ? any() : any() & 0xFFFFFF;
    switch (below(19)) {
    case 0: put_any(0, LOGODWEN_STATE_BYTES, 256); break;
    case 1: put_any(0, 4, 10); break;
    case 2: put_state_long(LOGODWEN_AT_AMSWIRE_ERRORS, one_in(2) ? 0xFFFEFFFE : any()); break;
    case 3:
        put_both(STATE_RUN, LOGODWEN_AT_ERASING, (uint8_t)below(12));
        put_state_long(LOGODWEN_AT_ERASED, some_erased());
        break;
    case 4: put_state_long(LOGODWEN_AT_FLASH_WORDS, one_in(2) ? (uint32_t)other_size() / 2 : wild()); break;
    case 5: put_state_long(LOGODWEN_AT_MASKS + 4 * below(16), set); break;
    case 6: put_any(LOGODWEN_AT_DIRECTORY, 64, 256); break;
    case 7: put_any(LOGODWEN_AT_START_TESTS, 2, 256); break;
    case 8: put_any(LOGODWEN_AT_WRITE, LOGODWEN_STATE_BYTES - LOGODWEN_AT_WRITE, 4); break;
    case 9:
        put_both(STATE_RUN, LOGODWEN_AT_WRITE, (uint8_t)(one_in(8) ? below(256) : 1));
        put_both(STATE_RUN, LOGODWEN_AT_WRITE_LINK, (uint8_t)below(one_in(8) ? 256 : 4));
        put_state_long(LOGODWEN_AT_JOINED, one_in(3)    ? LOGODWEN_AREA_WORDS - 3 + below(6)
                                           : one_in(10) ? wild()
                                                        : below(LOGODWEN_AREA_WORDS));
        break;
    case 10:
    case 11:
        put_listing();
        one_in(2) ? step_slow() : (void)call_poll();
        break;
    case 12:
        put_state_word(LOGODWEN_AT_EVENT, one_in(2) ? 0xFFFE + below(2) : any() & 0xFFFF);
        put_state_word(LOGODWEN_AT_BUILD_ERRORS, one_in(2) ? 0xFFFE : any() & 0xFFFF);
        put_state_long(LOGODWEN_AT_UNREAD, one_in(3) ? 0 : one_in(3) ? LOGODWEN_EVENTS_WORDS - 1 + below(3) : one_in(10) ? wild() : below(40));
        one_in(2) ? step_event_command(LOGODWEN_ID_EVENT_READ) : (void)call_build();
        break;
    case 13: put_any(LOGODWEN_AT_ASKS, LOGODWEN_STATE_BYTES - LOGODWEN_AT_ASKS, 4); break;
    case 14:
    case 15:
    case 16:
        put_build(set);
        one_in(2) ? (void)call_poll() : step_event();
        break;
    default:
        put_both(STATE_RUN, LOGODWEN_AT_PENDING, (uint8_t)(1 + below(2)));
        put_both(STATE_RUN, LOGODWEN_AT_LINK, (uint8_t)below(4));
        put_both(STATE_RUN, LOGODWEN_AT_SLAVE, (uint8_t)below(one_in(10) ? 40 : 24));
        put_state_long(LOGODWEN_AT_ASKED_AT, one_in(3) ? any() : now);
        bool is_group = model[STATE_RUN][LOGODWEN_AT_PENDING] == PENDING_GROUP;
        put_both(STATE_RUN, LOGODWEN_AT_FROM, (uint8_t)(is_group ? 1 + below(one_in(10) ? 255 : 2) : 0));
        put_both(STATE_RUN, LOGODWEN_AT_TALLY, (uint8_t)(is_group ? below(one_in(10) ? 10 : 7) : 0));
        put_state_long(LOGODWEN_AT_ASKED, is_group ? set | (one_in(10) ? 0 : 1u << model[STATE_RUN][LOGODWEN_AT_SLAVE] % 24) : 0);
        put_state_long(LOGODWEN_AT_BUILT, !is_group ? 0 : one_in(3) ? 12160 + below(130) : one_in(10) ? any() : below(12000));
        put_received(is_group);
        if (one_in(2)) { /* a write of the same link */
            put_both(STATE_RUN, LOGODWEN_AT_WRITE, 1);
            put_both(STATE_RUN, LOGODWEN_AT_WRITE_LINK, model[STATE_RUN][LOGODWEN_AT_LINK]);
        }
        break;
    }
    for (int turn = 0; turn < 3; turn++) {
        int kind = (int)below(9);
        if (kind == 0)
            step_request();
        else if (kind == 8)
            one_in(2) ? step_series() : step_write();
        else if (kind == 7)
            one_in(2) ? step_slow() : step_list();
        else if (kind >= 5)
            step_write();
        else if (kind == 1)
            step_slave();
        else if (kind == 2)
            call_poll();
        else if (kind == 3)
            step_erase();
        else
            step_all_alike();
    }
    if (!one_in(6)) /* back to where it was, mostly */
        for (size_t at = 0; at < sizeof before; at++)
            put_both(STATE_RUN, at, before[at]);
}

/* A few commands on a file by its name, from a link that doesn't drop the write that stands. */
static void step_named(unsigned name) {
    for (int turn = 0; turn < 4; turn++) {
        struct standing was = standing();
        file_command(name);
        call_request(was.stands ? other_link(was.link) : 0, 3, 0);
    }
}

/* The same on the file of a sector, by its name in the directory. */
static void step_file(unsigned place) {
    step_named(logodwen_get(model[STATE_RUN] + LOGODWEN_AT_DIRECTORY, 4 * place) >> 4 & 0xFF);
}

/* A directory that differs from the flash in one entry, mostly in the length, and commands on that sector. */
static void step_entry(void) {
    unsigned place = below(8);
    size_t at = LOGODWEN_AT_DIRECTORY + 8 * place + (one_in(4) ? 2 * below(4) : 6);
    uint32_t before = logodwen_get(model[STATE_RUN] + at, 0), other = one_in(3) ? 0 : one_in(2) ? before + 1 : wild();
    put_state_word(at, other);
    step_file(place);
    if (!one_in(4)) /* back to where it was, mostly */
        put_state_word(at, before);
}

/* A write that finds a bit in a sector which the directory has for empty. */
static void step_not_empty(unsigned place, size_t begin, size_t words) {
    struct standing was = standing();
    size_t at = begin + below((uint32_t)(2 * words));
    uint8_t before = model[FLASH_RUN][at];
    if (logodwen_get(model[STATE_RUN] + LOGODWEN_AT_DIRECTORY, 4 * place) != 0xFFFF)
        return;
    put_both(FLASH_RUN, at, before ^ (uint8_t)(1 << below(8)));
    own(0x45);
    put_file(below(256));
    call_request(was.stands ? other_link(was.link) : 0, 3, 0);
    put_both(FLASH_RUN, at, before);
}

/* A bit behind a file, in the first word there, in the sector's last or in any, and commands on that file. */
static void step_remains(void) {
    unsigned place = below(8);
    size_t begin = 2 * logodwen_sector_start(flash_bytes, 3 + place), words = logodwen_sector_words(flash_bytes, 3 + place);
    size_t length = model_file_length(model[FLASH_RUN] + begin, words);
    if (length == 0)
        step_not_empty(place, begin, words);
    if (length == 0 || length == words)
        return;
    size_t behind = one_in(3) ? length : one_in(2) ? words - 1 : length + below((uint32_t)(words - length));
    size_t at = begin + 2 * behind + below(2);
    uint8_t before = model[FLASH_RUN][at];
    put_both(FLASH_RUN, at, before ^ (uint8_t)(1 << below(8)));
    if (one_in(2))
        start(1 + below(2));
    step_file(place);
    if (!one_in(4))
        put_both(FLASH_RUN, at, before);
}

/* A file in one more sector, good or damaged, with nothing behind it, and commands on its name. */
static void step_name_twice(void) {
    unsigned place = below(8), other = below(8);
    size_t from = 2 * logodwen_sector_start(flash_bytes, 3 + place), to = 2 * logodwen_sector_start(flash_bytes, 3 + other);
    size_t words = logodwen_sector_words(flash_bytes, 3 + other);
    size_t length = model_file_length(model[FLASH_RUN] + from, logodwen_sector_words(flash_bytes, 3 + place));
    if (length == 0 || length > words || place == other)
        return;
    for (size_t at = 0; at < 2 * words; at++)
        put_both(FLASH_RUN, to + at, at < 2 * length ? model[FLASH_RUN][from + at] : 0xFF);
    if (one_in(3))
        put_both(FLASH_RUN, to + 2 * length - 1, model[FLASH_RUN][to + 2 * length - 1] ^ 1);
    start(1 + below(2));
    step_file(place);
}

/* A long file in packets, with nothing between, and commands on it. */
static void step_long_write(void) {
    struct standing was = standing();
    uint32_t link = was.stands ? was.link : 0;
    unsigned name = below(256);
    if (was.stands) { /* it is dropped */
        packet_bytes = 0;
        call_request(link, 2, 0);
    }
    own(0x45);
    put_long_file(name, long_length());
    take_image();
    own(0x45);
    for (uint32_t first = 2; image_sent < image_words; first = 0) {
        uint32_t last = put_words(one_in(4) ? 1 + below(LOGODWEN_REQUEST_WORDS) : LOGODWEN_REQUEST_WORDS);
        call_request(link, first | last, 0);
        packet_bytes = 0;
    }
    step_named(name);
}

/* A long file that was programmed elsewhere, at times with a wrong bit, and commands on it after a new start. */
static void step_programmed(void) {
    unsigned place = below(8), length = long_length();
    size_t begin = 2 * logodwen_sector_start(flash_bytes, 3 + place), bytes = 2 * logodwen_sector_words(flash_bytes, 3 + place);
    own(0x45);
    put_long_file(below(256), 2 * length > bytes ? (unsigned)bytes / 2 : length);
    if (one_in(3))
        flip(packet + 2, packet_bytes - 2);
    for (size_t at = 0; at < bytes; at++)
        put_both(FLASH_RUN, begin + at, at + 2 < packet_bytes ? packet[at + 2] : 0xFF);
    start(1 + below(2));
    step_file(place);
}

/* Counts of bytes around the two sizes. */
static size_t some_flash_bytes(void) {
    static const size_t counts[] = {0,
                                    1,
                                    LOGODWEN_FLASH_BYTES - 2,
                                    LOGODWEN_FLASH_BYTES - 1,
                                    LOGODWEN_FLASH_BYTES,
                                    LOGODWEN_FLASH_BYTES + 1,
                                    LOGODWEN_FLASH_BYTES + 2,
                                    2 * LOGODWEN_FLASH_BYTES,
                                    LOGODWEN_FLASH_FULL_BYTES / 2,
                                    LOGODWEN_FLASH_FULL_BYTES - 2,
                                    LOGODWEN_FLASH_FULL_BYTES - 1,
                                    LOGODWEN_FLASH_FULL_BYTES,
                                    LOGODWEN_FLASH_FULL_BYTES + 1,
                                    LOGODWEN_FLASH_FULL_BYTES + 2};
    return counts[below(14)];
}

/* Calls that are lent another count of bytes than the start was: or the start is, and the calls the usual one. */
static void step_other_count(void) {
    size_t usual = lent_bytes[FLASH_RUN], other = one_in(2) ? other_size() : some_flash_bytes();
    bool is_start = one_in(2);
    lent_bytes[FLASH_RUN] = other;
    if (is_start) {
        start(1 + below(2));
        lent_bytes[FLASH_RUN] = usual;
    }
    step_request();
    step_erase();
    step_series();
    lent_bytes[FLASH_RUN] = usual;
    if (is_start)
        start(1 + below(2));
}

/* Other lengths for one call. */
static void step_lengths(void) {
    size_t before[RUNS];
    memcpy(before, lent_bytes, sizeof before);
    for (unsigned turn = 1 + below(3); turn > 0; turn--) {
        int run = (int)below(RUNS);
        static const size_t most[RUNS] = {LOGODWEN_STATE_BYTES, LOGODWEN_FLASH_FULL_BYTES, LOGODWEN_PM_BYTES,
                                          LOGODWEN_DM_BYTES,    LOGODWEN_IO_BYTES,         LOGODWEN_AREA_BYTES,
                                          LOGODWEN_LIST_BYTES + LOGODWEN_RECORD_BYTES, LOGODWEN_EVENTS_BYTES,
                                          LOGODWEN_REPLY_BYTES, 2 * REPLY_ROOM};
        lent_bytes[run] = one_in(5) ? 0 : one_in(4) ? below((uint32_t)room[run]) : most[run] - 4 + below(9);
        if (run == FLASH_RUN && !one_in(4))
            lent_bytes[run] = some_flash_bytes();
    }
    int kind = (int)below(12);
    if (kind == 0)
        step_start();
    else if (kind == 11)
        call_reply(22 + below(4), wild(), 0);
    else if (kind == 10)
        call_build();
    else if (kind == 9)
        step_series();
    else if (kind == 1)
        call_poll();
    else if (kind == 2)
        step_reply();
    else if (kind == 3)
        step_erase();
    else if (kind == 8)
        step_slow();
    else if (kind < 6)
        step_request();
    else
        step_write();
    memcpy(lent_bytes, before, sizeof before);
}

static void blank(void) {
    memset(library[FLASH_RUN], 0xFF, flash_bytes);
    memset(model[FLASH_RUN], 0xFF, flash_bytes);
}

/* Flash words that no call stored, or a blank flash, with a new start or without. */
static void step_flash(void) {
    if (one_in(4))
        blank();
    size_t at = one_in(4) ? below((uint32_t)flash_bytes) : flash_bytes / 16 * (1 + below(15));
    at += at + 24 < flash_bytes ? below(24) : 0;
    put_both(FLASH_RUN, at, one_in(3) ? 0xFF : model[FLASH_RUN][at] ^ (uint8_t)(1 << below(8)));
    if (!one_in(3))
        start(1 + below(2));
}

static void step(void) {
    if (one_in(4))
        now += below(3);
    unsigned erasing = model[STATE_RUN][LOGODWEN_AT_ERASING], refusal = logodwen_refusal(answered);
    if ((refusal == LOGODWEN_REFUSED_STATE || refusal == LOGODWEN_REFUSED_FLASH_SIZE) && one_in(3))
        step_start();
    else if (one_in(pending() != 0 ? 60 : standing().stands ? 16 : 5))
        step_series();
    else if (pending() != 0 && !one_in(10))
        one_in(pending() == PENDING_BUILD ? 100 : 20) ? step_all_alike() : one_in(40) ? step_slow() : step_slave();
    else if (erasing != 0 && one_in(3))
        step_erase();
    else if (is_full() && one_in(5))
        one_in(3) ? step_programmed() : step_long_write();
    else if (one_in(50))
        step_flash();
    else if (one_in(200))
        step_other_count();
    else if (one_in(35))
        one_in(3) ? step_entry() : one_in(2) ? step_remains() : step_name_twice();
    else if (one_in(25))
        step_state();
    else if (one_in(20))
        step_lengths();
    else if (one_in(60))
        one_in(2) ? (void)call_poll() : step_erase();
    else if (one_in(100))
        step_start();
    else if (pending() == 0 && one_in(7))
        step_group();
    else if (pending() == 0 && one_in(model[STATE_RUN][LOGODWEN_AT_KIND] == LOGODWEN_CDDC ? 9 : 60))
        step_build();
    else if (pending() == 0 && one_in(6))
        step_list();
    else if (standing().stands ? one_in(40) : one_in(8))
        step_request();
    else
        step_write();
}

/* A fresh node on a flash that is blank or left from before, with other memories. */
static void fresh(void) {
    memcpy(lent_bytes, usual_bytes, sizeof lent_bytes);
    flash_bytes = one_in(10) ? LOGODWEN_FLASH_FULL_BYTES : LOGODWEN_FLASH_BYTES;
    lent_bytes[FLASH_RUN] = flash_bytes;
    bool large = one_in(8), all = is_full() && one_in(2); /* a long file needs much to be loaded */
    lent_bytes[PM_RUN] = all ? LOGODWEN_PM_BYTES : below(large ? LOGODWEN_PM_BYTES + 3 : 400);
    lent_bytes[DM_RUN] = all ? LOGODWEN_DM_BYTES : below(large ? LOGODWEN_DM_BYTES + 1 : 400);
    lent_bytes[IO_RUN] = below(large ? LOGODWEN_IO_BYTES + 1 : 400);
    lent_bytes[AREA_RUN] += below(4);
    lent_bytes[LIST_RUN] = one_in(4) ? LOGODWEN_LIST_BYTES + below(LOGODWEN_RECORD_BYTES) : below(12 * LOGODWEN_RECORD_BYTES);
    lent_bytes[EVENTS_RUN] += below(4);
    lent_bytes[REPLY_RUN] += below(4);
    lent_bytes[REPLIES_RUN] += below(4);
    if (one_in(2))
        blank();
    now = one_in(2) ? 0xFFFFFFFFu - below(300) : any();
    start(one_in(4) ? LOGODWEN_CDP : LOGODWEN_CDDC);
}

static void make_worlds(void) {
    for (int run = 0; run < RUNS; run++) {
        size_t bytes = room[run] + 2 * GUARD;
        uint8_t *ours = malloc(bytes), *other = malloc(bytes);
        if (ours == NULL || other == NULL)
            exit(2);
        for (size_t at = 0; at < bytes; at++)
            ours[at] = other[at] = run == STATE_RUN ? 0 : (uint8_t)any();
        library[run] = ours + GUARD;
        model[run] = other + GUARD;
    }
}

static void print_tallies(void) {
    static const char *const names[] = {"start", "request", "reply", "poll", "erase", "slow", "requests", "build"};
    for (int call = 0; call < 8; call++) {
        printf("  %-8s", names[call]);
        if (call == 0 || call == 4 || call == 6)
            printf(" done %lu", tallies[call][0][0]);
        else if (call == 5)
            printf(" handed out %lu, nothing %lu", tallies[call][0][LOGODWEN_HANDED], tallies[call][0][LOGODWEN_NOTHING]);
        else
            printf(" reply %lu, ask %lu, send NEXT %lu, waiting %lu, ask for an event %lu, no event %lu, built %lu",
                   tallies[call][0][LOGODWEN_REPLY], tallies[call][0][LOGODWEN_ASK], tallies[call][0][LOGODWEN_SEND_NEXT],
                   tallies[call][0][LOGODWEN_WAITING], tallies[call][0][LOGODWEN_ASK_EVENT], tallies[call][0][LOGODWEN_NO_EVENT],
                   tallies[call][0][LOGODWEN_BUILT]);
        for (int refusal = 1; refusal < 12; refusal++)
            if (tallies[call][refusal][0] != 0)
                printf(", refused by %d %lu", refusal, tallies[call][refusal][0]);
        printf("\n");
    }
    for (int id = 0; id < 256; id++)
        if (commands[id][0] != 0 || commands[id][1] != 0)
            printf("  command %02X: words %lu, END %lu, ABORT %lu\n", (unsigned)id, commands[id][0], commands[id][1],
                   commands[id][2]);
    unsigned long acting = 0;
    for (int kind = 0; kind < ACTING; kind++)
        acting += writes[kind];
    printf("  writes begun %lu, middle or last packets without one %lu\n", writes_begun, later_without_write);
    printf("  standing writes: %lu requests act on one\n", acting);
    for (int kind = 0; kind < WRITE_KINDS; kind++)
        printf("  standing write, %s: %lu\n", write_names[kind], writes[kind]);
    unsigned long fell = 0;
    for (int kind = 0; kind < PACKET_KINDS; kind++)
        fell += in_packets[kind];
    printf("  replies in packets: %lu calls fall in groups that have one\n", fell);
    for (int kind = 0; kind < PACKET_KINDS; kind++)
        printf("  reply in packets, %s: %lu\n", packet_names[kind], in_packets[kind]);
    unsigned long of_list = 0;
    for (int kind = 0; kind < LIST_KINDS; kind++)
        of_list += on_list[kind];
    printf("  calls on the list: %lu calls fall on the Q-List\n", of_list);
    for (int kind = 0; kind < LIST_KINDS; kind++)
        printf("  call on the list, %s: %lu\n", list_names[kind], on_list[kind]);
    unsigned long of_series = 0;
    for (int kind = 0; kind < SERIES_KINDS; kind++)
        of_series += in_series[kind];
    printf("  lists of requests: %lu calls, with %lu packets done\n", of_series, packets_done);
    for (int kind = 0; kind < SERIES_KINDS; kind++)
        printf("  list of requests, %s: %lu\n", series_names[kind], in_series[kind]);
    unsigned long of_events = 0;
    for (int kind = 0; kind < EVENT_KINDS; kind++)
        of_events += on_events[kind];
    printf("  event builds: %lu calls fall in a build or on an event\n", of_events);
    for (int kind = 0; kind < EVENT_KINDS; kind++)
        printf("  event build, %s: %lu\n", event_names[kind], on_events[kind]);
    unsigned long of_long = 0;
    for (int kind = 0; kind < LONG_KINDS; kind++)
        of_long += on_flash[kind];
    printf("  long files: %lu calls fall on a file above 4,096 words\n", of_long);
    for (int kind = 0; kind < FLASH_KINDS; kind++)
        printf("  %s, %s: %lu\n", kind < LONG_KINDS ? "long file" : "flash of another count", flash_names[kind], on_flash[kind]);
}

int main(int count, char **arguments) {
    if (count != 3) {
        fprintf(stderr, "differ SEED COUNT: two numbers\n");
        return 2;
    }
    seed = number("differ", arguments[1]);
    unsigned long wanted = number("differ", arguments[2]);
    begin_chance(seed);
    make_worlds();
    while (calls < wanted) {
        fresh();
        for (unsigned long until = calls + 50 + below(250); calls < until && calls < wanted;)
            step();
        for (int run = 0; run < RUNS; run++)
            compare_run(run, room[run]);
    }
    printf("differ: seed %" PRIu64 ": %lu calls, no difference between the library and the model\n", seed, calls);
    print_tallies();
    return 0;
}
