/* captures SEED COUNT: drives the library and the model over the same captured group replies, and compares what they answer. The model's
   node assembles them, and then they are damaged or not; some are words by chance. It says which capture differs, and in what, or how
   many were accepted, cut short, and broken by a word. A fifth of them at least are of groups with replies in packets (02, request 8),
   else it fails. */
#include "../../include/logodwen.h"
#include "../model/model.h"
#include "chance.h"

#include <inttypes.h>

enum { MOST = LOGODWEN_REPLY_WORDS + 16 }; /* words of a capture, and of a slave's answer */
enum { USUALLY_SAME, USUALLY_LONG, USUALLY_OVER, USUALLY_SHORT, MOODS };

static uint64_t seed;
static unsigned long captures, accepted, cut; /* done; of them accepted, and broken at their own length */
static unsigned long in_packets;              /* of groups that have replies in packets */
static uint8_t capture[2 * MOST + 1];
static size_t words; /* of the capture */
static uint32_t mask;

static uint16_t any_word(void) { return (uint16_t)any(); }

static void seal(uint8_t *run, size_t n) { put_word(run, n - 1, model_fcs(run, n - 1)); }

static unsigned slaves_in(uint32_t set) {
    unsigned count = 0;
    for (; set != 0; set &= set - 1)
        count++;
    return count;
}

/* What the model's node is lent. */
static struct {
    uint8_t state[LOGODWEN_STATE_BYTES], flash[LOGODWEN_FLASH_BYTES], area[LOGODWEN_AREA_BYTES], events[LOGODWEN_EVENTS_BYTES],
        reply[LOGODWEN_REPLY_BYTES];
} lent; /* and no record of a Q-List */

static void start(void) {
    memset(lent.flash, 0xFF, sizeof lent.flash);
    model_start(LOGODWEN_CDDC, 1, 0, 0, 0, 0, 0, lent.flash, sizeof lent.flash, lent.state, sizeof lent.state);
}

static uint64_t request(uint32_t bc, const uint8_t *packet, size_t n) {
    return model_request(0, 0, bc, 0, packet, 2 * n, lent.state, sizeof lent.state, lent.flash, sizeof lent.flash, NULL, 0, NULL, 0,
                         NULL, 0, lent.area, sizeof lent.area, NULL, 0, lent.events, sizeof lent.events, lent.reply, sizeof lent.reply);
}

/* The request to the slaves of the mask, from a node with any status. */
static uint64_t ask(void) {
    uint8_t packet[6];
    put_word(packet, 0, (mask & 0xFF) << 8 | LOGODWEN_TO_SLAVES);
    put_word(packet, 1, mask >> 8);
    put_word(packet, 2, 0x122E);
    lent.state[LOGODWEN_AT_MODE] = (uint8_t)below(4);
    put_word(lent.state + LOGODWEN_AT_START_TESTS, 0, one_in(2) ? 0x0400 : 0);
    return request(LOGODWEN_BC_WHOLE, packet, 3);
}

/* How many words a slave answers, `room` being the most that fit: by a mood that goes through a group, or otherwise. */
static size_t answer_words(unsigned mood, size_t room) {
    if (one_in(4))
        mood = below(MOODS);
    size_t some = below(12), most = mood == USUALLY_OVER ? room + 1 + some : room - some % 4;
    return mood == USUALLY_SAME ? 0 : mood == USUALLY_SHORT ? 1 + some : most < MOST ? most : MOST;
}

/* The BC of a first packet, and of one that answers NEXT. */
static uint32_t first_bc(unsigned mood) {
    if (mood == USUALLY_SAME && !one_in(16))
        return LOGODWEN_BC_END;
    return one_in(8) ? any() : one_in(3) ? LOGODWEN_BC_FIRST : LOGODWEN_BC_WHOLE;
}

static uint32_t later_bc(void) { return one_in(8) ? any() : one_in(3) ? LOGODWEN_BC_MIDDLE : LOGODWEN_BC_LAST; }

/* An answer of the slave now being asked, in one packet, or one of several. */
static uint64_t answer(unsigned slave, unsigned mood) {
    static uint8_t packet[2 * MOST];
    size_t built = logodwen_get_pm(lent.state + LOGODWEN_AT_BUILT, 0), received = logodwen_get_pm(lent.state + LOGODWEN_AT_RECEIVED, 0);
    size_t n = answer_words(mood, LOGODWEN_REPLY_WORDS - 2 - built - received - 5 * slaves_in(mask >> slave >> 1));
    uint32_t bc = received == 0 ? first_bc(mood) : later_bc();
    uint32_t now = one_in(20) ? LOGODWEN_LATE_TICKS : 0, error = one_in(20);
    uint16_t rx_status = any_word(), rx_address = any_word();
    for (size_t i = 0; i + 1 < n; i++)
        put_word(packet, i, any());
    if (n > 0)
        put_word(packet, n - 1, model_fcs_on(model_fcs(lent.reply + 2 * (built + 1), received), packet, n - 1));
    if (n > 0 && one_in(12))
        packet[2 * n - 1] ^= 1;
    logodwen_put_pm(lent.state + LOGODWEN_AT_ASKED_AT, 0, 0);
    return model_reply(now, slave, bc, error, rx_status, rx_address, packet, 2 * n, lent.state, sizeof lent.state, lent.events,
                       sizeof lent.events, lent.reply, sizeof lent.reply);
}

/* A group of the mask's slaves, as the capture. Where all say the same without words there is no data: its fragments, under a right end. */
static void assemble(void) {
    unsigned mood = below(MOODS);
    uint64_t said = ask();
    bool has_packets = false;
    for (words = 0; logodwen_answer(said) != LOGODWEN_REPLY;) {
        words = logodwen_get_pm(lent.state + LOGODWEN_AT_BUILT, 0);
        said = answer(logodwen_slave(said), mood);
        has_packets = has_packets || logodwen_answer(said) == LOGODWEN_SEND_NEXT;
    }
    in_packets += has_packets;
    size_t laid = logodwen_words(said);
    words = laid != 0 ? laid : words + 4;
    memcpy(capture, lent.reply, 2 * words);
    if (laid == 0) {
        put_word(capture, words - 2, 0x0200);
        seal(capture, words);
    }
}

/* Damage. */

/* The place of some word, at a fragment's beginning or end in every second case, where they can be followed. */
static size_t some_place(void) {
    size_t place = below((uint32_t)words);
    if (one_in(2))
        return place;
    for (size_t at = 0, next = 0; at < words; at = next) {
        size_t length = word_at(capture, at);
        next = at + length + 1;
        if (next > place)
            return one_in(2) || next > words ? at : next - 1;
    }
    return words - 1 - below(words < 3 ? 1 : 2);
}

static void damage(void) {
    size_t place = some_place();
    uint32_t word = word_at(capture, place), bit = 1u << below(16), stays = one_in(2) ? 0x001F : 0x07FF;
    switch (below(8)) {
    case 0: word = one_in(2) ? word + 1 : word - 1; break;
    case 1: word = below(7); break;
    case 2: case 3: word = (word & stays) | below(32) << 11; break;
    case 4: word = any(); break;
    default: word ^= bit; break;
    }
    put_word(capture, place, word);
    if (one_in(2))
        seal(capture, words);
}

/* Another reply length: a short one, the longest, or one of about the room that there was. */
static uint32_t some_count(size_t room) {
    uint32_t about = (uint32_t)room + below(3);
    return one_in(2) ? below(4) : one_in(2) ? 0xFFFF - below(2) : about - 1;
}

/* Other codes in some fragments, as far as they can be followed, and other reply lengths with those that have one. */
static void change_codes(void) {
    static const uint16_t faults[] = {0x11, 0x12, 0x13, 0x15, 0x16, 0x17, 0x18, 0x19, 0x1A, 0x1C}; /* 0x19 is none any more */
    size_t room = LOGODWEN_REPLY_WORDS - 2 + 5 - 5 * slaves_in(mask);
    for (size_t at = 0, length = 0; at + 4 <= words; at += length + 1, room += 5 - (length + 1)) {
        uint32_t told = some_count(room), code = below(32);
        length = word_at(capture, at);
        if (at + length + 2 >= words || one_in(2))
            continue;
        if (length == 4) {
            put_word(capture, at + 2, told);
            code = faults[code % 10];
        }
        put_word(capture, at + length, (word_at(capture, at + length) & 0x001Fu) | code << 11);
    }
    put_word(capture, words - 2, word_at(capture, words - 2) | 0x0200u);
    seal(capture, words);
}

static void change_length(void) {
    size_t other = one_in(2) ? words - 1 : below((uint32_t)words + 1);
    if (one_in(3))
        other = words + 1 + below(3);
    for (; words < other && words < MOST; words++)
        put_word(capture, words, any());
    words = other < words ? other : words;
}

/* Words by chance, most of them small or such as are found in a capture. */
static void scatter(void) {
    words = below(one_in(4) ? 60 : 12);
    for (size_t i = 0; i < words; i++) {
        uint32_t word = below(6), slave = below(24);
        put_word(capture, i, one_in(3) ? below(32) << 11 | slave : one_in(6) ? any() : word);
    }
}

/* A set of slaves, of a few in most cases; none, or one above 24 bits, in some. */
static uint32_t some_mask(void) {
    uint32_t set = any() & 0xFFFFFF;
    for (unsigned turn = below(5); turn > 0; turn--)
        set &= any();
    return set == 0 ? 1u << below(24) : set;
}

static void make_capture(void) {
    mask = some_mask();
    if (one_in(10))
        scatter();
    else
        assemble();
    unsigned how = below(9);
    if (how < 4 && words != 0)
        damage();
    if (how > 6 && words >= 4)
        change_codes();
    if (how == 3 || how == 4)
        change_length();
    if (how == 5)
        mask = one_in(2) ? mask ^ 1u << below(24) : one_in(2) ? mask | 1u << (24 + below(8)) : one_in(2) ? 0 : some_mask();
}

/* The comparison. */

static void differs(const char *what, uint64_t by_library, uint64_t by_model) {
    printf("captures: seed %" PRIu64 ", capture %lu (mask %" PRIX32 ", %zu words): ", seed, captures, mask, words);
    printf("%s is %" PRIx64 " by the library, %" PRIx64 " by the model\n", what, by_library, by_model);
    exit(1);
}

static void compare(void) {
    static uint8_t kept[sizeof capture];
    size_t odd = below(2); /* a byte that is no word */
    uint8_t *run = words + odd == 0 && one_in(2) ? NULL : capture;
    capture[2 * words] = (uint8_t)any();
    memcpy(kept, capture, 2 * words + 1);
    uint64_t by_library = logodwen_capture(mask, run, 2 * words + odd), by_model = model_capture(mask, capture, 2 * words);
    if (by_library != by_model)
        differs("the number answered", by_library, by_model);
    if (memcmp(kept, capture, 2 * words + 1) != 0)
        differs("whether the words stayed", 0, 1);
    accepted += by_model == LOGODWEN_ACCEPTED << 8;
    cut += by_model == (LOGODWEN_BROKEN << 8 | (uint64_t)words << 32);
}

int main(int count, char **arguments) {
    if (count != 3) {
        fprintf(stderr, "captures SEED COUNT: two numbers\n");
        return 2;
    }
    seed = number("captures", arguments[1]);
    unsigned long wanted = number("captures", arguments[2]);
    begin_chance(seed);
    start();
    for (; captures < wanted; captures++) {
        make_capture();
        compare();
    }
    printf("captures: seed %" PRIu64 ": %lu captures, no difference between the library and the model: %lu accepted, %lu cut short, "
           "%lu broken by a word; %lu of groups with replies in packets\n", seed, captures, accepted, cut, captures - accepted - cut,
           in_packets);
    return 5 * in_packets < captures;
}
