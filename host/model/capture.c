/* 02, request 3: whether captured words are a group's reply, in one pass over them. What is tested where follows 01 'Group assembly' and
   02, request 8: a length word can only be judged by the room, a status word by what its code goes with, and the last two words by all
   before them. */
#include "model.h"

enum { ACCEPTED = 4, BROKEN = 5 };
enum { END_WORDS = 2, FAULT_WORDS = 5 }; /* status and FCS of the node; the fragment that there must be room for, for each slave left */
enum { DAT = 0x10 };                     /* above the four bits of a code */

static uint64_t broken(size_t place) { return BROKEN << 8 | (uint64_t)place << 32; }

/* Whether a code, with DAT above it, goes with a fragment's length word and its words, `room` being the longest reply that fits. */
static bool goes_with(unsigned code, size_t length, const uint8_t *fragment, size_t room) {
    unsigned replied = length == 4 ? word_at(fragment, 2) : 0;
    switch (code) {
    case 1: case 2: case 3: case 4: case 5: return length == 1;
    case 6: return length == 3;
    case DAT | 0: return true;
    case DAT | 1: return replied >= 1;
    case DAT | 2: case DAT | 0xA: return replied > room;
    case DAT | 3: return replied == 1;
    case DAT | 5: case DAT | 8: return replied >= 2;
    case DAT | 6: case DAT | 7: return replied >= 1 && replied <= room; /* the packets before had room */
    case DAT | 0xC: return replied >= 2 && replied <= room;
    default: return false;
    }
}

/* Whether a status word is one that the node lays for a slave. Only codes 0 and 2 with DAT have the slave's bits 10-5. */
static bool is_status(unsigned status, unsigned slave, size_t length, const uint8_t *fragment, size_t room) {
    unsigned code = status >> 11;
    if ((status & 31) != slave || !goes_with(code, length, fragment, room))
        return false;
    return (status & 0x07E0) == 0 || code == DAT || code == (DAT | 2);
}

/* The code that all slaves have so far, or a number that is none. */
static unsigned common_code(unsigned common, unsigned code, bool is_first) { return is_first || common == code ? code : UINT32_MAX; }

uint64_t model_capture(uint32_t mask, const uint8_t *words, size_t words_len) {
    size_t n = words_len / 2, at = 0, room = AREA - END_WORDS + FAULT_WORDS;
    unsigned common = 0;
    if (mask == 0 || mask >> SLAVES != 0)
        return broken(0);
    for (uint32_t set = mask; set != 0; set &= set - 1)
        room -= FAULT_WORDS;
    for (unsigned slave = 0; mask >> slave != 0; slave++) {
        if ((mask >> slave & 1) == 0)
            continue;
        if (at >= n)
            return broken(n);
        size_t length = word_at(words, at);
        if (length == 0 || length >= room)
            return broken(at);
        if (length >= n - at)
            return broken(n);
        unsigned status = word_at(words, at + length);
        if (!is_status(status, slave, length, words + 2 * at, room))
            return broken(at + length);
        common = common_code(common, status >> 11, at == 0);
        if (mask >> slave == 1 && common >= 1 && common <= 4)
            return broken(at + length); /* all the same 0-length reply: no data */
        at += length + 1;
        room = room + FAULT_WORDS - (length + 1);
    }
    unsigned bit_9 = common == DAT ? 0 : 0x0200;
    if (at >= n)
        return broken(n);
    if ((word_at(words, at) & ~0x01C0u) != bit_9)
        return broken(at);
    if (at + 1 >= n)
        return broken(n);
    if (word_at(words, at + 1) != model_fcs(words, at + 1))
        return broken(at + 1);
    return n > at + END_WORDS ? broken(at + END_WORDS) : ACCEPTED << 8;
}
