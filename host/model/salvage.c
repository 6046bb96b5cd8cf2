/* 02, request 14: what is readable of a flash with bad sectors, saved in a second one that is blank. A sector's headers are followed first, which
   looks at few words. Then each valid segment goes from one flash into the other, behind the one before: where all are valid that is the file
   as it was, and the words behind it are blank already. */
#include "model.h"

#include <string.h>

enum { REFUSED_SIZE = 1, REFUSED_SECOND = 12 };
enum { COPIED = 1, REDUCED = 2, LOST = 3 };
enum { HOW = 4, SECTOR_BITS = 6, REFUSAL_BITS = 8 }; /* of the number that is answered */

/* Whether all bytes are FF: the first is, and each is as the one before. */
static bool are_blank(const uint8_t *bytes, size_t count) { return count == 0 || (bytes[0] == 0xFF && memcmp(bytes, bytes + 1, count - 1) == 0); }

/* The place past a segment by its header, whether 01 permits its length or not; 0 where that is an odd number of PM words or leads out. */
static size_t led_to(const uint8_t *words, size_t n, size_t at) {
    struct segment segment;
    if (n < at + 2)
        return 0;
    model_segment_header(word_at(words, at), word_at(words, at + 1), &segment);
    bool is_odd = segment.memory == PM && segment.length % 2 != 0;
    size_t past = at + 2 + segment.size;
    return is_odd || n < past ? 0 : past;
}

/* The place past the last segment; 0 where no file can begin the words, or its headers can't be followed. */
static size_t followed(const uint8_t *words, size_t n) {
    unsigned header = word_at(words, 0);
    size_t at = model_may_start(header) ? 1 : 0;
    for (unsigned left = header & 15; left > 0 && at != 0; left--)
        at = led_to(words, n, at);
    return at;
}

/* Puts the valid segments of a sector that can be followed, and answers how many they are. */
static unsigned put_valid(const uint8_t *from, size_t n, uint8_t *to) {
    unsigned kept = 0;
    size_t at = 1, put = 1, next;
    for (unsigned left = word_at(from, 0) & 15; left > 0; left--, at = next) {
        struct segment segment;
        next = led_to(from, n, at);
        if (!model_segment_at(from, n, at, &segment))
            continue;
        memcpy(to + 2 * put, from + 2 * at, 2 * (next - at));
        put += next - at;
        kept++;
    }
    return kept;
}

unsigned model_salvage_sector(const uint8_t *from, size_t n, uint8_t *to) {
    unsigned header = word_at(from, 0), count = header & 15;
    size_t end = followed(from, n);
    if (end == 0)
        return (are_blank(from, 2 * n) ? COPIED : LOST) << HOW;
    unsigned kept = put_valid(from, n, to);
    if (kept == 0)
        return LOST << HOW;
    put_word(to, 0, header - count + kept);
    return kept | (kept == count && are_blank(from + 2 * end, 2 * (n - end)) ? COPIED : REDUCED) << HOW;
}

uint64_t model_salvage(const uint8_t *first, size_t first_len, uint8_t *second, size_t second_len) {
    if (first_len != 2 * BENCH && first_len != 2 * FULL)
        return REFUSED_SIZE;
    if (second_len != first_len || !are_blank(second, second_len))
        return REFUSED_SECOND;
    uint64_t answer = 0;
    for (unsigned sector = SECTOR_FIRST; sector <= SECTOR_LAST; sector++) {
        size_t at = 2 * model_sector_start(first_len / 2, sector), n = model_sector_size(first_len / 2, sector);
        answer |= (uint64_t)model_salvage_sector(first + at, n, second + at) << (REFUSAL_BITS + SECTOR_BITS * (sector - SECTOR_FIRST));
    }
    return answer;
}
