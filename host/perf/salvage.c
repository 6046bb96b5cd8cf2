/* Saving what is readable at the C border, against plain C: of a full flash whose sectors are all full, good, and with one segment of four broken.
   Both go from the lent bytes of one flash to those of the other. The plain C does as the model, which says what both must come to, but its FCS
   goes by words, and is the faster for it. */
#include "measure.h"
#include "plain.h"
#include "runs.h"

#include "../../include/logodwen.h"
#include "../model/model.h"

#include <string.h>

enum { SEGMENTS = 4, COPIED = LOGODWEN_SAVED_COPIED << 4, REDUCED = LOGODWEN_SAVED_REDUCED << 4, LOST = LOGODWEN_SAVED_LOST << 4 };

static uint16_t first[FULL], second[FULL], expected[FULL];
static volatile uint64_t answered;

/* Plain C. */

/* Where a segment ends by its header; 0 where that leads out, or is an odd number of PM words. */
static size_t plain_led_to(const uint16_t *words, size_t n, size_t at) {
    if (n - at < 2)
        return 0;
    unsigned memory = words[at] >> 14, length = words[at] & 0x3FFF;
    size_t past = at + 2 + (memory == 0 ? length / 2 * 3 : length);
    return past > n || (memory == 0 && length % 2 != 0) ? 0 : past;
}

/* Where the last segment ends, or 0: the headers alone are looked at. */
static size_t plain_followed(const uint16_t *words, size_t n) {
    unsigned left = words[0] & 15;
    size_t at = words[0] >> 15 != 0 || left == 0 || left == 15 ? 0 : 1;
    for (; left != 0 && at != 0; left--)
        at = plain_led_to(words, n, at);
    return at;
}

static unsigned plain_salvage_sector(const uint16_t *from, size_t n, uint16_t *to) {
    unsigned count = from[0] & 15, kept = 0;
    size_t end = plain_followed(from, n), put = 1;
    if (end == 0)
        return plain_is_empty(from, n) ? COPIED : LOST;
    for (size_t at = 1, past; at < end; at = past) {
        past = plain_led_to(from, n, at);
        if (plain_segment_end(from, n, at) == 0)
            continue;
        memcpy(to + put, from + at, 2 * (past - at));
        put += past - at;
        kept++;
    }
    if (kept == 0)
        return LOST;
    to[0] = (uint16_t)(from[0] - count + kept);
    return kept | (kept == count && plain_is_empty(from + end, n - end) ? COPIED : REDUCED);
}

static uint64_t plain_salvage(void) {
    uint64_t number = 0;
    if (second[0] != 0xFFFF || memcmp(second, second + 1, sizeof second - sizeof *second) != 0) /* each word is as the one before */
        return LOGODWEN_REFUSED_SECOND;
    for (unsigned sector = SECTOR_FIRST; sector <= SECTOR_LAST; sector++) {
        size_t at = plain_sector_start(FULL, sector);
        uint64_t saved = plain_salvage_sector(first + at, plain_sector_size(FULL, sector), second + at);
        number |= saved << (8 + 6 * (sector - SECTOR_FIRST));
    }
    return number;
}

/* A file of four DM segments that fills a sector; one of them has a wrong FCS where `broken` is its number, from 1 on. They are of four lengths:
   what is copied to a place that is a few bytes off by whole pages, as behind a segment of nearly 16 KiB, takes some machines ten times as long,
   and that would be what is measured. */
static void lay_file(uint16_t *words, size_t n, unsigned broken) {
    size_t at = 1;
    words[0] = 0x7420 | SEGMENTS;
    for (unsigned number = 1; number <= SEGMENTS; number++) {
        size_t body = at + 2, last = number < SEGMENTS ? at + n * number / 10 : n - 1;
        words[at] = (uint16_t)(0x4000 | (last + 1 - body));
        words[at + 1] = 0x2000;
        for (size_t i = body; i < last; i++)
            words[i] = (uint16_t)(i * 40503u);
        words[last] = (uint16_t)(plain_fcs(words + body, last - body) ^ (number == broken));
        at = last + 1;
    }
}

static void lay_flash(unsigned broken) {
    memset(first, 0xFF, sizeof first);
    for (unsigned sector = SECTOR_FIRST; sector <= SECTOR_LAST; sector++)
        lay_file(first + plain_sector_start(FULL, sector), plain_sector_size(FULL, sector), broken);
}

static void blank_second(void) { memset(second, 0xFF, sizeof second); }

static void saves(bool plain) {
    answered = plain ? plain_salvage() : logodwen_salvage((const uint8_t *)first, sizeof first, (uint8_t *)second, sizeof second);
}

/* A flash in which each sector comes to the same, by the model too. */
static int salvage_of(const struct row *row, unsigned broken, uint64_t comes_to) {
    uint64_t number = 0;
    for (unsigned sector = SECTOR_FIRST; sector <= SECTOR_LAST; sector++)
        number |= comes_to << (8 + 6 * (sector - SECTOR_FIRST));
    lay_flash(broken);
    memset(expected, 0xFF, sizeof expected);
    bool is_same = model_salvage((const uint8_t *)first, sizeof first, (uint8_t *)expected, sizeof expected) == number;
    for (int plain = 0; plain < 2; plain++) {
        blank_second();
        saves(plain != 0);
        is_same = is_same && answered == number && memcmp(second, expected, sizeof second) == 0;
    }
    return is_same ? measure(row, 1) : measure_differs(row->what);
}

int perf_salvage_runs(void) {
    static const struct row good = {"salvage of eight full sectors, full size", blank_second, saves, 1, 1.20},
                            bad = {"salvage of such, one segment of four broken", blank_second, saves, 1, 1.20};
    return salvage_of(&good, 0, COPIED | SEGMENTS) + salvage_of(&bad, 2, REDUCED | (SEGMENTS - 1));
}
