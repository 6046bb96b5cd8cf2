#include "plain.h"

#include <string.h>

static uint16_t table[256];

static void fill_table(void) {
    for (unsigned i = 0; i < 256; i++) {
        unsigned c = 0, d = i << 8;
        for (int k = 0; k < 8; k++, d <<= 1)
            c = ((c ^ d) & 0x8000) ? (c << 1) ^ 0x1021 : c << 1;
        table[i] = (uint16_t)c;
    }
}

uint16_t plain_fcs(const uint16_t *words, size_t n) {
    if (table[1] == 0)
        fill_table();
    uint16_t c = 0xFFFF;
    for (size_t i = 0; i < n; i++) {
        c = (uint16_t)(table[(c >> 8) ^ (words[i] >> 8)] ^ (c << 8));
        c = (uint16_t)(table[(c >> 8) ^ (words[i] & 0xFF)] ^ (c << 8));
    }
    return c;
}

size_t plain_segment_end(const uint16_t *words, size_t n, size_t at) {
    if (n - at < 2)
        return 0;
    unsigned memory = words[at] >> 14, length = words[at] & 0x3FFF, page = words[at + 1] >> 14;
    size_t body = length;
    if (memory == 0) {
        if (length < 2 || length % 2 != 0)
            return 0;
        body = length / 2 * 3;
    } else if (memory == 1) {
        if (length < 2)
            return 0;
    } else if (length < 3 || length % 2 == 0) {
        return 0;
    }
    if (memory < 2 && page == 1)
        return 0;
    const uint16_t *from = words + at + 2;
    if (n - at - 2 < body || from[body - 1] != plain_fcs(from, body - 1))
        return 0;
    if (memory == 0 && from[body - 2] % 256 != 0)
        return 0;
    return at + 2 + body;
}

size_t plain_file_end(const uint16_t *words, size_t n) {
    if (n == 0)
        return 0;
    unsigned left = words[0] & 15;
    if (words[0] >> 15 != 0 || left < 1 || left > 14)
        return 0;
    size_t at = 1;
    for (; left != 0; left--) {
        at = plain_segment_end(words, n, at);
        if (at == 0)
            return 0;
    }
    return at;
}

size_t plain_sector_start(size_t flash, size_t sector) { return sector == 3 ? flash / 16 : (sector - 3) * (flash / 8); }

size_t plain_sector_size(size_t flash, size_t sector) { return sector == 3 ? flash / 16 : flash / 8; }

uint16_t plain_sector_address(size_t sector) { return (uint16_t)(sector == 3 ? 0x200 : (sector - 3) * 0x400); }

/* Four words at a time, as the best plain C does: most of a flash is blank. */
bool plain_is_empty(const uint16_t *sector, size_t n) {
    size_t i = 0;
    for (uint64_t four; i + 4 <= n; i += 4) {
        memcpy(&four, sector + i, sizeof four);
        if (four != UINT64_MAX)
            return false;
    }
    for (; i < n; i++)
        if (sector[i] != 0xFFFF)
            return false;
    return true;
}

size_t plain_good_file(const uint16_t *sector, size_t n) {
    size_t length = plain_file_end(sector, n);
    return length != 0 && plain_is_empty(sector + length, n - length) ? length : 0;
}

void plain_lay_file(uint16_t *words, size_t n) {
    enum { LONGEST = 16383 };
    size_t at = 1;
    unsigned segments = 0;
    while (at < n) {
        size_t left = n - at - 2, length = left <= LONGEST ? left : left - LONGEST < 4 ? LONGEST - 4 : LONGEST;
        uint16_t *body = words + at + 2;
        words[at] = (uint16_t)(0x4000 | length);
        words[at + 1] = 0x8123;
        for (size_t i = 0; i < length - 1; i++)
            body[i] = (uint16_t)((at + i) * 40503u + 12345u);
        body[length - 1] = plain_fcs(body, length - 1);
        at += 2 + length;
        segments++;
    }
    words[0] = (uint16_t)(0x3210 | segments);
}
