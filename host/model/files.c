/* 01 'Check sequence' and 'Files and memories': the FCS, segments and files as words. */
#include "model.h"

static uint16_t table[256];

static void fill_table(void) {
    for (unsigned i = 0; i < 256; i++) {
        unsigned value = i << 8;
        for (int bit = 0; bit < 8; bit++)
            value = value & 0x8000 ? value << 1 ^ 0x1021 : value << 1;
        table[i] = (uint16_t)value;
    }
}

/* Polynomial 0x1021, start 0xFFFF, most significant bit first, high byte of each word first. */
uint16_t model_fcs(const uint8_t *bytes, size_t words) { return model_fcs_on(0xFFFF, bytes, words); }

uint16_t model_fcs_on(uint16_t before, const uint8_t *bytes, size_t words) {
    if (table[1] == 0)
        fill_table();
    unsigned value = before;
    for (size_t i = 0; i < words; i++) {
        value = table[value >> 8 ^ bytes[2 * i + 1]] ^ (value << 8 & 0xFFFF);
        value = table[value >> 8 ^ bytes[2 * i]] ^ (value << 8 & 0xFFFF);
    }
    return (uint16_t)value;
}

/* Whether two header words have a permitted length and, for PM and DM, a page other than 01. */
bool model_segment_header(unsigned first, unsigned second, struct segment *segment) {
    unsigned bits = first >> 14, length = first & 0x3FFF, page = second >> 14;
    segment->memory = bits == 0 ? PM : bits == 1 ? DM : IO;
    segment->length = length;
    segment->page = page;
    segment->address = second & 0x3FFF;
    segment->size = segment->memory == PM ? length / 2 * 3 : length;
    if (segment->memory == IO)
        return length >= 3 && length % 2 == 1;
    if (segment->memory == PM && length % 2 != 0)
        return false;
    return length >= 2 && page != 1;
}

/* Whether a valid segment stands at a place and ends inside the words. */
bool model_segment_at(const uint8_t *words, size_t n, size_t at, struct segment *segment) {
    if (n < at + 2 || !model_segment_header(word_at(words, at), word_at(words, at + 1), segment))
        return false;
    segment->body = at + 2;
    if (n - segment->body < segment->size)
        return false;
    size_t last = segment->body + segment->size - 1;
    if (segment->memory == PM && (word_at(words, last - 1) & 0xFF) != 0)
        return false;
    return word_at(words, last) == model_fcs(words + 2 * segment->body, segment->size - 1);
}

/* Type 00 or 01, 1 to 14 segments. */
bool model_may_start(unsigned header) { return header < 0x8000 && (header & 15) != 0 && (header & 15) != 15; }

size_t model_file_length(const uint8_t *words, size_t n) {
    if (n == 0 || !model_may_start(word_at(words, 0)))
        return 0;
    size_t at = 1;
    for (unsigned left = word_at(words, 0) & 15; left > 0; left--) {
        struct segment segment;
        if (!model_segment_at(words, n, at, &segment))
            return 0;
        at = segment.body + segment.size;
    }
    return at;
}
