/* 01 'Files and memories': where a run of addresses stands, and segments in and out. */
#include "model.h"

enum { HALF = 0x2000 };

/* Fixed memory, PM 0000-1FFF and DM 2000-3FFF, stands at index 0 up; the other half of pages 0, 4 and 5 at 2000, 4000, 6000. */
static size_t index_of(enum memory memory, unsigned page, unsigned address) {
    bool fixed = memory == PM ? address < HALF : address >= HALF;
    if (fixed)
        return address % HALF;
    return address % HALF + (page == 0 ? 0x2000 : page == 2 ? 0x4000 : 0x6000);
}

static struct run lent_memory(enum memory memory, const struct lent *lent) {
    return memory == PM ? lent->pm : memory == DM ? lent->dm : lent->io;
}

/* Length L moves L-1 memory words; none may lie past 3FFF or past the lent memory. */
bool model_run_is_lent(const struct segment *header, const struct lent *lent) {
    unsigned count = header->length - 1;
    if (header->address + count > 2 * HALF)
        return false;
    for (unsigned i = 0; i < count; i++)
        if (index_of(header->memory, header->page, header->address + i) >= lent_memory(header->memory, lent).words)
            return false;
    return true;
}

/* Bits 11-0 below the lent IO, bits 15-13 zero. */
static bool is_register(unsigned word, const struct lent *lent) { return word >> 13 == 0 && (word & 0x0FFF) < lent->io.words; }

bool model_fits(const uint8_t *words, const struct segment *segment, const struct lent *lent) {
    if (segment->memory != IO)
        return model_run_is_lent(segment, lent);
    for (unsigned i = 0; i + 1 < segment->length; i += 2)
        if (!is_register(word_at(words, segment->body + i), lent))
            return false;
    return true;
}

/* The byte of a body at a place, the high byte of each word first. */
static unsigned body_byte(const uint8_t *words, size_t body, size_t place) { return words[2 * (body + place / 2) + 1 - place % 2]; }

static void put_pm(uint8_t *bytes, size_t at, unsigned high, unsigned middle, unsigned low) {
    bytes[4 * at] = (uint8_t)low;
    bytes[4 * at + 1] = (uint8_t)middle;
    bytes[4 * at + 2] = (uint8_t)high;
    bytes[4 * at + 3] = 0;
}

static void store_pairs(const uint8_t *words, const struct segment *segment, const struct lent *lent) {
    for (unsigned i = 0; i + 1 < segment->length; i += 2) {
        unsigned word = word_at(words, segment->body + i);
        if (word & 0x1000)
            put_word(lent->io.bytes, word & 0x0FFF, word_at(words, segment->body + i + 1));
    }
}

/* Stores a segment that fits. */
void model_store(const uint8_t *words, const struct segment *segment, const struct lent *lent) {
    if (segment->memory == IO) {
        store_pairs(words, segment, lent);
        return;
    }
    for (unsigned i = 0; i + 1 < segment->length; i++) {
        size_t at = index_of(segment->memory, segment->page, segment->address + i), body = segment->body;
        if (segment->memory == DM)
            put_word(lent->dm.bytes, at, word_at(words, body + i));
        else
            put_pm(lent->pm.bytes, at, body_byte(words, body, 3 * i), body_byte(words, body, 3 * i + 1),
                   body_byte(words, body, 3 * i + 2));
    }
}

/* Perform IO: the pairs in order; the segment goes into the reply with the read values filled in and its FCS renewed. */
void model_perform(const uint8_t *words, const struct segment *segment, const struct lent *lent) {
    uint8_t *reply = lent->reply.bytes;
    put_word(reply, 0, word_at(words, segment->body - 2));
    put_word(reply, 1, word_at(words, segment->body - 1));
    for (unsigned i = 0; i + 1 < segment->length; i += 2) {
        unsigned word = word_at(words, segment->body + i), at = word & 0x0FFF;
        if (word & 0x1000)
            put_word(lent->io.bytes, at, word_at(words, segment->body + i + 1));
        put_word(reply, 2 + i, word);
        put_word(reply, 3 + i, word_at(lent->io.bytes, at));
    }
    put_word(reply, 1 + segment->length, model_fcs(reply + 4, segment->length - 1));
}

/* The data words of a Memory Read. */
size_t model_read_size(const struct segment *header) { return 2 + header->size; }

/* The header words, the L-1 memory words packed as a body, and the body FCS, into the reply. */
void model_read(const struct segment *header, const struct lent *lent) {
    uint8_t *reply = lent->reply.bytes;
    put_word(reply, 0, (unsigned)header->memory << 14 | header->length);
    put_word(reply, 1, header->page << 14 | header->address);
    unsigned count = header->length - 1;
    for (unsigned i = 0; i < count; i++) {
        size_t at = index_of(header->memory, header->page, header->address + i);
        if (header->memory == DM) {
            put_word(reply, 2 + i, word_at(lent->dm.bytes, at));
            continue;
        }
        for (unsigned k = 0; k < 3; k++) {
            size_t place = 3 * i + k;
            reply[2 * (2 + place / 2) + 1 - place % 2] = lent->pm.bytes[4 * at + 2 - k];
        }
    }
    if (header->memory == PM)
        reply[2 * (2 + 3 * count / 2)] = 0;
    put_word(reply, 1 + header->size, model_fcs(reply + 4, header->size - 1));
}
