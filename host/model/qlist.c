/* 02, request 7, and sections 7.42 to 7.44 and 13 of the note: the Q-List, worked on where it stands. A record is header, repetitions,
   frequency, two parameters and due time; an entry in a write or in a reply has all but the last. */
#include "model.h"

#include <string.h>

enum { HEADER, REPETITIONS, FREQUENCY, DUE = 5, RECORD = 7 }; /* words of a record */
enum { ENTRY = DUE, ENTRY_BYTES = 2 * ENTRY, DUE_AT = 2 * DUE, FIRST = 0x0008 };

size_t model_records(struct run list) { return list.words / RECORD; }

static uint8_t *record_at(struct run list, size_t place) { return list.bytes + RECORD_BYTES * place; }

/* The frequency: its high eight bits stand in the header. */
static uint32_t ticks(const uint8_t *entry) { return (uint32_t)(word_at(entry, HEADER) >> 8) << 16 | word_at(entry, FREQUENCY); }

/* It has a frequency, and it is not delayed: the header says First. */
static bool may_be_written(const uint8_t *entry) { return ticks(entry) != 0 && (word_at(entry, HEADER) & FIRST) != 0; }

/* The body is a count and so many entries, and all of them have room; they are added whole or not at all. */
bool model_list_write(struct run list, uint16_t *listed, const uint8_t *body, size_t n, uint32_t now) {
    size_t count = word_at(body, 0);
    const uint8_t *entries = body + 2;
    if (n != 1 + ENTRY * count || *listed + count > model_records(list))
        return false;
    for (size_t i = 0; i < count; i++)
        if (!may_be_written(entries + ENTRY_BYTES * i))
            return false;
    for (size_t i = 0; i < count; i++) {
        uint8_t *record = record_at(list, *listed + i);
        memcpy(record, entries + ENTRY_BYTES * i, ENTRY_BYTES);
        put_long(record, DUE_AT, now + ticks(record));
    }
    *listed += (uint16_t)count;
    return true;
}

void model_list_clear(struct run list, size_t place) { put_word(record_at(list, place), REPETITIONS, 0); }

/* What stood in the places that are freed stays there. */
uint16_t model_list_close_up(struct run list, uint16_t listed) {
    uint16_t staying = 0;
    for (size_t place = 0; place < listed; place++) {
        const uint8_t *record = record_at(list, place);
        if (word_at(record, REPETITIONS) == 0)
            continue;
        if (staying != place)
            memcpy(record_at(list, staying), record, RECORD_BYTES);
        staying++;
    }
    return staying;
}

size_t model_list_read(struct run list, uint16_t listed, uint8_t *reply) {
    put_word(reply, 0, listed);
    for (size_t place = 0; place < listed; place++)
        memcpy(reply + 2 + ENTRY_BYTES * place, record_at(list, place), ENTRY_BYTES);
    return 1 + ENTRY * (size_t)listed;
}

/* Due is what lies behind now by less than half of the clock. */
bool model_list_step(struct run list, size_t place, uint32_t now) {
    uint8_t *record = record_at(list, place);
    uint32_t due = long_at(record, DUE_AT);
    unsigned repetitions = word_at(record, REPETITIONS);
    if ((uint32_t)(now - due) >> 31 != 0 || repetitions == 0)
        return false;
    put_word(record, REPETITIONS, repetitions - 1);
    put_long(record, DUE_AT, due + ticks(record));
    return true;
}
