/* Why words are no valid file, by 01 'Files and memories'. The node decides whether an image is valid; this says why not, and
   verdict.c notices where the two disagree. */
#include "audit.h"

/* Where a segment stands, for a message: "segment 2 of 3" of an image, or of a sector. */
struct which {
    unsigned segment, of;
    const char *whole;
};

/* Bits 15-14 of a segment's first word: its memory, which lengths it permits, and whether its page counts. */
static const struct memory {
    const char *name, *lengths;
    unsigned least, odd; /* odd: the remainder modulo 2 that a length has, 2 where any does */
    bool has_page;
} memories[4] = {
    {"PM", "an even length, 2 or more", 2, 0, true},
    {"DM", "a length of 2 or more", 2, 2, true},
    {"IO", "an odd length, 3 or more", 3, 1, false},
    {"IO", "an odd length, 3 or more", 3, 1, false},
};

static bool permits(const struct memory *memory, unsigned length) {
    return length >= memory->least && (memory->odd == 2 || length % 2 == memory->odd);
}

static bool is_header_right(const uint8_t *words, size_t at, struct which which, char *why) {
    unsigned first = logodwen_get(words, at), page = logodwen_get(words, at + 1) >> 14, length = first & 0x3FFFu;
    const struct memory *memory = &memories[first >> 14];
    if (!permits(memory, length))
        return say(why, "word %zu: segment %u of %u is %s of length %u; %s has %s", at, which.segment, which.of, memory->name, length,
                   memory->name, memory->lengths);
    if (memory->has_page && page == 1)
        return say(why, "word %zu: segment %u of %u is %s with page 01; a page is 00, 10 or 11", at + 1, which.segment, which.of,
                   memory->name);
    return true;
}

/* The packet words of a body, FCS included: two PM words take three. */
static size_t body_words(unsigned first) { return first >> 14 == 0 ? (size_t)(first & 0x3FFFu) / 2 * 3 : first & 0x3FFFu; }

static bool is_body_right(const uint8_t *words, size_t body, size_t size, bool is_pm, struct which which, char *why) {
    size_t last = body + size - 1;
    unsigned said = logodwen_get(words, last), is = logodwen_fcs(words + 2 * body, size - 1);
    unsigned before = logodwen_get(words, last - 1) & 0xFFu;
    if (is_pm && before != 0)
        return say(why, "word %zu: segment %u of %u has the byte %02X before its FCS; PM has a zero byte there", last - 1,
                   which.segment, which.of, before);
    if (said != is)
        return say(why, "word %zu: segment %u of %u has the FCS %04X; its body's is %04X", last, which.segment, which.of, said, is);
    return true;
}

/* Whether words that a segment needs are there. */
static bool are_there(size_t count, size_t end, const char *part, struct which which, char *why) {
    if (end <= count)
        return true;
    return say(why, "word %zu: the %s ends in segment %u of %u; %s words missing: %zu", count, which.whole, which.segment, which.of, part,
               end - count);
}

/* The place past the valid segment at a place, 0 where there is none. */
static size_t past_segment(const uint8_t *words, size_t count, size_t at, struct which which, char *why) {
    if (!are_there(count, at + 2, "header", which, why) || !is_header_right(words, at, which, why))
        return 0;
    unsigned first = logodwen_get(words, at);
    size_t body = at + 2, size = body_words(first);
    if (!are_there(count, body + size, "body", which, why) || !is_body_right(words, body, size, first >> 14 == 0, which, why))
        return 0;
    return body + size;
}

bool rules_may_begin(unsigned header) { return header < 0x8000u && (header & 15u) >= 1 && (header & 15u) <= 14; }

static bool is_first_word_right(const uint8_t *words, size_t count, char *why) {
    if (count == 0)
        return say(why, "word 0: there are no words; a file begins with a header word");
    unsigned header = logodwen_get(words, 0);
    if (header >= 0x8000u)
        return say(why, "word 0: header %04X has type 1%u; a file has type 00 (program) or 01 (data)", header, header >> 14 & 1u);
    if (!rules_may_begin(header))
        return say(why, "word 0: header %04X has %u segments; a file has 1 to 14", header, header & 15u);
    return true;
}

size_t rules_file_length(const uint8_t *words, size_t count, const char *whole, char *why) {
    if (!is_first_word_right(words, count, why))
        return 0;
    struct which which = {1, logodwen_get(words, 0) & 15u, whole};
    size_t at = 1;
    for (; at != 0 && which.segment <= which.of; which.segment++)
        at = past_segment(words, count, at, which, why);
    return at;
}

bool rules_is_file(const uint8_t *words, size_t count, char *why) {
    size_t length = rules_file_length(words, count, "image", why);
    if (length == 0 || length == count)
        return length != 0;
    unsigned segments = logodwen_get(words, 0) & 15u;
    return say(why, "word %zu: the file ended with segment %u of %u; words left over: %zu", length, segments, segments, count - length);
}
