/* Hex text: words of four hex digits, parted by white space, with comments from # to the end of the line. A line ends with \n, \r\n or \r.
   The text is ASCII; where it is said to be hex text it may also begin with a byte-order mark, be in UTF-16, and have comments in UTF-8. */
#include "common.h"

#include <ctype.h>
#include <string.h>

bool hex_is_ascii(const uint8_t *bytes, size_t count) {
    for (size_t i = 0; i < count; i++)
        if (bytes[i] > 0x7E || (bytes[i] < 0x20 && !isspace(bytes[i])))
            return false;
    return true;
}

/* The text behind forms of text other than ASCII. */

static const uint8_t mark[3] = {0xEF, 0xBB, 0xBF}; /* the byte-order mark in UTF-8 */

static bool has_mark(const uint8_t *bytes, size_t count) { return count >= sizeof mark && memcmp(bytes, mark, sizeof mark) == 0; }

/* How many characters of UTF-16 from a place on are text in ASCII. */
static size_t wide_ascii(const uint8_t *bytes, size_t count, size_t at, size_t low) {
    size_t from = at;
    while (at < count && bytes[at + 1 - low] == 0 && hex_is_ascii(bytes + at + low, 1))
        at += 2;
    return (at - from) / 2;
}

/* UTF-16: a byte-order mark with ASCII behind it, or no mark and ASCII alone. The place of the low byte in a pair, or -1. */
static int low_byte(const uint8_t *bytes, size_t count) {
    if (count < 4 || count % 2 != 0)
        return -1;
    for (int low = 0; low < 2; low++) {
        bool is_marked = bytes[low] == 0xFF && bytes[1 - low] == 0xFE;
        if (is_marked ? wide_ascii(bytes, count, 2, (size_t)low) > 0 : wide_ascii(bytes, count, 0, (size_t)low) == count / 2)
            return low;
    }
    return -1;
}

/* UTF-16 to a byte a character, in place: 0 is no text, and stands for a character that is not in ASCII. How many bytes they are. */
static size_t narrow(uint8_t *bytes, size_t count, size_t low) {
    size_t narrowed = 0;
    for (size_t at = bytes[0] >= 0xFE ? 2 : 0; at < count; at += 2)
        bytes[narrowed++] = bytes[at + 1 - low] == 0 ? bytes[at + low] : 0;
    return narrowed;
}

/* The words. */

static unsigned hex_digit(uint8_t c) { return c <= '9' ? c - (unsigned)'0' : (c | 0x20u) - (unsigned)'a' + 10u; }

/* Whether four hex digits stand at a place, and nothing of the word behind them. */
static bool is_hex_word(const uint8_t *at, size_t length) {
    return length == 4 && isxdigit(at[0]) && isxdigit(at[1]) && isxdigit(at[2]) && isxdigit(at[3]);
}

static bool is_line_end(uint8_t byte) { return byte == '\n' || byte == '\r'; }

/* What stands between white space and comments, from a place on. */
static size_t token_length(const uint8_t *bytes, size_t count, size_t at) {
    size_t end = at;
    while (end < count && !isspace(bytes[end]) && bytes[end] != '#')
        end++;
    return end - at;
}

static bool say_no_word(const uint8_t *at, size_t length, size_t line, char *why) {
    enum { SHOWN = 12 };
    char shown[SHOWN + 1] = "";
    for (size_t i = 0; i < length && i < SHOWN; i++)
        shown[i] = (char)(isprint(at[i]) ? at[i] : '?');
    return say(why, "line %zu: '%s%s' is no word of four hex digits; for raw words give --raw", line, shown, length > SHOWN ? ".." : "");
}

/* A place past a comment or one byte of white space; a line is counted at its end, \r\n once. */
static size_t past_blank(const uint8_t *bytes, size_t count, size_t at, size_t *line) {
    if (bytes[at] == '#')
        while (at < count && !is_line_end(bytes[at]))
            at++;
    else
        *line += bytes[at] == '\n' || (bytes[at] == '\r' && (at + 1 == count || bytes[at + 1] != '\n')), at++;
    return at;
}

/* Text of a byte a character to words, in place: a word takes four bytes of text or more. */
static bool take(uint8_t *words, const uint8_t *text, size_t count, size_t *taken, char *why) {
    size_t line = 1;
    *taken = 0;
    for (size_t at = 0; at < count;) {
        size_t length = token_length(text, count, at);
        if (length == 0) {
            at = past_blank(text, count, at, &line);
        } else if (is_hex_word(text + at, length)) {
            unsigned high = hex_digit(text[at]) << 4 | hex_digit(text[at + 1]);
            unsigned low = hex_digit(text[at + 2]) << 4 | hex_digit(text[at + 3]);
            logodwen_put(words, (*taken)++, (uint16_t)(high << 8 | low));
            at += length;
        } else {
            return say_no_word(text + at, length, line, why);
        }
    }
    return true;
}

bool hex_take(uint8_t *bytes, size_t count, size_t *words, char *why) {
    int low = low_byte(bytes, count);
    if (low >= 0)
        count = narrow(bytes, count, (size_t)low);
    size_t begin = has_mark(bytes, count) ? sizeof mark : 0;
    return take(bytes, bytes + begin, count - begin, words, why);
}

/* Whether the text, a byte a character, begins with a word of hex, white space and comments before it. */
static bool begins_with_word(const uint8_t *text, size_t count) {
    size_t at = 0, line = 0;
    while (at < count && token_length(text, count, at) == 0)
        at = past_blank(text, count, at, &line);
    return at < count && is_hex_word(text + at, token_length(text, count, at));
}

/* Whether no byte is a control character. */
static bool may_be_text(const uint8_t *bytes, size_t count) {
    for (size_t i = 0; i < count; i++)
        if (bytes[i] == 0x7F || (bytes[i] < 0x20 && !isspace(bytes[i])))
            return false;
    return true;
}

const char *hex_kind(const uint8_t *bytes, size_t count) {
    if (low_byte(bytes, count) >= 0)
        return "text in UTF-16";
    if (has_mark(bytes, count))
        return "text with a byte-order mark";
    return may_be_text(bytes, count) && begins_with_word(bytes, count) ? "hex text with characters that are not in ASCII" : NULL;
}
