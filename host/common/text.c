/* Texts: what is said into a room, and names that can be taken for nothing else. Every other file rests on this one, and this on none. */
#include "common.h"

#include <stdarg.h>
#include <string.h>

bool say(char *room, const char *form, ...) {
    va_list values;
    va_start(values, form);
    vsnprintf(room, TEXT, form, values);
    va_end(values);
    return false;
}

/* The bytes of the UTF-8 character that begins a text; 0 where none does. */
static size_t character(const unsigned char *text) {
    static const struct {
        unsigned char mask, mark;
        size_t bytes;
        uint32_t least;
    } forms[] = {{0x80, 0x00, 1, 0}, {0xE0, 0xC0, 2, 0x80}, {0xF0, 0xE0, 3, 0x800}, {0xF8, 0xF0, 4, 0x10000}};
    for (size_t form = 0; form < sizeof forms / sizeof *forms; form++) {
        if ((text[0] & forms[form].mask) != forms[form].mark)
            continue;
        uint32_t code = text[0] & (uint32_t)(unsigned char)~forms[form].mask;
        for (size_t i = 1; i < forms[form].bytes; i++) {
            if ((text[i] & 0xC0u) != 0x80u)
                return 0;
            code = code << 6 | (text[i] & 0x3Fu);
        }
        bool is_surrogate = code >= 0xD800 && code <= 0xDFFF;
        return code >= forms[form].least && code <= 0x10FFFF && !is_surrogate ? forms[form].bytes : 0;
    }
    return 0;
}

/* A control character, of ASCII or behind it (C2 80 to C2 9F, which some terminals obey). */
static bool is_control(const unsigned char *text) {
    return text[0] < 0x20 || text[0] == 0x7F || (text[0] == 0xC2 && text[1] >= 0x80 && text[1] <= 0x9F);
}

/* Whether a name stands in a report as it is: it is text, it is no number, as a line of a table begins with, and it begins and ends with
   nothing that begins a comment or a quoted name, or is overlooked. */
static bool is_plain(const char *name) {
    size_t length = strlen(name);
    if (length == 0 || strchr("# \"", name[0]) != NULL || name[length - 1] == ' ' || strspn(name, "0123456789") == length)
        return false;
    for (const unsigned char *at = (const unsigned char *)name; *at != 0; at += character(at))
        if (character(at) == 0 || is_control(at) || *at == '\\')
            return false;
    return true;
}

/* How bytes that are no text, and control characters, stand between quotes. JSON has no bytes; there one that is no text is the lone
   surrogate that Python reads and writes for it (`surrogateescape`). */
struct quoting {
    const char *byte, *control;
};
static const struct quoting for_people = {"\\x%02X", "\\u%04X"}, for_json = {"\\udc%02x", "\\u%04x"};

enum { LONGEST = 8 }; /* bytes of one character between quotes, at most, with its end */

/* One character between quotes; answers how many bytes of the name it was. */
static size_t quote_one(const unsigned char *at, struct quoting quoting, char *room) {
    static const char named[] = "\"\\\b\f\n\r\t", letters[] = "\"\\bfnrt";
    const char *found = strchr(named, (char)*at);
    size_t bytes = character(at);
    if (found != NULL)
        snprintf(room, LONGEST, "\\%c", letters[found - named]);
    else if (bytes == 0)
        snprintf(room, LONGEST, quoting.byte, (unsigned)*at);
    else if (is_control(at))
        snprintf(room, LONGEST, quoting.control, bytes == 1 ? (unsigned)*at : (unsigned)at[1]);
    else
        snprintf(room, LONGEST, "%.*s", (int)bytes, (const char *)at);
    return bytes == 0 ? 1 : bytes;
}

static const char *quoted(const char *name, struct quoting quoting, struct text *text) {
    size_t length = 0;
    text->room[length++] = '"';
    for (const unsigned char *at = (const unsigned char *)name; *at != 0 && length + LONGEST + 2 < sizeof text->room;) {
        at += quote_one(at, quoting, text->room + length);
        length += strlen(text->room + length);
    }
    strcpy(text->room + length, "\"");
    return text->room;
}

const char *shown(const char *name, struct text *text) { return is_plain(name) ? name : quoted(name, for_people, text); }

const char *in_json(const char *name, struct text *text) { return quoted(name, for_json, text); }
