/* Sets of numbers below 32, bit n for number n, and how they are told. */
#include "common.h"

unsigned set_count(uint32_t set) {
    unsigned count = 0;
    for (; set != 0; set &= set - 1)
        count++;
    return count;
}

bool set_is_one(uint32_t set) { return set_count(set) == 1; }

unsigned set_lowest(uint32_t set) {
    unsigned number = 0;
    while (set != 0 && (set >> number & 1u) == 0)
        number++;
    return number;
}

void set_list(uint32_t set, const char *word, const char *last, char *text) {
    size_t length = 0;
    text[0] = 0;
    for (; set != 0; set &= set - 1) {
        const char *parting = length == 0 ? "" : set_is_one(set) ? last : ", ";
        length += (size_t)snprintf(text + length, TEXT - length, "%s%s%u", parting, word, set_lowest(set));
    }
}

void set_text(uint32_t set, const char *what, char *text) {
    char numbers[TEXT];
    set_list(set, "", " and ", numbers);
    if (set == 0)
        say(text, "no %s", what);
    else
        say(text, "%s%s %s", what, set_is_one(set) ? "" : "s", numbers);
}
