/* What words are by 01 'Group assembly' and 02, requests 3 and 8: the fragments that they begin with, and the first word that breaks a rule. The
   proved reader decides whether they are a group's reply; this says why not, and verdict.c notices where the two disagree.

   A word is judged as soon as it can be: a length word by itself, all else of a fragment at its status word, since before that any words
   could be data; the node's status word and the FCS at themselves. */
#include "capture.h"

#include <stdarg.h>

/* The walk over a capture: the slave whose fragment is next, and those of the mask behind it. */
struct walk {
    const uint8_t *words;
    size_t count;
    unsigned slave;
    uint32_t to_come;
    struct found *found;
};

static unsigned word_at(const struct walk *walk, size_t at) { return logodwen_get(walk->words, at); }

/* That a rule is broken, at which word, and how. */
static bool breaks(struct found *found, const char *rule, size_t place, const char *form, ...) {
    va_list values;
    va_start(values, form);
    vsnprintf(found->why, sizeof found->why, form, values);
    va_end(values);
    found->rule = rule;
    found->place = place;
    return false;
}

static const char *plural(size_t count) { return count == 1 ? "" : "s"; }

/* The longest reply of this slave's that there is room for, words of status and FCS included: of the 12,288 of the whole, those before it,
   five for each slave to come and the last two are taken. */
static size_t room(const struct walk *walk) {
    return LOGODWEN_REPLY_WORDS - walk->found->tail - 5 * (size_t)set_count(walk->to_come) - LOGODWEN_TAIL_WORDS;
}

static bool is_length_right(struct walk *walk) {
    size_t at = walk->found->tail, length = word_at(walk, at), longest = room(walk) - 1;
    unsigned to_come = set_count(walk->to_come);
    if (length == 0)
        return breaks(walk->found, "length", at, "slave %u's fragment begins with the length 0; it is 1 or more, with the status word",
                      walk->slave);
    if (length > longest)
        return breaks(walk->found, "room", at,
                      "slave %u's fragment begins with the length %zu; it is at most %zu, with %zu word%s before it, %u slave%s to come "
                      "and 12,288 words in all",
                      walk->slave, length, longest, at, plural(at), to_come, plural(to_come));
    return true;
}

/* Bounds of a reply's length that depend on the room: the longest that there is room for, and the shortest that there is none for. They
   are above FFFF, which stands for more than a word can tell. */
enum { MORE = 0xFFFF, ROOM, PAST_ROOM };

/* Of each code that there is: the length of its fragment, 0 where any will do, and which lengths of a reply go with it. */
static const struct code {
    unsigned code;
    size_t length;
    unsigned least, most; /* 0 where the fragment tells none */
} codes[] = {
    {LOGODWEN_CODE_NEXT, 1, 0, 0},
    {LOGODWEN_CODE_ABORT, 1, 0, 0},
    {LOGODWEN_CODE_ERROR, 1, 0, 0},
    {LOGODWEN_CODE_END, 1, 0, 0},
    {LOGODWEN_CODE_LATE, 1, 0, 0},
    {LOGODWEN_CODE_ERRORS, 3, 0, 0},
    {LOGODWEN_CODE_WHOLE, 0, 0, 0},
    {LOGODWEN_CODE_NOT_FIRST, 4, 1, MORE},
    {LOGODWEN_CODE_NO_ROOM, 4, PAST_ROOM, MORE},
    {LOGODWEN_CODE_ONE_WORD, 4, 1, 1},
    {LOGODWEN_CODE_WRONG_FCS, 4, 2, MORE},
    {LOGODWEN_CODE_NEXT_LATE, 4, 1, ROOM},
    {LOGODWEN_CODE_NEXT_EMPTY, 4, 1, ROOM},
    {LOGODWEN_CODE_NEXT_FIRST, 4, 2, MORE}, /* room or not */
    {LOGODWEN_CODE_PACKET_NO_ROOM, 4, PAST_ROOM, MORE},
    {LOGODWEN_CODE_JOINED_FCS, 4, 2, ROOM},
};

static const struct code *code_of(unsigned code) {
    for (size_t i = 0; i < sizeof codes / sizeof *codes; i++)
        if (codes[i].code == code)
            return &codes[i];
    return NULL;
}

/* A code's number, and its name where there is one. */
static void code_text(unsigned code, char *text) {
    const char *dat = code & 0x10u ? "with DAT" : "without DAT";
    if (code_of(code) == NULL)
        say(text, "code %X %s", code & 15u, dat);
    else
        say(text, "code %X %s, '%s',", code & 15u, dat, logodwen_code_text(code));
}

/* A bound as a number. */
static unsigned bound(const struct walk *walk, unsigned stated) {
    return stated == ROOM ? (unsigned)room(walk) : stated == PAST_ROOM ? (unsigned)room(walk) + 1 : stated;
}

/* Which lengths are within two bounds. */
static void range_text(unsigned least, unsigned most, char *text) {
    if (least == most)
        say(text, "just %u", least);
    else if (most == MORE)
        say(text, "%u or more", least);
    else
        say(text, "%u to %u", least, most);
}

/* Whether the length of the reply that the fragment tells, or of what had come of it in packets, goes with its code. */
static bool is_reply_length_right(struct walk *walk, const struct code *code, size_t at, unsigned status) {
    if (code->most == 0)
        return true;
    unsigned told = word_at(walk, at - 2), least = bound(walk, code->least), most = bound(walk, code->most);
    char name[TEXT], range[TEXT];
    if (least <= told && told <= most)
        return true;
    code_text(code->code, name);
    range_text(least, most, range);
    return breaks(walk->found, "reply length", at, "the status word %04X has %s and word %zu a reply length of %u; with this code it is %s",
                  status, name, at - 2, told, range);
}

/* Whether this slave's 0-length reply makes all slaves' the same: the group's reply would be that reply, and no words. */
static bool is_all_the_same(const struct walk *walk, unsigned code) {
    if (walk->to_come != 0 || code > LOGODWEN_CODE_END)
        return false;
    for (size_t i = 0; i < walk->found->count; i++)
        if (walk->found->parts[i].fragment.code != code)
            return false;
    return true;
}

static bool is_status_right(struct walk *walk, size_t length) {
    struct found *found = walk->found;
    size_t at = found->tail + length;
    unsigned status = word_at(walk, at), code = status >> 11, named = status & 31u;
    const struct code *known = code_of(code);
    char name[TEXT];
    code_text(code, name);
    if (named != walk->slave)
        return breaks(found, "slave", at, "the status word %04X names slave %u; by the mask slave %u's fragment ends here", status, named,
                      walk->slave);
    if (known == NULL)
        return breaks(found, "code", at, "the status word %04X has %s, which no node gives", status, name);
    if (known->length != 0 && known->length != length)
        return breaks(found, "fragment length", at, "the status word %04X has %s whose fragment has the length %zu; this one has %zu",
                      status, name, known->length, length);
    if ((status & 0x07E0u) != 0 && code != LOGODWEN_CODE_WHOLE && code != LOGODWEN_CODE_NO_ROOM)
        return breaks(found, "slave status", at, "the status word %04X has bits 10-5 set; with %s they are 0", status, name);
    if (is_all_the_same(walk, code))
        return breaks(found, "all the same", at,
                      "the status word %04X makes every slave's answer %s; that would be the group's reply itself, of no words", status,
                      logodwen_code_text(code));
    return is_reply_length_right(walk, known, at, status);
}

/* That the capture ends too early, before a part that should stand there. */
static bool is_cut_short(const struct walk *walk, const char *form, unsigned slave, size_t missing) {
    char before[TEXT];
    say(before, form, slave, missing);
    if (walk->count == 0)
        return breaks(walk->found, "cut short", 0, "there are no words; a group's reply begins with the fragment of slave %u", walk->slave);
    return breaks(walk->found, "cut short", walk->count, "the capture ends %s; up to there it breaks no rule", before);
}

/* Takes the next slave's fragment, if it is there and right. */
static bool is_fragment_right(struct walk *walk) {
    struct found *found = walk->found;
    size_t at = found->tail, left = walk->count - at;
    if (left == 0)
        return is_cut_short(walk, "before the fragment of slave %u", walk->slave, 0);
    if (!is_length_right(walk))
        return false;
    size_t length = word_at(walk, at);
    if (left <= length)
        return is_cut_short(walk, "in the fragment of slave %u; words missing of that: %zu", walk->slave, length + 1 - left);
    if (!is_status_right(walk, length))
        return false;
    struct part *part = &found->parts[found->count++];
    *part = (struct part){.at = at, .length = length, .status = word_at(walk, at + length)};
    logodwen_read_fragment(walk->words, walk->count + LOGODWEN_TAIL_WORDS, at, &part->fragment); /* the tail isn't looked at by it */
    found->tail = at + length + 1;
    return true;
}

/* A part whose slave's data are not there; NULL where all are. */
static const struct part *part_without_data(const struct found *found) {
    for (size_t i = 0; i < found->count; i++)
        if (found->parts[i].fragment.code != LOGODWEN_CODE_WHOLE)
            return &found->parts[i];
    return NULL;
}

static bool is_node_status_right(struct walk *walk) {
    struct found *found = walk->found;
    const struct part *without = part_without_data(found);
    if (walk->count == found->tail)
        return is_cut_short(walk, "before the node's status word", 0, 0);
    unsigned status = word_at(walk, found->tail);
    bool has_bit = (status & LOGODWEN_STATUS_ASSEMBLY) != 0;
    if ((status & 0xFC3Fu) != 0)
        return breaks(found, "node status", found->tail,
                      "%04X stands where the node's status word should, behind the last slave's fragment; bits 15-10 and 5-0 of that are 0",
                      status);
    if (without != NULL && !has_bit)
        return breaks(found, "node status", found->tail,
                      "the node's status word %04X has bit 9 clear; it is set, since the data of slave %u are not there", status,
                      without->fragment.slave);
    if (without == NULL && has_bit)
        return breaks(found, "node status", found->tail,
                      "the node's status word %04X has bit 9 set; it is clear, since every slave's data are there", status);
    found->tail_read = 1;
    return true;
}

static bool is_seal_right(struct walk *walk) {
    struct found *found = walk->found;
    size_t at = found->tail + 1;
    if (walk->count == at)
        return is_cut_short(walk, "before the FCS", 0, 0);
    unsigned said = word_at(walk, at), is = logodwen_fcs(walk->words, at);
    if (said != is)
        return breaks(found, "FCS", at, "the FCS is %04X; that of the %zu words before it is %04X", said, at, is);
    found->tail_read = 2;
    return walk->count == at + 1
           || breaks(found, "left over", at + 1, "the reply ended with its FCS; words left over: %zu", walk->count - at - 1);
}

void rules_find(uint32_t mask, const uint8_t *words, size_t count, struct found *found) {
    struct walk walk = {words, count, 0, mask, found};
    *found = (struct found){.rule = NULL};
    while (walk.to_come != 0) {
        walk.slave = set_lowest(walk.to_come);
        walk.to_come &= walk.to_come - 1;
        if (!is_fragment_right(&walk))
            return;
    }
    if (is_node_status_right(&walk))
        is_seal_right(&walk);
}
