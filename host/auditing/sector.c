/* What a sector is by 01 'Flash' and 02, worked out from its words. The directory is the node's; this is held against it, and knows why a
   sector is bad. */
#include "audit.h"

/* The first place from one on where a word is not FFFF; the end where all are. */
static size_t past_blanks(const uint8_t *words, size_t count, size_t at) {
    while (at < count && logodwen_get(words, at) == 0xFFFFu)
        at++;
    return at;
}

/* The length of the file in a good sector, 0 where it is bad, with the rule that is broken: a valid file begins it, and all words behind the
   file are FFFF (02, request 5). `first` is the place of its first word that is not FFFF. */
static size_t length_if_good(const uint8_t *words, size_t count, size_t first, char *rule) {
    if (first != 0)
        return say(rule, "word %zu: %04X stands in a sector without a file; all its words should be FFFF", first,
                   logodwen_get(words, first));
    size_t length = rules_file_length(words, count, "sector", rule), remains = past_blanks(words, count, length);
    if (length == 0 || remains == count)
        return length;
    return say(rule, "word %zu: %04X stands behind the file, which has %zu words; all words there should be FFFF", remains,
               logodwen_get(words, remains), length);
}

/* The entry that a sector should have. Where it is bad, the rule that is broken. */
static struct entry entry_by_rules(const struct logodwen_node *node, unsigned sector, char *rule) {
    const uint8_t *words = sector_begin(node, sector);
    size_t count = sector_words(node, sector), first = past_blanks(words, count, 0);
    struct entry entry = {logodwen_get(words, 0), LOGODWEN_SECTOR_EMPTY, 0};
    if (first == count)
        return entry;
    entry.words = (unsigned)length_if_good(words, count, first, rule);
    entry.status = entry.words != 0 ? LOGODWEN_SECTOR_GOOD : LOGODWEN_SECTOR_BAD;
    return entry;
}

bool sector_is_bad(const struct logodwen_node *node, unsigned sector, char *rule) {
    return entry_by_rules(node, sector, rule).status == LOGODWEN_SECTOR_BAD;
}

bool sector_is_right(const struct logodwen_node *node, unsigned sector, struct entry entry, char *why) {
    char rule[TEXT], said[TEXT], is[TEXT];
    struct entry right = entry_by_rules(node, sector, rule);
    entry_text(entry, said);
    entry_text(right, is);
    if (entry.first != right.first)
        return say(why, "the directory has sector %u begin with %04X; it begins with %04X", sector, entry.first, right.first);
    if (entry.status == right.status && entry.words == right.words)
        return true;
    bool is_bad = right.status == LOGODWEN_SECTOR_BAD;
    return say(why, "the directory has sector %u as %s; by the rules it is %s%s%s", sector, said, is, is_bad ? ": " : "",
               is_bad ? rule : "");
}

/* Whether a sector shares its name; with which others, and what to do. */
static bool is_name_shared(const struct entry *directory, unsigned sector, char *text) {
    unsigned first = directory[sector - SECTOR_FIRST].first, sharing = directory_named(directory, name_of(first));
    char others[TEXT], erasures[TEXT];
    if (!rules_may_begin(first) || set_is_one(sharing))
        return false;
    sectors_text(sharing & ~(1u << sector), others);
    sectors_erasures(sharing, erasures);
    say(text, "shares the name %02X with %s, so commands by it are answered ABORT; erase all but one of them (%s)", name_of(first), others,
        erasures);
    return true;
}

void sector_detail(const struct logodwen_node *node, const struct entry *directory, unsigned sector, char *detail) {
    char rule[TEXT], bad[TEXT] = "", shared[TEXT] = "";
    if (sector_is_bad(node, sector, rule))
        say(bad, "%s; erase the sector (--erase-sector %u)", rule, sector);
    bool is_shared = is_name_shared(directory, sector, shared);
    say(detail, "%s%s%s", bad, bad[0] != 0 && is_shared ? "; " : "", shared);
}
