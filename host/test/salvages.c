/* salvages SEED COUNT: drives the library and the model over the same damaged flashes, of both sizes, and compares what they answer and write.
   Some are refused: a flash of another size, or a second one that differs in size or isn't blank. It says which flash differs, and in what, or
   how many sectors were copied, reduced and lost. It fails unless at each size a tenth of them at least are of each kind, and a twentieth of the
   flashes are refused. */
#include "../../include/logodwen.h"
#include "../model/model.h"
#include "chance.h"

#include <inttypes.h>

enum { MOST_SEGMENTS = 14, OVER = 2 }; /* bytes that a flash may have too many */

static uint64_t seed;
static unsigned long flashes, refused, sectors[2][4]; /* done; of them refused; and sectors at bench size and at full size, by what came of them */
static uint8_t first[LOGODWEN_FLASH_FULL_BYTES + OVER], second[LOGODWEN_FLASH_FULL_BYTES + OVER];
static size_t first_len, second_len;

/* A sector as it is made: its words, and where the segments of its file stand. */
static struct {
    uint8_t *bytes;
    size_t n, end, count;
    size_t places[MOST_SEGMENTS];
} sector;

static unsigned get(size_t at) { return word_at(sector.bytes, at); }
static void put(size_t at, uint32_t word) { put_word(sector.bytes, at, word); }

/* A file. */

enum { SHORT = 12, MOST_LENGTH = 0x3FFF, BLANK_HEADER = 0xFFFF }; /* two blank words are a header too: of IO, with the longest length */

/* The words that a body of a permitted length has, FCS included. */
static size_t body_of(enum memory memory, unsigned length) { return memory == PM ? length / 2 * 3 : length; }

/* A permitted length whose body is not longer than the room, where that is SHORT or more: one in six is of any length, the others are short. */
static unsigned some_length(enum memory memory, size_t room) {
    size_t longest = body_of(memory, MOST_LENGTH), most = one_in(6) ? room < longest ? room : longest : SHORT;
    uint32_t words = 2 + below((uint32_t)most - 1);
    if (memory == DM)
        return words;
    words = words < 3 ? 3 : words;
    return memory == PM ? words / 3 * 2 : (words - 1) | 1;
}

/* A body of any words that ends with its FCS, from a place on. */
static void add_body(enum memory memory, size_t at, size_t size) {
    size_t last = at + size - 1;
    for (size_t i = at; i < last; i++)
        put(i, any());
    if (memory == PM)
        put(last - 1, get(last - 1) & 0xFF00);
    put(last, model_fcs(sector.bytes + 2 * at, size - 1));
}

/* A valid segment behind the others; false where there is no room for it. */
static bool add_segment(void) {
    size_t at = sector.end, room = sector.n - at;
    if (room < 2 + SHORT)
        return false;
    bool is_blank = room >= 2 + MOST_LENGTH && one_in(8);
    enum memory memory = is_blank ? IO : (enum memory)below(3);
    unsigned length = is_blank ? MOST_LENGTH : some_length(memory, room - 2), io = 2 + below(2), page = one_in(2) ? 0 : 2 + below(2);
    size_t size = body_of(memory, length);
    put(at, is_blank ? BLANK_HEADER : (memory == IO ? io : (unsigned)memory) << 14 | length);
    put(at + 1, is_blank ? BLANK_HEADER : page << 14 | below(0x4000));
    add_body(memory, at + 2, size);
    sector.places[sector.count++] = at;
    sector.end = at + 2 + size;
    return true;
}

static void add_file(void) {
    unsigned wanted = 1 + below(MOST_SEGMENTS);
    uint32_t header = below(0x8000) & 0x7FF0;
    while (sector.count < wanted && add_segment())
        continue;
    put(0, header | sector.count);
}

/* Damage. */

static void damage_segment(void) {
    size_t number = below((uint32_t)sector.count), at = sector.places[number];
    size_t past = number + 1 < sector.count ? sector.places[number + 1] : sector.end;
    uint32_t bit = 1u << below(16), some = below((uint32_t)(past - at));
    switch (below(8)) {
    case 0: put(past - 1, get(past - 1) ^ bit); break;           /* its FCS */
    case 1: put(at, (get(at) & 0xC000) | below(12)); break;      /* another length */
    case 2: put(at, get(at) ^ (1u << 14 << below(2))); break;    /* another memory */
    case 3: put(at + 1, (get(at + 1) & 0x3FFF) | 0x4000); break; /* page 01 */
    case 4: put(at, get(at) ^ (1u << below(14))); break;         /* a length that leads elsewhere */
    case 5: memset(sector.bytes + 2 * at, 0xFF, 4); break;       /* a header of blank words */
    case 6:                                                      /* in PM the zero byte, under a right FCS */
        put(past - 2, get(past - 2) ^ 1);
        put(past - 1, model_fcs(sector.bytes + 2 * (at + 2), past - at - 3));
        break;
    default: put(at + some, get(at + some) ^ bit); break;
    }
}

static void damage_header(void) {
    uint32_t count = below(16), bit = 1u << below(16);
    put(0, one_in(2) ? get(0) ^ bit : (get(0) & 0xFFF0) | count);
}

static void damage_behind(void) {
    size_t left = sector.n - sector.end, at = sector.end + (left == 0 ? 0 : below((uint32_t)left));
    uint32_t word = any();
    if (left != 0)
        put(one_in(3) ? sector.end : one_in(2) ? sector.n - 1 : at, word);
}

/* The last header leads to the sector's end, one word short of it or one past it. */
static void lead_to_end(void) {
    size_t at = sector.places[sector.count - 1], length = sector.n - at - 3 + below(3);
    if (length <= 0x3FFF)
        put(at, (1 + below(3)) << 14 | (unsigned)length);
}

static void cut_short(void) {
    size_t at = below((uint32_t)sector.end);
    memset(sector.bytes + 2 * at, one_in(4) ? 0 : 0xFF, 2 * (sector.end - at));
}

static void damage(void) {
    switch (below(8)) {
    case 0: damage_header(); break;
    case 1: damage_behind(); break;
    case 2: cut_short(); break;
    case 3: lead_to_end(); break;
    default: damage_segment(); break;
    }
}

static void make_sector(uint8_t *bytes, size_t n) {
    sector.bytes = bytes;
    sector.n = n;
    sector.end = 1;
    sector.count = 0;
    if (one_in(8))
        return;
    add_file();
    for (unsigned times = one_in(3) ? 0 : 1 + below(3); times > 0; times--)
        damage();
    if (one_in(16))
        for (size_t i = below(4); i < n; i++)
            put(i, any());
}

/* Two flashes; few of them are refused. */

static size_t other_size(size_t bytes) {
    static const size_t sizes[] = {0, 1, 2 * BENCH, 2 * BENCH - 1, 2 * BENCH + 1, 2 * FULL, 2 * FULL - 1, 2 * FULL + 1};
    size_t other = sizes[below(8)];
    return one_in(2) ? other : bytes + 1;
}

static void make_flashes(void) {
    size_t words = one_in(10) ? FULL : BENCH;
    memset(first, 0xFF, sizeof first);
    memset(second, 0xFF, sizeof second);
    memset(first, (int)below(256), words / 8); /* sectors 0 to 2 are not looked at */
    for (unsigned at = SECTOR_FIRST; at <= SECTOR_LAST; at++)
        make_sector(first + 2 * model_sector_start(words, at), model_sector_size(words, at));
    first_len = second_len = 2 * words;
    if (one_in(20))
        first_len = other_size(first_len);
    if (one_in(20))
        second_len = other_size(second_len);
    if (one_in(20) && second_len != 0)
        second[below((uint32_t)second_len)] = 0xFE;
}

/* The comparison. */

static void differs(const char *what, uint64_t by_library, uint64_t by_model) {
    printf("salvages: seed %" PRIu64 ", flash %lu (%zu and %zu bytes): ", seed, flashes, first_len, second_len);
    printf("%s is %" PRIx64 " by the library, %" PRIx64 " by the model\n", what, by_library, by_model);
    exit(1);
}

static void compare(void) {
    static uint8_t kept[sizeof first], written[sizeof second];
    memcpy(kept, first, sizeof first);
    memcpy(written, second, sizeof second);
    uint64_t by_library = logodwen_salvage(first, first_len, written, second_len);
    uint64_t by_model = model_salvage(kept, first_len, second, second_len);
    if (by_library != by_model)
        differs("the number answered", by_library, by_model);
    if (memcmp(kept, first, sizeof first) != 0)
        differs("whether the first flash stayed", 0, 1);
    for (size_t i = 0; i < sizeof second; i++)
        if (written[i] != second[i])
            differs("a byte of the second flash", written[i], second[i]);
    refused += logodwen_refusal(by_model) != LOGODWEN_DONE;
    for (unsigned at = SECTOR_FIRST; at <= SECTOR_LAST; at++)
        sectors[first_len == 2 * FULL][logodwen_saved(by_model, at)]++;
}

/* Whether the sectors of a size are a tenth at least of each kind. */
static bool are_mixed(const unsigned long *kinds) {
    unsigned long all = kinds[LOGODWEN_SAVED_COPIED] + kinds[LOGODWEN_SAVED_REDUCED] + kinds[LOGODWEN_SAVED_LOST];
    return all != 0 && 10 * kinds[LOGODWEN_SAVED_COPIED] >= all && 10 * kinds[LOGODWEN_SAVED_REDUCED] >= all
           && 10 * kinds[LOGODWEN_SAVED_LOST] >= all;
}

static void print_kinds(const char *size, const unsigned long *kinds) {
    printf("; at %s size %lu sectors copied, %lu reduced, %lu lost", size, kinds[LOGODWEN_SAVED_COPIED], kinds[LOGODWEN_SAVED_REDUCED],
           kinds[LOGODWEN_SAVED_LOST]);
}

int main(int count, char **arguments) {
    if (count != 3) {
        fprintf(stderr, "salvages SEED COUNT: two numbers\n");
        return 2;
    }
    seed = number("salvages", arguments[1]);
    unsigned long wanted = number("salvages", arguments[2]);
    begin_chance(seed);
    for (; flashes < wanted; flashes++) {
        make_flashes();
        compare();
    }
    printf("salvages: seed %" PRIu64 ": %lu flashes, no difference between the library and the model: %lu refused", seed, flashes, refused);
    print_kinds("bench", sectors[0]);
    print_kinds("full", sectors[1]);
    printf("\n");
    return are_mixed(sectors[0]) && are_mixed(sectors[1]) && 20 * refused >= flashes ? 0 : 1;
}
