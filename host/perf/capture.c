/* Captured group replies at the C border, against the independent reader in plain C. Both read the lent bytes in place, and stop at the word
   that breaks the reply: the last row has what a long one costs whose first word does. */
#include "measure.h"
#include "runs.h"

#include "../../include/logodwen.h"
#include "../model/model.h"

enum { FRAGMENT_WORDS = 510, LAST_WORDS = LOGODWEN_REPLY_WORDS - LOGODWEN_TAIL_WORDS - 23 * (FRAGMENT_WORDS + 1) - 1, FEW = 9 };

static uint8_t longest[LOGODWEN_REPLY_BYTES], one[2 * (FEW + 1 + LOGODWEN_TAIL_WORDS)], broken[LOGODWEN_REPLY_BYTES];
static volatile uint64_t answered;

/* Lays the fragment of a whole reply, by its length word; answers the place past it. */
static size_t lay_fragment(uint8_t *reply, size_t at, unsigned slave, size_t length) {
    logodwen_put(reply, at, (uint16_t)length);
    for (size_t i = 1; i < length; i++)
        logodwen_put(reply, at + i, (uint16_t)((at + i) * 40503u));
    logodwen_put(reply, at + length, (uint16_t)(0x8000u | slave));
    return at + length + 1;
}

static size_t lay_end(uint8_t *reply, size_t at) {
    logodwen_put(reply, at, 0);
    logodwen_put(reply, at + 1, logodwen_fcs(reply, at + 1));
    return at + LOGODWEN_TAIL_WORDS;
}

static void reads(bool plain, uint32_t mask, const uint8_t *reply, size_t bytes) {
    answered = plain ? model_capture(mask, reply, bytes) : logodwen_capture(mask, reply, bytes);
}

static void reads_longest(bool plain) { reads(plain, 0xFFFFFF, longest, sizeof longest); }
static void reads_one(bool plain) { reads(plain, 1u << 5, one, sizeof one); }
static void reads_broken(bool plain) { reads(plain, 1u << 5, broken, sizeof broken); } /* its first word is 0 */

int perf_capture_runs(void) {
    static const struct row rows[] = {{"capture of 12,288 words", NULL, reads_longest, 2, 1.20},
                                      {"capture of one fragment", NULL, reads_one, 2000, 4.00},
                                      {"capture of 12,288 words, broken at the first", NULL, reads_broken, 2000, 4.00}};
    static const uint64_t expected[] = {LOGODWEN_ACCEPTED << 8, LOGODWEN_ACCEPTED << 8, LOGODWEN_BROKEN << 8};
    size_t at = 0;
    for (unsigned slave = 0; slave < LOGODWEN_SLAVES; slave++)
        at = lay_fragment(longest, at, slave, slave < LOGODWEN_SLAVES - 1 ? FRAGMENT_WORDS : LAST_WORDS);
    lay_end(longest, at);
    lay_end(one, lay_fragment(one, 0, 5, FEW));
    for (size_t i = 0; i < sizeof rows / sizeof *rows; i++)
        for (int plain = 0; plain < 2; plain++) {
            rows[i].work(plain != 0);
            if (answered != expected[i])
                return measure_differs(rows[i].what);
        }
    return measure(rows, sizeof rows / sizeof *rows);
}
