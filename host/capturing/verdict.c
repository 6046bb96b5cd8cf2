/* The verdict on a capture. The proved reader decides; where this program finds otherwise by the rules the verdict is DISPUTED, since then
   one of the two has a fault. */
#include "capture.h"

/* What the reader should answer, all bits of it. */
static uint64_t foretold(const struct found *found) {
    if (found->rule == NULL)
        return LOGODWEN_ACCEPTED << 8;
    return LOGODWEN_BROKEN << 8 | (uint64_t)found->place << 32;
}

static void answer_text(uint64_t answered, char *text) {
    if (answered == LOGODWEN_ACCEPTED << 8)
        say(text, "accepted");
    else if ((answered & 0xFFFFFFFFu) == LOGODWEN_BROKEN << 8)
        say(text, "broken at word %lu", (unsigned long)logodwen_place(answered));
    else
        say(text, "%016llX, which is none of its answers", (unsigned long long)answered);
}

static enum verdict judge(uint64_t answered, const struct found *found, char *detail) {
    char is[TEXT], should_be[TEXT];
    if (answered == foretold(found)) {
        say(detail, "%s", found->why);
        return found->rule == NULL ? ACCEPTED : BROKEN;
    }
    answer_text(answered, is);
    answer_text(foretold(found), should_be);
    say(detail, "the proved reader answered %s; by the rules it is %s%s%s", is, should_be, found->rule == NULL ? "" : ": ", found->why);
    return DISPUTED;
}

void verdict_on_capture(uint32_t mask, const struct contents *capture, struct finding *finding) {
    *finding = (struct finding){.verdict = UNREADABLE};
    if (capture->is_too_long) {
        say(finding->detail, "more than 1,048,576 bytes, not read on; a group's reply has at most 12,288 words");
        return;
    }
    finding->has_words = true;
    finding->words = capture->words;
    rules_find(mask, capture->bytes, capture->words, &finding->found);
    finding->verdict = judge(logodwen_capture(mask, capture->bytes, 2 * capture->words), &finding->found, finding->detail);
}
