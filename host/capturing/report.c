/* What the capture prints: the mask, for each capture a line and a table of its fragments, the totals. */
#include "capture.h"

static const char *const verdicts[VERDICTS] = {"ACCEPTED", "BROKEN", "UNREADABLE", "DISPUTED"};

void report_head(uint32_t mask) {
    char slaves[TEXT];
    set_text(mask, "slave", slaves);
    lines_archive();
    if (!lines_are_json()) {
        printf("# mask: %06lX, %s\n", (unsigned long)mask, slaves);
        return;
    }
    object_begin();
    object_hex("mask", true, 6, mask);
    object_text("slaves", slaves);
    object_end();
}

void report_columns(void) {
    if (!lines_are_json())
        printf("# file\twords\tverdict\tword\trule\tdetail\n# word\tslave\tanswer\tlength\tstatus\tdetail\n");
}

/* The table: a row for each fragment, one for the node's status word and one for the FCS. */

struct row {
    size_t at;
    const struct part *part; /* NULL of the last two */
    const char *answer;
    unsigned status;
    char detail[TEXT];
};

static void print_row(const char *path, const struct row *row) {
    const struct part *part = row->part;
    if (lines_are_json()) {
        object_begin();
        object_text("file", path);
        object_number("word", true, row->at);
        object_number("slave", part != NULL, part == NULL ? 0 : part->fragment.slave);
        object_text("answer", row->answer);
        object_number("length", part != NULL, part == NULL ? 0 : part->length);
        object_hex("status", true, 4, row->status);
        object_text("detail", row->detail[0] != 0 ? row->detail : NULL);
        object_end();
        return;
    }
    printf("%zu", row->at);
    lines_field(part != NULL, "%u", part == NULL ? 0 : part->fragment.slave);
    printf("\t%s", row->answer);
    lines_field(part != NULL, "%u", part == NULL ? 0 : (unsigned)part->length);
    printf("\t%04X%s%s\n", row->status, row->detail[0] != 0 ? "\t" : "", row->detail);
}

/* The bits of a status word that the node it is of has filled, by the note's 7.2. */
static void bits_text(unsigned status, char *text) {
    static const char *const bits[] = {"build conditions error", "build or assembly errors", "errors at start", "compressed mode",
                                       "raw mode", "no sub-structure"}; /* 10 to 5 */
    size_t length = 0;
    text[0] = 0;
    for (unsigned i = 0; i < sizeof bits / sizeof *bits; i++)
        if ((status >> (10 - i) & 1u) != 0)
            length += (size_t)snprintf(text + length, TEXT - length, "%s%s", length == 0 ? "" : ", ", bits[i]);
}

/* What else a fragment tells. */
static void fragment_text(const struct logodwen_fragment *fragment, char *text) {
    char bits[TEXT];
    bits_text(fragment->slave_status, bits);
    const char *parting = bits[0] == 0 ? "" : "; ";
    if (fragment->code == LOGODWEN_CODE_WHOLE)
        say(text, "data words: %zu%s%s", fragment->data_words, parting, bits);
    else if (fragment->code == LOGODWEN_CODE_ERRORS)
        say(text, "RX status %04X, RX address %04X", fragment->rx_status, fragment->rx_address);
    else if (fragment->code > LOGODWEN_CODE_WHOLE)
        say(text, "RX status %04X, reply length %u%s, first word %04X%s%s", fragment->rx_status, fragment->reply_words,
            fragment->reply_words == 0xFFFFu ? " or more" : "", fragment->first_word, parting, bits);
}

static void print_table(const char *path, const struct contents *capture, const struct found *found) {
    for (size_t i = 0; i < found->count; i++) {
        const struct part *part = &found->parts[i];
        struct row row = {part->at, part, logodwen_code_text(part->fragment.code), part->status, ""};
        fragment_text(&part->fragment, row.detail);
        print_row(path, &row);
    }
    for (size_t i = 0; i < found->tail_read; i++) {
        struct row row = {found->tail + i, NULL, i == 0 ? "node status" : "FCS", logodwen_get(capture->bytes, found->tail + i), ""};
        if (i == 0)
            bits_text(row.status, row.detail);
        print_row(path, &row);
    }
}

/* The captures. */

static void finding_in_json(const char *path, const struct finding *finding) {
    const struct found *found = &finding->found;
    object_begin();
    object_text("file", path);
    object_number("words", finding->has_words, finding->words);
    object_text("verdict", verdicts[finding->verdict]);
    object_number("word", found->rule != NULL, found->place);
    object_text("rule", found->rule);
    object_text("detail", finding->detail[0] != 0 ? finding->detail : NULL);
    object_end();
}

static void finding_in_fields(const char *path, const struct finding *finding) {
    const struct found *found = &finding->found;
    struct text text;
    printf("%s", shown(path, &text));
    lines_field(finding->has_words, "%u", (unsigned)finding->words);
    printf("\t%s", verdicts[finding->verdict]);
    lines_field(found->rule != NULL, "%u", (unsigned)found->place);
    printf("\t%s%s%s\n", found->rule != NULL ? found->rule : "-", finding->detail[0] != 0 ? "\t" : "", finding->detail);
}

void report_finding(const char *path, const struct contents *capture, const struct finding *finding) {
    (lines_are_json() ? finding_in_json : finding_in_fields)(path, finding);
    print_table(path, capture, &finding->found);
}

void report_totals(const size_t *totals, size_t left_out) {
    const struct tally tally = {"capture", {"accepted", "accepted"}, verdicts, totals, VERDICTS};
    lines_totals(&tally, left_out);
}
