/* What the audit prints: its flash, a line for each image, the totals, the directory. */
#include "audit.h"

static const char *const verdicts[VERDICTS] = {"AGREES",    "DIFFERS", "INVALID",    "TOO-LARGE",
                                               "NAME-USED", "NO-ROOM", "UNREADABLE", "DISPUTED"};

/* The top. */

static const char *flash_text(const struct options *options) {
    if (options->flash != NULL)
        return options->keep ? "written back at the end" : "not written back";
    return options->together ? "one blank flash for all images" : "a blank flash for each image";
}

static void flash_in_json(const struct options *options, const struct size *size) {
    object_begin();
    object_text("flash", options->flash);
    object_text("size", size->name);
    object_text("use", flash_text(options));
    object_end();
}

void report_flash(const struct options *options, const struct size *size) {
    struct text text;
    if (lines_are_json()) {
        flash_in_json(options, size);
        return;
    }
    printf("# flash: %s\n# flash: ", size->what);
    if (options->flash != NULL)
        printf("%s, ", shown(options->flash, &text));
    printf("%s\n", flash_text(options));
}

void report_new_flash(const char *path) {
    struct text text;
    if (!lines_are_json())
        printf("# flash: %s isn't there yet, and begins blank\n", shown(path, &text));
}

void report_columns(void) {
    if (!lines_are_json())
        printf("# file\tname\tsector\twords\tFCS\tverdict\tdetail\n");
}

void report_erased(unsigned sector, unsigned words) {
    if (!lines_are_json()) {
        printf("# erased: sector %u, %u words\n", sector, words);
        return;
    }
    object_begin();
    object_number("erased", true, sector);
    object_number("words", true, words);
    object_end();
}

/* The images. */

static void finding_in_json(const char *path, const struct finding *finding) {
    object_begin();
    object_text("file", path);
    object_hex("name", finding->has_words && finding->words > 0, 2, name_of(finding->header));
    object_number("sector", finding->sector != 0, finding->sector);
    object_number("words", finding->has_words, finding->words);
    object_hex("FCS", finding->has_words, 4, finding->fcs);
    object_text("verdict", verdicts[finding->verdict]);
    object_text("detail", finding->detail[0] != 0 ? finding->detail : NULL);
    object_end();
}

void report_finding(const char *path, const struct finding *finding) {
    struct text text;
    if (lines_are_json()) {
        finding_in_json(path, finding);
        return;
    }
    printf("%s", shown(path, &text));
    lines_field(finding->has_words && finding->words > 0, "%02X", name_of(finding->header));
    lines_field(finding->sector != 0, "%u", finding->sector);
    lines_field(finding->has_words, "%u", (unsigned)finding->words);
    lines_field(finding->has_words, "%04X", finding->fcs);
    printf("\t%s%s%s\n", verdicts[finding->verdict], finding->detail[0] != 0 ? "\t" : "", finding->detail);
}

void report_totals(const size_t *totals, size_t left_out) {
    const struct tally tally = {"image", {"agrees", "agree"}, verdicts, totals, VERDICTS};
    lines_totals(&tally, left_out);
}

/* The directory, as the node has it: what each sector is, and the length of a good file (02, request 6). The detail is this program's: what is
   wrong with a sector, and what to do. */

static void print_sector(unsigned sector, struct entry entry, const char *detail) {
    bool has_name = rules_may_begin(entry.first);
    const char *type = entry.first >> 14 == 0 ? "program" : "data", *attribute = (entry.first >> 12 & 3u) == 2 ? "default" : "plain";
    if (lines_are_json()) {
        object_begin();
        object_number("sector", true, sector);
        object_hex("name", has_name, 2, name_of(entry.first));
        object_text("type", has_name ? type : NULL);
        object_text("attribute", has_name ? attribute : NULL);
        object_number("words", entry.words != 0, entry.words);
        object_text("status", entry_status(entry));
        object_text("detail", detail[0] != 0 ? detail : NULL);
        object_end();
        return;
    }
    printf("%u", sector);
    lines_field(has_name, "%02X", name_of(entry.first));
    printf("\t%s\t%s", has_name ? type : "-", has_name ? attribute : "-");
    lines_field(entry.words != 0, "%u", entry.words);
    printf("\t%s%s%s\n", entry_status(entry), detail[0] != 0 ? "\t" : "", detail);
}

/* A sector by itself, where there is something wrong with it. */
static void print_wrong_sector(unsigned sector, struct entry entry, const char *detail) {
    if (detail[0] == 0)
        return;
    if (lines_are_json())
        print_sector(sector, entry, detail);
    else
        printf("# sector %u, %s: %s\n", sector, entry_status(entry), detail);
}

bool report_directory(struct logodwen_node *node, bool is_whole, char *why) {
    struct entry directory[SECTORS];
    if (!node_directory(node, directory))
        return say(why, "DISPUTED: Flash Summary was not answered with a directory");
    bool is_right = true;
    if (is_whole && !lines_are_json())
        printf("# sector\tname\ttype\tattribute\twords\tstatus\tdetail\n");
    for (unsigned sector = SECTOR_FIRST; sector <= SECTOR_LAST; sector++) {
        struct entry entry = directory[sector - SECTOR_FIRST];
        char detail[TEXT], difference[TEXT];
        sector_detail(node, directory, sector, detail);
        (is_whole ? print_sector : print_wrong_sector)(sector, entry, detail);
        if (is_right && !sector_is_right(node, sector, entry, difference))
            is_right = say(why, "DISPUTED: %s; one of the two has a fault, so please report it with the flash", difference);
    }
    return is_right;
}
