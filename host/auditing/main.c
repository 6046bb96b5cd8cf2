/* The audit: the options, the flash, what is to be erased, the images one after the other, the directory, the flash kept. */
#include "audit.h"

const char program[] = "audit";

/* An audit as it goes on. */
struct audit {
    struct options options;
    struct paths paths;
    struct flash_file file;
    uint8_t flash[LOGODWEN_FLASH_FULL_BYTES];
    struct logodwen_node node; /* is lent as many bytes of it as its size has */
    size_t totals[VERDICTS];
    char why[TEXT];
};

static bool is_started(struct audit *audit) {
    uint32_t refusal = node_start(&audit->node);
    if (refusal == LOGODWEN_DONE)
        return true;
    say(audit->why, "the node did not start, refusal %s", logodwen_refusal_text(refusal));
    complain(audit->why, NOT_TRUSTED);
    return false;
}

static bool is_flash_there(struct audit *audit) {
    const struct options *options = &audit->options;
    audit->node.flash = audit->flash;
    if (options->flash == NULL) {
        node_blank(&audit->node, options->size);
    } else if (!flash_file_open(&audit->file, options->flash, options->keep, options->size, &audit->node, audit->why)) {
        complain(audit->why, NOT_READ);
        return false;
    }
    if (!options->asked.quiet)
        report_flash(options, node_size(&audit->node));
    if (audit->file.is_new && !options->asked.quiet)
        report_new_flash(options->flash);
    return is_started(audit);
}

/* The sectors that are meant: one by its number; by a name one, none, or several that share it. */
static unsigned sectors_to_erase(struct logodwen_node *node, struct erasure erasure) {
    struct entry directory[SECTORS];
    if (erasure.is_sector)
        return 1u << erasure.which;
    return node_directory(node, directory) ? directory_named(directory, erasure.which) : 0;
}

/* By a name that no file has, or several share, nothing is erased: the node answers ABORT, or is at fault. */
static void complain_of_name(struct audit *audit, unsigned name, unsigned sectors, uint64_t answered) {
    char answer[TEXT], sharing[TEXT], erasures[TEXT];
    bool is_abort = logodwen_bc(answered) == LOGODWEN_BC_ABORT && logodwen_words(answered) == 0;
    node_answer_text(answered, answer);
    sectors_text(sectors, sharing);
    sectors_erasures(sectors, erasures);
    if (!is_abort)
        say(audit->why, "DISPUTED: --erase %02X was answered %s; by the rules it is ABORT, since %s %s this name; please report it with the flash",
            name, answer, sharing, sectors == 0 ? "has" : "share");
    else if (sectors == 0)
        say(audit->why, "--erase %02X: no file has this name, so nothing is erased, audited or kept; --summary shows the names", name);
    else
        say(audit->why, "--erase %02X: %s share this name, so nothing is erased, audited or kept; erase all but one of them (%s)", name,
            sharing, erasures);
    complain(audit->why, is_abort ? SOME_WRONG : NOT_TRUSTED);
}

/* Whether the directory has a sector as empty now; what it has, as text. */
static bool is_empty_now(struct logodwen_node *node, unsigned sector, char *has) {
    struct entry directory[SECTORS];
    if (!node_directory(node, directory))
        return say(has, "unknown");
    struct entry entry = directory[sector - SECTOR_FIRST];
    entry_text(entry, has);
    return entry_is_empty(entry) && entry.words == 0;
}

/* Erases one file or sector; false where that could not be done. */
static bool is_erased(struct audit *audit, struct erasure erasure) {
    unsigned sectors = sectors_to_erase(&audit->node, erasure), sector = set_lowest(sectors);
    uint64_t answered = node_erase(&audit->node, erasure);
    if (!set_is_one(sectors)) {
        complain_of_name(audit, erasure.which, sectors, answered);
        return false;
    }
    unsigned set = node_erase_on(&audit->node);
    char has[TEXT];
    if (is_empty_now(&audit->node, sector, has) && set == sector_words(&audit->node, sector)) {
        report_erased(sector, set);
        return true;
    }
    say(audit->why, "DISPUTED: sector %u should be erased and empty, but is not; words set: %u; the directory has it as %s; please report it "
        "with the flash", sector, set, has);
    complain(audit->why, NOT_TRUSTED);
    return false;
}

static bool are_erased(struct audit *audit) {
    for (size_t i = 0; i < audit->options.erasure_count; i++)
        if (!is_erased(audit, audit->options.erasures[i]))
            return false;
    return true;
}

static void count(struct audit *audit, const char *path, const struct finding *finding) {
    lines_progress_end();
    report_finding(path, finding);
    audit->totals[finding->verdict]++;
    ends_with(finding->verdict == AGREES ? ALL_RIGHT : finding->verdict == UNREADABLE ? NOT_READ : SOME_WRONG);
    if (finding->verdict == DISPUTED) {
        struct text text;
        say(audit->why, "%s: DISPUTED: the node and this program disagree, so one has a fault; please report it with the image",
            shown(path, &text));
        complain(audit->why, NOT_TRUSTED);
    }
}

static bool is_file(const uint8_t *words, size_t count) {
    char why[TEXT];
    return rules_is_file(words, count, why);
}

static void audit_image(void *with, const char *path) {
    static const struct meant file = {"a valid file", is_file};
    static struct contents image;
    struct audit *audit = with;
    struct finding finding = {.verdict = UNREADABLE};
    if (!audit->options.together) {
        node_blank(&audit->node, audit->options.size);
        if (!is_started(audit))
            return;
    }
    if (contents_read(path, audit->options.asked.reading, &file, &image, finding.detail))
        verdict_on_image(&audit->node, &image, &finding);
    count(audit, path, &finding);
}

/* The flash is kept where the node did as it should and what it did is told. */
static void keep(struct audit *audit) {
    struct text text;
    if (ended_with() == NOT_TRUSTED || audit->totals[DIFFERS] != 0) {
        say(audit->why, "%s is not written back, since the node did not do as it should", shown(audit->options.flash, &text));
        complain(audit->why, SOME_WRONG);
    } else if (!lines_are_written()) {
        say(audit->why, "%s is not written back, since the report can't be written", shown(audit->options.flash, &text));
        complain(audit->why, NOT_READ);
    } else if (!flash_file_write(&audit->file, &audit->node, audit->why)) {
        complain(audit->why, NOT_READ);
    }
}

static void audit_images(struct audit *audit) {
    const struct asked *asked = &audit->options.asked;
    for (size_t i = 0; i < asked->path_count; i++)
        if (!paths_add(&audit->paths, asked->paths[i], asked->recursive, audit->why))
            complain(audit->why, NOT_READ);
    if (!asked->quiet)
        report_columns();
    paths_each(&audit->paths, audit_image, audit);
    report_totals(audit->totals, audit->paths.count - audit->paths.files);
}

static void run(struct audit *audit) {
    const struct options *options = &audit->options;
    if (!options->asked.quiet)
        lines_archive();
    if (!is_flash_there(audit) || !are_erased(audit))
        return;
    if (options->asked.path_count > 0)
        audit_images(audit);
    if (options->together && !report_directory(&audit->node, options->summary, audit->why))
        complain(audit->why, NOT_TRUSTED);
    if (options->keep)
        keep(audit);
}

int main(int count, char **arguments) {
    static struct audit audit = {.file = {.lock = -1}};
    if (!lines_can_be_written(audit.why)) {
        complain(audit.why, NOT_READ);
        return NOT_READ;
    }
    if (!options_read(count - 1, arguments + 1, &audit.options, audit.why)) {
        complain(audit.why, NOT_READ);
        fprintf(stderr, "usage: host/audit [OPTION..] IMAGE..    as in: host/audit examples/images\n"
                        "host/audit --help tells the options, the verdicts and the exit status\n");
        return NOT_READ;
    }
    lines_as(audit.options.asked.json);
    if (audit.options.asked.version)
        lines_version();
    else
        run(&audit);
    flash_file_close(&audit.file);
    if (!lines_are_written()) {
        say(audit.why, "the report can't be written");
        complain(audit.why, NOT_READ);
    }
    return ended_with();
}
