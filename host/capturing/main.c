/* The capture: the options, then the captures one after the other. */
#include "capture.h"

const char program[] = "capture";

/* A run as it goes on. */
struct capture {
    struct options options;
    struct paths paths;
    size_t totals[VERDICTS];
    char why[TEXT];
};

/* A group's reply as raw words never looks like text: the high byte of its node's status word is 0 to 3, and in UTF-16 every word has a
   byte of 0, which not every word of a fragment has. */
static void read_capture(void *with, const char *path) {
    static const int statuses[VERDICTS] = {ALL_RIGHT, SOME_WRONG, NOT_READ, NOT_TRUSTED};
    static struct contents words;
    struct capture *capture = with;
    const struct options *options = &capture->options;
    struct finding finding = {.verdict = UNREADABLE};
    if (contents_read(path, options->asked.reading, NULL, &words, finding.detail))
        verdict_on_capture(options->mask, &words, &finding);
    lines_progress_end();
    report_finding(path, &words, &finding);
    capture->totals[finding.verdict]++;
    ends_with(statuses[finding.verdict]);
    if (finding.verdict == DISPUTED) {
        struct text text;
        say(capture->why, "%s: DISPUTED: the proved reader and this program disagree, so one has a fault; please report it with the "
            "capture and the mask %06lX", shown(path, &text), (unsigned long)options->mask);
        complain(capture->why, NOT_TRUSTED);
    }
}

static void run(struct capture *capture) {
    const struct asked *asked = &capture->options.asked;
    if (!asked->quiet)
        report_head(capture->options.mask);
    for (size_t i = 0; i < asked->path_count; i++)
        if (!paths_add(&capture->paths, asked->paths[i], asked->recursive, capture->why))
            complain(capture->why, NOT_READ);
    if (!asked->quiet)
        report_columns();
    paths_each(&capture->paths, read_capture, capture);
    report_totals(capture->totals, capture->paths.count - capture->paths.files);
}

int main(int count, char **arguments) {
    static struct capture capture;
    if (!lines_can_be_written(capture.why)) {
        complain(capture.why, NOT_READ);
        return NOT_READ;
    }
    if (!options_read(count - 1, arguments + 1, &capture.options, capture.why)) {
        complain(capture.why, NOT_READ);
        fprintf(stderr, "usage: host/capture --mask HEX [OPTION..] FILE..    as in: host/capture --mask 8000A7 examples/captures\n"
                        "host/capture --help tells the options, the rules and the exit status\n");
        return NOT_READ;
    }
    lines_as(capture.options.asked.json);
    if (capture.options.asked.version)
        lines_version();
    else
        run(&capture);
    if (!lines_are_written()) {
        say(capture.why, "the report can't be written");
        complain(capture.why, NOT_READ);
    }
    return ended_with();
}
