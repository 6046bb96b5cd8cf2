/* The salvage: the two dumps, the call, and what came of each sector. */
#include "salvage.h"

const char program[] = "salvage";

/* Saves what is readable, or says in `why` why nothing is. */
static bool is_saved(const struct options *options, uint64_t *answered, char *why) {
    struct first first;
    struct second second;
    if (!first_open(&first, options->first, why) || !second_open(&second, options->second, &first, why))
        return false;
    *answered = logodwen_salvage(first.bytes, first.count, second.bytes, second.count);
    if (logodwen_refusal(*answered) == LOGODWEN_DONE)
        return second_keep(&second, &first, why);
    second_drop(&second);
    return say(why, "refusal %s", logodwen_refusal_text(logodwen_refusal(*answered)));
}

static void run(const struct options *options, char *why) {
    uint64_t answered;
    if (!is_saved(options, &answered, why)) {
        complain(why, NOT_READ);
        return;
    }
    lines_progress_end();
    report_sectors(answered);
    ends_with(report_is_lost(answered) ? SOME_WRONG : ALL_RIGHT);
}

int main(int count, char **arguments) {
    static struct options options;
    static char why[TEXT];
    if (!lines_can_be_written(why)) {
        complain(why, NOT_READ);
        return NOT_READ;
    }
    if (!options_read(count - 1, arguments + 1, &options, why)) {
        complain(why, NOT_READ);
        fprintf(stderr, "usage: host/salvage FIRST SECOND    as in: host/salvage examples/salvage/damaged.flash saved.flash\n"
                        "host/salvage --help tells what is saved, the lines and the exit status\n");
        return NOT_READ;
    }
    if (options.version)
        lines_version();
    else
        run(&options, why);
    if (!lines_are_written()) {
        say(why, "the lines can't be written");
        complain(why, NOT_READ);
    }
    return ended_with();
}
