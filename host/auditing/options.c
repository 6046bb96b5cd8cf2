/* The audit's own options, and what some need of others. host/auditing/help says what each does. */
#include "audit.h"

#include <stdlib.h>
#include <string.h>

/* A number of a form and in a range, as `--erase 21` has; false where the text is another. */
static bool is_number(const char *text, int base, size_t least_digits, unsigned least, unsigned most, unsigned *number) {
    const char *digits = base == 16 ? "0123456789ABCDEFabcdef" : "0123456789";
    size_t length = strlen(text);
    if (length < least_digits || length > 2 || strspn(text, digits) != length)
        return false;
    *number = (unsigned)strtoul(text, NULL, base);
    return *number >= least && *number <= most;
}

static bool add_erasure(void *into, const char *option, const char *value, char *why) {
    struct options *options = into;
    struct erasure erasure = {.is_sector = strcmp(option, "--erase-sector") == 0};
    if (erasure.is_sector && !is_number(value, 10, 1, SECTOR_FIRST, SECTOR_LAST, &erasure.which))
        return say(why, "%s %s: file sectors have the numbers 3 to 10", option, value);
    if (!erasure.is_sector && !is_number(value, 16, 2, 0, 0xFF, &erasure.which))
        return say(why, "%s %s: a file's name is two hex digits, as in the second column of the report", option, value);
    options->erasures[options->erasure_count++] = erasure;
    return true;
}

static bool take_flash(void *into, const char *option, const char *value, char *why) {
    struct options *options = into;
    if (options->flash != NULL)
        return say(why, "%s: given twice; an audit has one flash", option);
    if (value[0] == 0)
        return say(why, "%s: the name of a file is missing", option);
    options->flash = value;
    return true;
}

static bool take_size(void *into, const char *option, const char *value, char *why) {
    struct options *options = into;
    if (options->size != NULL)
        return say(why, "%s: given twice; all flashes of an audit have one size", option);
    options->size = size_named(value);
    return options->size != NULL || say(why, "%s %s: a flash has the size bench or full", option, value);
}

/* What some options need of others. */
static bool are_consistent(struct options *options, char *why) {
    if (options->keep && options->flash == NULL)
        return say(why, "--keep: there is no flash file to keep; give one by --flash FILE");
    if (options->erasure_count > 0 && options->flash == NULL)
        return say(why, "--erase: a blank flash has no files; give a flash file by --flash FILE");
    if (options->flash != NULL)
        options->together = true;
    if (options->summary && !options->together)
        return say(why, "--summary: each image has a flash of its own; give --together or --flash FILE");
    if (options->asked.path_count == 0 && options->erasure_count == 0 && !options->summary && !options->keep && !options->asked.version)
        return say(why, "no image; name files or folders%s", options->flash != NULL ? ", or give --summary to see what the flash has" : "");
    return true;
}

bool options_read(int count, char **arguments, struct options *options, char *why) {
    const struct own_option own[] = {{"--together", &options->together, NULL}, {"--keep", &options->keep, NULL},
                                     {"--summary", &options->summary, NULL},   {"--flash", NULL, take_flash},
                                     {"--erase", NULL, add_erasure},           {"--erase-sector", NULL, add_erasure},
                                     {"--size", NULL, take_size},              {NULL, NULL, NULL}};
    *options = (struct options){.erasures = calloc((size_t)count + 1, sizeof *options->erasures)};
    if (options->erasures == NULL)
        return say(why, "out of memory");
    return asked_read(count, arguments, &options->asked, own, options, why) && are_consistent(options, why);
}
