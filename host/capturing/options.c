/* The mask, and that it and a capture are there. host/capturing/help says what each option does. */
#include "capture.h"

#include <stdlib.h>
#include <string.h>

#define MEANS "bit s is slave s, as in --mask A0 for slaves 5 and 7"

static bool take_mask(void *into, const char *option, const char *value, char *why) {
    struct options *options = into;
    struct text text;
    const char *digits = strncmp(value, "0x", 2) == 0 ? value + 2 : value;
    size_t length = strlen(digits);
    if (options->mask != 0)
        return say(why, "%s: given twice; one mask is for all captures", option);
    if (length < 1 || length > 8 || strspn(digits, "0123456789ABCDEFabcdef") != length)
        return say(why, "%s %s: a mask is one to eight hex digits; " MEANS, option, shown(value, &text));
    options->mask = (uint32_t)strtoul(digits, NULL, 16);
    if (options->mask == 0)
        return say(why, "%s %s: an empty mask, and no group without a slave has a reply; " MEANS, option, value);
    if (options->mask >> LOGODWEN_SLAVES != 0)
        return say(why, "%s %s: a mask of more than 24 bits, and slaves are 0 to 23; " MEANS, option, value);
    return true;
}

bool options_read(int count, char **arguments, struct options *options, char *why) {
    static const struct own_option own[] = {{"--mask", NULL, take_mask}, {NULL, NULL, NULL}};
    *options = (struct options){.mask = 0};
    if (!asked_read(count, arguments, &options->asked, own, options, why))
        return false;
    if (options->asked.version)
        return true;
    if (options->mask == 0)
        return say(why, "no mask; say by --mask HEX which slaves were asked: " MEANS);
    return options->asked.path_count > 0 || say(why, "no capture; name files or folders");
}
