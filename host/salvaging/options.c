/* Two files, and no option but those that every program has. host/salvaging/help says the rest. */
#include "salvage.h"

#include <string.h>

static bool take_path(struct options *options, const char *path, char *why) {
    if (path[0] == 0)
        return say(why, "a file without a name; name FIRST, the dump that is read, and SECOND, the one that is written");
    const char **next = options->first == NULL ? &options->first : &options->second;
    if (*next != NULL)
        return say(why, "more than two files; one is read, FIRST, and one is written, SECOND");
    *next = path;
    return true;
}

bool options_read(int count, char **arguments, struct options *options, char *why) {
    bool are_options = true;
    struct text text;
    *options = (struct options){.first = NULL};
    for (int i = 0; i < count; i++) {
        const char *argument = arguments[i];
        if (are_options && strcmp(argument, "--") == 0)
            are_options = false;
        else if (are_options && strcmp(argument, "--version") == 0)
            options->version = true;
        else if (are_options && argument[0] == '-')
            return say(why, "%s: no such option; a file whose name begins so stands behind --", shown(argument, &text));
        else if (!take_path(options, argument, why))
            return false;
    }
    if (options->version)
        return true;
    if (options->first == NULL)
        return say(why, "no files; name FIRST, the dump that is read, and SECOND, the one that is written");
    return options->second != NULL || say(why, "no SECOND; name the dump that is written, which is made where it isn't there");
}
