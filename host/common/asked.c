/* The command line. Options may stand anywhere; -- ends them, and - is a file. A value stands behind its option, or joined by =. */
#include "common.h"

#include <string.h>

/* A command line as it is taken apart. */
struct taking {
    struct asked *asked;
    const struct own_option *own;
    void *into;
    char **rest; /* the arguments that are still to be taken */
    int left;
};

static bool take_reading(struct asked *asked, enum reading reading, char *why) {
    if (asked->reading != BY_CONTENT && asked->reading != reading)
        return say(why, "--hex and --raw together; all files are read as one of them");
    asked->reading = reading;
    return true;
}

/* An option of this program's own; NULL where it has none of that name. */
static const struct own_option *own_option(const struct taking *taking, const char *option) {
    for (const struct own_option *own = taking->own; own->name != NULL; own++)
        if (strcmp(own->name, option) == 0)
            return own;
    return NULL;
}

/* The flag of a name, NULL where there is none: one that every program has, or this program's own. */
static bool *flag_of(const struct taking *taking, const char *option) {
    struct asked *asked = taking->asked;
    const struct own_option flags[] = {{"--quiet", &asked->quiet, NULL},         {"--json", &asked->json, NULL},
                                       {"--recursive", &asked->recursive, NULL}, {"-r", &asked->recursive, NULL},
                                       {"--version", &asked->version, NULL}};
    for (size_t i = 0; i < sizeof flags / sizeof *flags; i++)
        if (strcmp(option, flags[i].name) == 0)
            return flags[i].flag;
    const struct own_option *own = own_option(taking, option);
    return own == NULL ? NULL : own->flag;
}

static bool is_reading(const char *option) { return strcmp(option, "--hex") == 0 || strcmp(option, "--raw") == 0; }

/* What begins with - is the next option and no value: a file of such a name is ./-name, or behind =. */
static bool take_next(struct taking *taking, const struct own_option *own, char *why) {
    if (taking->left == 0 || taking->rest[0][0] == '-')
        return say(why, "%s: a value is missing behind it", own->name);
    taking->left--;
    return own->take(taking->into, own->name, *taking->rest++, why);
}

/* --option=value */
static bool take_joined(struct taking *taking, const char *argument, const char *equals, char *why) {
    char option[32];
    struct text text;
    snprintf(option, sizeof option, "%.*s", (int)(equals - argument), argument);
    const struct own_option *own = own_option(taking, option);
    if (own != NULL && own->take != NULL)
        return own->take(taking->into, option, equals + 1, why);
    if (is_reading(option) || flag_of(taking, option) != NULL)
        return say(why, "%s: it takes no value", option);
    return say(why, "%s: no such option", shown(option, &text));
}

static bool take_option(struct taking *taking, const char *argument, char *why) {
    const char *equals = strchr(argument, '=');
    const struct own_option *own = own_option(taking, argument);
    bool *flag = flag_of(taking, argument);
    struct text text;
    if (equals != NULL)
        return take_joined(taking, argument, equals, why);
    if (own != NULL && own->take != NULL)
        return take_next(taking, own, why);
    if (is_reading(argument))
        return take_reading(taking->asked, strcmp(argument, "--hex") == 0 ? AS_HEX : AS_RAW, why);
    return flag != NULL ? (*flag = true) : say(why, "%s: no such option", shown(argument, &text));
}

static bool take_path(struct asked *asked, char *path, char *why) {
    if (path[0] == 0)
        return say(why, "a file without a name; name files or folders");
    for (size_t i = 0; strcmp(path, "-") == 0 && i < asked->path_count; i++)
        if (strcmp(asked->paths[i], path) == 0)
            return say(why, "-: given twice; standard input is one file");
    asked->paths[asked->path_count++] = path;
    return true;
}

bool asked_read(int count, char **arguments, struct asked *asked, const struct own_option *own, void *into, char *why) {
    struct taking taking = {asked, own, into, arguments, count};
    *asked = (struct asked){.paths = arguments}; /* what is no option moves to the front */
    for (bool are_options = true; taking.left > 0;) {
        char *argument = *taking.rest++;
        taking.left--;
        if (are_options && strcmp(argument, "--") == 0)
            are_options = false;
        else if (are_options && argument[0] == '-' && argument[1] != 0 ? !take_option(&taking, argument, why)
                                                                       : !take_path(asked, argument, why))
            return false;
    }
    return true;
}
