/* The verdict on an image. The node's answers decide. Beside them stands a forecast, worked out here from 01 and 02, that knows why an
   image is refused; where the two disagree the verdict is DISPUTED, since then the node or this program has a fault. */
#include "audit.h"

/* What File Write answers by the rules, and the verdict that goes with it. */
struct forecast {
    enum verdict verdict;
    unsigned bc;     /* of the reply */
    unsigned sector; /* where the file goes, if it does */
    char why[TEXT];
};

static struct forecast refused(enum verdict verdict) { return (struct forecast){.verdict = verdict, .bc = LOGODWEN_BC_ABORT}; }

/* The name of a valid file is used: by one sector, and if that is bad, why; or by several, of which none can be erased by name. */
static void say_used(const struct logodwen_node *node, unsigned holders, unsigned name, char *why) {
    char rule[TEXT], sectors[TEXT], erasures[TEXT];
    sectors_text(holders, sectors);
    sectors_erasures(holders, erasures);
    if (!set_is_one(holders))
        say(why, "%s have this name; erase them first (%s), or audit this image alone", sectors, erasures);
    else if (sector_is_bad(node, set_lowest(holders), rule))
        say(why, "%s has this name, and is bad (%s); erase it first (--erase %02X), or audit this image alone", sectors, rule, name);
    else
        say(why, "%s has this name; erase it first (--erase %02X), or audit this image alone", sectors, name);
}

/* No sector has room for so many words. */
static void say_too_large(const struct logodwen_node *node, size_t words, const char *cause, char *why) {
    char holds[TEXT];
    size_say_too_small(node_size(node), words, holds);
    say(why, "%zu words; %s%s", words, cause, holds);
}

/* The answer to a valid file: its name must be unused, and an empty sector have room. A file that no sector has room for is told apart
   from one that other files leave no room for. */
static struct forecast foretell_valid(const struct logodwen_node *node, const struct entry *directory, const struct contents *image) {
    unsigned name = name_of(logodwen_get(image->bytes, 0)), holders = directory_named(directory, name);
    unsigned place = directory_place(node, directory, image->words);
    struct forecast forecast = {.verdict = AGREES, .bc = LOGODWEN_BC_END, .sector = place};
    if (!size_holds(node_size(node), image->words)) {
        forecast = refused(TOO_LARGE);
        say_too_large(node, image->words, "", forecast.why);
    } else if (holders != 0) {
        forecast = refused(NAME_USED);
        say_used(node, holders, name, forecast.why);
    } else if (place == 0) {
        forecast = refused(NO_ROOM);
        say(forecast.why, "no empty sector has room for %zu words; erase a file first (--erase NAME), or audit this image alone",
            image->words);
    }
    return forecast;
}

/* The answer to any image: one that is too long for the packets to join is never looked at, and a file must be valid and exact. */
static struct forecast foretell(const struct logodwen_node *node, const struct entry *directory, const struct contents *image) {
    struct forecast forecast = refused(TOO_LARGE);
    if (image->words > LOGODWEN_AREA_WORDS) {
        say_too_large(node, image->words, "File Write takes at most 32,768, in several packets; ", forecast.why);
        return forecast;
    }
    forecast = refused(INVALID);
    return rules_is_file(image->bytes, image->words, forecast.why) ? foretell_valid(node, directory, image) : forecast;
}

/* How many words of an image are sent: all, or up to the packet that makes them more than 32,768, the fifth. */
static size_t words_to_send(const struct contents *image) {
    size_t most = 5 * LOGODWEN_REQUEST_WORDS - 1; /* the first packet begins with a word that is not the image's */
    return image->words < most ? image->words : most;
}

/* Whether as many words were read as were signed; if not, the first place that only one of the two has. */
static bool are_as_long(const struct contents *image, const uint8_t *read, size_t count, char *detail) {
    size_t all = image->words;
    if (count < all)
        return say(detail, "word %zu: signed %04X, read nothing; words read: %zu", count, logodwen_get(image->bytes, count), count);
    return count == all || say(detail, "word %zu: signed nothing, read %04X; words read: %zu", all, logodwen_get(read, all), count);
}

/* The words of an image against others, up to where one of the two ends; `how` says where the others are from. */
static bool are_alike(const struct contents *image, const uint8_t *words, size_t count, const char *how, char *detail) {
    for (size_t i = 0; i < image->words && i < count; i++)
        if (logodwen_get(image->bytes, i) != logodwen_get(words, i))
            return say(detail, "word %zu: signed %04X, %s %04X", i, logodwen_get(image->bytes, i), how, logodwen_get(words, i));
    return true;
}

/* The reply to File Read against the image: the file's words, then reply status and the reply's FCS. */
static bool is_same(const struct contents *image, const uint8_t *reply, size_t count, char *detail) {
    if (!are_alike(image, reply, count, "read", detail) || !are_as_long(image, reply, count, detail))
        return false;
    unsigned said = logodwen_get(reply, count + 1), is = logodwen_fcs(reply, count + 1);
    return said == is || say(detail, "the words agree, but the reply has the FCS %04X and should have %04X", said, is);
}

static bool is_read_back(const struct contents *image, const struct logodwen_packet *read, char *detail) {
    if (read->words >= 2)
        return is_same(image, read->bytes, read->words - 2, detail);
    return say(detail, "word 0: signed %04X, read nothing; File Read was answered %s", logodwen_get(image->bytes, 0), reply_text(read));
}

/* Whether the directory has the file where it went by the rules, and nowhere else, as good and with its length. */
static bool is_listed(struct logodwen_node *node, unsigned holders, unsigned place, const struct entry *directory, char *detail) {
    char difference[TEXT];
    if (holders != 1u << place) {
        sectors_text(holders, difference);
        return say(detail, "the words agree, but by the rules the file is in sector %u, and the directory has it in %s", place, difference);
    }
    return sector_is_right(node, place, directory[place - SECTOR_FIRST], difference) || say(detail, "the words agree, but %s", difference);
}

static bool is_abort(const struct logodwen_packet *reply) { return reply->bc == LOGODWEN_BC_ABORT && reply->words == 0; }

/* After a File Write that was answered END: where the directory has the file, and whether it is read back as it was signed. A file that is too
   long for File Read is compared with the words of its sector in the flash, and the detail says so: what was not compared does not agree. */
static enum verdict read_back(struct logodwen_node *node, const struct contents *image, const struct course *course, unsigned place,
                              struct finding *finding) {
    struct entry directory[SECTORS];
    bool is_there = directory_of(course->summary.bytes, course->summary.words, directory);
    unsigned holders = is_there ? directory_named(directory, name_of(finding->header)) : 0;
    bool is_long = image->words > LOGODWEN_FILE_READ_WORDS;
    finding->sector = set_lowest(holders);
    if (is_long && !is_abort(&course->read)) {
        say(finding->detail, "File Read was answered %s; by the rules it is ABORT above 12,286 words", reply_text(&course->read));
        return DISPUTED;
    }
    if (is_long ? !are_alike(image, sector_begin(node, place), image->words, "in the flash", finding->detail)
                : !is_read_back(image, &course->read, finding->detail))
        return DIFFERS;
    if (!is_listed(node, holders, place, directory, finding->detail))
        return DISPUTED;
    if (is_long)
        say(finding->detail, "compared in the flash, not read back: File Read answers at most 12,286 words");
    return AGREES;
}

static enum verdict write_and_read_back(struct logodwen_node *node, const struct contents *image, struct finding *finding) {
    static const char *const bare[4] = {"NEXT", "ERROR", "ABORT", "END"}; /* replies of no words, by BC */
    struct entry directory[SECTORS];
    if (!node_directory(node, directory)) {
        say(finding->detail, "Flash Summary was not answered with a directory");
        return DISPUTED;
    }
    struct forecast forecast = foretell(node, directory, image);
    struct course course;
    size_t to_send = words_to_send(image);
    node_write_and_read(node, image->bytes, to_send, name_of(finding->header), &course);
    const char *answer = reply_text(&course.written);
    if (course.sent != to_send) {
        say(finding->detail, "File Write in packets was answered %s after %zu words; by the rules it is NEXT, up to %zu", answer, course.sent,
            to_send);
        return DISPUTED;
    }
    if (course.written.words != 0 || course.written.bc != forecast.bc) {
        say(finding->detail, "File Write was answered %s; by the rules it is %s; %s", answer, bare[forecast.bc],
            forecast.verdict == AGREES ? "the image is valid and has room" : forecast.why);
        return DISPUTED;
    }
    if (forecast.verdict == AGREES)
        return read_back(node, image, &course, forecast.sector, finding);
    say(finding->detail, "%s", forecast.why);
    return forecast.verdict;
}

void verdict_on_image(struct logodwen_node *node, const struct contents *image, struct finding *finding) {
    *finding = (struct finding){.verdict = TOO_LARGE};
    if (image->is_too_long) {
        say(finding->detail, "more than 1,048,576 bytes, not read on; %s", node_size(node)->what);
        return;
    }
    finding->has_words = true;
    finding->words = image->words;
    finding->header = image->words > 0 ? logodwen_get(image->bytes, 0) : 0;
    finding->fcs = logodwen_fcs(image->bytes, image->words);
    finding->verdict = write_and_read_back(node, image, finding);
}
