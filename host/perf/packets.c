/* A File Write of 32,000 words in four packets, on words, at full size: the node's calls, against plain C that joins the same
   packets in the same area and writes the file from there. */
#include "measure.h"
#include "plain.h"
#include "runs.h"

#include <string.h>

uint32_t perf_packet(uint32_t bc, size_t joined, const uint16_t *packet, size_t packet_words, uint16_t *flash, size_t flash_words,
                     uint32_t *pm, size_t pm_words, uint16_t *dm, size_t dm_words, uint16_t *io, size_t io_words, uint16_t *area,
                     size_t area_words, uint16_t *list, size_t list_words, const uint16_t *events, size_t events_words, uint16_t *reply,
                     size_t reply_words); /* crates/perf */

enum { FLASH_WORDS = 262144, AREA_WORDS = 32768, EVENTS_WORDS = 12288, REPLY_WORDS = 12288 };
enum { FILE_WORDS = 32000, PACKETS = 4, PART = FILE_WORDS / PACKETS };
enum { MIDDLE = 0, LAST = 1, FIRST = 2, FILE_WRITE = 0x452E }; /* BC, and the first packet's header word */
enum { NEXT = 0, ERROR = 1, ABORT = 2, END = 3 };              /* the BC of the answer */

static uint16_t flash[FLASH_WORDS], area[AREA_WORDS], events[EVENTS_WORDS], reply[REPLY_WORDS], kept[FLASH_WORDS];
static uint16_t block[1 + FILE_WORDS]; /* the header word and the file */
static uint32_t answered;

/* The directory of an empty flash. */
static uint16_t directory[32];

static void prepare(void) {
    memset(flash, 0xFF, sizeof flash);
    for (size_t sector = 3; sector < 11; sector++) {
        uint16_t *entry = directory + (sector - 3) * 4;
        entry[0] = 0xFFFF;
        entry[1] = plain_sector_address(sector);
        entry[2] = entry[3] = 0;
    }
}

static bool is_named(unsigned header, unsigned name) {
    return header >> 15 == 0 && 1 <= (header & 15) && (header & 15) <= 14 && (header >> 4 & 0xFF) == name;
}

/* The lowest sector that the directory has empty, and is so, with room; 0 where there is none. */
static size_t plain_place(size_t words) {
    for (size_t sector = 3; sector < 11; sector++) {
        const uint16_t *entry = directory + (sector - 3) * 4;
        size_t size = plain_sector_size(FLASH_WORDS, sector);
        if (size >= words && entry[0] == 0xFFFF && entry[2] == 0
            && plain_is_empty(flash + plain_sector_start(FLASH_WORDS, sector), size))
            return sector;
    }
    return 0;
}

static uint32_t plain_write(const uint16_t *file, size_t words) {
    if (plain_file_end(file, words) != words)
        return ABORT;
    for (size_t sector = 3; sector < 11; sector++)
        if (is_named(directory[(sector - 3) * 4], file[0] >> 4 & 0xFF))
            return ABORT;
    size_t sector = plain_place(words);
    if (sector == 0)
        return ABORT;
    memcpy(flash + plain_sector_start(FLASH_WORDS, sector), file, words * sizeof *file);
    directory[(sector - 3) * 4] = file[0];
    directory[(sector - 3) * 4 + 3] = (uint16_t)words;
    return END;
}

static uint32_t plain_packet(uint32_t bc, size_t joined, const uint16_t *packet, size_t words) {
    if (bc == FIRST) {
        if (packet[0] != FILE_WRITE)
            return ERROR;
        packet++;
        words--;
    }
    if (joined + words > AREA_WORDS)
        return ABORT;
    memcpy(area + joined, packet, words * sizeof *packet);
    return bc == LAST ? plain_write(area, joined + words) : NEXT;
}

static uint32_t proved_packet(uint32_t bc, size_t joined, const uint16_t *packet, size_t words) {
    return perf_packet(bc, joined, packet, words, flash, FLASH_WORDS, NULL, 0, NULL, 0, NULL, 0, area, AREA_WORDS, NULL, 0, events,
                       EVENTS_WORDS, reply, REPLY_WORDS);
}

static void writes(bool plain) {
    for (size_t part = 0; part < PACKETS; part++) {
        uint32_t bc = part == 0 ? FIRST : part == PACKETS - 1 ? LAST : MIDDLE;
        const uint16_t *packet = part == 0 ? block : block + 1 + part * PART;
        size_t words = part == 0 ? 1 + PART : PART;
        answered = plain ? plain_packet(bc, part * PART, packet, words) : proved_packet(bc, part * PART, packet, words);
    }
}

int perf_packet_runs(void) {
    static const struct row row = {"a write of 32,000 words in four packets", prepare, writes, 1, 1.30};
    block[0] = FILE_WRITE;
    plain_lay_file(block + 1, FILE_WORDS);
    prepare();
    writes(false);
    memcpy(kept, flash, sizeof kept);
    bool is_written =
        answered == END && memcmp(flash + plain_sector_start(FLASH_WORDS, 4), block + 1, FILE_WORDS * sizeof *block) == 0;
    prepare();
    writes(true);
    if (!is_written || answered != END || memcmp(kept, flash, sizeof kept) != 0)
        return measure_differs(row.what);
    return measure(&row, 1);
}
