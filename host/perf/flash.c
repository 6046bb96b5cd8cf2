/* The flash: its directory worked out afresh. */
#include "measure.h"
#include "plain.h"
#include "runs.h"

#include <string.h>

uint16_t perf_scan(const uint16_t *words, size_t n, size_t at); /* crates/perf */

enum { FLASH_WORDS = 262144 };
static uint16_t words[FLASH_WORDS];
static volatile uint16_t kept;

static uint16_t plain_scan(const uint16_t *flash, size_t n, size_t at) {
    uint16_t directory[32];
    for (size_t sector = 3; sector < 11; sector++) {
        const uint16_t *words = flash + plain_sector_start(n, sector);
        size_t size = plain_sector_size(n, sector);
        uint16_t *entry = directory + (sector - 3) * 4;
        entry[0] = words[0];
        entry[1] = plain_sector_address(sector);
        size_t length = plain_good_file(words, size);
        entry[2] = length != 0 || plain_is_empty(words, size) ? 0 : 0x8000;
        entry[3] = (uint16_t)length;
    }
    return directory[at % 32];
}

static void scans(bool plain) { kept = plain ? plain_scan(words, FLASH_WORDS, 2) : perf_scan(words, FLASH_WORDS, 2); }

/* A flash of eight good files: of so many words each, or, with 0, as many as their sectors have. */
static int perf_scan_of(const struct row *row, size_t length) {
    memset(words, 0xFF, sizeof words);
    for (size_t sector = 3; sector < 11; sector++)
        plain_lay_file(words + plain_sector_start(FLASH_WORDS, sector), length == 0 ? plain_sector_size(FLASH_WORDS, sector) : length);
    for (size_t at = 0; at < 32; at++) {
        uint16_t expected = plain_scan(words, FLASH_WORDS, at);
        if (perf_scan(words, FLASH_WORDS, at) != expected || (at % 4 == 2 && expected != 0) || (at % 4 == 3 && expected == 0))
            return measure_differs(row->what);
    }
    return measure(row, 1);
}

int perf_flash_runs(void) {
    static const struct row full = {"scan of eight full sectors, full size", NULL, scans, 1, 1.15},
                            short_files = {"scan of eight files of 6 words, full size", NULL, scans, 1, 1.15};
    return perf_scan_of(&full, 0) + perf_scan_of(&short_files, 6);
}
