/* 01 'Flash', and requests 5, 6 and 10 of 02: sectors, the directory, names, placing, attributes. */
#include "model.h"

/* With U a sixteenth: words 0 to U-1 are sectors 0-2, sector 3 has U words, sectors 4-10 have 2U each. */
size_t model_sector_start(size_t flash_words, unsigned sector) {
    size_t unit = flash_words / 16;
    return sector == 3 ? unit : 2 * unit * (sector - 3);
}

size_t model_sector_size(size_t flash_words, unsigned sector) { return sector == 3 ? flash_words / 16 : flash_words / 8; }

unsigned model_sector_address(unsigned sector) { return sector == 3 ? 0x0200 : 0x0400 * (sector - 3); }

/* The fourth word is the length of a good sector's file, 0 for any other sector (02, request 6). */
void model_lay_entry(uint16_t *directory, unsigned sector, unsigned first, unsigned status, size_t length) {
    uint16_t *entry = directory + 4 * (sector - SECTOR_FIRST);
    entry[0] = (uint16_t)first;
    entry[1] = (uint16_t)model_sector_address(sector);
    entry[2] = (uint16_t)status;
    entry[3] = (uint16_t)length;
}

/* Whether the kept entry is that of an empty sector, with length 0, or of a good one. */
static bool has_entry(const uint16_t *directory, unsigned sector, unsigned first, size_t length) {
    const uint16_t *entry = directory + 4 * (sector - SECTOR_FIRST);
    return entry[0] == first && entry[1] == model_sector_address(sector) && entry[2] == 0 && entry[3] == length;
}

static const uint8_t *sector_bytes(struct run flash, unsigned sector) {
    return flash.bytes + 2 * model_sector_start(flash.words, sector);
}

/* Whether a sector's words are FFFF from one of them on. */
static bool is_blank(struct run flash, unsigned sector, size_t from) {
    const uint8_t *bytes = sector_bytes(flash, sector);
    size_t size = model_sector_size(flash.words, sector);
    for (size_t i = from; i < size; i++)
        if (word_at(bytes, i) != 0xFFFF)
            return false;
    return true;
}

/* The length of the file that makes a sector good, 0 where none does: nothing but FFFF stands behind it (02, request 5). */
static size_t file_in(struct run flash, unsigned sector) {
    size_t length = model_file_length(sector_bytes(flash, sector), model_sector_size(flash.words, sector));
    return length != 0 && is_blank(flash, sector, length) ? length : 0;
}

void model_directory(uint16_t *directory, struct run flash) {
    for (unsigned sector = SECTOR_FIRST; sector <= SECTOR_LAST; sector++) {
        size_t length = file_in(flash, sector);
        bool bad = length == 0 && !is_blank(flash, sector, 0);
        model_lay_entry(directory, sector, word_at(sector_bytes(flash, sector), 0), bad ? 0x8000 : 0, length);
    }
}

static bool is_named(const uint16_t *directory, unsigned sector, unsigned header) {
    unsigned first = directory[4 * (sector - SECTOR_FIRST)];
    return model_may_start(first) && ((first ^ header) & 0x0FF0) == 0;
}

/* The sector whose first word can start a file and has the name in bits 11-4, if there is one and no other (02, request 10). */
unsigned model_named(const uint16_t *directory, unsigned header) {
    unsigned found = NO_SECTOR;
    for (unsigned sector = SECTOR_FIRST; sector <= SECTOR_LAST; sector++)
        if (is_named(directory, sector, header))
            found = found == NO_SECTOR ? sector : SEVERAL;
    return found;
}

/* A sector whose entry differs from the one worked out afresh is bad. */
size_t model_good_file(const uint16_t *directory, struct run flash, unsigned sector) {
    if (sector < SECTOR_FIRST)
        return 0;
    size_t length = file_in(flash, sector);
    return has_entry(directory, sector, word_at(sector_bytes(flash, sector), 0), length) ? length : 0;
}

unsigned model_place(const uint16_t *directory, struct run flash, size_t length) {
    for (unsigned sector = SECTOR_FIRST; sector <= SECTOR_LAST; sector++)
        if (length <= model_sector_size(flash.words, sector) && has_entry(directory, sector, 0xFFFF, 0) && is_blank(flash, sector, 0))
            return sector;
    return NO_SECTOR;
}

unsigned model_sector_to_erase(const uint16_t *directory, unsigned parameter) {
    if ((parameter & 15) != 0)
        return model_named(directory, parameter);
    for (unsigned sector = SECTOR_FIRST; sector <= SECTOR_LAST; sector++)
        if (model_sector_address(sector) == parameter)
            return sector;
    return NO_SECTOR;
}

/* 11 to default clears bit 12, 10 to plain clears bit 13, 0X to default is refused, what holds already stays. */
bool model_attribute(unsigned *header, unsigned value) {
    unsigned attribute = *header >> 12 & 3;
    if (value > 1 || (value == 1 && attribute < 2))
        return false;
    if (value == 1 && attribute == 3)
        *header &= ~0x1000u;
    if (value == 0 && attribute == 2)
        *header &= ~0x2000u;
    return true;
}
