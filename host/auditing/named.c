/* Which sectors have a name: none, one or several (02, request 10). A flash that was programmed elsewhere can have a name twice; File Read, Test,
   Load, Attribute Set and Erase by that name are then answered ABORT. Sets of sectors have bit s for sector s. */
#include "audit.h"

unsigned directory_named(const struct entry *directory, unsigned name) {
    unsigned sectors = 0;
    for (unsigned sector = SECTOR_FIRST; sector <= SECTOR_LAST; sector++) {
        unsigned first = directory[sector - SECTOR_FIRST].first;
        if (rules_may_begin(first) && name_of(first) == name)
            sectors |= 1u << sector;
    }
    return sectors;
}

void sectors_text(unsigned sectors, char *text) { set_text(sectors, "sector", text); }

void sectors_erasures(unsigned sectors, char *text) { set_list(sectors, "--erase-sector ", ", ", text); }
