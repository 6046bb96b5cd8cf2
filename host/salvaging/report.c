/* What is printed: a line of sector, segments kept, and copied, reduced or lost, for each of the sectors 3 to 10. */
#include "salvage.h"

void report_sectors(uint64_t answered) {
    for (unsigned sector = LOGODWEN_SECTOR_FIRST; sector <= LOGODWEN_SECTOR_LAST; sector++)
        printf("%u\t%u\t%s\n", sector, logodwen_kept(answered, sector), logodwen_saved_text(logodwen_saved(answered, sector)));
}

bool report_is_lost(uint64_t answered) {
    bool is_lost = false;
    for (unsigned sector = LOGODWEN_SECTOR_FIRST; sector <= LOGODWEN_SECTOR_LAST; sector++)
        is_lost = is_lost || logodwen_saved(answered, sector) == LOGODWEN_SAVED_LOST;
    return is_lost;
}
