/* Plain C on words that several comparisons use. */
#ifndef LOGODWEN_PLAIN_H
#define LOGODWEN_PLAIN_H

#include <stdbool.h>
#include <stddef.h>
#include <stdint.h>

/* The table algorithm of section 16.2 of the note. */
uint16_t plain_fcs(const uint16_t *words, size_t n);

/* Where the valid segment at a place ends, or 0. */
size_t plain_segment_end(const uint16_t *words, size_t n, size_t at);

/* The length of the valid file that a run starts with, or 0. */
size_t plain_file_end(const uint16_t *words, size_t n);

/* Where a sector begins, and how many words it has, of a flash of so many; its address. */
size_t plain_sector_start(size_t flash, size_t sector);
size_t plain_sector_size(size_t flash, size_t sector);
uint16_t plain_sector_address(size_t sector);

/* Whether words are FFFF, one by one up to the first that isn't: a run that is all of a sector, or what stands behind its file. */
bool plain_is_empty(const uint16_t *sector, size_t n);

/* The length of the file of a good sector, which has nothing behind it (02, request 5), or 0: one pass over the sector. */
size_t plain_good_file(const uint16_t *sector, size_t n);

/* Lays a file of DM segments that fills a run. */
void plain_lay_file(uint16_t *words, size_t n);

#endif
