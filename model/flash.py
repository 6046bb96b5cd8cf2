"""The flash, from 01 'Flash' and requests 5, 6 and 10 of 02: its sectors, the directory that the state keeps of them, and what changes
either. A directory is 32 words, four for each of the sectors 3 to 10; `erasing` is the sector being erased, or None."""

from functools import lru_cache

from files import file_length, may_start, name_of

SIZES = (32768, 262144)  # bench and full
SECTORS = range(3, 11)  # the file sectors
BLANK = 0xFFFF
EMPTY, GOOD, BAD, ERASING = "empty", "good", "bad", "erasing"
SEVERAL = "several"  # sectors have a name
STATUS = {EMPTY: 0, GOOD: 0, BAD: 0x8000, ERASING: 0x4000}  # the status word


def extent(size, sector):
    """The places of a sector's words in a flash of a size: with U a sixteenth, sector 3 has U words, sectors 4-10 have 2U each."""
    unit = size // 16
    if sector == 3:
        return range(unit, 2 * unit)
    return range(2 * unit * (sector - 3), 2 * unit * (sector - 2))


def words_in(flash, sector):
    places = extent(len(flash), sector)
    return flash[places.start:places.stop]


def address_of(sector):
    return 0x0200 if sector == 3 else 0x0400 * (sector - 3)


def addressed(address):
    """The sector that has an address, or None."""
    return {address_of(sector): sector for sector in SECTORS}.get(address)


@lru_cache(maxsize=64)
def judged(words):
    """What a sector of these words is, with the length of its file, which is 0 unless it is good. A file is good only if all words behind
    it are blank (02, request 5)."""
    if set(words) == {BLANK}:
        return EMPTY, 0
    length = file_length(list(words))
    return (BAD, 0) if length is None or set(words[length:]) - {BLANK} else (GOOD, length)


# The directory.


def entry(sector, first, status, length=0):
    """The four summary words of a sector. The fourth is the length of a good sector's file, 0 for any other (02, request 6)."""
    return [first, address_of(sector), STATUS[status], length]


def afresh(flash, sector, erasing=None):
    """What a sector is now, with the length of its file."""
    return (ERASING, 0) if sector == erasing else judged(tuple(words_in(flash, sector)))


def entry_of(flash, sector, erasing=None):
    return entry(sector, words_in(flash, sector)[0], *afresh(flash, sector, erasing))


def directory_of(flash, erasing=None):
    return [word for sector in SECTORS for word in entry_of(flash, sector, erasing)]


def kept(directory, sector):
    """A sector's entry in a directory."""
    return directory[4 * sector - 12:4 * sector - 8]


def laid(directory, sector, entry):
    """The directory with one entry laid whole."""
    return directory[:4 * sector - 12] + entry + directory[4 * sector - 8:]


def all_named(directory, name):
    """The sectors whose first word can start a file and has that name, lowest first."""
    firsts = {sector: kept(directory, sector)[0] for sector in SECTORS}
    return [sector for sector, first in firsts.items() if may_start(first) and name_of(first) == name]


def named(directory, name):
    """The lowest of them, or None."""
    return next(iter(all_named(directory, name)), None)


def searched(directory, name):
    """What the name search says (02, request 10): None, the one sector that has the name, or SEVERAL."""
    return SEVERAL if len(all_named(directory, name)) > 1 else named(directory, name)


# What a command does with a sector.


def status_in(flash, directory, sector, erasing=None):
    """What a sector is to a command, with the length of its file: bad where its entry differs from the one worked out afresh."""
    if kept(directory, sector) != entry_of(flash, sector, erasing):
        return BAD, 0
    return afresh(flash, sector, erasing)


def place_for(flash, directory, length, erasing=None):
    """The lowest-numbered empty sector with at least as many words, or None."""
    for sector in SECTORS:
        if length <= len(extent(len(flash), sector)) and status_in(flash, directory, sector, erasing)[0] == EMPTY:
            return sector
    return None


def store(flash, sector, words):
    """Puts words at the start of a sector."""
    start = extent(len(flash), sector).start
    flash[start:start + len(words)] = words


def attributed(header, value):
    """The header with its attribute set default (1) or plain (0); None where the value is another, or 0X is to be default."""
    attribute = header >> 12 & 3
    if value == 1:
        return {3: header & ~0x1000, 2: header}.get(attribute)
    if value == 0:
        return header & ~0x2000 if attribute == 2 else header
    return None


def sector_to_erase(directory, word):
    """The sector that Erase's parameter means: low four bits zero a sector address, else a name; None where it is unknown, and SEVERAL
    where several sectors have the name."""
    return addressed(word) if word & 15 == 0 else searched(directory, name_of(word))


def blank(flash, sector, done, budget):
    """Sets words of a sector from its word `done` on, as many as the budget or the rest; how many they are."""
    places = extent(len(flash), sector)
    count = min(budget, len(places) - done)
    start = places.start + done
    flash[start:start + count] = [BLANK] * count
    return count
