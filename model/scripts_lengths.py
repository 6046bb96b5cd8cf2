"""Scripts on a file's length in the summary (02, request 6)."""

from flash import SECTORS, address_of, extent
from node import CDDC
from node_lines import DIRECTORY, FLASH
from script import BENCH, FULL, command
from scripts_flash import each_file_command
from scripts_writes import long_file, packets, poke_file, send

GOOD, FILLED, BAD, EMPTY = SECTORS[:4]  # what a sector is in `four_kinds`


def set_length(s, sector, length):
    """Sets the fourth word of a kept entry."""
    s.set(DIRECTORY, length, 4 * (sector - SECTORS[0]) + 3)


def shown_lengths(s):
    """A file's length is there after a write, in one packet or in several, and after a start, and stays when an attribute is set; it is
    gone from the moment that an erasure begins. Files fill both kinds of sector, that of 32,768 words too."""
    for size in (BENCH, FULL):
        s.fresh(CDDC, 4, size)
        for name, length in ((1, size // 16), (2, size // 8)):
            send(s, packets(long_file(s, length, name), [8192 if size == FULL else 1500]))
            s.request(command(0x07))
        s.request(s.long_file(5, 3).behind(command(0x45)))
        s.request(command(0x07))
        poke_file(s, 6, [s.long_file(6, 4).behind([0xFFFF])])
        s.start()
        s.state()
        for name in (1, 2, 3):
            for value in (0, 1, 1, 0):
                s.request(command(0x48, name << 4, value))
            s.request(command(0x07))
        for parameter in (0x0021, address_of(6)):
            s.request(command(0x47, parameter))
            s.request(command(0x07))
            for budget in (0, 1, size // 16, size):
                s.erase(budget)
                s.request(command(0x07))
        s.request(s.long_file(7, 4).behind(command(0x45)))
        s.request(command(0x07))
        s.state()


def four_kinds(s, size):
    """One sector of each kind, and the length that each has in the summary."""
    s.fresh(CDDC, 4, size, dm=8192)
    poke_file(s, GOOD, [s.long_file(5, GOOD)])
    poke_file(s, FILLED, long_file(s, size // 8, FILLED))
    poke_file(s, BAD, [s.long_file(5, BAD)])
    s.poke(FLASH, extent(size, BAD).start + 3, [0])
    s.start()
    return {GOOD: 5, FILLED: size // 8, BAD: 0, EMPTY: 0}


def wrong_lengths(s):
    """A kept length that isn't the one worked out afresh: the sector is bad to the commands, and not empty to a write. What lays the
    entry mends it."""
    for size, wrong in (
        (BENCH, ((GOOD, (0, 4, 6, 0x8000, 0x8005)), (FILLED, (0, 4095)), (BAD, (5, 0x8000)), (EMPTY, (1, 4096)))),
        (FULL, ((GOOD, (0,)), (FILLED, (0, 32767)))),
    ):
        for sector, lengths in wrong:
            for length in lengths:
                assert four_kinds(s, size)[sector] != length
                set_length(s, sector, length)
                each_file_command(s, sector, EMPTY if sector == EMPTY else None)


def erasing_lengths(s):
    """A length in the entry of the sector being erased: Summary shows it, and erase progress that sets a word lays 0."""
    for budget in (0, 1, 4096):
        four_kinds(s, BENCH)
        s.request(command(0x47, FILLED << 4 | 1))
        s.erase(10)
        set_length(s, FILLED, 4096)
        s.request(command(0x07))
        s.request(command(0x05, FILLED << 4))
        s.erase(budget)
        s.request(command(0x07))
        s.erase(5000)
        s.state()
