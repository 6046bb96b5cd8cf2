"""Scripts on remains behind a file (02, request 5)."""

from build import file_of, segment
from files import DM, IO
from flash import BLANK, extent
from node import CDDC
from node_lines import FLASH
from script import BENCH, FULL, command
from scripts_flash import each_file_command
from scripts_writes import long_file, poke_file

NAME = 0x21


def remains(s):
    """A bit in the first word behind a file, in one in the middle or in the sector's last makes the sector bad; with none it is good. To
    be erased by its name it needs the first word alone."""
    file = file_of([segment(DM, 0x2000, [1, 2, 3]), segment(IO, 0, [0x1005, 7])], name=NAME)
    for size, sectors in ((BENCH, (3, 4, 10)), (FULL, (3, 10))):
        for sector in sectors:
            first, last = extent(size, sector)[len(file)], extent(size, sector)[-1]
            for at in (None, first, (first + last) // 2, last - 1, last):
                s.fresh(CDDC, 4, size)
                s.poke(FLASH, extent(size, sector).start, file)
                if at is not None:
                    s.poke(FLASH, at, [BLANK ^ 1 << s.pick.randrange(16)])
                s.start()
                each_file_command(s, NAME)


def remains_come_and_go(s):
    """Remains that no start has seen, and those that a directory has and are gone: an entry that differs is bad."""
    for at in (9, 2047):
        s.fresh(CDDC, 4, BENCH)
        s.request(s.long_file(9, NAME).behind(command(0x45)))
        for word in (0x7FFF, BLANK):
            s.poke(FLASH, extent(BENCH, 3)[at], [word])
            for number in (0x05, 0x06, 0x46):
                s.request(command(number, NAME << 4))
            s.start()
            s.request(command(0x05, NAME << 4))
            s.state()


def nothing_behind(s):
    """A file that fills its sector has no words behind it, whatever the next sector begins with; one that is a word shorter has one."""
    for size in (BENCH, FULL):
        for sector in (3, 4, 10):
            places = extent(size, sector)
            for shorter, word in ((0, None), (1, BLANK), (1, BLANK - 1)):
                s.fresh(CDDC, 4, size)
                poke_file(s, sector, long_file(s, len(places) - shorter, NAME))
                if shorter:
                    s.poke(FLASH, places[-1], [word])
                if sector < 10:
                    s.poke(FLASH, places.stop, [0])
                s.start()
                for number in (0x07, 0x05, 0x06):
                    s.request(command(number, NAME << 4)[:1 if number == 0x07 else 2])
