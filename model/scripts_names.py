"""Scripts on names that several sectors have (02, request 10)."""

from flash import address_of, extent
from node import CDDC
from node_lines import DIRECTORY, FLASH
from script import BENCH, FULL, command
from scripts_flash import each_file_command

NAME = 0x21


def poke_files(s, size, sectors):
    """A flash that was programmed elsewhere: a file of the name in each of some sectors, good or bad, no two alike."""
    s.fresh(CDDC, 4, size)
    for sector, is_good in sectors.items():
        words = s.some_file(NAME)
        if not is_good:
            words[-1] ^= 1
        s.poke(FLASH, extent(size, sector).start, words)
    s.start()


def doubled_names(s):
    """Two sectors of one name or three, good or bad, and each command; one sector after the other is erased by its address, until one is
    left, which serves by its name again."""
    for size, sectors in (
        (BENCH, {3: True, 4: True}), (BENCH, {3: True, 10: False}), (BENCH, {5: False, 9: True}), (BENCH, {4: False, 5: False}),
        (BENCH, {3: True, 6: True, 10: True}), (BENCH, {3: False, 4: True, 5: False}), (FULL, {3: True, 10: True}),
    ):
        poke_files(s, size, sectors)
        for sector in list(sectors)[:-1]:
            each_file_command(s, NAME, sector)
        each_file_command(s, NAME)


def one_being_erased(s):
    """Erase by the name is ABORT. One of two is erased by its address, in steps, with commands between them: they are ABORT until it is
    over, and count nothing; then the other serves."""
    for sector in (3, 4):
        poke_files(s, BENCH, {3: True, 4: True})
        s.request(command(0x47, NAME << 4 | 1))
        s.request(command(0x47, address_of(sector)))
        for budget in (0, 1, 4096):
            for number in (0x05, 0x06, 0x46, 0x47):
                s.request(command(number, NAME << 4 | 1))
            s.request(command(0x48, NAME << 4, 0))
            s.request(command(0x45, *s.some_file(NAME)))
            s.erase(budget)
        each_file_command(s, NAME)


def one_that_counts(s):
    """A first word that has the name and can't start a file, or has another name, doesn't count: the other sector serves."""
    for word in (0x8000 | NAME << 4 | 1, 0xF000 | NAME << 4 | 1, NAME << 4, NAME << 4 | 15, (NAME ^ 0x80) << 4 | 1, (NAME ^ 1) << 4 | 1):
        poke_files(s, BENCH, {4: True})
        s.poke(FLASH, extent(BENCH, 3).start, [word])
        s.start()
        each_file_command(s, NAME)


def kept_twice(s):
    """A name that the kept directory has once more, or once less, than the flash: the search goes by the directory."""
    for sectors, place, first in (({4: True}, 3, NAME << 4 | 1), ({4: True}, 10, 0x7000 | NAME << 4 | 14), ({3: True, 4: True}, 3, 0xFFFF)):
        poke_files(s, BENCH, sectors)
        s.set(DIRECTORY, first, 4 * (place - 3))
        each_file_command(s, NAME)
        s.start()
        s.request(command(0x05, NAME << 4))
