"""Scripts on files: written, read, tested, loaded, erased and damaged; and directories that differ from the flash."""

from build import file_of
from files import DM, IO, PM
from flash import SECTORS, address_of, extent
from node import CDDC, CDP, COMMANDS
from node_lines import DIRECTORY, ERASING, ERASING_NOTHING, FLASH
from script import BENCH, FULL, command


def flash_step(s):
    """One more call on files, of any kind."""
    pick = s.pick
    size = s.node.flash_words
    sector = pick.choice(list(SECTORS))
    places = extent(size, sector)
    name = s.some_header()

    def write():
        s.request(command(0x45, *s.some_file()))

    def write_long():
        length = pick.choice((2048, 2049, 4096, 4097, 8191, 2047, 4000)) if size == BENCH else pick.choice((8191, 8190, 5000))
        s.request(s.long_file(length, s.new_name(), pick.choice((3, 2, 0))).behind(command(0x45)))

    def write_wrong():
        s.request(command(0x45, *s.damaged(s.some_file())))

    def erase_start():
        address = address_of(sector)
        s.request(command(0x47, pick.choice((name, name | 1, address, address, 0x0000, 0x0300, 0x2000, 0x0600))))

    def damage():
        at = places.start + pick.choice((0, 1, 2, pick.randrange(12), pick.randrange(len(places)), len(places) - 1))
        words = s.program.lent[FLASH]
        bit = 1 << pick.randrange(16)
        s.poke(FLASH, at, [pick.choice((words[at] & ~bit, words[at] ^ bit, 0, 0xFFFF))])
        if pick.randrange(3):
            s.start(s.node.kind, s.node.ports)

    ways = [write] * 5 + [write_long, write_wrong, write_wrong, erase_start, erase_start, damage, damage]
    ways += [lambda: s.request(command(pick.choice((0x05, 0x05, 0x06, 0x46)), name))] * 5
    ways += [lambda: s.request(command(0x48, name, pick.choice((0, 1, 1, 2, 0x101))))] * 3
    ways += [lambda: s.request(command(0x07)), lambda: s.request(command(0x0C))]
    if s.node.erasing:
        rest = len(extent(size, s.node.erasing.sector)) - s.node.erasing.done
        budgets = (0, 1, 7, pick.randrange(rest + 1), rest, rest, rest + 1, 2**32, 2**32 + 1, 2**64 - 1)
        ways += [lambda: s.erase(pick.choice(budgets))] * 12
    elif not pick.randrange(4):
        ways += [lambda: s.erase(pick.randrange(9))]
    pick.choice(ways)()


def each_file_command(s, name, erased=None):
    """Each command on a name, a write of it, and one of another; then an erasure, by the name or by a sector's address, and a write again."""
    s.request(command(0x07))
    for number in (0x05, 0x06, 0x46):
        s.request(command(number, name << 4))
    for value in (1, 0):
        s.request(command(0x48, name << 4, value))
    for written in (name, 0x99):
        s.request(command(0x45, *s.some_file(written)))
    s.request(command(0x47, name << 4 | 1 if erased is None else address_of(erased)))
    s.erase(s.node.flash_words)
    s.request(command(0x45, *s.some_file(name)))
    s.request(command(0x05, name << 4))
    s.state()


def files(s):
    """Files written, read, tested, loaded, erased in steps, damaged, and started over."""
    for turn in range(265):
        size = FULL if turn % 14 == 3 else BENCH
        pm, dm = s.pick.choice((64, 64, 10)), s.pick.choice((64, 70, 3))
        s.fresh(s.pick.choice((CDP, CDDC)), s.pick.randrange(1, 5), size, pm=pm, dm=dm)
        for _ in range(22):
            flash_step(s)
        s.digest(FLASH, 0, s.node.flash_words or BENCH)
        s.state()


def every_sector(s):
    """Eight files fill the flash; a ninth finds no room; each is read, gets its attributes, is erased by name or address."""
    pick = s.pick
    for size in (BENCH, FULL):
        s.fresh(CDDC, 4, size)
        sizes = [len(extent(size, sector)) for sector in SECTORS]
        for place, most in enumerate(sizes):
            length = most if size == BENCH and place % 3 == 0 else pick.randrange(5, min(most, 8191) + 1)
            s.request(s.long_file(length, place + 1, pick.choice((3, 2, 1, 0))).behind(command(0x45)))
            s.request(s.long_file(length, place + 1).behind(command(0x45)))
        s.request(s.long_file(5, 0x99).behind(command(0x45)))
        s.request(command(0x07))
        s.start()
        for name in range(10):
            for number in (0x05, 0x06, 0x46):
                s.request(command(number, name << 4))
            for value in (0, 1, 2, 0, 1):
                s.request(command(0x48, name << 4, value))
                s.request(command(0x05, name << 4), show=16)
        s.request(command(0x07))
        for place, most in enumerate(sizes):
            s.request(command(0x47, address_of(SECTORS[place]) if place % 2 else (place + 1) << 4 | 5))
            for number in COMMANDS:
                s.request(command(number, (place + 1) << 4, 1)[:pick.choice((2, 3))])
            s.request(command(0x07))
            left = most
            while left > 0:
                budget = pick.choice((1, most // 3, left - 1 or 1, left, left + 1))
                left -= budget
                s.erase(budget)
                s.request(command(0x07))
                s.request(command(0x12))
            s.erase(1)
            s.request(s.long_file(pick.choice((5, 9)), place + 1).behind(command(0x45)))
            s.request(command(0x05, (place + 1) << 4))
        s.ends()


def long_files(s):
    """Files in the flash that no packet can bring: too long to answer, ending at the sector's last word, one word too long."""
    pick = s.pick
    for size, lengths in ((FULL, (12285, 12286, 12287, 16384, 16385)), (BENCH, (2048, 2049, 4096, 4097))):
        for length in lengths:
            s.fresh(CDDC, 4, size, dm=pick.choice((8192, 16384, 100)))
            for sector in (3, 4, 10):
                s.poke(FLASH, extent(size, sector).start, s.long_file(length, sector, seed=11))
            s.start()
            s.request(command(0x07))
            for sector in (3, 4, 10):
                for number in (0x05, 0x06, 0x46):
                    s.request(command(number, sector << 4), show=16 if number == 0x05 else 4)
                s.request(command(0x48, sector << 4, 1))
    # files of many segments
    for sector, count in ((3, 14), (4, 13), (10, 2)):
        s.fresh(CDDC, 4, BENCH, pm=200, dm=200, io=200)
        words = file_of([s.some_segment(pick.choice((PM, DM, IO))) for _ in range(count)], name=sector)
        s.poke(FLASH, extent(BENCH, sector).start, words)
        s.start()
        for number in (0x05, 0x06, 0x46, 0x07):
            s.request(command(number, sector << 4)[:1 if number == 0x07 else 2])


def bad_sectors(s):
    """Every header of a file's start that isn't good, and stray bits in empty sectors."""
    pick = s.pick
    for turn in range(60):
        s.fresh(CDDC, 4, FULL if turn % 15 == 0 else BENCH)
        names = []
        for sector in SECTORS:
            words = s.some_file()
            way = pick.randrange(7)
            if way == 1:
                words = s.damaged(words)
            elif way == 2:
                words[0] = words[0] & 0x3FFF | pick.choice((2, 3)) << 14
            elif way == 3:
                words[0] = words[0] & ~15 | pick.choice((0, 15))
            elif way == 4:
                words = []
                s.poke(FLASH, pick.choice(list(extent(s.node.flash_words, sector))), [pick.choice((0, 0x7FFF, 0xFFFE))])
            if words:
                s.poke(FLASH, extent(s.node.flash_words, sector).start, words)
                names.append(words[0] & 0x0FF0)
        s.start(show=1)
        s.request(command(0x07), show=1)
        for name in names + [0x0550]:
            s.request(command(pick.choice((0x05, 0x06, 0x46)), name | pick.choice((0, 0x3001))))
            s.request(command(0x48, name, pick.randrange(2)))
        s.request(command(0x45, *s.some_file(0x55)))
        s.request(command(0x47, pick.choice(names or [0]) | 1))
        s.erase(pick.choice((1, 5000)))
        s.state()


def directories(s):
    """Kept directories that differ from the flash in one word or more."""
    pick = s.pick
    for turn in range(190):
        s.fresh(pick.choice((CDP, CDDC)), 4, BENCH)
        for name in (1, 2, 3):
            s.request(command(0x45, *s.some_file(name)))
        s.poke(FLASH, extent(BENCH, 6).start, s.damaged(s.some_file(4)))
        s.start(s.node.kind)
        for _ in range(pick.choice((1, 1, 1, 3))):
            place = turn % 32 if pick.randrange(3) else pick.randrange(32)
            changed = s.node.directory[place] ^ 1 << pick.randrange(16)
            other = pick.choice(s.node.directory)
            s.set(DIRECTORY, pick.choice((changed, changed, 0x3011, 0x4000, 0x8000, 0xFFFF, 0, other)), place)
        for _ in range(7):
            name = pick.choice((1, 1, 2, 2, 3, 4, 5)) << 4 | pick.choice((0, 1))
            pick.choice([
                lambda: s.request(command(pick.choice((0x05, 0x06, 0x46, 0x05)), name)),
                lambda: s.request(command(0x48, name, pick.randrange(2))),
                lambda: s.request(command(0x45, *s.some_file(pick.choice((1, 2, 5, 6, 7))))),
                lambda: s.request(s.long_file(2100, pick.choice((5, 6))).behind(command(0x45))),
                lambda: s.request(command(0x07)),
                lambda: s.request(command(0x47, pick.choice((name, address_of(pick.choice(list(SECTORS))))))),
                lambda: s.erase(pick.choice((0, 1, 3000, 5000))),
            ])()
        s.state()
    # erasures in the state that the directory and the flash know nothing of
    for turn in range(60):
        s.fresh(CDDC, 4, BENCH)
        sector = pick.choice(list(SECTORS))
        places = extent(BENCH, sector)
        s.poke(FLASH, places.start, s.some_file(1))
        if pick.randrange(2):
            s.start()
        s.set(ERASING, pick.randrange(len(places)), sector)
        s.request(command(0x05, 0x0010))
        s.erase(pick.choice((0, 1, 2000)))
        s.request(command(0x07))
        s.erase(5000)
        if pick.randrange(2):
            s.set(ERASING_NOTHING)
        s.request(command(0x45, *s.some_file(pick.choice((1, 2)))))
        s.request(command(0x05, 0x0010))
