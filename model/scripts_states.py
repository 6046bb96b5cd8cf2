"""Scripts on refusals, and on states that no start leads to."""

from files import DM, IO, PM
from flash import SECTORS, extent
from node import CDDC, CDP
from node_lines import DIRECTORY, ERASING, FLASH, MASK
from script import BENCH, FULL, SHOW_LIST, command
from scripts_flash import flash_step
from scripts_slaves import slave_answers

EVERYTHING = 0b1111111  # every memory's digest


def out_of_range(s):
    """Sets one field of the node beyond its range."""
    pick, node = s.pick, s.node
    size = node.flash_words
    sector = pick.choice(list(SECTORS))
    asked = pick.randrange(1, 1 << 24)
    slave = pick.choice([slave for slave in range(24) if asked >> slave & 1])
    without = pick.choice([slave for slave in range(24) if not asked >> slave & 1] or [24])
    left = bin(asked >> slave + 1).count("1")
    ways = [
        lambda: s.set("kind", pick.choice((0, 3, 255))),
        lambda: s.set("ports", pick.choice((0, 5, 9, 255))),
        lambda: s.set("subdetector", pick.choice((8, 9, 255))),
        lambda: s.set("mode", pick.choice((4, 5, 255))),
        lambda: s.set("flash_words", pick.choice((0, size - 1, size + 1, FULL + BENCH - size, 65536, 2**32 - 1)) % 2**32),
        lambda: s.set(MASK, pick.choice((1 << 24, 0x1FFFFFF, 2**31, 2**32 - 1)), pick.randrange(16)),
        lambda: s.set(ERASING, 0, pick.choice((0, 1, 2, 11, 12, 255))),
        lambda: s.set(ERASING, len(extent(size, sector)) + pick.choice((0, 1, 2**31)), sector),
        lambda: s.set_slave(pick.choice((node.ports, node.ports + 1, 255)), slave, s.clock),
        lambda: s.set_slave(0, pick.choice((24, 25, 32, 255)), s.clock),
        lambda: s.set_group(pick.choice((node.ports, 255)), slave, s.clock, asked),
        lambda: s.set_group(0, pick.choice((24, 31, 32, 255)), s.clock, asked),
        lambda: s.set_group(0, without, s.clock, asked),
        lambda: s.set_group(0, slave, s.clock, asked | pick.choice((1 << 24, 1 << 31))),
        lambda: s.set_group(0, slave, s.clock, asked, words=12288 - 5 * left - 6),
        lambda: s.set_group(0, slave, s.clock, asked, words=pick.choice((12288, 65536, 2**32 - 1, 2**32 - 5 * left - 7))),
        lambda: s.set_group(0, slave, s.clock, asked, first=pick.choice((0, 3, 255))),
        lambda: s.set_group(0, slave, s.clock, asked, words=300, received=12288 - 5 * left - 301, rx_status=pick.choice((0, 9))),
        lambda: s.set_group(0, slave, s.clock, asked, words=7, received=pick.choice((12288, 65536, 2**31, 2**32 - 1, 2**32 - 5 * left - 9))),
        lambda: s.set_group(0, slave, s.clock, asked, rx_status=pick.choice((1, 0x8000, 0xFFFF))),
        lambda: s.set_write(pick.choice((node.ports, node.ports + 1, 255)), pick.choice((0, 7, 32768))),
        lambda: s.set_write(pick.randrange(max(node.ports, 1)), pick.choice((32769, 65535, 65536, 2**31, 2**32 - 1))),
        lambda: s.set("turn", pick.choice((max(node.listed, 1), 910, 65535))),
        lambda: s.set("listed", pick.choice((911, 65535))),
    ]
    pick.choice(ways)()


def within_range(s):
    """Sets one field of the node to a value that it may have, mostly the last."""
    pick, node = s.pick, s.node
    sector = pick.choice(list(SECTORS))
    asked = pick.choice((pick.randrange(1, 1 << 24), 1 << pick.randrange(24), (1 << 24) - 1))
    slave = pick.choice([slave for slave in range(24) if asked >> slave & 1])
    link = pick.randrange(max(node.ports, 1))
    words = 12288 - 5 * bin(asked >> slave + 1).count("1") - 7
    ways = [
        lambda: s.set("kind", pick.choice((1, 2))),
        lambda: s.set("ports", pick.choice((1, 2, 3, 4))),
        lambda: s.set("subdetector", pick.choice((0, 7))),
        lambda: s.set("mode", pick.choice((0, 1, 2, 3))),
        lambda: s.set(pick.choice(("program_version", "subdetector_version")), pick.choice((0, 1, 65534, 65535))),
        lambda: s.set(pick.choice(("amswire", "flash_errors")), pick.choice((0, 1, 65534, 65535))),
        lambda: s.set("start_tests", pick.choice((0, 0xF0FF, 0x0800, 0x0100, 0xFFFF))),
        lambda: s.set("start_clock", pick.choice((0, 1, s.clock + 1 & 0xFFFFFFFF, 2**32 - 1))),
        lambda: s.set(MASK, pick.choice((0, 1, 1 << 23, (1 << 24) - 1)), pick.randrange(16)),
        lambda: s.set(DIRECTORY, pick.choice((0, 0xFFFF, pick.randrange(65536))), pick.randrange(32)),
        lambda: s.set(ERASING, len(extent(node.flash_words, sector)) - 1, sector),
        lambda: s.set(ERASING, pick.randrange(len(extent(node.flash_words, sector))), sector),
        lambda: s.set_slave(link, pick.choice((0, slave, 23)), s.clock),
        lambda: s.set_group(link, slave, s.clock, asked, pick.choice((1, 2)), pick.choice((0, words)), pick.randrange(7)),
        lambda: s.set_group(link, slave, s.clock, asked, words=pick.choice((0, 300)), received=1, rx_status=pick.choice((0, 1, 0xFFFF))),
        lambda: s.set_group(link, slave, s.clock, asked, words=300, received=words - 300 + pick.choice((4, 5)), rx_status=pick.randrange(9)),
        lambda: s.set_group(link, slave, s.clock, asked, words=words, received=pick.choice((4, 5)), rx_status=pick.randrange(9)),
        lambda: s.set_write(link, pick.choice((0, 1, 100, 32767, 32768))),
        lambda: (s.set("listed", pick.choice((1, 3, 10))), s.set("turn", pick.choice((0, s.node.listed - 1)))),
    ]
    pick.choice(ways)()


def set_pending(s):
    """Slave 5 is being asked: alone, or in a group, of which it may have sent packets."""
    in_packets = s.pick.choice(({}, {"received": 3, "rx_status": 8}))
    s.set_group(0, 5, s.clock, 1 << 5 | 1 << 9, **in_packets) if s.pick.randrange(3) else s.set_slave(0, 5, s.clock)


def refusals(s):
    """Every set of causes for every call: the first of them answers, and nothing changes."""
    pick = s.pick
    sizes = (BENCH, FULL)
    for turn in range(3):
        for causes in (*range(128 * (turn % 2), 128 * (turn % 2) + 128), 1, 2, 4, 4, 4, 8, 16, 16, 32, 64, 128, 128):
            size = sizes[turn == 2 and causes % 4 == 0]
            ports = pick.randrange(1, 5)
            s.fresh(pick.choice((CDP, CDDC)), ports, size, pm=pick.choice((0, 8, 32768)), dm=64, io=64)
            lent = {"flash": size, "pm": pick.choice((0, 100, 32768)), "dm": pick.choice((0, 1, 32768))}
            lent |= {"io": pick.choice((0, 4096)), "reply": pick.choice((12288, 12289, 12304))}
            lent |= {"area": pick.choice((32768, 32769, 32784))}
            if causes & 1:
                lent["flash"] = pick.choice((0, 1, size - 1, size + 1, FULL + BENCH - size))
            if causes & 2:
                lent["reply"] = pick.choice((0, 1, 12287))
            if causes & 4:
                name = pick.choice(("pm", "dm", "io"))
                lent[name] = {"pm": 32769, "dm": 32769, "io": 4097}[name]
            if causes & 64:
                lent["area"] = pick.choice((0, 1, 32767))
            listed = pick.choice((0, 0, 1, 4))
            if listed:
                s.set("listed", listed)
                s.set("turn", listed - 1)
            lent["qlist"] = pick.choice((7 * listed, 7 * listed + 6, 6370))
            if causes & 128:
                lent["qlist"] = 7 * listed - 1 if listed else pick.choice((6377, 6384))
            if causes & 32:
                set_pending(s)
            if causes & 16:
                out_of_range(s)
            s.lend(**lent)
            link = pick.choice((ports, ports + 1, 255, 256, 65536, 2**32 - 1)) if causes & 8 else pick.randrange(ports)
            slave = pick.choice((24, 255, 256, 261, 65541, 2**32 - 1)) if causes & 8 else pick.choice((5, 5, 9, 23))
            packet = pick.choice((command(0x0C), command(0x0D, 1), [0x00FF], []))
            s.request(packet, link, pick.randrange(4), pick.choice((0, 0, 1)), EVERYTHING)
            s.poll(16)
            s.reply(slave, s.anything(pick.randrange(3)), show=16)
            s.erase(pick.choice((0, 1, 5000)))
            s.slow(show=SHOW_LIST)
            s.state()


def start_refusals(s):
    pick = s.pick
    s.fill(FLASH, FULL + 16, 0xFFFF, 0)
    for flash in (0, 1, BENCH - 1, BENCH, BENCH + 1, 65536, FULL - 1, FULL, FULL + 1):
        s.lend(flash=flash)
        for kind in (0, 1, 2, 3):
            s.start(kind, pick.randrange(1, 5))
        for ports in (0, 1, 2, 3, 4, 5, 255, 256, 257, 65537):
            s.start(CDDC, ports, tests=pick.randrange(65536))
        for subdetector in (0, 7, 8, 255, 256, 65536):
            s.start(CDP, 4, subdetector)
        for kind in (257, 258, 0x10001, 2**32 - 1):
            s.start(kind)
        s.request(command(0x0C))
        s.poll()
        s.reply(0)
        s.erase(1, 0)
        s.slow()
    s.lend()
    s.start()
    s.set("mode", 3)
    s.start(0)
    for link in (0, 1):
        s.request(command(0x0C), link)
        s.request([], link, 2)
        s.poll()
        s.reply(link)
        s.erase(1)


def states(s):
    """States that no start leads to: each field in and out of its range."""
    for turn in range(430):
        size = FULL if turn % 40 == 7 else BENCH
        s.fresh(s.pick.choice((CDP, CDDC, CDDC)), s.pick.randrange(1, 5), size, tests=s.pick.choice((0, 0xFFFF, 0x0400)))
        for _ in range(s.pick.choice((1, 1, 2, 3))):
            (out_of_range if turn % 3 == 0 else within_range)(s)
        any_calls(s, 4)
        s.state()


def any_calls(s, count):
    pick = s.pick
    for _ in range(count):
        slave = s.node.pending.slave if s.node.pending and pick.randrange(8) else pick.randrange(24)
        link = s.node.pending.link if s.node.pending and pick.randrange(3) else pick.randrange(4)
        pick.choice([
            lambda: s.request(command(pick.choice((0x0C, 0x07, 0x12, 0x17, 0x0C))), link),
            lambda: s.request([], link, pick.choice((2, 2, 2, 0, 1, 3))),
            lambda: s.request(command(0x45, *s.anything(pick.randrange(4))), link, 2),
            lambda: s.request(s.anything(pick.randrange(1, 4)), s.node.write.link if s.node.write else link, pick.randrange(2)),
            lambda: s.request([0x2A, *command(0x0C)], link),
            lambda: s.request([0x052A, pick.randrange(65536)], link, pick.randrange(4), pick.choice((0, 0, 1))),
            lambda: s.poll(),
            lambda: (s.tick(60), s.poll()),
            lambda: slave_answers(s, slave),
            lambda: slave_answers(s, slave),
            lambda: s.erase(pick.choice((0, 1, 2, 100, 40000))),
            lambda: s.slow(),
        ])()


def soup(s):
    """Any calls on any states, packets damaged at random."""
    pick = s.pick
    for turn in range(120):
        size = FULL if turn % 20 == 9 else BENCH
        s.fresh(pick.choice((CDP, CDDC, CDDC)), pick.randrange(1, 5), size, pm=pick.choice((0, 30, 64)), dm=pick.choice((5, 64)))
        for _ in range(18):
            packet = pick.choice([
                lambda: command(0x45, *s.some_file()),
                lambda: command(pick.choice((0x50, 0x51, 0x0F)), *s.some_segment(pick.choice((PM, DM, IO)))),
                lambda: command(pick.choice((0x10, 0x11)), *s.some_segment(pick.choice((PM, DM)))[:2]),
                lambda: command(pick.choice((0x05, 0x06, 0x46, 0x47)), s.some_header()),
                lambda: command(pick.choice((0x0C, 0x07, 0x12, 0x17))),
                lambda: command(0x48, s.some_header(), pick.randrange(2)),
                lambda: [pick.choice((0x002A, 0x0040, 0x0523, 0x0405, 0x3F17)), *s.anything(pick.randrange(3))],
                lambda: s.anything(pick.randrange(6)),
            ])()
            if pick.randrange(3) == 0:
                packet = s.damaged(packet)
            way = pick.randrange(12)
            if way < 6:
                link = pick.randrange(max(s.node.ports, 1))
                s.request(packet, link, pick.choice((3, 3, 3, 3, 3, 2, 1, 0)), int(pick.randrange(12) == 0))
            elif way < 8:
                any_calls(s, 1)
            elif way == 8:
                within_range(s)
            elif way == 9:
                flash_step(s)
            elif way == 10 and s.node.pending:
                slave_answers(s, s.node.pending.slave)
            elif s.node.pending:
                s.request([], s.node.pending.link, 2)
        s.state()
