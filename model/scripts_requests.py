"""Scripts of requests: steps 1 to 5, the numbers of commands, the small commands, and the counts."""

from flash import extent
from node import CDDC, CDP, COMMANDS
from node_lines import FLASH, MASK
from script import BENCH, FULL, Run, command


def dropped(s):
    """Drops what is pending, mostly by a request of its own link."""
    while s.node.pending:
        if s.pick.randrange(5) == 0:
            s.request(s.anything(s.pick.randrange(1, 3)), s.pick.randrange(s.node.ports), error=s.pick.choice((0, 1)))
        s.request([], s.pick.choice((s.node.pending.link,) * 4 + tuple(range(s.node.ports))), s.pick.choice((2, 2, 2, 6, 0, 1, 3)))


def first_bytes(s):
    """Every first byte, with many second bytes, and few words behind."""
    pick = s.pick
    for kind in (CDDC, CDP):
        s.fresh(kind, 3, tests=0x0200)
        for mask in range(16):
            s.set(MASK, pick.choice((0, 1 << 23, pick.randrange(1 << 24), pick.randrange(1 << 24))), mask)
        for first in range(256):
            seconds = range(0, 256, 5) if first in (0x23, 0x2A, 0x40) else (0x04, 0x05, 0x3F) if first < 26 else ()
            for second in {*seconds, pick.choice((0x00, 0x03, 0x06, 0x3E, 0x40)), pick.randrange(256), pick.choice((0x04, 0x0D))}:
                s.request([second << 8 | first, *s.anything(pick.choice((0, 1, 1, 2, 3)))], pick.randrange(3))
                dropped(s)
        for second in range(256):
            s.request([second << 8 | 0x40, 0x0C2E], pick.randrange(3))
            dropped(s)
        for slave in range(24):
            for second in (0, 3, 4, 5, 6, 0x3E, 0x3F, 0x40, 0x44, 0xFF):
                s.request([second << 8 | slave, 0x0C2E][:pick.choice((1, 2, 2, 2))], pick.randrange(3))
                dropped(s)
        for mask in (0, 1, 0x80, 0x100, 0x8000, 0x10000, 0x800000, 0xFFFFFF, 0x123456):
            for words in range(4):
                s.request([mask << 8 & 0xFF00 | 0x23, mask >> 8, 0x0C2E, 1][:words + 1])
                dropped(s)


def lengths(s):
    """Lengths, BC with higher bits, and the receive-error flag."""
    pick = s.pick
    for kind in (CDDC, CDP):
        s.fresh(kind, 4)
        for length in (0, 1, 2, 8001, 8002, 8191, 8192, 8193, 12288, 20000):
            for bc in (0, 1, 2, 3, 4, 5, 6, 7, 0xFFFC, 0xFFFF):
                for error in (0, 0, pick.choice((1, 2, 0x100, 0xFFFF))):
                    packet = Run([pick.choice((0x0D2E, 0x0D2E, 0x0405, 0x002A, 0x00FF))][:length], max(length - 1, 0), 7)
                    s.request(packet, pick.randrange(4), bc, error)
            dropped(s)
        for link in (4, 5, 2**31):
            s.request([], link, 2)
        # what is pending goes on by 0-word requests of other links, and is dropped by its own
        s.request([0x0405, 0x0C2E], 2)
        for error in (1, 0):
            for link in (0, 1, 3, 2):
                for bc in (0, 1, 3, 2):
                    s.request([], link, bc, error)
                    s.request([], link, bc | 0x100, error)


def command_numbers(s):
    """Every request ID with few parameters, on both kinds, an erasure in progress or not."""
    pick = s.pick
    for kind in (CDDC, CDP):
        s.fresh(kind, 4)
        s.request(command(0x45, *s.some_file(0x21)))
        for erasing in (False, True):
            if erasing:
                s.request(command(0x47, 0x1C00))
                s.erase(100)
            for number in range(256):
                for count in (0, 1, 2, 3) if number in COMMANDS else (pick.randrange(3),):
                    for _ in range(2 if number in COMMANDS else 1):
                        parameters = [pick.choice((0x3211, 0x0210, 0, 1, 0x4002, pick.randrange(65536))) for _ in range(count)]
                        s.request(command(number, *parameters), pick.randrange(4))
                        if s.node.erasing and not erasing:
                            s.erase(4096)
        s.ends()


def small_commands(s):
    pick = s.pick
    for turn in range(24):
        kind, ports = pick.choice((CDP, CDDC)), turn % 4 + 1
        tests = pick.choice((0, 0x0100, 0x0F00, 0xF0FF, 0x0800, 0xFFFF))
        s.fresh(kind, ports, FULL if turn % 12 == 5 else BENCH, turn % 8, tests)
        for _ in range(40):
            link = pick.randrange(ports)
            pick.choice([
                lambda: s.request(command(0x0C), link),
                lambda: (s.tick(pick.choice((1, 65535, 65536, 2**31, 2**32 - 1))), s.request(command(0x0C), link)),
                lambda: s.request(command(0x0D, *s.anything(pick.choice((0, 1, 2, 12, 13, 14, 15, 40)))), link, show=16),
                lambda: s.request(command(0x12), link),
                lambda: s.request(command(0x52, pick.choice((0, 1, 2, 3, 4, 0x100, 0xFFFF))), link),
                lambda: s.request(command(0x17), link),
                lambda: s.request(command(0x57, pick.randrange(pick.choice((4096, 4096, 65536))), pick.randrange(65536)), link),
                lambda: s.request(command(0x57, pick.randrange(16) << 8 | pick.choice((0, 0x80, 0xFF)), 0x8001), link),
                lambda: s.request(s.anything(pick.randrange(3)), link, error=1),
            ])()
        for _ in range(3):
            s.request(command(0x0D, *s.anything(3)), 0, pick.randrange(3))
        s.state()
    s.fresh(CDDC, 4)
    for bit in range(16):  # each bit of each parameter alone
        s.request(command(0x57, 1 << bit, 0x0001))
        s.request(command(0x57, 0x0300, 1 << bit))
        s.request(command(0x17))
        s.request(command(0x52, 1 << bit))
        s.request(command(0x12))
    for count in (7998, 7999, 8000, 8001, 8191):
        s.request(Run(command(0x0D), count, pick.randrange(65536)), show=16)


def start_masks(s):
    """The masks that a start leaves: mask 0 of a CDDC names all slaves, every other mask none (02, request 2). A CDP shows no mask;
    once it is called a CDDC it does."""
    for kind, size in ((CDDC, BENCH), (CDP, BENCH), (CDDC, FULL), (CDP, FULL)):
        s.fresh(kind, 4, size)
        s.request([0x0040, 0x0C2E], 1)
        s.state()
        for slave in range(24):
            s.reply(slave)
        for called in (kind, CDDC):
            s.set("kind", called)
            s.request(command(0x17), show=16)
            for mask in range(17):
                s.request([mask << 8 | 0x40, 0x0C2E])
                dropped(s)
            s.state()
        for mask in (15, 0):  # whoever wants mask 0 empty writes zero first; the next start fills it again
            s.start(kind)
            s.state()
            s.request(command(0x57, mask << 8, 0x0000))
            s.request([0x0040, 0x0C2E], 2)
            dropped(s)
            s.request(command(0x17), show=16)
        s.start(3)
        s.state()


def counts(s):
    """Both counts stop at FFFF."""
    s.fresh(CDDC, 2)
    s.poke(FLASH, extent(BENCH, 6).start, [0x3211])
    s.start(CDDC, 2)
    for value in (0, 0xFFFD):
        s.set("amswire", value)
        s.set("flash_errors", value)
        for _ in range(4):
            s.request([0x00FF])
            s.request(command(0x0C))
            s.request(command(s.pick.choice((0x05, 0x06, 0x46)), 0x0210))
            s.request(command(0x0C), 1)
        for _ in range(4):
            s.request([0x3F07, 1])
            s.reply(7, [1, 2], error=1)
            s.request(command(0x0C), 1)
        for _ in range(4):
            s.request([], error=1)
            s.request([0x232A, 1], bc=2)
            s.request(command(0x0C))
