#!/usr/bin/env python3
"""Scripts for the bench that are too long to keep, made by rule from a fixed seed.

    bench_scripts.py FOLDER    writes FOLDER/NAME.txt, and what the model says of it to FOLDER/NAME.stdout"""

import pathlib
import random
import sys

from bench import LONGEST, Bench, printed, said_of
from build import file_of, segment
from event import Building
from files import DM, PM, sealed


def fields(*said):
    return b"\t".join(item if isinstance(item, bytes) else b"%d" % item for item in said)


def words(run):
    return [b"%04X" % word for word in run]


def long_lines():
    """Long replies and requests, lines as long as they may be and longer, and both ends of line."""
    data = [word * 40503 % 65536 for word in range(40000)]
    yield fields(0, 3, b"002A", b"0D2E")  # all slaves: the first has no room left for the others
    yield fields(b"reply", 0, 3, 0, b"1111", b"2222", *words(sealed(data[:12200])))
    for slave in range(1, 24):
        yield fields(b"reply", slave, 3, 0, b"1111", b"2222", *words(sealed(data[:slave])))
    for length in (12286, 12287, 12288, 12289, 39000):
        yield fields(0, 3, b"0405", b"0001")
        yield fields(b"reply", 5, 3, 0, b"0000", b"0000", *words(data[:length])) + b"\r"
    for length in (7999, 8000, 8001, 8191, 8192):
        yield fields(0, 3, b"0D2E", *words(data[:length]))
    for extra in (-1, 0, 1, 2, LONGEST, 2 * LONGEST + 1):
        yield b"#" * (LONGEST + extra)
        yield fields(0, 3, b"0C2E")
    yield fields(0, 3, *words(data[:20000])) + b"\t" * 90000
    yield fields(0, 3, b"0C2E") + b"\r"
    for name, run in ((0x10, data[:4000]), (0x11, data[:2000]), (0x12, data[:4094]), (0x13, data[:4089]), (0x14, data[:4090])):
        yield fields(0, 3, b"452E", *words(file_of([segment(DM, 0x2000, run)], name=name)))
        yield fields(0, 3, b"052E", b"%04X" % (name << 4 | 1))
    yield fields(0, 3, b"452E", *words(file_of([segment(PM, 0, data[:99])], name=0x15)))
    yield fields(0, 3, b"072E")


def divided(run, most, link=1):
    """A file in packets of at most so many words, two or more; the first with its header word."""
    ends = [*range(most - 1, len(run), most), len(run)]
    for at, end in zip([0, *ends], ends):
        bc = 2 if at == 0 else 1 if end == len(run) else 0
        yield fields(link, bc, *([b"452E"] if at == 0 else []), *words(run[at:end]))


def long_writes():
    """Files in several packets, as long as a sector, as long as the area, and longer."""
    data = [word * 25173 % 65536 for word in range(17000)]
    largest = file_of([segment(DM, 0x2000, data[:count]) for count in (16000, 16000, 758)], name=0x16)
    for name, run in ((0x17, data[:2044]), (0x18, data[:4092]), (0x19, data[:4093]), (0x1A, data[:12000])):
        for most in (min(8192, len(run)), 1500, 700):
            yield from divided(file_of([segment(DM, 0x2000, run)], name=name), most)
            yield fields(0, 3, b"052E", b"%04X" % (name << 4 | 1))
            yield fields(0, 3, b"472E", b"%04X" % (name << 4 | 1))
            yield fields(b"erase", 4096)
    assert len(largest) == 32768
    for run in (largest, largest + [0], largest + largest):
        yield from divided(run, 8192)
        yield fields(1, 0, b"0001")
        yield fields(0, 3, b"072E")
        yield fields(1, 2)
    yield fields(1, 2, b"452E", *words(data[:8192]))
    yield fields(0, 3, b"0C2E")


def in_packets(slave, run, *ends):
    """A slave's reply in packets that end at some places and at its own end."""
    for at, end in zip((0, *ends), (*ends, len(run))):
        bc = (2 if at == 0 else 0) | (1 if end == len(run) else 0)
        yield fields(b"reply", slave, bc, 0, b"00%02X" % bc, b"2222", *words(run[at:end]))


def long_replies():
    """Replies in packets that just have room, whole or not, and such as have none, by their first packet, a middle one or the last."""
    data = [word * 30011 % 65536 for word in range(40000)]
    for length in (12280, 12281, 12282, 39000):  # 12,281 words fit, with a slave more to ask
        run = sealed(data[:length - 1])
        for ends in ((1,), (6000,), (length - 1,), (5000, 12281), (12281,), (12282,)):
            if ends[-1] >= length:
                continue
            yield fields(0, 3, b"A023", b"0000", b"0D2E")
            yield from in_packets(5, run, *ends)
            yield fields(0, 3, b"0C2E")
            yield from in_packets(7, sealed(data[:3]), 1, 2)
            yield fields(0, 2)
    yield fields(0, 3, b"002A", b"0D2E")
    for slave in range(24):
        yield from in_packets(slave, sealed(data[slave:slave + 500]), *range(50 + slave, 490, 50 + slave))


def list_write(count):
    """A Q-List Write of so many entries, which are due one tick after the other."""
    entries = [word for place in range(count) for word in (0x0008, place % 4, place + 1, place, count)]
    return fields(0, 3, b"5C2E", *words(segment(DM, 0x2000, [count, *entries])))


def long_lists():
    """As many entries as a Q-List has room for, in one write or in several, and one more; steps once round and on, and what is left then."""
    for counts in ((911, 910, 1), (455, 455, 1), (900, 11, 10)):
        for count in counts:
            yield list_write(count)
            yield fields(0, 3, b"1C2E")
        yield fields(b"clock", b"%x" % 800)
        for _ in range(920):
            yield b"slow"
        yield fields(0, 3, b"5B2E")
        yield fields(0, 3, b"1C2E")
        yield b"slow"
        yield fields(0, 3, b"5B2E", b"FFFF")
        yield fields(b"clock", b"0")
    yield fields(0, 3, b"1C2E")


def long_events():
    """Events of 24 slaves, of one that has all the room there is or a word more, in one packet and in several, each read whole."""
    data = [word * 40503 % 65536 for word in range(40000)]
    number = 0

    def build(mask, *replies):
        """Each reply is its slave, its words behind the number, and where its packets end."""
        yield fields(0, 3, b"572E", b"%04X" % (mask >> 16), b"%04X" % (mask & 0xFFFF))
        yield b"build"
        for slave, run, ends in replies:
            yield from in_packets(slave, sealed([number, *run]), *ends)
        yield fields(0, 3, b"012E")
        yield fields(0, 3, b"012E")

    for length in (1, 20, 490, 520):
        number += 1
        yield from build(0xFFFFFF, *[(slave, data[slave:slave + length], () if slave % 3 else (1, length)) for slave in range(24)])
    for length in (12280, 12281, 12282, 39000):  # behind the number and before the FCS; 12,281 fit
        for ends in ((), (1,), (length,), (6000,), (5000, 12000)):
            number += 1
            yield from build(0x80, (7, data[:length], ends))
            yield fields(0, 3, b"022E")
    yield fields(0, 3, b"0C2E")
    yield fields(0, 3, b"422E")
    yield fields(0, 3, b"022E")


def odd_lines(pick):
    """Lines of the right shape, most of them what the node waits for, and lines with a byte changed, put in or left out."""
    bench = Bench()
    kinds = (
        lambda: fields(pick.choice((0, 1, 2, 3, 4)), pick.choice((3, 3, 3, 3, 2, 0, 1)), *words(packet(pick))),
        lambda: fields(writing(bench, pick), pick.choice((0, 0, 0, 1, 1)), *words(pick.choice((file_part(pick), packet(pick)[1:])))),
        lambda: fields(pick.randrange(4), 2, b"452E", *words(file_part(pick))),
        lambda: fields(b"reply", asked(bench, pick), pick.randrange(4), pick.choice((0, 0, 0, 1)), b"00FF", b"abcd", *words(answer(pick))),
        lambda: fields(b"reply", asked(bench, pick), packet_bc(bench, pick), 0, b"%04X" % pick.randrange(9), b"abcd", *words(piece(bench, pick))),
        lambda: b"poll",
        lambda: fields(b"erase", pick.choice((0, 1, 100, 1000, 4096, 2**64 - 1, 2**64))),
        lambda: fields(b"clock", b"%x" % pick.choice((0, 59, 60, 2**32 - 1, pick.randrange(2**32)))),
        lambda: b"error",
        lambda: fields(b"#", 1),
        lambda: b"slow",
        lambda: b"build",
        lambda: fields(0, 3, b"572E", b"00%02X" % pick.choice((0, 0, 0x80)), b"%04X" % pick.choice((0xA0, 1, 0, 0x8007))),
        lambda: fields(pick.randrange(4), 3, pick.choice((b"012E", b"012E", b"022E", b"422E"))),
    )
    for _ in range(4000):
        weights = (2, 1, 1, 12, 12, 2, 1, 1, 1, 1, 1, 1, 1, 1) if bench.node.pending else (15, 6, 4, 1, 1, 1, 4, 1, 1, 1, 6, 4, 2, 3)
        line = pick.choices(kinds, weights)[0]()
        line = spoiled(pick, line) if pick.randrange(5) == 0 else line
        said_of(0, line, bench.answer)
        yield line


def asked(bench, pick):
    """Mostly the slave now being asked."""
    return bench.node.pending.slave if bench.node.pending and pick.randrange(8) else pick.randrange(25)


def received(bench):
    """The words of a reply of which packets came, in a group or in a build."""
    pending = bench.node.pending
    if isinstance(pending, Building):
        return bench.lent.events[pending.words + 2:pending.words + 2 + pending.received]
    group = pending and pending.group
    return bench.lent.reply[group.words + 1:group.words + 1 + group.received] if group else []


def packet_bc(bench, pick):
    """The BC of a packet of a reply that comes in several."""
    return pick.choice((0, 1)) if received(bench) else 2


def piece(bench, pick):
    """The words of such a packet, mostly with the FCS of all."""
    run = [pick.randrange(65536) for _ in range(pick.randrange(4))]
    if isinstance(bench.node.pending, Building) and not received(bench) and pick.randrange(4):
        run = [(bench.node.event + 1) % 65536, *run]
    return sealed(received(bench) + run)[len(received(bench)):] if pick.randrange(4) else run


def writing(bench, pick):
    """Mostly the link whose write stands."""
    return bench.node.write.link if bench.node.write and pick.randrange(5) else pick.randrange(5)


def file_part(pick):
    """A file, or the front of one, or the back."""
    run = file_of([segment(DM, 0x2000, [5, 6, 7])], name=pick.randrange(4))
    return pick.choice((run, run[:4], run[4:], run[:1], []))


def spoiled(pick, line):
    place = pick.randrange(len(line) + 1)
    put = bytes([pick.choice((9, 32, 45, 48, 51, 58, 64, 71, 96, 103, 13, 0, 255, pick.randrange(1, 256)))]).replace(b"\n", b"\t")
    return line[:place] + pick.choice((put, put + line[place:], b"")) + line[place + 1:]


def packet(pick):
    name = pick.randrange(4)
    run = [pick.randrange(65536) for _ in range(pick.choice((1, 2, 30)))]
    return pick.choice((
        [0x452E, *file_of([segment(DM, 0x2000, run)], name=name)],
        [0x052E, name << 4 | 1],
        [0x462E, name << 4 | 1],
        [0x472E, name << 4 | 1],
        [0x482E, name << 4 | 1, pick.randrange(3)],
        [0x072E],
        [0x0C2E],
        [0x112E, 0x4005, 0x2000],
        [0x5C2E, *segment(DM, 0x2000, [1, pick.choice((0x0008, 0x0108, 0x0000)), pick.randrange(4), pick.choice((0, 1, 1, 60)), 7, name])],
        [0x5B2E, *pick.choice(((), (0,), (name,), (0xFFFF,)))],
        [0x1C2E],
        [pick.choice((0x040, 0x023, 0x02A)) | pick.randrange(8) << 8, pick.choice((0, 0x80)), 0x0C2E, *run],
        [pick.randrange(24) | 0x0400, *run],
        run,
        [],
    ))


def answer(pick):
    run = [pick.randrange(65536) for _ in range(pick.randrange(5))]
    return sealed(run) if run and pick.randrange(4) else run


def main(arguments):
    if len(arguments) != 1:
        print(__doc__, file=sys.stderr)
        return 2
    folder = pathlib.Path(arguments[0])
    folder.mkdir(parents=True, exist_ok=True)
    scripts = {
        "long": b"\n".join(long_lines()),
        "writes": b"\n".join(long_writes()),
        "replies": b"\n".join(long_replies()),
        "lists": b"\n".join(long_lists()),
        "events": b"\n".join(long_events()),
        "odd": b"\n".join(odd_lines(random.Random(1))) + b"\n",
    }
    for name, script in scripts.items():
        (folder / (name + ".txt")).write_bytes(script)
        (folder / (name + ".stdout")).write_text(printed(script))
    return 0


if __name__ == "__main__":
    sys.exit(main(sys.argv[1:]))
