"""Scripts on files that come in several packets (02, request 1)."""

from itertools import chain, repeat

from build import file_of, segment
from files import DM, PM
from flash import SECTORS, address_of, extent
from node import CDDC, CDP, JOINED
from node_lines import AREA, BUFFER, FLASH, PENDING_NOTHING
from script import BENCH, FULL, SHOW_AREA, Run, command
from scripts_flash import flash_step
from scripts_slaves import ask, slave_answers
from words import run_of

FIRST, MIDDLE, LAST, WHOLE = 0b10, 0b00, 0b01, 0b11
HEADER = command(0x45)
SHOWN = 0b110001  # the digests of flash, reply buffer and area
MOST = 8192  # words of a packet


# Files as pieces, and packets of any length cut from them.


def pieces_of(runs):
    """The words of some runs as short lists of words, and long stretches as (seed, count)."""
    for run in runs:
        yield run.front
        yield run.seed, run.count
        yield run.back


def cut(runs, at, end):
    """The words from a place to another, as one run: its longest stretch stays one, the others are spelt out."""
    found = []
    for piece in pieces_of(runs):
        length = piece[1] if isinstance(piece, tuple) else len(piece)
        first, last = max(at, 0), min(end, length)
        at, end = at - length, end - length
        if first >= last:
            continue
        if isinstance(piece, tuple):
            found.append((run_of(*piece)[first], last - first))
        else:
            found.append(piece[first:last])
    stretches = [piece for piece in found if isinstance(piece, tuple)]
    longest = found.index(max(stretches, key=lambda piece: piece[1])) if stretches else len(found)
    seed, count = found[longest] if stretches else (0, 0)
    return Run(spelt(found[:longest]), count, seed, spelt(found[longest + 1:]))


def spelt(pieces):
    return [word for piece in pieces for word in (run_of(*piece) if isinstance(piece, tuple) else piece)]


def length_of(runs):
    return sum(len(run.front) + run.count + len(run.back) for run in runs)


def long_file(s, length, name=0x21):
    """A file of one DM segment, or of as many as its length takes, equally long but for the last."""
    count = 1
    while (length - 1) / count - 2 > 0x3FFF:
        count += 1
    body = (length - 1) // count - 2
    bodies = [body] * (count - 1) + [length - 1 - (count - 1) * (body + 2) - 2]
    runs = [Run([1 << 14 | words, 0x2000], words - 1, s.pick.randrange(65536)).sealed(2) for words in bodies]
    return [runs[0].behind([1 << 14 | 3 << 12 | name << 4 | count])] + runs[1:]


def poke_file(s, sector, runs):
    """Puts a file at a sector's start, by no call."""
    at = extent(s.node.flash_words, sector).start
    for run in runs:
        s.poke(FLASH, at, run)
        at += length_of([run])


def short(words):
    return [Run(back=words)]


def damaged_file(s):
    """Two words or more, so that they can be divided."""
    words = s.damaged(s.some_file(0x21))
    return words if len(words) > 1 else damaged_file(s)


def packets(runs, lengths):
    """Cuts a file into two packets or more: of these lengths, the first with its header word, and the last length over and over. No
    line may be too long: a packet ends early where too many of its words would have to be spelt out."""
    at, last, cuts = 0, length_of(runs), []
    for length in chain((lengths[0] - 1,), lengths[1:], repeat(lengths[-1])):
        end = min(at + length, last if cuts else last - 1)
        while len(cut(runs, at, end).line()) > 180:
            end -= 50
        cuts.append(cut(runs, at, end))
        at = end
        if at == last:
            return cuts


def send(s, cuts, link=0, between=None, bcs=None):
    """Sends packets, with something between them."""
    bcs = bcs or [FIRST] + [MIDDLE] * (len(cuts) - 2) + [LAST]
    for place, (packet, bc) in enumerate(zip(cuts, bcs)):
        if place and between:
            between()
        show = SHOWN if place == len(cuts) - 1 else s.pick.choice((0, 0, SHOW_AREA))
        s.request(packet.behind(HEADER) if place == 0 else packet, link, bc | s.pick.choice((0, 0, 4, 0xFF00)), show=show)


def left(s):
    """All that a last packet leaves, but for the area."""
    return s.node, s.program.answer, s.program.lent[FLASH][:], s.program.lent[BUFFER][:]


# Scripts.


def packet_cases(s):
    """Each packet on each standing write: by BC, by link, with a receive error, too long, of no words."""
    pick = s.pick
    contents = (
        [], HEADER, HEADER + [1, 2], [0x462E, 0x0210], [0x452F], [0x0D2E, 7], [0x00FF], [0x0405, 1], Run(HEADER, MOST - 1, 5),
        Run(HEADER, MOST, 6), Run([], MOST, 7), Run([], MOST + 1, 8),
    )
    s.fresh(CDDC, 3, tests=0x0400)
    s.fill(AREA, 32784, 77)
    for standing in (None, 0, 1, 100, 24575, 24576, 24577, 32766, 32767, 32768):
        for packet in contents:
            for bc in range(4):
                for link in (0, 2) if standing is None else (1, 2):
                    for error in (0, pick.choice((1, 0x100))):
                        s.set_write() if standing is None else s.set_write(1, standing)
                        s.request(packet, link, bc | pick.choice((0, 4, 0x100)), error, pick.choice((0, 0, SHOW_AREA, 16)))
                        if s.node.pending:
                            s.request([], link, FIRST)
        s.request(command(0x0C), 2)
        s.digest(AREA, 0, 32784)
    s.set_write()
    s.ends()


def areas(s):
    """An area that is too short refuses every request, after 3 and before 4; of a longer one no word past the 32,768th is touched."""
    packets = (([], FIRST), ([], WHOLE), (HEADER + [1, 2], FIRST), ([3], MIDDLE), ([4], LAST), (command(0x0C), WHOLE))
    causes = ({}, {"flash": 32767}, {"reply": 12287}, {"pm": 32769}, {"io": 4097}, {"link": 3}, {"mode": 4}, {"pending": 0}, {"error": 1})
    s.fresh(CDDC, 3)
    s.fill(AREA, 32784, 99)
    for area in (0, 1, 32767, 32768, 32769, 32784):
        for packet, bc in packets:
            for cause in causes:
                s.lend(area=area, **{name: count for name, count in cause.items() if name in ("flash", "reply", "pm", "io")})
                s.set("mode", cause.get("mode", 0))
                s.set_slave(0, 5, s.clock) if "pending" in cause else s.set(PENDING_NOTHING)
                s.set_write(1, 32766)
                s.request(packet, cause.get("link", s.pick.choice((0, 1, 1))), bc, cause.get("error", 0), s.pick.choice((0, 0, 0, 0b111111)))
        s.digest(AREA, 0, 32784)


def kept_writes(s):
    """Links and counts of a standing write, in and out of range, in every call; a start keeps none."""
    pick = s.pick
    for ports in (1, 2, 3, 4):
        s.fresh(CDDC, ports)
        for link in (0, ports - 1, ports, ports + 1, 255):
            for joined in (0, 1, 32767, 32768, 32769, 65535, 65536, 2**31, 2**32 - 1):
                s.set_write(link, joined)
                s.set_slave(0, 5, s.clock) if pick.randrange(2) else s.set(PENDING_NOTHING)
                s.request(*pick.choice((([], 0, WHOLE), (command(0x0C), 0, WHOLE), ([7], link % ports, MIDDLE))), show=pick.choice((0, 0, SHOW_AREA)))
                s.poll()
                s.reply(5, [1, 2])
                s.erase(1)
        s.start(CDDC, ports)
        s.state()


def divisions(s):
    """The same file divided in many ways, and whole where a packet has room for it: the same last answer, flash and state."""
    pick = s.pick
    short_ways = ([2, 1], [1, 9999], [4, 3], [3, 1, 9999], [MOST, 1])
    long_ways = ([MOST], [1, MOST], [2, 8000, MOST], [5000], [MOST, 1, 2, 3, 7000], [100, MOST])
    files = [(size, short(s.some_file(0x21)), short_ways) for size in (BENCH, FULL) for _ in range(3)]
    files += [(BENCH, short(damaged_file(s)), short_ways) for _ in range(4)]
    files += [(BENCH, long_file(s, length), ([300], [2000, 100, 1900], [1, 4096], [4095, 1])) for length in (2048, 2049, 4096, 4097)]
    files += [(BENCH, long_file(s, length), long_ways) for length in (8191, 8192, 20000, 32768)]
    files += [(FULL, long_file(s, length), long_ways) for length in (8191, 8192, 12286, 12287, 16384, 16385, 20000, 32000, 32767, 32768)]
    for size, runs, ways in files:
        clock, link, results = pick.randrange(2**32), pick.randrange(4), []
        for way in ways if length_of(runs) > MOST - 1 else (None, *ways):
            s.fresh(CDDC, 4, size)
            s.clock = clock
            s.start(CDDC, 4, clock=0)
            s.set("program_version", 1)
            s.set("subdetector_version", 2)
            if way is None:
                s.request(cut(runs, 0, length_of(runs)).behind(HEADER), link, WHOLE, show=SHOWN)
            else:
                send(s, packets(runs, way), link)
            results.append(left(s))
            s.state()
        assert all(result == results[0] for result in results)
        header = cut(runs, 0, 1).words()[0]
        for number in (0x05, 0x06, 0x46):
            s.request(command(number, header & 0x0FF0), show=16)
        s.request(command(0x0C))
        s.request(command(0x07))


def long_reads(s):
    """A file as long as a read reply has room for is read back; a longer one is ABORT, and no FLASH error."""
    for length in (12285, 12286, 12287, 12288, 32000, 32768):
        for dm in (32768, 100):
            s.fresh(CDP, 2, FULL, dm=dm)
            send(s, packets(long_file(s, length, 0x42), [MOST]), 1)
            for number in (0x05, 0x06, 0x46):
                s.request(command(number, 0x0420), show=16 | 4)
            s.request(command(0x48, 0x0420, 1), show=1)
            s.request(command(0x05, 0x0420), show=16)
            s.start(CDP, 2)
            s.request(command(0x05, 0x0420), show=16)
            s.request(command(0x0C))
            s.request(command(0x07))


def most_words(s):
    """Joined words up to the most, and one above it: that drops the write and stores nothing, not in the area either."""
    pick = s.pick
    for size in (BENCH, FULL):
        for area in (32768, 32784):
            s.fresh(CDDC, 4, size, area=area)
            s.fill(AREA, 32784, pick.randrange(65536))
            runs = long_file(s, JOINED)
            cuts = packets(runs, [MOST])
            send(s, cuts, 1)
            for bc in (LAST, MIDDLE):
                send(s, cuts, 1, bcs=[FIRST] + [MIDDLE] * (len(cuts) - 1))
                s.request(s.anything(1), 1, bc, show=SHOWN)
                s.request(s.anything(1), 1, bc, show=SHOWN)
            for start in (24576, 24577, 32767, 32768):
                for bc in (LAST, MIDDLE):
                    for count in (1, 2, MOST - 1, MOST):
                        s.set_write(2, start)
                        s.request(Run([], count, pick.randrange(65536)), 2, bc, show=SHOWN)
            s.digest(AREA, 0, 32784)
            s.state()


def while_erasing(s):
    """First and middle packets are NEXT while an erasure runs; the last one is ABORT, and its write stands no more."""
    pick = s.pick
    for turn in range(40):
        s.fresh(pick.choice((CDP, CDDC)), 4, FULL if turn % 20 == 0 else BENCH)
        s.request(command(0x45, *s.some_file(0x55)))
        runs = short(s.some_file(0x21)) if turn % 2 else long_file(s, 2000)
        cuts = packets(runs, [pick.choice((1, 3)), pick.choice((4, 700)), 900])
        begins, ends = pick.randrange(len(cuts)), pick.randrange(len(cuts) + 1)
        for place, packet in enumerate(cuts):
            if place == begins:
                s.request(command(0x47, pick.choice((0x0551, address_of(pick.choice(list(SECTORS)))))), 1)
            s.erase(pick.choice((0, 1, 100)))
            if place == ends:
                s.erase(40000)
            bc = FIRST if place == 0 else LAST if place == len(cuts) - 1 else MIDDLE
            s.request(packet.behind(HEADER) if place == 0 else packet, 0, bc, show=SHOWN)
        s.request(s.anything(1), 0, pick.choice((MIDDLE, LAST)))
        s.erase(40000)
        s.request(command(0x05, 0x0210), 0)
        s.state()


def with_a_request_pending(s):
    """A write that stands while a request is pending: of another link, and, in states that no start leads to, of the same one."""
    pick = s.pick
    s.fresh(CDDC, 4)
    for group in (True, False):
        for write, request in ((1, 1), (1, 2), (0, 3), (3, 3)):
            for packet in ([], HEADER + [1], [1, 2, 3]):
                for link in range(4):
                    for bc in range(4):
                        s.set_write(write, 100)
                        s.set_group(request, 5, s.clock, 0b1100000) if group else s.set_slave(request, 5, s.clock)
                        error = int(not packet and bc == FIRST and not pick.randrange(6))
                        s.request(packet, link, bc, error, pick.choice((0, 0, 0, SHOWN)))
    for turn in range(12):  # a group goes on while a file comes, packets of words aside
        s.fresh(CDDC, 4)
        cuts = packets(short(s.some_file(0x21, 3)), [3, 4, 5])
        s.request(cuts[0].behind(HEADER), 0, FIRST)
        for place, packet in enumerate(cuts[1:], 2):
            ask(s, pick.choice((0b100, 0b110000)), 1)
            while s.node.pending:
                s.request(packet, 0, MIDDLE)
                s.request([], 3, FIRST)
                slave_answers(s, s.node.pending.slave)
            s.request(packet, 0, LAST if place == len(cuts) else MIDDLE)
        s.request(command(0x05, 0x0210), 2)


def others_meanwhile(s):
    """Whole requests of other links and every other call, between the packets of a write that goes on to its end or doesn't."""
    pick = s.pick
    for turn in range(110):
        s.fresh(pick.choice((CDP, CDDC, CDDC)), pick.choice((2, 3, 4)), FULL if turn % 27 == 5 else BENCH, area=pick.choice((32768, 32784)))
        for _ in range(3):
            writer = pick.randrange(s.node.ports)
            runs = short(damaged_file(s) if pick.randrange(4) == 0 else s.some_file())
            if pick.randrange(4) == 0:
                runs = long_file(s, pick.choice((400, 2048, 2049, 4096)), s.new_name())
            way = [pick.choice((1, 2, 3, 700))] + [pick.choice((1, 2, 5, 900)) for _ in range(4)] + [900]
            send(s, packets(runs, way), writer, between=lambda: meanwhile(s, writer, turn))
            if pick.randrange(2):
                s.request(command(0x05, cut(runs, 0, 1).words()[0] & 0x0FF0), writer, show=16)
            if s.node.write:
                s.request([], s.node.write.link, FIRST)
        s.state()


def meanwhile(s, writer, turn):
    """Something between two packets of a write; seldom what drops it."""
    pick = s.pick
    other = (writer + pick.randrange(1, s.node.ports)) % s.node.ports
    size = s.node.flash_words
    if not pick.randrange(3):
        return
    if turn % 3 == 0 and not pick.randrange(4):
        pick.choice([
            lambda: s.request(command(0x0C), writer),
            lambda: s.request(HEADER + s.anything(2), writer, FIRST),
            lambda: s.request([0x052A], writer, FIRST),
            lambda: s.request([], writer, FIRST),
            lambda: s.start(s.node.kind, s.node.ports),
            lambda: s.start(0),
            lambda: s.set_write(other, s.node.write.joined if s.node.write else 0),
            lambda: s.poke(AREA, pick.randrange(20), s.anything(1)),
        ])()
        if not s.node.kind:
            s.start(CDDC, 4)
        return

    def group():
        ask(s, pick.choice((1, 0b1010)), other)
        while s.node.pending:
            s.request([], writer, pick.choice((MIDDLE, LAST, WHOLE)))
            slave_answers(s, s.node.pending.slave)

    pick.choice([
        group,
        lambda: s.request(command(0x45, *s.some_file()), other),
        lambda: s.request(command(pick.choice((0x05, 0x06, 0x46)), s.some_header()), other),
        lambda: s.request(command(0x48, s.some_header(), pick.randrange(2)), other),
        lambda: s.request(command(0x47, address_of(pick.choice(list(SECTORS)))), other),
        lambda: s.erase(pick.choice((1, 100, 40000))),
        lambda: s.request(HEADER + s.anything(3), other, FIRST),
        lambda: s.request(s.anything(3), other, pick.choice((FIRST, MIDDLE, LAST))),
        lambda: s.request(s.anything(3), writer, pick.choice((MIDDLE, LAST)), 1),
        lambda: s.request(Run(HEADER, MOST, 3), writer, pick.randrange(4)),
        lambda: s.request([], pick.choice((writer, other)), pick.choice((MIDDLE, LAST, WHOLE))),
        lambda: s.request([], other, FIRST),
        lambda: s.request([], writer, FIRST, 1),
        lambda: s.request(command(0x0C), other),
        lambda: (s.lend(flash=size, area=pick.choice((0, 1, 32767))), s.request(s.anything(2), writer, MIDDLE), s.lend(flash=size)),
        lambda: s.poll(),
        lambda: s.reply(pick.randrange(24)),
    ])()


def many_packets(s):
    """A file word by word, each a packet of its own."""
    for name, words in ((0x31, file_of([segment(DM, 0x2000, [1, 2, 3]), segment(PM, 0, [7])], name=0x31)), (0x32, [0x3321, 0, 0])):
        s.fresh(CDP, 1)
        cuts = packets(short(words), [1])
        assert len(cuts) == len(words) + 1
        send(s, cuts)
        s.request(command(0x05, name << 4), show=16)
    s.fresh(CDP, 1)
    s.request(HEADER, 0, FIRST)
    s.request([0x3211], 0, LAST)
    s.request([0x3211], 0, LAST)
    for turn in range(30):
        flash_step(s)
    s.ends()
