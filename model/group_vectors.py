"""Vectors of group assembly. A line is words, at most 600: what it is (0 group, 1 single slave), the mask (2 words, high first), the
node's own status word, how many words of the reply buffer are lent, then packets of 12 words each: asked at (2 words), now (2 words),
receive errors, RX status, RX address, BC, length, seed, status word, last word. The words of a packet follow from the seed, but for the
last two. The packets are answers of the mask's slaves, ascending: one that ends a slave's reply is followed by one of the next slave,
and one that is stored (02, request 8) by one more of the same. They go on while there is a slave to ask and a packet left; then the
group ends. Packets are stored only where 12,288 words are lent, or more."""

import random

from group import ABORT, AREA, MORE, Answer, ending, fragment, is_late, single, slaves_of, tally_with, zero_length
from runs import check_sequence
from words import line_of, run_of, words_of

BUFFER = 12300
MARK = 0xA5A5
HEAD, PACKET, LONGEST = 5, 12, 600  # words of a line


def made(n, seed, status, last, first=None):
    words = list(run_of(seed, n))
    if n >= 1 and first is not None:
        words[0] = first
    if n >= 2:
        words[n - 2] = status
    if n >= 1:
        words[n - 1] = last
    return words


def digest(words):
    d = 0
    for word in words:
        d = (d * 31 + word) % 4294967291
    return d


class Group:
    """A group in the lent words of a reply buffer, which may be too short for it."""

    def __init__(self, buffer, lent):
        self.buffer = buffer
        self.lent = lent
        self.built = self.tally = 0
        self.received = self.rx_status = 0  # of the slave now being asked

    def take(self, slave, answer, left):
        """Takes a packet, and answers whether it ends the slave's reply."""
        at = self.built + 1
        judged = fragment(slave, answer, self.built, left, self.buffer[at : at + self.received], self.rx_status)
        if judged is MORE:
            self.buffer[at + self.received : at + self.received + len(answer.words)] = answer.words
            self.received, self.rx_status = self.received + len(answer.words), answer.rx_status
            return False
        dat, code, words = judged
        self.received = self.rx_status = 0
        if self.built + len(words) <= self.lent:
            self.buffer[self.built : self.built + len(words)] = words
            self.built += len(words)
            self.tally = tally_with(self.tally, dat, code)
        return True

    def finish(self, own):
        """The BC and the length of the group's reply."""
        if zero_length(self.tally) is not None:
            return zero_length(self.tally), 0
        if self.built + 2 > self.lent:
            return ABORT, 0
        self.buffer[self.built : self.built + 2] = ending(self.buffer[: self.built], self.tally, own)
        return 0b11, self.built + 2


def passed(answer, buffer, lent):
    """The BC and the length of a single slave's reply in the lent words of a buffer."""
    bc, words = single(answer)
    if len(words) > lent:
        return ABORT, 0
    buffer[: len(words)] = words
    return bc, len(words)


# What is stored: answers by their kind.


class Maker:
    def __init__(self, seed):
        self.pick = random.Random(seed)
        self.most = 5  # packets of a reply

    def packet(self, asked=None, elapsed=None, errors=0, bc=3, n=0, seed=None, status=None, wrong=0, before=()):
        """A packet whose last word is the FCS of the words before it, or isn't."""
        pick = self.pick
        asked = pick.randrange(2**32) if asked is None else asked
        elapsed = pick.choice((0, 1, 30, 58, 59)) if elapsed is None else elapsed
        now = (asked + elapsed) % 2**32
        seed = pick.randrange(65536) if seed is None else seed
        status = pick.randrange(65536) if status is None else status
        last = check_sequence([*before, *made(n, seed, status, 0)[:-1]]) ^ wrong if n else 0
        rx = pick.randrange(65536), pick.randrange(65536)
        return [asked >> 16, asked & 0xFFFF, now >> 16, now & 0xFFFF, errors, *rx, bc, n, seed, status, last]

    def short(self):
        return self.pick.choice((2, 3, 4, 5, 7, 12, 14, 40))

    def high(self):
        """Higher bits of BC, which don't count."""
        return self.pick.choice((0, 0, 4, 0xFFFC))

    # 02, request 8: replies in packets.

    def sizes(self):
        return [self.pick.choice((1, 1, 2, 3, 5, 14)) for _ in range(self.pick.randrange(1, self.most))]

    def front(self, *sizes, **given):
        """A first packet and middle ones of so many words, each with a right FCS of its own."""
        return [self.packet(bc=self.high() | (0 if place else 2), n=n, **given) for place, n in enumerate(sizes)]

    def joined(self, *sizes, wrong=0, **given):
        """A reply in packets of so many words, two or more, its FCS at the very end."""
        front = self.front(*sizes[:-1], **given)
        before = [word for packet in front for word in self.words_in(packet)]
        return front + [self.packet(bc=self.high() | 1, n=sizes[-1], wrong=wrong, before=before, **given)]

    def words_in(self, packet):
        return words_in(packet)

    def of_packets(self, kind):
        """Packets that end a reply in one of the ways that a later packet can, or a first one without room."""
        pick = self.pick
        sizes = self.sizes()
        if kind == "in packets":
            return self.joined(*sizes, pick.choice((1, 1, 2, 3, 14)))
        if kind == "joined FCS":
            return self.joined(*sizes, pick.choice((1, 1, 2, 3, 14)), wrong=1 << pick.randrange(16))
        if kind == "no room for a packet":
            front = self.front(*sizes) if pick.randrange(3) else []
            bc = self.high() | (pick.randrange(2) if front else 2)
            return front + [self.packet(bc=bc, n=pick.choice((12288, 12290, 40000)), seed=7, status=pick.choice((0x01A0, 0xFFFF)))]
        elapsed = {"late after NEXT": pick.choice((60, 61, 200, 2**31, 2**32 - 1))}.get(kind)
        errors = {"late after NEXT": pick.randrange(2), "errors after NEXT": pick.choice((1, 2, 0x100, 0xFFFF))}.get(kind, 0)
        n = 0 if kind == "empty after NEXT" else pick.choice((1, 2, 9)) if kind == "first again" else pick.choice((0, 1, 2, 9))
        bc = self.high() | (2 if kind == "first again" else 0) | pick.choice((0, 1) if kind == "first again" else (0, 1, 2, 3))
        return self.front(*sizes) + [self.packet(elapsed=elapsed, errors=errors, bc=bc, n=n)]

    def of(self, kind):
        """An answer of one kind, by its name, as packets."""
        if kind in IN_PACKETS:
            return self.of_packets(kind)
        pick = self.pick
        high = self.high()
        return [{
            "late": lambda: self.packet(elapsed=pick.choice((60, 61, 200, 2**31, 2**32 - 1)), bc=pick.randrange(4), n=pick.choice((0, 1, 5))),
            "late errors": lambda: self.packet(elapsed=60, errors=1, n=3),
            "errors": lambda: self.packet(errors=pick.choice((1, 2, 0x100, 0xFFFF)), bc=pick.randrange(4), n=pick.choice((0, 1, 2, 9))),
            "NEXT": lambda: self.packet(bc=high | 0),
            "ERROR": lambda: self.packet(bc=high | 1),
            "ABORT": lambda: self.packet(bc=high | 2),
            "END": lambda: self.packet(bc=high | 3),
            "BC1 clear": lambda: self.packet(bc=high | pick.randrange(2), n=pick.choice((1, 2, 6))),
            "one word": lambda: self.packet(bc=high | 3, n=1, wrong=pick.choice((0, 1))),
            "wrong FCS": lambda: self.packet(bc=high | 3, n=self.short(), wrong=1 << pick.randrange(16)),
            "no room": lambda: self.packet(bc=high | 3, n=pick.choice((12288, 12290, 40000)), seed=7, status=pick.choice((0x01A0, 0xFFFF))),
            "whole": lambda: self.packet(bc=high | 3, n=self.short()),
            "whole two": lambda: self.packet(bc=high | 3, n=2),
        }[kind]()]

    def all_of(self, kinds):
        """The packets of answers of some kinds, few of each where the kinds are many, so that they have room in a line."""
        self.most = 2 if len(kinds) > 12 else 3 if len(kinds) > 6 else 5
        packets = [packet for kind in kinds for packet in self.of(kind)]
        self.most = 5
        return packets

    def own(self):
        return self.pick.randrange(8) << 6 | 0x20

    def mask_of(self, count):
        return sum(1 << slave for slave in self.pick.sample(range(24), count))


IN_PACKETS = ("in packets", "late after NEXT", "empty after NEXT", "first again", "no room for a packet", "joined FCS", "errors after NEXT")
KINDS = ("late", "errors", "NEXT", "ABORT", "ERROR", "END", "BC1 clear", "one word", "wrong FCS", "no room", "whole", "whole two") + IN_PACKETS
ZEROS = ("NEXT", "ABORT", "ERROR", "END")
LENGTHS = (0, 1, 2, 12286, 12287, 12288, 40000)
CLOCKS = (0, 1, 0x7FFFFFFF, 0x80000000, 0xFFFFFFC4, 0xFFFFFFC5, 0xFFFFFFF0, 0xFFFFFFFF)
ELAPSED = (0, 59, 60, 61, 2**31 - 1, 2**31, 2**32 - 1)
BCS = (0, 1, 2, 3, 4, 7, 0xFFFE, 0xFFFF)


class Lines:
    """The lines, one for each group or single slave."""

    def __init__(self):
        self.make = Maker(6)
        self.lines = []

    def group(self, *packets, slaves=1, mask=None, lent=AREA):
        mask = self.make.mask_of(slaves) if mask is None else mask
        line = [0, mask >> 16, mask & 0xFFFF, self.make.own(), lent] + [word for packet in packets for word in packet]
        assert len(line) <= LONGEST
        self.lines.append(line)

    def kinds(self, *kinds, **given):
        self.group(*self.make.all_of(kinds), slaves=len(kinds), **given)

    def single(self, lent, packet):
        self.lines.append([1, 0, 0, 0, lent] + packet)


def kinds_of_answers(lines):
    pick = lines.make.pick
    # each kind alone, from each slave
    for kind in KINDS + ("late errors",):
        for slave in range(24):
            lines.kinds(kind, mask=1 << slave)
    # each kind behind each other
    for first in KINDS:
        for second in KINDS:
            lines.kinds(first, second)
    # mixtures of 1 to 24 slaves, even and with one kind prevailing
    for turn in range(24):
        for count in range(1, 25):
            common = pick.choice(("whole", "in packets") + ZEROS) if turn % 3 else None
            lines.kinds(*[common if common and pick.randrange(8) else pick.choice(KINDS) for _ in range(count)])
    # all of one kind, and END with one ABORT
    for count in range(1, 25):
        for kind in ("late", "errors", "whole", "in packets") + ZEROS:
            lines.kinds(*[kind] * count)
        for odd in {0, count // 2, count - 1}:
            lines.kinds(*["ABORT" if i == odd else "END" for i in range(count)])


def times(lines):
    """Across the clock's wrap too; a clock that goes back by one."""
    make = lines.make
    for asked in CLOCKS:
        for elapsed in ELAPSED:
            lines.group(make.packet(asked, elapsed, n=4), *make.of("whole"), slaves=2)
            lines.group(make.packet(asked, elapsed, bc=2))
            # a reply in three packets, each of which may be late
            for place in range(3):
                packets = make.joined(2, 1, 3)
                packets[place][:4] = make.packet(asked, elapsed)[:4]
                lines.group(*packets, *make.of("whole"), slaves=2)


def lengths(lines):
    make, pick = lines.make, lines.make.pick
    # lengths with every BC, alone and with two more slaves to ask; and behind a first packet, and a middle one
    for n in LENGTHS:
        for bc in BCS:
            given = dict(bc=bc, n=n, seed=7, status=0x01A0)
            lines.group(make.packet(**given))
            lines.group(make.packet(**given), *make.of("whole"), *make.of("END"), slaves=3)
            lines.group(*make.front(1), make.packet(**given), *make.of("late"), slaves=2)
            lines.group(*make.front(3, 2), make.packet(**given), *make.of("END"), slaves=2)
    # room to the word: n words behind w with k slaves left, one that fits and one that doesn't; none only for a middle slave
    for k in (0, 1, 2, 11, 22):
        for w in (2, 5, 40, 6000):
            for over in (0, 1):
                before = [make.packet(n=w, seed=9, status=0x0040)] if w > 5 else make.of("END" if w == 2 else "one word")
                room = AREA - 2 - 5 * k - w
                given = dict(seed=11, status=0x07E0)
                rest = [pick.choice(KINDS) for _ in range(k)]
                lines.group(*before, make.packet(n=room + over, **given), *make.all_of(rest), slaves=k + 2)
                # 02, request 8: in packets; and a first packet, or a middle one, that takes all the room there is, or a word more
                for front in ((1,), (100, 1), (5, room - 6), (room - 2, 1)):
                    lines.group(*before, *make.joined(*front, room + over - sum(front), **given), *make.all_of(rest), slaves=k + 2)
                for later in ("late after NEXT", "empty after NEXT", "first again", "errors after NEXT"):
                    packets = make.front(room + over, **given) + (make.of(later)[-1:] if not over else [])
                    lines.group(*before, *packets, *make.all_of(rest), slaves=k + 2)
                for front in ((room,), (3, room - 3), (3, room - 2)):
                    lines.group(*before, *make.front(*front, **given), make.packet(bc=over, n=1), *make.all_of(rest), slaves=k + 2)
    for large in (6000, 6100, 6139, 6140, 12000):
        whole = [make.packet(n=n, seed=9, status=0) for n in (large, large, 100)]
        lines.group(*whole, slaves=3)
        halves = [make.joined(n // 2, n - n // 2, seed=9, status=0) for n in (large, large, 100)]
        lines.group(*halves[0], *halves[1], *halves[2], slaves=3)
        lines.group(whole[0], *halves[1], *halves[2], slaves=3)
    # counts of words received that have no room in 16 bits
    for n in (65528, 65529, 65530, 65535):
        for bc in range(4):
            lines.group(*make.front(2, 4), make.packet(bc=bc, n=n, seed=7))
        lines.group(*make.front(n, seed=7))


def places(lines):
    """02, request 8: replies of many packets, each way to end one at each place, what stands past a failed one, and lines that end early."""
    make, pick = lines.make, lines.make.pick
    for count in (2, 3, 10, 48):
        lines.group(*make.joined(*[1] * count))
        lines.group(*make.joined(*[1] * count, wrong=0x8000))
        lines.group(*make.joined(*[pick.choice((1, 2, 7, 250)) for _ in range(count)]), lent=BUFFER)
    for kind in IN_PACKETS:
        for before in range(1, 7):
            lines.group(*make.front(*make.sizes(), *[2] * before), *make.of(kind)[-1:], *make.of("END"), slaves=2)
    for kind in IN_PACKETS[1:]:  # long leftovers, then a fragment that is shorter, or longer, or in packets too
        for following in ("END", "errors", "one word", "whole", "in packets", "late after NEXT", "joined FCS"):
            packets = make.front(30, 12) + make.of(kind)[-1:] + make.of(following) + make.of("whole two")
            lines.group(*packets, slaves=3, lent=pick.choice((AREA, 12290, BUFFER)))
    for kind in KINDS:
        packets = make.of(kind)
        for count in range(len(packets)):
            lines.group(*packets[:count], slaves=2)
            lines.group(*make.of("END"), *packets[:count], slaves=2)
    for kind in IN_PACKETS:  # a packet more than there are slaves to ask
        lines.group(*make.of(kind), *make.of("whole"))
    lines.group(*make.of("in packets"))
    lines.lines[-1] = lines.lines[-1][:-1]  # the last packet isn't whole


def others(lines):
    make = lines.make
    # masks with nobody, and with bits above slave 23
    for high in (0, 0xFF):
        lines.group(mask=high << 24)
        lines.group(*make.of("whole"), mask=high << 24 | 1 << 23)
        lines.group(*make.of("in packets"), mask=high << 24 | 1 << 23)
    # buffers that are too short for a fragment, or for the end
    for lent in range(32):
        lines.group(*make.of("whole"), *make.of("errors"), *make.of("END"), slaves=3, lent=lent)
        lines.group(*make.of("END"), *make.of("END"), slaves=2, lent=lent)
    # single slaves: any BC passes
    for lent in (AREA, 12290, 12286, 12287, 2, 1, 0):
        for n in LENGTHS:
            for bc in (0, 1, 2, 3, 0xFFFD):
                lines.single(lent, make.packet(bc=bc, n=n, seed=7, status=0x01A0))
        for kind in KINDS + ("late errors",):
            lines.single(lent, make.of(kind)[0])


def inputs():
    lines = Lines()
    for part in (kinds_of_answers, times, lengths, places, others):
        part(lines)
    return "".join(line_of(line) for line in lines.lines)


def words_in(packet):
    return made(*packet[8:12])


def answer_of(packet):
    asked, now = packet[0] << 16 | packet[1], packet[2] << 16 | packet[3]
    return Answer(is_late(now, asked), packet[4] != 0, packet[5], packet[6], packet[7], words_in(packet))


def packets_of(line):
    return [line[at : at + PACKET] for at in range(HEAD, len(line) - PACKET + 1, PACKET)]


def assembled(line, buffer):
    """What is printed of a group, packet by packet, and its BC and length."""
    slaves, group = slaves_of(line[1] << 16 | line[2]), Group(buffer, line[4])
    for packet in packets_of(line):
        if not slaves:
            break
        if group.take(slaves[0], answer_of(packet), len(slaves) - 1):
            slaves.pop(0)
            yield "%d:%d:%s" % (group.built, group.tally, "%04x" % buffer[group.built - 1] if group.built else "")
        else:
            yield "+%d:%04x" % (group.received, group.rx_status)
    bc, n = group.finish(line[3])
    yield "%d %d" % (bc, n)


def outputs(stdin):
    printed = []
    for text in stdin.splitlines():
        line, buffer = words_of(text), [MARK] * BUFFER
        if line[0] == 0:
            items = list(assembled(line, buffer))
        else:
            items = ["%d %d" % passed(answer_of(packets_of(line)[0]), buffer, line[4])]
        printed.append(" ".join(items + ["%08x" % digest(buffer)]) + "\n")
    return "".join(printed)
