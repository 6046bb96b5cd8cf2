"""Vectors of captured group replies, by the lines of the program `captures` (02, request 3): a mask and words in hex, parted by tabs;
what is printed for a line is its number and YES, or the place of the word that breaks the reply. Some lines can't be read, or say
nothing, as docs/BENCH.md has it of the bench."""

from bench import LONGEST, TICKS, all_said, values
from capture import broken_at, fragment_of
from files import sealed
from group import AREA, ending, slaves_of, tally_with
from group_vectors import KINDS, ZEROS, Maker, answer_of

MASK = TICKS  # one to eight hex digits
OWN = 0x0020
CODES = range(32)  # DAT and code
FAULTS = (0x11, 0x12, 0x13, 0x15, 0x16, 0x17, 0x18, 0x1A, 0x1C, 0x19)  # and 9, which is no code any more (02, request 8)


class Capture:
    """What a node assembles for a mask of answers, each some packets, and where its parts begin: the fragments, then status and FCS."""

    def __init__(self, mask, answers, own=OWN):
        self.mask, self.words, self.places, tally = mask, [], [], 0
        slaves = slaves_of(mask)
        for place, (slave, packets) in enumerate(zip(slaves, answers)):
            packets = [answer_of(packet) for packet in packets]
            dat, code, laid = fragment_of(slave, packets, len(self.words), len(slaves) - 1 - place)
            self.places.append(len(self.words))
            self.words += laid
            tally = tally_with(tally, dat, code)
        self.words += ending(self.words, tally, own)

    def status_places(self):
        return [end - 1 for end in self.places[1:] + [len(self.words) - 2]]

    def with_word(self, place, word):
        """The words with another word at a place: as they are, and with a new FCS, so that no rule but that word's own decides."""
        changed = self.words[:place] + [word % 65536] + self.words[place + 1:]
        yield self.mask, changed
        yield self.mask, sealed(changed[:-1])


class Captures(Maker):
    """Captures by the kinds of their answers, as `group_vectors` names them."""

    def of_kinds(self, *kinds, mask=None):
        mask = self.mask_of(len(kinds)) if mask is None else mask
        return Capture(mask, [self.of(kind) for kind in kinds], self.own())

    def of_lengths(self, mask, *lengths):
        """Whole replies of so many words."""
        return Capture(mask, [[self.packet(n=n, seed=7, status=0x01A0)] for n in lengths], self.own())


# What the node assembles.


def assembled(make):
    pick = make.pick
    for kind in KINDS:
        for slave in range(24):
            yield make.of_kinds(kind, mask=1 << slave)
    for first in KINDS:
        for second in KINDS:
            yield make.of_kinds(first, second)
    for turn in range(12):
        for count in range(1, 25):
            common = pick.choice(("whole",) + ZEROS) if turn % 3 else None
            yield make.of_kinds(*[common if common and pick.randrange(8) else pick.choice(KINDS) for _ in range(count)])
    for own in range(8):
        for kind in ("whole", "late"):
            yield Capture(1 << 9, [make.of(kind)], own << 6 | OWN)


def all_alike(make):
    """All slaves of one kind, which for a 0-length one is no data, and all but the first, the last or one of them."""
    for count in range(1, 25):
        for kind in ("late", "errors", "whole two") + ZEROS:
            yield make.of_kinds(*[kind] * count)
        for kind in ZEROS:
            for odd in {0, count // 2, count - 1}:
                other = make.pick.choice([other for other in KINDS if other != kind])
                yield make.of_kinds(*[other if i == odd else kind for i in range(count)])


def longest(make):
    """Replies of 12,288 words in all, and such as would have one more: their last fragment, for which there is room to the word."""
    fronts = ((1, ()), (0x800001, (2,)), (0x3, (6000,)), (0xFFFFFF, (500,) * 23), (0xFFFFFF, (2,) * 23), (0x0F0F0F, (900,) * 11))
    for mask, lengths in fronts:
        last = AREA - 2 - sum(lengths)
        made = make.of_lengths(mask, *lengths, last)
        assert len(made.words) == AREA
        yield made.mask, made.words
        yield made.mask, made.words[:-1]
        yield made.mask, made.words + [0]
        yield made.mask, made.words[:-1] + [made.words[-1] ^ 0x8000]
        at = made.places[-1]
        over = made.words[:at] + [last] + made.words[at + 1:at + 2] + made.words[at + 1:-1]
        yield made.mask, sealed(over)
        refused = make.of_lengths(mask, *lengths, last + 1)
        yield refused.mask, refused.words


# One rule at a time.


def ended(words, status=0x0200):
    return sealed(words + [status])


def lengths(make):
    """A length word to the word: behind so many words, with so many slaves yet to ask."""
    for count in (1, 2, 3, 12, 24):
        mask = make.mask_of(count)
        slaves = slaves_of(mask)
        for place in {0, 1, count // 2, count - 1} & set(range(count)):
            front = [word for slave in slaves[:place] for word in (1, 0x8000 | slave)]
            most = AREA - 2 - len(front) - 5 * (count - 1 - place) - 1
            for length in (0, 1, 2, 3, 4, 5, most - 1, most, most + 1, most + 2, AREA, 0x7FFF, 0x8000, 0xFFFE, 0xFFFF):
                yield mask, front + [length]
                yield mask, ended(front + [length, 0x8000 | slaves[place]])
                yield mask, ended(front + [length, 5, 6, 7, 0x8000 | slaves[place]])


def reply_lengths(make):
    """Reply lengths in fragments of a fault, behind so many words, with so many slaves yet to ask."""
    for count, place in ((1, 0), (2, 0), (2, 1), (5, 3), (24, 0), (24, 12), (24, 23)):
        mask = make.mask_of(count)
        slaves = slaves_of(mask)
        front = [word for slave in slaves[:place] for word in (3, 1, 2, 0x3000 | slave)]
        back = [word for slave in slaves[place + 1:] for word in (1, 0x2800 | slave)]
        room = AREA - 2 - len(front) - 5 * (count - 1 - place)
        for code in FAULTS:
            for n in (0, 1, 2, 3, 4, 5, 6, 7, 100, room - 1, room, room + 1, AREA, 0x7FFF, 0xFFFE, 0xFFFF):
                for bits in (0, 0x0020) if n in (2, room, room + 1) else (0,):
                    status = code << 11 | bits | slaves[place]
                    yield mask, ended(front + [4, make.pick.randrange(65536), n, make.pick.randrange(65536), status] + back)


def codes(make):
    """Every code with every length that some code has, for every slave ID and each status bit."""
    for length in range(1, 7):
        data = [9] * (length - 1)
        for code in CODES:
            status = code << 11 | 11
            end = 0x0000 if code == 0x10 else 0x0200
            yield 1 << 11, ended([length, *data, status], end)
            yield 1 << 11, ended([length, *data, status], end ^ 0x0200)
            for bit in range(5, 11):
                yield 1 << 11, ended([length, *data, status | 1 << bit], end)
        for slave in range(32):
            yield 1 << 11, ended([length, *data, 0x8000 | slave], 0)
            yield 1 << 11, ended([length, *data, 0x2800 | slave])


# Damage.


def bases(make):
    """Short captures to be damaged, of every kind of fragment."""
    yield make.of_kinds("whole two")
    yield make.of_kinds("late", "whole two")
    yield Capture(0xA0, [make.of("ABORT"), [make.packet(n=4)]])
    yield make.of_kinds("errors", "late after NEXT")
    yield make.of_kinds("wrong FCS", "END", "END")
    yield make.of_kinds("one word", "NEXT", "ERROR", "BC1 clear")
    yield Capture(make.mask_of(2), [[make.packet(n=3)], [make.packet(n=5)]])
    yield Capture(make.mask_of(2), [[make.packet(n=12300, seed=7, status=0xFFFF)], [make.packet(n=3)]])
    yield make.of_kinds("empty after NEXT", "first again")
    yield make.of_kinds("no room for a packet", "joined FCS")


def damaged(make):
    for base in bases(make):
        words = base.words
        for place, word in enumerate(words):
            others = {word ^ 1 << bit for bit in range(16)} | {(word + 1) % 65536, (word - 1) % 65536, 0, 1, 3, 4, 0xFFFF} - {word}
            for other in sorted(others):
                yield from base.with_word(place, other)
        for place in base.status_places():
            for code in CODES:
                yield from base.with_word(place, words[place] & 0x07FF | code << 11)
        for end in range(len(words)):
            yield base.mask, words[:end]
            yield base.mask, words[:end] + words[end + 1:]
            yield base.mask, sealed((words[:end] + words[end + 1:])[:-1])
        for more in ([0], [words[-1]], words):
            yield base.mask, words + more
        for slave in range(24):  # a slave more in the mask, or less
            yield base.mask ^ 1 << slave, words


def large_damaged(make):
    """Damage in captures of 24 slaves."""
    pick = make.pick
    for turn in range(160):
        base = make.of_kinds(*[pick.choice(("whole", "whole", "whole two", *KINDS)) for _ in range(24)])
        place = pick.choice((pick.choice(base.places), pick.choice(base.status_places()), pick.randrange(len(base.words))))
        yield list(base.with_word(place, base.words[place] ^ 1 << pick.randrange(16)))[turn % 2]
        yield base.mask, base.words[:pick.randrange(len(base.words))]


def anything(make):
    """Words by chance, most of them such as a fragment has at its place."""
    pick = make.pick
    for _ in range(500):
        mask = make.mask_of(pick.choice((1, 1, 2, 3, 5)))
        slaves = slaves_of(mask)
        common = [0, 1, 1, 1, 2, 3, 4, 4, 5, 0x0200] + [code << 11 | slave for slave in slaves for code in pick.choices(CODES, k=4)]
        words = [pick.choice(common) if pick.randrange(12) else pick.randrange(65536) for _ in range(pick.randrange(1, 24))]
        yield mask, sealed(words) if pick.randrange(2) else words


def masks(make):
    """Masks with nobody, or above 24 bits, whatever the words are; and each mask alone."""
    for mask in (0, 1 << 24, 0x1000001, 0x80000000, 0xFFFFFFFF, 1, 0x800000, 0xFFFFFF):
        yield mask, []
        yield mask, sealed([0x0200])
        yield mask, sealed([0x0000])
        for kind in ("late", "whole"):
            yield mask, make.of_kinds(kind, mask=1).words
            yield mask, make.of_kinds(*[kind] * 24, mask=0xFFFFFF).words


# Lines.


def line_of(mask, words):
    return "\t".join(["%X" % mask] + ["%04X" % word for word in words])


def lines_by_hand():
    """Every way in which a line can be written, or can't be read."""
    right = "0001\t2807\t0200\tF53E"
    yield from ("", " ", "\t", " \t \t", "#", "# 80\t0001", "#80\t" + right, "#\t", "80#")
    for mask in ("80", "080", "00000080", "0000080", "000000080", "0x80", "8O", "", "g", "-80", "+80", " 80", "80 ", "80h"):
        yield mask + "\t" + right
        yield mask + "x\t" + right
    yield from ("80", "00000000", "1000000", "FFFFFFFF", "ffffffff", "fFfFfFfF", "100000000", "FFFFFFFFF")
    yield from ("help", "poll", "YES", "0\t3\t0C2E", right, "80\t", "80\t\t")
    yield from ("80 " + right, "80\t\t" + right, "80\t" + right + "\t", "80\t" + right + " ", " 80\t" + right)
    for word in ("2807", "28 7", "807", "02807", "28071", "280g", "280G", "280/", "280:", "280@", "280`", "0x28", "", "2807\r", "é807"):
        yield "80\t0001\t%s\t0200\tF53E" % word
        yield "80\t0001\t%s" % word
    yield from ("80\t" + right.lower() + "\r", "80\t" + right + "\r\r", "\r", "#\r", "80\r")
    yield "80\t0001\t28\t02\tF53E"  # the first of several is named
    yield "80\t0001\t2807\t020\tBE1"
    many = "80\t" + "0001\t" * 39998
    yield from (many + "00", many + "0001", many + "0001\t0001", "#" * (LONGEST + 1))


def inputs():
    make = Captures(3)
    lines = list(lines_by_hand())
    for part in (assembled, all_alike):
        lines += [line_of(made.mask, made.words) for made in part(make)]
    for part in (longest, lengths, reply_lengths, codes, damaged, large_damaged, anything, masks):
        lines += [line_of(mask, words) for mask, words in part(make)]
    lines.append(line_of(1 << 7, ended([1, 0x2807])))
    return "\n".join(lines)  # the last line ends without \n


def answer(number, fields):
    mask, *words = values(fields, (MASK,), True, 1)
    place = broken_at(mask, words)
    return ["%d\t%s" % (number, "YES" if place is None else place)]


def outputs(stdin):
    return all_said(stdin.encode(), answer)
