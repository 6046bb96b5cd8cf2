"""Vectors of event builds (02, request 12). A line is words: the set of slaves (2 words, high first), the last event's number, the node's
own status word, the clock when the build begins (2 words, high first), then at most 49 steps of 12 words each: kind (0 a packet of the
slave that is asked, 1 a poll), now (2 words), receive errors, RX status, RX address, BC, length, seed, first word, status word, last word.
Of a poll only kind and clock count. The words of a packet follow from the seed, but for its first word, its last but one and its last,
put there in this order. A line may end before its build does; steps after the end are passed over.

Printed are `A`slave:times for the first ask, then for each step `A`slave:times asked:fragment words built:tally:slaves left out (6 hex
digits) where a slave is asked, `N`slave:words received:RX status (4 hex digits) where NEXT is sent, `W` where a poll finds the slave not yet
late, `O` at the end with no event, or `E`words:bit 9 at the end with one; and a digest of the whole event area, all marks before each line."""

from itertools import product

import group_vectors
from event import begun, number_after, taken
from group import AREA, LIMIT, Answer, is_late
from group_vectors import BCS, BUFFER, CLOCKS, ELAPSED, IN_PACKETS, MARK, digest, made
from runs import check_sequence
from words import line_of, words_of

HEAD, STEP, STEPS = 6, 12, 49  # words before the steps, words of a step, steps of a line
ROOM = AREA - 5  # for one reply, behind nothing and with nobody yet to ask
ERRORS = (1, 2, 0x100, 0xFFFF)
LATER = (60, 61, 200, 2**31, 2**32 - 1)

# Kinds of answers, in one step and in several. END is asked again: the kind END is three of them.
IN_ONE = ("late", "errors", "NEXT", "ABORT", "ERROR", "BC1 clear", "one word", "wrong FCS", "no room", "whole", "whole two", "left out",
          "other number", "late poll")
IN_SEVERAL = ("END", "END once", "END twice", "END and late", "END after NEXT", "late poll after NEXT", "waited", "two in packets",
              "left out in packets", "joined other number") + IN_PACKETS
KINDS = IN_ONE + IN_SEVERAL
WITHOUT_DATA = ("late", "errors", "NEXT", "ABORT", "ERROR", "END", "late poll", "errors after NEXT", "END and late")

LATE = Answer(True, False, 0, 0, 0, [])  # nothing in time


class Build:
    """A build by itself, without a node: what is kept of it, None where it is over, and its event area."""

    def __init__(self, area, asked, last, own, now):
        self.area, self.number, self.own = area, number_after(last), own
        self.kept, self.answer = begun(asked, now)

    def reply(self, now, errors, rx_status, rx_address, bc, words):
        return self.take(now, Answer(is_late(now, self.kept.at), errors != 0, rx_status, rx_address, bc, words))

    def poll(self, now):
        return self.take(now, LATE) if is_late(now, self.kept.at) else ("waiting",)

    def take(self, now, answer):
        self.kept, said = taken(self.kept, self.area, self.number, self.own, now, answer)
        return said


class Maker(group_vectors.Maker):
    """Steps by their kind. Until it stands in a line a step has, in its clock's place, how long after the ask or NEXT before it comes."""

    number = 1  # of the event that the steps are for

    def packet(self, elapsed=None, errors=0, bc=3, n=0, seed=None, status=None, wrong=0, before=(), first=None):
        """A packet whose last word is the FCS of the words before it, or isn't. One with BC1 begins with the event's number."""
        pick = self.pick
        elapsed = pick.choice((0, 1, 30, 58, 59)) if elapsed is None else elapsed
        seed = pick.randrange(65536) if seed is None else seed
        status = pick.randrange(65536) if status is None else status
        first = first if first is not None else self.number if bc & 2 else pick.randrange(65536)
        if bc & 2 and n == 2:
            status = first
        last = check_sequence([*before, *made(n, seed, status, 0, first)[:-1]]) ^ wrong if n else 0
        if bc & 2 and n == 1:
            last = first
        rx = pick.randrange(65536), pick.randrange(65536)
        return [0, elapsed >> 16, elapsed & 0xFFFF, errors, *rx, bc, n, seed, first, status, last]

    def words_in(self, step):
        n, seed, first, status, last = step[7:]
        return made(n, seed, status, last, first)

    def poll(self, elapsed):
        return [1, elapsed >> 16, elapsed & 0xFFFF] + [0] * 9

    def ends(self, count, **given):
        return [self.packet(bc=self.high() | 3, **given) for _ in range(count)]

    def short(self):
        return self.pick.choice((4, 5, 7, 12, 14, 40))

    def other(self):
        """A number that is not the event's: the last one, the next one, or another one that is a power of two above it."""
        return (self.number + self.pick.choice((-1, 1, 0x8000, 0x100, 1 << self.pick.randrange(16)))) % 65536

    def of(self, kind):
        pick, high = self.pick, self.high()
        mine = {
            "END": lambda: self.ends(3),
            "END once": lambda: self.ends(1) + self.of(pick.choice(IN_ONE)),
            "END twice": lambda: self.ends(2) + self.of(pick.choice(IN_ONE)),
            "END and late": lambda: self.ends(pick.choice((1, 2))) + [self.poll(pick.choice(LATER))],
            "END after NEXT": lambda: self.front(pick.choice((1, 3, 9))) + self.ends(1),
            "left out": lambda: [self.packet(bc=high | 3, n=3)],
            "left out in packets": lambda: self.joined(*pick.choice(((1, 2), (2, 1), (1, 1, 1)))),
            "two in packets": lambda: self.joined(1, 1, wrong=pick.choice((0, 1))),
            "other number": lambda: [self.packet(bc=high | 3, n=pick.choice((3, 4, 9)), first=self.other())],
            "joined other number": lambda: self.joined(*pick.choice(((1, 2), (2, 5), (1, 1, 1), (3, 1, 4))), first=self.other()),
            "late poll": lambda: [self.poll(pick.choice(LATER))],
            "late poll after NEXT": lambda: self.front(*self.sizes()) + [self.poll(pick.choice(LATER))],
            "waited": lambda: [self.poll(pick.choice((0, 30, 59))), self.poll(59), self.packet(elapsed=59, bc=high | 3, n=self.short())],
        }
        return mine[kind]() if kind in mine else super().of(kind)

    def all_of(self, kinds):
        """The steps of answers of some kinds. Where a line would have no room for all of them, answers in one step stand in."""
        self.most = 2 if len(kinds) > 12 else 3 if len(kinds) > 6 else 5
        steps = []
        for place, kind in enumerate(kinds):
            made_of_it, left = self.of(kind), len(kinds) - place - 1
            while len(steps) + len(made_of_it) + left > STEPS:
                made_of_it = self.of(self.pick.choice(IN_ONE))
            steps += made_of_it
        self.most = 5
        return steps


class Lines:
    """The lines, one for each build. The number of the event is settled before its steps are made."""

    def __init__(self):
        self.make = Maker(12)
        self.lines = []
        self.after(0)

    def after(self, last):
        """The next build is that of the event after this number."""
        self.last, self.make.number = last, (last + 1) % 65536

    def build(self, *steps, slaves=1, asked=None, now=None):
        pick = self.make.pick
        asked = self.make.mask_of(slaves) if asked is None else asked
        now = pick.choice((pick.randrange(2**32), 2**32 - 1 - pick.randrange(300))) if now is None else now
        line = [asked >> 16, asked & 0xFFFF, self.last, self.make.own(), now >> 16, now & 0xFFFF]
        assert len(steps) <= STEPS
        for step in steps:
            elapsed = step[1] << 16 | step[2]
            at = (now + elapsed) % 2**32
            line += [step[0], at >> 16, at & 0xFFFF, *step[3:]]
            if step[0] == 0 or elapsed >= LIMIT:  # a slave is asked then, or sent NEXT; a poll before leaves the clock as it is
                now = at
        self.lines.append(line)
        self.after(pick.choice((pick.randrange(65536), pick.randrange(65536), pick.randrange(4), 0xFFFF - pick.randrange(4))))

    def kinds(self, *kinds, **given):
        self.build(*self.make.all_of(kinds), **{"slaves": len(kinds), **given})


def kinds_of_answers(lines):
    pick = lines.make.pick
    # each kind alone; what may be left out from each slave, since each has a bit of its own
    for kind in KINDS:
        for slave in range(24) if kind in ("whole", "left out", "left out in packets") else (0, pick.randrange(1, 23), 23):
            lines.kinds(kind, asked=1 << slave)
    # each kind behind each other, and with one to ask behind both
    for first in KINDS:
        for second in KINDS:
            lines.kinds(first, second, *pick.choice(((), ("whole",), ("late",))))
    # mixtures of 1 to 24 slaves, even and with one kind prevailing
    for turn in range(4):
        for count in range(1, 25):
            common = pick.choice(("whole", "in packets", "left out", "END twice") + WITHOUT_DATA) if turn % 3 else None
            lines.kinds(*[common if common and pick.randrange(8) else pick.choice(KINDS) for _ in range(count)])
    # all of one kind
    for count in (2, 3, 8, 16, 24):
        for kind in KINDS:
            if count == 24 or kind in WITHOUT_DATA + ("whole", "left out"):
                lines.kinds(*[kind] * count)


def no_event(lines):
    """Nobody had DAT; and one answer that has it among those that haven't, at each place."""
    make, pick = lines.make, lines.make.pick
    for count in range(1, 25):
        lines.kinds(*[pick.choice(WITHOUT_DATA) for _ in range(count)])
    for count in (1, 2, 5, 24):
        for kind in ("left out", "other number", "two in packets", "END after NEXT", "late poll after NEXT", "no room"):
            for place in {0, count // 2, count - 1}:
                kinds = [pick.choice(WITHOUT_DATA) for _ in range(count)]
                kinds[place] = kind
                lines.kinds(*kinds)
    # receive errors behind NEXT have no DAT, and what was stored before them stays
    for sizes in ((1,), (3,), (40, 7), (1, 1, 1)):
        lines.build(*make.front(*sizes), make.packet(errors=1, n=5, bc=1), *make.of("late poll"), slaves=2)
    lines.build(*make.front(*[1] * 48), make.packet(errors=1, bc=1))


def asked_again(lines):
    """END, up to three times in all, and each kind behind it; nothing else is asked again, and each slave begins anew."""
    make, pick = lines.make, lines.make.pick
    for count in range(1, 4):
        for kind in KINDS:
            lines.build(*make.ends(count), *make.of(kind), *make.of("whole"), slaves=2)
    for zero in ("NEXT", "ABORT", "ERROR", "errors", "late"):
        for count in (0, 1, 2):
            lines.build(*make.ends(count), *make.of(zero), *make.ends(1), *make.of(zero), *make.of("whole"), slaves=3)
    for count in range(8):
        for turns in (1, 2, 3):
            steps = []
            for _ in range(turns):
                steps += make.ends(count % 3) + make.of(pick.choice(("whole", "left out", "in packets")))
            lines.build(*steps, *make.ends(count), slaves=4)
    # END with receive errors, END that comes too late, and END behind NEXT, before and after one that is asked again
    for count in range(3):
        for given in ({"errors": 1}, {"elapsed": 60}, {"elapsed": 60, "errors": 1}):
            lines.build(*make.ends(count), *make.ends(1, **given), *make.of("whole"), slaves=2)
            lines.build(*make.ends(count), *make.front(2), *make.ends(1, **given), *make.of("whole"), slaves=2)
        lines.build(*make.ends(count), *make.front(2), *make.ends(1), *make.ends(3), slaves=2)
        lines.build(*make.ends(count), *make.joined(2, 1, 2), *make.ends(3), slaves=2)
    # the time goes by the last ask: twice 59 ticks are in time, and a poll asks nobody
    for elapsed in (0, 1, 30, 31, 58, 59, 60):
        lines.build(*make.ends(1, elapsed=59), make.packet(elapsed, n=5), *make.of("whole"), slaves=2)
        steps = make.ends(1, elapsed=30) + [make.poll(59)] + make.ends(1, elapsed=59) + [make.poll(59)]
        lines.build(*steps, make.packet(elapsed, n=5), slaves=2)
        lines.build(*make.ends(2, elapsed=40), make.poll(elapsed), make.poll(60), *make.of("left out"), slaves=2)


def times(lines):
    """Across the clock's wrap too; a clock that goes back by one."""
    make = lines.make
    for now in CLOCKS:
        for elapsed in ELAPSED:
            lines.build(make.packet(elapsed, n=5), *make.of("whole"), slaves=2, now=now)
            lines.build(make.packet(elapsed), make.poll(elapsed), *make.of("whole"), slaves=2, now=now)
            lines.build(make.poll(elapsed), make.packet(59, n=5), make.poll(elapsed), make.packet(60, n=4), slaves=2, now=now)
            for place in range(3):  # a reply in three packets, each of which may be late
                packets = make.joined(2, 1, 3)
                packets[place][1:3] = make.poll(elapsed)[1:3]
                lines.build(*packets, *make.of("whole"), slaves=2, now=now)
            lines.build(*make.front(2, 3), make.poll(elapsed), *make.of("whole"), slaves=2, now=now)
    for elapsed in (59, 60):
        for kind in KINDS:
            lines.build(make.poll(elapsed), *make.of(kind), *make.of("whole"), slaves=2)


def divisions(n):
    """The ways to divide so many words into packets."""
    return [[]] if n == 0 else [[size, *rest] for size in range(1, n + 1) for rest in divisions(n - size)]


def short_replies(lines):
    """Replies of few words in one packet and in every division, their number and FCS right or wrong; long remains before and behind them."""
    make = lines.make
    for n in range(1, 6):
        for sizes in divisions(n):
            for is_right, wrong in product((True, False), (0, 1, 0x8000)):
                given = dict(first=make.number if is_right else make.other(), wrong=wrong)
                packets = make.joined(*sizes, **given) if len(sizes) > 1 else [make.packet(n=n, **given)]
                lines.build(*packets, *make.of("END"), slaves=2)
            if len(sizes) > 1:  # what stands past a fragment stays: here some of it is an earlier slave's
                left = make.front(12, 3) + make.of("END after NEXT")[-1:]
                lines.build(*left, *make.joined(*sizes), *make.of("left out in packets"), *make.of("whole"), slaves=4)
                lines.build(*make.of("END after NEXT"), *make.joined(*sizes), slaves=3)  # seen before anything stands over it


def numbers(lines):
    """Numbers that go round, and numbers next to the right one or a bit away from it, in one packet and in several."""
    make, pick = lines.make, lines.make.pick
    for last in (0, 1, 0x00FF, 0x7FFF, 0x8000, 0xFFFE, 0xFFFF):
        number = (last + 1) % 65536
        for first in (number, last, (last + 2) % 65536, 0, 0xFFFF, number >> 8 | number << 8 & 0xFF00):
            lines.after(last)
            lines.build(make.packet(n=6, first=first), *make.joined(2, 3, first=first), *make.of("left out"), slaves=3)
        lines.after(last)
        lines.build(*make.of("late"), *make.of("END"), slaves=2)
    for bit in range(16):
        for kind in ("whole", "in packets"):
            first = make.number ^ 1 << bit
            packets = [make.packet(n=4, first=first)] if kind == "whole" else make.joined(1, 3, first=first)
            lines.build(*packets, *make.of("whole"), slaves=2)
    # the number of a reply in packets is that of its first packet, whatever the others begin with
    for sizes in ((1, 3), (3, 1), (1, 1, 2), (4, 4, 4)):
        packets = make.joined(*sizes, first=make.other())
        packets[0] = make.packet(bc=2, n=sizes[0])
        before = [word for packet in packets[:-1] for word in make.words_in(packet)]
        packets[-1] = make.packet(bc=1, n=sizes[-1], before=before, first=make.other())
        lines.build(*packets, slaves=pick.choice((1, 2)))


def lengths(lines):
    """Lengths with every BC, alone and behind packets; FCS, number and room against each other; counts that have no room in 16 bits."""
    make, pick = lines.make, lines.make.pick
    for n in (0, 1, 2, 3, 4, ROOM, ROOM + 1, AREA, AREA + 1, 40000):
        for bc in BCS:
            given = dict(bc=bc, n=n, seed=7, status=0x01A0)
            lines.build(make.packet(**given), *make.of(pick.choice(IN_ONE)), slaves=pick.choice((1, 2)))
            lines.build(*make.front(*pick.choice(((1,), (3, 2)))), make.packet(**given), *make.of("late"), slaves=2)
    for n in (ROOM, ROOM + 1, 40000):
        for is_right, wrong in product((True, False), (0, 1)):
            for sizes in ((n,), (5, n - 5)):
                given = dict(seed=7, wrong=wrong, first=make.number if is_right else make.other())
                lines.build(*make.joined(*sizes, **given) if len(sizes) > 1 else [make.packet(n=n, **given)])
    for n in (65528, 65529, 65530, 65535):
        for bc in range(4):
            lines.build(*make.front(2, 4), make.packet(bc=bc, n=n, seed=7))
        lines.build(*make.front(n, seed=7))
    for large in (6000, 6130, 6139, 6140, 12000):
        whole = [make.packet(n=n, seed=9, status=0) for n in (large, large, 100)]
        lines.build(*whole, slaves=3)
        halves = [make.joined(n // 2, n - n // 2, seed=9, status=0) for n in (large, large, 100)]
        lines.build(*halves[0], *halves[1], *halves[2], slaves=3)
        lines.build(*make.joined(*[large // 40] * 40, seed=9, status=0), *make.joined(1, large - 5, 1, seed=9), *make.of("whole"), slaves=3)


def room(lines):
    """To the word: the reply of a slave behind w words with k slaves left, that fits and that doesn't. What is left out takes no words."""
    make, pick = lines.make, lines.make.pick
    given = dict(seed=11, status=0x07E0)
    for k in (0, 1, 2, 11, 22):
        for before, w in (("nobody", 0), ("left out", 0), ("late", 2), ("errors", 4), ("other number", 5), ("large", 6000)):
            slaves = k + 1 + (before != "nobody")
            left = ROOM - 5 * k - w
            for over in (0, 1):
                replies = [lambda: [make.packet(n=left + over, **given)], lambda: [make.packet(n=left + over, first=make.other(), **given)]]
                for sizes in pick.sample(((1,), (100, 1), (5, left - 6), (left - 1,), (left - 2, 1)), 2):
                    replies.append(lambda sizes=sizes: make.joined(*sizes, left + over - sum(sizes), **given))
                # a first packet, or a middle one, that takes all the room there is, or a word more
                replies.append(lambda: make.front(left + over, **given) + (make.of(pick.choice(IN_PACKETS[1:]))[-1:] if not over else []))
                replies.append(lambda: make.front(3, left - 3 + over, **given) + ([make.packet(bc=pick.randrange(2), n=1)] if not over else []))
                for reply in replies:
                    front = [make.packet(n=w + 1, seed=9)] if before == "large" else make.of(before) if before != "nobody" else []
                    lines.build(*front, *reply(), *make.all_of([pick.choice(IN_ONE) for _ in range(k)]), slaves=slaves)


def left_outs(lines):
    """Every slave's bit, alone, among all and missing among all; and what stands behind a reply that is left out."""
    make, pick = lines.make, lines.make.pick
    for slave in range(24):
        lines.kinds(*["left out" if place == slave else pick.choice(("whole", "NEXT", "other number")) for place in range(24)])
        lines.kinds(*["left out" if place != slave else pick.choice(("whole", "NEXT", "other number")) for place in range(24)])
    for count in range(1, 25):
        lines.kinds(*[pick.choice(("left out", "left out", "left out in packets")) for _ in range(count)])
    for sizes in ((1, 2), (2, 1), (1, 1, 1)):
        for following in KINDS:
            lines.build(*make.joined(*sizes), *make.of(following), slaves=2)


def errors(lines):
    """Receive errors on a packet at each place, with each BC, with words and without; a late one isn't looked at."""
    make, pick = lines.make, lines.make.pick
    for value in ERRORS:
        for bc in range(4):
            for n in (0, 1, 3, 9):
                front = make.front(*pick.choice(((), (), (1,), (2, 1), (14, 5, 1))))
                elapsed = pick.choice((0, 59, 59, 60))
                lines.build(*front, make.packet(elapsed, value, bc, n), *make.of("whole"), *make.of(pick.choice(IN_ONE)), slaves=3)


def cut_short(lines):
    """Lines that end before their build does, and steps after its end."""
    make, pick = lines.make, lines.make.pick
    for count in (1, 2, 24):
        lines.build(slaves=count)
    for kind in KINDS:
        for count in range(3):
            lines.build(*make.of("whole"), *make.of(kind)[:count], slaves=3)
        lines.build(*make.of(kind), slaves=2)
        lines.build(*make.of(kind), *make.of("whole"), make.poll(60), *make.of("END"))
    for count in (2, 3, 10, 48):
        lines.build(*make.joined(*[1] * count))
        lines.build(*make.joined(*[1] * count, wrong=0x8000))
        lines.build(*make.joined(*[pick.choice((1, 2, 7, 200)) for _ in range(count)]))


def by_chance(lines):
    """Packets and polls in any order, mostly right."""
    make, pick = lines.make, lines.make.pick
    for _ in range(180):
        steps, before = [], []
        for _ in range(pick.randrange(1, 30)):
            if pick.randrange(12) == 0:
                steps.append(make.poll(pick.choice((0, 30, 59, 60, 61))))
                continue
            bc = pick.choice((0, 1, 1, 1)) if before and pick.randrange(8) else pick.choice((0, 1, 2, 2, 3, 3, 3))
            n = 0 if pick.randrange(6) == 0 else pick.choice((1, 1, 2, 3, 3, 4, 6, 17))
            first = make.number if pick.randrange(8) else make.other()
            given = dict(elapsed=60 if pick.randrange(20) == 0 else None, errors=int(pick.randrange(20) == 0), wrong=int(pick.randrange(10) == 0))
            step = make.packet(bc=bc, n=n, first=first, before=[] if bc & 2 else before, **given)
            before = [*([] if bc & 2 else before), *make.words_in(step)] if bc in (0, 2) else []
            steps.append(step)
        lines.build(*steps, slaves=pick.choice((1, 2, 3, 5, 9, 24)))


def inputs():
    lines = Lines()
    for part in (kinds_of_answers, no_event, asked_again, times, short_replies, numbers, lengths, room, left_outs, errors, cut_short, by_chance):
        part(lines)
    return "".join(line_of(line) for line in lines.lines)


def steps_of(line):
    return [line[at:at + STEP] for at in range(HEAD, len(line) - STEP + 1, STEP)]


def answered(build, step):
    now = step[1] << 16 | step[2]
    if step[0] == 1:
        return build.poll(now)
    n, seed, first, status, last = step[7:]
    return build.reply(now, *step[3:7], made(n, seed, status, last, first))


def told(build, answer):
    """What is printed of an answer to a step."""
    if answer[0] == "read":
        return "A%d:%d:%d:%d:%06x" % (answer[1], build.kept.times, build.kept.words, build.kept.tally, build.kept.left_out)
    if answer[0] == "next":
        return "N%d:%d:%04x" % (answer[1], build.kept.received, build.kept.rx_status)
    if answer[0] == "built":
        return "E%d:%d" % (answer[1], build.area[answer[1] - 2] >> 9 & 1)
    return {"waiting": "W", "no event": "O"}[answer[0]]


def outputs(stdin):
    printed = []
    for text in stdin.splitlines():
        line, area = words_of(text), [MARK] * BUFFER
        build = Build(area, line[0] << 16 | line[1], line[2], line[3], line[4] << 16 | line[5])
        items = ["A%d:%d" % (build.answer[1], build.kept.times)]
        for step in steps_of(line):
            answer = answered(build, step)
            items.append(told(build, answer))
            if answer[0] in ("built", "no event"):
                break
        printed.append(" ".join(items + ["%08x" % digest(area)]) + "\n")
    return "".join(printed)
