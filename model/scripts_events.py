"""Scripts on event builds at the node (02, request 12): what begins one and what excludes it, the event area, the event that is handed out, its
number and its errors, and what a state keeps of it. How answers become fragments is mostly left to the vectors of builds by themselves."""

from itertools import product

from event import Building
from group import AREA, END, LIMIT, slaves_of
from node import CDDC, CDP
from node_lines import BUFFER, EVENTS, MASK, PENDING_NOTHING
from script import SHOW_EVENTS, Run, command
from scripts_series import packet, send
from scripts_slaves import answers_late, high, mask_of

FIRST, MIDDLE, LAST, WHOLE = 0b10, 0b00, 0b01, 0b11
LENT = 12304  # words of the event area, at most
SHOWN = SHOW_EVENTS
READ, NUMBER, RESET, STATUS = command(0x01), command(0x02), command(0x42), command(0x0C)
ZEROS = {"NEXT": 0, "ERROR": 1, "ABORT": 2, "END": 3}
WITHOUT_DATA = ("late", "errors", *ZEROS)
WITH_DATA = ("whole", "left out", "another number", "wrong FCS", "short", "BC1 clear", "in packets", "left out in packets", "another in packets",
             "empty after NEXT", "late after NEXT")
KINDS = WITHOUT_DATA + WITH_DATA + ("whole", "whole", "left out")


def building(s):
    return isinstance(s.node.pending, Building)


def number(s):
    """Of the event that is built."""
    return (s.node.event + 1) % 65536


def set_mask(s, mask):
    """By the command, or in the state."""
    if s.node.kind == CDDC and s.pick.randrange(2):
        return s.request(command(0x57, mask >> 16, mask & 0xFFFF))
    return s.set(MASK, mask)


def reply_of(s, length, first=None, good=True, status=None):
    """A slave's reply of a length, three words or more, with an event number first and mostly a right FCS."""
    first = number(s) if first is None else first
    status = s.pick.randrange(65536) if status is None else status
    words = Run([first], length - 3, 7 if length > 300 else s.pick.randrange(65536), [status]).sealed()
    if not good:
        words.back[-1] ^= 1 << s.pick.randrange(16)
    return words


def other(s):
    return (number(s) + s.pick.choice((-1, 1, 0x8000, 0x100))) % 65536


def in_packets(s, slave, words, *cuts):
    """A reply in packets that end at some places and at its own end; what the last is answered."""
    words = words.words()
    for at, end in zip((0, *cuts), (*cuts, len(words))):
        bc = (FIRST if at == 0 else 0) | (LAST if end == len(words) else 0)
        answer = s.reply(slave, words[at:end], high(s) | bc, show=SHOWN)
    return answer


def answers(s, kind=None):
    """An answer of the slave that is asked, of one kind; END is answered until it counts."""
    pick, slave = s.pick, s.node.pending.slave
    kind = pick.choice(KINDS) if kind is None else kind
    if kind == "END":
        again = 3 - s.node.pending.times
        for _ in range(again):
            s.reply(slave, [], high(s) | END)
    if kind in ZEROS:
        return s.reply(slave, [], high(s) | ZEROS[kind])
    if kind == "late":
        return answers_late(s, slave, not pick.randrange(3))
    if kind == "errors":
        return s.reply(slave, s.anything(pick.randrange(4)), pick.randrange(4), pick.choice((1, 0x100, 0xFFFF)))
    if kind == "short":
        return s.reply(slave, [number(s), *s.anything(1)][:pick.randrange(1, 3)], high(s) | WHOLE)
    if kind == "BC1 clear":
        return s.reply(slave, reply_of(s, 5), high(s) | pick.randrange(2))
    if kind == "left out":
        return s.reply(slave, reply_of(s, 3), high(s) | WHOLE)
    if kind == "left out in packets":
        return in_packets(s, slave, reply_of(s, 3), *pick.choice(((1,), (2,), (1, 2))))
    if kind in ("in packets", "another in packets"):
        return in_packets(s, slave, reply_of(s, 7, other(s) if kind[0] == "a" else None), *pick.choice(((1,), (4,), (6,), (2, 5))))
    if kind.endswith("after NEXT"):
        s.reply(slave, [number(s), *s.anything(2)], high(s) | FIRST)
        return answers_late(s, slave) if kind[0] == "l" else s.reply(slave, [], pick.randrange(4))
    length = pick.choice((4, 5, 9, 40))
    return s.reply(slave, reply_of(s, length, other(s) if kind == "another number" else None, kind != "wrong FCS"), high(s) | WHOLE, show=SHOWN)


def all_answer(s, *kinds):
    """The slaves answer, one kind each, those left over any, and the build ends."""
    kinds = list(kinds)
    while building(s):
        answers(s, kinds.pop(0) if kinds else None)


def filled(s, kind=CDDC, events=AREA, **given):
    """A fresh node with any words in event area and reply buffer."""
    s.fresh(kind, s.pick.randrange(1, 5), tests=s.pick.choice((0, 0x0400)), events=events, **given)
    for memory in (EVENTS, BUFFER):
        s.fill(memory, 12304, s.pick.randrange(65536))


def built(s, slaves=2):
    """A build of an event with data, which stays unread."""
    set_mask(s, mask_of(s, slaves))
    s.build()
    all_answer(s, "whole")


def begun(s):
    """A build that is pending, of slaves 5 and 7, with nothing done."""
    s.set("unread", 0)
    s.set(PENDING_NOTHING)
    s.set(MASK, 0xA0)
    s.build(0)


# Scripts.


def build_kinds(s):
    """Each kind of answer of a sole slave, and of the first and the last of several; what is built is read, and read again."""
    filled(s, events=LENT)
    for kind in WITHOUT_DATA + WITH_DATA:
        for place, slaves in ((0, 1), (0, 3), (2, 3)):
            set_mask(s, mask_of(s, slaves))
            s.build()
            all_answer(s, *[s.pick.choice(KINDS) for _ in range(place)], kind)
            s.digest(EVENTS, 0, LENT)
            s.request(READ, s.pick.randrange(s.node.ports), show=16 | SHOWN)
            s.request(READ)
    for _ in range(12):
        set_mask(s, mask_of(s, s.pick.choice((5, 9, 24))))
        s.build()
        all_answer(s)
        s.request(s.pick.choice((READ, READ, RESET)))
    s.ends()


def build_masks(s):
    """Mask 0 alone decides, and each slave can be the lowest: it is asked, however the others are."""
    filled(s)
    for slave in range(24):
        s.set(MASK, 1 << slave)
        s.build()
        s.reply(slave, reply_of(s, 3), show=SHOWN)
        s.request(READ, show=16)
    for mask in (0xFFFFFF, 0x800001, 0x0000A0, 0xF00000):
        set_mask(s, mask)
        s.set(MASK, 0x123456, 1)
        s.build()
        for slave in slaves_of(mask):
            s.reply((slave + 1) % 24, [])  # another one, which is refused
            s.reply(slave, reply_of(s, 4))
        s.request(READ)
    s.state()


def build_aborts(s):
    """No build of a CDP, with mask 0 empty, or with an event unread: ABORT, and nothing changes."""
    for kind, mask, unread in product((CDP, CDDC), (0, 0xA0, 0xFFFFFF), (0, 1, 5, AREA)):
        filled(s, kind)
        s.set(MASK, mask)
        s.set(MASK, 0xFFFFFF, 1)
        s.set("unread", unread)
        s.build(SHOWN)
        s.state()
        if building(s):
            all_answer(s)
            s.build()


def event_lengths(s):
    """The event area is long enough, or 11 comes behind 9 and before 4, 5, 6 and 7, in every call that is lent it."""
    row = [packet(STATUS), packet(READ)]
    for events in (0, 1, AREA - 1, AREA, AREA + 1, LENT):
        for mode, link, slave, qlist, reply in product((0, 4), (0, 9), (5, 24), (70, 7 * 911), (AREA, AREA - 1)):
            if sum((mode == 4, link == 9, slave == 24, qlist != 70, reply != AREA)) > 1:
                continue  # one cause more is enough
            filled(s)
            begun(s)
            s.set("mode", mode)
            s.lend(events=events, qlist=qlist, reply=reply)
            s.build(0)
            s.poll(0)
            s.reply(slave, reply_of(s, 4), show=SHOWN)
            s.request(STATUS, link)
            s.request([], link, 2)
            s.lend(events=events, qlist=qlist, reply=16400 if reply == AREA else reply)
            send(s, row)
            s.erase(1, 0)
            s.set("mode", 0)
            s.set_slave(0, 5, s.clock)  # what is pending is no build, and the area is tested all the same
            s.poll(0)
            s.set_group(0, 5, s.clock, 0xA0)
            s.poll(0)
            s.reply(slave, [], 0, show=0)
    s.state()


def read_events(s):
    """Read Event hands out what stands in the area, as many words as are unread, once; number and reset; each without parameters."""
    for kind, unread in product((CDP, CDDC), (0, 1, 4, 5, 16, 17, 300, AREA)):
        filled(s, kind, events=s.pick.choice((AREA, LENT)), reply=s.pick.choice((AREA, LENT)))
        s.set("unread", unread)
        s.set("event", s.pick.choice((0, 1, 0xFFFF, 0x1234)))
        for words in (NUMBER, [*READ, 0], [*NUMBER, 0], [*RESET, 0], [*READ, *s.anything(3)], STATUS):
            s.request(words, s.pick.randrange(s.node.ports), show=16)
        s.request(READ, show=16 | SHOWN)
        s.request(NUMBER)
        s.request(READ, show=16)
        s.set("unread", unread)
        s.set("build_errors", s.pick.choice((0, 1, 0xFFFF)))
        s.request(RESET, show=16 | SHOWN)
        for words in (READ, NUMBER, STATUS):
            s.request(words)
        s.state()


def read_meanwhile(s):
    """The commands go on while a sector is erased and while a file comes in packets; what is unread stays through every other call."""
    filled(s)
    s.request(command(0x45, *s.some_file(0x21)))
    s.request(command(0x47, 0x0211))
    s.request(command(0x45, *s.anything(3)), s.node.ports - 1, FIRST)
    for _ in range(3):
        built(s)
        s.erase(100, 0)
        s.slow()
        s.request(STATUS)
        if s.node.ports > 1:
            s.request(NUMBER)
            s.request(s.pick.choice((READ, RESET)))
        s.request(s.anything(2), s.node.ports - 1, MIDDLE)
        s.set("unread", 0)
    s.start()
    s.request(NUMBER)
    s.state()
    built(s)
    s.start(0)  # refused: the zeros that it hands back are no state
    s.build()
    s.start()
    s.request(READ)
    s.state()


def event_series(s):
    """Read Event in a list of requests: the event behind two words, as often as one is built; it needs room as any other."""
    for words in (5, 16, 300, 12000, AREA):
        for reply in (12290, 12292, 16400):
            filled(s, reply=reply)
            s.set("unread", words)
            s.set("event", s.pick.randrange(65536))
            send(s, [packet(NUMBER), packet(READ), packet(READ, 0, s.pick.choice((WHOLE, FIRST))), packet(STATUS)])
            send(s, [packet(READ), packet(RESET), packet(NUMBER)])
    filled(s, reply=16400)
    begun(s)
    send(s, [packet([], 0, 2), packet([], 0, 3), packet(READ)])
    all_answer(s, "whole", "left out")
    send(s, [packet(READ), packet(NUMBER)])
    s.ends()


def event_counts(s):
    """Numbers that go round and stay; errors that stop at FFFF; status words 7 and 8 with bit 14."""
    filled(s)
    for event, errors in product((0, 1, 0x7FFF, 0xFFFE, 0xFFFF), (0, 1, 0xFFFE, 0xFFFF)):
        for kinds in (("whole", "left out"), ("whole", "late"), ("left out", "left out"), ("late", "END"), ("short", "errors")):
            s.set("event", event)
            s.set("build_errors", errors)
            s.set("unread", 0)
            s.set(MASK, 0x800001)
            s.build()
            all_answer(s, *kinds)
            s.request(STATUS, s.pick.randrange(s.node.ports))
            s.request(NUMBER)
    s.set("amswire", 0)
    s.set("flash_errors", 0)
    for errors in (0, 1, 0x8000):
        s.set("build_errors", errors)
        s.request(STATUS)
    s.state()


def exclusion(s):
    """While a slave, a group or a build is pending no request with words and no build begins; no link drops a build."""
    for pending in ("slave", "group", "build"):
        for kind, unread, write in product((CDDC, CDP), (0, 9), (None, 0, 1)):
            s.fresh(kind, 2)
            s.set(MASK, 0xA0)
            s.set_write(write, 3)
            s.set("unread", unread)
            if pending == "slave":
                s.set_slave(0, 5, s.clock)
            elif pending == "group":
                s.set_group(0, 5, s.clock, 0xA0)
            else:
                s.set_build(5, s.clock, 0xA0)
            s.build()
            for words, bc in ((STATUS, 3), ([7], 2), ([7], 0), ([0x002A, 0x0C2E], 3), (READ, 3), (RESET, 3)):
                s.request(words, s.pick.randrange(2), bc)
            for link, bc in product((1, 0), (3, 1, 0, 2)):
                s.request([], link, high(s) | bc)
            s.request([], 1, 2, 1)
            s.state()
            s.build()
            s.poll()
            s.reply(5, reply_of(s, 4))
            s.reply(7, reply_of(s, 4))
    s.ends()


def build_errors(s):
    """Receive errors are counted before the timeout alone; the AMSWire count stops at FFFF too."""
    filled(s)
    for amswire in (0, 1, 0xFFFE, 0xFFFF):
        for elapsed, error in product((0, 59, 60), (0, 1, 0x8000)):
            begun(s)
            s.set("amswire", amswire)
            s.reply(5, [number(s), 2], FIRST)
            s.tick(elapsed)
            s.reply(5, s.anything(2), LAST, error, show=SHOWN)
            s.tick(elapsed)
            s.reply(7, [], WHOLE, error, show=SHOWN)
            s.set(PENDING_NOTHING)
    s.state()


def build_times(s):
    """Asked again, sent NEXT and asked next, each slave has 60 ticks anew, across the clock's wrap too."""
    filled(s)
    for clock in (0, 0x7FFFFFFF, 0xFFFFFFC4, 0xFFFFFFC5, 0xFFFFFFFF):
        for elapsed in (0, 1, 59, 60, 61, 2**31, 2**32 - 1):
            s.clock = clock
            begun(s)
            for _ in range(2):
                s.tick(elapsed)
                s.poll(0)
                s.reply(5, [], END, show=0)  # refused where the slave was late
            for words, bc in (([number(s), 1], FIRST), ([2], MIDDLE)):
                s.tick(elapsed)
                s.reply(5, words, bc, show=0)
            s.tick(LIMIT - 1)
            s.poll(0)
            s.tick(1)
            s.poll(0)
            s.set(PENDING_NOTHING)
    s.state()


def build_room(s):
    """To the word, from a state with so many words built: a reply that fits and one that doesn't, in one packet and in several."""
    filled(s, events=LENT)
    for words, left in product((0, 1, 100, 6000, AREA - 20), (0, 1, 3)):
        room = AREA - 5 - 5 * left - words
        asked = sum(1 << 5 + place for place in range(left + 1))
        for over in (0, 1):
            for cut in (0, 1, room + over - 1):
                if room + over < 4 or cut >= room + over:
                    continue
                s.set("unread", 0)
                s.set_build(5, s.clock, asked, words, s.pick.choice((1, 5, 6)) if words else 0, left_out=s.pick.choice((0, 1, 0x800000)))
                run = reply_of(s, room + over)
                if cut == 0:
                    s.reply(5, run, WHOLE, show=SHOWN)
                else:
                    front = Run(run.front, min(cut - 1, run.count), run.seed, run.back[:max(cut - 1 - run.count, 0)])
                    s.reply(5, front, FIRST, show=SHOWN)
                    rest = run.words()[cut:]
                    s.reply(5, rest if len(rest) < 100 else Run([], len(rest), 7), LAST, show=SHOWN)
                while building(s):
                    s.reply(s.node.pending.slave, [9, 9], WHOLE, show=SHOWN)
    s.set_build(7, s.clock, 0x80, AREA - 10, 5)
    s.reply(7, [9], show=SHOWN)
    s.request(READ, show=16)
    s.ends()


def build_ranges(s):
    """What a state keeps of a build, in and out of range, in every call."""
    good = (
        {}, {"times": 2}, {"times": 3}, {"tally": 1}, {"tally": 5}, {"tally": 6}, {"left_out": 0xFFFFFF}, {"left_out": 0xA0}, {"words": AREA - 15},
        {"received": AREA - 10}, {"received": 1, "rx_status": 0xFFFF}, {"slave": 7}, {"slave": 7, "words": AREA - 10},
        {"slave": 7, "received": AREA - 5}, {"slave": 7, "words": 100, "received": AREA - 105},
    )
    bad = (
        {"times": 0}, {"times": 4}, {"times": 255}, {"left_out": 0x1000000}, {"left_out": 0xFFFFFFFF}, {"words": AREA - 14}, {"words": 2**32 - 1},
        {"received": AREA - 9}, {"received": 2**32 - 1}, {"rx_status": 1}, {"rx_status": 0x8000}, {"slave": 7, "words": AREA - 9},
        {"slave": 7, "received": AREA - 4}, {"slave": 7, "words": 100, "received": AREA - 104}, {"slave": 6}, {"slave": 24}, {"slave": 255},
        {"asked": 0x10000A0}, {"asked": 0x80}, {"asked": 0},
    )
    for kind, fields in product((CDDC, CDP), good + bad):
        filled(s, kind)
        given = {"slave": 5, "asked": 0xA0, **fields}
        s.set_build(at=s.clock, **given)
        s.poll()
        s.erase(1, 0)
        s.slow()
        s.build()
        s.request(STATUS)
        s.request([], 0, 2)
        s.reply(given["slave"], [], 0)
        s.reply(7, reply_of(s, 4), show=SHOWN)
        s.state()
    for unread in (0, 1, AREA, AREA + 1, 2**32 - 1):
        for pending in (False, True):
            filled(s)
            s.set(MASK, 0x80)
            if pending:
                s.set_build(7, s.clock, 0x80, tally=s.pick.choice((0, 1)))
            s.set("unread", unread)
            s.build()
            s.poll()
            s.request([], 0, 3)
            s.reply(7, reply_of(s, 4) if s.pick.randrange(2) else [], s.pick.choice((0, 3)))
            s.request(READ, show=16)
            s.state()


def event_soup(s):
    """Any calls, builds among them, on nodes that have many events."""
    pick = s.pick
    for _ in range(30):
        filled(s, pick.choice((CDDC, CDDC, CDDC, CDP)))
        for _ in range(40):
            link = pick.randrange(s.node.ports)
            if building(s) and pick.randrange(8):
                answers(s)
                continue
            pick.choice([
                lambda: s.build(),
                lambda: s.build(),
                lambda: s.build(),
                lambda: set_mask(s, mask_of(s, pick.choice((1, 2, 3, 5)))),
                lambda: s.request(pick.choice((READ, READ, NUMBER, RESET, STATUS)), link),
                lambda: s.request([], link, pick.choice((2, 2, 0, 1, 3))),
                lambda: s.request([0x3F05, 0x0C2E], link),
                lambda: s.request(command(0x45, *s.anything(2)), link, 2),
                lambda: s.poll(),
                lambda: (s.tick(60), s.poll()),
                lambda: s.reply(s.node.pending.slave if s.node.pending else 5, s.anything(pick.randrange(4))),
                lambda: s.slow(),
                lambda: s.erase(1, 0),
            ])()
        s.state()
    s.ends()
