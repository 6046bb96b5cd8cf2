"""Scripts on slaves that answer in packets (02, request 8)."""

from group import AREA, END, ERROR, NEXT, slaves_of
from node import CDDC, CDP
from node_lines import BUFFER, PENDING_NOTHING, POLL, REPLY, halves
from script import Run, command
from scripts_slaves import IN_PACKETS, ONE_PACKET, ask, between, ends_in_packets, high, mask_of, room_left, sends_front, slave_answers, slave_run
from scripts_slaves import under_way

FIRST, MIDDLE, LAST, WHOLE = 0b10, 0b00, 0b01, 0b11
SHOWN = 16  # the reply buffer's digest
CLOCKS = (0, 1, 0x7FFFFFFF, 0x80000000, 0xFFFFFFC4, 0xFFFFFFC5, 0xFFFFFFF0, 0xFFFFFFFF)


def asked(s):
    return s.node.pending.slave


def rest_answers(s, kinds):
    """The slaves yet to ask answer, and the group ends."""
    while s.node.pending:
        slave_answers(s, asked(s), s.pick.choice(kinds))


def filled(s, reply=AREA):
    """A fresh node, with any words in the buffer."""
    s.fresh(CDDC, s.pick.randrange(1, 5), tests=s.pick.choice((0, 0x0400)), reply=reply)
    s.fill(BUFFER, 12304, s.pick.randrange(65536))


def every_end(s):
    """Each way to end a reply at each place, of a sole slave, and of the first, a middle and the last one of several."""
    filled(s, 12304)
    for kind in IN_PACKETS:
        for count in range(1, 6):
            for place, slaves in ((0, 1), (0, 3), (1, 3), (2, 3)):
                ask(s, mask_of(s, slaves), s.pick.randrange(s.node.ports))
                for _ in range(place):
                    slave_answers(s, asked(s), s.pick.choice(ONE_PACKET))
                if sends_front(s, asked(s), s.pick.choices((1, 2, 3, 20), k=count), SHOWN):
                    ends_in_packets(s, asked(s), kind, show=SHOWN)
                rest_answers(s, ONE_PACKET)
                s.digest(BUFFER, 0, 12304)
    s.state()


def single_words(s):
    """Packets of one word: replies of two words on, right and wrong, and a great many."""
    filled(s)
    for count in (1, 2, 3, 4, 30):
        for kind in ("in packets", "joined FCS", "first again", "late after NEXT"):
            ask(s, 1 << s.pick.randrange(24))
            if sends_front(s, asked(s), [1] * count, SHOWN):
                ends_in_packets(s, asked(s), kind, 1, SHOWN)
    s.state()


def whole_or_divided(s):
    """Equal joined words in one packet and in several give equal fragments if either gives code 0; so do those that are as long as there
    is room, and a word more gives 2 or A."""
    filled(s)
    for length in (2, 3, 10, 300, 6000, 12273, 12274, 12275):
        words = slave_run(s, length, seed=7)
        for cuts in ((), (1,), (length - 1,), (1, length - 1), (length // 2,), (1, length // 2)):
            s.fill(BUFFER, 12304, 0x5A5A, 0)
            ask(s, mask_of(s, 2))
            slave_answers(s, asked(s), "two")
            s.set_group(0, asked(s), s.clock, s.node.pending.group.asked, 1, 12, 5)
            ends = [end for end in sorted({*cuts, length}) if 0 < end]
            for at, end in zip([0, *ends], ends):
                if s.node.pending:
                    bc = (FIRST if at == 0 else 0) | (LAST if end == length else 0)
                    s.reply(asked(s), part_of(words, at, end), high(s) | bc, show=SHOWN)
    s.state()


def part_of(run, at, end):
    """Words of a run that has no front, from a place to another, as a run."""
    words = run.words()
    inside = max(min(end, run.count) - at, 0)
    return Run([], inside, words[at] if inside else 0, words[max(at, run.count):end])


def packet_room(s):
    """Packets that just fit and that just don't: first, middle and last ones, alone and with slaves yet to ask."""
    filled(s)
    for left in (0, 1, 22):
        for before in ("END", 40, 6000):
            for front in ((), (1,), (5, 4000)):
                for bc in (FIRST,) if not front else (MIDDLE, LAST):
                    for over in (-1, 0, 1):
                        ask(s, mask_of(s, left + 2))
                        if isinstance(before, int):
                            slave_answers(s, asked(s), "whole", before)
                        else:
                            slave_answers(s, asked(s), before)
                        sends_front(s, asked(s), front)
                        words = slave_run(s, room_left(s) + over, seed=7, before=under_way(s))
                        s.reply(asked(s), words, high(s) | bc, show=SHOWN)
                        at_the_limit(s)
                        rest_answers(s, ("wrong FCS", "errors", "two", "END", "late", "late after NEXT", "first again"))
    s.state()


def at_the_limit(s):
    """Where a reply under way has all its room, or all but a word: one word more, or the end in another way."""
    pick = s.pick
    if not s.node.pending or not under_way(s):
        return
    if pick.randrange(2):
        s.reply(asked(s), slave_run(s, pick.choice((1, 1, 2)), before=under_way(s)), high(s) | pick.randrange(2), show=SHOWN)
    if s.node.pending and under_way(s):
        ends_in_packets(s, asked(s), pick.choice(IN_PACKETS), 1, SHOWN)


def long_counts(s):
    """Words received that 16 bits do not count."""
    filled(s)
    for front in ((), (1,), (3, 2)):
        for length in (65529, 65530, 65534, 65535, 65536, 65540):
            for bc in (FIRST,) if not front else range(4):
                ask(s, mask_of(s, s.pick.choice((1, 2))))
                sends_front(s, asked(s), front)
                s.reply(asked(s), Run([], length, 7), bc, show=SHOWN)
                rest_answers(s, ("END", "two"))


def packet_times(s):
    """60 ticks anew for each packet, across the clock's wrap: each place late or in time, by a reply and by a poll."""
    filled(s)
    for at in CLOCKS:
        for place in range(4):
            for elapsed in (0, 59, 60, 61, 2**31, 2**32 - 1):
                for by_poll in (False, True):
                    s.set_group(0, 3, at, 0b11000)
                    for count in range(place):  # each as late as it may be
                        reply_at(s, 59, slave_run(s, s.pick.choice((1, 2))), MIDDLE if count else FIRST)
                    if by_poll:
                        s.call(POLL, SHOWN, *halves((s.node.pending.at + elapsed) % 2**32))
                    if asked(s) == 3:
                        words = slave_run(s, 3, before=under_way(s))
                        reply_at(s, elapsed, words, s.pick.choice((MIDDLE, LAST) if place else (FIRST, WHOLE)), s.pick.choice((0, 0, 1)))
                    s.set(PENDING_NOTHING)


def reply_at(s, elapsed, words, bc, error=0):
    """A reply so many ticks after the slave was asked, or sent NEXT."""
    clock = (s.node.pending.at + elapsed) % 2**32
    s.call(REPLY, SHOWN, *halves(clock), *halves(asked(s)), bc, error, *s.anything(2), *words.line())


def packet_errors(s):
    """Receive errors at each place, with what they count: up to FFFF, none for a packet that is late."""
    for count in (0, 7, 0xFFFE, 0xFFFF):
        filled(s)
        s.set("amswire", count)
        for place in range(4):
            for late in (False, True):
                for words in (0, 1, 4, 13000):
                    ask(s, mask_of(s, 2))
                    sends_front(s, asked(s), [2] * place)
                    if late:
                        s.tick(60)
                    s.reply(asked(s), Run([], words, 9), s.pick.randrange(4), s.pick.choice((1, 2, 0x100, 0xFFFF)), show=SHOWN)
                    rest_answers(s, ("END", "errors after NEXT", "in packets"))
        s.state()


def leftovers(s):
    """What stands past a failed reply's fragment: it stays, and the next ones are laid over it, shorter and longer."""
    for kind in IN_PACKETS[1:]:
        for following in ("END", "errors", "one word", "two", "in packets", "late after NEXT", "joined FCS"):
            filled(s, 12288 + s.pick.randrange(17))
            ask(s, mask_of(s, 4))
            for place, each in enumerate((kind, following, "two", "END")):
                slave = asked(s)
                if place < 2 and each in IN_PACKETS:
                    if sends_front(s, slave, (30, 12) if place == 0 else (3, 4), SHOWN):
                        ends_in_packets(s, slave, each, show=SHOWN)
                else:
                    slave_answers(s, slave, each)
                s.digest(BUFFER, 0, 12304)


def everyone_in_packets(s):
    """All slaves of a group, all right, or some of them wrong; and a group behind another."""
    filled(s)
    for turn in range(14):
        mask = (1 << 24) - 1 if turn % 2 else mask_of(s, s.pick.randrange(1, 12))
        ask(s, mask)
        while s.node.pending:
            kind = "in packets" if turn < 6 or s.pick.randrange(5) else s.pick.choice(IN_PACKETS)
            if sends_front(s, asked(s), s.pick.choices((1, 2, 3, 100), k=s.pick.randrange(1, 5))):
                ends_in_packets(s, asked(s), kind)
    s.state()


def dropped_between(s):
    """Its own link drops the request while a reply is under way, and the buffer stays; other links don't; the next group begins anew."""
    pick = s.pick
    for turn in range(40):
        filled(s, 12300)
        link = pick.randrange(s.node.ports)
        ask(s, mask_of(s, pick.choice((1, 2, 5))), link)
        if turn % 2:
            slave_answers(s, asked(s), pick.choice(("END", "two")))
        if not s.node.pending:
            continue
        sends_front(s, asked(s), pick.choices((1, 6, 500), k=pick.randrange(1, 4)))
        s.request([], (link + 1) % s.node.ports if s.node.ports > 1 else link, pick.choice((0, 1, 3)), show=SHOWN)
        s.request(command(0x0C), link, show=SHOWN)
        s.request([], link, 2, 1, SHOWN)
        s.request([], link, pick.choice((2, 6)), show=SHOWN)
        s.reply(pick.randrange(24), slave_run(s, 3), LAST, show=SHOWN)
        s.poll()
        ask(s, mask_of(s, 2), pick.randrange(s.node.ports))
        rest_answers(s, ("in packets", "joined FCS", "whole"))


def between_packets(s):
    """Between packets: erase progress, polls, requests without words, other slaves, a File Write that stands, refused requests."""
    pick = s.pick
    for turn in range(30):
        filled(s)
        s.request(command(0x47, pick.choice((0x0200, 0x1C00))))
        if turn % 2:
            s.request(command(0x45, *s.anything(3)), s.node.ports - 1, FIRST)
        ask(s, mask_of(s, pick.choice((1, 3, 6))), 0)
        while s.node.pending:
            sizes = pick.choices((1, 2, 9, 200), k=pick.randrange(1, 5))
            if sends_front(s, asked(s), sizes, between=lambda s: [between(s) for _ in range(pick.randrange(5)) if s.node.pending]):
                ends_in_packets(s, asked(s), pick.choice(IN_PACKETS))
        s.state()


def kept_replies(s):
    """Replies under way that no start leads to: any words received and built, up to the last that pass, any words in the buffer and a CDP,
    the buffer changed between packets."""
    pick = s.pick
    for turn in range(300):
        if turn % 30 == 0:
            s.fresh(pick.choice((CDP, CDDC)), pick.randrange(1, 5), tests=pick.choice((0, 0x0F00)), reply=pick.choice((AREA, 12304)))
            s.fill(BUFFER, 12304, pick.randrange(65536))
        mask = mask_of(s, pick.randrange(1, 6))
        slave = pick.choice(slaves_of(mask))
        left = len([other for other in slaves_of(mask) if other > slave])
        words = pick.choice((0, 1, 5, 300, 12000, AREA - 5 * (left + 1) - 2))
        most = AREA - 2 - 5 * left - words
        received = min(most, pick.choice((1, 2, 5, 40, 250, most - 1, most)))
        s.set_group(pick.randrange(s.node.ports), slave, s.clock, mask, pick.choice((1, 2)), words, turn % 7, received, pick.randrange(65536))
        if pick.randrange(2):
            s.poke(BUFFER, words + pick.choice((0, 1, 1, received)), s.anything(pick.choice((1, 2))))
        ends_in_packets(s, slave, IN_PACKETS[turn % 7], show=SHOWN)
        while s.node.pending:
            slave_answers(s, asked(s))


def received_ranges(s):
    """What refusal 5 says of words received, to the word, in every call: behind few words and many, with slaves yet to ask and none; and an
    RX status where none are received."""
    filled(s)
    for mask in (1 << 5, 0b11 << 5, 0xFFFFE0):
        left = len(slaves_of(mask)) - 1
        for words in (0, 300, AREA - 5 * (left + 1) - 2):
            most = AREA - 2 - 5 * left - words
            for received in (0, 1, most - 1, most, most + 1, most + 2, AREA, 65536, 2**31, 2**32 - words, 2**32 - 1):
                for rx_status in (0, 1, 0xFFFF):
                    s.set_group(0, 5, s.clock, mask, 2, words, 6, received % 2**32, rx_status)
                    s.request([7], 0, show=SHOWN)
                    s.request([], 0, 3, show=SHOWN)
                    s.reply(4, [7], show=SHOWN)
                    s.erase(1)
                    s.poll(SHOWN)
                    s.set(PENDING_NOTHING)


def not_of_a_group(s):
    """A single slave's packet passes whatever its BC is, and ends it."""
    filled(s)
    for length in (1, 2, 9, 12286, 12287, 12288, 12289):
        for bc in (FIRST, MIDDLE, LAST, 0xFFFE):
            s.request([0x0405, 0x0C2E], s.pick.randrange(s.node.ports))
            s.reply(5, slave_run(s, length, seed=7), bc, show=SHOWN)
            s.reply(5, slave_run(s, 2), LAST, show=SHOWN)
    for bc in (NEXT, ERROR, END):
        s.request([0x0405, 0x0C2E])
        s.reply(5, [], bc, show=SHOWN)
        s.poll()
