"""Scripts on slaves: groups and single slaves with answers of every kind."""

from group import ABORT, AREA, END, ERROR, NEXT
from node import CDDC, CDP
from node_lines import BUFFER, PENDING_NOTHING, POLL, REPLY, halves
from runs import check_sequence
from script import Run, command
from scripts_requests import dropped

ZEROS = {"NEXT": NEXT, "ERROR": ERROR, "ABORT": ABORT, "END": END}
ONE_PACKET = ("late", "late errors", "errors", *ZEROS, "BC1 clear", "one word", "wrong FCS", "whole", "whole", "whole", "two")
IN_PACKETS = ("in packets", "late after NEXT", "empty after NEXT", "first again", "no room for a packet", "joined FCS", "errors after NEXT")
KINDS = ONE_PACKET + IN_PACKETS + ("in packets",)


def slave_run(s, length, good=True, seed=None, status=None, before=()):
    """A slave's data reply of a length, or the rest of one behind other words, mostly with a right FCS over them all."""
    pick = s.pick
    status = pick.randrange(65536) if status is None else status
    if length == 0:
        return Run()
    words = Run([], max(length - 2, 0), pick.randrange(65536) if seed is None else seed, [status] if length > 1 else [])
    words.back.append(check_sequence([*before, *words.words()]) if length > 1 or before else pick.randrange(65536))
    if not good:
        words.back[-1] ^= 1 << pick.randrange(16)
    return words


def high(s):
    """Higher bits of BC, which don't count."""
    return s.pick.choice((0, 0, 0, 4, 0xFFFC))


def slave_answers(s, slave, kind=None, length=None):
    """An answer of a slave, of one kind."""
    pick = s.pick
    kind = pick.choice(KINDS) if kind is None else kind
    if kind in IN_PACKETS:
        return answers_in_packets(s, slave, kind)
    length = pick.choice((2, 3, 4, 5, 7, 12, 40)) if length is None else length
    if kind.startswith("late"):
        return answers_late(s, slave, kind != "late")
    if kind == "errors":
        return s.reply(slave, s.anything(pick.randrange(4)), pick.randrange(4), pick.choice((1, 2, 0x100, 0xFFFF)))
    if kind in ZEROS:
        return s.reply(slave, [], high(s) | ZEROS[kind])
    if kind == "BC1 clear":
        return s.reply(slave, slave_run(s, pick.choice((1, 2, length))), high(s) | pick.randrange(2))
    if kind == "one word":
        return s.reply(slave, slave_run(s, 1), high(s) | 3)
    return s.reply(slave, slave_run(s, 2 if kind == "two" else length, kind != "wrong FCS"), high(s) | 3)


def answers_late(s, slave, errors=False):
    """By a poll or a reply, of which nothing counts."""
    pick = s.pick
    s.tick(pick.choice((60, 60, 61, 1000, 2**31, 2**32 - 1)))
    if not errors and pick.randrange(2):
        return s.poll()
    return s.reply(slave, slave_run(s, pick.choice((0, 1, 3))), pick.randrange(4), int(errors))


# 02, request 8: a reply in packets.


def under_way(s):
    """The words of the reply of which packets are stored, as they stand in the buffer; none where no such reply is waited for."""
    group = s.node.pending and s.node.pending.group
    return s.program.lent[BUFFER][group.words + 1:group.words + 1 + group.received] if group else []


def room_left(s):
    """How many more words of the asked slave's reply fit."""
    pending = s.node.pending
    left = bin(pending.group.asked >> pending.slave + 1).count("1")
    return AREA - 2 - pending.group.words - pending.group.received - 5 * left


def sends_front(s, slave, sizes, show=None, between=None):
    """A first packet and middle ones of so many words, each with a right FCS of its own; whether all are stored, and more is waited for."""
    for place, size in enumerate(sizes):
        words = slave_run(s, size, seed=7 if size > 300 else None)
        if s.reply(slave, words, high(s) | (0 if place else 2), show=show) != ("next", slave):
            return False
        if between:
            between(s)
    return s.node.pending is not None and s.node.pending.slave == slave and under_way(s) != []


def ends_in_packets(s, slave, kind, length=None, show=None):
    """The answer to NEXT that ends a reply of which packets are stored."""
    pick = s.pick
    length = pick.choice((1, 1, 2, 3, 9)) if length is None else length
    if kind == "late after NEXT":
        return answers_late(s, slave, not pick.randrange(4))
    if kind == "empty after NEXT":
        return s.reply(slave, [], high(s) | pick.randrange(4), show=show)
    if kind == "first again":
        return s.reply(slave, slave_run(s, length), high(s) | pick.choice((2, 3)), show=show)
    if kind == "no room for a packet":
        words = Run([], room_left(s) + pick.choice((1, 1, 2, 500, 40000)), 7)
        return s.reply(slave, words, high(s) | pick.randrange(2), show=show)
    if kind == "errors after NEXT":
        return s.reply(slave, s.anything(pick.randrange(4)), pick.randrange(4), pick.choice((1, 2, 0x100, 0xFFFF)), show=show)
    return s.reply(slave, slave_run(s, length, kind == "in packets", before=under_way(s)), high(s) | 1, show=show)


def answers_in_packets(s, slave, kind):
    """A reply in packets, of one kind, with calls of others between. A single slave's first packet passes, and is all of it."""
    pick = s.pick
    if kind == "no room for a packet" and not pick.randrange(3):
        return s.reply(slave, Run([], pick.choice((12287, 12288, 40000)), 7), high(s) | 2)
    if sends_front(s, slave, pick.choices((1, 1, 2, 3, 7, 30), k=pick.randrange(1, 4)), between=between):
        ends_in_packets(s, slave, kind)


def ask(s, mask, link=0):
    """A group request for a mask, by one of the three first bytes."""
    pick = s.pick
    if mask == (1 << 24) - 1 and pick.randrange(2):
        return s.request([pick.randrange(256) << 8 | 0x2A, 0x0C2E], link)
    if pick.randrange(2):
        return s.request([mask << 8 & 0xFF00 | 0x23, mask >> 8, 0x0C2E, *s.anything(pick.randrange(2))], link)
    place = pick.randrange(16)
    s.request(command(0x57, place << 8 | mask >> 16, mask & 0xFFFF), link)
    return s.request([place << 8 | 0x40, 0x0C2E], link)


def between(s):
    """What may happen while a slave is waited for: polls, 0-word requests, erase steps, other slaves' replies."""
    pick = s.pick
    if pick.randrange(3):
        return
    pending = s.node.pending
    pick.choice([
        lambda: s.poll(),
        lambda: (s.tick(pick.randrange(30)), s.poll()),
        lambda: s.request([], (pending.link + 1) % s.node.ports, pick.choice((2, 0, 1, 3)) if s.node.ports > 1 else 3),
        lambda: s.request([], pending.link, pick.choice((0, 1, 3))),
        lambda: s.request(command(0x0C), pick.randrange(s.node.ports)),
        lambda: s.request([], pending.link, 2, 1),
        lambda: s.erase(pick.randrange(50)),
        lambda: s.reply(pick.choice((pending.slave + 1, pending.slave + 256, 23 - pending.slave, 24)), s.anything(2)),
    ])()


def mask_of(s, count):
    return sum(1 << slave for slave in s.pick.sample(range(24), count))


def group_of(s, mask, kinds, lengths=None, drop=False):
    """One group from its request to its reply, or until it is dropped."""
    ask(s, mask, s.pick.randrange(s.node.ports))
    for place, kind in enumerate(kinds):
        if s.node.pending is None:
            return
        between(s)
        if s.node.pending is None:
            return
        if drop and not s.pick.randrange(6):
            s.request([], s.node.pending.link, 2, show=16)
            return
        slave_answers(s, s.node.pending.slave, kind, lengths[place] if lengths else None)
    dropped(s)


def groups(s):
    pick = s.pick
    single_kinds = sorted(set(KINDS))
    s.fresh(CDDC, 4, tests=0x0100)
    for kind in single_kinds:
        for slave in (0, 7, 23):
            group_of(s, 1 << slave, [kind])
    for first in single_kinds:
        for second in single_kinds:
            group_of(s, mask_of(s, 2), [first, second])
    for turn in range(260):
        if turn % 20 == 0:
            s.fresh(CDDC, pick.randrange(1, 5), tests=pick.choice((0, 0x0800)))
            s.fill(BUFFER, 12304, pick.randrange(65536))
            s.request(command(0x52, pick.randrange(4)))
            if pick.randrange(2):
                s.request(command(0x47, 0x0200))
        count = pick.choice((1, 2, 3, 3, 4, 5, 8, 12)) if turn % 26 else 24
        common = pick.choice(("whole", *ZEROS, "whole")) if turn % 3 else None
        kinds = [common if common and pick.randrange(9) else pick.choice(KINDS) for _ in range(count)]
        group_of(s, mask_of(s, count), kinds, drop=turn % 9 == 0)
    for kind in ("late", "errors", "whole", *ZEROS):
        for count in (1, 2, 5, 24):
            group_of(s, mask_of(s, count), [kind] * count)
        group_of(s, mask_of(s, 3), [kind, kind, "ABORT"])
    s.ends()


def room(s):
    """Replies that just fit and that just don't, alone and with slaves yet to ask; lengths above 16 bits."""
    pick = s.pick
    s.fresh(CDDC, 4, reply=12288)
    s.fill(BUFFER, 12304, 0x5A5A, 0)
    for length in (12285, 12286, 12287, 12288, 12289, 40000, 65535, 65536, 65540):
        for kind in ("whole", "wrong FCS", "BC1 clear"):
            ask(s, 1 << pick.randrange(24))
            slave = s.node.pending.slave
            s.reply(slave, slave_run(s, length, kind != "wrong FCS", 7), {"BC1 clear": 1}.get(kind, 3), show=16)
    for left in (1, 2, 11, 22):
        for before in ("END", "wrong FCS", 40, 6000):
            for over in (-1, 0, 1):
                count = left + 2
                ask(s, mask_of(s, count))
                if isinstance(before, int):
                    slave_answers(s, s.node.pending.slave, "whole", before)
                else:
                    slave_answers(s, s.node.pending.slave, before)
                built = s.node.pending.group.words
                s.reply(s.node.pending.slave, slave_run(s, 12286 - 5 * left - built + over, True, 7), show=16)
                for _ in range(left):
                    slave_answers(s, s.node.pending.slave, pick.choice(("wrong FCS", "errors", "two", "END", "late")))
                dropped(s)
    for large in (6000, 6139, 6140, 12000):
        group_of(s, mask_of(s, 3), ["whole"] * 3, [large, large, 100])
    s.lend(reply=12304)
    for words in (12281, 12280, 12276, 12275):  # kept words built, up to the last that passes
        for tally in range(7):
            s.set_group(0, 3, s.clock, 0b11000 if words < 12277 else 0b1000, 2, words, tally)
            slave_answers(s, 3, pick.choice(("wrong FCS", "END", "two", "errors", "ABORT", "late")))
            if s.node.pending:
                slave_answers(s, 4, pick.choice(("wrong FCS", "END", "two", "NEXT")))
            dropped(s)


def times(s):
    """Elapsed time across the clock's wrap, for groups and single slaves, by replies and polls."""
    pick = s.pick
    s.fresh(CDDC, 2)
    for at in (0, 1, 0x7FFFFFFF, 0x80000000, 0xFFFFFFC4, 0xFFFFFFC5, 0xFFFFFFF0, 0xFFFFFFFF):
        for elapsed in (0, 1, 59, 60, 61, 2**31 - 1, 2**31, 2**32 - 60, 2**32 - 1):
            for group in (True, False):
                s.set_group(0, 3, at, 0b11000) if group else s.set_slave(1, 3, at)
                s.clock = (at + elapsed) % 2**32
                node = s.node
                s.call(POLL, 16, *halves(s.clock))
                if s.node == node:
                    answer = slave_run(s, pick.choice((0, 1, 5))).line()
                    s.call(REPLY, 16, *halves(s.clock), 0, 3, 3, pick.randrange(2), *s.anything(2), *answer)
                if s.node.pending:
                    s.call(POLL, 0, *halves((s.clock + 59) % 2**32))
                    s.call(POLL, 16, *halves((s.clock + 60) % 2**32))
                s.set(PENDING_NOTHING)


def tallies(s):
    """Groups that no start leads to: any tally with any answer, any words in the buffer, a CDP."""
    pick = s.pick
    for turn in range(280):
        if turn % 40 == 0:
            s.fresh(pick.choice((CDP, CDDC)), pick.randrange(1, 5), tests=pick.choice((0, 0x0F00)))
            s.fill(BUFFER, 12304, pick.randrange(65536))
        mask = mask_of(s, pick.randrange(1, 6))
        slave = pick.choice([slave for slave in range(24) if mask >> slave & 1])
        words = pick.choice((0, 1, 5, 300, 12000))
        s.set_group(pick.randrange(s.node.ports), slave, s.clock, mask, pick.choice((1, 2)), words, turn % 7)
        while s.node.pending:
            slave_answers(s, s.node.pending.slave)
            if s.node.pending and not pick.randrange(8):
                s.poke(BUFFER, pick.randrange(16), s.anything(2))


def singles(s):
    """Single slaves: what passes unchanged, and what doesn't pass."""
    pick = s.pick
    s.fresh(CDDC, 4, reply=12300)
    s.fill(BUFFER, 12304, 0xA5A5, 0)
    for length in (0, 1, 2, 16, 17, 12287, 12288, 12289, 40000, 65536):
        for bc in (0, 1, 2, 3, 0xFFFD):
            s.request([0x0405, 0x0C2E], pick.randrange(4))
            s.reply(5, Run([], length, 9), bc, show=16)
    for turn in range(110):
        slave = pick.randrange(24)
        s.request([pick.choice((4, 5, 0x3F)) << 8 | slave, *s.anything(pick.choice((1, 2, 8)))], pick.randrange(4))
        between(s)
        if s.node.pending:
            slave_answers(s, slave)
        if s.node.pending and pick.randrange(2):
            slave_answers(s, s.node.pending.slave, "late")
        dropped(s)
