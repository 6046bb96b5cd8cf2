"""Scripts on the Q-List and the slow-control step (02, request 7)."""

from itertools import product

from build import segment
from files import DM, IO, PM
from flash import SIZES
from node import CDDC, CDP
from node_lines import PENDING_NOTHING, QLIST
from qlist import MOST, RECORD, entry_at, records_in
from script import SHOW_LIST, command

WHOLE = MOST * RECORD  # words of the longest list
ROOM = WHOLE + 16
AT = 0x2000  # page 0, address 2000
IN_A_LINE = 34  # entries of a write, at most: no line may be too long
CLOCKS = (0, 0x7FFFFFFF, 0x80000000, 0xFF000000, 0xFFFFFFFF)
SHOWN = 0b1010100  # the digests of DM, which no command here stores to, reply buffer and list


# Entries, and what is done to them.


def some_entry(s, repetitions=None, frequency=None):
    """One that may be written, mostly of a short frequency."""
    pick = s.pick
    frequency = pick.choice((1, 2, 3, 10, 100, 0xFFFF, 0x10000, 0xFFFFFF, pick.randrange(1, 1 << 24))) if frequency is None else frequency
    repetitions = pick.choice((0, 1, 1, 2, 3, 0x7FFF, 0x8000, 0xFFFF)) if repetitions is None else repetitions
    return [frequency >> 16 << 8 | pick.randrange(256) | 0x08, repetitions, frequency & 0xFFFF, *s.anything(2)]


def body_of(entries, count=None):
    return [len(entries) if count is None else count] + [word for entry in entries for word in entry]


def write(s, entries, count=None, second=AT, link=0, show=SHOWN):
    return s.request(command(0x5C, *segment(DM, second, body_of(entries, count))), link, show=show)


def some_entries(s, count, **given):
    return [some_entry(s, **given) for _ in range(count)]


def delete(s, *parameters, show=SHOWN):
    return s.request(command(0x5B, *parameters), show=show)


def read(s, *parameters):
    return s.request(command(0x1C, *parameters), show=SHOWN)


def records(s):
    return records_in(s.program.lent[QLIST])


def entry_in_turn(s):
    return entry_at(s.program.lent[QLIST], s.node.turn)


def fresh(s, words=WHOLE, kind=None, **given):
    """A fresh node, lent a list that has any words."""
    s.fresh(kind or s.pick.choice((CDP, CDDC)), s.pick.randrange(1, 5), qlist=words, **given)
    s.fill(QLIST, ROOM, s.pick.randrange(65536))


def listing(s, entries):
    """A list of these entries, and no others."""
    delete(s, 0xFFFF, show=0)
    write(s, entries, show=0)


# Scripts.


def list_writes(s):
    """Entries of every bit, and whatever makes a write ABORT: nothing is added then, first, between and last entry alike."""
    fresh(s)
    for bit in range(16):
        write(s, [[said | (1 << bit if word == place else 0) for word, said in enumerate((0x0008, 0, 1, 0, 0))] for place in range(5)])
    read(s)
    for header, low in product((0x0008, 0x0000, 0x0108, 0x0100, 0xFF08, 0xFFF7, 0x8008), (0x0000, 0x0001, 0xFFFF)):
        for place in range(3):
            entries = some_entries(s, 2)
            write(s, entries[:place] + [[header, 2, low, 0, 0]] + entries[place:])
    for second in (0x2000, 0x2001, 0x1FFF, 0x0000, 0x3FFF, 0x6000, 0xA000, 0xE000, 0x2800):
        write(s, some_entries(s, 1), second=second)
    for count, said in product((0, 1, 2, 3), (0, 1, 2, 3, 4, 0x3334, 0xFFFF)):
        write(s, some_entries(s, count), said)
    for more in range(1, 6):  # words behind the entries
        s.request(command(0x5C, *segment(DM, AT, body_of(some_entries(s, 2)) + s.anything(more))))
    read(s)
    s.digest(QLIST, 0, ROOM)
    s.state()


def list_segments(s):
    """Segments that aren't valid, not exact, or of another memory; on a node that is lent no DM, they say the same."""
    for dm in (64, 0):
        fresh(s, dm=dm)
        body = body_of(some_entries(s, 1))
        for memory, bits in ((DM, 1), (IO, 2), (IO, 3), (PM, 0)):
            s.request(command(0x5C, *segment(memory, AT, body + [0] * (memory == PM), bits)))
        for _ in range(25):
            s.request(command(0x5C, *s.damaged(segment(DM, AT, body_of(some_entries(s, s.pick.randrange(4)))))), show=SHOWN)
        for words in ([], [0x4001, AT], [0x4001, AT, 0xFFFF], [0x4002, AT], [0x4002, AT, 0, 0x1D0F]):
            s.request(command(0x5C, *words))
        s.state()


def list_frequencies(s):
    """Frequencies of 24 bits from clocks on either side of the wrap; each is stepped just before it is due and then, and half the clock
    later, and has its next time moved on by as much, at its last repetition too."""
    fresh(s, RECORD)
    for clock, frequency in product(CLOCKS, (1, 0xFFFF, 0x10000, 0x7FFFFF, 0x800000, 0xFFFFFF)):
        for since in (-1, 0, s.pick.choice((2**31 - 1, 2**31))):
            s.clock = clock
            listing(s, some_entries(s, 1, frequency=frequency, repetitions=s.pick.choice((1, 2))))
            due = entry_at(s.program.lent[QLIST], 0).due
            s.slow(due + since, SHOW_LIST)
            s.slow(due + frequency - s.pick.randrange(2), SHOW_LIST)


def list_is_full(s):
    """910 entries by writes, on both kinds: as many as fit, and one more; each is listed, stepped, and the list closes up and serves again."""
    for kind in (CDP, CDDC):
        fresh(s, WHOLE + s.pick.randrange(7), kind)
        while s.node.listed < MOST:
            left = MOST - s.node.listed
            count = min(left, IN_A_LINE)
            if count == left:
                write(s, some_entries(s, left + 1))
            write(s, [[0x0008 | place % 3 << 8, place % 2, 9 + place, place, 0] for place in range(s.node.listed, s.node.listed + count)], show=0)
        read(s)
        for count in (1, 2, 0):
            write(s, some_entries(s, count))
        for place in (0, 1, 908, 909, 910, 911, 0xFFFE):
            delete(s, place)
        for turn in (0, 1, 907, 908, 909):
            s.set("turn", turn)
            s.slow(s.clock + 1000, SHOW_LIST)
        s.slow(s.clock + 1000, SHOW_LIST)
        delete(s)
        read(s)
        write(s, some_entries(s, IN_A_LINE))
        delete(s, 0xFFFF)
        read(s)
        write(s, some_entries(s, 1))
        s.digest(QLIST, 0, ROOM)
        s.state()


def list_room(s):
    """Lists of few records, or of none, with words behind the last whole record: as many entries as records, and one more. Words that are
    not lent stay, too."""
    for words in (0, 1, 6, 7, 8, 13, 14, 20, 21, 27, 28, 69, 70, 76):
        fresh(s, words)
        s.slow()
        for count in (records(s) + 1, 0, records(s)):
            write(s, some_entries(s, count))
        read(s)
        for place in range(records(s) + 1):
            s.slow(s.clock + 2**24, SHOW_LIST)
        delete(s, s.pick.randrange(records(s) + 1))
        delete(s)
        write(s, some_entries(s, 1))
        s.digest(QLIST, 0, ROOM)


def list_deletes(s):
    """Every way in which four entries are expired or not, behind every turn; and each place by itself, as far as there are places."""
    for expired in range(16):
        fresh(s, 5 * RECORD)
        write(s, [some_entry(s, 0 if expired >> place & 1 else 2 + place) for place in range(4)], show=0)
        s.set("turn", expired % 4)
        delete(s)
        s.slow(s.clock + 2**24, SHOW_LIST)
        delete(s)
        write(s, some_entries(s, 1))
        read(s)
    for place, turn in product((0, 1, 2, 3, 4, 910, 0x8000, 0xFFFE, 0xFFFF), (1, 3)):
        listing(s, some_entries(s, 4))
        s.set("turn", turn)
        delete(s, place)
        s.slow(s.clock + 2**24, SHOW_LIST)
    for parameters in ((0, 0), (0xFFFF, 0xFFFF), (0xFFFF, 0), (0, 0, 0), (5, 5)):
        delete(s, *parameters)
        read(s, *parameters)
    read(s, 0)
    s.state()


def list_step(s):
    """One thing that can happen to a list."""
    pick = s.pick
    pick.choice([
        lambda: write(s, some_entries(s, pick.choice((0, 1, 1, 2, 3)), frequency=pick.choice((1, 2, 5, 40))), show=SHOW_LIST),
        lambda: delete(s, *pick.choice(((), (), (0,), (pick.randrange(5),), (0xFFFF,) if not pick.randrange(4) else ())), show=SHOW_LIST),
        lambda: read(s),
        *[lambda: (s.tick(pick.choice((0, 0, 1, 3, 20))), s.slow())] * 6,
    ])()


def list_turns(s):
    """Any of these after the other, over clocks that wrap; now and then a start, which lists none."""
    for turn in range(6):
        fresh(s, 12 * RECORD)
        s.clock = s.pick.choice((0xFFFFFFE0, 0x7FFFFFF0, 0))
        for _ in range(50):
            list_step(s)
        if turn % 3 == 0:
            s.start(s.pick.choice((CDP, CDDC, 3)))
            s.slow()
            read(s)
        s.digest(QLIST, 0, ROOM)
        s.state()


def list_meanwhile(s):
    """While an erasure runs the list goes on, on both kinds; while a request is pending its commands are refused, and steps are not; a
    File Write that comes in packets goes on beside it."""
    for kind, size in product((CDP, CDDC), SIZES):
        fresh(s, 10 * RECORD, kind, size=size)
        s.request(command(0x47, 0x1C00))
        s.request(command(0x45, 1, 2), 0, 2)
        s.erase(100)
        for _ in range(25):
            list_step(s)
        s.erase(100)
        s.state()
        s.set_slave(0, 5, s.clock)
        for packet in (command(0x5C, *segment(DM, AT, body_of(some_entries(s, 1)))), command(0x5B), command(0x5B, 0xFFFF), command(0x1C)):
            s.request(packet, show=SHOWN)
        for _ in range(4):
            s.slow(s.clock + 100, SHOW_LIST)
        s.set(PENDING_NOTHING)
        s.state()


def kept_lists(s):
    """Records that no write left, of any words: frequency 0 and delayed ones too; they are stepped, listed and removed as they stand."""
    pick = s.pick
    for _ in range(20):
        count = pick.choice((1, 2, 5, 30, MOST))
        fresh(s, count * RECORD + pick.randrange(7))
        s.set("listed", pick.choice((count, count, max(count - 1, 1))))
        s.set("turn", pick.choice((0, s.node.listed - 1, pick.randrange(s.node.listed))))
        for _ in range(3):
            s.poke(QLIST, RECORD * s.node.turn, [pick.choice((0x0000, 0x0008, 0x0100, 0xFFFF)), pick.choice((0, 1, 2)), pick.choice((0, 0, 5))])
            entry = entry_in_turn(s)
            s.slow(entry.due + pick.choice((0, 0, -1, 5, 2**31)), SHOW_LIST)
        for place in range(min(s.node.listed, 5)):
            if pick.randrange(2):
                s.poke(QLIST, RECORD * place + 1, [0])
        pick.choice((lambda: read(s), lambda: delete(s), lambda: delete(s, pick.randrange(s.node.listed)), lambda: write(s, some_entries(s, 1))))()
        s.digest(QLIST, 0, ROOM)
        s.state()


def list_refusals(s):
    """9 by both causes, to the word, before 4, 5 and 6 and behind 8; and what 5 says of listed entries and turn, in every call."""
    fresh(s)
    write(s, some_entries(s, 3), show=0)
    for words in (0, 14, 20, 21, 27, WHOLE - 1, WHOLE, WHOLE + 6, WHOLE + 7, WHOLE + 16):
        for area, link, mode in ((32768, 0, 0), (32767, 0, 0), (32768, 4, 0), (32768, 0, 4), (32767, 4, 4)):
            s.lend(qlist=words, area=area)
            s.set("mode", mode)
            s.request(command(0x5B, 2), link, show=SHOW_LIST)
            s.slow(show=SHOW_LIST)
        s.set("mode", 0)
    s.lend(qlist=WHOLE)
    s.set_slave(0, 5, s.clock)
    for listed, turn in ((0, 0), (0, 1), (0, 0xFFFF), (1, 0), (1, 1), (3, 2), (3, 3), (910, 909), (910, 910), (911, 0), (911, 910), (0xFFFF, 0)):
        s.set("listed", listed)
        s.set("turn", turn)
        s.request(command(0x1C))
        s.request([], 0, 0)
        s.slow(show=SHOW_LIST)
        s.poll()
        s.reply(9)
        s.erase(1)
