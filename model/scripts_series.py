"""Scripts on lists of requests in one call (02, request 9)."""

from itertools import product

from build import segment
from files import DM, IO, PM
from flash import SECTORS, SIZES, address_of
from group import AREA
from node import CDDC, CDP, COMMANDS, JOINED
from node_lines import BUFFER, FLASH, MASK, MEMORY_ROOM, PENDING_NOTHING
from qlist import MOST, RECORD
from script import BENCH, FULL, SHOW_AREA, Run, command, run
from scripts_list import body_of, some_entries
from scripts_states import out_of_range, within_range
from series import ROOM

LENT = MEMORY_ROOM[BUFFER]  # words of replies, at most
SHOWN = 0b1011110  # the digests of all that is lent but flash and area, which take long
FIRST, MIDDLE, LAST, WHOLE = 0b10, 0b00, 0b01, 0b11
IN_A_LINE = 170  # words of a list that are spelt out, at most, where packets are put into it by chance
MODE, STATUS = command(0x12), command(0x0C)
ASKS = ([0x0405, 0x0C2E], [0x3F17, 1, 2], [0x0500, 0x0C2E], [0x0140, 0x0C2E], [0x2023, 0x0001, 0x0C2E], [0x002A, 0x0C2E])
ZERO_LENGTH = ([], [0x00FF], [0x0605, 0x0C2E], [0x0018, 0x0C2E], [0x1040, 0x0C2E], [0x0940, 0x0C2E], [0x0023], [0x0023, 0], [0x002A])


# Lists, as runs.


def packet(words, link=0, bc=WHOLE, length=None):
    """A packet behind its three words, as a run; the length may be another than its own."""
    count = len(run(words).words()) if length is None else length
    return run(words).behind([link, bc, count])


def joined(first, second):
    """Two runs in a row, of which one at most has a stretch."""
    if first.count == 0:
        return Run(first.words() + second.front, second.count, second.seed, second.back)
    assert second.count == 0, "two stretches in a line"
    return Run(first.front, first.count, first.seed, first.back + second.words())


def in_a_row(packets):
    whole = Run()
    for each in packets:
        whole = joined(whole, each)
    return whole


def whole_packets(*packets):
    """Packets of BC 11 on link 0."""
    return [packet(words) for words in packets]


def send(s, packets, show=None):
    """A list in one call; now and then flash or area are shown too."""
    show = SHOWN | s.pick.choice((0, 0, 1, SHOW_AREA)) if show is None else show
    return s.series(in_a_row(packets), show)


def fresh(s, kind=None, ports=4, reply=LENT, qlist=10 * RECORD, **given):
    """A fresh node, lent room for replies that has any words."""
    s.fresh(kind or s.pick.choice((CDP, CDDC)), ports, reply=reply, qlist=qlist, **given)
    s.fill(BUFFER, LENT, s.pick.randrange(65536))


def changes(s):
    """Packets each of which would change something, so that one shows where it is done."""
    mode, mask = s.pick.randrange(4), s.pick.randrange(16)
    return [
        packet(command(0x52, mode)), packet(command(0x57, mask << 8, s.pick.randrange(65536))), packet(command(0x45, *s.some_file())),
        packet(command(0x51, *s.some_segment(DM))), packet(command(0x47, 0x1C00)), packet([0x00FF]),
        packet(command(0x5C, *segment(DM, 0x2000, body_of(some_entries(s, 1))))),
    ]


def a_change(s):
    return s.pick.choice(changes(s))


# Packets by chance, for lists of any commands.


def on_a_file(s, names):
    """A command on a file, mostly one of those names, which lists write."""
    pick = s.pick
    header = pick.choice(names) << 4 | pick.choice((0, 1, 0xF00F)) if pick.randrange(6) else s.some_header()
    return pick.choice((
        command(0x45, *s.some_file(pick.choice(names), pick.choice((1, 1, 2)))), command(0x45, *s.some_file(pick.choice(names), 1)),
        command(0x05, header), command(0x05, header), command(0x06, header), command(0x46, header), command(0x48, header, pick.randrange(3)),
        command(0x07),
    ))


def on_a_memory(s):
    pick = s.pick
    memory, second = pick.choice(((PM, 0x0000), (DM, 0x2000)))
    read_header = [(0 if memory == PM else 1) << 14 | pick.choice((2, 4, 6, 3, 66)), second | pick.randrange(8)]
    return pick.choice((
        command(0x50, *s.some_segment(PM)), command(0x51, *s.some_segment(DM)), command(0x0F, *s.some_segment(IO)),
        command(0x10 if memory == PM else 0x11, *read_header), command(0x11 if memory == PM else 0x10, *read_header),
        command(0x51, *s.damaged(s.some_segment(DM))),
    ))


def on_the_qlist(s):
    pick = s.pick
    return pick.choice((
        command(0x5C, *segment(DM, 0x2000, body_of(some_entries(s, pick.randrange(3))))), command(0x5B), command(0x5B, pick.randrange(4)),
        command(0x5B, 0xFFFF), command(0x1C),
    ))


def of_settings(s):
    pick = s.pick
    return pick.choice((
        STATUS, MODE, command(0x52, pick.randrange(5)), command(0x17), command(0x57, pick.randrange(0x1100), pick.randrange(65536)),
        command(0x0D, *s.anything(pick.randrange(5))),
    ))


def some_packet(s, names, stopping=0):
    """A packet of some own command, or one that is answered without words; one in so many stops the list."""
    pick = s.pick
    link = pick.randrange(s.node.ports or 1)
    if stopping and not pick.randrange(stopping):
        return pick.choice((packet(pick.choice(ASKS)), packet(MODE, s.node.ports), packet(MODE, 0, pick.choice((4, 7, 0xFFFF)))))
    if not pick.randrange(12):
        return packet(pick.choice(ZERO_LENGTH), link, pick.choice((WHOLE, WHOLE, FIRST)))
    if not pick.randrange(30):
        return packet(command(0x47, pick.choice((0x0200, pick.choice(names) << 4 | 1, 0x1C00))))
    return packet(pick.choice((of_settings, of_settings, on_a_memory, on_the_qlist))(s) if pick.randrange(2) else on_a_file(s, names), link)


def some_list(s, names, most, stopping=0):
    """As many packets as that at most, and as a line has room for."""
    found, words = [], 0
    while len(found) < most:
        each = some_packet(s, names, stopping)
        words += len(each.words())
        if words > IN_A_LINE:
            break
        found.append(each)
    return found


# Scripts.


def series_of_commands(s):
    """Lists of one to many packets of all own commands, one after the other on one node."""
    for turn in range(24):
        fresh(s, CDDC if turn % 3 else CDP, turn % 4 + 1, size=SIZES[turn % 8 == 5], tests=s.pick.choice((0, 0x0300)))
        for most in (1, 2, 3, 60, 60, 60, 60):
            send(s, some_list(s, [turn, turn + 1, turn + 2], most))
            if s.node.erasing:
                s.erase(s.pick.choice((7, FULL)))
        s.digest(BUFFER, 0, LENT)
        s.state()


def series_of_each(s):
    """Each request ID by itself and between others, its parameters right or not, with an erasure in progress or not."""
    file = s.some_file(0x21, 1)
    right = {
        0x05: [0x0210], 0x45: s.some_file(0x42, 1), 0x06: [0x0210], 0x46: [0x0210], 0x47: [0x0210 | 1], 0x48: [0x0210, 1],
        0x0F: s.some_segment(IO), 0x10: [0x0004, 0x0000], 0x50: s.some_segment(PM), 0x11: [0x4003, 0x2000], 0x51: s.some_segment(DM),
        0x52: [3], 0x57: [0x0312, 0x3456], 0x5C: segment(DM, 0x2000, body_of(some_entries(s, 2))), 0x0D: [1, 2, 3],
    }
    for kind, number in product((CDDC, CDP), [*COMMANDS, 0x00, 0x01, 0xFF]):
        fresh(s, kind)
        asked, wrong = packet(command(number, *right.get(number, [])), 1), packet(command(number, 0x0210, 0x4003, 9))
        send(s, [packet(command(0x45, *file)), asked, packet(STATUS, 2), wrong, packet(MODE, 3)], SHOWN | 1)
        send(s, [asked])
        send(s, [packet(command(0x47, 0x1C00)), asked, packet(command(0x07)), packet(STATUS)])
        s.state()


def series_go_on(s):
    """ABORT, ERROR and END stop nothing: in front of other packets, between and behind them."""
    file = command(0x45, *s.some_file(0x21, 1))
    damaged = command(0x45, *s.damaged(file[1:]))
    own = ([0x522E, 4], [0x522E], [0x452E], [0x052E, 0x0210], [0x062E, 0x0210], [0x472E, 0x0120], damaged, [0xFF2E])
    for kind in (CDDC, CDP):
        for words in (*own, *ZERO_LENGTH, *(ASKS if kind == CDP else ())):
            fresh(s, kind)
            asked = packet(words, s.pick.randrange(4))
            on_files = [packet(file), packet(command(0x05, 0x0210))]
            send(s, [asked, packet(command(0x52, 1)), asked, packet(STATUS, 3), asked, asked, *on_files, asked])
            s.digest(BUFFER, 0, LENT)
        fresh(s, kind)
        for bc, length in product(range(4), (0, 1, 8192, 8193, 0xFFF0)):
            send(s, [packet(MODE), packet(Run(command(0x0D)[:length], max(length - 1, 0), 7), 1, bc), packet(STATUS, 2)])
        s.set("amswire", 0xFFFE)
        send(s, whole_packets([0x00FF], STATUS, [0x0018], STATUS, [0x00FF], STATUS))
        s.state()


def series_without_words(s):
    """Packets of 0 words by themselves, in every BC and from every link, and as many as a line has room for."""
    for ports in range(1, 5):
        fresh(s, ports=ports)
        for bc in range(5):
            send(s, [packet([], link, bc) for link in range(ports + 1)])
        s.set_write(ports - 1, 5)
        dropping = packet([], ports - 1, FIRST)
        send(s, [packet([], ports - 1, WHOLE), packet([], 0, LAST), dropping, dropping, packet(STATUS)])
        s.state()
    fresh(s)
    send(s, [packet([], place % 4, place % 4) for place in range(60)])


def written_in(file, cuts, link=1):
    """The packets of a File Write, cut at these places, as a list has them."""
    words = run(file).words()
    ends = [*cuts, len(words)]
    pieces = [words[start:end] for start, end in zip([0, *cuts], ends)]
    bcs = [FIRST] + [MIDDLE] * (len(pieces) - 2) + [LAST]
    return [packet(command(0x45, *piece) if bc == FIRST else piece, link, bc) for piece, bc in zip(pieces, bcs)]


READ_BACK = [packet(command(0x05, 0x0210), 2), packet(command(0x07))]


def others_between(s):
    """Packets between those of a write of link 1: of other links, which leave it, and of its own."""
    return (
        packet(MODE, 2), packet([], 2, FIRST), packet([0x00FF], 2), packet(command(0x45, 1), 2, FIRST), packet([7], 2, MIDDLE),
        packet(command(0x45, *s.some_file(0x33, 1)), 3), packet(command(0x47, 0x1C00), 2),
        packet(MODE, 1), packet(command(0x45, 1), 1, FIRST), packet([], 1, FIRST), packet([], 1, LAST), packet([0x0405, 1], 1),
    )


def over_several_calls(s, file):
    """A write that a request begins, a list goes on with, and either ends; and one that a list begins and the next drops."""
    middle = len(file) // 2
    first, second, last = written_in(file, (2, middle))
    s.request(command(0x45, *file[:2]), 1, FIRST)
    send(s, [packet(MODE), second], SHOWN | SHOW_AREA)
    s.pick.choice((lambda: s.request(file[middle:], 1, LAST), lambda: send(s, [last])))()
    send(s, READ_BACK)
    send(s, [first, packet(STATUS, 2), second])
    send(s, [packet([], 1, FIRST), packet(STATUS, 1)])


def series_of_writes(s):
    """A File Write in packets inside a list, answered NEXT: with others between, begun and ended by different calls, broken off, dropped."""
    for kind, size in product((CDDC, CDP), SIZES):
        file = s.some_file(0x21, 2)
        middle = len(file) // 2
        for cuts in ((1,), (1, 2), (0, 1), (0, 0, 1), (middle,), (3, middle, len(file) - 1), (len(file),)):
            fresh(s, kind, size=size)
            send(s, written_in(file, cuts) + READ_BACK, SHOWN | SHOW_AREA)
        for between in others_between(s):
            fresh(s, kind, size=size)
            first, second, last = written_in(file, (2, middle))
            send(s, [first, between, second, between, last, *READ_BACK], SHOWN | SHOW_AREA)
            s.state()
        fresh(s, kind, size=size)
        over_several_calls(s, file)


def series_of_long_writes(s):
    """Long packets of a File Write: at the most words joined and above, and a packet above 8,192 words, which keeps the write."""
    for before, count in product((JOINED - 3, JOINED - 8192, JOINED - 8191), (3, 4, 8191, 8192, 8193)):
        fresh(s)
        s.set_write(1, before)
        middle = packet(Run([], count, before & 0xFFFF), 1, MIDDLE)
        send(s, [packet(MODE), middle, packet(STATUS), packet([1, 2, 3], 1, LAST), packet(STATUS)], SHOWN | SHOW_AREA)
        s.state()
    for length in (5, 2000, 2048, 4096):
        fresh(s, reply=ROOM + length)
        file = s.long_file(length, 0x21)
        on_it = [packet(command(0x05, 0x0210), 1), packet(command(0x06, 0x0210))]
        send(s, [packet(command(0x45), 1, FIRST), packet(file, 1, LAST), *on_it], SHOWN | 1)
        s.digest(BUFFER, 0, LENT)


def stops_at(s, stopping, places=(0, 1, 3), behind=2, show=None):
    """A list that stops at a packet, behind so many good ones, with changes behind it that aren't done."""
    for place in places:
        good = whole_packets(MODE, command(0x52, 1 + place % 3), STATUS)[:place]
        send(s, good + [stopping] + [a_change(s) for _ in range(behind)], show)


def series_ask(s):
    """Packets that would ask a slave: each slave, masks, and whatever is sent on; nothing of it is pending then."""
    fresh(s, CDDC)
    s.set(MASK, 0x800001, 1)
    for slave, port in product(range(24), (0x04, 0x05, 0x3F)):
        stops_at(s, packet([port << 8 | slave, 0x0C2E], slave % 4), (slave % 3,), 1)
    s.state()
    for words in (*ASKS, [0x0040, 1], [0x0023, 0x8000, 1], [0x0123, 0, 1, 2, 3], [0xFF2A, 1]):
        for link in range(4):
            fresh(s, CDDC, tests=0x0100)
            s.set(MASK, 0x000100, 1)
            stops_at(s, packet(words, link))
            s.digest(BUFFER, 0, LENT)
            s.state()
            s.request(words, link)  # alone it asks, and then the list's own commands find a request pending
            stops_at(s, packet(MODE, link))
            send(s, [packet([], link, FIRST), packet(MODE)])
    fresh(s, CDDC)
    stops_at(s, packet(Run([0x0405], 8191, 3)))
    stops_at(s, packet(Run([0x0405], 8192, 3)))  # one word too many: ERROR, and the list goes on
    s.set_write(2, 7)
    stops_at(s, packet([0x0405, 1], 1))  # the write of another link stands
    stops_at(s, packet([0x0405, 1], 2))  # its own is broken off: ERROR
    s.state()


def series_numbers(s):
    """A link that is no port, and a BC above 3, in every bit."""
    for ports in range(1, 5):
        fresh(s, ports=ports)
        for link in (ports - 1, ports, 4, 5, 255, 256, 0x8000, 0xFFFF):
            stops_at(s, packet(MODE, link), (0, 2))
            stops_at(s, packet([], link, FIRST), (0, 2))
        s.state()
    fresh(s)
    for bc in (4, 5, 6, 7, *(1 << bit | 3 for bit in range(3, 16)), 0xFFFC, 0xFFFF):
        stops_at(s, packet(command(0x52, 2), 1, bc), (0, 2))
        stops_at(s, packet([], 1, bc), (1,))
        stops_at(s, packet([0x00FF], 1, bc), (1,))
    s.set_write(1, 4)
    for bc in (4, 5, 6, 7):
        stops_at(s, packet([1, 2], 1, bc), (0,))
    s.state()


def series_while_pending(s):
    """A request that is pending before the list: packets of words are refused, those of 0 words are not, and its own link's drops it."""
    for group, link in product((False, True), range(3)):
        for front in ([], [packet([], 3, FIRST)], [packet([], link, bc) for bc in (0, 1, 3)], [packet([], link, FIRST)],
                      [packet([], 3, WHOLE), packet([], link, FIRST), packet([], link, FIRST)]):
            fresh(s, CDDC)
            s.set_group(link, 5, s.clock, 0x70, words=9, tally=6) if group else s.set_slave(link, 5, s.clock)
            send(s, front + [packet(MODE, link), a_change(s), packet(STATUS), packet(ASKS[0], 1), a_change(s)])
            s.state()
    fresh(s, CDDC)
    s.set_write(1, 3)
    s.set_slave(1, 5, s.clock)
    send(s, [packet([1], 1, MIDDLE), packet(MODE, 1)])
    send(s, [packet([], 1, FIRST), packet([1], 1, MIDDLE), packet(MODE, 1)])
    s.set(PENDING_NOTHING)
    s.state()


def series_room(s):
    """Room for replies: 12,290 words, no less, for each packet; what is behind the last reply stays."""
    for reply in (0, 1, 2, 3, 2000, AREA - 1, AREA, AREA + 1, ROOM - 1, ROOM, ROOM + 1, ROOM + 2, LENT):
        fresh(s, reply=reply)
        for words in (MODE, command(0x52, 1), [0x00FF], []):
            send(s, [packet(words), a_change(s)])
        s.digest(BUFFER, 0, LENT)
    fronts = (([], 2), (MODE, 5), (STATUS, 14), (command(0x0D), 4), (command(0x0D, 1, 2, 3), 7), (command(0x07), 36))
    for (words, used), count, over in product(fronts, (1, 3), (-1, 0, 1)):
        fresh(s, reply=ROOM + count * used + over)
        send(s, [packet(words)] * count + [packet(command(0x52, 1)), a_change(s)])
        s.digest(BUFFER, 0, LENT)
    for over in (-1, 0, 1):
        fresh(s, reply=ROOM + 4004 + over)
        send(s, [packet(Run(command(0x0D), 4000, 9)), packet(command(0x52, 1)), a_change(s), packet(MODE)])
        s.digest(BUFFER, 0, LENT)


def series_fill(s):
    """Replies that take all the room there is: of 12,288 words, the most, and many that leave just too little."""
    longest = command(0x11, 1 << 14 | AREA - 4, 0x0000)
    for reply in (ROOM, ROOM + 1, LENT):
        fresh(s, reply=reply, dm=32768)
        send(s, whole_packets(longest, MODE, command(0x52, 1)))
        send(s, whole_packets(MODE, longest, command(0x52, 1)))
        s.request(command(0x11, 1 << 14 | AREA - 3, 0x0000))
        s.digest(BUFFER, 0, LENT)
    for length in (300, 1000, 4096):
        fresh(s)
        s.request(s.long_file(length, 0x21).behind(command(0x45)))
        send(s, whole_packets(*[command(0x05, 0x0210)] * 16, command(0x52, 1)))
        s.digest(BUFFER, 0, LENT)
        s.state()


def series_lent(s):
    """Runs and states by which every packet is refused: none is done, and nothing changes; a list that isn't whole is refused all the same."""
    wholes = whole_packets(command(0x52, 1), STATUS)
    lists = ([], wholes, [packet([], 0, FIRST)], [packet([], 9, FIRST)], [*wholes, Run([0])], [packet(MODE, 9, 9, 2)])
    sizes = (
        {"flash": 0}, {"flash": BENCH - 1}, {"flash": FULL}, {"pm": 32768}, {"pm": 32769}, {"dm": 32768}, {"dm": 32769}, {"io": 4096},
        {"io": 4097}, {"area": JOINED}, {"area": JOINED - 1}, {"area": 0}, {"qlist": 2 * RECORD}, {"qlist": 2 * RECORD - 1}, {"qlist": 0},
        {"qlist": MOST * RECORD + RECORD - 1}, {"qlist": (MOST + 1) * RECORD}, {"reply": 0}, {"reply": ROOM - 1}, {"reply": ROOM},
    )
    fresh(s, CDDC)
    send(s, whole_packets(command(0x5C, *segment(DM, 0x2000, body_of(some_entries(s, 2))))))
    for given, sent in product(sizes, lists):
        s.lend(**{"reply": LENT, **given})
        send(s, sent)
    for _ in range(60):
        fresh(s, s.pick.choice((CDP, CDDC)), s.pick.randrange(1, 5), size=SIZES[s.pick.randrange(8) == 0])
        s.pick.choice((out_of_range, out_of_range, within_range))(s)
        for sent in lists[1:5]:
            send(s, sent)
    s.start(3)
    for sent in lists:  # a node that was not started
        send(s, sent)


def series_past_the_end(s):
    """10: words left over, and lengths that go beyond the end; in front, behind good packets, and behind one that would stop the list. Nothing
    is done, whatever stands before."""
    broken = (
        Run([0]), Run([0, 3]), Run([0xFFFF, 0xFFFF]), packet([], length=1), packet(MODE, length=2), packet(MODE, length=0xFFFF),
        packet([], length=0xFFFF), packet(STATUS, 9, 9, 2), packet([1, 2, 3], length=0x8003), packet(MODE, length=0x0101),
    )
    fronts = ([], [packet(command(0x52, 1))], whole_packets(STATUS, command(0x57, 0x0312, 0x3456), [0x00FF]), [packet(ASKS[0])],
              [packet(command(0x52, 1)), packet(MODE, 7)], [packet(MODE, 0, 4)], [packet([], 0, FIRST)] * 3)
    for kind in (CDDC, CDP):
        fresh(s, kind)
        for reply, front, last in product((LENT, 5), fronts, broken):
            s.lend(reply=reply)
            send(s, front + [last])
        s.state()
    fresh(s)
    for count in range(3):  # a long packet to the word
        send(s, [packet(MODE), packet(Run(command(0x0D), 7000, 5), length=7000 + count), packet(command(0x52, 1))][:2])
    for length in (0, 1, 2, 3, 4):  # a length that makes another list of the same words
        send(s, [packet([0, 3, 1, 0x122E], length=length), packet(command(0x52, 1))])
    for count in (1, 2, 3, 100, 20000):  # any words
        send(s, [Run([], count, s.pick.randrange(65536))])
    s.state()


def series_empty(s):
    """An empty list, on any node."""
    fresh(s)
    send(s, [], 0b1111111)
    for _ in range(12):
        within_range(s)
        send(s, [])
        out_of_range(s)
        send(s, [])
        s.start()


def series_step(s, names):
    """A list by chance, whole or not, with enough room or not; or something else that can happen to the node."""
    pick = s.pick
    sent = some_list(s, names, pick.choice((0, 1, 4, 12, 30)), pick.choice((0, 6, 20)))
    if not pick.randrange(8):
        sent.append(pick.choice((Run([0]), Run([0, 3]), packet(MODE, length=2), packet(MODE, length=0xFFFF))))
    if not pick.randrange(5):
        s.lend(reply=pick.choice((LENT, LENT, ROOM - 1, ROOM, ROOM + pick.randrange(200), pick.randrange(LENT))))
    pick.choice([
        *[lambda: send(s, sent)] * 8,
        lambda: s.request(pick.choice(ASKS)),
        lambda: s.request([], pick.randrange(s.node.ports or 1), FIRST),
        lambda: s.request(command(0x45, 1, 2), pick.randrange(s.node.ports or 1), FIRST),
        lambda: s.slow(), lambda: s.erase(pick.choice((100, FULL))), lambda: s.poll(),
        lambda: s.poke(FLASH, pick.choice((BENCH // 16, BENCH // 8)), s.anything(2)),
        lambda: s.request(command(0x47, address_of(pick.choice(list(SECTORS))))),
    ])()


def series_soup(s):
    """Lists among other calls."""
    for turn in range(30):
        fresh(s, CDDC if turn % 4 else CDP, turn % 4 + 1, size=SIZES[turn % 10 == 3])
        for _ in range(25):
            series_step(s, [turn, turn + 1, 0x21])
        s.lend(reply=LENT)
        s.digest(BUFFER, 0, LENT)
        s.state()
