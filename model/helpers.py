"""helpers.py FOLDER: lines that try each helper of include/logodwen.h, FOLDER/helpers.txt, and what each comes to by the model,
FOLDER/helpers.stdout. A line is a helper's name and what it is given, numbers in hex; what it comes to is its words or fields in hex, or
0 where there is none. What a request has to be is written from 01 here; files, segments, fragments and replies are the model's."""

import random
import sys

import build
import capture
import event_vectors
import files
import flash
import group
import node
from files import DM, IO, PM
from runs import check_sequence

MEMORIES = (PM, DM, IO)
PAGE_BITS = {0: 0, 4: 2, 5: 3}
chance = random.Random(17)


def word():
    return chance.getrandbits(16)


def words(count):
    return [word() for _ in range(count)]


# Requests: 01 'Requests' and the parameters of each command.


def own(number, *parameters):
    return [number << 8 | 0x2E, *parameters]


def named(number):
    return lambda name: own(number, name << 4 | 1) if name <= 0xFF else []


def segment_of(memory, page, address, held):
    """The words of a segment, none where the length, the page or the address isn't permitted."""
    if not files.permitted(memory, len(held) + 1) or len(held) + 1 > 0x3FFF or address > 0x3FFF or page not in PAGE_BITS:
        return []
    mask = 0xFFFFFF if memory == PM else 0xFFFF
    return build.segment(memory, PAGE_BITS[page] << 14 | address, [value & mask for value in held])


def read_of(number, memory):
    def request(page, address, count):
        if not files.permitted(memory, count + 1) or count + 1 > 0x3FFF or address > 0x3FFF or page not in PAGE_BITS:
            return []
        return own(number, MEMORIES.index(memory) << 14 | count + 1, PAGE_BITS[page] << 14 | address)

    return request


def fitting(room, request):
    return request if request and len(request) <= room else []


def write_of(number, memory):
    def request(room, page, address, *held):
        segment = segment_of(memory, page, address, held)
        return fitting(room, own(number, *segment) if segment else [])

    return request


def perform_io(room, *held):
    segment = segment_of(IO, 0, 0, held)
    return fitting(room, own(0x0F, *segment) if segment else [])


def packets(room, *held):
    """A File Write as the packets of 02, request 1, as many words each as have room and at most 8,192: each behind its BC and its length;
    behind them BC 11, of no packet."""
    most, block = min(room, 8192), own(0x45, *held)
    if most < 2 or not held:
        return [3]
    parts = [block[at:at + most] for at in range(0, len(block), most)]
    told = []
    for number, part in enumerate(parts):
        told += [(number == 0) * 2 + (number == len(parts) - 1), len(part), *part]
    return told + [3]


def list_write(room, *numbers):
    """A Q-List Write of entries of five numbers each, header, repetitions, frequency of 24 bits and parameters; none where some can't be
    written: delayed, frequency 0, or a number too large (02, request 7)."""
    told = []
    for at in range(0, len(numbers), 5):
        header, repetitions, frequency, first, second = numbers[at:at + 5]
        if header > 0xFF or not header & 0x08 or not 0 < frequency < 1 << 24 or max(repetitions, first, second) > 0xFFFF:
            return []
        told += [frequency >> 16 << 8 | header, repetitions, frequency & 0xFFFF, first, second]
    count = len(numbers) // 5
    return fitting(room, own(0x5C, *segment_of(DM, 0, 0x2000, [count, *told]))) if count <= 910 else []


REQUESTS = {
    "status": lambda: own(0x0C),
    "summary": lambda: own(0x07),
    "mode_read": lambda: own(0x12),
    "mask_read": lambda: own(0x17),
    "list_read": lambda: own(0x1C),
    "event_read": lambda: own(0x01),
    "event_number": lambda: own(0x02),
    "event_reset": lambda: own(0x42),
    "list_delete_expired": lambda: own(0x5B),
    "list_delete_all": lambda: own(0x5B, 0xFFFF),
    "list_delete": lambda place: own(0x5B, place) if place < 910 else [],
    "list_write": list_write,
    "file_read": named(0x05),
    "file_test": named(0x06),
    "file_load": named(0x46),
    "erase_start": named(0x47),
    "erase_start_at": lambda sector: own(0x47, flash.address_of(sector)) if sector in flash.SECTORS else [],
    "attribute_set": lambda name, value: own(0x48, name << 4 | 1, value) if name <= 0xFF else [],
    "mode_write": lambda mode: own(0x52, mode) if mode <= 3 else [],
    "mask_write": lambda mask, slaves: own(0x57, mask << 8 | slaves >> 16, slaves & 0xFFFF) if mask < 16 and slaves < 1 << 24 else [],
    "pm_read": read_of(0x10, PM),
    "dm_read": read_of(0x11, DM),
    "pm_write": write_of(0x50, PM),
    "dm_write": write_of(0x51, DM),
    "perform_io": perform_io,
    "packets": packets,
    "file_write": lambda room, *held: fitting(room, own(0x45, *held) if 0 < len(held) < 8192 else []),
    "ping": lambda room, *held: fitting(room, own(0x0D, *held) if len(held) <= 8000 else []),
    "to_slave": lambda slave: [0x3F00 | slave] if slave < 24 else [],
    "to_mask": lambda mask: [mask << 8 | 0x40] if mask < 16 else [],
    "to_slaves": lambda slaves: [(slaves & 0xFF) << 8 | 0x23, slaves >> 8] if 0 < slaves < 1 << 24 else [],
    "to_all": lambda: [0x2A],
}


def some_entry():
    """Header, repetitions, frequency and parameters of an entry that can be written."""
    return [chance.getrandbits(8) | 0x08, word(), chance.choice((1, 0xFFFF, 0x10000, 0xFFFFFF, chance.randrange(1, 1 << 24))), word(), word()]


def request_lines():
    def line(name, *given):
        return (name, *given), REQUESTS[name](*given)

    for name in ("status", "summary", "mode_read", "mask_read", "list_read", "list_delete_expired", "list_delete_all", "to_all", "event_read",
                 "event_number", "event_reset"):
        yield line(name)
    for value in (0, 1, 909, 910, 0xFFFF, 0x10000, 0xFFFFFFFF):
        yield line("list_delete", value)
    for count in (0, 1, 2, 9, 909, 910, 911):
        for room in (0, 1, 4, 5, 9, 10, 11, 5 * count + 4, 5 * count + 5, 9000):
            yield line("list_write", room, *(number for _ in range(count) for number in some_entry()))
    for place, value in ((0, 0), (0, 0xF7), (0, 0x108), (0, 0xFFFFFFF8), (1, 0), (1, 0xFFFF), (1, 0x10000), (2, 0), (2, 1), (2, 0xFFFF),
                         (2, 0x10000), (2, 0xFFFFFF), (2, 0x1000000), (2, 0xFFFFFFFF), (3, 0x10000), (4, 0xFFFF), (4, 0x80000000)):
        entry = some_entry()
        entry[place] = value
        for entries in (entry, some_entry() + entry, entry + some_entry()):
            yield line("list_write", 100, *entries)
    for name in ("file_read", "file_test", "file_load", "erase_start"):
        for value in (0, 1, 0x21, 0xFF, 0x100, 0xFFFFFFFF):
            yield line(name, value)
    for value in (0, 2, *range(3, 11), 11, 0xFFFFFFFF):
        yield line("erase_start_at", value)
    for value in (0, 0x42, 0xFF, 0x100):
        yield line("attribute_set", value, 0)
        yield line("attribute_set", value, 1)
    for value in (0, 1, 2, 3, 4, 0xFFFFFFFF):
        yield line("mode_write", value)
    for mask in (0, 1, 9, 15, 16, 0xFFFFFFFF):
        for slaves in (0, 1, 0xA5, 0x00FF00, 0x123456, 0xFFFFFF, 0x1000000, 0xFFFFFFFF):
            yield line("mask_write", mask, slaves)
        yield line("to_mask", mask)
    for slaves in (0, 1, 0xA0, 0x00FF00, 0x123456, 0xFFFFFF, 0x1000000, 0xFFFFFFFF):
        yield line("to_slaves", slaves)
    for slave in (0, 5, 23, 24, 0x100):
        yield line("to_slave", slave)
    for name in ("pm_read", "dm_read"):
        for count in (0, 1, 2, 3, 100, 0x3FFC, 0x3FFD, 0x3FFE, 0x3FFF, 0x10001):
            yield line(name, chance.choice((0, 4, 5)), chance.randrange(0x4000), count)
        for page in (0, 1, 2, 3, 4, 5, 6):
            yield line(name, page, 0x2000, 3)
        yield line(name, 0, 0x4000, 3)
    for name in ("pm_write", "dm_write"):
        for count in (0, 1, 2, 3, 4, 5, 50, 51):
            for room in (0, 1, 2, 3, 4, 5, 6, 7, 9, 10, 53, 54, 55, 80, 81, 82, 200):
                given = [chance.getrandbits(32 if name == "pm_write" else 16) for _ in range(count)]
                yield line(name, room, chance.choice((0, 4, 5)), chance.randrange(0x4000), *given)
        yield line(name, 100, 3, 0, 1)
        yield line(name, 100, 0, 0x4000, 1)
    for count in (0, 1, 2, 3, 4, 10):
        for room in (0, 1, 5, 6, 7, 8, 14, 20):
            yield line("perform_io", room, *words(count))
    for name in ("ping", "file_write"):
        for count in (0, 1, 7, 8000, 8001, 8191, 8192):
            for room in (0, count, count + 1, 9000):
                yield line(name, room, *words(count))
    for count in (0, 1, 2, 7, 100, 8191, 8192, 8193, 16383, 16384, 20000, 32768):
        for room in (0, 1, 2, 3, count, count + 1, 8191, 8192, 9000):
            yield line("packets", room, *words(count))


# Files and segments.


def some_segment(most=9):
    """A segment as (memory, page, address, memory words)."""
    memory = chance.choice(MEMORIES)
    count = chance.randrange(1, most)
    if memory == PM:
        count |= 1
    if memory == IO:
        count += count % 2
    held = [chance.getrandbits(24 if memory == PM else 16) for _ in range(count)]
    return (memory, 0, 0, held) if memory == IO else (memory, chance.choice((0, 4, 5)), chance.randrange(0x4000), held)


def file_words(kind, attribute, name, segments):
    return build.file_of([segment_of(*segment) for segment in segments], kind, attribute, name)


def file_lines():
    for _ in range(200):
        kind, attribute, name = chance.choice((0, 1)), chance.randrange(4), chance.randrange(256)
        segments = [some_segment() for _ in range(chance.choice((0, 1, 2, 3, 14, 15)))]
        given, made = [], file_words(kind, attribute, name, segments) if len(segments) <= 14 else []
        for memory, page, address, held in segments:
            given += [MEMORIES.index(memory), page, address, len(held), *held]
        room = max(0, len(made) + chance.choice((-1, 0, 0, 0, 1, 50))) if made else 500
        wrong = chance.randrange(12)
        if wrong == 0:
            kind = chance.choice((2, 3, 4))
        if wrong == 1:
            name |= 0x100
        fits = kind <= 1 and name <= 0xFF and len(made) <= room
        yield ("file", room, kind, attribute, name, *given), made if fits else []


def read_file(held):
    """Length, type, attribute, name, segments; then of each segment memory, page, address, count and words."""
    length = files.file_length(held)
    if length is None:
        return []
    header = held[0]
    fields = [length, header >> 14, header >> 12 & 3, header >> 4 & 0xFF, header & 15]
    for memory, page, address, inside, _ in files.segments_of(held):
        where = [0, 0] if memory == IO else [page, address]
        fields += [MEMORIES.index(memory), *where, len(inside), *inside]
    return fields


def damaged(held):
    held = list(held)
    way = chance.randrange(4)
    if way == 0:
        return held[:chance.randrange(len(held))]
    if way == 1:
        return held + words(chance.randrange(1, 4))
    at = chance.randrange(min(len(held), 4)) if way == 2 else chance.randrange(len(held))
    held[at] ^= 1 << chance.randrange(16)
    return held


def reading_lines():
    yield ("read_file",), []
    for _ in range(600):
        segments = [some_segment() for _ in range(chance.choice((1, 1, 2, 3, 14)))]
        held = file_words(chance.choice((0, 1)), chance.randrange(4), chance.randrange(256), segments)
        yield ("read_file", *held), read_file(held)
        held = damaged(held)
        yield ("read_file", *held), read_file(held)
    for _ in range(200):
        held = words(chance.randrange(20))
        yield ("read_file", *held), read_file(held)


# Replies.


def is_sealed(reply):
    return len(reply) >= 2 and group.is_sealed(reply)


def with_status(data, status):
    return [*data, status, check_sequence([*data, status])]


def status_lines():
    for _ in range(100):
        kind, ports, clock = chance.choice((1, 2)), chance.randrange(1, 5), chance.getrandbits(32)
        versions, tests, subdetector = words(2), word(), chance.randrange(8)
        image = [0xFFFF] * 32768
        state, _ = node.start(kind, ports, subdetector, *versions, tests, clock, image)
        lent = node.Lent(image, {PM: [], DM: [], IO: []}, [0] * 32768, [], [0] * 12288, [0] * 12288)
        for _ in range(chance.randrange(3)):
            state, _ = node.request(state, lent, clock, 0, 3, 1, [])
        ticks, link = chance.getrandbits(32), chance.randrange(ports)
        state, answer = node.request(state, lent, (clock + ticks) % 2**32, link, 3, 0, own(0x0C))
        reply = lent.reply[:answer[2]]
        errors = state.amswire
        fields = [versions[0], 1, kind, subdetector, ports, versions[1], ticks, (0x2000 if errors else 0) | tests & 0xF00 | link, tests & 0xF00,
                  link, 0, 0, errors, 0, reply[10]]
        yield ("read_status", *reply), fields
        for broken in (damaged(reply), with_status(words(9), word()), with_status(words(11), word())):
            yield ("read_status", *broken), []


def sector_lines():
    """Sectors in a flash of so many bytes: whether it may have them, then words, first word and address (02, request 11)."""
    sizes = [2 * size for size in flash.SIZES]
    for size in (*sizes, 0, 1, 32768, 65535, 65537, 65538, 131072, 262144, 524286, 524287, 524289, 2**32 - 1):
        for sector in (*flash.SECTORS, 0, 2, 11, 2**32 - 1):
            is_there = size in sizes and sector in flash.SECTORS
            places = flash.extent(size // 2, sector) if is_there else range(0)
            yield ("sector", size, sector), [size in sizes, len(places), places.start, flash.address_of(sector) if sector in flash.SECTORS else 0]


def entry_lines():
    for _ in range(60):
        entries, directory = [], []
        for sector in flash.SECTORS:
            status = chance.randrange(4)
            first = 0xFFFF if status == 0 else 0x3001 | chance.randrange(256) << 4
            length = chance.choice((5, 4096, 32768, chance.randrange(5, 32769))) if status == 1 else 0  # 02, request 6
            directory += [first, flash.address_of(sector), (0, 0, 0x8000, 0x4000)[status], length]
            entries.append([sector, flash.address_of(sector), first, status, length])
        reply = with_status(directory, 0x01A0)
        for sector in (*flash.SECTORS, 2, 11):
            yield ("read_entry", sector, *reply), entries[sector - 3] if sector in flash.SECTORS else []
        for broken in (damaged(reply), with_status(words(31), word()), with_status(words(33), word())):
            yield ("read_entry", 3, *broken), []


def named_lines():
    """Few names in eight sectors, so that many are there twice (02, request 10), among first words that begin no file."""
    for _ in range(60):
        firsts = {sector: chance.choice((0xFFFF, word(), 0x4002 | chance.randrange(4) << 4)) for sector in flash.SECTORS}
        directory = [part for sector, first in firsts.items() for part in (first, flash.address_of(sector), chance.choice((0, 0x8000)), 0)]
        reply = with_status(directory, 0x01A0)
        for name in (0, 1, 2, 3, 0xFF, 0x100, files.name_of(firsts[5])):
            found = [sector for sector, first in firsts.items() if files.may_start(first) and files.name_of(first) == name]
            yield ("read_named", name, *reply), [sum(1 << sector for sector in found)]
            yield ("read_named", name, *damaged(reply)), [0]


def list_lines():
    """Entries that a node lists, as they stand in its list and in its reply to Q-List Read."""
    for count, more in ((0, 0), (1, 0), (1, 6), (2, 1), (7, 5), (910, 0)):
        image, clock, entries = [0xFFFF] * 32768, chance.getrandbits(32), [some_entry() for _ in range(count)]
        state, _ = node.start(1, 1, 0, 0, 0, 0, clock, image)
        lent = node.Lent(image, {PM: [], DM: [], IO: []}, [0] * 32768, words(7 * count + more), [0] * 12288, [0] * 12288)
        state, _ = node.request(state, lent, clock, 0, 3, 0, list_write(9000, *(number for entry in entries for number in entry)))
        _, answer = node.request(state, lent, clock, 0, 3, 0, own(0x1C))
        reply = lent.reply[:answer[2]]
        for place in {0, count // 2, count - 1} & set(range(count)):
            yield ("read_record", place, *lent.qlist), [*entries[place], (clock + entries[place][2]) % 2**32]
            yield ("read_listed", place, *reply), [*entries[place], 0]
        for place in (count, count + 1, 0xFFFFFFFF):
            yield ("read_record", place, *lent.qlist), []
            yield ("read_listed", place, *reply), []
            yield ("read_listed", place, *reply[:2]), []
        yield ("read_list", *reply), [1, count]
        for broken in (damaged(reply), reply[:-1], with_status([*reply[:-2], 0], 0x01A0), with_status([count + 1, *reply[1:-2]], 0x01A0), []):
            yield ("read_list", *broken), []


def some_packet(bc=None, before=()):
    """A packet, mostly with a right FCS over the words before it and its own."""
    way = chance.randrange(9)
    held = words(chance.randrange(0, 12))
    if way < 6:
        held = [*held, check_sequence([*before, *held])]
    if way == 7:
        held = []
    late, errors = chance.randrange(12) == 0, chance.randrange(12) == 0
    return group.Answer(late, errors, word(), word(), chance.choice((3, 3, 3, 2, 2, 1, 0)) if bc is None else bc, held)


def some_fragment(slave, built, left):
    """What some packets of a slave make: as many as its reply takes."""
    packets, made = [some_packet()], group.MORE
    while made is group.MORE:
        made = capture.fragment_of(slave, packets, built, left)
        packets.append(some_packet(chance.choice((0, 0, 1, 1, 1, 2, 3)), [held for packet in packets for held in packet.words]))
    return made


def group_fields(slave, dat, code, body):
    """Slave, code with DAT, the slave's status, RX status, RX address, reply length, first word, then the data."""
    fields = [slave, dat << 4 | code, body[-1] & 0x07E0]
    if (dat, code) == (0, 6):
        return [*fields, *body[1:3], 0, 0, 0]
    if dat and code:
        return [*fields, body[1], 0, *body[2:4], 0]
    return [*fields, 0, 0, 0, 0, len(body) - 2, *body[1:-1]]


CODES = {
    0x01: "NEXT", 0x02: "ABORT", 0x03: "ERROR", 0x04: "END", 0x05: "late", 0x06: "receive errors", 0x10: "DATA", 0x11: "not the first packet",
    0x12: "no room", 0x13: "one word", 0x14: "another event", 0x15: "wrong FCS", 0x16: "late after NEXT", 0x17: "empty after NEXT",
    0x18: "first packet again", 0x1A: "no room for a packet", 0x1B: "another event, in packets", 0x1C: "wrong FCS of the joined reply",
}
OF_EVENTS = (0x14, 0x1B)  # codes that a group doesn't have


def row_of(packets):
    """A list of requests: each packet behind its link, its BC and its length (02, request 9)."""
    return [number for link, bc, held in packets for number in (link, bc, len(held), *held)]


def added(room, packets):
    """Which of the packets are added to a list, one after the other: those that have room, and whose numbers a list can have."""
    told, laid = [], []
    for packet in packets:
        link, bc, held = packet
        told.append(link <= 0xFFFF and bc <= 3 and len(held) <= 0xFFFF and len(row_of([*laid, packet])) <= room)
        laid += [packet] * told[-1]
    return [*map(int, told), len(laid), *(row_of(laid) or [0])]


def added_file(room, link, held):
    """A File Write behind a Mode Read of link 1, whole, or none of it."""
    laid = [(1, 3, own(0x12))] if room >= 4 else []
    told, at, parts = packets(8192, *held), 0, []
    while at + 1 < len(told):
        parts.append((link, told[at], told[at + 2:at + 2 + told[at + 1]]))
        at += 2 + told[at + 1]
    is_added = held and link <= 0xFFFF and len(row_of([*laid, *parts])) <= room
    laid += parts if is_added else []
    return [1 if is_added else 0, len(laid), *(row_of(laid) or [0])]


def walked(row, before):
    """Packets in a row, each behind so many words, the last two BC and length, up to the first that doesn't stand there; then that place."""
    at = 0
    while len(row) - at >= before and row[at + before - 2] <= 3 and len(row) - at - before >= row[at + before - 1]:
        past = at + before + row[at + before - 1]
        yield from row[at:past]
        at = past
    yield at


def row_lines():
    """Lists that are laid, and the walks over them and over replies, whole, cut short, and with a BC that is none."""
    def some():
        return chance.choice((0, 1, 3, 0xFFFF)), chance.randrange(4), words(chance.choice((0, 0, 1, 2, 5, 40)))

    for _ in range(60):
        made = [some() for _ in range(chance.randrange(6))]
        row = row_of(made)
        for room in {len(row), len(row) + 1, max(len(row) - 1, 0), chance.randrange(len(row) + 3), 0}:
            yield ("packets_add", room, *row), added(room, made)
        wrong = [*made, (chance.choice((0, 0x10000)), chance.choice((4, 0x103, 3)), words(2)), (0, 3, words(1))]
        yield ("packets_add", 1000, *row_of(wrong)), added(1000, wrong)
        for cut in {len(row), chance.randrange(len(row) + 1), max(len(row) - 1, 0)}:
            yield ("read_packet", *row[:cut]), [*walked(row[:cut], 3)]
        replies = [number for _, bc, held in made for number in (bc, len(held), *held)]
        for more in ([], [0], [4, 0], [3], [3, 1], [0x103, 1, 7], [3, 0xFFFF, 1, 2]):
            yield ("read_reply", *replies, *more), [*walked([*replies, *more], 2)]
    for count, room in ((0, 50), (1, 9), (1, 8), (1, 0), (40, 48), (40, 47), (8191, 9000), (8192, 9000), (8192, 8200), (20000, 20013),
                        (20000, 20014)):
        held = words(count)
        for link in (0, 3, 0x10000):
            yield ("packets_add_file", room, link, *held), added_file(room, link, held)
    for bc, text in enumerate(("NEXT", "ERROR", "ABORT", "END")):
        yield ("packet_text", bc, 0), [ord(letter) for letter in text]
        yield ("packet_text", bc, 1 + word()), [ord(letter) for letter in "DATA"]


def code_lines():
    """The text of each code, with DAT worth 10 hex, as its letters' numbers; what is none is 'no code'."""
    for code in (*range(33), 0x20, 0x30, 0x116, 0xFFFFFFFF):
        yield ("code_text", code), [ord(letter) for letter in CODES.get(code, "no code")]


def group_lines():
    for _ in range(300):
        slaves = sorted(chance.sample(range(24), chance.choice((1, 2, 3, 5, 24))))
        built, fields, tally = [], [], 0
        for place, slave in enumerate(slaves):
            dat, code, body = some_fragment(slave, len(built), len(slaves) - place - 1)
            tally = group.tally_with(tally, dat, code)
            fields += group_fields(slave, dat, code, body)
            built += body
        reply = built + group.ending(built, tally, 0x01A0)
        yield ("read_group", *reply), [1, *fields]
        for length in (0, 1, 2, 3, chance.randrange(len(reply))):
            yield ("read_group", *reply[:length]), [0]
        broken = list(reply)
        broken[chance.randrange(len(broken))] ^= 1 << chance.randrange(16)
        yield ("read_group", *broken), [0]
    # fragments that no node lays, under a right FCS: too long, of length 0, of no slave, of no code, of a wrong length for their code
    for built in ([5, 0x8005], [0, 0x8005], [1, 0x8018], [1, 0x8805], [2, 1, 0x1005], [1, 0x3005], [1, 0x1025], [1, 0x3805], [1, 0xB005],
                  [3, 1, 2, 0xB005], [4, 1, 2, 3, 0xB025], [4, 1, 2, 3, 0xE405], [1, 0x1005, 1], [0xFFFF, 0x8005]):
        yield ("read_group", *with_status(built, 0x0300)), [0]
    for code in range(1, 16):
        fields, body = [5, 0x10 | code, 0, 1, 0, 2, 3, 0], [4, 1, 2, 3, 0x8005 | code << 11]
        is_code = 0x10 | code in CODES
        yield ("read_group", *with_status(body, 0x0300)), [1, *fields] if is_code and 0x10 | code not in OF_EVENTS else [0]
        yield ("read_event", *with_status([9, *body, 0, 0], 0x0300)), [1, 9, 0, 0x0300, *fields] if is_code else [0]


def event_lines():
    """Events that slaves' answers make, by packets of which some begin with the number; cut short, damaged, and with what no node lays."""
    for _ in range(300):
        slaves = sorted(chance.sample(range(24), chance.choice((1, 2, 3, 5, 24))))
        area, last, fields = [0] * group.AREA, word(), []
        building = event_vectors.Build(area, sum(1 << slave for slave in slaves), last, 0x01A0, 0)
        answer = building.answer
        while answer[0] in ("read", "next"):
            before, packet = building.kept, some_event_packet(building)
            answer = building.take(0, packet)
            if answer[0] == "next" or building.kept and building.kept.slave == before.slave:
                continue
            body = area[1 + before.words:]
            left_out = building.kept.left_out if building.kept else area[answer[1] - 4] << 16 | area[answer[1] - 3] if answer[0] == "built" else 0
            if not left_out >> before.slave & 1:
                body = body[:1 + body[0]]
                fields += group_fields(before.slave, body[-1] >> 15, body[-1] >> 11 & 15, body)
        if answer[0] == "no event":
            continue
        words_of_event = area[:answer[1]]
        left_out = words_of_event[-4] << 16 | words_of_event[-3]
        yield ("read_event", *words_of_event), [1, (last + 1) % 65536, left_out, words_of_event[-2], *fields]
        for length in (0, 1, 4, chance.randrange(len(words_of_event))):
            yield ("read_event", *words_of_event[:length]), [0]
        broken = list(words_of_event)
        broken[chance.randrange(len(broken))] ^= 1 << chance.randrange(16)
        yield ("read_event", *broken), [0]
    for body in ([1, 0x8005], [5, 0x8005], [0, 0x8005], [1, 0x8018], [1, 0x9005], [1, 0x1005, 1], [0xFFFF, 0x8005]):
        yield ("read_event", *with_status([1, *body, 0, 0], 0x0300)), [0]  # the first is left out of an event
    yield ("read_event", *with_status([1, 0x0100, 0], 0)), [0]  # slave 24
    yield ("read_event", *with_status([1, 0x00FF, 0xFFFF], 0)), [1, 1, 0xFFFFFF, 0]
    for number in (0, 1, 0xFFFF):
        reply = with_status([number, 0], 0x0020)
        yield ("read_event_number", *reply), [1, number]
        for broken in (damaged(reply), reply[:-1], [*reply, 0], with_status([number, 0, 0], 0x0020), []):
            yield ("read_event_number", *broken), [0]


def some_event_packet(building):
    """A packet as above, of which a first one mostly begins with the event's number."""
    kept = building.kept
    received = building.area[kept.words + 2:kept.words + 2 + kept.received]
    if received:
        return some_packet(chance.choice((0, 0, 1, 1, 1, 2, 3)), received)
    packet = some_packet()
    if len(packet.words) > 1 and chance.randrange(6):
        held = [building.number, *packet.words[1:-1]]
        packet.words = [*held, check_sequence(held)]
    return packet


def fcs_lines():
    for count in (0, 1, 2, 3, 4, 12, 31, 32, 33, 500, 12288):
        held = words(count)
        yield ("fcs", *held), [check_sequence(held)]
        yield ("sealed", *held), [1 if is_sealed(held) else 0]
        held = with_status(held, word())
        yield ("sealed", *held), [1]
        yield ("sealed", *held[:-1]), [1 if is_sealed(held[:-1]) else 0]
    yield ("sealed", 0xFFFF), [0]  # the FCS of no words, but no reply


def main(folder):
    with open(folder + "/helpers.txt", "w") as given, open(folder + "/helpers.stdout", "w") as wanted:
        for lines in (request_lines(), file_lines(), reading_lines(), status_lines(), sector_lines(), entry_lines(), named_lines(), list_lines(),
                      group_lines(), event_lines(), code_lines(), row_lines(), fcs_lines()):
            for (name, *numbers), comes_to in lines:
                given.write(" ".join([name, *("%X" % number for number in numbers)]) + "\n")
                wanted.write(" ".join("%X" % number for number in comes_to or [0]) + "\n")


if __name__ == "__main__":
    if len(sys.argv) != 2:
        sys.exit(__doc__)
    main(sys.argv[1])
