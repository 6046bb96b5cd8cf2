"""Vectors of the memories: Memory Read and Write, Perform IO and Load on lent memories of many lengths.

A line is what is done (0 PM Read, 1 DM Read, 2 PM Write, 3 DM Write, 4 Perform IO, 5 Load), the lengths of PM, DM, IO and the reply
that are lent, a seed, and then the two header words, the segment or the file. Each run that is lent holds the words that follow
from the seed, PM each of them twice."""

import random
from functools import lru_cache

from build import file_of, segment
from files import DM, IO, PM, segment_at, segments_of
from memory import fits, load, perform, read
from runs import check_sequence
from words import digest, line_of, run_of, words_of

PM_READ, DM_READ, PM_WRITE, DM_WRITE, PERFORM, LOAD = range(6)
FULL, REGISTERS, REPLY = 0x8000, 0x1000, 12288
SEEDS = (0x0000, 0x1234, 0xA5C3)
HEADER_PAGE = {0: 0, 4: 2, 5: 3}
BITS = {PM: 0, DM: 1}


def second_word(page, address):
    return HEADER_PAGE[page] << 14 | address


# Places of a run, first and last address: in each half, at its ends, across the middle, up to 3FFF.
PLACES = [(0x0000, 1), (0x0000, 5), (0x1FFB, 5), (0x1FFC, 5), (0x1FFE, 3), (0x1FFE, 5), (0x1FFF, 1), (0x1FFF, 3), (0x1FFF, 7), (0x2000, 1),
          (0x2000, 5), (0x2345, 3), (0x3FF9, 7), (0x3FFD, 3), (0x3FFF, 1), (0x0ABC, 9), (0x1234, 21), (0x1FF0, 33), (0x3F00, 255)]
PAST = [(0x3FFE, 3), (0x3FFF, 3), (0x3FFD, 5), (0x3F00, 257), (0x2000, 0x2001)]  # one or more addresses past 3FFF


def highest(memory, page, address, count):
    """The highest index of a run, address by address, and the lowest length that holds it."""
    fixed = 0 if memory == PM else 1
    own = {0: 0x2000, 4: 0x4000, 5: 0x6000}[page]
    return max((a % 0x2000) + (0 if a // 0x2000 == fixed else own) for a in range(address, address + count)) + 1


class Cases:
    def __init__(self):
        self.pick = random.Random(5)
        self.lines = []

    def add(self, what, words, pm=FULL, dm=FULL, io=REGISTERS, room=REPLY, seed=None):
        if seed is None:
            seed = self.pick.choice(SEEDS)
        self.lines.append([what, pm, dm, io, room, seed] + words)

    def values(self, memory, count):
        return [self.pick.randrange(1 << (24 if memory == PM else 16)) for _ in range(count)]

    def by_length(self, memory, what, words, length, **more):
        """The same with a lent memory that is empty, one word short, exact and full."""
        for lent in (0, 1, length - 1, length, min(length + 1, FULL), FULL):
            self.add(what, words, **{"pm" if memory == PM else "dm": lent}, **more)

    def runs(self, memory):
        reading, writing = (PM_READ, PM_WRITE) if memory == PM else (DM_READ, DM_WRITE)
        for page in (0, 4, 5):
            for address, count in PLACES:
                second = second_word(page, address)
                words = segment(memory, second, self.values(memory, count))
                length = highest(memory, page, address, count)
                self.by_length(memory, reading, words[:2], length)
                for lent in (0, length - 1, length, FULL):
                    self.add(writing, words, **{"pm" if memory == PM else "dm": lent})
                for room in (len(words), len(words) - 1, 3, 0):
                    self.add(reading, words[:2], room=room)
            for address, count in PAST:
                words = segment(memory, second_word(page, address), self.values(memory, min(count, 257)))
                words[0] = BITS[memory] << 14 | count + 1
                self.add(reading, words[:2])
                self.add(writing, words)

    def headers(self, memory):
        """Lengths that aren't permitted, page 01, other memories, a wrong FCS or zero byte, words too few or too many."""
        reading, writing = (PM_READ, PM_WRITE) if memory == PM else (DM_READ, DM_WRITE)
        for length in (0, 1, 2, 3, 4, 5, 8187, 8188, 8190, 12284, 12285, 12286, 16382, 16383):
            for bits in range(4):
                for second in (0x0000, 0x2000, 0x4000, 0x8000, 0xC001):
                    self.add(reading, [bits << 14 | length, second])
        for length in (8188, 8190, 12284, 12285):
            for room in (12284, 12285, 12286, 12287, 12288):
                self.add(reading, [BITS[memory] << 14 | length, 0x0000], room=room)
        for count in (1, 3, 11):
            good = segment(memory, 0x8123, self.values(memory, count))
            for at in range(len(good)):
                for bit in (0, 7, 8, 14, 15):
                    self.add(writing, good[:at] + [good[at] ^ 1 << bit] + good[at + 1:])
            for cut in (0, 1, 2, 3, len(good) - 1):
                self.add(writing, good[:cut])
            self.add(writing, good + [0])
        zero_byte = segment(PM, 0x0100, self.values(PM, 1))
        wrong = zero_byte[:3] + [zero_byte[3] | 0x5A]
        self.add(writing, wrong + [check_sequence(wrong[2:])])
        for other in (PM, DM, IO):
            self.add(writing, segment(other, 0x8000, self.values(DM, 3 if other != IO else 4)))

    def registers(self):
        for lent in (0, 1, 2, 16, 17, 4095, 4096):
            for bits in (2, 3):
                for word in (0x0000, 0x0001, 0x000F, 0x0010, 0x0FFF, 0x1000, 0x1001, 0x100F, 0x1010, 0x1FFF, 0x2000, 0x3000, 0x8001, 0xFFFF):
                    self.add(PERFORM, segment(IO, 0x4567, [word, self.pick.randrange(65536)], bits), io=lent)
        for _ in range(60):  # reads after writes of one register, and the other way round, with a bad ID now and then
            words = []
            for _ in range(self.pick.randrange(1, 12)):
                register = self.pick.choice((3, 3, 5, 7, 0x3F))
                words += [register | self.pick.choice((0, 0x1000)), self.pick.randrange(65536)]
            if self.pick.randrange(3) == 0:
                words += [self.pick.choice((0x1040, 0x0040, 0x2003)), 0x7777]
            good = segment(IO, self.pick.randrange(65536), words)
            for room in (len(good), len(good) - 1, REPLY):
                self.add(PERFORM, good, io=64, room=room)
        good = segment(IO, 0, [0x1003, 0x1111, 0x0003, 0x2222])
        for at in range(len(good)):
            self.add(PERFORM, good[:at] + [good[at] ^ 0x0100] + good[at + 1:], io=16)
        self.add(PERFORM, good + [0], io=16)
        for other in (PM, DM):
            self.add(PERFORM, segment(other, 0, self.values(DM, 3)))

    def random_segment(self):
        memory = self.pick.choice((PM, DM, IO))
        if memory == IO:
            words = []
            for _ in range(self.pick.randrange(1, 6)):
                words += [self.pick.choice((0, 0x1000)) | self.pick.randrange(32), self.pick.randrange(65536)]
            return segment(IO, self.pick.randrange(65536), words, self.pick.choice((2, 3)))
        count = self.pick.randrange(1, 40)
        count += memory == PM and count % 2 == 0
        address = self.pick.choice((0x0000, 0x0008, 0x1FF0, 0x2000, 0x2010, 0x3FFF - count))
        return segment(memory, second_word(self.pick.choice((0, 0, 4, 5)), address), self.values(memory, count))

    def files(self):
        for _ in range(120):  # overlapping segments: a later one over an earlier
            self.add(LOAD, file_of([self.random_segment() for _ in range(self.pick.randrange(1, 15))]))
        overlap = [segment(DM, 0x2000, [1, 2, 3, 4]), segment(DM, 0xA002, [5, 6, 7]), segment(PM, 0x1FFF, [0x111111, 0x222222, 0x333333]),
                   segment(PM, 0x0000, [0xAAAAAA]), segment(IO, 0, [0x1001, 0xBEEF, 0x0001, 0, 0x1002, 0xCAFE])]
        self.add(LOAD, file_of(overlap))
        self.add(LOAD, file_of(overlap[::-1]))
        for last in (segment(DM, 0x3FFE, [1, 2, 3]), segment(DM, 0x8000, [1]), segment(PM, 0xE000, [1]), segment(IO, 0, [0x0010, 0]), segment(IO, 0, [0x2001, 1])):
            for lent in ((0x2000, 0x2000, 16), (FULL, FULL, 16), (FULL, FULL, REGISTERS)):  # a last segment that doesn't fit
                self.add(LOAD, file_of(overlap[:1] + overlap[4:] + [last]), *lent)
        for lent in ((0, FULL, REGISTERS), (FULL, 0, REGISTERS), (FULL, FULL, 0), (0x2001, 7, 3), (0x2000, 7, 3), (0x2002, 5, 3), (0x2002, 5, 2)):
            self.add(LOAD, file_of(overlap), *lent)
        good = file_of(overlap)
        for at in range(0, len(good), 2):
            self.add(LOAD, good[:at] + [good[at] ^ 1 << self.pick.randrange(16)] + good[at + 1:])
        self.add(LOAD, good + [0xFFFF] * 5)
        self.add(LOAD, good[:-1])
        self.add(LOAD, [])
        self.add(LOAD, [0x3210])

    def long_runs(self):
        for page in (0, 4, 5):
            self.add(DM_READ, [1 << 14 | 8001, second_word(page, 0x1000)])
            self.add(PM_READ, [8002, second_word(page, 0x1001)])
        self.add(DM_WRITE, segment(DM, 0x9000, self.values(DM, 8000)))
        self.add(PM_WRITE, segment(PM, 0xD001, self.values(PM, 5459)))
        self.add(DM_READ, [1 << 14 | 12284, 0x0000])
        self.add(PM_READ, [8188, 0x0000])


def inputs():
    cases = Cases()
    for memory in (PM, DM):
        cases.runs(memory)
        cases.headers(memory)
    cases.registers()
    cases.files()
    cases.long_runs()
    return "".join(line_of(line) for line in cases.lines)


def shown_digest(words):
    return "%04x" % digest(words)


def pm_digests(pm):
    return [shown_digest([word & 0xFFFF for word in pm]), shown_digest([word >> 16 for word in pm])]


def shown(data, reply):
    """An answer that stands at the front of the reply, or ABORT; and the reply's digest."""
    if data is None:
        return ["0", "ABORT", shown_digest(reply)]
    reply = data + reply[len(data):]
    return ["1", "%d" % len(data)] + ["%04x" % word for word in data[:16]] + [shown_digest(reply)]


def done(ok):
    return ["1", "END"] if ok else ["0", "ABORT"]


def read_line(memory, words, memories, reply):
    data = read(memory, words[:2], memories) if len(words) == 2 else None
    return shown(data if data is not None and len(data) <= len(reply) else None, reply)


def exact(words, memory):
    """The segment that the words are, all of them, if it is one of this memory."""
    found = segment_at(words, 0)
    return found if found is not None and found[4] == len(words) and found[0] == memory else None


def write_line(memory, words, memories):
    found = exact(words, memory)
    ok = found is not None and fits(found, memories)
    if ok:
        load(found, memories)
    return done(ok) + (pm_digests(memories[PM]) if memory == PM else [shown_digest(memories[DM])])


def perform_line(words, memories, reply):
    found = exact(words, IO)
    if found is None or not fits(found, memories) or len(words) > len(reply):
        return shown(None, reply) + [shown_digest(memories[IO])]
    body = perform(memories[IO], found[3])
    return shown(words[:2] + body + [check_sequence(body)], reply) + [shown_digest(memories[IO])]


def load_line(words, memories):
    found = segments_of(words)
    ok = found is not None and all(fits(segment, memories) for segment in found)
    if ok:
        for segment_found in found:
            load(segment_found, memories)
    return done(ok) + [shown_digest(memories[IO]), shown_digest(memories[DM])] + pm_digests(memories[PM])


@lru_cache(maxsize=None)
def seeded(seed):
    return list(run_of(seed, FULL))


def outputs(stdin):
    lines = []
    for line in stdin.splitlines():
        what, pm, dm, io, room, seed, *words = words_of(line)
        run = seeded(seed)
        memories = {PM: [word * 65537 for word in run[:pm]], DM: run[:dm], IO: run[:io]}
        reply = run[:room]
        if what in (PM_READ, DM_READ):
            answer = read_line(PM if what == PM_READ else DM, words, memories, reply)
        elif what in (PM_WRITE, DM_WRITE):
            answer = write_line(PM if what == PM_WRITE else DM, words, memories)
        elif what == PERFORM:
            answer = perform_line(words, memories, reply)
        else:
            answer = load_line(words, memories)
        lines.append(" ".join(answer) + "\n")
    return "".join(lines)
