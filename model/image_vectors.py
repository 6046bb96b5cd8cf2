"""Vectors of files: a line of words; the length of the valid file that starts it, or 'not valid'."""

import random

from build import file_of, header, segment
from files import DM, IO, PM, file_length, packed, sealed
from words import line_of, words_of

LEAST = {PM: 2, DM: 2, IO: 3}  # the shortest and the longest length that each memory has
MOST = {PM: 16382, DM: 16383, IO: 16383}
WORD = {PM: 1 << 24, DM: 1 << 16, IO: 1 << 16}


def some(pick, memory, length):
    """A valid segment of a length, its memory words, page and address anything that is valid."""
    page = pick.choice((0, 2, 3) if memory != IO else (0, 1, 2, 3))
    bits = pick.choice((2, 3)) if memory == IO else None
    words = [pick.randrange(WORD[memory]) for _ in range(length - 1)]
    return segment(memory, page << 14 | pick.randrange(16384), words, bits)


def short(pick, memory):
    """A valid segment of one of the first lengths that its memory has."""
    return some(pick, memory, LEAST[memory] + pick.randrange(5) * (1 if memory == DM else 2))


def any_file(pick, count):
    segments = [short(pick, pick.choice((PM, DM, IO))) for _ in range(count)]
    return file_of(segments, pick.randrange(2), pick.randrange(4), pick.randrange(256))


def valid(pick):
    for memory in (PM, DM, IO):
        yield file_of([some(pick, memory, LEAST[memory])])  # the shortest length
        for count in range(1, 15):  # 1 to 14 segments of one memory, as long as the run, and with words after the file
            words = file_of([short(pick, memory) for _ in range(count)], pick.randrange(2), pick.randrange(4), pick.randrange(256))
            yield words
            yield words + [pick.randrange(65536) for _ in range(pick.randrange(1, 9))]
    for count in range(1, 15):
        for _ in range(10):
            yield any_file(pick, count)
            yield any_file(pick, count) + [0xFFFF] * pick.randrange(4)
    for kind in range(2):  # each type, attribute and some names
        for attribute in range(4):
            for name in (0, 1, 0x7F, 0x80, 0xFF):
                yield file_of([short(pick, DM)], kind, attribute, name)
    for code in range(4):  # each memory code and each page code, valid or not
        for page in range(4):
            memory = {0: PM, 1: DM}.get(code, IO)
            yield file_of([segment(memory, page << 14 | 0x1234, [1] * (LEAST[memory] - 1), code)])


def longest(pick):
    """The longest segment of each memory: the file, and the same cut short by one word."""
    for memory in (PM, DM, IO):
        words = file_of([some(pick, memory, MOST[memory])])
        yield words
        yield words[:-1]


def one_rule(pick):
    """Runs that only one rule keeps from being valid: all else in them is right."""
    one, two = [0x1234], [0x1005, 0xBEEF]
    for kind in (2, 3):  # the type is 00 or 01
        yield file_of([segment(DM, 0, one)], kind)
    yield [header(0, 3, 0x21, 0)]  # at least one segment
    yield [header(0, 3, 0x21, 0)] + segment(DM, 0, one)
    yield file_of([segment(DM, 0, one) for _ in range(15)])  # at most 14 segments
    for filled in ([], [0], [0, 0]):  # PM has an even length: 3 taken for 2, rounded down, rounded up
        yield file_of([[0x0003, 0x0000] + sealed(packed(PM, [0xAABBCC]) + filled)])
    yield file_of([[0x0000, 0x0000]])  # PM has a length of 2 or more
    yield file_of([[0x4000, 0x0000]])  # DM has a length of 2 or more
    yield file_of([[0x4001, 0x0000] + sealed([])])
    for bits in (2, 3):
        yield file_of([[bits << 14 | 1, 0x0000] + sealed([])])  # IO has a length of 3 or more
        for length in (2, 4, 6):  # IO has an odd length
            yield file_of([segment(IO, 0, two[:1] * (length - 1), bits)])
    for address in (0, 0x1234, 0x3FFF):  # PM and DM have a page other than 01
        yield file_of([segment(PM, 0x4000 | address, [0xAABBCC])])
        yield file_of([segment(DM, 0x4000 | address, one)])
    for byte in (1, 2, 0x80, 0xFF):  # the last PM word is a zero byte and then the FCS
        yield file_of([[0x0002, 0x0000] + sealed([0xAABB, 0xCC00 | byte])])
        yield file_of([[0x0004, 0x0000] + sealed([0xAABB, 0xCCDD, 0xEEFF, 0x1122, 0x3300 | byte])])
    for memory, words in ((PM, [0xAABBCC]), (DM, one), (IO, two)):
        right = file_of([segment(memory, 0, words)])
        for bit in range(16):  # the FCS is right in each bit
            yield right[:-1] + [right[-1] ^ 1 << bit]
        yield right[:-1]  # the last word is inside the run
        yield [right[0] + 1] + right[1:]  # as many segments as the header says
        yield [right[0] + 1] + right[1:] + [pick.randrange(65536) for _ in range(20)]
        body = right[3:-1]  # the FCS covers the first word of the body, the last before it, and no header word
        yield right[:-1] + sealed(body[1:])[-1:]
        yield right[:-1] + sealed(body[:-1])[-1:]
        yield right[:-1] + sealed(right[1:-1])[-1:]
        yield right[:3] + sealed(body + [0])[:-1] + right[-1:]


def too_short(pick):
    """Runs that end in a header, and every front of a file."""
    yield []
    for word in (0x0000, 0x3211, 0xFFFF):
        yield [word]
        yield [word, 0x4002]
    words = file_of([short(pick, memory) for memory in (PM, DM, IO)])
    for end in range(1, len(words) + 1):
        yield words[:end]


def one_bit(pick):
    """Each bit of each word of a file changed, the words after the file too."""
    files = [file_of([some(pick, memory, LEAST[memory])]) for memory in (PM, DM, IO)]
    files += [any_file(pick, count) for count in (1, 1, 1, 2, 2, 2, 3, 3, 4)]
    for file in files:
        words = file + [pick.randrange(65536)]
        for at in range(len(words)):
            for bit in range(16):
                yield words[:at] + [words[at] ^ 1 << bit] + words[at + 1:]


def anything(pick):
    """Words of no meaning, many of them behind a header that may start a file."""
    for _ in range(200):
        words = [pick.randrange(65536) for _ in range(pick.randrange(1, 30))]
        words[0] = pick.choice((words[0], words[0] & 0x7FFF, 0x3211))
        yield words


def inputs():
    pick = random.Random(81)
    kinds = (valid, one_rule, too_short, one_bit, anything, longest)
    return "".join(line_of(words) for kind in kinds for words in kind(pick))


def outputs(stdin):
    lengths = (file_length(words_of(line)) for line in stdin.splitlines())
    return "".join("not valid\n" if length is None else "%d\n" % length for length in lengths)
