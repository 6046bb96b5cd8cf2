"""Vectors of saving what is readable (02, request 14): a line is a sector's words; the answer is how many segments are kept, whether it is
copied, reduced or lost, and the words of the new sector, parted by tabs."""

import random

from build import file_of, header, segment
from files import DM, IO, PM, sealed
from flash import BLANK
from image_vectors import LEAST, any_file, short, some
from salvage import salvage_sector
from words import line_of, words_of

SECTOR = 4096  # words, of the larger sectors of a bench flash
MEMORIES = (PM, DM, IO)


def blanks(count):
    return [BLANK] * count


def segments(pick, count, memories=MEMORIES):
    return [short(pick, pick.choice(memories)) for _ in range(count)]


def sector_of(pick, parts, count=None):
    """A sector that segments begin, with some blank words behind them or none; `count` is what its header says where that is not their
    number."""
    first = header(pick.randrange(2), pick.randrange(4), pick.randrange(256), len(parts) if count is None else count)
    return [first] + [word for part in parts for word in part] + blanks(pick.choice((0, 1, 2, 5, 20)))


def flipped(pick, words, places):
    """Words with one bit changed in one of the places."""
    at = pick.choice(places)
    return words[:at] + [words[at] ^ 1 << pick.randrange(16)] + words[at + 1:]


# Ways to break a segment so that its header still leads to the next one: each takes a valid segment of a memory.


def wrong_sum(pick, part):
    return flipped(pick, part, (len(part) - 1,))


def wrong_body(pick, part):
    return flipped(pick, part, range(2, len(part) - 1))


def wrong_page(pick, part):
    return [part[0], part[1] & 0x3FFF | 0x4000] + part[2:]


def wrong_zero_byte(pick, part):
    """Of PM: the byte before the FCS is not zero, and the FCS is right."""
    return part[:2] + sealed(part[2:-2] + [part[-2] | pick.randrange(1, 256)])


BREAKS = {PM: (wrong_sum, wrong_body, wrong_page, wrong_zero_byte), DM: (wrong_sum, wrong_body, wrong_page), IO: (wrong_sum, wrong_body)}


def not_permitted(pick):
    """Segments of lengths that 01 doesn't permit, each as long as its header says, with a right FCS where there is room for one."""
    second = pick.choice((0, 2, 3)) << 14 | pick.randrange(16384)
    yield [0x0000, second]  # PM 0
    yield [0x4000, second]  # DM 0 and 1
    yield [0x4001, second] + sealed([])
    for bits in (2, 3):  # IO even, and 1
        yield [bits << 14, second]
        yield [bits << 14 | 1, second] + sealed([])
        for length in (2, 4, 10):
            yield segment(IO, second, [pick.randrange(65536) for _ in range(length - 1)], bits)


def odd_program(pick):
    """PM segments of an odd length, their bodies as long as that rounded down or up."""
    for length in (1, 3, 5):
        for size in (3 * length // 2, 3 * length // 2 + 1):
            yield [length, 0x0000] + sealed([pick.randrange(65536) for _ in range(size - 1)])


def broken(pick, memory):
    """A segment that is not valid, but can be followed."""
    return pick.choice(BREAKS[memory])(pick, short(pick, memory))


# The kinds of sector.


def empty(pick):
    """Blank sectors, and such as are blank but for a bit or a word."""
    for count in (1, 2, 3, 4, 5, 17, 80):
        yield blanks(count)
        for at in {0, 1, count // 2, count - 1} & set(range(count)):
            yield flipped(pick, blanks(count), (at,))
            yield blanks(at) + [pick.randrange(65536)] + blanks(count - at - 1)


def good(pick):
    for memory in MEMORIES:
        for count in range(1, 15):
            yield sector_of(pick, segments(pick, count, (memory,)))
    for count in range(1, 15):
        for _ in range(5):
            yield any_file(pick, count)  # which fills the sector
            yield any_file(pick, count) + blanks(pick.randrange(1, 9))


def first_word(pick):
    """Headers of each type and count above the same segments, some of which are broken."""
    for kind in range(4):
        for count in range(16):
            for parts in (segments(pick, count), segments(pick, count - 1) + [broken(pick, DM)] if count else []):
                yield [header(kind, pick.randrange(4), pick.randrange(256), count)] + [word for part in parts for word in part] + blanks(4)
    for count in range(16):  # three segments, and a header that says fewer or more, above blank words and above words of no meaning
        words = sector_of(pick, segments(pick, 3), count)
        yield words
        yield words + [pick.randrange(65536) for _ in range(12)]
        yield words + [0] * 24  # two zeros are a header of PM with length 0, which leads on


def one_broken(pick):
    """Each segment of files of 1 to 14, broken in each way."""
    for count in range(1, 15):
        for place in range(count):
            for memory in MEMORIES:
                for way in BREAKS[memory]:
                    if count > 5 and pick.randrange(4):
                        continue
                    parts = segments(pick, count)
                    parts[place] = way(pick, short(pick, memory))
                    yield sector_of(pick, parts)


def one_length(pick):
    """A segment whose length is not permitted, or an odd number of PM words, as the only, the first, a middle and the last one."""
    for count, place in ((1, 0), (2, 0), (2, 1), (3, 1), (5, 0), (5, 2), (5, 4), (14, 0), (14, 6), (14, 13)):
        for part in (*not_permitted(pick), *odd_program(pick)):
            parts = segments(pick, count)
            parts[place] = part
            yield sector_of(pick, parts)


def several_broken(pick):
    for count in range(2, 15):
        for _ in range(6):  # two of them
            parts = segments(pick, count)
            for place in pick.sample(range(count), 2):
                parts[place] = broken(pick, pick.choice(MEMORIES))
            yield sector_of(pick, parts)
        for _ in range(3):  # any of them
            parts = [broken(pick, pick.choice(MEMORIES)) if pick.randrange(2) else part for part in segments(pick, count)]
            yield sector_of(pick, parts)
    for count in range(1, 15):  # all of them
        yield sector_of(pick, [broken(pick, pick.choice(MEMORIES)) for _ in range(count)])
        yield sector_of(pick, [pick.choice([*not_permitted(pick)]) for _ in range(count)])


def remains(pick):
    """Words behind the file that are not blank: right behind it, at the end of the sector, and anywhere; also behind a broken one."""
    for count in range(1, 15):
        for whole in (segments(pick, count), segments(pick, count - 1) + [broken(pick, PM)]):
            words = [header(0, 3, 0x21, count)] + [word for part in whole for word in part]
            yield words + [0x0000]
            yield words + blanks(7) + [0xFFFE]
            yield words + [pick.randrange(65536) for _ in range(9)]
            yield words + words[1:]
            yield flipped(pick, words + blanks(9), range(len(words), len(words) + 9))


def led_out(pick):
    """Headers that lead out of the sector: of each segment, by one word, by many, and by none, which is followed."""
    for count in (1, 2, 3, 7, 14):
        for place in range(count):
            for memory, bits in ((PM, 0), (DM, 1), (IO, 2), (IO, 3)):
                parts = segments(pick, count)
                room = sum(len(part) for part in parts[place:]) + 4  # for the body
                for size in (room, room + 1, room + 3, 0x3FFE):  # PM has three words more or none
                    length = size * 2 // 3 & ~1 if memory == PM else size
                    parts[place] = [bits << 14 | length] + parts[place][1:]
                    if count < 7 or pick.randrange(6) == 0:
                        yield [header(1, 2, 0x42, count)] + [word for part in parts for word in part] + blanks(6)


def headers_of_blanks(pick):
    """A header of FFFF words is IO of 16,383 words: it is followed like any other, here out of the sector."""
    for count in range(1, 15):
        for place in {0, count // 2, count - 1}:
            parts = segments(pick, count)
            parts[place] = blanks(2) + parts[place][2:]
            yield sector_of(pick, parts)
        yield [header(0, 3, 0x21, count)] + blanks(pick.randrange(1, 20))


def cut(pick):
    """Every front of a file, alone, with a broken segment before the end, and with blank words behind."""
    for parts in (segments(pick, 3), [wrong_sum(pick, short(pick, DM))] + segments(pick, 2), segments(pick, 1) + [broken(pick, PM)]):
        words = [header(0, 3, 0x21, len(parts))] + [word for part in parts for word in part]
        for end in range(1, len(words) + 1):
            yield words[:end]
            yield words[:end] + blanks(len(words) - end + 3)


def one_bit(pick):
    """Each bit of each word of a sector changed, the blank words behind the file too."""
    files = [file_of([some(pick, memory, LEAST[memory]) for memory in order]) for order in ((PM, DM), (IO, PM), (DM, IO, DM))]
    for file in files:
        words = file + blanks(2)
        for at in range(len(words)):
            for bit in range(16):
                yield words[:at] + [words[at] ^ 1 << bit] + words[at + 1:]


def some_bits(pick):
    """A few bits of a good sector changed."""
    for _ in range(300):
        words = any_file(pick, pick.randrange(1, 15)) + blanks(pick.randrange(6))
        for _ in range(pick.randrange(1, 5)):
            words = flipped(pick, words, range(len(words)))
        yield words


def anything(pick):
    """Words of no meaning; and short segments of no meaning behind a header that may start a file, so that many can be followed."""
    for _ in range(100):
        words = [pick.randrange(65536) for _ in range(pick.randrange(1, 80))]
        words[0] = pick.choice((words[0], words[0] & 0x7FFF, 0x3212))
        yield words
    for _ in range(200):
        words = [header(pick.randrange(2), pick.randrange(4), pick.randrange(256), pick.randrange(1, 15))]
        while len(words) < 60:
            memory, length = pick.randrange(4), pick.randrange(9)
            body = [pick.choice((0, BLANK, pick.randrange(65536))) for _ in range(length * 3 // 2 if memory == 0 else length)]
            words += [memory << 14 | length, pick.randrange(65536)] + (sealed(body[:-1]) if body else [])
        yield words


def whole_sectors(pick):
    """Sectors of a bench flash: files of long segments that fill them, or leave words behind them."""
    def long_segments():
        return [some(pick, memory, length) for memory, length in ((DM, 900), (PM, 1000), (IO, 601), (DM, 700))]

    whole = file_of(long_segments())
    rest = SECTOR - len(whole)
    last = some(pick, DM, rest - 2)  # with which the file fills the sector
    filling = file_of([*long_segments(), last])
    yield blanks(SECTOR)
    yield whole + blanks(rest)
    yield filling
    yield flipped(pick, whole + blanks(rest), range(len(whole), SECTOR))
    yield whole + blanks(rest - 1) + [0]
    for place in range(4):  # one broken, and the segments behind it close up
        parts = long_segments()
        parts[place] = wrong_sum(pick, parts[place])
        yield file_of(parts) + blanks(rest)
    parts = [*long_segments(), wrong_body(pick, last)]
    yield file_of(parts)
    parts[1] = wrong_page(pick, parts[1])
    yield file_of(parts)
    yield filling[:-rest] + [filling[-rest] + 1] + filling[1 - rest:]  # the last header leads one word past the sector's end
    yield [filling[0] & 0x3FFF | 0x8000] + filling[1:]


def inputs():
    pick = random.Random(1414)
    kinds = (empty, good, first_word, one_broken, one_length, several_broken, remains, led_out, headers_of_blanks, cut, one_bit, some_bits,
             anything, whole_sectors)
    return "".join(line_of(words) for kind in kinds for words in kind(pick))


def outputs(stdin):
    answers = (salvage_sector(words_of(line)) for line in stdin.splitlines())
    return "".join("%d\t%s\t%s" % (kept, how, line_of(words).lower()) for kept, how, words in answers)
