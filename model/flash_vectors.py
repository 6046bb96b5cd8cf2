"""Vectors of the flash. A line is a flash and what is asked of it: FIELDS, the words of a file, the budgets of erase-progress calls,
and for each sector a seed and patches (place, count, words). A run with seed 0 is blank, any other has `ruled` words; patches lie
over that. The answers are those of `answers`, in its order."""

import random

from build import file_of, header
from files import DM, IO, PM, sealed
from flash import BAD, BLANK, SECTORS, SEVERAL, SIZES, STATUS, address_of, addressed, all_named, attributed, blank, directory_of, extent
from flash import place_for, searched, status_in, store, words_in
from image_vectors import any_file, short
from words import line_of, words_of

FIELDS = (
    "full", "erasing", "done", "name", "address", "length", "place", "word", "attributed", "value", "stored", "file_words", "budgets",
    "seed",
)
SEARCHED = {None: 0, SEVERAL: 1}  # what the name search says, else the sector
NAMES = (0x21, 0x22, 0x7F, 0x00, 0xFF)


def ruled(seed, count):
    if seed == 0:
        return [BLANK] * count
    return [(seed + place * 0x9E37) % 65536 for place in range(count)]


def mixed(words):
    """One word for a run: a change of any one word changes it."""
    value = 0
    for word in words:
        value = (value * 5 + word) % 65536
    return value


# What is asked, and the answers.


def read_line(line):
    """The fields, the file, the budgets and the flash of a line."""
    words = words_of(line)
    asked = dict(zip(FIELDS, words))
    rest = words[len(FIELDS):]
    file, rest = rest[:asked["file_words"]], rest[asked["file_words"]:]
    budgets, rest = rest[:asked["budgets"]], rest[asked["budgets"]:]
    size = SIZES[asked["full"]]
    flash = ruled(asked["seed"], size // 16)
    for sector in SECTORS:
        run = ruled(rest[0], len(extent(size, sector)))
        patches, rest = rest[1], rest[2:]
        for _ in range(patches):
            place, count = rest[0], rest[1]
            run[place:place + count] = rest[2:2 + count]
            rest = rest[2 + count:]
        flash += run
    return asked, file, budgets, flash


def statuses(kept, flash, erasing):
    """What each sector is to the commands; one that isn't a file sector is bad."""
    answers = []
    for sector in range(2, 12):
        status, length = status_in(flash, kept, sector, erasing) if sector in SECTORS else (BAD, 0)
        answers += [STATUS[status], length]
    return answers


def set_attribute(flash, sector, value):
    """1 where it changed nothing but might, 2 with the new header where it changed the flash, else 0."""
    old = words_in(flash, sector)[0] if sector in SECTORS else BLANK
    new = attributed(old, value)
    if new is None:
        return [0, old]
    if new == old:
        return [1, old]
    store_in(flash, sector, [new])
    return [2, new]


def store_in(flash, sector, words):
    """Stores words in a file sector that has so many."""
    if sector in SECTORS and len(words) <= len(extent(len(flash), sector)):
        store(flash, sector, words)


def erase_step(flash, sector, done, budget):
    """How many words an erase-progress call sets, and the erasure after it; what isn't a file sector has no words left."""
    left = len(extent(len(flash), sector)) - done if sector in SECTORS else 0
    if left <= 0:
        return 0, None
    count = blank(flash, sector, done, budget)
    return count, None if count == left else (sector, done + count)


def answers(asked, file, budgets, flash):
    erasing = (asked["erasing"], asked["done"]) if asked["erasing"] else None

    def sector():
        return erasing[0] if erasing else None

    kept = directory_of(flash, sector())
    said = list(kept)
    if asked["place"] < 32:
        kept[asked["place"]] = asked["word"]
    found, answer = all_named(kept, asked["name"]), searched(kept, asked["name"])
    said += [len(found), found[0] if found else 0, SEARCHED.get(answer, answer), addressed(asked["address"]) or 0]
    said += statuses(kept, flash, sector())
    said += [place_for(flash, kept, asked["length"], sector()) or 0]
    said += set_attribute(flash, asked["attributed"], asked["value"])
    store_in(flash, asked["stored"], file)
    said += directory_of(flash, sector())
    for budget in budgets:
        count, erasing = erase_step(flash, *erasing, budget) if erasing else (0, None)
        said += [count, *(erasing or (0, 0)), mixed(directory_of(flash, sector()))]
    said += [mixed(flash[:len(flash) // 16])]
    return said + [mixed(words_in(flash, number)) for number in SECTORS]


def outputs(stdin):
    return "".join(line_of(answers(*read_line(line))).lower() for line in stdin.splitlines())


# Flashes of every kind.


def renamed(words, name):
    return [words[0] & 0xF00F | name << 4] + words[1:]


def small(pick):
    return renamed(any_file(pick, pick.randrange(1, 5)), pick.choice(NAMES))


def sealed_run(seed, at, length):
    """The FCS of the ruled words from a place on."""
    return sealed(ruled(seed, at + length)[at:])[-1]


def filling(pick, size):
    """A file of ruled words that ends at the sector's last word: its first segments DM of the longest length, its last what is left."""
    seed, name = pick.randrange(1, 65536), pick.choice(NAMES)
    lengths, left = [], size - 1
    while left > 16385:
        lengths.append(min(16383, left - 2 - 4))
        left -= lengths[-1] + 2
    lengths.append(left - 2)
    patches, at = [(0, [header(pick.randrange(2), 3, name, len(lengths))])], 1
    for length in lengths:
        patches.append((at, [0x4000 | length, pick.choice((0x0000, 0x8000, 0xC000))]))
        patches.append((at + 2 + length - 1, [sealed_run(seed, at + 2, length - 1)]))
        at += 2 + length
    return seed, patches


def too_long(pick, size):
    """The same with a last segment that is one word longer: it ends in the next sector."""
    seed, patches = filling(pick, size)
    place, words = patches[-2]
    return seed, patches[:-2] + [(place, [words[0] + 1, words[1]])]


def behind(pick, size, words):
    """A file with blank words behind it, mostly; or with remains: any words, or one bit in the first, the last or another word."""
    at = pick.choice((len(words), size - 1, pick.randrange(len(words), size)))
    patch = (at, [BLANK ^ 1 << pick.randrange(16)])
    return pick.choice(((0, [(0, words)]),) * 4 + ((pick.randrange(1, 65536), [(0, words)]), (0, [(0, words), patch])))


def spoilt(pick, size):
    words = small(pick)
    place = pick.randrange(1, len(words))
    words[place] ^= 1 << pick.randrange(16)
    return behind(pick, size, words)


def any_sector(pick, size):
    kind = pick.randrange(12)
    if kind < 4:
        return 0, []
    if kind < 7:
        return behind(pick, size, small(pick))
    if kind == 7:  # a stray 0 bit in an empty sector
        return 0, [(pick.choice((0, size - 1, pick.randrange(size))), [0xFFFF ^ 1 << pick.randrange(16)])]
    if kind == 8:  # type 1X
        words = small(pick)
        return behind(pick, size, [words[0] | 0x8000] + words[1:])
    if kind == 9:  # 0 segments, and 15 that are all right
        name = pick.choice(NAMES)
        if pick.randrange(2):
            return behind(pick, size, [header(0, 3, name, 0)])
        return behind(pick, size, file_of([short(pick, pick.choice((PM, DM, IO))) for _ in range(15)], name=name))
    if kind == 10:
        return spoilt(pick, size)
    return pick.randrange(1, 65536), []


def line(pick, full, kinds, file, stored, length):
    size = SIZES[full]
    table = {sector: len(extent(size, sector)) for sector in SECTORS}
    erasing = pick.choice((0, 0, 0, pick.randrange(3, 11), pick.randrange(3, 11), pick.choice((1, 2, 11, 65535))))
    words = table.get(erasing, 9)
    done = pick.choice((0, 0, 1, pick.randrange(words), words - 1, words, words + 1))
    budgets = [pick.choice((0, 1, pick.randrange(words), words - 1, words, 65535)) for _ in range(pick.randrange(6))]
    asked = {
        "full": full, "erasing": erasing, "done": done, "name": pick.choice(NAMES), "length": length,
        "address": pick.choice([*(address_of(sector) for sector in SECTORS), 0x0000, 0x0600, 0x2000, pick.randrange(65536)]),
        "place": pick.choice((65535, 65535, pick.randrange(32))), "word": pick.choice((0, 0x8000, 0x4000, 0xFFFF, pick.randrange(65536))),
        "attributed": pick.randrange(2, 12), "value": pick.choice((0, 1, 0, 1, 2, 65535)), "stored": stored,
        "file_words": len(file), "budgets": len(budgets), "seed": pick.choice((0, pick.randrange(65536))),
    }
    words = [asked[field] for field in FIELDS] + file + budgets
    for count, kind in zip(table.values(), kinds):
        seed, patches = kind(pick, count)
        words += [seed, len(patches)]
        for place, patch in patches:
            words += [place, len(patch)] + patch
    return line_of(words)


def inputs():
    pick = random.Random(452)
    lines = []
    for _ in range(500):
        lines.append(line(pick, 0, [any_sector] * 8, small(pick), pick.randrange(2, 12), pick.choice((0, 1, 2047, 2048, 2049, 4095, 4096, 4097, 65535))))
    for kind in (filling, too_long):  # files that end at a sector's last word, and one word behind it
        for _ in range(8):
            kinds = [any_sector] * 8
            for _ in range(2):
                kinds[pick.randrange(8)] = kind
            lines.append(line(pick, 0, kinds, small(pick), pick.randrange(3, 11), 2048))
    for length in (2048, 2049, 4096, 4097):  # files stored that fill the sector, and that don't fit
        for stored in (3, 4):
            lines.append(line(pick, 0, [lambda pick, size: (0, [])] * 8, ruled(pick.randrange(1, 65536), length), stored, length))
    for _ in range(10):  # both sizes have the same rules
        lines.append(line(pick, 1, [any_sector] * 8, small(pick), pick.randrange(2, 12), pick.choice((16384, 16385, 32768, 32769))))
    for kind in (filling, too_long):
        lines.append(line(pick, 1, [kind] + [any_sector] * 6 + [kind], small(pick), pick.randrange(3, 11), 16385))
    return "".join(lines)
