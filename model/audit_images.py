#!/usr/bin/env python3
"""Images for the test of host/audit, valid and damaged in each way that 01 forbids, and the reports that must be printed of them.

    audit_images.py FOLDER    writes them all below FOLDER, the same ones each time

Below FOLDER: `apart`, 200 images for flashes of their own; `together`, for one flash; `first` and `second`, for a flash that is kept,
with what it holds then (`first.flash`, `second.flash`); `bad`, for `bad.flash`, which has bad sectors; `doubled`, for `doubled.flash`, which
has names in several sectors; `each`, an image for a library that reads each word wrong once; of full size `full`, for flashes of their own,
`large`, for one flash, which is then `large.flash`, and `bad-full`, as `bad`. The report on each is in NAME.report; those on examples/images are
in examples.report, a flash each, and in kept.report, the good ones in one. `bad`, `doubled` and `bad-full` have two more reports:
NAME-wrong.report is without --summary, and NAME-mended.report with sectors erased, those that have words behind their file, or all but one of
each name."""

import pathlib
import random
import sys

from audit_report import BENCH, FULL, Bench, each_word_wrong, report
from build import file_of, header, segment
from files import DM, IO, PM, sealed
from flash import extent, store
from image_vectors import LEAST, WORD, any_file, short, some
from runs import check_sequence

MEMORIES = (PM, DM, IO)
COUNT = 200
EXAMPLES = pathlib.Path("examples/images")
PROJECT = pathlib.Path(__file__).resolve().parent.parent


# Forms of a file.


def raw(words):
    return b"".join(word.to_bytes(2, "little") for word in words)


def in_hex(words):
    return (" ".join("%04X" % word for word in words) + "\n").encode()


def in_rows(words):
    """Lower case, eight words to a line, lines that end as on a PC, comments."""
    rows = ["# an image", ""]
    rows += [" ".join("%04x" % word for word in words[at:at + 8]) + "\t# from word %d" % at for at in range(0, len(words), 8)]
    return "\r\n".join(rows).encode()


def in_old_rows(words):
    """Lines that end as they once did on a Mac."""
    return in_rows(words).replace(b"\r\n", b"\r")


FORMS = (raw, in_hex, in_rows, in_old_rows)


# Valid images.


def exactly(pick, length, name=0x21):
    """A valid file of that many words, in DM segments of 16,000 and a rest."""
    parts = [16000] * ((length - 5) // 16000)
    parts.append(length - 1 - sum(parts))
    words = file_of([some(pick, DM, part - 2) for part in parts], pick.randrange(2), pick.randrange(4), name)
    assert len(words) == length
    return words


def valid(pick):
    for memory in MEMORIES:
        yield "shortest-" + memory, file_of([some(pick, memory, LEAST[memory])])
    for count in range(1, 15):
        yield "segments-%d" % count, any_file(pick, count)
    for kind in range(2):
        for attribute in range(4):
            yield "type-%d-attribute-%d" % (kind, attribute), file_of([short(pick, DM)], kind, attribute, pick.randrange(256))
    for name in (0x00, 0x01, 0x7F, 0x80, 0xFF):
        yield "name-%02X" % name, file_of([short(pick, PM)], name=name)
    for bits in (2, 3):
        yield "io-page-1", file_of([segment(IO, 0x4000, [0x1005, 0xBEEF], bits)])
    for length in (2047, 2048, 2049, 4095, 4096):
        yield "words-%d" % length, exactly(pick, length)
    yield "pm-long", file_of([some(pick, PM, 2000)])
    yield "io-long", file_of([some(pick, IO, 3001), some(pick, PM, 600)])


# Damage. Each of these takes some segments and the place of one of them, and gives the words of the damaged file.


def remade(segments, at, words):
    return file_of(segments[:at] + [words] + segments[at + 1:])


def of_length(memory, length):
    """A segment with a length that its memory does not permit; its FCS is right where it can have one."""
    bits = {PM: 0, DM: 1, IO: 2}[memory]
    size = length * 3 // 2 if memory == PM else length
    return [bits << 14 | length, 0] + (sealed([0x1234] * (size - 1)) if size > 0 else [])


def wrong_page(pick, memory):
    return segment(memory, 0x4000 | pick.randrange(16384), [pick.randrange(WORD[memory])])


def wrong_byte(pick):
    return [0x0002, 0] + sealed([0xAABB, 0xCC00 | pick.randrange(1, 256)])


def with_bit(pick, words, first, last):
    """One bit changed in one of the words from one place to another."""
    at = pick.randrange(first, last)
    return words[:at] + [words[at] ^ 1 << pick.randrange(16)] + words[at + 1:]


def damaged_segments(pick):
    """Segments of which one breaks a rule, in a file that has others."""
    lengths = [(PM, 0), (PM, 1), (PM, 3), (PM, 7), (DM, 0), (DM, 1), (IO, 0), (IO, 1), (IO, 2), (IO, 4), (IO, 8)]
    for memory, length in lengths:
        yield "length-%s-%d" % (memory, length), of_length(memory, length)
    for memory in (PM, DM):
        for _ in range(3):
            yield "page-" + memory, wrong_page(pick, memory)
    for _ in range(6):
        yield "zero-byte", wrong_byte(pick)
    for memory in MEMORIES:
        for _ in range(4):
            words = short(pick, memory)
            yield "fcs-" + memory, with_bit(pick, words, len(words) - 1, len(words))
        for _ in range(4):
            words = short(pick, memory)
            yield "data-" + memory, with_bit(pick, words, 2, len(words) - 1)
        body = short(pick, memory)
        yield "fcs-of-header-too-" + memory, body[:-1] + [check_sequence(body[:-1])]


def damaged_files(pick):
    """Files that are damaged as a whole."""
    for kind in (2, 3):
        for _ in range(2):
            yield "type-%d" % kind, file_of([short(pick, DM)], kind)
    yield "no-segments", [header(0, 3, 0x21, 0)]
    yield "no-segments-but-words", [header(1, 2, 0x21, 0)] + short(pick, DM)
    yield "fifteen-segments", file_of([short(pick, DM) for _ in range(15)])
    for count in (1, 2, 6, 13):
        words = any_file(pick, count)
        yield "one-segment-more", [words[0] + 1] + words[1:]
    for count in (2, 5, 14):
        words = any_file(pick, count)
        yield "one-segment-fewer", [words[0] - 1] + words[1:]
    front = any_file(pick, 3)
    last = short(pick, PM)
    whole = [front[0] + 1] + front[1:] + last
    for size in (0, 1, 2, 3, len(last) - 1):
        yield "cut-after-%d" % size, whole[:len(front) + size]
    for _ in range(6):
        words = any_file(pick, pick.randrange(1, 8))
        yield "cut", words[:pick.randrange(1, len(words))]
    for count in (1, 2, 40):
        yield "blanks-behind", any_file(pick, 2) + [0xFFFF] * count
        yield "words-behind", any_file(pick, 2) + [pick.randrange(65536) for _ in range(count)]
    for _ in range(3):
        words = any_file(pick, 2)
        yield "bytes-swapped", [word >> 8 | word << 8 & 0xFFFF for word in words]
    yield "blank", [0xFFFF] * 64
    yield "zeros", [0] * 64
    yield "nothing", []
    for length in (4097, 5000, 8191, 8192, 9000, 16383, 16384, 32767, 32768, 32769, 41000):
        yield "words-%d" % length, exactly(pick, length)
        yield "words-%d-and-a-bit" % length, with_bit(pick, exactly(pick, length), 3, length - 1)


def unreadable(pick):
    """Files that are no words, or could be two things."""
    words = any_file(pick, 2)
    yield "odd", raw(words) + b"\x00"
    yield "odd-by-one-missing", raw(words)[:-1]
    yield "letter-o", in_hex(words).replace(b"0", b"O", 1)
    yield "three-digits", in_hex(words)[:-2] + b"\n"
    yield "no-space", in_hex(words).replace(b" ", b"", 1)
    yield "prefix", in_hex(words).replace(b" ", b" 0x", 1)
    yield "prose", b"# a list\n\nthis is no image,\nand it says so\n"
    yield "two-readings", two_readings(pick)
    yield "comments-only", b"# an image that has no words\n"
    yield "byte-order-mark", b"\xEF\xBB\xBF" + in_hex(words)
    for encoding in ("utf-16", "utf-16-le", "utf-16-be"):
        yield encoding, in_hex(words).decode().encode(encoding)
    yield "comment-in-utf-8", "# für den Prüfstand\n".encode() + in_hex(words)
    yield "comment-in-latin-1", in_hex(words) + "# für den Prüfstand\n".encode("latin-1")
    yield "huge", b"\xFF" * ((1 << 20) + 1)
    yield "as-long-as-it-may-be", b"\xFF" * (1 << 20)


def two_readings(pick):
    """Text of words in hex that, as raw words, is a valid file: a DM segment of 304 words, all of them digits and spaces."""
    while True:
        text = b" ".join(bytes(pick.choice(b"0123456789ABCDEF") for _ in range(4)) for _ in range(123))
        text = b"100A 0" + text[6:]
        words = [text[at] | text[at + 1] << 8 for at in range(0, len(text), 2)]
        seal = check_sequence(words[3:-1]).to_bytes(2, "little")
        if all(byte in b"0123456789ABCDEF" for byte in seal):
            return text[:-2] + seal


def apart(pick):
    """Names and bytes of the images that have a flash each; None is a link to nowhere."""
    found = [(kind, raw(words)) for kind, words in valid(pick)]
    for kind, words in damaged_segments(pick):
        count = pick.randrange(1, 7)
        segments = [short(pick, pick.choice(MEMORIES)) for _ in range(count)]
        found.append((kind, pick.choice(FORMS)(remade(segments, pick.randrange(count), words))))
    found += [(kind, pick.choice(FORMS)(words)) for kind, words in damaged_files(pick)]
    found += list(unreadable(pick)) + [("gone", None)]
    while len(found) < COUNT:
        found.append(("any", pick.choice(FORMS)(any_file(pick, pick.randrange(1, 15)))))
    assert len(found) == COUNT
    pick.shuffle(found)
    return [("%03d-%s" % (number, kind), data) for number, (kind, data) in enumerate(found)]


# Runs on one flash.


def together(pick):
    """More files than a flash holds: names used, sectors of the wrong size left, and a damaged one between them."""
    lengths = (2049, 300, 300, 4096, 2048, 4000, 4097, 2100, 60, 100, 4096, 6)
    names = (0x10, 0x11, 0x11, 0x12, 0x13, 0x14, 0x15, 0x10, 0x16, 0x17, 0x18, 0x19)
    words = [exactly(pick, length, name) for length, name in zip(lengths, names)]
    words.insert(4, with_bit(pick, exactly(pick, 100, 0x1F), 3, 99))
    return [("%02d" % number, raw(words)) for number, words in enumerate(words)]


def first(pick):
    return [("%02X.hex" % name, in_hex(exactly(pick, 40 + name, name))) for name in (0x31, 0x32, 0x33)]


def second(pick):
    return [("%02X" % name, raw(exactly(pick, 3000, name))) for name in (0x31, 0x32, 0x34)]


def full(pick):
    """Images for flashes of full size: around what a packet, File Read, a sector and File Write take, some with a bit changed."""
    lengths = (6, 4097, 8191, 8192, 12285, 12286, 12287, 16384, 16385, 32767, 32768, 32769)
    words = [exactly(pick, length) for length in lengths]
    words += [with_bit(pick, exactly(pick, length), 3, length - 1) for length in (12286, 20000, 32768)]
    return [("%02d-words-%d" % (number, len(words)), raw(words)) for number, words in enumerate(words)]


def large(pick):
    """More files than a full flash holds."""
    lengths = (20000, 300, 16385, 20000, 32768, 16384, 12286, 12287, 6, 40)
    names = (0x60, 0x61, 0x62, 0x60, 0x63, 0x64, 0x65, 0x66, 0x67, 0x68)
    return [("%02d" % number, raw(exactly(pick, length, name))) for number, (length, name) in enumerate(zip(lengths, names))]


def bad_flash(pick, size=BENCH):
    """Sector 3 a file with a wrong bit, 4 words that begin no file, 5 a file with words right behind it, 6 one bit cleared at its end,
    7 a file of the name that sector 3 has, 8 a file with one bit cleared at the sector's end, 9 a file that goes past its end."""
    flash, room = [0xFFFF] * size, len(extent(size, 9))
    store(flash, 3, with_bit(pick, exactly(pick, 50, 0x41), 3, 49))
    store(flash, 4, [0x8000, 1, 2, 3])
    store(flash, 5, exactly(pick, 60, 0x42) + [1, 2, 3])
    store(flash, 7, exactly(pick, 70, 0x41))
    store(flash, 8, exactly(pick, 80, 0x44))
    store(flash, 9, exactly(pick, room + 904, 0x45)[:room])
    for sector in (6, 8):
        flash[extent(size, sector)[-1]] = 0x7FFF
    return flash


def doubled_flash(pick):
    """Sectors 4 and 9 have the name 51, and 9 is bad; 3, 5 and 10 have 52, with other types and attributes; 6 has 53 alone, and 7 a first
    word with that name that begins no file."""
    flash = [0xFFFF] * 32768
    for sector, name in ((4, 0x51), (9, 0x51), (3, 0x52), (5, 0x52), (10, 0x52), (6, 0x53)):
        store(flash, sector, exactly(pick, 20 + sector, name))
    flash[extent(32768, 9)[25]] ^= 1
    store(flash, 7, [header(2, 3, 0x53, 1)])
    return flash


# Writing it all.


def write_images(folder, images):
    folder.mkdir(parents=True)
    for name, data in images:
        if data is None:
            (folder / name).symlink_to("nowhere")
        else:
            (folder / name).write_bytes(data)
    return [("%s/%s" % (folder.name, name), data) for name, data in images]


def write_wrong(folder, flash, images, mending):
    """A flash in which something is wrong, images for it, and the reports: with --summary, without it, and after some sectors are erased."""
    folder.with_suffix(".flash").write_bytes(raw(flash))
    bench = Bench(list(flash))
    images = write_images(folder, images)
    told = report(images, bench)
    folder.with_suffix(".report").write_text(told + bench.table())
    folder.with_name(folder.name + "-wrong.report").write_text(told + bench.wrong())
    bench = Bench(flash)
    erased = "".join(bench.erased(sector) for sector in mending)
    folder.with_name(folder.name + "-mended.report").write_text(erased + report(images, bench) + bench.table())


def write_all(folder, pick):
    images = write_images(folder / "apart", apart(pick))
    (folder / "apart.report").write_text(report(images))

    bench = Bench()
    images = write_images(folder / "together", together(pick))
    (folder / "together.report").write_text(report(images, bench) + bench.table())

    bench = Bench()
    images = write_images(folder / "first", first(pick))
    (folder / "first.report").write_text(report(images, bench))
    (folder / "first.flash").write_bytes(raw(bench.lent.flash))

    bench = Bench(bench.lent.flash)  # the node is started anew; erased are the file 31, in sector 3, and sector 5
    images = write_images(folder / "second", second(pick))
    erased = bench.erased(3) + bench.erased(5)
    (folder / "second.report").write_text(erased + report(images, bench) + bench.table())
    (folder / "second.flash").write_bytes(raw(bench.lent.flash))

    write_wrong(folder / "bad", bad_flash(pick), [("%02X" % name, raw(exactly(pick, 70, name))) for name in (0x41, 0x42, 0x43)], (5, 8))
    write_wrong(folder / "doubled", doubled_flash(pick), [("%02X" % name, raw(exactly(pick, 70, name))) for name in range(0x51, 0x55)], (9, 5, 3))

    images = write_images(folder / "full", full(pick))
    (folder / "full.report").write_text(report(images, size=FULL))

    bench = Bench(size=FULL)
    images = write_images(folder / "large", large(pick))
    (folder / "large.report").write_text(report(images, bench) + bench.table())
    (folder / "large.flash").write_bytes(raw(bench.lent.flash))

    images = [("%02X" % name, raw(exactly(pick, 70, name))) for name in (0x41, 0x42, 0x43)]
    write_wrong(folder / "bad-full", bad_flash(pick, FULL), images, (5, 8))

    image = in_rows(any_file(pick, 5))
    (folder / "each").write_bytes(image)
    (folder / "each.report").write_text(each_word_wrong("each", image))

    images = [(str(EXAMPLES / path.name), path.read_bytes()) for path in sorted((PROJECT / EXAMPLES).iterdir())]
    (folder / "examples.report").write_text(report(images))
    bench = Bench()
    (folder / "kept.report").write_text(report([image for image in images if "/good-" in image[0]], bench) + bench.table())


def main(arguments):
    if len(arguments) != 1:
        print(__doc__, file=sys.stderr)
        return 2
    write_all(pathlib.Path(arguments[0]), random.Random(2026))
    return 0


if __name__ == "__main__":
    sys.exit(main(sys.argv[1:]))
