#!/usr/bin/env python3
"""The damaged dump of examples/salvage, a bench flash, and the lines that saving what is readable of it prints.

    salvage_example.py write    write both anew
    salvage_example.py check    whether they are those that this makes

Its files are the images of examples/images: good ones, as they are and damaged in one place or two, and one that came to be cut short."""

import pathlib
import sys
from array import array

from files import segments_of
from flash import BLANK, store
from salvage import salvage

EXAMPLES = pathlib.Path(__file__).resolve().parent.parent / "examples"
DUMP, LINES = EXAMPLES / "salvage/damaged.flash", EXAMPLES / "salvage.stdout"
BENCH = 32768


def image(name):
    """The words of an image: hex text, with comments behind #, or raw words with the low byte first."""
    path = EXAMPLES / "images" / name
    if path.suffix == ".hex":
        return [int(word, 16) for line in path.read_text().splitlines() for word in line.split("#")[0].split()]
    return words_of(path.read_bytes())


def words_of(run):
    return [run[at] | run[at + 1] << 8 for at in range(0, len(run), 2)]


def bytes_of(words):
    run = array("H", words)
    if sys.byteorder == "big":
        run.byteswap()
    return run.tobytes()


def cleared(words, at, bit):
    """One word with a bit cleared, as a flash loses it."""
    return words[:at] + [words[at] & ~(1 << bit)] + words[at + 1:]


def last_of(words, number):
    """The place of the last word of a segment, its FCS."""
    return segments_of(words)[number - 1][-1] - 1


def damaged():
    """The flash, by sectors: copied, reduced and lost ones."""
    data, program, largest = image("good-data.hex"), image("good-program.hex"), image("good-largest.bin")
    flash = [BLANK] * BENCH
    store(flash, 3, data)  # good
    store(flash, 4, cleared(program, last_of(program, 2), 0))  # one segment of three is broken
    store(flash, 5, program)  # good, and of the name of the one before: a name goes over as it is
    store(flash, 6, data + [BLANK] * 100 + [0x0001])  # something stands behind the file, all of which is kept
    store(flash, 7, cleared(data, last_of(data, 1), 4))  # its only segment is broken
    store(flash, 8, program[:last_of(program, 3)])  # cut short: a blank word stands where the FCS should, and segments 1 and 2 are kept
    store(flash, 9, cleared(largest, 1, 14))  # a header of DM is now one of PM, with an odd length: it can't be followed
    flash[0] = 0x1234  # sectors 0 to 2 do not go over
    return flash


def made():
    flash = damaged()
    _, lines, _ = salvage(flash, [BLANK] * BENCH)
    return bytes_of(flash), "".join("%d\t%d\t%s\n" % line for line in lines)


def main(arguments):
    if arguments not in (["write"], ["check"]):
        print(__doc__, file=sys.stderr)
        return 2
    dump, lines = made()
    if arguments == ["write"]:
        DUMP.parent.mkdir(exist_ok=True)
        DUMP.write_bytes(dump)
        LINES.write_text(lines)
    if (DUMP.read_bytes(), LINES.read_text()) != (dump, lines):
        print("salvage_example: examples/salvage is not what model/salvage_example.py makes", file=sys.stderr)
        return 1
    return 0


if __name__ == "__main__":
    sys.exit(main(sys.argv[1:]))
