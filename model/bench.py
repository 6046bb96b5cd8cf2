#!/usr/bin/env python3
"""The bench, from docs/BENCH.md: what it prints for a script of lines.

    bench.py SCRIPT         prints what the bench prints for a script
    bench.py write|check    the stored answers examples/bench/NAME.stdout of the scripts examples/bench/NAME.txt: work them out anew, or compare"""

import pathlib
import re
import sys

import node as calls
from files import DM, IO, PM
from group import ABORT, END, ERROR, NEXT

ROOT = pathlib.Path(__file__).resolve().parent.parent
SCRIPTS = ROOT / "examples" / "bench"
LONGEST = 199999  # bytes of a line, its end left out
NAMES = {NEXT: "NEXT", ERROR: "ERROR", ABORT: "ABORT", END: "END"}


class Unreadable(Exception):
    """What is wrong with a line."""


# Fields: what each is made of, the value, and what is said where it isn't so.


def below(limit):
    return lambda text: int(text) if re.fullmatch(rb"[0-9]+", text) and int(text) < limit else None


def hexadecimal(digits):
    return lambda text: int(text, 16) if re.fullmatch(rb"[0-9A-Fa-f]{%s}" % digits, text) else None


LINK = below(2**32), "no link, and none of reply, poll, build, erase, slow, clock, error, help; fields are parted by tabs"
SLAVE = below(2**32), "no decimal number below 4294967296"
BUDGET = below(2**64), "no decimal number below 18446744073709551616"
BC = (lambda text: int(text) if text in (b"0", b"1", b"2", b"3") else None), "no BC, 0 to 3"
FLAG = (lambda text: int(text) if text in (b"0", b"1") else None), "neither 0 nor 1"
TICKS = hexadecimal(b"1,8"), "not one to eight hex digits"
WORD = hexadecimal(b"4"), "not four hex digits"

# The fields behind the word that a line begins with, and whether words follow them.
SHAPES = {
    b"reply": ((SLAVE, BC, FLAG, WORD, WORD), True),
    b"poll": ((), False),
    b"build": ((), False),
    b"erase": ((BUDGET,), False),
    b"slow": ((), False),
    b"clock": ((TICKS,), False),
    b"error": ((), False),
    b"help": ((), False),
}


def values(fields, shape, words, number):
    """The values of fields, of which the first has a number in its line: one for each of the shape, then the words."""
    said = []
    for place, field in enumerate(fields, number):
        if len(said) < len(shape):
            reader, wrong = shape[len(said)]
        elif words:
            reader, wrong = WORD
        else:
            raise Unreadable("field %d: one too many" % place)
        value = reader(field)
        if value is None:
            raise Unreadable("field %d: %s" % (place, wrong))
        said.append(value)
    if len(said) < len(shape):
        raise Unreadable("field %d: missing" % (number + len(said)))
    return said


def fields_of(line):
    """The fields of a line; None where it says nothing."""
    if len(line) > LONGEST:
        raise Unreadable("the line has 200,000 bytes or more")
    line = line[:-1] if line.endswith(b"\r") else line
    return None if line.startswith(b"#") or not line.strip(b" \t") else line.split(b"\t")


def said_of(number, line, answer):
    """The lines that are printed for a line: those that `answer` has for its number and its fields, or why it can't be read."""
    try:
        fields = fields_of(line)
        return [] if fields is None else answer(number, fields)
    except Unreadable as wrong:
        return ["%d\tUNREADABLE\t%s" % (number, wrong)]


def all_said(script, answer):
    """What is printed for all lines of a script."""
    lines = script.split(b"\n")
    if lines[-1] == b"":
        lines.pop()
    return "".join(said + "\n" for number, line in enumerate(lines, 1) for said in said_of(number, line, answer))


def parsed(fields):
    """The word that a line's fields begin with, `request` where they have none, and the values of the fields."""
    if fields[0] in SHAPES:
        return fields[0].decode(), values(fields[1:], *SHAPES[fields[0]], 2)
    return "request", values(fields, (LINK, BC), True, 1)


# The node at work.


def help_lines():
    """What docs/BENCH.md says that help prints."""
    page = (ROOT / "docs" / "BENCH.md").read_text()
    return [line[4:] for line in page.split("`help` prints\n\n")[1].split("\n\n")[0].splitlines()]


class Bench:
    def __init__(self):
        memories = {PM: [0] * 32768, DM: [0] * 32768, IO: [0] * 4096}
        self.lent = calls.Lent([0xFFFF] * 32768, memories, [0] * 32768, [0] * 7 * 910, [0] * 12288, [0] * 12288)
        self.node, _ = calls.start(calls.CDDC, 4, 0, 0, 0, 0, 0, self.lent.flash)
        self.clock, self.error, self.held = 0, 0, []

    def request(self, link, bc, *words):
        error, self.error = self.error, 0
        self.node, answer = calls.request(self.node, self.lent, self.clock, link, bc, error, list(words))
        if answer[0] == "ask":
            self.held = words
        return self.shown(answer)

    def reply(self, slave, bc, error, status, address, *words):
        self.node, answer = calls.reply(self.node, self.lent, self.clock, slave, bc, error, status, address, list(words))
        return self.shown(answer)

    def poll(self):
        self.node, answer = calls.poll(self.node, self.lent, self.clock)
        return self.shown(answer)

    def build(self):
        self.node, answer = calls.build(self.node, self.lent.events, self.clock)
        return self.shown(answer)

    def erase(self, budget):
        self.node, answer = calls.erase(self.node, self.lent.flash, budget)
        return self.shown(answer)

    def slow(self):
        self.node, answer = calls.slow(self.node, self.lent.qlist, self.clock)
        return self.shown(answer)

    def shown(self, answer):
        kind, rest = answer[0], answer[1:]
        if kind == "ask":
            return ["ASK", str(rest[0])] + ["%04X" % word for word in self.held[rest[1]:]]
        if kind == "read":
            return ["ASK", str(rest[0]), "012E"]
        if kind == "next":
            return ["SEND NEXT", str(rest[0])]
        if kind != "reply":
            return [kind.upper()] + [str(number) for number in rest]
        bc, words = rest
        if words == 0:
            return [NAMES[bc]]
        return (["BC %d" % bc] if bc != 3 else []) + ["%04X" % word for word in self.lent.reply[:words]]

    def answer(self, number, fields):
        """The lines that are printed for a line of some fields."""
        kind, fields = parsed(fields)
        if kind == "help":
            return help_lines()
        if kind == "clock":
            self.clock = fields[0]
            return []
        if kind == "error":
            self.error = 1
            return []
        return ["\t".join([str(number)] + getattr(self, kind)(*fields))]


def printed(script):
    return all_said(script, Bench().answer)


def stored(action):
    agree = True
    for script in sorted(SCRIPTS.glob("*.txt")):
        answers, worked_out = script.with_suffix(".stdout"), printed(script.read_bytes())
        if action == "write":
            answers.write_text(worked_out)
        elif not answers.exists() or answers.read_text() != worked_out:
            print("bench: %s isn't what the model says for %s" % (answers.relative_to(ROOT), script.name))
            agree = False
    return agree


def main(arguments):
    if len(arguments) != 1:
        print(__doc__, file=sys.stderr)
        return 2
    if arguments[0] in ("write", "check"):
        return 0 if stored(arguments[0]) else 1
    sys.stdout.write(printed(pathlib.Path(arguments[0]).read_bytes()))
    return 0


if __name__ == "__main__":
    sys.exit(main(sys.argv[1:]))
