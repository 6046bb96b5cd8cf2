#!/usr/bin/env python3
"""Which lines of the model the stored vectors of the whole node reach.

    coverage.py    run the scripts of `node_vectors`, and print each line of the model's parts that was not reached

The answer is 1 if there is such a line. A line counts if the compiler made code of it, a function's own line left aside."""

import sys

from vectors import HERE

PARTS = ("node", "flash", "memory", "qlist", "group", "files", "runs", "fcs", "series", "event")


def own_lines(code):
    return {line for _, _, line in code.co_lines() if line and line != code.co_firstlineno}


def lines_of(code):
    """The lines of a code object and of those inside it."""
    lines = own_lines(code)
    for constant in code.co_consts:
        if hasattr(constant, "co_lines"):
            lines |= lines_of(constant)
    return lines


def reached(work):
    """The lines that a piece of work reaches, as (file name, line)."""
    seen, wanted = set(), {}  # wanted: by code object, its lines that were not reached yet
    paths = {str(HERE / (part + ".py")) for part in PARTS}

    def at_line(frame, event, _):
        seen.add((frame.f_code.co_filename, frame.f_lineno))
        wanted[frame.f_code].discard(frame.f_lineno)
        return at_line

    def at_call(frame, event, _):
        code = frame.f_code
        if code not in wanted:
            wanted[code] = own_lines(code) if code.co_filename in paths else set()
        return at_line if wanted[code] else None  # where nothing is wanted any more, nothing is followed

    sys.settrace(at_call)
    try:
        work()
    finally:
        sys.settrace(None)
    return seen


def work():
    import node_vectors

    node_vectors.outputs(node_vectors.inputs())


def main():
    seen = reached(work)
    missed = total = 0
    for part in PARTS:
        path = HERE / (part + ".py")
        text = path.read_text()
        lines = lines_of(compile(text, str(path), "exec"))
        total += len(lines)
        for line in sorted(lines):
            if (str(path), line) not in seen:
                missed += 1
                print("%s:%d: %s" % (path.name, line, text.splitlines()[line - 1].strip()))
    print("coverage: %d of %d lines of the model reached" % (total - missed, total))
    return 1 if missed else 0


if __name__ == "__main__":
    sys.exit(main())
