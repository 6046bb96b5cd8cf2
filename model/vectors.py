#!/usr/bin/env python3
"""The stored vectors and the model that works them out.

    vectors.py write [NAME..]    write crates/NAME/stdin and crates/NAME/stdout anew
    vectors.py check [NAME..]    work out stdout from the stored stdin again, and compare

NAME is a crate with a module of that name here, which has `inputs() -> str` and `outputs(stdin) -> str`; no name means every such
crate. The crate `captures` reads its lines as a user writes them, and its module is `capture_vectors`. The programs themselves are run
and compared with their stdout by `rt ci`."""

import importlib
import pathlib
import sys

HERE = pathlib.Path(__file__).resolve().parent
CRATES = HERE.parent / "crates"
OTHERWISE_NAMED = {"capture_vectors": "captures"}  # modules whose crate has another name


def modules():
    """The modules here that make vectors, by the names of their crates."""
    found = {OTHERWISE_NAMED.get(path.stem, path.stem): path.stem for path in HERE.glob("*_vectors.py")}
    return {name: found[name] for name in sorted(found) if (CRATES / name).is_dir()}


def module_of(name):
    return importlib.import_module(modules()[name])


def stored(name, file):
    """What is stored, to the byte: \\r\\n is not \\n."""
    return (CRATES / name / file).read_bytes().decode()


def write(name):
    module = module_of(name)
    stdin = module.inputs()
    (CRATES / name / "stdin").write_bytes(stdin.encode())
    (CRATES / name / "stdout").write_bytes(module.outputs(stdin).encode())
    print("wrote %s: %d lines" % (name, stdin.count("\n")))
    return True


def check(name):
    lines = stored(name, "stdout").splitlines()
    worked_out = module_of(name).outputs(stored(name, "stdin")).splitlines()
    if lines == worked_out:
        print("vectors: %s agrees with the model (%d lines)" % (name, len(lines)))
        return True
    for number, (have, want) in enumerate(zip(lines, worked_out), 1):
        if have != want:
            print("vectors: crates/%s/stdout line %d has '%s', the model says '%s'" % (name, number, have[:120], want[:120]))
            return False
    print("vectors: crates/%s/stdout has %d lines, the model says %d" % (name, len(lines), len(worked_out)))
    return False


def main(arguments):
    actions = {"write": write, "check": check}
    if not arguments or arguments[0] not in actions:
        print(__doc__, file=sys.stderr)
        return 2
    asked = arguments[1:] or list(modules())
    for name in asked:
        if name not in modules():
            print("vectors: no module in model/ makes vectors of a crate %s" % name, file=sys.stderr)
            return 2
    return 0 if all([actions[arguments[0]](name) for name in asked]) else 1


if __name__ == "__main__":
    sys.exit(main(sys.argv[1:]))
