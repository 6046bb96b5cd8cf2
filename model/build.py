"""Segments and files to build vectors of, as 01 'Files and memories' has them."""

from files import DM, IO, PM, packed, sealed


def segment(memory, second, words, bits=None):
    """The packet words of the valid segment of memory words; `bits` are the memory bits, where IO has two kinds."""
    kind = {PM: 0, DM: 1, IO: 2}[memory] if bits is None else bits
    return [kind << 14 | len(words) + 1, second] + sealed(packed(memory, words))


def header(kind, attribute, name, count):
    return kind << 14 | attribute << 12 | name << 4 | count


def file_of(segments, kind=0, attribute=3, name=0x21):
    """The words of a file: a header word and its segments' words."""
    return [header(kind, attribute, name, len(segments))] + [word for segment in segments for word in segment]
