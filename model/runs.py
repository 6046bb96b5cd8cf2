"""The check sequence of long runs. Polynomial division is linear, so a long run can be divided piece by piece: the remainder so far
is carried over a piece of zeros, and the remainder of the piece itself is added. Pieces met before are remembered."""

from functools import lru_cache

from fcs import fcs

PIECE = 32  # words


@lru_cache(maxsize=100_000)
def alone(piece):
    """The remainder of a piece, with nothing carried into it."""
    return fcs(piece, 0)


@lru_cache(maxsize=None)
def carried_byte(value, length):
    """A value of which one byte is set, carried over a run of zeros."""
    return fcs((0,) * length, value)


def check_sequence(words):
    """The FCS of a run, as `fcs` has it."""
    words, value = tuple(words), 0xFFFF
    for at in range(0, len(words), PIECE):
        piece = words[at:at + PIECE]
        value = carried_byte(value & 0xFF00, len(piece)) ^ carried_byte(value & 0x00FF, len(piece)) ^ alone(piece)
    return value
