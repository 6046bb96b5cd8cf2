"""Saving what is readable, from request 14 of 02: a flash with bad sectors is read, and a second one written, blank until then. Empty and
good sectors go over as they are. A bad one whose headers can be followed keeps its valid segments; of any other nothing is kept."""

from files import BYTES, MEMORIES, PM, may_start, segment_at
from flash import BAD, BLANK, EMPTY, SECTORS, SIZES, judged, store, words_in

COPIED, REDUCED, LOST = "copied", "reduced", "lost"
NO_SIZE, NO_BLANK = 1, 12  # the refusals: the first flash has no size that a flash has; the second has another one, or isn't blank


def body_size(word):
    """How many packet words the body has that a first header word speaks of, whether 01 permits its length or not; None for an odd number
    of PM words, which end inside a packet word."""
    memory, length = MEMORIES[word >> 14], word & 0x3FFF
    return None if memory == PM and length % 2 else length * BYTES[memory] // 2


def spans(words):
    """The places of the segments that a sector's headers lead to, each from its first header word up to the place past its body; None where
    the headers can't be followed, or lead out of the sector."""
    found, at = [], 1
    for _ in range(words[0] & 15):
        size = body_size(words[at]) if at + 2 <= len(words) else None
        if size is None or at + 2 + size > len(words):
            return None
        found.append((at, at + 2 + size))
        at += 2 + size
    return found


def readable(words):
    """The valid segments of a bad sector, in order, each as its words."""
    followed = spans(words) if may_start(words[0]) else None
    return [words[at:past] for at, past in followed or () if segment_at(words, at)]


def salvage_sector(words):
    """What comes of a sector: how many segments are kept, how it goes over, and the words that the second flash has there."""
    status, _ = judged(tuple(words))
    if status != BAD:
        return 0 if status == EMPTY else words[0] & 15, COPIED, list(words)
    kept = readable(words)
    file = [words[0] & 0xFFF0 | len(kept)] + [word for segment in kept for word in segment] if kept else []
    return len(kept), REDUCED if kept else LOST, file + [BLANK] * (len(words) - len(file))


def refusal(first, second):
    """By what number two flashes are refused, or 0."""
    if len(first) not in SIZES:
        return NO_SIZE
    return NO_BLANK if len(second) != len(first) or set(second) != {BLANK} else 0


def salvage(first, second):
    """The refusal or 0, a line of sector, segments kept and how for each file sector, and the second flash after it."""
    refused, lines, new = refusal(first, second), [], list(second)
    if refused:
        return refused, lines, new
    for sector in SECTORS:
        kept, how, words = salvage_sector(words_in(first, sector))
        lines.append((sector, kept, how))
        store(new, sector, words)
    return 0, lines, new
