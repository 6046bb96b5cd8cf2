"""The memories, from 01 'Files and memories': where a run of addresses stands, IO pairs, and segments in and out. Memories are lent
as a dictionary of lists by the names PM, DM and IO; a segment is (memory, page, address, memory words, ..) as `files` has it."""

from files import DM, IO, PM, packed, sealed, segment_header

HALF = 0x2000  # addresses
FIXED = {PM: 0, DM: 1}  # the half of the addresses that is seen from every page
PAGE_START = {0: 0x2000, 4: 0x4000, 5: 0x6000}  # where the other half of each page follows
WIDTH = {PM: 0xFFFFFF, DM: 0xFFFF}  # the bits of a memory word that count


def index(memory, page, address):
    half, offset = divmod(address, HALF)
    return offset if half == FIXED[memory] else PAGE_START[page] + offset


def run(memory, page, address, count, lent):
    """The indices of a run, or None where it goes past 3FFF or has an index past the lent memory."""
    if address + count > 2 * HALF:
        return None
    indices = [index(memory, page, address + step) for step in range(count)]
    return None if any(place >= lent for place in indices) else indices


# IO pairs: a register ID of which bit 12 means write, and a value.


def pairs(words):
    return list(zip(words[0::2], words[1::2]))


def is_register(word, lent):
    """Bits 11-0 below the lent IO, bits 15-13 zero."""
    return word >> 13 == 0 and word & 0xFFF < lent


def perform(registers, words):
    """Runs the pairs in order; the same words, read values filled in."""
    answer = []
    for word, value in pairs(words):
        register = word & 0xFFF
        if word & 0x1000:
            registers[register] = value
        answer += [word, registers[register]]
    return answer


# Segments.


def fits(segment, memories):
    """Whether a segment's run or register IDs are those of the lent memory."""
    memory, page, address, words = segment[:4]
    lent = len(memories[memory])
    if memory == IO:
        return all(is_register(word, lent) for word, _ in pairs(words))
    return run(memory, page, address, len(words), lent) is not None


def load(segment, memories):
    """Stores a segment that fits. IO read pairs do nothing."""
    memory, page, address, words = segment[:4]
    if memory == IO:
        perform(memories[IO], words)
        return
    for place, word in zip(run(memory, page, address, len(words), len(memories[memory])), words):
        memories[memory][place] = word


def read(memory, header, memories):
    """What Memory Read answers to two header words: them, the memory words packed as a body, and the body FCS. None: ABORT."""
    found = segment_header(*header)
    if found is None or found[0] != memory:
        return None
    _, length, page, address = found
    indices = run(memory, page, address, length - 1, len(memories[memory]))
    if indices is None:
        return None
    return header + sealed(packed(memory, [memories[memory][place] & WIDTH[memory] for place in indices]))
