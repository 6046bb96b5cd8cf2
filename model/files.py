"""Files as words, from 01 'Files and memories': a body is a run of bytes, high byte of each packet word first, and a memory word is
three of them in PM and two in DM and IO. The last memory word of a body is its FCS; in PM that word has three bytes, of which the
first is zero."""

from runs import check_sequence

PM, DM, IO = "PM", "DM", "IO"
MEMORIES = {0: PM, 1: DM, 2: IO, 3: IO}  # bits 15-14 of the first header word
PAGES = {0: 0, 2: 4, 3: 5}  # bits 15-14 of the second; 01 is invalid
BYTES = {PM: 3, DM: 2, IO: 2}


def packed(memory, words):
    """Memory words as packet words; a last byte alone has a zero byte behind it."""
    run = b"".join(word.to_bytes(BYTES[memory], "big") for word in words)
    run += b"\0" * (len(run) % 2)
    return [int.from_bytes(run[at:at + 2], "big") for at in range(0, len(run), 2)]


def unpacked(memory, packet, count):
    """The first memory words of packet words."""
    run = b"".join(word.to_bytes(2, "big") for word in packet)
    size = BYTES[memory]
    return [int.from_bytes(run[at * size:at * size + size], "big") for at in range(count)]


def permitted(memory, length):
    """PM even, 2 or more; DM 2 or more; IO odd, 3 or more."""
    if memory == PM:
        return length >= 2 and length % 2 == 0
    if memory == DM:
        return length >= 2
    return length >= 3 and length % 2 == 1


def segment_header(first, second):
    """What two header words say as (memory, length, page, address), or None where length or page isn't permitted."""
    memory, length = MEMORIES[first >> 14], first & 0x3FFF
    if not permitted(memory, length):
        return None
    if memory != IO and second >> 14 not in PAGES:
        return None
    return memory, length, PAGES.get(second >> 14), second & 0x3FFF


def segment_at(words, at):
    """The valid segment at a place as (memory, page, address, memory words, the place past it), or None."""
    if at + 2 > len(words):
        return None
    header = segment_header(words[at], words[at + 1])
    if header is None:
        return None
    memory, length, page, address = header
    size = length * BYTES[memory] // 2
    body = words[at + 2:at + 2 + size]
    if len(body) < size:
        return None
    held = unpacked(memory, body, length)
    if held[-1] != check_sequence(body[:-1]):
        return None
    return memory, page, address, held[:-1], at + 2 + size


def name_of(header):
    return header >> 4 & 0xFF


def may_start(word):
    """Whether a word can start a file: type 00 or 01, 1 to 14 segments."""
    return word >> 14 in (0, 1) and 1 <= word & 15 <= 14


def segments_of(words):
    """The segments of the valid file that starts the words, each as `segment_at` says it, or None."""
    if not words or not may_start(words[0]):
        return None
    found, at = [], 1
    for _ in range(words[0] & 15):
        segment = segment_at(words, at)
        if segment is None:
            return None
        found.append(segment)
        at = segment[-1]
    return found


def file_length(words):
    """The length of the valid file that starts the words, or None."""
    segments = segments_of(words)
    return None if segments is None else segments[-1][-1]


def sealed(body):
    """Packet words with their FCS behind them."""
    return body + [check_sequence(body)]
