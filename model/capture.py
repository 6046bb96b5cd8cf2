"""Captured group replies, 02, request 3, by search. Acceptable is what some answers of the mask's slaves make the assembly of `group` end
in: so answers are tried, slave after slave, in one packet or in several, and those kept whose fragments agree with the captured words. The
word named is found by its definition: the first one such that no acceptable reply begins with the words up to it."""

from bisect import bisect_left

from files import sealed
from group import ABORT, AREA, END, ERROR, MORE, NEXT, Answer, ending, fragment, slaves_of, tally_with, zero_length

OWN = [bits << 6 | 0x0020 for bits in range(8)]  # the node's own status word: bits 8, 7 and 6 any
SIZES = (1, 3, 4)  # length words to try where none was captured
COUNTS = (1, 2, 0xFFFF)  # and reply lengths
FIRST, MIDDLE, LAST, WHOLE = 0b10, 0b00, 0b01, 0b11
LATE = Answer(True, False, 0, 0, 0, [])


def taken(words, bc=WHOLE, rx=0):
    return Answer(False, False, rx, 0, bc, words)


def whole(seen, length):
    """The data reply whose fragment has a length word and, as far as they were seen, its words and the slave's status bits."""
    shown = (seen[1 : length + 1] + [0] * length)[:length]
    return taken(sealed(shown))


def faulty(seen):
    """Data replies of each fault, with the RX status, reply length, first word and status bits that were seen. What a fragment of a fault
    doesn't show is 0, but for the last word: that one makes the FCS right or wrong. FFFF is the length of longer ones too."""
    rx, _, first, status = (seen[1:5] + [0] * 4)[:4]
    counts = COUNTS if len(seen) < 3 else (0xFFFF, 0x10000) if seen[2] == 0xFFFF else (seen[2],)
    for n in counts:
        if n == 0:
            continue
        words = [first] + [0] * (n - 1)
        if n > 2:
            words[n - 2] = status
        for bc in (MIDDLE, LAST, FIRST):
            yield [taken(words, bc, rx)]
        yield [taken(words, FIRST, rx), LATE]
        yield [taken(words, FIRST), taken([], NEXT, rx)]
        if n == 1:
            yield [taken(words, rx=rx)]
        else:
            right = sealed(words[:-1])
            wrong = right[:-1] + [right[-1] ^ 1]
            yield [taken(right, rx=rx)]
            yield [taken(wrong, rx=rx)]
            for bc in (FIRST, MIDDLE, LAST):
                yield [taken(wrong[:1], FIRST), taken(wrong[1:], bc, rx)]


def answers(seen):
    """Answers to try for a slave, each a list of packets, of whose fragment and of what follows it some words were seen: all that can agree
    with the length word, each with what the words show of it. A reply in packets that is whole, or has receive errors in the end, has the
    fragment that another answer has too."""
    for length in seen[:1] or SIZES:
        if length == 1:
            yield [LATE]
            for bc in (NEXT, ABORT, ERROR, END):
                yield [taken([], bc)]
        if length == 3:
            rx_status, rx_address = (seen[1:3] + [0, 0])[:2]
            yield [Answer(False, True, rx_status, rx_address, 0, [])]
        if length == 4:
            yield from faulty(seen)
        if 1 <= length < AREA:
            yield [whole(seen, length)]


def fragment_of(slave, packets, built, left):
    """The fragment that a slave's packets make, up to the one that ends its reply; MORE where none does."""
    stored, rx_status = [], 0
    for packet in packets:
        judged = fragment(slave, packet, built, left, stored, rx_status)
        if judged is not MORE:
            return judged
        stored, rx_status = stored + packet.words, packet.rx_status
    return MORE


def answered(mask, words, exact):
    """Answers of the mask's slaves, each a list of packets, and the node's own status word behind them, that end in a data reply that begins
    with the words, or that is the words exactly; None where there are none."""
    slaves, tried = slaves_of(mask), set()

    def agree(laid, at):
        seen = words[at : at + len(laid)]
        return seen == (laid if exact else laid[: len(seen)])

    def from_slave(place, built, tally):
        if (place, built, tally) in tried:
            return None
        tried.add((place, built, tally))
        if place == len(slaves):
            return end(built, tally)
        for packets in answers(words[built:]):
            made = fragment_of(slaves[place], packets, built, len(slaves) - 1 - place)
            if made is not MORE and agree(made[2], built):
                dat, code, laid = made
                rest = from_slave(place + 1, built + len(laid), tally_with(tally, dat, code))
                if rest is not None:
                    return [packets] + rest
        return None

    def end(built, tally):
        if zero_length(tally) is not None or built + 2 < len(words):
            return None
        return next(([own] for own in OWN if agree(ending(words[:built], tally, own), built)), None)

    return from_slave(0, 0, 0)


def has_slaves(mask):
    """An empty mask, or one above 24 bits, has no acceptable reply."""
    return 0 < mask < 1 << 24


def is_acceptable(mask, words):
    return has_slaves(mask) and answered(mask, words, True) is not None


def is_beginning(mask, words):
    """Whether an acceptable reply begins with the words."""
    return has_slaves(mask) and answered(mask, words, False) is not None


def broken_at(mask, words):
    """None where the words are acceptable, else the first word after which no acceptable reply could have begun so, or their number where
    one could. A beginning of a beginning is one, so the first word can be found by halving."""
    if is_acceptable(mask, words):
        return None
    return bisect_left(range(len(words)), True, key=lambda last: not is_beginning(mask, words[: last + 1]))
