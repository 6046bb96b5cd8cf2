"""Group assembly by document 01, 'Group assembly', and request 8 of 02, with tables 4 and 6 of the note: a slave's answer, in one packet
or in several, to its fragment, the tally, the end of a group, and a single slave's reply."""

from runs import check_sequence

AREA = 12288  # words of the assembly area
LIMIT = 60  # ticks of 10 ms

NEXT, ERROR, ABORT, END = 0b00, 0b01, 0b10, 0b11  # a 0-length reply is told by its BC
ZERO_CODES = {NEXT: 1, ABORT: 2, ERROR: 3, END: 4}


def is_late(now, asked):
    return (now - asked) % 2**32 >= LIMIT


def slaves_of(mask):
    return [slave for slave in range(24) if mask >> slave & 1]


class Answer:
    """What came of the slave now being asked: a packet, or nothing in time."""

    def __init__(self, late, errors, rx_status, rx_address, bc, words):
        self.late = late
        self.errors = errors
        self.rx_status = rx_status
        self.rx_address = rx_address
        self.bc = bc & 3
        self.words = words


def is_sealed(words):
    return check_sequence(words[:-1]) == words[-1]


MORE = None  # in place of DAT and code: the packet's words are stored, and the slave is sent NEXT
COMPLETE = "complete"  # in place of them too: the packet is the last one, and the reply's words decide


def first_judged(answer, room):
    """DAT and code of a first packet, MORE or COMPLETE; `room` says whether the words so far have room, its own among them."""
    if answer.late:
        return 0, 5
    if answer.errors:
        return 0, 6
    if not answer.words:
        return 0, ZERO_CODES[answer.bc]
    if not answer.bc & 2:
        return 1, 1
    if answer.bc == 0b10:
        return MORE if room else (1, 0xA)
    return COMPLETE


def later_judged(answer, room):
    """The same of a later packet, the answer to NEXT."""
    if answer.late:
        return 1, 6
    if answer.errors:
        return 0, 6
    if not answer.words:
        return 1, 7
    if answer.bc & 2:
        return 1, 8
    if not room:
        return 1, 0xA
    return MORE if answer.bc == 0b00 else COMPLETE


class GroupRules:
    """What a group has of its own, since an event build (02, request 12) has it otherwise."""

    kept = 2  # words that are kept free for what stands around the fragments: node status and FCS

    def code(self, words, in_packets, room):
        """The code of a complete reply. One in packets has two words at least, and room by now."""
        if len(words) == 1:
            return 3
        if not is_sealed(words):
            return 0xC if in_packets else 5
        return 0 if room else 2

    def data(self, words):
        """Those of its words that stand in its fragment."""
        return words[:-2]


def status_word(dat, code, slave_bits, slave):
    return dat << 15 | code << 11 | slave_bits | slave


def fragment(slave, answer, built, left, stored=(), rx_status=0, rules=GroupRules()):
    """DAT, code and the fragment's words, with `built` words before it and `left` slaves yet to ask; or MORE. Of a reply in packets the
    words received before are `stored`, and `rx_status` came with the last of them."""
    joined = [*stored, *([] if answer.late else answer.words)]
    room = built + len(joined) + 5 * left + rules.kept <= AREA
    judged = later_judged(answer, room) if stored else first_judged(answer, room)
    if judged is MORE:
        return MORE
    dat, code = (1, rules.code(joined, len(stored) > 0, room)) if judged is COMPLETE else judged
    bits = joined[-2] & 0x07E0 if dat and code in (0, 2) else 0
    if not dat:
        body = [answer.rx_status, answer.rx_address] if code == 6 else []
    elif code:
        body = [rx_status if answer.late else answer.rx_status, min(len(joined), 0xFFFF), joined[0]]
    else:
        body = rules.data(joined)
    return dat, code, [len(body) + 1] + body + [status_word(dat, code, bits, slave)]


def kind_of(dat, code):
    """An answer's part in the tally: 1 to 4 a 0-length reply, 5 whole, 6 anything else."""
    if dat:
        return 5 if code == 0 else 6
    return code if code <= 4 else 6


def tally_with(tally, dat, code):
    """The tally, 0 before the first answer, with one answer more: it stays while all are of one kind, otherwise it is 6, mixed."""
    kind = kind_of(dat, code)
    return kind if tally in (0, kind) else 6


def zero_length(tally):
    """The BC of the 0-length reply that all slaves gave, or None."""
    return {code: bc for bc, code in ZERO_CODES.items()}.get(tally)


def ending(fragments, tally, own):
    """The words behind the fragments: node status, bit 5 clear and bit 9 set unless every code is 0 with DAT, and FCS."""
    status = own & ~0x0020 & ~0x0200 | (0 if tally == 5 else 0x0200)
    return [status, check_sequence(fragments + [status])]


def single(answer):
    """The BC and the words that a single slave's reply is passed on as."""
    if answer.late:
        return ABORT, []
    if answer.errors:
        return ERROR, []
    if len(answer.words) > AREA:
        return ABORT, []
    return answer.bc, answer.words
