"""An event build by request 12 of document 02, with sections 6.4, 12 and 12.2 of the note and its tables 6 and 15: the slaves of a set are
asked for Read Event, one after the other, and their fragments stand in a lent event area, behind one word for the event's number."""

from dataclasses import dataclass, replace

from group import END, MORE, ZERO_CODES, ending, fragment, is_sealed, slaves_of

ASKS = 3  # times that a slave which answers END is asked, in all
LEAST = 3  # words of a reply: event number, status and FCS
NONE_YET, NO_DATA, WHOLE, MIXED = TALLIES = 0, 1, 5, 6  # before the first answer; none had DAT, all code 0 with DAT, otherwise


class EventRules:
    """What a build has otherwise than a group: a reply's first word is the event's number, and is not repeated."""

    kept = 5  # event number, two mask words, node status and FCS

    def __init__(self, number):
        self.number = number

    def code(self, words, in_packets, room):
        if len(words) < LEAST:
            return 3
        if not is_sealed(words):
            return 0xC if in_packets else 5
        if words[0] != self.number:
            return 0xB if in_packets else 4
        return 0 if room else 2

    def data(self, words):
        return words[1:-2]


def number_after(last):
    return (last + 1) % 2**16


def tally_with(tally, dat, code):
    kind = NO_DATA if not dat else WHOLE if code == 0 else MIXED
    return kind if tally in (NONE_YET, kind) else MIXED


@dataclass(frozen=True)
class Building:
    """A build that is pending, as a node keeps it."""

    slave: int  # the one now being asked
    at: int  # the clock then
    asked: int  # the asked set, bit s for slave s
    times: int = 1  # that this slave has been asked
    words: int = 0  # of fragments, in the event area behind one word for the number
    tally: int = 0
    left_out: int = 0  # bit s for slave s
    received: int = 0  # words of the asked slave's reply, behind those of fragments and one for a length
    rx_status: int = 0  # of the last packet received, 0 where none is

    link = None  # it is no link's, so none drops it


# What is answered: ("read", slave) where the slave is asked for Read Event, ("next", slave), ("no event",) or ("built", words of the event).


def begun(asked, now):
    """A build that asks the lowest slave of a set that is not empty, and what is answered."""
    slave = slaves_of(asked)[0]
    return Building(slave, now, asked), ("read", slave)


def taken(build, area, number, own, now, answer):
    """The build of the event of a number with an answer taken in, None where it is over, and what is answered. `own` is the node's status
    word."""
    at = build.words + 2  # behind the event's number, the fragments and a length word
    later = [slave for slave in slaves_of(build.asked) if slave > build.slave]
    received = area[at:at + build.received]
    judged = fragment(build.slave, answer, build.words, len(later), received, build.rx_status, EventRules(number))
    if judged is MORE:
        return stored(build, area, now, answer, at + build.received)
    dat, code, words = judged
    if (dat, code) == (0, ZERO_CODES[END]) and build.times < ASKS:
        return replace(build, at=now, times=build.times + 1), ("read", build.slave)
    tally, built, left_out = tally_with(build.tally, dat, code), build.words, build.left_out
    if (dat, code, words[0]) == (1, 0, 1):
        left_out |= 1 << build.slave
    else:
        area[at - 1:at - 1 + len(words)] = words
        built += len(words)
    if later:
        return Building(later[0], now, build.asked, 1, built, tally, left_out), ("read", later[0])
    return None, ended(area, number, own, built, tally, left_out)


def stored(build, area, now, answer, at):
    """The packet's words stand behind those received before, the event number among them, and the slave has 60 ticks anew."""
    area[at:at + len(answer.words)] = answer.words
    received = build.received + len(answer.words)
    return replace(build, at=now, received=received, rx_status=answer.rx_status), ("next", build.slave)


def ended(area, number, own, built, tally, left_out):
    if tally == NO_DATA:
        return ("no event",)
    event = [number, *area[1:1 + built], left_out >> 16, left_out & 0xFFFF]
    event += ending(event, tally, own)
    area[:len(event)] = event
    return "built", len(event)
