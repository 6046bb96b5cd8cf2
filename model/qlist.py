"""The Q-List, from 02, request 7, and sections 7.42 to 7.44 and 13: entries in a lent list of words, seven a record, of which the node
lists the first so many. Words behind the last whole record are none of it."""

from dataclasses import dataclass, replace

RECORD = 7  # words
MOST = 910  # records
TOLD = 5  # words of an entry that are written and read: all but its due time


@dataclass(frozen=True)
class Entry:
    header: int
    repetitions: int
    frequency: int  # its low 16 bits
    first: int  # the two parameters
    second: int
    due: int = 0

    def told(self):
        return [self.header, self.repetitions, self.frequency, self.first, self.second]

    def ticks(self):
        """Section 13: the header's high byte has the frequency's high eight bits."""
        return self.header >> 8 << 16 | self.frequency

    def is_delayed(self):
        """Section 13: First isn't set, so the entry follows the one before it."""
        return not self.header & 0x0008

    def moved_on(self, since):
        """Due one frequency after a time."""
        return replace(self, due=(since + self.ticks()) % 2**32)

    def is_due(self, now):
        return (now - self.due) % 2**32 < 2**31


def records_in(words):
    return len(words) // RECORD


def entry_at(words, place):
    record = words[place * RECORD:(place + 1) * RECORD]
    return Entry(*record[:TOLD], record[TOLD] | record[TOLD + 1] << 16)


def put_entry(words, place, entry):
    words[place * RECORD:(place + 1) * RECORD] = [*entry.told(), entry.due & 0xFFFF, entry.due >> 16]


def entries_of(words, listed):
    return [entry_at(words, place) for place in range(listed)]


def written(body):
    """The entries that a segment's memory words say: a count, and five words each. None where the count doesn't match their number."""
    count, told = body[0], body[1:]
    if len(told) != TOLD * count:
        return None
    return [Entry(*told[at:at + TOLD]) for at in range(0, len(told), TOLD)]


def may_be_written(entry):
    return entry.ticks() > 0 and not entry.is_delayed()


# What calls do to the list.


def add(words, listed, entries, now):
    """Behind those listed, each first due one frequency after now."""
    for place, entry in enumerate(entries, listed):
        put_entry(words, place, entry.moved_on(now))


def clear(words, place):
    put_entry(words, place, replace(entry_at(words, place), repetitions=0))


def close_up(words, listed):
    """Removes the entries that have no repetitions left; answers how many stay. What stood in the places freed stays there."""
    staying = [entry for entry in entries_of(words, listed) if entry.repetitions > 0]
    for place, entry in enumerate(staying):
        put_entry(words, place, entry)
    return len(staying)


def step(words, place, now):
    """The slow-control step at an entry: whether it is handed out, and then with one repetition less and due one frequency later."""
    entry = entry_at(words, place)
    if not entry.is_due(now) or entry.repetitions == 0:
        return False
    put_entry(words, place, replace(entry.moved_on(entry.due), repetitions=entry.repetitions - 1))
    return True
