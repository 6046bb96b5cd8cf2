"""The whole node, from document 01 and requests 1, 2, 5, 6, 7, 8, 10 and 12 of 02: its state, the refusals, requests, own commands, and the
seven calls start, request, build, reply, poll, erase and slow. A call takes a node and what it is lent, and hands back the next node with the
answer; lent lists change in place, and only if the call is accepted. An answer is a tuple: ("refused", number), ("started",), ("reply", BC,
words in the reply buffer), ("ask", slave, word from which the request is sent on), ("next", slave that is sent NEXT), ("waiting",),
("erased", words set), ("handed", place of a Q-List entry), ("nothing",), ("read", slave that is asked for Read Event), ("no event",) or
("built", words of the event)."""

from dataclasses import dataclass, replace
from typing import Optional, Union

from event import ASKS, TALLIES, Building, EventRules, begun, number_after
from event import taken as taken_in_build
from files import DM, IO, PM, file_length, name_of, sealed, segment_at, segments_of
from flash import BAD, EMPTY, GOOD, SECTORS, SEVERAL, SIZES, STATUS, attributed, blank, directory_of, entry, entry_of, extent, laid, named
from flash import place_for, searched, sector_to_erase, status_in, store, words_in
from group import ABORT, AREA, END, ERROR, MORE, NEXT, Answer, GroupRules, ending, fragment, is_late, single, slaves_of, tally_with, zero_length
from memory import fits, load, perform, read
from qlist import MOST, add, clear, close_up, entries_of, may_be_written, records_in, step, written

CDP, CDDC = 1, 2
SLAVES = 24
ALL = (1 << SLAVES) - 1  # the mask of all slaves
JOINED = 32768  # words of a file that comes in several packets, at most: so many are lent to join them in


# The state.


@dataclass(frozen=True)
class Erasing:
    sector: int
    done: int  # words set so far


@dataclass(frozen=True)
class Built:
    """What a group adds to a pending request."""

    asked: int  # the asked set, bit s for slave s
    first: int  # the word from which the request is sent on
    words: int  # of fragments, in the reply buffer
    tally: int  # 0 none yet, 1 all NEXT, 2 all ABORT, 3 all ERROR, 4 all END, 5 all code 0 with DAT, 6 mixed
    received: int = 0  # words of the asked slave's reply, behind those of fragments and one for a length; 02, request 8
    rx_status: int = 0  # of the last packet received, 0 where none is


@dataclass(frozen=True)
class Pending:
    link: int
    slave: int  # the one now being asked
    at: int  # the clock then
    group: Optional[Built] = None  # None: a single slave


@dataclass(frozen=True)
class Write:
    """A File Write of which a first packet came and no last one yet (02, request 1)."""

    link: int
    joined: int  # words so far, in the lent area


@dataclass(frozen=True)
class Node:
    kind: int = 0
    ports: int = 0
    subdetector: int = 0
    mode: int = 0
    program_version: int = 0
    subdetector_version: int = 0
    start_tests: int = 0
    start_clock: int = 0
    flash_words: int = 0
    amswire: int = 0  # errors counted
    flash_errors: int = 0
    masks: tuple = (0,) * 16
    directory: tuple = (0,) * 32
    erasing: Optional[Erasing] = None
    pending: Union[Pending, Building, None] = None  # a request, or an event build (02, request 12)
    write: Optional[Write] = None
    listed: int = 0  # entries of the Q-List (02, request 7)
    turn: int = 0  # the place of the one that the next slow-control step looks at
    event: int = 0  # the last event's number (02, request 12)
    build_errors: int = 0  # builds whose event has bit 9 set
    unread: int = 0  # words of the event that was built and not yet read, 0 for none


ZEROS = Node()  # what a refused start hands back


@dataclass
class Lent:
    """The lent words, each a list; PM words have 32 bits."""

    flash: list
    memories: dict  # by the names PM, DM and IO
    area: list  # in which the packets of a File Write are joined
    qlist: list  # seven words a record
    events: list  # the event area
    reply: list


def more(count):
    """A count goes up by one and stops at FFFF."""
    return min(count + 1, 0xFFFF)


# Call refusals: the first cause that holds, of those that the call has, in the order of the table; 8, 9 and 11 come behind 3.


def flash_refused(flash, node):
    return len(flash) not in SIZES or len(flash) != node.flash_words


def buffer_refused(reply):
    return len(reply) < AREA


def memories_refused(memories):
    return len(memories[PM]) > 32768 or len(memories[DM]) > 32768 or len(memories[IO]) > 4096


def area_refused(area):
    return len(area) < JOINED


def qlist_refused(qlist, node):
    return not node.listed <= records_in(qlist) <= MOST


def events_refused(events):
    return len(events) < AREA


def start_refused(kind, ports, subdetector):
    return kind not in (CDP, CDDC) or ports not in range(1, 5) or subdetector not in range(8)


def gathered_refused(slave, gathered, kept):
    """Of a group or a build, around whose fragments so many words are kept free."""
    if gathered.asked > ALL or not gathered.asked >> slave & 1:
        return True
    left = len(slaves_of(gathered.asked >> slave + 1))
    if gathered.words + 5 * (left + 1) + kept > AREA or gathered.words + gathered.received + 5 * left + kept > AREA:
        return True
    return gathered.received == 0 and gathered.rx_status != 0


def group_refused(slave, group):
    return gathered_refused(slave, group, GroupRules.kept) or group.first not in (1, 2) or group.tally not in range(7)


def build_refused(build):
    if gathered_refused(build.slave, build, EventRules.kept) or build.tally not in TALLIES:
        return True
    return build.times not in range(1, ASKS + 1) or build.left_out > ALL


def pending_refused(node):
    pending = node.pending
    if pending.slave >= SLAVES:
        return True
    if isinstance(pending, Building):
        return build_refused(pending)
    return pending.link >= node.ports or pending.group is not None and group_refused(pending.slave, pending.group)


def erasing_refused(node):
    sector, done = node.erasing.sector, node.erasing.done
    return sector not in SECTORS or done >= len(extent(node.flash_words, sector))


def write_refused(node):
    return node.write.link >= node.ports or node.write.joined > JOINED


def listing_refused(node):
    """The turn is that of a listed entry, or 0 where none is."""
    return node.listed > MOST or node.turn > max(node.listed - 1, 0)


def state_refused(node):
    if start_refused(node.kind, node.ports, node.subdetector) or node.mode not in range(4):
        return True
    if node.flash_words not in SIZES or any(mask > ALL for mask in node.masks):
        return True
    if node.erasing is not None and erasing_refused(node):
        return True
    if node.write is not None and write_refused(node) or listing_refused(node) or node.unread > AREA:
        return True
    return node.pending is not None and pending_refused(node)


def first_of(*causes):
    """The number of the first cause that holds, or None."""
    for number, holds in causes:
        if holds:
            return number
    return None


# Replies.


def own_status(node):
    """Own status word: bit 8 the OR of node-status bits 11-8, bit 7 compressed mode, bit 6 raw mode, bit 5 set."""
    return (0x0100 if node.start_tests & 0x0F00 else 0) | (node.mode & 3) << 6 | 0x0020


def zero_reply(bc):
    return "reply", bc, 0


def sent(reply, bc, words):
    """A reply whose words are put into the reply buffer."""
    reply[:len(words)] = words
    return "reply", bc, len(words)


# Own commands. Each takes the node, what is lent, when and on which link it was asked, and its parameters; it hands back the node
# and either the data words of a read reply, or a reply as it is sent, or the BC of a 0-length one.


@dataclass(frozen=True)
class AsItIs:
    """A reply to which no status word and no FCS are put."""

    words: list


def read_status(node, lent, now, link, parameters):
    elapsed = (now - node.start_clock) % 2**32
    counts = (0x4000 if node.build_errors else 0) | (0x2000 if node.amswire else 0) | (0x1000 if node.flash_errors else 0)
    return node, [
        node.program_version,
        1 << 12 | node.kind << 8 | node.subdetector << 4 | node.ports,
        node.subdetector_version,
        elapsed & 0xFFFF,
        elapsed >> 16,
        counts | node.start_tests & 0x0F00 | link,
        node.event,
        node.build_errors,
        node.amswire,
        node.flash_errors,
    ]


def ping(node, lent, now, link, parameters):
    return node, parameters


def mode_read(node, lent, now, link, parameters):
    return node, [node.mode]


def mode_write(node, lent, now, link, parameters):
    if parameters[0] > 3:
        return node, ABORT
    return replace(node, mode=parameters[0]), END


def mask_read(node, lent, now, link, parameters):
    return node, [sum((mask >> slave & 1) << place for place, mask in enumerate(node.masks)) for slave in range(SLAVES)]


def mask_write(node, lent, now, link, parameters):
    first, second = parameters
    if first >> 12:
        return node, ABORT
    masks = list(node.masks)
    masks[first >> 8] = (first & 0xFF) << 16 | second
    return replace(node, masks=tuple(masks)), END


# Memories: a command's segment or header must be of its own memory and exact.


def exact(memory, words):
    """The valid segment that the words are, or None."""
    segment = segment_at(words, 0)
    return segment if segment and segment[0] == memory and segment[-1] == len(words) else None


def perform_io(node, lent, now, link, parameters):
    segment = exact(IO, parameters)
    if segment is None or not fits(segment, lent.memories):
        return node, ABORT
    return node, parameters[:2] + sealed(perform(lent.memories[IO], segment[3]))


def memory_read(memory):
    def command(node, lent, now, link, parameters):
        words = read(memory, parameters, lent.memories)
        return node, ABORT if words is None else words

    return command


def memory_write(memory):
    def command(node, lent, now, link, parameters):
        segment = exact(memory, parameters)
        if segment is None or not fits(segment, lent.memories):
            return node, ABORT
        load(segment, lent.memories)
        return node, END

    return command


# Files. The directory that the state keeps stands for the flash's.


def with_entry(node, sector, entry):
    return replace(node, directory=tuple(laid(list(node.directory), sector, entry)))


def target(node, lent, header):
    """The sector that has the name in a header, None where there is none, SEVERAL where there are several; and the words of its file, None
    where it isn't good."""
    directory = list(node.directory)
    sector = searched(directory, name_of(header))
    if sector in (None, SEVERAL):
        return sector, None
    status, length = status_in(lent.flash, directory, sector)
    return sector, words_in(lent.flash, sector)[:length] if status == GOOD else None


def of_bad_file(node):
    """Read, Test and Load of a bad file add one FLASH error; so do Read and Load where several sectors have the name (02, request 10)."""
    return replace(node, flash_errors=more(node.flash_errors))


def file_read(node, lent, now, link, parameters):
    sector, words = target(node, lent, parameters[0])
    if sector is None:
        return node, END
    if words is None:
        return of_bad_file(node), ABORT
    return node, words


def file_test(node, lent, now, link, parameters):
    sector, words = target(node, lent, parameters[0])
    if sector in (None, SEVERAL):
        return node, ABORT
    if words is None:
        return of_bad_file(node), [STATUS[BAD]]
    return node, [STATUS[GOOD]]


def file_load(node, lent, now, link, parameters):
    sector, words = target(node, lent, parameters[0])
    if sector is None:
        return node, ABORT
    if words is None:
        return of_bad_file(node), ABORT
    segments = segments_of(words)
    if not all(fits(segment, lent.memories) for segment in segments):
        return node, ABORT
    for segment in segments:
        load(segment, lent.memories)
    return node, END


def file_write(node, lent, now, link, parameters):
    if file_length(parameters) != len(parameters):
        return node, ABORT
    directory = list(node.directory)
    if named(directory, name_of(parameters[0])) is not None:
        return node, ABORT
    sector = place_for(lent.flash, directory, len(parameters))
    if sector is None:
        return node, ABORT
    store(lent.flash, sector, parameters)
    return with_entry(node, sector, entry(sector, parameters[0], GOOD, len(parameters))), END


def flash_summary(node, lent, now, link, parameters):
    return node, list(node.directory)


def erase_start(node, lent, now, link, parameters):
    sector = sector_to_erase(list(node.directory), parameters[0])
    if sector in (None, SEVERAL):
        return node, ABORT
    node = with_entry(node, sector, entry_of(lent.flash, sector, sector))
    return replace(node, erasing=Erasing(sector, 0)), END


def attribute_set(node, lent, now, link, parameters):
    sector, words = target(node, lent, parameters[0])
    header = None if words is None else attributed(words[0], parameters[1])
    if header is None:
        return node, ABORT
    store(lent.flash, sector, [header])
    return with_entry(node, sector, entry(sector, header, GOOD, len(words))), END


# The Q-List (02, request 7).

ALL_ENTRIES = 0xFFFF  # the parameter that deletes the whole list


def qlist_write(node, lent, now, link, parameters):
    """A DM segment at address 2000 of page 0, which says entries: they are added whole or not at all."""
    segment = exact(DM, parameters)
    entries = written(segment[3]) if segment and segment[1:3] == (0, 0x2000) else None
    if entries is None or not all(may_be_written(entry) for entry in entries):
        return node, ABORT
    listed = node.listed + len(entries)
    if listed > records_in(lent.qlist):
        return node, ABORT
    add(lent.qlist, node.listed, entries, now)
    return replace(node, listed=listed), END


def qlist_delete(node, lent, now, link, parameters):
    """Without a parameter the expired entries go, with FFFF all; another one is the place of an entry that has no repetitions from now on."""
    if not parameters:
        return replace(node, listed=close_up(lent.qlist, node.listed), turn=0), END
    if parameters == [ALL_ENTRIES]:
        return replace(node, listed=0, turn=0), END
    if parameters[0] >= node.listed:
        return node, ABORT
    clear(lent.qlist, parameters[0])
    return node, END


def qlist_read(node, lent, now, link, parameters):
    return node, [node.listed] + [word for entry in entries_of(lent.qlist, node.listed) for word in entry.told()]


# Events (02, request 12, and sections 7.18 to 7.20).


def event_read(node, lent, now, link, parameters):
    """The event that was built, once: what stands in the event area is it, status word and FCS included."""
    if node.unread == 0:
        return node, END
    return replace(node, unread=0), AsItIs(lent.events[:node.unread])


def event_number(node, lent, now, link, parameters):
    return node, [node.event, 0]  # the average time is 0


def event_reset(node, lent, now, link, parameters):
    return replace(node, event=0, unread=0), END


ANY = range(JOINED + 1)  # as many as come
COMMANDS = {  # by request ID: the command and its parameter counts
    0x01: (event_read, (0,)),
    0x02: (event_number, (0,)),
    0x42: (event_reset, (0,)),
    0x0C: (read_status, (0,)),
    0x0D: (ping, range(8001)),
    0x05: (file_read, (1,)),
    0x45: (file_write, ANY),
    0x06: (file_test, (1,)),
    0x46: (file_load, (1,)),
    0x07: (flash_summary, (0,)),
    0x47: (erase_start, (1,)),
    0x48: (attribute_set, (2,)),
    0x0F: (perform_io, ANY),
    0x10: (memory_read(PM), (2,)),
    0x50: (memory_write(PM), ANY),
    0x11: (memory_read(DM), (2,)),
    0x51: (memory_write(DM), ANY),
    0x12: (mode_read, (0,)),
    0x52: (mode_write, (1,)),
    0x17: (mask_read, (0,)),
    0x57: (mask_write, (2,)),
    0x5B: (qlist_delete, (0, 1)),
    0x5C: (qlist_write, ANY),
    0x1C: (qlist_read, (0,)),
}
OF_MASKS = (0x17, 0x57)
NOT_WHILE_ERASING = (0x05, 0x45, 0x06, 0x46, 0x47, 0x48)


def own_command(node, lent, now, link, number, parameters):
    """Step 6, and the reply."""
    if number not in COMMANDS or number in OF_MASKS and node.kind == CDP:
        return node, zero_reply(ABORT)
    if node.erasing is not None and number in NOT_WHILE_ERASING:
        return node, zero_reply(ABORT)
    command, counts = COMMANDS[number]
    if len(parameters) not in counts:
        return node, zero_reply(ABORT)
    node, outcome = command(node, lent, now, link, parameters)
    if outcome in (ABORT, END):
        return node, zero_reply(outcome)
    if isinstance(outcome, AsItIs):
        return node, sent(lent.reply, 0b11, outcome.words)
    if len(outcome) + 2 > AREA:
        return node, zero_reply(ABORT)
    return node, sent(lent.reply, 0b11, sealed(outcome + [own_status(node)]))


# Requests.


def counted(node):
    """A request answered ERROR at steps 1 to 4."""
    return replace(node, amswire=more(node.amswire)), zero_reply(ERROR)


def mask_of(node, packet):
    """The slaves that a group request names, None where its mask ID is above 15 or its mask isn't whole; and the words to strip."""
    first, second = packet[0] & 0xFF, packet[0] >> 8
    if first == 0x2A:
        return ALL, 1
    if first == 0x40:
        return (node.masks[second] if second <= 15 else None), 1
    return (second | packet[1] << 8 if len(packet) > 1 else None), 2


def forwarded(node, now, link, packet):
    """Steps 4 and 5 for a request to slaves."""
    first, second = packet[0] & 0xFF, packet[0] >> 8
    if first < SLAVES:
        mask, stripped = (1 << first if second in (0x04, 0x05, 0x3F) else None), 1
    else:
        mask, stripped = mask_of(node, packet)
    if not mask or node.kind == CDP or len(packet) <= stripped:
        return node, zero_reply(ABORT)
    slave = slaves_of(mask)[0]
    group = None if first < SLAVES else Built(mask, stripped, 0, 0)
    return replace(node, pending=Pending(link, slave, now, group)), ("ask", slave, stripped)


# 02, request 1: a File Write in several packets.


def of_link(kept, link):
    """Whether a pending request or a standing write is there, and that link's."""
    return kept is not None and kept.link == link


def without_words(node, link, bc):
    """Step 2: what is that link's is dropped, a pending request, a standing write, or both."""
    pending, write = of_link(node.pending, link), of_link(node.write, link)
    if bc != 0b10 or not pending and not write:
        return node, zero_reply(ABORT)
    return replace(node, pending=None if pending else node.pending, write=None if write else node.write), zero_reply(END)


def broken_off(node):
    """ERROR to a packet with words that ends the write of its own link."""
    return counted(replace(node, write=None))


def joined(node, lent, link, before, words):
    """The words stand behind those joined before."""
    lent.area[before:before + len(words)] = words
    return replace(node, write=Write(link, before + len(words)))


def first_packet(node, lent, link, packet):
    """BC 10: it is for File Write alone, its header word whole."""
    if of_link(node.write, link):
        return broken_off(node)
    if packet[0] != 0x452E:
        return counted(node)
    if node.write is not None:
        return node, zero_reply(ABORT)
    return joined(node, lent, link, 0, packet[1:]), zero_reply(NEXT)


def later_packet(node, lent, now, link, is_last, packet):
    """BC 00 or 01: all words of it are joined. The last one is answered as the joined words in one packet would be."""
    if not of_link(node.write, link):
        return counted(node)
    if node.write.joined + len(packet) > JOINED:
        return replace(node, write=None), zero_reply(ABORT)
    node = joined(node, lent, link, node.write.joined, packet)
    if not is_last:
        return node, zero_reply(NEXT)
    return own_command(replace(node, write=None), lent, now, link, 0x45, lent.area[:node.write.joined])


def answered(node, lent, now, link, bc, receive_error, packet):
    """Steps 1 to 6."""
    if receive_error:
        return counted(node)
    if not packet:
        return without_words(node, link, bc)
    if len(packet) > 8192:
        return counted(node)
    if bc == 0b10:
        return first_packet(node, lent, link, packet)
    if bc != 0b11:
        return later_packet(node, lent, now, link, bc == 0b01, packet)
    if of_link(node.write, link):
        return broken_off(node)
    first = packet[0] & 0xFF
    if first == 0x2E:
        return own_command(node, lent, now, link, packet[0] >> 8, packet[1:])
    if first < SLAVES or first in (0x40, 0x23, 0x2A):
        return forwarded(node, now, link, packet)
    return counted(node)


# An answer of the slave now being asked, and what comes next: of a single one, in a group, in a build.


def taken(node, lent, now, answer):
    if answer.errors and not answer.late:
        node = replace(node, amswire=more(node.amswire))
    if isinstance(node.pending, Building):
        return built_on(node, lent.events, now, answer)
    return asked_on(node, lent.reply, now, answer)


def built_on(node, events, now, answer):
    """An event is unread from its end on, its number is the last one, and bit 9 of its status word is an error of the build."""
    number = number_after(node.event)
    pending, said = taken_in_build(node.pending, events, number, own_status(node), now, answer)
    node = replace(node, pending=pending)
    if said[0] != "built":
        return node, said
    words = said[1]
    errors = more(node.build_errors) if events[words - 2] & 0x0200 else node.build_errors
    return replace(node, event=number, build_errors=errors, unread=words), said


def asked_on(node, reply, now, answer):
    pending, group = node.pending, node.pending.group
    if group is None:
        return replace(node, pending=None), sent(reply, *single(answer))
    later = [slave for slave in slaves_of(group.asked) if slave > pending.slave]
    at = group.words + 1  # behind the fragment's length word
    judged = fragment(pending.slave, answer, group.words, len(later), reply[at:at + group.received], group.rx_status)
    if judged is MORE:
        return stored(node, reply, now, answer)
    dat, code, words = judged
    built, tally = group.words + len(words), tally_with(group.tally, dat, code)
    reply[group.words:built] = words
    if later:
        group = Built(group.asked, group.first, built, tally)
        return replace(node, pending=Pending(pending.link, later[0], now, group)), ("ask", later[0], group.first)
    return replace(node, pending=None), ended(reply, built, tally, own_status(node))


def stored(node, reply, now, answer):
    """02, request 8: the packet's words stand behind those received before, and the slave has 60 ticks anew."""
    pending, group = node.pending, node.pending.group
    at = group.words + 1 + group.received
    reply[at:at + len(answer.words)] = answer.words
    group = replace(group, received=group.received + len(answer.words), rx_status=answer.rx_status)
    return replace(node, pending=replace(pending, at=now, group=group)), ("next", pending.slave)


def ended(reply, built, tally, own):
    if zero_length(tally) is not None:
        return zero_reply(zero_length(tally))
    reply[built:built + 2] = ending(reply[:built], tally, own)
    return "reply", 0b11, built + 2


# The seven calls.


def start(kind, ports, subdetector, program_version, subdetector_version, start_tests, clock, flash):
    refusal = first_of((1, len(flash) not in SIZES), (4, start_refused(kind, ports, subdetector)))
    if refusal:
        return ZEROS, ("refused", refusal)
    return Node(
        kind=kind,
        ports=ports,
        subdetector=subdetector,
        mode=2 if kind == CDP else 0,
        program_version=program_version,
        subdetector_version=subdetector_version,
        start_tests=start_tests & 0x0F00,
        start_clock=clock,
        flash_words=len(flash),
        masks=(ALL if kind == CDDC else 0,) + (0,) * 15,  # 02, request 2
        directory=tuple(directory_of(flash)),
    ), ("started",)


def request(node, lent, now, link, bc, receive_error, packet):
    refusal = first_of(
        (1, flash_refused(lent.flash, node)),
        (2, buffer_refused(lent.reply)),
        (3, memories_refused(lent.memories)),
        (8, area_refused(lent.area)),
        (9, qlist_refused(lent.qlist, node)),
        (11, events_refused(lent.events)),
        (4, link >= node.ports),
        (5, state_refused(node)),
        (6, len(packet) > 0 and node.pending is not None),
    )
    if refusal:
        return node, ("refused", refusal)
    return answered(node, lent, now, link, bc & 3, receive_error, packet)


def build(node, events, now):
    """The slaves of mask 0 are asked for Read Event, the lowest first."""
    refusal = first_of((11, events_refused(events)), (5, state_refused(node)), (6, node.pending is not None))
    if refusal:
        return node, ("refused", refusal)
    if node.kind == CDP or node.masks[0] == 0 or node.unread > 0:
        return node, zero_reply(ABORT)
    pending, said = begun(node.masks[0], now)
    return replace(node, pending=pending), said


def reply(node, lent, now, slave, bc, receive_error, rx_status, rx_address, words):
    """It is lent the reply buffer and the event area alone."""
    refusal = first_of(
        (2, buffer_refused(lent.reply)),
        (11, events_refused(lent.events)),
        (4, slave >= SLAVES),
        (5, state_refused(node)),
        (7, node.pending is None or node.pending.slave != slave),
    )
    if refusal:
        return node, ("refused", refusal)
    late = is_late(now, node.pending.at)
    return taken(node, lent, now, Answer(late, receive_error != 0, rx_status, rx_address, bc, words))


def poll(node, lent, now):
    """It is lent what a reply is."""
    refusal = first_of(
        (2, buffer_refused(lent.reply)),
        (11, events_refused(lent.events)),
        (5, state_refused(node)),
        (7, node.pending is None),
    )
    if refusal:
        return node, ("refused", refusal)
    if not is_late(now, node.pending.at):
        return node, ("waiting",)
    return taken(node, lent, now, Answer(True, False, 0, 0, 0, []))


def erase(node, flash, budget):
    refusal = first_of((1, flash_refused(flash, node)), (5, state_refused(node)))
    if refusal:
        return node, ("refused", refusal)
    if node.erasing is None:
        return node, ("erased", 0)
    sector, done = node.erasing.sector, node.erasing.done
    count = blank(flash, sector, done, budget)
    if count == 0:
        return node, ("erased", 0)
    if done + count < len(extent(len(flash), sector)):
        node = with_entry(node, sector, entry_of(flash, sector, sector))
        return replace(node, erasing=Erasing(sector, done + count)), ("erased", count)
    node = with_entry(node, sector, entry(sector, words_in(flash, sector)[0], EMPTY))
    return replace(node, erasing=None), ("erased", count)


def slow(node, qlist, now):
    """One slow-control step looks at the entry in turn alone; the turn moves on either way, after the last to the first."""
    refusal = first_of((9, qlist_refused(qlist, node)), (5, state_refused(node)))
    if refusal:
        return node, ("refused", refusal)
    if node.listed == 0:
        return node, ("nothing",)
    handed = step(qlist, node.turn, now)
    return replace(node, turn=(node.turn + 1) % node.listed), ("handed", node.turn) if handed else ("nothing",)
