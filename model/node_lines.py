"""Scripts of calls as lines of words, and what each line prints.

A line is words of four hex digits; word 0 says what the line does. Below, a name stands for one word, name(2) for two words and
name(4) for four, the highest first. A word past the end of a line is 0; no line has more than 200 words. Every line prints one
line; a line that prints nothing else prints an empty one. Hex digits are lower case in what is printed.

There are eight memories, by number: 0 flash (262,160 words), 1 PM (32,784 words of 32 bits), 2 DM (32,784), 3 IO (4,112), 4 the reply
buffer (16,400), 5 the area in which the packets of a File Write are joined (32,784), 6 the Q-List (6,386), seven words a record: header,
repetitions, frequency, the two parameters, due time low word first; and 7 the event area (12,304). At first all words are 0, the node is all
zeros, and nothing is lent.
The first words of each memory are lent to a call, as many as the last line 9 said. The node that a call hands back is kept for the next
line, that of a refused start too.

    1 show kind(2) ports(2) subdetector(2) program_version subdetector_version start_tests clock(2)      start
    2 show clock(2) link(2) bc receive_error RUN                                                         request
    3 show clock(2) slave(2) bc receive_error rx_status rx_address RUN                                   reply
    4 show clock(2)                                                                                      poll
    5 show budget(4)                                                                                     erase progress
    6 memory at(2) count(2) word step                   fill: `count` words from `at` on. The first is `word`; where step is 0 all
                                                        are, else each next one follows by the rule of a run. A PM word takes two
                                                        of them, the high half first.
    7 memory at(2) RUN                                  the words of a run, from `at` on; never PM
    8 field index value(2) ..                           one field of the node, by its number below
    9 flash(2) PM(2) DM(2) IO(2) reply(2) area(2) list(2) events(2)    how many words of each memory are lent from now on
    A memory at(2) count(2)                             prints the digest of `count` words from `at` on
    B                                                   prints the node's words
    C show clock(2)                                     slow-control step
    D show clock(2) RUN                                 a list of requests: the words of the run, with the reply buffer for the replies
    E show clock(2)                                     an event build begins

The node takes kind, ports and sub-detector as one word each: a number above 65,535 is given to it as 65,535.

RUN is `front count(2) seed word..`: the first `front` of the words, then `count` words that begin with the seed, each next one the
one before times 25173 plus 13849, modulo 65,536 (no product reaches 2^32), then the other words. No run is above 65,552 words.

The fields of line 8: 0 kind, 1 ports, 2 sub-detector, 3 mode, 4 program version, 5 sub-detector version, 6 start tests, 7 start
clock, 8 flash words, 9 AMSWire errors, 10 FLASH errors, 11 mask `index`, 12 directory word `index`, 13 erasing nothing, 14 erasing
sector `index` with `value` words done, 15 nothing pending, 16 a slave pending, 17 a group pending. For 16 and 17 `index` is the
link and `value` the clock when the slave was asked, and behind them stand slave asked(2) first words(2) tally received(2) rx_status, of
which 16 has the slave alone. 18 no write stands, 19 a write of link `index` stands, with `value` words joined. 20 entries listed, 21 the turn.
22 the last event's number, 23 build errors, 24 words of the event unread. 25 a build pending: as 17, with times left_out(2) behind the other
words; link and first are 0 and not looked at, and the tally is 0, 1, 5 or 6. Kind, ports, sub-detector, mode, sector, link, slave, first and
times are at most 255, the tally at most 6, listed, turn, event number and build errors at most 65,535.

A call prints the digest of the node's words, then its answer:

    refused N       started       erased N       waiting       ask SLAVE FIRST       next SLAVE       handed PLACE       nothing
    reply BC N DIGEST WORD..      N words in the reply buffer, the digest of them, and the words themselves where N is at most 16
    done N                        of a list of requests: how many of its packets were done
    read SLAVE                    a slave is asked for Read Event
    no event                      a build is over, and there is no event
    built N DIGEST WORD..         a build is over: N words in the event area, the digest of them, and the words where N is at most 16

with numbers in decimal, and a digest or a word in four hex digits. Then, for each bit of `show` that is set, a letter and the
digest of the lent words after the call: bit 0 `f` flash, bit 1 `p` PM, bit 2 `d` DM, bit 3 `i` IO, bit 4 `r` reply buffer, bit 5
`a` area, bit 6 `l` Q-List, bit 7 `e` event area. One space stands between any two of these.

The digest of a run is 1 for no words; with one word more it is the digest before times 17 plus the word, modulo 65,521. Of PM both
halves of each word count, the high half first. (An FCS would not do: it is 0 of every run that ends with its own.)

The node's words: kind, ports, sub-detector, mode, program version, sub-detector version, start tests, start clock(2), flash
words(2), AMSWire errors, FLASH errors, 16 masks(2), 32 directory words; 1 or 0 as something is erasing or not, sector, done(2); 0
nothing, 1 a slave, 2 a group, 3 a build pending, link, slave, at(2), asked(2), first, words(2), tally, received(2), rx_status; 1 or 0 as a
write stands or not, link, joined(2); entries listed, the turn; the last event's number, build errors, words unread(2); of a build times,
left out(2). What a case doesn't have is 0: 108 words in all."""

from dataclasses import replace

import node as model
import series
from event import Building
from files import DM, IO, PM
from words import digest, run_of

START, REQUEST, REPLY, POLL, ERASE, FILL, POKE, SET, LEND, DIGEST, STATE, SLOW, SERIES, BUILD = range(1, 15)
MEMORY_ROOM = (262160, 32784, 32784, 4112, 16400, 32784, 6386, 12304)
FLASH, PROGRAM, DATA, REGISTERS, BUFFER, AREA, QLIST, EVENTS = range(8)
LETTERS = "fpdirale"
SCALARS = dict(enumerate((
    "kind", "ports", "subdetector", "mode", "program_version", "subdetector_version", "start_tests", "start_clock", "flash_words",
    "amswire", "flash_errors",
))) | {20: "listed", 21: "turn", 22: "event", 23: "build_errors", 24: "unread"}
NUMBERS = {name: number for number, name in SCALARS.items()}
MASK, DIRECTORY, ERASING_NOTHING, ERASING, PENDING_NOTHING, PENDING_SLAVE, PENDING_GROUP, NO_WRITE, WRITE = range(11, 20)
PENDING_BUILD = 25


def halves(number):
    return [number >> 16, number & 0xFFFF]


def words_of_node(node):
    words = [node.kind, node.ports, node.subdetector, node.mode, node.program_version, node.subdetector_version, node.start_tests]
    words += halves(node.start_clock) + halves(node.flash_words) + [node.amswire, node.flash_errors]
    words += [half for mask in node.masks for half in halves(mask)] + list(node.directory)
    words += [1, node.erasing.sector] + halves(node.erasing.done) if node.erasing else [0] * 4
    words += words_of_pending(node.pending) if node.pending else [0] * 14
    words += [1, node.write.link] + halves(node.write.joined) if node.write else [0] * 4
    words += [node.listed, node.turn, node.event, node.build_errors] + halves(node.unread)
    return words + ([node.pending.times] + halves(node.pending.left_out) if isinstance(node.pending, Building) else [0] * 3)


def words_of_pending(pending):
    if isinstance(pending, Building):
        return [3, 0, pending.slave] + halves(pending.at) + words_of_gathered(pending, 0)
    words = [2 if pending.group else 1, pending.link, pending.slave] + halves(pending.at)
    return words + (words_of_gathered(pending.group, pending.group.first) if pending.group else [0] * 9)


def words_of_gathered(gathered, first):
    words = halves(gathered.asked) + [first] + halves(gathered.words) + [gathered.tally]
    return words + halves(gathered.received) + [gathered.rx_status]


def digest_of(memory, words):
    if memory == PROGRAM:
        words = [half for word in words for half in halves(word)]
    return digest(words)


class Items:
    """The words of a line, one after the other."""

    def __init__(self, words):
        self.words = words
        self.at = 0

    def number(self, count=1):
        value = 0
        for _ in range(count):
            value = value << 16 | (self.words[self.at] if self.at < len(self.words) else 0)
            self.at += 1
        return value

    def run(self):
        front, count, seed = self.number(), self.number(2), self.number()
        words = self.words[self.at:]
        return words[:front] + list(run_of(seed, count)) + words[front:]


class Program:
    """What the lines act on: the node, the memories, and the words of them that are lent."""

    def __init__(self):
        self.node = model.ZEROS
        self.memories = [[0] * room for room in MEMORY_ROOM]
        self.lent = [[] for _ in MEMORY_ROOM]
        self.answer = None

    def whole(self, memory):
        """A memory with what calls did to its lent words."""
        words = self.memories[memory]
        words[:len(self.lent[memory])] = self.lent[memory]
        return words

    def lend(self, memory, count):
        self.lent[memory] = self.whole(memory)[:count]

    def change(self, memory, at, words):
        whole = self.whole(memory)
        whole[at:at + len(words)] = words
        self.lent[memory] = whole[:len(self.lent[memory])]

    def line(self, words):
        items = Items(words)
        does = items.number()
        if does in (START, REQUEST, REPLY, POLL, ERASE, SLOW, SERIES, BUILD):
            return self.call(does, items)
        if does == DIGEST:
            memory, at, count = items.number(), items.number(2), items.number(2)
            return "%04x" % digest_of(memory, self.whole(memory)[at:at + count])
        if does == STATE:
            return " ".join("%04x" % word for word in words_of_node(self.node))
        {FILL: self.fill, POKE: self.poke, SET: self.set, LEND: self.lend_all}[does](items)
        return ""

    # Lines that are no calls.

    def fill(self, items):
        memory, at, count = items.number(), items.number(2), items.number(2)
        word, step = items.number(), items.number()
        count *= 2 if memory == PROGRAM else 1
        words = run_of(word, count) if step else [word] * count
        if memory == PROGRAM:
            words = [high << 16 | low for high, low in zip(words[0::2], words[1::2])]
        self.change(memory, at, words)

    def poke(self, items):
        self.change(items.number(), items.number(2), items.run())

    def set(self, items):
        field, index, value = items.number(), items.number(), items.number(2)
        if field in SCALARS:
            self.node = replace(self.node, **{SCALARS[field]: value})
        elif field in (MASK, DIRECTORY):
            name = "masks" if field == MASK else "directory"
            words = getattr(self.node, name)
            self.node = replace(self.node, **{name: words[:index] + (value,) + words[index + 1:]})
        elif field in (ERASING_NOTHING, ERASING):
            self.node = replace(self.node, erasing=model.Erasing(index, value) if field == ERASING else None)
        elif field == PENDING_NOTHING:
            self.node = replace(self.node, pending=None)
        elif field in (NO_WRITE, WRITE):
            self.node = replace(self.node, write=model.Write(index, value) if field == WRITE else None)
        else:
            self.node = replace(self.node, pending=self.pending(field, index, value, items))

    def pending(self, field, link, at, items):
        slave = items.number()
        if field == PENDING_SLAVE:
            return model.Pending(link, slave, at)
        group = model.Built(*[items.number(count) for count in (2, 1, 2, 1, 2, 1)])
        if field == PENDING_GROUP:
            return model.Pending(link, slave, at, group)
        times, left_out = items.number(), items.number(2)
        return Building(slave, at, group.asked, times, group.words, group.tally, left_out, group.received, group.rx_status)

    def lend_all(self, items):
        for memory in range(len(MEMORY_ROOM)):
            self.lend(memory, items.number(2))

    # Calls.

    def call(self, does, items):
        show = items.number()
        self.node, self.answer = {
            START: self.start, REQUEST: self.request, REPLY: self.reply, POLL: self.poll, ERASE: self.erase, SLOW: self.slow,
            SERIES: self.requests, BUILD: self.build,
        }[does](items)
        shown = ["%04x" % digest(words_of_node(self.node)), self.said()]
        for memory, letter in enumerate(LETTERS):
            if show >> memory & 1:
                shown.append("%s %04x" % (letter, digest_of(memory, self.lent[memory])))
        return " ".join(shown)

    def start(self, items):
        kind, ports, subdetector = items.number(2), items.number(2), items.number(2)
        return model.start(
            kind, ports, subdetector, items.number(), items.number(), items.number(), items.number(2), self.lent[FLASH]
        )

    def all_lent(self):
        memories = {PM: self.lent[PROGRAM], DM: self.lent[DATA], IO: self.lent[REGISTERS]}
        return model.Lent(self.lent[FLASH], memories, self.lent[AREA], self.lent[QLIST], self.lent[EVENTS], self.lent[BUFFER])

    def request(self, items):
        return model.request(
            self.node, self.all_lent(), items.number(2), items.number(2), items.number(), items.number(), items.run()
        )

    def requests(self, items):
        return series.requests(self.node, self.all_lent(), items.number(2), items.run())

    def reply(self, items):
        return model.reply(
            self.node, self.all_lent(), items.number(2), items.number(2), items.number(), items.number(), items.number(),
            items.number(), items.run(),
        )

    def poll(self, items):
        return model.poll(self.node, self.all_lent(), items.number(2))

    def build(self, items):
        return model.build(self.node, self.lent[EVENTS], items.number(2))

    def erase(self, items):
        return model.erase(self.node, self.lent[FLASH], items.number(4))

    def slow(self, items):
        return model.slow(self.node, self.lent[QLIST], items.number(2))

    # What is printed.

    def said(self):
        said = " ".join(str(part) for part in self.answer)
        if self.answer[0] not in ("reply", "built"):
            return said
        words = self.lent[BUFFER if self.answer[0] == "reply" else EVENTS][:self.answer[-1]]
        return " ".join([said, "%04x" % digest(words)] + ["%04x" % word for word in words if len(words) <= 16])
