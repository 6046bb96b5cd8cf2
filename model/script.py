"""A script of calls for the whole node, by the lines of `node_lines`: its lines, and what it is made of. A script runs the model
as it goes on, so that a slave that answers is one that was asked, and a file that is read one that was written."""

import random

from build import file_of, segment
from files import DM, IO, PM
from flash import SIZES
from node import CDDC
from node_lines import BUFFER, BUILD, DATA, DIGEST, ERASE, FILL, FLASH, LEND, MEMORY_ROOM, NO_WRITE, NUMBERS, PENDING_BUILD, PENDING_GROUP
from node_lines import PENDING_SLAVE, POKE, POLL, PROGRAM, REGISTERS, REPLY, REQUEST, SERIES, SET, SLOW, START, STATE, WRITE, Program, halves
from runs import check_sequence
from words import line_of, run_of

BENCH, FULL = SIZES
OWN = 0x2E
SHOW_AREA, SHOW_LIST, SHOW_EVENTS = 32, 64, 128
ONE_REPLY = 12304  # words of the reply buffer that a call for one reply has to do with; those behind are for lists of requests
LONGEST_LINE = 200  # words
CHANGES = {0x45: 1, 0x48: 1, 0x50: 2, 0x51: 4, 0x0F: 8, 0x46: 14, 0x5B: SHOW_LIST, 0x5C: SHOW_LIST}  # the memories that a command can change


class Run:
    """Words of which a long stretch follows from a seed."""

    def __init__(self, front=(), count=0, seed=0, back=()):
        self.front, self.count, self.seed, self.back = list(front), count, seed, list(back)

    def words(self):
        return self.front + list(run_of(self.seed, self.count)) + self.back

    def line(self):
        return [len(self.front)] + halves(self.count) + [self.seed] + self.front + self.back

    def behind(self, words):
        return Run(list(words) + self.front, self.count, self.seed, self.back)

    def sealed(self, start=0):
        """With the FCS of the words from a place on behind it."""
        return Run(self.front, self.count, self.seed, self.back + [check_sequence(self.words()[start:])])


def command(number, *parameters):
    return [number << 8 | OWN, *parameters]


class Script:
    def __init__(self, seed):
        self.pick = random.Random(seed)
        self.program = Program()
        self.lines = []
        self.calls = 0
        self.clock = 0

    # Lines.

    def put(self, *words):
        assert all(0 <= word < 65536 for word in words), words
        assert len(words) <= LONGEST_LINE, "a line of %d words" % len(words)
        self.lines.append(line_of(words))
        self.program.line(list(words))
        return self.program.answer

    def call(self, *words):
        self.calls += 1
        return self.put(*words)

    def fill(self, memory, count, word, step=1):
        self.put(FILL, memory, 0, 0, *halves(count), word, step)

    def poke(self, memory, at, words):
        self.put(POKE, memory, *halves(at), *run(words).line())

    def set(self, field, value=0, index=0, *rest):
        self.put(SET, NUMBERS.get(field, field), index, *halves(value), *rest)

    def set_slave(self, link, slave, at):
        self.set(PENDING_SLAVE, at, link, slave)

    def set_group(self, link, slave, at, asked, first=1, words=0, tally=0, received=0, rx_status=0):
        self.set(PENDING_GROUP, at, link, slave, *halves(asked), first, *halves(words), tally, *halves(received), rx_status)

    def set_build(self, slave, at, asked, words=0, tally=0, received=0, rx_status=0, times=1, left_out=0):
        gathered = [0, *halves(words), tally, *halves(received), rx_status]
        self.set(PENDING_BUILD, at, 0, slave, *halves(asked), *gathered, times, *halves(left_out))

    def set_write(self, link=None, joined=0):
        """A write of a link stands, or none does."""
        self.set(NO_WRITE) if link is None else self.set(WRITE, joined, link)

    def lend(self, flash=BENCH, pm=64, dm=64, io=64, reply=12288, area=32768, qlist=70, events=12288):
        self.put(LEND, *[half for count in (flash, pm, dm, io, reply, area, qlist, events) for half in halves(count)])

    def digest(self, memory, at, count):
        self.put(DIGEST, memory, *halves(at), *halves(count))

    def state(self):
        self.put(STATE)

    def start(self, kind=CDDC, ports=4, subdetector=3, tests=0, clock=None, show=0):
        clock = self.clock if clock is None else clock
        return self.call(
            START, show, *halves(kind), *halves(ports), *halves(subdetector), *self.anything(2), tests, *halves(clock)
        )

    def request(self, packet, link=0, bc=3, error=0, show=None):
        if show is None:
            show = self.usual(packet) | (self.pick.choice((0, 0, SHOW_AREA)) if bc & 3 != 3 else 0)
        return self.call(REQUEST, show, *halves(self.now()), *halves(link), bc, error, *run(packet).line())

    def usual(self, packet):
        """The memories that the request can change, the flash now and then; and at times one more, or the reply buffer."""
        words = run(packet).front + run(packet).back
        show = CHANGES.get(words[0] >> 8, 0) if words and words[0] & 0xFF == OWN else 0
        if self.pick.randrange(3 if len(self.program.lent[FLASH]) <= BENCH else 9):
            show &= ~1  # a digest of the whole flash takes long
        return show | self.pick.choice((0, 0, 0, 0, 16, 16, 1 << self.pick.randrange(1, 5)))

    def reply(self, slave, words=(), bc=3, error=0, rx=None, show=None):
        show = self.pick.choice((0, 0, 16)) if show is None else show
        rx = self.anything(2) if rx is None else rx
        return self.call(REPLY, show, *halves(self.now()), *halves(slave), bc, error, *rx, *run(words).line())

    def poll(self, show=None):
        show = self.pick.choice((0, 0, 16)) if show is None else show
        return self.call(POLL, show, *halves(self.now()))

    def build(self, show=None):
        show = self.pick.choice((0, 0, SHOW_EVENTS)) if show is None else show
        return self.call(BUILD, show, *halves(self.now()))

    def erase(self, budget, show=None):
        show = int(self.pick.randrange(3 if len(self.program.lent[FLASH]) <= BENCH else 9) == 0) if show is None else show
        return self.call(ERASE, show, *[budget >> 48 - 16 * place & 0xFFFF for place in range(4)])

    def series(self, packets, show):
        return self.call(SERIES, show, *halves(self.now()), *run(packets).line())

    def slow(self, clock=None, show=None):
        show = self.pick.choice((0, 0, SHOW_LIST)) if show is None else show
        return self.call(SLOW, show, *halves(self.now() if clock is None else clock % 2**32))

    # The clock goes on by a few ticks now and then; nobody is late by that.

    def now(self):
        if not self.pick.randrange(6):
            self.tick(self.pick.randrange(1, 3))
        return self.clock

    def tick(self, ticks):
        self.clock = (self.clock + ticks) % 2**32

    # What scripts are made of.

    @property
    def node(self):
        return self.program.node

    def anything(self, count):
        return [self.pick.randrange(65536) for _ in range(count)]

    def fresh(self, kind=CDDC, ports=4, size=BENCH, subdetector=3, tests=0, **lent):
        """A blank flash, lent memories with any words, and a start."""
        self.clock = self.pick.choice((0, 1000, 0x7FFFFFF0, 0xFFFFFFE0, self.pick.randrange(2**32)))
        self.fill(FLASH, size, 0xFFFF, 0)
        self.lend(flash=size, **lent)
        return self.start(kind, ports, subdetector, tests)

    def fill_memories(self):
        for memory, count in ((PROGRAM, 32784), (DATA, 32784), (REGISTERS, 4112), (BUFFER, ONE_REPLY)):
            self.fill(memory, count, self.pick.randrange(65536))

    def some_segment(self, memory, most=6, second=None):
        """A valid segment of a few words, its run mostly inside a small lent memory."""
        pick = self.pick
        count = pick.randrange(1, most)
        if memory == PM:
            count += 1 - count % 2
        if memory == IO:
            return segment(IO, pick.randrange(65536), self.some_pairs(count), pick.choice((2, 3)))
        width = 24 if memory == PM else 16
        fixed = 0 if memory == PM else 0x2000
        if second is None:
            second = pick.choice((0, 2, 3)) << 14 | fixed + pick.randrange(64)
        return segment(memory, second, [pick.randrange(1 << width) for _ in range(count)])

    def some_pairs(self, count, registers=64, wrong=0):
        """IO pairs; one in so many IDs is wrong."""
        pick = self.pick
        words = []
        for _ in range(count):
            word = pick.randrange(2) << 12 | pick.choice((pick.randrange(registers), pick.randrange(min(4, registers))))
            if wrong and not pick.randrange(wrong):
                word = pick.choice((registers, 0xFFF, 0x2000, 0x4000, 0x8000, 0x3001, 0xFFFF))
            words += [word, pick.randrange(65536)]
        return words

    def some_file(self, name=None, count=None):
        pick = self.pick
        count = pick.choice((1, 1, 1, 2, 2, 3, 5)) if count is None else count
        segments = [self.some_segment(pick.choice((PM, DM, IO))) for _ in range(count)]
        return file_of(segments, pick.randrange(2), pick.choice((3, 3, 3, 2, 1, 0)), self.new_name() if name is None else name)

    def kept_names(self):
        """The names that the directory seems to have, good or bad."""
        return [word >> 4 & 0xFF for word in self.node.directory[0::4] if word != 0xFFFF]

    def new_name(self):
        """A name that is mostly unused."""
        names = self.kept_names()
        if names and not self.pick.randrange(5):
            return self.pick.choice(names)
        return self.pick.choice((0x00, 0x01, 0x21, 0x42, 0x80, 0xFF, self.pick.randrange(256), self.pick.randrange(256)))

    def some_header(self):
        """A parameter that names a file, mostly one that is there, by bits 11-4 alone."""
        names = self.kept_names()
        name = self.pick.choice(names) if names and self.pick.randrange(5) else self.new_name()
        return self.pick.choice((0, 0x3001, 0xF00F, self.pick.randrange(65536) & 0xF00F)) | name << 4

    def long_file(self, length, name=0x21, attribute=3, seed=None):
        """A file of one DM segment, so many words in all."""
        seed = self.pick.randrange(65536) if seed is None else seed
        front = [1 << 14 | attribute << 12 | name << 4 | 1, 1 << 14 | length - 3, 0x2000]
        return Run(front, length - 4, seed).sealed(3)

    def damaged(self, words):
        """One of the ways in which words go wrong."""
        pick = self.pick
        words = list(words)
        way = pick.randrange(6) if words else 5
        if way == 0:
            words[pick.randrange(len(words))] ^= 1 << pick.randrange(16)
        elif way == 1:
            words[pick.randrange(min(4, len(words)))] ^= 1 << pick.randrange(16)
        elif way == 2:
            words = words[:-1]
        elif way == 3:
            words = words[:pick.randrange(len(words))]
        elif way == 4:
            words[-1] ^= 1 << pick.randrange(16)
        else:
            words += self.anything(pick.randrange(1, 4))
        return words

    def ends(self):
        """All words of all memories that calls for one reply have to do with, and the node's."""
        counts = {FLASH: len(self.program.lent[FLASH]), BUFFER: ONE_REPLY}
        for memory, room in enumerate(MEMORY_ROOM):
            self.digest(memory, 0, counts.get(memory, room))
        self.state()


def run(words):
    return words if isinstance(words, Run) else Run(back=words)
