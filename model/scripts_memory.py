"""Scripts on the memories: runs, segments, IO pairs, and files loaded."""

from build import file_of, segment
from files import DM, IO, PM
from node import CDDC, CDP
from node_lines import DATA, PROGRAM
from runs import check_sequence
from script import Run, command


def runs_of_memory(s):
    """Runs in every page and half, across both, to the last address and one past, in memories of every length."""
    pick = s.pick
    s.fresh(CDDC, 4)
    s.fill_memories()
    edges = (0x0000, 0x0001, 0x1FFD, 0x1FFE, 0x1FFF, 0x2000, 0x2001, 0x3FFC, 0x3FFD, 0x3FFE, 0x3FFF)
    lents = (0, 1, 2, 3, 0x1FFF, 0x2000, 0x2002, 0x3FFF, 0x4000, 0x4001, 0x5FFF, 0x6000, 0x6001, 0x7FFE, 0x7FFF, 0x8000)
    for lent in lents:
        s.lend(pm=lent, dm=lent, io=lent % 4097)
        for memory in (PM, DM):
            for page in (0, 2, 3):
                for address in pick.sample(edges, 8):
                    second = page << 14 | address
                    count = pick.choice((1, 3, 5)) if memory == PM else pick.randrange(1, 5)
                    width = 24 if memory == PM else 16
                    words = segment(memory, second, [pick.randrange(1 << width) for _ in range(count)])
                    s.request(command(0x50 if memory == PM else 0x51, *words))
                    s.request(command(0x10 if memory == PM else 0x11, *words[:2]))
        s.request(command(0x0F, *segment(IO, lent, s.some_pairs(3, max(lent % 4097, 1)))))
    s.ends()


def segments(s):
    """Segments of commands in small memories: valid, damaged, of another memory, with words too many or too few."""
    pick = s.pick
    commands = {PM: (0x50, 0x10), DM: (0x51, 0x11), IO: (0x0F, 0x0F)}
    s.fresh(CDP, 2)
    for turn in range(900):
        if turn % 60 == 0:
            s.fill_memories()
        if turn % 20 == 0:
            s.lend(pm=pick.choice((64, 20)), dm=pick.choice((64, 20)), io=pick.choice((64, 64, 64, 64, 5, 0)))
        memory = pick.choice((PM, DM, IO))
        words = s.some_segment(memory)
        if memory == IO and pick.randrange(2):
            words = segment(IO, 0, s.some_pairs(pick.randrange(1, 6), 64, 9))
        way = pick.randrange(8)
        if way < 3:
            words = s.damaged(words)
        elif way == 3 and turn % 3 == 0:
            memory = pick.choice((PM, DM, IO))
        elif way == 4 and turn % 2:
            words = segment(memory, pick.randrange(65536), [pick.randrange(1 << 16) for _ in range(pick.randrange(1, 6))])
        writes, reads = commands[memory]
        if memory == PM and way == 5:  # the zero byte of the last word isn't zero, the FCS is right
            words = words[:2] + Run(back=[*words[2:-2], words[-2] | 1 << pick.randrange(8)]).sealed().back
        s.request(command(writes, *words))
        if pick.randrange(2):
            header = [words[0] if words else 0, pick.choice((words[1] if len(words) > 1 else 0, pick.randrange(65536)))]
            s.request(command(reads, *pick.choice((header, header, header[:1], words))))
    s.ends()


def headers(s):
    """Every memory code and page with the first lengths, the body sealed: read, written, and as a file's segment."""
    pick = s.pick
    s.fresh(CDDC, 4)
    s.fill_memories()
    for code in range(4):
        memory = {0: PM, 1: DM}.get(code, IO)
        for length in range(8):
            for page in range(4):
                first, second = code << 14 | length, page << 14 | (0x2000 if memory == DM else 0)
                count = {PM: (3 * length - pick.randrange(2) * (length % 2)) // 2}.get(memory, length)
                body = s.some_pairs(8)[:max(count - 1, 0)]
                if memory == PM and body:
                    body[-1] &= 0xFF00
                words = [first, second, *body, *([check_sequence(body)] if count else [])]
                for number in (0x10, 0x11, pick.choice((0x0F, 0x50, 0x51))):
                    s.request(command(number, first, second))
                s.request(command({PM: 0x50, DM: 0x51, IO: 0x0F}[memory], *words))
                s.request(command(0x45, 0x3000 | page << 4 | 1, *words))
                if s.node.directory[0] != 0xFFFF:
                    s.request(command(0x46, page << 4))
                    s.request(command(0x47, 0x0200))
                    s.erase(2048)
    s.ends()


def long_segments(s):
    """Segments as long as a packet can be, and reads as long as a reply can be."""
    pick = s.pick
    s.fresh(CDDC, 4, pm=32768, dm=32768, io=4096)
    s.fill_memories()
    for count in (100, 8188, 8189):  # the second is a packet of 8,192 words, the third one more
        for second in (0x0000, 0x1000, 0x9000, 0xC123, 0x3000):
            s.request(Run(command(0x51, 1 << 14 | count + 1, second), count, pick.randrange(65536)).sealed(3))
    for length in (100, 5458, 5460):  # PM packet words: half of three times the length
        for second in (0x0000, 0x1500, 0x9000, 0xC123, 0x3000):
            s.request(Run(command(0x50, length, second), 3 * length // 2 - 2, pick.randrange(65536), [0x4200]).sealed(3))
    for length in (12283, 12284, 12285, 16383, 8190):
        for second in (0x0000, 0x0100, 0x9004, 0xD005):
            s.request(command(0x11, 1 << 14 | length, second), show=16)
    for length in (8186, 8188, 8190, 16382, 5000):
        for second in (0x0000, 0x0100, 0x9004, 0xD005):
            s.request(command(0x10, length, second), show=16)
    for memory in (PROGRAM, DATA):
        s.digest(memory, 0, 32784)
    pairs = s.some_pairs(4, 4096)
    for count in (2000, 4093, 4094):  # long IO segments of one pair over and over, read or written
        for word in (0x0005, 0x1005):
            front = command(0x0F, 3 << 14 | 2 * count + 1, 0xABCD)
            words = [*front, *pairs, *[word, 0x1234] * 40]
            s.request(words[:3] + Run(back=words[3:]).sealed().back)
            s.request([front[0], 2 << 14 | len(words) - 2, *words[2:], check_sequence(words[3:])])
            s.request(Run(front, 2 * count, 0x0000).sealed(3))
    s.ends()


def loads(s):
    """Files of several segments loaded: overlapping, with a segment that doesn't fit, with IO read pairs and wrong IDs."""
    pick = s.pick
    for turn in range(170):
        if turn % 20 == 0:
            s.fill_memories()
        most = 32768 if turn % 30 == 0 else 64
        s.fresh(CDDC, 4, pm=pick.choice((64, most)), dm=pick.choice((64, most)))
        parts = []
        for _ in range(pick.choice((1, 2, 3, 4, 14))):
            memory = pick.choice((PM, DM, IO))
            if memory == IO:
                parts.append(segment(IO, 0, s.some_pairs(pick.randrange(1, 4), 64, pick.choice((0, 0, 0, 9))), 3))
            else:
                place = pick.choice((0, 1, 2, 3, 60, 61, 62, 63) if turn % 4 == 0 else (0, 1, 2, 3, 50))
                parts.append(s.some_segment(memory, second=place + (0 if memory == PM else 0x2000)))
        if turn % 10 == 9:
            parts.append(s.some_segment(DM, second=pick.choice((0x0000, 0x8000, 0xE03F, 0x3FFF))))
        s.request(command(0x45, *file_of(parts[:14], turn % 2, 3, 0x21)))
        s.request(command(0x46, 0x0210))
        if pick.randrange(3) == 0:
            s.lend(pm=pick.choice((0, 2, 64)), dm=pick.choice((0, 2, 64)), io=pick.choice((0, 3, 64)))
            s.request(command(0x46, 0x0210))
        s.request(command(0x06, 0x0210))
    s.ends()
