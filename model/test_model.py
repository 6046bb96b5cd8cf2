#!/usr/bin/env python3
"""The model against documents 01 and 02: each example of 01, the lines of the bench, what 01 says of every call, and what 02 says of
files that come in several packets, of the masks at start, of the lengths in the summary, of remains behind a file, of names that
several sectors have, of captured group replies, of slaves that answer in packets, of the Q-List, of lists of requests, of event
builds and of saving what is readable."""

import random
import unittest
from dataclasses import replace
from functools import lru_cache
from itertools import product

from build import file_of, segment
from capture import answered, broken_at, fragment_of
from event import Building
from event_vectors import Build
from fcs import fcs
from files import DM, IO, PM, sealed
from flash import BAD, SECTORS, address_of, attributed, directory_of, extent, judged, kept, store, words_in
from group import ABORT, AREA, END, ERROR, MORE, NEXT, Answer, ending, fragment, is_late, tally_with, zero_length
from memory import index, read
from node import CDDC, CDP, ZEROS, Built, Lent, Pending, Write, build, erase, poll, reply, request, slow, start
from node_lines import FLASH, POKE
from script import Script
from scripts_flash import flash_step
from scripts_series import in_a_row, some_list
from runs import check_sequence
from salvage import COPIED, LOST, REDUCED, salvage, salvage_sector, spans
from salvage_vectors import inputs as sectors
from series import requests
from words import digest, words_of

BENCH = 32768


def lent(flash=BENCH):
    return Lent([0xFFFF] * flash, {PM: [0] * 8192, DM: [0] * 32768, IO: [0] * 64}, [0] * 32768, [0] * 7 * 910, [0] * AREA, [0] * AREA)


def started(kind=CDDC, flash=BENCH, clock=0):
    memories = lent(flash)
    node, answer = start(kind, 4, 3, 0xAB06, 0xAB07, 0, clock, memories.flash)
    assert answer == ("started",)
    return node, memories


def answer_of(words=(), bc=3, late=False, errors=False, rx_status=0, rx_address=0):
    return Answer(late, errors, rx_status, rx_address, bc, list(words))


def own(number, *parameters):
    return [number << 8 | 0x2E, *parameters]


class Examples(unittest.TestCase):
    """01 'Examples', in its order."""

    def test_addresses(self):
        self.assertEqual(index(DM, 0, 0x2000), 0)
        memories = {DM: list(range(32768))}
        words = [20480, 20481]
        self.assertEqual(read(DM, [0x4003, 0x9000], memories), [0x4003, 0x9000, *words, fcs(words)])

    def test_attributes(self):
        self.assertEqual(attributed(0x7421, 1), 0x6421)
        self.assertEqual(attributed(0x6421, 0), 0x4421)
        self.assertIsNone(attributed(0x4421, 1))

    def test_fragments(self):
        data = [0xAAAA, 0x0001, 0x01A0]
        self.assertEqual(fragment(5, answer_of(bc=ABORT), 0, 0)[2], [0x0001, 0x1005])
        self.assertEqual(fragment(23, answer_of(late=True), 0, 0)[2], [0x0001, 0x2817])
        self.assertEqual(fragment(7, answer_of(data + [fcs(data)]), 0, 0)[2], [0x0003, 0xAAAA, 0x0001, 0x81A7])
        self.assertEqual(fragment(7, answer_of(data + [fcs(data) ^ 1]), 0, 0)[2], [0x0004, 0x0000, 0x0004, 0xAAAA, 0xA807])

    def test_room(self):
        for count, code in ((12286, 0), (12287, 2)):
            words = [0] * (count - 1)
            self.assertEqual(fragment(0, answer_of(words + [check_sequence(words)]), 0, 0)[:2], (1, code))

    def test_clock(self):
        self.assertFalse(is_late(0x2B, 0xFFFFFFF0))
        self.assertTrue(is_late(0x2C, 0xFFFFFFF0))
        node, memories = started()
        node, answer = request(node, memories, 0xFFFFFFF0, 0, 3, 0, [0x0405, 0x0C2E])
        self.assertEqual(answer, ("ask", 5, 1))
        self.assertEqual(poll(node, memories, 0x2B), (node, ("waiting",)))
        self.assertEqual(poll(node, memories, 0x2C)[1], ("reply", ABORT, 0))

    def test_bench_lines(self):
        node, memories = started()
        zeros = {END: "END", ABORT: "ABORT", ERROR: "ERROR"}
        printed = []
        for number, line in enumerate(("0\t3\t572E 0305 0021", "0\t3\t522E 0004", "0\t3\t00FF", "0\t0"), 1):
            link, bc, words = (line + "\t").split("\t")[:3]
            node, (_, sent, count) = request(node, memories, 0, int(link), int(bc), 0, words_of(words))
            self.assertEqual(count, 0)
            printed.append("%d %s" % (number, zeros[sent]))
        self.assertEqual(printed, ["1 END", "2 ABORT", "3 ERROR", "4 ABORT"])
        self.assertEqual(node.masks[3], 0x050021)
        self.assertEqual(node.amswire, 1)


class CheckSequence(unittest.TestCase):
    def test_worked_value(self):
        self.assertEqual(fcs([0x3132, 0x3334, 0x3536, 0x3738]), 0xA12B)
        self.assertEqual(fcs([]), 0xFFFF)

    def test_long_runs(self):
        pick = random.Random(1)
        for length in (0, 1, 31, 32, 33, 64, 100, 1000):
            words = [pick.randrange(65536) for _ in range(length)]
            self.assertEqual(check_sequence(words), fcs(words))


class Digest(unittest.TestCase):
    def test_rule(self):
        pick = random.Random(2)
        for length in (0, 1, 2, 96, 12288):
            words = [pick.randrange(65536) for _ in range(length)]
            value = 1
            for word in words:
                value = (value * 17 + word) % 65521
            self.assertEqual(digest(words), value)


class Calls(unittest.TestCase):
    def test_refused_start_hands_back_zeros_that_every_call_refuses(self):
        memories = lent()
        for kind, ports, subdetector in ((0, 4, 0), (3, 4, 0), (1, 0, 0), (1, 5, 0), (2, 4, 8)):
            self.assertEqual(start(kind, ports, subdetector, 0, 0, 0, 0, memories.flash), (ZEROS, ("refused", 4)))
        self.assertEqual(start(1, 4, 0, 0, 0, 0, 0, memories.flash[1:]), (ZEROS, ("refused", 1)))
        self.assertEqual(poll(ZEROS, memories, 0), (ZEROS, ("refused", 5)))
        self.assertEqual(reply(ZEROS, memories, 0, 0, 3, 0, 0, 0, []), (ZEROS, ("refused", 5)))
        self.assertEqual(request(ZEROS, memories, 0, 0, 3, 0, own(0x0C))[1], ("refused", 1))

    def test_status(self):
        node, memories = started(CDP, clock=0xFFFFFFFF)
        node, answer = request(node, memories, 0x12344, 2, 3, 0, own(0x0C))
        self.assertEqual(answer, ("reply", 3, 12))
        words = [0xAB06, 0x1134, 0xAB07, 0x2345, 0x0001, 0x0002, 0, 0, 0, 0, 0x00A0]
        self.assertEqual(memories.reply[:13], words + [fcs(words), 0])

    def test_a_file_is_written_and_read_back(self):
        for size in (BENCH, 262144):
            node, memories = started(flash=size)
            file = file_of([segment(DM, 0x2000, [1, 2, 3]), segment(IO, 0, [0x1005, 7])], name=0x42)
            node, answer = request(node, memories, 0, 0, 3, 0, own(0x45, *file))
            self.assertEqual(answer, ("reply", END, 0))
            self.assertEqual(list(node.directory), directory_of(memories.flash))
            self.assertEqual(list(node.directory[:8]), [file[0], 0x0200, 0, len(file), 0xFFFF, 0x0400, 0, 0])
            node, answer = request(node, memories, 0, 0, 3, 0, own(0x05, 0x0420))
            self.assertEqual(answer, ("reply", 3, len(file) + 2))
            self.assertEqual(memories.reply[:len(file) + 1], file + [0x0020])
            node, answer = request(node, memories, 0, 0, 3, 0, own(0x46, 0x0420))
            self.assertEqual((answer, memories.memories[DM][:4], memories.memories[IO][5]), (("reply", END, 0), [1, 2, 3, 0], 7))

    def test_sectors(self):
        self.assertEqual([address_of(sector) for sector in SECTORS], [0x200, 0x400, 0x800, 0xC00, 0x1000, 0x1400, 0x1800, 0x1C00])
        places = [place for sector in SECTORS for place in extent(262144, sector)]
        self.assertEqual(places, list(range(16384, 262144)))

    def test_an_erasure(self):
        node, memories = started()
        memories.flash[2048:4096] = [0] * 2048
        node, answer = request(node, memories, 0, 0, 3, 0, own(0x47, 0x0200))
        self.assertEqual((answer, node.directory[:4]), (("reply", END, 0), (0x0000, 0x0200, 0x4000, 0)))
        for budget, count in ((0, 0), (1, 1), (2046, 2046), (5, 1), (5, 0)):
            node, answer = erase(node, memories.flash, budget)
            self.assertEqual(answer, ("erased", count))
            self.assertEqual(list(node.directory), directory_of(memories.flash, node.erasing and node.erasing.sector))
        self.assertEqual(memories.flash, [0xFFFF] * BENCH)

    def test_a_group(self):
        node, memories = started()
        node, answer = request(node, memories, 0, 1, 3, 0, [0xA023, 0x8000, 0x0C2E])
        self.assertEqual((answer, node.pending.group.asked), (("ask", 5, 2), 0x8000A0))
        node, answer = reply(node, memories, 1, 5, ABORT, 0, 0, 0, [])
        self.assertEqual(answer, ("ask", 7, 2))
        data = [0xAAAA, 0x0001, 0x01A0]
        node, answer = reply(node, memories, 2, 7, 3, 0, 0, 0, data + [fcs(data)])
        self.assertEqual(answer, ("ask", 23, 2))
        node, answer = poll(node, memories, 62)
        words = [0x0001, 0x1005, 0x0003, 0xAAAA, 0x0001, 0x81A7, 0x0001, 0x2817, 0x0200]
        self.assertEqual((answer, memories.reply[:10], node.pending), (("reply", 3, 10), words + [fcs(words)], None))

    def test_the_directory_is_never_stale(self):
        script = Script(1)
        for turn in range(12):
            script.fresh(CDP, 2)
            for _ in range(40):
                flash_step(script)
                if words_of(script.lines[-1])[0] == POKE:
                    script.start()  # a directory knows nothing of what no call did
                erasing = script.node.erasing and script.node.erasing.sector
                self.assertEqual(list(script.node.directory), directory_of(script.program.lent[FLASH], erasing))

    def test_all_slaves_the_same_zero_length_reply(self):
        node, memories = started()
        node, _ = request(node, memories, 0, 1, 3, 0, [0x0323, 0x0000, 0x0C2E])
        node, answer = reply(node, memories, 0, 0, END, 0, 0, 0, [])
        self.assertEqual((answer, node.pending.slave), (("ask", 1, 2), 1))
        node, answer = reply(node, memories, 0, 1, END, 0, 0, 0, [])
        self.assertEqual((answer, memories.reply[:5]), (("reply", END, 0), [1, 0x2000, 1, 0x2001, 0]))

    def test_a_request_while_one_is_pending(self):
        node, memories = started()
        node, _ = request(node, memories, 0, 1, 3, 0, [0x0405, 0x0C2E])
        self.assertEqual(node.pending, Pending(1, 5, 0))
        self.assertEqual(request(node, memories, 0, 0, 3, 1, [0x0C2E]), (node, ("refused", 6)))
        self.assertEqual(request(node, memories, 0, 0, 2, 0, []), (node, ("reply", ABORT, 0)))
        self.assertEqual(reply(node, memories, 0, 4, 3, 0, 0, 0, []), (node, ("refused", 7)))
        node, answer = request(node, memories, 0, 1, 2, 0, [])
        self.assertEqual((answer, node.pending), (("reply", END, 0), None))


class StartMasks(unittest.TestCase):
    """02, request 2."""

    def masks_read(self, node, memories):
        node, answer = request(node, memories, 0, 0, 3, 0, own(0x17))
        self.assertEqual(answer, ("reply", 3, 26))
        return memories.reply[:24]

    def test_a_cddc(self):
        for size in (BENCH, 262144):
            node, memories = started(flash=size)
            self.assertEqual(node.masks, (0xFFFFFF, 0, 0, 0, 0, 0, 0, 0, 0, 0, 0, 0, 0, 0, 0, 0))
            self.assertEqual(self.masks_read(node, memories), [0x0001] * 24)
            for mask in range(1, 16):
                self.assertEqual(request(node, memories, 0, 0, 3, 0, [mask << 8 | 0x40, 0x0C2E])[1], ("reply", ABORT, 0))

    def test_all_slaves_are_asked(self):
        node, memories = started()
        node, answer = request(node, memories, 0, 0, 3, 0, [0x0040, 0x0C2E])
        for slave in range(24):
            self.assertEqual(answer, ("ask", slave, 1))
            node, answer = reply(node, memories, 0, slave, END, 0, 0, 0, [])
        self.assertEqual((answer, node.pending), (("reply", END, 0), None))

    def test_a_cdp(self):
        node, memories = started(CDP)
        self.assertEqual(node.masks, (0,) * 16)
        self.assertEqual(request(node, memories, 0, 0, 3, 0, own(0x17))[1], ("reply", ABORT, 0))
        self.assertEqual(request(node, memories, 0, 0, 3, 0, [0x0040, 0x0C2E])[1], ("reply", ABORT, 0))
        self.assertEqual(self.masks_read(replace(node, kind=CDDC), memories), [0] * 24)

    def test_a_script_that_counts_on_an_empty_mask_0_writes_zero_first(self):
        node, memories = started()
        node, answer = request(node, memories, 0, 0, 3, 0, own(0x57, 0x0000, 0x0000))
        self.assertEqual((answer, node.masks), (("reply", END, 0), (0,) * 16))
        self.assertEqual(request(node, memories, 0, 0, 3, 0, [0x0040, 0x0C2E])[1], ("reply", ABORT, 0))

    def test_a_refused_start(self):
        self.assertEqual(start(CDDC, 5, 0, 0, 0, 0, 0, lent().flash)[0].masks, (0,) * 16)


class Lengths(unittest.TestCase):
    """02, request 6."""

    def setUp(self):
        self.node, self.lent = started()
        self.file = file_of([segment(DM, 0x2000, [1, 2, 3])], kind=1, name=0x42)
        self.assertEqual(self.send(own(0x45, *self.file)), ("reply", END, 0))

    def send(self, packet):
        self.node, answer = request(self.node, self.lent, 0, 0, 3, 0, packet)
        return answer

    def set_length(self, sector, length):
        at = 4 * (sector - 3) + 3
        self.node = replace(self.node, directory=self.node.directory[:at] + (length,) + self.node.directory[at + 1:])

    def lengths(self):
        """Those that the summary answers, which are those that the state keeps."""
        self.assertEqual((self.send(own(0x07)), self.lent.reply[:32]), (("reply", 3, 34), list(self.node.directory)))
        return self.lent.reply[3:32:4]

    def test_a_good_sector_has_its_file_s_length(self):
        self.assertEqual(self.lengths(), [7, 0, 0, 0, 0, 0, 0, 0])
        for value in (1, 1, 0):
            self.assertEqual(self.send(own(0x48, 0x0420, value)), ("reply", END, 0))
            self.assertEqual(self.lengths(), [7, 0, 0, 0, 0, 0, 0, 0])

    def test_others_have_0(self):
        self.lent.flash[4096:4103] = self.file
        self.lent.flash[4100] ^= 1  # a damaged file
        self.lent.flash[32767] ^= 1  # a stray bit
        self.assertEqual(start(CDP, 1, 0, 0, 0, 0, 0, self.lent.flash)[0].directory[3::4], (7, 0, 0, 0, 0, 0, 0, 0))
        self.assertEqual(self.send(own(0x47, 0x0421)), ("reply", END, 0))
        for budget in (0, 100, 5000):
            self.assertEqual(self.lengths(), [0] * 8)
            self.node, _ = erase(self.node, self.lent.flash, budget)
        self.assertEqual(self.lengths(), [0] * 8)

    def test_the_longest(self):
        for place in (32768, 16384):
            flash = [0xFFFF] * 262144
            flash[place:2 * place] = long_file(place, random.Random(5))
            directory = start(CDP, 1, 0, 0, 0, 0, 0, flash)[0].directory
            self.assertEqual(directory[3::4], (0, 0x8000, 0, 0, 0, 0, 0, 0) if place == 32768 else (0x4000, 0, 0, 0, 0, 0, 0, 0))

    def test_a_length_that_differs_makes_a_sector_bad(self):
        for length in (0, 6, 8, 0x8007):
            self.set_length(3, length)
            self.node = replace(self.node, flash_errors=0)
            self.assertEqual(self.send(own(0x05, 0x0420)), ("reply", ABORT, 0))
            self.assertEqual((self.send(own(0x06, 0x0420)), self.lent.reply[0]), (("reply", 3, 3), 0x8000))
            self.assertEqual(self.send(own(0x46, 0x0420)), ("reply", ABORT, 0))
            self.assertEqual(self.send(own(0x48, 0x0420, 0)), ("reply", ABORT, 0))
            self.assertEqual((self.node.flash_errors, self.lengths()[0]), (3, length))
        self.set_length(3, 7)
        self.assertEqual(self.send(own(0x05, 0x0420)), ("reply", 3, 9))

    def test_a_length_that_differs_is_not_empty(self):
        self.set_length(4, 1)
        self.assertEqual(self.send(own(0x45, self.file[0] ^ 0x10, *self.file[1:])), ("reply", END, 0))
        self.assertEqual(self.lengths(), [7, 1, 7, 0, 0, 0, 0, 0])
        self.assertEqual(self.send(own(0x47, 0x0400)), ("reply", END, 0))
        self.assertEqual(self.lengths(), [7, 0, 7, 0, 0, 0, 0, 0])


class Remains(unittest.TestCase):
    """02, request 5."""

    FILE = file_of([segment(DM, 0x2000, [1, 2, 3])], kind=1, name=0x42)

    def entry(self, size, sector, file, at=None):
        """The entry of a sector that has a file and, at one of its places, a word with a cleared bit."""
        memories, places = lent(size), extent(size, sector)
        memories.flash[places.start:places.start + len(file)] = file
        if at is not None:
            memories.flash[places[at]] ^= 1 << at % 16
        self.lent, self.node = memories, start(CDP, 1, 0, 0, 0, 0, 0, memories.flash)[0]
        return kept(list(self.node.directory), sector)

    def send(self, *packet):
        self.node, answer = request(self.node, self.lent, 0, 0, 3, 0, own(*packet))
        return answer

    def test_a_word_behind_the_file(self):
        for size, sector in ((BENCH, 3), (BENCH, 10), (262144, 3), (262144, 4)):
            address, words = address_of(sector), len(extent(size, sector))
            self.assertEqual(self.entry(size, sector, self.FILE), [self.FILE[0], address, 0, 7])
            for at in (7, 8, words // 2, words - 2, words - 1):
                self.assertEqual(self.entry(size, sector, self.FILE, at), [self.FILE[0], address, 0x8000, 0])

    def test_a_file_that_fills_its_sector(self):
        for sector, words in ((3, 2048), (10, 4096)):
            file = long_file(words, random.Random(6))
            self.assertEqual(self.entry(BENCH, sector, file)[2:], [0, words])
            self.assertEqual(self.entry(BENCH, sector, long_file(words - 1, random.Random(6)), words - 1)[2:], [0x8000, 0])
        flash = lent().flash
        flash[2048:4097] = [*long_file(2048, random.Random(6)), 0]  # the 0 is sector 4's
        self.assertEqual(start(CDP, 1, 0, 0, 0, 0, 0, flash)[0].directory[2:7], (0, 2048, 0, 0x0400, 0x8000))

    def test_the_commands_follow(self):
        self.entry(BENCH, 3, self.FILE, 2047)
        self.assertEqual(self.send(0x05, 0x0420), ("reply", ABORT, 0))
        self.assertEqual((self.send(0x06, 0x0420), self.lent.reply[0]), (("reply", 3, 3), 0x8000))
        self.assertEqual(self.send(0x46, 0x0420), ("reply", ABORT, 0))
        self.assertEqual(self.node.flash_errors, 3)
        self.assertEqual(self.send(0x48, 0x0420, 0), ("reply", ABORT, 0))
        self.assertEqual(self.send(0x45, *self.FILE), ("reply", ABORT, 0))
        self.assertEqual(self.send(0x47, 0x0421), ("reply", END, 0))
        self.node, _ = erase(self.node, self.lent.flash, 2048)
        self.assertEqual(self.send(0x45, *self.FILE), ("reply", END, 0))
        self.assertEqual((self.send(0x05, 0x0420), self.node.flash_errors), (("reply", 3, 9), 3))


class Names(unittest.TestCase):
    """02, request 10."""

    def program(self, *places):
        """A flash that was programmed elsewhere: a file of one name at some places, each with other words."""
        self.lent = lent()
        for place in places:
            file = file_of([segment(DM, 0x2000, [place])], kind=1, name=0x42)
            self.lent.flash[place:place + len(file)] = file
        self.node, _ = start(CDP, 1, 0, 0, 0, 0, 0, self.lent.flash)

    def send(self, *packet):
        """What a command is answered, and how many FLASH errors it added."""
        before = self.node.flash_errors
        self.node, answer = request(self.node, self.lent, 0, 0, 3, 0, own(*packet))
        return answer, self.node.flash_errors - before

    def several(self):
        """What each command says of several."""
        left = (list(self.lent.flash), self.lent.memories[DM][:9], self.node.directory)
        for number, errors in ((0x05, 1), (0x06, 0), (0x46, 1), (0x47, 0), (0x48, 0)):
            self.assertEqual(self.send(number, 0x0421, *[0] * (number == 0x48)), (("reply", ABORT, 0), errors))
        self.assertEqual(self.send(0x45, *self.lent.flash[4096:4101]), (("reply", ABORT, 0), 0))
        self.assertEqual(left, (self.lent.flash, self.lent.memories[DM][:9], self.node.directory))

    def erase(self, address):
        self.assertEqual(self.send(0x47, address), (("reply", END, 0), 0))
        self.node, _ = erase(self.node, self.lent.flash, 4096)

    def test_several(self):
        for places in ((2048, 4096), (4096, 28672), (2048, 4096, 8192)):
            self.program(*places)
            self.several()

    def test_good_or_bad(self):
        for wrong in ((2051,), (4099,), (2051, 4099)):
            self.program(2048, 4096)
            for place in wrong:
                self.lent.flash[place] ^= 1
            self.node, _ = start(CDP, 1, 0, 0, 0, 0, 0, self.lent.flash)
            self.several()

    def test_one_serves_again(self):
        self.program(2048, 4096, 8192)
        self.erase(0x0200)
        self.several()
        self.erase(0x0800)
        self.assertEqual((self.send(0x05, 0x0420), self.lent.reply[3]), ((("reply", 3, 7), 0), 4096))
        self.assertEqual(self.send(0x06, 0x0420), (("reply", 3, 3), 0))
        self.assertEqual(self.send(0x47, 0x0421), (("reply", END, 0), 0))

    def test_a_word_that_starts_no_file_does_not_count(self):
        for word in (0xB421, 0x3420, 0x342F, 0x3431):
            self.program(4096)
            self.lent.flash[2048] = word
            self.node, _ = start(CDP, 1, 0, 0, 0, 0, 0, self.lent.flash)
            self.assertEqual(self.send(0x05, 0x0420), (("reply", 3, 7), 0))


def long_file(length, pick):
    """A file of so many words, in DM segments of 16,000 words and a rest."""
    segments = []
    for at in range(1, length, 16000):
        count = min(length - at, 16000)
        segments.append(segment(DM, 0x2000, [pick.randrange(65536) for _ in range(count - 3)]))
    return file_of(segments, name=0x42)


class Packets(unittest.TestCase):
    """02, request 1, sentence by sentence."""

    FIRST, MIDDLE, LAST, WHOLE = 2, 0, 1, 3

    def setUp(self):
        self.node, self.lent = started()
        self.file = file_of([segment(DM, 0x2000, [1, 2, 3]), segment(IO, 0, [0x1005, 7])], name=0x42)

    def send(self, link, bc, words, error=0):
        """What a packet is answered, how many errors it added, and the write that stands behind it."""
        before, held = self.node.amswire, list(self.lent.area)
        self.node, answer = request(self.node, self.lent, 0, link, bc, error, list(words))
        self.area_stayed = held == self.lent.area
        self.assertEqual((answer[0], answer[2]), ("reply", 0))
        return answer[1], self.node.amswire - before, self.node.write

    def standing(self, link=1, joined=5):
        """A write stands that five words were joined of."""
        self.node = replace(self.node, write=Write(link, joined))

    def test_three_packets(self):
        self.assertEqual(self.send(1, self.FIRST, [0x452E, *self.file[:4]]), (NEXT, 0, Write(1, 4)))
        self.assertEqual(self.lent.area[:5], [*self.file[:4], 0])
        self.assertEqual(self.send(1, self.MIDDLE, self.file[4:7]), (NEXT, 0, Write(1, 7)))
        self.assertEqual(self.send(1, self.LAST, self.file[7:]), (END, 0, None))
        self.assertEqual(self.lent.flash[2048:2048 + len(self.file) + 1], [*self.file, 0xFFFF])
        self.assertEqual(list(self.node.directory), directory_of(self.lent.flash))

    def test_any_division(self):
        pick = random.Random(3)
        for size, length in ((BENCH, 12), (BENCH, 2048), (262144, 8191), (262144, 32768), (262144, 20000)):
            file = long_file(length, pick)
            results = []
            for _ in range(4):
                self.node, self.lent = started(flash=size)
                cuts = {pick.randrange(1, length) for _ in range(pick.randrange(1, 9))}
                cuts = sorted({0, *cuts, *range(8000, length, 8000), length})
                for at, end in zip(cuts, cuts[1:]):
                    bc = self.FIRST if at == 0 else self.LAST if end == length else self.MIDDLE
                    words = ([0x452E] if at == 0 else []) + file[at:end]
                    self.assertEqual(self.send(2, bc, words)[0], END if end == length else NEXT)
                results.append((self.node, self.lent.flash))
            if length < 8192:
                self.node, self.lent = started(flash=size)
                self.assertEqual(self.send(2, self.WHOLE, [0x452E, *file])[0], END)
                results.append((self.node, self.lent.flash))
            self.assertTrue(all(result == results[0] for result in results))

    def test_one_word_joins_none(self):
        self.assertEqual(self.send(0, self.FIRST, [0x452E]), (NEXT, 0, Write(0, 0)))
        self.assertTrue(self.area_stayed)
        self.assertEqual(self.send(0, self.LAST, self.file), (END, 0, None))

    def test_nothing_is_tested_of_a_first_or_middle_packet(self):
        self.assertEqual(self.send(0, self.FIRST, [0x452E, 0xFFFF]), (NEXT, 0, Write(0, 1)))
        self.assertEqual(self.send(0, self.MIDDLE, [0x452E]), (NEXT, 0, Write(0, 2)))
        self.assertEqual(self.send(0, self.LAST, [0]), (ABORT, 0, None))

    def test_first_packets(self):
        self.assertEqual(self.send(0, self.FIRST, [0x052E, 0x0420]), (ERROR, 1, None))
        self.assertEqual(self.send(0, self.FIRST, [0x452F, 0x0420]), (ERROR, 1, None))
        self.standing()
        self.assertEqual(self.send(0, self.FIRST, [0x052E, 0x0420]), (ERROR, 1, Write(1, 5)))
        self.assertEqual(self.send(0, self.FIRST, [0x452E, 0x3421]), (ABORT, 0, Write(1, 5)))
        for words in ([0x452E, 0x3421], [0x052E, 0x0420]):
            self.standing()
            self.assertEqual(self.send(1, self.FIRST, words), (ERROR, 1, None))
            self.assertTrue(self.area_stayed)

    def test_later_packets(self):
        for bc in (self.MIDDLE, self.LAST):
            self.node = replace(self.node, write=None)
            self.assertEqual(self.send(1, bc, [7]), (ERROR, 1, None))
            self.standing()
            self.assertEqual(self.send(0, bc, [7]), (ERROR, 1, Write(1, 5)))
            self.standing(joined=32767)
            self.assertEqual(self.send(1, bc, [7, 7]), (ABORT, 0, None))
            self.assertTrue(self.area_stayed)
        self.standing(joined=32767)
        self.assertEqual(self.send(1, self.MIDDLE, [7]), (NEXT, 0, Write(1, 32768)))
        self.assertEqual(self.lent.area[-1], 7)

    def test_whole_packets(self):
        self.standing()
        self.assertEqual(self.send(0, self.WHOLE, [0x522E, 1]), (END, 0, Write(1, 5)))
        self.assertEqual(self.send(1, self.WHOLE, [0x522E, 2]), (ERROR, 1, None))
        self.assertEqual(self.node.mode, 1)

    def test_receive_errors_and_lengths_keep_the_write(self):
        self.standing()
        for bc in range(4):
            self.assertEqual(self.send(1, bc, [0x452E], error=1), (ERROR, 1, Write(1, 5)))
            self.assertEqual(self.send(1, bc, [], error=1), (ERROR, 1, Write(1, 5)))
            self.assertEqual(self.send(1, bc, [0x452E] * 8193), (ERROR, 1, Write(1, 5)))
        self.assertEqual(self.send(1, self.MIDDLE, [0x452E] * 8192), (NEXT, 0, Write(1, 8197)))

    def test_no_words(self):
        for link, bc, answer, stays in ((1, 2, END, False), (0, 2, ABORT, True), (1, 0, ABORT, True), (1, 1, ABORT, True), (1, 3, ABORT, True)):
            self.standing()
            self.assertEqual(self.send(link, bc, []), (answer, 0, Write(1, 5) if stays else None))
        for holder in (1, 2):
            self.standing()
            self.node = replace(self.node, pending=Pending(holder, 5, 0))
            self.assertEqual(self.send(1, 2, []), (END, 0, None))
            self.assertEqual(self.node.pending, None if holder == 1 else Pending(2, 5, 0))
        self.standing()
        self.assertEqual(self.send(2, 2, []), (END, 0, Write(1, 5)))
        self.assertIsNone(self.node.pending)

    def test_an_erasure(self):
        self.node, answer = request(self.node, self.lent, 0, 3, 3, 0, own(0x47, 0x1C00))
        self.assertEqual(answer, ("reply", END, 0))
        self.assertEqual(self.send(1, self.FIRST, [0x452E, *self.file[:4]])[0], NEXT)
        self.assertEqual(self.send(1, self.MIDDLE, self.file[4:5])[0], NEXT)
        self.assertEqual(self.send(1, self.LAST, self.file[5:]), (ABORT, 0, None))
        self.assertEqual(self.lent.flash, [0xFFFF] * BENCH)

    def test_refusals(self):
        self.standing()
        self.lent.area.pop()
        for link in (1, 4):
            self.assertEqual(request(self.node, self.lent, 0, link, 0, 0, [1]), (self.node, ("refused", 8)))
        self.assertEqual(request(replace(self.node, mode=4), self.lent, 0, 0, 0, 0, [1])[1], ("refused", 8))
        memories = {PM: [0] * 32769, DM: [], IO: []}
        self.assertEqual(request(self.node, replace(self.lent, memories=memories), 0, 0, 0, 0, [1])[1], ("refused", 3))
        self.lent.area += [0, 0]
        for write in (Write(4, 0), Write(0, 32769)):
            node = replace(self.node, write=write)
            self.assertEqual(request(node, self.lent, 0, 0, 3, 0, own(0x0C)), (node, ("refused", 5)))
            self.assertEqual(erase(node, self.lent.flash, 1), (node, ("refused", 5)))
            self.assertEqual(poll(node, self.lent, 1), (node, ("refused", 5)))
        node = replace(self.node, pending=Pending(2, 5, 0))
        self.assertEqual(request(node, self.lent, 0, 1, 0, 0, [1]), (node, ("refused", 6)))
        self.assertIsNone(started()[0].write)

    def test_a_long_file_is_not_read(self):
        for length in (12286, 12287):
            self.node, self.lent = started(flash=262144)
            file = long_file(length, random.Random(4))
            self.assertEqual(self.send(0, self.FIRST, [0x452E, *file[:8000]])[0], NEXT)
            self.assertEqual(self.send(0, self.LAST, file[8000:])[0], END)
            self.node, answer = request(self.node, self.lent, 0, 0, 3, 0, own(0x05, 0x0420))
            self.assertEqual(answer, ("reply", 3, 12288) if length == 12286 else ("reply", ABORT, 0))
            self.assertEqual(self.node.flash_errors, 0)
            if length == 12286:
                self.assertEqual(self.lent.reply[:length], file)


class Replies(unittest.TestCase):
    """02, request 8, sentence by sentence. Slaves 5 and 7 are asked, or 7 alone; `w` words of fragments were built before."""

    FIRST, MIDDLE, LAST, WHOLE = 2, 0, 1, 3
    REPLY = sealed([0xAAAA, 0x0001, 0x0002, 0x01A0])

    def ask(self, *slaves, w=0):
        self.node, self.lent = started()
        mask = sum(1 << slave for slave in slaves)
        self.node, answer = request(self.node, self.lent, 100, 1, 3, 0, [mask << 8 & 0xFF00 | 0x23, mask >> 8, 0x0C2E])
        self.assertEqual(answer, ("ask", slaves[0], 2))
        self.lent.reply[:] = [0x5A5A] * AREA
        self.set(words=w)

    def set(self, **fields):
        self.node = replace(self.node, pending=replace(self.node.pending, group=replace(self.node.pending.group, **fields)))

    def give(self, words, bc, now=100, error=0, rx=(0, 0), slave=None):
        """What a packet is answered."""
        slave = self.node.pending.slave if slave is None else slave
        self.node, answer = reply(self.node, self.lent, now, slave, bc, error, *rx, list(words))
        return answer

    def stored(self, words, bc, now=100, rx=0):
        """A packet is stored, and the slave is sent NEXT."""
        before, slave, built = self.node.amswire, self.node.pending.slave, self.node.pending.group
        at = built.words + 1 + built.received
        self.assertEqual(self.give(words, bc, now, rx=(rx, 0x7777)), ("next", slave))
        group = self.node.pending.group
        self.assertEqual((group.received, group.rx_status, self.node.pending.at), (built.received + len(words), rx, now))
        self.assertEqual((group.words, group.tally, self.node.amswire), (built.words, built.tally, before))
        self.assertEqual(self.lent.reply[at:at + len(words)], list(words))

    def ends(self, fragment, answer, left=None):
        """The sole slave's reply ended in a fragment, status and FCS; behind them stands what stood there."""
        whole = fragment[-1] >> 11 == 0x10
        words = sealed(fragment + [0x0000 if whole else 0x0200])
        self.assertEqual((answer, self.lent.reply[:len(words)]), (("reply", 3, len(words)), words))
        if left is not None:
            self.assertEqual(self.lent.reply[len(words):len(words) + len(left)], left)
        self.assertIsNone(self.node.pending)

    def test_joined(self):
        """Middle packets are BC 00, the last 01; the slave's FCS, at the very end, is not stored."""
        for cuts in ((1, 5), (4, 5), (2, 3, 5), (1, 2, 3, 4, 5), (3, 5)):
            self.ask(7)
            self.stored(self.REPLY[:cuts[0]], self.FIRST)
            for at, end in zip(cuts, cuts[1:-1]):
                self.stored(self.REPLY[at:end], self.MIDDLE)
            answer = self.give(self.REPLY[cuts[-2]:], self.LAST, rx=(1, 2))
            self.ends([4, 0xAAAA, 0x0001, 0x0002, 0x81A7], answer, [0x5A5A] * 9)

    def test_two_words_in_two_packets(self):
        self.ask(7)
        self.stored([0x0660], self.FIRST)
        self.ends([1, 0x8667], self.give([fcs([0x0660])], self.LAST))

    def test_higher_bits_of_bc_do_not_count(self):
        self.ask(7)
        self.stored(self.REPLY[:2], 0xFFFE)
        self.stored(self.REPLY[2:3], 0x0004)
        self.ends([4, 0xAAAA, 0x0001, 0x0002, 0x81A7], self.give(self.REPLY[3:], 0x8001))

    def left_by(self, words, cuts, w):
        """The answer, the group's reply and the node that a reply leaves which is cut into packets at some places."""
        self.ask(7, w=w)
        for at, end in zip([0, *cuts], [*cuts, len(words)]):
            answer = self.give(words[at:end], (self.FIRST if at == 0 else 0) | (self.LAST if end == len(words) else 0))
            if answer[0] == "reply":
                return answer, self.lent.reply[:answer[2]], self.node

    def test_equal_fragments(self):
        """One packet or several with equal joined words, if either gives code 0; where the one has no room the others haven't."""
        pick = random.Random(12)
        for n, w in ((2, 0), (9, 40), (500, 11), (12280, 4), (12286, 0), (12246, 40), (12247, 40)):
            words = sealed([pick.randrange(65536) for _ in range(n - 1)])
            divided = [sorted(pick.sample(range(1, n), min(count, n - 1))) for count in (1, 2, 7)]
            whole, *others = [self.left_by(words, cuts, w) for cuts in ([], *divided)]
            if w + n <= 12286:
                self.assertEqual(whole[1][w + n - 1] >> 11, 0x10)
                self.assertEqual(others, [whole] * 3)
            else:
                self.assertEqual([left[1][w + 4] >> 11 for left in (whole, *others)], [0x12, 0x1A, 0x1A, 0x1A])

    def test_60_ticks_anew(self):
        """A timeout after NEXT is code 6, by a reply and by a poll, a clock that goes round included."""
        for at in (100, 0xFFFFFFC4, 0xFFFFFFF0, 0xFFFFFFFF):
            for late in (False, True):
                for by_poll in (False, True):
                    self.ask(7)
                    self.node = replace(self.node, pending=replace(self.node.pending, at=at))
                    self.stored(self.REPLY[:2], self.FIRST, (at + 59) % 2**32, rx=0x1234)
                    self.stored(self.REPLY[2:3], self.MIDDLE, (at + 118) % 2**32, rx=0x4321)
                    now = (at + 118 + 59 + late) % 2**32
                    node = self.node
                    if by_poll:
                        self.node, answer = poll(self.node, self.lent, now)
                    else:
                        answer = self.give(self.REPLY[3:], self.LAST, now, rx=(0x9999, 0x9999))
                    if not late and by_poll:
                        self.assertEqual((answer, self.node), (("waiting",), node))
                    elif late:
                        self.ends([4, 0x4321, 3, 0xAAAA, 0xB007], answer, [0x5A5A])
                    else:
                        self.ends([4, 0xAAAA, 0x0001, 0x0002, 0x81A7], answer)

    def test_a_late_packet_is_not_looked_at(self):
        """Its words don't count, nor its RX status, nor its receive errors."""
        for words, bc, error in ((self.REPLY[2:], 1, 0), ([], 3, 0), ([1], 2, 0), ([1] * 12288, 0, 0), ([1, 2], 1, 1)):
            self.ask(7)
            self.stored(self.REPLY[:2], self.FIRST, rx=0x1234)
            answer = self.give(words, bc, 160, error, (0x9999, 0x9999))
            self.ends([4, 0x1234, 2, 0xAAAA, 0xB007], answer)
            self.assertEqual(self.node.amswire, 0)

    def test_the_first_packet_late(self):
        """Code 5 without DAT, as before: nothing was received."""
        for by_poll in (False, True):
            self.ask(7)
            if by_poll:
                self.node, answer = poll(self.node, self.lent, 160)
            else:
                answer = self.give(self.REPLY[:2], self.FIRST, 160)
            self.ends([1, 0x2807], answer)

    def test_no_words_after_next(self):
        """Code 7, whatever the BC; the empty packet's RX status, since it came in time."""
        for bc in range(4):
            self.ask(7)
            self.stored(self.REPLY[:3], self.FIRST, rx=0x1234)
            self.ends([4, 0x4321, 3, 0xAAAA, 0xB807], self.give([], bc, rx=(0x4321, 1)))

    def test_first_again(self):
        """Code 8, before room and FCS; the failing packet's words count."""
        for bc in (2, 3, 0xFFFE):
            for words in ([9], [9, 9], self.REPLY, [9] * 12300):
                self.ask(7)
                self.stored(self.REPLY[:3], self.FIRST, rx=0x1234)
                self.ends([4, 0x4321, 3 + len(words), 0xAAAA, 0xC007], self.give(words, bc, rx=(0x4321, 1)))

    def test_no_room(self):
        """Code A, by 01's room sum over the words so far: for a first packet, a middle one and a last one."""
        for w, slaves in ((0, (7,)), (40, (7,)), (0, (5, 7)), (7, (5, 7, 23))):
            room = AREA - 2 - w - 5 * (len(slaves) - 1)
            for front in ((), (1,), (6000,), (5, 6000), (room - 1,), (room,)):
                for over in (0, 1):
                    n = room - sum(front) + over
                    if n == 0:
                        continue
                    for bc in (self.FIRST,) if not front else (self.MIDDLE, self.LAST):
                        self.ask(*slaves, w=w)
                        for place, count in enumerate(front):
                            self.stored([0xAAAA] * count, self.MIDDLE if place else self.FIRST, rx=0x1234)
                        left = self.lent.reply[w + 5:]
                        words = [0xAAAA] * n
                        if not over and bc != self.LAST:
                            self.stored(words, bc, rx=0x4321)
                            continue
                        answer = self.give(words, bc, rx=(0x4321, 1))
                        code = 0xA if over else 0xC
                        fragment = [4, 0x4321, room + over, 0xAAAA, 0x8000 | code << 11 | slaves[0]]
                        self.assertEqual(self.lent.reply[w:w + 5], fragment)
                        if len(slaves) > 1:
                            self.assertEqual((answer, self.lent.reply[w + 5:]), (("ask", slaves[1], 2), left))

    def test_no_room_for_more_than_65535(self):
        for front, n in ((0, 65534), (0, 65535), (0, 65536), (1, 65533), (1, 65534), (1, 65535), (5, 70000)):
            self.ask(7)
            if front:
                self.stored([0xAAAA] * front, self.FIRST)
            answer = self.give([0xAAAA] * n, self.MIDDLE if front else self.FIRST)
            self.ends([4, 0, min(front + n, 0xFFFF), 0xAAAA, 0xD007], answer)

    def test_wrong_fcs(self):
        """Code C over the joined reply; a right FCS of the last packet alone is none."""
        for last in ([*self.REPLY[2:-1], self.REPLY[-1] ^ 1], sealed(self.REPLY[2:-1]), [7]):
            self.ask(7)
            self.stored(self.REPLY[:1], self.FIRST)
            self.stored(self.REPLY[1:2], self.MIDDLE, rx=0x1234)
            self.ends([4, 0x4321, 2 + len(last), 0xAAAA, 0xE007], self.give(last, self.LAST, rx=(0x4321, 1)))

    def test_receive_errors(self):
        """On a later packet they are tested behind 6, and give the four-word fragment with this packet's words; they are counted."""
        for words, bc in (([], 0), ([], 2), ([1], 2), (self.REPLY[2:], 1), ([1] * 13000, 0)):
            self.ask(7)
            self.stored(self.REPLY[:2], self.FIRST, rx=0x1234)
            self.ends([3, 0x4321, 0x7654, 0x3007], self.give(words, bc, error=0x100, rx=(0x4321, 0x7654)))
            self.assertEqual(self.node.amswire, 1)

    def test_bc1_clear_on_the_first_packet(self):
        for bc in (0, 1):
            self.ask(7)
            self.ends([4, 0x4321, 2, 0xAAAA, 0x8807], self.give(self.REPLY[:2], bc, rx=(0x4321, 1)))

    def test_code_3_is_for_a_whole_packet_alone(self):
        self.ask(7)
        self.ends([4, 0x4321, 1, 0xAAAA, 0x9807], self.give([0xAAAA], self.WHOLE, rx=(0x4321, 1)))
        self.ask(7)
        self.stored([0xAAAA], self.FIRST)

    def test_words_stored_past_a_failed_reply_stay(self):
        """Uncounted, until the next slave's words stand there."""
        self.ask(5, 7)
        self.stored([1, 2, 3, 4, 5, 6, 7, 8], self.FIRST, rx=0x1234)
        self.assertEqual(self.give([9, 9], self.WHOLE, rx=(0x4321, 1)), ("ask", 7, 2))
        group = self.node.pending.group
        self.assertEqual((group.words, group.tally, group.received, group.rx_status), (5, 6, 0, 0))
        self.assertEqual(self.lent.reply[:10], [4, 0x4321, 10, 1, 0xC005, 5, 6, 7, 8, 0x5A5A])
        self.stored([0xBBBB], self.FIRST)
        self.assertEqual(self.lent.reply[5:10], [5, 0xBBBB, 7, 8, 0x5A5A])
        answer = self.give([fcs([0xBBBB])], self.LAST)
        words = sealed([4, 0x4321, 10, 1, 0xC005, 1, 0x8007 | 0xBBBB & 0x07E0, 0x0200])
        self.assertEqual((answer, self.lent.reply[:10]), (("reply", 3, 9), words + [0x5A5A]))

    def test_what_stands_in_the_buffer_counts(self):
        """The FCS and the first word are those of the lent buffer."""
        self.ask(7)
        self.stored(self.REPLY[:3], self.FIRST)
        self.lent.reply[1:3] = [0xBBBB, 0xCCCC]
        joined = [0xBBBB, 0xCCCC, 0x0002, 0x01A0]
        self.ends([4, 0xBBBB, 0xCCCC, 0x0002, 0x81A7], self.give([0x01A0, fcs(joined)], self.LAST))
        self.ask(7)
        self.stored(self.REPLY[:3], self.FIRST, rx=0x1234)
        self.lent.reply[1] = 0xBBBB
        self.node, answer = poll(self.node, self.lent, 160)
        self.ends([4, 0x1234, 3, 0xBBBB, 0xB007], answer)

    def test_all_slaves_in_packets(self):
        self.ask(*range(24))
        for slave in range(24):
            words = sealed([slave, 0x0040])
            self.stored(words[:1], self.FIRST)
            answer = self.give(words[1:], self.LAST)
            self.assertEqual(answer[:2], ("ask", slave + 1) if slave < 23 else ("reply", 3))
        words = sealed([word for slave in range(24) for word in (2, slave, 0x8040 | slave)] + [0x0000])
        self.assertEqual((answer, self.lent.reply[:75]), (("reply", 3, 74), words + [0x5A5A]))

    def test_dropped(self):
        """By its own link: the buffer stays as it is, and the next group begins anew."""
        self.ask(5, 7)
        self.stored(self.REPLY[:3], self.FIRST, rx=0x1234)
        buffer, node = list(self.lent.reply), self.node
        for link, bc, packet, answer in ((0, 2, [], ("reply", ABORT, 0)), (1, 0, [], ("reply", ABORT, 0)), (1, 1, [7], ("refused", 6))):
            self.assertEqual(request(node, self.lent, 100, link, bc, 0, packet), (node, answer))
        self.node, answer = request(node, self.lent, 100, 1, 2, 0, [])
        self.assertEqual((answer, self.node.pending, self.lent.reply), (("reply", END, 0), None, buffer))
        self.node, _ = request(self.node, self.lent, 100, 1, 3, 0, [0x8023, 0x0000, 0x0C2E])
        self.assertEqual((self.node.pending.group.received, self.node.pending.group.rx_status), (0, 0))
        self.ends([1, 0x8007], self.give(sealed([0]), self.WHOLE))

    def test_single_slaves_pass_as_before(self):
        for bc in range(4):
            self.node, self.lent = started()
            self.node, _ = request(self.node, self.lent, 100, 1, 3, 0, [0x0407, 0x0C2E])
            self.assertEqual(self.give([1, 2, 3], bc), ("reply", bc, 3))
            self.assertEqual((self.lent.reply[:4], self.node.pending), ([1, 2, 3, 0], None))

    def test_refusals(self):
        """Words received are within the room, and a kept RX status belongs to some."""
        for slaves, w in (((7,), 0), ((5, 7), 0), ((5, 7, 23), 300)):
            room = AREA - 2 - w - 5 * (len(slaves) - 1)
            ranges = ((room, 0, True), (room, 9, True), (room + 1, 0, False), (2**32 - 1, 0, False), (2**32 - w, 0, False), (0, 0, True),
                      (0, 1, False), (0, 0xFFFF, False), (1, 0xFFFF, True))
            for received, rx_status, fine in ranges:
                self.ask(*slaves, w=w)
                self.set(received=received, rx_status=rx_status)
                node = self.node
                self.assertEqual(poll(node, self.lent, 100), (node, ("waiting",) if fine else ("refused", 5)))
                self.assertEqual(erase(node, self.lent.flash, 1), (node, ("erased", 0) if fine else ("refused", 5)))
                self.assertEqual(request(node, self.lent, 100, 0, 3, 0, [7])[1], ("refused", 6 if fine else 5))
                self.assertEqual(reply(node, self.lent, 100, 9, 3, 0, 0, 0, [])[1], ("refused", 7 if fine else 5))


class Events(unittest.TestCase):
    """02, request 12, sentence by sentence, with section 12 and Table 15 of the note. The node's own status word is 01A0."""

    FIRST, MIDDLE, LAST, WHOLE = 2, 0, 1, 3

    def begin(self, *slaves, last=0, now=100):
        self.area = [0x5A5A] * AREA
        self.build = Build(self.area, sum(1 << slave for slave in slaves), last, 0x01A0, now)
        self.assertEqual((self.build.answer, self.build.kept.times), (("read", slaves[0]), 1))

    def give(self, words, bc=WHOLE, now=100, errors=0, rx=(0x1234, 0x4321)):
        return self.build.reply(now, errors, *rx, bc, list(words))

    def is_built(self, answer, *words):
        """The event is these words and their FCS, and what stands behind it stays."""
        event = sealed(list(words))
        self.assertEqual((answer, self.area[:len(event)]), (("built", len(event)), event))

    def test_an_event(self):
        """Event number, one fragment without it, no slave left out, status with bit 5 clear, FCS: Table 15."""
        self.begin(7)
        answer = self.give(sealed([0x0001, 0xAAAA, 0xBBBB, 0x01A0]))
        self.is_built(answer, 0x0001, 3, 0xAAAA, 0xBBBB, 0x81A7, 0x0000, 0x0000, 0x0180)
        self.assertEqual(self.area[9:], [0x5A5A] * (AREA - 9))

    def test_numbers(self):
        """One more than the last, modulo 2^16, from 1."""
        for last, number in ((0, 1), (1, 2), (0x00FF, 0x0100), (0xFFFE, 0xFFFF), (0xFFFF, 0)):
            self.begin(7, last=last)
            self.is_built(self.give(sealed([number, 5, 0])), number, 2, 5, 0x8007, 0, 0, 0x0180)

    def test_another_number(self):
        """Code 4, or B if the reply came in packets, without the slave's bits; the first word is shown."""
        for other in (5, 7, 0, 0x0600, 0x8006):
            self.begin(7, last=5)
            answer = self.give(sealed([other, 0xAAAA, 0x07E0]))
            self.is_built(answer, 6, 4, 0x1234, 4, other, 0xA007, 0, 0, 0x0380)
            for cut in (1, 2, 3):
                self.begin(7, last=5)
                words = sealed([other, 0xAAAA, 0x07E0])
                self.assertEqual(self.give(words[:cut], self.FIRST), ("next", 7))
                self.is_built(self.give(words[cut:], self.LAST), 6, 4, 0x1234, 4, other, 0xD807, 0, 0, 0x0380)

    def test_what_comes_first(self):
        """The number is compared after the FCS and before the room; below three words it is not looked at, nor is the FCS."""
        large = [0] * 12282
        for words, code in (([9, 9, 9], 0xA807), (sealed([9, *large]), 0xA007), (sealed([1, *large]), 0x9007), ([1, *large, 1, 1], 0xA807),
                            ([1], 0x9807), ([9, 9], 0x9807), (sealed([1]), 0x9807)):
            self.begin(7)
            self.is_built(self.give(words), 1, 4, 0x1234, len(words), words[0], code, 0, 0, 0x0380)

    def test_two_words_in_two_packets(self):
        """Code 3 for a joined reply too."""
        for words in ([1, 9], sealed([1]), [9, 9]):
            self.begin(7)
            self.give(words[:1], self.FIRST)
            self.is_built(self.give(words[1:], self.LAST), 1, 4, 0x1234, 2, words[0], 0x9807, 0, 0, 0x0380)

    def test_left_out(self):
        """Code 0 and length 1: no fragment, but a bit of the mask words, slaves 23-16 first. All had code 0: bit 9 is clear."""
        self.begin(0, 5, 16, 23)
        self.assertEqual(self.give(sealed([1, 0x01A0])), ("read", 5))
        self.assertEqual(self.area, [0x5A5A] * AREA)
        self.give(sealed([1, 0xCCCC, 0x0020]))
        self.give(sealed([1, 0x07E0]))
        self.is_built(self.give(sealed([1, 0])), 1, 2, 0xCCCC, 0x8025, 0x0081, 0x0001, 0x0180)

    def test_all_left_out(self):
        """They had DAT: five words are an event."""
        self.begin(*range(24))
        for slave in range(24):
            answer = self.give(sealed([1, 0]))
        self.is_built(answer, 1, 0x00FF, 0xFFFF, 0x0180)

    def test_left_out_in_packets(self):
        """What was stored of it stays, uncounted, and the next fragment stands over it."""
        words = sealed([1, 0x01A0])
        self.begin(5, 7)
        self.give(words[:2], self.FIRST)
        self.assertEqual(self.give(words[2:], self.LAST), ("read", 7))
        self.assertEqual((self.build.kept.words, self.build.kept.left_out, self.area[:5]), (0, 0x20, [0x5A5A, 0x5A5A, 1, 0x01A0, 0x5A5A]))
        self.is_built(self.build.poll(160), 1, 1, 0x2807, 0, 0x0020, 0x0380)

    def test_moved_down(self):
        """Packets stand from word w + 2 on with the number; in the end the data are moved down, and the word past the fragment stays."""
        words = sealed([1, 0xAAAA, 0xBBBB, 0x01A0])
        for cut, past in ((1, 0x5A5A), (2, 0x5A5A), (3, 0x5A5A), (4, 0x01A0)):
            self.begin(7, 8)
            self.give(words[:cut], self.FIRST)
            self.assertEqual(self.area[:7], [0x5A5A, 0x5A5A, *words[:cut], *[0x5A5A] * (5 - cut)])
            self.assertEqual(self.give(words[cut:], self.LAST), ("read", 8))
            self.assertEqual(self.area[:7], [0x5A5A, 3, 0xAAAA, 0xBBBB, 0x81A7, past, 0x5A5A])

    def test_end_is_asked_again(self):
        """Twice, at this clock, and a slave that has data then is as any other; the third END is the fragment."""
        self.begin(5, 7)
        for times, now in ((2, 159), (3, 218)):
            self.assertEqual(self.give([], self.WHOLE, now), ("read", 5))
            self.assertEqual((self.build.kept.times, self.build.kept.at, self.build.kept.words, self.build.kept.tally), (times, now, 0, 0))
            self.assertEqual(self.build.poll(now + 59), ("waiting",))
        self.assertEqual(self.give(sealed([1, 0xAAAA, 0x01A0]), now=277), ("read", 7))
        self.assertEqual((self.build.kept.times, self.build.kept.words), (1, 3))
        for answer in (("read", 7), ("read", 7)):
            self.assertEqual(self.give([], now=277), answer)
        self.is_built(self.give([], now=277), 1, 2, 0xAAAA, 0x81A5, 1, 0x2007, 0, 0, 0x0380)

    def test_nothing_else_is_asked_again(self):
        """NEXT, ERROR, ABORT, receive errors and timeouts are fragments at once; END behind NEXT is code 7."""
        for bc, status in ((0, 0x0805), (1, 0x1805), (2, 0x1005)):
            self.begin(5, 7)
            self.assertEqual(self.give([], bc), ("read", 7))
            self.assertEqual(self.area[1:3], [1, status])
        for now, errors, fragment in ((160, 0, [1, 0x2805]), (160, 1, [1, 0x2805]), (159, 1, [3, 0x1234, 0x4321, 0x3005])):
            self.begin(5, 7)
            self.assertEqual(self.give([], self.WHOLE, now, errors), ("read", 7))
            self.assertEqual((self.area[1:1 + len(fragment)], self.build.kept.tally), (fragment, 1))
        self.begin(5, 7)
        self.give([1, 2], self.FIRST)
        self.assertEqual(self.give([], self.WHOLE, rx=(7, 7)), ("read", 7))
        self.assertEqual((self.area[1:6], self.build.kept.times), ([4, 7, 2, 1, 0xB805], 1))

    def test_no_event(self):
        """No fragment has DAT: word 0 stays, and nothing stands behind the fragments."""
        self.begin(0, 5, 7, 23)
        self.give([], 2)
        self.build.poll(160)
        self.give([1, 9, 9], errors=1, now=160)
        for answer in (("read", 23), ("read", 23), ("no event",)):
            self.assertEqual(self.give([], now=160), answer)
        self.assertEqual(self.area[:12], [0x5A5A, 1, 0x1000, 1, 0x2805, 3, 0x1234, 0x4321, 0x3007, 1, 0x2017, 0x5A5A])

    def test_room(self):
        """Fragment words, the reply's words, 5 for each slave yet to ask and 5 are at most 12,288. What is left out takes none."""
        for n, status in ((12283, 0x8007), (12284, 0x9007)):
            for before in ((), (3,)):
                self.begin(*before, 7)
                for _ in before:
                    self.give(sealed([1, 0]))
                answer = self.give(sealed([1, *[0] * (n - 2)]))
                words = [n - 2, *[0] * (n - 3), status] if status == 0x8007 else [4, 0x1234, n, 1, status]
                self.is_built(answer, 1, *words, 0, 8 if before else 0, 0x0180 if status == 0x8007 else 0x0380)
        for n, answer in ((12278, ("next", 7)), (12279, ("read", 9))):
            self.begin(7, 9)
            self.assertEqual(self.give([1] * n, self.FIRST), answer)
        self.assertEqual(self.area[1:6], [4, 0x1234, 12279, 1, 0xD007])


class Builds(unittest.TestCase):
    """02, request 12, at the node: the call that begins a build, what becomes of the event, and the commands 01, 02 and 42. The slaves of mask 0
    are 5 and 7."""

    MASK = 1 << 5 | 1 << 7
    DATA = sealed([1, 0xAAAA, 0x01A0])  # of the first event
    EVENT = sealed([1, 2, 0xAAAA, 0x81A5, 1, 0x2807, 0, 0, 0x0200])  # slave 5 gives it, slave 7 is late

    def setUp(self):
        self.node, self.lent = started()
        self.node = replace(self.node, masks=(self.MASK,) + self.node.masks[1:])
        self.lent.events[:] = [0x5A5A] * AREA
        self.lent.reply[:] = [0xEEEE] * AREA

    def build(self, now=100):
        self.node, answer = build(self.node, self.lent.events, now)
        return answer

    def ask(self, packet, bc=3, link=2):
        self.node, answer = request(self.node, self.lent, 100, link, bc, 0, list(packet))
        return answer

    def give(self, words, bc=3, now=100, error=0, slave=None):
        slave = self.node.pending.slave if slave is None else slave
        self.node, answer = reply(self.node, self.lent, now, slave, bc, error, 0x1234, 0x4321, list(words))
        return answer

    def poll(self, now):
        self.node, answer = poll(self.node, self.lent, now)
        return answer

    def built(self):
        """An event of ten words with bit 9."""
        self.assertEqual((self.build(), self.give(self.DATA), self.poll(160)), (("read", 5), ("read", 7), ("built", 10)))

    def stays(self, work):
        """What some work is answered, and whether it left node, event area and reply buffer."""
        node, events, buffer = self.node, list(self.lent.events), list(self.lent.reply)
        return work(), (self.node, self.lent.events, self.lent.reply) == (node, events, buffer)

    def test_a_build(self):
        """The lowest slave of mask 0 is asked, then the next; the event stands in the event area, and no word of the reply buffer changes."""
        self.assertEqual((self.build(), self.node.pending), (("read", 5), Building(5, 100, self.MASK)))
        self.assertEqual((self.give(self.DATA, now=110), self.node.pending), (("read", 7), Building(7, 110, self.MASK, words=3, tally=5)))
        self.assertEqual(self.give(sealed([1, 0x0020]), now=120), ("built", 8))
        self.assertEqual(self.lent.events[:9], [*sealed([1, 2, 0xAAAA, 0x81A5, 0x0000, 0x0080, 0x0000]), 0x5A5A])
        self.assertEqual((self.node.event, self.node.build_errors, self.node.unread, self.node.pending), (1, 0, 8, None))
        self.assertEqual(self.lent.reply, [0xEEEE] * AREA)

    def test_handed_out_once(self):
        """Read Event hands out the words as they stand, then END; what stands behind them in the reply buffer stays."""
        self.built()
        self.assertEqual((self.ask(own(0x01)), self.lent.reply[:11]), (("reply", 3, 10), [*self.EVENT, 0xEEEE]))
        self.assertEqual((self.node.unread, self.node.event, self.node.build_errors, self.lent.events[:10]), (0, 1, 1, self.EVENT))
        self.assertEqual(self.stays(lambda: self.ask(own(0x01))), (("reply", END, 0), True))

    def test_what_stands_in_the_event_area_is_handed_out(self):
        self.built()
        self.lent.events[:3] = [9, 8, 7]
        self.assertEqual((self.ask(own(0x01)), self.lent.reply[:4]), (("reply", 3, 10), [9, 8, 7, 0x81A5]))

    def test_an_event_unread(self):
        """No build begins before it is read; other calls leave it."""
        self.built()
        self.assertEqual(self.stays(self.build), (("reply", ABORT, 0), True))
        self.assertEqual((self.ask(own(0x52, 3)), self.ask(own(0x0D, 7))), (("reply", END, 0), ("reply", 3, 3)))
        self.assertEqual(self.ask([0x0405, 0x0C2E]), ("ask", 5, 1))
        self.assertEqual(self.give([1, 2, 3]), ("reply", 3, 3))
        self.assertEqual((self.ask(own(0x01)), self.lent.reply[:10]), (("reply", 3, 10), self.EVENT))
        self.assertEqual(self.build(), ("read", 5))
        self.assertEqual(self.give(self.DATA), ("read", 7))  # another number by now
        self.assertEqual(self.lent.events[1:6], [4, 0x1234, 4, 1, 0xA005])

    def test_numbers(self):
        """They go up by one with each event, and stay where there is none."""
        self.built()
        self.assertEqual((self.node.event, self.ask(own(0x01))), (1, ("reply", 3, 10)))
        self.assertEqual((self.build(), self.poll(160)), (("read", 5), ("read", 7)))
        self.assertEqual((self.poll(220), self.node.event, self.node.unread, self.node.build_errors), (("no event",), 1, 0, 1))
        self.assertEqual(self.ask(own(0x01)), ("reply", END, 0))
        self.node = replace(self.node, event=0xFFFF)
        self.build()
        self.give(sealed([0, 0x0020]))
        self.assertEqual((self.give(sealed([0, 0x0020])), self.node.event, self.lent.events[0]), (("built", 5), 0, 0))

    def test_last_event_number(self):
        self.built()
        for event in (1, 0, 0xFFFF):
            self.node = replace(self.node, event=event)
            self.assertEqual((self.ask(own(0x02)), self.lent.reply[:4]), (("reply", 3, 4), sealed([event, 0, 0x0020])))
        self.assertEqual(self.node.unread, 10)

    def test_reset(self):
        """7.20: no event is left, and the last number is zero. Errors are counted on, and the area is left."""
        self.built()
        events = list(self.lent.events)
        self.assertEqual((self.ask(own(0x42)), self.node.event, self.node.unread, self.node.build_errors), (("reply", END, 0), 0, 0, 1))
        self.assertEqual((self.lent.events, self.ask(own(0x01))), (events, ("reply", END, 0)))
        self.built()
        self.assertEqual((self.node.event, self.node.build_errors), (1, 2))

    def test_status(self):
        """Words 7 and 8, and bit 14 of the node status; the count stops at FFFF."""
        self.ask(own(0x0C))
        self.assertEqual(self.lent.reply[5:8], [0x0002, 0, 0])
        self.built()
        self.ask(own(0x0C))
        self.assertEqual(self.lent.reply[5:8], [0x4002, 1, 1])
        self.node = replace(self.node, event=0x1234, build_errors=0xFFFE, unread=0)
        for errors in (0xFFFF, 0xFFFF):
            self.build()
            self.give([9, 9])
            self.poll(160)
            self.node = replace(self.node, unread=0)
            self.assertEqual(self.node.build_errors, errors)
        self.ask(own(0x0C))
        self.assertEqual(self.lent.reply[5:8], [0x4002, 0x1236, 0xFFFF])

    def test_no_parameters(self):
        self.built()
        for number in (0x01, 0x02, 0x42):
            for parameters in ((0,), (1, 2)):
                self.assertEqual(self.stays(lambda: self.ask(own(number, *parameters))), (("reply", ABORT, 0), True))

    def test_cdp(self):
        """It builds none, and has the three commands."""
        self.node, memories = started(CDP)
        self.assertEqual(self.stays(self.build), (("reply", ABORT, 0), True))
        self.node = replace(self.node, masks=(self.MASK,) * 16)
        self.assertEqual(self.stays(self.build), (("reply", ABORT, 0), True))
        self.assertEqual((self.ask(own(0x01)), self.ask(own(0x42))), (("reply", END, 0), ("reply", END, 0)))
        self.assertEqual((self.ask(own(0x02)), self.lent.reply[:4]), (("reply", 3, 4), sealed([0, 0, 0x00A0])))

    def test_an_empty_mask(self):
        self.ask(own(0x57, 0x0000, 0x0000))
        self.assertEqual(self.stays(self.build), (("reply", ABORT, 0), True))
        self.ask(own(0x57, 0x0080, 0x0000))
        self.assertEqual(self.build(), ("read", 23))

    def test_while_an_erasure_runs(self):
        self.assertEqual(self.ask(own(0x47, 0x1C00)), ("reply", END, 0))
        self.built()
        self.assertEqual(self.ask(own(0x01)), ("reply", 3, 10))

    def test_6_covers_both(self):
        """Neither a request with words nor a build begins while a slave, a group or a build is pending."""
        self.build()
        for pending in (self.node.pending, Pending(0, 5, 0), Pending(3, 5, 0, Built(self.MASK, 1, 0, 0))):
            self.node = replace(self.node, pending=pending)
            self.assertEqual(self.stays(self.build), (("refused", 6), True))
            self.assertEqual(self.stays(lambda: self.ask(own(0x12))), (("refused", 6), True))
        self.node = replace(self.node, kind=CDP, masks=(0,) * 16, unread=5)
        self.assertEqual(self.build(), ("refused", 6))

    def test_no_link_drops_a_build(self):
        self.build()
        for link in range(4):
            for bc in range(4):
                self.assertEqual(self.stays(lambda: self.ask([], bc, link)), (("reply", ABORT, 0), True))
        pending = self.node.pending
        self.node = replace(self.node, write=Write(0, 9))
        self.assertEqual(self.stays(lambda: self.ask([], 2, 1)), (("reply", ABORT, 0), True))
        self.assertEqual((self.ask([], 2, 0), self.node.write, self.node.pending), (("reply", END, 0), None, pending))

    def test_7(self):
        for work in (lambda: self.poll(100), lambda: self.give([], slave=5)):
            self.assertEqual(self.stays(work), (("refused", 7), True))
        self.build()
        for slave in (0, 4, 6, 7, 23):
            self.assertEqual(self.stays(lambda: self.give(self.DATA, slave=slave)), (("refused", 7), True))
        self.assertEqual(self.stays(lambda: self.poll(159)), (("waiting",), True))

    def test_receive_errors_are_counted(self):
        """Before the timeout, as in a group."""
        self.build()
        self.assertEqual((self.give([1], error=1, now=159), self.node.amswire), (("read", 7), 1))
        self.assertEqual((self.give([1], error=1, now=219), self.node.amswire), (("no event",), 1))

    def test_in_packets(self):
        self.build()
        self.assertEqual(self.give([1, 0xAAAA], 2, now=159), ("next", 5))
        self.assertEqual(self.node.pending, Building(5, 159, self.MASK, received=2, rx_status=0x1234))
        self.assertEqual(self.lent.events[:5], [0x5A5A, 0x5A5A, 1, 0xAAAA, 0x5A5A])
        self.assertEqual((self.poll(218), self.give(self.DATA[2:], 1, now=218)), (("waiting",), ("read", 7)))
        self.assertEqual(self.poll(278), ("built", 10))
        self.assertEqual(self.lent.events[:10], self.EVENT)

    def test_other_calls_go_on(self):
        self.build()
        node = self.node
        self.assertEqual(erase(node, self.lent.flash, 9), (node, ("erased", 0)))
        self.assertEqual(slow(node, self.lent.qlist, 100), (node, ("nothing",)))

    def test_start(self):
        """Last number and errors are 0, no event is unread, and nothing is pending; mask 0 names all."""
        self.built()
        self.node, _ = start(CDDC, 4, 0, 0, 0, 0, 0, self.lent.flash)
        self.assertEqual((self.node.event, self.node.build_errors, self.node.unread, self.node.pending), (0, 0, 0, None))
        self.assertEqual(self.build(), ("read", 0))

    def test_in_a_list_of_requests(self):
        """Read Event is done as any other, behind two words and in a run apart from the event area."""
        self.built()
        self.lent.reply = [0xEEEE] * 30000
        row = row_of((0, 3, own(0x01)), (1, 3, own(0x01)), (2, 3, own(0x02)))
        self.node, answer = requests(self.node, self.lent, 100, row)
        self.assertEqual(answer, ("done", 3))
        self.assertEqual(self.lent.reply[:21], [3, 10, *self.EVENT, 3, 0, 3, 4, *sealed([1, 0, 0x0020]), 0xEEEE])
        self.lent.events = self.lent.events[1:]
        self.assertEqual(requests(self.node, self.lent, 100, row), (self.node, ("done", 0)))

    def test_11(self):
        """Behind 9 and before 4, in every call that is lent the event area."""
        self.build()
        held, short = self.node, replace(self.lent, events=[0] * (AREA - 1))
        wrong = replace(held, mode=4)
        for node in (held, wrong, replace(held, pending=None)):
            self.assertEqual(build(node, short.events, 0), (node, ("refused", 11)))
            self.assertEqual(poll(node, short, 0), (node, ("refused", 11)))
            for slave in (5, 24):
                self.assertEqual(reply(node, short, 0, slave, 3, 0, 0, 0, []), (node, ("refused", 11)))
            for link in (0, 4):
                self.assertEqual(request(node, short, 0, link, 3, 0, [7]), (node, ("refused", 11)))
        for lent, number in ((replace(short, qlist=[0] * 7 * 911), 9), (replace(short, area=[]), 8), (replace(short, reply=[]), 2)):
            self.assertEqual(request(held, lent, 0, 9, 3, 0, [7]), (held, ("refused", number)))
        self.assertEqual(poll(held, replace(short, reply=[]), 0), (held, ("refused", 2)))
        self.assertEqual(build(wrong, [0] * AREA, 0), (wrong, ("refused", 5)))
        self.assertEqual(build(replace(held, pending=None), [0] * (AREA + 9), 0)[1], ("read", 5))

    def test_ranges(self):
        """5 tests what is newly kept."""
        self.build()
        pending = self.node.pending
        good = ({}, {"times": 3}, {"tally": 1}, {"tally": 5}, {"tally": 6}, {"left_out": 0xFFFFFF}, {"words": AREA - 15}, {"received": AREA - 10},
                {"received": 3, "rx_status": 0xFFFF}, {"slave": 7}, {"slave": 7, "words": AREA - 10}, {"slave": 7, "received": AREA - 5})
        bad = ({"times": 0}, {"times": 4}, {"tally": 2}, {"tally": 3}, {"tally": 4}, {"tally": 7}, {"left_out": 0x1000000}, {"words": AREA - 14},
               {"received": AREA - 9}, {"rx_status": 1}, {"slave": 7, "words": AREA - 9}, {"slave": 7, "received": AREA - 4}, {"slave": 6},
               {"slave": 24}, {"asked": 0x10000A0}, {"asked": 0x80})
        for fields, fine in [(fields, True) for fields in good] + [(fields, False) for fields in bad]:
            node = replace(self.node, pending=replace(pending, **fields))
            self.assertEqual((poll(node, self.lent, 100), fields), ((node, ("waiting",) if fine else ("refused", 5)), fields))
            self.assertEqual(build(node, self.lent.events, 100), (node, ("refused", 6 if fine else 5)))
            self.assertEqual(request(node, self.lent, 100, 0, 3, 0, [7])[1], ("refused", 6 if fine else 5))
        for unread, fine in ((0, True), (1, True), (AREA, True), (AREA + 1, False), (2**32 - 1, False)):
            for held in (None, pending):
                node = replace(self.node, unread=unread, pending=held)
                self.assertEqual(erase(node, self.lent.flash, 1), (node, ("erased", 0) if fine else ("refused", 5)))
        node = replace(self.node, event=0xFFFF, build_errors=0xFFFF)
        self.assertEqual(poll(node, self.lent, 100)[1], ("waiting",))

    def test_an_event_unread_while_a_build_is_pending(self):
        """No start leads there, and 5 lets it through: it stays where there is no event, and else the new one is unread."""
        self.build()
        self.node = replace(self.node, unread=7)
        held = self.node
        self.poll(160)
        self.assertEqual((self.poll(220), self.node.unread), (("no event",), 7))
        self.node = held
        self.give(self.DATA)
        self.assertEqual((self.poll(160), self.node.unread), (("built", 10), 10))


class QList(unittest.TestCase):
    """02, request 7, and sections 7.42 to 7.44 and 13."""

    SECOND = 0x2000  # the segment's second header word: page 0, address 2000

    def setUp(self):
        self.node, self.lent = started()
        self.lent.qlist = [0xEEEE] * 7 * 910

    def ask(self, packet, now=0, link=0):
        self.node, answer = request(self.node, self.lent, now, link, 3, 0, list(packet))
        return answer

    def write(self, *entries, now=0, count=None, second=SECOND, memory=DM):
        """What a write of entries is answered: a 0-length reply's BC."""
        body = [len(entries) if count is None else count] + [word for entry in entries for word in entry]
        answer = self.ask(own(0x5C, *segment(memory, second, body)), now)
        self.assertEqual(answer[2], 0)
        return answer[1]

    def delete(self, *parameters):
        return self.ask(own(0x5B, *parameters))[1]

    def step(self, now):
        self.node, answer = slow(self.node, self.lent.qlist, now)
        return answer

    def record(self, place):
        return self.lent.qlist[7 * place:7 * place + 7]

    def stays(self, work):
        """What some work is answered, and whether it left node and list."""
        node, held = self.node, list(self.lent.qlist)
        return work(), (self.node, self.lent.qlist) == (node, held)

    ENTRY = [0x0008, 3, 100, 0xA0, 0xA1]

    def test_a_write(self):
        self.assertEqual(self.write(self.ENTRY, [0x01FF, 1, 0, 2, 3], now=7), END)
        self.assertEqual((self.node.listed, self.node.turn), (2, 0))
        self.assertEqual(self.record(0), [*self.ENTRY, 107, 0])
        self.assertEqual(self.record(1), [0x01FF, 1, 0, 2, 3, 7, 1])
        self.assertEqual(self.record(2), [0xEEEE] * 7)
        self.assertEqual(self.lent.memories[DM][:4], [0] * 4)
        self.assertEqual(self.write(self.ENTRY), END)
        self.assertEqual((self.node.listed, self.record(2)), (3, [*self.ENTRY, 100, 0]))

    def test_24_bits_of_frequency_and_the_wrap(self):
        self.assertEqual(self.write([0xFF08, 1, 0xFFFF, 0, 0], now=0xFFFFFFFF), END)
        self.assertEqual(self.record(0)[5:], [0xFFFE, 0x00FF])
        self.assertEqual(self.step(0x00FFFFFD), ("nothing",))
        self.assertEqual(self.step(0x00FFFFFE), ("handed", 0))
        self.assertEqual(self.record(0), [0xFF08, 0, 0xFFFF, 0, 0, 0xFFFD, 0x01FF])

    def test_due_is_below_half_the_clock(self):
        for since, handed in ((0, True), (1, True), (2**31 - 1, True), (2**31, False), (2**32 - 1, False)):
            self.setUp()
            self.write(self.ENTRY, now=0xFFFFFFF0)
            self.assertEqual(self.step((0xFFFFFFF0 + 100 + since) % 2**32), ("handed", 0) if handed else ("nothing",))
            self.assertEqual(self.record(0)[1], 2 if handed else 3)

    def test_frequency_0(self):
        for header, word, answer in ((0x0008, 0, ABORT), (0x0108, 0, END), (0x0008, 1, END), (0xFF08, 0, END)):
            self.assertEqual(self.write(self.ENTRY, [header, 5, word, 0, 0]), answer)
            self.assertEqual(self.node.listed, 2 if answer == END else 0)
            self.assertEqual(self.record(0) == [0xEEEE] * 7, answer == ABORT)
            self.setUp()

    def test_delayed(self):
        for header in (0x0000, 0x0004, 0xFFF7):
            self.assertEqual(self.stays(lambda: self.write(self.ENTRY, [header, 5, 9, 0, 0])), (ABORT, True))

    def test_none_is_added_by_0(self):
        self.assertEqual(self.stays(self.write), (END, True))

    def test_a_segment_that_is_not_as_it_should_be(self):
        wrong = (
            {"count": 0}, {"count": 2}, {"count": 0xFFFF}, {"second": 0x2001}, {"second": 0x1FFF}, {"second": 0xA000}, {"second": 0xE000},
            {"second": 0x6000}, {"memory": IO},
        )
        for given in wrong:
            self.assertEqual(self.stays(lambda: self.write(self.ENTRY, **given)), (ABORT, True))
        right = segment(DM, self.SECOND, [1, *self.ENTRY])
        for words in ([], right[:-1], [*right, 0], [*right[:-1], right[-1] ^ 1], [0x4001, 0x2000, 0xFFFF]):
            self.assertEqual(self.stays(lambda: self.ask(own(0x5C, *words))), (("reply", ABORT, 0), True))
        self.lent.memories[DM] = []
        self.assertEqual(self.ask(own(0x5C, *right)), ("reply", END, 0))

    def test_910_entries(self):
        some = [[0x0008, place, 1, 0, 0] for place in range(455)]
        self.assertEqual((self.write(*some), self.write(*some[:-1])), (END, END))
        self.assertEqual(self.stays(lambda: self.write(self.ENTRY, self.ENTRY)), (ABORT, True))
        self.assertEqual((self.write(self.ENTRY), self.node.listed), (END, 910))
        self.assertEqual(self.stays(lambda: self.write(self.ENTRY)), (ABORT, True))
        self.assertEqual(self.ask(own(0x1C)), ("reply", 3, 1 + 5 * 910 + 2))
        self.assertEqual(self.stays(self.write), (END, True))

    def test_as_many_as_are_lent(self):
        for words, answer in ((0, ABORT), (13, ABORT), (14, END), (20, END)):
            self.lent.qlist = [0xEEEE] * words
            self.assertEqual(self.write(self.ENTRY, self.ENTRY), answer)
            self.node = replace(self.node, listed=0)
        self.assertEqual(self.lent.qlist[14:], [0xEEEE] * 6)

    def test_a_read(self):
        self.assertEqual((self.ask(own(0x1C)), self.lent.reply[:3]), (("reply", 3, 3), [0, 0x0020, fcs([0, 0x0020])]))
        self.write(self.ENTRY, [0x12F8, 0x8001, 0, 1, 2])
        self.assertEqual(self.ask(own(0x1C)), ("reply", 3, 13))
        self.assertEqual(self.lent.reply[:12], [2, *self.ENTRY, 0x12F8, 0x8001, 0, 1, 2, 0x0020])
        self.assertEqual(self.ask(own(0x1C, 0)), ("reply", ABORT, 0))

    def test_bit_15_of_repetitions_is_a_number_s(self):
        self.write([0x0008, 0x8000, 1, 0, 0])
        self.assertEqual((self.step(1), self.record(0)[1]), (("handed", 0), 0x7FFF))

    def test_turns(self):
        """Only the entry in turn is looked at, and the turn moves on either way."""
        self.write([0x0008, 1, 10, 0, 0], [0x0008, 0, 1, 0, 0], [0x0008, 2, 5, 0, 0])
        said = [(self.step(now)[-1], self.node.turn) for now in (5, 5, 5, 9, 9, 9, 10, 10, 10, 11, 11, 11)]
        nothing = "nothing"
        self.assertEqual(said, [(nothing, 1), (nothing, 2), (2, 0), (nothing, 1), (nothing, 2), (nothing, 0), (0, 1), (nothing, 2), (2, 0),
                                (nothing, 1), (nothing, 2), (nothing, 0)])
        self.assertEqual([self.record(place)[1:3] + self.record(place)[5:] for place in range(3)],
                         [[0, 10, 20, 0], [0, 1, 1, 0], [0, 5, 15, 0]])

    def test_nothing_is_listed(self):
        self.assertEqual(self.stays(lambda: self.step(0)), (("nothing",), True))
        self.lent.qlist = []
        self.assertEqual(self.step(0), ("nothing",))

    def test_one_step_a_frequency(self):
        """A step that comes late hands out once, and the next ones catch up."""
        self.write([0x0008, 9, 10, 0, 0])
        self.assertEqual([self.step(35)[0] for _ in range(4)], ["handed"] * 3 + ["nothing"])
        self.assertEqual(self.record(0)[5:], [40, 0])

    def test_delete_by_entry(self):
        self.write(self.ENTRY, self.ENTRY)
        self.step(100)
        self.assertEqual((self.delete(1), self.node.listed, self.node.turn), (END, 2, 1))
        self.assertEqual((self.record(0)[1], self.record(1)), (2, [0x0008, 0, 100, 0xA0, 0xA1, 100, 0]))
        self.assertEqual((self.step(100), self.node.turn), (("nothing",), 0))
        for place in (2, 910, 0xFFFE):
            self.assertEqual(self.stays(lambda: self.delete(place)), (ABORT, True))
        self.assertEqual((self.delete(1), self.node.listed), (END, 2))

    def test_delete_of_expired_entries(self):
        entries = [[0x0008, repetitions, 50 + place, place, 0] for place, repetitions in enumerate((0, 2, 0, 3, 1, 0))]
        self.write(*entries)
        self.step(0)
        before = [self.record(place) for place in range(7)]
        self.assertEqual((self.delete(), self.node.listed, self.node.turn), (END, 3, 0))
        after = [self.record(place) for place in range(7)]
        self.assertEqual(after, [before[1], before[3], before[4], *before[3:]])
        self.step(0)
        self.assertEqual(self.delete(), END)
        self.assertEqual((self.node.listed, self.node.turn), (3, 0))
        self.assertEqual((self.write(self.ENTRY), self.record(3)), (END, [*self.ENTRY, 100, 0]))

    def test_delete_of_all(self):
        self.write(self.ENTRY, self.ENTRY, self.ENTRY)
        self.step(0)
        held = list(self.lent.qlist)
        for _ in range(2):
            self.assertEqual((self.delete(0xFFFF), self.node.listed, self.node.turn, self.lent.qlist), (END, 0, 0, held))
        self.assertEqual(self.delete(0), ABORT)

    def test_two_parameters(self):
        self.write(self.ENTRY)
        for parameters in ((0, 0), (0xFFFF, 0xFFFF), (0, 0, 0)):
            self.assertEqual(self.stays(lambda: self.delete(*parameters)), (ABORT, True))

    def test_a_record_that_the_node_did_not_write(self):
        """It is stepped and listed as it stands: frequency 0, delayed."""
        self.lent.qlist[:7] = [0x0080, 2, 0, 8, 9, 5, 0]
        self.node = replace(self.node, listed=1)
        self.assertEqual([self.step(5) for _ in range(3)], [("handed", 0), ("handed", 0), ("nothing",)])
        self.assertEqual(self.record(0), [0x0080, 0, 0, 8, 9, 5, 0])
        self.assertEqual((self.ask(own(0x1C))[2], self.lent.reply[:6]), (8, [1, 0x0080, 0, 0, 8, 9]))

    def test_both_kinds_while_an_erasure_runs(self):
        for kind in (CDP, CDDC):
            self.node, self.lent = started(kind)
            self.assertEqual(self.ask(own(0x47, 0x1C00)), ("reply", END, 0))
            self.assertEqual((self.write(self.ENTRY), self.ask(own(0x1C))[2], self.step(100)), (END, 8, ("handed", 0)))
            self.assertEqual((self.delete(0), self.delete(), self.delete(0xFFFF)), (END, END, END))

    def test_start_lists_none(self):
        self.write(self.ENTRY)
        node, _ = start(CDDC, 4, 0, 0, 0, 0, 0, self.lent.flash)
        self.assertEqual((node.listed, node.turn), (0, 0))

    def test_refusals(self):
        self.write(*[self.ENTRY] * 5)
        self.node = replace(self.node, turn=4)
        for words, fine in ((34, False), (35, True), (6370, True), (6376, True), (6377, False), (0, False)):
            self.lent.qlist = [0] * words
            node = self.node
            for call in (lambda: slow(node, self.lent.qlist, 0), lambda: request(node, self.lent, 0, 0, 3, 0, [0x00FF])):
                self.assertEqual(call()[1] == ("refused", 9), not fine)
        short = replace(self.lent, qlist=[0] * 34)
        for node, lent, link, number in (
            (self.node, replace(short, area=[]), 0, 8), (self.node, short, 4, 9), (replace(self.node, mode=4), short, 0, 9),
            (replace(self.node, pending=Pending(0, 5, 0)), short, 0, 9), (replace(self.node, listed=0, mode=4), short, 0, 5),
        ):
            self.assertEqual(request(node, lent, 0, link, 3, 0, [0x00FF]), (node, ("refused", number)))
        self.assertEqual(slow(replace(self.node, mode=4), [], 0)[1], ("refused", 9))

    def test_ranges(self):
        memories = self.lent
        for listed, turn, fine in ((0, 0, True), (0, 1, False), (1, 0, True), (1, 1, False), (910, 909, True), (910, 910, False),
                                   (911, 0, False), (5, 65535, False)):
            node = replace(self.node, listed=listed, turn=turn, pending=Pending(0, 5, 0))
            self.assertEqual(poll(node, memories, 0), (node, ("waiting",) if fine else ("refused", 5)))
            self.assertEqual(erase(node, memories.flash, 1)[1], ("erased", 0) if fine else ("refused", 5))
            self.assertEqual(reply(node, memories, 0, 9, 3, 0, 0, 0, [])[1], ("refused", 7 if fine else 5))
            self.assertEqual(request(node, memories, 0, 0, 3, 0, [7])[1], ("refused", 6 if fine else 9 if listed > 910 else 5))
            if not fine:
                self.assertEqual(slow(node, memories.qlist, 0), (node, ("refused", 9 if listed > 910 else 5)))

    def test_repetitions_are_conserved(self):
        pick = random.Random(9)
        written = handed = deleted = now = 0

        def left():
            return sum(self.record(place)[1] for place in range(self.node.listed))

        for _ in range(3000):
            now = (now + pick.choice((0, 1, 40, 2**30))) % 2**32
            before, way = left(), pick.randrange(8)
            if way == 0:
                entries = [[pick.choice((8, 8, 8, 0, 0x108)), pick.randrange(4), pick.choice((0, 1, 30)), 0, 0] for _ in range(3)]
                written += sum(entry[1] for entry in entries) if self.write(*entries, now=now) == END else 0
            elif way == 1:
                self.delete(*pick.choice(((), (), (0xFFFF,), (0,), (pick.randrange(9),), (1, 2))))
                deleted += before - left()
            else:
                handed += self.step(now)[0] == "handed"
            self.assertEqual(written, left() + handed + deleted)
        self.assertTrue(handed > 100 and deleted > 100)


def row_of(*packets):
    """A list of packets, each given as link, BC and words."""
    return [word for link, bc, words in packets for word in (link, bc, len(words), *words)]


class Series(unittest.TestCase):
    """02, request 9."""

    ROOM = 12290
    MODE = (0, 3, own(0x12))
    SET = (1, 3, own(0x52, 3))  # changes the state
    WRITE = (2, 3, own(0x45, *file_of([segment(DM, 0x2000, [1, 2, 3])], name=0x42)))  # changes the flash

    def setUp(self):
        self.node, self.lent = started()
        self.lend(2 * self.ROOM)

    def lend(self, words):
        self.lent.reply = [0xEEEE] * words

    def ask(self, *packets, now=0):
        return self.ask_words(row_of(*packets), now)

    def ask_words(self, words, now=0):
        self.node, answer = requests(self.node, self.lent, now, words)
        return answer

    def replies(self):
        """The replies in a row, as far as they are filled."""
        found, at = [], 0
        while self.lent.reply[at] != 0xEEEE:
            bc, count = self.lent.reply[at:at + 2]
            found.append((bc, self.lent.reply[at + 2:at + 2 + count]))
            at += 2 + count
        self.assertEqual(set(self.lent.reply[at:]), {0xEEEE})
        return found

    def all_held(self):
        """All that a call could change."""
        lent = self.lent
        return self.node, lent.flash[:], {name: words[:] for name, words in lent.memories.items()}, lent.area[:], lent.qlist[:], lent.reply[:]

    def stays(self, work):
        """What some work is answered, and whether it left everything."""
        held = self.all_held()
        return work(), self.all_held() == held

    def test_replies_in_a_row(self):
        answer = self.ask(self.MODE, self.SET, (0, 3, [0x00FF]), (3, 3, own(0x0D, 7, 8)), (0, 3, []), self.MODE)
        self.assertEqual(answer, ("done", 6))
        self.assertEqual(self.replies(), [
            (3, sealed([0, 0x0020])), (END, []), (ERROR, []), (3, sealed([7, 8, 0x00E0])), (ABORT, []), (3, sealed([3, 0x00E0])),
        ])
        self.assertEqual((self.node.mode, self.node.amswire), (3, 1))

    def test_none(self):
        self.assertEqual(self.stays(self.ask), (("done", 0), True))
        self.lend(0)
        self.node = ZEROS
        self.assertEqual(self.stays(self.ask), (("done", 0), True))

    def test_as_the_calls_one_by_one(self):
        script, total = Script(9), 0
        for kind in (CDP, CDDC) * 12:
            script.fresh(kind, 4)
            self.node, self.lent = started(kind)
            self.lend(40000)
            beside, lent_beside = started(kind)
            for _ in range(3):
                packets = some_list(script, [0x21, 0x22], 40, 25)
                _, done = self.ask_words(in_a_row(packets).words(), 77)
                beside = self.one_by_one(packets[:done], beside, lent_beside)
                self.assertEqual(self.node, beside)
                for name in ("flash", "memories", "area", "qlist"):
                    self.assertEqual(getattr(self.lent, name), getattr(lent_beside, name))
                total += done
        self.assertGreater(total, 500)

    def one_by_one(self, packets, node, lent):
        """The node behind the calls of packets; their replies are those that a list of them left."""
        at = 0
        for words in (each.words() for each in packets):
            node, (_, bc, count) = request(node, lent, 77, words[0], words[1], 0, words[3:])
            self.assertEqual(self.lent.reply[at:at + 2 + count], [bc, count] + lent.reply[:count])
            at += 2 + count
        return node

    def test_a_file_in_packets(self):
        file = self.WRITE[2][1:]
        answer = self.ask((1, 2, own(0x45, *file[:2])), self.MODE, (1, 0, file[2:4]), (1, 1, file[4:]), (0, 3, own(0x05, 0x0420)))
        self.assertEqual(answer, ("done", 5))
        self.assertEqual([bc for bc, _ in self.replies()], [NEXT, 3, NEXT, END, 3])
        self.assertEqual(self.replies()[-1][1][:-2], file)

    def test_one_clock_for_all(self):
        self.assertEqual(self.ask((0, 3, own(0x0C)), (1, 3, own(0x0C)), now=0x54321), ("done", 2))
        self.assertEqual([words[3:6] for _, words in self.replies()], [[0x4321, 5, 0], [0x4321, 5, 1]])

    def stops(self, packet, before=()):
        """A list stops before a packet, behind others, and all is left as those before it leave it."""
        self.setUp()
        self.assertEqual(self.ask(*before), ("done", len(before)))
        held = self.all_held()
        self.setUp()
        self.assertEqual(self.ask(*before, packet, self.SET, self.WRITE), ("done", len(before)))
        self.assertEqual(self.all_held(), held)

    def test_it_stops(self):
        asks = ([0x0400, 1], [0x3F17, 1], [0x0040, 1], [0x0123, 0, 1], [0x002A, 1])
        others = [(4, 3, own(0x12)), (0xFFFF, 2, []), (0, 4, own(0x12)), (0, 7, own(0x12)), (0, 0x103, [])]
        for packet in [(0, 3, words) for words in asks] + others:
            for before in ((), (self.MODE,), ((0, 3, own(0x52, 1)), (0, 3, [0x00FF]), (0, 3, own(0x0C)))):
                self.stops(packet, before)

    def test_no_slave_to_ask(self):
        self.assertEqual(self.ask((0, 3, [0x0623, 0]), (0, 3, [0x0140, 1]), (0, 3, [0x0600, 1]), self.SET), ("done", 4))
        self.assertEqual([bc for bc, _ in self.replies()], [ABORT, ABORT, ABORT, END])

    def test_a_request_pending(self):
        pending = Pending(2, 5, 0)
        for front, left in (([], pending), ([(1, 2, []), (2, 3, [])], pending), ([(2, 2, [])], None)):
            self.setUp()
            self.node = replace(self.node, pending=pending)
            self.assertEqual(self.ask(*front, self.SET, self.MODE), ("done", len(front) + (2 if left is None else 0)))
            self.assertEqual((self.node.pending, self.node.mode), (left, 0 if left else 3))

    def test_room(self):
        for more, done in ((-self.ROOM, 0), (-1, 0), (0, 1), (4, 1), (5, 2), (6, 2), (7, 3)):
            self.setUp()
            self.lend(self.ROOM + more)
            self.assertEqual(self.ask(self.MODE, self.SET, self.MODE)[1], done)
            self.assertEqual(self.node.mode, 3 if done > 1 else 0)
            self.assertEqual(set(self.lent.reply[(0, 5, 7, 12)[done]:]) - {0xEEEE}, set())

    def test_a_reply_that_takes_all_of_it(self):
        self.lend(self.ROOM)
        self.assertEqual(self.ask((0, 3, own(0x11, 0x4000 | 12284, 0)), self.SET), ("done", 1))
        self.assertEqual((self.lent.reply[:2], self.node.mode), ([3, 12288], 0))
        self.assertEqual(self.lent.reply[-1], check_sequence(self.lent.reply[2:-1]))

    def test_past_the_end(self):
        good, stopping = row_of(self.SET, self.WRITE), row_of((0, 3, [0x0405, 1]))
        for front in ([], good, stopping, good + stopping + good, row_of((9, 9, []))):
            for rest in ([0], [0, 3], [0, 3, 1], [0, 3, 2, 0x122E], [0, 3, 0xFFFF], [0, 3, 0xFFFF, 1, 2], [9, 9, 1]):
                self.assertEqual(self.stays(lambda: self.ask_words(front + rest)), (("refused", 10), True))

    def test_refused_by_10_before_all_else(self):
        self.lent.area = []
        self.lend(0)
        for node in (self.node, ZEROS, replace(self.node, mode=4)):
            self.node = node
            self.assertEqual(self.stays(lambda: self.ask_words([0, 3])), (("refused", 10), True))

    def test_refused_alone(self):
        self.ask(self.MODE)
        for name, words in (("flash", []), ("area", [0] * 32767), ("qlist", [0] * 7 * 911), ("reply", [0] * 12289)):
            held = getattr(self.lent, name)
            setattr(self.lent, name, words)
            self.assertEqual(self.stays(lambda: self.ask(self.SET, (0, 2, []))), (("done", 0), True))
            setattr(self.lent, name, held)
        for node in (ZEROS, replace(self.node, mode=4), replace(self.node, listed=911), replace(self.node, write=Write(4, 0))):
            self.node = node
            self.assertEqual(self.stays(lambda: self.ask(self.SET, (0, 2, []))), (("done", 0), True))


class Captures(unittest.TestCase):
    """02, request 3, sentence by sentence."""

    def breaks(self, mask, words, place):
        """The words break at a place, None for not at all."""
        self.assertEqual(broken_at(mask, words), place, [hex(mask)] + ["%04X" % word for word in words[:40]])

    def one(self, fragment, place, slave=7, status=None):
        """A captured fragment of a sole slave, with a right end, that of a whole reply or of any other."""
        status = 0x0200 if status is None else status
        self.breaks(1 << slave, sealed([*fragment, status]), place)

    def test_fragments(self):
        self.one([0x0001, 0x2817], None, 23)
        self.one([0x0003, 0xAAAA, 0x0001, 0x81A7], None, status=0)
        self.one([0x0001, 0x8007], None, status=0)
        self.one([0x0001, 0x87E7], None, status=0)
        self.one([0x0003, 0x1234, 0xFFFF, 0x3007], None)
        self.one([0x0004, 0x0000, 0x0004, 0xAAAA, 0xA807], None)
        self.breaks(0xA0, sealed([0x0001, 0x1005, 0x0003, 0xAAAA, 0x0001, 0x81A7, 0x0200]), None)

    def test_a_length_word_is_judged_at_itself(self):
        for length in (0, 12286, 12287, 0x8000, 0xFFFF):
            self.one([length, 0x8007], 0)
            self.breaks(0x80, [length], 0)
        self.breaks(0x80, [12285], 1)
        self.breaks(0x180, [12280], 1)  # 12,281 words, five of the next fragment, status and FCS
        self.breaks(0x180, [12281], 0)
        self.breaks(0x180, [0x0001, 0x8007, 12283], 3)
        self.breaks(0x180, [0x0001, 0x8007, 12284], 2)
        self.breaks(0xFFFFFF, [12170], 1)
        self.breaks(0xFFFFFF, [12171], 0)

    def test_a_status_word_is_judged_at_itself(self):
        for status in (0x0007, 0x2806, 0x2827, 0x2C07, 0x3007, 0x3807, 0xA807, 0x8006, 0x8008, 0x8017, 0x8807):
            self.one([0x0001, status], 1)
        for status in (0x2807, 0x3006, 0x3407, 0x8807):
            self.one([0x0003, 0, 0, status], 3)
        for code in (4, 9, 11, 13, 14, 15):
            self.one([0x0004, 0, 4, 0, 0x8007 | code << 11], 4)
        for code in (1, 3, 5, 6, 7, 8, 10, 12):
            for bits in (0x0020, 0x0400):
                self.one([0x0004, 0, {3: 1, 10: 12287}.get(code, 4), 0, 0x8007 | code << 11 | bits], 4)
        self.one([0x0004, 0, 4, 0, 0xA827], 4)
        self.one([0x0005, 0, 4, 0, 0, 0xA807], 5)

    def test_code_against_reply_length(self):
        room = 12286
        limits = {1: (1, 0xFFFF), 3: (1, 1), 5: (2, 0xFFFF), 2: (room + 1, 0xFFFF)}
        limits |= {6: (1, room), 7: (1, room), 8: (2, 0xFFFF), 0xA: (room + 1, 0xFFFF), 0xC: (2, room), 9: (1, 0)}  # 02, request 8
        for code, (least, most) in limits.items():
            for n in (0, 1, 2, 3, 5, 6, room - 1, room, room + 1, 0xFFFE, 0xFFFF):
                self.one([4, 0x5555, n, 0xAAAA, 0x8007 | code << 11], None if least <= n <= most else 4)
        self.one([4, 0, room + 1, 0, 0x97E7], None)  # status bits with no room
        for n in (12281, 12282):  # with a slave more to ask
            for status, fits in ((0x9007, n > 12281), (0xB007, n <= 12281), (0xB807, n <= 12281), (0xD007, n > 12281), (0xE007, n <= 12281)):
                self.breaks(0x180, sealed([4, 0, n, 0, status, 1, 0x2808, 0x0200]), None if fits else 4)

    def test_nothing_is_judged_before_the_status_word(self):
        for words in ([4], [4, 0], [4, 0, 0], [4, 0, 0, 0]):
            self.breaks(1, words, len(words))
        self.one([0x0004, 0, 0, 0, 0x8007], None, status=0)

    def test_the_status_word_of_the_node(self):
        for bits in range(8):
            self.one([0x0001, 0x8007], None, status=bits << 6)
            self.one([0x0001, 0x2807], None, status=bits << 6 | 0x0200)
            self.one([0x0001, 0x8007], 2, status=bits << 6 | 0x0200)
            self.one([0x0001, 0x2807], 2, status=bits << 6)
        for bit in (0, 1, 2, 3, 4, 5, 10, 11, 12, 13, 14, 15):
            self.one([0x0001, 0x8007], 2, status=1 << bit)
        self.breaks(0x180, sealed([0x0001, 0x8007, 0x0001, 0x8008, 0x0000]), None)
        self.breaks(0x180, sealed([0x0001, 0x8007, 0x0001, 0x2808, 0x0000]), 4)

    def test_fcs_and_words_after_it(self):
        words = sealed([0x0002, 0xBEEF, 0x8007, 0x0000])
        for bit in range(16):
            self.breaks(0x80, words[:-1] + [words[-1] ^ 1 << bit], 4)
        self.breaks(0x80, words + [0], 5)
        self.breaks(0x80, words + words, 5)

    def test_a_reply_cut_short_names_its_own_length(self):
        words = sealed([0x0001, 0x1005, 0x0003, 0xAAAA, 0x0001, 0x81A7, 0x0200])
        for length in range(len(words)):
            self.breaks(0xA0, words[:length], length)

    def test_all_slaves_the_same_zero_length_reply_is_no_data(self):
        for code in (1, 2, 3, 4):
            self.one([1, code << 11 | 7], 1)
            same = [word for slave in range(24) for word in (1, code << 11 | slave)]
            self.breaks(0xFFFFFF, sealed(same + [0x0200]), 47)
            self.breaks(0xFFFFFF, same[:-1], 47)
            for other in (set(range(1, 6)) - {code}):
                self.breaks(0xFFFFFF, sealed(same[:-1] + [other << 11 | 23, 0x0200]), None)
        self.one([1, 0x2807], None)
        self.breaks(0xFFFFFF, sealed([word for slave in range(24) for word in (1, 0x2800 | slave)] + [0x0200]), None)

    def test_masks_and_no_words(self):
        right = sealed([0x0001, 0x2800, 0x0200])
        for mask in (0, 1 << 24, 0x1000001, 0xFFFFFFFF):
            for words in ([], right, sealed([0x0200]), sealed([0x0000])):
                self.breaks(mask, words, 0)
        self.breaks(1, [], 0)
        self.breaks(0xFFFFFF, [], 0)
        self.breaks(2, right, 1)
        self.breaks(3, right, 4)  # 0200 is a length word there

    def test_total_size(self):
        data = [0] * 12284
        self.breaks(1, sealed([12285, *data, 0x8000, 0]), None)
        self.breaks(1, sealed([12286, *data, 0, 0x8000, 0]), 0)
        words = [word for slave in range(24) for word in (510, *[slave] * 509, 0x8000 | slave)]
        words[23 * 511:] = [532, *[23] * 531, 0x8017]
        self.assertEqual(len(words), AREA - 2)
        self.breaks(0xFFFFFF, sealed(words + [0x01C0]), None)
        words[23 * 511:] = [533, *[23] * 532, 0x8017]
        self.breaks(0xFFFFFF, sealed(words + [0x01C0]), 23 * 511)

    def test_answers_that_yield_it_exist(self):
        """What is accepted, the node assembles from the answers that were found."""
        pick = random.Random(8)
        for _ in range(60):
            mask = pick.getrandbits(24) & pick.getrandbits(24) or 1
            slaves = [slave for slave in range(24) if mask >> slave & 1]
            parts = [(1, 0x2800), (1, 0x0800), (1, 0x2000), (3, 5, 6, 0x3000), (1, 0x8060), (4, 7, 8, 9, 0x8000), (2, 7, 0x87E0)]
            parts += [(4, 1, n, 3, 0x8000 | code << 11) for n in (1, 2, 0xFFFF) for code in (1, 3, 5, 2, 6, 7, 8, 0xA, 0xC)]
            words = [word for slave in slaves for part in [pick.choice(parts)] for word in part[:-1] + (part[-1] | slave,)]
            words = sealed(words + [0x0200 | pick.randrange(8) << 6])
            found = answered(mask, words, True)
            self.assertEqual(found is None, broken_at(mask, words) is not None)
            if found is not None:
                self.assertEqual(self.assembled(mask, found), words)

    def assembled(self, mask, found):
        """What a node assembles from answers, with the own status word behind them."""
        *given, status = found
        node, memories = started()
        node = replace(node, mode=status >> 6 & 3, start_tests=status & 0x0100)
        node, answer = request(node, memories, 0, 0, 3, 0, [mask << 8 & 0xFF00 | 0x23, mask >> 8, 0x0C2E])
        for packets in given:
            self.assertEqual(answer[0], "ask")
            for item in packets:
                now = 60 if item.late else 0
                node = replace(node, pending=replace(node.pending, at=0))
                rest = (item.bc, item.errors, item.rx_status, item.rx_address, item.words)
                node, answer = reply(node, memories, now, answer[1], *rest)
        return memories.reply[:answer[2]]


def every_answer(palette, front):
    """Every answer of a slave that is made of a palette, as a list of packets: its RX words, its first words up to `front` of them, its
    length, and what its length word would be, each any word of the palette; with every BC, bits 10-5 of its status word set or clear, its
    FCS right or wrong. In packets: its first word by itself, all words but the last, or all, and every way to go on."""
    for packet in every_packet(palette, front):
        yield [packet]
    for n, first in product([word for word in palette if word > 0], palette):
        words = sealed([first] + [0] * (n - 2)) if n > 1 else [first]
        for end in {1, max(n - 1, 1), n}:
            rest, wrong = words[end:], words[end:-1] + [words[-1] ^ 1]
            for rx_status in palette:
                before = answer_of(words[:end], 2, rx_status=rx_status)
                yield [before, answer_of(rest, late=True)]
                yield [before, answer_of(errors=True, rx_status=rx_status, rx_address=first)]
                for bc in range(4):
                    yield [before, answer_of(rest, bc, rx_status=rx_status)]
                yield [before, answer_of(wrong if rest else [], 1, rx_status=rx_status)]


def every_packet(palette, front):
    yield answer_of(late=True)
    for bc in (NEXT, ABORT, ERROR, END):
        yield answer_of(bc=bc)
    for rx_status, rx_address in product(palette, repeat=2):
        yield answer_of(errors=True, rx_status=rx_status, rx_address=rx_address)
    for n in sorted({word for word in palette if word > 0} | {word + 1 for word in palette if 0 < word < AREA}):
        for first in palette:
            for bits in (0x0000, 0x07E0):
                words = ([first] + [0] * n)[:max(n - 2, 1)] + [bits]
                right = sealed(words) if n > 2 else sealed([first])[:n]
                for rx_status, words in product(palette, (right, right[:-1] + [right[-1] ^ 1])):
                    for bc in range(4) if n > 1 else (0, 1, 2):
                        yield answer_of(words, bc, rx_status=rx_status)
                    if n == 1:
                        yield answer_of([first], rx_status=rx_status)
        for data in product(palette, repeat=min(n - 2, front)) if n > 1 else ():
            for bits in (0x0000, 0x07E0):
                yield answer_of(sealed([*data, *[0] * (n - 2 - len(data)), bits]))


def every_reply(slaves, palette, front, depth):
    """The first words, up to a depth, of every data reply that the slaves' answers of a palette make, and those that are whole by then.
    Past the depth slaves are late, for which there is always room, and which makes it data."""
    beginnings, wholes = set(), set()
    given = list(every_answer(palette, front))

    def keep(words):
        beginnings.update(words[:length] for length in range(min(len(words), depth) + 1))

    @lru_cache(maxsize=None)
    def fragments(place, built):
        laid = [fragment_of(slaves[place], packets, built, len(slaves) - 1 - place) for packets in given]
        return {(made[0], made[1], tuple(made[2][:depth])) for made in laid if made is not MORE}

    def go_on(place, words, tally):
        if len(words) >= depth and (place < len(slaves) or zero_length(tally) is None):
            keep(words)
        elif place < len(slaves):
            for dat, code, more in fragments(place, len(words)):
                go_on(place + 1, words + more, tally_with(tally, dat, code))
        elif zero_length(tally) is None:
            for bits in range(8):
                wholes.add(words + tuple(ending(list(words), tally, bits << 6 | 0x0020)))

    go_on(0, (), 0)
    for words in wholes:
        keep(words)
    return beginnings, wholes


class CapturesTried(unittest.TestCase):
    """02, request 3: the word named, against its definition over every reply of a palette."""

    def compare(self, slaves, palette, front, depth):
        pick = random.Random(9)
        beginnings, wholes = every_reply(slaves, palette, front, depth)
        mask = sum(1 << slave for slave in slaves)
        known = sorted(words for words in beginnings if set(words) <= set(palette))  # so that what goes on by the palette was made too
        short = sorted(reply for reply in wholes if len(reply) < depth)
        captures = [words for length in range(4) for words in product(palette, repeat=length)]
        for _ in range(200):
            words = pick.choice(known) + tuple(pick.choices(palette, k=pick.randrange(4)))
            captures.append(words[:front + 1 if max(palette) < AREA else depth])
        for words in pick.choices(short, k=50):
            captures += [words, words + (pick.choice(palette),), words[:-1] + (pick.choice(palette),)]
        for words in set(captures):
            place = next((at for at in range(len(words)) if words[:at + 1] not in beginnings), len(words))
            self.assertEqual(broken_at(mask, list(words)), None if words in wholes else place, [hex(word) for word in words])

    def test_a_sole_slave(self):
        for palette in ((0, 1, 4, 0xA805), (3, 4, 0x3005, 0x9005), (1, 4, 0x8805, 0x9805), (1, 2, 0x8005, 0xC805)):
            self.compare([5], palette, 3, 8)
        for palette in ((0, 1, 4, 0xB005), (0, 2, 4, 0xB805), (0, 1, 4, 0xC005), (0, 4, 0xD005), (0, 1, 4, 0xE005)):  # 02, request 8
            self.compare([5], palette, 3, 8)

    def test_two_slaves(self):
        for palette in ((1, 0x1005, 0x1006), (1, 0x2006, 0x2805)):
            self.compare([5, 6], palette, 4, 7)


class Salvage(unittest.TestCase):
    """02, request 14. A036 is the FCS of 0001 1234, as in README's image."""

    ONE = words_of("4003 9000 0001 1234 A036")  # a DM segment of three words
    BROKEN = words_of("4003 9000 0001 1234 A037")
    OTHER = words_of("8003 4000 0001 1234 A036")  # IO, which ignores its page
    BLANKS = [0xFFFF] * 4

    def comes_to(self, words, kept, how, new):
        """A sector, and the words that its new one begins with: all others are blank."""
        self.assertEqual(salvage_sector(words), (kept, how, new + [0xFFFF] * (len(words) - len(new))), words)

    def test_empty_and_good_sectors_go_over_unchanged(self):
        for words in ([0xFFFF], self.BLANKS):
            self.comes_to(words, 0, COPIED, words)
        for words in ([0x7421, *self.ONE], [0x7421, *self.ONE, *self.BLANKS]):
            self.comes_to(words, 1, COPIED, words)
        self.comes_to([0x7422, *self.ONE, *self.OTHER, *self.BLANKS], 2, COPIED, [0x7422, *self.ONE, *self.OTHER])

    def test_the_valid_segments_are_kept_in_order(self):
        for parts in product((self.ONE, self.OTHER, self.BROKEN), repeat=3):
            if self.BROKEN not in parts:
                continue
            held = [part for part in parts if part != self.BROKEN]
            words = [0x7423, *sum(parts, []), *self.BLANKS]
            new = [0x7420 | len(held), *sum(held, [])] if held else []
            self.comes_to(words, len(held), REDUCED if held else LOST, new)

    def test_what_stood_behind_the_file_goes(self):
        for behind in ([0x0000], [0xFFFF, 0xFFFE], self.ONE):
            self.comes_to([0x7421, *self.ONE, *behind], 1, REDUCED, [0x7421, *self.ONE])
            self.comes_to([0x7422, *self.BROKEN, *self.ONE, *behind], 1, REDUCED, [0x7421, *self.ONE])

    def test_type_and_count(self):
        for first in (0xB421, 0xF421, 0x7420, 0x742F):
            self.comes_to([first, *self.ONE, *self.BLANKS], 0, LOST, [])
        for count in range(1, 15):  # two zeros are a header of PM with length 0: it leads on, and is dropped
            self.comes_to([0x3210 | count, *self.ONE, *[0] * 2 * count], 1, REDUCED, [0x3211, *self.ONE])
        self.comes_to([0x321F, *self.ONE, *[0] * 30], 0, LOST, [])

    def test_a_length_that_is_not_permitted_is_followed(self):
        for part in ("0000 0000", "4000 0000", "4001 0000 FFFF", "8000 0000", "8001 0000 FFFF", "C002 0000 0001 1234"):
            self.comes_to([0x7422, *words_of(part), *self.ONE], 1, REDUCED, [0x7421, *self.ONE])
            self.comes_to([0x7422, *self.ONE, *words_of(part)], 1, REDUCED, [0x7421, *self.ONE])
            self.comes_to([0x7421, *words_of(part), *self.BLANKS], 0, LOST, [])

    def test_an_odd_program_length_is_not(self):
        for part in ("0001 0000", "0001 0000 FFFF", "0003 0000 0001 0002 0003 0004 0005"):
            self.comes_to([0x7422, *words_of(part), *self.ONE], 0, LOST, [])
            self.comes_to([0x7422, *self.ONE, *words_of(part)], 0, LOST, [])

    def test_each_rule_of_a_segment(self):
        for part in ("0002 0000 AABB CC01", "0002 4000 AABB CC00"):  # a byte that is not zero, a page that there is not
            body = words_of(part)[2:]
            self.comes_to([0x7422, *words_of(part), fcs(body), *self.ONE], 1, REDUCED, [0x7421, *self.ONE])
        program = [*words_of("0002 8000 AABB CC00"), fcs([0xAABB, 0xCC00])]
        self.comes_to([0x7422, *self.BROKEN, *program], 1, REDUCED, [0x7421, *program])
        self.comes_to([0x7422, 0x4003, 0x5000, *self.ONE[2:], *self.OTHER], 1, REDUCED, [0x7421, *self.OTHER])

    def test_a_header_that_leads_out(self):
        for last in (self.ONE[:1], self.ONE[:2], self.ONE[:4], [0x4006, *self.ONE[1:]], [0xFFFF] * 2):
            self.comes_to([0x7422, *self.BROKEN, *last], 0, LOST, [])
            self.comes_to([0x7423, *self.ONE, *self.BROKEN, *last], 0, LOST, [])
            self.comes_to([0x7422, *self.ONE, *last], 0, LOST, [])
        self.comes_to([0x7422, *self.ONE, 0x4005, *self.ONE[1:], 0xFFFF, 0xFFFF], 1, REDUCED, [0x7421, *self.ONE])  # to the end
        self.comes_to([0x7422, *self.ONE, *self.BLANKS], 0, LOST, [])  # blank words are a header too, of 16,383 words

    def test_a_header_of_blank_words_is_followed(self):
        body = [0x1234] * 16382
        for end, held in ((check_sequence(body), 1), (check_sequence(body) ^ 1, 0)):
            part = [0xFFFF, 0xFFFF, *body, end]
            sector = [0x7423, *self.BROKEN, *part, *self.ONE]
            sector += [0xFFFF] * (32768 - len(sector))
            self.comes_to(sector, held + 1, REDUCED, [0x7421 + held, *part * held, *self.ONE])

    def test_what_is_written(self):
        """Of every stored sector: the new one is empty or good, its segments are some of the old one's, and a second run changes nothing."""
        for line in sectors().splitlines():
            words = words_of(line)
            count, how, new = salvage_sector(words)
            self.assertEqual(len(new), len(words))
            self.assertNotEqual(judged(tuple(new))[0], BAD)
            self.assertEqual(salvage_sector(new), (count, COPIED, new))
            if how == REDUCED:
                self.assertEqual((new[0] >> 4, new[0] & 15), (words[0] >> 4, count))
                held = iter([words[at:past] for at, past in spans(words)])
                self.assertTrue(all(new[at:past] in held for at, past in spans(new)))  # in order: what was passed is not found again

    def test_flashes(self):
        for size in (BENCH, 262144):
            first, second = [0xFFFF] * size, [0xFFFF] * size
            first[:size // 16] = [0x1234] * (size // 16)  # sectors 0 to 2 are not looked at
            store(first, 3, [0x7421, *self.ONE])
            store(first, 5, [0x7421, *self.ONE])
            store(first, 6, [0x7422, *self.BROKEN, *self.ONE])
            store(first, 10, [0x7421, *self.BROKEN])
            before = list(first)
            hows = {3: (1, COPIED), 5: (1, COPIED), 6: (1, REDUCED), 10: (0, LOST)}
            refused, lines, new = salvage(first, second)
            self.assertEqual((refused, lines), (0, [(sector, *hows.get(sector, (0, COPIED))) for sector in SECTORS]))
            self.assertEqual((first, set(new[:size // 16])), (before, {0xFFFF}))
            self.assertEqual(words_in(new, 3), words_in(new, 5)[:size // 16])  # a doubled name goes over
            self.assertEqual(words_in(new, 6)[:8], [0x7421, *self.ONE, 0xFFFF, 0xFFFF])
            self.assertEqual(set(words_in(new, 10)), {0xFFFF})
            self.assertEqual(salvage(new, second), (0, [(sector, kept, COPIED) for sector, kept, _ in lines], new))

    def test_refusals(self):
        for size in (0, 1, BENCH - 1, BENCH + 1, 262143):
            self.assertEqual(salvage([0xFFFF] * size, [0xFFFF] * size), (1, [], [0xFFFF] * size))
        flash = [0xFFFF] * BENCH
        for size in (0, BENCH - 1, BENCH + 1, 262144):
            self.assertEqual(salvage(flash, [0xFFFF] * size), (12, [], [0xFFFF] * size))
        for at in (0, 2047, 2048, BENCH - 1):
            second = flash[:at] + [0x7FFF] + flash[at + 1:]
            self.assertEqual(salvage(flash, second), (12, [], second))
            self.assertEqual(salvage(flash[1:], second), (1, [], second))


if __name__ == "__main__":
    unittest.main()
