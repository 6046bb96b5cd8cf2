"""What host/audit must print of an image, worked out by the model: how its bytes are read, which rule of 01 'Files and memories' it
breaks, and what the node answers to it; and of a flash, what its directory has, which rule a bad sector breaks, and which sectors share a name
(01 'Flash'; 02, requests 5, 6 and 10). The words of the report are those that host/audit --help tells."""

import re

from files import BYTES, MEMORIES, PAGES, PM, file_length, may_start, name_of, permitted, unpacked
from flash import BAD, BLANK, EMPTY, GOOD, SECTORS, SIZES, address_of, afresh, extent, kept, words_in
from group import ABORT, AREA, END, NEXT
from node import CDP, JOINED, Lent, erase, request, start
from runs import check_sequence

BENCH, FULL = SIZES
HOLDS = {
    BENCH: "a bench flash holds eight files, one of at most 2,048 and seven of at most 4,096 words",
    FULL: "a full flash holds eight files, one of at most 16,384 and seven of at most 32,768 words",
}
IN_FULL = "a full flash has room for it (--size full)"
READ = 12286  # words of a file that File Read answers, at most
IN_FLASH = "compared in the flash, not read back: File Read answers at most 12,286 words"
LENGTHS = {"PM": "an even length, 2 or more", "DM": "a length of 2 or more", "IO": "an odd length, 3 or more"}
LONGEST = 1 << 20  # bytes that are read
AGREES = "AGREES"


class Unreadable(Exception):
    """Bytes that are no words."""


# Reading.


def is_text(data):
    return re.fullmatch(rb"[\x20-\x7E\t\n\v\f\r]+", data) is not None


def is_wide(data):
    """UTF-16: a byte-order mark with ASCII behind it, or no mark and ASCII alone."""
    if len(data) < 4 or len(data) % 2:
        return False
    if data[:2] in (b"\xFF\xFE", b"\xFE\xFF"):
        return is_text(data.decode("utf-16", "replace")[:1].encode("ascii", "replace")) and 0 in data[2:4]
    zeros, others = (data[1::2], data[::2]) if data[1] == 0 else (data[::2], data[1::2])
    return set(zeros) == {0} and is_text(others)


def kind_of_text(data):
    """What bytes are that are no ASCII but look like hex text, or None: a byte-order mark or UTF-16 tells it, or a first word in hex."""
    if is_wide(data):
        return "text in UTF-16"
    if data.startswith(b"\xEF\xBB\xBF"):
        return "text with a byte-order mark"
    if re.search(rb"[\x00-\x08\x0E-\x1F\x7F]", data):
        return None
    first = re.match(rb"(?:\s|#[^\r\n]*)*([^\s#]*)", data).group(1)
    return "hex text with characters that are not in ASCII" if re.fullmatch(rb"[0-9A-Fa-f]{4}", first) else None


def raw_words(data):
    if len(data) % 2:
        raise Unreadable("%d bytes; a raw word has two, so one is missing or left over" % len(data))
    return [low | high << 8 for low, high in zip(data[::2], data[1::2])]


def hex_words(data):
    words = []
    for number, line in enumerate(re.split("\r\n|\r|\n", data.decode("ascii")), 1):
        for word in line.split("#")[0].split():
            if not re.fullmatch("[0-9A-Fa-f]{4}", word):
                shown = word if len(word) <= 12 else word[:12] + ".."
                raise Unreadable("line %d: '%s' is no word of four hex digits; for raw words give --raw" % (number, shown))
            words.append(int(word, 16))
    return words


def words_of(data):
    """The words of an image."""
    if not is_text(data):
        kind = None if len(data) % 2 == 0 and broken_rule(raw_words(data)) is None else kind_of_text(data)
        if kind and data:
            raise Unreadable("%s; to have it read as hex text give --hex, as raw words --raw" % kind)
        return raw_words(data)
    words = hex_words(data)
    if len(data) % 2 == 0 and broken_rule(raw_words(data)) is None:
        raise Unreadable("a valid file as raw words, and hex text too; say which by --raw or --hex")
    return words


# The rules.


def segment_rule(words, at, which, whole):
    """The rule that the segment at a place breaks, or None; and the place past it. The words are those of a whole, an image or a sector."""
    missing = at + 2 - len(words)
    if missing > 0:
        return "word %d: the %s ends in %s; header words missing: %d" % (len(words), whole, which, missing), None
    memory, length, page = MEMORIES[words[at] >> 14], words[at] & 0x3FFF, words[at + 1] >> 14
    if not permitted(memory, length):
        return "word %d: %s is %s of length %d; %s has %s" % (at, which, memory, length, memory, LENGTHS[memory]), None
    if memory in (PM, "DM") and page not in PAGES:
        return "word %d: %s is %s with page 01; a page is 00, 10 or 11" % (at + 1, which, memory), None
    past = at + 2 + length * BYTES[memory] // 2
    if past > len(words):
        return "word %d: the %s ends in %s; body words missing: %d" % (len(words), whole, which, past - len(words)), None
    body = words[at + 2:past]
    last = unpacked(memory, body, length)[-1]
    if last >> 16:
        return "word %d: %s has the byte %02X before its FCS; PM has a zero byte there" % (past - 2, which, last >> 16), None
    if last != check_sequence(body[:-1]):
        return "word %d: %s has the FCS %04X; its body's is %04X" % (past - 1, which, last, check_sequence(body[:-1])), None
    return None, past


def broken_rule(words):
    """The first rule that keeps words from being a valid file and no word more, or None."""
    rule = first_broken(words)
    assert (rule is None) == (file_length(words) == len(words)), words[:20]
    return rule


def first_broken(words):
    rule, end = walked(words, "image")
    if rule is None and end < len(words):
        count = words[0] & 15
        return "word %d: the file ended with segment %d of %d; words left over: %d" % (end, count, count, len(words) - end)
    return rule


def walked(words, whole):
    """The first rule that keeps a valid file from beginning the words, or None; and the place past it."""
    if not words:
        return "word 0: there are no words; a file begins with a header word", None
    kind, count = words[0] >> 14, words[0] & 15
    if kind > 1:
        return "word 0: header %04X has type %s; a file has type 00 (program) or 01 (data)" % (words[0], format(kind, "02b")), None
    if not may_start(words[0]):
        return "word 0: header %04X has %d segments; a file has 1 to 14" % (words[0], count), None
    at = 1
    for number in range(1, count + 1):
        rule, at = segment_rule(words, at, "segment %d of %d" % (number, count), whole)
        if rule:
            return rule, None
    return None, at


def sector_rule(words):
    """The rule that makes a sector bad, or None where it is empty or good: 01 'Flash'; 02, request 5."""
    cleared = [at for at, word in enumerate(words) if word != BLANK]
    if cleared and cleared[0] > 0:
        at = cleared[0]
        return "word %d: %04X stands in a sector without a file; all its words should be FFFF" % (at, words[at])
    rule, end = walked(words, "sector") if cleared else (None, len(words))
    behind = [at for at in cleared if rule is None and at >= end]
    if behind:
        at = behind[0]
        return "word %d: %04X stands behind the file, which has %d words; all words there should be FFFF" % (at, words[at], end)
    return rule


# Sectors, and the options that erase them, as text.


def sectors_text(sectors):
    *front, last = map(str, sectors)
    return "sectors %s and %s" % (", ".join(front), last) if front else "sector " + last


def erasures_text(sectors):
    return ", ".join("--erase-sector %d" % sector for sector in sectors)


# The node.


class Bench:
    """A node on a flash, as host/audit has it."""

    def __init__(self, flash=None, size=BENCH):
        self.lent = Lent(flash or [BLANK] * size, {"PM": [], "DM": [], "IO": []}, [0] * JOINED, [], [0] * AREA, [0] * AREA)
        self.node, answer = start(CDP, 1, 0, 0, 0, 0, 0, self.lent.flash)
        assert answer == ("started",)

    @property
    def holds(self):
        return HOLDS[len(self.lent.flash)]

    def packet(self, bc, words):
        self.node, answer = request(self.node, self.lent, 0, 0, bc, 0, words)
        assert answer[0] == "reply"
        return answer[1:]

    def command(self, number, *parameters):
        return self.packet(3, [number << 8 | 0x2E, *parameters])

    def write(self, words):
        """File Write, in packets as long as they may be where one is too short for it: the first answer that isn't NEXT."""
        if len(words) < 8192:
            return self.command(0x45, *words)
        answer, at = self.packet(2, [0x452E, *words[:8191]]), 8191
        while answer == (NEXT, 0):
            answer, at = self.packet(int(at + 8192 >= len(words)), words[at:at + 8192]), at + 8192
        return answer

    def named(self, name):
        """The sectors that have a name: whose first word can begin a file and has it."""
        firsts = {sector: kept(list(self.node.directory), sector)[0] for sector in SECTORS}
        return [sector for sector, first in firsts.items() if may_start(first) and name_of(first) == name]

    def refusal(self, words):
        """Why a valid file was refused."""
        name = name_of(words[0])
        holders = self.named(name)
        if len(words) > len(extent(len(self.lent.flash), 10)):
            return "TOO-LARGE", "%d words; %s; %s" % (len(words), self.holds, IN_FULL)
        if len(holders) > 1:
            erasing = "erase them first (%s), or audit this image alone" % erasures_text(holders)
            return "NAME-USED", "%s have this name; %s" % (sectors_text(holders), erasing)
        if holders:
            rule = self.rule(holders[0])
            bad = ", and is bad (%s)" % rule if rule else ""
            erasing = "erase it first (--erase %02X), or audit this image alone" % name
            return "NAME-USED", "sector %d has this name%s; %s" % (holders[0], bad, erasing)
        erasing = "erase a file first (--erase NAME), or audit this image alone"
        return "NO-ROOM", "no empty sector has room for %d words; %s" % (len(words), erasing)

    def verdict(self, words):
        """Sector, verdict and detail."""
        bc, _ = self.write(words)
        if len(words) > JOINED:
            assert bc == ABORT
            return None, "TOO-LARGE", "%d words; File Write takes at most 32,768, in several packets; %s" % (len(words), self.holds)
        if bc == ABORT:
            rule = broken_rule(words)
            return (None, "INVALID", rule) if rule else (None, *self.refusal(words))
        sector, = self.named(name_of(words[0]))
        if len(words) > READ:
            assert self.command(0x05, words[0]) == (ABORT, 0) and words_in(self.lent.flash, sector)[:len(words)] == words
            return sector, AGREES, IN_FLASH
        assert self.command(0x05, words[0]) == (END, len(words) + 2) and self.lent.reply[:len(words)] == words
        return sector, AGREES, None

    def line(self, path, data):
        """The line of an image, with its verdict; data is None where there is no such file."""
        try:
            if data is None:
                raise Unreadable("No such file or directory")
            if len(data) > LONGEST:
                return [path, "-", "-", "-", "-", "TOO-LARGE", "more than 1,048,576 bytes, not read on; " + self.holds]
            words = words_of(data)
        except Unreadable as cause:
            return [path, "-", "-", "-", "-", "UNREADABLE", str(cause)]
        sector, verdict, detail = self.verdict(words)
        name = "%02X" % name_of(words[0]) if words else "-"
        fields = [path, name, str(sector or "-"), str(len(words)), "%04X" % check_sequence(words), verdict]
        return fields + ([detail] if detail else [])

    def erased(self, sector):
        """The line of an erasure."""
        assert self.command(0x47, address_of(sector)) == (END, 0)
        self.node, (_, count) = erase(self.node, self.lent.flash, 32768)
        return "# erased: sector %d, %d words\n" % (sector, count)

    def rule(self, sector):
        """The rule that a bad sector breaks, or None."""
        rule = sector_rule(words_in(self.lent.flash, sector))
        assert (rule is not None) == (afresh(self.lent.flash, sector)[0] == BAD), (sector, rule)
        return rule

    def shared(self, sector):
        """What is said of a sector that shares its name, or None (02, request 10)."""
        first = kept(list(self.node.directory), sector)[0]
        sharing = self.named(name_of(first)) if may_start(first) else []
        if len(sharing) < 2:
            return None
        by_name = [(0x05, first), (0x06, first), (0x46, first), (0x47, first), (0x48, first, 0)]
        assert all(self.command(*command) == (ABORT, 0) for command in by_name)
        others = sectors_text([other for other in sharing if other != sector])
        told = "shares the name %02X with %s, so commands by it are answered ABORT; erase all but one of them (%s)"
        return told % (name_of(first), others, erasures_text(sharing))

    def details(self):
        """What is wrong with each sector that has something wrong, and what to do."""
        told = {}
        for sector in SECTORS:
            rule, shared = self.rule(sector), self.shared(sector)
            parts = ["%s; erase the sector (--erase-sector %d)" % (rule, sector)] if rule else []
            told[sector] = "; ".join(parts + ([shared] if shared else []))
        return {sector: detail for sector, detail in told.items() if detail}

    def entry(self, sector):
        """First word, status and length of a sector, by the directory; the length is 0 unless it is good (02, request 6)."""
        first, _, _, length = kept(list(self.node.directory), sector)
        status, words = afresh(self.lent.flash, sector)[0], words_in(self.lent.flash, sector)
        assert status in (EMPTY, GOOD, BAD) and words[0] == first
        assert length == (file_length(words) if status == GOOD else 0)
        return first, status, length

    def table(self):
        """The directory."""
        lines, details = ["# sector\tname\ttype\tattribute\twords\tstatus\tdetail\n"], self.details()
        for sector in SECTORS:
            first, status, length = self.entry(sector)
            told = ["-", "-", "-"]
            if may_start(first):
                told = ["%02X" % name_of(first), ("program", "data")[first >> 14], "default" if first >> 12 & 3 == 2 else "plain"]
            detail = [details[sector]] if sector in details else []
            lines.append("\t".join([str(sector), *told, str(length or "-"), status, *detail]) + "\n")
        return "".join(lines)

    def wrong(self):
        """What is wrong in the directory, where the table isn't asked for."""
        return "".join("# sector %d, %s: %s\n" % (sector, self.entry(sector)[1], detail) for sector, detail in self.details().items())


# Whole reports.

ORDER = ("DIFFERS", "INVALID", "TOO-LARGE", "NAME-USED", "NO-ROOM", "UNREADABLE", "DISPUTED")


def total(verdicts):
    """The last line."""
    agree = verdicts.count(AGREES)
    told = "# %d image%s: %d agree%s" % (len(verdicts), "" if len(verdicts) == 1 else "s", agree, "s" if agree == 1 else "")
    others = ["%d %s" % (verdicts.count(verdict), verdict) for verdict in ORDER if verdict in verdicts]
    return "; ".join([told] + ([", ".join(others)] if others else []))


def lines_and_total(lines):
    return "".join("\t".join(line) + "\n" for line in lines) + total([line[5] for line in lines]) + "\n"


def report(images, bench=None, size=BENCH):
    """On images, each a path and its bytes: on a blank flash of a size each, or all in one."""
    return lines_and_total([(bench or Bench(size=size)).line(path, data) for path, data in images])


def each_word_wrong(path, data):
    """On an image that is audited as often as it has words, each time with the lowest bit of the next one wrong in what is read."""
    fields, words = Bench().line(path, data), words_of(data)
    details = ["word %d: signed %04X, read %04X" % (at, word, word ^ 1) for at, word in enumerate(words)]
    return lines_and_total([fields[:5] + ["DIFFERS", detail] for detail in details])
