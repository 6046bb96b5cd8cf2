"""Vectors of the check sequence: a line of words; its FCS, and the same continued from the middle of the run."""

import random

from fcs import fcs
from words import line_of, words_of


def inputs():
    pick = random.Random(16)
    runs = [[]]
    for length in [*range(1, 33), 63, 64, 65, 127, 128, 129, 255, 256, 257, 511, 512, 1023, 1024, 2048, 4095, 4096]:
        runs.append([pick.randrange(65536) for _ in range(length)])
    for word in (0x0000, 0xFFFF, 0x8000, 0x0001, 0x00FF, 0xFF00):
        for length in (1, 2, 3, 17, 4096):
            runs.append([word] * length)
    for bit in range(16):  # one bit in a run of zeros: each column of the division alone
        runs.append([0, 0, 1 << bit, 0, 0])
    for _ in range(240):
        runs.append([pick.randrange(65536) for _ in range(pick.randrange(1, 120))])
    return "".join(line_of(run) for run in runs)


def outputs(stdin):
    lines = []
    for line in stdin.splitlines():
        words = words_of(line)
        middle = len(words) // 2
        lines.append("%04x %04x\n" % (fcs(words), fcs(words[middle:], fcs(words[:middle]))))
    return "".join(lines)
