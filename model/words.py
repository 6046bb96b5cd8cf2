"""The form of a stored line: words of four hex digits, one space between them; the rule by which a line can stand for a long run;
and one word that stands for a run that is too long to print."""

from functools import lru_cache
from operator import mul


def line_of(words):
    return " ".join("%04X" % word for word in words) + "\n"


def words_of(line):
    return [int(word, 16) for word in line.split()]


@lru_cache(maxsize=64)
def run_of(word, count):
    """A run that begins with a word: each next one is the one before times 25,173 plus 13,849, modulo 65,536."""
    run = []
    for _ in range(count):
        run.append(word)
        word = (word * 25173 + 13849) % 65536
    return tuple(run)


MULTIPLIER, PRIME = 17, 65521  # every number below the prime but 0 is a power of 17
LONGEST = 262160  # words
POWERS = [pow(MULTIPLIER, exponent, PRIME) for exponent in reversed(range(LONGEST))]


def digest(words):
    """One word for a run: from 1 on, for each word times 17 plus the word, modulo 65,521. It is no check sequence: a run that ends
    with its own FCS has the same FCS whatever it says."""
    return (pow(MULTIPLIER, len(words), PRIME) + sum(map(mul, words, POWERS[LONGEST - len(words):]))) % PRIME
