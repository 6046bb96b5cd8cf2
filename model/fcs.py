"""The check sequence of section 16 of the note, worked out with whole numbers: the run is one large binary number, and its FCS is
the remainder of one polynomial division. No table, no register, nothing shared with the code that it tests."""

POLYNOMIAL = (1 << 16) | (1 << 12) | (1 << 5) | 1  # x^16 + x^12 + x^5 + 1


def remainder(number):
    """The remainder of a polynomial over GF(2), its coefficients the bits of a number."""
    while number.bit_length() > 16:
        number ^= POLYNOMIAL << (number.bit_length() - 17)
    return number


def fcs(words, start=0xFFFF):
    """The check sequence of a run of words, high byte first, most significant bit first. A start value is added to the first
    sixteen bits of the run, which has sixteen zero bits behind it: that is what a register with that start works out."""
    message = 0
    for word in words:
        message = (message << 16) | word
    return remainder((message << 16) ^ (start << (16 * len(words))))
