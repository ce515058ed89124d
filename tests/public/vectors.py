"""Public binary32 and binary64 vectors: what the scripts of this folder share,
and the reader of its .txt files.

A line of a .txt file is a call and its published answer; # starts a comment.

    b operation rounding bits status | refusal bits status      binary32
    B operation rounding bits status | refusal bits status      binary64

The lines of binary64 stand in the files whose names end in 64. bits are 8 or 16
upper-case hexadecimal digits, the other numbers decimal. The status given is 0,
except where a source leaves a flag open: then that flag is given as raised, and
being sticky it is raised in the answer whatever the call does. Any NaN of a
source is written 7FC00000 or 7FF8000000000000, as documents 01 and 02 have it.
"""

import re
from fractions import Fraction
from pathlib import Path

HERE = Path(__file__).resolve().parent

RECIPROCAL, ROOT, INVERSE_ROOT = 1, 2, 3
NEAREST, UP, DOWN, TOWARD_ZERO = 0, 1, 2, 3
INVALID, DIVISION_BY_ZERO, OVERFLOW, UNDERFLOW, INEXACT = 1, 2, 4, 8, 16

HEXADECIMAL = re.compile(r"-?0x([0-9a-f]+)\.?([0-9a-f]*)p([+-]\d+)")


def value(text):
    """The number that a hexadecimal float stands for, or None."""
    parts = HEXADECIMAL.fullmatch(text)
    if not parts:
        return None
    digits, behind, exponent = parts.groups()
    number = int(digits + behind, 16) * Fraction(2)**(int(exponent) - 4 * len(behind))
    return -number if text.startswith("-") else number


class Format:
    """A format of so many bits of exponent and of fraction. letter starts its
    lines, and ending stands behind the names of its files."""

    def __init__(self, letter, ending, exponent, fraction):
        self.letter, self.ending, self.fraction = letter, ending, fraction
        self.name = "binary%d" % (1 + exponent + fraction)
        self.digits = (1 + exponent + fraction) // 4
        self.sign = 2**(exponent + fraction)
        self.infinity = self.sign - 2**fraction
        self.the_nan = self.infinity + 2**(fraction - 1)
        self.bias = 2**(exponent - 1) - 1
        self.places = self.bias + fraction - 1      # 2**-places is the least number above 0

    def pattern(self, number):
        """The pattern of a number, or None where it is none of this format."""
        units = abs(number) * 2**self.places
        if units.denominator != 1 or units >= 2**(self.places + self.bias + 1):
            return None
        shift = max(units.numerator.bit_length() - self.fraction - 1, 0)
        if units.numerator % 2**shift:
            return None
        return (self.sign if number < 0 else 0) + (shift << self.fraction) + (units.numerator >> shift)

    def bits_of(self, text):
        """The pattern of a hexadecimal float, of either zero too."""
        bits = self.pattern(value(text))
        return bits | self.sign if text.startswith("-") and bits == 0 else bits


BINARY32 = Format("b", "", 8, 23)
BINARY64 = Format("B", "64", 11, 52)


def power(format, x, y):
    """The operation and the operand whose exact result is x to the y, for an x
    that is not 0, or None. Left out are exponents past the format's places, with
    which only 1 and -1 have a power of the format."""
    if y == Fraction(1, 2):
        return ROOT, x
    if y == Fraction(-1, 2):
        return INVERSE_ROOT, x
    if y.denominator == 1 and -format.places <= y < 0:
        return RECIPROCAL, x**-int(y)
    return None


class Lines:
    """The calls of a file of a format in their order, each once."""

    def __init__(self, format):
        self.format, self.answers = format, {}

    def add(self, operation, rounding, bits, free, answer, flags):
        """free are the flags that the source leaves open, flags those that it
        raises. Of two lines for a call the one with fewer free flags is kept."""
        call = operation, rounding, bits
        if call in self.answers:
            free_before, answer_before, flags_before = self.answers[call]
            if answer != answer_before or (flags ^ flags_before) & ~(free | free_before):
                raise ValueError("two answers for %d %d %X" % call)
            if free | free_before == free:
                return
        self.answers[call] = free, answer, flags

    def write(self, name, about):
        """name is that of the file before the format's ending."""
        name += self.format.ending + ".txt"
        letter, digits = self.format.letter, self.format.digits
        with open(HERE / name, "w") as file:
            for line in about:
                file.write("# %s\n" % line)
            for (operation, rounding, bits), (free, answer, flags) in self.answers.items():
                file.write("%s %d %d %0*X %d | 0 %0*X %d\n" % (
                    letter, operation, rounding, digits, bits, free, digits, answer, free | flags))
        print("%s: %d lines" % (name, len(self.answers)))


def lines_of(format):
    """Every line of every .txt file of a format here: (operation, rounding, bits,
    status) and (refusal, bits, status)."""
    for path in sorted(HERE.glob("*.txt")):
        if path.stem.endswith(BINARY64.ending) != (format is BINARY64):
            continue
        for line in path.read_text().splitlines():
            if not line.startswith("#"):
                letter, operation, rounding, bits, status, bar, refusal, answer, after = line.split()
                if (letter, bar) != (format.letter, "|"):
                    raise ValueError("%s: %s" % (path, line))
                yield ((int(operation), int(rounding), int(bits, 16), int(status)),
                       (int(refusal), int(answer, 16), int(after)))


def published():
    """The lines of binary32."""
    return lines_of(BINARY32)


def published64():
    """The lines of binary64."""
    return lines_of(BINARY64)
