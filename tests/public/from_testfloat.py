"""Writes softfloat.txt: operands of Berkeley TestFloat with Berkeley SoftFloat's
answers, as TestFloat's program testfloat_gen prints them.

    python3 tests/public/from_testfloat.py target/softfloat/testfloat_gen "qemu 1:7.2+dfsg-7+deb12u18"

tests/softfloat/build makes testfloat_gen. The second word names the source in
the file. A line of it is operands, answer and flags, all hexadecimal.
"""

import subprocess
import sys

sys.dont_write_bytecode = True

import vectors
from vectors import BINARY32, RECIPROCAL, ROOT

ROUNDINGS = {"-rnear_even": vectors.NEAREST, "-rmax": vectors.UP, "-rmin": vectors.DOWN,
             "-rminMag": vectors.TOWARD_ZERO}

# SoftFloat's flags.
FLAGS = {1: vectors.INEXACT, 2: vectors.UNDERFLOW, 4: vectors.OVERFLOW,
         8: vectors.DIVISION_BY_ZERO, 16: vectors.INVALID}

ONE = 0x3F800000


def generated(program, rounding, function):
    """Numbers of each line of a function in a rounding, at TestFloat's level 1."""
    words = [program, "-level", "1", "-tininessbefore", rounding, function]
    text = subprocess.run(words, check=True, stdout=subprocess.PIPE, text=True).stdout
    return [[int(word, 16) for word in line.split()] for line in text.splitlines()]


def kept(operation, rounding, bits):
    """A negative number's root is the same NaN in each rounding: nearest does."""
    return operation == RECIPROCAL or rounding == vectors.NEAREST or bits <= BINARY32.sign


ABOUT = [
    "the operands of TestFloat's level 1 for f32_sqrt, and for f32_div where the dividend is 1; the answers are SoftFloat's,",
    "which finds tininess before rounding and has the NaN 7FC00000. Left out: other dividends, and negative operands of a root",
    "in roundings other than nearest. A call that is made more than once is here once.",
]


def main():
    if len(sys.argv) != 3:
        sys.exit("usage: from_testfloat.py PROGRAM PACKAGE")
    lines = vectors.Lines(BINARY32)
    for option, rounding in ROUNDINGS.items():
        calls = [(RECIPROCAL, b, answer, flags)
                 for a, b, answer, flags in generated(sys.argv[1], option, "f32_div") if a == ONE]
        calls += [(ROOT, *words) for words in generated(sys.argv[1], option, "f32_sqrt")]
        for operation, bits, answer, flags in calls:
            if kept(operation, rounding, bits):
                raised = sum(flag for bit, flag in FLAGS.items() if flags & bit)
                lines.add(operation, rounding, bits, 0, answer, raised)
    lines.write("softfloat", ["From Berkeley TestFloat and SoftFloat 3e in Debian's %s:" % sys.argv[2]] + ABOUT)


if __name__ == "__main__":
    main()
