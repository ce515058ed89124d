"""Writes glibc_sqrt.txt, glibc_rsqrt.txt and glibc_reciprocal.txt, and the same
with 64 for binary64, from the tables of the GNU C library's tests.

    python3 tests/public/from_glibc.py FOLDER "glibc-source 2.43-7"

FOLDER is math/ of the library's source: Debian's package glibc-source has it in
/usr/src/glibc/glibc-2.43.tar.xz. The second word names the source in the files.
Only operands, roundings, answers and flags are taken.

auto-libm-test-out-*   lines "= function rounding format operands : answer : flags",
                       as math/gen-auto-libm-tests.c describes them
libm-test-*.inc        special operands, the same in every rounding
"""

import re
import sys
from pathlib import Path

sys.dont_write_bytecode = True

import vectors
from vectors import BINARY32, BINARY64, INVERSE_ROOT, RECIPROCAL, ROOT

ROUNDINGS = {"tonearest": vectors.NEAREST, "upward": vectors.UP,
             "downward": vectors.DOWN, "towardzero": vectors.TOWARD_ZERO}

FLAGS = {"invalid": vectors.INVALID, "divbyzero": vectors.DIVISION_BY_ZERO,
         "overflow": vectors.OVERFLOW, "underflow": vectors.UNDERFLOW,
         "inexact": vectors.INEXACT}

# Conditions of a flag. Document 01 finds tininess before rounding; the others
# speak of the format ibm128.
CONDITIONS = {"before-rounding": True, "after-rounding": False,
              "arg-ibm128": False, "ibm128-libgcc": False}


def flags_of(words):
    """The flags that a line raises, and those that it leaves open ("-ok")."""
    raised = free = 0
    for word in words:
        name, *conditions = word.split(":")
        if not all([CONDITIONS[condition] for condition in conditions]):
            continue
        if name.startswith("errno-"):           # C's error number
            continue
        if name.endswith("-ok"):
            free |= FLAGS[name[:-3]]
        else:
            raised |= FLAGS[name]
    return raised & ~free, free


def same_result(format, function, x, y):
    """The operation and the operand whose exact result is that of a function of
    x, or of x and y; or None."""
    if function == "sqrt":
        return ROOT, x
    if function == "rsqrt":
        return INVERSE_ROOT, x
    if function == "div" and x != 0 and y != 0:
        return RECIPROCAL, y / x
    if function == "pow" and x != 0:
        return vectors.power(format, x, y)
    if function == "rootn" and x != 0 and abs(y) in (1, 2):
        return vectors.power(format, x, 1 / y)
    if function == "compoundn" and y == -1:
        return RECIPROCAL, 1 + x
    return None


def number(text):
    whole = re.fullmatch(r"(-?\d+)LL", text)
    return vectors.Fraction(int(whole[1])) if whole else vectors.value(text)


def answer_of(format, text):
    infinities = {"plus_infty": format.infinity, "minus_infty": format.sign | format.infinity}
    return infinities.get(text) or format.bits_of(text)


def read(format, line):
    """Operation, rounding, bits, free flags, answer and flags of a table's line;
    or None where it has another result, or no operand of the format."""
    call, answer, flags = (part.split() for part in (line + " ").split(" : "))
    function, rounding, operands = call[1], ROUNDINGS[call[2]], call[4:]
    numbers = [number(text) for text in operands]
    if None in numbers:                         # a whole number written as a sum
        return None
    same = same_result(format, function, numbers[0], numbers[-1])
    bits = format.pattern(same[1]) if same else None
    if bits is None:
        return None
    if bits == 0:                               # only a root's own operand can be a zero
        bits = format.bits_of(operands[0])
    raised, free = flags_of(flags)
    return same[0], rounding, bits, free, answer_of(format, answer[0]), raised


def table_lines(format, path, operation):
    """The lines of a table for a format that are of an operation, and the number
    of all its lines for the format."""
    lines = re.findall("^= \\S+ \\S+ %s[ :].*" % format.name, path.read_text(), re.MULTILINE)
    taken = (read(format, line) for line in lines)
    return [line for line in taken if line and line[0] == operation], len(lines)


def names(format):
    """The .inc files' names. The two NaNs are those of gcc's __builtin_nan and
    __builtin_nans, with f behind for binary32."""
    bits = {"plus_zero": 0, "minus_zero": format.sign, "plus_infty": format.infinity,
            "minus_infty": format.sign | format.infinity, "min_value": 2**format.fraction,
            "min_subnorm_value": 1, "max_value": format.infinity - 1, "1": format.bias << format.fraction,
            "qnan_value": format.the_nan, "snan_value": format.infinity + 2**(format.fraction - 2)}
    bits.update({"-" + name: number ^ format.sign for name, number in bits.items()})
    return bits


EXCEPTIONS = {"INVALID_EXCEPTION": vectors.INVALID, "NO_INEXACT_EXCEPTION": 0,
              "DIVIDE_BY_ZERO_EXCEPTION": vectors.DIVISION_BY_ZERO}


def special_lines(format, path, operation):
    """The lines of an .inc file whose operands have names. A divisor counts as
    the operand of a reciprocal where the dividend is positive and finite."""
    known = names(format)
    for words in re.findall(r"TEST_\w+ \(\w+, (.*)\),", path.read_text()):
        *operands, answer, flags = words.replace("arg_", "").split(", ")
        bits = known.get(operands[-1])
        if bits is None or operation == RECIPROCAL and not 0 < known[operands[0]] < format.infinity:
            continue
        flags = [flag for flag in flags.split("|") if not flag.startswith("ERRNO_")]
        raised = sum(EXCEPTIONS[flag] for flag in flags)
        free = 0 if "NO_INEXACT_EXCEPTION" in flags else vectors.INEXACT
        for rounding in ROUNDINGS.values():
            yield operation, rounding, bits, free, known[answer], raised


READING = [
    "Only operands, roundings, answers and flags are taken; a call that stands there more than once is here once.",
    'Flags: "underflow:before-rounding" is raised, as document 01 finds tininess before rounding. A flag marked "-ok", and',
    "inexact where an .inc line says nothing of it, is left open: it is given as raised. errno and ibm128 are no matter here.",
]

FILES = [
    ("glibc_sqrt", ROOT, ["sqrt", "narrow-sqrt"], "sqrt",
     ["Left out: operands that are no {format} number."]),
    ("glibc_rsqrt", INVERSE_ROOT, ["rsqrt", "rootn"], "rsqrt",
     ["rootn(x, -2) is the inverse root of x. Left out: every other root."]),
    ("glibc_reciprocal", RECIPROCAL, ["narrow-div", "pow", "rootn", "compoundn"], "narrow-div",
     ["x / y is the reciprocal of y / x, pow(x, -n) that of x^n, rootn(x, -1) that of x, compoundn(x, -1) that of 1 + x: taken",
      "where y / x, x^n, x or 1 + x is a {format} number, and every other line left out."]),
]


def write(format, folder, package, name, operation, tables, special, about):
    lines, counts = vectors.Lines(format), []
    for table in tables:
        taken, count = table_lines(format, folder / ("auto-libm-test-out-" + table), operation)
        counts.append("%s (%d of %d)" % (table, len(taken), count))
        for line in taken:
            lines.add(*line)
    for line in special_lines(format, folder / ("libm-test-%s.inc" % special), operation):
        lines.add(*line)
    source = ["From Debian's %s: the special operands of math/libm-test-%s.inc that have a name, and %s lines of" % (
        package, special, format.name), "math/auto-libm-test-out-*: %s." % ", ".join(counts)]
    lines.write(name, source + [line.replace("{format}", format.name) for line in about] + READING)


def main():
    if len(sys.argv) != 3:
        sys.exit("usage: from_glibc.py FOLDER PACKAGE")
    for format in BINARY32, BINARY64:
        for file in FILES:
            write(format, Path(sys.argv[1]), sys.argv[2], *file)


if __name__ == "__main__":
    main()
