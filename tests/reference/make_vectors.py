"""Writes the vector files from plate.py.

    python3 tests/reference/make_vectors.py           rewrites them all
    python3 tests/reference/make_vectors.py --check   exits 1 if one differs

Each folder below crates/ gets a file stdin, what its program is given, and a
file stdout, what it must print. The files are the same at every run.

call_vectors      stdin  r operation significand parity
                  stdout refusal answer
                  stdin  b operation rounding bits status
                  stdout refusal bits status
                  bits are 8 upper-case hexadecimal digits; the lines of
                  tests/public/*.txt stand last, with their published answers
binary64_vectors  stdin  t LENGTH
                  stdout refusal digest
                  stdin  r LENGTH PLACE ENTRY operation significand parity
                  stdout refusal answer
                  stdin  b LENGTH PLACE ENTRY operation rounding bits status
                  stdout refusal bits status
                  significands, bits and answers are 16 upper-case hexadecimal
                  digits, ENTRY the same without leading zeros. t fills the first
                  LENGTH of 131,073 numbers, of which number j holds 7j + 3 before;
                  digest() is taken over all of them after it. r and b are lent the
                  first LENGTH of 131,073 numbers: the four tables and a 0, but with
                  ENTRY at PLACE; PLACE 131073 changes none. The binary64 lines of
                  tests/public/*.txt stand last, with their published answers
list_vectors      stdin  binary frames: u32 length of the map, u32 length of the
                  buffer, both little-endian, then the map
                  stdout refusal length digest, ten lines for each frame: the
                  first call in the roundings 0, 1, 2, 3 and 4, then the lifted
                  one. Byte j of the buffer holds (7j + 3) mod 256 before each
                  call; digest() is taken over the whole buffer after it. The
                  frames of #104 stand last
record_vectors    stdin  binary frames: u32 length of the list, u32 number of
                  indexes, both little-endian, then the list, then the indexes,
                  8 bytes each, little-endian
                  stdout refusal rounding w d step radius x y z, a line for each
                  frame and each of its indexes; an unknown rounding is -. The
                  frames of #101 stand first
platelist         document 01's example
"""

import itertools
import random
import struct
import sys
from array import array
from fractions import Fraction
from math import isqrt
from pathlib import Path

sys.dont_write_bytecode = True
HERE = Path(__file__).resolve().parent
CRATES = HERE.parent.parent / "crates"
sys.path.append(str(HERE.parent / "public"))

import plate
import vectors

SMALLEST, LARGEST = 8388608, 16777215           # significands


# --------------------------------------------------------------------- raw

def raw_calls():
    chance = random.Random("raw")
    accepted = [(1, 0), (2, 0), (2, 1), (3, 0), (3, 1)]
    # The table's rows.
    yield from [(1, 8388608, 0), (1, 12582912, 0), (1, 16777215, 0),
                (2, 8388608, 1), (3, 8388608, 1), (1, 8388607, 0), (1, 16777216, 0)]
    # Both edges of each interval of i.
    for operation, parity in accepted:
        for i in range(128, 256):
            yield operation, i * 65536, parity
            yield operation, i * 65536 + 65535, parity
    # In each interval the last y with d below 0 and the first with d not below.
    for i in range(128, 256):
        first = -(-2**31 // (32768 // i))
        for y in (first - 1, first):
            if y // 65536 == i:
                operation, parity = chance.choice(accepted)
                yield operation, y, parity
    # Refusals, alone, by two and by three.
    operations = [0, 1, 2, 3, 4, 5, 127, 128, 129, 255]
    significands = [0, 1, 8388607, 8388608, 16777215, 16777216, 2**24 + 2**23,
                    2**31, 2**31 + 2**23, 2**32 - 1]
    parities = [0, 1, 2, 3, 128, 129, 254, 255]
    yield from itertools.product(operations, significands, parities)
    # Random significands.
    for operation, parity in accepted:
        for _ in range(200):
            yield operation, chance.randint(SMALLEST, LARGEST), parity
    for _ in range(100):
        yield chance.randrange(256), chance.randrange(2**32), chance.randrange(256)


# ---------------------------------------------------------------- binary32

CLASSES = [
    0x00000000,                                             # zero
    0x00000001, 0x00000002, 0x00000003, 0x000000FF,         # subnormals
    0x001FFFFF, 0x00200000, 0x00200001,                     # where 1/x overflows
    0x003FFFFF, 0x00400000, 0x00400001, 0x007FFFFE, 0x007FFFFF,
    0x00800000, 0x00800001, 0x00FFFFFF, 0x01000000,         # smallest normals
    0x34000000, 0x3EAAAAAB, 0x3F7FFFFE, 0x3F7FFFFF,
    0x3F800000, 0x3F800001, 0x3F800002, 0x3FFFFFFF,         # around one
    0x40000000, 0x40000001, 0x40400000, 0x40490FDB, 0x40800000, 0x407FFFFF,
    0x4B7FFFFF, 0x4B800000,
    0x7E7FFFFF, 0x7E800000, 0x7E800001,                     # where 1/x underflows
    0x7EFFFFFF, 0x7F000000, 0x7F000001, 0x7F7FFFFE, 0x7F7FFFFF,
    0x7F800000,                                             # infinity
    0x7F800001, 0x7FA5A5A5, 0x7FBFFFFF,                     # signalling NaNs
    0x7FC00000, 0x7FC00001, 0x7FDEAD00, 0x7FFFFFFF,         # quiet NaNs
]

SIGN = 0x80000000


def operand(significand, exponent, width=plate.BINARY32):
    """The pattern of significand * 2**exponent, which must be a number."""
    wanted = significand * Fraction(2)**exponent
    low, high = 0, plate.infinity(width)
    while high - low > 1:
        middle = (low + high) // 2
        if plate.value(middle, width) <= wanted:
            low = middle
        else:
            high = middle
    assert plate.value(low, width) == wanted
    return low


def some_status(chance):
    return chance.choice((0, 0, 1, 2, 4, 8, 16, 31, 32, 64, 128, 224, 255,
                          chance.randrange(32), chance.randrange(256)))


def binary32_calls():
    chance = random.Random("binary32")

    def status():
        return some_status(chance)

    def in_all(bits, operations=(1, 2, 3), roundings=(0, 1, 2, 3)):
        for operation in operations:
            for rounding in roundings:
                yield operation, rounding, bits, status()

    # Every class, both signs.
    for bits in CLASSES:
        yield from in_all(bits)
        yield from in_all(bits | SIGN)
    # Powers of two at every exponent.
    for exponent in range(-149, 128):
        yield from in_all(operand(1, exponent))
    for exponent in range(-149, 128, 9):
        yield from in_all(operand(1, exponent) | SIGN, operations=(1,))
    # Whole squares times powers of four: the root's lower and upper agree.
    # Their neighbours and their doubles do not.
    for _ in range(120):
        n = chance.choice((chance.randrange(1, 64), chance.randrange(1, 4096)))
        bits = operand(n * n, 2 * chance.randrange(-74, 52))
        yield from in_all(bits, operations=(2,), roundings=(1, 2))
        yield 2, chance.choice((0, 3)), bits, status()
        yield 2, chance.randrange(4), bits + chance.choice((-1, 1)), status()
        yield 3, chance.randrange(4), bits, status()
    # The hardest operands, as searched, then at other exponents.
    for line in (HERE / "hard_cases.txt").read_text().splitlines():
        operation, bits = int(line.split()[0]), int(line.split()[1], 16)
        yield from in_all(bits, operations=(operation,))
        exponent = bits >> 23
        if exponent < 200:
            shift = 2 * chance.randrange((2 - exponent) // 2, (252 - exponent) // 2)
            bits += shift << 23
        sign = SIGN if operation == 1 else 0
        yield operation, 0, bits | sign, status()
    # Refusals 1, 2 and both. They keep every bit of the status.
    for operation in (0, 4, 5, 128, 129, 255):
        for rounding in (0, 3, 4, 255):
            yield operation, rounding, chance.choice(CLASSES), status()
            yield operation, rounding, chance.randrange(2**32), 255
    for operation in (1, 2, 3):
        for rounding in (4, 5, 127, 128, 130, 255):
            yield operation, rounding, chance.choice(CLASSES), status()
            yield operation, rounding, chance.randrange(2**32), 224
    # Random patterns, some of them subnormal, some with short fractions.
    for _ in range(400):
        yield chance.randint(1, 3), chance.randrange(4), chance.randrange(2**32), status()
        yield chance.randint(1, 3), chance.randrange(4), chance.randrange(SIGN), status()
    for _ in range(100):
        yield chance.randint(1, 3), chance.randrange(4), chance.randrange(2**23), status()
        bits = chance.randrange(SIGN) >> 19 << 19
        yield chance.randint(1, 3), chance.randrange(4), bits, status()
    for _ in range(100):
        yield 1, chance.randrange(4), chance.randrange(0x7E800000, 0x7F800000), status()
        yield 1, chance.randrange(4), chance.randrange(1, 0x00400000) | SIGN, status()


CALL_ROOM = 262144              # what the program call_vectors reads at most


def call_files():
    given, expected = [], []
    for call in raw_calls():
        given.append("r %d %d %d\n" % call)
        expected.append("%d %d\n" % plate.raw(*call))
    answered = [(call, plate.binary32(*call)) for call in binary32_calls()]
    for call, answer in itertools.chain(answered, vectors.published()):
        given.append("b %d %d %08X %d\n" % call)
        expected.append("%d %08X %d\n" % answer)
    assert sum(map(len, given)) <= CALL_ROOM
    return "".join(given).encode(), "".join(expected).encode()


# ---------------------------------------------------------------- binary64

ENTRIES = plate.ENTRIES                         # 131,072
WHOLE = ENTRIES, ENTRIES + 1, 0                 # length, place, entry: the tables as they are
ROOTS = (2, 0), (2, 1), (3, 0), (3, 1)          # operation and parity, in the tables' order
ALL64 = ((1, 0), *ROOTS)
SMALLEST64, LARGEST64 = 2**52, 2**53 - 1        # significands
SIGN64 = 2**63

CLASSES64 = [
    0x0000000000000000,                                             # zero
    0x0000000000000001, 0x0000000000000002, 0x0000000000000003,     # subnormals
    0x00000000000000FF, 0x0000000100000000, 0x00000001FFFFFFFF,
    0x0003FFFFFFFFFFFF, 0x0004000000000000, 0x0004000000000001,     # where 1/x overflows
    0x0007FFFFFFFFFFFF, 0x0008000000000000, 0x0008000000000001,
    0x000FFFFFFFFFFFFE, 0x000FFFFFFFFFFFFF,
    0x0010000000000000, 0x0010000000000001,                         # smallest normals
    0x001FFFFFFFFFFFFF, 0x0020000000000000,
    0x3CB0000000000000, 0x3FD5555555555555, 0x3FEFFFFFFFFFFFFE,
    0x3FEFFFFFFFFFFFFF, 0x3FF0000000000000, 0x3FF0000000000001,     # around one
    0x3FF0000000000002, 0x3FFFFFFFFFFFFFFF,
    0x4000000000000000, 0x4000000000000001, 0x4008000000000000,
    0x400921FB54442D18, 0x400FFFFFFFFFFFFF, 0x4010000000000000,
    0x433FFFFFFFFFFFFF, 0x4340000000000000,
    0x7FCFFFFFFFFFFFFF, 0x7FD0000000000000, 0x7FD0000000000001,     # where 1/x underflows
    0x7FDFFFFFFFFFFFFF, 0x7FE0000000000000, 0x7FE0000000000001,
    0x7FEFFFFFFFFFFFFE, 0x7FEFFFFFFFFFFFFF,
    0x7FF0000000000000,                                             # infinity
    0x7FF0000000000001, 0x7FF5A5A5A5A5A5A5, 0x7FF7FFFFFFFFFFFF,     # signalling NaNs
    0x7FF8000000000000, 0x7FF8000000000001, 0x7FFDEAD000000000, 0x7FFFFFFFFFFFFFFF,
]


def right_entry(operation, y, p):
    r, _, _ = plate.reduction(y, plate.BINARY64)
    return plate.multiplier(operation, r, p, plate.BINARY64)


def used_place(operation, y, p):
    """The place that a root uses, and some place for a call that uses none."""
    if operation in (2, 3) and p in (0, 1) and SMALLEST64 <= y <= LARGEST64:
        return plate.entry_place(operation, y, p)
    return (operation * 65536 + p * 32768 + y) % ENTRIES


def wrong_entries(m):
    """Entries that break the rule where m keeps it; among them some whose square is
    that of m in its lower bits."""
    return [m - 1, m + 1, m - 2, m + 2, 0, 1, 2 * m, m // 2, m + 2**62, m + 2**63,
            2**64 - m, 2**63 - m, 2**62 - m, m + 2**32, m - 2**32, 2**63, 2**64 - 1]


def wrapped_entries(operation, y, p):
    """Entries that nearly keep the rule where its products are cut to 128 bits, or its
    squares to 64."""
    r, _, _ = plate.reduction(y, plate.BINARY64)
    n, d = plate.exact_square(operation, r, p, plate.BINARY64)
    for c in (-100, -1, 1, 255, 10000):
        entry = isqrt((n + c * 2**128) // d)
        yield from (entry, entry + 1)
    for c in (-1000, -1, 1, 1000):
        entry = isqrt(n // d + c * 2**64)
        yield from (entry, entry + 1)


def raw64_calls():
    """length, place, entry, operation, significand, parity"""
    chance = random.Random("raw64")

    def some_y():
        return chance.randint(SMALLEST64, LARGEST64)

    # The edges, a middle, and what is refused next to the edges.
    for operation, p in ALL64:
        for y in (2**52, 2**52 + 1, 3 * 2**51, 2**53 - 1, 2**52 - 1, 2**53):
            yield *WHOLE, operation, y, p
    # Both edges of intervals of i, the first and the last of each table among them.
    some = [*range(32768, 32772), *range(65532, 65536), 40960, 46340, 46341, 49151, 49152,
            *(chance.randrange(32768, 65536) for _ in range(40))]
    for operation, p in ALL64:
        for i in some:
            yield *WHOLE, operation, i * 2**37, p
            yield *WHOLE, operation, i * 2**37 + 2**37 - 1, p
    # The last y with d below 0, the first with d not below, and the next.
    for i in (32768, 32769, 65535, *(chance.randrange(32768, 65536) for _ in range(150))):
        first = -(-2**68 // (2**31 // i))
        for y in (first - 1, first, first + 1):
            if y // 2**37 == i:
                operation, p = chance.choice(ALL64)
                yield *WHOLE, operation, y, p
    # Digits of a that are 0 or all ones, as near as a significand comes to them.
    for i in (32768, *(chance.randrange(32768, 65536) for _ in range(60))):
        r = 2**31 // i
        for s in (-1, 1):
            reach = abs((i + (s == 1)) * 2**37 * r - 2**68) // 256
            a2 = chance.choice((0, 1, reach >> 30, chance.randrange((reach >> 30) + 1)))
            a = a2 << 30 | chance.choice((0, 32767)) << 15 | chance.choice((0, 32767))
            y = (2**68 + s * 256 * a) // r + chance.randrange(2)
            if y // 2**37 == i:
                operation, p = chance.choice(ALL64)
                yield *WHOLE, operation, y, p
    # Refusals alone and together, in every order.
    for operation, y, p in itertools.product(
            (0, 1, 2, 3, 4, 255), (2**52 - 1, 2**52, 2**53 - 1, 2**53), (0, 1, 2, 255)):
        for length in (0, 131071, 131072, 131073):
            yield length, ENTRIES + 1, 0, operation, y, p
        yield ENTRIES, used_place(operation, y, p), chance.choice((0, 2**64 - 1)), operation, y, p
        yield 131071, used_place(operation, y, p), chance.choice((0, 1)), operation, y, p
    for _ in range(300):
        operation = chance.choice((0, 1, 2, 3, 4, 5, 127, 128, 129, 130, 255))
        y = chance.choice((0, 1, 8388608, 16777215, 2**52 - 1, 2**52, 2**53 - 1, 2**53,
                           2**53 + 2**52, 2**63, 2**63 + 2**52, 2**64 - 1))
        p = chance.choice((0, 1, 2, 3, 128, 129, 254, 255))
        length = chance.choice((0, 1, 32768, 65536, 131071, 131072, 131072, 131073))
        place, entry = chance.choice(((ENTRIES + 1, 0), (used_place(operation, y, p), 5)))
        yield length, place, entry, operation, y, p
    # A wrong entry at the place used, and the same one elsewhere.
    for operation, p in ROOTS:
        for y in (2**52, 2**53 - 1, *(some_y() for _ in range(8))):
            place, m = plate.entry_place(operation, y, p), right_entry(operation, y, p)
            yield ENTRIES, place, m, operation, y, p
            for entry in wrong_entries(m):
                yield ENTRIES, place, entry % 2**64, operation, y, p
            for other in (place - 1, place + 1, place - 32768, place + 32768, place ^ 32768,
                          0, ENTRIES - 1, ENTRIES, chance.randrange(ENTRIES)):
                if other != place and other >= 0:
                    yield (ENTRIES, min(other, ENTRIES), chance.choice(wrong_entries(m)) % 2**64,
                           operation, y, p)
        for y in (2**53 - 1, some_y(), some_y()):
            for entry in wrapped_entries(operation, y, p):
                yield ENTRIES, plate.entry_place(operation, y, p), entry, operation, y, p
        # Where R is a power of two, each power of two; elsewhere each bit of an entry,
        # and the entries of other places.
        for bit in range(64):
            yield ENTRIES, plate.entry_place(operation, 2**52, p), 1 << bit, operation, 2**52, p
        y = some_y()
        place, m = plate.entry_place(operation, y, p), right_entry(operation, y, p)
        for bit in range(64):
            yield ENTRIES, place, m ^ 1 << bit, operation, y, p
        for other in ROOTS:
            yield ENTRIES, place, right_entry(other[0], y, other[1]), operation, y, p
        for other in range(max(y - 2**38, 2**52), min(y + 2**38, 2**53), 2**37):
            yield ENTRIES, place, right_entry(operation, other, p), operation, y, p
    # Every length but the right one, with entries that would be right.
    for length in (0, 1, 2, 32767, 32768, 65535, 65536, 98304, 131070, 131071, 131073):
        for operation, p in ROOTS:
            yield length, ENTRIES + 1, 0, operation, chance.choice((2**52, some_y())), p
    # The reciprocal looks at no slice.
    for _ in range(60):
        yield (chance.choice((0, 0, 1, 131071, 131072, 131073)), chance.randrange(ENTRIES),
               chance.randrange(2**64), 1, some_y(), chance.choice((0, 0, 0, 1)))
    # Random significands, and random everything.
    for operation, p in ALL64:
        for _ in range(200):
            yield *WHOLE, operation, some_y(), p
    for _ in range(100):
        yield (chance.choice((ENTRIES, chance.randrange(ENTRIES + 2))),
               chance.randrange(ENTRIES + 2), chance.randrange(2**64), chance.randrange(5),
               chance.choice((some_y(), chance.randrange(2**64))), chance.randrange(3))


def binary64_calls():
    """length, place, entry, operation, rounding, bits, status"""
    chance = random.Random("binary64")

    def status():
        return some_status(chance)

    def lent(operation):
        """Mostly the tables as they are; the reciprocal takes any slice."""
        if chance.randrange(8):
            return WHOLE
        if operation == 1:
            return chance.choice(((0, ENTRIES + 1, 0), (131071, 3, 5), (ENTRIES, 0, 0)))
        return ENTRIES, ENTRIES, chance.randrange(2**64)        # behind the slice

    def call(operation, bits, rounding=None):
        if rounding is None:
            rounding = chance.randrange(4)
        return *lent(operation), operation, rounding, bits, status()

    def in_all(bits, operations=(1, 2, 3), roundings=(0, 1, 2, 3)):
        for operation in operations:
            for rounding in roundings:
                yield call(operation, bits, rounding)

    def pattern(significand, exponent):
        return operand(significand, exponent, plate.BINARY64)

    def used(operation, bits):
        """The place used and its entry; of the operand's magnitude where it is negative,
        and of its fraction where it is no finite number."""
        magnitude = bits % SIGN64
        if plate.uses_entry(2, magnitude):
            y, p = plate.normalized(plate.value(magnitude, plate.BINARY64))
        else:
            y, p = 2**52 + bits % 2**52, 0
        return plate.entry_place(operation, y, p), right_entry(operation, y, p)

    # Every class, both signs.
    for bits in CLASSES64:
        yield from in_all(bits)
        yield from in_all(bits | SIGN64)
    # Powers of two at every exponent.
    for exponent in range(-1074, 1024):
        bits = pattern(1, exponent)
        yield call(1, bits)
        yield call(2 + exponent // 2 % 2, bits)
    for exponent in (*range(-1074, -1070), *range(-1025, -1020), -2, -1, 0, 1, 2,
                     *range(1020, 1024)):
        yield from in_all(pattern(1, exponent))
        yield from in_all(pattern(1, exponent) | SIGN64, operations=(1,))
    # Around powers of two.
    for exponent in range(-1060, 1024, 40):
        for bits in (pattern(1, exponent) - 1, pattern(1, exponent) + 1):
            for operation in (1, 2, 3):
                yield call(operation, bits)
    # Whole squares times powers of four: the root's lower and upper agree.
    # Their neighbours and their doubles do not.
    for _ in range(120):
        n = chance.choice((chance.randrange(1, 64), chance.randrange(1, 2**26),
                           chance.randrange(2**26, 94906266)))
        exponent = 2 * chance.randrange(-537, 485)
        bits = pattern(n * n, exponent)
        yield from in_all(bits, operations=(2,), roundings=(1, 2))
        yield call(2, bits, chance.choice((0, 3)))
        yield call(2, bits + chance.choice((-1, 1)))
        yield call(2, pattern(2 * n * n, exponent))
        yield call(3, bits)
    # The hard operands, as searched, then at other exponents.
    for line in (HERE / "hard_cases64.txt").read_text().splitlines():
        operation, bits = int(line.split()[0]), int(line.split()[1], 16)
        yield from in_all(bits, operations=(operation,))
        exponent = bits >> 52
        if exponent < 1100:
            bits += 2 * chance.randrange(-510, 510) << 52
        yield call(operation, bits | (SIGN64 if operation == 1 else 0), 0)
    # Refusals alone and together, in every order. They keep every bit of the status.
    for operation, rounding in itertools.product((0, 1, 2, 3, 4, 255), (0, 3, 4, 255)):
        for bits in (0x4008000000000000, chance.choice(CLASSES64), chance.randrange(2**64)):
            place, _ = used(operation if operation in (2, 3) else 2, bits)
            for length in (0, 131071, 131072, 131073):
                yield length, ENTRIES + 1, 0, operation, rounding, bits, status()
            yield ENTRIES, place, chance.choice((0, 2**64 - 1)), operation, rounding, bits, 255
            yield 131073, place, 1, operation, rounding, bits, 224
    for operation in (5, 127, 128, 129, 130, 254):
        yield *WHOLE, operation, chance.randrange(6), chance.choice(CLASSES64), status()
    for rounding in (5, 127, 128, 130, 254):
        yield *WHOLE, chance.randint(1, 3), rounding, chance.choice(CLASSES64), status()
    # A wrong entry at the place used, and the same one elsewhere: of normal numbers with
    # even and odd exponents of either sign, and of subnormal ones.
    operands = [0x3FF0000000000000, 0x4000000000000000, 0x3FEFFFFFFFFFFFFF, 0x3FDFFFFFFFFFFFFF,
                0x0010000000000000, 0x000FFFFFFFFFFFFF, 0x0000000000000001, 0x0000000000000002,
                0x7FEFFFFFFFFFFFFF, *(chance.randrange(0x7FF0000000000000) for _ in range(4)),
                *(chance.randrange(1, 2**shift) for shift in (52, 48, 37, 30))]
    for operation, bits in itertools.product((2, 3), operands):
        place, m = used(operation, bits)
        yield ENTRIES, place, m, operation, chance.randrange(4), bits, status()
        for entry in wrong_entries(m):
            yield ENTRIES, place, entry % 2**64, operation, chance.randrange(4), bits, status()
        # Also where the bits are read without normalizing, and by the other parity.
        field, fraction = bits >> 52, bits % 2**52
        unread = (operation - 2) * 65536 + field % 2 * 32768 + (fraction >> 37)
        for other in sorted({place ^ 32768, place ^ 65536, place ^ 1, unread, unread ^ 32768, 0,
                             ENTRIES - 1, chance.randrange(ENTRIES)} - {place}):
            yield (ENTRIES, other, chance.choice(wrong_entries(m)) % 2**64, operation,
                   chance.randrange(4), bits, status())
    # Special operands skip the entry, not the length.
    special = [0, *(bits for bits in CLASSES64 if bits >= 0x7FF0000000000000),
               *(bits | SIGN64 for bits in CLASSES64[::3])]
    for operation, bits in itertools.product((2, 3), special):
        place, m = used(operation, bits)
        for other in (place, place ^ 32768, (operation - 2) * 65536):
            yield (ENTRIES, other, chance.choice(wrong_entries(m)) % 2**64, operation,
                   chance.randrange(4), bits, status())
        for length in (0, 131071, 131073):
            yield length, ENTRIES + 1, 0, operation, chance.randrange(4), bits, status()
    # The reciprocal with the empty slice.
    for _ in range(60):
        yield (0, chance.randrange(ENTRIES), chance.randrange(2**64), 1, chance.randrange(4),
               chance.choice((chance.choice(CLASSES64), chance.randrange(2**64))), status())
    # Random patterns, some of them subnormal, some with short fractions.
    for _ in range(300):
        yield call(chance.randint(1, 3), chance.randrange(2**64))
        yield call(chance.randint(1, 3), chance.randrange(SIGN64))
    for _ in range(100):
        yield call(chance.randint(1, 3), chance.randrange(2**chance.randint(1, 52)))
        yield call(chance.randint(1, 3), chance.randrange(SIGN64) >> 46 << 46)
    for _ in range(100):
        yield call(1, chance.randrange(0x7FD0000000000000, 0x7FF0000000000000))
        yield call(1, chance.randrange(1, 0x0008000000000000) | SIGN64)
    for _ in range(100):
        yield (chance.choice((ENTRIES, chance.randrange(ENTRIES + 2))),
               chance.randrange(ENTRIES + 2), chance.randrange(2**64), chance.randrange(5),
               chance.randrange(5), chance.randrange(2**64), chance.randrange(256))
    # Minus infinity and minus zero, with every length and a spoilt entry at each table's first place.
    for operation, bits in itertools.product((1, 2, 3), (SIGN64 | 0x7FF0000000000000, SIGN64)):
        for length in (0, 131071, ENTRIES, 131073):
            yield length, ENTRIES + 1, 0, operation, chance.randrange(4), bits, status()
        for table in range(4):
            yield ENTRIES, table * 32768, 0, operation, chance.randrange(4), bits, status()


BINARY64_ROOM = 1000000         # the program binary64_vectors is given fewer bytes


def binary64_files():
    given, expected = [], []
    before = [7 * j + 3 for j in range(ENTRIES + 1)]
    for length in (0, 1, 32768, 131071, 131072, 131073):
        refusal, after = plate.fill_tables(before[:length])
        given.append("t %d\n" % length)
        expected.append("%d %d\n" % (refusal, digest(after + before[length:])))

    numbers = array("Q", plate.all_tables() + [0])

    def lending(call, length, place, entry, *others):
        """The answer of a call that is lent a slice."""
        if place > ENTRIES:
            return call(*others, memoryview(numbers)[:length])
        kept, numbers[place] = numbers[place], entry
        answer = call(*others, memoryview(numbers)[:length])
        numbers[place] = kept
        return answer

    for call in raw64_calls():
        given.append("r %d %d %X %d %016X %d\n" % call)
        expected.append("%d %016X\n" % lending(plate.raw64, *call))
    answered = [(call, lending(plate.binary64, *call)) for call in binary64_calls()]
    public = [((*WHOLE, *call), answer) for call, answer in vectors.published64()]
    for call, answer in answered + public:
        given.append("b %d %d %X %d %d %016X %d\n" % call)
        expected.append("%d %016X %d\n" % answer)
    assert sum(map(len, given)) < BINARY64_ROOM
    return "".join(given).encode(), "".join(expected).encode()


# -------------------------------------------------------------------- list

def flat(w, d, height=0):
    return [[height] * w for _ in range(d)]


def plane(w, d, slope_x, slope_y, start=0):
    return [[start + slope_x * c + slope_y * row for c in range(w)] for row in range(d)]


def steep(w, d):
    """Heights at both limits, so that dx and dy are 100,000 or -100,000."""
    return [[50000 if (c // 2 + row // 2) % 2 else -50000 for c in range(w)]
            for row in range(d)]


def arched(w, d, rise):
    """A plate with a recurve at its border."""
    def arch(k, n):
        return k * (n - 1 - k) * rise // ((n - 1)**2 // 4) - rise // (1 + k * (n - 1 - k))
    return [[(arch(c, w) + arch(row, d)) // 2 for c in range(w)] for row in range(d)]


def rough(chance, w, d, top):
    return [[chance.randint(-top, top) for _ in range(w)] for _ in range(d)]


def cross(dx, dy, height=0):
    """3 x 3 heights whose one inner point has these differences."""
    left, before = -(dx // 2), -(dy // 2)
    return [[7, before, -7], [left, height, left + dx], [9, before + dy, 50000]]


def with_trailer(body, letters, w, d, step=1000, radius=5000, distance=None, front=b"",
                 behind=b""):
    return front + body + letters + struct.pack(
        "<IHHHH", len(body) if distance is None else distance % 2**32,
        w, d, step, radius) + behind


def make_map(rows, letters=b"PLT1", w=None, d=None, **others):
    body = b"".join(struct.pack("<i", height) for row in rows for height in row)
    return with_trailer(body, letters, len(rows[0]) if w is None else w,
                        len(rows) if d is None else d, **others)


def exact_length(rows):
    return 12 * (len(rows[0]) - 2) * (len(rows) - 2) + 18


# Whole normals with a whole length: a*a + b*b + c*c = t*t.
WHOLE_NORMALS = [
    (0, 0, 1, 1), (0, 3, 4, 5), (4, 0, 3, 5), (1, 2, 2, 3), (2, 1, 2, 3), (2, 3, 6, 7),
    (6, 2, 3, 7), (3, 6, 2, 7), (1, 4, 8, 9), (4, 4, 7, 9), (2, 6, 9, 11), (6, 6, 7, 11),
    (3, 4, 12, 13), (12, 3, 4, 13), (2, 5, 14, 15), (2, 10, 11, 15), (8, 9, 12, 17),
    (36, 48, 25, 65), (99, 0, 20, 101),
]


def fitting(rows, **others):
    """A frame with the shortest buffer that holds the list."""
    return make_map(rows, **others), exact_length(rows)


def old_frames():
    """The frames from before #104, as they were."""
    chance = random.Random("list")

    def some_size(most):
        return chance.randint(3, most), chance.randint(3, most)

    # Document 01's example and its table's map.
    yield fitting(plane(3, 3, 1500, 0), step=2000, radius=5000)
    yield fitting(plane(3, 3, 500, 0), step=1000, radius=1000)

    # Flat, with every edge of step, radius and height.
    for step in (1, 2, 9999, 10000):
        for radius in (1, 2, 12499, 12500):
            rows = flat(*some_size(5), height=chance.choice((-50000, -1, 0, 50000)))
            yield fitting(rows, step=step, radius=radius)

    # Steep.
    for step, radius in ((1, 1), (1, 12500), (10000, 12500), (10000, 1), (317, 6000)):
        yield fitting(steep(*some_size(9)), step=step, radius=radius)
        yield fitting(cross(100000, -100000, 50000), step=step, radius=radius)
        yield fitting(cross(-100000, 99999, -50000), step=step, radius=radius)

    # Normals of whole length: radius a multiple of it, then not, then spoilt.
    for a, b, c, t in WHOLE_NORMALS:
        k = chance.randint(1, 30)
        tilted = plane(*some_size(6), chance.choice((a, -a)) * k, chance.choice((b, -b)) * k)
        yield fitting(tilted, step=c * k, radius=t * chance.randint(1, 12500 // t))
        yield fitting(tilted, step=c * k, radius=chance.randint(1, 12500))
        tilted[1][0] += 1
        yield fitting(tilted, step=c * k, radius=t)
        if c % 2 == 0:
            yield fitting(cross(a * k, -b * k), step=c * k // 2, radius=t)
            yield fitting(cross(-b * k, a * k), step=c * k // 2, radius=t * k)

    # Random, small and middling, gentle and rough.
    for top in (1, 3, 20, 300, 5000, 50000):
        for _ in range(8):
            rows = rough(chance, *some_size(9), top)
            yield fitting(rows, step=chance.randint(1, 10000), radius=chance.randint(1, 12500))
        for _ in range(2):
            rows = rough(chance, *some_size(20), top)
            yield fitting(rows, step=chance.randint(1, 50), radius=chance.randint(1, 12500))

    # Long and thin.
    for w, d in ((3, 64), (64, 3), (4, 63), (63, 4), (64, 5), (5, 64)):
        yield fitting(rough(chance, w, d, 4000), step=500, radius=6000)

    # The largest.
    yield fitting(arched(64, 64, 18000), step=3000, radius=6000)
    yield fitting(rough(chance, 64, 64, 50000), step=1, radius=12500)
    yield fitting(steep(64, 64), step=10000, radius=12500)
    rows = plane(64, 64, 200, -300, 5000)
    yield make_map(rows, step=600, radius=7000), exact_length(rows) + 1
    rows = rough(chance, 64, 64, 900)
    for missing in (1, 2):
        yield make_map(rows), exact_length(rows) - missing
    yield make_map(rows, front=b"\0"), exact_length(rows)
    rows[63][63] = 50001
    yield make_map(rows), exact_length(rows)

    # Buffers of several lengths. Two bytes fewer held the list before #102.
    for room in (0, 1, 12, 16, 18, 26, 27, 28, 29, 30, 31, 32, 42, 1000):
        yield make_map(cross(300, -40, 12)), room
    for more in (-12, -2, -1, 1, 2, 77):
        for _ in range(2):
            rows = rough(chance, *some_size(8), 3000)
            yield make_map(rows), exact_length(rows) + more
    yield make_map(flat(4, 4)), plate.LONGEST_LIST + 1

    # 5: fewer than 16 bytes.
    trailer = make_map(flat(3, 3))[36:]
    for length in (0, 1, 4, 8, 12, 14, 15):
        yield trailer[len(trailer) - length:], 30
    yield trailer[1:], 0
    yield b"", 0

    # 6: letters.
    for letters in (b"QLT1", b"PMT1", b"PLU1", b"PLT2", b"PLT0", b"plt1", b"CUT1", b"CUT2",
                    b"1TLP", b"\0\0\0\0", b"PLT\xb1"):
        yield make_map(flat(3, 3), letters=letters), 30
    for behind in (b"\0", b"\0\0", b"PLT1", bytes(16)):
        yield make_map(flat(3, 3), behind=behind), 30
    yield bytes(16), 30
    yield b"\xff" * 16, 30

    # 7: w and d, with bodies and distances that agree where that is possible.
    for size in (0, 1, 2, 65, 66, 256, 768, 32771, 65535):
        body = flat(size, 3) if 0 < size < 300 else flat(3, 3)
        yield make_map(body, w=size, distance=12 * size), 30
        yield make_map(body, w=3, d=size, distance=12 * size), 30
    yield make_map(flat(65, 63), w=65, d=63), plate.LONGEST_LIST
    yield make_map(flat(3, 3), w=0, d=0, distance=0), 30
    yield make_map(flat(2, 2)), 30
    yield make_map(flat(3, 3), w=32768, d=32768, distance=0), 30
    yield make_map(flat(3, 3), w=65535, d=65535), 30

    # 8: step and radius. Their accepted edges stand above.
    for step, radius in ((0, 1), (1, 0), (0, 0), (10001, 12500), (10000, 12501),
                         (10001, 12501), (65535, 1), (1, 65535), (32769, 1), (1, 32769)):
        yield make_map(flat(3, 3), step=step, radius=radius), 30

    # 9: the distance back and the length.
    for distance in (0, 1, 12, 32, 35, 37, 40, 52, 36 + 2**16, 36 + 2**31, -36, -1):
        yield make_map(flat(3, 3), distance=distance), 30
    for front in (b"\0", b"PLT1", bytes(12), bytes(36)):
        yield make_map(flat(3, 3), front=front), 30
        yield make_map(flat(3, 3), front=front, distance=36 + len(front)), 30
    for missing in (1, 4, 35, 36):
        whole = make_map(flat(3, 3))
        yield whole[missing:], 30
        yield make_map(flat(3, 3), distance=36 - missing)[missing:], 30
    yield make_map(flat(3, 4), w=3, d=3), 30
    yield make_map(flat(3, 3), w=3, d=4), 42
    yield make_map(flat(3, 4), w=4, d=3), 42                # the same product

    # 10: heights at each place, corners too.
    for place in range(9):
        for height in (50000, 50001, -50000, -50001):
            rows = cross(20, 30)
            rows[place // 3][place % 3] = height
            yield make_map(rows), 30
    for height in (2**31 - 1, -2**31, 65536, -65536, 2**24, 2**30):
        rows = cross(20, 30)
        rows[chance.randrange(3)][chance.randrange(3)] = height
        yield make_map(rows), 30

    # Faults 6 to 11 together, by two, by three and all at once.
    faults = {6: dict(letters=b"PLT\0"), 7: dict(w=2), 8: dict(radius=0),
              9: dict(distance=40), 10: {}, 11: {}}
    for count in (2, 3, 6):
        for chosen in itertools.combinations(faults, count):
            rows = cross(20, 30)
            if 10 in chosen:
                rows[2][2] = -50001
            settings = {}
            for number in chosen:
                settings.update(faults[number])
            yield make_map(rows, **settings), 29 if 11 in chosen else 30


def at_places(places, height, base=0):
    """3 x 3 heights, one of them at these places, counted row by row, the other elsewhere."""
    return [[height if 3 * row + c in places else base for c in range(3)] for row in range(3)]


def bowl(w, d, rise):
    """Higher by the square of the way from the middle, so that all neighbours stand out."""
    return [[rise * ((2 * c - w + 1)**2 + (2 * row - d + 1)**2) // 4 for c in range(w)]
            for row in range(d)]


SIDES, CORNERS, OWN = (1, 3, 5, 7), (0, 2, 6, 8), 4


def lift_frames():
    """Maps for #104: what lifts z, and what nearly does."""
    chance = random.Random("lift")

    # One place alone, high or low, the own one too. All numbers 1, then larger.
    for place in range(9):
        for step, radius, height in (
                (1, 1, 1), (1, 1, -1), (1, 2, 1), (1, 3, 1), (2, 2, -4), (1000, 3000, 1000),
                (1000, 1400, 800), (6000, 12500, 2000), (1, 12500, 50000), (10000, 12500, 50000),
                (10000, 12500, -50000), (1, 1, 50000)):
            yield fitting(at_places((place,), height), step=step, radius=radius)

    # Two sides that face each other leave x and y whole, at the step's distance; corners
    # do too, at the root of 2 times it. At the radius and one step to both sides of it.
    for radius in (1, 2, 5, 1000, 9999):
        for places in ((3, 5), (1, 7)):
            for step in (radius - 1, radius, radius + 1):
                if step > 0:
                    yield fitting(at_places(places, 50000), step=step, radius=radius)
    # The squares of a corner's distance and of the radius differ by 1.
    for step, radius in ((2, 3), (12, 17), (408, 577), (2378, 3363), (5, 7), (29, 41), (985, 1393),
                         (5741, 8119)):
        yield fitting(at_places((chance.choice(CORNERS),), 20000), step=step, radius=radius)
    # A corner at 3 and 4 from the rounded centre: at the radius, or not, as it is rounded.
    for k in (1, 50, 2500):
        rows = at_places((0,), 30000)
        rows[1][2] = 2 * k
        yield fitting(rows, step=4 * k, radius=5 * k)
        yield fitting([list(column) for column in zip(*rows)], step=4 * k, radius=5 * k)

    # Roots that are whole, one more than whole squares and one less, by two sides or by
    # four corners.
    for step, radius in ((3, 5), (4, 5), (5, 13), (7500, 12500), (9900, 10101), (99, 4901),
                         (5000, 5001), (4999, 5000), (9800, 9801), (9799, 9800), (100, 5001),
                         (1, 12500)):
        yield fitting(at_places((3, 5), 7000), step=step, radius=radius)
        yield fitting(at_places(SIDES, -7000, -8000), step=step, radius=radius)
    for step, radius in ((100, 10001), (7, 9), (2, 3), (50, 2501), (1, 12500), (6, 11)):
        yield fitting(at_places(CORNERS, 1), step=step, radius=radius)

    # The largest and the least z, and a lift from one to the other.
    yield fitting(flat(3, 3, 50000), step=1, radius=12500)
    yield fitting(at_places(CORNERS, 50000, -50000), step=1, radius=12500)
    yield fitting(at_places((OWN,), -50000, 50000), step=1, radius=12500)
    yield fitting(at_places((OWN,), -50000, 50000), step=8838, radius=12500)
    yield fitting(at_places((OWN,), -50000, 50000), step=8839, radius=12500)
    yield fitting(at_places((OWN,), -50000, 50000), step=10000, radius=9999)
    yield fitting(flat(3, 3, -50000), step=10000, radius=1)

    # Planes: exactly worked, the own height asks for the first z; rounded, for more.
    for _ in range(20):
        k = chance.choice((1, 5, 40, 3000))
        rows = plane(3, chance.randint(3, 4), chance.randint(-k, k), chance.randint(-k, k))
        yield fitting(rows, step=chance.randint(1, k + 1), radius=chance.randint(1, 3 * k + 1))

    # Steep: cliffs along a row, along a column and across.
    for step, radius in ((1, 1), (1, 12500), (7, 90), (400, 5000), (3000, 12500), (10000, 12500)):
        w, d = chance.randint(4, 6), chance.randint(4, 6)
        low, high = sorted(chance.randint(-50000, 50000) for _ in range(2))
        for behind in (lambda c, row: c > 1, lambda c, row: row > 1, lambda c, row: c + row > 4):
            yield fitting([[high if behind(c, row) else low for c in range(w)] for row in range(d)],
                          step=step, radius=radius)
        yield fitting(steep(w, d), step=step, radius=radius)

    # Arches with their recurve, and bowls.
    for _ in range(16):
        w, d = chance.randint(4, 9), chance.randint(4, 9)
        yield fitting(arched(w, d, chance.choice((40, 3000, 18000, 40000))),
                      step=chance.choice((10, 300, 2000, 6000)),
                      radius=chance.choice((15, 900, 6000, 12500)))
    for _ in range(10):
        w, d = chance.randint(3, 6), chance.randint(3, 6)
        yield fitting(bowl(w, d, chance.choice((1, 30, 1000, 3800))),
                      step=chance.choice((1, 50, 1000, 4000)),
                      radius=chance.choice((3, 400, 5000, 12500)))

    # Small numbers throughout, where a rounding moves much: many of these have a lower
    # z above the upper one.
    for _ in range(60):
        rows = rough(chance, 3, 3, chance.choice((1, 2, 4)))
        yield fitting(rows, step=chance.randint(1, 3), radius=chance.randint(1, 5))

    # Random, gentle and rough.
    for top in (1, 10, 200, 3000, 12500, 50000):
        for _ in range(8):
            rows = rough(chance, chance.randint(3, 6), chance.randint(3, 6), top)
            yield fitting(rows, step=chance.choice((1, 20, 900, 10000, chance.randint(1, 10000))),
                          radius=chance.choice((1, 60, 4000, 12500, chance.randint(1, 12500))))
    yield fitting(rough(chance, 30, 25, 2500), step=800, radius=7000)
    yield fitting(rough(chance, 40, 3, 600), step=150, radius=12500)

    # A list that is lifted, with other buffers.
    for room in (0, 29, 31, 32, 100):
        yield make_map(at_places((3,), 1000), step=1000, radius=3000), room


def digest(some_bytes):
    value = 1
    for x in some_bytes:
        value = (value * 257 + x + 1) % 4294967291
    return value


def list_files():
    given, expected = [], []
    for a_map, room in itertools.chain(old_frames(), lift_frames()):
        assert len(a_map) <= plate.LONGEST_MAP + 1 and room <= plate.LONGEST_LIST + 1
        given.append(struct.pack("<II", len(a_map), room) + a_map)
        lent = bytes((j * 7 + 3) % 256 for j in range(room))
        for call in (plate.cutter_list, plate.lifted_list):
            for rounding in range(5):
                refusal, length, after = call(rounding, a_map, lent)
                assert len(after) == room
                expected.append("%d %d %d\n" % (refusal, length, digest(after)))
    assert digest(b"".join(given[:381])) == 2971492099      # the frames before #104, unchanged
    return b"".join(given), "".join(expected).encode()


# ------------------------------------------------------------------ record

def make_list(numbers, w=3, d=3, letters=None, rounding=None, behind=b"", **others):
    """A list of any numbers, each taken in 32 bits: without a rounding CUT1, document
    01's kind, with one CUT2. Other letters stand where that kind has its own."""
    body = b"".join(struct.pack("<I", number % 2**32) for number in numbers)
    if letters is None:
        letters = b"CUT1" if rounding is None else b"CUT2"
    if rounding is not None:
        behind = struct.pack("<H", rounding) + behind
    return with_trailer(body, letters, w, d, behind=behind, **others)


# Of a list 3 x 3 the first is a record's index and the others are not.
SOME_INDEXES = (0, 1, 2**64 - 1)

# Both ends of 32 bits, bytes that a sign could be taken from, and letters.
NUMBERS = (0, 1, -1, 2, 2**31 - 1, -2**31, 1 - 2**31, 127, 128, 255, 256, -256, 2**15,
           2**16 - 1, 2**16, -2**16, 2**23, 2**24, -2**24, 0x7FFF8000, 0x55AA55AA,
           -0x55AA55AA, *(plate.whole(letters) for letters in (b"CUT1", b"CUT2", b"PLT1")))

# Not of 0 to 3; one byte of some is.
NO_ROUNDINGS = (4, 5, 7, 8, 127, 128, 252, 254, 255, 256, 257, 258, 259, 260, 511, 512, 513,
                768, 1023, 1024, 2**15 - 1, 2**15, 2**15 + 1, 2**16 - 256, 2**16 - 253,
                2**16 - 4, 2**16 - 2, 2**16 - 1)


def beyond(chance, count):
    """Indexes that are not below the count. Those with k would find a record in
    arithmetic of 16, 32 or 64 bits: themselves, or 12 times themselves."""
    k = chance.randrange(count)
    return [count, count + 1, 2**16, 2**16 + k, 2**30 + k, 2**31, 2**32 - 1, 2**32,
            2**32 + k, 2**62 + k, 2**63, 2**64 - 1]


def each(chance, count, others=4):
    """Every index of a short list, and some beyond."""
    return [*range(count), count, *chance.sample(beyond(chance, count), others)]


def ends(chance, count):
    return sorted({0, min(1, count - 1), count - 1, count, chance.randrange(count)})


def some_records(chance, count):
    return [chance.choice((chance.choice(NUMBERS), chance.randrange(2**32)))
            for _ in range(3 * count)]


def kind_frames(chance, new, share=1):
    """Lists of one kind: CUT2 if new, else CUT1, drawn as in #101. A share of 4 makes a
    quarter of what is tried many times."""
    roundings = range(4)

    def a_list(*given, **others):
        """A list of any numbers. A new one has one of the roundings."""
        if new:
            others["rounding"] = chance.choice(roundings)
        return make_list(*given, **others)

    def written(rows, rounding, **others):
        """The list of a map, as the list call writes it, or wrote it before #102."""
        a_map = make_map(rows, **others)
        assert plate.list_refusal(rounding, a_map, exact_length(rows)) == 0
        return (plate.whole_list if new else plate.old_list)(rounding, a_map)

    trailer = a_list([])
    tail = len(trailer)

    # Document 01's example.
    example = written(plane(3, 3, 1500, 0), plate.NEAREST, step=2000, radius=5000)
    yield example, [0, *beyond(chance, 1)]

    # Lists of maps, in the four roundings.
    for trial in range(24 // share):
        w, d = chance.randint(3, 6), chance.randint(3, 6)
        rows = (cross(100000, -99999, 50000) if trial == 0 else steep(w, d) if trial < 4
                else rough(chance, w, d, chance.choice((1, 20, 3000, 50000))))
        step, radius = chance.randint(1, 10000), chance.randint(1, 12500)
        for rounding in range(4):
            made = written(rows, rounding, step=step, radius=radius)
            yield made, each(chance, (len(made) - tail) // 12)

    # Long and thin, then middling.
    for w, d in ((3, 64), (64, 3)):
        yield written(rough(chance, w, d, 4000), plate.DOWN, step=500), each(chance, 62, 1)
    for w, d in ((12, 20), (33, 7), (64, 4)):
        made = written(arched(w, d, 9000), plate.UP, radius=12500)
        count = (w - 2) * (d - 2)
        yield made, [*ends(chance, count), *(chance.randrange(count) for _ in range(20)),
                     *beyond(chance, count)]

    # The largest, and one byte more. Row after row has 62 records.
    largest = written(rough(chance, 64, 64, 50000), plate.UP, step=10000, radius=12500)
    edges = [k * 62 + more for k in (0, 1, 2, 31, 61) for more in (0, 1, 60, 61)]
    yield largest, [*edges, *(chance.randrange(62 * 62) for _ in range(32)),
                    *beyond(chance, 62 * 62)]
    yield bytes(1) + largest, [0, 62 * 62 - 1, 62 * 62]

    # Records with any values: each bit alone and each bit missing, then each of the
    # numbers as x, as y and as z, then anything.
    bits = [number for k in range(32) for number in (1 << k, ~(1 << k), -1 << k)]
    yield a_list(bits, 4, 18), each(chance, 32)
    shifted = (NUMBERS[k:] + NUMBERS[:k] for k in (0, 7, 13))
    numbers = [number for record in zip(*shifted) for number in record]
    yield a_list(numbers, 3, 2 + len(NUMBERS)), each(chance, len(NUMBERS))
    for _ in range(40 // share):
        w, d = chance.randint(3, 6), chance.randint(3, 6)
        made = a_list(some_records(chance, (w - 2) * (d - 2)), w, d,
                      step=chance.randint(1, 10000), radius=chance.randint(1, 12500))
        yield made, each(chance, (w - 2) * (d - 2), 2)

    # Every edge of step and radius.
    for step in (1, 2, 9999, 10000):
        for radius in (1, 2, 10001, 12499, 12500):
            yield a_list(some_records(chance, 1), step=step, radius=radius), SOME_INDEXES

    # w and d exchanged, and others of the same product of w - 2 and d - 2: accepted.
    # 4 x 6 has as many bytes of heights as of records. The rest disagree.
    for w, d in ((3, 8), (8, 3), (4, 5), (5, 4), (3, 9), (5, 8), (3, 7)):
        yield a_list(some_records(chance, 6), w, d), ends(chance, 6)
    for w, d in ((4, 6), (6, 4), (3, 10), (10, 3), (5, 5)):
        yield a_list(some_records(chance, 8), w, d), ends(chance, 8)

    # What follows is refused before 2 is asked, so half of the roundings are wrong.
    roundings = (0, 1, 2, 3) * (len(NO_ROUNDINGS) // 4) + NO_ROUNDINGS

    # 5: every length to one more than a trailer's, of what a list, a map and letters
    # begin or end with.
    for whole in (example, trailer + bytes(1), bytes(1) + trailer, a_list([], distance=12),
                  make_map(flat(3, 3)), trailer[:4] * 5, bytes(tail + 1), b"\xff" * (tail + 1)):
        for length in range(tail + 2):
            for cut in sorted({whole[:length], whole[len(whole) - length:]}):
                yield cut, chance.sample(SOME_INDEXES, 2)

    # 12: letters, those of other kinds of list at their own places too.
    for letters in (b"DUT1", b"CVT1", b"CUU1", b"CUT2", b"CUT3", b"CUT0", b"cut1", b"PLT1",
                    b"1TUC", b"\0\0\0\0", b"CUT\xb1", b"CUT\0", b"\0UT1", b"TUC1"):
        yield a_list(some_records(chance, 1), letters=letters), SOME_INDEXES
    for behind in (b"\0", b"\0\0", bytes(4), b"CUT1", bytes(12), bytes(16), trailer[:15]):
        for letters in (b"CUT1", b"CUT2", b"CUT3"):
            yield a_list(some_records(chance, 1), letters=letters, behind=behind), SOME_INDEXES
    for rounding in range(5):
        behind = struct.pack("<H", rounding)
        yield a_list(some_records(chance, 2), 4, 3, b"CUT2", behind=behind), ends(chance, 2)
        behind = bytes(2) + behind
        yield a_list(some_records(chance, 2), 4, 3, b"CUT3", behind=behind), ends(chance, 2)
    yield make_map(flat(3, 3)), SOME_INDEXES
    yield bytes(46), SOME_INDEXES
    # A second trailer behind: it speaks for the whole, which is too long.
    yield a_list(some_records(chance, 1)) + trailer, SOME_INDEXES
    yield example * 2, SOME_INDEXES

    # 7: w and d, with records and distances that agree where that is possible.
    for size in (0, 1, 2, 65, 66, 128, 256, 259, 768, 32771, 65535):
        for w, d in ((size, 3), (3, size), (size, 64), (size, size)):
            count = (w - 2) * (d - 2)
            records = some_records(chance, count if 0 <= count < 70 else 1)
            yield a_list(records, w, d, distance=12 * count), SOME_INDEXES[:2]

    # 8: step and radius.
    for step, radius in ((0, 1), (1, 0), (0, 0), (10001, 12500), (10000, 12501), (12500, 1),
                         (10001, 12501), (65535, 1), (1, 65535), (32769, 1), (1, 32769),
                         (256, 0), (0, 256)):
        yield a_list(some_records(chance, 1), step=step, radius=radius), SOME_INDEXES

    # 13: the distance back, then the whole length, then both in step.
    for w, d in ((3, 3), (4, 5)):
        count = (w - 2) * (d - 2)
        right = 12 * count
        for distance in (0, 1, right - 12, right - 1, right + 1, right + 4, right + 12,
                         right + tail, 4 * w * d, 12 * w * d, right + 2**8, right + 2**16,
                         right + 2**24, right + 2**31, -right, -1, -tail, 2**31):
            yield a_list(some_records(chance, count), w, d, distance=distance), ends(chance, count)
        for front in (b"\0", bytes(4), b"CUT1", bytes(12), trailer, bytes(right)):
            for distance in (right, right + len(front)):
                yield a_list(some_records(chance, count), w, d, front=front,
                             distance=distance), ends(chance, count)
        for missing in (1, 4, 11, 12, right):
            for distance in (right, right - missing):
                made = a_list(some_records(chance, count), w, d, distance=distance)
                yield made[missing:], ends(chance, count)
        # As long as a map of these sizes.
        yield a_list([0] * (w * d), w, d), ends(chance, count)

    # Faults 12, 7, 8 and 13 by two, by three and all at once; 14 is with them in
    # the later indexes.
    faults = {12: (dict(letters=b"CUT\0"), dict(letters=b"PLT1"), dict(behind=b"\0")),
              7: (dict(w=2), dict(d=2), dict(w=65), dict(d=65535), dict(w=1, d=1)),
              8: (dict(step=0), dict(step=10001), dict(radius=0), dict(radius=12501)),
              13: (dict(distance=0), dict(distance=24), dict(front=b"\0"),
                   dict(front=bytes(12), distance=24))}
    for count in (2, 3, 4):
        for chosen in itertools.combinations(faults, count):
            for _ in range(8 // share):
                settings = {}
                for number in chosen:
                    settings.update(chance.choice(faults[number]))
                yield a_list(some_records(chance, 1), **settings), SOME_INDEXES

    # Lists of maps with one byte changed, of the trailer in every second.
    for trial in range(600 // share):
        rows = rough(chance, chance.randint(3, 5), chance.randint(3, 5), 20000)
        made = bytearray(written(rows, trial % 4, step=chance.randint(1, 10000),
                                 radius=chance.randint(1, 12500)))
        place = chance.randrange(tail) - tail if trial % 2 else chance.randrange(len(made))
        made[place] ^= chance.randint(1, 255)
        count = (len(made) - tail) // 12
        yield bytes(made), sorted({0, chance.randrange(count), count - 1, count})


def both_frames(chance):
    """Roundings, and lists of one kind that could be taken for the other."""
    a_map = make_map(plane(3, 3, 1500, 0), step=2000, radius=5000)
    old, new = plate.old_list(plate.UP, a_map), plate.whole_list(plate.UP, a_map)
    trailer, new_trailer = old[12:], new[12:]

    def both(numbers, *sizes, **others):
        for rounding in (None, chance.randrange(4)):
            yield make_list(numbers, *sizes, rounding=rounding, **others)

    # Document 01's example, in the four roundings.
    for rounding in range(4):
        yield plate.whole_list(rounding, a_map), [0, *beyond(chance, 1)]

    # 2: every rounding that is written, and roundings that are not.
    for rounding in (0, 1, 2, 3, *NO_ROUNDINGS):
        yield make_list(some_records(chance, 2), 3, 4, rounding=rounding), ends(chance, 2)

    # Two of the numbers behind the distance exchanged.
    for fields in ((5, 4, 30, 40, 3), (4, 3, 2, 1, 0), (3, 3, 3, 2, 1), (3, 4, 4, 5, 3)):
        count = (fields[0] - 2) * (fields[1] - 2)
        for one, other in itertools.combinations(range(5), 2):
            exchanged = list(fields)
            exchanged[one], exchanged[other] = fields[other], fields[one]
            w, d, step, radius, rounding = exchanged
            yield make_list(some_records(chance, count), w, d, step=step, radius=radius,
                            rounding=rounding), ends(chance, count)

    # 16 to 19 bytes, with room for one of the trailers or for both.
    for whole in (old, trailer + bytes(3), bytes(3) + trailer, b"CUT2" + trailer,
                  make_list([], distance=12, rounding=4)):
        for length in range(16, min(len(whole), 19) + 1):
            for cut in sorted({whole[:length], whole[-length:]}):
                yield cut, SOME_INDEXES[:2]

    # 12: letters at both places, then CUT1 at CUT2's. CUT2 at CUT1's is above.
    for letters in (b"DUT2", b"CVT2", b"CUU2", b"cut2", b"2TUC", b"CUT\xb2", b"\0UT2", b"CUT\2"):
        for made in both(some_records(chance, 1), letters=letters):
            yield made, SOME_INDEXES
    for rounding in (0, 1, 2, 3, 4, 256):
        yield make_list(some_records(chance, 1), letters=b"CUT1", rounding=rounding), SOME_INDEXES
    # Each kind at every place from 13 to 22 bytes from the end; at its own it is sound.
    for letters in (b"CUT1", b"CUT2", b"CUT3"):
        for more in range(-3, 7):
            made = make_list(some_records(chance, 2), 4, 3, letters)
            yield made[:more] if more < 0 else made + bytes(more), ends(chance, 2)
        for behind in (b"\1", b"\1\0", b"\0\1", b"\4\0", b"CUT2", new_trailer[:15],
                       new_trailer[:17]):
            yield make_list(some_records(chance, 1), letters=letters, behind=behind), SOME_INDEXES

    # Letters in the records: just before the trailer, half of them, a list in a list.
    for letters in (b"CUT1", b"CUT2", b"\0\0CU", b"T1CU", b"T2CU", b"UCUT", b"2CUT"):
        numbers = [*some_records(chance, 1), 0, plate.whole(b"CUT2"), plate.whole(letters)]
        for made in both(numbers, 4, 3):
            yield made, ends(chance, 2)
    for inner, more in itertools.product((old, new), range(4)):
        body = inner + bytes(more)
        body = bytes(-len(body) % 12) + body
        count = len(body) // 12
        numbers = [plate.whole(body[k:k + 4]) for k in range(0, len(body), 4)]
        for made in both(numbers, 3, 2 + count):
            yield made, ends(chance, count)
    # The other kind's trailer, or a list of it, behind.
    for one, other in ((old, new_trailer), (old, new), (new, trailer), (new, old)):
        yield one + other, SOME_INDEXES

    # 13: distances and lengths that are between the kinds, two bytes more or fewer.
    for rounding in (None, 2, 5):
        for start, distance in ((2, 22), (2, 26), (2, 40), (2, 42), (2, -16), (2, -18),
                                (2, plate.whole(b"CUT1")), (2, plate.whole(b"CUT2")),
                                (0, 24), (0, 26), (4, 22), (4, 24)):
            made = make_list(some_records(chance, 2), 3, 4, front=bytes(2), distance=distance,
                             rounding=rounding)
            yield made[start:], ends(chance, 2)


def record_frames():
    # The lists of #101 stand first, as they were.
    yield from kind_frames(random.Random("record"), new=False)
    yield from kind_frames(random.Random("record CUT2"), new=True, share=4)
    yield from both_frames(random.Random("record CUT1 and CUT2"))


RECORD_ROOM = 400000            # the program record_vectors is given fewer bytes


def record_files():
    given, expected = [], []
    for some_list, indexes in record_frames():
        assert len(some_list) <= plate.LONGEST_LIST + 1 and len(indexes) <= 64
        given.append(struct.pack(f"<II{len(some_list)}s{len(indexes)}Q", len(some_list),
                                 len(indexes), some_list, *indexes))
        for index in indexes:
            refusal, rounding, *numbers = plate.record(some_list, index)
            known = "-" if rounding is None else rounding
            expected.append(" ".join(map(str, (refusal, known, *numbers))) + "\n")
    assert sum(map(len, given)) < RECORD_ROOM
    assert digest(b"".join(given[:1293])) == 16439872      # the lists of #101, unchanged
    return b"".join(given), "".join(expected).encode()


# --------------------------------------------------------------- platelist

def platelist_files():
    given = make_map(plane(3, 3, 1500, 0), step=2000, radius=5000)
    return given, plate.platelist(given)


def main():
    check = sys.argv[1:] == ["--check"]
    if sys.argv[1:] and not check:
        sys.exit("usage: make_vectors.py [--check]")
    differing = 0
    for name, files in (("call_vectors", call_files), ("binary64_vectors", binary64_files),
                        ("list_vectors", list_files), ("record_vectors", record_files),
                        ("platelist", platelist_files)):
        for file, content in zip(("stdin", "stdout"), files()):
            path = CRATES / name / file
            if check:
                if not path.is_file() or path.read_bytes() != content:
                    print(f"{path} differs")
                    differing = 1
            else:
                path.parent.mkdir(parents=True, exist_ok=True)
                path.write_bytes(content)
                print(f"{path.relative_to(CRATES.parent)}: {len(content)} bytes, "
                      f"{content.count(10)} newlines")
    sys.exit(differing)


if __name__ == "__main__":
    main()
