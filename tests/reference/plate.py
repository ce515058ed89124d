"""The plate unit, written from documents 01 and 02 alone.

Whole numbers and fractions only, no floats. It is written to be laid beside
the documents, not to be fast. The order is document 01's: raw unit, binary32
unit, map and list, questions at the door, the program platelist. Of document
02 it has requests #101, the reader, #102, the rounding in the list, and #104,
the lifted list, which stand with the list, #105, the nearest M, which stands
in step 4 of the raw unit, and #106, binary64, which stands with the raw unit and
behind the binary32 unit. The steps and the rounding are written once, for both
widths.

    raw(operation, significand, parity)            -> (refusal, answer)
    fill_tables(lent)                              -> (refusal, lent)
    raw64(operation, significand, parity, lent)    -> (refusal, answer)
    binary32(operation, rounding, bits, status)    -> (refusal, bits, status)
    binary64(operation, rounding, bits, status, lent)
                                                   -> (refusal, bits, status)
    cutter_list(rounding, map_bytes, buffer_bytes) -> (refusal, length, buffer)
    lifted_list(rounding, map_bytes, buffer_bytes) -> (refusal, length, buffer)
    record(list_bytes, index)                      -> (refusal, rounding, w, d,
                                                       step, radius, x, y, z)
    platelist(input_bytes)                         -> output bytes

Refusal 0 means that the call was accepted. The rounding of a list is None where
it is unknown, and after a refusal.
Run as a program it is platelist: python3 plate.py < map
"""

import sys
from fractions import Fraction
from math import isqrt
from typing import NamedTuple

# Operations
RECIPROCAL, ROOT, INVERSE_ROOT = 1, 2, 3

# Roundings
NEAREST, UP, DOWN, TOWARD_ZERO = 0, 1, 2, 3

# Flags of the status byte
INVALID, DIVISION_BY_ZERO, OVERFLOW, UNDERFLOW, INEXACT = 1, 2, 4, 8, 16
ALL_FLAGS = 31


class Width(NamedTuple):
    """A format's bits of exponent and of fraction, and the k of its raw steps."""
    exponent_bits: int
    fraction_bits: int
    k: int


BINARY32 = Width(8, 23, 7)
BINARY64 = Width(11, 52, 15)


# ---------------------------------------------------------------- Raw unit
#
# The powers of two are document 01's at k = 7 with 23 fraction bits. #106 prints
# some of them at k = 15 with 52.

def interval(y, width):
    """Step 1: i, the first k + 1 bits of a significand."""
    return y // 2**(width.fraction_bits - width.k)


def interval_reciprocal(i, width):
    """Step 1: R."""
    return 2**(2*width.k + 1) // i


def reduction(y, width=BINARY32):
    """Steps 1 and 2: R, s and a of a significand. a counts units of 2**-4k."""
    k, t = width.k, width.fraction_bits
    r = interval_reciprocal(interval(y, width), width)
    d = y * r - 2**(t + k + 1)
    s = 1 if d >= 0 else -1
    a = abs(d) // 2**(t + 1 - 3*k)
    return r, s, a


def series(operation, s, a, width=BINARY32):
    """The digits of step 2 and the b of step 3. Python's // floors."""
    one = 2**(4*width.k)
    digit = 2**width.k
    a2 = a // digit**2
    a3 = a // digit % digit
    h = a2**2 // digit
    if operation == RECIPROCAL:
        return (digit * (one - s*a + a2**2) + 2*a2*a3 - s*h*a2) // digit
    if operation == ROOT:
        terms = digit * (16*one + 8*s*a - 2*a2**2) - 4*a2*a3 + s*h*a2
    else:
        terms = digit * (16*one - 8*s*a + 6*a2**2) + 12*a2*a3 - 5*s*h*a2
    return terms // (16*digit)


def nearest_root(n, d):
    """The whole number nearest to sqrt(n / d). It is low or low + 1; their middle,
    low + 1/2, is compared with the root by four times the squares."""
    low = isqrt(n // d)
    middle = (2*low + 1)**2 * d                 # against 4n
    assert middle != 4*n                        # no tie occurs
    return low + (middle < 4*n)


def exact_square(operation, r, p, width):
    """The square of a root's exact M, as two whole numbers n and d for n / d. At k = 7
    document 01 gives it by w*w*R = 2**(64+p) and w*w*2**(8+p) = R*2**56."""
    k = width.k
    if operation == ROOT:
        return 2**(9*k + 1 + p), r
    return r * 2**(8*k), 2**(k + 1 + p)


def multiplier(operation, r, p, width=BINARY32):
    """Step 4: M. Since #105 M of both roots is the whole number nearest to the exact
    one."""
    if operation == RECIPROCAL:
        return r * 2**(3*width.k - 1)
    return nearest_root(*exact_square(operation, r, p, width))


def raw_answer(operation, y, m, width):
    """Step 5: g."""
    _, s, a = reduction(y, width)
    return m * series(operation, s, a, width) // 2**(4*width.k)


def raw(operation, significand, parity):
    refusal = raw_refusal(operation, significand, parity, BINARY32)
    if refusal:
        return refusal, 0
    r, _, _ = reduction(significand)
    m = multiplier(operation, r, parity)
    return 0, raw_answer(operation, significand, m, BINARY32)


# #106: the tables of M in the slice that the caller lends.

TABLES = (ROOT, 0), (ROOT, 1), (INVERSE_ROOT, 0), (INVERSE_ROOT, 1)
ENTRIES = 131072


def all_tables():
    """The four tables, each with i from 2**15 to 2**16 - 1."""
    return [multiplier(operation, interval_reciprocal(i, BINARY64), p, BINARY64)
            for operation, p in TABLES
            for i in range(2**15, 2**16)]


def fill_tables(lent):
    if not right_length(lent):
        return 15, lent
    return 0, all_tables()


def entry_place(operation, y, p):
    """The place in the slice of the entry that a significand and a parity use."""
    return TABLES.index((operation, p)) * 2**15 + interval(y, BINARY64) - 2**15


def is_multiplier(entry, operation, y, p):
    """The M rule of #105 by multiplication: the exact M is above entry - 1/2 and below
    entry + 1/2. Twice the numbers and four times the squares are whole."""
    r, _, _ = reduction(y, BINARY64)
    n, d = exact_square(operation, r, p, BINARY64)
    return entry > 0 and (2*entry - 1)**2 * d < 4*n < (2*entry + 1)**2 * d


def raw64(operation, significand, parity, lent):
    refusal = raw64_refusal(operation, significand, parity, lent)
    if refusal:
        return refusal, 0
    if operation == RECIPROCAL:
        r, _, _ = reduction(significand, BINARY64)
        m = multiplier(operation, r, parity, BINARY64)
    else:
        m = lent[entry_place(operation, significand, parity)]
    return 0, raw_answer(operation, significand, m, BINARY64)


# ----------------------------------------------------------- Binary32 unit

def infinity(width):
    """The pattern of plus infinity: 7F800000, 7FF0000000000000."""
    return (2**width.exponent_bits - 1) << width.fraction_bits


def largest(width):
    """The pattern of the largest number: 7F7FFFFF, 7FEFFFFFFFFFFFFF."""
    return infinity(width) - 1


def the_nan(width):
    """7FC00000, 7FF8000000000000."""
    return infinity(width) + 2**(width.fraction_bits - 1)


def bias(width):
    """127, 1023: what an exponent field is above the exponent."""
    return 2**(width.exponent_bits - 1) - 1


def fields(bits, width=BINARY32):
    """Sign, exponent and fraction of a pattern."""
    return (bits >> width.exponent_bits + width.fraction_bits,
            bits >> width.fraction_bits & 2**width.exponent_bits - 1,
            bits & 2**width.fraction_bits - 1)


def value(pattern, width=BINARY32):
    """The value of a pattern from zero to the largest number. For infinity the
    same rule gives 2**128 or 2**1024, its place as a neighbour."""
    _, e, f = fields(pattern, width)
    if e == 0:
        e = 1
    else:
        f += 2**width.fraction_bits
    return f * Fraction(2)**(e - bias(width) - width.fraction_bits)


def compare(v, operation, x):
    """-1, 0 or 1 as v is below, equal to or above the exact result of the
    operation on x, both positive or v zero. Roots are compared by squares."""
    if operation == RECIPROCAL:
        left, right = v * x, 1
    elif operation == ROOT:
        left, right = v * v, x
    else:
        left, right = v * v * x, 1
    return (left > right) - (left < right)


def lower_neighbour(operation, x, width):
    """The largest pattern of a number whose value is not above the exact
    result. Patterns stand in the order of their values."""
    low, high = 0, infinity(width)
    while high - low > 1:
        middle = (low + high) // 2
        if compare(value(middle, width), operation, x) <= 0:
            low = middle
        else:
            high = middle
    return low


def takes_upper(rounding, negative, half, odd):
    """Whether the upper of two neighbouring magnitudes is the answer. The exact
    magnitude lies between them, or beyond where the upper one is infinity.
    half is -1, 0 or 1 as it lies below, at or above the middle; odd says that
    the lower neighbour is odd."""
    if rounding == NEAREST:
        return half > 0 or half == 0 and odd
    if rounding == UP:
        return not negative
    if rounding == DOWN:
        return negative
    return False


def rounded(operation, rounding, negative, x, width):
    """The rounded magnitude, as a pattern, and the flags, for an exact result
    that has a magnitude above zero. x is the operand's magnitude."""
    low = lower_neighbour(operation, x, width)
    if compare(value(low, width), operation, x) == 0:
        return low, 0
    flags = INEXACT
    middle = (value(low, width) + value(low + 1, width)) / 2
    half = -compare(middle, operation, x)
    pattern = low + takes_upper(rounding, negative, half, low % 2 == 1)
    # Overflow, IEEE 754-2019, 7.4: with an unbounded exponent the rounded
    # magnitude would be 2**128 or 2**1024, or more.
    beyond = Fraction(2)**(bias(width) + 1)
    if compare(beyond, operation, x) <= 0 or pattern > largest(width):
        flags |= OVERFLOW
    # Underflow: below 2**-126 or 2**-1022 before rounding, and inexact.
    if compare(Fraction(2)**(1 - bias(width)), operation, x) > 0:
        flags |= UNDERFLOW
    return pattern, flags


def result(operation, rounding, bits, width):
    """The answer's pattern and the flags that the operation raises."""
    sign, e, f = fields(bits, width)
    top = 2**width.exponent_bits - 1
    sign_bit = sign << width.exponent_bits + width.fraction_bits
    is_zero = e == 0 and f == 0
    is_infinite = e == top and f == 0
    if e == top and f != 0:
        signalling = f >> width.fraction_bits - 1 == 0
        return the_nan(width), INVALID if signalling else 0
    if sign == 1 and not is_zero and operation != RECIPROCAL:
        return the_nan(width), INVALID
    if is_zero:
        if operation == ROOT:
            return bits, 0
        return sign_bit | infinity(width), DIVISION_BY_ZERO
    if is_infinite:
        if operation == ROOT:
            return infinity(width), 0
        return sign_bit, 0
    x = value(bits - sign_bit, width)
    pattern, flags = rounded(operation, rounding, sign == 1, x, width)
    return sign_bit | pattern, flags


def binary32(operation, rounding, bits, status):
    refusal = rounded_refusal(operation, rounding)
    if refusal:
        return refusal, 0, status
    answer, flags = result(operation, rounding, bits, BINARY32)
    return 0, answer, status & ALL_FLAGS | flags


# ------------------------------------------------------ Binary64 unit, #106

def uses_entry(operation, bits):
    """Whether a root is worked with an entry of M: not of a zero, an infinity or a
    NaN, nor of a negative operand, which is invalid."""
    sign, e, f = fields(bits, BINARY64)
    return operation != RECIPROCAL and sign == 0 and e != 2047 and (e, f) != (0, 0)


def normalized(x):
    """The significand and the parity of x = Y * 2**e with 1 <= Y < 2, a subnormal's
    too. Python's % gives a negative odd e the parity 1. The denominator of x is a
    power of two."""
    e = x.numerator.bit_length() - x.denominator.bit_length()
    y = x / Fraction(2)**e * 2**52
    assert y.denominator == 1 and 2**52 <= y < 2**53
    return y.numerator, e % 2


def binary64(operation, rounding, bits, status, lent):
    refusal = binary64_refusal(operation, rounding, bits, lent)
    if refusal:
        return refusal, 0, status
    answer, flags = result(operation, rounding, bits, BINARY64)
    return 0, answer, status & ALL_FLAGS | flags


# ------------------------------------------------------------ Map and list

TRAILER = 16                    # of a map, and of document 01's lists
LIST_TRAILER = 18               # of the lists written since #102


def whole(some_bytes):
    """An unsigned little-endian number."""
    return int.from_bytes(some_bytes, "little")


def signed(some_bytes):
    return int.from_bytes(some_bytes, "little", signed=True)


def trailer(some_bytes, letters, length):
    """The last bytes, this many, where the letters stand at their front; else None."""
    last = some_bytes[-length:]
    return last if len(last) == length and last[:4] == letters else None


def map_trailer(map_bytes):
    return trailer(map_bytes, b"PLT1", TRAILER)


def list_trailer(list_bytes):
    """#102 looks for document 01's kind, then for its own."""
    return (trailer(list_bytes, b"CUT1", TRAILER)
            or trailer(list_bytes, b"CUT2", LIST_TRAILER))


def sizes(end):
    """The w, d, step and radius that a trailer states."""
    return whole(end[8:10]), whole(end[10:12]), whole(end[12:14]), whole(end[14:16])


def stated_rounding(end):
    """The rounding that a list's trailer states, None where it has no place for one."""
    return whole(end[16:18]) if len(end) == LIST_TRAILER else None


def heights(map_bytes):
    """Every height, row by row."""
    body = map_bytes[:-TRAILER]
    return [signed(body[k:k + 4]) for k in range(0, len(body), 4)]


def offset(rounding, component, radius, q):
    """component * radius / sqrt(q), rounded once to a whole number."""
    negative = component < 0
    t = abs(component) * radius
    low = isqrt(t**2 // q)                      # floor of t / sqrt(q)
    if low**2 * q == t**2:
        magnitude = low
    else:
        middle = (2*low + 1)**2 * q             # against (2t)**2
        half = ((2*t)**2 > middle) - ((2*t)**2 < middle)
        magnitude = low + takes_upper(rounding, negative, half, low % 2 == 1)
    return -magnitude if negative else magnitude


def centre(rounding, c, row, height, dx, dy, step, radius):
    """The centre over column c of a row: the map point plus the offsets."""
    q = dx**2 + dy**2 + 4 * step**2
    x = c * step + offset(rounding, -dx, radius, q)
    y = row * step + offset(rounding, -dy, radius, q)
    z = height + offset(rounding, 2 * step, radius, q)
    return x, y, z


def inner_points(w, d):
    """Column and row of each inner point, row by row."""
    return [(c, row) for row in range(1, d - 1) for c in range(1, w - 1)]


def centres(rounding, map_bytes):
    """One (x, y, z) per inner point of an accepted map, row by row."""
    w, d, step, radius = sizes(map_trailer(map_bytes))
    all_heights = heights(map_bytes)

    def height(c, row):
        return all_heights[row * w + c]

    records = []
    for c, row in inner_points(w, d):
        dx = height(c + 1, row) - height(c - 1, row)
        dy = height(c, row + 1) - height(c, row - 1)
        records.append(
            centre(rounding, c, row, height(c, row), dx, dy, step, radius))
    return records


def root_up(n):
    """The least whole number that is not below the root of n, n above 0."""
    return isqrt(n - 1) + 1


def lifted_centres(rounding, map_bytes):
    """#104: the same centres with z lifted over the nine heights round each point.
    A height is whole, so the least whole number that is not below it plus a root
    is it plus the root rounded up, whatever the rounding."""
    w, d, step, radius = sizes(map_trailer(map_bytes))
    all_heights = heights(map_bytes)
    records = []
    for (c, row), (x, y, z) in zip(inner_points(w, d), centres(rounding, map_bytes)):
        for near_row in (row - 1, row, row + 1):
            for near_c in (c - 1, c, c + 1):
                level = (x - near_c * step)**2 + (y - near_row * step)**2
                if level < radius**2:
                    height = all_heights[near_row * w + near_c]
                    z = max(z, height + root_up(radius**2 - level))
        records.append((x, y, z))
    return records


def record_count(w, d):
    return (w - 2) * (d - 2)


def list_length(w, d):
    return 12 * record_count(w, d) + LIST_TRAILER


def up_to_radius(records, map_bytes, letters):
    """The list of an accepted map as far as both kinds of list have the same places."""
    records = b"".join(
        number.to_bytes(4, "little", signed=True)
        for record in records
        for number in record)
    return records + letters + len(records).to_bytes(4, "little") + map_bytes[-8:]


def old_list(rounding, map_bytes):
    """Document 01's list, whole. No call writes it since #102."""
    return up_to_radius(centres(rounding, map_bytes), map_bytes, b"CUT1")


def whole_list(rounding, map_bytes, records_of=centres):
    """The whole list since #102, with the rounding after the radius."""
    records = records_of(rounding, map_bytes)
    return up_to_radius(records, map_bytes, b"CUT2") + rounding.to_bytes(2, "little")


def cutter_list(rounding, map_bytes, buffer_bytes, records_of=centres):
    refusal = list_refusal(rounding, map_bytes, len(buffer_bytes))
    if refusal:
        return refusal, 0, buffer_bytes
    made = whole_list(rounding, map_bytes, records_of)
    return 0, len(made), made + buffer_bytes[len(made):]


def lifted_list(rounding, map_bytes, buffer_bytes):
    """#104: the same call, but for the records."""
    return cutter_list(rounding, map_bytes, buffer_bytes, lifted_centres)


def record(list_bytes, index):
    """Document 02, #101 and #102: the rounding and the sizes of a list and one
    record of it."""
    refusal = record_refusal(list_bytes, index)
    if refusal:
        return refusal, None, 0, 0, 0, 0, 0, 0, 0
    end = list_trailer(list_bytes)
    place = 12 * index
    x, y, z = (signed(list_bytes[k:k + 4]) for k in (place, place + 4, place + 8))
    return 0, stated_rounding(end), *sizes(end), x, y, z


# --------------------------------------------------- Questions at the door

def operation_known(operation):                                        # 1
    return 1 <= operation <= 3


def rounding_known(rounding):                                          # 2
    return 0 <= rounding <= 3


def width_and_depth_fit(w, d):                                         # 7
    return 3 <= w <= 64 and 3 <= d <= 64


def step_and_radius_fit(step, radius):                                 # 8
    return 1 <= step <= 10000 and 1 <= radius <= 12500


def body_agrees(some_bytes, end, body):                                # 9, 13
    """Whether the distance back is this many bytes, and the whole that plus the
    trailer."""
    distance = whole(end[4:8])
    return distance == body and len(some_bytes) == distance + len(end)


def right_length(lent):                                                # 15
    return len(lent) == ENTRIES


def raw_refusal(operation, significand, parity, width):
    if not operation_known(operation):
        return 1
    if not 2**width.fraction_bits <= significand < 2**(width.fraction_bits + 1):
        return 3
    if not (parity == 0 or parity == 1 and operation in (ROOT, INVERSE_ROOT)):
        return 4
    return 0


def rounded_refusal(operation, rounding):
    if not operation_known(operation):
        return 1
    if not rounding_known(rounding):
        return 2
    return 0


def entry_refusal(operation, y, p, lent):                              # 16
    if not is_multiplier(lent[entry_place(operation, y, p)], operation, y, p):
        return 16
    return 0


def raw64_refusal(operation, significand, parity, lent):
    refusal = raw_refusal(operation, significand, parity, BINARY64)
    if refusal or operation == RECIPROCAL:
        return refusal
    if not right_length(lent):
        return 15
    return entry_refusal(operation, significand, parity, lent)


def binary64_refusal(operation, rounding, bits, lent):
    refusal = rounded_refusal(operation, rounding)
    if refusal or operation == RECIPROCAL:
        return refusal
    if not right_length(lent):
        return 15
    if not uses_entry(operation, bits):
        return 0
    return entry_refusal(operation, *normalized(value(bits, BINARY64)), lent)


def trailer_refusal(some_bytes, end, number):
    """What a map and a list are asked alike. end is the trailer, None where its
    letters were not found; that has a number of its own, 6 or 12."""
    if not len(some_bytes) >= TRAILER:
        return 5
    if end is None:
        return number
    w, d, step, radius = sizes(end)
    if not width_and_depth_fit(w, d):
        return 7
    if not step_and_radius_fit(step, radius):
        return 8
    return 0


def list_refusal(rounding, map_bytes, buffer_length):
    if not rounding_known(rounding):
        return 2
    end = map_trailer(map_bytes)
    refusal = trailer_refusal(map_bytes, end, 6)
    if refusal:
        return refusal
    w, d, _, _ = sizes(end)
    if not body_agrees(map_bytes, end, 4*w*d):
        return 9
    if not all(-50000 <= height <= 50000 for height in heights(map_bytes)):
        return 10
    if not buffer_length >= list_length(w, d):
        return 11
    return 0


def reader_refusal(list_bytes):
    """What the reader asks of a list before it looks at the index."""
    end = list_trailer(list_bytes)
    refusal = trailer_refusal(list_bytes, end, 12)
    if refusal:
        return refusal
    w, d, _, _ = sizes(end)
    if not body_agrees(list_bytes, end, 12 * record_count(w, d)):
        return 13
    rounding = stated_rounding(end)
    if not (rounding is None or rounding_known(rounding)):
        return 2
    return 0


def record_refusal(list_bytes, index):
    refusal = reader_refusal(list_bytes)
    if refusal:
        return refusal
    w, d, _, _ = sizes(list_trailer(list_bytes))
    if not 0 <= index < record_count(w, d):
        return 14
    return 0


# ------------------------------------------------------- Program platelist

LONGEST_MAP = 16400
LONGEST_LIST = 46146


def platelist(input_bytes):
    if len(input_bytes) > LONGEST_MAP:
        return b"refused 9\n"
    refusal, length, made = lifted_list(NEAREST, input_bytes, bytes(LONGEST_LIST))
    if refusal:
        return b"refused %d\n" % refusal
    w, d, step, radius = sizes(map_trailer(input_bytes))
    lines = [(w, d, step, radius)]
    numbers = [signed(made[k:k + 4]) for k in range(0, length - LIST_TRAILER, 4)]
    for index, (c, row) in enumerate(inner_points(w, d)):
        lines.append((c, row, *numbers[3 * index:3 * index + 3]))
    return "".join(" ".join(map(str, line)) + "\n" for line in lines).encode()


if __name__ == "__main__":
    sys.stdout.buffer.write(platelist(sys.stdin.buffer.read()))
