"""Self-test of plate.py: python3 tests/reference/test_plate.py

The expected values are typed from document 01, the reader's, the rounding's, the
lift's, the nearest M's and binary64's from requests #101, #102, #104, #105 and #106
of document 02.
Where a check comes from elsewhere (IEEE 754, the machine's own arithmetic, public
vectors, counting, work on paper) its comment says so.
"""

import itertools
import math
import random
import struct
import sys
import unittest
from decimal import Decimal, localcontext
from fractions import Fraction
from pathlib import Path

sys.dont_write_bytecode = True
sys.path.append(str(Path(__file__).resolve().parent.parent / "public"))

import make_vectors
import plate
import vectors
from plate import DIVISION_BY_ZERO, DOWN, INEXACT, INVALID, INVERSE_ROOT
from plate import NEAREST, OVERFLOW, RECIPROCAL, ROOT, TOWARD_ZERO, UNDERFLOW, UP

ROUNDINGS = (NEAREST, UP, DOWN, TOWARD_ZERO)
TABLES64 = plate.all_tables()
LIST_CALLS = (plate.cutter_list, plate.lifted_list)


def make_map(rows, step, radius):
    body = b"".join(struct.pack("<i", height) for row in rows for height in row)
    return body + b"PLT1" + struct.pack(
        "<IHHHH", len(body), len(rows[0]), len(rows), step, radius)


def lower_and_upper_agree(operation, x, most):
    """Demand 3's condition, by the operand's odd part and exponent. The reciprocal's
    powers of two go as far as most, either way."""
    n, d = x.numerator, x.denominator              # d is a power of two
    twos = (n & -n).bit_length() - d.bit_length()
    odd = n // (n & -n)
    if operation == RECIPROCAL:
        return odd == 1 and -most <= twos <= most
    if operation == ROOT:
        return twos % 2 == 0 and math.isqrt(odd)**2 == odd
    return odd == 1 and twos % 2 == 0


class Table(unittest.TestCase):
    """Document 01, "Table for proof", row by row."""

    def test_raw(self):
        self.assertEqual(plate.raw(1, 8388608, 0), (0, 268435456))
        self.assertEqual(plate.reduction(12582912), (170, -1, 1048576))
        self.assertEqual(plate.series(1, -1, 1048576), 269488144)
        self.assertEqual(plate.raw(1, 12582912, 0), (0, 178956970))
        self.assertEqual(plate.raw(1, 16777215, 0), (0, 134217736))
        self.assertEqual(plate.raw(2, 8388608, 1), (0, 379625062))
        self.assertEqual(plate.raw(3, 8388608, 1), (0, 189812531))

    def test_binary32(self):
        def both(operation, bits):
            down = plate.binary32(operation, DOWN, bits, 0)
            up = plate.binary32(operation, UP, bits, 0)
            return down, up

        self.assertEqual(both(RECIPROCAL, 0x40400000),
                         ((0, 0x3EAAAAAA, INEXACT), (0, 0x3EAAAAAB, INEXACT)))
        self.assertEqual(both(RECIPROCAL, 0xC0400000),
                         ((0, 0xBEAAAAAB, INEXACT), (0, 0xBEAAAAAA, INEXACT)))
        self.assertEqual(both(ROOT, 0x40000000),
                         ((0, 0x3FB504F3, INEXACT), (0, 0x3FB504F4, INEXACT)))
        for rounding in ROUNDINGS:
            self.assertEqual(plate.binary32(INVERSE_ROOT, rounding, 0x40800000, 0),
                             (0, 0x3F000000, 0))
            self.assertEqual(plate.binary32(RECIPROCAL, rounding, 0x7F000000, 0),
                             (0, 0x00400000, 0))
        self.assertEqual(both(RECIPROCAL, 0x00200000),
                         ((0, 0x7F7FFFFF, OVERFLOW | INEXACT),
                          (0, 0x7F800000, OVERFLOW | INEXACT)))

    def test_offset(self):
        q = 5000000
        self.assertEqual(1000**2 + 0 + 4 * 1000**2, q)
        self.assertEqual(plate.offset(DOWN, -1000, 1000, q), -448)
        self.assertEqual(plate.offset(UP, -1000, 1000, q), -447)
        self.assertEqual(plate.offset(TOWARD_ZERO, -1000, 1000, q), -447)
        self.assertEqual(plate.offset(DOWN, 2000, 1000, q), 894)
        self.assertEqual(plate.offset(UP, 2000, 1000, q), 895)

    def test_offset_in_a_map(self):
        a_map = make_map([[0, 500, 1000]] * 3, 1000, 1000)
        for rounding, x, z in ((DOWN, 1000 - 448, 500 + 894),
                               (UP, 1000 - 447, 500 + 895)):
            refusal, length, made = plate.cutter_list(rounding, a_map, bytes(30))
            self.assertEqual((refusal, length), (0, 30))
            self.assertEqual(made, struct.pack("<iii", x, 1000, z) + b"CUT2"
                             + struct.pack("<IHHHHH", 12, 3, 3, 1000, 1000, rounding))

    def test_significand_edges(self):
        self.assertEqual(plate.raw(1, 8388607, 0), (3, 0))
        self.assertEqual(plate.raw(1, 16777216, 0), (3, 0))

    def test_height_edges(self):
        for height, refusal in ((50000, 0), (50001, 10), (-50000, 0), (-50001, 10)):
            for place in range(9):
                rows = [[0] * 3 for _ in range(3)]
                rows[place // 3][place % 3] = height
                for call in LIST_CALLS:
                    got = call(NEAREST, make_map(rows, 1, 1), bytes(30))
                    self.assertEqual(got[0], refusal)

    def test_buffer_edges(self):
        # Two bytes more than the row has, #102.
        a_map = make_map([[0] * 3] * 3, 1, 1)
        for call, rounding in itertools.product(LIST_CALLS, ROUNDINGS):
            self.assertEqual(call(rounding, a_map, bytes(30))[:2], (0, 30))
            for room in (0, 27, 28, 29):
                self.assertEqual(call(rounding, a_map, b"x" * room), (11, 0, b"x" * room))
            refusal, length, made = call(rounding, a_map, b"x" * 40)
            self.assertEqual((refusal, length, made[30:]), (0, 30, b"x" * 10))


class Multipliers(unittest.TestCase):
    """#105: M of both roots, all 512 entries."""

    # Operation, parity, and the square of the exact M as a fraction by R: document 01
    # has w * w * R against 2**(64 + p), and w * w * 2**(8 + p) against R * 2**56.
    TABLES = ((ROOT, 0, lambda r: Fraction(2**64, r)),
              (ROOT, 1, lambda r: Fraction(2**65, r)),
              (INVERSE_ROOT, 0, lambda r: Fraction(r * 2**56, 2**8)),
              (INVERSE_ROOT, 1, lambda r: Fraction(r * 2**56, 2**9)))

    def entries(self, operation, p, square):
        """M and the exact one's square, for i from 128 to 255."""
        for r in (32768 // i for i in range(128, 256)):
            yield plate.multiplier(operation, r, p), square(r)

    def test_nearest(self):
        # By 60 digits of the exact one. It is more than 2**-45 away from any half.
        with localcontext() as context:
            context.prec = 60
            for table in self.TABLES:
                for m, square in self.entries(*table):
                    exact = (Decimal(square.numerator) / square.denominator).sqrt()
                    self.assertLess(abs(m - exact), Decimal(0.5) - Decimal(2)**-45)

    def test_no_tie(self):
        # Half of an odd number has four times its square odd. No such square is here.
        for table in self.TABLES:
            for _, square in self.entries(*table):
                self.assertFalse((4 * square).denominator == 1 and (4 * square) % 2 == 1)

    def test_changed_entries(self):
        # Document 01: the largest whole w with w * w not above the square.
        changed = []
        for table in self.TABLES:
            changed.append(0)
            for m, square in self.entries(*table):
                old = m if m * m <= square else m - 1
                self.assertTrue(old**2 <= square < (old + 1)**2)
                changed[-1] += m != old
        self.assertEqual(changed, [67, 68, 60, 70])

    def test_reciprocal(self):
        for r in range(128, 257):
            self.assertEqual(plate.multiplier(RECIPROCAL, r, 0), r * 2**20)

    def test_vectors(self):
        # Every entry has a raw vector that tells it from one less and one that tells it
        # from one more, so each of the changed entries is told from document 01's. The
        # one exception no call can tell: M 2**29 from 2**29 + 1, as b is below 2**28.
        told = {(ROOT, 1, 255, 1)}
        for operation, y, p in make_vectors.raw_calls():
            refusal, g = plate.raw(operation, y, p)
            if refusal == 0 and operation != RECIPROCAL:
                r, s, a = plate.reduction(y)
                b = plate.series(operation, s, a)
                m = plate.multiplier(operation, r, p)
                told.update((operation, p, y // 65536, more) for more in (-1, 1)
                            if (m + more) * b // 2**28 != g)
        self.assertEqual(len(told), 2 * 512)
        self.assertEqual(plate.multiplier(ROOT, 128, 1), 2**29)


class Platelist(unittest.TestCase):
    def test_example(self):
        a_map = make_map([[0, 1500, 3000]] * 3, 2000, 5000)
        self.assertEqual(plate.platelist(a_map),
                         b"3 3 2000 5000\n1 1 -1000 2000 5500\n")

    def test_lifted(self):
        # Lifted by the left neighbour and by the own height: Lift has both maps.
        self.assertEqual(plate.platelist(make_map([[0] * 3, [1, 0, 0], [0] * 3], 1, 3)),
                         b"3 3 1 3\n1 1 2 1 4\n")
        self.assertEqual(plate.platelist(make_map([[0, 500, 1000]] * 3, 1000, 1000)),
                         b"3 3 1000 1000\n1 1 553 1000 1395\n")

    def test_refusals(self):
        self.assertEqual(plate.platelist(b""), b"refused 5\n")
        self.assertEqual(plate.platelist(bytes(16)), b"refused 6\n")
        self.assertEqual(plate.platelist(bytes(16400)), b"refused 6\n")
        self.assertEqual(plate.platelist(bytes(16401)), b"refused 9\n")

    def test_longest(self):
        a_map = make_map([[0] * 64] * 64, 1, 1)
        self.assertEqual(len(a_map), 16400)
        self.assertEqual(plate.list_length(64, 64), 46146)
        lines = plate.platelist(a_map).decode().split("\n")
        self.assertEqual(lines[0], "64 64 1 1")
        self.assertEqual(lines[1], "1 1 1 1 1")
        self.assertEqual(lines[-2], "62 62 62 62 1")
        self.assertEqual((lines[-1], len(lines)), ("", 62 * 62 + 2))


class Refusals(unittest.TestCase):
    def test_raw_order(self):
        self.assertEqual(plate.raw(0, 0, 9), (1, 0))
        self.assertEqual(plate.raw(4, 8388608, 0), (1, 0))
        self.assertEqual(plate.raw(1, 0, 9), (3, 0))
        self.assertEqual(plate.raw(1, 8388608, 1), (4, 0))
        self.assertEqual(plate.raw(2, 8388608, 2), (4, 0))
        self.assertEqual(plate.raw(2, 8388608, 1)[0], 0)

    def test_binary32_order_and_status(self):
        self.assertEqual(plate.binary32(0, 4, 0x3F800000, 255), (1, 0, 255))
        self.assertEqual(plate.binary32(1, 4, 0x3F800000, 224), (2, 0, 224))
        self.assertEqual(plate.binary32(1, 0, 0x3F800000, 255), (0, 0x3F800000, 31))
        self.assertEqual(plate.binary32(1, 0, 0, 224), (0, 0x7F800000, 2))

    def test_list_order(self):
        def refusal(rounding=0, front=b"", letters=b"PLT1", distance=36, w=3, d=3,
                    step=1, radius=1, height=0, room=30):
            a_map = (front + struct.pack("<i", height) * 9 + letters
                     + struct.pack("<IHHHH", distance, w, d, step, radius))
            numbers = {call(rounding, a_map, bytes(room))[0] for call in LIST_CALLS}
            self.assertEqual(len(numbers), 1)
            return numbers.pop()

        # Each fault stands with every later fault, so the first must be told.
        wrong = dict(rounding=4, letters=b"CUT1", w=2, step=0, distance=35,
                     height=50001, room=29)
        order = ["rounding", "letters", "w", "step", "distance", "height", "room"]
        for k, number in enumerate((2, 6, 7, 8, 9, 10, 11)):
            self.assertEqual(refusal(**{name: wrong[name] for name in order[k:]}), number)
        self.assertEqual(refusal(), 0)
        self.assertEqual(refusal(front=b"x"), 9)
        self.assertEqual(refusal(w=65), 7)
        self.assertEqual(refusal(d=2), 7)
        self.assertEqual(refusal(step=10000, radius=12500), 0)
        self.assertEqual(refusal(step=10001), 8)
        self.assertEqual(refusal(radius=12501), 8)
        self.assertEqual(refusal(radius=0), 8)
        # Exactly a trailer, sizes in order: there are no heights, so 9.
        trailer = b"PLT1" + struct.pack("<IHHHH", 36, 3, 3, 1, 1)
        for call in LIST_CALLS:
            self.assertEqual(call(0, bytes(15), b"ab"), (5, 0, b"ab"))
            self.assertEqual(call(4, b"", b"ab"), (2, 0, b"ab"))
            self.assertEqual(call(0, trailer, bytes(30))[0], 9)


class Lift(unittest.TestCase):
    """Document 02, "#104 Keep the ball off the neighbours". The values are worked
    out on paper; a place is column and row."""

    def check(self, rows, step, radius, rounding, x, y, z, lifted):
        """The one record of a 3 x 3 map, before the lift and after it."""
        a_map = make_map(rows, step, radius)
        end = b"CUT2" + struct.pack("<IHHHHH", 12, 3, 3, step, radius, rounding)
        for call, height in zip(LIST_CALLS, (z, lifted)):
            self.assertEqual(call(rounding, a_map, b"x" * 32),
                             (0, 30, struct.pack("<iii", x, y, height) + end + b"xx"))

    def test_flat(self):
        # The highest of the nine heights is the own one, straight below: z is radius.
        for height, step, radius, rounding in itertools.product(
                (-50000, 0, 50000), (1, 10000), (1, 12500), ROUNDINGS):
            self.check([[height] * 3] * 3, step, radius, rounding,
                       step, step, height + radius, height + radius)

    def test_examples_of_document_01(self):
        # Centre -1000 2000 5500. The own height has level distance 3000 and asks for
        # 1500 + 4000; 0 1 asks for the root of 24,000,000 rounded up, 4899; 2 1 has
        # level distance 5000, the radius. Nothing is lifted.
        rows = [[0, 1500, 3000]] * 3
        for rounding in ROUNDINGS:
            self.check(rows, 2000, 5000, rounding, -1000, 2000, 5500, 5500)
        # The offsets are -447.2 and 894.4. The own height, at 448 or 447, asks for 500
        # plus the root of 799,296 or 800,191, which is 894.03 or 894.53; 0 1 asks
        # for 0 plus less than 835.
        rows = [[0, 500, 1000]] * 3
        for rounding, x, z in ((NEAREST, 553, 1394), (UP, 553, 1395), (DOWN, 552, 1394),
                               (TOWARD_ZERO, 553, 1394)):
            self.check(rows, 1000, 1000, rounding, x, 1000, z, 1395)

    def test_side_neighbour(self):
        # dx -1, Q 5: the offsets are 1.34 and 2.68. 0 1, at level distance 2, asks for
        # 1 plus the root of 5. The own height, at 1, asks for the root of 8: 3.
        self.check([[0, 0, 0], [1, 0, 0], [0, 0, 0]], 1, 3, NEAREST, 2, 1, 3, 4)
        # The others, by symmetry.
        self.check([[0, 0, 0], [0, 0, 1], [0, 0, 0]], 1, 3, NEAREST, 0, 1, 3, 4)
        self.check([[0, 1, 0], [0, 0, 0], [0, 0, 0]], 1, 3, NEAREST, 1, 2, 3, 4)
        self.check([[0, 0, 0], [0, 0, 0], [0, 1, 0]], 1, 3, NEAREST, 1, 0, 3, 4)
        # A thousand times as large, the offsets are 1341.6 and 2683.3. 0 1, at 2342,
        # asks for 1000 plus the root of 3,515,036, 1874.8; but 2 1, at 342, for the root
        # of 8,883,036, 2980.4. The highest neighbour is not the one that lifts.
        self.check([[0, 0, 0], [1000, 0, 0], [0, 0, 0]], 1000, 3000, NEAREST,
                   2342, 1000, 2683, 2981)

    def test_neighbour_that_the_centre_lies_over(self):
        # dx 1, Q 5: the offsets are -0.45 and 0.89. Down, the centre lies over 0 1 and
        # the own height is at 1, the radius; 0 1 asks for 0 + 1. All numbers are 1.
        rows = [[0, 0, 0], [0, 0, 1], [0, 0, 0]]
        self.check(rows, 1, 1, DOWN, 0, 1, 0, 1)
        self.check(rows, 1, 1, UP, 1, 1, 1, 1)

    def test_own_height(self):
        # The same map toward zero: the centre lies over the own height, which asks for
        # 0 + 1, and each neighbour is at 1, the radius. No rounding, no lift: at the
        # exact x the own height asks for the exact z.
        self.check([[0, 0, 0], [0, 0, 1], [0, 0, 0]], 1, 1, TOWARD_ZERO, 1, 1, 0, 1)
        # To nearest: dx 4, Q 32, both offsets are 1.41 in magnitude. The own height,
        # at 1, asks for the root of 3; 0 1, at 1 too, for -4 and the same.
        self.check([[0, 0, 0], [-4, 0, 0], [0, 0, 0]], 2, 2, NEAREST, 1, 2, 1, 2)
        # Up, too: dx 7, Q 65, the offsets are -1.74 and 0.99.
        self.check([[0, 0, 0], [-7, 0, 0], [0, 0, 0]], 2, 2, UP, 1, 2, 1, 2)

    def test_corner(self):
        # A corner is in no difference: x, y and z are whole. At the root of 2 it asks
        # for 1 plus the root of 2.
        for place in ((0, 0), (2, 0), (0, 2), (2, 2)):
            rows = [[int((c, row) == place) for c in range(3)] for row in range(3)]
            for rounding in ROUNDINGS:
                self.check(rows, 1, 2, rounding, 1, 1, 2, 3)
        # A thousand times as large: 1000 + 1414.2.
        self.check([[1000, 0, 0], [0, 0, 0], [0, 0, 0]], 1000, 2000, NEAREST,
                   1000, 1000, 2000, 2415)

    def test_at_the_radius(self):
        # Two sides of one height leave x whole, and their level distance is the step:
        # at the radius they count for nothing; one less, 50,000 plus the root of 21.
        rows = [[0, 0, 0], [50000, 0, 50000], [0, 0, 0]]
        turned = [list(column) for column in zip(*rows)]
        for rounding in ROUNDINGS:
            for some in (rows, turned):
                self.check(some, 10, 10, rounding, 10, 10, 10, 10)
                self.check(some, 10, 11, rounding, 10, 10, 11, 50005)
                self.check(some, 11, 10, rounding, 11, 11, 10, 10)
        # dx 2, Q 68: the offsets are -1.21 and 4.85. The corner 0 0 is at -3, -4 from
        # the rounded centre, and 5 is the radius. Down, at -2, -4, it asks for 50,000
        # plus the root of 5.
        rows = [[50000, 0, 0], [0, 0, 2], [0, 0, 0]]
        self.check(rows, 4, 5, NEAREST, 3, 4, 5, 5)
        self.check(rows, 4, 5, DOWN, 2, 4, 4, 50003)

    def test_lower_above_upper(self):
        # dx -1, Q 5: the offsets are 0.89 and 1.79. Down, 0 1 is at 1 and asks for 1
        # plus the root of 3. Up, it is at 2, the radius; the own height, at 1, asks for
        # the root of 3, and 2 1, straight below, for 2.
        rows = [[0, 0, 0], [1, 0, 0], [0, 0, 0]]
        self.check(rows, 1, 2, DOWN, 1, 1, 1, 3)
        self.check(rows, 1, 2, UP, 2, 1, 2, 2)
        # With radius 1, dx 1, the offsets are -0.45 and 0.89. Down, 0 1 asks for 0 + 1;
        # up, the own height for -1 + 1.
        rows = [[0, 0, 0], [0, -1, 1], [0, 0, 0]]
        self.check(rows, 1, 1, DOWN, 0, 1, -1, 1)
        self.check(rows, 1, 1, UP, 1, 1, 0, 0)

    def missed(self, rows, step, radius, c, row, x, y, z):
        """The first of the nine places that this z does not meet, by steps from the
        point; None where it meets all."""
        for j, k in itertools.product((-1, 0, 1), repeat=2):
            level = (x - (c + j) * step)**2 + (y - (row + k) * step)**2
            above = z - rows[row + k][c + j]
            if level < radius**2 and not (above >= 0 and above**2 >= radius**2 - level):
                return j, k
        return None

    def test_by_counting(self):
        # z after z until all nine are met, on random maps.
        chance = random.Random(104)
        lifting = set()
        for _ in range(400):
            w, d = chance.randint(3, 6), chance.randint(3, 6)
            step, radius = chance.choice((1, 2, 3, 10, 40)), chance.choice((1, 2, 5, 30, 90))
            top = chance.choice((0, 1, 3, 20, 200))
            rows = [[chance.randint(-top, top) for _ in range(w)] for _ in range(d)]
            a_map = make_map(rows, step, radius)
            rounding = chance.choice(ROUNDINGS)
            points = [(c, row) for row in range(1, d - 1) for c in range(1, w - 1)]
            expected = []
            for point, (x, y, z) in zip(points, plate.centres(rounding, a_map)):
                while place := self.missed(rows, step, radius, *point, x, y, z):
                    lifting.add(place)
                    z += 1
                expected.append((x, y, z))
            self.assertEqual(plate.lifted_centres(rounding, a_map), expected)
        self.assertEqual(len(lifting), 9)

    def test_same_but_for_z(self):
        chance = random.Random(1104)
        for w, d in ((3, 3), (3, 7), (7, 3), (5, 6), (64, 3), (3, 64)):
            for top in (1, 4000, 50000):
                rows = [[chance.randint(-top, top) for _ in range(w)] for _ in range(d)]
                step, radius = chance.randint(1, 10000), chance.randint(1, 12500)
                a_map = make_map(rows, step, radius)
                for rounding in ROUNDINGS:
                    lists = [call(rounding, a_map, b"y" * 9000) for call in LIST_CALLS]
                    (_, length, before), (refusal, lifted_length, after) = lists
                    self.assertEqual((refusal, lifted_length), (0, length))
                    records = 12 * (w - 2) * (d - 2)
                    self.assertEqual(before[records:], after[records:])
                    for k in range(0, records, 12):
                        self.assertEqual(before[k:k + 8], after[k:k + 8])
                        self.assertLessEqual(plate.signed(before[k + 8:k + 12]),
                                             plate.signed(after[k + 8:k + 12]))


# Document 01's example, -1000 2000 5500 with its sizes, as document 01 writes it
# and as #102 does, up to the rounding.
OLD_EXAMPLE = bytes.fromhex("18FCFFFF D0070000 7C150000") + b"CUT1" + bytes.fromhex(
    "0C000000 0300 0300 D007 8813")
NEW_EXAMPLE = bytes.fromhex("18FCFFFF D0070000 7C150000") + b"CUT2" + bytes.fromhex(
    "0C000000 0300 0300 D007 8813")
EXAMPLE_NUMBERS = (3, 3, 2000, 5000, -1000, 2000, 5500)

# The list of the table's dx 1,000, dy 0, step 1,000, radius 1,000, down and up:
# 552 1000 1394 and 553 1000 1395.
LOWER = bytes.fromhex("28020000 E8030000 72050000") + b"CUT2" + bytes.fromhex(
    "0C000000 0300 0300 E803 E803 0200")
UPPER = bytes.fromhex("29020000 E8030000 73050000") + b"CUT2" + bytes.fromhex(
    "0C000000 0300 0300 E803 E803 0100")


def refused(number):
    """What the reader gives after a refusal: no rounding, and every other number 0."""
    return (number, None, 0, 0, 0, 0, 0, 0, 0)


def make_list(body, w=3, d=3, step=1, radius=1, distance=None, letters=None, rounding=None,
              front=b"", behind=b""):
    """CUT1 without a rounding, CUT2 with one, unless other letters are given."""
    if letters is None:
        letters = b"CUT1" if rounding is None else b"CUT2"
    end = struct.pack("<IHHHH", len(body) if distance is None else distance, w, d, step, radius)
    if rounding is not None:
        end += struct.pack("<H", rounding)
    return front + body + letters + end + behind


class Reader(unittest.TestCase):
    """Document 02, "#101 Read a list back" and "#102 Say which rounding made the list"."""

    def check(self, number, list_bytes, index):
        self.assertEqual(plate.record(list_bytes, index), refused(number))

    def test_example(self):
        a_map = make_map([[0, 1500, 3000]] * 3, 2000, 5000)
        for rounding in ROUNDINGS:
            refusal, length, made = plate.cutter_list(rounding, a_map, bytes(42))
            self.assertEqual((refusal, length), (0, 30))
            self.assertEqual(made[:30], NEW_EXAMPLE + struct.pack("<H", rounding))
            self.assertEqual(plate.record(made[:30], 0), (0, rounding, *EXAMPLE_NUMBERS))
            self.check(14, made[:30], 1)
            # The whole buffer is not the list: no letters stand where they are sought.
            self.check(12, made, 0)

    def test_two_lists_in_a_drawer(self):
        a_map = make_map([[0, 500, 1000]] * 3, 1000, 1000)
        for made, rounding, x, z in ((LOWER, DOWN, 552, 1394), (UPPER, UP, 553, 1395)):
            self.assertEqual(plate.cutter_list(rounding, a_map, bytes(30)), (0, 30, made))
            self.assertEqual(plate.record(made, 0),
                             (0, rounding, 3, 3, 1000, 1000, x, 1000, z))

    def test_old_example(self):
        a_map = make_map([[0, 1500, 3000]] * 3, 2000, 5000)
        for rounding in ROUNDINGS:          # the offsets are whole
            self.assertEqual(plate.old_list(rounding, a_map), OLD_EXAMPLE)
        self.assertEqual(plate.record(OLD_EXAMPLE, 0), (0, None, *EXAMPLE_NUMBERS))
        self.check(14, OLD_EXAMPLE, 1)

    def test_written_lists(self):
        chance = random.Random(102)
        for w, d in ((3, 3), (3, 6), (6, 3), (4, 5), (9, 7), (64, 3), (3, 64)):
            top = chance.choice((2, 3000, 50000))
            rows = [[chance.randint(-top, top) for _ in range(w)] for _ in range(d)]
            step, radius = chance.randint(1, 10000), chance.randint(1, 12500)
            a_map = make_map(rows, step, radius)
            for rounding in ROUNDINGS:
                refusal, length, made = plate.cutter_list(rounding, a_map, bytes(9000))
                self.assertEqual(refusal, 0)
                made = made[:length]
                # Where CUT1 is sought it has the later half of its own letters.
                self.assertEqual((made[-18:-14], made[-16:-14]), (b"CUT2", b"T2"))
                old = plate.old_list(rounding, a_map)
                self.assertEqual(made, old[:-16] + b"CUT2" + old[-12:]
                                 + struct.pack("<H", rounding))
                expected = plate.centres(rounding, a_map)
                self.assertEqual(len(expected), (w - 2) * (d - 2))
                for index, centre in enumerate(expected):
                    self.assertEqual(plate.record(made, index),
                                     (0, rounding, w, d, step, radius, *centre))
                    self.assertEqual(plate.record(old, index),
                                     (0, None, w, d, step, radius, *centre))
                for beyond in (0, 1, 2**32, 2**64 - 1 - len(expected)):
                    self.check(14, made, len(expected) + beyond)
                    self.check(14, old, len(expected) + beyond)

    def test_any_values(self):
        numbers = (-2**31, 2**31 - 1, -1, 0, 1, 128, 2**15, 2**23, -2**24,
                   0x31545543, 0x32545543, -0x12345678)     # CUT1 and CUT2 among them
        for rounding in (None, *ROUNDINGS):
            made = make_list(struct.pack("<12i", *numbers), 4, 4, 10000, 12500, rounding=rounding)
            for index in range(4):
                self.assertEqual(plate.record(made, index), (
                    0, rounding, 4, 4, 10000, 12500, *numbers[3 * index:3 * index + 3]))

    def test_short(self):
        old, new = make_list(b"", distance=12), make_list(b"", distance=12, rounding=0)
        for trailer in (old, new):
            for length in range(16):
                self.check(5, trailer[:length], 0)
                self.check(5, trailer[len(trailer) - length:], 2**64 - 1)
        self.check(13, old, 0)
        self.check(13, b"\0" + old, 0)
        self.check(13, b"\0\0" + old, 0)
        self.check(12, old + b"\0", 0)
        self.check(12, old + b"\0\0", 0)            # CUT1 18 from the end
        self.check(12, new[:16], 0)                 # CUT2 16 from it
        self.check(12, new[:17], 0)
        self.check(12, new[1:], 0)
        self.check(12, new[2:], 0)
        self.check(13, new, 0)

    def test_refusals_and_order(self):
        body = b"abcdABCD1234"
        # (1 - 2)(1 - 2) is 1 too: only question 7 keeps such a list out.
        faults = [
            (12, [dict(letters=b"PLT1"), dict(letters=b"CUT3"), dict(letters=b"cut1"),
                  dict(letters=b"cut2"), dict(behind=b"\0"), dict(behind=b"CUT1")]),
            (7, [dict(w=2), dict(d=2), dict(w=65), dict(d=65), dict(w=0), dict(d=65535),
                 dict(w=1, d=1)]),
            (8, [dict(step=0), dict(step=10001), dict(radius=0), dict(radius=12501)]),
            (13, [dict(distance=0), dict(distance=10), dict(distance=11), dict(distance=14),
                  dict(distance=36), dict(distance=12 + 2**16), dict(distance=12 + 2**31),
                  dict(front=b"\0"), dict(front=b"\0\0"), dict(front=b"\0\0", distance=14),
                  dict(front=bytes(12), distance=24)]),
            (2, [dict(rounding=4), dict(rounding=255), dict(rounding=256), dict(rounding=259),
                 dict(rounding=65535)]),
            (14, [dict(index=1), dict(index=2**32), dict(index=2**64 - 1)]),
        ]
        for right, wrong_letters in ((None, b"CUT2"), (0, b"CUT1"), (1, b"CUT1"), (3, b"CUT1")):
            def read(index=0, **settings):
                return plate.record(make_list(body, **{"rounding": right, **settings}), index)

            self.assertEqual(read(), (0, right, 3, 3, 1, 1, *struct.unpack("<3i", body)))
            self.assertEqual(read(step=10000, radius=12500)[:6], (0, right, 3, 3, 10000, 12500))
            asked = [(number, settings + [dict(letters=wrong_letters)] * (number == 12))
                     for number, settings in faults if not (right is None and number == 2)]
            for number, settings in asked:
                for one in settings:
                    self.assertEqual(read(**one), refused(number), one)
            for (number, some), (_, others) in itertools.combinations(asked, 2):
                for one, other in itertools.product(some, others):
                    self.assertEqual(read(**{**other, **one}), refused(number), (one, other))
            # Each fault with every later one.
            for k, (number, _) in enumerate(asked):
                settings = {}
                for _, some in asked[k:]:
                    settings = {**some[0], **settings}
                self.assertEqual(read(**settings), refused(number), settings)
            # w and d ask for two records: one is too few, whatever the distance says.
            self.assertEqual(read(w=4)[0], 13)
            self.assertEqual(read(w=4, distance=24)[0], 13)
            self.assertEqual(read(w=4, distance=24, front=bytes(12))[:4], (0, right, 4, 3))

    def test_every_rounding(self):
        for rounding in range(2**16):
            expected = (0, rounding, *EXAMPLE_NUMBERS) if rounding < 4 else refused(2)
            self.assertEqual(plate.record(NEW_EXAMPLE + struct.pack("<H", rounding), 0), expected)

    def test_each_kind_at_its_own_place(self):
        self.check(12, NEW_EXAMPLE, 0)                          # CUT2 16 from the end
        for rounding in (*ROUNDINGS, 4):
            self.check(12, OLD_EXAMPLE + struct.pack("<H", rounding), 0)    # CUT1 18 from it
        # As long as the other kind's list, with either kind's distance.
        for distance in (10, 12, 14):
            self.check(13, make_list(bytes(14), distance=distance), 0)
            self.check(13, make_list(bytes(10), distance=distance, rounding=0), 0)

    def test_without_index(self):
        for rounding in (None, *ROUNDINGS):
            made = make_list(b"abcdABCD1234", rounding=rounding)
            self.assertEqual(plate.reader_refusal(made), 0)
            self.assertEqual(plate.reader_refusal(made[1:]), 13)
            self.assertEqual(plate.reader_refusal(made[:-1]), 12)
        self.assertEqual(plate.reader_refusal(make_list(b"abcdABCD1234", rounding=4)), 2)


class SpecialOperands(unittest.TestCase):
    """The dashes under "Binary32 unit"."""

    def check(self, operation, bits, answer, flags):
        for rounding in ROUNDINGS:
            self.assertEqual(plate.binary32(operation, rounding, bits, 0),
                             (0, answer, flags))

    def test_nan(self):
        for operation in (1, 2, 3):
            for sign in (0, 0x80000000):
                self.check(operation, sign | 0x7FC00000, 0x7FC00000, 0)
                self.check(operation, sign | 0x7FFFFFFF, 0x7FC00000, 0)
                self.check(operation, sign | 0x7F800001, 0x7FC00000, INVALID)
                self.check(operation, sign | 0x7FBFFFFF, 0x7FC00000, INVALID)

    def test_negative(self):
        for operation in (2, 3):
            for bits in (0x80000001, 0x807FFFFF, 0x80800000, 0xBF800000,
                         0xFF7FFFFF, 0xFF800000):
                self.check(operation, bits, 0x7FC00000, INVALID)

    def test_zero(self):
        self.check(ROOT, 0x00000000, 0x00000000, 0)
        self.check(ROOT, 0x80000000, 0x80000000, 0)
        for operation in (RECIPROCAL, INVERSE_ROOT):
            self.check(operation, 0x00000000, 0x7F800000, DIVISION_BY_ZERO)
            self.check(operation, 0x80000000, 0xFF800000, DIVISION_BY_ZERO)

    def test_infinity(self):
        self.check(RECIPROCAL, 0x7F800000, 0x00000000, 0)
        self.check(RECIPROCAL, 0xFF800000, 0x80000000, 0)
        self.check(ROOT, 0x7F800000, 0x7F800000, 0)
        self.check(INVERSE_ROOT, 0x7F800000, 0x00000000, 0)

    def test_overflow(self):
        # IEEE 754-2019, 7.4: what each rounding gives beyond the largest.
        for bits in (0x00000001, 0x001FFFFF, 0x00200000):
            for sign, answers in (
                    (0, {NEAREST: 0x7F800000, UP: 0x7F800000,
                         DOWN: 0x7F7FFFFF, TOWARD_ZERO: 0x7F7FFFFF}),
                    (0x80000000, {NEAREST: 0xFF800000, UP: 0xFF7FFFFF,
                                  DOWN: 0xFF800000, TOWARD_ZERO: 0xFF7FFFFF})):
                for rounding in ROUNDINGS:
                    self.assertEqual(
                        plate.binary32(RECIPROCAL, rounding, sign | bits, 0),
                        (0, answers[rounding], OVERFLOW | INEXACT))
        for rounding in ROUNDINGS:
            self.assertEqual(
                plate.binary32(RECIPROCAL, rounding, 0x00200001, 0)[2], INEXACT)

    def test_underflow(self):
        for bits, flags in ((0x7E7FFFFF, INEXACT), (0x7E800000, 0),
                            (0x7E800001, INEXACT | UNDERFLOW),
                            (0x7EFFFFFF, INEXACT | UNDERFLOW), (0x7F000000, 0),
                            (0x7F000001, INEXACT | UNDERFLOW),
                            (0x7F7FFFFF, INEXACT | UNDERFLOW)):
            for rounding in ROUNDINGS:
                self.assertEqual(plate.binary32(RECIPROCAL, rounding, bits, 0)[2], flags)


class Raw64(unittest.TestCase):
    """#106: the raw unit at k = 15."""

    def setUp(self):
        self.random = random.Random(106)

    def significands(self, count):
        return [self.random.randrange(2**52, 2**53) for _ in range(count)]

    def test_rows(self):
        # y is 3 / 2: worked with whole numbers, step by step.
        y = 3 * 2**51
        self.assertEqual(plate.reduction(y, plate.BINARY64), (43690, -1, 17592186044416))
        self.assertEqual(plate.series(1, -1, 17592186044416, plate.BINARY64),
                         1152939097061330944)
        self.assertEqual(plate.raw64(1, y, 0, ()), (0, 768614336404564650))
        self.assertEqual(plate.raw64(1, 2**52, 0, ()), (0, 2**60))
        self.assertEqual(plate.raw64(2, 2**52, 0, TABLES64), (0, 2**60))
        self.assertEqual(plate.raw64(3, 2**52, 0, TABLES64), (0, 2**60))
        self.assertEqual(plate.raw64(2, 2**52, 1, TABLES64), (0, 1630477228166597777))
        self.assertEqual(plate.raw64(3, 2**52, 1, TABLES64), (0, 815238614083298888))

    def test_reduction(self):
        # The numbers that #106 prints.
        for y in (2**52, 2**53 - 1, *self.significands(300)):
            r, s, a = plate.reduction(y, plate.BINARY64)
            i = y // 2**37
            self.assertTrue(32768 <= i <= 65535)
            self.assertEqual(r, 2**31 // i)
            d = y * r - 2**68
            self.assertEqual((s, a), (1 if d >= 0 else -1, abs(d) // 256))
            self.assertLess(a, 2**45)

    def test_series(self):
        # 1 / (1 + v), its root's and its inverse root's terms up to the third power, in
        # units of 2**-60; of v's digits the later are left out as document 01 has it.
        for trial in range(300):
            a = self.random.randrange(2**45)
            if trial % 3 == 0:
                a |= 2**45 - 2**30 >> self.random.randrange(30)
            a2, a3 = a >> 30, a >> 15 & 32767
            v, two, three = Fraction(a, 2**60), Fraction(a2, 2**30), Fraction(a3, 2**45)
            square, cube = two**2 + 2 * two * three, a2**2 // 2**15 * two / 2**45
            for s in (1, -1):
                for operation, first, second, third in (
                        (RECIPROCAL, Fraction(-1), Fraction(1), Fraction(-1)),
                        (ROOT, Fraction(1, 2), Fraction(-1, 8), Fraction(1, 16)),
                        (INVERSE_ROOT, Fraction(-1, 2), Fraction(3, 8), Fraction(-5, 16))):
                    exact = 1 + s * first * v + second * square + s * third * cube
                    self.assertEqual(plate.series(operation, s, a, plate.BINARY64),
                                     math.floor(exact * 2**60))

    def test_multipliers(self):
        # All 131,072 entries by 60 digits of the exact one, which is farther than
        # 10**-30 from any half: M stands for the root of 2 * 2**p / (R / 2**15), or of
        # its reciprocal, in units of 2**-60.
        self.assertEqual(len(TABLES64), 131072)
        closest = Decimal(1)
        with localcontext() as context:
            context.prec = 60
            unit, half = Decimal(2)**60, Decimal(1) / 2
            for place, m in enumerate(TABLES64):
                table, i = place // 32768, place % 32768 + 32768
                square = Decimal(2**(16 + table % 2)) / (2**31 // i)
                exact = (square if table < 2 else 1 / square).sqrt() * unit
                closest = min(closest, half - abs(m - exact))
        self.assertGreater(closest, Decimal(10)**-30)
        self.assertLess(max(TABLES64), 2**64)

    def test_order_of_the_tables(self):
        # The first and the last R are 65536 and 32768: on paper.
        first, last = TABLES64[0::32768], TABLES64[32767::32768]
        self.assertEqual((first[0], first[2]), (2**60, 2**60))
        self.assertLess(abs(first[1]**2 - 2**121), first[1] + 1)
        self.assertLess(abs(first[3]**2 - 2**119), first[3] + 1)
        self.assertEqual((last[1], last[3]), (2**61, 2**59))
        for operation, p, place in ((2, 0, 0), (2, 1, 32768), (3, 0, 65536), (3, 1, 98304)):
            self.assertEqual(plate.entry_place(operation, 2**52, p), place)
            self.assertEqual(plate.entry_place(operation, 2**52 + 2**37 - 1, p), place)
            self.assertEqual(plate.entry_place(operation, 2**52 + 2**37, p), place + 1)
            self.assertEqual(plate.entry_place(operation, 2**53 - 1, p), place + 32767)

    def test_no_tie(self):
        # Half of an odd number has four times its square odd. No such square is here.
        for i in range(32768, 65536):
            for operation, p in ((2, 0), (2, 1), (3, 0), (3, 1)):
                n, d = plate.exact_square(operation, 2**31 // i, p, plate.BINARY64)
                self.assertFalse(4 * n % d == 0 and 4 * n // d % 2 == 1)

    def test_fill(self):
        for length in (0, 1, 32768, 131071, 131073):
            lent = list(range(length))
            self.assertEqual(plate.fill_tables(lent), (15, lent))
        self.assertEqual(plate.fill_tables(range(131072)), (0, TABLES64))

    def test_entry_rule(self):
        # Exactly one number keeps the rule.
        for y in (2**52, 2**53 - 1, *self.significands(200)):
            for operation, p in ((2, 0), (2, 1), (3, 0), (3, 1)):
                m = TABLES64[plate.entry_place(operation, y, p)]
                self.assertTrue(plate.is_multiplier(m, operation, y, p))
                for entry in (m - 1, m + 1, 0, m // 2, 2 * m, m + 2**63, 2**64 - m, 2**64 - 1):
                    self.assertFalse(plate.is_multiplier(entry, operation, y, p))

    def test_lent_entries(self):
        for y in (2**52, 2**53 - 1, *self.significands(5)):
            for operation, p in ((2, 0), (2, 1), (3, 0), (3, 1)):
                right = plate.raw64(operation, y, p, TABLES64)
                place = plate.entry_place(operation, y, p)
                lent = TABLES64.copy()
                for entry in (0, lent[place] - 1, lent[place] + 1, 2**64 - 1):
                    lent[place] = entry
                    self.assertEqual(plate.raw64(operation, y, p, lent), (16, 0))
                # No other entry is looked at.
                lent = [0] * 131072
                lent[place] = TABLES64[place]
                self.assertEqual(plate.raw64(operation, y, p, lent), right)
                self.assertEqual(plate.raw64(operation, y, p, lent[:-1]), (15, 0))
                self.assertEqual(plate.raw64(operation, y, p, lent + [0]), (15, 0))

    def test_questions(self):
        wrong = [0] * 131072
        for lent in ((), wrong, TABLES64):
            self.assertEqual(plate.raw64(0, 0, 9, lent), (1, 0))
            self.assertEqual(plate.raw64(4, 2**52, 0, lent), (1, 0))
            for operation in (1, 2, 3):
                self.assertEqual(plate.raw64(operation, 2**52 - 1, 9, lent), (3, 0))
                self.assertEqual(plate.raw64(operation, 2**53, 9, lent), (3, 0))
                self.assertEqual(plate.raw64(operation, 2**53 - 1, 2, lent), (4, 0))
            self.assertEqual(plate.raw64(1, 2**52, 1, lent), (4, 0))
            self.assertEqual(plate.raw64(1, 2**52, 0, lent), (0, 2**60))
        for operation, p in ((2, 0), (2, 1), (3, 0), (3, 1)):
            self.assertEqual(plate.raw64(operation, 2**52, p, wrong[1:]), (15, 0))
            self.assertEqual(plate.raw64(operation, 2**52, p, wrong), (16, 0))

    def test_distance(self):
        # Under 12, 7 and 7 units of 2**-60.
        edges = [i << 37 for i in range(32768, 65536, 97)]
        for y in edges + [y - 1 for y in edges[1:]] + self.significands(10000):
            g = plate.raw64(RECIPROCAL, y, 0, ())[1]
            self.assertLess(abs(g * y - 2**112), 12 * y)
            for p in (0, 1):
                g = plate.raw64(ROOT, y, p, TABLES64)[1]    # exact: sqrt(y * 2**(68 + p))
                self.assertLess((g - 7)**2, y * 2**(68 + p))
                self.assertGreater((g + 7)**2, y * 2**(68 + p))
                g = plate.raw64(INVERSE_ROOT, y, p, TABLES64)[1]
                self.assertLess((g - 7)**2 * y, 2**(172 - p))   # exact: sqrt(2**(172 - p) / y)
                self.assertGreater((g + 7)**2 * y, 2**(172 - p))


def bits64(x):
    """The pattern of the machine's number, which is a binary64 one."""
    return struct.unpack("<Q", struct.pack("<d", x))[0]


class Binary64(unittest.TestCase):
    """#106: the rounded unit."""

    SIGN = 0x8000000000000000

    def setUp(self):
        self.random = random.Random(1064)

    def operands(self, count):
        """Positive finite patterns."""
        return [self.random.randrange(1, 0x7FF0000000000000) for _ in range(count)]

    def check(self, operation, bits, answers, flags):
        """answers: nearest, up, down, toward zero; or one for all."""
        if isinstance(answers, int):
            answers = [answers] * 4
        for rounding, answer in zip(ROUNDINGS, answers):
            self.assertEqual(plate.binary64(operation, rounding, bits, 0, TABLES64),
                             (0, answer, flags), f"{operation} {rounding} {bits:016X}")

    def test_rows(self):
        third, root2 = 0x3FD5555555555555, 0x3FF6A09E667F3BCC
        self.check(1, 0x4008000000000000, (third, third + 1, third, third), INEXACT)
        third |= self.SIGN
        self.check(1, 0xC008000000000000, (third, third, third + 1, third), INEXACT)
        self.check(2, 0x4000000000000000, (root2 + 1, root2 + 1, root2, root2), INEXACT)
        self.check(3, 0x4010000000000000, 0x3FE0000000000000, 0)
        one = 0x3FF0000000000000
        self.check(3, one + 1, (one - 1, one, one - 1, one - 1), INEXACT)
        self.check(1, 0x0008000000000000, 0x7FE0000000000000, 0)       # 2**-1023
        self.check(1, 0x7FE0000000000000, 0x0008000000000000, 0)       # 2**1023
        self.check(2, 0x0000000000000001, 0x1E60000000000000, 0)       # 2**-1074
        self.check(3, 0x0000000000000001, 0x6180000000000000, 0)

    def test_overflow(self):
        # IEEE 754-2019, 7.4: what each rounding gives beyond the largest.
        infinite, largest = 0x7FF0000000000000, 0x7FEFFFFFFFFFFFFF
        for bits in (0x0000000000000001, 0x0003FFFFFFFFFFFF, 0x0004000000000000):
            self.check(1, bits, (infinite, infinite, largest, largest), OVERFLOW | INEXACT)
            self.check(1, bits | self.SIGN,
                       [self.SIGN | n for n in (infinite, largest, infinite, largest)],
                       OVERFLOW | INEXACT)
        near = 0x7FEFFFFFFFFFFFF8
        self.check(1, 0x0004000000000001, (near, near + 1, near, near), INEXACT)

    def test_underflow(self):
        smallest, tiny = 0x0010000000000000, UNDERFLOW | INEXACT
        # 2**-1022 * (1 + 2**-53 + 2**-106 + ...): just above the middle.
        self.check(1, 0x7FCFFFFFFFFFFFFF, (smallest + 1, smallest + 1, smallest, smallest),
                   INEXACT)
        self.check(1, 0x7FD0000000000000, smallest, 0)
        # Up it is 2**-1022 itself: the exact result is below, so it underflows.
        self.check(1, 0x7FD0000000000001, (smallest - 1, smallest, smallest - 1, smallest - 1),
                   tiny)
        half = 0x8008000000000000
        self.check(1, 0xFFE0000000000001, (half, half - 1, half, half - 1), tiny)
        self.check(1, 0x7FEFFFFFFFFFFFFF, (0x4000000000000, 0x4000000000001, 0x4000000000000,
                                           0x4000000000000), tiny)

    def test_special_operands(self):
        nan, infinite = 0x7FF8000000000000, 0x7FF0000000000000
        for operation in (1, 2, 3):
            for sign in (0, self.SIGN):
                self.check(operation, sign | nan, nan, 0)
                self.check(operation, sign | 0x7FFFFFFFFFFFFFFF, nan, 0)
                self.check(operation, sign | 0x7FF0000000000001, nan, INVALID)
                self.check(operation, sign | 0x7FF7FFFFFFFFFFFF, nan, INVALID)
        for operation in (2, 3):
            for bits in (1, 0x000FFFFFFFFFFFFF, 0x3FF0000000000000, infinite - 1, infinite):
                self.check(operation, self.SIGN | bits, nan, INVALID)
        for sign in (0, self.SIGN):
            self.check(2, sign, sign, 0)
            self.check(1, sign, sign | infinite, DIVISION_BY_ZERO)
            self.check(3, sign, sign | infinite, DIVISION_BY_ZERO)
            self.check(1, sign | infinite, sign, 0)
        self.check(2, infinite, infinite, 0)
        self.check(3, infinite, 0, 0)

    def test_entries(self):
        # Where each operand's entry lies, by Y * 2**e on paper. -3 is twice -2 with
        # parity 1; the subnormal 3 * 2**-1074 is 1.5 * 2**-1073.
        for bits, p, i in ((0x3FF0000000000000, 0, 0), (0x4000000000000000, 1, 0),
                           (0x3FC0000000000000, 1, 0), (0x3FD8000000000000, 0, 16384),
                           (0x7FEFFFFFFFFFFFFF, 1, 32767), (0x0010000000000000, 0, 0),
                           (0x000FFFFFFFFFFFFF, 1, 32767), (0x0008000000000000, 1, 0),
                           (0x0000000000000001, 0, 0), (0x0000000000000002, 1, 0),
                           (0x0000000000000003, 1, 16384), (0x0000000000000007, 0, 24576)):
            for operation in (2, 3):
                place = 65536 * (operation - 2) + 32768 * p + i
                right = plate.binary64(operation, 0, bits, 0, TABLES64)
                self.assertEqual(right[0], 0)
                lent = TABLES64.copy()
                for entry in (0, lent[place] - 1, lent[place] + 1, 2**64 - 1):
                    lent[place] = entry
                    self.assertEqual(plate.binary64(operation, 0, bits, 255, lent), (16, 0, 255))
                lent = [0] * 131072
                lent[place] = TABLES64[place]
                self.assertEqual(plate.binary64(operation, 0, bits, 0, lent), right)

    def test_questions(self):
        wrong, one = [0] * 131072, 0x3FF0000000000000
        special = (0, self.SIGN, self.SIGN | one, self.SIGN | 1, 0x7FF0000000000000,
                   0xFFF0000000000000, 0x7FF0000000000001, 0xFFFFFFFFFFFFFFFF)
        for lent in ((), wrong, TABLES64):
            for bits in (one, *special):
                self.assertEqual(plate.binary64(0, 4, bits, 255, lent), (1, 0, 255))
                self.assertEqual(plate.binary64(4, 0, bits, 255, lent), (1, 0, 255))
                for operation in (1, 2, 3):
                    self.assertEqual(plate.binary64(operation, 4, bits, 224, lent), (2, 0, 224))
            self.assertEqual(plate.binary64(1, 0, one, 255, lent), (0, one, 31))
            self.assertEqual(plate.binary64(1, 0, 0, 224, lent), (0, 0x7FF0000000000000, 2))
        for operation in (2, 3):
            for bits in (one, 1, *special):
                for lent in ((), wrong[1:], wrong + [0], TABLES64[:-1]):
                    self.assertEqual(plate.binary64(operation, 0, bits, 224, lent), (15, 0, 224))
            for bits in special:
                self.assertEqual(plate.binary64(operation, 0, bits, 0, wrong),
                                 plate.binary64(operation, 0, bits, 0, TABLES64))
            self.assertEqual(plate.binary64(operation, 0, one, 255, wrong), (16, 0, 255))
            self.assertEqual(plate.binary64(operation, 0, one, 255, TABLES64), (0, one, 31))

    def test_against_the_machine(self):
        # Python's numbers are binary64, and its division and root round to nearest.
        for bits in self.operands(1500) + [self.random.randrange(1, 2**52) for _ in range(100)]:
            x, = struct.unpack("<d", struct.pack("<Q", bits))
            if bits > 0x0004000000000000:
                self.assertEqual(plate.binary64(1, 0, bits, 0, ())[1], bits64(1.0 / x))
            self.assertEqual(plate.binary64(2, 0, bits, 0, TABLES64)[1], bits64(math.sqrt(x)))

    def test_inverse_root(self):
        # The root of 4**1200 / x by whole numbers, and of it the first 53 bits.
        for bits in self.operands(300):
            x = plate.value(bits, plate.BINARY64)
            answer = plate.value(plate.binary64(3, DOWN, bits, 0, TABLES64)[1], plate.BINARY64)
            root = math.isqrt(x.denominator * 4**1200 // x.numerator)
            cut = root.bit_length() - 53
            self.assertEqual(answer, Fraction(root >> cut << cut, 2**1200))

    def test_hard_cases(self):
        # The search says on which side of a number or of a middle the result lies.
        lines = (make_vectors.HERE / "hard_cases64.txt").read_text().splitlines()
        for line in lines:
            operation, bits, kind, _, side, _ = line.split()
            nearest, up, down, _ = (
                plate.binary64(int(operation), rounding, int(bits, 16), 0, TABLES64)[1]
                for rounding in ROUNDINGS)
            self.assertEqual(up, down + 1)
            self.assertEqual(nearest, up if (kind, side) in (("number", "below"),
                                                             ("middle", "above")) else down)
        self.assertEqual(len(lines), 336)

    def test_down_and_up(self):
        def agree(operation, bits):
            lower, upper = (plate.binary64(operation, rounding, bits, status, TABLES64)[1]
                            for rounding, status in ((DOWN, 0), (UP, 31)))
            self.assertIn(upper - lower, (0, 1))
            return lower == upper

        exponents = [*range(-1074, 1024, 7), -1074, -1073, -1024, -1023, -1022, -1021, 1022, 1023]
        powers = [make_vectors.operand(1, e, plate.BINARY64) for e in exponents]
        for operation in (1, 2, 3):
            for bits in powers + self.operands(300):
                x = plate.value(bits, plate.BINARY64)
                self.assertEqual(agree(operation, bits),
                                 lower_and_upper_agree(operation, x, 1023))
        for _ in range(300):
            n = self.random.randrange(1, 94906266)              # its square has 53 bits
            square = bits64(math.ldexp(n * n, 2 * self.random.randrange(-537, 485)))
            self.assertTrue(agree(ROOT, square))


class Public(unittest.TestCase):
    def test_published_answers(self):
        # The answers of tests/public/*.txt, as their sources publish them.
        count = 0
        for call, answer in vectors.published():
            self.assertEqual(plate.binary32(*call), answer, "%d %d %08X %d" % call)
            count += 1
        self.assertGreater(count, 0)

    def test_published_answers_of_binary64(self):
        count = 0
        for call, answer in vectors.published64():
            self.assertEqual(plate.binary64(*call, TABLES64), answer, "%d %d %016X %d" % call)
            count += 1
        self.assertGreater(count, 0)


class Samples(unittest.TestCase):
    def setUp(self):
        self.random = random.Random(101)

    def operands(self, count):
        """Positive finite patterns."""
        return [self.random.randrange(1, 0x7F800000) for _ in range(count)]

    def test_against_the_machine(self):
        # A double holds more than twice the bits of a binary32 number, so the
        # nearest double, rounded again, is the nearest binary32 number as long
        # as the result is normal.
        for bits in self.operands(3000):
            x, = struct.unpack("<f", struct.pack("<I", bits))
            if 0x00200000 < bits < 0x7E800000:
                answer, = struct.unpack("<I", struct.pack("<f", 1.0 / x))
                self.assertEqual(plate.binary32(RECIPROCAL, NEAREST, bits, 0)[1], answer)
            answer, = struct.unpack("<I", struct.pack("<f", math.sqrt(x)))
            self.assertEqual(plate.binary32(ROOT, NEAREST, bits, 0)[1], answer)

    def test_raw_distance(self):
        # Document 01 and #105: under 12, 7 and 7 units from 2**28 times the exact value.
        edges = [i << 16 for i in range(128, 256)] + [(i << 16) - 1 for i in range(129, 257)]
        for y in edges + [self.random.randrange(2**23, 2**24) for _ in range(3000)]:
            g = plate.raw(RECIPROCAL, y, 0)[1]
            self.assertLess(abs(g * y - 2**51), 12 * y)
            for p in (0, 1):
                g = plate.raw(ROOT, y, p)[1]        # exact: sqrt(y * 2**(33 + p))
                self.assertLess((g - 7)**2, y * 2**(33 + p))
                self.assertGreater((g + 7)**2, y * 2**(33 + p))
                g = plate.raw(INVERSE_ROOT, y, p)[1]  # exact: sqrt(2**(79 - p) / y)
                self.assertLess((g - 7)**2 * y, 2**(79 - p))
                self.assertGreater((g + 7)**2 * y, 2**(79 - p))

    def bracket(self, operation, bits):
        lower = plate.binary32(operation, DOWN, bits, 0)[1]
        upper = plate.binary32(operation, UP, bits, 0)[1]
        self.assertIn(upper - lower, (0, 1))
        return lower == upper

    def agrees(self, operation, bits):
        return lower_and_upper_agree(operation, plate.value(bits), 127)

    def test_down_and_up(self):
        powers = [1 << k for k in range(23)] + [e << 23 for e in range(1, 255)]
        for operation in (1, 2, 3):
            for bits in powers + self.operands(500):
                self.assertEqual(self.bracket(operation, bits), self.agrees(operation, bits))
        for _ in range(300):
            n = self.random.randrange(1, 4096)
            k = self.random.randrange(-74, 53)
            square, = struct.unpack("<I", struct.pack("<f", math.ldexp(n * n, 2 * k)))
            self.assertTrue(self.bracket(ROOT, square))
            self.assertTrue(self.agrees(ROOT, square))

    def test_two_lists(self):
        # #102: equality is judged on the records; the trailers differ in the rounding.
        verdicts = set()
        for trial in range(60):
            step = self.random.choice((1, 2, 3, 6, 10, 1000))
            radius = self.random.choice((1, 5, 10, 65, 5000, 12500))
            top = self.random.choice((1, 2, 20, 50000))
            rows = [[self.random.randint(-top, top) for _ in range(5)] for _ in range(4)]
            if trial % 3 == 0:          # dx 0 or 3/2 of 2*step, dy 0: exact where 5 | radius
                slope = self.random.choice((0, 3 * step // 2))
                rows = [[slope * c for c in range(5)]] * 4
            a_map = make_map(rows, step, radius)
            lower, upper = (plate.cutter_list(r, a_map, bytes(90))[2] for r in (DOWN, UP))
            exact = True
            for row in range(1, 3):
                for c in range(1, 4):
                    dx = rows[row][c + 1] - rows[row][c - 1]
                    dy = rows[row + 1][c] - rows[row - 1][c]
                    q = dx * dx + dy * dy + 4 * step * step
                    root = math.isqrt(q)
                    exact &= root * root == q and all(
                        n * radius % root == 0 for n in (dx, dy, 2 * step))
            self.assertEqual(lower[:72] == upper[:72], exact)
            verdicts.add(exact)
            for k in range(0, 72, 4):
                self.assertIn(plate.signed(upper[k:k + 4]) - plate.signed(lower[k:k + 4]), (0, 1))
            self.assertEqual(lower[72:88], upper[72:88])
            self.assertEqual((lower[88:], upper[88:]), (b"\2\0", b"\1\0"))
        self.assertEqual(verdicts, {False, True})


if __name__ == "__main__":
    unittest.main()
