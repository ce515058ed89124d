"""What `plate number` answers, against the reference program."""
import fractions
import itertools
import re
import unittest

from shop_tests import OPERATIONS, ROUNDINGS, ShopTest, plate

FLAGS = {'invalid': plate.INVALID, 'division by zero': plate.DIVISION_BY_ZERO, 'overflow': plate.OVERFLOW,
         'underflow': plate.UNDERFLOW, 'inexact': plate.INEXACT, 'none': 0}
WIDTHS = {32: plate.BINARY32, 64: plate.BINARY64}

# A zero, subnormals, the greatest number, an infinity, a NaN that signals, negative numbers, and numbers in the middle
OPERANDS = {32: (0x80000000, 1, 0xFF7FFFFF, 0xFF800001, 0x3F800001), 64: (0x000FFFFFFFFFFFFF, 0xFFF0000000000000)}
HALF = fractions.Fraction(1, 2)


def nearest(number, width):
    """The pattern nearest to a number that is not negative, of two that are as near the even one."""
    low, high = 0, plate.infinity(width)
    while high - low > 1:
        middle = (low + high) // 2
        low, high = (middle, high) if plate.value(middle, width) <= number else (low, middle)
    between = (plate.value(low, width) + plate.value(low + 1, width)) / 2
    half = (number > between) - (number < between)
    return low + plate.takes_upper(plate.NEAREST, False, half, low % 2 == 1)


def bits_of(text, width):
    """The pattern that a text stands for: bits after 0x, a name, or the nearest to a decimal."""
    if text.startswith('0x'):
        return int(text, 16)
    sign = text.startswith('-') << width.exponent_bits + width.fraction_bits
    names = {'inf': plate.infinity(width), 'nan': plate.the_nan(width)}
    magnitude = text.lstrip('-')
    return sign | (names[magnitude] if magnitude in names else nearest(fractions.Fraction(magnitude), width))


def decimal(number):
    """A number with a power of two below it, with every digit."""
    places = number.denominator.bit_length()
    digits = str(number * 10**places).rjust(places + 1, '0')
    return digits[:-places] + '.' + digits[-places:]


def beside_middle(pattern, width):
    """The middle between a number and the next, and two so near to it that a number of twice the bits does not tell them from it."""
    middle = (plate.value(pattern, width) + plate.value(pattern + 1, width)) / 2
    return [decimal(number) for number in (middle, middle * (1 + HALF**120), middle * (1 - HALF**120))]


class Number(ShopTest):

    def answered(self, width, *arguments):
        """The operand's bits that the command tells, the answer's, and the flags; each is told with a decimal that stands for it."""
        printed = self.done('number', *arguments).decode()
        told = [(text, int(bits, 16)) for text, bits in re.findall(r'(\S+) \(0x([0-9A-F]+)\)', printed)]
        for text, bits in told:
            if text != 'nan':
                self.assertEqual(bits_of(text, width), bits, text)
        flags = printed.rpartition('flags: ')[2].strip().split(', ')
        return told[-2][1], told[-1][1], sum(FLAGS[flag] for flag in flags)

    def check(self, operation, rounding, x, size, bits=None, *options):
        """The answer to x is that of the reference to the bits that it stands for, or to other bits where they are given."""
        width = WIDTHS[size]
        bits = bits_of(x, width) if bits is None else bits
        expected = plate.result(OPERATIONS[operation], ROUNDINGS[rounding], bits, width)
        with self.subTest(operation=operation, rounding=rounding, x=x, size=size):
            answered = self.answered(width, operation, rounding, x, *['--binary64'] * (size == 64), *options)
            self.assertEqual(answered, (bits, *expected))

    def test_bits(self):
        """Operands by their bits, each in all three operations, in roundings that take turns."""
        for size, operands in OPERANDS.items():
            roundings = itertools.cycle(ROUNDINGS)
            for bits, operation in itertools.product(operands, OPERATIONS):
                self.check(operation, next(roundings), f'0x{bits:X}', size)

    def test_decimals(self):
        """The nearest number is taken of a decimal, in one step, and of two that are as near the even one."""
        texts = beside_middle(0x3F800000, plate.BINARY32)[:2] + beside_middle(0x3F800001, plate.BINARY32)[::2]
        for text in [*texts, beside_middle(1, plate.BINARY32)[0], '-' + beside_middle(0x4B7FFFFF, plate.BINARY32)[2]]:
            self.check('reciprocal', 'nearest', text, 32)
        self.check('reciprocal', 'nearest', beside_middle(0x3FF0000000000001, plate.BINARY64)[2], 64)

    def test_spellings(self):
        """Numbers as they are typed, negative ones without anything before them."""
        for text in ('-1e-3', '-.5', '-7.1E-46', '0', '-0', 'inf', 'nan', '0x7f800001'):
            self.check('reciprocal', 'up', text, 32)

    def test_many_digits(self):
        """A third, with more digits than anyone types."""
        third = nearest(fractions.Fraction(1, 3), plate.BINARY32)
        expected = plate.result(plate.ROOT, plate.UP, third, plate.BINARY32)
        self.assertEqual(self.answered(plate.BINARY32, 'root', 'up', '0.' + 5000 * '3'), (third, *expected))

    def test_ends(self):
        """The decimals just before those that are nearer to no number, which are refused and not changed."""
        beyond = str((plate.value(0x7F7FFFFF) + 2**128) / 2)
        self.check('root', 'up', str(int(beyond) - 1), 32, 0x7F7FFFFF)
        self.check('root', 'up', decimal(HALF**150 + HALF**300), 32, 1)
        for text, option in ((beyond, []), ('1e-50', []), ('1e99999', []), ('-1e400', ['--binary64'])):
            with self.subTest(text):
                self.fails(1, text, 'number', 'root', 'up', text, *option)

    def test_square(self):
        """The root of a number's square is the number, and its square is told."""
        for text, size in (('0x5F7FFFFF', 32), ('-0.1', 64)):
            magnitude = bits_of(text, WIDTHS[size]) % 2**(size - 1)
            square = nearest(plate.value(magnitude, WIDTHS[size])**2, WIDTHS[size])
            self.assertEqual(plate.result(plate.ROOT, plate.NEAREST, square, WIDTHS[size])[0], magnitude)
            self.check('root', 'nearest', text, size, square, '--square')

    def test_wrong_command_lines(self):
        """An operation, a rounding or a number that is none."""
        for words in (['sqrt', 'up', '2'], ['root', 'sideways', '2'], ['root', 'up', ''], ['root', 'up', '1,5'], ['root', 'up', '0xG']):
            with self.subTest(words):
                self.fails(2, 'plate', 'number', *words)
        self.fails(1, '0x100000000', 'number', 'root', 'up', '0x100000000')


if __name__ == '__main__':
    unittest.main()
