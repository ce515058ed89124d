"""Binary32 and binary64 numbers, from decimal text and into it, exactly."""
import decimal
import fractions
import re

from shop.words import Refused, Unreadable, short

DECIMAL = re.compile(r'[+-]?((\d+\.?\d*|\.\d+)(e[+-]?\d{1,9})?|inf|nan)', re.IGNORECASE | re.ASCII)
# no format has a number with so large an exponent of ten
FARTHEST = 500


class Format:
    """A format by its bits and the bits of its fraction."""

    def __init__(self, name, size, fraction):
        self.name, self.size, self.fraction = name, size, fraction
        self.infinity = (1 << size - 1) - (1 << fraction)
        self.bias = (1 << size - 2 - fraction) - 1

    def read(self, text):
        """The bits of a number that is written as a decimal or as bits, and whether it is that number exactly."""
        if re.fullmatch(r'0[xX][0-9a-fA-F]+', text):
            bits = int(text, 16)
            if bits >> self.size:
                raise Refused(f'{short(text)}: {self.name} has {self.size // 4} digits of bits')
            return bits, True
        if not DECIMAL.fullmatch(text):
            raise Unreadable(f'{short(text)!r} is not a number')
        sign, magnitude = text.startswith('-') << self.size - 1, text.lstrip('+-').lower()
        if magnitude in ('inf', 'nan'):
            return sign | self.infinity | (magnitude == 'nan') << self.fraction - 1, True
        number = decimal.Decimal(magnitude)
        if number and abs(number.adjusted()) > FARTHEST:
            raise Refused(f'{short(text)} is too {"large" if number > 1 else "small"} for {self.name}')
        value = fractions.Fraction(number)
        bits = self.nearest(value)
        if bits >= self.infinity or value and not bits:
            raise Refused(f'{short(text)} is too {"large" if bits else "small"} for {self.name}')
        return sign | bits, self.value(bits) == value

    def nearest(self, value):
        """The bits of the number nearest to a value that is not negative, of two that are as near the even one."""
        if not value:
            return 0
        exponent = value.numerator.bit_length() - value.denominator.bit_length()
        exponent = max(exponent - (value < fractions.Fraction(2) ** exponent), 1 - self.bias)
        units = round(value / fractions.Fraction(2) ** (exponent - self.fraction))
        return units + (exponent - 1 + self.bias << self.fraction)

    def value(self, bits):
        """The value of bits below those of infinity."""
        field = bits >> self.fraction
        units = bits - (max(field, 1) - 1 << self.fraction)
        return units * fractions.Fraction(2) ** (max(field, 1) - self.bias - self.fraction)

    def square(self, bits):
        """The bits of the machine's product of a number with itself, to the nearest."""
        import numpy
        number = numpy.array([bits], f'<u{self.size // 8}').view(f'<f{self.size // 8}')
        with numpy.errstate(all='ignore'):
            return int((number * number).view(f'<u{self.size // 8}')[0])

    def words(self, bits, digits=0):
        """The number in so many digits, or in as few as are read as these bits, and the bits."""
        sign, magnitude = '-' * (bits >> self.size - 1), bits & (1 << self.size - 1) - 1
        if magnitude < self.infinity:
            texts = (f'{float(self.value(magnitude)):.{count}g}' for count in range(digits or 1, 18))
            text = next(text for text in texts if self.nearest(fractions.Fraction(text)) == magnitude)
            number = decimal.Decimal(text)
            text = sign + (f'{number:f}' if -5 < number.adjusted() < 17 else text)
        else:
            text = f'{sign}inf' if magnitude == self.infinity else 'nan'
        return f'{text} (0x{bits:0{self.size // 4}X})'


BINARY32 = Format('binary32', 32, 23)
BINARY64 = Format('binary64', 64, 52)
