"""Lengths in millimetres, as the shop writes them, and whole micrometres, as maps have them."""
import argparse
import decimal
import re

from shop.words import Refused

# more digits than anyone writes, so that no length is rounded before it is asked to
decimal.getcontext().prec = 1000
DECIMAL = re.compile(r'[+-]?(\d+[.,]?\d*|[.,]\d+)(e[+-]?\d{1,9})?', re.ASCII | re.IGNORECASE)


def millimetres(text):
    """An exact decimal number; a comma may stand for the point."""
    if not DECIMAL.fullmatch(text.strip()):
        raise ValueError(text)
    return decimal.Decimal(text.strip().replace(',', '.'))


def whole_micrometres(name, length):
    """The micrometres of a length that is a whole number of them."""
    number = length.scaleb(3)
    if number != number.to_integral_value():
        raise Refused(f'{name}: {length} mm is not a whole number of micrometres')
    return int(number)


def nearest_micrometre(length):
    """The micrometres of a height, of two that are as near the even number."""
    return int(length.scaleb(3).to_integral_value(decimal.ROUND_HALF_EVEN))


def argument(text):
    """A length on the command line."""
    try:
        return millimetres(text)
    except ValueError:
        raise argparse.ArgumentTypeError(f'{text!r} is not a length in millimetres') from None
