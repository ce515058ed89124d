"""Works one operation on a significand, not rounded: what the table, the short
series and one product give.

A positive number is Y times a power of two, with Y from 1 to below 2, and its
significand y stands for Y: y / 2^23 with 24 bits, from 8388608 to 16777215, and
y / 2^52 with --binary64. Where the power's exponent is odd the parity is 1, and
both roots are those of 2 Y. The answer stands for itself over 2^28, or over 2^60,
and is less than 12 (reciprocal) or 7 (both roots) of these units from the exact
value.

  plate raw reciprocal 12582912
  plate raw root 8388608 --parity 1"""
import argparse
import decimal
import re

from shop import library
from shop.words import OPERATIONS, Refused, refusal, say, short

SUMMARY = 'work one operation on a significand, not rounded'


def whole(text):
    """A whole number on the command line."""
    if not re.fullmatch(r'-?[0-9]{1,40}|0[xX][0-9a-fA-F]{1,40}', text):
        raise argparse.ArgumentTypeError(f'{short(text)} is not a whole number')
    return int(text, 16) if text[1:2] in ('x', 'X') else int(text)


def arguments(parser):
    parser.add_argument('operation', metavar='OPERATION', choices=OPERATIONS, help='reciprocal, root or inverse-root')
    parser.add_argument('significand', metavar='Y', type=whole, help='the significand, a whole number, or its bits after 0x')
    parser.add_argument('--parity', type=int, default=0, choices=(0, 1), help='1 where the exponent is odd')
    parser.add_argument('--binary64', action='store_true', help='with 53 bits')


def run(arguments):
    call, size, places = (library.raw64, 64, 60) if arguments.binary64 else (library.raw, 32, 28)
    if not 0 <= arguments.significand < 1 << size:
        raise Refused(refusal(3))
    answer = call(OPERATIONS[arguments.operation], arguments.significand, arguments.parity)
    say(str(answer), f'which stands for {answer} / 2^{places}, about {decimal.Decimal(answer) / (1 << places):.12f}')
