"""Works one operation on a number, correctly rounded, and tells its flags.

X is a decimal number (2.5, -1e-3, inf), of which the nearest binary32 number is
taken, or the bits of one (0x40200000). --square takes X times itself first, by the
machine's product to the nearest: a width from 2^-63 to below 2^64 is the root of
its square again, to the nearest. The flags are those of the operation alone.

  plate number root down 2
  plate number inverse-root nearest 0x40800000
  plate number root nearest 2.7 --square"""
import re

from shop import library
from shop.formats import BINARY32, BINARY64
from shop.words import OPERATIONS, ROUNDED, ROUNDINGS, flags, say, short

SUMMARY = 'work one operation on a number'


def arguments(parser):
    # a negative number is no option, whatever its form
    parser._negative_number_matcher = re.compile(r'-(\d|\.\d|inf|nan)', re.IGNORECASE)
    parser.add_argument('operation', metavar='OPERATION', choices=OPERATIONS, help='reciprocal, root or inverse-root')
    parser.add_argument('rounding', metavar='ROUNDING', choices=ROUNDINGS, help='nearest, up, down or zero')
    parser.add_argument('number', metavar='X', help='the number, or its bits after 0x')
    parser.add_argument('--binary64', action='store_true', help='with the numbers of 64 bits')
    parser.add_argument('--square', action='store_true', help='of X times itself')


def run(arguments):
    form, call = (BINARY64, library.binary64) if arguments.binary64 else (BINARY32, library.binary32)
    bits, exact = form.read(arguments.number)
    lines = [] if exact else [f'{short(arguments.number)} is taken as {form.words(bits, digits=17)}, the nearest {form.name} number']
    if arguments.square:
        bits = form.square(bits)
        lines.append(f'its square, to the nearest, is {form.words(bits)}')
    operation, rounding = OPERATIONS[arguments.operation], ROUNDINGS[arguments.rounding]
    answer, status = call(operation, rounding, bits)
    say(*lines, f'{arguments.operation} of {form.words(bits)}, {ROUNDED[rounding]}:', form.words(answer), f'flags: {flags(status)}')
