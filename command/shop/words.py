"""What the shop is told: refusals, roundings, operations and flags in words. The sentences are those of plate.h."""
import contextlib
import errno
import sys

REFUSALS = {
    1: 'the operation is not 1, 2 or 3',
    2: 'the rounding is not 0, 1, 2 or 3',
    3: 'the significand has not 24 bits, for binary64 53, with the highest one set',
    4: 'the parity is not 0, nor 1 with a root or an inverse root',
    5: 'there are fewer than 16 bytes',
    6: 'the letters at the end are not PLT1',
    7: 'the columns or the rows are not 3 to 64',
    8: 'the step is not 1 to 10,000 micrometres, or the radius not 1 to 12,500',
    9: "the map's distance back or its length is not that of its columns and rows",
    10: 'a height is not from -50,000 to 50,000 micrometres',
    11: 'the lent buffer is shorter than the list',
    12: 'the letters at the end are neither CUT1 nor CUT2',
    13: "the list's distance back or its length is not that of its columns and rows",
    14: 'the index is not below the number of records',
    15: 'the lent tables are not 131,072 numbers',
    16: 'the number that is used of the lent tables is not the one filled in',
}
OPERATIONS = {'reciprocal': 1, 'root': 2, 'inverse-root': 3}
ROUNDINGS = {'nearest': 0, 'up': 1, 'down': 2, 'zero': 3}
ROUNDED = ('rounded to the nearest', 'rounded up', 'rounded down', 'rounded toward zero')
FLAGS = {1: 'invalid', 2: 'division by zero', 4: 'overflow', 8: 'underflow', 16: 'inexact'}


class Refused(Exception):
    """What was given is not taken, and why: exit status 1."""


class Unreadable(Exception):
    """What was given cannot be read, and why: exit status 2."""


def refusal(number):
    """A refusal of a call in words."""
    return f'{number}: {REFUSALS[number]}'


def flags(status):
    """The flags of a status in words."""
    return ', '.join(words for bit, words in FLAGS.items() if status & bit) or 'none'


def short(text):
    """A text as it was given, or its beginning."""
    return text if len(text) <= 40 else f'{text[:37]}...'


def count(number, one, more=None):
    """A number of things: 1 row, 2 rows."""
    return f'{number:,} {one if number == 1 else more or one + "s"}'


def sizes(columns, rows, step, radius):
    """The sizes of a map or a list."""
    return f'{columns} columns, {rows} rows, step {step:,} and radius {radius:,} micrometres'


def tell(words):
    """A line on standard error, if anyone reads it."""
    with contextlib.suppress(OSError):
        print(f'plate: {words}', file=sys.stderr, flush=True)


def check_sizes(name, columns, rows):
    """A table or a picture may become a map."""
    if not (3 <= columns <= 64 and 3 <= rows <= 64):
        raise Refused(f'{name}: {count(columns, "column")} and {count(rows, "row")}; a map has 3 to 64 of each')


def say(*lines):
    """Lines on standard output."""
    if sys.stdout is None:
        raise OSError(errno.EBADF, 'closed')
    sys.stdout.write('\n'.join(lines) + '\n')
