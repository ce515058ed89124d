"""Makes a map from a table of heights in millimetres, or from a grey picture.

A table is text: a row of heights in each line, with commas, semicolons, tabs or
spaces between them; where the commas are not between the heights, one may stand
for the decimal point. Empty lines and lines that begin with # are left out. A
height is from -50 to 50 mm, and is rounded to the nearest micrometre. A picture
needs --low and --high: the heights of black and of white.

The first row is the map's row 0, at y = 0, and rows run with y; the first column
is column 0, at x = 0. A machine whose y runs away from you has row 0 in front, so
the plate comes out as the table in a mirror, top and bottom exchanged; --bottom-up
takes the last row first, and the plate lies as the table looks.

Rows and columns in a message are counted from 1.

  plate map top.csv -o top.plt --step 5.6 --radius 6
  plate map top.png -o top.plt --step 5.6 --radius 6 --low 4 --high 15.5"""
import decimal

from shop import files, greys, library, tables
from shop.lengths import argument, whole_micrometres
from shop.tables import HIGHEST
from shop.words import ROUNDINGS, Refused, Unreadable, count, say, sizes

# millimetres: the least step and radius, and the greatest of each
LEAST, WIDEST_STEP, LARGEST_RADIUS = decimal.Decimal('0.001'), decimal.Decimal(10), decimal.Decimal('12.5')
SUMMARY = 'make a map from a table of heights, or from a grey picture'


def arguments(parser):
    parser.add_argument('table', metavar='TABLE', help='the table or the picture; - is standard input')
    parser.add_argument('-o', dest='output', metavar='FILE', type=files.output, required=True, help='the map to write')
    parser.add_argument('--step', metavar='MM', type=argument, required=True, help='from a height to the next, 0.001 to 10 mm')
    parser.add_argument('--radius', metavar='MM', type=argument, required=True, help="the cutter's radius, 0.001 to 12.5 mm")
    parser.add_argument('--low', metavar='MM', type=argument, help='the height of black: TABLE is a picture')
    parser.add_argument('--high', metavar='MM', type=argument, help='the height of white')
    parser.add_argument('--bottom-up', action='store_true', help='the last row becomes row 0')


def micrometres(name, length, lowest, highest):
    """A length in a range, in whole micrometres."""
    if not lowest <= length <= highest:
        raise Refused(f'{name}: {length} mm is not from {lowest} to {highest} mm')
    return whole_micrometres(name, length)


def heights(arguments):
    """The heights, row by row, and what to say of them."""
    name = files.named(arguments.table)
    if arguments.low is None and arguments.high is None:
        table, rounded = tables.heights(name, files.read(arguments.table))
        return table, [f'{count(rounded, "height")} rounded to the nearest micrometre'] if rounded else []
    if arguments.low is None or arguments.high is None:
        raise Unreadable('a picture needs both --low and --high')
    low = micrometres('--low', arguments.low, -HIGHEST, HIGHEST)
    high = micrometres('--high', arguments.high, -HIGHEST, HIGHEST)
    return greys.heights(name, files.read(arguments.table, files.LONGEST_PICTURE), low, high), []


def whole_map(table, step, radius):
    """The bytes of a map."""
    import numpy

    rows, columns = len(table), len(table[0])
    back = 4 * columns * rows
    numbers = ((back, 4), (columns, 2), (rows, 2), (step, 2), (radius, 2))
    trailer = b'PLT1' + b''.join(number.to_bytes(size, 'little') for number, size in numbers)
    return numpy.asarray(table, dtype='<i4').tobytes() + trailer


def run(arguments):
    files.check_apart(arguments.table, arguments.output)
    step = micrometres('--step', arguments.step, LEAST, WIDEST_STEP)
    radius = micrometres('--radius', arguments.radius, LEAST, LARGEST_RADIUS)
    table, notes = heights(arguments)
    if arguments.bottom_up:
        table = table[::-1]
    made = whole_map(table, step, radius)
    library.cutter_list(files.named(arguments.table), made, ROUNDINGS['nearest'])
    files.write(arguments.output, made)
    if arguments.output != '-':
        say(f'{arguments.output}: {sizes(len(table[0]), len(table), step, radius)}', *notes)
