"""Shows a list: what made it, and each record with the column and the row of its
point on the map, counted from 0, and the cutter's centre in micrometres.

A list says nothing of the moves between its records, so the picture joins the
records of one row alone.

  plate show lower.cut --picture path.png"""
from shop import files, library
from shop.progress import progress
from shop.words import ROUNDED, say, sizes

SUMMARY = 'show the records of a list'


def arguments(parser):
    parser.add_argument('list', metavar='LIST', help='the list, as `plate list` makes it; - is standard input')
    parser.add_argument('--picture', metavar='FILE', type=files.picture,
                        help="draw the cutter's path from above and from the side (png, svg, pdf)")


def run(arguments):
    files.check_apart(arguments.list, arguments.picture)
    name, cut = files.named(arguments.list), files.read(arguments.list)
    records = list(library.records(name, cut))
    first = records[0][2]
    rounded = ROUNDED[first.rounding] if first.rounding < len(ROUNDED) else 'which rounding made it is not said (CUT1)'
    say(f'{name}: {sizes(first.columns, first.rows, first.step, first.radius)}; {rounded}')
    say('column  row         x         y         z')
    say(*(f'{column:6} {row:4} {record.x:9} {record.y:9} {record.z:9}' for column, row, record in records))
    if arguments.picture:
        with progress(f'drawing {arguments.picture}'):
            from shop import pictures
            pictures.path(arguments.picture, records)
