"""Makes the list of centres that the cutter follows over a map, in one rounding.

The list for one rounding says in its last bytes which rounding made it. For a
bracket make two, one down and one up. Cut from lifted lists: on a steep slope the
ball of a plain list touches heights beside the point that it is centred for, and
--lifted raises z until it does not. Scrape to the bracket of plain lists; lifted
ones are none.

A list says nothing of the moves between its records. The straight line from a
row's last record to the next row's first may cross the plate: a machine lifts
there, or turns back.

The list is written to a new file beside, which then takes the name: no list is
ever left half written.

  plate list top.plt --rounding down -o lower.cut
  plate list top.plt --rounding nearest --lifted -o cut.cut"""
from shop import files, library
from shop.words import ROUNDINGS

SUMMARY = 'make the list of centres of a map'


def arguments(parser):
    parser.add_argument('map', metavar='MAP', help='the map, as `plate map` makes it; - is standard input')
    parser.add_argument('--rounding', choices=ROUNDINGS, required=True, help='how each offset is rounded to a micrometre')
    parser.add_argument('-o', dest='output', metavar='FILE', type=files.output, required=True,
                        help='the list to write; - is standard output')
    parser.add_argument('--lifted', action='store_true', help='lift each centre until the ball keeps off the heights round it')


def run(arguments):
    files.check_apart(arguments.map, arguments.output)
    given = files.read(arguments.map)
    made = library.cutter_list(files.named(arguments.map), given, ROUNDINGS[arguments.rounding], arguments.lifted)
    files.write(arguments.output, made)
