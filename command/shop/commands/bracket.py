"""Makes both lists of a map, rounded down and rounded up, and tells where they differ.

Where a number of the lower list and its fellow of the upper one differ, the upper
is larger by one micrometre, and the exact centre lies between them. A point is
exact where all three numbers are equal. The lists are those before the lift.

  plate bracket top.plt --picture bracket.png
  plate bracket top.plt --table | less"""
from shop import files, library
from shop.progress import progress
from shop.words import ROUNDINGS, Unreadable, count, say, sizes

SUMMARY = 'make the lower and the upper list of a map, and compare them'


def arguments(parser):
    parser.add_argument('map', metavar='MAP', help='the map, as `plate map` makes it; - is standard input')
    parser.add_argument('--lower', metavar='FILE', type=files.output, help='write the lower list')
    parser.add_argument('--upper', metavar='FILE', type=files.output, help='write the upper list')
    parser.add_argument('--table', action='store_true', help='print each number that differs')
    parser.add_argument('--picture', metavar='FILE', type=files.picture,
                        help='draw the surface, the bracket and which points are exact (png, svg, pdf)')


def differences(lower, upper):
    """Column, row, which number, lower and upper, wherever two numbers differ."""
    for (column, row, low), (_, _, high) in zip(lower, upper):
        for name in 'xyz':
            if getattr(low, name) != getattr(high, name):
                yield column, row, name, getattr(low, name), getattr(high, name)


def told(points, found):
    """How many numbers and points differ."""
    if not found:
        return 'the two lists are equal: every point is exact'
    inexact = len({(column, row) for column, row, *_ in found})
    return (f'the two lists differ in {len(found):,} of {count(3 * points, "number")}, at {inexact:,} of {count(points, "point")}; '
            f'{count(points - inexact, "point is exact", "points are exact")}')


def run(arguments):
    files.check_apart(arguments.map, arguments.lower, arguments.upper, arguments.picture)
    if '-' in (arguments.lower, arguments.upper):
        raise Unreadable('standard output has the comparison: name a file for the list')
    name, given = files.named(arguments.map), files.read(arguments.map)
    cuts = [library.cutter_list(name, given, ROUNDINGS[rounding]) for rounding in ('down', 'up')]
    for path, cut in zip((arguments.lower, arguments.upper), cuts):
        if path:
            files.write(path, cut)
    lower, upper = (list(library.records(name, cut)) for cut in cuts)
    found = list(differences(lower, upper))
    first = lower[0][2]
    say(f'{name}: {sizes(first.columns, first.rows, first.step, first.radius)}', told(len(lower), found))
    if arguments.table:
        say('column  row  number     lower     upper')
        say(*(f'{column:6} {row:4}  {of:>6} {low:9} {high:9}' for column, row, of, low, high in found))
    if arguments.picture:
        with progress(f'drawing {arguments.picture}'):
            from shop import pictures
            pictures.bracket(arguments.picture, given, lower, upper)
