"""What `plate map` makes of tables, and what it says of those that it cannot take."""
import fractions
import unittest

from shop_tests import ROWS, SAMPLES, ShopTest, map_of, table_of

SIZES = ('--step', '5.6', '--radius', '6')
NINE = [[1500, -2000, 3000], [4000, 5250, 6000], [7000, 8000, -9125]]

# The same nine heights, as makers and spreadsheets write them
SPELLINGS = {
    'commas and spaces': ' 1.5, -2, 3\n4 , 5.25 , 6\n7, 8, -9.125 \n',
    'semicolons with decimal commas': '1,5;-2;3\n4;5,25;6\n7;8;-9,125\n',
    'tabs': '1.5\t-2\t3\n4\t5.25\t6\n7\t8\t-9.125\n',
    'tabs with decimal commas': '1,5\t-2\t3\n4\t5,25\t6\n7\t8\t-9,125\n',
    'spaces in columns': '  1.5  -2   3\n  4    5.25  6\n  7    8    -9.125\n',
    'spaces with decimal commas': '1,5 -2 3\n4 5,25 6\n7 8 -9,125\n',
    'spaces with decimal commas in every height': '1,5 -2,0 3,0\n4,0 5,25 6,0\n7,0 8,0 -9,125\n',
    'comments and empty lines': '# top, 3 by 3; in mm\n\n1.5,-2,3\n# the middle\n4,5.25,6\n\n7,8,-9.125\n\n# end',
    'a byte order mark, and no end of the last line': '\ufeff1.5,-2,3\n4,5.25,6\n7,8,-9.125',
    'lines that end as Windows ends them': '1.5,-2,3\r\n4,5.25,6\r\n\r\n7,8,-9.125\r\n',
    'signs, points and exponents': '+1.5,-2.,3.000\n4e0,.525e1,6.0000\n7,80e-1,-9.125\n',
}

# A table with one thing wrong, and what is said of it
WRONG = {
    '1,2,3\n4,50.2,6\n7,8,9\n': 'row 2, column 2: 50.2 mm is above 50 mm',
    '1,2,3\n4,5,6\n-50.001,8,9\n': 'row 3, column 1: -50.001 mm is below -50 mm',
    '1;2;50,0001\n4;5;6\n7;8;9\n': 'row 1, column 3: 50',
    '1,2,3\n4,,6\n7,8,9\n': 'row 2, column 2: ',
    '1\t2\t3\n4\t5\t6\n7\t\t9\n': 'row 3, column 2: ',
    '1,2,3\n4,five,6\n7,8,9\n': "row 2, column 2: 'five' is not a number",
    '1,2,3\n4,5,6\n7,8,nan\n': "row 3, column 3: 'nan' is not a number",
    '1,2,3\n4,1_0,6\n7,8,9\n': "row 2, column 2: '1_0' is not a number",
    '1;2;3\n4;1.234,5;6\n7;8;9\n': "row 2, column 2: '1.234,5' is not a number",
    '1,2,3\n4,5\n7,8,9\n': 'row 2 ',
    '1 2 3\n4,5,6\n7 8 9\n': 'row 2 has 3 heights, row 1 has 1',
    '1,2,3\n4,5,6\n': '2 rows',
    '1,' * 64 + '1\n': '65 columns',
    '1,2,3\n' * 65: '65 rows',
    '': 'top.csv: ',
    b'\xff\xfe1\0,\0': 'top.csv: ',
}


class MapOfTable(ShopTest):

    def made(self, table, *options):
        """The bytes of the map of a table."""
        self.done('map', self.write('top.csv', table), '-o', 'top.plt', *options)
        return self.read('top.plt')

    def test_sample(self):
        """The sample becomes the map of its heights."""
        lines = (SAMPLES / 'top.csv').read_text(encoding='ascii').splitlines()
        rows = [[int(fractions.Fraction(cell) * 1000) for cell in line.split(',')] for line in lines]
        self.assertEqual((len(rows[0]), len(rows)), (64, 48))
        self.assertEqual(self.made((SAMPLES / 'top.csv').read_bytes(), *SIZES), map_of(rows))

    def test_spellings(self):
        """Every way to write a table gives the same map."""
        for name, table in SPELLINGS.items():
            with self.subTest(name):
                self.assertEqual(self.made(table, *SIZES), map_of(NINE))

    def test_bottom_up(self):
        """The last row of the table becomes row 0."""
        self.assertEqual(self.made(table_of(NINE), *SIZES, '--bottom-up'), map_of(NINE[::-1]))

    def test_ends(self):
        """The highest and the lowest height, the longest map, and micrometres to the nearest."""
        self.assertEqual(self.made('50,-50,50.000\n0.0004,0.0006,0\n-0.0004,-0.0006,-5e1\n', *SIZES),
                         map_of([[50000, -50000, 50000], [0, 1, 0], [0, -1, -50000]]))
        longest = [[((7 * c + 13 * r) % 100 - 50) * 1000 for c in range(64)] for r in range(64)]
        self.assertEqual(self.made(table_of(longest), *SIZES), map_of(longest))

    def test_wrong_tables(self):
        """A table with something wrong is refused with the place and the reason, and no map is written."""
        for table, words in WRONG.items():
            with self.subTest(table[:40]):
                self.fails(1, words, 'map', self.write('top.csv', table), '-o', 'top.plt', *SIZES)

    def test_place_below_comments(self):
        """Lines that are left out are no rows of the table."""
        table = '# heights\n\n1,2,3\n\n# more\n4,5,6\n7,8,x\n'
        message = self.fails(1, "'x' is not a number", 'map', self.write('top.csv', table), '-o', 'top.plt', *SIZES)
        self.assertIn('row 3, column 3', message)

    def test_steps_and_radii(self):
        """The step and the radius at both of their ends."""
        for step, radius in (('0.001', '12.500'), ('10', '0.001')):
            with self.subTest(step=step, radius=radius):
                numbers = [int(fractions.Fraction(text) * 1000) for text in (step, radius)]
                self.assertEqual(self.made(table_of(ROWS), '--step', step, '--radius', radius), map_of(ROWS, *numbers))

    def test_wrong_steps_and_radii(self):
        """A step or a radius beyond its ends, or of parts of a micrometre, is refused and named."""
        wrong = [('--step', text) for text in ('0', '10.001', '-1', '5.6005')]
        wrong += [('--radius', text) for text in ('0.0005', '12.501')]
        table = self.write('top.csv', table_of(ROWS))
        for option, text in wrong:
            sizes = {**{'--step': '1', '--radius': '1'}, option: text}
            with self.subTest(option, text=text):
                self.fails(1, f'{option}: ', 'map', table, '-o', 'top.plt', *(part for pair in sizes.items() for part in pair))

    def test_wrong_command_lines(self):
        """What is missing, or is no length, is told before anything is read."""
        for options in (['-o', 'top.plt', '--step', '1'], [*SIZES], ['-o', 'top.plt', '--step', '1', '--radius', 'nan']):
            with self.subTest(options):
                self.fails(2, 'usage: ', 'map', 'top.csv', *options)


if __name__ == '__main__':
    unittest.main()
