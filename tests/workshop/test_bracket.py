"""What `plate bracket` makes of maps, and what it tells of the two lists, against the reference program."""
import unittest

from shop_tests import SAMPLES, ShopTest, counts, expected_list, map_of, plate, refused_maps, refusal_words, some_maps


def differences(some_map):
    """Column, row, name, lower and upper of each number that differs between the lower and the upper list, and at how many points."""
    w, d, _, _ = plate.sizes(plate.map_trailer(some_map))
    found, points = [], 0
    lower, upper = plate.centres(plate.DOWN, some_map), plate.centres(plate.UP, some_map)
    for (c, row), low, high in zip(plate.inner_points(w, d), lower, upper):
        points += low != high
        found += [(str(c), str(row), name, str(a), str(b)) for name, a, b in zip('xyz', low, high) if a != b]
    return found, points, len(lower)


class Bracket(ShopTest):

    def test_brackets(self):
        """Both lists, the counts, and each number that differs."""
        for at, some_map in enumerate(some_maps(8, 41)):
            with self.subTest(at):
                self.write('top.plt', some_map)
                printed = self.done('bracket', 'top.plt', '--lower', 'l.cut', '--upper', 'u.cut', '--table').decode().splitlines()
                self.assertEqual(self.read('l.cut'), expected_list(some_map, 'down'))
                self.assertEqual(self.read('u.cut'), expected_list(some_map, 'up'))
                self.check_words(printed, *differences(some_map))

    def check_words(self, printed, table, points, of_all):
        """The words of a bracket: one line that tells how the lists compare, then the table."""
        told, = (line for line in printed if 'list' in line)
        if table:
            self.assertNotIn('equal', told)
            self.assertEqual(counts(told), [len(table), 3 * of_all, points, of_all, of_all - points])
        else:
            self.assertIn('equal', told)
        rows = [tuple(line.split()) for line in printed[printed.index(told) + 1:]]
        self.assertEqual([row for row in rows if row and row[0].isdigit()], table)

    def test_equal(self):
        """The sample of one exact point: the lists are equal but for the rounding that they state."""
        printed = self.done('bracket', SAMPLES / 'example.plt', '--lower', 'l.cut', '--upper', 'u.cut').decode()
        self.assertIn('equal', printed)
        self.assertEqual(self.read('l.cut')[:-2], self.read('u.cut')[:-2])

    def test_no_table(self):
        """The table is printed on request alone."""
        some_map = map_of([[0, 1, 5], [7, 50, 31], [100, 9, 1]])
        first = differences(some_map)[0][0]
        printed = self.done('bracket', self.write('top.plt', some_map)).decode()
        self.assertNotIn(first, [tuple(line.split()) for line in printed.splitlines()])
        self.assertEqual(list(self.contents()), ['top.plt'])

    def test_refused(self):
        """A refused map writes neither list nor picture."""
        for number, some_map in refused_maps()[:2]:
            with self.subTest(number):
                self.write('top.plt', some_map)
                self.fails(1, refusal_words(number), 'bracket', 'top.plt', '--lower', 'l.cut', '--upper', 'u.cut', '--picture', 'p.png')

    def test_standard_output(self):
        """A list does not go where the words go."""
        for option in ('--lower', '--upper'):
            self.fails(2, 'standard output has the comparison', 'bracket', SAMPLES / 'example.plt', option, '-')


if __name__ == '__main__':
    unittest.main()
