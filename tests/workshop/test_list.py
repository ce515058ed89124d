"""What `plate list` makes of maps, against the reference program."""
import unittest

from shop_tests import ROUNDINGS, SAMPLES, ShopTest, expected_list, map_of, refused_maps, refusal_words, some_maps

REFUSALS = range(5, 11)     # of a map


class List(ShopTest):

    def test_lists(self):
        """Each map in all four roundings; every other map and rounding is lifted."""
        for at, some_map in enumerate(some_maps(8, 33)):
            self.write('top.plt', some_map)
            for turn, rounding in enumerate(ROUNDINGS):
                lifted = (at + turn) % 2 == 1
                with self.subTest(at, rounding=rounding, lifted=lifted):
                    self.done('list', 'top.plt', '--rounding', rounding, '-o', 'top.cut', *['--lifted'] * lifted)
                    self.assertEqual(self.read('top.cut'), expected_list(some_map, rounding, lifted))

    def test_one_map(self):
        """A map with steep slopes, in every rounding, plain and lifted, gives eight lists, no two the same."""
        some_map = map_of([[(31 * c * c + 17 * r * r + 3 * c * r) % 211 * 25 for c in range(8)] for r in range(6)], 700, 1900)
        expected = {(rounding, lifted): expected_list(some_map, rounding, lifted) for rounding in ROUNDINGS for lifted in (False, True)}
        self.assertEqual(len(set(expected.values())), 8)
        self.write('top.plt', some_map)
        for (rounding, lifted), made in expected.items():
            self.done('list', 'top.plt', '--rounding', rounding, '-o', 'top.cut', *['--lifted'] * lifted)
            self.assertEqual(self.read('top.cut'), made, (rounding, lifted))

    def test_refused(self):
        """A refused map is told by its number and its sentence, and no list is written."""
        maps = refused_maps()
        self.assertEqual({number for number, _ in maps}, set(REFUSALS))
        for number, some_map in maps:
            with self.subTest(number, length=len(some_map)):
                self.write('top.plt', some_map)
                self.fails(1, refusal_words(number), 'list', 'top.plt', '--rounding', 'up', '-o', 'top.cut', '--lifted')

    def test_wrong_command_lines(self):
        for options in (['-o', 'top.cut'], ['--rounding', 'up'], ['--rounding', 'even', '-o', 'top.cut']):
            with self.subTest(options):
                self.fails(2, 'usage: ', 'list', SAMPLES / 'example.plt', *options)


if __name__ == '__main__':
    unittest.main()
