"""What `plate show` prints of lists, against the reference program, and what it says of those that it cannot take."""
import struct
import unittest

from shop_tests import ROUNDINGS, ROWS, SAMPLES, ShopTest, counts, expected_list, map_of, plate, refusal_words, some_maps

SAID = {'nearest': 'to the nearest', 'up': 'rounded up', 'down': 'rounded down', 'zero': 'toward zero'}


def damaged(sound, place, form, *numbers):
    """A list with other numbers at a place, counted from its end."""
    made = bytearray(sound)
    struct.pack_into(form, made, len(made) + place, *numbers)
    return bytes(made)


def refused_lists():
    """Lists with one thing wrong each."""
    new, old = expected_list(map_of(ROWS), 'up'), plate.old_list(plate.UP, map_of(ROWS))
    yield from (b'', old[:-1], new[:-1], new + b'\0', b'\0' + new, old[1:], map_of(ROWS))
    for columns, rows in ((2, 3), (3, 65), (4, 3)):
        yield damaged(new, -10, '<HH', columns, rows)
    for step, radius in ((0, 6000), (10001, 6000)):
        yield damaged(new, -6, '<HH', step, radius)
    for step, radius in ((5600, 0), (5600, 12501)):
        yield damaged(old, -4, '<HH', step, radius)
    yield damaged(new, -14, '<I', 24)
    for rounding in (4, 256):
        yield damaged(new, -2, '<H', rounding)
    yield damaged(new, -18, '<4s', b'CUT3')


class Show(ShopTest):

    def check_shown(self, some_list, words):
        """The first line has the sizes and the rounding, and each record stands in a line with its column and its row."""
        end = plate.list_trailer(some_list)
        w, d, step, radius = plate.sizes(end)
        printed = self.done('show', self.write('list', some_list)).decode().splitlines()
        self.assertEqual(counts(printed[0])[:4], [w, d, step, radius])
        self.assertIn(words, printed[0])
        self.assertEqual(printed[1].split(), ['column', 'row', 'x', 'y', 'z'])
        records = [plate.record(some_list, index)[-3:] for index in range((w - 2) * (d - 2))]
        expected = [[*place, *record] for place, record in zip(plate.inner_points(w, d), records)]
        self.assertEqual([list(map(int, line.split())) for line in printed[2:]], expected)
        return printed[0]

    def test_records(self):
        """Lists of both kinds, plain and lifted, from the reference."""
        for at, some_map in enumerate(some_maps(8, 13)):
            rounding = list(ROUNDINGS)[at % 4]
            with self.subTest(at, rounding=rounding):
                self.check_shown(expected_list(some_map, rounding, at % 3 == 0), SAID[rounding])

    def test_older(self):
        """A list that ends in CUT1 does not say its rounding, and none is named."""
        for some_map in some_maps(2, 5):
            said = self.check_shown(plate.old_list(plate.DOWN, some_map), 'CUT1')
            self.assertFalse([words for words in SAID.values() if words in said])

    def test_ends(self):
        """The ends of what four bytes hold, which no map gives but a list may have."""
        some_list = expected_list(map_of(ROWS), 'zero')
        self.check_shown(damaged(some_list, -len(some_list), '<3i', -2**31, 2**31 - 1, -1), SAID['zero'])

    def test_refused(self):
        """A refused list is told by its number and its sentence; together these are all that a list can have."""
        numbers = set()
        for some_list in refused_lists():
            number = plate.reader_refusal(some_list)
            with self.subTest(number, length=len(some_list)):
                self.fails(1, refusal_words(number), 'show', self.write('list', some_list))
            numbers.add(number)
        self.assertEqual(numbers, {5, 12, 7, 8, 13, 2})

    def test_made_lists(self):
        """A list that the command made, from one pipe into the next."""
        made = self.done('list', SAMPLES / 'example.plt', '--rounding', 'nearest', '-o', '-')
        printed = self.done('show', '-', given=made).decode().splitlines()
        self.assertEqual(printed[2].split(), ['1', '1', '-1000', '2000', '5500'])

    def test_wrong_command_lines(self):
        for options in ([], ['one', 'two']):
            with self.subTest(options):
                self.fails(2, 'usage: ', 'show', *options)


if __name__ == '__main__':
    unittest.main()
