"""What `plate raw` answers, against the reference program."""
import itertools
import unittest

from shop_tests import OPERATIONS, ShopTest, plate, refusal_words

PAIRS = (('reciprocal', 0), ('root', 0), ('root', 1), ('inverse-root', 0), ('inverse-root', 1))


class Raw(ShopTest):

    def test_answers(self):
        """A significand of each width in every operation and parity."""
        for width, option, ys in ((plate.BINARY32, [], (11863283,)), (plate.BINARY64, ['--binary64'], (2**53 - 1,))):
            for y, (operation, parity) in itertools.product(ys, PAIRS):
                with self.subTest(operation, parity=parity, y=y):
                    r, _, _ = plate.reduction(y, width)
                    m = plate.multiplier(OPERATIONS[operation], r, parity, width)
                    printed = self.done('raw', operation, y, '--parity', parity, *option).decode()
                    self.assertEqual(int(printed.split()[0]), plate.raw_answer(OPERATIONS[operation], y, m, width))

    def test_bits(self):
        """A significand by its bits: that of 1, of which every operation is exact."""
        self.assertTrue(self.done('raw', 'inverse-root', '0x800000').startswith(b'268435456\n'))

    def test_refused(self):
        """A significand of other bits, and the parity 1 of a reciprocal; numbers of more than 32 or 64 bits are not cut."""
        for y in (2**23 - 1, 2**24, 2**32 + 2**23):
            with self.subTest(y):
                self.fails(1, refusal_words(3), 'raw', 'root', y)
        for y in (-2**52, 2**64 + 2**52):
            with self.subTest(y):
                self.fails(1, refusal_words(3), 'raw', 'inverse-root', y, '--binary64')
        self.fails(1, refusal_words(4), 'raw', 'reciprocal', 2**23, '--parity', 1)

    def test_wrong_command_lines(self):
        for words in (['sqrt', '8388608'], ['root', '1.5'], ['root', '8_388_608'], ['root', '8388608', '--parity', '2']):
            with self.subTest(words):
                self.fails(2, 'usage: ', 'raw', *words)


if __name__ == '__main__':
    unittest.main()
