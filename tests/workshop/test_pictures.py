"""The pictures of `plate bracket` and `plate show`: that they are made, whole, and of a sensible size."""
import errno
import os
import re
import unittest
import xml.etree.ElementTree

from PIL import Image

from shop_tests import SAMPLES, ShopTest, expected_list, map_of, no_longer_than

SURFACE = map_of([[(31 * c * c + 17 * r * r) % 211 * 25 for c in range(12)] for r in range(9)], 700, 1900)
PIXELS = range(400, 3000)       # of a sensible picture, across and down
POINTS = range(250, 2000)


class Pictures(ShopTest):

    def setUp(self):
        super().setUp()
        self.write('top.plt', SURFACE)
        self.write('top.cut', expected_list(SURFACE, 'up'))
        self.write('one.cut', expected_list((SAMPLES / 'example.plt').read_bytes(), 'up'))
        self.commands = {'bracket': ['bracket', 'top.plt', '--picture'], 'show': ['show', 'top.cut', '--picture'],
                         'equal bracket': ['bracket', SAMPLES / 'example.plt', '--picture'], 'one record': ['show', 'one.cut', '--picture']}

    def drawn(self, name, picture):
        """The command draws, and leaves nothing else."""
        before = set(self.contents())
        self.done(*self.commands[name], picture)
        self.assertEqual(set(self.contents()) - before, {picture})
        return self.folder / picture

    def check_png(self, path):
        """It opens whole, as a PNG, with many colours."""
        with Image.open(path) as made:
            self.assertEqual(made.format, 'PNG')
            self.assertTrue(made.width in PIXELS and made.height in PIXELS, made.size)
            self.assertGreater(len(made.convert('RGB').getcolors(1 << 24)), 50)

    def test_equal_bracket(self):
        """A bracket that is equal, with one point; the end of the name may be in capitals."""
        self.check_png(self.drawn('equal bracket', 'SAMPLE.PNG'))

    def test_one_record(self):
        """The path of a list of one record is seen in both views: colour in each half of the picture. A name may be its end alone."""
        path = self.drawn('one record', '.png')
        self.check_png(path)
        with Image.open(path) as made:
            saturation = made.convert('RGB').convert('HSV').getchannel('S')
        width, height = saturation.size
        for half in ((0, 0, width, height // 2), (0, height // 2, width, height)):
            with self.subTest(half):
                self.assertGreaterEqual(sum(saturation.crop(half).histogram()[64:]), 10)

    def test_svg(self):
        root = xml.etree.ElementTree.parse(self.drawn('show', 'top.svg')).getroot()
        self.assertEqual(root.tag, '{http://www.w3.org/2000/svg}svg')
        _, _, width, height = map(float, root.get('viewBox').split())
        self.assertTrue(int(width) in POINTS and int(height) in POINTS, (width, height))
        self.assertGreater(len(root.findall('.//{*}path')), 50)

    def test_pdf(self):
        made = self.drawn('bracket', 'top.pdf').read_bytes()
        self.assertTrue(made.startswith(b'%PDF-') and made.rstrip().endswith(b'%%EOF'))
        box = re.search(rb'/MediaBox\s*\[\s*0\s+0\s+([\d.]+)\s+([\d.]+)', made)
        self.assertTrue(all(int(float(side)) in POINTS for side in box.groups()), box[0])
        self.assertGreater(len(made), 5000)

    def test_disk_that_fills(self):
        """A picture that cannot be written whole leaves the old one, and nothing beside it."""
        self.write('old.png', b'what stood there before')
        words = f'old.png: {os.strerror(errno.EFBIG)}\n'
        self.fails(2, words, *self.commands['show'], 'old.png', **no_longer_than(2000))

    def test_no_folder(self):
        self.fails(2, f'folder/top.png: {os.strerror(errno.ENOENT)}\n', *self.commands['show'], 'folder/top.png')

    def test_wrong_ending(self):
        """What is no name of a PNG, SVG or PDF is refused before anything is written."""
        for picture in ('top.jpg', 'png', ''):
            with self.subTest(picture):
                self.fails(2, 'png', *self.commands['show'], picture)
        self.fails(2, 'png', *self.commands['bracket'], 'top.bmp', '--lower', 'lower.cut', '--upper', 'upper.cut')


if __name__ == '__main__':
    unittest.main()
