"""What `plate map` makes of grey pictures, and what it says of those that it cannot take."""
import fractions
import io
import struct
import unittest
import zlib

import numpy
from PIL import Image

from shop_tests import ShopTest, map_of

SIZES = ('--step', '5.6', '--radius', '6')
GREYS = [[0, 128, 255], [1, 2, 3], [254, 10, 20], [77, 78, 200]]
MANY = [[0, 32768, 65535], [1, 2, 772], [254, 40000, 65534]]
# The lines of a small PNG, packed, and changes that a reader notices by the checksum alone: place and bits
SLOPE = [[20 * c + 7 * (r % 2) for c in range(8)] for r in range(4)]
PACKED = bytes.fromhex('78da636010d1b00948a9e8616097d6770ecfae9fcc80210200966c0931')
CHANGES = (4, 0x08), (22, 0x20)


def picture(greys, kind='PNG', bits=8):
    """The bytes of a grey picture."""
    made = io.BytesIO()
    Image.fromarray(numpy.array(greys, dtype=f'uint{bits}')).save(made, kind)
    return made.getvalue()


def chunk(letters, body):
    return struct.pack('>I', len(body)) + letters + body + struct.pack('>I', zlib.crc32(letters + body))


def png(columns, rows, bits, colour, packed):
    """A PNG, written here, of lines that are packed already."""
    head = struct.pack('>IIBBBBB', columns, rows, bits, colour, 0, 0, 0)
    return b'\x89PNG\r\n\x1a\n' + chunk(b'IHDR', head) + chunk(b'IDAT', packed) + chunk(b'IEND', b'')


def wide_png(greys, channels, colour):
    """A PNG of 16 bits in each channel, with the same grey in each."""
    lines = b''.join(b'\0' + b''.join(struct.pack('>H', grey) * channels for grey in row) for row in greys)
    return png(len(greys[0]), len(greys), 16, colour, zlib.compress(lines))


def heights(greys, low, high, white=255):
    """The heights of greys to the nearest micrometre; none of those asked for here is a half."""
    return [[round(low + fractions.Fraction((high - low) * grey, white)) for grey in row] for row in greys]


class MapOfPicture(ShopTest):

    def made(self, content, low, high, *options):
        """The bytes of the map of a picture."""
        self.done('map', self.write('top.png', content), '-o', 'top.plt', *SIZES, '--low', low, '--high', high, *options)
        return self.read('top.plt')

    def refused(self, status, words, content):
        self.fails(status, words, 'map', self.write('top.png', content), '-o', 'top.plt', *SIZES, '--low', '0', '--high', '4')

    def test_greys(self):
        """Black is the lowest and white the highest, or the other way round, and what lies between is in proportion."""
        for low, high in ((-1000, 1550), (50000, -50000)):
            with self.subTest(low=low, high=high):
                self.assertEqual(self.made(picture(GREYS), low / 1000, high / 1000), map_of(heights(GREYS, low, high)))

    def test_kinds(self):
        """Other files of greys, and a picture of three colours that are equal everywhere."""
        colours = io.BytesIO()
        Image.fromarray(numpy.array(GREYS, dtype='uint8')).convert('RGB').save(colours, 'PNG')
        for kind, content in (('pgm', picture(GREYS, 'PPM')), ('rgb', colours.getvalue())):
            with self.subTest(kind):
                self.assertEqual(self.made(content, '-1', '1.55'), map_of(heights(GREYS, -1000, 1550)))

    def test_sixteen_bits(self):
        """With 16 bits each grey has a height of its own."""
        expected = map_of(heights(MANY, -32768, 32767, 65535))
        for name, content in (('png', picture(MANY, bits=16)), ('tiff', picture(MANY, 'TIFF', 16))):
            with self.subTest(name):
                self.assertEqual(self.made(content, '-32.768', '32.767'), expected)

    def test_sixteen_bits_of_colours(self):
        """Sixteen bits in each of three colours, or beside a cover, and 32 bits of grey are refused: eight or sixteen of them would be lost."""
        self.refused(1, 'not a plain grey picture', wide_png(MANY, 3, 2))
        self.refused(1, 'not a plain grey picture', wide_png(MANY, 2, 4))
        self.refused(1, 'not a plain grey picture', picture(MANY, 'TIFF', 32))

    def test_bottom_up(self):
        """A picture that is piped in, its last row first."""
        self.done('map', '-', '-o', 'top.plt', *SIZES, '--low', '-1', '--high', '1.55', '--bottom-up', given=picture(GREYS))
        self.assertEqual(self.read('top.plt'), map_of(heights(GREYS[::-1], -1000, 1550)))

    def test_wrong_size(self):
        """The sizes are told."""
        for columns, rows, words in ((3, 2, '2 rows'), (65, 65, '65 columns')):
            with self.subTest(words):
                self.refused(1, words, picture([[7] * columns] * rows))

    def test_colour(self):
        """The first place that is not grey is told."""
        greys = numpy.array(GREYS, dtype='uint8')
        colours = numpy.stack([greys, greys, greys], 2)
        colours[2, 1, 0] += 1
        made = io.BytesIO()
        Image.fromarray(colours).save(made, 'PNG')
        self.refused(1, 'row 3, column 2', made.getvalue())

    def test_damaged(self):
        """A picture that is cut off, or is none, is not read."""
        sound = picture([[(37 * c + 11 * r) % 256 for c in range(64)] for r in range(64)])
        for name, content in (('cut', sound[:len(sound) // 2]), ('text', b'1,2,3\n' * 3)):
            with self.subTest(name):
                self.refused(2, 'top.png', content)

    def test_changed(self):
        """A picture of which one bit was changed is not taken for another."""
        sound = png(8, 4, 8, 0, PACKED)
        self.assertEqual(self.made(sound, '-1', '1.55'), map_of(heights(SLOPE, -1000, 1550)))
        (self.folder / 'top.plt').unlink()
        for place, bits in CHANGES:
            with self.subTest(place):
                changed = bytearray(sound)
                changed[sound.index(PACKED) + place] ^= bits
                self.refused(2, 'top.png', bytes(changed))

    def test_wrong_command_lines(self):
        """A picture needs both heights, each from -50 to 50 mm."""
        self.write('top.png', picture(GREYS))
        start = ['map', 'top.png', '-o', 'top.plt', *SIZES]
        self.fails(2, '--high', *start, '--low', '0')
        self.fails(1, '--low', *start, '--low', '-50.001', '--high', '0')
        self.fails(1, '--high', *start, '--low', '0', '--high', '50.001')
        self.fails(1, '--low', *start)


if __name__ == '__main__':
    unittest.main()
