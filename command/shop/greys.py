"""A grey picture as heights in whole micrometres: black is the low one, white the high one."""
import io

from shop.words import Refused, Unreadable, check_sizes

# what Pillow raises where a file is no picture, or a damaged one
DAMAGED = (OSError, SyntaxError, ValueError, EOFError)


def greys(name, data):
    """The grey of each point, row by row from the top, and that of white."""
    import numpy
    from PIL import Image, UnidentifiedImageError

    Image.MAX_IMAGE_PIXELS = None
    try:
        Image.open(io.BytesIO(data)).verify()
        picture = Image.open(io.BytesIO(data))
        check_sizes(name, *picture.size)
        deep = any('16' in str(tile) for tile in picture.tile)
        if deep and picture.mode.startswith('I'):
            return numpy.asarray(picture, dtype=numpy.int64), 65535
        if deep or picture.mode not in ('1', 'L', 'LA', 'P', 'RGB', 'RGBA'):
            raise Refused(f'{name}: not a plain grey picture, of 8 or 16 bits, but one of the kind {picture.mode}')
        colours = numpy.asarray(picture.convert('RGBA'), dtype=numpy.int64)
    except UnidentifiedImageError:
        raise Unreadable(f'{name}: not a picture of a known kind') from None
    except DAMAGED as failure:
        raise Unreadable(f'{name}: {failure}') from None
    red, green, blue, cover = (colours[:, :, part] for part in range(4))
    for row, column in numpy.argwhere((red != green) | (red != blue) | (cover != 255))[:1]:
        raise Refused(f'{name}: row {row + 1}, column {column + 1}: not a grey')
    return red, 255


def heights(name, data, low, high):
    """The heights, each the micrometre nearest to its place between low and high; there is no tie, for white is odd."""
    grey, white = greys(name, data)
    return (2 * (low * white + (high - low) * grey) + white) // (2 * white)
