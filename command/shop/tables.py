"""A table of heights in millimetres, read from text, to whole micrometres. Errors name the row and the column, counted from 1."""
import decimal
import re

from shop.lengths import millimetres, nearest_micrometre
from shop.words import Refused, check_sizes, count, short

HIGHEST = decimal.Decimal(50)
# a line without heights; a word with a decimal comma at the most
EMPTY = re.compile(r'\s*(#|$)')
WORD = re.compile(r'[^,]+(,[^,]+)?')


def separator(lines):
    """What stands between heights: semicolons, else tabs, else spaces if each comma is within a word, else commas."""
    for mark in ';\t':
        if any(mark in line for line in lines):
            return mark
    words = [line.split() for line in lines]
    if any(len(row) > 1 for row in words) and all(WORD.fullmatch(word) for row in words for word in row):
        return None
    return ',' if any(',' in line for line in lines) else None


def cells(name, data):
    """The lines that have heights, each with its number and cut into cells."""
    try:
        text = data.decode('utf-8-sig')
    except UnicodeDecodeError:
        raise Refused(f'{name}: not a table of text; a picture needs --low and --high') from None
    lines = [(number, line) for number, line in enumerate(text.splitlines(), 1) if not EMPTY.match(line)]
    between = separator([line for _, line in lines])
    return [(number, line.split(between)) for number, line in lines]


def height(text):
    """The height in a cell."""
    if not text.strip():
        raise Refused('no height')
    try:
        length = millimetres(text)
    except ValueError:
        raise Refused(f'{short(text.strip())!r} is not a number') from None
    if length > HIGHEST:
        raise Refused(f'{short(text.strip())} mm is above {HIGHEST} mm')
    if length < -HIGHEST:
        raise Refused(f'{short(text.strip())} mm is below {-HIGHEST} mm')
    return length


def heights(name, data):
    """The heights in micrometres, row by row, and how many of them were not whole."""
    rows = cells(name, data)
    if not rows:
        raise Refused(f'{name}: no heights')
    columns = len(rows[0][1])
    for row, (_, texts) in enumerate(rows, 1):
        if len(texts) != columns:
            raise Refused(f'{name}: row {row} has {count(len(texts), "height")}, row 1 has {columns}')
    check_sizes(name, columns, len(rows))
    table = []
    for row, (line, texts) in enumerate(rows, 1):
        for column, text in enumerate(texts, 1):
            try:
                table.append(height(text))
            except Refused as why:
                place = f'row {row}, column {column}' + (f' (line {line})' if line != row else '')
                raise Refused(f'{name}: {place}: {why}') from None
    whole = [nearest_micrometre(length) for length in table]
    rounded = sum(length.scaleb(3) != number for length, number in zip(table, whole))
    return [whole[at:at + columns] for at in range(0, len(whole), columns)], rounded
