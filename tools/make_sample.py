#!/usr/bin/env python3
"""Writes samples/top.csv: the arched top of a violin, 64 heights along its length and 48 across, in millimetres.

usage: make_sample.py [--check]      --check compares with the file instead

The outline is a curve through half widths measured along a plate 352 mm long. Across it the arch is a curtate cycloid, as makers lay it
out: level at its crown, hollow toward the edge, and level again where the channel meets the edge. The crown is highest in the middle of
the length. Outside the outline lies the edge's height.
"""
import bisect
import math
import pathlib
import sys

FILE = pathlib.Path(__file__).resolve().parent.parent / 'samples' / 'top.csv'
COLUMNS, ROWS, STEP = 64, 48, 5.6
EDGE, CROWN = 4.0, 15.5
# millimetres from the lower end, and half the width there
OUTLINE = ((0, 0), (4, 38), (16, 70), (40, 95), (70, 104), (100, 99), (128, 76), (150, 60), (172, 55.5), (196, 57), (222, 66),
           (250, 80), (280, 84), (310, 75), (332, 56), (346, 28), (352, 0))
ALONG = [at for at, _ in OUTLINE]


def half_width(along):
    """The outline between two of its points, by a curve that is level with neither but passes both smoothly."""
    if not ALONG[0] < along < ALONG[-1]:
        return 0.0
    right = bisect.bisect_right(ALONG, along)
    (a, wide_a), (b, wide_b) = OUTLINE[right - 1], OUTLINE[right]

    def slope(k):
        (before, low), (after, high) = OUTLINE[max(k - 1, 0)], OUTLINE[min(k + 1, len(OUTLINE) - 1)]
        return (high - low) / (after - before)

    t = (along - a) / (b - a)
    return ((1 + 2 * t) * (1 - t) ** 2 * wide_a + t * t * (3 - 2 * t) * wide_b
            + (b - a) * (t * (1 - t) ** 2 * slope(right - 1) - t * t * (1 - t) * slope(right)))


def cycloid(u):
    """A curtate cycloid from 1 at u = 0 to 0 at u = 1, by the angle that rolls to u."""
    low, high = 0.0, math.pi
    for _ in range(60):
        angle = (low + high) / 2
        if angle + 0.75 * math.sin(angle) < math.pi * u:
            low = angle
        else:
            high = angle
    return (1 + math.cos(low)) / 2


def height(column, row):
    along = column * STEP
    across = abs(row - (ROWS - 1) / 2) * STEP
    wide = half_width(along) - 6
    if across >= wide:
        return EDGE
    crown = (CROWN - EDGE) * cycloid(abs(along - 180) / 180)
    return EDGE + crown * cycloid(across / wide)


def main():
    lines = [','.join(f'{height(column, row):.3f}' for column in range(COLUMNS)) for row in range(ROWS)]
    made = '\n'.join(lines) + '\n'
    if sys.argv[1:] != ['--check']:
        FILE.write_text(made, encoding='ascii')
        return 0
    same = FILE.read_text(encoding='ascii') == made
    print(f'samples/top.csv: {"as made" if same else "not what this program makes"}')
    return 0 if same else 1


if __name__ == '__main__':
    sys.exit(main())
