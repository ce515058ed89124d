"""Rewrites the entries of the tables of R and M in place, by their rules.

    python3 tools/make_tables.py            rewrites the files
    python3 tools/make_tables.py --check    names the files that differ; exits 1 if one does
"""

import re
import sys
from math import isqrt
from pathlib import Path

# The file, its array, the keys in the order of the entries, and the entry by R, 32,768 / i floored, and the parity p: the seven
# lower bits of a key are those of i, and the bit above them is p.
TABLES = [
    ("crates/factors/src/lib.rt", "FACTORS", range(128), lambda r, p: f"{r}"),
    ("crates/roots/src/lib.rt", "ROOTS", range(256, 512), lambda r, p: f"Row({r}, {nearest_root(2**(64 + p), r)})"),
    ("crates/inverse_roots/src/lib.rt", "INVERSE_ROOTS", range(256, 512), lambda r, p: f"Row({r}, {nearest_root(r * 2**56, 2**(8 + p))})"),
]


def nearest_root(n, d):
    """The whole number nearest to x, the root of n / d. isqrt(4n // d) is 2x floored; half
    of one more than that, floored, is x + 1/2 floored: the nearest, as no x is half-way."""
    return (isqrt(4 * n // d) + 1) // 2


def with_entries(text, array, keys, rule):
    """The text with the entries of this array made anew, a line for each with its key."""
    entries = "".join(f"    {rule(32768 // (128 + key % 128), key // 128 % 2)}, // {key}\n" for key in keys)
    pattern = rf"(\nstatic {array}: \[\w+; {len(keys)}\] = \[\n)[^\]]*(\];\n)"
    text, count = re.subn(pattern, lambda found: found[1] + entries + found[2], text)
    assert count == 1, array
    return text


def main():
    check = sys.argv[1:] == ["--check"]
    if sys.argv[1:] and not check:
        sys.exit("usage: make_tables.py [--check]")
    root = Path(__file__).resolve().parent.parent
    old = {file: (root / file).read_text(encoding="utf-8") for file, *_ in TABLES}
    new = dict(old)
    for file, array, keys, rule in TABLES:
        new[file] = with_entries(new[file], array, keys, rule)
    differing = [file for file in new if new[file] != old[file]]
    for file in differing:
        print(f"{file} differs" if check else f"{file} rewritten")
        if not check:
            (root / file).write_text(new[file], encoding="utf-8")
    sys.exit(1 if check and differing else 0)


if __name__ == "__main__":
    main()
