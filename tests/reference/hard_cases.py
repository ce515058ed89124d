"""Searches every significand for the hardest binary32 operands:

    python3 tests/reference/hard_cases.py > tests/reference/hard_cases.txt

A hard operand has an exact result that lies very near to a binary32 number or
to the middle of two neighbours, without being there. Results are counted in
half units of the last place: an even n is a number, an odd n a middle. Each
line is operation, operand and the n that the result lies near, then the side.
It takes about half a minute; make_vectors.py reads the file that it wrote.
"""

from fractions import Fraction
from math import isqrt

KEEP = 10                       # for each operation, scale, kind and side


def reciprocal_cases(k):
    """Significands m with 2**k / m near a whole number of half units."""
    power = 2**k
    for m in range(2**23 + 1, 2**24):
        remainder = power % m
        if 0 < remainder < 40:
            yield Fraction(remainder, m), m, power // m, "above"
        elif m - remainder < 40 and remainder:
            yield Fraction(m - remainder, m), m, power // m + 1, "below"


def root_cases(k):
    """Significands m with sqrt(m * 2**k) near a whole number n."""
    modulus = 2**k
    first, last = isqrt(2**(23 + k)) + 1, isqrt(2**(24 + k))
    for n in range(first, last + 1):
        remainder = n * n % modulus
        if 0 < remainder < 200:
            m, side, distance = n * n // modulus, "below", remainder
        elif modulus - remainder < 200:
            m, side, distance = n * n // modulus + 1, "above", modulus - remainder
        else:
            continue
        if 2**23 <= m < 2**24:
            yield Fraction(distance, 2 * n), m, n, side


def inverse_root_cases(k):
    """Significands m with sqrt(2**k / m) near a whole number n."""
    power = 2**k
    near = 2**34                # of the 2**49 or so between neighbouring squares
    for m in range(2**23 + 1, 2**24):
        n = isqrt(power // m)
        remainder = power - n * n * m
        if 0 < remainder < near:
            yield Fraction(remainder, 2 * n * m), m, n, "above"
        remainder = (n + 1) * (n + 1) * m - power
        if remainder < near:
            yield Fraction(remainder, 2 * n * m), m, n + 1, "below"


def main():
    # The exponent field gives the operand its place. For the reciprocal the
    # fields 253 and 254 have subnormal results, one and two bits shorter.
    searches = (
        (1, 127, reciprocal_cases(48)),
        (1, 253, reciprocal_cases(47)),
        (1, 254, reciprocal_cases(46)),
        (2, 127, root_cases(25)),
        (2, 128, root_cases(26)),
        (3, 127, inverse_root_cases(73)),
        (3, 128, inverse_root_cases(72)),
    )
    for operation, exponent, cases in searches:
        kept = {}
        for case in sorted(cases):
            _, m, n, side = case
            kind = kept.setdefault((n % 2, side), [])
            if len(kind) < KEEP:
                kind.append(case)
        for (odd, _), kind in sorted(kept.items()):
            for _, m, n, side in kind:
                bits = exponent << 23 | m - 2**23
                print(f"{operation} {bits:08X} {'middle' if odd else 'number'} {n} {side}")


if __name__ == "__main__":
    main()
