"""Searches for hard binary64 operands:

    python3 tests/reference/hard_cases64.py > tests/reference/hard_cases64.txt

A hard operand has an exact result that lies very near to a binary64 number or
to the middle of two neighbours, without being there. Results are counted in
half units of the last place: an even n is a number, an odd n a middle. Each
line is operation, operand and the n that the result lies near, then the side
and the distance as a power of two, in half units. There are too many
significands to try them all, so each operation has a way of its own:

reciprocal      m * n is 2**k + c with a small c: such numbers are factored, and
                their divisors of the right size taken
root            n * n is c modulo 2**k with a small c: roots of c are lifted from
                one power of two to the next
inverse root    beside m = 2**52 * (a/b)**2 with small a and b the result is nearly
                a straight line of small fractions, as below

It takes about twenty seconds; make_vectors.py reads the file that it wrote.
"""

from fractions import Fraction
from math import gcd, isqrt

KEEP = 12                       # for each operation, scale, kind and side

SMALL_PRIMES = [p for p in range(2, 30000) if all(p % q for q in range(2, isqrt(p) + 1))]


def is_prime(n):
    """Miller and Rabin with 12 bases."""
    odd, twos = n - 1, 0
    while odd % 2 == 0:
        odd, twos = odd // 2, twos + 1
    for base in SMALL_PRIMES[:12]:
        x = pow(base, odd, n)
        if x in (1, n - 1):
            continue
        for _ in range(twos - 1):
            x = x * x % n
            if x == n - 1:
                break
        else:
            return False
    return True


def some_factor(n, patience):
    """A factor of n by Pollard's way, or None."""
    x = y = 2
    for start in range(0, patience, 128):
        product = 1
        for _ in range(128):
            x = (x * x + 1) % n
            y = (y * y + 1) % n
            y = (y * y + 1) % n
            product = product * (x - y) % n
        factor = gcd(product, n)
        if factor == n:
            return None
        if factor > 1:
            return factor
    return None


def factors(n):
    """The prime factors of n, and what could not be factored."""
    found = []
    for p in SMALL_PRIMES:
        while n % p == 0:
            found.append(p)
            n //= p
    left = [n] if n > 1 else []
    while left:
        n = left.pop()
        factor = None if is_prime(n) else some_factor(n, 20000)
        if factor:
            left += [factor, n // factor]
        else:
            found.append(n)
    return found


def divisors(n):
    some = {1}
    for p in factors(n):
        some |= {p * d for d in some}
    return some


def reciprocal_cases(k):
    """Significands m with 2**k / m near a whole number of half units."""
    for c in range(1, 150):
        for product, side in ((2**k - c, "above"), (2**k + c, "below")):
            for m in divisors(product):
                if 2**52 < m < 2**53:
                    yield Fraction(c, m), m, product // m, side


def roots_modulo(c, k):
    """All n below 2**k with n * n = c modulo 2**k, for an odd c."""
    roots = [n for n in range(8) if (n * n - c) % 8 == 0]
    for bits in range(4, k + 1):
        # A root modulo 2**bits is one modulo 2**(bits - 1) in its lower bits.
        roots = [n for root in roots for n in (root, root + 2**(bits - 1))
                 if (n * n - c) % 2**bits == 0]
    return roots


def root_cases(k):
    """Significands m with sqrt(m * 2**k) near a whole number n, odd or twice odd."""
    for c in range(-255, 256, 8):
        for shift in (0, 1):
            for low in roots_modulo(c, k - 2 * shift):
                modulus = 2**(k - 2 * shift)
                for n in range(low, 2**(54 - shift), modulus):
                    m = n * n // modulus + (c < 0)
                    if 2**52 <= m < 2**53:
                        side = "below" if c > 0 else "above"
                        yield Fraction(abs(c), 2 * n) * 2**shift, m, n << shift, side


def inverse_root_cases(k):
    """Significands m with sqrt(2**k / m) near a whole number n.

    Beside m0 = 2**(k - 108) * (a/b)**2, where the result is q = 2**54 * b/a, it is
    q - slope * (m - m0) + bend * (m - m0)**2 and smaller terms. The slope is a
    fraction with a denominator of a**3 at most, so the first two terms are a whole
    number less c / denominator for every m in a class modulo the denominator, and the
    bend makes up for c at two places."""
    for a in range(1, 130):
        for b in range((a + 1) // 2, a + 1):
            m0 = Fraction(2**(k - 108) * a * a, b * b)
            if gcd(a, b) != 1 or not 2**52 <= m0 <= 2**53:
                continue
            q = Fraction(2**54 * b, a)
            slope, bend = q / (2 * m0), 3 * q / (8 * m0**2)
            modulus = slope.denominator
            start = (q + slope * m0) * modulus
            for c in range(12):
                m_class = (int(start) + c) * pow(slope.numerator, -1, modulus) % modulus
                reach = isqrt(int(Fraction(c, modulus) / bend))
                for x in {-reach, reach}:
                    middle = int(m0 + x)
                    middle += (m_class - middle) % modulus
                    for m in range(middle - 4 * modulus, middle + 4 * modulus, modulus):
                        if 2**52 < m < 2**53:
                            yield from inverse_root_case(k, m)


def inverse_root_case(k, m):
    n = isqrt(2**k // m)
    over, under = 2**k - n * n * m, (n + 1)**2 * m - 2**k
    if over and over < under:
        yield Fraction(over, 2 * n * m), m, n, "above"
    elif over:
        yield Fraction(under, 2 * n * m), m, n + 1, "below"


def main():
    # The exponent field gives the operand its place. For the reciprocal the
    # fields 2045 and 2046 have subnormal results, one and two bits shorter.
    searches = (
        (1, 1023, reciprocal_cases(106)),
        (1, 2045, reciprocal_cases(105)),
        (1, 2046, reciprocal_cases(104)),
        (2, 1023, root_cases(54)),
        (2, 1024, root_cases(55)),
        (3, 1023, inverse_root_cases(160)),
        (3, 1024, inverse_root_cases(159)),
    )
    for operation, exponent, cases in searches:
        kept = {}
        for case in sorted(set(cases)):
            _, m, n, side = case
            kind = kept.setdefault((n % 2, side), [])
            if len(kind) < KEEP:
                kind.append(case)
        for (odd, _), kind in sorted(kept.items()):
            for distance, m, n, side in kind:
                bits = exponent << 52 | m - 2**52
                power = distance.numerator.bit_length() - distance.denominator.bit_length()
                print(f"{operation} {bits:016X} {'middle' if odd else 'number'} {n} {side} {power}")


if __name__ == "__main__":
    main()
