#!/usr/bin/env python3
"""Writes the test vectors of the square root and the natural logarithm.

    number_list.py STDIN STDOUT

STDIN gets the vectors, and STDOUT what the program `number_tests` must print where every vector agrees: a line for each group, with the group's number and
how many vectors it has.

How the list is made.  A double is its 64-bit word, and every number here is a whole number or a fraction of whole numbers: no
floating-point operation of this machine makes an x or an expected value, and nothing of the project's own code is used.

- A square root is math.isqrt of a whole number with at least 54 binary digits in its root, rounded to the nearest double by the digits
  cut off and by whether the root is exact.  Each is then held against the squares of the two midpoints beside it.
- A logarithm has a range of words.  mpmath gives ln x to 300 bits.  A result r is allowed where |r - ln x| <= 2^-50 + 2^-52 |r|, and
  solved for r that is an interval: lower is the least double in it and upper the largest, so a double lies between them exactly
  where it meets the bound.  Where 300 bits could not tell which double that is, the script stops.
- ln 1 is +0 alone.  Zeros, infinities, NaNs and negative numbers have the exact results of IEEE 754-2019, and a NaN result is the word
  7ff8000000000000.

Both functions have the same x, in these groups:

    special       zeros, infinities, NaNs, negative numbers, and the ends of the normal and subnormal ranges
    power         every power of two, 2^-1074 to 2^1023
    one           1, the 128 doubles on either side of it, and 1 plus or minus 2^-j
    subnormal     small and large ones, those beside a power of two, and random ones of every length
    largest       the largest double and those below it, and the last doubles before a power of two
    square        exact squares and the doubles beside them; the doubles beside the square of a midpoint between two doubles; and those
                  that lie nearest of all to such a square, found by square roots modulo a power of two
    random        a random significand at every exponent, random words, and random numbers from 0 to 1,000,000

The list is lines of 16 lower-case hexadecimal digits, a word each.  A vector is four words: the group's number, 0 to 6 in the order above for the
square root and 7 to 13 for the logarithm; x; lower; upper.  Of a square root lower and upper are the one expected word.  The random numbers
have a fixed seed, so the list is the same at each run.
"""
import math
import random
import sys
from fractions import Fraction

import mpmath

ONE = 0x3FF0000000000000
INFINITY = 0x7FF0000000000000
NAN = 0x7FF8000000000000
SIGN = 0x8000000000000000
MIN_NORMAL = 0x0010000000000000
MAX = INFINITY - 1

rng = random.Random("sqrt and ln")


# ---- words and the numbers that they stand for

def is_nan(word):
    return word & ~SIGN > INFINITY


def parts(word):
    """m and e with m * 2^e the size of the finite double."""
    field, digits = word >> 52 & 0x7FF, word & (2**52 - 1)
    return (digits, -1074) if field == 0 else (2**52 + digits, field - 1075)


def word_of(m, e):
    """The word of m * 2^e, which must be a double above 0."""
    drop = max(m.bit_length() - 53, -1074 - e)
    if drop > 0:
        assert m % 2**drop == 0, "no double"
        m, e = m >> drop, e + drop
    up = max(0, min(53 - m.bit_length(), e + 1074))
    m, e = m << up, e - up
    word = m if m < 2**52 else (e + 1075 << 52) + m - 2**52
    assert 0 < word < INFINITY and Fraction(*ratio(word)) == Fraction(m) * Fraction(2) ** e
    return word


def ratio(word):
    m, e = parts(word)
    return (m << e, 1) if e >= 0 else (m, 1 << -e)


def below(q):
    """The word of the largest double that is not above the fraction q, which is not 0."""
    return size_below(q) if q > 0 else SIGN + size_above(-q)


def above(q):
    return size_above(q) if q > 0 else SIGN + size_below(-q)


def size_below(q):
    e = max(q.numerator.bit_length() - q.denominator.bit_length() - 54, -1074)
    m = math.floor(q / Fraction(2) ** e)
    drop = max(0, m.bit_length() - 53)
    m, e = m >> drop, e + drop
    return word_of(m, e) if m else 0


def size_above(q):
    word = size_below(q)
    return word if Fraction(*ratio(word)) == q else word + 1


# ---- the expected results

def sqrt(word):
    if is_nan(word):
        return NAN
    if word & ~SIGN == 0 or word == INFINITY:
        return word
    if word & SIGN:
        return NAN
    m, e = parts(word)
    # 128 digits or more give a root of 64 or more, and the exponent has to be even
    lift = 128 - m.bit_length()
    lift += (e - lift) % 2
    n, h = m << lift, (e - lift) // 2
    root = math.isqrt(n)
    exact = root * root == n
    drop = root.bit_length() - 53
    kept, cut = root >> drop, root % 2**drop
    half = 2 ** (drop - 1)
    if cut > half or cut == half and (not exact or kept % 2 == 1):
        kept += 1
    # n lies between the squares of the midpoints on either side of the rounded root
    assert (2 * kept - 1) ** 2 << 2 * drop < 4 * n < (2 * kept + 1) ** 2 << 2 * drop
    return word_of(kept, h + drop)


def ln(word):
    """The words of the least and of the largest double that may stand for ln x."""
    if is_nan(word):
        return NAN, NAN
    if word & ~SIGN == 0:
        return SIGN + INFINITY, SIGN + INFINITY
    if word & SIGN:
        return NAN, NAN
    if word == INFINITY:
        return INFINITY, INFINITY
    if word == ONE:
        return 0, 0
    m, e = parts(word)
    with mpmath.workprec(300):
        sign, man, exp, _ = mpmath.log(mpmath.ldexp(mpmath.mpf(m), e))._mpf_
    value = Fraction(-man if sign else man) * Fraction(2) ** exp
    error = abs(value) * Fraction(1, 2**280)
    least, largest = ends(value - error), ends(value + error)
    assert least == largest, "more bits are needed"
    return least


def ends(value):
    """The r with |r - value| <= 2^-50 + 2^-52 |r| run from (value - 2^-50) / (1 +- 2^-52) to (value + 2^-50) / (1 +- 2^-52)."""
    slack, unit = Fraction(1, 2**50), Fraction(1, 2**52)
    low, high = value - slack, value + slack
    return (above(low / (1 + unit if low > 0 else 1 - unit)), below(high / (1 - unit if high > 0 else 1 + unit)))


# ---- the groups

def special():
    yield from [0, SIGN, INFINITY, SIGN + INFINITY]
    yield from [NAN, SIGN + NAN, INFINITY + 1, SIGN + INFINITY + 1, 2**63 - 1, 2**64 - 1, 0x7FF4000000000000]
    for size in [ONE, 1, 0x000123456789ABCD, MIN_NORMAL - 1, MIN_NORMAL, 0x4000000000000000, 0x3FE0000000000000, MAX]:
        yield SIGN + size
    yield from [ONE, 1, MIN_NORMAL - 1, MIN_NORMAL, MAX]
    # 2, 1/2, 4, 1/4 and the double nearest to e
    yield from [0x4000000000000000, 0x3FE0000000000000, 0x4010000000000000, 0x3FD0000000000000, 0x4005BF0A8B145769]


def power():
    for e in range(-1074, 1024):
        yield word_of(1, e)


def one():
    for k in range(129):
        yield ONE + k
        yield ONE - k
    for j in range(1, 53):
        yield word_of(2**j + 1, -j)
        yield word_of(2**j - 1, -j)


def subnormal():
    for k in range(1, 65):
        yield k
        yield MIN_NORMAL - k
    for j in range(6, 52):
        yield from [2**j - 1, 2**j, 2**j + 1]
    for _ in range(4):
        for j in range(1, 53):
            yield rng.randrange(2 ** (j - 1), 2**j)


def largest():
    for k in range(48):
        yield MAX - k
    for k in range(1, 17):
        yield MAX - k * 2**52
    for _ in range(16):
        yield rng.randrange(MAX - 2**53, MAX)


def beside(word):
    yield from [word - 1, word, word + 1]


def scaled(m):
    """m * 4^h for a random h that keeps all digits of m."""
    return word_of(m, 2 * rng.randrange(-536, (1024 - m.bit_length()) // 2))


def square():
    for length in [26] * 96 + list(range(1, 26)) * 2:
        s = rng.randrange(2 ** (length - 1), 2**length)
        yield from beside(scaled(s * s))
    # squares among the subnormals
    for length in range(1, 26):
        s = rng.randrange(2 ** (length - 1), 2**length)
        yield from beside(s * s)
    # the doubles on either side of the square of a midpoint
    for _ in range(96):
        y = 2 * rng.randrange(2**52, 2**53) + 1
        m = y * y >> (y * y).bit_length() - 53
        yield scaled(m << (y * y).bit_length() % 2)
        yield scaled(m + 1 << (y * y).bit_length() % 2)
    # y is twice a midpoint, and y * y - d a double for a small d: no double has a root nearer to a midpoint.  d and the square of an odd
    # number leave 1 when divided by 8.
    for d in [k for k in range(-999, 1000) if k % 8 == 1]:
        for digits in (54, 55):
            for y in roots(d, digits):
                m = y * y - d >> digits
                if 2**53 <= y < 2**54 and 2**52 <= m < 2**53:
                    yield scaled(m << digits % 2)


def roots(d, digits):
    """The four y below 2^digits with y * y = d modulo 2^digits, for a d that leaves 1 when divided by 8."""
    y = 1
    for k in range(3, digits):
        if (y * y - d) % 2 ** (k + 1):
            y += 2 ** (k - 1)
    modulus = 2**digits
    assert (y * y - d) % modulus == 0
    return sorted({z % modulus for z in (y, -y, y + modulus // 2, -y + modulus // 2)})


def random_words():
    for field in range(2047):
        yield (field << 52) + rng.randrange(1, 2**52)
    for _ in range(512):
        yield rng.randrange(1, INFINITY)
    for _ in range(256):
        yield word_of(rng.randrange(1, 1000000 * 2**32), -32)


MAKERS = [special, power, one, subnormal, largest, square, random_words]


def main(arguments):
    if len(arguments) != 2:
        sys.exit(__doc__.split("\n\n")[1])
    groups = [list(dict.fromkeys(make())) for make in MAKERS]
    words, report = [], []
    for expected in (lambda x: (sqrt(x),) * 2, ln):
        for group in groups:
            for x in group:
                words += [len(report), x, *expected(x)]
            report.append(f"{len(report)} {len(group)}\n")
    with open(arguments[0], "w", encoding="ascii", newline="\n") as out:
        out.writelines(f"{w:016x}\n" for w in words)
    with open(arguments[1], "w", encoding="ascii", newline="\n") as out:
        out.writelines(report)


main(sys.argv[1:])
