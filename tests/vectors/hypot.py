"""hypot by SCOPE 1 alone, over Python's whole numbers: the f64 nearest to the exact root of the exact sum of squares, ties to even."""
import math

FRACTION = 52
DIGITS = FRACTION + 1
SIGN = 1 << 63
INFINITY = 0x7FF << FRACTION
NAN = 0x7FF8 << 48
LARGEST = INFINITY - 1
# A finite magnitude is its digits times 2^place times 2^-1074; the largest f64 has this place.
HIGHEST = 2045


def apart(pattern):
    """The digits and the place of a finite magnitude."""
    exponent, fraction = pattern >> FRACTION, pattern % (1 << FRACTION)
    return (fraction, 0) if exponent == 0 else (fraction + (1 << FRACTION), exponent - 1)


def together(digits, place):
    """The pattern of digits times 2^place times 2^-1074, or None where that is no f64."""
    if digits == 0:
        return 0
    up = max(digits.bit_length() - DIGITS, -place)
    kept = digits >> up if up > 0 else digits << -up
    if up > 0 and kept << up != digits or place + up > HIGHEST:
        return None
    return ((place + up) << FRACTION) + kept


def of_patterns(x, y):
    """The pattern of the answer, one for every NaN."""
    x, y = x & ~SIGN, y & ~SIGN
    if INFINITY in (x, y):
        return INFINITY
    if max(x, y) > INFINITY:
        return NAN
    (m, p), (n, q) = apart(x), apart(y)
    low = min(p, q)
    square = (m << p - low) ** 2 + (n << q - low) ** 2
    # The f64s about the root are so many places of 2^low apart: the root has 53 digits at least, or the place is the lowest of all.
    root = math.isqrt(square)
    wide = max(root.bit_length() - DIGITS, 0)
    below = root >> wide
    # The root is held to the middle between the f64 at it or below it and the next one, both doubled and squared.
    doubled, middle = 4 * square, ((2 * below + 1) << wide) ** 2
    above = doubled > middle or doubled == middle and below % 2 == 1
    # The first of 53 digits counts in the exponent, as does the carry of a root that is rounded up to a power of two.
    return min(((low + wide) << FRACTION) + below + above, INFINITY)
