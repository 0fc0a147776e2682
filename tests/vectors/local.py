"""What SCOPE 19 says of `to_local`: vertices moved by whole numbers, exactly, in rational numbers. The Rust has no such entry."""
import math
from fractions import Fraction

from table import list_refusal


def whole(x):
    """x brought to a whole number towards zero."""
    return math.trunc(Fraction(x))


def less(x, o):
    """The f64 that is exactly x less the whole number o; None where there is none. A difference of 0 is +0, or x itself where o is 0."""
    exact = Fraction(x) - o
    if exact == 0:
        return x if o == 0 else 0.0
    near = float(exact)
    return near if Fraction(near) == exact else None


def moved(coords):
    """The refusal, the vector by which the vertices move, and the coordinates afterwards."""
    why = list_refusal(coords)
    if why:
        return why, [], coords
    origin = [whole(x) for x in coords[:3]]
    after = [less(x, origin[k % 3]) for k, x in enumerate(coords)]
    return (15, [], coords) if None in after else (0, [float(o) for o in origin], after)
