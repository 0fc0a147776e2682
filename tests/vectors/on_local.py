"""Questions on the move to a local origin (SCOPE 19). Those of `rows` and `refused` have answers worked by hand, and local.py must give
the same; the others' answers are local.py's."""
import math

from asking import Case, bits, flat
from cells import CUBE, box, prism, shifted
from local import moved
from on_cells import MANY, OVER
from table import LIMIT

# The box of docs/LIMITS.md, 0.05 x 0.25 x 2, and the same moved; 0.05 is stored as STEP at that distance.
FAR, STEP = (8588590.0, 8529546.0, 2969498.0), 26843546 * 2.0 ** -29
THIN = [(STEP * x, 0.25 * y, 2 * z) for x, y, z in CUBE]

# The second x is moved by 1, and needs one bit more than an f64 has.
STRAY = [1.0, 0.0, 0.0, 2.0 ** -54, 0.0, 0.0]

# Numbers at and below the least normal one; asking.py marks lists with 2 ** -1074 itself.
TINY, LEAST_NORMAL = 3 * 2.0 ** -1074, 2.0 ** -1022


class LocalCase(Case):
    def to_local(self):
        """The vector, and the vertices afterwards: moved, or as they were."""
        coords = self.cell[0]
        why, origin, after = moved(coords)
        left = coords if self.refused('to_local', why) else after
        self.put('to_local', [], why, [bits(x) for x in origin], lent={'vertices': [bits(x) for x in left]})


def rows():
    """Lists that are moved: the vector, and where the vertices are then."""
    def of(*xs):
        return [float(x) for x in xs]
    yield 'local_cube', flat(CUBE), of(0, 0, 0), flat(CUBE)
    yield 'local_thin_and_far', flat(shifted(THIN, FAR)), list(FAR), flat(THIN)
    yield 'local_far_cube', flat(shifted(CUBE, (4000000, 2000000, 1000000))), of(4000000, 2000000, 1000000), flat(CUBE)
    yield 'local_one_vertex', of(7, -3.5, 0.25), of(7, -3, 0), of(0, -0.5, 0.25)
    yield 'local_towards_zero', of(2.75, -2.75, -0.75, 5, -5, -0.5), of(2, -2, 0), of(0.75, -0.75, -0.75, 3, -3, -0.5)
    yield 'local_below_three', of(math.nextafter(3, 0), math.nextafter(-3, 0), 1), of(2, -2, 1), of(1 - 2.0 ** -51, 2.0 ** -51 - 1, 0)
    yield 'local_axes_apart', of(10, 200, 3000, 11, 202, 3003), of(10, 200, 3000), of(0, 0, 0, 1, 2, 3)
    yield 'local_first_decides', of(1, 1, 1, 100, 100, 100, -100, -100, -100), of(1, 1, 1), of(0, 0, 0, 99, 99, 99, -101, -101, -101)
    yield 'local_zeros', of(-0.0, 0.0, -0.5, -0.0, -0.0, 0.0), of(0, 0, 0), of(-0.0, 0.0, -0.5, -0.0, -0.0, 0.0)
    yield 'local_zero_of_a_difference', of(-3, 3, -3.5, -3, 3, -3), of(-3, 3, -3), of(0, 0, -0.5, 0, 0, 0)
    yield 'local_2_40', of(LIMIT, -LIMIT, LIMIT, LIMIT - 0.5, 0.5 - LIMIT, 0), of(LIMIT, -LIMIT, LIMIT), of(0, 0, 0, -0.5, 0.5, -LIMIT)
    beyond = of(0, 0, 0, 2 * LIMIT, -2 * LIMIT, LIMIT + 1)
    yield 'local_beyond_2_40', of(-LIMIT, LIMIT, -1, LIMIT, -LIMIT, LIMIT), of(-LIMIT, LIMIT, -1), beyond
    yield 'local_last_below_2_40', of(LIMIT - 2.0 ** -13, 0, 0, LIMIT - 1, 0, 0), of(LIMIT - 1, 0, 0), of(1 - 2.0 ** -13, 0, 0, 0, 0, 0)
    tiny = of(TINY, -LEAST_NORMAL, 0.5, -TINY, 1.5, LEAST_NORMAL)
    yield 'local_below_normal', tiny, of(0, 0, 0), tiny
    yield 'local_last_bit_fits', of(1, 0, 0, 2.0 ** -53, 0, 0), of(1, 0, 0), of(0, 0, 0, 2.0 ** -53 - 1, 0, 0)
    yield 'local_points_256', flat(MANY[:256]), of(0, 0, 0), flat(MANY[:256])
    yield 'local_far_points_256', flat(shifted(MANY[:256], FAR)), list(FAR), flat(MANY[:256])


def refused():
    """Lists that are refused, and by which number: 1 before 2 before 15."""
    yield 'local_none', [], 1
    yield 'local_in_threes', [1.0, 2.0, 3.0, 4.0], 1
    yield 'local_points_257', flat(MANY), 1
    yield 'local_nan', [0.0, math.nan, 0.0], 2
    yield 'local_infinite', [1.5, 2.5, 3.5, 0.0, 0.0, -math.inf], 2
    yield 'local_next', [OVER, 0.0, 0.0], 2
    yield 'local_minus_next', [0.0, 0.0, 0.0, 0.0, 0.0, -OVER], 2
    yield 'local_last_bit_lost_x', STRAY, 15
    yield 'local_last_bit_lost_y', [0.0, 1.0, 0.0, 0.0, 2.0 ** -54, 0.0], 15
    yield 'local_last_bit_lost_z', [0.0, 0.0, 1.0, 0.0, 0.0, 2.0 ** -54], 15
    yield 'local_lost_at_the_end', flat(shifted(MANY[:255], (5, 5, 5))) + [5.0, 5.0, 0.1], 15
    yield 'local_tenth', [-1.0, 0.0, 0.0, 0.1, 0.0, 0.0], 15
    yield 'local_tiny_beside_one', [1.0, 1.0, 1.0, 1.0, TINY, 1.0], 15
    yield 'local_normal_beside_one', [-1.0, 1.0, 1.0, -LEAST_NORMAL, 1.0, 1.0], 15
    yield 'local_lost_at_2_40', [-LIMIT, 0.0, 0.0, LIMIT - 2.0 ** -13, 0.0, 0.0], 15
    yield 'local_size_before_exact', [*STRAY, 0.0], 1
    yield 'local_size_before_number', [*STRAY, math.nan], 1
    yield 'local_number_before_exact', [*STRAY, OVER, 0.0, 0.0], 2
    yield 'local_many_before_exact', STRAY + flat(MANY[:255]), 1


def local(oracle, rng):
    out = []

    def case(name, coords, remark=''):
        c = LocalCase(oracle, name, (coords, [], []), remark)
        out.append(c)
        return c

    for name, coords, origin, after in rows():
        c = case(name, coords, 'moved')
        c.to_local()
        c.said(0, numbers=[bits(x) for x in origin], vertices=[bits(x) for x in after])
    for name, coords, why in refused():
        c = case(name, coords, f'refused {why}')
        c.to_local()
        c.said(why, vertices=[bits(x) for x in coords])
    for k in range(24):
        vertices, _ = (box, prism)[k % 2](rng)
        place = [float(rng.randint(-10 ** far, 10 ** far)) for far in rng.choices((0, 3, 7, 12), k=3)]
        case(f'local_{k + 1}', flat(shifted(vertices, place))).to_local()
    return out


def short_lists(oracle):
    """A list too short for the vector is 6, after every other refusal, and then the vertices stay where they were."""
    out = []
    for name, coords in (('short_lists_local', flat(shifted(THIN, FAR))), ('short_lists_local_size', [1.0, 2.0]),
                         ('short_lists_local_number', [1.5, math.nan, 2.5]), ('short_lists_local_exact', STRAY)):
        c = LocalCase(oracle, name, (coords, [], []))
        c.in_short_lists('to_local', c.to_local)
        out.append(c)
    return out
