"""Questions to the leaves and the fixed shapes, which take any bits: the numbers stand in the line's coordinates."""
import math

import hypot
from asking import Case, bits, flat, hexes, number
from cells import CUBE, moved, queries, turned

# How many numbers a leaf takes.
TAKES = {'cross2': 6, 'dominant_axis': 3, 'segment_intersection': 8, 'segment_plane_intersection': 8, 'plane_same_side': 9,
         'plane_coplanar_opposite': 9}

# A solid one of each shape.
SHAPES = {'tet': [CUBE[k] for k in (0, 1, 3, 4)], 'wedge': [CUBE[k] for k in (0, 1, 3, 4, 5, 7)], 'hex': CUBE}

STRANGE = [0.0, -0.0, 1.0, -1.0, math.inf, -math.inf, math.nan, number(1), 2.0 ** 1023, -2.0 ** 1023, 2.0 ** -537]

LARGEST = math.nextafter(math.inf, 0.0)

# Lengths in the middle of two f64s, the even one above and then below.
TIES = [(0x433FA26AFDDB0384, 0x4326C8F2A3055062, 0x4340CFC873E3E534), (0x43429899D5ABD726, 0x432A575D458ACB06, 0x4343BA490718AC62)]


class LeafCase(Case):
    def __init__(self, oracle, name, numbers, remark=''):
        super().__init__(oracle, name, (numbers, [], []), remark, {'numbers': numbers})

    def leaf(self, entry, at=0):
        """A leaf whose arguments start at a place of the line's numbers."""
        words = hexes(self.cell[0][at:at + TAKES[entry]])
        values, code = [], 0
        if entry == 'dominant_axis':
            code = int(self.oracle.ask(entry, words)[0])
        elif entry.startswith('plane'):
            code = self.oracle.yes(entry, words, 'ruled')
        elif entry == 'cross2':
            (code,) = self.oracle.patterns(entry, words)
        else:
            values = self.oracle.patterns(entry, words)
        self.put(entry, [at], 0, values, shown=f' from place {at}', code=code)

    def project(self, axis, at=0):
        got = self.oracle.patterns('project2', f'{hexes(self.cell[0][at:at + 3])} {axis}')
        self.put('project2', [at, axis], 0, got, shown=f' axis {axis} from place {at}')

    def root(self, x):
        """The correctly rounded root of IEEE 754, which decides here."""
        self.put('root', [bits(x)], 0, shown=f' {bits(x):016X}', code=bits(math.nan if x < 0.0 else math.sqrt(x)))

    def hypot(self, x, y):
        """The f64 nearest to the exact root of the exact sum of squares, by the second program."""
        self.put('hypot', [bits(x), bits(y)], 0, shown=f' {x!r} {y!r}', code=hypot.of_patterns(bits(x), bits(y)))

    def small(self, x, ys):
        """The leaves on one number and on two, as SCOPE 5 has them: of two that tie the first, and the other beside a NaN."""
        self.put('magnitude', [bits(x)], 0, shown=f' {x!r}', code=bits(abs(x)))
        for entry in ('pattern', 'of_pattern'):
            self.put(entry, [bits(x)], 0, shown=f' {x!r}', code=bits(x))
        for y in ys:
            least, largest = (y if x != x else x if y != y else y if beyond else x for beyond in (y < x, x < y))
            for entry, r in (('least', least), ('largest', largest)):
                self.put(entry, [bits(x), bits(y)], 0, shown=f' {x!r} {y!r}', code=bits(r))
            self.hypot(x, y)

    def leaves(self):
        """Every leaf at every place from which there are numbers enough."""
        n = len(self.cell[0])
        for entry, takes in TAKES.items():
            for at in range(0, n - takes + 1, 2):
                self.leaf(entry, at)
        for axis in range(4):
            self.project(axis)

    def shape_refusal(self, kind):
        """Another length than that of the shape's corners is refused 1."""
        return 0 if len(self.cell[0]) == 3 * len(SHAPES[kind]) else 1

    def shape_volume(self, kind):
        why = self.shape_refusal(kind)
        self.put(f'{kind}_volume', [], why, [] if why else self.oracle.patterns(f'{kind}_volume', hexes(self.cell[0])))

    def shape_contains(self, kind, p):
        why = self.shape_refusal(kind)
        got = [] if why else [self.oracle.yes(f'{kind}_contains', f'{hexes(p)} {hexes(self.cell[0])}')]
        self.put(f'{kind}_contains', [bits(x) for x in p], why, counts=got, shown=f' {p}')

    def shape(self, kind, ps):
        self.shape_volume(kind)
        for p in ps:
            self.shape_contains(kind, p)


def worked(oracle):
    """The root, and the crossing that lies off its segment: t = -1.5."""
    least = LeafCase(oracle, 'root_least', [], 'the root of the least positive f64 is 2^-537')
    least.root(number(1))
    least.said(bits(2.0 ** -537))
    c = LeafCase(oracle, 'crossing_off_its_segment', [0.75, 0.0, 0.0, 1.25, 4.0, 0.0, 0.75, 1.25], 'the point (0, -6, 0)')
    c.leaf('segment_plane_intersection')
    c.said(0, numbers=[bits(0.0), bits(-6.0), bits(0.0)])
    return [least, c]


def leaves(oracle, rng):
    """Random numbers, small whole numbers with their ties and zero denominators, and strange ones."""
    rows = [('leaves', [rng.uniform(-9, 9) for _ in range(12)]) for _ in range(6)]
    rows += [('leaves_whole', [float(rng.randint(-2, 2)) for _ in range(14)]) for _ in range(8)]
    rows += [('leaves_strange', [rng.choice(STRANGE) for _ in range(14)]) for _ in range(8)]
    rows += [('leaves_parallel', [0.0, 0.0, 2.0, 1.0, 5.0, 5.0, 9.0, 7.0])]
    out = []
    for k, (name, numbers) in enumerate(rows):
        c = LeafCase(oracle, f'{name}_{k + 1}', numbers)
        c.leaves()
        out.append(c)
    return out


def roots(oracle, rng):
    """Roots of strange numbers, of every magnitude, and of squares and their neighbours."""
    c = LeafCase(oracle, 'roots', [])
    near = [(k * k, math.nextafter(k * k, 0.0), math.nextafter(k * k, math.inf)) for k in (rng.uniform(1.0, 2.0 ** 26) for _ in range(20))]
    for x in [*STRANGE, 2.0, 0.5, LARGEST, math.nextafter(2.0 ** -1022, 0.0), *(number(rng.getrandbits(63)) for _ in range(60)), *flat(near)]:
        c.root(x)
    return [c]


def hypots(oracle):
    """Ties, as they are known beforehand; and what lies beside a tie, underflows, overflows or stops to count, both ways round."""
    ties = []
    for k, (x, y, length) in enumerate(TIES):
        c = LeafCase(oracle, f'hypot_tie_{k + 1}', [], 'the length lies in the middle of two f64s: the even one')
        c.hypot(number(x), number(y))
        c.hypot(number(y), -number(x))
        c.said(length)
        ties.append(c)
    beside = [(x, y + step) for x, y, _ in TIES for step in (-1, 1)]
    # The length of the least number twice is nearest to it; that of two subnormal numbers may be a normal number.
    least = [(1, 1), (1, 2), (2, 2), (3, 4), (0x000C000000000000, 0x000C000000000000), (bits(2.0 ** -1022), 1)]
    # With the largest f64 the first of two neighbours has a length below the middle to 2^1024, and the second one above.
    border = [(bits(LARGEST), 0x7E46A09E667F3BCC), (bits(LARGEST), 0x7E46A09E667F3BCD)]
    border += [(bits(2.0 ** 1023),) * 2, (bits(LARGEST), 1), (bits(3.0 * 2.0 ** 1000), bits(4.0 * 2.0 ** 1000))]
    vanish = [(bits(3.0 * 2.0 ** -600), bits(4.0 * 2.0 ** -600)), (bits(2.0 ** -538),) * 2]
    counts = [(bits(1.0), bits(2.0 ** -26) + step) for step in (-1, 0, 1)] + [(bits(1.0), bits(2.0 ** -k)) for k in (27, 28, 53, 54, 1000)]
    c = LeafCase(oracle, 'hypots', [])
    for x, y in [*beside, *least, *border, *vanish, *counts]:
        c.hypot(number(x), number(y))
        c.hypot(-number(y), number(x))
    return [*ties, c]


def plane_pairs(oracle, rng):
    """Planes that are nearly the same, from either side, about the tolerances of the two tests."""
    out = []
    for k in range(16):
        (normal,) = turned(rng, [(0.0, 0.0, 1.0)])
        side, tilt, d = rng.choice((1.0, -1.0)), rng.choice((0.0, 1e-11, 5e-11, 1e-10, 2e-10, 1e-6)), rng.uniform(-2, 2)
        tol = rng.choice((0.0, 1e-4, math.inf, math.nan))
        other = [side * x * (1.0 - tilt) for x in normal] + [side * d + rng.choice((0.0, tol, -tol, 2 * tol))]
        c = LeafCase(oracle, f'plane_pair_{k + 1}', [*normal, d, *other, tol])
        for entry in ('plane_same_side', 'plane_coplanar_opposite'):
            c.leaf(entry)
        out.append(c)
    return out


def shapes(oracle, rng):
    out = []
    for kind, solid in SHAPES.items():
        for k in range(8):
            corners = [tuple(p) for p in moved(rng, solid)]
            if k == 5:
                corners = corners[::-1]
            if k == 6:
                corners = [tuple(rng.choice(STRANGE) for _ in range(3)) for _ in solid]
            if k == 7:
                corners = [tuple(float(x) for x in p) for p in solid]
            c = LeafCase(oracle, f'{kind}_{k + 1}', flat(corners))
            c.shape(kind, [*queries(rng, corners), (0.0, 0.25, 0.25), (rng.choice(STRANGE), 0.5, 0.25)])
            out.append(c)
    return out


def small(oracle):
    c = LeafCase(oracle, 'one_or_two_numbers', [])
    for x in STRANGE:
        c.small(x, STRANGE)
    return [c]


def short_lists(oracle):
    """Lists too short for a point or a number, and shapes of another count of corners."""
    c = LeafCase(oracle, 'short_lists_of_leaves', [0.75, 0.0, 0.0, 1.25, 4.0, 0.0, 0.75, 1.25])
    c.in_short_lists('project2', lambda: c.project(1))
    for entry in ('segment_intersection', 'segment_plane_intersection'):
        c.in_short_lists(entry, lambda entry=entry: c.leaf(entry))
    out = [c]
    for name, corners in (('tet', SHAPES['tet']), ('wedge', SHAPES['wedge']), ('hex', SHAPES['hex']), ('no', [])):
        c = LeafCase(oracle, f'short_lists_of_{name}_corners', flat(corners))
        for kind in SHAPES:
            c.shape(kind, [(0.25, 0.25, 0.25)])
            c.in_short_lists(f'{kind}_volume', lambda kind=kind: c.shape_volume(kind))
            c.in_short_lists(f'{kind}_contains', lambda kind=kind: c.shape_contains(kind, (0.25, 0.25, 0.25)))
        out.append(c)
    return out
