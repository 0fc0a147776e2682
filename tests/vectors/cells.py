"""Cells: those worked by hand, random ones, and damaged ones."""
import itertools
import math

from asking import MARK, flat
from table import LIMIT

CUBE = [(0, 0, 0), (1, 0, 0), (1, 1, 0), (0, 1, 0), (0, 0, 1), (1, 0, 1), (1, 1, 1), (0, 1, 1)]
HEX8 = [[0, 3, 2, 1], [4, 5, 6, 7], [0, 1, 5, 4], [1, 2, 6, 5], [2, 3, 7, 6], [3, 0, 4, 7]]
SEVEN = [(0, 0, 0), (10, 0, 0), (0, 10, 0), (0, 0, 0), (0, -1, 0), (-1, -1, 0), (-1, 0, 0)]
TETRA = [[0, 2, 1], [0, 1, 3], [1, 2, 3], [0, 3, 2]]


def cell_of(vertices, face_list):
    ends, n = [], 0
    for f in face_list:
        n += len(f)
        ends.append(n)
    return flat(vertices), [c for f in face_list for c in f], ends


def shifted(vertices, step):
    return [tuple(x + s for x, s in zip(v, step)) for v in vertices]


def moved(rng, vertices):
    """The vertices at a random scale and place; some lie on a coarse grid, so that ties and zeros occur."""
    grid = rng.random() < 0.4
    size, place = 10.0 ** rng.uniform(-3, 5), [rng.uniform(-9, 9) for _ in range(3)]
    if grid:
        return [[float(round(4 * x) + rng.choice((0, 0, 1))) for x in v] for v in vertices]
    return [[size * (x + p) for x, p in zip(v, place)] for v in vertices]


def box(rng):
    sides = [rng.uniform(0.2, 3) for _ in range(3)]
    return moved(rng, [[x * s for x, s in zip(v, sides)] for v in CUBE]), [f[:] for f in HEX8]


def ring_faces(n):
    """The faces of a prism over an outline of n corners."""
    sides = [[k, (k + 1) % n, n + (k + 1) % n, n + k] for k in range(n)]
    return [list(range(n))[::-1], list(range(n, 2 * n))] + sides


def outline(rng, n):
    """An outline of n corners whose distances from the middle differ, so that many are not convex."""
    reach = [rng.uniform(0.3, 1.5) for _ in range(n)]
    return [(r * math.cos(6.28318 * k / n), r * math.sin(6.28318 * k / n)) for k, r in enumerate(reach)]


def prism(rng):
    """A prism over an outline of 3 to 7 corners."""
    n, top = rng.randint(3, 7), rng.uniform(0.3, 2)
    ring = outline(rng, n)
    return moved(rng, [(x, y, 0.0) for x, y in ring] + [(x, y, top) for x, y in ring]), ring_faces(n)


def torn(rng):
    """A box or a prism with a face dropped, turned round, cut to few corners, or with corners exchanged."""
    vertices, face_list = (box if rng.random() < 0.5 else prism)(rng)
    for _ in range(rng.randint(1, 3)):
        k = rng.randrange(len(face_list))
        face_list[k] = rng.choice((
            lambda f: [],
            lambda f: f[::-1],
            lambda f: f[:2],
            lambda f: [rng.randrange(len(vertices)) for _ in range(rng.randint(1, 8))],
            lambda f: f + f[:1],
        ))(face_list[k])
    return vertices, face_list


def queries(rng, vertices):
    middle = [sum(v[k] for v in vertices) / len(vertices) for k in range(3)]
    near = [m + rng.uniform(-1, 1) * max(abs(v[k] - m) for v in vertices) for k, m in enumerate(middle)]
    return [tuple(middle), tuple(near), tuple(rng.choice(vertices))]


# Cells of about the same size and place, for overlaps.

def turned(rng, vertices):
    """The vertices turned about a random axis through the origin."""
    axis = [rng.gauss(0, 1) for _ in range(3)]
    long, angle = math.sqrt(sum(a * a for a in axis)), rng.uniform(0, 6.28318)
    x, y, z = (a / long for a in axis)
    c, s, d = math.cos(angle), math.sin(angle), 1 - math.cos(angle)
    rows = ((c + x * x * d, x * y * d - z * s, x * z * d + y * s),
            (y * x * d + z * s, c + y * y * d, y * z * d - x * s),
            (z * x * d - y * s, z * y * d + x * s, c + z * z * d))
    return [tuple(sum(r * v for r, v in zip(row, p)) for row in rows) for p in vertices]


def near_box(rng):
    """A box on a grid of halves, so that faces of two such boxes often lie in one plane."""
    sides, place = [rng.choice((1, 1.5, 2)) for _ in range(3)], [rng.choice((-0.5, 0, 0.5)) for _ in range(3)]
    return [tuple(x * s + p for x, s, p in zip(v, sides, place)) for v in CUBE], HEX8


def turned_box(rng):
    middle = shifted(CUBE, (-0.5, -0.5, -0.5))
    return shifted(turned(rng, middle), [rng.uniform(-0.3, 0.3) for _ in range(3)]), HEX8


def turned_prism(rng):
    """A convex prism over a regular outline."""
    n = rng.randint(3, 7)
    ring = [(math.cos(6.28318 * k / n), math.sin(6.28318 * k / n)) for k in range(n)]
    solid = [(x, y, z) for z in (-0.5, 0.5) for x, y in ring]
    return shifted(turned(rng, solid), [rng.uniform(-0.3, 0.3) for _ in range(3)]), ring_faces(n)


def hull(rng):
    """The hull of random points of a ball, a triangle a face."""
    ps = []
    for _ in range(rng.randint(5, 9)):
        p = [rng.gauss(0, 1) for _ in range(3)]
        ps.append(tuple(x / math.sqrt(sum(y * y for y in p)) for x in p))
    return ps, [f for f in itertools.permutations(range(len(ps)), 3) if f[0] == min(f) and outermost(ps, f)]


def outermost(ps, face):
    """Whether no point lies beyond the triangle."""
    a, b, c = (ps[k] for k in face)
    u, v = [y - x for x, y in zip(a, b)], [y - x for x, y in zip(a, c)]
    n = (u[1] * v[2] - u[2] * v[1], u[2] * v[0] - u[0] * v[2], u[0] * v[1] - u[1] * v[0])
    return all(sum(m * (y - x) for m, x, y in zip(n, a, p)) < 0 for k, p in enumerate(ps) if k not in face)


def damage(rng, cell):
    """One or two of the things that the table refuses."""
    coords, corners, ends = [list(part) for part in cell]
    for _ in range(rng.randint(1, 2)):
        kind = rng.randrange(8)
        if kind == 0:
            coords = coords[:-1]
        elif kind == 1:
            coords[rng.randrange(len(coords))] = rng.choice((math.nan, math.inf, -math.inf, 2.0 * LIMIT))
        elif kind == 2:
            corners[rng.randrange(len(corners))] = rng.choice((len(coords) // 3, MARK))
        elif kind == 3:
            ends[-1] = rng.choice((ends[-1] - 1, ends[-1] + 1, MARK))
        elif kind == 4:
            ends[0], ends[1] = ends[1], ends[0]
        elif kind == 5:
            corners = corners + [0]
        elif kind == 6:
            ends = ends[:-1]
        else:
            ends = []
    return coords, corners, ends
