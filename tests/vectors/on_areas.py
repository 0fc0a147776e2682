"""Questions on faces that have no area (SCOPE 11, SCOPE 12): which they are, what stands for their planes, and how many there are in two
cells. The flags of `rows` are worked by hand, and areas.py must give the same."""
from cells import CUBE, HEX8, cell_of, hull, near_box, shifted, turned_box, turned_prism
from on_cells import CellCase, MANY
from on_clips import CUBE_CELL, PairCase

ORIGIN = (0.0, 0.0, 0.0)

# The unit cube, a vertex in the middle of its first edge, the origin again with zeros of the other sign, and one on the fourth edge.
MORE = [*CUBE, (0.5, 0.0, 0.0), (-0.0, 0.0, -0.0), (0.0, 0.75, 0.0)]

# Faces of MORE that have no area.
FLAT = [[5], [5, 6], [2, 2, 2], [0, 9, 0, 9], [0, 8, 1], [1, 0, 8, 1], [0, 2, 1, 3], [4, 6, 6], [3, 3, 5, 5], [0, 1, 2, 0, 2, 1], [0, 1, 6, 1]]


def right_angle(x, y):
    """A triangle at the origin whose norm is x * y."""
    return [ORIGIN, (x, 0.0, 0.0), (0.0, y, 0.0)]


def rows():
    """Cells, and which of their faces have no area."""
    yield 'area_cube', CUBE_CELL, [0] * 6
    yield 'area_few_corners', cell_of(CUBE, [[5], [5, 6], [0, 1, 2], [0, 0]]), [1, 1, 0, 1]
    yield 'area_in_one_point', cell_of(MORE, [[2, 2, 2], [0, 9, 0, 9], [9, 0, 1], [6, 6, 6, 6, 6]]), [1, 1, 1, 1]
    along = [(k * 1.0, k * 2.0, k * -3.0) for k in range(5)] + [(4.0, 8.0, -12.5)]
    yield 'area_on_a_line', cell_of(along, [[0, 1, 2], [4, 1, 3, 0], [0, 1, 5], [2, 0, 4, 3, 1]]), [1, 1, 0, 1]
    yield 'area_bow_tie', cell_of(MORE, [[0, 2, 1, 3], [0, 2, 1, 10], [0, 2, 8, 3], [4, 6, 5, 7], [0, 6, 1, 7]]), [1, 0, 1, 1, 1]
    yield 'area_doubled_corner', cell_of(MORE, [[0, 1, 1], [3, 3, 5, 5], [0, 3, 3, 2, 1], [0, 1, 2, 0, 2, 1]]), [1, 1, 0, 1]
    yield 'area_there_and_back', cell_of(CUBE, [[0, 1, 6, 1], [3, 0, 5, 2, 5, 0], [0, 1, 6, 2]]), [1, 1, 0]
    yield 'area_all_flat', cell_of(MORE, FLAT), [1] * len(FLAT)
    for k in (0, 3, 6):
        yield f'area_flat_at_{k}', cell_of(CUBE, [*HEX8[:k], [0, 2, 1, 3], *HEX8[k:]]), [0] * k + [1] + [0] * (6 - k)
    for power in (270, 511, 512, 537):
        yield f'area_of_2_to_minus_{2 * power}', cell_of(right_angle(2.0 ** -power, 2.0 ** -power), [[0, 1, 2], [2, 1, 0]]), [0, 0]
    yield 'area_that_vanishes', cell_of(right_angle(2.0 ** -538, 2.0 ** -538), [[0, 1, 2], [2, 1, 0]]), [1, 1]
    yield 'area_least', cell_of(right_angle(2.0 ** -1074, 1.0), [[0, 1, 2], [0, 1, 1]]), [0, 1]
    yield 'area_half_of_the_least', cell_of(right_angle(2.0 ** -1074, 0.5), [[0, 1, 2]]), [1]
    yield 'area_no_face', cell_of(CUBE, []), []
    thirds = [[k, (k + 7) % 256, (k + 90) % 256 if k % 3 else k] for k in range(256)]
    yield 'area_faces_256', cell_of(MANY[:256], thirds), [int(k % 3 == 0) for k in range(256)]


def rounded(rng):
    """Faces that have no area but for rounding: along a line, crossed, and there and back, at any place."""
    ps = [tuple(rng.uniform(-9, 9) for _ in range(3)) for _ in range(5)]
    a, b, c = ps[:3]
    between = [tuple(x + t * (y - x) for x, y in zip(a, b)) for t in (0.25, 0.5, rng.random())]
    across = tuple(x + z - y for x, y, z in zip(a, b, c))
    return cell_of([*ps, *between, across], [[0, 5, 1], [0, 7, 6], [0, 2, 1, 8], [0, 1, 2, 3, 4, 3, 2, 1], [3, 4], [0, 1, 2]])


def areas_of_faces(oracle, rng):
    out = []
    for name, cell, said in rows():
        c = CellCase(oracle, name, cell)
        c.no_area_faces()
        c.said(0, counts=said)
        for face in range(min(len(said), 12)):
            c.plane(face)
        out.append(c)
    for k in range(12):
        c = CellCase(oracle, f'area_rounded_{k + 1}', rounded(rng))
        c.no_area_faces()
        for face in range(6):
            c.plane(face)
        out.append(c)
    return out + overlaps(oracle, rng)


def overlaps(oracle, rng):
    """Pairs whose faces of no area are counted: boxes that meet and that miss, in the first cell, in the second, in both, and all."""
    moved, apart = shifted(CUBE, (0.5, 0.25, -0.5)), shifted(CUBE, (2, 0, 0))
    two, one = [[1, 6], *HEX8, [0, 2, 1, 3]], [*HEX8[:3], [7, 7, 7], *HEX8[3:]]
    small, flat = cell_of([[x * 2.0 ** -512 for x in v] for v in CUBE], HEX8), cell_of(MORE, FLAT)
    out = []
    for name, cell, other, said in (
            ('none', CUBE_CELL, cell_of(moved, HEX8), [0, 0]), ('in_the_first', cell_of(CUBE, two), cell_of(moved, HEX8), [2, 0]),
            ('in_the_second', CUBE_CELL, cell_of(moved, one), [0, 1]), ('in_both', cell_of(CUBE, two), cell_of(moved, one), [2, 1]),
            ('in_both_that_miss', cell_of(CUBE, two), cell_of(apart, one), [2, 1]), ('of_one_that_miss', CUBE_CELL, cell_of(apart, two), [0, 2]),
            ('all_of_the_first', flat, cell_of(moved, HEX8), [11, 0]), ('all_of_the_second', cell_of(moved, HEX8), flat, [0, 11]),
            ('all', flat, flat, [11, 11]), ('all_that_miss', flat, cell_of(apart, FLAT[:3]), [11, 3]),
            ('that_underflow', small, small, [0, 0]), ('that_underflow_and_none', small, flat, [0, 11]),
            ('of_no_face', cell_of(CUBE, []), cell_of(CUBE, two), [0, 2])):
        c = PairCase(oracle, 'areas_' + name, cell, other)
        c.overlap(room=0)
        c.said(0, counts=said)
        if c.most:
            c.overlap(room=-1)
        out.append(c)
    for k in range(12):
        (ps, fs), (qs, gs) = ((near_box, turned_box, turned_prism, hull)[(k + step) % 4](rng) for step in (0, 1))
        fs, gs = with_flat(rng, ps, fs), with_flat(rng, qs, gs)
        c = PairCase(oracle, f'areas_{k + 1}', cell_of(ps, fs), cell_of(shifted(qs, (4, 0, 0)) if k % 4 == 3 else qs, gs))
        c.overlap(room=0)
        out.append(c)
    return out


def with_flat(rng, vertices, face_list):
    """The faces with some of few corners, of one point or crossed between them."""
    face_list = [list(f) for f in face_list]
    for _ in range(rng.randint(0, 3)):
        a, b = rng.sample(range(len(vertices)), 2)
        face_list.insert(rng.randint(0, len(face_list)), rng.choice(([a], [a, b], [b, b, b], [a, b, b], rng.sample(range(len(vertices)), 4))))
    return face_list


def short_lists(oracle):
    """A list too short for the flags, for a plane or for what tells that there is one is 6; where there is none, no place is asked for it."""
    tiny = cell_of(right_angle(2.0 ** -512, 2.0 ** -512), [[0, 1, 2], [0, 0, 1]])
    out = []
    for name, cell in (('short_areas', cell_of(MORE, [*HEX8[:2], *FLAT[:4]])), ('short_areas_small', tiny),
                       ('short_areas_of_none', cell_of(CUBE, [[0, 1, 2], [], [5]]))):
        c = CellCase(oracle, name, cell)
        c.in_short_lists('no_area_faces', c.no_area_faces)
        for face in range(len(cell[2]) + 1):
            c.in_short_lists('plane_of_face', lambda face=face: c.plane(face))
        out.append(c)
    return out
