"""Questions on backward faces (SCOPE 14). The answers are worked by hand here, and sides.py must give the same."""
from cells import CUBE, HEX8, TETRA, box, cell_of, hull, prism, shifted
from on_cells import MANY, CellCase

# A cube whose opposite corners are one, and the six vertices of which every two are joined: both have one side only.
HEMICUBE = [[0, 1, 2, 3], [0, 1, 3, 2], [0, 2, 1, 3]]
SIX = [[0, 1, 2], [0, 2, 3], [0, 3, 4], [0, 4, 5], [0, 5, 1], [1, 2, 4], [2, 3, 5], [3, 4, 1], [4, 5, 2], [5, 1, 3]]


def back(face_list, which):
    return [f[::-1] if k in which else f for k, f in enumerate(face_list)]


def grid(rows, columns, over=False):
    """A torus of squares; where the last row meets the first from its other end, a Klein bottle, which has one side only."""
    def at(i, j):
        return i % rows * columns + (-j if over and i == rows else j) % columns
    return [[at(i, j), at(i + 1, j), at(i + 1, j + 1), at(i, j + 1)] for i in range(rows) for j in range(columns)]


def pillows(outlines):
    """A pillow over each outline, and its two faces as a group."""
    return [f for outline in outlines for f in (outline, outline[::-1])], [(2 * k, 2 * k + 1) for k in range(len(outlines))]


def together(*solids):
    """Solids in one cell, and the numbers of the faces of each."""
    vertices, face_list, groups = [], [], []
    for more, others in solids:
        groups.append(range(len(face_list), len(face_list) + len(others)))
        face_list += [[c + len(vertices) for c in f] for f in others]
        vertices += more
    return vertices, face_list, groups


def shuffled(rng, vertices, face_list, groups):
    """The same with the faces in another order."""
    order = rng.sample(range(len(face_list)), len(face_list))
    return vertices, [face_list[k] for k in order], [[order.index(k) for k in group] for group in groups]


def reversals(groups, backward):
    """The backward faces of a group, or all but these where its lowest is one of them."""
    return {k for group in groups for k in group if (k in backward) != (min(group) in backward)}


def turnable(rng):
    """Closed cells with their groups, and the faces that are made to run backward."""
    cube, away, pillow = (CUBE, HEX8), (shifted(CUBE, (2, 0, 0)), HEX8), (CUBE[:3], [[0, 1, 2], [2, 1, 0]])
    rows = [(f'cube_backward_{k}', together(cube), {k}) for k in range(6)]
    rows += [('cube_forward', together(cube), ()), ('cube_all_backward', together(cube), range(6)), ('cube_half_backward', together(cube), {1, 3, 5}),
             ('tetra_backward_13', together((CUBE[:4], TETRA)), {1, 3}), ('tetra_backward_02', together((CUBE[:4], TETRA)), {0, 2}),
             ('two_cubes_backward', together(cube, away), {2, 4, 6, 7}), ('two_cubes_second_backward', together(cube, away), range(6, 12)),
             ('two_cubes_mixed', shuffled(rng, *together(cube, away)), {0, 3, 5, 6, 11}),
             ('pillow_forward', together(pillow), ()), ('pillow_backward', together(pillow), {1}),
             ('backward_face_of_none', together((CUBE[:1], [[]]), cube), {4}),
             ('two_corner_faces', together((CUBE[:2], [[1, 0]]), (CUBE[:1], [[0]]), (CUBE[:2], [[0, 1]])), ()),
             ('no_face_to_turn', together((CUBE, [])), ())]
    for a, b in ((3, 3), (4, 7), (3, 85), (16, 16)):
        rows.append((f'torus_{a}_{b}', together((MANY[:a * b], grid(a, b))), set(rng.sample(range(a * b), a))))
    for name, outlines in (('pillows_256_faces', [[k, k + 1, k + 3] for k in range(128)]),
                           ('pillows_2048_corners', [[k * step % 256 for k in range(256)] for step in (1, 3, 5, 7)])):
        face_list, groups = pillows(outlines)
        rows.append((name, (MANY[:256], face_list, groups), {k for k in range(len(face_list)) if rng.random() < 0.5}))
    for k in range(24):
        solids = [(vertices, [list(f) for f in face_list]) for vertices, face_list in (rng.choice((box, prism, hull))(rng) for _ in range(1 + k % 3))]
        cell = together(*solids) if k % 2 else shuffled(rng, *together(*solids))
        rows.append((f'backward_{k + 1}', cell, {f for f in range(len(cell[1])) if rng.random() < 0.4}))
    return rows


def refused():
    cube_and_one = HEX8 + [[c + 8 for c in f] for f in HEX8[1:]]
    both = CUBE + shifted(CUBE, (2, 0, 0))
    beside = [[c + 8 for c in f] for f in HEMICUBE]
    return [('cube_open', CUBE, HEX8[:5], 11), ('cube_and_open', both, cube_and_one, 11), ('cube_face_twice', CUBE, HEX8 + HEX8[:1], 11),
            ('cube_face_there_and_back', CUBE, HEX8 + back(HEX8[:1], {0}), 11), ('one_face', CUBE, [[0, 1, 2]], 11),
            ('three_on_a_side', CUBE, [[0, 1, 2], [0, 1, 3], [0, 1, 4]], 11), ('two_corners_twice', CUBE, [[0, 1], [1, 0]], 11),
            ('vertex_twice', CUBE, [[0, 1, 0, 2]], 11), ('vertex_twice_at_once', CUBE, [[3, 3]], 11),
            ('vertex_twice_in_a_cube', CUBE, back(HEX8, {2}) + [[0, 6, 0]], 11), ('ring', MANY[:12], [f for f in grid(4, 3) if 11 not in f], 11),
            ('hemicube', CUBE[:4], HEMICUBE, 12), ('hemicube_backward', CUBE[:4], back(HEMICUBE, {0, 2}), 12),
            ('cube_and_hemicube', both, back(HEX8, {1, 2}) + beside, 12), ('hemicube_and_open', both, beside + HEX8[:5], 11),
            ('six_vertices', MANY[:6], SIX, 12), ('klein_bottle_3_3', MANY[:9], grid(3, 3, True), 12), ('klein_bottle_16_16', MANY[:256], grid(16, 16, True), 12)]


def backward(oracle, rng):
    out = []
    rows = [(name, vertices, back(face_list, which), 0, reversals(groups, which)) for name, (vertices, face_list, groups), which in turnable(rng)]
    for name, vertices, face_list, why, turned in rows + [(*row, ()) for row in refused()]:
        c = CellCase(oracle, name, cell_of(vertices, face_list), f'refused {why}' if why else f'{len(turned)} of {len(face_list)} faces reversed')
        c.turn_faces()
        c.said(why, counts=[] if why else [len(turned)], corners=cell_of(vertices, back(face_list, turned))[1])
        c.is_closed()
        out.append(c)
    return out
