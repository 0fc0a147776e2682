#!/usr/bin/env python3
"""Writes each example, one cell or several, as records (NAME.cell) and as text that says what it is (NAME.txt),
and each piece of a plan as an OBJ file (NAME.obj), whose comments say what it is.

Run it in any folder: the files are written beside this script.
"""
import math
import os
import struct
from fractions import Fraction

HERE = os.path.dirname(os.path.abspath(__file__))

CUBE = [(0, 0, 0), (1, 0, 0), (1, 1, 0), (0, 1, 0), (0, 0, 1), (1, 0, 1), (1, 1, 1), (0, 1, 1)]
HEX8_FACES = [[0, 3, 2, 1], [4, 5, 6, 7], [0, 1, 5, 4], [2, 3, 7, 6], [1, 2, 6, 5], [3, 0, 4, 7]]


def point(kind, p):
    return struct.pack("<B7x3d", kind, *map(float, p))


def whole(kind, a=0):
    return struct.pack("<B7x3Q", kind, a, 0, 0)


def cell(vertices, faces, queries=()):
    """The records of a cell: vertices, faces (corners and a face end each), queries, the cell end."""
    records = [point(1, v) for v in vertices]
    for face in faces:
        records += [whole(2, corner) for corner in face] + [whole(3)]
    records += [point(5, q) for q in queries] + [whole(4)]
    return b"".join(records)


def moved(vertices, by):
    return [tuple(x + d for x, d in zip(v, by)) for v in vertices]


def prism(outline, height):
    """The two ends and the sides of a prism over an outline that runs counterclockwise from above."""
    n = len(outline)
    vertices = [(x, y, 0) for x, y in outline] + [(x, y, height) for x, y in outline]
    faces = [list(range(n))[::-1], list(range(n, 2 * n))]
    faces += [[i, (i + 1) % n, n + (i + 1) % n, n + i] for i in range(n)]
    return vertices, faces


ELL = [(0, 0), (3, 0), (3, 1), (1, 1), (1, 3), (0, 3)]
FAR = (4_000_000.0, 2_000_000.0, 1_000_000.0)

# a tetrahedron: the ray along +x from its middle meets the side from vertex 2 to vertex 3 exactly
SLANT = [(0, 0, 0), (0, 0, 2), (0, 1, 0), (1, 0, 1)]
SLANT_FACES = [[0, 1, 2], [3, 1, 0], [0, 2, 3], [3, 2, 1]]
STEP = 2.0 ** -10

THIN_AT = (8_588_590.0, 8_529_546.0, 2_969_498.0)
THIN = [(x + 0.05 * a, y + 0.25 * b, z + 2 * c) for a, b, c in CUBE for x, y, z in [THIN_AT]]

# an example has one cell (vertices, faces, queries), or a list of such
EXAMPLES = {
    "cube": (
        "The unit cube with the query point (1/2, 1/2, 1/2).",
        CUBE, HEX8_FACES, [(0.5, 0.5, 0.5)],
    ),
    "cube-face-backward": (
        "The unit cube with one face stored backward, [1, 2, 3, 0] for [0, 3, 2, 1]: it is not closed,\n"
        "and the volume comes out as two thirds.",
        CUBE, [[1, 2, 3, 0]] + HEX8_FACES[1:], [(0.5, 0.5, 0.5)],
    ),
    "torn": (
        "The unit cube without its lid, the face at z = 1: torn open, so not closed.",
        CUBE, HEX8_FACES[:1] + HEX8_FACES[2:], [(0.5, 0.5, 0.5)],
    ),
    "prism": (
        "A prism of height 2 over an L of area 5: concave, closed, volume 10.\n"
        "Of its two query points the first is in the L's foot, the second in the notch, outside.",
        *prism(ELL, 2), [(2, 0.5, 1), (2, 2, 1)],
    ),
    "far": (
        "The unit cube moved by (4,000,000, 2,000,000, 1,000,000), as cells of a map are.",
        moved(CUBE, FAR), HEX8_FACES, [(4_000_000.5, 2_000_000.5, 1_000_000.5)],
    ),
    "ray-on-side": (
        "A tetrahedron four times, first with query points whose ray along +x meets a side exactly (docs/LIMITS.md):\n"
        "its middle, which is inside and is not counted, and a point outside, which is counted. Then both of them\n"
        "a step aside, 1/1024 in z: the first is counted, the second is not, which is right.",
        [
            (SLANT, SLANT_FACES, [(0.25, 0.25, 0.75)]),
            (SLANT, SLANT_FACES, [(-3, 0.25, 0.75)]),
            (SLANT, SLANT_FACES, [(0.25, 0.25, 0.75 + STEP)]),
            (SLANT, SLANT_FACES, [(-3, 0.25, 0.75 + STEP)]),
        ],
    ),
    "thin-and-far": (
        "A box of 0.05 x 0.25 x 2 far from the origin, of which one face gives no triangle, so that a sixth of\n"
        "the volume is missing; and the same box as `to_local` leaves it, with (8588590, 8529546, 2969498)\n"
        "taken off every vertex, exactly. What to do with a cell whose line says `short 1` or more: move its\n"
        "vertices by `to_local`, and its query points with them, and have it surveyed again; if it is still short,\n"
        "trace the face as triangles (docs/LIMITS.md; examples/local.c does the move).",
        [
            (THIN, HEX8_FACES, []),
            (moved(THIN, [-x for x in THIN_AT]), HEX8_FACES, []),
        ],
    ),
    "torn-and-a-vertex": (
        "The cube without its lid, and the same with one vertex more, (1/2, 1/2, 10), that no face names: an open\n"
        "cell's volume depends on where all its vertices lie (docs/LIMITS.md).",
        [
            (CUBE, HEX8_FACES[:1] + HEX8_FACES[2:], []),
            (CUBE + [(0.5, 0.5, 10)], HEX8_FACES[:1] + HEX8_FACES[2:], []),
        ],
    ),
}

# ---- pieces that look like those of a mine plan. They lie on a national grid, in metres with two decimals, as surveyors
# hand them over; z is the height over a datum. Lengths below are metres from the place of the piece.

def placed(point, at):
    """A point of the grid with two decimals, as the file has it and as every reader takes it."""
    return tuple(float(f"{x + d:.2f}") for x, d in zip(point, at))


def flat(points):
    """Whether all points lie exactly in one plane, as they are stored: no volume then hangs on how the face is cut."""
    first, *others = [[Fraction(x) for x in p] for p in points]
    ways = [[x - o for x, o in zip(p, first)] for p in others]
    return all(a[0] * (b[1] * c[2] - b[2] * c[1]) + a[1] * (b[2] * c[0] - b[0] * c[2]) + a[2] * (b[0] * c[1] - b[1] * c[0]) == 0
               for a in ways for b in ways for c in ways)


def panel(vertices, ring):
    """A ring of corners as one face where it is flat, else as triangles about its first corner."""
    if flat([vertices[c] for c in ring]):
        return [ring]
    return [[ring[0], b, c] for b, c in zip(ring[1:], ring[2:])]


def stope(outline, heights, ridge, at):
    """A level floor over an outline that runs counterclockwise from above, upright walls of the given heights, and a roof
    of triangles that rises to a ridge of two points: the first is joined to the first half of the walls, the second to the rest."""
    n = len(outline)
    points = [(x, y, 0) for x, y in outline] + [(x, y, h) for (x, y), h in zip(outline, heights)] + ridge
    floor, walls = [list(range(n))[::-1]], [[i, (i + 1) % n, n + (i + 1) % n, n + i] for i in range(n)]
    half, left, right = n // 2, 2 * n, 2 * n + 1
    roof = [[n + i, n + (i + 1) % n, left if i < half else right] for i in range(n)]
    return [placed(p, at) for p in points], floor + walls + roof + [[n + half, right, left], [n, left, right]]


def arch(width, wall, rise, steps):
    """The corners of a section, seen against the way: the two at its floor, then the arch from right to left, as offsets
    to the right and up."""
    turns = [math.pi * k / steps for k in range(steps + 1)]
    return [(-width / 2, 0), (width / 2, 0)] + [(width / 2 * math.cos(t), wall + rise * math.sin(t)) for t in turns]


def stations(leg, radius, steps):
    """The sections of a drive: at the start of a leg to the north, and at each step of a bend to the east. Each is a place
    in plan, the heading as an angle from the north, and how far it lies along the drive."""
    bend = [math.pi / 2 * k / steps for k in range(steps + 1)]
    return [(0, -leg, 0, 0)] + [(radius - radius * math.cos(a), radius * math.sin(a), a, leg + radius * a) for a in bend]


def drive(section, along, gradient, at):
    """The sections one behind the other, joined by panels, and closed at both ends."""
    n = len(section)
    points = [(x + right * math.cos(a), y - right * math.sin(a), gradient * far + up)
              for x, y, a, far in along for right, up in section]
    vertices = [placed(p, at) for p in points]
    faces = panel(vertices, list(range(n)))
    for start in range(0, n * (len(along) - 1), n):
        for i in range(n):
            a, b = start + i, start + (i + 1) % n
            faces += panel(vertices, [b, a, a + n, b + n])
    return vertices, faces + panel(vertices, list(range(len(vertices) - n, len(vertices)))[::-1])


def highest(vertices, faces, section):
    """Of the faces between two sections, the number of the one whose corners lie highest over the floor of their section."""
    def over(face):
        return sum(vertices[c][2] - vertices[c - c % section][2] for c in face) / len(face)
    between = [k for k, face in enumerate(faces) if len({c // section for c in face}) == 2]
    return max(between, key=lambda k: over(faces[k]))


def blocks(points, outlines, height, at):
    """Upright blocks over outlines of numbered points. A point that two outlines have gives one pair of vertices, so the wall
    between two such points is the same for both blocks. Each block: the vertices that are new, and the faces."""
    number, made = {}, []
    for outline in outlines:
        new = [p for p in outline if p not in number]
        number.update({p: 2 * (len(number) + k) for k, p in enumerate(new)})
        ends = [[number[p] for p in outline[::-1]], [number[p] + 1 for p in outline]]
        walls = [[number[p], number[q], number[q] + 1, number[p] + 1] for p, q in zip(outline, outline[1:] + outline[:1])]
        made.append(([placed((*points[p], z), at) for p in new for z in (0, height)], ends + walls))
    return made


def reversed_at(faces, k):
    return faces[:k] + [faces[k][::-1]] + faces[k + 1:]


STOPE = stope(
    outline=[(0, 0), (6.45, -2.1), (13.8, -0.65), (18.2, 4.3), (15.55, 9.85), (8.3, 11.4), (1.75, 7.2)],
    heights=[4.2, 5.35, 6.1, 5.8, 4.9, 5.5, 3.85],
    ridge=[(12.1, 3.9, 9.65), (5.6, 5.15, 8.2)],
    at=(604_318.72, 5_612_846.15, -412.4),
)
WALL = 3

ARCH = arch(width=4.2, wall=2.2, rise=1.6, steps=4)
DRIVE = drive(ARCH, stations(leg=12.5, radius=18, steps=3), gradient=1 / 150, at=(604_290.4, 5_612_790.85, -413.15))
HOLE = highest(*DRIVE, len(ARCH))

BLOCKS = blocks(
    points=[(0, 0), (14.6, -3.25), (17.9, 8.75), (9.35, 13.1), (-2.4, 9.6), (27.45, -1.8), (30.15, 7.05)],
    outlines=[[0, 1, 2, 3, 4], [1, 5, 6, 2]], height=7.5, at=(604_402.55, 5_612_911.3, -388.6),
)

# a piece has what it is, in words, and its objects: a name, the vertices that stand there, and the faces, by vertex numbers
# that are counted from 0 through the file
PLANS = {
    "stope": (
        f"A stope, that is, a mined-out chamber: a level floor, {len(STOPE[0]) // 2 - 1} upright walls of different heights, and a roof\n"
        f"that rises to a ridge. Face {WALL + 1} of the file, a wall, was traced backward; all else is right, and nothing is missing.",
        [("stope", STOPE[0], reversed_at(STOPE[1], WALL))],
    ),
    "drive": (
        "A drive, that is, a tunnel, with an arched roof: a straight leg to the north, then a bend to the east, rising 1 in 150.\n"
        f"One face of the roof was left out, between face {HOLE} and face {HOLE + 1} of the file, so it is torn open there.",
        [("drive", DRIVE[0], DRIVE[1][:HOLE] + DRIVE[1][HOLE + 1:])],
    ),
    "two-blocks": (
        "Two blocks of ore that share a wall. The vertices of the wall stand once, and the faces of both blocks name them.\n"
        "Both blocks are closed, and traced as they should be.",
        [(f"block-{letter}", *block) for letter, block in zip("ab", BLOCKS)],
    ),
}


def words(vertices, faces, queries):
    lines = [f"vertex {i}: {x:.17g} {y:.17g} {z:.17g}" for i, (x, y, z) in enumerate(vertices)]
    lines += [f"face {k}: " + " ".join(map(str, face)) for k, face in enumerate(faces)]
    lines += [f"query: {x:.17g} {y:.17g} {z:.17g}" for x, y, z in queries]
    return lines


def obj(says, objects):
    """The lines of an OBJ file, whose vertices are numbered from 1."""
    lines = [f"# {line}" for line in (says + "\nCoordinates are in metres.").split("\n")]
    for name, vertices, faces in objects:
        lines += [f"o {name}"] + [f"v {x:.2f} {y:.2f} {z:.2f}" for x, y, z in vertices]
        lines += ["f " + " ".join(str(corner + 1) for corner in face) for face in faces]
    return "\n".join(lines) + "\n"


def main():
    for name, (says, *given) in EXAMPLES.items():
        cells = given[0] if len(given) == 1 else [given]
        data = b"".join(cell(*parts) for parts in cells)
        texts = ["\n".join(words(*parts)) + "\n" for parts in cells]
        if len(cells) > 1:
            texts = [f"cell {k}\n{text}" for k, text in enumerate(texts, 1)]
        with open(os.path.join(HERE, name + ".cell"), "wb") as f:
            f.write(data)
        with open(os.path.join(HERE, name + ".txt"), "w") as f:
            f.write(f"{says}\n{len(data) // 32} records, {len(cells)} cell{'s' * (len(cells) > 1)}.\n\n")
            f.write("\n".join(texts))
    for name, piece in PLANS.items():
        with open(os.path.join(HERE, name + ".obj"), "w") as f:
            f.write(obj(*piece))


if __name__ == "__main__":
    main()
