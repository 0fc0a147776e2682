"""Random cells as records, good and damaged in every way that a stream can be."""
import math
import random
import struct

CUBE = [(0, 0, 0), (1, 0, 0), (1, 1, 0), (0, 1, 0), (0, 0, 1), (1, 0, 1), (1, 1, 1), (0, 1, 1)]
HEX8_FACES = [[0, 3, 2, 1], [4, 5, 6, 7], [0, 1, 5, 4], [2, 3, 7, 6], [1, 2, 6, 5], [3, 0, 4, 7]]
SEVEN = [(0, 0, 0), (10, 0, 0), (0, 10, 0), (0, 0, 0), (0, -1, 0), (-1, -1, 0), (-1, 0, 0)]


def point(kind, p):
    return struct.pack("<B7x3d", kind, *map(float, p))


def whole(kind, a=0):
    return struct.pack("<B7x3Q", kind, a, 0, 0)


def face_records(face):
    return [whole(2, corner) for corner in face] + [whole(3)]


def prism(r, n):
    """A prism over a star-shaped outline of n points, mostly concave."""
    turn = [math.tau * (i + r.random() * 0.8) / n for i in range(n)]
    far = [r.uniform(0.2, 2) for _ in range(n)]
    outline = [(d * math.cos(a), d * math.sin(a)) for a, d in zip(turn, far)]
    vertices = [(x, y, 0) for x, y in outline] + [(x, y, 1.5) for x, y in outline]
    faces = [list(range(n))[::-1], list(range(n, 2 * n))]
    return vertices, faces + [[i, (i + 1) % n, n + (i + 1) % n, n + i] for i in range(n)]


def shape(r):
    """Vertices and faces of a cell that is not refused, of many kinds."""
    pick = r.randrange(9)
    if pick < 2:
        vertices, faces = list(CUBE), [list(f) for f in HEX8_FACES]
    elif pick < 4:
        vertices, faces = prism(r, r.randrange(3, 9))
    elif pick == 4:
        vertices, faces = [(0, 0, 0), (1, 0, 0), (0, 1, 0), (0, 0, 1)], [[0, 2, 1], [0, 1, 3], [1, 2, 3], [2, 0, 3]]
    elif pick == 5:
        vertices, faces = list(SEVEN), [list(range(7)), [0, 1], [], [3]]
    elif pick == 6:
        vertices = [tuple(r.uniform(-1, 1) for _ in range(3)) for _ in range(r.randrange(1, 9))]
        faces = [[r.randrange(len(vertices)) for _ in range(r.randrange(0, 9))] for _ in range(r.randrange(0, 6))]
    elif pick == 7:
        vertices, faces = [(1, 2, 3)], []
    else:
        vertices = [tuple(r.choice([0.0, -0.0, 1.0, 5e-324, 2.0 ** 40, -(2.0 ** 40), 1e-200]) for _ in range(3)) for _ in range(6)]
        faces = [[r.randrange(6) for _ in range(r.randrange(2, 6))] for _ in range(4)]
    return vertices, faces


def changed(r, vertices, faces):
    """The same cell moved, rounded, with a face turned, left out or doubled."""
    if r.random() < 0.3:
        by = [r.choice([0, 0.5, -3, 1e6, 4_000_000, 2.5e9]) for _ in range(3)]
        vertices = [tuple(x + d for x, d in zip(v, by)) for v in vertices]
        if any(abs(x) > 2.0 ** 40 for v in vertices for x in v):
            vertices = [tuple(max(-(2.0 ** 40), min(2.0 ** 40, x)) for x in v) for v in vertices]
    if faces and r.random() < 0.4:
        k = r.randrange(len(faces))
        if r.random() < 0.5:
            faces[k] = faces[k][::-1]
        elif r.random() < 0.5:
            del faces[k]
        else:
            faces.append(faces[k][1:] + faces[k][:1])
    return vertices, faces


def good(r):
    """The records of a cell without its end; vertices, faces and queries in one of several orders."""
    vertices, faces = changed(r, *shape(r))
    queries = []
    for _ in range(r.choice([0, 1, 1, 2, 5])):
        near = r.choice(vertices)
        queries.append(r.choice([near, (0.5, 0.5, 0.5), tuple(x + r.uniform(-1, 1) for x in near)]))
    queries = [tuple(max(-(2.0 ** 40), min(2.0 ** 40, x)) for x in q) for q in queries]
    parts = [[point(1, v) for v in vertices], [x for f in faces for x in face_records(f)], [point(5, q) for q in queries]]
    if r.random() < 0.3:
        r.shuffle(parts)
    records = parts[0] + parts[1] + parts[2]
    if r.random() < 0.1:
        mixed = []
        while any(parts):
            mixed.append(r.choice([p for p in parts if p]).pop(0))
        records = mixed
    return records


def many(r):
    """One more than there is room for, or just as many as there is."""
    over = r.randrange(2)
    pick = r.randrange(4)
    if pick == 0:
        return [point(1, (i, 0, 0)) for i in range(256 + over)]
    if pick == 1:
        return [point(1, CUBE[0])] + [whole(3)] * (256 + over)
    if pick == 2:
        return [point(1, CUBE[0])] + [point(5, (0.5, 0.5, i)) for i in range(256 + over)]
    return [point(1, v) for v in CUBE[:4]] + ([whole(2, i % 4) for i in range(8)] + [whole(3)]) * 256 + [whole(2, 0)] * over


BAD_NUMBERS = [math.nan, math.inf, -math.inf, math.nextafter(2.0 ** 40, math.inf), -math.nextafter(2.0 ** 40, math.inf), 1e300]
BAD_RECORDS = [
    bytes([0]) + bytes(31),
    bytes([6]) + bytes(31),
    bytes([255]) + bytes(31),
    whole(2, 2 ** 32),
    whole(2, 2 ** 64 - 1),
    struct.pack("<B7x3Q", 2, 0, 1, 0),
    struct.pack("<B7x3Q", 2, 0, 0, 2 ** 63),
    struct.pack("<B7x3Q", 3, 1, 0, 0),
    struct.pack("<B7x3d", 3, 0.0, -0.0, 0.0),
    struct.pack("<B7x3Q", 3, 0, 0, 1),
]


def spoiled(record, r):
    """The record with a spare byte that is not zero."""
    at = r.randrange(1, 8)
    return record[:at] + bytes([r.randrange(1, 256)]) + record[at + 1:]


def damaged(r):
    """The records of a cell, the end too, with something wrong in it, sometimes with two things."""
    records = good(r)
    end = whole(4)
    for _ in range(r.choice([1, 1, 1, 2])):
        at = r.randrange(len(records) + 1)
        pick = r.randrange(12)
        if pick < 4:
            records.insert(at, r.choice(BAD_RECORDS))
        elif pick == 4:
            records.insert(at, spoiled(r.choice(records or [whole(3)]), r))
        elif pick == 5:
            records += [whole(2, 0)]
        elif pick == 6:
            end = r.choice([spoiled(whole(4), r), whole(4, 1), struct.pack("<B7x3d", 4, 0.0, 0.0, -0.0)])
        elif pick == 7:
            records.insert(at, point(r.choice([1, 5]), [r.choice([0.0, 1.0, x]) for x in r.choices(BAD_NUMBERS, k=3)]))
        elif pick == 8:
            records += face_records([r.choice([len(records), 255, 256, 2 ** 32 - 1])])
        elif pick == 9:
            records = [x for x in records if x[0] != 1]
        elif pick == 10:
            records = many(r)
        else:
            records = many(r)
            records.insert(r.randrange(len(records) + 1), spoiled(records[-1], r))
    return records + [end]


def cell(r, bad):
    """The bytes of one cell with its end."""
    return b"".join(damaged(r) if r.random() < bad else good(r) + [whole(4)])


def small(r):
    """One small stream of 0 to 4 cells, which may end anywhere."""
    data = b"".join(cell(r, 0.5) for _ in range(r.randrange(0, 5)))
    cut = r.randrange(4)
    if cut == 0:
        data += b"".join(good(r))[:r.randrange(0, 200)]
    elif cut == 1:
        data = data[:r.randrange(0, len(data) + 1)]
    return data
