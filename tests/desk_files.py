"""Random plans as files of every format that the desk reads: right, wrong in every way that a cell can be, and damaged.

`plan(r)` makes a file: its ending, its bytes, and the cells that it was made from (name, vertices, faces), None where it was damaged.
"""
import math
import struct
from collections import namedtuple

Plan = namedtuple("Plan", "ending data cells")
LIMIT = 2.0 ** 40
BOX = [[0, 3, 2, 1], [4, 5, 6, 7], [0, 1, 5, 4], [2, 3, 7, 6], [1, 2, 6, 5], [3, 0, 4, 7]]
CUBE = [(0, 0, 0), (1, 0, 0), (1, 1, 0), (0, 1, 0), (0, 0, 1), (1, 0, 1), (1, 1, 1), (0, 1, 1)]


def chance(r, part):
    return r.random() < part


# ---- shapes: vertices and faces of a closed body about the origin

def prism_over(outline, height):
    n = len(outline)
    vertices = [(x, y, 0) for x, y in outline] + [(x, y, height) for x, y in outline]
    return vertices, [list(range(n))[::-1], list(range(n, 2 * n))] + [[i, (i + 1) % n, n + (i + 1) % n, n + i] for i in range(n)]


def box(r):
    wide = [r.choice([1, 2, 5, r.uniform(0.1, 9)]) for _ in range(3)]
    return [tuple(w * x for w, x in zip(wide, v)) for v in CUBE], [list(f) for f in BOX]


def tetrahedron(r):
    wide = r.choice([1, 3, r.uniform(0.1, 9)])
    return [(0, 0, 0), (wide, 0, 0), (0, wide, 0), (0, 0, wide)], [[0, 2, 1], [0, 1, 3], [1, 2, 3], [2, 0, 3]]


def ell(r):
    a, b = r.choice([(1, 3), (2, 5), (0.25, 4)])
    return prism_over([(0, 0), (b, 0), (b, a), (a, a), (a, b), (0, b)], r.choice([1, 2, 7]))


def prism(r):
    """Over a star-shaped outline, often concave."""
    n = r.randrange(3, 9)
    turns = [math.tau * (k + r.random() * 0.8) / n for k in range(n)]
    return prism_over([(d * math.cos(t), d * math.sin(t)) for t in turns for d in [r.uniform(0.5, 5)]], r.uniform(0.5, 5))


def ring(r, twisted=False):
    """A ring of quadrangles that goes round both ways; twisted, it is a bottle of Klein, which no turning closes."""
    m, n = r.randrange(3, 6), r.randrange(3, 6)
    vertices = [tuple(r.randrange(-9, 10) for _ in range(3)) for _ in range(m * n)]

    def at(i, j):
        return i % m * n + (-j if twisted and i >= m else j) % n
    return vertices, [[at(i, j), at(i + 1, j), at(i + 1, j + 1), at(i, j + 1)] for i in range(m) for j in range(n)]


def bottle(r):
    return ring(r, True)


def pillow(r):
    """Two faces with the same corners: both parts of its one group have the same size."""
    n = r.choice([3, 4, 5, 12, 128, 255, 256])
    outline = [(9 * math.cos(math.tau * k / n), 9 * math.sin(math.tau * k / n), 0) for k in range(n)]
    return outline, [list(range(n)), list(range(n))[::-1]]


def hinge(r):
    """Two blocks in one cell that share a side: closed, and the side is found four times."""
    vertices = CUBE + [(x + 1, y + 1, z) for x, y, z in CUBE if (x, y) != (0, 0)]
    at = {v: k for k, v in enumerate(vertices)}
    return vertices, [list(f) for f in BOX] + [[at[CUBE[c][0] + 1, CUBE[c][1] + 1, CUBE[c][2]] for c in f] for f in BOX]


SHAPES = [box, box, box, tetrahedron, ell, prism, prism, ring, bottle, pillow, hinge]


def triangles(faces):
    return [[f[0], b, c] for f in faces for b, c in zip(f[1:], f[2:])]


# ---- where a body lies, and what is wrong with it

def cm(x):
    return float(f"{x:.2f}")


def placed(r, vertices):
    """In whole numbers, near the origin, on a grid with two decimals, far away, thin and far, or turned about z. Coordinates that were
    equal stay equal, but for the turned, so faces along the axes stay flat."""
    pick = r.randrange(8)
    if pick < 3:
        by = [r.randrange(-20, 20) for _ in range(3)]
        return [tuple(float(round(x) + d) for x, d in zip(v, by)) if pick == 0 else tuple(float(x + d) for x, d in zip(v, by))
                for v in vertices]
    if pick < 5:
        by = [r.uniform(6e5, 6.1e5), r.uniform(5.6e6, 5.7e6), r.uniform(-900, -100)]
        return [tuple(cm(x + d) for x, d in zip(v, by)) for v in vertices]
    if pick == 5:
        by = [r.choice([-1, 1]) * r.choice([1e6, 1e7, 1e9, LIMIT - 4096]) * r.random() for _ in range(3)]
        return [tuple(x + d for x, d in zip(v, by)) for v in vertices]
    if pick == 6:
        return [tuple(x * 0.001 + d for x, d in zip(v, (8588590.0, 8529546.0, 2969498.0))) for v in vertices]
    turn = r.uniform(0, math.tau)
    c, s = math.cos(turn), math.sin(turn)
    return [(c * x - s * y, s * x + c * y, z) for x, y, z in vertices]


def backward(r, faces):
    """None, one, several, more than half or all of the faces traced backward."""
    many = r.choice([0, 0, 1, 1, 2, len(faces) // 2, len(faces) // 2 + 1, len(faces) - 1, len(faces)])
    turned = set(r.sample(range(len(faces)), max(0, min(many, len(faces)))))
    return [f[::-1] if k in turned else f for k, f in enumerate(faces)]


def lost(r, vertices, faces):
    del faces[r.randrange(len(faces))]


def doubled(r, vertices, faces):
    f = r.choice(faces)
    faces.insert(r.randrange(len(faces) + 1), f[1:] + f[:1])


def twice_recorded(r, vertices, faces):
    """A vertex is recorded twice, and one face names the second."""
    k = r.choice([k for k, f in enumerate(faces) if f] or [None])
    if k is not None:
        c = r.randrange(len(faces[k]))
        vertices.append(vertices[faces[k][c]])
        faces[k] = faces[k][:c] + [len(vertices) - 1] + faces[k][c + 1:]


def repeated(r, vertices, faces):
    """A face that holds a vertex twice: its first corner again at its end, or two corners of one number."""
    k = r.randrange(len(faces))
    faces[k] = faces[k] + faces[k][:1] if chance(r, 0.5) else faces[k][:1] + faces[k]


def small(r, vertices, faces):
    """Faces of 0, 1 or 2 corners."""
    for _ in range(r.randrange(1, 4)):
        faces.insert(r.randrange(len(faces) + 1), [r.randrange(len(vertices)) for _ in range(r.randrange(3))])


def unused(r, vertices, faces):
    """Vertices that no face names, among the others."""
    for _ in range(r.randrange(1, 4)):
        at = r.randrange(len(vertices) + 1)
        vertices.insert(at, tuple(x + r.uniform(-2, 2) for x in vertices[0]))
        faces[:] = [[c + (c >= at) for c in f] for f in faces]


def wild(r, vertices, faces):
    """A coordinate that is no number, infinite, too large, or just not too large."""
    k, axis = r.randrange(len(vertices)), r.randrange(3)
    bad = r.choice([math.nan, math.inf, -math.inf, 1e13, math.nextafter(LIMIT, math.inf), LIMIT, -LIMIT])
    vertices[k] = (*vertices[k][:axis], bad, *vertices[k][axis + 1:])


def full(r, vertices, faces):
    """As many vertices, faces or corners as a cell may have, or one more."""
    over, pick = r.randrange(2), r.randrange(3)
    if pick == 0:
        vertices += [vertices[0]] * (256 + over - len(vertices))
    elif pick == 1:
        faces += [faces[0]] * (256 + over - len(faces))
    else:
        used = sum(map(len, faces))
        faces += [[0] * 100] * ((2048 - used) // 100) + [[0] * ((2048 - used) % 100 + over)]


WRONGS = [lost, lost, doubled, twice_recorded, repeated, small, unused, unused, wild, full]


def body(r):
    vertices, faces = r.choice(SHAPES)(r)
    return placed(r, vertices), triangles(faces) if chance(r, 0.2) else faces


def joined(bodies):
    vertices, faces = [], []
    for vs, fs in bodies:
        faces += [[c + len(vertices) for c in f] for f in fs]
        vertices += vs
    return vertices, faces


def apart(r, many):
    """Bodies of one cell: several groups of faces, each with its own backward faces, and sometimes mixed up."""
    vertices, faces = joined([(vs, backward(r, fs)) for vs, fs in (body(r) for _ in range(many))])
    if chance(r, 0.3):
        r.shuffle(faces)
    return vertices, faces


def cell(r, wrong=0.5):
    """Vertices and faces of a cell; with this chance something more than a backward face is wrong."""
    vertices, faces = apart(r, r.choice([1, 1, 1, 1, 2, 3]))
    if chance(r, 0.03):
        vertices, faces = [tuple(map(float, v)) for v in vertices[:r.randrange(3)]], []
    while faces and chance(r, wrong):
        r.choice(WRONGS)(r, vertices, faces)
        wrong /= 2
    return [tuple(map(float, v)) for v in vertices], [list(f) for f in faces]


# ---- numbers and words

def decimal(r, x):
    """A text that reads back as x, in one of the ways in which numbers are written."""
    if x != x:
        return r.choice(["nan", "NaN"])
    if math.isinf(x):
        return ("-" if x < 0 else r.choice(["", "+"])) + r.choice(["inf", "Infinity"])
    pick = r.randrange(8)
    if pick == 0:
        return f"{x:.17g}"
    if pick == 1:
        return f"{x:.16e}"
    if pick == 2:
        return f"{x:.16E}"
    if pick == 3:
        return f"{x:.40g}"
    if pick == 4 and x == int(x) and math.copysign(1, x) * x > 0:
        return f"{int(x)}" + r.choice(["", ".", ".000"])
    return repr(x)


NAMES = ["block-a", "block b", "Förderstrecke 2", 'a "quoted" name', r"back\slash", "<&>", "0", "stope  two spaces", "鉱体", "default"]
REMARKS = [b"# traced from sheet 12", b"#", b"# Stra\xdfe, in Latin-1", b"#v 1 2 3", "# Höhe über Null".encode()]


def broken(r, words, between=" "):
    """The words of a line, which may go on in the next."""
    said = words[0]
    for w in words[1:]:
        said += (r.choice([" \\\n", "\\\n", " \\\n\t"]) if chance(r, 0.1) else between) + w
    return said


# ---- OBJ

def shared(r, cells):
    """The vertices of a file, and for each cell the number of each of its vertices. A cell may name vertices of one before it, where
    they lie at the same place and faces of both name them."""
    places, numbers, open_to_all = [], [], {}
    for _, vertices, faces in cells:
        used, own, taken = {c for f in faces for c in f}, [], set()
        for k, v in enumerate(vertices):
            old = [n for n in open_to_all.get(v, []) if n not in taken] if k in used and chance(r, 0.8) else []
            own.append(old[0] if old else len(places))
            places += [] if old else [v]
            taken.add(own[-1])
        for k in used:
            open_to_all.setdefault(vertices[k], []).append(own[k])
        numbers.append(own)
    return places, numbers


def sections(r, cells, numbers):
    """What stands where: the number of a cell, and its vertices and faces as ('v', number of the vertex) and ('f', corners)."""
    found, later, seen, layout = [], [], set(), r.randrange(4)
    for k, (_, _, faces) in enumerate(cells):
        own = [n for n in numbers[k] if n not in seen]
        seen.update(own)
        used = {numbers[k][c] for f in faces for c in f}
        vs, fs = [("v", n) for n in own], [("f", [numbers[k][c] for c in f]) for f in faces]
        if layout == 1:
            found.append((k, fs + vs))
        elif layout == 2 and cells[0][0] is not None and len(cells) > 1:
            found.insert(0, (None, [v for v in vs if v[1] in used]))
            found.append((k, [v for v in vs if v[1] not in used] + fs))
        elif layout == 3 and fs and cells[k][0] is not None:
            cut = r.randrange(len(fs) + 1)
            found.append((k, vs + fs[:cut]))
            later.append((k, fs[cut:]))
        else:
            found.append((k, vs + fs))
    r.shuffle(later)
    return found + later


def obj_corners(r, corners, number, written):
    """The corners of a face: from 1 or counted back, and with the numbers of textures and normals."""
    back = chance(r, 0.3)
    tail = r.choice(["", "", "/1", "//2", "/1/2"])
    return [f"{number[c] - written - 1 if back and number[c] <= written else number[c]}{tail}" for c in corners]


STRAY = ["vn 0 0 1", "vt 0.5 0.5", "s off", "s 1", "usemtl rock", "mtllib plan.mtl", "l 1 2", "p 1", "", "   ", "curv 0 1 1 2", "vp 1 2"]


def obj_lines(r, statements, places, kind, names):
    number, written = {}, 0
    for what, n in statements:
        if what == "v":
            number[n] = len(number) + 1
    between = r.choice([" ", " ", "  ", "\t"])
    for what, n in statements:
        if chance(r, 0.1):
            stray = r.choice(STRAY + [f"g part {r.randrange(9)}"] * (kind == "o"))
            yield stray.encode() if chance(r, 0.5) else r.choice(REMARKS)
        if what == "v":
            written += 1
            after = r.choice([[], [], [], ["1.0"], ["0.2", "0.4", "0.6"]])
            yield broken(r, ["v", *(decimal(r, x) for x in places[n]), *after], between).encode()
        elif what == "f":
            yield (" " * chance(r, 0.05) + broken(r, ["f", *obj_corners(r, n, number, written)], between)).encode()
        else:
            yield (kind if kind == "g" and names[n] == "default" and chance(r, 0.5) else f"{kind} {names[n]}").encode()


def obj(r):
    """One cell or several, by objects or by groups; the first may stand before any name."""
    many = r.choice([1, 1, 1, 2, 3, 4])
    kind = r.choice("og") if many > 1 or chance(r, 0.5) else ""
    cells = [(None, *cell(r)) for _ in range(many)]
    if many > 1 and chance(r, 0.4):
        cells[1] = (None, *neighbour(r, cells[0]))
    names = r.sample(NAMES, many)
    if many > 1 and chance(r, 0.3):
        names[0] = None
    if kind:
        cells = [(name, vs, fs) for name, (_, vs, fs) in zip(names, cells)]
    places, numbers = shared(r, cells)
    statements, now = [], None
    for k, items in sections(r, cells, numbers):
        named = k is not None and cells[k][0] is not None
        statements += [("name", k)] * (named and (k != now or chance(r, 0.2))) + items
        now = k
    text = list(obj_lines(r, statements, places, kind, [c[0] for c in cells]))
    feed = r.choice([b"\n", b"\n", b"\r\n", b"\r"])
    data = feed.join(line.replace(b"\n", feed) for line in text) + feed * chance(r, 0.9)
    kept = [c for c in cells if c[1] or c[2]]
    order = {n: i for i, (what, n) in reversed(list(enumerate(statements))) if what == "name"}
    return Plan(".obj", data, sorted(kept, key=lambda c: order.get(cells.index(c), -1)) or None)


def neighbour(r, of):
    """A cell that has some faces of another, reversed, and a corner of its own over each: so they share vertices."""
    _, vertices, faces = of
    vs, fs = list(vertices), []
    for f in [f for f in faces if len(f) > 2][:r.randrange(1, 3)]:
        top = len(vs)
        vs.append(tuple(x + r.uniform(1, 2) for x in vs[f[0]]))
        fs += [f[::-1]] + [[a, b, top] for a, b in zip(f, f[1:] + f[:1])]
    used = sorted({c for f in fs for c in f})
    at = {c: k for k, c in enumerate(used)}
    return [vs[c] for c in used], backward(r, [[at[c] for c in f] for f in fs])


# ---- OFF

def off(r):
    vertices, faces = cell(r)
    word = r.choice(["OFF", "OFF", "COFF", "NOFF", "CNOFF"])
    more = {"OFF": [], "COFF": ["255", "0", "0", "255"], "NOFF": ["0", "0", "1"], "CNOFF": ["0", "0", "1", "255", "0", "0", "255"]}[word]
    counts = f"{len(vertices)} {len(faces)} {r.choice([0, 12, len(faces) + len(vertices) - 2])}"
    lines = [f"{word} {counts}"] if chance(r, 0.3) else [word, counts]
    lines += [" ".join([*(decimal(r, x) for x in v), *more]) for v in vertices]
    lines += [" ".join(map(str, [len(f), *f, *r.choice([[], [], [255, 0, 0], [0.5, 0.25, 1.0, 1.0]])])) for f in faces]
    said = []
    for line in lines:
        said += [r.choice(["# a remark", "", "   "])] * chance(r, 0.05)
        said.append(line + r.choice([" # so", "", "", "", "", "", " "]))
    said += ["# the end"] * chance(r, 0.2)
    feed = r.choice(["\n", "\n", "\r\n", "\r"])
    return Plan(".off", (feed.join(said) + feed * chance(r, 0.9)).encode(), [(None, vertices, faces)])


# ---- PLY

WHOLES = {"b": (-2 ** 7, 2 ** 7 - 1), "B": (0, 2 ** 8 - 1), "h": (-2 ** 15, 2 ** 15 - 1), "H": (0, 2 ** 16 - 1),
          "i": (-2 ** 31, 2 ** 31 - 1), "I": (0, 2 ** 32 - 1)}
TYPES = {"b": ["char", "int8"], "B": ["uchar", "uint8"], "h": ["short", "int16"], "H": ["ushort", "uint16"], "i": ["int", "int32"],
         "I": ["uint", "uint32"], "f": ["float", "float32"], "d": ["double", "float64"]}


def narrow(x):
    """x as the f32 that is nearest, which may be infinite."""
    try:
        return struct.unpack("<f", struct.pack("<f", x))[0]
    except OverflowError:
        return math.copysign(math.inf, x)


def is_narrow(x):
    return x != x or narrow(x) == x


def holding(xs, text):
    """The letters of the scalar types that hold all these numbers; in a text each of the wide ones does, whatever it says."""
    wholes = all(math.isfinite(x) and x == int(x) and (x or math.copysign(1, x) > 0) for x in xs)
    found = [t for t, (low, high) in WHOLES.items() if wholes and all(low <= x <= high for x in xs)]
    return found + ["f"] * (text or all(map(is_narrow, xs))) + ["d"]


class Column:
    """A property of an element: its name, the letters of its type, and for each item the list of its values."""

    def __init__(self, name, letter, values, counted=None):
        self.name, self.letter, self.values, self.counted = name, letter, values, counted

    def header(self, r):
        kinds = [r.choice(TYPES[t]) for t in ([self.counted] if self.counted else []) + [self.letter]]
        return " ".join(["property", *["list"] * bool(self.counted), *kinds, self.name])

    def words(self, r, k):
        said = [decimal(r, x) if self.letter in "fd" else str(int(x)) for x in self.values[k]]
        return [str(len(said))] * bool(self.counted) + said

    def packed(self, order, k):
        values = [x if self.letter in "fd" else int(x) for x in self.values[k]]
        many = struct.pack(order + self.counted, len(values)) if self.counted else b""
        return many + struct.pack(f"{order}{len(values)}{self.letter}", *values)


def spare(r, name, many):
    """A property that nobody reads, a list or not."""
    letter = r.choice("bBhHiIfd")
    lengths = [r.randrange(4) if chance(r, 0.3) else 1 for _ in range(many)]
    counted = r.choice("bBhHiI") if any(n != 1 for n in lengths) else None
    return Column(name, letter, [[float(r.randrange(0, 100)) for _ in range(n)] for n in lengths], counted)


def ply_vertices(r, vertices, text):
    columns = []
    for axis, name in enumerate("xyz"):
        values = [v[axis] for v in vertices]
        columns.append(Column(name, r.choice(holding(values, text)), [[x] for x in values]))
    if chance(r, 0.2):
        r.shuffle(columns)
    for name in r.sample(["nx", "red", "quality", "near"], r.randrange(3)):
        columns.insert(r.randrange(len(columns) + 1), spare(r, name, len(vertices)))
    return "vertex", len(vertices), columns


def ply_faces(r, faces):
    top, most = max([c for f in faces for c in f], default=0), max(map(len, faces), default=0)
    counted = r.choice([t for t, (_, high) in WHOLES.items() if most <= high])
    letter = r.choice([t for t, (_, high) in WHOLES.items() if top <= high])
    columns = [Column(r.choice(["vertex_indices", "vertex_index"]), letter, faces, counted)]
    for name in r.sample(["flags", "texcoord", "alpha"], r.randrange(3)):
        columns.insert(r.randrange(len(columns) + 1), spare(r, name, len(faces)))
    return "face", len(faces), columns


def ply(r):
    vertices, faces = cell(r)
    order = r.choice(["", "<", ">"])
    if chance(r, 0.4):
        vertices = [tuple(map(narrow, v)) for v in vertices]
    elements = [ply_vertices(r, vertices, not order), ply_faces(r, faces)]
    if chance(r, 0.2):
        elements.reverse()
    for name in r.sample(["edge", "material"], r.randrange(3)):
        many = r.randrange(4)
        elements.insert(r.randrange(len(elements) + 1), (name, many, [spare(r, "a", many), spare(r, "b", many)]))
    kinds = {"": "ascii", "<": "binary_little_endian", ">": "binary_big_endian"}
    head = ["ply", f"format {kinds[order]} 1.0"] + ["comment made by chance"] * chance(r, 0.3) + ["obj_info none"] * chance(r, 0.1)
    for name, many, columns in elements:
        head += [f"element {name} {many}", *(c.header(r) for c in columns)]
    head.append("end_header")
    items = [(columns, k) for _, many, columns in elements for k in range(many)]
    if order:
        feed = r.choice(["\n", "\n", "\r\n", "\r"])
        data = (feed.join(head) + feed).encode() + b"".join(c.packed(order, k) for columns, k in items for c in columns)
    else:
        feed = r.choice(["\n", "\n", "\r\n", "\r"])
        text = head + [" ".join(w for c in columns for w in c.words(r, k)) for columns, k in items]
        data = (feed.join(text) + feed * r.choice([1, 1, 1, 2, 3])).encode()
    return Plan(".ply", data, [(None, vertices, faces)])


# ---- STL

def signed(r, x):
    """A zero with either sign: the two are one number, and so one vertex."""
    return r.choice([x, -x]) if x == 0 else x


def stl_cell(r):
    """A cell of triangles. Vertices that no face names are not written."""
    vertices, faces = cell(r)
    return vertices, triangles(faces)


def stl_text(r, cells):
    indent, feed = r.choice(["", "  ", "\t"]), r.choice(["\n", "\n", "\r\n", "\r"])
    lines = []
    for name, vertices, faces in cells:
        lines.append(f"solid {name}" if name else "solid")
        for f in faces:
            normal = r.choice(["0 0 1", "-0.5 0.5 0", "0 0 0", "nan nan nan", "1e-3 -2E+1 +3", "-nan(ind) 1.#QNAN 1"])
            lines += [f"{indent}facet normal {normal}", f"{indent * 2}outer loop"]
            lines += [indent * 3 + "vertex " + " ".join(decimal(r, signed(r, x)) for x in vertices[c]) for c in f]
            lines += [f"{indent * 2}endloop", f"{indent}endfacet"] + [""] * chance(r, 0.02)
        lines.append(f"endsolid {name}" if name and chance(r, 0.8) else "endsolid")
    return (feed.join(lines) + feed * chance(r, 0.9)).encode()


def stl_binary(r, vertices, faces):
    head = r.choice([b"solid and yet binary", b"", bytes(r.randrange(256) for _ in range(80))]).ljust(80, b" ")
    data = head + struct.pack("<I", len(faces))
    for f in faces:
        normal = r.choice([(0, 0, 1), (-0.5, 0.5, 0), (math.nan,) * 3, (0, 0, 0)])
        data += struct.pack("<12fH", *normal, *(signed(r, x) for c in f for x in vertices[c]), r.randrange(65536))
    return data


def stl(r):
    if chance(r, 0.5):
        vertices, faces = stl_cell(r)
        vertices = [tuple(map(narrow, v)) for v in vertices]
        return Plan(".stl", stl_binary(r, vertices, faces), [(None, vertices, faces)])
    many = r.choice([1, 1, 1, 2, 3])
    names = [r.choice([None, *NAMES])] * many if chance(r, 0.1) else r.sample([None, *NAMES], many)
    cells = [(name, *stl_cell(r)) for name in names]
    read = [(name or (f"solid {k}" if many > 1 else None), vs, fs) for k, (name, vs, fs) in enumerate(cells, 1)]
    return Plan(".stl", stl_text(r, cells), read)


# ---- .cell

def point(kind, p):
    return struct.pack("<B7x3d", kind, *p)


def whole(kind, n=0):
    return struct.pack("<B7x3Q", kind, n, 0, 0)


def records(r, vertices, faces):
    """The records of a cell: in the usual order, or with vertices and query points among the corners."""
    queries = [point(5, (0.5, r.random(), r.choice([1.0, math.nan, 1e300]))) for _ in range(r.choice([0, 0, 1, 3, 300]))]
    parts = [[point(1, v) for v in vertices], [w for f in faces for w in [*(whole(2, c) for c in f), whole(3)]], queries]
    if chance(r, 0.3):
        r.shuffle(parts)
    if chance(r, 0.2):
        order = [k for k, part in enumerate(parts) for _ in part]
        r.shuffle(order)
        parts = [[parts[k].pop(0) for k in order]]
    return b"".join(w for part in parts for w in part) + whole(4)


def cells(r):
    many = r.choice([1, 1, 2, 3])
    made = [(f"cell {k}" if many > 1 else None, *cell(r)) for k in range(1, many + 1)]
    return Plan(".cell", b"".join(records(r, vs, fs) for _, vs, fs in made), made)


# ---- damage: what is done to the bytes of a good file; whether it can still be read is for the second program to say

def line_in(r, data, line, first=0):
    """The bytes with one line more, at the end or behind the first lines."""
    rows = data.split(b"\n")
    at = len(rows) if chance(r, 0.5) else first
    return b"\n".join(rows[:at] + [line] + rows[at:])


def bad_obj(r, data):
    many = data.count(b"\nv") + data.startswith(b"v") + 1000
    bad = r.choice(["v 1 2", "v", "v 1 x 3", "v 1,5 2 3", "f 1 2 0", f"f 1 2 {many}", f"f 1 2 -{many}", "f a b c", "f 1.5 2 3", "f 1 2 /3"])
    return line_in(r, data if data.endswith(b"\n") else data + b"\n", bad.encode())


PLAIN_OFF = b"OFF\n4 4 6\n0 0 0\n1 0 0\n0 1 0\n0 0 1\n3 0 2 1\n3 0 1 3\n3 1 2 3\n3 2 0 3\n"
OFF_EDITS = [(b"OFF", b"OOF"), (b"OFF", b"STOFF"), (b"4 4 6", b"5 4 6"), (b"4 4 6", b"4 5 6"), (b"4 4 6", b"4 3 6"), (b"4 4 6", b"3 4 6"),
             (b"4 4 6", b"-4 4 6"), (b"4 4 6", b"4000000000 4 6"), (b"4 4 6", b"four 4 6"), (b"1 0 0", b"1 0"), (b"1 0 0", b"1 zero 0"),
             (b"3 0 2 1", b"4 0 2 1"), (b"3 0 2 1", b"3 0 2 4"), (b"3 0 2 1", b"3 0 2 -1"), (b"3 0 2 1", b"3 0 2 1.5"),
             (b"3 2 0 3\n", b"3 2 0 3\n3 2 0 3\n"), (b"3 2 0 3\n", b""), (b"3 0 2 1", b"-3 0 2 1")]


def bad_off(r, data):
    return PLAIN_OFF.replace(*r.choice(OFF_EDITS), 1)


PLY_EDITS = [(b"ply", b"plx"), (b"format ", b"former "), (b"ascii", b"askey"), (b"binary_", b"bin_"), (b" x\n", b" u\n"),
             (b"element vertex ", b"element vertex 1"), (b"element vertex ", b"element corner "), (b"element vertex ", b"element vertex x"),
             (b"element face ", b"element face 1"), (b"element face ", b"element face -"), (b"property list ", b"property lost "),
             (b"end_header", b"end_head")]


def bad_ply(r, data):
    """An edit of the header, or bytes too few or too many behind it."""
    pick = r.randrange(3)
    if pick == 0:
        return data[:-r.randrange(1, 40)] if b"ascii" not in data else data[:data.rstrip().rfind(b"\n") + 1]
    if pick == 1:
        return data + b"17 \x03 4"
    return data.replace(*r.choice(PLY_EDITS), 1)


STL_EDITS = [(b"vertex", b"vertx"), (b"vertex ", b"vertex x"), (b"vertex ", b"vertex 1 2\nvertex "), (b"outer loop", b""),
             (b"endloop", b""), (b"endfacet", b""), (b"solid", b"sold"), (b"facet", b"faucet")]


def bad_stl(r, data):
    """A text with an edit; a binary file with a byte too many, or cut within a facet."""
    if b"endsolid" in data:
        return data.replace(*r.choice(STL_EDITS), 1)
    return data[:-r.randrange(1, 50)] if chance(r, 0.5) else data + b"\0"


def bad_cell(r, data):
    """A bad record at the front, a record without an end at the back, a corner that is not there, or bytes too few."""
    bad = r.choice([whole(0), whole(6), whole(3, 1), whole(4, 7), whole(2, 2 ** 32), point(3, (0.0, -0.0, 0.0)), b"\1\1" + bytes(30)])
    corner = whole(2, r.choice([5000, 2 ** 32 - 1])) + whole(3)
    behind = r.choice([bad, whole(3), point(1, (0, 0, 0)), b"\4"])
    return r.choice([bad + data, corner + data, whole(2) + whole(4) + data, data + behind, data + behind, data[:-1], data[:-32]])


MAKERS = {".obj": obj, ".off": off, ".ply": ply, ".stl": stl, ".cell": cells}
DAMAGE = {".obj": bad_obj, ".off": bad_off, ".ply": bad_ply, ".stl": bad_stl, ".cell": bad_cell}


def plan(r, bad=0.15):
    """A file; with this chance it is damaged."""
    made = MAKERS[r.choice([".obj", ".obj", *MAKERS])](r)
    if chance(r, bad):
        data = b"" if chance(r, 0.05) else DAMAGE[made.ending](r, made.data)
        made = Plan(made.ending, data, None if data != made.data else made.cells)
    return made._replace(ending=made.ending.upper()) if chance(r, 0.05) else made
