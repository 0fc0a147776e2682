#!/usr/bin/env python3
"""A second reader of plans, written from docs/DESK.md alone: what `wegrusamt survey --json --bits` must say of each cell of a file, but
for what hangs on how the library cuts a face.

    tests/desk_second.py FILE..     an object on a line for each cell; status 2 where a file is unreadable

The volume is an exact one, brought to an f64, where the cell is closed and each face is a triangle or flat; it is null elsewhere, and it
is the answer only where no face is cut short. Closedness and turning are those of tests/vectors/sides.py, refusals those of
tests/vectors/table.py, and the local origin is that of tests/vectors/local.py.
"""
import json
import os
import re
import struct
import sys
from collections import Counter, namedtuple
from fractions import Fraction
from itertools import accumulate

sys.dont_write_bytecode = True
sys.path.insert(0, os.path.join(os.path.dirname(os.path.abspath(__file__)), "vectors"))
import local
import sides
import table

# A face as the file has it: its number, its line (None in a binary file), its corners as places in the cell's list of vertices, the bytes
# of the file in which each corner stands, and those of its normal, which only an STL facet has.
Face = namedtuple("Face", "number line corners spans normal", defaults=[None])
# The numbers that its vertices have in the file, where they lie, the faces, and the query points of a .cell file.
Cell = namedtuple("Cell", "name numbers places faces queries", defaults=[()])


class Unreadable(Exception):
    """A file that lies, or that holds no cell."""


# ---- words and numbers

WORD = re.compile(rb"[^ \t\r\n\v\f]+")
NUMBER = re.compile(rb"[+-]?((\d+\.?\d*|\.\d+)(e[+-]?\d+)?|nan|inf|infinity)", re.I)
WHOLE = re.compile(rb"[+-]?\d+")
Word = namedtuple("Word", "text start end")


LINE_END = re.compile(rb"\r\n|\n|\r")


def lines(data, at=0, number=1):
    """The number, the beginning and the end of each line, without what ends it: a line feed, a carriage return, or both."""
    while at < len(data):
        end = LINE_END.search(data, at)
        yield number, at, end.start() if end else len(data)
        at, number = end.end() if end else len(data), number + 1


def words(data, start, end):
    return [Word(m.group(), m.start(), m.end()) for m in WORD.finditer(data, start, end)]


def spans(row):
    return [(w.start, w.end) for w in row]


def number(word):
    """The nearest f64 of a decimal, a NaN or an infinity."""
    if not NUMBER.fullmatch(word.text):
        raise Unreadable(f"byte {word.start}: no number: {word.text!r}")
    return float(word.text)


def whole(word):
    if not WHOLE.fullmatch(word.text):
        raise Unreadable(f"byte {word.start}: no whole number: {word.text!r}")
    return int(word.text)


def place(row, line):
    if len(row) < 3:
        raise Unreadable(f"line {line}: fewer than three numbers")
    return tuple(number(w) for w in row[:3])


def count(word):
    n = whole(word)
    if n < 0:
        raise Unreadable(f"byte {word.start}: a count below 0")
    return n


def text_of(data):
    return data.decode("utf-8", "replace")


def alone(places, faces):
    """The one cell of a format in which vertices are numbered as they stand."""
    if any(not 0 <= c < len(places) for f in faces for c in f.corners):
        raise Unreadable("a corner names a vertex that is not there")
    return Cell(None, list(range(len(places))), places, faces)


# ---- OBJ

def obj_rows(data):
    """The words of each line with those that it goes on in, and the number of the first of them. A name ends with its line, and holds
    what would begin a comment elsewhere."""
    row, first = [], 0
    for line, start, end in lines(data):
        name = not first and words(data, start, end)[:1]
        if name and name[0].text in (b"o", b"g"):
            yield line, words(data, start, end)
            continue
        sharp = data.find(b"#", start, end)
        end = end if sharp < 0 else sharp
        goes_on = data[start:end].rstrip().endswith(b"\\")
        row, first = row + words(data, start, data.rfind(b"\\", start, end) if goes_on else end), first or line
        if not goes_on:
            yield first, row
            row, first = [], 0
    if first:
        raise Unreadable("the file ends in a line that goes on")


def obj_corner(word, before):
    """The place of the vertex in the file, from 0; a negative number counts back from the vertices before the face."""
    said = word.text.split(b"/")
    n = whole(Word(said[0], word.start, word.end))
    if n == 0 or before + n < 0 or len(said) > 3:
        raise Unreadable(f"byte {word.start}: no corner: {word.text!r}")
    return n - 1 if n > 0 else before + n


def obj_name(data, row):
    """All that follows the keyword on its line."""
    return text_of(data[row[1].start:row[-1].end]) if len(row) > 1 else "default"


class Obj:
    """The vertices and faces of a file, each with the object and the group that it stands in."""

    def __init__(self, data):
        self.places, self.homes, self.faces, self.face_homes = [], [], [], []
        self.now, self.seen = {b"o": None, b"g": None}, {b"o": [], b"g": []}
        for line, row in obj_rows(data):
            if row:
                self.take(data, line, row)
        if any(c >= len(self.places) for f in self.faces for c in f.corners):
            raise Unreadable("a corner names a vertex that is not there")

    def take(self, data, line, row):
        key = row[0].text
        if key == b"v":
            if len(row) > 8:
                raise Unreadable(f"line {line}: more than seven numbers")
            self.places.append(place(row[1:], line))
            [number(w) for w in row[4:]]
            self.homes.append(dict(self.now))
        elif key == b"f":
            corners = [obj_corner(w, len(self.places)) for w in row[1:]]
            self.faces.append(Face(len(self.faces) + 1, line, corners, spans(row[1:])))
            self.face_homes.append(dict(self.now))
        elif key in self.now:
            self.now[key] = obj_name(data, row)
            if self.now[key] not in self.seen[key]:
                self.seen[key].append(self.now[key])

    def cells(self):
        """By objects, else by groups, else the whole file; what stands before the first name comes first. A part that holds nothing is
        no cell."""
        kind = b"o" if self.seen[b"o"] else b"g"
        named = {c for f in self.faces for c in f.corners}
        found = [self.cell(kind, name, named) for name in [None, *self.seen[kind]]]
        return [c for c in found if c.places or c.faces]

    def cell(self, kind, name, named):
        faces = [f for f, home in zip(self.faces, self.face_homes) if home[kind] == name]
        own = {v for v, home in enumerate(self.homes) if home[kind] == name and v not in named}
        kept = sorted(own | {c for f in faces for c in f.corners})
        at = {v: k for k, v in enumerate(kept)}
        faces = [f._replace(corners=[at[c] for c in f.corners]) for f in faces]
        return Cell(name, [v + 1 for v in kept], [self.places[v] for v in kept], faces)


def obj(data):
    return Obj(data).cells()


# ---- OFF

def off_rows(data):
    """Lines that hold more than a comment."""
    for line, start, end in lines(data):
        sharp = data.find(b"#", start, end)
        row = words(data, start, end if sharp < 0 else sharp)
        if row:
            yield line, row


def off_face(k, line, row):
    n = count(row[0])
    if len(row) <= n:
        raise Unreadable(f"line {line}: fewer corners than it says")
    [number(w) for w in row[n + 1:]]
    return Face(k, line, [whole(w) for w in row[1:n + 1]], spans(row[1:n + 1]))


def off(data):
    rows = list(off_rows(data))
    if not rows or rows[0][1][0].text not in (b"OFF", b"COFF", b"NOFF", b"CNOFF"):
        raise Unreadable("the word OFF is missing")
    rows[0] = rows[0][0], rows[0][1][1:]
    if not rows[0][1]:
        del rows[0]
    if not rows or len(rows[0][1]) < 3:
        raise Unreadable("three counts are missing")
    many, faces = count(rows[0][1][0]), count(rows[0][1][1])
    if len(rows) != 1 + many + faces:
        raise Unreadable("the lines are more or fewer than the counts say")
    places = [place(row, line) for line, row in rows[1:many + 1]]
    [number(w) for _, row in rows[1:many + 1] for w in row[3:]]
    return [alone(places, [off_face(k, *r) for k, r in enumerate(rows[many + 1:])])]


# ---- PLY

SCALARS = {b"char": "b", b"uchar": "B", b"short": "h", b"ushort": "H", b"int": "i", b"uint": "I", b"float": "f", b"double": "d",
           b"int8": "b", b"uint8": "B", b"int16": "h", b"uint16": "H", b"int32": "i", b"uint32": "I", b"float32": "f", b"float64": "d"}
FORMATS = {b"ascii": "", b"binary_little_endian": "<", b"binary_big_endian": ">"}
AXES, INDICES = (b"x", b"y", b"z"), (b"vertex_indices", b"vertex_index")
# The properties that are read, by element.
READ = {b"vertex": AXES, b"face": INDICES}
# The letter of a list's count is None for a property that is no list.
Property = namedtuple("Property", "name counted letter")
Element = namedtuple("Element", "name many properties")


def ply_property(texts):
    if texts[0] == b"list":
        counted, letter, name = (SCALARS.get(texts[1]), SCALARS.get(texts[2]), texts[3]) if len(texts) == 4 else (None,) * 3
        if counted in (None, "f", "d"):
            raise Unreadable("a list that is none")
    else:
        counted, letter, name = (None, SCALARS.get(texts[0]), texts[1]) if len(texts) == 2 else (None,) * 3
    if letter is None:
        raise Unreadable("a property of no type")
    return Property(name, counted, letter)


class Header:
    """The order of the bytes, the elements, and where the items begin."""

    def __init__(self, data):
        self.order, self.elements, self.start, self.line = None, [], None, 0
        for line, start, end in lines(data):
            texts = [w.text for w in words(data, start, end)]
            if line == 1 and texts != [b"ply"]:
                break
            if texts == [b"end_header"]:
                # A header that ends its lines with carriage returns alone ends its last line so, too.
                ends = re.compile(rb"\r") if re.match(rb"ply\r(?!\n)", data) else LINE_END
                after = ends.search(data, start)
                self.start, self.line = after.end() if after else len(data), line + 1
                break
            if line > 1:
                self.take(texts, line)
        if self.start is None or self.order is None:
            raise Unreadable("no header of PLY")
        self.judge()

    def take(self, texts, line):
        key = texts[0] if texts else b""
        if key == b"format" and len(texts) == 3 and texts[1] in FORMATS:
            self.order = FORMATS[texts[1]]
        elif key == b"element" and len(texts) == 3 and WHOLE.fullmatch(texts[2]) and int(texts[2]) >= 0:
            self.elements.append(Element(texts[1], int(texts[2]), []))
        elif key == b"property" and len(texts) > 2 and self.elements:
            self.elements[-1].properties.append(ply_property(texts[1:]))
        elif key not in (b"comment", b"obj_info"):
            raise Unreadable(f"line {line}: no line of a header")

    def judge(self):
        kinds = {(e.name, p.name): p for e in self.elements for p in e.properties}
        if any((b"vertex", axis) not in kinds or kinds[b"vertex", axis].counted for axis in AXES):
            raise Unreadable("no x, y and z")
        lists = [kinds[b"face", name] for name in INDICES if (b"face", name) in kinds]
        if any(e.name == b"face" for e in self.elements) and not lists or any(p.counted is None or p.letter in "fd" for p in lists):
            raise Unreadable("no list of whole vertex numbers")


def ply_words(row, properties):
    """The words that each property of an item has, a list's count left out."""
    item = {}
    for p in properties:
        if not row:
            raise Unreadable("fewer words or lines than the header says")
        n = count(row[0]) if p.counted else 1
        row = row[1:] if p.counted else row
        if len(row) < n:
            raise Unreadable("fewer words than a list says")
        item[p.name], row = row[:n], row[n:]
    if row:
        raise Unreadable(f"byte {row[0].start}: more words than the header says")
    return item


def ply_text(data, head):
    """Each item: the element, its line, and what is read of each property, with the bytes that it stands in."""
    rows = lines(data, head.start, head.line)
    for element in head.elements:
        read_, value = READ.get(element.name, ()), number if element.name == b"vertex" else whole
        for _ in range(element.many):
            line, start, end = next(rows, (None, 0, 0))
            item = ply_words(words(data, start, end), element.properties)
            yield element, line, {name: [(value(w), (w.start, w.end)) for w in row] for name, row in item.items() if name in read_}
    if any(words(data, start, end) for _, start, end in rows):
        raise Unreadable("something follows the last item")


def ply_binary(data, head):
    at = head.start

    def taken(letter):
        nonlocal at
        width = struct.calcsize(letter)
        if at + width > len(data):
            raise Unreadable("fewer bytes than the header says")
        at += width
        return struct.unpack(head.order + letter, data[at - width:at])[0], (at - width, at)

    for element in head.elements:
        for _ in range(element.many):
            item = {}
            for p in element.properties:
                n = taken(p.counted)[0] if p.counted else 1
                if n < 0:
                    raise Unreadable("a count below 0")
                item[p.name] = [taken(p.letter) for _ in range(n)]
            yield element, None, item
    if at != len(data):
        raise Unreadable("something follows the last item")


def ply(data):
    head = Header(data)
    places, faces = [], []
    for element, line, item in (ply_binary if head.order else ply_text)(data, head):
        if element.name == b"vertex":
            places.append(tuple(float(item[axis][0][0]) for axis in AXES))
        elif element.name == b"face":
            corners = item[next(name for name in INDICES if name in item)]
            faces.append(Face(len(faces), line, [c for c, _ in corners], [span for _, span in corners]))
    return [alone(places, faces)]


# ---- STL

class Solid:
    """Points that are equal as numbers are one vertex; a point with a NaN equals none."""

    def __init__(self, name):
        self.name, self.places, self.faces, self.at = name, [], [], {}

    def add(self, number, line, points, where, normal):
        corners = []
        for p in points:
            apart = any(x != x for x in p)
            k = None if apart else self.at.get(p)
            if k is None:
                k = len(self.places)
                self.places.append(p)
                if not apart:
                    self.at[p] = k
            corners.append(k)
        self.faces.append(Face(number, line, corners, where, normal))

    def cell(self):
        return Cell(self.name, list(range(1, len(self.places) + 1)), self.places, self.faces)


def stl_binary(data):
    solid = Solid(None)
    for k in range((len(data) - 84) // 50):
        at = 84 + 50 * k
        where = [(at + 12 * c, at + 12 * c + 12) for c in range(1, 4)]
        solid.add(k + 1, None, [struct.unpack("<3f", data[a:b]) for a, b in where], where, (at, at + 12))
    return [solid.cell()]


class Lines:
    """The lines of a text that are not blank, one after the other, each asked for by its first words."""

    def __init__(self, data):
        self.data = data
        self.rows = [(line, row) for line, start, end in lines(data) if (row := words(data, start, end))]
        self.at = 0

    def begins(self, *texts):
        row = self.rows[self.at][1] if self.at < len(self.rows) else []
        return [w.text for w in row[:len(texts)]] == list(texts)

    def take(self, *texts, many=None):
        """The line's number and its words behind these; `many` of them, where that is said."""
        if not self.begins(*texts):
            raise Unreadable(f"{b' '.join(texts)!r} is missing")
        line, row = self.rows[self.at]
        if many is not None and len(row) != len(texts) + many:
            raise Unreadable(f"line {line}: too few or too many words")
        self.at += 1
        return line, row[len(texts):]


def facet(rows, solid, number_):
    line, normal = rows.take(b"facet", b"normal", many=3)
    rows.take(b"outer", b"loop", many=0)
    corners = [rows.take(b"vertex", many=3)[1] for _ in range(3)]
    rows.take(b"endloop", many=0)
    rows.take(b"endfacet", many=0)
    points = [tuple(number(w) for w in row) for row in corners]
    solid.add(number_, line, points, [(row[0].start, row[-1].end) for row in corners], (normal[0].start, normal[-1].end))


def stl_text(data):
    rows, solids, facets = Lines(data), [], 0
    while rows.at < len(rows.rows):
        _, name = rows.take(b"solid")
        solids.append(Solid(text_of(data[name[0].start:name[-1].end]) if name else None))
        while rows.begins(b"facet"):
            facets += 1
            facet(rows, solids[-1], facets)
        rows.take(b"endsolid")
    cells = [s.cell() for s in solids]
    return [c._replace(name=c.name or f"solid {k}") for k, c in enumerate(cells, 1)] if len(cells) > 1 else cells


def stl(data):
    said = struct.unpack("<I", data[80:84])[0] if len(data) >= 84 else None
    return stl_binary(data) if said is not None and len(data) == 84 + 50 * said else stl_text(data)


# ---- .cell

def record(data, at):
    """The kind of a record and its three fields, as they are in bits."""
    kind, spare, *fields = struct.unpack("<B7s3Q", data[at:at + 32])
    unused = {1: 3, 2: 1, 3: 0, 4: 0, 5: 3}.get(kind)
    if unused is None or any(spare) or any(fields[unused:]) or (kind == 2 and fields[0] >= 2 ** 32):
        raise Unreadable(f"byte {at}: a bad record")
    return kind, fields


def point(fields):
    return struct.unpack("<3d", struct.pack("<3Q", *fields))


def cell_file(data):
    if len(data) % 32:
        raise Unreadable("the last record is not whole")
    cells, places, faces, queries, corners, where = [], [], [], [], [], []
    for at in range(0, len(data), 32):
        kind, fields = record(data, at)
        if kind in (1, 5):
            (places if kind == 1 else queries).append(point(fields))
        elif kind == 2:
            corners.append(fields[0])
            where.append((at, at + 32))
        elif kind == 3:
            faces.append(Face(len(faces), None, corners, where))
            corners, where = [], []
        else:
            if corners:
                raise Unreadable(f"byte {at}: a cell end in an open face")
            cells.append(Cell(None, list(range(len(places))), places, faces, queries))
            places, faces, queries = [], [], []
    if places or faces or queries or corners:
        raise Unreadable("records follow the last cell end")
    return [c._replace(name=f"cell {k}") for k, c in enumerate(cells, 1)] if len(cells) > 1 else cells


READERS = {".obj": obj, ".off": off, ".ply": ply, ".stl": stl, ".cell": cell_file}


def ending(name):
    return os.path.splitext(name)[1].lower()


def cells_of(name, data):
    """The cells of a file's bytes, or Unreadable."""
    if ending(name) not in READERS:
        raise Unreadable("no ending that is known")
    cells = READERS[ending(name)](data)
    if not cells:
        raise Unreadable("no cell")
    return cells


def read(name):
    with open(name, "rb") as f:
        return cells_of(name, f.read())


# ---- what is said of a cell

def rings(cell):
    return [f.corners for f in cell.faces]


def lists(cell):
    """A cell as the library takes it: coordinates, corners, ends."""
    return [x for p in cell.places for x in p], [c for f in rings(cell) for c in f], list(accumulate(map(len, rings(cell))))


def groups(face_list):
    """The numbers of the faces that are joined by sides, group by group."""
    having, left = {}, set(range(len(face_list)))
    for k, f in enumerate(face_list):
        for side in sides.sides(f):
            having.setdefault(frozenset(side), set()).add(k)
    for lowest in range(len(face_list)):
        if lowest in left:
            group = [lowest]
            left.remove(lowest)
            for k in group:
                near = {n for side in sides.sides(face_list[k]) for n in having[frozenset(side)]} & left
                group += sorted(near)
                left -= near
            yield group


def surfaces(cell):
    """How many groups have a face of three corners or more."""
    return sum(any(len(cell.faces[k].corners) > 2 for k in group) for group in groups(rings(cell)))


def against(cell):
    """Why turning cannot close the cell, or None; and the places of the faces that lie against the others."""
    if sides.closed(rings(cell)):
        return None, []
    why, _, corners = sides.turned(lists(cell))
    if why:
        return why, []
    after, named = table.faces(([], corners, lists(cell)[2])), []
    for group in groups(rings(cell)):
        turned = [k for k in group if after[k] != cell.faces[k].corners]
        named += turned if 2 * len(turned) <= len(group) else [k for k in group if k not in turned]
    return None, sorted(named)


def torn(cell):
    """Each side that runs more often one way than back."""
    runs = Counter(side for f in rings(cell) for side in sides.sides(f))
    return [{"from": cell.numbers[i], "to": cell.numbers[j], "there": n, "back": runs[j, i],
             "from_at": list(cell.places[i]), "to_at": list(cell.places[j])}
            for (i, j), n in sorted(runs.items()) if n > runs.get((j, i), 0)]


def told(cell):
    """The fields of the cell's object, without `file`, and without those that hang on the cut."""
    says = {"cell": cell.name, "vertices": len(cell.places), "faces": len(cell.faces)}
    refused = table.refusal(lists(cell)) or None
    if refused is None:
        why, named = against(cell)
        says.update(closed=sides.closed(rings(cell)), torn=torn(cell), unturnable=why, groups=surfaces(cell),
                    against=[{"face": cell.faces[k].number, "line": cell.faces[k].line} for k in named])
    return {**says, "refused": refused}


# ---- exact volumes, in whole numbers: the coordinates times a power of 2, about the first vertex

def cross(a, b):
    return a[1] * b[2] - a[2] * b[1], a[2] * b[0] - a[0] * b[2], a[0] * b[1] - a[1] * b[0]


def dot(a, b):
    return sum(x * y for x, y in zip(a, b))


def scaled(places):
    """The places as whole numbers about the first of them, and how many of these are one."""
    ratios = [[x.as_integer_ratio() for x in p] for p in places]
    unit = max(d for p in ratios for _, d in p)
    steps = [[n * (unit // d) for n, d in p] for p in ratios]
    return [[x - o for x, o in zip(p, steps[0])] for p in steps], unit


def flat(points):
    """Whether all points lie exactly in one plane."""
    ways = [w for p in points for w in [[x - o for x, o in zip(p, points[0])]] if any(w)]
    normal = next((n for w in ways for n in [cross(ways[0], w)] if any(n)), (0, 0, 0))
    return all(dot(normal, w) == 0 for w in ways)


def exact_volume(cell):
    """The volume that every full cut has, as a fraction, where all faces are flat; else None."""
    points, unit = scaled(cell.places)
    six = 0
    for face in rings(cell):
        ring = [points[c] for c in face]
        if len(ring) > 3 and not flat(ring):
            return None
        six += sum(dot(ring[0], cross(b, c)) for b, c in zip(ring[1:], ring[2:]))
    return abs(Fraction(six, 6 * unit ** 3))


def moved_by(cell):
    """What is taken off each vertex to bring the cell to a local origin, and for each axis whether it could be."""
    coords = lists(cell)[0]
    why, by, _ = local.moved(coords)
    if not why:
        return by, [True] * 3
    alone_ = [local.moved([x if k % 3 == axis else 0.0 for k, x in enumerate(coords)]) for axis in range(3)]
    return [0.0 if why else by[axis] for axis, (why, by, _) in enumerate(alone_)], [not why for why, _, _ in alone_]


def survey(name):
    """The objects of a file, each with the volume where it is known."""
    for cell in read(name):
        says = {"file": name, **told(cell)}
        if not says["refused"]:
            exact = exact_volume(cell) if says["closed"] else None
            says["volume"] = None if exact is None else float(exact)
        yield says


def main():
    if len(sys.argv) < 2 or sys.argv[1] in ("-h", "--help"):
        print(__doc__)
        return
    status = 0
    for name in sys.argv[1:]:
        try:
            print(*(json.dumps(says) for says in survey(name)), sep="\n")
        except (Unreadable, OSError) as why:
            print(f"{name}: {why}", file=sys.stderr)
            status = 2
    sys.exit(status)


if __name__ == "__main__":
    main()
