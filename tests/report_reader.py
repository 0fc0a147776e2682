"""A second reader of the report's records, by the rules of SCOPE 15 alone.

`lines(streams)` gives the report of each stream of bytes. What a cell's geometry comes to is asked
of the Rust: the program `oracle` of rust/oracle (ORACLE names another place), all in one run.
"""
import os
import struct
import subprocess
import sys

TOP = os.path.dirname(os.path.dirname(os.path.abspath(__file__)))
ORACLE = os.environ.get("ORACLE", os.path.join(TOP, "rust", "oracle", "target", "release", "oracle"))
LIMIT = 2.0 ** 40


class Cell:
    """What the records of one cell gave, and the first refusal among them."""

    def __init__(self):
        self.vertices, self.corners, self.ends, self.queries = [], [], [], []
        self.refusal = None
        self.begun = False

    def take(self, record):
        self.begun = True
        if self.refusal is None:
            self.refusal = self.judge(record)

    def judge(self, record):
        """Stores a record, or says why it is refused: 7 before 1."""
        kind = record[0]
        if kind not in (1, 2, 3, 4, 5) or any(record[1:8]):
            return 7
        a, b, c = struct.unpack_from("<3Q", record, 8)
        if kind == 1 or kind == 5:
            points = self.vertices if kind == 1 else self.queries
            if len(points) == 256:
                return 1
            points.append(struct.unpack_from("<3d", record, 8))
        elif kind == 2:
            if b or c or a > 0xFFFF_FFFF:
                return 7
            if len(self.corners) == 2048:
                return 1
            self.corners.append(a)
        else:
            if a or b or c:
                return 7
            if kind == 4:
                return 7 if len(self.corners) != (self.ends[-1] if self.ends else 0) else None
            if len(self.ends) == 256:
                return 1
            self.ends.append(len(self.corners))
        return None

    def own_refusal(self):
        """The cell's own checks, once no record is refused. The ends cannot be wrong here."""
        if not self.vertices:
            return 1
        for p in self.vertices + self.queries:
            if any(not abs(x) <= LIMIT for x in p):
                return 2
        if any(corner >= len(self.vertices) for corner in self.corners):
            return 4
        return None

    def faces(self):
        return [self.corners[a:b] for a, b in zip([0] + self.ends, self.ends)]


def closed(faces):
    balance = {}
    for face in faces:
        for i, j in zip(face, face[1:] + face[:1]):
            if i != j:
                balance[i, j] = balance.get((i, j), 0) + 1
    return all(balance.get((j, i), 0) == n for (i, j), n in balance.items())


def bits(x):
    return "%016X" % struct.unpack("<Q", struct.pack("<d", x))


def listed(items):
    return " ".join([str(len(items)), *map(str, items)])


def points(ps):
    return " ".join([str(len(ps)), *(bits(x) for p in ps for x in p)])


def questions(cell):
    """For the oracle, in this order: the cut of each face, the volume, each query point."""
    vs = points(cell.vertices)
    whole = f"{vs} {listed(cell.corners)} {listed(cell.ends)}"
    asked = [f"ear_clip_triangles plain {vs} {listed(face)}" for face in cell.faces()]
    asked.append(f"volume plain {whole}")
    return asked + [f"contains plain {whole} " + " ".join(map(bits, q)) for q in cell.queries]


def findings(cell, answers):
    """A cell's words after its number, out of the oracle's answers."""
    faces = cell.faces()
    cuts = [int(answers[k].split()[0]) for k in range(len(faces))]
    short = sum(len(f) >= 3 and n < len(f) - 2 for f, n in zip(faces, cuts))
    volume = answers[len(faces)].upper()
    inside = answers[len(faces) + 1:].count("true")
    yes = "yes" if closed(faces) else "no"
    return (f"v {len(cell.vertices)} f {len(faces)} t {sum(cuts)} closed {yes} short {short} "
            f"vol {volume} in {inside}")


def ask_oracle(cells):
    """The words for each cell that is not refused, from one run of the oracle."""
    asked = [questions(cell) for cell in cells]
    text = "".join(q + "\n" for qs in asked for q in qs)
    if not os.access(ORACLE, os.X_OK):
        sys.exit(f"no oracle at {ORACLE}: build rust/oracle with cargo build --release, or set ORACLE")
    out = subprocess.run([ORACLE], input=text, capture_output=True, text=True, check=True).stdout
    answers = out.splitlines()
    if len(answers) != sum(map(len, asked)):
        sys.exit("the oracle did not answer each question")
    told, at = [], 0
    for cell, qs in zip(cells, asked):
        told.append(findings(cell, answers[at:at + len(qs)]))
        at += len(qs)
    return told


def cells_of(data):
    """The cells of a stream, and whether bytes are left after the last cell end."""
    cells, cell = [], Cell()
    whole = len(data) // 32 * 32
    for at in range(0, whole, 32):
        record = data[at:at + 32]
        cell.take(record)
        if record[0] == 4:
            cells.append(cell)
            cell = Cell()
    return cells, cell.begun or whole != len(data)


def lines(streams, ask=ask_oracle):
    """The report of each stream, as bytes."""
    read = [cells_of(data) for data in streams]
    for cells, _ in read:
        for cell in cells:
            if cell.refusal is None:
                cell.refusal = cell.own_refusal()
    sound = [cell for cells, _ in read for cell in cells if cell.refusal is None]
    told = dict(zip(map(id, sound), ask(sound)))
    reports = []
    for cells, tail in read:
        text = ""
        for number, cell in enumerate(cells, 1):
            words = told[id(cell)] if cell.refusal is None else f"refused {cell.refusal}"
            text += f"cell {number} {words}\n"
        reports.append((text + ("tail refused 8\n" if tail else "")).encode())
    return reports
