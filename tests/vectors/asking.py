"""Asking the Rust, and one line of the list: a cell, questions about it, and the stored answers."""
import itertools
import os
import struct
import subprocess

HERE = os.path.dirname(os.path.abspath(__file__))
TOP = os.path.dirname(os.path.dirname(HERE))
ORACLE = os.path.join(TOP, 'rust', 'oracle')

# The C names without their prefix: the number by which crates/questions knows the entry, how many numbers it answers in a list
# and how many counts, None for one a face. survey_of_queries is survey with its query points behind the vertices.
ENTRY = {
    'volume': (10, 1, 0), 'centroid': (11, 3, 0), 'geometric_centroid': (12, 3, 0), 'bounds': (13, 6, 0), 'scale': (14, 1, 0),
    'closed': (20, 0, 1), 'contains': (21, 0, 1), 'point_in_phed': (22, 0, 1),
    'is_convex': (23, 0, 1), 'describe': (24, 0, 4), 'check_cut': (25, 0, 1), 'no_area_faces': (26, 0, None),
    'survey': (30, 1, 4), 'survey_of_queries': (31, 1, 4), 'plane_of_face': (32, 4, 1),
    'newell_normal': (40, 3, 0), 'vertex_centroid': (41, 3, 0), 'list_bounds': (42, 6, 0), 'signed_area2': (43, 1, 0),
    'vertex_centroid2': (44, 2, 0), 'bounds2': (45, 4, 0), 'tet_volume': (50, 1, 0), 'wedge_volume': (51, 1, 0),
    'hex_volume': (52, 1, 0), 'tet_contains': (53, 0, 1), 'wedge_contains': (54, 0, 1), 'hex_contains': (55, 0, 1),
    'magnitude': (60, 0, 0), 'least': (61, 0, 0), 'largest': (62, 0, 0), 'root': (63, 0, 0), 'hypot': (64, 0, 0),
    'pattern': (65, 0, 0), 'of_pattern': (66, 0, 0), 'cross2': (70, 0, 0), 'dominant_axis': (71, 0, 0),
    'plane_same_side': (72, 0, 0), 'plane_coplanar_opposite': (73, 0, 0), 'project2': (74, 2, 0),
    'segment_intersection': (75, 2, 0), 'segment_plane_intersection': (76, 3, 0), 'into_ccw': (80, 0, 0),
    'turn_faces': (81, 0, 1), 'into_ccw2': (82, 0, 0), 'to_local': (83, 3, 0), 'triangles': (90, 0, 2),
    'triangle_places': (91, 0, 2), 'clip_face': (100, 0, 2),
    'clip_convex': (101, 0, 2), 'convex_intersection_area': (102, 1, 0), 'convex_intersection_volume': (103, 1, 2)}

# The entries that measure a cell and take nothing else.
MEASURES = [name for name, (k, *_) in ENTRY.items() if 10 <= k < 20]

# Rust leaves the sign of a least or greatest zero open: there a zero of either sign is the same, and is stored as +0.
ZEROS = ('bounds', 'scale', 'list_bounds', 'bounds2')

# A question's words: the entry, so many arguments, the code, whether zeros are the same, and the lists.
ARGUMENTS = 3
CODE = 1 + ARGUMENTS
LISTS = CODE + 2

# What a lent list holds before the call: a number that no corner has, and the least positive f64.
MARK, FILLER = 4294967295, 1

# The program reads the list in parts of so many bytes, so many parts.
PART, PARTS = 65536, 64

SHAPES = ('convex', 'concave', 'unknown')


def bits(x):
    """The pattern of a number, one for every NaN."""
    return 0x7FF8000000000000 if x != x else struct.unpack('<Q', struct.pack('<d', x))[0]


def number(b):
    return struct.unpack('<d', struct.pack('<Q', b))[0]


def hexes(xs):
    return ' '.join(f'{struct.unpack("<Q", struct.pack("<d", x))[0]:016X}' for x in xs)


def points(coords, size=3):
    return f'{len(coords) // size} {hexes(coords)}'.rstrip()


def whole(ns):
    return ' '.join(str(n) for n in [len(ns), *ns])


def cell_words(cell):
    coords, corners, ends = cell
    return f'{points(coords)} {whole(corners)} {whole(ends)}'


def in_parts(xs, size):
    return [tuple(xs[k:k + size]) for k in range(0, len(xs), size)]


def read_points(words, size):
    return in_parts([number(int(w, 16)) for w in words], size)


def filled(lines):
    """The lines as the program reads them: no line goes over the end of a part, which empty lines fill up."""
    text = []
    size = 0
    for line in lines:
        room = -size % PART
        if len(line) > PART:
            raise SystemExit('a line is longer than the program reads')
        if len(line) > room:
            line = '\n' * room + line
        text.append(line)
        size += len(line)
    if size > PART * PARTS:
        raise SystemExit('the list is longer than the program reads')
    return ''.join(text)


def flat(vertices):
    return [float(x) for v in vertices for x in v]


def oracle_program(name):
    """The path of a program of rust/oracle, which is built first."""
    subprocess.run(['cargo', 'build', '--release', '--offline', '--quiet'], cwd=ORACLE, check=True)
    return os.path.join(ORACLE, os.environ.get('CARGO_TARGET_DIR', 'target'), 'release', name)


class Oracle:
    """The Rust, behind its line protocol."""

    def __init__(self):
        self.rust = subprocess.Popen([oracle_program('oracle')], stdin=subprocess.PIPE, stdout=subprocess.PIPE, text=True)

    def ask(self, name, words, build='plain'):
        """The words of the answer. Planes, and what rests on them, are asked of the build `ruled`, the tests of a cut of `counted`."""
        self.rust.stdin.write(f'{name} {build} {words}\n')
        self.rust.stdin.flush()
        answer = self.rust.stdout.readline().split()
        if not answer or answer[0] in ('panic', 'error'):
            raise SystemExit(f'the oracle answers {answer} to {name} {build} {words[:200]}')
        return answer

    def numbers(self, name, words, build='plain'):
        return [number(int(w, 16)) for w in self.ask(name, words, build)]

    def patterns(self, name, words, build='plain'):
        return [bits(x) for x in self.numbers(name, words, build)]

    def yes(self, name, words, build='plain'):
        return int(self.ask(name, words, build)[0] == 'true')


def shortened(words):
    """A list of the limits' size is told by its first numbers and its length; the stdin has it whole."""
    return ' '.join(words) if len(words) <= 96 else ' '.join(words[:9]) + f' .. ({len(words)} in all)'


def after(answer, places, mark):
    """A list of so many places that had marks before the answer was written to its front."""
    return [*answer, *[mark] * (places - len(answer))]


class Case:
    """A line of the list. `told` names the parts of its coordinates where they are not the vertices of one cell."""

    def __init__(self, oracle, name, cell, remark='', told=None):
        self.oracle, self.name, self.cell, self.remark = oracle, name, cell, remark
        self.told = {'vertices': cell[0]} if told is None else told
        self.questions, self.lines = [], []
        self.short = (0, 0)

    def sizes(self, entry):
        """The most numbers and counts of an answer."""
        return [len(self.cell[2]) if n is None else n for n in ENTRY[entry][1:]]

    def places(self, entry):
        """How long the lists for numbers and counts are: one place more than the most of an answer, less what is asked for."""
        return [max(n + 1 - short, 0) if n else 0 for n, short in zip(self.sizes(entry), self.short)]

    def refused(self, entry, why, sizes=None):
        """The refusal, or 6 where a list is too short for an answer of these sizes, which are the most where they are not given."""
        return why or (6 if any(n > places for n, places in zip(sizes or self.sizes(entry), self.places(entry))) else 0)

    def in_short_lists(self, entry, ask):
        """Asks with every shorter length of the two lists, from those that have no place to spare to those that have none."""
        for short in itertools.product(*(range(n + 2 if n else 1) for n in self.sizes(entry))):
            self.short = short
            if any(short):
                ask()
        self.short = (0, 0)

    def put(self, entry, arguments, why, values=(), counts=(), shown='', lent=None, code=0):
        """A question and its answer. `lent` has every number of each other list after the call; a leaf returns `code`."""
        why, number, lists = self.refused(entry, why, (len(values), len(counts))), ENTRY[entry][0], {}
        for kind, answer, places, mark in zip(('numbers', 'counts'), (values, counts), self.places(entry), (FILLER, MARK)):
            lists[kind] = after(() if why else answer, places, mark)
        if entry in ZEROS:
            lists['numbers'] = [0 if b == 1 << 63 else b for b in lists['numbers']]
        lists.update(lent or {})
        words = [number, *arguments, *[0] * (ARGUMENTS - len(arguments)), why or code, int(entry in ZEROS)]
        for ws in lists.values():
            words += [len(ws), *ws]
        self.questions.append((words, lists))
        answer = f'refused {why}' if why else 'done' if lent or any(self.places(entry)) else f'{code:X}'
        self.lines.append(f'    {entry}{shown} = {answer}' + ''.join(f' | {kind} {plain(kind, ws)}' for kind, ws in lists.items() if ws))

    def said(self, code, **said):
        """Stops where an answer is not the one that docs/SCOPE.md states: the code, or the front of a list."""
        for words, lists in self.questions:
            if words[CODE] != code or any(lists[kind][:len(ws)] != ws for kind, ws in said.items()):
                raise SystemExit(f'{self.name} is not as docs/SCOPE.md has it: {words}')

    def stored(self):
        coords, corners, ends = self.cell
        words = [len(coords), len(corners), len(ends), *[bits(x) for x in coords], *corners, *ends]
        for q, _ in self.questions:
            words += [len(q), *q]
        if len(words) > 8192 or len(coords) > 1280 or len(corners) > 4096 or len(ends) > 512:
            raise SystemExit(f'{self.name} is longer than the program reads')
        return self.name + ' ' + ' '.join(f'{w:X}' for w in words)

    def readable(self):
        _, corners, ends = self.cell
        head = [self.name + (f': {self.remark}' if self.remark else '')]
        head += [f'    {name} ' + shortened([repr(x) for x in xs]) for name, xs in self.told.items() if xs]
        if corners or ends:
            head.append('    corners ' + shortened([str(c) for c in corners]) + ' ends ' + shortened([str(e) for e in ends]))
        return '\n'.join(head + self.lines)


def plain(kind, words):
    """A lent list as it is read: - is a place that stays as it was."""
    whole_numbers = kind in ('counts', 'corners', 'triangles')
    read, mark = [], MARK if whole_numbers else FILLER
    for n, run in itertools.groupby('-' if n == mark else str(n) if whole_numbers else f'{n:X}' for n in words):
        times = len(list(run))
        read += [n] * times if times < 4 else [f'{n} ({times} times)']
    return shortened(read)
