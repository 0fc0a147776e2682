"""Questions about a cell or a list of points."""
import math

import areas
from asking import Case, MARK, MEASURES, SHAPES, after, bits, cell_words, flat, hexes, in_parts, points, read_points, whole
from cells import CUBE, HEX8, SEVEN, TETRA, box, cell_of, damage, prism, queries, torn
from sides import closed, turned
from table import LIMIT, faces, faces_refusal, list_refusal, phed_refusal, plane_refusal, refusal, survey_refusal


class CellCase(Case):
    def measure(self, entry):
        """A number, a point or a box of the cell."""
        why = refusal(self.cell)
        self.put(entry, [], why, [] if why else self.oracle.patterns(entry, cell_words(self.cell)))

    def is_closed(self):
        why = refusal(self.cell)
        self.put('closed', [], why, counts=[] if why else [int(closed(faces(self.cell)))])

    def holds(self, p):
        return self.oracle.yes('contains', f'{cell_words(self.cell)} {hexes(p)}')

    def contains(self, p):
        why = refusal(self.cell, query=p)
        self.put('contains', [bits(x) for x in p], why, counts=[] if why else [self.holds(p)], shown=f' {p}')

    def in_phed(self, p):
        coords, entries, _ = self.cell
        why = phed_refusal(coords, entries, p)
        got = [] if why else [self.oracle.yes('point_in_phed', f'{hexes(p)} {points(coords)} {whole(entries)}')]
        self.put('point_in_phed', [bits(x) for x in p], why, counts=got, shown=f' {p}')

    def surveyed(self, ps):
        """What the cell report says, with these query points: the volume, and the counts."""
        cut = [(len(f), self.cut(f)[0]) for f in faces(self.cell)]
        counts = [sum(t for _, t in cut), int(closed(faces(self.cell))), sum(t < n - 2 for n, t in cut if n >= 3), sum(self.holds(p) for p in ps)]
        return self.oracle.patterns('volume', cell_words(self.cell)), counts

    def survey(self, p):
        why = refusal(self.cell, query=p)
        self.put('survey', [bits(x) for x in p], why, *([], []) if why else self.surveyed([p]), f' {p}')

    def point_lists(self):
        """The vertices as a list of points."""
        for entry in ('newell_normal', 'vertex_centroid', 'list_bounds'):
            self.list_of_points(entry, list_refusal(self.cell[0]), 3)

    def list_of_points(self, entry, why, size):
        name = {'vertex_centroid': 'vertex_centroid3', 'list_bounds': 'bounds_iter3', 'bounds2': 'bounds_iter2'}.get(entry, entry)
        self.put(entry, [], why, [] if why else self.oracle.patterns(name, points(self.cell[0], size)))

    def outline(self):
        """The coordinates as a list of points of the plane."""
        coords = self.cell[0]
        why, words = plane_refusal(coords), points(coords, 2)
        for entry in ('signed_area2', 'vertex_centroid2', 'bounds2'):
            self.list_of_points(entry, why, 2)
        turned_list = coords if why else flat(read_points(self.oracle.ask('into_ccw2', words)[1:], 2))
        self.put('into_ccw2', [], why, lent={'outline': [bits(x) for x in turned_list]})

    def cut_over(self, coords, face):
        """How many triangles a face gives, how many tests its cut makes, and the triangles. The Rust as it is cuts the face; the build
        that counts the tests must give the same triangles."""
        words = f'{points(coords)} {whole(face)}'
        answer = self.oracle.ask('ear_clip_triangles', words)
        *again, tests = self.oracle.ask('ear_clip_tests', words, 'counted')
        if again != answer:
            raise SystemExit(f'{self.name}: the build that counts tests cuts a face otherwise')
        count, *triangles = [int(w) for w in answer]
        return count, int(tests), triangles

    def cut(self, face):
        return self.cut_over(self.cell[0], face)

    def cut_by_place(self, face):
        """The cut of the face whose vertices are the points of its corners, in order."""
        corners = [x for v in face for x in self.cell[0][3 * v:3 * v + 3]]
        return self.cut_over(corners, range(len(face)))

    def triangles(self, face, room=None, entry='triangles'):
        """The triangles of a face, in a list of some places more than they need unless the room is given; how many there are, and
        how many tests were made."""
        sound = face < len(self.cell[2]) and not refusal(self.cell)
        n = len(faces(self.cell)[face]) if sound else 3
        room = max(n - 2, 0) + 1 if room is None else room
        why = self.refused(entry, refusal(self.cell, face=face, room=room))
        ask = self.cut if entry == 'triangles' else self.cut_by_place
        count, tests, cut = (0, 0, []) if why else ask(faces(self.cell)[face])
        self.put(entry, [face], why, counts=[count, tests], shown=f' face {face}, {room} places', lent={'triangles': after(cut, 3 * room, MARK)})

    def triangle_places(self, face, room=None):
        self.triangles(face, room, 'triangle_places')

    def shape(self, numbers=range(3)):
        """The description, and whether the cell is convex, for each thing that may be known of it, by its number."""
        coords, corners, ends = self.cell
        why = refusal(self.cell)
        for k in numbers:
            known = SHAPES[min(k, 2)]
            self.put('describe', [k], why, counts=[len(coords) // 3, len(corners), len(ends), min(k, 2)], shown=f' {k}: {known}')
            got = [] if why else [self.oracle.yes('is_convex', f'{cell_words(self.cell)} {known}')]
            self.put('is_convex', [k], why, counts=got, shown=f' {k}: {known}')

    def turning(self):
        """The corners after every face is turned outward."""
        why = faces_refusal(self.cell)
        corners = self.cell[1] if why else [int(w) for w in self.oracle.ask('into_ccw', cell_words(self.cell))[1:]]
        self.put('into_ccw', [], why, lent={'corners': corners})

    def turn_faces(self):
        """How many backward faces are turned, and the corners after that."""
        why, count, corners = turned(self.cell)
        corners = self.cell[1] if self.refused('turn_faces', why) else corners
        self.put('turn_faces', [], why, counts=[count], lent={'corners': corners})

    def plane(self, face):
        """The plane and 1, or 0 alone where the face has no area."""
        why = faces_refusal(self.cell, face)
        got = ([], []) if why else self.plane_or_none(faces(self.cell)[face])
        self.put('plane_of_face', [face], why, *got, f' face {face}')

    def plane_or_none(self, face):
        if areas.has_none(self.oracle, self.cell[0], face):
            return [], [0]
        return self.oracle.patterns('plane_of_face', f'{points(self.cell[0])} {whole(face)}', 'ruled'), [1]

    def no_area_faces(self):
        """Which faces have no area."""
        why = faces_refusal(self.cell)
        self.put('no_area_faces', [], why, counts=[] if why else areas.flags(self.oracle, self.cell))

    def all(self, ps):
        for entry in MEASURES:
            self.measure(entry)
        self.is_closed()
        self.turn_faces()
        for p in ps:
            self.contains(p)
        self.survey(ps[0])
        for k in self.faces_asked():
            self.triangles(k)
            self.triangle_places(k)

    def shape_and_planes(self):
        self.shape()
        self.turning()
        self.turn_faces()
        self.no_area_faces()
        for k in self.faces_asked():
            self.plane(k)

    def all_in_short_lists(self, p):
        """Every entry that answers in a list, also with a number for the shape that says nothing."""
        for entry in MEASURES:
            self.in_short_lists(entry, lambda entry=entry: self.measure(entry))
        for entry, ask in (('closed', self.is_closed), ('contains', lambda: self.contains(p)), ('describe', lambda: self.shape((2, 255))),
                           ('turn_faces', self.turn_faces), ('triangles', lambda: self.triangles(0)), ('survey', lambda: self.survey(p)),
                           ('plane_of_face', lambda: self.plane(0)), ('no_area_faces', self.no_area_faces),
                           ('point_in_phed', lambda: self.in_phed(p))):
            self.in_short_lists(entry, ask)
        for entry in ('newell_normal', 'vertex_centroid', 'list_bounds'):
            self.in_short_lists(entry, lambda entry=entry: self.list_of_points(entry, list_refusal(self.cell[0]), 3))
        for entry in ('signed_area2', 'vertex_centroid2', 'bounds2'):
            self.in_short_lists(entry, lambda entry=entry: self.list_of_points(entry, plane_refusal(self.cell[0]), 2))

    def faces_asked(self):
        return range(len(self.cell[2]) if not refusal(self.cell) else 1)


class SurveyCase(Case):
    """A cell and its query points, which stand behind the vertices."""

    def __init__(self, oracle, name, cell, asked, remark=''):
        coords, corners, ends = cell
        super().__init__(oracle, name, (coords + asked, corners, ends), remark, {'vertices': coords, 'query points': asked})
        why = survey_refusal(cell, asked)
        got = ([], []) if why else CellCase(oracle, name, cell).surveyed(in_parts(asked, 3))
        self.put('survey_of_queries', [len(coords)], why, *got, f' of the first {len(coords)} numbers with the rest')


# The rows of SCOPE 16, 'Worked by hand', on cells. The Rust's answer must be the one stated there.

MANY = [(k % 7, k % 11, k % 13) for k in range(257)]
OVER = math.nextafter(LIMIT, math.inf)


def in_words(triangles, tests):
    """The remark on a cut: how many triangles it gives, and how many tests it makes."""
    return ', '.join(f'{n} {word}' if n == 1 else f'{n} {word}s' for n, word in ((triangles, 'triangle'), (tests, 'test')))


def worked(oracle):
    def case(name, cell, remark):
        c = CellCase(oracle, name, cell, remark)
        out.append(c)
        return c

    out = []
    cube = cell_of(CUBE, HEX8)
    for name, cell, room, said, tests in (
            ('cube_face', cube, 4, [1, 0, 3, 3, 2, 1], 1),
            ('seven_corners', cell_of(SEVEN, [list(range(7))]), 6, [6, 0, 1, 6, 1, 2, 2, 3, 4], 12),
            ('two_corners', cell_of(CUBE, [[4, 6]]), 2, [], 0),
            ('three_corners', cell_of(CUBE, [[4, 6, 1]]), 2, [4, 6, 1], 0)):
        c = case(name, cell, in_words(len(said) // 3, tests))
        c.triangles(0, room)
        c.said(0, counts=[len(said) // 3, tests], triangles=said + [MARK] * (3 * room - len(said)))
    for name, p, said in (('cube_x_0', (0.0, 0.5, 0.5), 1), ('cube_x_1', (1.0, 0.5, 0.5), 0), ('cube_y_1', (0.5, 1.0, 0.5), 0)):
        c = case(name, cube, 'contained' if said else 'not contained')
        c.contains(p)
        c.said(0, counts=[said])
    reaching = [cell_of([(top if x else x, y, z) for x, y, z in CUBE], HEX8) for top in (LIMIT, OVER, -LIMIT, -OVER)]
    for name, cell, why in (
            ('vertices_256', cell_of(MANY[:256], TETRA), 0), ('vertices_257', cell_of(MANY, TETRA), 1),
            ('number_2_40', reaching[0], 0), ('number_next', reaching[1], 2),
            ('number_minus_2_40', reaching[2], 0), ('number_minus_next', reaching[3], 2)):
        c = case(name, cell, f'refused {why}' if why else 'passes')
        c.all([(0.25, 0.5, 0.5)])
        c.said(why)
    for name, q, why in (('query_2_40', LIMIT, 0), ('query_next', OVER, 2), ('query_minus_next', -OVER, 2),
                         ('query_nan', math.nan, 2), ('query_infinite', math.inf, 2)):
        c = case(name, cube, f'refused {why}' if why else 'passes')
        c.contains((q, 0.5, 0.5))
        c.contains((0.5, 0.5, q))
        c.said(why)
    stored_otherwise = cell_of(CUBE, [[1, 2, 3, 0], *HEX8[1:]])
    for name, cell, is_closed, volume in (('report_line', cube, 1, 0x3FF0000000000000), ('report_line_not_closed', stored_otherwise, 0, 0x3FE5555555555555)):
        c = case(name, cell, 'as the cell report of SCOPE 15 prints it')
        c.survey((0.5, 0.5, 0.5))
        c.said(0, numbers=[volume], counts=[12, is_closed, 0, 1])
    return out


def sampled(oracle, rng):
    out = []
    for kind, make, count in (('box', box, 60), ('prism', prism, 70), ('torn', torn, 70)):
        for k in range(count):
            vertices, face_list = make(rng)
            c = CellCase(oracle, f'{kind}_{k + 1}', cell_of(vertices, face_list))
            c.all(queries(rng, vertices))
            out.append(c)
    return out


def phed(oracle, rng):
    """The same cells as one list in which the mark ends a face, sound and damaged."""
    out = []
    for k in range(20):
        vertices, face_list = (box, prism, torn)[k % 3](rng)
        entries = [c for f in face_list for c in f + [MARK]]
        if k % 4 == 1:
            entries = entries[:-1]
        if k % 5 == 4:
            entries[rng.randrange(len(entries))] = len(vertices)
        c = CellCase(oracle, f'phed_{k + 1}', (flat(vertices), entries, []))
        for p in queries(rng, vertices):
            c.in_phed(p)
        c.point_lists()
        out.append(c)
    for n in (2304, 2305):
        c = CellCase(oracle, f'phed_entries_{n}', (flat(CUBE), [0] * (n - 1) + [MARK], []), 'its one limit is 2,304 entries')
        c.in_phed((0.5, 0.5, 0.5))
        out.append(c)
    return out


def list_limits(oracle):
    """Lists of points, with marked faces and a query point: each limit at it and past it, and the order of the refusals."""
    cube, marked, middle = flat(CUBE), [c for f in HEX8 for c in f + [MARK]], (0.5, 0.5, 0.5)
    out = []
    for name, coords, entries, p in (
            ('points_none', [], [], middle), ('points_in_threes', cube[:-1], marked, middle),
            ('points_256', flat(MANY[:256]), marked, middle), ('points_257', flat(MANY), marked, middle),
            ('points_2_40', [LIMIT, *cube[1:]], marked, middle), ('points_next', [OVER, *cube[1:]], marked, middle),
            ('points_minus_next', [*cube[:-1], -OVER], marked, middle), ('points_nan', [*cube[:-1], math.nan], marked, middle),
            ('points_infinite', [math.inf, *cube[1:]], marked, middle), ('points_size_before_number', [math.nan] * 2, [9], middle),
            ('points_number_before_index', [math.nan] * 3, [9], middle), ('points_query_2_40', cube, marked, (0.5, LIMIT, 0.5)),
            ('points_query_next', cube, marked, (0.5, OVER, 0.5)), ('points_query_nan', cube, [9], (0.5, 0.5, math.nan)),
            ('points_entry', cube, [*marked, 8], middle), ('points_marks_only', cube, [MARK, MARK], middle)):
        c = CellCase(oracle, name, (coords, entries, []))
        c.in_phed(p)
        c.point_lists()
        out.append(c)
    return out


def surveys(oracle, rng):
    """Many query points, and the refusals of their list."""
    cube, middle = cell_of(CUBE, HEX8), [0.5, 0.5, 0.5]
    wild_cell, falling, stray = (cube[0][:-1] + [math.inf], *cube[1:]), (*cube[:2], cube[2][:-1]), (cube[0], [8, *cube[1][1:]], cube[2])
    rows = [('queries_none', cube, []), ('queries_256', cube, middle * 256), ('queries_257', cube, middle * 257), ('queries_in_threes', cube, middle[:2]),
            ('queries_size_first', wild_cell, middle + middle[:1]), ('queries_number', cube, middle + [0.5, math.nan, 0.5]),
            ('queries_2_40', cube, [*middle, LIMIT, 0.5, 0.5]), ('queries_next', cube, [*middle, OVER, 0.5, 0.5]), ('queries_before_ends', falling, [math.inf, 0.5, 0.5]),
            ('queries_ends', falling, middle), ('queries_index', stray, middle)]
    for k in range(12):
        vertices, face_list = (box, prism, torn)[k % 3](rng)
        rows.append((f'queries_{k + 1}', cell_of(vertices, face_list), flat(p for _ in range(5) for p in queries(rng, vertices))))
    return [SurveyCase(oracle, *row) for row in rows]


def outlines(oracle, rng):
    """Lists of points of the plane."""
    lists = [[], [1.0, 2.0], [1.0], [math.nan, 0.0], [0.0, 2.0 * LIMIT], [LIMIT, -LIMIT, 0.0, LIMIT], [0.0] * 1024, [0.0] * 1026]
    lists += [[rng.uniform(-9, 9) for _ in range(2 * rng.randint(2, 9))] for _ in range(12)]
    out = []
    for k, coords in enumerate(lists):
        c = CellCase(oracle, f'outline_{k + 1}', (coords, [], []))
        c.outline()
        out.append(c)
    return out


def limits(oracle):
    """Each limit of the table, at it and past it."""
    cube = cell_of(CUBE, HEX8)
    rows = [
        ('no_vertex', ([], [], []), 'refused 1'),
        ('no_face', (cube[0], [], []), 'passes'),
        ('faces_256', (cube[0], cube[1], cube[2] + [24] * 250), 'passes'),
        ('faces_257', (cube[0], cube[1], cube[2] + [24] * 251), 'refused 1'),
        ('corners_2048', (cube[0], cube[1] + [0] * 2024, cube[2][:5] + [2048]), 'passes: a face of 2,028 corners'),
        ('corners_2049', (cube[0], cube[1] + [0] * 2025, cube[2][:5] + [2049]), 'refused 1'),
        ('size_before_number', ([math.nan] * 2, [9], [3]), 'refused 1'),
        ('number_before_ends', ([math.nan] * 3, [9], [3]), 'refused 2'),
        ('ends_before_index', ([0.0] * 3, [9], [3]), 'refused 3'),
        ('index', ([0.0] * 3, [9], [1]), 'refused 4'),
    ]
    out = []
    for name, cell, remark in rows:
        c = CellCase(oracle, name, cell, remark)
        for entry in MEASURES:
            c.measure(entry)
        c.is_closed()
        c.contains((0.5, 0.5, 0.5))
        c.contains((0.5, math.nan, 0.5))
        c.survey((0.5, 0.5, 0.5))
        c.survey((0.5, math.nan, 0.5))
        c.triangles(0)
        c.triangle_places(0)
        c.shape()
        c.turning()
        c.turn_faces()
        c.plane(0)
        c.no_area_faces()
        out.append(c)
    room = CellCase(oracle, 'room', cube, 'a face number past the last is refused 4, a list of too few places 6')
    for face, places in ((0, 0), (0, 1), (0, 2), (5, 1), (6, 0), (6, 9), (MARK, 2)):
        room.triangles(face, places)
    out.append(room)
    return out


def damaged(oracle, rng):
    out = limits(oracle)
    for k in range(50):
        vertices, face_list = (box, prism)[k % 2](rng)
        c = CellCase(oracle, f'damaged_{k + 1}', damage(rng, cell_of(vertices, face_list)))
        c.all(queries(rng, vertices)[:1])
        out.append(c)
    return out


def small_norms():
    """Triangles whose planes have a norm at the lower end, as cells of two faces, one against the other. Up to 2^-1024 the inverse of
    the norm overflows; the norm after that is the first of which it does not, and there are norms that the unmodified Rust rounds to the
    other one of the two."""
    origin, e, f = (0.0, 0.0, 0.0), 2.0 ** -512, 2.0 ** -537
    above = [origin, (e, 0.0, 0.0), (0.0, e, (2.0 ** 25 + 1) * 2.0 ** -562)]
    at = [origin, (0.0, 3.0 * 2.0 ** 24 * f, (1.0 - 2.0 ** 25) * f), (-f, (2.0 ** 25 + 1) * f, 0.0)]
    rows = [('norm_of_2_to_minus_1024', [origin, (e, 0.0, 0.0), (0.0, e, 0.0)]),
            ('norm_rounded_down_to_that', at), ('norm_after_that', above),
            ('norm_of_2_to_minus_1023', [origin, (2.0 * e, 0.0, 0.0), (0.0, e, 0.0)]),
            ('norm_of_few_digits', [origin, (0.0, e, e / 2), (e, e / 2, e)]),
            ('norm_of_the_least_number', [origin, (f, 0.0, 0.0), (0.0, f, f)])]
    return [(name, cell_of(vertices, [[0, 1, 2], [2, 1, 0]])) for name, vertices in rows]


def shaped(oracle, rng):
    """Convexity, outward turning and the planes of faces: sound cells, torn ones, damaged ones, and planes whose norm is 0 or small."""
    cube = cell_of(CUBE, HEX8)
    rows = [('cube_shape', cube), ('cube_turned', cell_of(CUBE, [f[::-1] for f in HEX8])),
            ('three_vertices', cell_of(CUBE[:3], [[0, 1, 2], [2, 1, 0]])), ('face_of_none', (cube[0], cube[1], [0, *cube[2]])),
            ('face_number', (cube[0], cube[1], [24])), ('index_before_empty', (cube[0], [8, *cube[1][1:]], [0, *cube[2]])),
            ('corners_in_one_point', cell_of(CUBE, [[1, 1, 1], [2], [0, 6]])),
            ('squares_that_vanish', cell_of([(x * 2.0 ** -300, y * 2.0 ** -290, z) for x, y, z in CUBE], HEX8)), *small_norms()]
    rows += [(f'shape_{k + 1}', cell_of(*make(rng))) for k, make in enumerate((box, prism, torn) * 6)]
    rows += [(f'shape_damaged_{k + 1}', damage(rng, cell_of(*box(rng)))) for k in range(6)]
    out = []
    for name, cell in rows:
        c = CellCase(oracle, name, cell)
        c.shape_and_planes()
        c.plane(len(cell[2]))
        out.append(c)
    return out


def short_lists(oracle):
    """A list too short for the answer is 6, after every other refusal, and then every list stays as it was."""
    coords, corners, ends = cell_of(CUBE, HEX8)
    out = []
    for name, cell in (('short_lists', (coords, corners, ends)), ('short_lists_size', (coords[:-1], corners, ends)),
                       ('short_lists_number', ([math.nan, *coords[1:]], corners, ends)), ('short_lists_ends', (coords, corners, ends[:-1])),
                       ('short_lists_index', (coords, [8, *corners[1:]], ends)), ('short_lists_of_none', (coords, corners, [0, *ends])),
                       ('short_lists_backward', cell_of(CUBE, [*HEX8[:5], HEX8[5][::-1]])), ('short_lists_open', cell_of(CUBE, HEX8[:5]))):
        c = CellCase(oracle, name, cell)
        c.all_in_short_lists((0.5, 0.5, 0.5))
        out.append(c)
    return out
