"""Questions with two work lists: clipping and overlaps. What follows the first part of the line's lists is the second part."""
import math

import areas
import clipping
from asking import Case, FILLER, MARK, bits, flat, in_parts, points
from cells import CUBE, HEX8, TETRA, box, cell_of, damage, hull, near_box, prism, shifted, torn, turned, turned_box, turned_prism
from table import LIMIT, clip_refusal, faces, overlap_refusal, planar_refusal


def room_for(held, size):
    """Lengths of work lists that hold so many points; one has a number over."""
    n = size * max(held, 0)
    return n, n + 1


class ClipCase(Case):
    def put_work(self, entry, arguments, lengths, why, shown, values=(), counts=(), outline=(), second=0):
        """An answer, and both lists: as they were on 1 to 5, else +0 save the outline."""
        why = self.refused(entry, why)
        lists = [[0 if why in (0, 6) else FILLER] * n for n in lengths]
        if not why and outline:
            stored = [bits(x) for p in outline for x in p]
            lists[second][:len(stored)] = stored
        shown = f'{shown}, work lists of {lengths[0]} and {lengths[1]}'
        self.put(entry, arguments, why, values, counts, shown, dict(zip(('first', 'second'), lists)))


class FaceCase(ClipCase):
    """A cell whose face is clipped by planes."""

    def __init__(self, oracle, name, cell, planes, remark=''):
        coords, corners, ends = cell
        self.sound, self.planes = cell, planes
        super().__init__(oracle, name, (coords + planes, corners, ends), remark, {'vertices': coords, 'planes': planes})

    def clip(self, face, eps=0.0, lengths=None, room=None):
        """Asks with the lengths of the work lists, or with so many points more than they need."""
        why = clip_refusal(self.sound, face, self.planes, lengths or (0, 0))
        outline, second, most = ([], 0, 0) if why else self.told_again(face, eps)
        lengths = lengths or room_for(most + room, 3)
        why = why or (6 if most > min(lengths) // 3 else 0)
        counts = [len(outline), second if outline else 0]
        self.put_work('clip_face', [len(self.sound[0]), face, bits(eps)], lengths, why, f' face {face}, eps {eps!r}', (), counts, outline, second)

    def told_again(self, face, eps):
        vertices = in_parts(self.sound[0], 3)
        return clipping.clip_face(self.oracle, [vertices[c] for c in faces(self.sound)[face]], in_parts(self.planes, 4), eps)


class OutlineCase(ClipCase):
    """A subject and a clip list of the plane."""

    def __init__(self, oracle, name, subject, clip, remark=''):
        self.subject, self.clip = subject, clip
        super().__init__(oracle, name, (subject + clip, [], []), remark, {'subject': subject, 'clip list': clip})

    def ask(self, lengths=None, room=0):
        """The outline left, and its area."""
        why = planar_refusal(self.subject, self.clip, lengths or (0, 0))
        outline, second, most = ([], 0, 0) if why else clipping.clip_convex(self.oracle, in_parts(self.subject, 2), in_parts(self.clip, 2))
        lengths = lengths or room_for(most + room, 2)
        why = why or (6 if most > min(lengths) // 2 else 0)
        counts = [len(outline), second if outline else 0]
        self.put_work('clip_convex', [len(self.subject)], lengths, why, '', (), counts, outline, second)
        area = [] if why else self.oracle.patterns('convex_intersection_area', f'{points(self.subject, 2)} {points(self.clip, 2)}')
        self.put_work('convex_intersection_area', [len(self.subject)], lengths, why, '', area)


class PairCase(ClipCase):
    """Two cells."""

    def __init__(self, oracle, name, cell, other, remark=''):
        self.first, self.second = cell, other
        told = {'vertices': cell[0], 'vertices of the second': other[0]}
        super().__init__(oracle, name, tuple(a + b for a, b in zip(cell, other)), remark, told)

    def overlap(self, lengths=None, room=0):
        why = overlap_refusal(self.first, self.second, lengths or (0, 0))
        volume, self.most = (0.0, 0) if why else clipping.overlap(self.oracle, self.first, self.second)
        lengths = lengths or room_for(self.most + room, 3)
        why = why or (6 if self.most > min(lengths) // 3 else 0)
        sizes = [len(part) for part in self.first]
        shown = ' of the first {} numbers, {} corners, {} ends with the rest'.format(*sizes)
        counts = [] if why else [sum(areas.flags(self.oracle, cell)) for cell in (self.first, self.second)]
        self.put_work('convex_intersection_volume', sizes, lengths, why, shown, [bits(volume)], counts)


def made(out, case):
    out.append(case)
    return case


CUBE_CELL = cell_of(CUBE, HEX8)
MANY = cell_of([(0, 0, 0)] * 257, TETRA)
SQUARE = cell_of([(0, 0, 0), (2, 0, 0), (2, 2, 0), (0, 2, 0)], [[0, 1, 2, 3]])
X_TO_1 = [1.0, 0.0, 0.0, 1.0]


def square(low):
    return [float(x) for x in (low, low, low + 2, low, low + 2, low + 2, low, low + 2)]


def worked(oracle):
    """The rows of SCOPE 16, 'Worked by hand', on clipping and overlaps."""
    out = []
    c = made(out, FaceCase(oracle, 'square_by_x_1', SQUARE, X_TO_1, '(0,0), (1,0), (1,2), (0,2)'))
    c.clip(0, lengths=(12, 12))
    c.said(0, counts=[4, 1], first=[0] * 12, second=[bits(x) for x in (0.0, 0.0, 0.0, 1.0, 0.0, 0.0, 1.0, 2.0, 0.0, 0.0, 2.0, 0.0)])
    c = made(out, FaceCase(oracle, 'cut_off_its_segment', cell_of([(0.75, 0, 0), (1.25, 4, 0), (0, 0, 8)], [[0, 1, 2]]), [1.0, 0.0, 0.0, 0.0]))
    c.clip(0, 1.0, room=0)
    for name, clip, area in (('squares_overlap', square(1), 1.0), ('no_clip_list', [], 4.0)):
        c = made(out, OutlineCase(oracle, name, square(0), clip, f'area {area:g}'))
        c.ask()
        if c.questions[1][1]['numbers'][0] != bits(area):
            raise SystemExit(f'{name} is not as SCOPE 16 has it')
    for step in ((1, 0, 0), (0, -1, 0), (0, 0, 1)):
        c = made(out, PairCase(oracle, 'cubes_that_share_a_face_' + 'xyz'[[bool(s) for s in step].index(True)], CUBE_CELL, cell_of(shifted(CUBE, step), HEX8), 'overlap 0'))
        c.overlap(room=1)
        c.said(0, numbers=[0])
    return out


def strange_planes(oracle):
    """Planes with a NaN part cut nothing; one with three infinite parts may cut; a face of few points; no plane at all."""
    nan, inf = math.nan, math.inf
    out = []
    for k, plane in enumerate(([nan, 0.0, 0.0, 1.0], [1.0, 0.0, nan, 1.0], [0.0, 0.0, 0.0, nan], [inf, inf, inf, 0.0],
                               [inf, inf, inf, inf], [-inf, -inf, -inf, 1.0], [inf, 0.0, 0.0, 1.0])):
        c = made(out, FaceCase(oracle, f'strange_plane_{k + 1}', CUBE_CELL, plane))
        for face in (0, 3):
            c.clip(face, room=1)
    leaning = cell_of([(-1, -1, -1), (-2, -1, -1), (-2, -3, -1), (1, 1, 1), (2, 1, 1)], [[0, 1, 2, 3, 4]])
    c = made(out, FaceCase(oracle, 'three_infinite_parts', leaning, [inf, inf, inf, 0.0]))
    c.clip(0, room=0)
    few = cell_of(CUBE, [[], [6], [1, 6], [1, 6, 2]])
    for name, planes in (('no_planes', []), ('few_points', X_TO_1)):
        c = made(out, FaceCase(oracle, name, few, planes))
        for face in range(4):
            c.clip(face, room=0)
    for k, eps in enumerate((nan, inf, -inf, -0.5, 0.5, 2.0)):
        c = made(out, FaceCase(oracle, f'strange_eps_{k + 1}', SQUARE, X_TO_1 + [0.0, 1.0, 0.0, 1.5]))
        c.clip(0, eps, room=0)
    return out


def clip_rooms(oracle):
    """Work lists at the need, one number below it, one point below it, and of two lengths."""
    corner = [1.0, 0.0, 0.0, 0.5, 0.0, 1.0, 0.0, 0.75, 1.0, 1.0, 0.0, 1.0]
    out = []
    c = made(out, FaceCase(oracle, 'clip_rooms', CUBE_CELL, corner, 'the face has 4 points, and 5 are left by the last plane'))
    for lengths in ((15, 15), (14, 15), (15, 14), (17, 16), (12, 40), (40, 11), (0, 0), (60, 15)):
        c.clip(1, lengths=lengths)
    c = made(out, FaceCase(oracle, 'doubled_points', cell_of([(0, 0, 0), (1, 0, 0), (2, 1, 0), (1, 1, 0), (0, 1, 0)], [[0, 1, 2, 3, 4]]), X_TO_1,
                           'crossings at points that are there are dropped after the room is asked'))
    for n in (18, 17, 15, 12):
        c.clip(0, lengths=(n, n))
    c = made(out, OutlineCase(oracle, 'planar_rooms', square(0), [1.0, -1.0, 3.0, 1.0, 1.0, 3.0]))
    for lengths in ((12, 12), (11, 12), (12, 11), (10, 10), (8, 9), (7, 9), (0, 40), (40, 13)):
        c.ask(lengths)
    c = made(out, PairCase(oracle, 'overlap_rooms', CUBE_CELL, cell_of(shifted(CUBE, (0.5, 0.25, -0.5)), HEX8)))
    for lengths in ((12, 12), (11, 12), (12, 11), (13, 14), (9, 9), (0, 0)):
        c.overlap(lengths)
    c = made(out, PairCase(oracle, 'boxes_that_miss', CUBE_CELL, cell_of(shifted(CUBE, (2, 0, 0)), HEX8), 'no room is asked'))
    c.overlap((0, 5))
    return out


def clip_limits(oracle):
    """Each refusal of clipping at its limit, and their order."""
    coords, corners, ends = CUBE_CELL
    wild_cell, falling, stray = ([math.nan, *coords[1:]], corners, ends), (coords, corners, ends[::-1]), (coords, [*corners[:-1], 8], ends)
    out = []
    for name, cell, face, planes, lengths in (
            ('planes_256', CUBE_CELL, 0, [0.0] * 1020 + X_TO_1, (15, 15)), ('planes_257', CUBE_CELL, 0, [0.0] * 1024 + X_TO_1, (15, 15)),
            ('planes_in_fours', CUBE_CELL, 0, X_TO_1[:3], (15, 15)),
            ('work_3072', CUBE_CELL, 0, X_TO_1, (12, 3072)), ('work_3073', CUBE_CELL, 0, X_TO_1, (15, 3073)),
            ('first_work_3073', CUBE_CELL, 0, X_TO_1, (3073, 15)),
            ('clip_vertices_257', MANY, 0, [], (9, 9)),
            ('clip_planes_before_number', wild_cell, 9, X_TO_1[:3], (0, 0)), ('clip_number', wild_cell, 9, X_TO_1, (0, 0)),
            ('clip_ends', falling, 9, X_TO_1, (0, 3)), ('clip_index', stray, 0, X_TO_1, (0, 0)), ('clip_face_number', CUBE_CELL, 6, X_TO_1, (0, 0)),
            ('clip_face_mark', CUBE_CELL, MARK, X_TO_1, (0, 0)), ('clip_room', CUBE_CELL, 5, X_TO_1, (0, 0)),
            ('clip_planes_wild', CUBE_CELL, 0, [4.0 * LIMIT, math.nan, 0.0, 1.0], (15, 15))):
        made(out, FaceCase(oracle, name, cell, planes)).clip(face, lengths=lengths)
    return out


def planar_limits(oracle):
    nan_square, two = [math.nan, *square(0)[1:]], [1.0, 2.0, 3.0, 5.0]
    many = [1.0, 2.0, 3.0, 5.0] + [0.0] * 1022
    out = []
    for name, subject, clip, lengths in (
            ('two_points_no_edge', two, [], (4, 5)), ('two_points_an_edge', two, square(0), (4, 4)), ('one_point', two[:2], [], (2, 2)),
            ('no_point', [], square(0), (4, 4)), ('no_point_no_edge', [], [], (3, 3)),
            ('subject_512', many[:1024], [], (1024, 1024)), ('subject_513', many, [], (9, 9)),
            ('clip_512', square(0), many[:1024], (64, 64)), ('clip_513', square(0), many, (9, 9)),
            ('subject_in_pairs', square(0)[:7], [], (9, 9)), ('clip_in_pairs', square(0), square(1)[:7], (9, 9)),
            ('planar_work_3073', square(0), square(1), (9, 3073)), ('planar_work_before_number', nan_square, square(1), (3073, 9)),
            ('subject_number', nan_square, square(1)[:7], (9, 9)), ('clip_number_2', square(0), nan_square, (0, 0)),
            ('subject_2_40', [LIMIT, *square(0)[1:]], square(1), (16, 16)), ('subject_next', [math.nextafter(LIMIT, math.inf), 0.0], [], (4, 4))):
        made(out, OutlineCase(oracle, name, subject, clip)).ask(lengths)
    return out


def overlap_limits(oracle):
    """The first cell through 5, then the second, then room; the work lists with the first cell's size."""
    coords, corners, ends = CUBE_CELL
    size, wild_cell = (coords[:-1], corners, ends), ([math.inf, *coords[1:]], corners, ends)
    falling, stray = (coords, corners, ends[:-1]), (coords, [8, *corners[1:]], ends)
    empty, bare = (coords, corners, [0, *ends]), (coords, [], [])
    small = cell_of([[x * 2.0 ** -300 for x in v] for v in CUBE], HEX8)
    out = []
    for name, cell, other, lengths in (
            ('overlap_size', size, size, (0, 0)), ('overlap_number', wild_cell, size, (0, 0)), ('overlap_ends', falling, size, (0, 0)),
            ('overlap_index', stray, size, (0, 0)), ('overlap_empty', empty, size, (2, 0)), ('second_size', CUBE_CELL, size, (0, 2)),
            ('second_number', CUBE_CELL, wild_cell, (0, 0)), ('second_ends', CUBE_CELL, falling, (0, 0)),
            ('second_index', CUBE_CELL, stray, (0, 0)), ('second_empty', CUBE_CELL, empty, (0, 0)), ('overlap_room', CUBE_CELL, CUBE_CELL, (0, 0)),
            ('overlap_work_3073', wild_cell, CUBE_CELL, (3073, 0)), ('overlap_work_3072', CUBE_CELL, CUBE_CELL, (3072, 12)),
            ('second_of_no_face', CUBE_CELL, bare, (12, 12)), ('first_of_no_face', bare, CUBE_CELL, (12, 12)), ('no_faces', bare, bare, (0, 0)),
            ('squares_vanish', small, small, (30, 30)), ('small_in_large', CUBE_CELL, small, (30, 30)),
            ('second_vertices_257', CUBE_CELL, MANY, (0, 0))):
        made(out, PairCase(oracle, name, cell, other)).overlap(lengths)
    return out


def clips(oracle, rng):
    """Faces of random cells by planes of others and by random planes; outlines by outlines."""
    out = []
    for k in range(24):
        vertices, face_list = (turned_box, turned_prism, hull, torn)[k % 4](rng)
        planes = flat([(*normal, rng.uniform(-0.4, 0.6)) for normal in turned(rng, [(1.0, 0.0, 0.0), (0.0, 1.0, 0.0), (0.6, 0.0, 0.8)][:1 + k % 3])])
        c = made(out, FaceCase(oracle, f'clip_{k + 1}', cell_of(vertices, face_list), planes))
        for face in range(min(3, len(face_list))):
            c.clip(face, rng.choice((0.0, 1e-12, 0.1)), room=rng.choice((-1, 0, 0, 1)))
    for k in range(24):
        subject, clip = ([rng.uniform(-1, 1) for _ in range(2 * rng.randint(3, 6))] for _ in range(2))
        if k % 3 == 0:
            subject, clip = ([float(rng.randint(-2, 2)) for _ in range(8)] for _ in range(2))
        if k % 3 == 1:
            subject, clip = round_outline(rng), round_outline(rng)
        made(out, OutlineCase(oracle, f'planar_{k + 1}', subject, clip)).ask(room=rng.choice((-1, 0, 0, 2)))
    return out


def round_outline(rng):
    """A convex outline, counterclockwise."""
    n, (x, y), r = rng.randint(3, 7), (rng.uniform(-0.5, 0.5), rng.uniform(-0.5, 0.5)), rng.uniform(0.5, 1.5)
    return flat([(x + r * math.cos(6.28318 * k / n), y + r * math.sin(6.28318 * k / n)) for k in range(n)])


def pairs(oracle, rng):
    """Pairs of cells: boxes with faces in one plane, turned boxes, prisms and hulls, equal cells, and cells that are not sound solids."""
    out = []
    for kind, count, first, second in (('boxes', 10, near_box, near_box), ('turned_boxes', 6, turned_box, turned_box), ('prisms', 5, turned_prism, turned_box),
                                       ('hulls', 6, hull, hull), ('hull_in_prism', 3, hull, turned_prism)):
        for k in range(count):
            c = made(out, PairCase(oracle, f'{kind}_{k + 1}', cell_of(*first(rng)), cell_of(*second(rng))))
            c.overlap(room=0)
            c.overlap(room=-1)
    for k in range(4):
        vertices, face_list = (turned_box, hull)[k % 2](rng)
        near = shifted(vertices, [rng.choice((0.0, 1e-5, 1e-3)) for _ in range(3)])
        made(out, PairCase(oracle, f'nearly_equal_{k + 1}', cell_of(vertices, face_list), cell_of(near, face_list))).overlap()
    for k in range(6):
        vertices, face_list = (torn, prism, box)[k % 3](rng)
        made(out, PairCase(oracle, f'any_cells_{k + 1}', cell_of(vertices, face_list), cell_of(shifted(vertices, (0.1, 0.0, 0.2)), HEX8 if len(vertices) == 8 else face_list))).overlap()
    for k in range(8):
        sound, broken = cell_of(*turned_box(rng)), damage(rng, cell_of(*turned_box(rng)))
        made(out, PairCase(oracle, f'pair_damaged_{k + 1}', *((sound, broken) if k % 2 else (broken, sound)))).overlap()
    return out


def short_lists(oracle):
    """Lists too short to say what is left, or for its measure: 6, and then both work lists are +0 and nothing is shown."""
    out = []
    for name, planes, face in (('short_shown', X_TO_1, 0), ('short_shown_nothing_left', [1.0, 0.0, 0.0, -1.0], 0), ('short_shown_face_number', X_TO_1, 1)):
        c = made(out, FaceCase(oracle, name, SQUARE, planes))
        for lengths in ((12, 13), (9, 12)):
            c.in_short_lists('clip_face', lambda lengths=lengths: c.clip(face, lengths=lengths))
    for name, subject in (('short_area', square(0)), ('short_area_number', [math.nan, *square(0)[1:]])):
        c = made(out, OutlineCase(oracle, name, subject, square(1)))
        for short in ((1, 1), (2, 2), (2, 3)):
            c.short = short
            for lengths in ((16, 17), (4, 9)):
                c.ask(lengths)
    flat = cell_of(CUBE, [*HEX8, [0, 2, 1, 3]])
    for name, other in (('short_overlap', CUBE_CELL), ('short_overlap_number', ([math.inf, *CUBE_CELL[0][1:]], *CUBE_CELL[1:])),
                        ('short_overlap_no_area', flat), ('short_overlap_miss', cell_of(shifted(CUBE, (2, 0, 0)), [[1, 6], *HEX8]))):
        c = made(out, PairCase(oracle, name, CUBE_CELL, other))
        for lengths in ((12, 13), (9, 12)):
            c.in_short_lists('convex_intersection_volume', lambda lengths=lengths: c.overlap(lengths))
    return out
