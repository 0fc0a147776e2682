"""Questions on triangles by place, on triangles that are checked (SCOPE 7.9, SCOPE 20), and on the tests of a cut (request 10). The answers
of `rows` are worked by hand, and table.py and cuts.py must give the same; those of random lists are theirs. Cuts by place are the Rust's.
The tests in `TESTED` are worked out ring by ring, apart from the oracle, and those that the oracle counts must be as many."""
from asking import Case, MARK
from cells import CUBE, HEX8, SEVEN, box, cell_of, outline, prism, torn
from cuts import is_cut
from on_cells import CellCase, in_words
from table import check_refusal

# The vertex in the middle stands at the places 1 and 4 of the face.
HOURGLASS, TWICE = [(0, 0, 0), (1, 1, 0), (0, 2, 0), (2, 2, 0), (2, 0, 0)], [0, 1, 2, 3, 1, 4]


# A whole number so large that the square of the next one is rounded; and nine corners of which the third blocks the last corner of every
# ring of five or more, by rounding.
NEAR, TINY = 2.0 ** 27, 2.0 ** -52
NINE = [(7, -5, 0), (7 - 16 * TINY, -5 + 8 * TINY, 0), (2 * TINY, TINY, 0), (6, -4, 0), (-6 * TINY, 6 * TINY, 0), (-2 * TINY, 3 * TINY, 0),
        (3 * TINY, -TINY, 0), (4 * TINY, -2 * TINY, 0), (11 * TINY, -10 * TINY, 0)]


def alone(corners):
    """A face of these corners, the only one of its cell."""
    return cell_of(corners, [range(len(corners))])


# A cell of one face, how many triangles that gives, and how many tests are made at its rings of more than three corners, one ring after the
# other. Where two numbers stand in brackets both passes are made over a ring.
TESTED = (
    ('no_corner', cell_of(CUBE, [[]]), 0, 0), ('one_corner', cell_of(CUBE, [[3]]), 0, 0), ('two_corners', cell_of(CUBE, [[4, 6]]), 0, 0),
    ('three_corners', cell_of(CUBE, [[4, 6, 1]]), 1, 0), ('three_in_a_point', cell_of(CUBE, [[2, 2, 2]]), 1, 0),
    ('square', alone([(0, 0, 0), (1, 0, 0), (1, 1, 0), (0, 1, 0)]), 2, 1),
    ('letter_l', alone([(0, 0, 0), (2, 0, 0), (2, 1, 0), (1, 1, 0), (1, 2, 0), (0, 2, 0)]), 4, 1 + 1 + 3),
    ('seven', alone(SEVEN), 3, 1 + 1 + 2 + (4 + 4)),
    ('spiked', alone([(0, 0, 0), (0, 2, 0), (0, 1, 0), (1, 0, 0), (2, 0, 0)]), 1, 1 + (4 + 4)),
    ('second_pass', alone([(1, 1, 0), (3, 0, 0), (2, 1, 0), (0, 0, 0), (1, 3, 0), (3, 1, 0), (3, 3, 0)]), 5, (7 + 4) + 3 + 3 + 3),
    # The foot of a thin box far from the origin: no corner stands its test, and 4 * 4 + 4 - 12 tests are the most there may be.
    ('most', alone([(8588590.0 + x, 8529546.0 + y, 2969498.0) for x, y in ((0, 0), (0, 0.25), (0.05, 0.25), (0.05, 0))]), 0, (4 + 4)),
    # The faces of crates/worked/specs/Tests.antt: both passes go over every ring to its end, and leave the corners 0 to 3.
    ('most_4', alone([(NEAR, NEAR, 0), (NEAR, NEAR + 1, 0), (NEAR + 1, NEAR + 1, 0), (NEAR + 1, NEAR, 0)]), 0, (4 + 4)),
    *((f'most_{n}', alone(NINE[:n]), n - 4, sum(m + m for m in range(4, n + 1))) for n in range(5, 10)))


class ListCase(Case):
    """Triangles that are checked: their places stand in the corner list."""

    def check(self, n):
        places = self.cell[1]
        why = check_refusal(n, places)
        self.put('check_cut', [n], why, counts=[] if why else [int(is_cut(n, places))], shown=f' {n} corners')


def fan(n):
    return [x for k in range(1, n - 1) for x in (0, k, k + 1)]


def rows():
    """A face of so many corners, the places that are sent, and the code with 1 for yes or 0 for no, or the refusal with None."""
    square, hexagon = [0, 1, 2, 0, 2, 3], [0, 1, 2, 2, 3, 4, 4, 5, 0]
    yes, no, size, index = (0, 1), (0, 0), (1, None), (4, None)
    yield 'three', 3, [0, 1, 2], yes
    yield 'three_from_1', 3, [1, 2, 0], yes
    yield 'three_backward', 3, [0, 2, 1], no
    yield 'three_of_none', 3, [], no
    yield 'square', 4, square, yes
    yield 'square_other_cut', 4, [1, 2, 3, 3, 0, 1], yes
    yield 'square_other_order', 4, [2, 3, 0, 1, 2, 0], yes
    yield 'square_doubled', 4, [0, 1, 2, 0, 1, 2], no
    yield 'square_one_turned', 4, [0, 1, 2, 0, 3, 2], no
    yield 'square_both_turned', 4, [0, 2, 1, 0, 3, 2], no
    yield 'square_one_missing', 4, [0, 1, 2], no
    yield 'square_one_more', 4, [*square, 0, 1, 2], no
    yield 'square_overlapping', 4, [0, 1, 2, 1, 2, 3], no
    yield 'square_place_twice', 4, [0, 1, 1, 1, 2, 3], no
    yield 'pentagon', 5, fan(5), yes
    yield 'hexagon_strip', 6, [0, 1, 5, 1, 2, 5, 2, 4, 5, 2, 3, 4], yes
    yield 'hexagon_middle', 6, [*hexagon, 0, 2, 4], yes
    yield 'hexagon_middle_turned', 6, [*hexagon, 0, 4, 2], no
    yield 'hexagon_and_a_pillow', 6, [*hexagon, 0, 2, 4, 1, 3, 5, 1, 5, 3], no
    yield 'seven_with_a_pillow', 7, [0, 1, 2, 2, 3, 4, 4, 5, 6, 1, 3, 5, 1, 5, 3], no
    yield 'most_corners', 256, fan(256), yes
    yield 'most_corners_one_less', 256, fan(255), no
    yield 'no_corner', 0, [], size
    yield 'two_corners_sent', 2, [0, 1, 0], size
    yield 'corners_257', 257, fan(257), size
    yield 'corners_most', MARK, [0, 1, 2], size
    yield 'not_in_threes', 4, square[:-1], size
    yield 'triangles_255', 256, [*fan(256), 0, 1, 2], size
    yield 'triangles_254_of_4', 4, [0, 1, 2] * 254, no
    yield 'size_before_place', 4, [0, 1, 4, 9], size
    yield 'place_n', 4, [0, 1, 2, 0, 2, 4], index
    yield 'place_beyond', 5, [MARK, 1, 2], index
    yield 'place_last', 4, [0, 1, 2, 0, 2, 3, 9, 9, 9], index


def random_cut(rng, n):
    """Corners taken off a ring in any order, each triangle from any of its places on."""
    ring, triangles = list(range(n)), []
    while len(ring) >= 3:
        k, turn = rng.randrange(len(ring)), rng.randrange(3)
        ear = [ring[k - 1], ring[k], ring[(k + 1) % len(ring)]]
        triangles.append(ear[turn:] + ear[:turn])
        del ring[k]
    rng.shuffle(triangles)
    return triangles


def spoilt(rng, n, triangles):
    """A cut after one change out of six, some of which leave it a cut."""
    k, other = rng.randrange(len(triangles)), rng.randrange(len(triangles))
    fault = rng.randrange(6)
    if fault == 0:
        triangles[k] = triangles[k][::-1]
    elif fault == 1:
        triangles[k] = triangles[other]
    elif fault == 2:
        del triangles[k]
    elif fault == 3:
        triangles[k] = [rng.randrange(n + 1), *triangles[k][1:]]
    elif fault == 4:
        triangles[k][0], triangles[other][0] = triangles[other][0], triangles[k][0]
    else:
        triangles.insert(k, rng.sample(range(n), 3))
    return triangles


def face_of(rng, n):
    """A cell of one face of n corners, whose vertices are numbered in any order."""
    numbers = rng.sample(range(n), n)
    point_of = dict(zip(numbers, outline(rng, n)))
    return cell_of([(*point_of[v], 0.0) for v in range(n)], [numbers])


def cuts(oracle, rng):
    out = []

    def checked(name, n, places, remark=''):
        c = ListCase(oracle, f'check_{name}', ([], places, []), remark)
        c.check(n)
        out.append(c)
        return c

    def cut(name, cell, remark=''):
        c = CellCase(oracle, f'places_{name}', cell, remark)
        for k in c.faces_asked():
            c.triangle_places(k)
        out.append(c)
        return c

    for name, n, places, (why, said) in rows():
        remark = f'refused {why}' if why else 'a cut' if said else 'not a cut'
        checked(name, n, places, remark).said(why, **({} if why else {'counts': [said]}))
    for k in range(60):
        n = rng.choice((3, 4, 5, 6, 7, 9, 16, 17, 40, 64, 65, 128, 256))
        triangles = random_cut(rng, n)
        if k % 3:
            triangles = spoilt(rng, n, triangles)
        checked(k + 1, n, [p for t in triangles for p in t])
    hourglass = cut('hourglass', cell_of(HOURGLASS, [TWICE]), 'a face that holds a vertex twice')
    hourglass.said(0, counts=[4, 3], triangles=[5, 0, 1, 5, 1, 2, 5, 2, 3, 3, 4, 5])
    cut('seven_corners', cell_of(SEVEN, [range(7)]), 'cut short').said(0, counts=[3, 12], triangles=[6, 0, 1, 6, 1, 2, 2, 3, 4])
    cut('small_faces', cell_of(CUBE, [[], [3], [4, 6], [4, 6, 1]]))
    cut('outside', (*cell_of(CUBE, HEX8)[:1], [8], [1]), 'refused 4')
    for k in range(30):
        cut(k + 1, cell_of(*(box, prism, torn)[k % 3](rng)))
    for n in (16, 17, 128, 129, 200):
        cut(f'face_{n}', face_of(rng, n), f'a face of {n} corners')
    room = CellCase(oracle, 'places_room', cell_of(CUBE, HEX8), 'a face number past the last is refused 4, a list of too few places 6')
    for face, places in ((0, 0), (0, 1), (0, 2), (5, 1), (6, 0), (6, 9), (MARK, 2)):
        room.triangle_places(face, places)
    return out + [room]


def tested(oracle):
    """The faces of `TESTED`, by vertex and by place."""
    out = []
    for name, cell, count, tests in TESTED:
        c = CellCase(oracle, f'tests_{name}', cell, in_words(count, tests))
        c.triangles(0)
        c.triangle_places(0)
        c.said(0, counts=[count, tests])
        out.append(c)
    return out


def short_lists(oracle):
    """A list too short for the answer is 6, after every other refusal."""
    out = []
    for name, n, places in (('cut', 4, fan(4)), ('cut_size', 2, []), ('cut_place', 3, [0, 1, 3])):
        c = ListCase(oracle, 'short_lists_' + name, ([], places, []))
        c.in_short_lists('check_cut', lambda c=c, n=n: c.check(n))
        out.append(c)
    for name, cell in (('places', cell_of(CUBE, HEX8)), ('places_index', (*cell_of(CUBE, HEX8)[:1], [8], [1]))):
        c = CellCase(oracle, 'short_lists_' + name, cell)
        c.in_short_lists('triangle_places', lambda c=c: c.triangle_places(0))
        out.append(c)
    # Lists for triangles and for both counts, each too short or not.
    for name, cell in (('tests_seven', alone(SEVEN)), ('tests_two', cell_of(CUBE, [[4, 6]])),
                       ('tests_three', cell_of(CUBE, [[4, 6, 1]])), ('tests_index', cell_of(CUBE, [[4, 6, 8]]))):
        c = CellCase(oracle, 'short_lists_' + name, cell)
        for entry in ('triangles', 'triangle_places'):
            for room in (0, 1, 4, 5):
                c.triangles(0, room, entry)
                c.in_short_lists(entry, lambda c=c, room=room, entry=entry: c.triangles(0, room, entry))
        out.append(c)
    return out
