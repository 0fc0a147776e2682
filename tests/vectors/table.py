"""The table of refusals, SCOPE 3: the number of the first row that applies, 0 for none."""

from asking import MARK

LIMIT = 2.0 ** 40


def wild(xs):
    return any(not abs(x) <= LIMIT for x in xs)


def sized(coords):
    return len(coords) % 3 == 0 and 1 <= len(coords) // 3 <= 256


def falls(corners, ends):
    steps = [0, *ends]
    return any(a > b for a, b in zip(steps, steps[1:])) or steps[-1] != len(corners)


def faces(cell):
    _, corners, ends = cell
    return [corners[a:b] for a, b in zip([0, *ends], ends)]


def refusal(cell, query=(), face=None, room=None):
    """A cell, the values of a query, a face's number, and places for the triangles of that face."""
    coords, corners, ends = cell
    if not sized(coords) or len(ends) > 256 or len(corners) > 2048:
        return 1
    if wild(coords) or wild(query):
        return 2
    if falls(corners, ends):
        return 3
    if any(c >= len(coords) // 3 for c in corners) or (face is not None and face >= len(ends)):
        return 4
    if room is not None and room < len(faces(cell)[face]) - 2:
        return 6
    return 0


def faces_refusal(cell, face=None):
    """Planes, outward turning and overlap: also a face of no corner."""
    return refusal(cell, face=face) or (5 if any(not f for f in faces(cell)) else 0)


def survey_refusal(cell, queries):
    """A cell and its query points, whose size is judged with the cell's 1 and whose values with its 2."""
    return 1 if len(queries) % 3 or len(queries) > 768 else refusal(cell, query=queries)


def phed_refusal(coords, entries, query):
    if not sized(coords) or len(entries) > 2304:
        return 1
    if wild(coords) or wild(query):
        return 2
    return 4 if any(c != MARK and c >= len(coords) // 3 for c in entries) else 0


def list_refusal(coords):
    return 1 if not sized(coords) else 2 if wild(coords) else 0


def plane_refusal(coords):
    return 1 if len(coords) % 2 or len(coords) > 1024 else 2 if wild(coords) else 0


def check_refusal(n, places):
    """Triangles that are checked against a face of n corners: the sizes of the face and of the list, then places that the face has not."""
    if not 3 <= n <= 256 or len(places) % 3 or len(places) // 3 > 254:
        return 1
    return 4 if any(place >= n for place in places) else 0


def work_refusal(lengths):
    return 1 if any(n > 3072 for n in lengths) else 0


def clip_refusal(cell, face, planes, lengths):
    """Planes and work lists are judged with the cell's 1; the planes' numbers are taken as they are."""
    if len(planes) % 4 or len(planes) > 1024:
        return 1
    return work_refusal(lengths) or refusal(cell, face=face)


def planar_refusal(subject, clip, lengths):
    return work_refusal(lengths) or plane_refusal(subject) or plane_refusal(clip)


def overlap_refusal(cell, other, lengths):
    return work_refusal(lengths) or faces_refusal(cell) or faces_refusal(other)
