"""What SCOPE 8 and SCOPE 14 say of sides: closedness, and the turning of backward faces. The Rust has neither."""
from collections import Counter

from table import faces, refusal


def sides(face):
    """From each corner to the next and from the last to the first, where the two differ."""
    return [(i, j) for i, j in zip(face, face[1:] + face[:1]) if i != j]


def closed(face_list):
    """Whether, for all i and j that differ, sides i to j are as many as j to i."""
    runs = Counter(side for f in face_list for side in sides(f))
    return all(runs[i, j] == runs[j, i] for i, j in runs)


def unfit(face_list):
    """Whether a side, taken without direction, does not occur exactly twice, or a face holds a vertex twice."""
    occurs = Counter(frozenset(side) for f in face_list for side in sides(f))
    return any(n != 2 for n in occurs.values()) or any(len(set(f)) < len(f) for f in face_list)


def spread(face_list):
    """The one choice that can close the cell and keeps the lowest face of each group: a face that meets one of its group
    before it at a side must run that side the other way."""
    having, after = {}, {}
    for k, f in enumerate(face_list):
        for side in sides(f):
            having.setdefault(frozenset(side), set()).add(k)
    for lowest in range(len(face_list)):
        if lowest in after:
            continue
        after[lowest], group = face_list[lowest], [lowest]
        for k in group:
            for i, j in sides(after[k]):
                for other in having[frozenset((i, j))] - after.keys():
                    f = face_list[other]
                    after[other] = f if (j, i) in sides(f) else f[::-1]
                    group.append(other)
    return [after[k] for k in range(len(face_list))]


def turned(cell):
    """The refusal, how many faces are reversed, and the corners afterwards."""
    why = refusal(cell) or (11 if unfit(faces(cell)) else 0)
    if not why:
        after = spread(faces(cell))
        if closed(after):
            return 0, sum(f != g for f, g in zip(faces(cell), after)), [c for f in after for c in f]
    return why or 12, 0, cell[1]
