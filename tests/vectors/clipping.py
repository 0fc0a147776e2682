"""Clipping told again step by step, for what the Rust does not say: cuts made, and the most points in a work list.

Every outcome told here is held against the Rust's own.
"""
import math

from asking import cell_words, flat, hexes, in_parts, points, read_points
from table import faces

EPSILON = 2.0 ** -52


def left_by(inside):
    """How many points are left of a ring: a side leaves its end where that is inside, and a crossing where it goes in or out."""
    return sum(b + (a != b) for a, b in zip(inside[-1:] + inside, inside))


def same(told, rust, what):
    """Stops where the telling and the Rust part; NaN equals NaN."""
    if repr(told) != repr(rust):
        raise SystemExit(f'{what}: told {told}, and the Rust answers {rust}')


def distance(plane, p):
    return plane[0] * p[0] + plane[1] * p[1] + plane[2] * p[2] - plane[3]


def clip_by_plane(oracle, outline, plane, eps):
    words = f'{points(flat(outline))} {hexes(plane)} {hexes([eps])}'
    return read_points(oracle.ask('clip_polygon_by_plane', words, 'ruled')[1:], 3)


def cut_by_planes(oracle, face, planes, eps):
    """The outline left of a face, None for nothing; the cuts made; the most points, doubled ones too."""
    outline, cuts, most = face, 0, len(face)
    for plane in planes:
        far = [distance(plane, p) for p in outline]
        if len(outline) < 3:
            return None, cuts, most
        if not any(d > eps for d in far):
            continue
        if all(d > eps for d in far):
            return None, cuts, most
        most = max(most, left_by([d <= eps for d in far]))
        outline, cuts = clip_by_plane(oracle, outline, plane, eps), cuts + 1
        if len(outline) < 3:
            return None, cuts, most
    return outline, cuts, most


def clip_face(oracle, face, planes, eps):
    outline, cuts, most = cut_by_planes(oracle, face, planes, eps)
    words = f'{points(flat(face))} {points(flat(planes), 4)} {hexes([eps])}'
    answer = oracle.ask('clip_face_by_polyhedron', words, 'ruled')
    same(outline, None if answer[0] == 'none' else read_points(answer[2:], 3), 'clip_face_by_polyhedron')
    return outline or [], cuts % 2, most


def cross2(a, b, c):
    return (b[0] - a[0]) * (c[1] - a[1]) - (b[1] - a[1]) * (c[0] - a[0])


def crossing(a, b, p, q):
    dax, day, dpx, dpy = b[0] - a[0], b[1] - a[1], q[0] - p[0], q[1] - p[1]
    denominator = dax * dpy - day * dpx
    if denominator == 0.0:
        return q
    t = ((p[0] - a[0]) * dpy - (p[1] - a[1]) * dpx) / denominator
    return a[0] + t * dax, a[1] + t * day


def trim_at_edge(outline, a, b):
    kept = []
    for p, q in zip(outline, outline[1:] + outline[:1]):
        p_in, q_in = cross2(a, b, p) >= 0.0, cross2(a, b, q) >= 0.0
        if p_in != q_in:
            kept.append(crossing(a, b, p, q))
        if q_in:
            kept.append(q)
    return kept


def clip_convex(oracle, subject, clip):
    """The outline left, the list where it stands (1 for the second), the most points."""
    outline, most = subject, len(subject)
    for a, b in zip(clip, clip[1:] + clip[:1]):
        outline = trim_at_edge(outline, a, b) if len(outline) >= 3 else []
        most = max(most, len(outline))
    words = f'{points(flat(subject), 2)} {points(flat(clip), 2)}'
    same(outline, read_points(oracle.ask('clip_convex', words)[1:], 2), 'clip_convex')
    return outline, len(clip) % 2, most


def dot(m, n):
    return m[0] * n[0] + m[1] * n[1] + m[2] * n[2]


def same_side(a, b, tol):
    return not dot(a, b) <= 1.0 - 1e-10 and abs(a[3] - b[3]) <= tol


def opposite(a, b, tol):
    return not dot(a, b) >= -1.0 + 1e-10 and abs(a[3] + b[3]) <= tol


def coplanar_tolerance(ps):
    """1e-4 of the greatest distance of a vertex of both cells from their common middle."""
    middle, far = [0.0] * 3, 0.0
    for p in ps:
        middle = [m + x for m, x in zip(middle, p)]
    middle = [m / len(ps) for m in middle]
    for p in ps:
        x, y, z = (p[k] - middle[k] for k in range(3))
        far = max(far, math.sqrt(x * x + y * y + z * z))
    return 1e-4 * far


def patches(oracle, cell, other):
    """What is clipped for the overlap of two cells whose boxes meet: a face, and the planes that cut it."""
    vertices, others = in_parts(cell[0], 3), in_parts(other[0], 3)
    own, theirs = (read_points(oracle.ask('planes', cell_words(c), 'ruled')[1:], 4) for c in (cell, other))
    tol = coplanar_tolerance(vertices + others)
    for plane, face in zip(own, faces(cell)):
        if not any(opposite(plane, o, tol) for o in theirs):
            yield [vertices[c] for c in face], [o for o in theirs if not same_side(plane, o, tol)]
    for plane, face in zip(theirs, faces(other)):
        if not any(opposite(p, plane, tol) or same_side(p, plane, tol) for p in own):
            yield [others[c] for c in face], own


def miss(cell, other):
    """Whether the boxes of two cells miss each other."""
    sides = [[coords[k::3] for k in range(3)] for coords in (cell[0], other[0])]
    return any(max(a) < min(b) or max(b) < min(a) for a, b in zip(*sides))


def overlap(oracle, cell, other):
    """The overlap, and the most points in a work list."""
    volume, most = 0.0, 0
    eps = 64.0 * EPSILON * oracle.numbers('scale', cell_words(cell))[0]
    middle = oracle.numbers('centroid', cell_words(cell))
    for face, planes in () if miss(cell, other) else patches(oracle, cell, other):
        outline, _, held = clip_face(oracle, face, planes, eps)
        most = max(most, held)
        volume += oracle.numbers('polygon_volume_contribution', f'{points(flat(outline))} {hexes(middle)}')[0]
    rust = oracle.numbers('convex_intersection_volume', f'{cell_words(cell)} {cell_words(other)}', 'ruled')[0]
    same(abs(volume), rust, 'convex_intersection_volume')
    return rust, most
