"""Which faces have no area, by SCOPE 11 alone, in Python's floats. The Rust does not say it, but has the sums: both must agree."""
from asking import in_parts, points, whole
from table import faces


def sums(ps):
    """The three Newell sums of an outline, each operation rounded once, from left to right."""
    x = y = z = 0.0
    for a, b in zip(ps, ps[1:] + ps[:1]):
        x += (a[1] - b[1]) * (a[2] + b[2])
        y += (a[2] - b[2]) * (a[0] + b[0])
        z += (a[0] - b[0]) * (a[1] + b[1])
    return [x, y, z]


def has_none(oracle, coords, face):
    """Whether a face has no area: whether its three sums are all 0, of either sign."""
    vertices = in_parts(coords, 3)
    told = sums([vertices[c] for c in face])
    rust = oracle.numbers('face_plane', f'{points(coords)} {whole(face)}')[:3]
    if repr(told) != repr(rust):
        raise SystemExit(f'the sums of {face} are told as {told}, and the Rust computes {rust}')
    return all(s == 0.0 for s in told)


def flags(oracle, cell):
    """1 for each face that has no area, 0 for each other one."""
    return [int(has_none(oracle, cell[0], f)) for f in faces(cell)]
