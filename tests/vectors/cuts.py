"""What request 9 says of triangles that are checked against a face: places of its corners, three a triangle. The Rust has no such check."""
from collections import Counter


def sides(triangle):
    """From each place to the next, and from the last to the first."""
    a, b, c = triangle
    return [(a, b), (b, c), (c, a)]


def is_cut(n, places):
    """Whether triangles that are not refused are a cut of a face of n corners."""
    triangles = [places[k : k + 3] for k in range(0, len(places), 3)]
    if len(triangles) != n - 2 or any(len(set(t)) != 3 for t in triangles):
        return False
    runs = Counter(side for t in triangles for side in sides(t))
    face = {(k, (k + 1) % n) for k in range(n)}
    if any(runs[i, j] != 1 or runs[j, i] != 0 for i, j in face):
        return False
    return all(runs[i, j] == runs[j, i] == 1 for i, j in runs if (i, j) not in face)
