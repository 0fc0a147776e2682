#!/usr/bin/env python3
"""Writes the stored stream of the gate: crates/cell_report/stdin, and in stdout the lines that the
second reader and the Rust's numbers give. The same files come out of every run."""
import os
import random
import sys

sys.path.insert(0, os.path.dirname(os.path.abspath(__file__)))
import report_cells as cells
import report_reader as reader

CELLS = 520


def each_limit(r):
    """Every list just full, and with one more."""
    full = {
        "vertices": [cells.point(1, (i, i % 3, 0)) for i in range(256)],
        "corners": [cells.point(1, v) for v in cells.CUBE] + ([cells.whole(2, i) for i in range(8)] + [cells.whole(3)]) * 256,
        "queries": [cells.point(1, cells.CUBE[6])] + [cells.point(5, (0.5, 0.5, i)) for i in range(256)],
    }
    more = {"vertices": cells.point(1, cells.CUBE[0]), "corners": cells.whole(2, 0), "queries": cells.point(5, cells.CUBE[0])}
    end = [cells.whole(4)]
    for name, records in full.items():
        yield records + end
        yield records + [more[name]] + end
        yield records + [cells.spoiled(more[name], r)] + end
    yield full["corners"][8:] + [cells.whole(3)] + end
    yield full["vertices"] + [more["vertices"], cells.BAD_RECORDS[0]] + end
    yield [cells.BAD_RECORDS[0]] + full["vertices"] + [more["vertices"]] + end


def stream():
    r = random.Random(6)
    cube = [cells.point(1, v) for v in cells.CUBE]
    faces = [x for f in cells.HEX8_FACES for x in cells.face_records(f)]
    backward = cells.face_records([1, 2, 3, 0]) + faces[5:]
    rest = [cells.point(5, (0.5, 0.5, 0.5)), cells.whole(4)]
    data = b"".join(cube + faces + rest) + b"".join(cube + backward + rest)
    for records in each_limit(r):
        data += b"".join(records)
    found = [cells.cell(r, 0.5) for _ in range(CELLS)]
    found = [c for c in found if len(c) < 6000]
    return data + b"".join(found) + cells.whole(1)


def main():
    data = stream()
    text = reader.lines([data])[0]
    folder = os.path.join(reader.TOP, "crates", "cell_report")
    for name, content in (("stdin", data), ("stdout", text)):
        with open(os.path.join(folder, name), "wb") as f:
            f.write(content)
    kinds = {}
    for line in text.decode().splitlines():
        words = line.split()
        kind = " ".join(words[words.index("refused"):]) if "refused" in words else "not refused"
        kinds[kind] = kinds.get(kind, 0) + 1
    print(f"{len(data)} bytes, {sum(kinds.values())} lines:", ", ".join(f"{n} {k}" for k, n in sorted(kinds.items())))


if __name__ == "__main__":
    main()
