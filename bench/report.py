"""bench/report.py [OLD NEW]: times two programs that write the cell report on streams of prisms, in turn, and prints MB/s and the
ratio of the medians. Their outputs must be the same.

Without arguments they are target/bin/cell_report and the same report over the Rust (rust/oracle, rust_report); bench/run starts it so
and builds both. OLD and NEW are two builds of cell_report, and the ratio is that of NEW to OLD.
"""
import math
import os
import statistics
import struct
import subprocess
import sys
import tempfile
import time

TOP = os.path.dirname(os.path.dirname(os.path.abspath(__file__)))
OURS = os.path.join(TOP, "target", "bin", "cell_report")
RUST = os.path.join(TOP, "rust", "oracle", "target", "release", "rust_report")

SIDES = 8
QUERIES = 4
CELLS = (400, 20_000, 160_000)  # of some 2,600 bytes each
ROUNDS = 7


def whole(kind, number=0):
    return struct.pack("<B7xQQQ", kind, number, 0, 0)


def point(kind, x, y, z):
    return struct.pack("<B7xddd", kind, x, y, z)


def prism(k):
    """A prism over a regular outline, moved to a place of its own."""
    x = float(k % 97)
    ring = [(x + math.cos(2 * math.pi * i / SIDES), math.sin(2 * math.pi * i / SIDES)) for i in range(SIDES)]
    low, high = range(SIDES), range(SIDES, 2 * SIDES)
    sides = [[i, (i + 1) % SIDES, SIDES + (i + 1) % SIDES, SIDES + i] for i in range(SIDES)]
    records = [point(1, a, b, z) for z in (0.0, 1.0) for a, b in ring]
    for face in [list(reversed(low)), list(high), *sides]:
        records += [whole(2, corner) for corner in face] + [whole(3)]
    records += [point(5, x + 0.1 * i, 0.05, 0.5) for i in range(QUERIES)]
    return b"".join(records + [whole(4)])


def seconds(program, stream, out):
    with open(stream, "rb") as data, open(out, "wb") as lines:
        start = time.perf_counter()
        subprocess.run([os.path.abspath(program)], stdin=data, stdout=lines, check=True)
        return time.perf_counter() - start


def row(programs, cells, folder):
    """The medians of both programs on so many cells; their outputs must be the same file."""
    stream = os.path.join(folder, "stream")
    block = b"".join(prism(k) for k in range(400))
    with open(stream, "wb") as data:
        for _ in range(cells // 400):
            data.write(block)
    size = os.path.getsize(stream) / 1e6
    outs = [os.path.join(folder, name) for name in ("first", "second")]
    times = [[seconds(program, stream, out) for program, out in zip(programs, outs)] for _ in range(ROUNDS)]
    texts = [open(out, "rb").read() for out in outs]
    if texts[0] != texts[1]:
        sys.exit(f"the two reports differ on {cells} cells")
    first, second = (statistics.median(side) for side in zip(*times))
    print(f"{'report':34} {cells:6} cells {size:7.1f} MB {size / first:8.0f} MB/s {size / second:8.0f} MB/s {first / second:10.2f}")


def asked():
    """The two programs, and what the columns have."""
    if len(sys.argv) == 1:
        return (OURS, RUST), "ours, the Rust, ours/Rust"
    if len(sys.argv) == 3:
        return (sys.argv[2], sys.argv[1]), "new, old, new/old"
    print(__doc__.strip(), file=sys.stderr)
    sys.exit(2)


def main():
    programs, columns = asked()
    for program in programs:
        if not (os.path.isfile(program) and os.access(program, os.X_OK)):
            sys.exit(f"there is no program {program} (bench/run report builds ours and the Rust's)")
    print(f"\nthe cell report on prisms of {SIDES} sides, medians of {ROUNDS} rounds taken in turn: {columns} in time")
    with tempfile.TemporaryDirectory() as folder:
        for cells in CELLS:
            row(programs, cells, folder)


if __name__ == "__main__":
    main()
