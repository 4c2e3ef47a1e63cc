#!/usr/bin/env python3
"""omgifol.py NAME WAD POINTS [REPEAT]: the Python module `wadlook` beside omgifol (the module `omg`), on the points of a file.
Both read the file, and tell the sector of each point: `wadlook` by its calls, and over omgifol, which reads a level's lumps and
records and asks no nodes, a descent in Python on the lumps that it gives. Least processor time of REPEAT (3) rounds in turn,
with the library of tools/library. Where `omg` can't be imported that is said, and `wadlook` is measured alone."""
import os
import struct
import sys
import time

sys.path.insert(0, os.path.join(os.path.dirname(os.path.abspath(__file__)), os.pardir, "python"))
from wadlook import Wad  # noqa: E402

try:
    import omg
    from omg.mapedit import MapEditor
except ImportError:
    omg = None


# ------------------------------------------------------------------- omgifol
def side(x0, y0, dx, dy, x, y):
    """1 behind a partition, as `side` of baseline/baseline.h"""
    left, right = dy * (x - x0), dx * (y - y0)
    if left != right:
        return left < right
    tie = dy > 0 if dx == 0 else dx < 0 if dy == 0 else True
    return tie and not (dx < 0 and dy > 0 and (x, y) == (x0, y0))


def descent(lumps):
    """the sector of a point, by a level's lumps"""

    def records(name, form):
        return list(struct.iter_unpack(form, lumps[name].data))

    nodes = [(*q[:4], (q[12], q[13])) for q in records("NODES", "<12h2H")]
    segs, lines, sides = records("SEGS", "<6h"), records("LINEDEFS", "<7h"), records("SIDEDEFS", "<2h24sh")
    sectors = [sides[lines[segs[first][3]][5 + segs[first][4]]][3] for _, first in records("SSECTORS", "<2h")]

    def of(x, y):
        word = len(nodes) - 1 if nodes else 32768
        while word < 32768:
            *line, children = nodes[word]
            word = children[side(*line, x, y)]
        return sectors[word - 32768]

    return of


def by_omg():
    of = descent(omg.WAD(path).maps[name])
    return [of(x, y) for x, y in points]


# ------------------------------------------------------------------- measure
def by_wadlook():
    return Wad(path).level(name).sectors(points)


def read_by_omg():
    MapEditor(omg.WAD(path).maps[name])


def read_by_wadlook():
    return Wad(path).level(name).findings


name, path, asked, *rest = sys.argv[1:]
with open(asked) as lines:
    points = [tuple(map(int, line.split())) for line in lines]
jobs = [("wadlook: file read, level audited", read_by_wadlook), ("wadlook: that, and %d points" % len(points), by_wadlook)]
if omg:
    jobs += [
        ("omgifol: file read, level's records read", read_by_omg),
        ("omgifol: file read, %d points in Python" % len(points), by_omg),
    ]
else:
    print("skipped: there is no module 'omg' (omgifol): wadlook alone")
least, told = [float("inf")] * len(jobs), {}
for _ in range(int(rest[0]) if rest else 3):
    for k, (_, job) in enumerate(jobs):
        start = time.process_time()
        told[job] = job()
        least[k] = min(least[k], time.process_time() - start)
for (what, _), took in zip(jobs, least):
    print("%-48s %.4f s" % (what, took))
if omg and told[by_omg] != told[by_wadlook]:
    sys.exit("answers differ")
