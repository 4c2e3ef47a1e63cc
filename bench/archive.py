#!/usr/bin/env python3
"""archive.py --wadlook PATH --wadlens PATH: runs wadlens on the 100 levels of Freedoom's three files in one run, beside three runs of
`wadlook lumps`, a file each, which do little but read them; and it draws MAP12, beside `wadlook points` on its cells' points.
All are run in turn, and the best of --repeat rounds counts: user, user plus system and wall time, peak memory, page faults.
The atlas is made in a folder of --dir, and removed. Needs gcc (runner.c beside this file) and Freedoom's WADs."""
import argparse
import os
import shutil
import subprocess
import sys
import tempfile

A = argparse.ArgumentParser()
A.add_argument("--wadlook", required=True)
A.add_argument("--wadlens", required=True)
A.add_argument("--dir", default="", help="folder for the atlas and the inputs (a temporary one, which is removed)")
A.add_argument("--wads", default="/usr/share/games/doom")
A.add_argument("--repeat", type=int, default=25)
A.add_argument("--only", default="", help="jobs whose name holds one of these words (comma)")
o = A.parse_args()
HERE = os.path.dirname(os.path.abspath(__file__))
ROOM = tempfile.TemporaryDirectory(dir=o.dir or None)


def p(n):
    return os.path.join(ROOM.name, n)


RUN = p("runner")
subprocess.check_call(["gcc", "-O2", "-o", RUN, HERE + "/runner.c"])
F1, F2, FM = IWADS = [os.path.join(o.wads, n + ".wad") for n in ("freedoom1", "freedoom2", "freedm")]


def said(*args):
    return subprocess.run(args, stdout=subprocess.PIPE, check=True).stdout


# -------------------------------------------------------------------- inputs
M12 = p("map12.wad")
with open(M12, "wb") as out:
    out.write(said(o.wadlook, "extract", "MAP12", F2))


def frame():
    """least and greatest x and y of MAP12's linedefs"""
    table, ends, at = "", set(), {}
    for line in said(o.wadlook, "show", "MAP12", M12).decode().splitlines():
        q = line.split()
        if len(q) == 4 and q[2] == "rest":
            table = q[0]
        elif table == "LINEDEFS" and len(q) == 8:
            ends |= {int(q[1]), int(q[2])}
        elif table == "VERTEXES" and len(q) == 3:
            at[int(q[0])] = int(q[1]), int(q[2])
    xs, ys = zip(*(at[k] for k in ends))
    return min(xs), max(xs), min(ys), max(ys)


def points(cells):
    """the points of MAP12's cells, a line each"""
    x0, x1, y0, y1 = frame()
    size = -(-(max(x1 - x0, y1 - y0) + 1) // cells)
    name = p("points%d" % cells)
    with open(name, "w") as out:
        out.writelines("%d %d\n" % (x + size // 2, y + size // 2) for y in range(y0, y1 + 1, size) for x in range(x0, x1 + 1, size))
    return name


# ----------------------------------------------------------------------- jobs
# name, program, argument lists of runs that are one job, input
J = [("lumps, a run a file", o.wadlook, [["lumps", f] for f in IWADS], "/dev/null")]
for words in ("check", "check --wide", "check --map", "survey", "survey --map", "demos"):
    J.append((words, o.wadlens, [words.split() + IWADS], "/dev/null"))
for words in ("atlas", "atlas --map"):
    J.append((words, o.wadlens, [words.split() + ["--out", p("atlas")] + IWADS], "/dev/null"))
for cells in (512, 1024):
    for where, wad in (("alone", M12), ("in its IWAD", F2)):
        J.append(
            (
                "picture of MAP12 %s, %d cells" % (where, cells),
                o.wadlens,
                [["picture", "--cells", str(cells), "MAP12", wad]],
                "/dev/null",
            )
        )
        J.append(("points of as many cells, %s" % where, o.wadlook, [["points", "MAP12", wad]], points(cells)))
J = [j for j in J if not o.only or any(k in j[0] for k in o.only.split(","))]

if not J:
    sys.exit("no such job")


# ----------------------------------------------------------------------- runs
def once(program, runs, inp):
    """user, user + system and wall seconds, peak KB, page faults, files and bytes of the atlas"""
    sums, peak, written = [0.0] * 3, 0, (0, 0)
    faults = 0
    for args in runs:
        q = subprocess.run([RUN, "300", inp, "/dev/null", p("err"), program] + args, stdout=subprocess.PIPE).stdout.split()
        if len(q) != 6 or q[5] not in (b"0", b"1"):
            sys.exit("%s %s ended with %s" % (program, " ".join(args), q))
        user, system, wall = map(float, q[:3])
        sums = [a + b for a, b in zip(sums, (user, user + system, wall))]
        peak = max(peak, int(q[3]))
        faults += int(q[4])
    if os.path.exists(p("atlas")):
        sizes = [os.path.getsize(os.path.join(p("atlas"), n)) for n in os.listdir(p("atlas"))]
        written = len(sizes), sum(sizes)
        shutil.rmtree(p("atlas"))
    return sums + [peak, faults, written]


rounds = [[once(*j[1:]) for j in J] for _ in range(o.repeat)]
first = min(r[0][1] for r in rounds)
print("%-38s %8s %8s %8s %6s %9s %8s" % ("job", "user", "u+s", "wall", "of 1st", "peak, MB", "faults"))
for k, (name, *_) in enumerate(J):
    user, both, wall, peak, faults = (min(r[k][i] for r in rounds) for i in range(5))
    print("%-38s %8.4f %8.4f %8.4f %6.2f %9.1f %8d" % (name, user, both, wall, both / first, peak / 1024, faults), end="")
    print("  %d files, %d bytes" % rounds[0][k][5] if rounds[0][k][5][0] else "")
