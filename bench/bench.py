#!/usr/bin/env python3
"""bench.py --wadlook PATH: runs wadlook and the C baseline (`baseline` beside
this file, built by its `build`) on the same inputs, interleaved, and prints the
ratio wadlook/baseline. Best of --repeat runs (5) of user time, of user plus
system time and of wall time; peak memory; whether the output bytes agree.
A job in which the two end with different statuses is told and skipped. Needs Freedoom's WADs."""
import argparse
import hashlib
import json
import math
import os
import random
import struct
import subprocess
import sys
import tempfile

A = argparse.ArgumentParser()
A.add_argument("--wadlook", required=True)
A.add_argument("--dir", default=os.path.join(tempfile.gettempdir(), "wadlook-bench"), help="built baseline and inputs")
A.add_argument("--wads", default="/usr/share/games/doom")
A.add_argument("--repeat", type=int, default=5)
A.add_argument("--only", default="", help="names that hold one of these words (comma)")
A.add_argument("--points", type=int, default=1000000)
A.add_argument("--limit", type=int, default=300, help="seconds for one run")
A.add_argument("--json", default="")
o = A.parse_args()
HERE = os.path.dirname(os.path.abspath(__file__))
os.makedirs(o.dir, exist_ok=True)


def p(n):
    return os.path.join(o.dir, n)


BASE = p("baseline")
subprocess.check_call([HERE + "/baseline/build", BASE])
F1, F2, FM = (os.path.join(o.wads, n + ".wad") for n in ("freedoom1", "freedoom2", "freedm"))


# ------------------------------------------------------------------ inputs
def make(name, f):
    if not os.path.exists(p(name)):
        t = p(name + ".part")
        with open(t, "wb") as out:
            f(out)
        os.rename(t, p(name))
    return p(name)


def level(m, f):
    return make(m.lower() + ".wad", lambda out: subprocess.check_call([BASE, "extract", m, f], stdout=out))


def show(m, f):
    return subprocess.run([BASE, "show", m, f], stdout=subprocess.PIPE).stdout.decode().splitlines()


def size(m, f):
    t, vx, ns = "", [], 0
    for line in show(m, f):
        q = line.split()
        if len(q) == 4 and q[2] == "rest":
            t = q[0]
            if t == "SECTORS":
                ns = int(q[1])
        elif t == "VERTEXES" and len(q) == 3:
            vx.append((int(q[1]), int(q[2])))
    return min(v[0] for v in vx), min(v[1] for v in vx), max(v[0] for v in vx), max(v[1] for v in vx), ns


def points(m, f, n, inside=True):
    def w(out):
        r = random.Random(7)
        x0, y0, x1, y1, _ = size(m, f)
        if not inside:
            x0, y0, x1, y1 = -16384, -16384, 16383, 16383
        out.write("".join("%d %d\n" % (r.randint(x0, x1), r.randint(y0, y1)) for _ in range(n)).encode())

    q = make("%s.%s%d.txt" % (m.lower(), "in" if inside else "all", n), w)
    assert os.path.getsize(q) <= 16777216
    return q


def pairs(m, f, n):
    def w(out):
        r = random.Random(8)
        ns = size(m, f)[4]
        out.write("".join("%d %d\n" % (r.randrange(ns), r.randrange(ns)) for _ in range(n)).encode())

    return make("%s.pairs%d.txt" % (m.lower(), n), w)


def rects(m, f, n, side):
    def w(out):
        r = random.Random(9)
        x0, y0, x1, y1, _ = size(m, f)
        for _ in range(n):
            x = r.randint(max(-16384, x0 - side // 2), min(16384 - side, x1 - side // 2))
            y = r.randint(max(-16384, y0 - side // 2), min(16384 - side, y1 - side // 2))
            out.write(b"%d %d %d %d\n" % (x, y, x + side - 1, y + side - 1))

    return make("%s.rects%dx%d.txt" % (m.lower(), n, side), w)


def demo(name, version, players, nbytes):
    def w(out):
        r = random.Random(10)
        k = 5 if version == 111 else 4
        b = bytearray(r.randbytes((nbytes - 14) // k * k))
        for i in range(0, len(b), k):
            if b[i] == 128:
                b[i] = 25
        out.write(bytes([version, 3, 1, 1, 0, 0, 0, 0, 0] + players) + bytes(b) + b"\x80")

    return make(name, w)


def lump(name, part):
    def w(out):
        b = open(part, "rb").read()
        out.write(b"PWAD" + struct.pack("<ii", 1, 12 + len(b)) + b + struct.pack("<ii8s", 12, len(b), b"DEMO1"))

    return make(name, w)


M12, M28, E5, E7 = level("MAP12", F2), level("MAP28", F2), level("E1M5", F1), level("E4M7", F1)


def levels(f):
    return [line.split()[1] for line in subprocess.run([BASE, "levels", f], stdout=subprocess.PIPE).stdout.decode().splitlines()]


N = o.points
J = []  # name, list of argument lists, input file, baseline's command if it differs


def job(name, *args, inp=None, base=None, runs=1):
    J.append((name, [list(a) for a in args] * runs, inp, base))


job("lumps, 3 IWADs", ["lumps", F1, F2, FM], runs=3)
job("lumps, 1 small PWAD", ["lumps", M28], runs=20)
job("no words (start of the program)", [], runs=20)
SAMPLE = os.path.join(HERE, "..", "sample", "base.wad")


def anywhere(n):
    def w(out):
        r = random.Random(5)
        out.write("".join("%d %d\n" % (r.randint(-16384, 16383), r.randint(-16384, 16383)) for _ in range(n)).encode())

    return make("any%d.txt" % n, w)


job("points sample, %d lines" % N, ["points", "E1M1", SAMPLE], inp=anywhere(N))
job("levels, 3 IWADs", ["levels", F1, F2, FM], runs=3)
job("show MAP12 in its IWAD", ["show", "MAP12", F2], runs=3)
job("audit MAP12 alone", ["audit", "MAP12", M12], runs=5)
job("audit, all 100 levels", *[["audit", m, f] for f in (F1, F2, FM) for m in levels(f)])
for m, f, w in (("MAP12", F2, M12), ("MAP28", F2, M28), ("E1M5", F1, E5), ("E4M7", F1, E7)):
    job("points %s, %d inside" % (m, N), ["points", m, w], inp=points(m, f, N))
job("points MAP12, %d anywhere" % N, ["points", "MAP12", M12], inp=points("MAP12", F2, N, False))
job("points MAP12, 1 line, IWAD", ["points", "MAP12", F2], inp=points("MAP12", F2, 1), runs=3)
job("census MAP12, 40 of 1024x1024", ["census", "MAP12", M12], inp=rects("MAP12", F2, 40, 1024))
job("census MAP28, 40 of 1024x1024", ["census", "MAP28", M28], inp=rects("MAP28", F2, 40, 1024))
job("census E1M5, 40 of 1024x1024", ["census", "E1M5", E5], inp=rects("E1M5", F1, 40, 1024))
job("census MAP12, 20000 of 32x32", ["census", "MAP12", M12], inp=rects("MAP12", F2, 20000, 32))
job(
    "census MAP12, 4 of 1024x1024 (C point by point)",
    ["census", "MAP12", M12],
    inp=rects("MAP12", F2, 4, 1024),
    base="census-plain",
)
job("blocks MAP12, %d" % N, ["blocks", "MAP12", M12], inp=points("MAP12", F2, N))
job("sight MAP12, %d" % N, ["sight", "MAP12", M12], inp=pairs("MAP12", F2, N))
job("extract MAP12 from its IWAD", ["extract", "MAP12", F2], runs=3)
job("demo DEMO1 of freedm", ["demo", "DEMO1", FM], runs=3)
job("demo 109, 10 MB, 1 player", ["demo", "DEMO1", lump("one.wad", demo("one.lmp", 109, [1, 0, 0, 0], 10000000))])
job("lmp 109, 10 MB, 1 player", ["lmp", demo("one.lmp", 109, [1, 0, 0, 0], 10000000)])
job("lmp 109, 10 MB, 4 players", ["lmp", demo("four.lmp", 109, [1, 1, 1, 1], 10000000)])
job("lmp 111, 10 MB, 2 players", ["lmp", demo("long.lmp", 111, [1, 0, 1, 0], 10000000)])
G = p("gridz.wad")  # widegrid.py 120, built by zdbsp
if os.path.exists(G):
    job("audit --wide, grid of 120x120", ["audit", "--wide", "MAP01", G], runs=3)
    job("points --wide, grid, %d" % N, ["points", "--wide", "MAP01", G], inp=points("MAP01", G, N))

# -------------------------------------------------------------------- runs
RUN = p("runner")
if not os.path.exists(RUN) or os.path.getmtime(RUN) < os.path.getmtime(HERE + "/runner.c"):
    subprocess.check_call(["gcc", "-O2", "-o", RUN, HERE + "/runner.c"])


class Slow(Exception):
    pass


def once(binary, argvs, inp, out="/dev/null"):
    """user, user + system, wall, peak KB, statuses, first word on stderr; out is
    a file of the last run alone, or /dev/null"""
    u = t = w = 0.0
    rss = 0
    st = []
    word = ""
    for a in argvs:
        q = subprocess.run(
            [RUN, str(o.limit), inp or "/dev/null", out, p("err"), binary] + a, stdout=subprocess.PIPE
        ).stdout.split()
        if len(q) != 6 or q[5] == b"127":
            sys.exit("cannot run %s" % binary)
        if q[5] == b"-1":
            raise Slow()
        u += float(q[0])
        t += float(q[0]) + float(q[1])
        w += float(q[2])
        rss = max(rss, int(q[3]))
        st.append(int(q[5]))
        if st[-1] and not word:
            word = open(p("err"), errors="replace").read().strip().split("\n")[0]
    return u, t, w, rss, st, word


def swap(argvs, base):
    return [[base] + a[1:] for a in argvs] if base else argvs


def digest(binary, argvs, inp):
    """all outputs of a job in one sum"""
    h = hashlib.sha256()
    n = 0
    for a in argvs:
        once(binary, [a], inp, p("out"))
        b = open(p("out"), "rb").read()
        n += len(b)
        h.update(b)
    return h.hexdigest(), n


def r2(a, b, least):  # a ratio, or a dash where the times are too short to tell
    return a / b if min(a, b) >= least else None


def f2(x):
    return "     -" if x is None else "%6.2f" % x


rows = []
print(
    "%-44s %8s %8s %8s | %8s %8s %8s | %6s %6s %6s | %7s %7s  %s"
    % ("job", "C user", "C u+s", "C wall", "wl user", "wl u+s", "wl wall", "user", "u+s", "wall", "C KB", "wl KB", "output")
)
for name, argvs, inp, base in J:
    if o.only and not any(k in name for k in o.only.split(",")):
        continue
    try:
        x = once(BASE, swap(argvs[:1], base), inp)
        y = once(o.wadlook, argvs[:1], inp)
    except Slow:
        print("%-44s a run over %d s" % (name, o.limit))
        rows.append(dict(job=name, state="slow"))
        continue
    if x[4] != y[4]:
        print("%-44s status %d and not %d, %s" % (name, y[4][0], x[4][0], y[5][:60] or "no word"))
        rows.append(dict(job=name, state="other status"))
        continue
    a, b = digest(BASE, swap(argvs, base), inp), digest(o.wadlook, argvs, inp)
    B, L = [], []
    for _ in range(o.repeat):
        B.append(once(BASE, swap(argvs, base), inp))
        L.append(once(o.wadlook, argvs, inp))

    def m(v, i):
        return min(q[i] for q in v)

    q = [r2(m(L, 0), m(B, 0), 0.02), r2(m(L, 1), m(B, 1), 0.001), r2(m(L, 2), m(B, 2), 0.001)]
    print(
        "%-44s %8.4f %8.4f %8.4f | %8.4f %8.4f %8.4f | %s %s %s | %7d %7d  %s"
        % (
            name,
            m(B, 0),
            m(B, 1),
            m(B, 2),
            m(L, 0),
            m(L, 1),
            m(L, 2),
            *map(f2, q),
            m(B, 3),
            m(L, 3),
            "same" if a == b else "DIFFERENT",
        ),
        flush=True,
    )
    rows.append(
        dict(
            job=name,
            runs=len(argvs),
            c=[m(B, i) for i in range(4)],
            wadlook=[m(L, i) for i in range(4)],
            ratio=q,
            same=a == b,
            out=a[1],
            aside=bool(base),
        )
    )


def mean(i):
    v = [r["ratio"][i] for r in rows if "ratio" in r and r["ratio"][i] and not r["aside"]]
    return "%.2f (%d jobs)" % (math.exp(sum(map(math.log, v)) / len(v)), len(v)) if v else "-"


print(
    "geometric mean of wadlook/C: user %s, user+system %s, wall %s; outputs differ in %d, other status or too slow %d"
    % (mean(0), mean(1), mean(2), sum(r.get("same") is False for r in rows), sum("state" in r for r in rows))
)
print('The job "C point by point" stands aside of the means. User time alone is told from 20 ms on.')
if o.json:
    json.dump(rows, open(o.json, "w"), indent=1)
