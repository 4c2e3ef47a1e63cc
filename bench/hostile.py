#!/usr/bin/env python3
"""hostile.py --wadlook PATH [--wadlens PATH] [--library FOLDER]: runs wadlook, and wadlens and calls of libwadlook (calls.c beside
this file) where these are given, on inputs of their limits that no editor
writes, each at half its size and at its whole size, and prints user plus system
time, peak memory, and the ratio of the two times, which is near 2 where time
grows with the input.
Needs gcc (runner.c beside this file) and about 600 MB in --dir, with wadlens 4 GB, since an atlas and what is told of
refused demos are written there; what a run prints goes to /dev/null."""
import argparse
import os
import shutil
import struct
import subprocess
import sys
import tempfile

sys.dont_write_bytecode = True

import hostile_demos as demos  # noqa: E402
import hostile_nodes as later  # noqa: E402
from hostile_files import FILES, INPUT, NAMES, OWN, SAMPLE, again, big_level, entry, head, level, w, whole  # noqa: E402

A = argparse.ArgumentParser()
A.add_argument("--wadlook", required=True)
A.add_argument("--wadlens", default="", help="the program of the jobs from check on; they are left out without it")
A.add_argument("--library", default="", help="the folder out/ of tools/library; the calls are left out without it")
A.add_argument("--dir", default="", help="folder for the inputs (a temporary one, which is removed)")
A.add_argument("--only", default="", help="jobs whose name holds one of these words (comma)")
A.add_argument("--limit", type=int, default=300, help="seconds for one run")
A.add_argument("--repeat", type=int, default=1, help="runs of each, of which the best counts")
A.add_argument("--scale", type=float, default=1.0, help="part of the limits that is taken as the whole size")
A.add_argument("--markdown", action="store_true", help="the table of RESULTS.md")
o = A.parse_args()
HERE = os.path.dirname(os.path.abspath(__file__))
ROOM = tempfile.TemporaryDirectory(dir=o.dir or None)


def p(n):
    return os.path.join(ROOM.name, n)


RUN = p("runner")
subprocess.check_call(["gcc", "-O2", "-o", RUN, HERE + "/runner.c"])


# -------------------------------------------------------------------- inputs
# Each is written piece by piece, so that this process stays small.
def directory(label, names):
    """levels or entries alone: as many entries as fit, by turns of these names, behind empty places"""

    def make(out, part):
        n = int((FILES - 12) // 16 * part)
        out.write(head(n, 12))
        again(out, b"".join(entry(0, 0, k) for k in names), 16 * n)

    return make


def entries(count):
    """so many entries of one name"""

    def make(out, part):
        out.write(head(int(count * part), 12) + entry(0, 0, b"NAME") * int(count * part))

    return make


def numbered_labels(small):
    """levels whose labels differ"""

    def make(out, part):
        n = int((FILES - 12) // 16 * part) // 11 * 11
        out.write(head(n, 12))
        rest = b"".join(entry(0, 0, k) for k in NAMES)
        for i in range(n // 11):
            out.write(entry(0, 0, (b"%08x" % i).upper() if not small else b"a%07x" % i) + rest)

    return make


# The first 32768 nodes can be named; the others can't be reached. The root is the last one.
def nodes(children):
    def fill(out, size):
        n = size // 28
        line = w(0, 0, 0, 64, 64, 0, 0, 0, 64, 0, 0, 0)
        out.write(b"".join(line + w(*children(i, n)) for i in range(min(n, 32768))))
        if n > 32768:
            again(out, line + w(*children(32768, n)), 28 * (n - 32768 - 1))
            out.write(line + w(*children(n - 1, n)))

    return fill


CHAIN = nodes(lambda i, n: (min(i, 32768) - 1 if i else 32768, 32768 + min(i, 32767)))
RING = nodes(lambda i, n: ((i + 1) % 32768, 32768 + min(i, 32767)))
ONE = nodes(lambda i, n: (0, 32768))
MANY_SSECTORS = {b"SSECTORS": w(1, 0) * 32768}


def words(width, height, body):
    """a BLOCKMAP of the whole room: its head, and these words again and again"""

    def fill(out, size):
        out.write(w(0, 0, width, height))
        again(out, body, size - 8)

    return fill


def one_list(out, size):
    out.write(w(0, 0, 1, 1, 5))
    again(out, w(7), size - 12)
    out.write(w(-1))


def text(piece):
    def make(out, part):
        again(out, piece, int(INPUT * part))

    return make


def chain(lumps, ssector=w(1, 0), direction=(0, 64)):
    """a level with these lumps and 32767 nodes in a chain, all along one line: the last ssector has the points on its right"""

    def make(out, part):
        n = int(32767 * part)
        node = w(0, 0, *direction, 64, 0, 0, 0, 64, 0, 0, 0)
        lump = b"".join(node + (w(i - 1, 32769 + i) if i else w(32768, 32769)) for i in range(n))
        level(out, {b"NODES": lump, b"SSECTORS": ssector * (n + 1), **lumps})

    return make


def ring(out, part):
    """a level whose nodes, as many as a point is looked for in, lead to one another and to no ssector"""
    n = int(32767 * part)
    level(out, {b"NODES": b"".join(w(0, 0, 0, 64, 64, 0, 0, 0, 64, 0, 0, 0, (i + 1) % n, (i + 1) % n) for i in range(n))})


def hole(out, part):
    """a demo, or an empty directory, and one byte more than may be read"""
    out.write(head(0, 0))
    out.truncate(int(FILES * part) + (part == 1))


# ----------------------------------------------------------------------- jobs
# name, words (F is the file), file, input, and how the run at the whole size ends (its status)
J = []


def job(name, words, make=None, lines=None, ends=0):
    J.append((name, words, make, lines, ends))


one_name = directory(None, [b"NAME"])
job("lumps: 16,777,215 entries of one name", "lumps F", one_name)
job("levels: the same", "levels F", one_name)
job("points: the same, no label", "points E1M1 F", one_name, ends=2)
job("levels: 1,525,201 levels of one label", "levels F", directory(None, [b"E1M1"] + NAMES))
job("levels: as many of different labels", "levels F", numbered_labels(False))
job("levels: as many of labels with small letters", "levels F", numbered_labels(True))
for name, fill in (("in a chain", CHAIN), ("in a ring", RING), ("that all name one", ONE)):
    job("audit: 9.5 million nodes " + name, "audit E1M1 F", big_level(MANY_SSECTORS, [b"NODES"], whole(28), fill), ends=1)
job("points: the same, refused", "points E1M1 F", big_level(MANY_SSECTORS, [b"NODES"], whole(28), ONE), ends=2)
b = [b"BLOCKMAP"]
job(
    "blocks: 134 million words without an end",
    "blocks E1M1 F",
    big_level({}, b, whole(2), words(32767, 4095, w(4))),
    text(b"0 5\n"),
)
job(
    "blocks: one list of 134 million words",
    "blocks E1M1 F",
    big_level({}, b, whole(2), one_list),
    lambda out, part: out.write(b"0 5\n"),
)
job(
    "audit: 134 million words without an end, all of them blocks",
    "audit E1M1 F",
    big_level({}, b, whole(2), words(32767, 4095, w(4))),
)
job("audit: the same, with one block", "audit E1M1 F", big_level({}, b, whole(2), words(1, 1, w(5))))
job("audit: 134 million ends", "audit E1M1 F", big_level({}, b, whole(2), words(32767, 4095, w(-1))))
for k, record in ((b"SEGS", 12), (b"LINEDEFS", 14), (b"SSECTORS", 4)):
    job(
        "audit: %s of bytes 255" % k.decode(),
        "audit E1M1 F",
        big_level({}, [k], whole(record), lambda out, n: again(out, b"\xff", n)),
        ends=1,
    )
job(
    "audit: all lumps over the same bytes 255",
    "audit E1M1 F",
    big_level({}, NAMES, whole(1), lambda out, n: again(out, b"\xff", n)),
    ends=1,
)
job("show: SIDEDEFS of bytes 255", "show E1M1 F", big_level({}, [b"SIDEDEFS"], whole(30), lambda out, n: again(out, b"\xff", n)))
job("show: all lumps over the same bytes 255", "show E1M1 F", big_level({}, NAMES, whole(1), lambda out, n: again(out, b"\xff", n)))
job("extract: a level of 268 MB", "extract E1M1 F", big_level({}, b, whole(1), lambda out, n: again(out, b"\0", n)))
job(
    "extract: all lumps over the same 214 MB",
    "extract E1M1 F",
    big_level({}, NAMES, lambda n: n * 4 // 5, lambda out, n: again(out, b"\0", n)),
)
for c in ("points", "census", "sight", "blocks"):
    job(c + ": 16 MB of one line", c + " E1M1 S", None, text(b"1"))
    job(c + ": 16 MB of empty lines", c + " E1M1 S", None, text(b"\n"))
    job(c + ": 16 MB of the shortest lines", c + " E1M1 S", None, text(b"0 0 0 0\n" if c == "census" else b"0 0\n"))
job("points: 1024 points down a chain of 32,767 nodes", "points E1M1 F", chain({}), lambda out, part: out.write(b"1 5\n" * 1024))
for name, direction in (("", (0, 64)), (", slanted", (1, 64))):
    job(
        "census: a square of 1024 on such a chain" + name,
        "census E1M1 F",
        chain({}, direction=direction),
        lambda out, part: out.write(b"-512 -512 511 511\n"),
    )
job("lmp: 67 million commands", "lmp D", demos.demo(109, [1, 0, 0, 0]))
job("lmp: 53 million commands of the long form", "lmp D", demos.demo(111, [1, 1, 1, 1]))
job("demo: 67 million commands in a lump", "demo DEMO1 F", demos.demo_lumps(1))
job("lumps: a byte more than may be read", "lumps F", hole, ends=2)
job("lmp: a byte more than may be read", "lmp D", demos.demo_hole, ends=2)

# ------------------------------------------------------- inputs for wadlens
SIDE, SEG, THING = OWN[b"SIDEDEFS"][:30], OWN[b"SEGS"][:12], OWN[b"THINGS"]
# The second sector is a step up under a lower ceiling, so the wall to it lacks two textures.
STEP = {b"SECTORS": OWN[b"SECTORS"][:26] + w(8, 100) + OWN[b"SECTORS"][30:]}
TAGGED = w(0, 23, 1)  # of a linedef: no flags, a special, and a tag that no sector has


def vertexes(n):
    return {b"VERTEXES": b"".join(w(40503 * i, 30011 * i) for i in range(n))}


def linedefs(lumps, lines):
    """as many linedefs as fit, by turns of these: from where to where, and their sides"""
    block = b"".join(w(a, b) + TAGGED + w(c, d) for a, b, c, d in lines)
    return big_level(lumps, [b"LINEDEFS"], whole(14), lambda out, n: again(out, block, n))


def apart(out, size):
    """linedefs of which no two have the same places: from each of 32768 vertexes to the next, then to the one behind that"""
    block = bytearray(b"".join(w(i, 0) + TAGGED + w(0, 1) for i in range(32768)))
    low, high = block[0::14], block[1::14]
    k = 1
    while size > 0:
        block[2::14] = low[k:] + low[:k]
        block[3::14] = high[k:] + high[:k]
        size -= out.write(block[:size])
        k += 1


def of_bytes(byte, lumps=NAMES):
    """lumps that share as many such bytes as fit"""
    return big_level({}, lumps, whole(1), lambda out, n: again(out, byte, n))


def levels_over(count, byte):
    """so many levels, all lumps of all of them over the same bytes"""

    def make(out, part):
        start = 12 + 16 * 11 * count
        n = int((FILES - start) * part)
        out.write(head(11 * count, 12) + (entry(0, 0, b"E1M1") + b"".join(entry(start, n, k) for k in NAMES)) * count)
        again(out, byte, n)

    return make


def samples(count):
    """so many levels over the sample's lumps"""

    def make(out, part):
        body, d = b"", entry(0, 0, b"E1M1")
        for k in NAMES:
            d += entry(12 + len(body), len(OWN[k]), k)
            body += OWN[k]
        out.write(head(11 * int(count * part), 12 + len(body)) + body + d * int(count * part))

    return make


LEAF = {b"SEGS": SEG * 32767, b"SSECTORS": w(32766, 0, 1, 32766)}  # the thing is in the first ssector, before all of its segs


def things(lumps, count):
    return lambda out, part: level(out, {**lumps, b"THINGS": THING * int(count * part)})


ROW = {b"VERTEXES": w(0, 0, 1023, 0)}  # a frame of 1024 points


def leaf_row(out, part):
    level(out, {**ROW, b"SEGS": SEG * int(32767 * part), b"SSECTORS": w(int(32767 * part), 0) * 2})


def slanted(out, part):
    """1024 columns and up to 1023 rows, in bands of 33 rows, each of them in stripes from corner to corner. Each stripe of a band is a sector: 33 cells,
    of which no two are beside one another, so each is a block. Sectors of even numbers show nowhere"""
    bands, lines = max(1, int(31 * part)), []

    def node(x, y, dx, dy, front, back):
        lines.append(w(x, y, dx, dy, 64, 0, 0, 0, 64, 0, 0, 0, front, back))
        return len(lines) - 1

    def stripes(band, a, b):  # of a band those from a to b - 1
        if b - a == 1:
            return 32768 + 1056 * band + a
        m = (a + b) // 2
        back, front = stripes(band, a, m), stripes(band, m, b)
        return node(m - 33 * band - 33, 0, 64, 64, front, back)

    def between(a, b):  # the bands from a to b - 1
        if b - a == 1:
            return stripes(a, 0, 1056)
        m = (a + b) // 2
        back, front = between(m, b), between(a, m)
        return node(0, 33 * m - 1, 64, 0, front, back)

    between(0, bands)
    n = 1056 * bands  # ssector i has a seg along sidedef i, of sector 2*i + 1
    level(
        out,
        {
            b"NODES": b"".join(lines),
            b"SSECTORS": b"".join(w(1, i) for i in range(n)),
            b"SEGS": b"".join(w(0, 0, 0, i // 2, i % 2, 0) for i in range(n)),
            b"LINEDEFS": b"".join(w(0, 1, 4, 0, 0, i, i + 1) for i in range(0, n, 2)),
            b"SIDEDEFS": b"".join(SIDE[:28] + w(2 * i + 1) for i in range(n)),
            b"SECTORS": OWN[b"SECTORS"][:26] * (2 * n),
            b"VERTEXES": w(0, 0, 1023, 33 * bands - 1),
        },
    )


def listed(offsets):
    """a TEXTURE1 of the whole room, whose count is the greatest: its head, and these offsets again and again"""

    def fill(out, size):
        out.write(struct.pack("<i", 2147483647))
        again(out, b"".join(struct.pack("<i", at) for at in offsets), size - 4)

    return fill


def unknown_textures(out, part):
    """a level whose sidedefs, as many as can be named, have three textures each that none of 100,000 is"""
    sides, textures = int(65536 * part), int(100000 * part)
    start = 4 + 4 * textures
    sidedefs = (w(0, 0) + b"U%07dL%07dM%07d" % (i, i, i) + w(0) for i in range(sides))
    offsets = (struct.pack("<i", start + 8 * i) for i in range(textures))
    names = (b"T%07d" % i for i in range(textures))
    level(
        out,
        {
            b"SIDEDEFS": b"".join(sidedefs),
            b"TEXTURE1": struct.pack("<i", textures) + b"".join(offsets) + b"".join(names),
        },
    )


def unknown_flats(out, part):
    """a level of 65,536 sectors, each with two flats of which there is none, and as many other entries as there is room for"""
    sectors = b"".join(w(0, 128) + b"F%07d" % i + b"C%07d" % i + w(160, 0, 0) for i in range(int(65536 * part)))
    lumps = {**OWN, b"SECTORS": sectors}
    body = b"".join(lumps[k] for k in NAMES)
    others = int((FILES - 12 - 16 * 12 - 26 * 65536 - 4096) // 16 * part)
    out.write(head(12 + others, 12 + len(body)) + body + entry(12, 0, b"E1M1"))
    at = 12
    for k in NAMES:
        out.write(entry(at, len(lumps[k]), k))
        at += len(lumps[k])
    out.write(entry(12, 0, b"F_START"))
    again(out, b"".join(entry(12, 0, b"%08d" % (40503 * i % 65536)) for i in range(65536)), 16 * others)


def changed(special, flags):
    """10,000 linedefs with a special that goes by the tag of all of 10,000 sectors, each between a sector and the next"""

    def make(out, part):
        n = int(10000 * part)
        sectors = b"".join(w(i, 128) + b"FLOOR4_8CEIL3_5\0" + w(160, 0, 7) for i in range(n))
        sidedefs = b"".join(SIDE[:28] + w(i) for i in range(n))
        lines = b"".join(w(0, 1, flags, special, 7, i, (i + 1) % n) for i in range(n))
        level(out, {b"SECTORS": sectors, b"SIDEDEFS": sidedefs, b"LINEDEFS": lines})

    return make


def rings(out, part):
    """10,000 pillars of one tag that a linedef makes donuts of, and one ring of all of them, gone through from its first linedef"""
    n = int(10000 * part)
    sectors = b"".join(w(i, 128) + b"FLOOR4_8CEIL3_5\0" + w(160, 0, 7) for i in range(n)) + OWN[b"SECTORS"][:26]
    sidedefs = b"".join(SIDE[:28] + w(i) for i in range(n)) + SIDE[:28] + w(n)
    lines = b"".join(w(0, 1, 4, 0, 0, n, i) for i in range(n)) + w(0, 1, 0, 9, 7, 0, -1)
    level(out, {b"SECTORS": sectors, b"SIDEDEFS": sidedefs, b"LINEDEFS": lines})


def specials(number, tag):
    """as many linedefs as fit, with this special and tag"""
    return big_level(STEP, [b"LINEDEFS"], whole(14), lambda out, n: again(out, w(0, 1, 4, number, tag, 0, 1), n))


def shooters(out, part):
    """65,536 things, one after another a shooter and a target"""
    pair = b"".join(THING[:6] + w(kind, 7) for kind in (89, 87))
    level(out, {b"THINGS": pair * int(32768 * part)})


DEADLY = OWN[b"SECTORS"][:22] + w(15, 0)  # a sector on whose floor the game ends
LOCKED = {b"LINEDEFS": b"".join(w(0, 1, 4, special, 0, 0, 1) for special in (26, 27, 28))}  # doors that want three keys
LED = {b"THINGS": (THING[:6] + w(14, 7)) * 1024, b"LINEDEFS": w(0, 1, 4, 97, 0, 0, 1)}  # a teleporter, and where it leads


def patches(count):
    """a PNAMES of the whole room, whose count is this one, and names again and again"""

    def fill(out, size):
        out.write(struct.pack("<i", count))
        again(out, b"".join(b"P%07d" % (40503 * k % 65536) for k in range(65536)), size - 4)

    record = b"WALL".ljust(8, b"\0") + w(0, 0, 1, 1, 0, 0, 1) + w(0, 0, 0, 1, 0)
    return big_level({b"TEXTURE1": struct.pack("<ii", 1, 8) + record}, [b"PNAMES"], whole(1), fill)


def patched(out, part):
    """512 textures of one record, whose 32,767 patches are there"""
    n = int(512 * part)
    record = b"WALL".ljust(8, b"\0") + w(0, 0, 1, 1, 0, 0, 32767) + w(0, 0, 0, 1, 0) * 32767
    names = {b"PNAMES": struct.pack("<i", 1) + b"PATCH\0\0\0", b"PATCH": b""}
    level(out, {b"TEXTURE1": struct.pack("<i", n) + struct.pack("<i", 4 + 4 * n) * n + record, **names})


def misplaced_flats(out, part):
    """a level of 65,536 sectors, each with two flats that stand before F_START, among as many other entries as there is room for"""
    n = int(65536 * part)
    sectors = b"".join(w(0, 128) + b"%08d" % i + b"%08d" % (n - 1 - i) + w(160, 0, 0) for i in range(n))
    lumps = {**OWN, b"SECTORS": sectors}
    body = b"".join(lumps[k] for k in NAMES)
    others = int((FILES - 12 - 16 * 13 - 26 * 65536 - 4096) // 16 * part)
    out.write(head(13 + others, 12 + len(body)) + body + entry(12, 0, b"E1M1"))
    at = 12
    for k in NAMES:
        out.write(entry(at, len(lumps[k]), k))
        at += len(lumps[k])
    again(out, b"".join(entry(12, 0, b"%08d" % (40503 * i % 65536)) for i in range(65536)), 16 * others)
    out.write(entry(12, 0, b"F_START") + entry(12, 0, b"F_END"))


def udmf(last):
    """a level of UDMF with as many lumps as there is room for, of which the last has this name"""

    def make(out, part):
        n = int((FILES - 12) // 16 * part)
        out.write(head(n, 12) + entry(12, 0, b"MAP01") + entry(12, 0, b"TEXTMAP"))
        again(out, entry(12, 0, b"ZNODES"), 16 * (n - 3))
        out.write(entry(12, 0, last))

    return make


LENS = ("check", "survey", "picture", "atlas", "demos", "compare", "listing", "assemble", "cut")
one_byte = of_bytes(b"\xff")
for word in ("check", "survey") if o.wadlens else ():
    job(word + ": 16,777,215 entries of one name", word + " F", one_name)
    job(word + ": 1,525,201 levels of one label", word + " F", directory(None, [b"E1M1"] + NAMES), ends=1)
    job(word + ": 9.5 million nodes in a chain", word + " F", big_level(MANY_SSECTORS, [b"NODES"], whole(28), CHAIN), ends=1)
    job(word + ": 134 million words without an end", word + " F", big_level({}, b, whole(2), words(32767, 4095, w(4))))
    for k, record in ((b"LINEDEFS", 14), (b"SIDEDEFS", 30), (b"SSECTORS", 4)):
        job(
            "%s: %s of bytes 255" % (word, k.decode()),
            word + " F",
            big_level({}, [k], whole(record), lambda out, n: again(out, b"\xff", n)),
            ends=1,
        )
    job(word + ": all lumps over the same bytes 255", word + " F", one_byte, ends=1)
    job(word + ": 8 levels, all lumps over the same bytes 255", word + " F", levels_over(8, b"\xff"), ends=1)
    for told, fill, ends in later.LEVELS:
        job("%s: %s" % (word, told), word + " F", later.extended(fill), ends=ends)
    word += " --map"
    job(word + ": 19 million linedefs at one place", word + " F", linedefs(STEP, [(0, 1, 0, 1)]))
    job(
        word + ": 19 million linedefs, all from one vertex",
        word + " F",
        linedefs({**STEP, **vertexes(32768)}, [(0, i, 0, 1) for i in range(1, 32768)]),
    )
    job(
        word + ": 65,535 sidedefs of one sector",
        word + " --wide F",
        linedefs(
            {b"SIDEDEFS": SIDE * 65535, b"SEGS": SEG * 2, **vertexes(65536)},
            [(i // 2 * 2, i // 2 * 2 + 1, i, -1) for i in range(65535)],
        ),
    )
    job(
        word + ": 19 million linedefs at different places",
        word + " F",
        big_level({**STEP, **vertexes(32768)}, [b"LINEDEFS"], whole(14), apart),
    )
    job(word + ": 26.8 million things", word + " F", big_level({}, [b"THINGS"], whole(10), lambda out, n: again(out, THING, n)))
    job(word + ": 65,536 things before 32,766 segs", word + " F", things(LEAF, 65536))
    job(word + ": 1024 things down a chain of 32,767 nodes", word + " F", chain({b"THINGS": THING * 1024}))
    job(word + ": 32,768 ssectors of the same 32,767 segs", word + " F", chain({b"SEGS": SEG * 32767}, w(32767, 0)))
    job(word + ": all lumps over the same bytes 0", word + " F", of_bytes(b"\0"), ends=1)
    job(word + ": 65,536 sidedefs with three unknown textures, of 100,000", word + " --wide F", unknown_textures)
    job(word + ": 65,536 sectors with two unknown flats, of 16 million entries", word + " --wide F", unknown_flats)
    for told, offsets in (("one name", (4,)), ("a million names", (40503 * k % 1048576 * 4 for k in range(1048576)))):
        fill = listed(list(offsets))
        base = big_level({}, [b"TEXTURE1"], lambda n: n // 4 * 4, fill)
        job("%s --base: 67 million textures of %s" % (word, told), word + " --base F S", base)
    for special in (37, 20, 9):
        told = "10,000 linedefs of special %d on 10,000 sectors of one tag" % special
        job("%s: %s" % (word, told), word + " F", changed(special, 4))
    job(word + ": 10,000 donuts with one ring", word + " F", rings)
    for special, tag in ((142, 0), (23, 0), (37, 0), (97, 0), (26, 0)):
        job("%s: 19 million linedefs of special %d and tag %d" % (word, special, tag), word + " F", specials(special, tag))
    job(
        word + ": 10 million sectors of special 15",
        word + " F",
        big_level({}, [b"SECTORS"], whole(26), lambda out, n: again(out, DEADLY, n)),
    )
    job(
        word + ": 26.8 million things, and doors that want three keys",
        word + " F",
        big_level(LOCKED, [b"THINGS"], whole(10), lambda out, n: again(out, THING, n)),
    )
    job(word + ": 32,768 shooters and as many targets", word + " F", shooters)
    job(word + ": 1024 destinations down a chain of 32,767 nodes", word + " F", chain(LED))
    job(word + ": 65,536 sectors with two flats before F_START, of 16 million entries", word + " --wide F", misplaced_flats)
    job(word + ": a PNAMES that lists 2,147,483,647 names", word + " --base F S", patches(2147483647))
    job(word + ": 16.8 million patches of 512 textures", word + " --base F S", patched)
    job(word + " --base: 16,777,215 entries of one name", word + " --base F S", one_name)
    job(word + " --base: 63 files of 65,536 entries", word + 63 * " --base F" + " S", entries(65536))
if o.wadlens:
    job("check --json: all lumps over the same bytes 255", "check --json F", one_byte, ends=1)
    job(
        "check --json --map --max 0: 19 million linedefs at one place",
        "check --json --map --max 0 F",
        linedefs(STEP, [(0, 1, 0, 1)]),
    )
    zeros = lambda out, n: again(out, b"\0", n)  # noqa: E731
    job("cut: a level of 268 MB", "cut --entry 0 F", big_level({}, b, whole(1), zeros))
    job("cut: a level of Hexen's format of 268 MB", "cut --entry 0 F", big_level({}, [b"BEHAVIOR"], whole(1), zeros))
    job("cut: all lumps over the same 214 MB", "cut --entry 0 F", big_level({}, NAMES, lambda n: n * 4 // 5, zeros))
    job("cut: 16,777,214 lumps of UDMF", "cut --entry 0 F", udmf(b"ENDMAP"))
    job("cut: the same without ENDMAP", "cut --entry 0 F", udmf(b"ZNODES"), ends=2)
    job("check --map --max 0: 19 million linedefs at one place", "check --map --max 0 F", linedefs(STEP, [(0, 1, 0, 1)]))
    p1024 = "picture --cells 1024 "
    job("picture: 1,047,552 cells, each a block, of 32,736 sectors", p1024 + "--wide E1M1 F", slanted)
    job("picture: 1024 cells down a chain of 32,767 nodes", p1024 + "E1M1 F", chain(ROW))
    job("picture: 1024 cells before 32,767 segs", p1024 + "E1M1 F", leaf_row)
    job("picture: 19 million linedefs without length", p1024 + "E1M1 F", of_bytes(b"\0", [b"LINEDEFS"]))
    job(
        "picture: 26.8 million things", p1024 + "E1M1 F", big_level({}, [b"THINGS"], whole(10), lambda out, n: again(out, THING, n))
    )
    frame = p1024 + "--frame=-32768,-32768,32767,32767 E1M1 F"
    job("picture: LINEDEFS of bytes 255", frame, of_bytes(b"\xff", [b"LINEDEFS"]), ends=1)
    job("picture: all lumps over the same bytes 255", frame, one_byte, ends=1)
    job(
        "picture: a frame of 1024 rows, none in range of 32,736 sectors",
        p1024 + "--frame=9000,9000,10023,10023 --wide E1M1 F",
        slanted,
    )
    job("atlas: 50,000 levels over the same bytes", "atlas --out O F", samples(50000))
    job("atlas: 1,525,201 levels with nothing to draw", "atlas --out O F", directory(None, [b"E1M1"] + NAMES), ends=1)
    job("demos: 16,777,215 entries of one name", "demos F", one_name)
    job(
        "demos: 16,777,214 demos over the same 14 bytes",
        "demos F",
        demos.many_demos(bytes([109, 3, 1, 1, 0, 0, 0, 0, 0, 1, 0, 0, 0, 128])),
    )
    job("demos: 16,777,215 refused demos", "demos F", demos.many_demos(b"\xff"), ends=2)
    job("demos: a demo of 67 million commands", "demos D", demos.demo(109, [1, 0, 0, 0]))
    job("demos: 8 demos over the same 67 million commands", "demos F", demos.demo_lumps(8))
    job("compare: 67 million commands with themselves", "compare D D", demos.demo(109, [1, 0, 0, 0]))
    mbf21 = demos.later_demo(demos.MBF21, bytes([25, 206, 7, 9, 1]))
    with_slots = demos.later_demo(demos.DSDA + demos.MBF21, bytes([25, 206, 7, 9, 1, 6, 1, 2]))
    job("demos: 53 million commands of MBF21", "demos D", mbf21)
    job("demos: 33 million commands with actions and slots", "demos D", with_slots)
    job("demos: 16,777,204 prefixes of a demo", "demos F", demos.prefixes, ends=2)
    job("demos: 2,064,888 headers, each with a byte turned", "demos F", demos.turned_headers, ends=2)
    job("demos: 255 options", "demos D", demos.later_demo(demos.MBF21[:32] + b"\xff", b"\0"), ends=2)
    job("demos: a key frame of 4 GB", "demos D", demos.keyed_demo(4294967295), ends=2)
    job("demos: a key frame of 268 MB", "demos D", demos.keyed_demo(0))
    job("compare: a key frame of 268 MB with itself", "compare D D", demos.keyed_demo(0))
    job("listing: a key frame of 4 GB", "listing D", demos.keyed_demo(4294967295), ends=2)
    job("demos: 16 million entries behind a marker", "demos --json D", demos.footer)
    job("demos: 268 MB of spaces in CMDLINE", "demos --json D", demos.spaces_in_a_lump)
    job("demos: 268 MB of one line of Woof's", "demos --json D", demos.line_of_woof(b"w"))
    job("demos: the same of spaces, behind another line", "demos --json D", demos.line_of_woof(b" "))
    job("listing: 53 million commands of MBF21", "listing D", mbf21)
    job("listing: 33 million commands with actions and slots", "listing D", with_slots)
    job("compare: 33 million commands with actions and slots", "compare D D", with_slots)
    job("compare: the same, their commands alone", "compare --commands D D", with_slots)
    job("assemble: the longest listing", "assemble", None, demos.listing(0))
    job("assemble: the same, with a last line that is wrong", "assemble", None, demos.listing(1), ends=2)
    job("assemble: 268 MB of one line", "assemble", None, lambda out, part: again(out, b"1", int(FILES * part)), ends=2)

# A call ends with its status: 1 where the level isn't sound, 8 where no entry has the name.
for word, name, make, ends in (
    (
        ("audit", "9.5 million nodes in a chain", big_level(MANY_SSECTORS, [b"NODES"], whole(28), CHAIN), 0),
        ("audit", "all lumps over the same bytes 255", one_byte, 0),
        ("points", "9.5 million nodes that all name one, refused", big_level(MANY_SSECTORS, [b"NODES"], whole(28), ONE), 1),
        ("points", "1024 points down a chain of 32,767 nodes", chain({}), 0),
        ("prepare", "22 million segs", big_level({}, [b"SEGS"], whole(12), lambda out, n: again(out, SEG, n)), 0),
        ("prepare", "a chain of 32,767 nodes", chain({}), 0),
        ("point", "1024 calls down such a chain", chain({}), 0),
        ("point", "1024 calls round a ring of 32,767 nodes", ring, 0),
        ("census", "a square of 1024 on a chain of 32,767 nodes", chain({}), 0),
        ("census", "a square of 1024 on a chain of 32,767 slanted nodes", chain({}, direction=(1, 64)), 0),
        ("census_wide", "1,047,552 points in 32,736 sectors", slanted, 0),
        ("find", "16,777,215 entries of another name", one_name, 8),
        ("find", "1,525,201 levels of one label", directory(None, [b"E1M1"] + NAMES), 0),
        ("sight", "1,048,576 bits of a REJECT of 268 MB", of_bytes(b"\x55", [b"REJECT"]), 0),
        ("extract", "a level of 268 MB", of_bytes(b"\0", b), 0),
        ("demo", "67 million commands", demos.demo(109, [1, 0, 0, 0]), 0),
        ("block", "one list of 134 million words", big_level({}, b, whole(2), one_list), 0),
    )
    if o.library
    else ()
):
    job("wadlook_%s: %s" % (word.split("_")[0], name), "wadlook_%s F" % word, make, ends=ends)

# ----------------------------------------------------------------------- runs
CALLS = p("calls")
if o.library:
    subprocess.check_call(
        ["gcc", "-O3", "-I%s/include" % o.library, "-o", CALLS, HERE + "/calls.c", o.library + "/lib/libwadlook.a"]
    )


def once(args, inp):
    """user plus system seconds, peak KB, status, first word on standard error"""
    words = [o.wadlens if args[0] in LENS else o.wadlook] + args
    if args[0].startswith("wadlook_"):
        words = [CALLS, args[0][8:]] + args[1:]
    q = subprocess.run([RUN, str(o.limit), inp, "/dev/null", p("err")] + words, stdout=subprocess.PIPE).stdout.split()
    if len(q) != 6 or q[5] == b"127":
        sys.exit("cannot run %s" % words[0])
    shutil.rmtree(p("atlas"), ignore_errors=True)
    with open(p("err"), errors="replace") as err:
        return float(q[0]) + float(q[1]), int(q[3]), int(q[5]), err.readline().strip()


def best(words, make, lines, part):
    file, inp = p("file.wad"), "/dev/null"
    if make:
        with open(file, "wb") as out:
            make(out, part)
    if lines:
        inp = p("lines")
        with open(inp, "wb") as out:
            lines(out, part)
    args = [{"F": file, "D": file, "S": SAMPLE, "O": p("atlas")}.get(q, q) for q in words.split()]
    runs = [once(args, inp) for _ in range(o.repeat)]
    for n in (file, p("lines")):
        if os.path.exists(n):
            os.remove(n)
    return min(runs, key=lambda r: r[0])


if o.markdown:
    print("| Input | Half | Whole | Ratio | Peak memory |\n|---|---|---|---|---|")
else:
    print("%-58s %9s %9s %6s %9s  %s" % ("input", "half, s", "whole, s", "ratio", "peak, MB", "ends"))
for name, words, make, lines, ends in J:
    if o.only and not any(k in name for k in o.only.split(",")):
        continue
    half, all_ = best(words, make, lines, o.scale / 2), best(words, make, lines, o.scale)
    slow = -1 in (half[2], all_[2])
    ratio = "%.2f" % (all_[0] / half[0]) if min(half[0], all_[0]) >= 0.02 and not slow else "-"
    told = (
        "over %d s" % o.limit
        if slow
        else "status %d%s%s" % (all_[2], " " + all_[3] if all_[3] else "", "" if all_[2] == ends else " (NOT %d)" % ends)
    )
    if o.markdown:
        print("| %s | %.2f s | %.2f s | %s | %.0f MB |" % (name, half[0], all_[0], ratio, all_[1] / 1024), flush=True)
    else:
        print("%-58s %9.3f %9.3f %6s %9.1f  %s" % (name, half[0], all_[0], ratio, all_[1] / 1024, told), flush=True)
