#!/usr/bin/env python3
"""workload_files.py [FOLDER]: makes the files of the workloads, levels.wad and comb.wad, beside this script.

levels.wad holds five levels of the files in FOLDER (/usr/share/games/doom, Debian's packages freedoom and freedm 0.12.1);
comb.wad holds one that no editor writes: 480 slanted strips side by side, whose nodes are a chain.
"""

import pathlib
import struct
import sys

LEVELS = [
    ("freedoom1.wad", "E1M2"),
    ("freedoom1.wad", "E3M1"),
    ("freedoom2.wad", "MAP01"),
    ("freedoom2.wad", "MAP03"),
    ("freedm.wad", "MAP14"),
]

STRIPS = 480
WIDTH = 32
HEIGHT = 2048


def lumps_of(path):
    """The lumps of a WAD file, each with its name."""
    data = path.read_bytes()
    count, directory = struct.unpack_from("<ii", data, 4)
    for entry in range(count):
        position, size, name = struct.unpack_from("<ii8s", data, directory + 16 * entry)
        yield name.rstrip(b"\0").decode(), data[position : position + size]


def level_of(path, label):
    """The eleven lumps of a level."""
    lumps = list(lumps_of(path))
    first = [name for name, _ in lumps].index(label)
    return lumps[first : first + 11]


def wad(lumps):
    """A WAD file of lumps."""
    body, directory, at = b"", b"", 12
    for name, lump in lumps:
        directory += struct.pack("<ii8s", at, len(lump), name.encode())
        body += lump
        at += len(lump)
    return b"PWAD" + struct.pack("<ii", len(lumps), at) + body + directory


def words(*numbers):
    """Numbers of two bytes."""
    return struct.pack(f"<{len(numbers)}H", *(number & 0xFFFF for number in numbers))


def column_of(boundary, top):
    """Where a boundary between strips ends, at the top or at the bottom."""
    slant = (boundary * 7 % 5 - 2) * 4
    return -WIDTH * STRIPS // 2 + WIDTH * boundary + (slant if top else -slant)


def comb():
    """The lumps of the strips: boundary b is between strips b - 1 and b, and vertexes 2b and 2b + 1 are its ends."""
    low, high = -HEIGHT // 2, HEIGHT // 2
    vertexes = b"".join(words(column_of(b, top), high if top else low) for b in range(STRIPS + 1) for top in (False, True))
    sidedefs, linedefs = [], []

    def side(sector, is_wall):
        blank = b"-".ljust(8, b"\0")
        sidedefs.append(words(0, 0) + blank * 2 + (b"STARTAN3" if is_wall else blank) + words(sector))
        return len(sidedefs) - 1

    def line(v1, v2, front, back=None):
        sides = side(front, back is None), -1 if back is None else side(back, False)
        linedefs.append(words(v1, v2, 1 if back is None else 4, 0, 0, *sides))
        return len(linedefs) - 1

    # The right of a line is its front: upwards that is the next strip.
    bounds = [line(0, 1, 0)]
    bounds += [line(2 * b, 2 * b + 1, b, b - 1) for b in range(1, STRIPS)]
    bounds.append(line(2 * STRIPS + 1, 2 * STRIPS, STRIPS - 1))
    tops = [line(2 * s + 1, 2 * s + 3, s) for s in range(STRIPS)]
    bottoms = [line(2 * s + 2, 2 * s, s) for s in range(STRIPS)]
    segs, ssectors = b"", b""
    for s in range(STRIPS):
        ssectors += words(4, 4 * s)
        segs += words(2 * s, 2 * s + 1, 0x4000, bounds[s], 0, 0)
        segs += words(2 * s + 1, 2 * s + 3, 0, tops[s], 0, 0)
        last = s == STRIPS - 1
        segs += words(2 * s + 3, 2 * s + 2, 0xC000, bounds[s + 1], 0 if last else 1, 0)
        segs += words(2 * s + 2, 2 * s, 0x8000, bottoms[s], 0, 0)
    nodes = b""
    for n in range(STRIPS - 1):
        x0, x1 = column_of(n + 1, False), column_of(n + 1, True)
        left, right = column_of(0, False) - 32, column_of(STRIPS, True) + 32
        nodes += words(x0, low, x1 - x0, HEIGHT)
        nodes += words(high, low, x0 - 32, min(x0 + 2 * WIDTH, right), high, low, left, x0 + 32)
        nodes += words(0x8000 | (n + 1), n - 1 if n else 0x8000)
    sectors = b"".join(words(0, 128) + b"FLOOR4_8CEIL3_5\0" + words(96 + s % 8 * 16, 0, 0) for s in range(STRIPS))
    columns, rows = WIDTH * STRIPS // 128 + 2, HEIGHT // 128 + 1
    x, y = column_of(0, False) - 64, low
    places = [struct.unpack_from("<hh", vertexes, 4 * v) for v in range(2 * STRIPS + 2)]
    spans = []
    for linedef in linedefs:
        (ax, ay), (bx, by) = (places[v] for v in struct.unpack_from("<HH", linedef))
        spans.append((min(ax, bx), max(ax, bx), min(ay, by), max(ay, by)))
    offsets, lists = [], b""
    for row in range(rows):
        for column in range(columns):
            left, lowest = x + 128 * column, y + 128 * row
            inside = [
                number
                for number, (x0, x1, y0, y1) in enumerate(spans)
                if x0 < left + 128 and x1 >= left and y0 < lowest + 128 and y1 >= lowest
            ]
            offsets.append(4 + columns * rows + len(lists) // 2)
            lists += words(0, *inside, -1)
    starts = b"".join(words(-7600 + 64 * k, 0, 90, k, 7) for k in range(1, 5))
    return [
        ("MAP01", b""),
        ("THINGS", starts),
        ("LINEDEFS", b"".join(linedefs)),
        ("SIDEDEFS", b"".join(sidedefs)),
        ("VERTEXES", vertexes),
        ("SEGS", segs),
        ("SSECTORS", ssectors),
        ("NODES", nodes),
        ("SECTORS", sectors),
        ("REJECT", bytes((STRIPS * STRIPS + 7) // 8)),
        ("BLOCKMAP", words(x, y, columns, rows, *offsets) + lists),
    ]


def main():
    here = pathlib.Path(__file__).resolve().parent
    games = pathlib.Path(sys.argv[1] if len(sys.argv) > 1 else "/usr/share/games/doom")
    levels = [lump for name, label in LEVELS for lump in level_of(games / name, label)]
    (here / "levels.wad").write_bytes(wad(levels))
    (here / "comb.wad").write_bytes(wad(comb()))


if __name__ == "__main__":
    main()
