"""Files that hostile.py writes: headers, directories, and levels whose lumps are as large as there is room for."""
import os
import struct

SAMPLE = os.path.join(os.path.dirname(os.path.abspath(__file__)), "..", "sample", "base.wad")

FILES, INPUT = 268435456, 16777216


def w(*v):
    return b"".join(struct.pack("<H", x & 65535) for x in v)


def entry(at, size, name):
    return struct.pack("<ii8s", at, size, name)


def head(count, at):
    return b"PWAD" + struct.pack("<ii", count, at)


NAMES = [b"THINGS", b"LINEDEFS", b"SIDEDEFS", b"VERTEXES", b"SEGS", b"SSECTORS", b"NODES", b"SECTORS", b"REJECT", b"BLOCKMAP"]


# Inputs are written piece by piece, so that the process that writes them stays small.
def again(out, piece, size):
    """size bytes of the piece again and again"""
    many = piece * max(1, 1048576 // len(piece))
    while size > 0:
        size -= out.write(many[:size])


def own():
    """the sample's lumps by name"""
    b = open(SAMPLE, "rb").read()
    n, at = struct.unpack("<ii", b[4:12])
    d = {}
    for i in range(n):
        q, size, name = struct.unpack("<ii8s", b[at + 16 * i : at + 16 * i + 16])
        d[name.rstrip(b"\0")] = b[q : q + size]
    return d


OWN = own()


def names_of(lumps, big):
    """the names of a level's lumps, and of these behind them"""
    return NAMES + [k for k in [*lumps, *big] if k not in NAMES]


def level(out, lumps, big=None, size=0, fill=None):
    """the level E1M1: the sample's lumps, others in their place, and one or
    several big ones that share size bytes, which fill writes at the end"""
    big = big or []
    small, names = {**OWN, **lumps}, names_of(lumps, big)
    at = 12 + 16 * (1 + len(names))
    body, d = b"", entry(0, 0, b"E1M1")
    for k in names:
        if k not in big:
            d += entry(at + len(body), len(small[k]), k)
            body += small[k]
        else:
            d += entry(-1, size, k)
    start = at + len(body)
    d = b"".join(
        d[i : i + 16] if d[i : i + 4] != b"\xff" * 4 else struct.pack("<i", start) + d[i + 4 : i + 16] for i in range(0, len(d), 16)
    )
    out.write(head(1 + len(names), 12) + d + body)
    if fill:
        fill(out, size)


def room(lumps, big):
    """how many bytes the big lumps may have"""
    directory = 16 * (1 + len(names_of(lumps, big)))
    return FILES - 12 - directory - sum(len(b) for k, b in {**OWN, **lumps}.items() if k not in big)


def big_level(lumps, big, size_of, fill):
    def make(out, part):
        level(out, lumps, big, size_of(int(room(lumps, big) * part)), fill)

    return make


def whole(record):
    return lambda n: n // record * record
