"""Nodes in later formats that no builder writes, for hostile.py: as large as there is room for, or with counts that the bytes don't bear out."""

import struct

from hostile_files import again, big_level, whole

SEG = struct.pack("<IIHB", 0, 1, 0, 0)


def u32(*numbers):
    return struct.pack("<%dI" % len(numbers), *numbers)


def extended(fill):
    """a level whose NODES have the tag XNOD, the two vertexes of the sample, what this writes behind, and bytes 0 that are left over"""

    def write(out, size):
        end = out.tell() + size
        out.write(b"XNOD" + u32(2, 0))
        fill(out, size - 12)
        again(out, b"\0", end - out.tell())

    return big_level({}, [b"NODES"], whole(1), write)


def empty_ssectors(out, size):
    """ssectors of no segs, no seg and no node"""
    count = (size - 12) // 4
    out.write(u32(count))
    again(out, u32(0), 4 * count)
    out.write(u32(0, 0))


def wrapping_ssectors(out, size):
    """the same with as many segs each as a number has"""
    count = (size - 12) // 4
    out.write(u32(count))
    again(out, u32(4294967295), 4 * count)
    out.write(u32(0, 0))


def one_ssector(out, size):
    """one ssector of as many segs as fit"""
    count = (size - 16) // len(SEG)
    out.write(u32(1, count, count))
    again(out, SEG, len(SEG) * count)
    out.write(u32(0))


def chained_nodes(out, size):
    """one ssector, and nodes whose second child is the node before"""
    count = (size - 12 - len(SEG) - 4 - 4) // 32
    out.write(u32(1, 1, 1) + SEG + u32(count))
    boxes = struct.pack("<12h", 0, 0, 0, 64, *[0] * 8)
    pack = struct.Struct("<24sII").pack
    for low in range(0, count, 32768):
        nodes = range(low, min(low + 32768, count))
        out.write(b"".join(pack(boxes, 2147483648, k - 1 if k else 2147483648) for k in nodes))


def most_ssectors(out, size):
    """a number of ssectors that no lump holds"""
    out.write(u32(4294967295))
    again(out, u32(1), size - 4)


# What is told of each, in words, and the status of `check`.
LEVELS = (
    ("67 million ssectors without segs", empty_ssectors, 2),
    ("67 million ssectors of 4,294,967,295 segs", wrapping_ssectors, 1),
    ("24 million segs of one ssector", one_ssector, 2),
    ("8 million nodes in a chain", chained_nodes, 2),
    ("4,294,967,295 ssectors, told by a number", most_ssectors, 1),
)
