"""Demos, and files of demos, that no editor writes: inputs of hostile.py, each a function of where it is written and of the part of its
whole size."""

import struct

from hostile_files import FILES, again, entry, head


def demo(version, players):
    def make(out, part):
        k = 5 if version == 111 else 4
        n = (int(FILES * part) - 14) // k
        out.write(bytes([version, 3, 1, 1, 0, 0, 0, 0, 0] + players))
        again(out, bytes([25, 206, 7, 9, 1][:k]), n * k)
        out.write(b"\x80")

    return make


# A header of MBF21 with 25 options, and a wrapper of DSDA-Doom with a key frame or without.
MBF21 = b"\xdd\x1dMBF\xe6\0" + bytes(25) + b"\x19" + bytes(25) + b"\x01" + bytes(31)
DSDA, KEYED = (b"\xff\x1dDSDA\xe6\x02" + bytes(8) + flags for flags in (b"\0", b"\x01"))


def later_demo(front, command):
    """a demo of these bytes, and as many commands as fit"""

    def make(out, part):
        out.write(front)
        again(out, command, (int(FILES * part) - len(front) - 1) // len(command) * len(command))
        out.write(b"\x80")

    return make


def keyed_demo(size):
    """a demo whose key frame says so many bytes, or has all there are"""

    def make(out, part):
        left = int(FILES * part) - len(KEYED) - len(MBF21) - 5
        out.write(KEYED + MBF21 + struct.pack("<I", size or left))
        again(out, b"\x80", left + 1)

    return make


def prefixes(out, part):
    """as many demos as fit, which are all prefixes of one demo"""
    body = KEYED + MBF21 + struct.pack("<I", 3) + b"abc" + bytes(6) + b"\x80"
    n = int((FILES - 12 - len(body)) // 16 * part)
    out.write(head(n, 12 + len(body)) + body)
    again(out, b"".join(entry(12, 1 + i % len(body), b"DEMO1") for i in range(4096)), 16 * n)


def turned_headers(out, part):
    """as many demos as fit, each a header in a wrapper of which another byte is turned"""
    body = DSDA + MBF21 + bytes(6) + b"\x80"
    places = range(len(body) - 7)
    turned = [body[:k] + bytes([body[k] ^ 255]) + body[k + 1 :] for k in places]
    n = int((FILES - 12) // (len(body) + 16) * part)
    start = 12 + 16 * n
    out.write(head(n, 12))
    for first in range(0, n, 65536):
        several = range(first, min(first + 65536, n))
        out.write(b"".join(entry(start + k * len(body), len(body), b"DEMO1") for k in several))
    again(out, b"".join(turned), n * len(body))


def footer(out, part):
    """a demo with the longest directory behind its marker, in which no entry has a name that is looked up"""
    front = MBF21 + b"\x80"
    n = (int(FILES * part) - len(front) - 12) // 16
    out.write(front + head(n, 12))
    again(out, entry(12, 0, b"PORTNAMF"), 16 * n)


def spaces_in_a_lump(out, part):
    """a demo with a CMDLINE of spaces behind its marker, which takes the whole room"""
    front = MBF21 + b"\x80"
    n = int(FILES * part) - len(front) - 28
    out.write(front + head(1, 12) + entry(28, n, b"CMDLINE"))
    again(out, b" ", n)


def line_of_woof(byte):
    """a demo with lines as Woof writes them behind its marker, of which the second, or the first of other bytes than spaces, is of
    this byte alone"""

    def make(out, part):
        front = MBF21 + b"\x80Woof " + (b"\n" if byte == b" " else b"")
        out.write(front)
        again(out, byte, int(FILES * part) - len(front))

    return make


def demo_lumps(count):
    """so many demos over the same bytes, which take the whole room"""

    def make(out, part):
        n = (int(FILES * part) - 12 - 16 * count - 14) // 4 * 4 + 14
        out.write(head(count, 12) + entry(12 + 16 * count, n, b"DEMO1") * count + bytes([109, 3, 1, 1, 0, 0, 0, 0, 0, 1, 0, 0, 0]))
        again(out, bytes([25, 206, 7, 9]), n - 14)
        out.write(b"\x80")

    return make


def demo_hole(out, part):
    out.write(bytes([109, 3, 1, 1, 0, 0, 0, 0, 0, 1, 0, 0, 0, 128]))
    out.truncate(int(FILES * part) + (part == 1))


def many_demos(body):
    """as many demos as fit, all over the same few bytes"""

    def make(out, part):
        n = int((FILES - 12 - len(body)) // 16 * part)
        out.write(head(n, 12 + len(body)) + body)
        again(out, entry(12, len(body), b"DEMO1"), 16 * n)

    return make


def listing(more):
    """the longest listing, whose last line tells of so many tics more than there are"""

    def make(out, part):
        left, n, block = int(FILES * part) - 200, -4096, b""
        out.write(
            b"demo version 109 skill 3 episode 1 map 1 deathmatch 0 respawn 0 fast 0 nomonsters 0 viewpoint 0 players 1 0 0 0\n"
        )
        while len(block) <= left:
            left -= out.write(block)
            n += 4096
            block = "".join("%d 1 0 0 0 00\n" % i for i in range(n, n + 4096)).encode()
        out.write(b"tics %d odd 0 after 0\n" % (n + more))

    return make
