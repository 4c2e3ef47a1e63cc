"""Whole small levels, WAD files and demos, made up from a seed: rooms that partitions
cut out of a polygon, with the lines, segs, ssectors and nodes that fit."""

from collections.abc import Iterator
from math import gcd
from random import Random
from typing import Any

from plain.levels import LAYOUTS
from plain.wads import USUAL

Point = tuple[int, int]
Partition = tuple[int, int, int, int]
Lumps = list[tuple[bytes, bytes]]

THINGS, LINEDEFS, SIDEDEFS, VERTEXES, SEGS, SSECTORS, NODES, SECTORS = range(8)
FLATS = (b"FLAT1", b"FLAT1", b"F_SKY1", b"F_SKY1", b"NUKAGE1", b"<&\"'>")
WALLS = (b"STARTAN3", b"BRICK1", b"-", b"", b"AASTINKY", b"W\\ \x7f\xff")


def word(value: int) -> bytes:
    return (value & 65535).to_bytes(2, "little")


class Draft:
    """A level that can be changed: the records of its tables, REJECT, and the words of
    BLOCKMAP."""

    def __init__(self) -> None:
        self.tables: list[list[list[Any]]] = [[] for _ in LAYOUTS]
        self.reject = b""
        self.words: list[int] = []

    def lumps(self) -> list[bytes]:
        """The bytes of the ten lumps."""
        found = []
        for table, (_, layout) in zip(self.tables, LAYOUTS):
            parts = []
            for record in table:
                for kind, value in zip(layout, record):
                    named = kind == "n"
                    parts.append(value.ljust(8, b"\0") if named else word(value))
            found.append(b"".join(parts))
        blockmap = b"".join(word(value) for value in self.words)
        return [*found, self.reject, blockmap]


def long(value: int) -> bytes:
    return (value & 0xFFFFFFFF).to_bytes(4, "little")


def later_child(value: int) -> bytes:
    """The word of a child, with the ssector's mark in its highest bit."""
    return long((value & 32767) + 2**31 * (value & 65535 > 32767))


def later(tag: bytes, draft: Draft) -> bytes:
    """All nodes of a draft, as a lump of XNOD, XGLN or XGL2."""
    linedef = long if tag == b"XGL2" else word
    parts: list[list[bytes]] = [[], [], [], []]
    for count, _ in draft.tables[SSECTORS]:
        parts[1].append(long(count))
    for v1, v2, _, line, side, _ in draft.tables[SEGS]:
        parts[2].append(long(v1) + long(v2) + linedef(line) + bytes([side & 255]))
    for node in draft.tables[NODES]:
        parts[3].append(b"".join([word(value) for value in node[:12]] + [later_child(value) for value in node[12:]]))
    front = tag + long(len(draft.tables[VERTEXES]))
    return front + b"".join(long(len(part)) + b"".join(part) for part in parts)


# ---- Rooms ---------------------------------------------------------------------------


def cross(partition: Partition, point: Point) -> int:
    x, y, dx, dy = partition
    return dy * (point[0] - x) - dx * (point[1] - y)


def part(polygon: list[Point], partition: Partition, sign: int) -> list[Point]:
    """What of a polygon lies on a side of a partition, at whole points."""
    kept: list[Point] = []
    for a, b in zip(polygon, polygon[1:] + polygon[:1]):
        at_a, at_b = sign * cross(partition, a), sign * cross(partition, b)
        if at_a >= 0 and a not in kept:
            kept.append(a)
        if at_a * at_b < 0:
            along = at_a / (at_a - at_b)
            x = round(a[0] + along * (b[0] - a[0]))
            y = round(a[1] + along * (b[1] - a[1]))
            if (x, y) not in kept:
                kept.append((x, y))
    return kept


def box(polygon: list[Point]) -> list[int]:
    """Top, bottom, left and right."""
    across, up = zip(*polygon)
    return [max(up), min(up), min(across), max(across)]


class Builder:
    """Cuts a polygon into rooms and writes down what fits; some rooms lack edges."""

    def __init__(self, random: Random, lacking: float) -> None:
        self.random = random
        self.lacking = lacking
        self.draft = Draft()
        self.vertexes: dict[Point, int] = {}
        self.linedefs: dict[tuple[int, int], int] = {}

    def add(self, table: int, record: list[Any]) -> int:
        self.draft.tables[table].append(record)
        return len(self.draft.tables[table]) - 1

    def vertex(self, point: Point) -> int:
        if point not in self.vertexes:
            self.vertexes[point] = self.add(VERTEXES, [*point])
        return self.vertexes[point]

    def sector(self) -> int:
        count = len(self.draft.tables[SECTORS])
        if count and self.random.random() < 0.4:
            return self.random.randrange(count)
        floor, height = self.random.randrange(-64, 65), self.random.randrange(257)
        flats = [self.random.choice(FLATS) for _ in "ab"]
        light = self.random.choice((*[self.random.randrange(256)] * 8, -1, 256, 300))
        special = self.random.choice((0, 0, 9))
        tag = self.random.choice((0, 0, 1, 7))
        return self.add(SECTORS, [floor, floor + height, *flats, light, special, tag])

    def sidedef(self, sector: int) -> int:
        walls = [self.random.choice(WALLS) for _ in "abc"]
        return self.add(SIDEDEFS, [self.random.randrange(64), 0, *walls, sector])

    def line(self, v1: int, v2: int, sector: int) -> tuple[int, int]:
        """A linedef and the side of it that faces a sector."""
        other = self.linedefs.get((v2, v1))
        if other is not None and self.draft.tables[LINEDEFS][other][6] == -1:
            self.draft.tables[LINEDEFS][other][2] |= 4
            self.draft.tables[LINEDEFS][other][6] = self.sidedef(sector)
            return other, 1
        special, tag = self.random.choice((0, 0, 1, 11, 18)), self.random.choice((0, 0, 7))
        record = [v1, v2, 1, special, tag, self.sidedef(sector), -1]
        self.linedefs[v1, v2] = self.add(LINEDEFS, record)
        return self.linedefs[v1, v2], 0

    def room(self, polygon: list[Point]) -> int:
        """An ssector; the child word that names it."""
        sector, first = self.sector(), len(self.draft.tables[SEGS])
        edges = list(zip(polygon, polygon[1:] + polygon[:1]))
        if self.random.random() < self.lacking:
            edges = edges[: self.random.randrange(1, len(edges) + 1)]
        for start, end in edges:
            v1, v2 = self.vertex(start), self.vertex(end)
            linedef, side = self.line(v1, v2, sector)
            angle = self.random.randrange(65536)
            self.add(SEGS, [v1, v2, angle, linedef, side, 0])
        return 32768 + self.add(SSECTORS, [len(edges), first])

    def partition(self, polygon: list[Point]) -> Partition:
        top, bottom, left, right = box(polygon)
        x, y = self.random.randint(left, right), self.random.randint(bottom, top)
        long = self.random.choice((1, 8, 64, 777))
        match self.random.randrange(8):
            case 0 | 1:
                return x, y, 0, self.random.choice((-long, long))
            case 2 | 3:
                return x, y, self.random.choice((-long, long)), 0
            case 4:
                return x, y, self.random.choice((-1, 1)), self.random.choice((-1, 1))
        to_x, to_y = self.random.randint(left, right), self.random.randint(bottom, top)
        return x, y, to_x - x, to_y - y

    def rooms(self, polygon: list[Point], depth: int) -> int:
        """The rooms of a polygon; the child word that names the place of all."""
        cut = self.partition(polygon)
        front, behind = part(polygon, cut, 1), part(polygon, cut, -1)
        if depth == 0 or min(len(front), len(behind)) < 3:
            return self.room(polygon)
        children = [self.rooms(front, depth - 1), self.rooms(behind, depth - 1)]
        return self.add(NODES, [*cut, *box(front), *box(behind), *children])

    def things(self, polygon: list[Point]) -> None:
        top, bottom, left, right = box(polygon)
        kinds = [1] if self.random.random() < 0.9 else []
        for kind in kinds + self.random.choices((2, 3, 11, 2001, 3004), k=3):
            place = self.random.randint(left, right), self.random.randint(bottom, top)
            self.add(THINGS, [*place, 45 * self.random.randrange(8), kind, 7])

    def tables(self, polygon: list[Point]) -> None:
        """REJECT of any bits; BLOCKMAP with each linedef in the blocks around it."""
        count = len(self.draft.tables[SECTORS])
        self.draft.reject = self.random.randbytes((count * count + 7) // 8)
        top, bottom, left, right = box(polygon)
        x, y = left - 8, bottom - 8
        width, height = (right - x) // 128 + 1, (top - y) // 128 + 1
        width, height = min(width, 12), min(height, 12)
        lists: list[list[int]] = [[0] for _ in range(width * height)]
        places = self.draft.tables[VERTEXES]
        for i, (v1, v2, *_) in enumerate(self.draft.tables[LINEDEFS]):
            over, under, west, east = box([tuple(places[v]) for v in (v1, v2)])
            for row in range((under - y) // 128, min((over - y) // 128 + 1, height)):
                for column in range((west - x) // 128, min((east - x) // 128 + 1, width)):
                    lists[row * width + column].append(i)
        self.draft.words = [x, y, width, height]
        at = 4 + len(lists)
        for numbers in lists:
            self.draft.words.append(at)
            at += len(numbers) + 1
        self.draft.words += [value for numbers in lists for value in [*numbers, -1]]


def built(random: Random, span: int, lacking: float) -> Draft:
    """A level so many units wide, in which so many of the rooms lack edges."""
    left = random.randint(-16384, 16383 - span)
    bottom = random.randint(-16384, 16383 - span)
    right, top = left + span, bottom + random.randint(span // 2, span)
    corners = [(left, bottom), (left, top), (right, top), (right, bottom)]
    builder = Builder(random, lacking)
    builder.rooms(corners, random.choice((0, 1, 2, 3, 3, 4)))
    builder.things(corners)
    builder.tables(corners)
    return builder.draft


def level(random: Random) -> Draft:
    """A level without faults, unless its rooms are beyond what points can have."""
    span = random.choice((20, 200, 600, 600, 1500, 6000, 32767))
    return built(random, span, random.choice((0.1, 0.4)))


def neat(random: Random) -> Draft:
    """A level in which there is nothing to warn of, unless points were rounded."""
    draft = built(random, random.choice((20, 200, 600, 6000)), 0)
    tags = {sector[6] for sector in draft.tables[SECTORS]}
    for linedef in draft.tables[LINEDEFS]:
        if linedef[4] not in tags:
            linedef[3 + random.randrange(2)] = 0
    for sidedef in draft.tables[SIDEDEFS]:
        sidedef[2:5] = random.choices((b"STARTAN3", b"", b"--"), k=3)
    inside = draft.tables[THINGS][-1][:2]
    for kind in (1, 2, 3, 4, 11, 11, 11, 11):
        draft.tables[THINGS].append([*inside, 0, kind, 7])
    return draft


def tangle(random: Random, draft: Draft) -> None:
    """Nodes that lead anywhere."""
    count = random.randrange(1, 9)
    words = [*range(count), *range(32768, 32768 + len(draft.tables[SSECTORS]))]
    draft.tables[NODES] = [[0, 0, 0, 64, *[0] * 8, random.choice(words), random.choice(words)] for _ in range(count)]


def enlarge(random: Random, draft: Draft) -> None:
    """More records before those of a table than signed indexes can name."""
    before = random.choice((32768, 33000, 40000))
    table, users = random.choice(
        (
            (VERTEXES, ((LINEDEFS, (0, 1)), (SEGS, (0, 1)))),
            (SIDEDEFS, ((LINEDEFS, (5, 6)),)),
            (LINEDEFS, ((SEGS, (3,)),)),
            (SEGS, ((SSECTORS, (1,)),)),
            (SECTORS, ((SIDEDEFS, (5,)),)),
            (NODES, ()),
        )
    )
    if table == NODES:
        before = random.choice((32766, 32767, 32768)) - len(draft.tables[NODES])
    draft.tables[table] = draft.tables[table][:1] * before + draft.tables[table]
    for user, fields in users:
        for record in {id(each): each for each in draft.tables[user]}.values():
            for field in fields:
                record[field] += before if record[field] != -1 else 0
    head = 4 + draft.words[2] * draft.words[3]
    if table == LINEDEFS:
        draft.words[head:] = [value if value == -1 else value + before for value in draft.words[head:]]
    if random.random() < 0.5:
        offsets = [value + before for value in draft.words[4:head]]
        draft.words[4:] = [*offsets, *[0] * before, *draft.words[head:]]


# ---- Points --------------------------------------------------------------------------


def spots(random: Random, draft: Draft, count: int) -> list[Point]:
    """Points in and around a level, many of them on its partitions and vertexes."""
    found: list[Point] = []
    vertexes = [(x, y) for x, y in draft.tables[VERTEXES]] or [(0, 0)]
    top, bottom, left, right = box(vertexes)
    for _ in range(count):
        chance = random.random()
        if chance < 0.4 and draft.tables[NODES]:
            x, y, dx, dy = random.choice(draft.tables[NODES])[:4]
            step = gcd(dx, dy) or 1
            along = random.choice((0, 0, 1, -1, random.randint(-300, 300)))
            found.append((x + along * (dx // step), y + along * (dy // step)))
        elif chance < 0.6:
            x, y = random.choice(vertexes)
            found.append((x + random.randint(-1, 1), y + random.randint(-1, 1)))
        elif chance < 0.65:
            ends = (-16385, -16384, 16383, 16384)
            found.append((random.choice(ends), random.choice(ends)))
        else:
            x = random.randint(left - 200, right + 200)
            found.append((x, random.randint(bottom - 200, top + 200)))
    return found


# ---- Demos ---------------------------------------------------------------------------


def demo(random: Random) -> bytes:
    version = random.choice((109, 109, 110, 111))
    players = random.choice(([1, 0, 0, 0], [1, 1, 0, 0], [0, 0, 7, 0], [1, 1, 1, 1]))
    head = [version, *(random.choice((0, 1, 3, 255)) for _ in range(8)), *players]
    body = b""
    for _ in range(random.choice((0, 1, 2, 3, 7, 40, 200))):
        forward = random.choice((0, 25, 50, 127, 129, 206, 255))
        body += bytes([forward]) + random.randbytes(4 if version == 111 else 3)
    after = random.choice((b"", b"", b"\x80", b"PR+UM\0"))
    return bytes(head) + body + b"\x80" + after


# ---- Demos of later engines ----------------------------------------------------------

PLAYERS = ([1, 0, 0, 0], [1, 1, 0, 0], [0, 0, 7, 0], [1, 1, 1, 1])
BOOM_VERSIONS = (200, 201, 202)
VERSIONS = (*range(104, 112), *BOOM_VERSIONS, 203, *range(210, 215), 221)
LONG_VERSIONS = (111, 214, 221)
WRAPPERS = ("none", "DSDA 1", "DSDA 2", "key frame", "PR+UM")
"""What stands around a demo; a key frame is in a wrapper of DSDA 2."""


def mostly_zero(random: Random, count: int) -> bytes:
    return bytes(random.choice((0, 0, 0, 0, 1, 7, 255)) for _ in range(count))


def later_header(random: Random, version: int) -> bytes:
    """A header of a version: what stands before the players, these, and what is reserved."""
    players = bytes(random.choice(PLAYERS))
    if version < 200:
        return bytes([version]) + mostly_zero(random, 8) + players
    reserved = random.choice((bytes(28), mostly_zero(random, 28)))
    if version == 221:
        options = random.choice((0, 1, 24, 25, 25))
        front = b"\x1dMBF\xe6\0" + mostly_zero(random, 25) + bytes([options]) + mostly_zero(random, options)
    else:
        size = 262 if version == 200 else 70
        front = (b"\x1dBoom\xe6" if version in BOOM_VERSIONS else b"\x1dMBF\xe6\0") + mostly_zero(random, size)
    return bytes([version]) + front + players + reserved


def footer(random: Random) -> bytes:
    """What engines leave behind a marker, and what is almost that."""
    port = random.choice((b"dsda-doom 0.25.6", b"dsda-doom 0.25.6\n", b"", b"a\xc3", b"port  \n"))
    words = random.choice((b'-iwad "freedoom2.wad" ', b"-iwad x \n\n", b"  ", b"w\xc3\xa9" * 1400, b"w" * 4095 + b"\xc3\xa9"))
    match random.randrange(6):
        case 0:
            lumps = [(b"FEATURES", b"\0"), (b"PORTNAME", port), (b"CMDLINE", words)]
            return file(random, random.sample(lumps, random.randrange(4)))
        case 1:
            return file(random, [(b"CMDLINE", b"first"), (b"CMDLINE", words), (b"portname", port), (b"PORTNAME", port)])
        case 2:
            return b"Woof 10.5.1" + random.choice((b"", b"\n", b"\n" + words, b"\n" + words + b"\n", b"\n\n" + words))
        case 3:
            return random.choice((b"Woof", b"woof 1", b"PWAD", b"IWAD" + bytes(8), b"\x80", port))
    return b""


def wrapper(random: Random, kind: str) -> bytes:
    """What stands before a demo."""
    if kind == "none":
        return b""
    if kind == "PR+UM":
        name = random.choice((b"MAP05", b"", b"E1M\\", b"LONGNAME", b"a\0b"))
        return b"\xffPR+UM\0\x01\x01\0\x08UMAPINFO" + name.ljust(8, b"\0")
    place = random.choice((bytes(4), b"\0\0\0\x8d", b"\xff" * 4))
    if kind == "DSDA 1":
        return b"\xff\x1dDSDA\xe6\x01" + place + bytes(4)
    flags = random.choice((1, 1, 3) if kind == "key frame" else (0, 0, 2))
    return b"\xff\x1dDSDA\xe6\x02" + place + b"\0\0\0\x03" + bytes([flags])


def later_commands(random: Random, version: int, has_actions: bool) -> bytes:
    """Commands of a version, with what a wrapper of DSDA-Doom adds or without."""
    body = b""
    for _ in range(random.choice((0, 1, 2, 3, 7, 40))):
        body += bytes([random.choice((0, 25, 50, 127, 129, 206, 255))]) + random.randbytes(4 if version in LONG_VERSIONS else 3)
        if has_actions:
            actions = random.choice((0, 0, 1, 2, 4, 6, 8, 16, 25, 255))
            body += bytes([actions]) + random.randbytes((actions >> 1 & 1) + (actions >> 2 & 1))
    return body


def demo_of(random: Random, version: int, kind: str) -> bytes:
    """A demo of a version in a wrapper, or in none, and nothing behind its marker."""
    front = wrapper(random, kind) + later_header(random, version)
    if kind == "key frame":
        frame = random.randbytes(random.choice((0, 1, 3, 40)))
        front += len(frame).to_bytes(4, "little") + frame
    return front + later_commands(random, version, kind not in ("none", "PR+UM")) + b"\x80"


def later_demo(random: Random) -> bytes:
    """A demo of any version in any wrapper, more often in none."""
    return demo_of(random, random.choice(VERSIONS), random.choice(("none", *WRAPPERS))) + footer(random)


def each_later_demo(random: Random) -> Iterator[bytes]:
    """A demo of each version in each wrapper."""
    for version in VERSIONS:
        for kind in WRAPPERS:
            yield demo_of(random, version, kind)


# ---- Files ---------------------------------------------------------------------------


def entry(place: int, size: int, name: bytes) -> bytes:
    places = [(value & 0xFFFFFFFF).to_bytes(4, "little") for value in (place, size)]
    return b"".join(places) + name[:8].ljust(8, b"\0")


def file(random: Random, lumps: Lumps) -> bytes:
    """A WAD file of lumps, in one of the layouts that programs write."""
    directory_first, gaps = random.random() < 0.3, random.random() < 0.3
    body, table, at = b"", b"", 12 + (16 * len(lumps) if directory_first else 0)
    for name, data in lumps:
        if gaps:
            body += random.randbytes(random.randrange(4))
        place = at + len(body)
        if not data and random.random() < 0.2:
            place = random.choice((0, -1, 2147483647, -2147483648))
        table += entry(place, len(data), name)
        body += data
    kind = random.choice((b"IWAD", b"PWAD"))
    start = 12 if directory_first else at + len(body)
    head = kind + len(lumps).to_bytes(4, "little") + start.to_bytes(4, "little")
    return head + (table + body if directory_first else body + table)


def textures(random: Random, listed: list[bytes]) -> bytes:
    """A lump that lists textures, at times with another count or an offset that leads out of it."""
    count = random.choice((len(listed), len(listed), len(listed) - 1, 2**31 - 1, -1))
    places = [4 + 4 * len(listed) + 8 * k for k in range(len(listed))]
    if listed and random.random() < 0.3:
        places[random.randrange(len(places))] += random.choice((1, 4, 8, -8, 2**30, -(2**31)))
    places = [place if -(2**31) <= place < 2**31 else 0 for place in places]
    words = b"".join((value & 0xFFFFFFFF).to_bytes(4, "little") for value in (count, *places))
    return words + b"".join(name[:8].ljust(8, b"\0") for name in listed)


def resources(random: Random) -> Lumps:
    """Lumps of textures, and entries of flats, some of those that levels name, at times in small letters."""
    found: Lumps = []
    for name in (b"TEXTURE1", b"TEXTURE2"):
        if random.random() < 0.8:
            listed = [wall.lower() if random.random() < 0.2 else wall for wall in WALLS if random.random() < 0.8]
            found.append((name, textures(random, listed)))
    if random.random() < 0.8:
        flats = [flat.lower() if random.random() < 0.1 else flat for flat in FLATS if random.random() < 0.8]
        found += [(b"F_START", b""), *((flat, b"") for flat in flats), (b"F_END", b"")]
    return found


def named(draft: Draft, label: bytes) -> Lumps:
    """The eleven lumps of a level."""
    return [(label, b""), *zip(USUAL, draft.lumps())]
