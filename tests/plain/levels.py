"""Levels, read plainly: Record, Reading, Level and the findings of an audit, as
docs/DEFINITIONS.md has them. Each finding is looked for at every record."""

from functools import cached_property
from typing import Any, NamedTuple

from plain.wads import USUAL, Entry, lump, name_of, number


class Thing(NamedTuple):
    x: int
    y: int
    angle: int
    kind: int
    options: int


class LineDef(NamedTuple):
    v1: int
    v2: int
    flags: int
    special: int
    tag: int
    side0: int
    side1: int


class SideDef(NamedTuple):
    xoff: int
    yoff: int
    top: bytes
    bottom: bytes
    middle: bytes
    sector: int


class Vertex(NamedTuple):
    x: int
    y: int


class Seg(NamedTuple):
    v1: int
    v2: int
    angle: int
    linedef: int
    side: int
    offset: int


class SSector(NamedTuple):
    count: int
    first: int


class Node(NamedTuple):
    x: int
    y: int
    dx: int
    dy: int
    box0_top: int
    box0_bottom: int
    box0_left: int
    box0_right: int
    box1_top: int
    box1_bottom: int
    box1_left: int
    box1_right: int
    child0: int
    child1: int


class Sector(NamedTuple):
    floor: int
    ceiling: int
    floor_name: bytes
    ceiling_name: bytes
    light: int
    special: int
    tag: int


LAYOUTS: list[tuple[type, str]] = [
    (Thing, "hhhhh"),
    (LineDef, "iihhhii"),
    (SideDef, "hhnnni"),
    (Vertex, "hh"),
    (Seg, "iihihh"),
    (SSector, "ii"),
    (Node, "hhhhhhhhhhhhuu"),
    (Sector, "hhnnhhh"),
]
"""The eight tables' records. A field is a signed number, an index, which the wide
reading takes as unsigned, a number that is unsigned under both, or a name."""

MOST_NODES = 32767
FAULTS = [f"F{n}" for n in range(3, 19)]
NOTES = [f"N{n}" for n in range(1, 13)]

Place = tuple[str, int]
"""What a child word names: a node or an ssector of a number."""


def size_of(layout: str) -> int:
    return sum(8 if field == "n" else 2 for field in layout)


def read_field(kind: str, data: bytes, wide: bool) -> Any:
    if kind == "n":
        return name_of(data)
    unsigned = kind == "u" or (kind == "i" and wide)
    return int.from_bytes(data, "little", signed=not unsigned)


def records(data: bytes, form: type, layout: str, wide: bool) -> list[Any]:
    """The whole records that bytes make."""
    found = []
    for start in range(0, len(data) - size_of(layout) + 1, size_of(layout)):
        fields, at = [], start
        for kind in layout:
            end = at + (8 if kind == "n" else 2)
            fields.append(read_field(kind, data[at:end], wide))
            at = end
        found.append(form(*fields))
    return found


def opening_fault(listed: list[Entry], label: int) -> tuple[str, int] | None:
    """The first of the ten entries after a label that isn't there, or whose lump isn't."""
    for k in range(1, 11):
        if label + k >= len(listed):
            return "F1", k
        if lump(listed[label + k]) is None:
            return "F2", k
    return None


def is_in_range(*coordinates: int) -> bool:
    return all(-16384 <= z <= 16383 for z in coordinates)


def names(found: list[Any], index: int) -> bool:
    """An index names one of some records."""
    return 0 <= index < len(found)


class Level:
    """The level of a label whose ten lumps are there, under a reading."""

    def __init__(self, listed: list[Entry], label: int, wide: bool) -> None:
        self.label = label
        self.wide = wide
        self.none = 65535 if wide else -1
        self.names = [entry.name for entry in listed[label : label + 11]]
        self.lumps = [lump(entry) or b"" for entry in listed[label + 1 : label + 11]]
        self.tables = [records(data, form, layout, wide) for data, (form, layout) in zip(self.lumps, LAYOUTS)]
        self.rests = [len(data) % size_of(layout) for data, (_, layout) in zip(self.lumps, LAYOUTS)]
        self.things: list[Thing] = self.tables[0]
        self.linedefs: list[LineDef] = self.tables[1]
        self.sidedefs: list[SideDef] = self.tables[2]
        self.vertexes: list[Vertex] = self.tables[3]
        self.segs: list[Seg] = self.tables[4]
        self.ssectors: list[SSector] = self.tables[5]
        self.nodes: list[Node] = self.tables[6]
        self.sectors: list[Sector] = self.tables[7]
        self.reject, self.blockmap = self.lumps[8:]

    # ---- Links ---------------------------------------------------------------------

    def vertex(self, index: int) -> Vertex | None:
        return self.vertexes[index] if names(self.vertexes, index) else None

    def lacks_vertex(self, record: LineDef | Seg) -> bool:
        return self.vertex(record.v1) is None or self.vertex(record.v2) is None

    def lacks_sidedef(self, side: int) -> bool:
        return side != self.none and not names(self.sidedefs, side)

    def has_no_length(self, linedef: LineDef) -> bool:
        if self.lacks_vertex(linedef):
            return False
        return self.vertex(linedef.v1) == self.vertex(linedef.v2)

    def side_of(self, seg: Seg) -> int | None:
        """What a seg's linedef has at the seg's side number."""
        if not names(self.linedefs, seg.linedef) or seg.side not in (0, 1):
            return None
        linedef = self.linedefs[seg.linedef]
        return (linedef.side0, linedef.side1)[seg.side]

    def lacks_segs(self, ssector: SSector) -> bool:
        return ssector.count < 0 or not names(self.segs, ssector.first) or ssector.first + ssector.count > len(self.segs)

    def sector_of(self, ssector: int) -> int:
        """The sector of an ssector, in a level whose links hold."""
        seg = self.segs[self.ssectors[ssector].first]
        linedef = self.linedefs[seg.linedef]
        return self.sidedefs[(linedef.side0, linedef.side1)[seg.side]].sector

    # ---- Nodes ---------------------------------------------------------------------

    @cached_property
    def children(self) -> dict[tuple[int, int], Place]:
        """What each node's child words name, by node and side, where it is there."""
        found: dict[tuple[int, int], Place] = {}
        for n, node in enumerate(self.nodes):
            for side, word in enumerate((node.child0, node.child1)):
                if word < 32768 and word < len(self.nodes):
                    found[n, side] = "node", word
                elif 0 <= word - 32768 < len(self.ssectors):
                    found[n, side] = "ssector", word - 32768
        return found

    @property
    def root(self) -> Place:
        return ("node", len(self.nodes) - 1) if self.nodes else ("ssector", 0)

    def led_to(self, start: Place) -> set[Place]:
        """All that a place leads to: itself, and what the children of these lead to."""
        found, last = {start}, {start}
        while last:
            nodes = [n for kind, n in last if kind == "node"]
            words = [(n, side) for n in nodes for side in (0, 1)]
            last = {self.children[word] for word in words if word in self.children}
            last -= found
            found |= last
        return found

    @cached_property
    def reached(self) -> set[Place]:
        return self.led_to(self.root)

    @cached_property
    def named(self) -> dict[Place, int]:
        """How many child words name a place, of those that are named."""
        found: dict[Place, int] = {}
        for place in self.children.values():
            found[place] = found.get(place, 0) + 1
        return found

    # ---- REJECT and BLOCKMAP -------------------------------------------------------

    @cached_property
    def words(self) -> list[int]:
        """The words of BLOCKMAP as offsets and lists are read."""
        data = self.blockmap
        pairs = [data[i : i + 2] for i in range(0, len(data) - 1, 2)]
        return [int.from_bytes(pair, "little", signed=not self.wide) for pair in pairs]

    @cached_property
    def head(self) -> list[int]:
        """Origin, width and height of BLOCKMAP, which are signed under both readings."""
        return [number(self.blockmap[i : i + 2]) for i in (0, 2, 4, 6)]

    @property
    def blocks(self) -> int:
        return max(self.head[2], 0) * max(self.head[3], 0)

    def block_list(self, block: int) -> list[int] | int:
        """The words of a block's list, or why there is none."""
        if 4 + block >= len(self.words) or not names(self.words, self.words[4 + block]):
            return 1
        rest = self.words[self.words[4 + block] :]
        return rest[: rest.index(self.none)] if self.none in rest else 2

    @property
    def wanted_words(self) -> int:
        return 4 if len(self.blockmap) < 8 else 4 + self.blocks

    @property
    def wanted_reject(self) -> int:
        return (len(self.sectors) ** 2 + 7) // 8

    # ---- Findings ------------------------------------------------------------------

    @cached_property
    def findings(self) -> dict[str, list[int]]:
        """Where each code of a report holds, in the order of a report."""
        found = {**self.link_faults(), **self.tree_faults(), **self.notes()}
        return {code: found[code] for code in FAULTS + NOTES if found[code]}

    @property
    def faults(self) -> int:
        return sum(len(where) for code, where in self.findings.items() if code[0] == "F")

    def link_faults(self) -> dict[str, list[int]]:
        linedefs = list(enumerate(self.linedefs))
        segs = list(enumerate(self.segs))
        return {
            "F3": [i for i, linedef in linedefs if self.lacks_vertex(linedef)],
            "F4": [i for i, linedef in linedefs if self.lacks_sidedef(linedef.side0) or self.lacks_sidedef(linedef.side1)],
            "F5": [i for i, sidedef in enumerate(self.sidedefs) if not names(self.sectors, sidedef.sector)],
            "F6": [i for i, seg in segs if self.lacks_vertex(seg)],
            "F7": [i for i, seg in segs if not names(self.linedefs, seg.linedef)],
            "F8": [i for i, seg in segs if seg.side not in (0, 1)],
            "F9": [i for i, seg in segs if self.side_of(seg) == self.none],
            "F10": [i for i, ssector in enumerate(self.ssectors) if self.lacks_segs(ssector)],
            "F17": [] if self.ssectors else [0],
            "F18": [0] if len(self.nodes) > MOST_NODES else [],
        }

    def tree_faults(self) -> dict[str, list[int]]:
        nodes, ssectors = range(len(self.nodes)), range(len(self.ssectors))
        return {
            "F11": [n for n in nodes if (n, 0) not in self.children or (n, 1) not in self.children],
            "F12": [n for n, node in enumerate(self.nodes) if not is_in_range(node.x, node.y)],
            "F13": [n for n in nodes if self.named.get(("node", n), 0) > (0 if ("node", n) == self.root else 1)],
            "F14": [n for n in nodes if ("node", n) not in self.reached],
            "F15": [t for t in ssectors if self.named.get(("ssector", t), 0) > 1],
            "F16": [t for t in ssectors if ("ssector", t) not in self.reached],
        }

    def notes(self) -> dict[str, list[int]]:
        linedefs = list(enumerate(self.linedefs))
        has_blocks = len(self.blockmap) >= 8
        lists = min(self.blocks, max(len(self.words) - 4, 0)) if has_blocks else 0
        short = self.blocks > 0 and len(self.words) < self.wanted_words
        return {
            "N1": [k for k in range(1, 11) if self.names[k] != USUAL[k - 1]],
            "N2": [k for k, rest in enumerate(self.rests, 1) if rest > 0],
            "N3": [i for i, linedef in linedefs if linedef.flags & 4 and linedef.side1 == self.none],
            "N4": [i for i, linedef in linedefs if linedef.side0 == self.none],
            "N5": [i for i, linedef in linedefs if self.has_no_length(linedef)],
            "N6": [i for i, ssector in enumerate(self.ssectors) if ssector.count == 0],
            "N7": [n for n, node in enumerate(self.nodes) if node.dx == node.dy == 0],
            "N8": [] if len(self.reject) == self.wanted_reject else [0],
            "N9": [] if has_blocks and not short else [0],
            "N10": [b for b in range(lists) if isinstance(self.block_list(b), int)],
            "N11": [] if any(thing.kind == 1 for thing in self.things) else [0],
            "N12": [i for i, vertex in enumerate(self.vertexes) if not is_in_range(vertex.x, vertex.y)],
        }

    # ---- Points --------------------------------------------------------------------

    @cached_property
    def sides_above(self) -> dict[int, list[tuple[int, int]]]:
        """For each ssector that the root leads to the nodes and sides that lead to it."""
        found: dict[int, list[tuple[int, int]]] = {t: [] for kind, t in self.reached if kind == "ssector"}
        for word, place in self.children.items():
            for kind, t in self.led_to(place):
                if kind == "ssector" and t in found:
                    found[t].append(word)
        return found

    def leaf(self, x: int, y: int) -> int:
        """The one ssector on whose side of every node above it the point lies."""
        leaves = [t for t, above in self.sides_above.items() if all(side(self.nodes[n], x, y) == s for n, s in above)]
        (only,) = leaves
        return only

    def shown(self, x: int, y: int) -> int | None:
        """The sector that a picture of a sound level shows at a point: its leaf's, where
        the point is behind the linedef of no seg of the leaf."""
        if not is_in_range(x, y):
            return None
        t = self.leaf(x, y)
        count, first = self.ssectors[t]
        hidden = any(self.is_behind(seg, x, y) for seg in self.segs[first : first + count])
        return None if hidden else self.sector_of(t)

    def is_behind(self, seg: Seg, x: int, y: int) -> bool:
        """Whether a point is behind a seg's linedef, which is turned round where the seg's side is 1."""
        linedef = self.linedefs[seg.linedef]
        a, b = self.vertexes[linedef.v1], self.vertexes[linedef.v2]
        if seg.side == 1:
            a, b = b, a
        return (b.y - a.y) * (x - a.x) - (b.x - a.x) * (y - a.y) < 0


def side(node: Node, x: int, y: int) -> int:
    """The side of a node on which a point lies: 0 in front, 1 behind."""
    cross = node.dy * (x - node.x) - node.dx * (y - node.y)
    if cross != 0:
        return 0 if cross > 0 else 1
    if node.dx == 0:
        return 1 if node.dy > 0 else 0
    if node.dy == 0:
        return 1 if node.dx < 0 else 0
    at_origin = (x, y) == (node.x, node.y)
    return 0 if at_origin and node.dx < 0 < node.dy else 1
