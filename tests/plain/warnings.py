"""What mappers and node builders get wrong though every reference holds: the warnings W1 to
W11, as docs/DEFINITIONS.md has them. Each is looked for at every record."""

from collections.abc import Iterator
from typing import NamedTuple

from plain.levels import Level, LineDef, is_in_range
from plain.wads import Entry, lump, number, query, shown, winner

GAME_KINDS = {
    *range(5, 11),
    *range(12, 90),
    *range(2001, 2009),
    *range(2010, 2016),
    *(2018, 2019, 2028, 2035),
    *range(2022, 2027),
    *range(2045, 2050),
    *range(3001, 3007),
}
"""The kinds of the game's things, 118 of them."""


class Warned(NamedTuple):
    """A warning: its record, what it says, and where it lies, behind a comma."""

    index: str
    message: str
    place: str = ""


def at(x: int, y: int) -> str:
    return f", at ({x}, {y})"


def along(level: Level, linedef: LineDef) -> str:
    a, b = level.vertexes[linedef.v1], level.vertexes[linedef.v2]
    return f", from ({a.x}, {a.y}) to ({b.x}, {b.y})"


def sector_at(level: Level, side: int) -> int | None:
    return None if side == level.none else level.sidedefs[side].sector


def unclosed(level: Level) -> Iterator[Warned]:
    leave: dict[tuple[int, int], int] = {}
    for linedef in level.linedefs:
        for side, begin, end in ((linedef.side0, linedef.v1, linedef.v2), (linedef.side1, linedef.v2, linedef.v1)):
            s = sector_at(level, side)
            if s is not None:
                leave[s, begin] = leave.get((s, begin), 0) + 1
                leave[s, end] = leave.get((s, end), 0) - 1
    for (s, v), more in sorted(leave.items()):
        if more:
            yield Warned(f"sector {s}", "isn't closed", at(*level.vertexes[v]))


def bare_parts(level: Level, side: int, other: int) -> Iterator[str]:
    """Which parts of a side are seen and have no texture."""
    if side == level.none:
        return
    own = level.sidedefs[side]
    if other == level.none:
        if own.middle == b"-":
            yield "middle"
        return
    here = level.sectors[own.sector]
    there = level.sectors[level.sidedefs[other].sector]
    sky = here.ceiling_name == there.ceiling_name == b"F_SKY1"
    if here.ceiling > there.ceiling and not sky and own.top == b"-":
        yield "upper"
    if here.floor < there.floor and own.bottom == b"-":
        yield "lower"


def bare(level: Level) -> Iterator[Warned]:
    for i, linedef in enumerate(level.linedefs):
        if linedef.side0 == level.none:
            continue
        sides = [
            ("in front", linedef.side0, linedef.side1),
            ("at the back", linedef.side1, linedef.side0),
        ]
        for name, side, other in sides:
            for part in bare_parts(level, side, other):
                message = f"no {part} texture {name}"
                yield Warned(f"linedef {i}", message, along(level, linedef))


def in_void(level: Level) -> Iterator[Warned]:
    for i, thing in enumerate(level.things):
        in_range = is_in_range(thing.x, thing.y)
        if in_range and level.shown(thing.x, thing.y) is None:
            yield Warned(f"thing {i}", "stands in the void", at(thing.x, thing.y))


# Of the game's specials of linedefs 1 to 141, those that mean no sector: doors that are opened by hand, exits, and scrolling; and numbers without
# a special.
GOES_WITHOUT_TAG = {1, 26, 27, 28, 31, 32, 33, 34, 117, 118, 11, 51, 52, 124, 48, 78, 85}


def untagged(level: Level) -> Iterator[Warned]:
    tags = {sector.tag for sector in level.sectors}
    for i, linedef in enumerate(level.linedefs):
        by_tag = 1 <= linedef.special <= 141 and linedef.special not in GOES_WITHOUT_TAG
        if by_tag and linedef.tag and linedef.tag not in tags:
            message = f"no sector has tag {linedef.tag}"
            yield Warned(f"linedef {i}", message, along(level, linedef))


def mismatched(level: Level) -> Iterator[Warned]:
    for t, ssector in enumerate(level.ssectors):
        segs = level.segs[ssector.first : ssector.first + ssector.count]
        faced = [level.sidedefs[level.side_of(seg) or 0].sector for seg in segs]
        others = [sector for sector in faced if sector != faced[0]]
        if others:
            message = f"its segs face sectors {faced[0]} and {others[0]}"
            yield Warned(f"ssector {t}", message, at(*level.vertexes[segs[0].v1]))


def twins(level: Level) -> Iterator[Warned]:
    first: dict[frozenset[tuple[int, int]], int] = {}
    for i, linedef in enumerate(level.linedefs):
        ends = frozenset((level.vertexes[linedef.v1], level.vertexes[linedef.v2]))
        if ends in first:
            message = f"lies on linedef {first[ends]}"
            yield Warned(f"linedef {i}", message, along(level, linedef))
        first.setdefault(ends, i)


def without_start(level: Level) -> Iterator[Warned]:
    kinds = {thing.kind for thing in level.things}
    for player in (2, 3, 4):
        if player not in kinds:
            yield Warned("level", f"no player {player} start")
            return


def few_starts(level: Level) -> Iterator[Warned]:
    starts = sum(thing.kind == 11 for thing in level.things)
    if starts < 4:
        yield Warned("level", f"{starts} deathmatch starts")


def named_lump(listed: list[Entry], name: bytes) -> bytes | None:
    """The bytes of the lump that the game finds under a name."""
    g = winner(listed, name)
    return None if g is None else lump(listed[g])


def textures_of(data: bytes) -> Iterator[bytes]:
    """The names of the textures that a lump lists."""
    for k in range(number(data[:4]) if len(data) >= 4 else 0):
        if 4 * k + 8 > len(data):
            return
        place = number(data[4 * k + 4 : 4 * k + 8])
        if 0 <= place <= len(data) - 8:
            yield query(data[place : place + 8])


def unknown_textures(level: Level, listed: list[Entry]) -> Iterator[Warned]:
    first, second = named_lump(listed, b"TEXTURE1"), named_lump(listed, b"TEXTURE2")
    there = {*textures_of(first or b""), *textures_of(second or b"")}
    owners: dict[int, int] = {}
    for n, linedef in enumerate(level.linedefs):
        owners.setdefault(linedef.side0, n)
        owners.setdefault(linedef.side1, n)
    for i, sidedef in enumerate(level.sidedefs):
        place = f", of linedef {owners[i]}" if i in owners else ""
        for part, name in (("upper", sidedef.top), ("lower", sidedef.bottom), ("middle", sidedef.middle)):
            if name[:1] != b"-" and query(name) not in there:
                yield Warned(f"sidedef {i}", f"{part} texture {shown(name) or '(empty)'} isn't there", place)


def unknown_flats(level: Level, listed: list[Entry]) -> Iterator[Warned]:
    there = {entry.name for entry in listed}
    for i, sector in enumerate(level.sectors):
        for plane, name in (("floor", sector.floor_name), ("ceiling", sector.ceiling_name)):
            if query(name) not in there:
                yield Warned(f"sector {i}", f"{plane} flat {shown(name) or '(empty)'} isn't there")


def unknown_things(level: Level) -> Iterator[Warned]:
    for i, thing in enumerate(level.things):
        if thing.kind > 4 and thing.kind != 11 and thing.kind not in GAME_KINDS and thing.options & 7:
            yield Warned(f"thing {i}", f"type {thing.kind} is none of the game's", at(thing.x, thing.y))
