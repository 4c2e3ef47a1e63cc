"""What the released game does with a level, though every reference holds: the warnings W14 to
W25 that are looked for, as docs/DEFINITIONS.md has them. Each is looked for at every record."""

from collections.abc import Iterator

from plain.levels import Level, LineDef, Thing, is_in_range
from plain.wads import Entry, lump, number, query, shown, winners
from plain.warnings import GAME_KINDS, Warned, along, at, named_lump, sector_at


def span(*runs: int | tuple[int, int]) -> set[int]:
    """The numbers of some runs, each from its first to its last."""
    found: set[int] = set()
    for run in runs:
        found.update((run,) if isinstance(run, int) else range(run[0], run[1] + 1))
    return found


GAME = span((1, 77), (79, 84), (86, 141))
CROSSED = span(
    (2, 6), 8, 10, 12, 13, 16, 17, 19, 22, 25, 30, (35, 40), 44, (52, 54), (56, 59), (72, 77), (79, 84), (86, 98),
    100, (104, 110), (119, 121), (124, 126), (128, 130), 141,
)  # fmt: skip
DOORS = span(1, (26, 28), (31, 34), 117, 118)
EXITS = {11, 51, 52, 124}
TELEPORTS = {39, 97, 125, 126}
SCROLLING = {48}
TAGGED = GAME - DOORS - EXITS - TELEPORTS - SCROLLING
PLATFORMS = span(10, 14, 15, (20, 22), 47, 53, 62, (66, 68), 87, 88, 95, (120, 123))
CEILINGS = {6, 25, 40, 41, 43, 44, 49, 72, 73, 77, 141}
NEAREST = span(18, 20, 22, 47, 68, 69, 95, 119, (128, 132))
CHANGES = {37, 84}
MISSILES = {4, 10, 88}
FOR_MONSTERS = {125, 126}
LOCKS = {
    "blue": ({26, 32, 99, 133}, {5, 40}),
    "yellow": ({27, 34, 136, 137}, {6, 39}),
    "red": ({28, 33, 134, 135}, {13, 38}),
}
"""The specials that want a key, and the kinds of things that are one."""

SURVIVED = span((0, 5), (7, 14), 16, 17)
TIMED_DOORS = {10, 14}
SECOND_GAME = span((64, 69), 71, 84, 88, 89)
SKILLS = {"easy": 1, "medium": 2, "hard": 4}
SIZES = {**dict.fromkeys((1, 2, 3, 4, 12, 13), 36), 8: 28, 10: 40, 14: 40}
"""How many bytes of a savegame the doing of a sector's special takes."""

MOST_SAVED = 180224
MOST_PATCHES = 16777216


def is_placed(thing: Thing) -> bool:
    return bool(thing.options & 7)


def is_there(thing: Thing, skill: str) -> bool:
    """A thing is there for one player."""
    return bool(thing.options & SKILLS[skill]) and not thing.options & 16


def unknown_specials(level: Level) -> Iterator[Warned]:
    for i, linedef in enumerate(level.linedefs):
        if linedef.special and linedef.special not in GAME:
            yield Warned(f"linedef {i}", f"special {linedef.special} is none of the game's", along(level, linedef))


def zero_tags(level: Level) -> Iterator[Warned]:
    sectors = sum(sector.tag == 0 for sector in level.sectors)
    for i, linedef in enumerate(level.linedefs):
        if linedef.tag == 0 and linedef.special in TAGGED:
            message = f"special {linedef.special} with tag 0, which {sectors} sectors have"
            yield Warned(f"linedef {i}", message, along(level, linedef))


def barrier(level: Level, linedef: LineDef) -> str | None:
    """What keeps all that could trigger a linedef's special from crossing the linedef."""
    if linedef.side1 == level.none:
        return "it has no back sidedef"
    blocks = linedef.flags & 1 and linedef.special not in MISSILES
    return "it lets none through" if blocks or (linedef.flags & 2 and linedef.special in FOR_MONSTERS) else None


def crossings(level: Level) -> Iterator[Warned]:
    led = {
        level.sectors[level.sector_of(level.leaf(thing.x, thing.y))].tag
        for thing in level.things
        if not level.faults and thing.kind == 14 and is_placed(thing) and is_in_range(thing.x, thing.y)
    }
    tags = {sector.tag for sector in level.sectors}
    for i, linedef in enumerate(level.linedefs):
        why = barrier(level, linedef)
        if why and linedef.special in CROSSED:
            yield Warned(f"linedef {i}", f"special {linedef.special} can't be crossed: {why}", along(level, linedef))
        lost = linedef.special in TELEPORTS and linedef.tag in tags and linedef.tag not in led
        if lost and not why and not level.faults:
            where = f"no sector with tag {linedef.tag} has a thing of type 14"
            yield Warned(f"linedef {i}", f"special {linedef.special} has no destination: {where}", along(level, linedef))


def lines_of(level: Level, sector: int) -> list[tuple[int, LineDef]]:
    """The linedefs of a sector, each once."""
    return [
        (i, linedef)
        for i, linedef in enumerate(level.linedefs)
        if sector in (sector_at(level, linedef.side0), sector_at(level, linedef.side1))
    ]


def across(level: Level, linedef: LineDef, sector: int) -> int | None:
    front, back = sector_at(level, linedef.side0), sector_at(level, linedef.side1)
    return back if front == sector else front


def neighbours(level: Level, sector: int) -> list[int]:
    """What lies across a sector's linedefs with flag 4."""
    beside = [across(level, linedef, sector) for _, linedef in lines_of(level, sector) if linedef.flags & 4]
    return [other for other in beside if other is not None]


def donut_fault(level: Level, pillar: int) -> str | None:
    lines = lines_of(level, pillar)
    if not lines:
        return f"sector {pillar} has no linedef"
    first, linedef = lines[0]
    ring = across(level, linedef, pillar) if linedef.flags & 4 else None
    if ring is None:
        return f"linedef {first}, the first of sector {pillar}, has no other side"
    for i, line in lines_of(level, ring):
        back = sector_at(level, line.side1)
        if back is None:
            return f"linedef {i} of sector {ring} has no back sidedef"
        if back != pillar:
            return None
    return None


def lowest_floor(level: Level, sector: int) -> int:
    return min(level.sectors[s].floor for s in (sector, *neighbours(level, sector)))


def finds_neighbour(level: Level, sector: int) -> bool:
    """The search of a floor that is lowered and changed: it goes by the linedefs of the sector
    that it looked at last."""
    lowest, own = lowest_floor(level, sector), lines_of(level, sector)
    k, count = 0, len(own)
    while k < count and k < len(own):
        linedef = own[k][1]
        if linedef.flags & 4:
            other = across(level, linedef, sector)
            if other is None:
                return False
            if level.sectors[other].floor == lowest:
                return True
            count = len(lines_of(level, other))
        k += 1
    return False


def effects_of(level: Level, special: int, tagged: list[int]) -> Iterator[str]:
    """What the special of a linedef does to the sectors of its tag, in order."""
    free = [s for s in tagged if level.sectors[s].special not in TIMED_DOORS]
    if special == 9:
        faults = [fault for s in free if (fault := donut_fault(level, s))]
        yield from (f": {fault}: its use ends the game" for fault in faults[:1])
    if special in PLATFORMS and len(free) > 30:
        yield f" starts {len(free)} platforms, 30 are the most: it ends the game"
    if special in CEILINGS and len(free) > 30:
        yield f" starts {len(free)} ceilings, 30 are the most"
    if special in NEAREST:
        counts = [(s, sum(level.sectors[o].floor > level.sectors[s].floor for o in neighbours(level, s))) for s in tagged]
        crowded = [(s, count) for s, count in counts if count > 20]
        yield from (f": sector {s} has {count} higher neighbours, 20 are the most" for s, count in crowded[:1])
    if special in CHANGES:
        lost = [s for s in free if not finds_neighbour(level, s)]
        for s in lost[:1]:
            yield f": sector {s} finds no neighbour at {lowest_floor(level, s)}, its new special is what memory held"


def effects(level: Level) -> Iterator[Warned]:
    for i, linedef in enumerate(level.linedefs):
        if linedef.special in DOORS and linedef.side1 == level.none:
            message = f"special {linedef.special} without a back sidedef: its use ends the game"
            yield Warned(f"linedef {i}", message, along(level, linedef))
        if linedef.special in {9, *PLATFORMS, *CEILINGS, *NEAREST, *CHANGES}:
            tagged = [s for s, sector in enumerate(level.sectors) if sector.tag == linedef.tag]
            for effect in effects_of(level, linedef.special, tagged):
                yield Warned(f"linedef {i}", f"special {linedef.special}{effect}", along(level, linedef))


def deadly_floors(level: Level) -> Iterator[Warned]:
    for s, sector in enumerate(level.sectors):
        if sector.special not in SURVIVED:
            yield Warned(f"sector {s}", f"special {sector.special}: a player on its floor ends the game")


def has_exit(level: Level) -> bool:
    name = level.names[0]
    bosses = {88, *({16} if name == b"E2M8" else ()), *({7} if name == b"E3M8" else ())}
    return (
        any(
            linedef.special in EXITS and (linedef.special not in CROSSED or not barrier(level, linedef))
            for linedef in level.linedefs
        )
        or any(sector.special == 11 for sector in level.sectors)
        or any(thing.kind in bosses and is_placed(thing) for thing in level.things)
    )


def locked(level: Level) -> Iterator[Warned]:
    if not has_exit(level):
        yield Warned("level", "no exit")
    for colour, (locks, keys) in LOCKS.items():
        count = sum(linedef.special in locks for linedef in level.linedefs)
        lacking = [skill for skill in SKILLS if not any(thing.kind in keys and is_there(thing, skill) for thing in level.things)]
        if count and lacking:
            yield Warned("level", f"{count} linedefs want a {colour} key, which isn't there in {', '.join(lacking)}")


def read_count(level: Level) -> int:
    """How many things the game reads: the first game stops at the first that it doesn't have."""
    name = level.names[0]
    episodic = len(name) == 4 and name[:1] == b"E" and name[2:3] == b"M" and name[1:2].isdigit() and name[3:4].isdigit()
    ends = [k for k, thing in enumerate(level.things) if episodic and thing.kind in SECOND_GAME]
    return ends[0] if ends else len(level.things)


def odd_things(level: Level) -> Iterator[Warned]:
    ends = read_count(level)
    targets = {skill: sum(thing.kind == 87 and is_there(thing, skill) for thing in level.things) for skill in SKILLS}
    for k, thing in enumerate(level.things):
        messages = []
        if k == ends:
            messages.append(f"type {thing.kind} ends the reading of things, {len(level.things) - k - 1} follow")
        if thing.kind in GAME_KINDS and not is_placed(thing):
            messages.append("appears in no skill")
        if thing.kind == 89:
            none = [skill for skill in SKILLS if is_there(thing, skill) and not targets[skill]]
            many = [skill for skill in SKILLS if is_there(thing, skill) and targets[skill] > 32]
            if none:
                messages.append(f"has no target (type 87) in {', '.join(none)}: its shot ends the game")
            if many:
                messages.append(f"has more than 32 targets in {', '.join(many)}: its shot ends the game")
        for message in messages:
            yield Warned(f"thing {k}", message, at(thing.x, thing.y))


def saved_in(level: Level, skill: str) -> int:
    sides = sum((linedef.side0 != level.none) + (linedef.side1 != level.none) for linedef in level.linedefs)
    size = 332 + 14 * len(level.sectors) + 6 * len(level.linedefs) + 10 * sides
    for thing in level.things[: read_count(level)]:
        if thing.kind == 1 or (thing.kind in GAME_KINDS and is_there(thing, skill)):
            size = (size + 1 + 3) // 4 * 4 + 154
    size += 1
    for sector in level.sectors:
        if sector.special in SIZES:
            size = (size + 1 + 3) // 4 * 4 + SIZES[sector.special]
    return size + 2


def patch_numbers(data: bytes) -> list[tuple[bytes, list[int]]]:
    """The textures of a lump that are wholly inside it: the eight bytes of a name, and the numbers of its patches."""
    found = []
    for k in range(number(data[:4]) if len(data) >= 4 else 0):
        if 4 * k + 8 > len(data):
            break
        place = number(data[4 * k + 4 : 4 * k + 8])
        if place < 0 or place + 22 > len(data):
            continue
        count = max(0, number(data[place + 20 : place + 22]))
        if place + 22 + 10 * count <= len(data):
            patches = [place + 22 + 10 * j for j in range(count)]
            found.append((data[place : place + 8], [number(data[at + 4 : at + 6]) for at in patches]))
    return found


def patches_there(listed: list[Entry], pnames: bytes) -> set[int]:
    """The numbers of the patches whose lumps are found."""
    count = min(number(pnames[:4]), (len(pnames) - 4) // 8) if len(pnames) >= 4 else 0
    won, there = winners(listed), set()
    for m in range(count):
        g = won.get(query(pnames[4 + 8 * m : 12 + 8 * m]))
        if g is not None and lump(listed[g]) is not None:
            there.add(m)
    return there


def lacking_texture(listed: list[Entry]) -> bytes | None:
    """The name of the first texture that lacks a patch."""
    first, pnames = named_lump(listed, b"TEXTURE1"), named_lump(listed, b"PNAMES")
    if first is None or pnames is None:
        return None
    textures = patch_numbers(first) + patch_numbers(named_lump(listed, b"TEXTURE2") or b"")
    if sum(len(patches) for _, patches in textures) > MOST_PATCHES:
        return None
    there = patches_there(listed, pnames)
    return next((name for name, patches in textures if not there.issuperset(patches)), None)


def limits(level: Level, listed: list[Entry]) -> Iterator[Warned]:
    scrolling = sum(linedef.special in SCROLLING for linedef in level.linedefs)
    if scrolling > 64:
        yield Warned("level", f"{scrolling} scrolling linedefs, 64 are the most")
    tags = {linedef.tag for linedef in level.linedefs if linedef.special in (53, 87)}
    perpetual = sum(sector.tag in tags for sector in level.sectors)
    if perpetual > 30:
        yield Warned("level", f"{perpetual} perpetual platforms, 30 are the most")
    starts = sum(thing.kind == 11 for thing in level.things)
    if starts > 10:
        yield Warned("level", f"{starts} deathmatch starts, 10 are the most")
    saved = max(saved_in(level, skill) for skill in SKILLS)
    if saved > MOST_SAVED:
        yield Warned("level", f"{saved} bytes to save at its start, {MOST_SAVED} are the most")
    texture = lacking_texture(listed)
    if texture is not None:
        yield Warned("level", f"texture {shown(texture.split(bytes(1))[0]) or '(empty)'} lacks a patch: the game doesn't start")


def misplaced_flats(level: Level, listed: list[Entry]) -> Iterator[Warned]:
    won = winners(listed)
    start, end = won.get(b"F_START"), won.get(b"F_END")
    if start is None or end is None:
        return
    for s, sector in enumerate(level.sectors):
        for surface, name in (("floor", sector.floor_name), ("ceiling", sector.ceiling_name)):
            g = won.get(query(name))
            if g is not None and not start < g < end:
                yield Warned(f"sector {s}", f"{surface} flat {shown(name) or '(empty)'} isn't between F_START and F_END")
