"""What the released game stumbles over though a level's references hold: numbers that it
doesn't know, effects at their limits, crowds, things that end it, and patches that lack."""

from random import Random

from plain.harm import move_thing
from plain.make import LINEDEFS, SECTORS, SIDEDEFS, THINGS, WALLS, Draft, Lumps
from plain.wads import query

EDGES = (-32768, -1, 0, 1, 77, 78, 79, 84, 85, 86, 141, 142, 32767)
PATCHES = (b"WALL00", b"wall01", b"WALL02\0X", b"")


def any_line(random: Random, draft: Draft) -> list[int]:
    return random.choice(draft.tables[LINEDEFS])


def change_special(random: Random, draft: Draft) -> None:
    """Any special of the game or a number at an edge of them, and mostly a tag that sectors have."""
    line = any_line(random, draft)
    line[3] = random.choice((*range(1, 142), *EDGES))
    line[4] = random.choice((0, 0, 7, random.choice(draft.tables[SECTORS])[6]))


def bar(random: Random, draft: Draft) -> None:
    """A special that is crossed, on a linedef that may let none through."""
    line = any_line(random, draft)
    line[2] = random.choice((0, 1, 2, 3, 4, 5, 6, 7))
    line[3] = random.choice((4, 10, 36, 88, 97, 125, 126))


def lead(random: Random, draft: Draft) -> None:
    """A teleporter, and mostly where it leads to."""
    line = any_line(random, draft)
    line[3], line[4] = random.choice((39, 97, 125, 126)), random.choice(draft.tables[SECTORS])[6]
    if random.random() < 0.7:
        place = random.choice(draft.tables[THINGS])[:2] if draft.tables[THINGS] else [0, 0]
        draft.tables[THINGS].append([*place, 0, 14, random.choice((7, 7, 1, 8, 23, 0))])
        move_thing(random, draft)


def act(random: Random, draft: Draft) -> None:
    """An effect on the sectors of a tag."""
    line = any_line(random, draft)
    line[3] = random.choice((1, 9, 9, 26, 117, 18, 20, 37, 37, 84, 40, 62))
    line[4] = random.choice(draft.tables[SECTORS])[6]


def crowd(random: Random, draft: Draft) -> None:
    """Sectors of a tag at the most that an effect takes, some with the special of a timed door."""
    line, sector = any_line(random, draft), random.choice(draft.tables[SECTORS])
    line[3:5] = random.choice((6, 53, 53, 87, 87, 10, 62, 40)), sector[6]
    lacking = random.choice((29, 30, 31, 32)) - sum(one[6] == sector[6] for one in draft.tables[SECTORS])
    draft.tables[SECTORS] += [[*sector] for _ in range(lacking)]
    if random.random() < 0.5:
        random.choice(draft.tables[SECTORS])[5] = random.choice((10, 14))


def surround(random: Random, draft: Draft) -> None:
    """So many linedefs more of a sector, most of them with a higher one behind."""
    line, inside = any_line(random, draft), random.randrange(len(draft.tables[SECTORS]))
    line[3:5] = random.choice((18, 20, 119, 130)), draft.tables[SECTORS][inside][6]
    outside = len(draft.tables[SECTORS])
    sector = draft.tables[SECTORS][inside]
    draft.tables[SECTORS].append([sector[0] + random.choice((0, 1, 8)), *sector[1:]])
    for _ in range(random.choice((19, 20, 21, 22))):
        sides = len(draft.tables[SIDEDEFS])
        draft.tables[SIDEDEFS] += [[0, 0, *WALLS[:3], at] for at in (inside, outside)]
        both = [sides, sides + 1] if random.random() < 0.7 else [sides + 1, sides]
        draft.tables[LINEDEFS].append([*line[:2], random.choice((4, 4, 4, 4, 4, 4, 0)), 0, 0, *both])


def burn(random: Random, draft: Draft) -> None:
    random.choice(draft.tables[SECTORS])[5] = random.choice((*range(19), -1, 32767))


def lock(random: Random, draft: Draft) -> None:
    """A door that wants a key, and at times the key, or an exit."""
    any_line(random, draft)[3] = random.choice((26, 27, 28, 32, 33, 34, 99, 133, 134, 135, 136, 137))
    if random.random() < 0.5:
        draft.tables[THINGS].append([0, 0, 0, random.choice((5, 6, 13, 38, 39, 40)), random.choice((7, 1, 8, 16, 23))])
    if random.random() < 0.5:
        any_line(random, draft)[3] = random.choice((11, 51, 52, 124))


def place(random: Random, draft: Draft) -> None:
    """Things of the second game, shooters and targets, a boss, or kinds without a place."""
    kinds = random.choice(((89,), (89, 87), (87,), (88,), (64, 71, 84), (16, 7), (2001, 3004)))
    for kind in kinds * random.choice((1, 1, 2)):
        options = random.choice((7, 7, 1, 2, 4, 0, 8, 16, 23))
        draft.tables[THINGS].insert(random.randrange(len(draft.tables[THINGS]) + 1), [0, 0, 0, kind, options])


def aim(random: Random, draft: Draft) -> None:
    """A shooter with as many targets as it can have, or a few more."""
    draft.tables[THINGS].append([0, 0, 0, 89, 7])
    targets = random.choice((31, 32, 33, 34))
    draft.tables[THINGS] += [[0, 0, 0, 87, random.choice((7, 7, 7, 7, 7, 7, 7, 7, 3, 23))] for _ in range(targets)]


def pile(random: Random, draft: Draft) -> None:
    """As many linedefs that scroll, or starts, as there can be, or a few more."""
    if random.random() < 0.5:
        draft.tables[THINGS] += [[0, 0, 0, 11, 7]] * random.choice((5, 6, 7, 11))
        return
    line = any_line(random, draft)
    draft.tables[LINEDEFS] += [[*line[:3], 48, *line[4:]] for _ in range(random.choice((63, 64, 65)))]


def fill(random: Random, draft: Draft) -> None:
    """About as many things as a savegame has room for."""
    count = random.choice((1150, 1160, 1165, 1170, 1175, 1180))
    draft.tables[THINGS] += [[0, 0, 0, 2001, random.choice((7, 7, 7, 7, 23, 3))] for _ in range(count)]


TRICKS = (
    *(change_special, change_special, bar, lead, lead, act, act, act, crowd, surround),
    *(burn, lock, lock, place, place, aim, pile, fill),
)


def play(random: Random, draft: Draft) -> None:
    """One trick, after which all references of a level still hold."""
    random.choice(TRICKS)(random, draft)


# ---- Files ---------------------------------------------------------------------------


def words(*values: int) -> bytes:
    return b"".join((value & 65535).to_bytes(2, "little") for value in values)


def long(value: int) -> bytes:
    return (value & 0xFFFFFFFF).to_bytes(4, "little")


def texture(random: Random, name: bytes) -> bytes:
    """A record with its patches, now and then one that isn't listed, or more than there are."""
    numbers = [random.choice((0, 0, 1, 1, 2, 3, 4, -1)) if random.random() < 0.3 else 0 for _ in range(random.randrange(4))]
    count = random.choice((len(numbers),) * 8 + (len(numbers) + 1, -1))
    patches = b"".join(words(0, 0, one, 1, 0) for one in numbers)
    return name[:8].ljust(8, b"\0") + long(0) + words(64, 128) + long(0) + words(count) + patches


def textures(random: Random) -> bytes:
    records = [texture(random, name) for name in WALLS if random.random() < 0.8]
    ends = [sum(map(len, records[:k])) for k in range(len(records))]
    head = 4 + 4 * len(records)
    return long(len(records)) + b"".join(long(head + end) for end in ends) + b"".join(records)


def graphics(random: Random, flats: tuple[bytes, ...]) -> Lumps:
    """Lists of textures with their patches, most of them there, and flats, some of them beside their ends."""
    found: Lumps = [(name, textures(random)) for name in (b"TEXTURE1", b"TEXTURE2") if random.random() < 0.8]
    count = random.choice((len(PATCHES),) * 6 + (len(PATCHES) - 1, 2**31 - 1, -1))
    if random.random() < 0.9:
        found.append((b"PNAMES", long(count) + b"".join(name[:8].ljust(8, b"\0") for name in PATCHES)))
    found += [(query(name), b"patch") for name in PATCHES if random.random() < 0.9]
    inside = [(b"F_START", b""), *((name, b"") for name in flats if random.random() < 0.8), (b"F_END", b"")]
    found += inside[random.choice((0, 0, 0, 1)) :] if random.random() < 0.8 else inside[:-1]
    found += [(name, b"") for name in flats if random.random() < 0.1]
    return found
