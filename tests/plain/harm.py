"""Damage to levels, lumps and files."""

from random import Random

from plain.demos import read
from plain.levels import LAYOUTS
from plain.make import (
    LINEDEFS,
    NODES,
    SECTORS,
    SEGS,
    SIDEDEFS,
    SSECTORS,
    THINGS,
    VERTEXES,
    Draft,
    Lumps,
    entry,
    tangle,
)

TAGS = (b"XNOD", b"ZNOD", b"xNd4\0\0\0\0", b"xNd4\0\0\0\1", b"XGLN", b"ZGL3", b"XGL4")


def edge(random: Random, draft: Draft) -> int:
    """A number at the edge of something."""
    count = len(random.choice(draft.tables))
    near = (count - 1, count, count + 1, 32768 + count - 1, 32768 + count)
    ends = (-16385, -16384, 16383, 16384, 32767, -32768, -2, -1, 0, 1)
    return random.choice(near + ends)


def change_field(random: Random, draft: Draft) -> None:
    filled = [k for k, table in enumerate(draft.tables) if table]
    if not filled:
        return
    k = random.choice(filled)
    numbers = [j for j, kind in enumerate(LAYOUTS[k][1]) if kind != "n"]
    if k == NODES and random.random() < 0.7:
        numbers = [0, 1, 2, 3, 12, 13]
    record = random.choice(draft.tables[k])
    record[random.choice(numbers)] = edge(random, draft)


def change_line(random: Random, draft: Draft) -> None:
    """A linedef with another flag, or without a side or a length."""
    if not draft.tables[LINEDEFS]:
        return
    record = random.choice(draft.tables[LINEDEFS])
    match random.randrange(4):
        case 0:
            record[2] ^= 4
        case 1:
            record[1] = record[0]
        case _:
            record[random.choice((5, 6))] = -1


def lose_lines(random: Random, draft: Draft) -> None:
    """No linedef, or none that has both of its ends."""
    draft.tables[LINEDEFS] = [[*record[:1], -2, *record[2:]] for record in draft.tables[LINEDEFS]]
    if random.random() < 0.5:
        draft.tables[LINEDEFS].clear()


def change_count(random: Random, draft: Draft) -> None:
    """One record less or more, or none."""
    table = random.choice(draft.tables)
    if not table:
        return
    chance = random.random()
    if chance < 0.5:
        del table[random.randrange(len(table))]
    elif chance < 0.9:
        table.insert(random.randrange(len(table) + 1), [*random.choice(table)])
    else:
        table.clear()


def change_reject(random: Random, draft: Draft) -> None:
    cut = draft.reject[: random.randrange(len(draft.reject) + 1)]
    draft.reject = random.choice((cut, draft.reject + b"\xff", b""))


def change_blockmap(random: Random, draft: Draft) -> None:
    if not draft.words:
        return
    chance = random.random()
    if chance < 0.3:
        draft.words = draft.words[: random.randrange(len(draft.words) + 1)]
    elif chance < 0.5:
        draft.words[random.randrange(min(4, len(draft.words)))] = edge(random, draft)
    else:
        last = len(draft.words)
        edges = (-1, 0, 3, last - 1, last, 32767, -32768)
        draft.words[random.randrange(last)] = random.choice(edges)


def level(random: Random, draft: Draft) -> None:
    """One damage to a level's records."""
    chance = random.random()
    if chance < 0.45:
        change_field(random, draft)
    elif chance < 0.55:
        change_line(random, draft)
    elif chance < 0.75:
        change_count(random, draft)
    elif chance < 0.8:
        change_reject(random, draft)
    elif chance < 0.95:
        change_blockmap(random, draft)
    else:
        tangle(random, draft)


# ---- Oversights ----------------------------------------------------------------------


def turn_line(random: Random, draft: Draft) -> None:
    """A linedef the other way round: its sectors aren't closed."""
    record = random.choice(draft.tables[LINEDEFS])
    record[0], record[1] = record[1], record[0]


def strip_wall(random: Random, draft: Draft) -> None:
    """A sidedef without textures, and mostly other heights behind it."""
    sidedef = random.choice(draft.tables[SIDEDEFS])
    for field in random.sample((2, 3, 4), random.choice((1, 3))):
        sidedef[field] = random.choice((b"-", b"-", b"-\0X", b"-X"))
    sector = random.choice(draft.tables[SECTORS])
    sector[random.choice((0, 1))] += random.choice((-8, 0, 8))


def move_thing(random: Random, draft: Draft) -> None:
    """A thing on a vertex or a unit from it, far away, or beyond the range."""
    x, y = random.choice(draft.tables[VERTEXES])
    thing = random.choice(draft.tables[THINGS])
    far = random.choice((0, 1, 1, 300, 20000))
    thing[:2] = x + far * random.choice((-1, 0, 1)), y + far * random.choice((-1, 1))


def lose_tag(random: Random, draft: Draft) -> None:
    """A tag and a special, and mostly no sector of that tag."""
    linedef = random.choice(draft.tables[LINEDEFS])
    linedef[3] = random.choice((0, 11, 18, 97, -1))
    linedef[4] = random.choice((0, 7, 666, 667, -1))


def turn_segs(random: Random, draft: Draft) -> None:
    """Segs of linedefs with two sides on the other one: their ssector faces several
    sectors."""
    linedefs = draft.tables[LINEDEFS]
    count, first = random.choice(draft.tables[SSECTORS])
    for seg in draft.tables[SEGS][first : first + count]:
        if -1 not in linedefs[seg[3]][5:] and random.random() < 0.6:
            seg[4] = 1 - seg[4]


def lay_line(random: Random, draft: Draft) -> None:
    """A linedef on another, by its vertexes or others at their places; a side, or two."""
    linedef = [*random.choice(draft.tables[LINEDEFS])]
    ends = linedef[:2]
    if random.random() < 0.4:
        vertexes = draft.tables[VERTEXES]
        vertexes += [[*vertexes[v]] for v in ends]
        ends = [len(vertexes) - 2, len(vertexes) - 1]
    linedef[:2] = random.choice((ends, ends[::-1]))
    if random.random() < 0.4:
        linedef[5:] = [-1, linedef[5]]
    draft.tables[LINEDEFS].append(linedef)


def lose_start(random: Random, draft: Draft) -> None:
    """No start of a player, or one less for a deathmatch."""
    things = draft.tables[THINGS]
    kind = random.choice((2, 3, 4, 11, 11))
    starts = [thing for thing in things if thing[3] == kind]
    for start in starts if kind != 11 else starts[:1]:
        things.remove(start)


def add_stranger(random: Random, draft: Draft) -> None:
    """A thing of a kind at an end of the game's kinds, in some skills or in none."""
    x, y = draft.tables[THINGS][-1][:2] if draft.tables[THINGS] else (0, 0)
    edges = (4, 5, 10, 11, 12, 89, 90, 2009, 2016, 2018, 2021, 2027, 2034, 2050, 3000, 3006, 3007, 32000, 0, -1)
    draft.tables[THINGS].insert(0, [x, y, 0, random.choice(edges), random.choice((7, 1, 2, 4, 8, 0, -8, -1))])


OVERSIGHTS = (
    turn_line,
    strip_wall,
    move_thing,
    move_thing,
    lose_tag,
    turn_segs,
    turn_segs,
    lay_line,
    lose_start,
    add_stranger,
)


def overlook(random: Random, draft: Draft) -> None:
    """One oversight, after which all references of a neat level still hold."""
    random.choice(OVERSIGHTS)(random, draft)


# ---- Lumps and files -----------------------------------------------------------------


def turned(random: Random, data: bytes) -> bytes:
    """The bytes with one of them another."""
    if not data:
        return data
    at = random.randrange(len(data))
    return data[:at] + random.randbytes(1) + data[at + 1 :]


def lumps(random: Random, found: Lumps) -> None:
    """One damage to lumps."""
    if not found:
        return
    i = random.randrange(len(found))
    name, data = found[i]
    match random.randrange(8):
        case 0:
            found[i] = name, data[: random.randrange(len(data) + 1)]
        case 1:
            found[i] = name, data + random.randbytes(random.randrange(1, 4))
        case 2:
            found[i] = name, turned(random, data)
        case 3:
            others = (b"TEXTMAP", b"BEHAVIOR", b"THINGS", b"NODES", b"", name.lower())
            found[i] = random.choice(others), data
        case 4:
            found[i] = turned(random, name), data
        case 5:
            del found[i]
        case 6:
            found.insert(i, (random.choice((b"BEHAVIOR", b"TEXTMAP", b"LABEL")), b""))
        case 7:
            found[i] = name, random.choice(TAGS) + data


def later_nodes(random: Random, data: bytes) -> bytes:
    """A lump of all nodes of a level, mostly with one damage: it ends within them, or a count in front is another."""
    match random.randrange(4):
        case 0:
            return data[: random.randrange(4, len(data) + 1)]
        case 1 | 2:
            at = random.choice((4, 8, 12, 16, 20))
            count = int.from_bytes(data[at : at + 4], "little")
            number = random.choice((0, count - 1, count + 1, 2147483648, 4294967295)) & 0xFFFFFFFF
            return data[:at] + number.to_bytes(4, "little") + data[at + 4 :]
        case _:
            return data


def file(random: Random, data: bytes) -> bytes:
    """One damage to a file, mostly to its header or its directory."""
    chance = random.random()
    if chance < 0.1:
        return data[: random.randrange(len(data) + 1)]
    if chance < 0.2:
        return turned(random, data[:12]) + data[12:]
    count = int.from_bytes(data[4:8], "little")
    start = int.from_bytes(data[8:12], "little")
    if chance < 0.3:
        edges = (-1, 0, count - 1, count + 1, 2147483647, start + 1, len(data))
        number = (random.choice(edges) & 0xFFFFFFFF).to_bytes(4, "little")
        at = random.choice((4, 8))
        return data[:at] + number + data[at + 4 :]
    if not count or start + 16 * count > len(data):
        return turned(random, data)
    at = start + 16 * random.randrange(count)
    if chance < 0.5:
        return data[:at] + turned(random, data[at : at + 16]) + data[at + 16 :]
    place, size = (int.from_bytes(data[at + i : at + i + 4], "little") for i in (0, 4))
    inside = len(data) - place
    edges = (-1, 0, 1, size, inside, inside + 1, 2147483647, -2147483648)
    if random.random() < 0.5:
        place = random.choice((-1, 0, len(data), len(data) - size, len(data) - size + 1))
    else:
        size = random.choice(edges)
    return data[:at] + entry(place, size, data[at + 8 : at + 16]) + data[at + 16 :]


def demo(random: Random, data: bytes) -> bytes:
    """A demo cut, or with another version, players or bytes."""
    match random.randrange(4):
        case 0:
            return data[: random.randrange(len(data) + 1)]
        case 1:
            versions = (0, 4, 5, 104, 108, 112, 200, 202, 203, 204, 210, 214, 215, 221, 255)
            return bytes([random.choice(versions)]) + data[1:]
        case 2:
            return data[:9] + b"\0\0\0\0" + data[13:]
    return turned(random, data)


def later_demo(random: Random, data: bytes) -> bytes:
    """A demo of any engine cut, or with another byte where headers and wrappers have theirs."""
    if random.random() < 0.3 or not data:
        return data[: random.randrange(min(len(data), 340) + 1)]
    at = random.randrange(min(len(data), random.choice((8, 20, 130, 340, 340))))
    byte = random.choice((0, 1, 2, 3, 25, 26, 128, 255))
    return data[:at] + bytes([byte]) + data[at + 1 :]


# ---- Demos ---------------------------------------------------------------------------


def later_sibling(random: Random, data: bytes) -> bytes:
    """A demo of any engine that is like another but for a byte or an end."""
    at = random.randrange(len(data)) if data else 0
    match random.randrange(5):
        case 0:
            return data[:at] + b"\x80"
        case 1:
            return data + b"more"
        case 2:
            at = min(at, random.choice((20, 110, 310)))
    return data[:at] + bytes([data[at] ^ random.choice((1, 2, 4))]) + data[at + 1 :] if data else data


def sibling(random: Random, data: bytes) -> bytes:
    """A demo that is like another up to a place, or differs behind the marker alone."""
    long = 5 if data[0] == 111 else 4
    count = read(data).commands
    at = 13 + long * random.randrange(len(count) + 1)
    end = 13 + long * len(count)
    match random.randrange(6):
        case 0:
            return data[:at] + b"\x80"
        case 1:
            return data[: end + 1] + random.choice((b"", b"x", b"\x80\x80"))
        case 2:
            k = random.randrange(13)
            return data[:k] + bytes([(data[k] + 1) % 256]) + data[k + 1 :]
        case 3 if at < end:
            k = at + random.randrange(long)
            return data[:k] + bytes([data[k] ^ 1]) + data[k + 1 :]
        case 4:
            return data[:at] + bytes(long) + data[at:]
    return data


def line_words(random: Random, words: list[bytes]) -> None:
    """One word of a line another, or no word, or written otherwise."""
    i = random.randrange(len(words))
    word = words[i]
    edges = (b"-128", b"-127", b"-1", b"0", b"1", b"127", b"128", b"255", b"256", b"-0")
    others = (b"", b"x", b"0" + word, b"+" + word, word.upper(), word + b"\r", b" " + word)
    most = (b"18446744073709551615", b"18446744073709551616", b"4294967296", b"ff", b"FF")
    if random.random() < 0.1:
        del words[i]
    else:
        words[i] = random.choice((*edges, *others, *most))


def listing(random: Random, text: bytes) -> bytes:
    """A listing with one line, or its end, another than it was."""
    lines = text.split(b"\n")
    i = random.choice((0, len(lines) - 2, random.randrange(len(lines)))) % len(lines)
    match random.randrange(10):
        case 0:
            del lines[i]
        case 1:
            lines.insert(i, random.choice((b"", lines[i], lines[0], lines[-1])))
        case 2:
            j = random.randrange(len(lines))
            lines[i], lines[j] = lines[j], lines[i]
        case 3:
            return text[: random.randrange(len(text) + 1)]
        case 4:
            return text + random.choice((b"\n", b"x", lines[i], lines[i] + b"\n"))
        case 5:
            return turned(random, text)
        case _:
            words = lines[i].split(b" ")
            line_words(random, words)
            lines[i] = b" ".join(words)
    return b"\n".join(lines)
