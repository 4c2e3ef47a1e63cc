"""What `wadlook` answers, by docs/wadlook.1 and the definitions it stands on."""

import re
from collections.abc import Callable
from typing import NamedTuple

from plain import demos
from plain.levels import Level, is_in_range, opening_fault
from plain.wads import (
    Files,
    USUAL,
    Entry,
    is_text,
    joined,
    lump,
    packed,
    refusal,
    shown,
    winner,
)

TEXTS = {
    "F1": "lump missing after the label",
    "F2": "lump outside its file",
    "F3": "linedef vertex names none",
    "F4": "linedef side names none",
    "F5": "sidedef sector names none",
    "F6": "seg vertex names none",
    "F7": "seg linedef names none",
    "F8": "seg side is not 0 or 1",
    "F9": "seg's linedef has no side there",
    "F10": "ssector's segs out of range",
    "F11": "child names nothing",
    "F12": "node origin out of range",
    "F13": "node named twice or root named",
    "F14": "node not reached",
    "F15": "ssector named more than once",
    "F16": "ssector not reached",
    "F17": "no ssector",
    "F18": "more than 32767 nodes",
    "N1": "lump name differs",
    "N2": "bytes left over",
    "N3": "two-sided flag without side 1",
    "N4": "no side 0",
    "N5": "linedef of no length",
    "N6": "ssector without segs",
    "N7": "partition without direction",
    "N8": "REJECT size",
    "N9": "BLOCKMAP short",
    "N10": "block list faulty",
    "N11": "no player 1 start",
    "N12": "vertex out of range",
}

WAD_FAULTS = {1: "short", 2: "magic", 3: "count", 4: "directory"}

WIDE_COMMANDS = ("show", "audit", "points", "census", "blocks")
NAME_COMMANDS = (*WIDE_COMMANDS, "sight", "demo", "extract")
USAGE = b"wadlook CMD [NAME] FILE...\n"
MOST_FILES = 64
MOST_POINTS = 1048576


class Answer(NamedTuple):
    """How a program ends, what it writes, and what then is in the folder that it was told
    to write, where there is one."""

    status: int
    out: bytes = b""
    error: bytes = b""
    folder: dict[str, bytes] | None = None


class Refused(Exception):
    """The words of a refusal."""


class Asked(NamedTuple):
    """What words ask for."""

    command: str
    wide: bool
    name: bytes
    paths: list[str]


def lines(texts: list[str]) -> bytes:
    return "".join(text + "\n" for text in texts).encode()


# ---- Words and files -----------------------------------------------------------------


def asked_by(words: list[str]) -> Asked:
    """The command that words are, in its one form."""
    command, rest = words[0], words[1:]
    wide = command in WIDE_COMMANDS and rest[:1] == ["--wide"]
    rest = rest[1:] if wide else rest
    takes_name = command in NAME_COMMANDS
    paths = rest[1:] if takes_name else rest
    known = takes_name or command in ("lumps", "levels", "lmp")
    most = 1 if command == "lmp" else MOST_FILES
    dashed = any(word.startswith("-") for word in rest)
    texts = all(is_text(word) for word in words)
    if not known or dashed or not texts or not 1 <= len(paths) <= most:
        raise Refused("usage")
    return Asked(command, wide, rest[0].encode() if takes_name else b"", paths)


def read_files(paths: list[str], held: Files) -> list[bytes]:
    """The files whole, then their directories."""
    files = []
    for n, path in enumerate(paths, 1):
        file = held.get(path)
        if file is None:
            raise Refused(f"file {n}: read")
        files.append(file)
    for n, file in enumerate(files, 1):
        if number := refusal(file):
            raise Refused(f"file {n}: {number} {WAD_FAULTS[number]}")
    return files


def label_of(listed: list[Entry], name: bytes) -> int:
    g = winner(listed, name)
    if g is None:
        raise Refused("8 no label")
    return g


def opened(listed: list[Entry], asked: Asked) -> Level:
    g = label_of(listed, asked.name)
    if fault := opening_fault(listed, g):
        raise Refused(f"{fault[0]} {fault[1]}")
    return Level(listed, g, asked.wide)


# ---- Lists ---------------------------------------------------------------------------


def lumps_text(files: list[bytes]) -> list[str]:
    texts, g = [], 0
    for n, file in enumerate(files, 1):
        own = joined([file])
        texts.append(f"file {n} {file[:4].decode()} {len(own)}")
        for entry in own:
            texts.append(f"{g} {entry.place} {entry.size} {shown(entry.name)}")
            g += 1
    return texts


def levels_text(listed: list[Entry]) -> list[str]:
    texts = []
    for g, entry in enumerate(listed):
        if [after.name for after in listed[g + 1 : g + 11]] == USUAL:
            hidden = "" if winner(listed, entry.name) == g else " hidden"
            texts.append(f"{g} {shown(entry.name)}{hidden}")
    return texts


# ---- A level -------------------------------------------------------------------------


def field_text(value: int | bytes) -> str:
    return shown(value) if isinstance(value, bytes) else str(value)


def show_text(level: Level) -> list[str]:
    texts = [f"level {shown(level.names[0])} at {level.label}"]
    for name, table, rest in zip(USUAL, level.tables, level.rests):
        texts.append(f"{name.decode()} {len(table)} rest {rest}")
        for i, record in enumerate(table):
            texts.append(" ".join([str(i), *(field_text(value) for value in record)]))
    texts.append(f"REJECT {len(level.reject)}")
    texts.append(f"BLOCKMAP {len(level.blockmap)}")
    return texts


def audit_text(found: dict[str, list[int]]) -> list[str]:
    texts = [f"{code} {i} {TEXTS[code]}" for code in found for i in found[code]]
    faults = sum(len(found[code]) for code in found if code[0] == "F")
    return [*texts, f"faults {faults} notes {len(texts) - faults}"]


def audit(listed: list[Entry], asked: Asked) -> Answer:
    g = label_of(listed, asked.name)
    if fault := opening_fault(listed, g):
        return Answer(1, lines(audit_text({fault[0]: [fault[1]]})))
    level = Level(listed, g, asked.wide)
    return Answer(1 if level.faults else 0, lines(audit_text(level.findings)))


def extract(listed: list[Entry], asked: Asked) -> bytes:
    level = opened(listed, asked)
    return packed(list(zip(level.names, [b"", *level.lumps])))


# ---- Lines of input ------------------------------------------------------------------


def contents(given: bytes) -> list[bytes]:
    """The contents of an input's lines."""
    parts = given.split(b"\n")
    if not parts[-1]:
        parts.pop()
    return [part.removesuffix(b"\r") for part in parts]


def answers(given: bytes, count: int, answer: Callable[..., str | None]) -> bytes:
    """The answers to lines of so many numbers; none is a number out of its range."""
    texts = []
    for content in contents(given):
        form = re.fullmatch(rb"-?[0-9]+( -?[0-9]+){%d}" % (count - 1), content)
        if form is None or len(content) > 64:
            texts.append("refused: form")
            continue
        numbers = [int(part) for part in content.split(b" ")]
        told = answer(*numbers)
        front = " ".join(str(number) for number in numbers)
        texts.append("refused: range" if told is None else f"{front} {told}")
    return lines(texts)


def point_answer(level: Level, x: int, y: int) -> str | None:
    if not is_in_range(x, y):
        return None
    t = level.leaf(x, y)
    return f"sector {level.sector_of(t)} ssector {t}"


def census_answer(level: Level, x0: int, y0: int, x1: int, y1: int) -> str | None:
    if not is_in_range(x0, y0, x1, y1) or x0 > x1 or y0 > y1:
        return None
    points = (x1 - x0 + 1) * (y1 - y0 + 1)
    if points > MOST_POINTS:
        return None
    found = [level.sector_of(level.leaf(x, y)) for x in range(x0, x1 + 1) for y in range(y0, y1 + 1)]
    pairs = [f" {sector}:{found.count(sector)}" for sector in sorted(set(found))]
    return f"points {points}{''.join(pairs)}"


def sight_answer(level: Level, a: int, b: int) -> str | None:
    count = len(level.sectors)
    if not (0 <= a < count and 0 <= b < count):
        return None
    bits = [byte >> place & 1 for byte in level.reject for place in range(8)]
    bit = a * count + b
    return "unknown" if bit >= len(bits) else ("clear", "blocked")[bits[bit]]


def block_answer(level: Level, x: int, y: int) -> str | None:
    if not is_in_range(x, y):
        return None
    left, bottom, width, height = level.head
    column, row = (x - left) // 128, (y - bottom) // 128
    if not (0 <= column < width and 0 <= row < height):
        return "no block"
    told = level.block_list(row * width + column)
    if isinstance(told, int):
        return f"block {column} {row} fault {told}"
    return " ".join([f"block {column} {row} lines", *(str(word) for word in told)])


ANSWERS: dict[str, tuple[int, Callable[..., str | None]]] = {
    "points": (2, point_answer),
    "census": (4, census_answer),
    "sight": (2, sight_answer),
    "blocks": (2, block_answer),
}


def answer_lines(level: Level, command: str, given: bytes) -> bytes:
    if command in ("points", "census") and level.faults:
        raise Refused("audit")
    if command == "blocks" and len(level.blockmap) < 8:
        raise Refused("no blockmap")
    count, answer = ANSWERS[command]
    return answers(given, count, lambda *numbers: answer(level, *numbers))


# ---- Demos ---------------------------------------------------------------------------


def demo_text(listed: list[Entry], name: bytes) -> list[str]:
    g = winner(listed, name)
    if g is None:
        raise Refused("5 no such lump")
    data = lump(listed[g])
    if data is None:
        raise Refused("6 outside file")
    if why := demos.refusal_words(data):
        raise Refused(why)
    demo = demos.read(data)
    return [*demos.front_lines(demo), demos.last_line(demo)]


def list_file(path: str, held: Files) -> Answer:
    """A demo file is listed while it is read, up to where it is refused."""
    if path not in held:
        raise Refused("file 1: read")
    data = held[path]
    if data is None:
        raise Refused("read")
    why = demos.refusal_words(data)
    if demos.refusal(data):
        raise Refused(why)
    demo = demos.read(data)
    if why:
        return refused(why, lines(demos.front_lines(demo)))
    return Answer(0, lines([*demos.front_lines(demo), demos.last_line(demo)]))


# ---- The program ---------------------------------------------------------------------


def refused(why: object, out: bytes = b"") -> Answer:
    return Answer(2, out, lines([f"refused: {why}"]))


def does(asked: Asked, held: Files, given: bytes) -> Answer:
    if asked.command == "lmp":
        return list_file(asked.paths[0], held)
    files = read_files(asked.paths, held)
    listed = joined(files)
    if asked.command == "audit":
        return audit(listed, asked)
    if asked.command == "extract":
        return Answer(0, extract(listed, asked))
    if asked.command in ANSWERS:
        return Answer(0, answer_lines(opened(listed, asked), asked.command, given))
    texts: dict[str, Callable[[], list[str]]] = {
        "lumps": lambda: lumps_text(files),
        "levels": lambda: levels_text(listed),
        "show": lambda: show_text(opened(listed, asked)),
        "demo": lambda: demo_text(listed, asked.name),
    }
    return Answer(0, lines(texts[asked.command]()))


def run(words: list[str], held: Files, given: bytes) -> Answer:
    """What the program does for words, over files by their paths and an input."""
    if not words:
        return Answer(0, USAGE)
    try:
        return does(asked_by(words), held, given)
    except Refused as why:
        return refused(why)
