"""What `wadlens` tells of files one after another, by docs/wadlens.1 and the definitions it
stands on: check, survey, cut and demos."""

import re
from collections.abc import Iterator
from typing import NamedTuple

from plain import later
from plain.later_nodes import why_broken
from plain.levels import Level, LineDef, Seg
from plain.look import Answer
from plain.picture import CELLS, Frame
from plain.warned import ENDING, REFERENCES, WANT_SOUND, WANTS, lacks_references, unlisted, unlooked, warnings
from plain.warnings import Warned
from plain.wads import (
    USUAL,
    Entry,
    Files,
    entries,
    is_text,
    joined,
    lump,
    packed,
    refusal,
    shown,
    winner,
)

FILE_REFUSALS = {
    1: "shorter than a WAD header",
    2: "not a WAD file: it begins with neither IWAD nor PWAD",
    3: "a negative count of lumps",
    4: "its directory isn't inside the file",
}

KINDS = {
    "linedef": ("F3", "F4", "N3", "N4", "N5"),
    "sidedef": ("F5",),
    "seg": ("F6", "F7", "F8", "F9"),
    "ssector": ("F10", "F15", "F16", "N6"),
    "node": ("F11", "F12", "F13", "F14", "N7"),
    "level": ("F17", "F18", "N8", "N9", "N11"),
    "lump": ("N1", "N2"),
    "block": ("N10",),
    "vertex": ("N12",),
}
KIND_OF = {code: kind for kind, codes in KINDS.items() for code in codes}

NODE_TAGS = (b"XNOD", b"ZNOD", b"xNd4\0\0\0\0")
SSECTOR_TAGS = (b"XGLN", b"ZGLN", b"XGL2", b"ZGL2", b"XGL3", b"ZGL3")

CLEAN, FAULTY, UNJUDGED = 0, 1, 2


def graver(a: int, b: int) -> int:
    """Of what two runs end with: a fault goes before what isn't judged."""
    return FAULTY if FAULTY in (a, b) else max(a, b)


def shown_path(path: str) -> str:
    """A path as lines show it: no control character of ISO 6429 stands as it is."""
    told = re.sub(
        rb"[\x00-\x1f\x7f]|\xc2[\x80-\x9f]",
        lambda control: b"".join(b"\\x%02x" % byte for byte in control[0]),
        path.encode(errors="surrogateescape"),
    )
    return told.decode(errors="surrogateescape")


class Asked(NamedTuple):
    """What words ask for: the paths are those of the words, then those of a list. `lost` is
    a list that can't be read, and `bases` are the files on which each file stands."""

    command: str
    paths: list[str]
    wide: bool = False
    most: int = 20
    json: bool = False
    entry: int | None = 0
    map: bool = False
    strict: bool = False
    ignored: frozenset[str] = frozenset()
    failing: frozenset[str] = frozenset()
    game: bool = False
    bases: tuple[str, ...] = ()
    lost: str = ""
    name: str = ""
    cells: int = CELLS
    frame: Frame | None = None
    folder: str = ""
    title: str = "Atlas"
    day: str = ""
    commands_alone: bool = False


class Run:
    """What is told, and what was found. The entries are those of the base files."""

    def __init__(self, base: list[Entry] | None = None) -> None:
        self.base = base or []
        self.out: list[str] = []
        self.errors: list[str] = []
        self.data = b""
        self.verdict = CLEAN
        self.levels = self.faults = self.notes = self.warnings = self.unjudged = 0
        self.partly = 0
        self.unlooked: set[str] = set()
        self.is_refused = False
        self.unlisted: dict[str, list[str]] = {}

    def finds(self, verdict: int) -> None:
        self.verdict = graver(self.verdict, verdict)

    def refuses(self, path: str, why: str, verdict: int = UNJUDGED) -> None:
        self.errors.append(f"wadlens: {shown_path(path)}: {why}")
        self.is_refused = True
        self.finds(verdict)

    def answer(self) -> Answer:
        return Answer(self.verdict, lines(self.out) + self.data, lines(self.errors))


def lines(texts: list[str]) -> bytes:
    """Lines as bytes, those of paths as they are."""
    return "".join(text + "\n" for text in texts).encode(errors="surrogateescape")


# ---- Levels of a file ----------------------------------------------------------------


class Format(NamedTuple):
    """A level's format, what tells it, and why its extended nodes are broken."""

    name: str
    told_by: str = ""
    broken: str = ""

    @property
    def verdict(self) -> int:
        return FAULTY if self.name in ("incomplete", "outside") or self.broken else UNJUDGED

    @property
    def words(self) -> str:
        return {
            "incomplete": f"incomplete: no {self.told_by} where it belongs",
            "outside": f"outside: {self.told_by}",
            "extended": f"extended nodes {self.told_by}: {self.broken or 'not read'}",
        }.get(self.name, f"{self.name}: not read")


def is_start(listed: list[Entry], g: int) -> bool:
    return g + 1 < len(listed) and listed[g + 1].name in (b"THINGS", b"TEXTMAP")


def label_of(listed: list[Entry], g: int) -> str:
    """A level's label, and its entry, where looking its name up gives another or none."""
    name = listed[g].name
    named = [h for h, entry in enumerate(listed) if entry.name == name.upper()]
    return shown(name) + ("" if named[-1:] == [g] else f" (entry {g})")


def format_of(listed: list[Entry], g: int) -> Format:
    """The first format that holds of the level that starts at an entry."""
    found = [entry.name for entry in listed[g + 1 : g + 12]]
    if found[0] == b"TEXTMAP":
        return Format("udmf")
    for k in range(2, 11):
        if k > len(found) or found[k - 1] != USUAL[k - 1]:
            return Format("incomplete", USUAL[k - 1].decode())
    if found[10:] == [b"BEHAVIOR"]:
        return Format("hexen")
    lumps: list[bytes] = []
    for k, entry in enumerate(listed[g + 1 : g + 11]):
        data = lump(entry)
        if data is None:
            return Format("outside", USUAL[k].decode())
        lumps.append(data)
    for data, tags in ((lumps[6], NODE_TAGS), (lumps[5], SSECTOR_TAGS)):
        if data.startswith(tags):
            tag = data[:4].decode()
            return Format("extended", tag, why_broken(tag, *lumps[3:7]))
    return Format("doom")


# ---- A finding in words --------------------------------------------------------------


def missing(what: str, index: int, count: int, noun: str) -> str:
    return f"{what} {index} isn't there ({count} {noun})"


def vertex_words(level: Level, record: LineDef | Seg) -> str:
    count = len(level.vertexes)
    if level.vertex(record.v1) is None:
        return missing("start vertex", record.v1, count, "vertexes")
    return missing("end vertex", record.v2, count, "vertexes")


def sidedef_words(level: Level, linedef: LineDef) -> str:
    count = len(level.sidedefs)
    if level.lacks_sidedef(linedef.side0):
        return missing("front sidedef", linedef.side0, count, "sidedefs")
    return missing("back sidedef", linedef.side1, count, "sidedefs")


def child_words(level: Level, n: int) -> str:
    side = 1 if (n, 0) in level.children else 0
    word = (level.nodes[n].child0, level.nodes[n].child1)[side]
    kind, index = ("node", word) if word < 32768 else ("ssector", word - 32768)
    count = len(level.nodes if kind == "node" else level.ssectors)
    return f"child {side} names {kind} {index}, which isn't there ({count} {kind}s)"


def segs_words(level: Level, t: int) -> str:
    count, first = level.ssectors[t]
    return f"segs from {first}, {count} of them, aren't all there ({len(level.segs)} segs)"


def seg_words(level: Level, code: str, i: int) -> str:
    seg = level.segs[i]
    if code == "F6":
        return vertex_words(level, seg)
    if code == "F7":
        return missing("linedef", seg.linedef, len(level.linedefs), "linedefs")
    if code == "F8":
        return f"side {seg.side} is neither 0 nor 1"
    return f"linedef {seg.linedef} has no sidedef on side {seg.side}"


def list_words(level: Level, block: int) -> str:
    if level.block_list(block) == 1:
        return "its list isn't inside BLOCKMAP"
    return "its list has no end"


def spot(x: int, y: int) -> str:
    return f"({x}, {y})"


def outside(what: str) -> str:
    return f"{what} is outside -16384 to 16383"


def wanted(what: str, count: int, noun: str, want: int) -> str:
    return f"{what} has {count} {noun}, {want} are wanted"


PLAIN_WORDS = {
    "F14": "not reached from the root",
    "F15": "named more than once",
    "F16": "not reached from the root",
    "F17": "no ssector",
    "N3": "two-sided, without a back sidedef",
    "N4": "without a front sidedef",
    "N5": "without length",
    "N6": "without segs",
    "N7": "without direction",
    "N11": "no player 1 start",
}


def message(level: Level, code: str, i: int) -> str:
    """What is wrong, with the values that stand there."""
    if code in PLAIN_WORDS:
        return PLAIN_WORDS[code]
    match code:
        case "F3":
            return vertex_words(level, level.linedefs[i])
        case "F4":
            return sidedef_words(level, level.linedefs[i])
        case "F5":
            sector = level.sidedefs[i].sector
            return missing("sector", sector, len(level.sectors), "sectors")
        case "F6" | "F7" | "F8" | "F9":
            return seg_words(level, code, i)
        case "F10":
            return segs_words(level, i)
        case "F11":
            return child_words(level, i)
        case "F12":
            return outside("origin " + spot(level.nodes[i].x, level.nodes[i].y))
        case "F13":
            is_root = i == len(level.nodes) - 1
            return "the root, and named" if is_root else "named more than once"
        case "F18":
            return f"{len(level.nodes)} nodes, 32767 are the most"
        case "N2":
            return f"{shown(USUAL[i - 1])} has {level.rests[i - 1]} bytes left over"
        case "N8":
            return wanted("REJECT", len(level.reject), "bytes", level.wanted_reject)
        case "N9":
            count = len(level.blockmap) // 2
            return wanted("BLOCKMAP", count, "words", level.wanted_words)
        case "N10":
            return list_words(level, i)
        case "N12":
            return outside(spot(*level.vertexes[i]))
    raise ValueError(code)


def line_place(level: Level, record: LineDef | Seg) -> str:
    start, end = level.vertex(record.v1), level.vertex(record.v2)
    if start is None or end is None:
        return ""
    return f", from {spot(*start)} to {spot(*end)}"


def sidedef_place(level: Level, i: int) -> str:
    for n, linedef in enumerate(level.linedefs):
        if i != level.none and i in (linedef.side0, linedef.side1):
            return f", of linedef {n}"
    return ""


def ssector_place(level: Level, t: int) -> str:
    first = level.ssectors[t].first
    if not 0 <= first < len(level.segs):
        return ""
    start = level.vertex(level.segs[first].v1)
    return "" if start is None else f", at {spot(*start)}"


def place(level: Level, code: str, i: int) -> str:
    """Where on the map that is."""
    match KIND_OF[code]:
        case "linedef":
            return line_place(level, level.linedefs[i])
        case "seg":
            return line_place(level, level.segs[i])
        case "sidedef":
            return sidedef_place(level, i)
        case "ssector":
            return ssector_place(level, i)
        case "node" if code != "F12":
            return f", at {spot(level.nodes[i].x, level.nodes[i].y)}"
    return ""


def index_words(level: Level, code: str, i: int) -> str:
    kind = KIND_OF[code]
    if kind == "level":
        return kind
    if kind == "block":
        row, column = divmod(i, level.head[2])
        return f"{kind} {spot(column, row)}"
    return f"{kind} {i}"


# ---- check ---------------------------------------------------------------------------

TOLD = re.compile(r"([FNW]\d+) (\w+)(?: (\d+)| \((\d+), (\d+)\))?: (.*)")
ORDER = re.compile(r"lumps in another order: (\w+) before (\w+)")
UNBUILT = re.compile(r"; build the nodes$")
LEFT_OUT = re.compile(r"([FNW]\d+): (\d+) more")
BETWEEN = re.compile(r", from \((-?\d+), (-?\d+)\) to \((-?\d+), (-?\d+)\)$")
AT = re.compile(r", at \((-?\d+), (-?\d+)\)$")
OF_LINEDEF = re.compile(r", of linedef (\d+)$")


def placed(text: str) -> tuple[str, dict[str, object]]:
    """A message, and its place in numbers."""
    if found := BETWEEN.search(text):
        x0, y0, x1, y1 = map(int, found.groups())
        return text[: found.start()], {"place": {"from": [x0, y0], "to": [x1, y1]}}
    if found := AT.search(text):
        return text[: found.start()], {"place": {"at": [int(n) for n in found.groups()]}}
    if found := OF_LINEDEF.search(text):
        return text[: found.start()], {"place": {"linedef": int(found[1])}}
    return text, {}


def as_members(line: str) -> dict[str, object]:
    """What a line says behind the level's label, as members of an object."""
    if found := ORDER.fullmatch(line):
        return {"order": [found[1], found[2]]}
    if UNBUILT.search(line):
        return {"empty": re.findall(r"SEGS|SSECTORS|NODES", line), "message": line}
    if found := LEFT_OUT.fullmatch(line):
        return {"code": found[1], "more": int(found[2])}
    if found := TOLD.fullmatch(line):
        code, kind, index, column, row, text = found.groups()
        members: dict[str, object] = {"code": code, "kind": kind}
        if index is not None:
            members["index"] = int(index)
        if column is not None:
            members["index"] = [int(column), int(row)]
        told, where = placed(text)
        return members | {"message": told} | where
    return {"sound_with_wide": True}


class Front(NamedTuple):
    """What stands before all that is told of a level: its file, its label and its entry."""

    path: str
    label: str
    name: str
    entry: int
    json: bool

    def tell(self, run: Run, line: str) -> None:
        if not self.json:
            run.out.append(f"{shown_path(self.path)}: {self.label}: {line}")
            return
        members: dict[str, object] = {"file": self.path, "level": self.name}
        run.out.append(written(members | {"entry": self.entry} | as_members(line)))


def warned_lines(warned: dict[str, list[Warned]], most: int) -> Iterator[str]:
    """What is told of a level's warnings."""
    for code, all_told in warned.items():
        shown_count = len(all_told) if most == 0 else min(most, len(all_told))
        for one in all_told[:shown_count]:
            yield f"{code} {one.index}: {one.message}{one.place}"
        if shown_count < len(all_told):
            yield f"{code}: {len(all_told) - shown_count} more"


def check_unlooked(run: Run, front: Front, level: Level, codes: list[str]) -> None:
    """Which warnings weren't looked for, and for which faults. What no file lists is told apart."""
    without_references = lacks_references(level)
    told = codes if without_references else [code for code in codes if code in WANT_SOUND and level.faults]
    if not told:
        return
    if front.json:
        members: dict[str, object] = {"file": front.path, "level": front.name, "entry": front.entry}
        run.out.append(written(members | {"unlooked": codes}))
        return
    causes = [code for code in level.findings if code[0] == "F" and (code in REFERENCES or not without_references)]
    named = "" if without_references else " " + ", ".join(told)
    front.tell(run, f"warnings{named} not looked for: {', '.join(causes)}")


def order_words(listed: list[Entry], g: int, form: Format) -> str:
    """That a level without a lump in its place has all ten; nothing where it hasn't."""
    behind = [entry.name for entry in listed[g + 1 : g + 11]]
    if form.name != "incomplete" or sorted(behind) != sorted(USUAL):
        return ""
    first, second = next((there, usual) for there, usual in zip(behind, USUAL) if there != usual)
    return f"lumps in another order: {shown(first)} before {shown(second)}"


def unbuilt_words(level: Level) -> str:
    """That a level with linedefs lacks what a node builder makes; nothing where it doesn't."""
    wanted = {"SEGS": level.segs, "SSECTORS": level.ssectors, "NODES": level.nodes}
    empty = [name for name, table in wanted.items() if not table]
    # A single ssector needs no nodes.
    if len(level.ssectors) == 1 and "NODES" in empty:
        empty.remove("NODES")
    if not level.linedefs or not empty:
        return ""
    told = f"{', '.join(empty[:-1])} and {empty[-1]} are empty" if empty[1:] else f"{empty[0]} is empty"
    if not level.nodes and level.ssectors[1:]:
        told += f": {len(level.ssectors) - 1} ssectors can't be reached"
    return f"{told}; build the nodes"


def finding_lines(level: Level, found: dict[str, list[int]], most: int) -> Iterator[str]:
    """What is told of a judged level's findings."""
    for code, where in found.items():
        shown_count = len(where) if most == 0 else min(most, len(where))
        for i in where[:shown_count]:
            index, told = index_words(level, code, i), message(level, code, i)
            yield f"{code} {index}: {told}{place(level, code, i)}"
        if shown_count < len(where):
            yield f"{code}: {len(where) - shown_count} more"


class Judged(NamedTuple):
    """What of a level isn't ignored: where each code holds, its warnings, the codes of those
    that weren't looked for, and which of them as no file lists the names."""

    findings: dict[str, list[int]]
    warned: dict[str, list[Warned]]
    unlooked: list[str]
    unlisted: dict[str, list[str]]

    @property
    def notes(self) -> int:
        return sum(len(where) for code, where in self.findings.items() if code[0] == "N")


def found_lines(level: Level, found: Judged, most: int) -> list[str]:
    """What is told of a judged level's findings, and behind them of its warnings."""
    return [*finding_lines(level, found.findings, most), *warned_lines(found.warned, most)]


def judged(asked: Asked, level: Level, listed: list[Entry]) -> Judged:
    """A level by what is asked. The entries are those of the files in which the game finds
    textures and flats."""
    findings = {code: where for code, where in level.findings.items() if code not in asked.ignored}
    if not asked.map:
        return Judged(findings, {}, [], {})
    warned = {code: told for code, told in warnings(level, listed).items() if code not in asked.ignored}
    codes = [code for code in unlooked(level, listed) if code not in asked.ignored]
    lacking = {code: names for code, names in unlisted(listed).items() if code not in asked.ignored}
    return Judged(findings, warned, codes, lacking)


def fails(asked: Asked, found: Judged) -> bool:
    """Whether something that is told is as grave as a fault."""
    told = [code for part in (found.findings, found.warned) for code, where in part.items() if where]
    return any(code in asked.failing or asked.strict and code[0] == "W" for code in told) or (asked.game and ends_game(found))


def ends_game(found: Judged) -> bool:
    """Whether the game ends at something that is told. It never uses the deathmatch starts that are too many."""
    limits = [warned for warned in found.warned.get("W22", ()) if "deathmatch starts" not in warned.message]
    return bool(limits) or any(code in found.findings or code in found.warned for code in ENDING)


def judge(run: Run, asked: Asked, level: Level, listed: list[Entry]) -> Judged:
    """A level of a file with these entries, by what is asked, counted."""
    found = judged(asked, level, run.base + listed)
    warned = sum(len(all_told) for all_told in found.warned.values())
    run.faults += level.faults
    run.notes += found.notes
    run.warnings += warned
    run.partly += bool(found.unlooked)
    run.unlooked |= {*found.unlooked}
    run.unlisted = merged(run.unlisted, found.unlisted)
    run.finds(FAULTY if level.faults or fails(asked, found) else CLEAN)
    return found


def check_file(run: Run, asked: Asked, path: str, listed: list[Entry]) -> None:
    for g in range(len(listed)):
        if not is_start(listed, g):
            continue
        name = shown(listed[g].name)
        front = Front(path, label_of(listed, g), name, g, asked.json)
        form = format_of(listed, g)
        run.levels += 1
        if form.name != "doom":
            if asked.json:
                run.out.append(written(level_front(path, name, g, form)))
            else:
                front.tell(run, form.words)
            if told := order_words(listed, g, form):
                front.tell(run, told)
            run.unjudged += 1
            run.finds(form.verdict)
            continue
        level = Level(listed, g, asked.wide)
        found = judge(run, asked, level, listed)
        if told := unbuilt_words(level):
            front.tell(run, told)
        for line in found_lines(level, found, asked.most):
            front.tell(run, line)
        check_unlooked(run, front, level, found.unlooked)
        if level.faults and not Level(listed, g, True).faults:
            front.tell(run, "sound with --wide")


def merged(one: dict[str, list[str]], other: dict[str, list[str]]) -> dict[str, list[str]]:
    """What lacks for the codes of the one, or of the other, in their order."""
    together = {code: {*one.get(code, ()), *other.get(code, ())} for code in WANTS}
    return {code: [name for name in WANTS[code] if name in together[code]] for code in WANTS if together[code]}


def unlooked_note(unlisted: dict[str, list[str]]) -> str:
    """Which codes weren't looked for, and what no file has, each name once."""
    lacking = ", ".join(dict.fromkeys(name for names in unlisted.values() for name in names))
    return f"{', '.join(unlisted)} weren't looked for: no file has {lacking}; name the game's with --base"


def unlooked_line(unlisted: dict[str, list[str]]) -> str:
    return f"wadlens: {unlooked_note(unlisted)}"


def totals(run: Run, asked: Asked, files: int) -> str:
    if asked.json:
        members: dict[str, object] = {"levels": run.levels, "files": files}
        members |= {"faults": run.faults, "notes": run.notes}
        members |= {"warnings": run.warnings} if asked.map else {}
        members |= {"not_judged": run.unjudged}
        codes = sorted(run.unlooked, key=lambda code: int(code[1:]))
        return written(members | ({"unlooked_levels": run.partly, "unlooked": codes} if codes else {}))
    found = f"{run.faults} faults, {run.notes} notes, "
    found += f"{run.warnings} warnings, " if asked.map else ""
    found += f"{run.unjudged} not judged"
    found += f", {run.partly} with warnings not looked for" if run.partly else ""
    return f"{run.levels} levels in {files} files: {found}"


# ---- survey --------------------------------------------------------------------------


def string(text: str) -> str:
    """A string of JSON, in which no more is escaped than has to be, and what isn't UTF-8
    stands as U+FFFD."""
    text = text.encode(errors="surrogateescape").decode(errors="replace")
    escaped = {'"': '\\"', "\\": "\\\\"}
    told = [f"\\u{ord(one):04x}" if ord(one) < 32 else escaped.get(one, one) for one in text]
    return '"' + "".join(told) + '"'


def value_text(value: object) -> str:
    if isinstance(value, dict):
        return written(value)
    if isinstance(value, list):
        return "[" + ",".join(map(value_text, value)) + "]"
    if isinstance(value, bool):
        return "true" if value else "false"
    return string(value) if isinstance(value, str) else str(value)


def written(members: dict[str, object]) -> str:
    """An object in one line without blanks."""
    return "{" + ",".join(f"{string(name)}:{value_text(value)}" for name, value in members.items()) + "}"


def level_members(level: Level, found: Judged) -> dict[str, object]:
    members: dict[str, object] = {name.decode().lower(): len(table) for name, table in zip(USUAL, level.tables)}
    members["reject"] = len(level.reject)
    members["blockmap"] = len(level.blockmap)
    members["sound"] = level.faults == 0
    members["faults"] = level.faults
    members["notes"] = found.notes
    members["findings"] = {code: len(where) for code, where in found.findings.items()}
    return members


def warned_members(found: Judged) -> dict[str, object]:
    """What stands behind these of a level where warnings are asked for."""
    members: dict[str, object] = {"warnings": {code: len(told) for code, told in found.warned.items()}}
    return members | ({"unlooked": found.unlooked} if found.unlooked else {})


def level_front(path: str, name: str, g: int, form: Format) -> dict[str, object]:
    """What the object of a level begins with, which is all of one that isn't judged."""
    members: dict[str, object] = {"file": path, "level": name, "entry": g}
    members["format"] = form.name
    if form.told_by:
        members["tag" if form.name == "extended" else "lump"] = form.told_by
    return members | ({"broken": form.broken} if form.broken else {})


def survey_file(run: Run, asked: Asked, path: str, listed: list[Entry]) -> None:
    for g in range(len(listed)):
        if not is_start(listed, g):
            continue
        form = format_of(listed, g)
        members = level_front(path, shown(listed[g].name), g, form)
        if form.name == "doom":
            level = Level(listed, g, asked.wide)
            found = judge(run, asked, level, listed)
            members |= level_members(level, found) | (warned_members(found) if asked.map else {})
        else:
            run.finds(form.verdict)
        run.out.append(written(members))


# ---- cut -----------------------------------------------------------------------------


def belonging(listed: list[Entry], g: int, form: Format) -> int | None:
    """How many entries behind a level's label belong to it; none without an ENDMAP."""
    behind = [entry.name for entry in listed[g + 1 :]]
    if form.name == "udmf":
        return behind.index(b"ENDMAP", 1) + 1 if b"ENDMAP" in behind[1:] else None
    if form.name == "hexen":
        return 12 if behind[11:12] == [b"SCRIPTS"] else 11
    return 10


def cut(run: Run, asked: Asked, path: str, listed: list[Entry]) -> None:
    g = asked.entry if asked.entry is not None else winner(listed, asked.name.encode())
    if g is None:
        run.refuses(f"{path}: {asked.name}", "no level of this name")
        return
    if not is_start(listed, g):
        run.refuses(path, f"no level starts at entry {g}")
        return
    form, front = format_of(listed, g), f"{path}: {label_of(listed, g)}"
    if form.name == "incomplete":
        run.refuses(front, form.words, form.verdict)
        return
    count = belonging(listed, g, form)
    if count is None:
        run.refuses(front, "udmf: no ENDMAP")
        return
    parts = [(listed[g].name, b"")]
    for entry in listed[g + 1 : g + 1 + count]:
        data = lump(entry)
        if data is None:
            run.refuses(front, f"outside: {shown(entry.name)}", FAULTY)
            return
        parts.append((entry.name, data))
    run.data = packed(parts)


# ---- demos ---------------------------------------------------------------------------


def demo_object(path: str, name: bytes | None, demo: later.LaterDemo) -> str:
    lump_member = {} if name is None else {"lump": shown(name)}
    return written({"file": path, **lump_member, **later.members(demo)})


def refuse_demo(run: Run, asked: Asked, path: str, name: bytes | None, why: str) -> None:
    run.refuses(path if name is None else f"{path}: {shown(name)}", why)
    if asked.json:
        lump_member = {} if name is None else {"lump": shown(name)}
        run.out.append(written({"file": path, **lump_member, "refused": why}))


def tell_demo(run: Run, asked: Asked, path: str, name: bytes | None, data: bytes) -> None:
    front = shown_path(path) if name is None else f"{shown_path(path)}: {shown(name)}"
    try:
        demo = later.read(data)
    except later.NoDemo as why:
        refuse_demo(run, asked, path, name, str(why))
    else:
        run.out.append(demo_object(path, name, demo) if asked.json else f"{front}: {later.line(demo)}")


def tell_demos(run: Run, asked: Asked, path: str, listed: list[Entry]) -> None:
    for entry in listed:
        if not entry.name.startswith(b"DEMO") or entry.size == 0:
            continue
        data = lump(entry)
        if data is None:
            refuse_demo(run, asked, path, entry.name, "outside its file")
        else:
            tell_demo(run, asked, path, entry.name, data)


# ---- The program ---------------------------------------------------------------------

TELLS = {
    "check": check_file,
    "survey": survey_file,
    "cut": cut,
    "demos": tell_demos,
}


def refuse_file(run: Run, asked: Asked, path: str, why: str) -> None:
    run.refuses(path, why)
    if asked.command == "survey" or (asked.command in ("check", "demos") and asked.json):
        run.out.append(written({"file": path, "refused": why}))


def unread(path: str, held: Files) -> str:
    """Why what is held under a path has no bytes; nothing where it has some. What isn't
    UTF-8 isn't opened."""
    if path not in held or not is_text(path):
        return "can't be opened"
    return "can't be read" if held[path] is None else ""


def untaken(path: str, held: Files) -> str:
    """Why what is held under a path isn't taken as a WAD file; nothing where it is."""
    return unread(path, held) or FILE_REFUSALS.get(refusal(held[path] or b""), "")


def base_of(asked: Asked, held: Files) -> list[Entry]:
    """The entries of the base files, all of which are taken."""
    return joined([held[path] or b"" for path in asked.bases])


def run(asked: Asked, held: Files) -> Answer:
    """What is told of files by their paths, one after another."""
    told = Run(base_of(asked, held))
    for path in asked.paths:
        file = held.get(path) or b""
        is_demo = asked.command == "demos" and file[:4] not in (b"IWAD", b"PWAD")
        why = unread(path, held) if is_demo else untaken(path, held)
        if why:
            refuse_file(told, asked, path, why)
        elif is_demo:
            tell_demo(told, asked, path, None, file)
        else:
            TELLS[asked.command](told, asked, path, entries(file))
    if asked.command == "check":
        told.out.append(totals(told, asked, len(asked.paths)))
        told.errors += [unlooked_line(told.unlisted)] if told.unlisted else []
    return told.answer()
