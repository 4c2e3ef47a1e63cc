"""The page of an atlas, read as a browser reads it: its texts in their order, and the tags
with what they show and lead to. How it is laid out isn't compared."""

from html.parser import HTMLParser
from typing import NamedTuple

from plain.lens import CLEAN, FAULTY, UNJUDGED, Asked, Format, merged, placed, shown_path, unlooked_note
from plain.levels import Level
from plain.wads import USUAL

LAYOUT = "html head meta body header main ul ol div p span h1 b style".split()
HARMLESS = ("class", "lang", "charset", "name", "content")
FETCHING = ("url(", "@import", "image-set(")
MEANINGS = {
    "F1": "a lump isn't there behind the label",
    "F2": "a lump isn't inside its file",
    "F3": "a linedef's vertex isn't there",
    "F4": "a linedef's sidedef isn't there",
    "F5": "a sidedef's sector isn't there",
    "F6": "a seg's vertex isn't there",
    "F7": "a seg's linedef isn't there",
    "F8": "a seg's side is neither 0 nor 1",
    "F9": "a seg's linedef has no sidedef on the seg's side",
    "F10": "an ssector's segs aren't all there",
    "F11": "a node's child isn't there",
    "F12": "a node's origin is outside -16384 to 16383",
    "F13": "a node is named more than once, or is the root and named",
    "F14": "a node isn't reached from the root",
    "F15": "an ssector is named more than once",
    "F16": "an ssector isn't reached from the root",
    "F17": "the level has no ssector",
    "F18": "the level has more than 32767 nodes",
    "N1": "a lump's name isn't the usual one",
    "N2": "a lump has bytes left over",
    "N3": "a linedef is two-sided, without a back sidedef",
    "N4": "a linedef is without a front sidedef",
    "N5": "a linedef is without length",
    "N6": "an ssector is without segs",
    "N7": "a node is without direction",
    "N8": "REJECT hasn't as many bytes as are wanted",
    "N9": "BLOCKMAP hasn't as many words as are wanted",
    "N10": "a block's list isn't inside BLOCKMAP, or has no end",
    "N11": "the level has no player 1 start",
    "N12": "a vertex is outside -16384 to 16383",
    "W1": "a sector isn't closed: its outline has a gap or an extra line",
    "W2": "a texture that is seen is missing",
    "W3": "a thing stands in the void",
    "W4": "a linedef's special goes by a tag that no sector has",
    "W5": "the segs of an ssector face several sectors",
    "W6": "a linedef lies on another",
    "W7": "a start of players 2 to 4 is missing",
    "W8": "the level has fewer than 4 deathmatch starts",
    "W9": "a texture isn't there: neither TEXTURE1 nor TEXTURE2 lists it",
    "W10": "a flat isn't there: no entry has its name",
    "W11": "a thing's type is none of the game's",
    "W14": "a linedef's special is none of the game's",
    "W15": "a linedef's special goes by the tag, and the tag is 0",
    "W16": "a linedef's special can't be crossed, or has no destination",
    "W17": "a linedef's use ends or spoils the game",
    "W18": "a player on a sector's floor ends the game",
    "W19": "the level has no exit, or a key isn't there",
    "W21": "a thing ends the reading of things, is in no skill, or ends the game",
    "W22": "the level passes a limit of the game, or a texture lacks a patch",
    "W25": "a flat isn't between F_START and F_END",
}
"""What the legend says of each code."""
KINDS = {"F": "fault", "N": "note", "W": "warning"}
"""What a code is, by its letter."""
AROUND = 256
"""How far what a link shows goes beyond its place, in map units."""
MARKS = {CLEAN: "sound", UNJUDGED: "unread", FAULTY: "faulty"}


class Row(NamedTuple):
    """A level, its picture's name where it has one, and where it is judged what it holds and
    what isn't ignored of it, and if warnings are asked for how many of each code it has, and
    which weren't
    looked for, as no file lists the names. The messages are what a check tells of it behind its
    label."""

    path: str
    entry: int
    name: str
    form: Format
    picture: str = ""
    level: Level | None = None
    findings: dict[str, list[int]] | None = None
    fails: bool = False
    warned: dict[str, int] | None = None
    unlisted: dict[str, list[str]] = {}
    messages: list[str] | None = None

    @property
    def verdict(self) -> int:
        if self.level is None:
            return self.form.verdict
        return FAULTY if self.level.faults or self.fails else CLEAN


# ---- A page as its events ------------------------------------------------------------


def text(told: str) -> str:
    return ascii(told.strip(" \n"))


def tag(name: str, **values: str) -> str:
    told = [f"{key}={values[key]!a}" for key in sorted(values)]
    return " ".join([f"<{name}>", *told])


class Reader(HTMLParser):
    """Reads a page into events."""

    def __init__(self) -> None:
        super().__init__()
        self.events: list[str] = []
        self.text = ""
        self.within = ""

    def ends_text(self) -> None:
        if self.within == "style":
            self.events += [mark for mark in FETCHING if mark in self.text]
        elif self.text.strip(" \n"):
            self.events.append(text(self.text))
        self.text = ""

    def handle_starttag(self, name: str, pairs: list[tuple[str, str | None]]) -> None:
        self.ends_text()
        self.within = name
        values = {key: value or "" for key, value in pairs}
        if name not in LAYOUT or not set(values) <= set(HARMLESS):
            self.events.append(tag(name, **values))

    def handle_endtag(self, name: str) -> None:
        self.ends_text()
        self.within = ""

    def handle_data(self, data: str) -> None:
        self.text += data


def events_of(page: bytes) -> bytes:
    """The events of a page, one a line."""
    reader = Reader()
    reader.feed(page.decode(errors="surrogateescape"))
    reader.close()
    reader.ends_text()
    return lines(reader.events)


def lines(events: list[str]) -> bytes:
    return "".join(event + "\n" for event in events).encode()


# ---- The page that is wanted ---------------------------------------------------------


def number(count: int, what: str) -> list[str]:
    return [tag("li"), text(str(count)), text(what)]


def notes_in(findings: dict[str, list[int]]) -> int:
    return sum(len(where) for code, where in findings.items() if code[0] == "N")


def total_events(rows: list[Row], files: int, mapped: bool) -> list[str]:
    judged = [row.level for row in rows if row.level is not None]
    warned = sum(sum(row.warned.values()) for row in rows if row.warned)
    return [
        *number(len(rows), "levels"),
        *number(files, "files"),
        *number(sum(level.faults for level in judged), "faults"),
        *number(sum(notes_in(row.findings or {}) for row in rows), "notes"),
        *(number(warned, "warnings") if mapped else []),
        *number(len(rows) - len(judged), "not judged"),
    ]


def level_events(row: Row, level: Level) -> list[str]:
    """The codes that hold, with how often, those of warnings behind them, the first messages,
    and how many records there are."""
    events = [] if row.verdict == FAULTY else [tag("li", **{"class": "sound"}), text("sound")]
    counts = {code: len(where) for code, where in (row.findings or {}).items()} | (row.warned or {})
    for code, count in counts.items():
        events += [tag("li", **{"class": KINDS[code[0]]}), text(f"{code} × {count}")]
    events += message_events(row, level)
    for name, table in zip(USUAL, level.tables):
        events += number(len(table), name.decode().lower())
    return events


def ends_of(level: Level, line: str) -> list[list[int]]:
    """The two ends of the place that a message names; nothing where they aren't known."""
    match placed(line)[1].get("place"):
        case {"at": [int(x), int(y)]}:
            return [[x, y], [x, y]]
        case {"from": [int(x0), int(y0)], "to": [int(x1), int(y1)]}:
            return [[x0, y0], [x1, y1]]
        case {"linedef": int(n)}:
            ends = level.vertex(level.linedefs[n].v1), level.vertex(level.linedefs[n].v2)
            return [[end.x, end.y] for end in ends if end is not None] if None not in ends else []
    return []


def view_of(ends: list[list[int]]) -> str:
    """The part of a picture about a place."""
    across, up = ([end[i] for end in ends] for i in (0, 1))
    corner = min(across) - AROUND, -max(up) - AROUND
    size = (max(along) - min(along) + 2 * AROUND for along in (across, up))
    return f"#svgView(viewBox({','.join(map(str, (*corner, *size)))}))"


def message_events(row: Row, level: Level) -> list[str]:
    """Each message, within a link to its place in the picture."""
    events = []
    for line in row.messages or []:
        events.append(tag("li", **{"class": KINDS[line[0]]}))
        if row.picture and (ends := ends_of(level, line)):
            events.append(tag("a", href=row.picture + view_of(ends)))
        events.append(text(line))
    return events


def row_events(row: Row) -> list[str]:
    events = [tag("li", **{"class": MARKS[row.verdict]})]
    if row.picture:
        events.append(tag("a", **{"class": "map"}, href=row.picture))
        alt = f"map of {row.name}"
        events.append(tag("img", loading="lazy", src=row.picture, alt=alt))
    else:
        events.append(text("no picture"))
    events += [tag("h2")] + ([text(row.name)] if row.name else [])
    events += [text(shown_path(row.path)), text(f"entry {row.entry}, {row.form.name}")]
    if row.level is None:
        return [*events, text(row.form.words)]
    return [*events, *level_events(row, row.level)]


def is_found(code: str, row: Row) -> bool:
    return code in (row.findings or {}) or code in (row.warned or {})


def legend_events(rows: list[Row]) -> list[str]:
    """What each code means that is found at some level."""
    events = []
    for code, meaning in MEANINGS.items():
        if any(is_found(code, row) for row in rows):
            events += [tag("li", **{"class": KINDS[code[0]]}), text(code), text(meaning)]
    return events


def wanted(asked: Asked, rows: list[Row], refused: list[tuple[str, str]]) -> bytes:
    """The events of the page that is asked for, with these rows and refused files: those with a
    fault first."""
    title = shown_path(asked.title)
    events = [tag("title"), text(f"{title}: {len(rows)} levels in {len(asked.paths)} files")]
    events += [text(shown) for shown in (title, shown_path(asked.day)) if shown]
    events += total_events(rows, len(asked.paths), asked.map)
    unlisted: dict[str, list[str]] = {}
    for row in rows:
        unlisted = merged(unlisted, row.unlisted)
    if unlisted:
        events.append(text(unlooked_note(unlisted)))
    events += legend_events(rows)
    for path, why in refused:
        events += [tag("li"), text(shown_path(path)), text(why)]
    for faulty in (True, False):
        for row in rows:
            if (row.verdict == FAULTY) == faulty:
                events += row_events(row)
    return lines(events)
