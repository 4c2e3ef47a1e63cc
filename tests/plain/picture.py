"""Pictures of levels, read plainly: Frame, Grid, Blocks and Groups of `map_cells`, and
Picture, Window, Grey, Lines and Escape of `map_picture` in docs/DEFINITIONS.md."""

import re
from itertools import count, groupby, takewhile
from typing import NamedTuple

from plain.levels import Level, LineDef, Sector, Seg, Thing
from plain.look import TEXTS, audit_text
from plain.wads import shown
from plain.warnings import Warned

MARGIN = 32
CELLS = 512
LONGEST = 1024
"""How many pixels the longer side of a picture has by itself."""
STYLE = (
    "svg{background:#14161a}"
    "path{vector-effect:non-scaling-stroke}"
    ".s{shape-rendering:crispEdges}"
    ".s path:hover{fill:#fb5}"
    ".w{fill:none;stroke:#eee;stroke-width:1.5}"
    ".t{fill:none;stroke:#778;stroke-width:.7}"
    ".f{fill:none;stroke:#f33;stroke-width:4}"
    ".a{fill:none;stroke:#fb3;stroke-width:3}"
    ".p{vector-effect:none;stroke:#14161a;stroke-width:5;paint-order:stroke}"
    ".start{fill:#6f6}"
    ".monster{fill:#f7b}"
    ".weapon{fill:#5cf}"
    ".key{fill:#ff5}"
    ".other{fill:#cba}"
    ".p:hover{fill:#fff}"
)
MARKED_LINEDEFS = ("F4", "N3", "N4", "N5")
MARKED_SEGS = ("F7", "F8", "F9")
MARKED_WARNINGS = {
    "W1": "sector not closed",
    "W2": "wall without texture",
    "W3": "thing in the void",
    "W6": "linedef on another",
    "W11": "thing of no known type",
    "W14": "unknown special",
    "W15": "special with tag 0",
    "W16": "special that acts on nothing",
    "W17": "use ends or spoils the game",
    "W21": "thing unread, unplaced or deadly",
}
RING = "m-24 0a24 24 0 1 0 48 0a24 24 0 1 0-48 0"
DART = "M20 0L-12 14v-28z"
CLASSES = {
    "start": {1, 2, 3, 4, 11},
    "monster": {7, 9, 16, 58, 64, 65, 66, 67, 68, 69, 71, 72, 84, 3001, 3002, 3003, 3004, 3005, 3006},
    "weapon": {82, 2001, 2002, 2003, 2004, 2005, 2006},
    "key": {5, 6, 13, 38, 39, 40},
}
"""Kinds of things by what they are; each other kind is of the class `other`."""


class Frame(NamedTuple):
    """The least and the greatest x and y of what is drawn."""

    x0: int
    y0: int
    x1: int
    y1: int


class Block(NamedTuple):
    """Cells that show one sector: the first column and row, and how many of both."""

    sector: int
    column: int
    row: int
    width: int
    height: int


class Run(NamedTuple):
    """Cells of a row that show one sector, as many as there are side by side."""

    sector: int
    column: int
    width: int


Rows = list[list[int | None]]
"""For each cell of each row the sector that is shown there, or nothing."""


def escaped(text: str) -> str:
    """A text without markup."""
    for mark, name in (("&", "amp"), ("<", "lt"), (">", "gt"), ('"', "quot")):
        text = text.replace(mark, f"&{name};")
    return text


# ---- Cells ---------------------------------------------------------------------------


def frame_of(level: Level) -> Frame | None:
    """What holds the ends of all linedefs that have both; nothing where none has."""
    drawn = [linedef for linedef in level.linedefs if not level.lacks_vertex(linedef)]
    if not drawn:
        return None
    ends = [level.vertexes[v] for linedef in drawn for v in (linedef.v1, linedef.v2)]
    across, up = zip(*ends)
    return Frame(min(across), min(up), max(across), max(up))


def cell_size(frame: Frame, cells: int) -> int:
    """The least size at which so many cells hold the units of the longer side."""
    units = max(frame.x1 - frame.x0, frame.y1 - frame.y0) + 1
    return next(size for size in count(1) if size * cells >= units)


def rows_of(level: Level, frame: Frame, size: int) -> Rows:
    """What each cell shows; of a level that isn't sound there are no cells."""
    if level.faults:
        return []
    columns = [x + size // 2 for x in range(frame.x0, frame.x1 + 1, size)]
    rows = [y + size // 2 for y in range(frame.y0, frame.y1 + 1, size)]
    return [[level.shown(x, y) for x in columns] for y in rows]


def runs_of(row: list[int | None]) -> list[Run]:
    runs = []
    for sector, cells in groupby(range(len(row)), key=lambda column: row[column]):
        columns = list(cells)
        if sector is not None:
            runs.append(Run(sector, columns[0], len(columns)))
    return runs


def blocks_of(rows: Rows) -> list[Block]:
    """All blocks, by row and then by column."""
    runs = [runs_of(row) for row in rows]
    blocks = []
    for j, own in enumerate(runs):
        for run in own:
            if j == 0 or run not in runs[j - 1]:
                same = takewhile(lambda other: run in other, runs[j:])
                blocks.append(Block(run.sector, run.column, j, run.width, len([*same])))
    return blocks


# ---- Lines ---------------------------------------------------------------------------


def view(frame: Frame) -> list[int]:
    """The frame with a margin, y going down: left, top, width and height."""
    width, height = frame.x1 - frame.x0, frame.y1 - frame.y0
    left, top = frame.x0 - MARGIN, -frame.y1 - MARGIN
    return [left, top, width + 2 * MARGIN, height + 2 * MARGIN]


def grey(light: int) -> str:
    tone = 40 + min(max(light, 0), 255) * 140 // 255
    return f"#{tone:02x}{tone:02x}{tone + 20:02x}"


def sector_line(index: int, sector: Sector, blocks: list[Block]) -> str:
    paths = [f"M{block.column} {block.row}h{block.width}v{block.height}h-{block.width}z" for block in blocks]
    cells = sum(block.width * block.height for block in blocks)
    floor, ceiling = (
        f"{height} {escaped(shown(flat))}"
        for height, flat in (
            (sector.floor, sector.floor_name),
            (sector.ceiling, sector.ceiling_name),
        )
    )
    title = f"sector {index}: floor {floor}, ceiling {ceiling}, light {sector.light}"
    title += f", special {sector.special}, tag {sector.tag}, {cells} cells"
    fill = grey(sector.light)
    return f'<path fill="{fill}" d="{"".join(paths)}"><title>{title}</title></path>'


def sector_lines(level: Level, blocks: list[Block]) -> list[str]:
    """A line for each sector that is shown."""
    return [
        sector_line(s, sector, [block for block in blocks if block.sector == s])
        for s, sector in enumerate(level.sectors)
        if any(block.sector == s for block in blocks)
    ]


def path(level: Level, record: LineDef | Seg) -> str:
    """The way from end to end; nothing where one of them isn't there."""
    start, end = level.vertex(record.v1), level.vertex(record.v2)
    if start is None or end is None:
        return ""
    return f"M{start.x} {start.y}L{end.x} {end.y}"


def line_lines(level: Level) -> list[str]:
    """The linedefs with two sides, and the others."""
    two = [linedef for linedef in level.linedefs if linedef.side1 != level.none]
    others = [linedef for linedef in level.linedefs if linedef.side1 == level.none]
    return [
        f'<path class="{name}" d="{"".join(path(level, one) for one in drawn)}"/>' for name, drawn in (("t", two), ("w", others))
    ]


def ring(level: Level, linedef: LineDef) -> str:
    """A ring at the only end that is there; nothing where both are there, or none."""
    start, end = level.vertex(linedef.v1), level.vertex(linedef.v2)
    if (start is None) == (end is None):
        return ""
    lone = start or end
    return f"M{lone.x} {lone.y}{RING}" if lone else ""


def mark_lines(level: Level) -> list[str]:
    """The linedefs and segs with findings, in the order of the report."""
    lines = []
    for code, where in level.findings.items():
        for i in where:
            way = ""
            if code == "F3":
                way = ring(level, level.linedefs[i])
            if code in MARKED_LINEDEFS:
                way = path(level, level.linedefs[i])
            if code in MARKED_SEGS:
                way = path(level, level.segs[i])
            if way:
                title = escaped(f"{code} {i} {TEXTS[code]}")
                lines.append(f'<path class="f" d="{way}"><title>{title}</title></path>')
    return lines


def warning_line(code: str, told: Warned) -> str:
    """A line from place to place, or a ring at the only place."""
    x, y, *end = re.findall(r"-?\d+", told.place)
    way = f"M{x} {y}L{end[0]} {end[1]}" if end else f"M{x} {y}{RING}"
    title = f"{code} {told.index.split(' ')[1]} {MARKED_WARNINGS[code]}"
    return f'<path class="a" d="{way}"><title>{title}</title></path>'


def warning_lines(warned: dict[str, list[Warned]]) -> list[str]:
    """The warnings of each code that is marked."""
    return [warning_line(code, told) for code in MARKED_WARNINGS for told in warned.get(code, [])]


def thing_line(index: int, thing: Thing) -> str:
    title = f"thing {index}: type {thing.kind}, angle {thing.angle}"
    title += f", flags {thing.options}"
    name = next((name for name, kinds in CLASSES.items() if thing.kind in kinds), "other")
    turn = 45 * int(thing.angle / 45)
    place = f'transform="translate({thing.x} {thing.y})rotate({turn})" d="{DART}"'
    return f'<path class="p {name}" {place}><title>{title}</title></path>'


def picture(level: Level, cells: int, frame: Frame | None, warned: dict[str, list[Warned]] | None = None) -> list[str] | None:
    """The lines of a picture with these warnings, in the frame that is asked for or the level's
    own; nothing where it has none."""
    frame = frame or frame_of(level)
    if frame is None:
        return None
    size = cell_size(frame, cells)
    left, top, width, height = view(frame)
    across, down = (-(-side * LONGEST // max(width, height)) for side in (width, height))
    label, found = escaped(shown(level.names[0])), audit_text(level.findings)[-1]
    ground = f'x="{left}" y="{top}" width="{width}" height="{height}"'
    matrix = f"matrix({size} 0 0 {-size} {frame.x0} {-frame.y0})"
    return [
        f'<svg xmlns="http://www.w3.org/2000/svg" viewBox="{left} {top} {width} {height}" width="{across}" height="{down}">',
        f"<title>{label}: {found}</title>",
        f"<style>{STYLE}</style>",
        f'<rect {ground} fill="#14161a"/>',
        f'<g class="s" transform="{matrix}">',
        *sector_lines(level, blocks_of(rows_of(level, frame, size))),
        '</g><g transform="matrix(1 0 0 -1 0 0)">',
        *line_lines(level),
        *mark_lines(level),
        *warning_lines(warned or {}),
        *(thing_line(i, thing) for i, thing in enumerate(level.things)),
        "</g></svg>",
    ]
