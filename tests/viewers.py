"""viewers.py ROOT GAMES FOLDER ROOM: see tests/viewers."""

import shutil
import struct
import subprocess
import sys
import zlib
from collections.abc import Callable, Iterator
from pathlib import Path
from typing import NamedTuple

from harness import PROGRAMS, add_up, check, skipped

WIDTH = 1000
"""How wide the pictures are shown, in pixels."""
PLACES = 10
CLEAR = 48
"""How far a place is from each linedef and each thing, in map units, so that neither covers it."""
FREE = 20
"""The same in the sample, which is smaller."""

Rows = dict[str, list[list[str]]]


class Image(NamedTuple):
    width: int
    height: int
    channels: int
    rows: list[bytes]

    def at(self, x: int, y: int) -> tuple[int, ...]:
        start = x * self.channels
        return tuple(self.rows[y][start : start + 3])


class Place(NamedTuple):
    x: int
    y: int
    light: int


# ---- Levels --------------------------------------------------------------------------


def ask(program: Path, words: list[str], given: str = "") -> str:
    return subprocess.run([program, *words], input=given, capture_output=True, text=True, check=True).stdout


def tables(shown: str) -> Rows:
    """The tables of `show`, each record without its number."""
    found: Rows = {}
    rows: list[list[str]] = []
    for line in shown.splitlines():
        words = line.split(" ")
        if len(words) == 4 and words[2] == "rest":
            rows = found.setdefault(words[0], [])
        elif words[0].isdigit():
            rows.append(words[1:])
    return found


def distance(x: int, y: int, ax: int, ay: int, bx: int, by: int) -> float:
    """How far a place is from a line from a to b."""
    dx, dy = bx - ax, by - ay
    along = ((x - ax) * dx + (y - ay) * dy) / (dx * dx + dy * dy) if dx or dy else 0
    along = max(0.0, min(1.0, along))
    return float(((ax + along * dx - x) ** 2 + (ay + along * dy - y) ** 2) ** 0.5)


def places(look: Path, name: str, wad: Path, clear: int, step: int) -> Iterator[Place]:
    """Places inside the walls that neither a linedef nor a thing covers, with the lights of their sectors."""
    rows = tables(ask(look, ["show", name, str(wad)]))
    vertexes = [(int(row[0]), int(row[1])) for row in rows["VERTEXES"]]
    lines = [(*vertexes[int(row[0])], *vertexes[int(row[1])]) for row in rows["LINEDEFS"]]
    segs = [(*vertexes[int(row[0])], *vertexes[int(row[1])]) for row in rows["SEGS"]]
    leaves = [(int(row[0]), int(row[1])) for row in rows["SSECTORS"]]
    things = [(int(row[0]), int(row[1])) for row in rows["THINGS"]]
    xs, ys = [line[k] for line in lines for k in (0, 2)], [line[k] for line in lines for k in (1, 3)]
    grid = [
        (x, y)
        for y in range(min(ys) - clear - 1, max(ys) + clear + 2, step)
        for x in range(min(xs) - clear - 1, max(xs) + clear + 2, step)
    ]
    answers = ask(look, ["points", name, str(wad)], "".join(f"{x} {y}\n" for x, y in grid)).splitlines()
    for (x, y), answer in zip(grid, answers, strict=True):
        sector, leaf = int(answer.split(" ")[3]), int(answer.split(" ")[5])
        count, first = leaves[leaf]
        inside = all((by - ay) * (x - ax) - (bx - ax) * (y - ay) >= 0 for ax, ay, bx, by in segs[first : first + count])
        free = all(distance(x, y, *line) >= clear for line in lines) and all(
            abs(x - tx) + abs(y - ty) >= 2 * clear for tx, ty in things
        )
        if inside and free:
            yield Place(x, y, int(rows["SECTORS"][sector][4]))


def spread(all_places: list[Place]) -> list[Place]:
    """Ten of them: those of many lights first, and then from all over the level."""
    lights: dict[int, Place] = {}
    for place in all_places:
        lights.setdefault(place.light, place)
    chosen = list(lights.values())[:PLACES]
    others = [place for place in all_places if place not in chosen]
    wanted = PLACES - len(chosen)
    return chosen + [others[k * len(others) // wanted] for k in range(wanted)]


# ---- Viewers -------------------------------------------------------------------------


def decoded(path: Path) -> Image:
    """A PNG file of eight bits a channel."""
    data, at, packed = path.read_bytes(), 8, b""
    width = height = channels = 0
    while at < len(data):
        size, kind = struct.unpack_from(">I4s", data, at)
        if kind == b"IHDR":
            width, height, depth, colour = struct.unpack_from(">IIBB", data, at + 8)
            channels = {(8, 2): 3, (8, 6): 4}[depth, colour]
        elif kind == b"IDAT":
            packed += data[at + 8 : at + 8 + size]
        at += size + 12
    raw, stride = zlib.decompress(packed), width * channels
    rows: list[bytes] = []
    above = bytes(stride)
    for y in range(height):
        start = y * (stride + 1)
        above = bytes(unfiltered(raw[start], raw[start + 1 : start + 1 + stride], above, channels))
        rows.append(above)
    return Image(width, height, channels, rows)


def unfiltered(kind: int, line: bytes, above: bytes, channels: int) -> bytearray:
    """A row of a PNG, from what is kept of it and the row above (RFC 2083, 6)."""
    row = bytearray(line)
    for k in range(len(row)):
        left = row[k - channels] if k >= channels else 0
        corner = above[k - channels] if k >= channels else 0
        match kind:
            case 1:
                row[k] = row[k] + left & 255
            case 2:
                row[k] = row[k] + above[k] & 255
            case 3:
                row[k] = row[k] + (left + above[k]) // 2 & 255
            case 4:
                guess = left + above[k] - corner
                nearest = min((left, above[k], corner), key=lambda value: abs(guess - value))
                row[k] = row[k] + nearest & 255
    return row


def by_rsvg(program: str, picture: Path, width: int, height: int, shown: Path) -> None:
    subprocess.run([program, "-w", str(width), "-h", str(height), "-o", shown, picture], check=True, timeout=120)


def by_chromium(program: str, picture: Path, width: int, height: int, shown: Path) -> None:
    page = picture.with_suffix(".html")
    style = f"position:absolute;left:0;top:0;width:{width}px;height:{height}px"
    page.write_text(f'<!DOCTYPE html><title>picture</title><img style="{style}" src="{picture.name}">')
    options = ["--headless", "--no-sandbox", "--disable-gpu", "--hide-scrollbars", "--force-device-scale-factor=1"]
    window = f"--window-size={width},{height + 200}"
    profile = f"--user-data-dir={picture.with_suffix('.profile')}"
    subprocess.run(
        [program, *options, window, profile, f"--screenshot={shown}", page.as_uri()], check=True, timeout=120, capture_output=True
    )


class Viewer(NamedTuple):
    names: list[str]
    """Those of its program, of which the first that is there is taken."""
    shows: Callable[[str, Path, int, int, Path], None]


VIEWERS = {
    "chromium": Viewer(["chromium", "chromium-browser", "google-chrome", "google-chrome-stable"], by_chromium),
    "rsvg-convert": Viewer(["rsvg-convert"], by_rsvg),
}


def programs() -> dict[str, str]:
    """The program of each viewer that is there."""
    paths = {viewer: [path for name in VIEWERS[viewer].names if (path := shutil.which(name))] for viewer in VIEWERS}
    return {viewer: found[0] for viewer, found in paths.items() if found}


# ---- Cases ---------------------------------------------------------------------------


def shade(light: int) -> tuple[int, int, int]:
    """The grey of a light."""
    grey = 40 + max(0, min(255, light)) * 140 // 255
    return grey, grey, grey + 20


def view_of(picture: str) -> tuple[int, int, int, int]:
    left, top, width, height = picture.split('viewBox="', 1)[1].split('"', 1)[0].split(" ")
    return int(left), int(top), int(width), int(height)


def judge(image: Image, view: tuple[int, int, int, int], place: Place, what: str) -> None:
    """Checks that a picture shows a place in its grey."""
    left, top, width, _ = view
    scale = WIDTH / width
    came = image.at(int((place.x - left) * scale), int((-place.y - top) * scale))
    wanted = shade(place.light)
    is_grey = all(abs(a - b) <= 1 for a, b in zip(came, wanted, strict=True))
    check(f"{what}: ({place.x}, {place.y}) is shown as {came}, its sector is {wanted}", is_grey)


def main() -> int:
    root, games, folder, room = (Path(word) for word in sys.argv[1:5])
    folder.mkdir(parents=True, exist_ok=True)
    look, lens = Path(PROGRAMS["wadlook"]), Path(PROGRAMS["wadlens"])
    levels = [("E1M1", games / "freedoom1.wad", CLEAR, 64, []), ("MAP01", games / "freedoom2.wad", CLEAR, 64, [])]
    levels = [level for level in levels if level[1].exists()]
    if not levels:
        print(f"the sample in place of Freedoom's levels, as these aren't in {games}")
        levels = [("E1M1", root / "sample" / "base.wad", FREE, 16, ["--frame", "-200,-200,200,200"])]
    found = programs()
    for name in VIEWERS.keys() - found.keys():
        skipped(f"there is no {name}", "the pictures in it")
    for name, wad, clear, step, words in levels:
        text = ask(lens, ["picture", *words, name, str(wad)])
        picture = room / f"{name}.svg"
        picture.write_text(text)
        view = view_of(text)
        height = round(view[3] * WIDTH / view[2])
        chosen = spread(list(places(look, name, wad, clear, step)))
        for viewer, program in found.items():
            shown = folder / f"{name}-{viewer}.png"
            VIEWERS[viewer].shows(program, picture, WIDTH, height, shown)
            image = decoded(shown)
            for place in chosen:
                judge(image, view, place, f"{name} in {viewer}")
    return add_up()


sys.exit(main())
