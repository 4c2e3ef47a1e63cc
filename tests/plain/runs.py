"""Runs of the programs, made up from a seed: words, options and input."""

from random import Random
from typing import NamedTuple

from plain import lens, look, make, picture
from plain.levels import Vertex, records
from plain.wads import Files, entries, lump, refusal

CELLS = 40
"""So many cells along a side at most: a plain reading of more takes long."""
CELL_COUNTS = (1, 2, 7, 16, 32, CELLS)
MISSING = "missing.wad"
CODES = [*(f"N{n}" for n in range(1, 13)), *(f"W{n}" for n in range(1, 26))]
"""The codes that can be ignored, or be as grave as a fault."""
GROUPS = {
    "game": ["N4", "N11", "W9", "W10", "W11", "W17", "W18", "W22"],
    "notes": [code for code in CODES if code[0] == "N"],
    "warnings": [code for code in CODES if code[0] == "W"],
}
"""The names for many codes."""
MOST_BASES = 63
MOST = {"check": 20, "atlas": 3}
"""How many findings of one code are shown of a level by themselves."""
FOLDERS = {
    "atlas": [],
    "empty": ["empty"],
    "full": ["full", "full/.x"],
    "none/atlas": [],
    "empty/atlas": ["empty"],
}
"""Folders for an atlas, each with what is there before."""
NO_TEXT = (
    b"\xff",
    b"\xe2\x82.wad",
    b"\xf0\x9f\x92x",
    b"\xed\xa0\x80",
    b"\xc0\xaf",
    b"\xf4\x90\x80\x80",
)
"""Paths that no words can be, and that no list names: their files are there."""


class Run(NamedTuple):
    """Words for a program and its input; of `wadlens` what they ask for, too, and nothing
    where they are mistaken."""

    program: str
    words: list[str]
    given: bytes = b""
    asked: lens.Asked | None = None


# ---- Input lines ---------------------------------------------------------------------


def spoilt(random: Random, line: str) -> str:
    """A line of another form, or the same numbers written otherwise."""
    first, *others = line.split(" ")
    return random.choice(
        (
            "",
            line + " ",
            " " + line,
            line.replace(" ", "  "),
            line + " 1",
            first,
            "+" + line,
            line + "\r",
            line + "\r\r",
            "-" + line,
            "x",
            "-0 " + " ".join(others),
            " ".join(["0" * 62 + first, *others]),
            " ".join([first, *others[:-1], "9" * 40]),
            line.rjust(64, "0"),
            line.rjust(65, "0"),
            line.replace(" ", "\t"),
            line + "\0",
        )
    )


def given(random: Random, lines: list[str]) -> bytes:
    lines = [spoilt(random, line) if random.random() < 0.06 else line for line in lines]
    end = random.choice(("\n", "\n", "\n", "", "\r\n", "\r"))
    return "\n".join(lines).encode() + end.encode()


def point_lines(random: Random, draft: make.Draft) -> list[str]:
    return [f"{x} {y}" for x, y in make.spots(random, draft, 30)]


def rectangle_lines(random: Random, draft: make.Draft) -> list[str]:
    found = []
    for x, y in make.spots(random, draft, 5):
        width, height = random.choice(((0, 0), (4, 4), (18, 15), (1, 60), (200, 0)))
        x, y = x - random.randint(0, width), y - random.randint(0, height)
        found.append(f"{x} {y} {x + width} {y + height}")
    far = ("0 0 1024 1023", "5 0 4 9", "0 5 9 4", "-16385 0 0 0", "16383 0 16384 0")
    return found + random.sample(far, 1)


def sector_lines(random: Random, draft: make.Draft) -> list[str]:
    count = len(draft.tables[make.SECTORS])
    near = range(-1, count + 2)
    return [f"{random.choice(near)} {random.choice(near)}" for _ in range(12)]


# ---- Runs ----------------------------------------------------------------------------


def look_runs(random: Random, draft: make.Draft, name: str, paths: list[str]) -> list[Run]:
    """One command of each that opens a level, some under the wide reading."""
    inputs = {
        "points": given(random, point_lines(random, draft)),
        "census": given(random, rectangle_lines(random, draft)),
        "blocks": given(random, point_lines(random, draft)),
        "sight": given(random, sector_lines(random, draft)),
    }
    found = []
    for command in look.NAME_COMMANDS:
        if command == "demo":
            continue
        can_be_wide = command in look.WIDE_COMMANDS
        wide = can_be_wide and random.random() < 0.4
        words = [command, *(["--wide"] if wide else []), name, *paths]
        found.append(Run("wadlook", words, inputs.get(command, b"")))
    return found


def mixed(random: Random, paths: list[str], options: list[str]) -> list[str]:
    """Options before, between and after paths."""
    at = random.randrange(len(paths) + 1)
    return [*paths[:at], *options, *paths[at:]]


def value_words(random: Random, option: str, value: int | str) -> list[str]:
    return random.choice(([option, str(value)], [f"{option}={value}"]))


class CodeWords(NamedTuple):
    """Options that name codes, the codes, those of them that the words write out, and those that they don't bring by `game` alone."""

    words: list[str]
    codes: frozenset[str] = frozenset()
    written: frozenset[str] = frozenset()
    whole: frozenset[str] = frozenset()

    @property
    def is_game(self) -> bool:
        """Whether they name `game`."""
        return any("game" in word.lower().replace("=", ",").split(",") for word in self.words)


def code_word(random: Random, allowed: list[str]) -> tuple[str, list[str], bool]:
    """A word for some of these codes, the codes, and whether it writes them out."""
    groups = [name for name, codes in GROUPS.items() if {*codes} <= {*allowed}]
    first = random.choice(allowed)
    following = [code for code in CODES[CODES.index(first) :] if code[0] == first[0]]
    span = following[: random.randrange(len(following)) + 1]
    chance = random.random()
    if groups and chance < 0.2:
        word = random.choice(groups)
        codes = GROUPS[word]
    elif chance < 0.4:
        word, codes = f"{first}-{span[-1]}", span
    else:
        word, codes = first, [first]
    return random.choice((word, word, word.lower(), word.upper())), codes, word not in GROUPS


def code_words(random: Random, option: str, allowed: list[str]) -> CodeWords:
    """Options that name some of these codes, one code in several of them at times."""
    lists = [[code_word(random, allowed) for _ in range(random.choice((1, 2, 4, 12)))] for _ in range(random.choice((1, 1, 2, 3)))]
    told = [one for words in lists for one in words]
    return CodeWords(
        [word for words in lists for word in value_words(random, option, ",".join(name for name, _, _ in words))],
        frozenset(code for _, codes, _ in told for code in codes),
        frozenset(code for _, codes, is_written in told for code in codes if is_written),
        frozenset(code for name, codes, _ in told for code in codes if name.lower() != "game"),
    )


def code_options(random: Random, with_map: bool) -> tuple[CodeWords, CodeWords]:
    """Options that ignore codes, and such as have codes fail: no code is written out in both."""
    none = CodeWords([])
    ignored = code_words(random, "--ignore", CODES) if random.random() < 0.3 else none
    if random.random() < 0.6:
        return ignored, none
    failing = code_words(random, "--fail", CODES if with_map else GROUPS["notes"])
    return ignored, none if failing.written & ignored.written else failing


def base_files(random: Random, paths: list[str]) -> tuple[list[str], tuple[str, ...]]:
    """Options that name base files, some of these paths, and these."""
    count = MOST_BASES if random.random() < 0.03 else random.choice((1, 1, 2, 3))
    bases = random.choices(paths, k=count)
    if random.random() < 0.1:
        bases[random.randrange(count)] = MISSING
    return [word for path in bases for word in value_words(random, "--base", path)], tuple(bases)


def flags(random: Random, command: str, mapped: bool, bases: list[str]) -> tuple[list[str], lens.Asked]:
    """Options of what goes over files one after another, and what they ask for."""
    judges = command in ("check", "survey", "atlas")
    wide = judges and random.random() < 0.3
    with_map = judges and (mapped or random.random() < 0.4)
    strict = with_map and random.random() < 0.5
    json = command in ("check", "demos") and random.random() < 0.5
    shown = MOST.get(command, 0)
    most = random.choice((0, 1, 2, 3, 20)) if shown else 0
    asked = lens.Asked(command, [], wide, most, json, map=with_map, strict=strict)
    named = {"--wide": wide, "--map": with_map, "--strict": strict, "--json": json}
    options = [name for name, is_set in named.items() if is_set]
    random.shuffle(options)
    if shown and (most != shown or random.random() < 0.3):
        options += value_words(random, "--max", most)
    if judges:
        ignored, failing = code_options(random, with_map)
        options += random.choice((ignored.words + failing.words, failing.words + ignored.words))
        asked = asked._replace(ignored=ignored.codes, failing=failing.whole, game=failing.is_game)
    if with_map and bases and random.random() < 0.5:
        words, named = base_files(random, bases)
        options, asked = words + options, asked._replace(bases=named)
    return options, asked


def no_text(random: Random) -> str:
    return random.choice(NO_TEXT).decode(errors="surrogateescape")


def list_of(random: Random, paths: list[str]) -> tuple[list[str], bytes]:
    """Options that take a list from standard input, and one of these paths."""
    broken = any("\n" in path for path in paths)
    end = "\0" if broken else random.choice(("\n", "\0"))
    texts = [text for path in paths for text in random.choice(([path], [path, ""]))]
    text = end * random.randrange(2) + end.join(texts) + end * random.randrange(2)
    options = ["--files-from", "-", *(["--null"] if end == "\0" else [])]
    return options, text.encode(errors="surrogateescape")


def lens_run(
    random: Random,
    command: str,
    paths: list[str],
    more: tuple[str, ...] = (),
    mapped: bool = False,
    bases: list[str] | None = None,
) -> Run:
    """A command over files one after another, with more words among its own. The base files are
    some of these, or of the files."""
    options, asked = flags(random, command, mapped, paths if bases is None else bases)
    options += more
    own, listed, data = paths, [], b""
    chance = random.random()
    if chance < 0.15:
        count = random.randrange(len(paths) + 1)
        own, listed = paths[:count], paths[count:]
        if random.random() < 0.4:
            listed = [*listed, no_text(random)]
        words, data = list_of(random, listed)
        options += words
    elif chance < 0.17:
        asked = asked._replace(lost=MISSING)
        options += ["--files-from", MISSING]
    words = [command, *mixed(random, own, options)]
    return Run("wadlens", words, data, asked._replace(paths=[*own, *listed]))


def cut_run(random: Random, path: str, count: int) -> Run:
    g = random.choice((0, 0, 1, count - 11, count - 1, count, 4294967296, 11))
    g = max(g, 0)
    words = ["cut", *mixed(random, [path], ["--entry", str(g)])]
    return Run("wadlens", words, b"", lens.Asked("cut", [path], entry=g))


def named_cut_run(random: Random, path: str, name: str) -> Run:
    words = ["cut", *mixed(random, [path], value_words(random, "--level", name))]
    return Run("wadlens", words, b"", lens.Asked("cut", [path], entry=None, name=name))


# ---- Pictures ------------------------------------------------------------------------


def longest(files: Files) -> int:
    """The longest side that a level of these files can have."""
    sides = [0]
    for file in files.values():
        for entry in [] if not file or refusal(file) else entries(file):
            data = lump(entry) if entry.name == b"VERTEXES" else b""
            places = records(data or b"", Vertex, "hh", False)
            sides += [max(along) - min(along) for along in zip(*places)]
    return max(sides)


def cell_count(random: Random, side: int) -> int | None:
    """So many cells that a side is read soon; none is as many as are usual."""
    if side <= CELLS:
        return random.choice((None, None, 512, 1024, *CELL_COUNTS))
    return random.choice(CELL_COUNTS)


def frame_in(random: Random, draft: make.Draft) -> picture.Frame:
    """A part of the map, in or around a level."""
    if random.random() < 0.25:
        ends = (-32768, -16385, -16384, 16383, 16384, 32767)
        (x0, x1), (y0, y1) = (sorted(random.choices(ends, k=2)) for _ in "xy")
        return picture.Frame(x0, y0, x1, y1)
    sides = ((0, 0), (9, 9), (24, 24), (5, 60), (300, 7), (400, 400), (2000, 2000))
    width, height = random.choice(sides)
    (x, y), *_ = make.spots(random, draft, 1)
    x0 = min(max(x - random.randint(0, width), -32768), 32767 - width)
    y0 = min(max(y - random.randint(0, height), -32768), 32767 - height)
    return picture.Frame(x0, y0, x0 + width, y0 + height)


def picture_run(random: Random, draft: make.Draft, name: str, paths: list[str], files: Files) -> Run:
    wide, framed = random.random() < 0.2, random.random() < 0.4
    frame = frame_in(random, draft) if framed else None
    side = longest(files)
    if frame is not None:
        side = max(frame.x1 - frame.x0, frame.y1 - frame.y0)
    cells = cell_count(random, side)
    options = ["--wide"] if wide else []
    if cells is not None:
        options += value_words(random, "--cells", cells)
    if frame is not None:
        told = ",".join(str(bound) for bound in frame)
        options += random.choice((["--frame", told], [f"--frame={told}"]))
    mapped = random.random() < 0.5
    options += ["--map"] if mapped else []
    ignored = code_words(random, "--ignore", CODES) if random.random() < 0.3 else CodeWords([])
    options += ignored.words
    words = ["picture", *mixed(random, [name, *paths], options)]
    asked = lens.Asked("picture", paths, wide, name=name, frame=frame, map=mapped, ignored=ignored.codes)
    return Run("wadlens", words, b"", asked._replace(cells=cells or picture.CELLS))


def atlas_run(random: Random, paths: list[str], files: Files) -> Run:
    """An atlas into a folder; what is there before is put with the files."""
    held = [path for path, data in files.items() if data is not None]
    folder = random.choice([*["atlas"] * 12, *FOLDERS, *held[:1]])
    for path in FOLDERS.get(folder, []):
        files[path] = b"" if path.endswith(".x") else None
    cells = cell_count(random, longest(files))
    more = random.choice((["--out", folder], [f"--out={folder}"]))
    if cells is not None:
        more += value_words(random, "--cells", cells)
    title = random.choice(("Atlas", "Atlas", "Two <games> & more", "a\x1bb"))
    day = random.choice(("", "", "2026-11-30", "<today>"))
    more += value_words(random, "--title", title) if title != "Atlas" else []
    more += value_words(random, "--day", day) if day else []
    run = lens_run(random, "atlas", paths, tuple(more))
    assert run.asked is not None
    cells = cells or picture.CELLS
    return run._replace(asked=run.asked._replace(folder=folder, cells=cells, title=title, day=day))


# ---- Demos ---------------------------------------------------------------------------


def compare_run(random: Random, paths: list[str]) -> Run:
    both = [random.choice(paths), random.choice(paths)]
    alone = random.random() < 0.3
    words = random.choice((["--commands", *both], [*both, "--commands"])) if alone else both
    return Run("wadlens", ["compare", *words], b"", lens.Asked("compare", both, commands_alone=alone))


def listing_run(path: str) -> Run:
    return Run("wadlens", ["listing", path], b"", lens.Asked("listing", [path]))


def assemble_run(listing: bytes) -> Run:
    return Run("wadlens", ["assemble"], listing, lens.Asked("assemble", []))
