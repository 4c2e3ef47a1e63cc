"""fuzz.py [CASES [SEED [FIRST]]]: libwadlook, through the module `wadlook`, beside the plain reading of the definitions in tests/plain.

The cases are those of tests/fuzz: each file of one is asked alone for the lumps and levels that its runs name or that it labels, under
both readings, and for what the lines of its runs ask; each file is read as a demo, too. An answer is the plain reading's, or the status
is that of the first reason that holds there. The last line is `N passed, M failed`, a case each. `python` and `tests` are on PYTHONPATH.
"""

import re
import sys
from array import array
from functools import cached_property

import wadlook
from harness import add_up, each_seeded
from plain import demos, look
from plain.cases import case
from plain.levels import Level, is_in_range, opening_fault
from plain.wads import entries, lump, packed, refusal, winner
from wadlook import NOWHERE, Block, Command, Demo, Finding, Lump, Place, Status, Wad, WadlookError

CASES, SEED = 400, 1
WAD_STATUS = {1: Status.SHORT, 2: Status.MAGIC, 3: Status.COUNT, 4: Status.DIRECTORY}
LEVEL_STATUS = {"F1": Status.LUMP_MISSING, "F2": Status.LUMP_OUTSIDE}
LIST_STATUS = {1: Status.OFFSET_OUTSIDE, 2: Status.NO_END}
DEMO_STATUS = {1: Status.DEMO_EMPTY, 2: Status.DEMO_VERSION, 3: Status.DEMO_SHORT, 4: Status.DEMO_NO_PLAYER}
NUMBERS = {"points": 2, "blocks": 2, "census": 4, "sight": 2}

# ---- What is wanted ------------------------------------------------------------------------------------------------------


def listed(file):
    """The entries of a file."""
    if number := refusal(file):
        raise WadlookError(WAD_STATUS[number])
    return entries(file)


def label_of(file, name):
    """The entry that a name finds."""
    g = winner(listed(file), name.encode())
    if g is None:
        raise WadlookError(Status.NO_NAME)
    return g


def lump_behind(file, name, after):
    """The entry so many behind that of a name, and its lump."""
    g = label_of(file, name) + after
    if g >= len(listed(file)):
        raise WadlookError(Status.LUMP_MISSING)
    entry = listed(file)[g]
    data = lump(entry)
    if data is None:
        raise WadlookError(Status.LUMP_OUTSIDE)
    return Lump(g, entry.place if data else 0, len(data)), data


def demo_of(data):
    if number := demos.refusal(data):
        raise WadlookError(DEMO_STATUS[number])
    demo = demos.read(data)
    if demo.unended is not None:
        raise WadlookError(Status.DEMO_NO_MARKER)
    commands = [Command(*command) for command in demo.commands]
    return Demo(*demo.header[:9], players=tuple(demo.header[9:]), commands=commands, after=demo.after)


class Plain:
    """A level of a file under a reading, asked as the module's `Level` is."""

    def __init__(self, file, name, wide):
        self.file, self.name, self.wide = file, name, wide
        self.label = label_of(file, name)
        self.fault = opening_fault(listed(file), self.label)

    @cached_property
    def read(self):
        """The level, where its lumps are there, sound or not."""
        return Level(listed(self.file), self.label, self.wide)

    def opened(self):
        if self.fault:
            raise WadlookError(LEVEL_STATUS[self.fault[0]])
        return self.read

    def sound(self):
        if self.opened().faults:
            raise WadlookError(Status.UNSOUND)
        return self.read

    @property
    def findings(self):
        codes = {self.fault[0]: [self.fault[1]]} if self.fault else self.read.findings
        return [Finding(code, i, look.TEXTS[code]) for code, where in codes.items() for i in where]

    def place(self, x, y):
        level = self.sound()
        if not is_in_range(x, y):
            return None
        leaf = level.leaf(x, y)
        return Place(level.sector_of(leaf), leaf)

    def places(self, points):
        self.sound()
        return [self.place(x, y) for x, y in points]

    def census(self, *rect):
        x0, y0, x1, y1 = rect
        if not is_in_range(*rect) or x0 > x1 or y0 > y1 or (x1 - x0 + 1) * (y1 - y0 + 1) > look.MOST_POINTS:
            raise WadlookError(Status.NO_RECT)
        self.sound()
        sectors = [self.place(x, y).sector for x in range(x0, x1 + 1) for y in range(y0, y1 + 1)]
        return {sector: sectors.count(sector) for sector in sorted(set(sectors))}

    def is_blocked(self, a, b):
        (_, reject), (_, sectors) = (lump_behind(self.file, self.name, k) for k in (9, 8))
        count = len(sectors) // 26
        if not (0 <= a < count and 0 <= b < count):
            raise WadlookError(Status.NO_SECTOR)
        byte, place = divmod(a * count + b, 8)
        return bool(reject[byte] >> place & 1) if byte < len(reject) else None

    @cached_property
    def blocks(self):
        """BLOCKMAP by itself, whatever the level's other lumps are."""
        _, blockmap = lump_behind(self.file, self.name, 10)
        if len(blockmap) < 8:
            raise WadlookError(Status.NO_BLOCKMAP)
        alone = Level.__new__(Level)
        alone.blockmap, alone.wide, alone.none = blockmap, self.wide, 65535 if self.wide else -1
        return alone

    def block(self, x, y):
        blocks = self.blocks
        if not is_in_range(x, y):
            raise WadlookError(Status.OUT_OF_RANGE)
        left, bottom, width, height = blocks.head
        column, row = (x - left) // 128, (y - bottom) // 128
        if not (0 <= column < width and 0 <= row < height):
            return None
        lines = blocks.block_list(row * width + column)
        if isinstance(lines, int):
            raise WadlookError(LIST_STATUS[lines])
        return Block(column, row, tuple(lines))

    def corners(self):
        """A point of each block of the first rows and columns."""
        left, bottom, width, height = self.blocks.head
        return [(left + 128 * column, bottom + 128 * row) for row in range(min(height, 8)) for column in range(min(width, 8))]

    def extract(self):
        level = self.opened()
        return packed(list(zip(level.names, [b"", *level.lumps])))


# ---- What is asked -------------------------------------------------------------------------------------------------------


def numbers_in(run):
    """The numbers of each line of a run's input, of those that have as many as its command takes and that fit the calls."""
    count = NUMBERS.get(run.words[0], 0) if run.words else 0
    lines = [line.split(b" ") for line in look.contents(run.given)]
    found = [
        tuple(map(int, line))
        for line in lines
        if len(line) == count and all(re.fullmatch(rb"-?[0-9]{1,18}", word) for word in line)
    ]
    return [numbers for numbers in found if all(-(2**31) <= number < 2**31 for number in numbers)]


def lines_in(found):
    """The numbers of the lines of a case's runs, by their commands."""
    lines = {command: [] for command in NUMBERS}
    for run in found.runs:
        if run.program == "wadlook" and run.words and run.words[0] in NUMBERS:
            lines[run.words[0]] += numbers_in(run)
    return lines


def labels_in(file):
    """The names of labels in a file that words can be."""
    all_entries = [] if refusal(file) else entries(file)
    names = [entry.name for entry, after in zip(all_entries, all_entries[1:]) if after.name == b"THINGS"]
    return [name.decode() for name in names if name.isascii()]


def named_in(found):
    """The paths of a case's files, each with a name that is asked for there, by a run or by a label."""
    names = []
    for run in found.runs:
        try:
            asked = look.asked_by(run.words) if run.program == "wadlook" and run.words else None
        except look.Refused:
            continue
        if asked and asked.name:
            names += [(path, asked.name.decode()) for path in asked.paths if found.files.get(path) is not None]
    names += [(path, name) for path, file in found.files.items() if file is not None for name in labels_in(file)]
    return list(dict.fromkeys(names))


def outcome(call, *words):
    """What a call answers, or the status with which it is refused."""
    try:
        return call(*words)
    except WadlookError as why:
        return why.status


class Different(Exception):
    """The first answer that isn't what is wanted."""


def same(what, came, wanted):
    if came != wanted:
        raise Different(f"{what}\n    wanted: {str(wanted)[:300]}\n    came:   {str(came)[:300]}")


def compare_lumps(wad, file, name):
    for after in range(13):
        wanted = outcome(lump_behind, file, name, after)
        place, data = wanted if isinstance(wanted, tuple) else (wanted, wanted)
        same(f"find {name} {after}", outcome(wad.find, name, after), place)
        came = outcome(wad.lump, name, after)
        same(f"lump {name} {after}", bytes(came) if isinstance(came, memoryview) else came, data)
    wanted = outcome(lump_behind, file, name, 0)
    same(f"demo {name}", outcome(wad.demo, name), outcome(demo_of, wanted[1]) if isinstance(wanted, tuple) else wanted)


def compare_points(level, plain, points):
    """The points at once, as pairs and as an array, and one by one."""
    wanted = outcome(plain.places, points)
    same(f"places {points}", outcome(level.places, points), wanted)
    sectors = wanted if isinstance(wanted, Status) else [place and place.sector for place in wanted]
    same(f"sectors {points}", outcome(level.sectors, points), sectors)
    flat = outcome(level.sectors, array("i", [number for point in points for number in point]))
    told = sectors if isinstance(sectors, Status) else [NOWHERE if sector is None else sector for sector in sectors]
    same(f"sectors of an array of {points}", flat.tolist() if isinstance(flat, memoryview) else flat, told)
    for k, point in enumerate(points):
        same(f"place {point}", outcome(level.place, *point), wanted if isinstance(wanted, Status) else wanted[k])


def compare_level(wad, file, name, wide, lines):
    level, plain = outcome(wad.level, name, wide), outcome(Plain, file, name, wide)
    if isinstance(plain, Status) or isinstance(level, Status):
        same("level", level, plain)
        return
    wanted = plain.findings
    same("findings", level.findings, wanted)
    same("faults", level.faults, [it for it in wanted if it.code[0] == "F"])
    same("notes", level.notes, [it for it in wanted if it.code[0] == "N"])
    same("is_sound", level.is_sound, not any(it.code[0] == "F" for it in wanted))
    compare_points(level, plain, lines["points"])
    corners = outcome(plain.corners)
    blocks = lines["blocks"] + (corners if isinstance(corners, list) else [])
    for call, asked in (("census", lines["census"]), ("is_blocked", lines["sight"]), ("block", blocks)):
        for numbers in asked:
            same(f"{call}{numbers}", outcome(getattr(level, call), *numbers), outcome(getattr(plain, call), *numbers))
    same("extract", outcome(level.extract), outcome(plain.extract))


def judge(seed, number):
    """Whether all calls give what is wanted; the first that doesn't is told."""
    found = case(seed, number)
    lines, where = lines_in(found), ""
    try:
        for where, file in found.files.items():
            if file is not None:
                same("read_demo", outcome(wadlook.read_demo, file), outcome(demo_of, file))
        for path, name in named_in(found):
            wad, file = Wad(found.files[path]), found.files[path]
            where = path
            compare_lumps(wad, file, name)
            for wide in (False, True):
                where = f"{path}, {name}{', wide' if wide else ''}"
                compare_level(wad, file, name, wide, lines)
    except Different as why:
        print(f"FAILED case {number} of seed {seed}: {where!a}: {why}")
        print(f"    again: PYTHONPATH=python:tests python3 tests/callers/fuzz.py 1 {seed} {number}", flush=True)
        return False
    return True


def main(words):
    count, seed, first = [int(word) for word in words] + [CASES, SEED, 0][len(words) :]
    each_seeded(judge, count, seed, first)
    return add_up()


sys.exit(main(sys.argv[1:]))
