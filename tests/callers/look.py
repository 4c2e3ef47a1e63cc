"""look.py CMD [--wide] NAME FILE: answers as the program `wadlook` does of one file, by the module `wadlook`.

CMD is audit, points, census, sight, blocks, demo or extract; `point` answers as points does, by a call for each line; `find`
lists the entry of a name and those behind it: number, place and size.
"""

import itertools
import os
import re
import struct
import sys
from array import array
from contextlib import redirect_stderr, redirect_stdout

from wadlook import NOWHERE, Status, Wad, WadlookError

WORDS = {
    Status.UNSOUND: "audit",
    Status.SHORT: "file 1: 1 short",
    Status.MAGIC: "file 1: 2 magic",
    Status.COUNT: "file 1: 3 count",
    Status.DIRECTORY: "file 1: 4 directory",
    Status.NO_NAME: "8 no label",
    Status.TOO_LARGE: "7 too large",
    Status.DEMO_EMPTY: "demo 1",
    Status.DEMO_SHORT: "demo 3",
    Status.DEMO_NO_PLAYER: "demo 4",
    Status.NO_BLOCKMAP: "no blockmap",
}
LUMP_WORDS = {Status.NO_NAME: "5 no such lump", Status.LUMP_OUTSIDE: "6 outside file"}
"""Where the entry is no part of a level."""
NUMBERS = {"points": 2, "point": 2, "census": 4, "sight": 2, "blocks": 2}


class Refused(Exception):
    """A refusal in the program's words, where they aren't those of a status."""


# ---- Lines ---------------------------------------------------------------------------------------------------------------


def read_lines(count):
    """The numbers of each line, cut to 32 bits; None of another form than so many, with single spaces, in at most 64 bytes."""
    form = re.compile(rb"-?[0-9]+( -?[0-9]+){%d}" % (count - 1))
    lines = sys.stdin.buffer.read().split(b"\n")
    if not lines[-1]:
        lines.pop()
    lines = [line.removesuffix(b"\r") for line in lines]
    return [numbers(line) if len(line) <= 64 and form.fullmatch(line) else None for line in lines]


def numbers(line):
    return [max(-(2**31), min(int(each), 2**31 - 1)) for each in line.split(b" ")]


def each_line(lines, answer):
    for line in lines:
        told = "refused: form" if line is None else answer(*line)
        print("refused: range" if told is None else told)


# ---- Commands ------------------------------------------------------------------------------------------------------------


def audit(level):
    for it in level.findings:
        print(it.code, it.index, it.text)
    print("faults", len(level.faults), "notes", len(level.notes))
    return 0 if level.is_sound else 1


def placed(x, y, place):
    return place and f"{x} {y} sector {place.sector} ssector {place.ssector}"


def points(level, lines):
    asked = array("i", [number for line in lines if line for number in line])
    places, sectors = level.places(zip(asked[::2], asked[1::2])), level.sectors(asked)
    if [NOWHERE if place is None else place.sector for place in places] != sectors.tolist():
        raise Refused("the sectors of an array differ from those of pairs")
    following = iter(places)
    each_line(lines, lambda x, y: placed(x, y, next(following)))


def point(level, lines):
    level.place(0, 0)  # a level that isn't sound is refused before any line
    each_line(lines, lambda x, y: placed(x, y, level.place(x, y)))


def census(level, lines):
    def answer(*rect):
        try:
            counts = level.census(*rect)
        except WadlookError as why:
            return None if why.status == Status.NO_RECT else str(why)
        each = "".join(f" {sector}:{count}" for sector, count in counts.items())
        return f"{' '.join(map(str, rect))} points {sum(counts.values())}{each}"

    level.census(0, 0, 0, 0)
    each_line(lines, answer)


def sight(level, lines):
    def answer(a, b):
        try:
            return f"{a} {b} {({None: 'unknown', True: 'blocked', False: 'clear'})[level.is_blocked(a, b)]}"
        except WadlookError as why:
            return None if why.status == Status.NO_SECTOR else str(why)

    each_line(lines, answer)


def blocks(level, lines):
    def answer(x, y):
        try:
            block = level.block(x, y)
        except WadlookError as why:
            if why.status == Status.OUT_OF_RANGE:
                return None
            x0, y0 = struct.unpack_from("<hh", level.wad.lump(level.name, 10))  # no block is told where its list is faulty
            return f"{x} {y} block {(x - x0) // 128} {(y - y0) // 128} fault {2 if why.status == Status.NO_END else 1}"
        if block is None:
            return f"{x} {y} no block"
        return " ".join(map(str, (x, y, "block", block.column, block.row, "lines", *block.lines)))

    try:
        level.block(0, 0)
    except WadlookError as why:
        if why.status == Status.NO_BLOCKMAP:
            raise
    each_line(lines, answer)


def demo(wad, name):
    try:
        told = wad.demo(name)
    except WadlookError as why:
        if why.status == Status.DEMO_VERSION:
            raise Refused(f"demo 2 version {wad.lump(name)[0]}") from None
        if why.status == Status.DEMO_NO_MARKER:
            lump = wad.lump(name)
            each = 5 if lump[0] == 111 else 4
            raise Refused(f"demo 5 at {13 + (len(lump) - 13) // each * each}") from None  # behind the whole commands
        raise
    header = told._asdict()
    print("demo", *(f"{field.replace('_', '')} {header[field]}" for field in told._fields[:9]), "players", *told.players)
    playing = [k for k, plays in enumerate(told.players, 1) if plays]
    for k, it in enumerate(told.commands):
        print(k // len(playing), playing[k % len(playing)], it.forward, it.side, it.turn, f"{it.buttons:02x}")
    print("tics", len(told.commands) // len(playing), "odd", len(told.commands) % len(playing), "after", told.after)


def extract(level):
    sys.stdout.buffer.write(level.extract())


def find(wad, name):
    try:
        for after in itertools.count():
            print(*wad.find(name, after))
    except WadlookError as why:
        if why.status != Status.LUMP_MISSING:
            raise


def look(command, *words):
    wide = words[0] == "--wide"
    name, path = words[wide:]
    call = globals()[command]
    wad = Wad(path)
    if command in ("demo", "find"):
        return call(wad, name)
    level = wad.level(name, wide)
    if command == "audit":
        return audit(level)
    if level.findings and level.findings[0].code in ("F1", "F2"):  # a lump is missing: the audit alone tells which
        raise Refused("{0.code} {0.index}".format(level.findings[0]))
    return call(level, read_lines(NUMBERS[command])) if command in NUMBERS else call(level)


def answer(words):
    """The status of a run; a refusal goes to standard error."""
    try:
        return look(*words) or 0
    except WadlookError as why:
        said = {**WORDS, **LUMP_WORDS} if words[0] in ("demo", "find") else WORDS
        print("refused:", said.get(why.status, why), file=sys.stderr)
    except Refused as why:
        print("refused:", why, file=sys.stderr)
    return 2


def each(*cases):
    """Runs what tests/callers/worked asks in its folders, in one process, as Python takes long to start."""
    room = os.getcwd()
    for case in cases:
        told = os.path.join(room, "Python", case)
        os.mkdir(told)
        os.chdir(os.path.join(room, "asked", case))
        with open("words", encoding="utf-8") as file:
            words = file.read().split("\n")[:-1]
        with open("input") as sys.stdin, open(f"{told}/output", "w") as output, open(f"{told}/refusal", "w") as refusal:
            with redirect_stdout(output), redirect_stderr(refusal):
                status = answer(words)
        with open(f"{told}/status", "w") as file:
            print(status, file=file)


if sys.argv[1] == "each":
    each(*sys.argv[2:])
else:
    sys.exit(answer(sys.argv[1:]))
