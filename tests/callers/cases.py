"""cases.py BASE: the module `wadlook` on worked cases over the sample level; the last line is `N passed, M failed`."""

import copy
import ctypes
import json
import os
import pickle
import pydoc
import re
import struct
import subprocess
import sys
import tempfile
from array import array

import wadlook
from harness import add_up, check
from wadlook import _program
from wadlook import NOWHERE, Block, Command, End, Found, Label, Place, Refusal, Status, Wad, WadlookError

SIDEDEFS, NODES, REJECT, BLOCKMAP, DIRECTORY = 36, 136, 216, 217, 233

TWO_COMMANDS = bytes([109, 3, 1, 1, 0, 0, 0, 0, 0, 1, 0, 0, 0, 25, 0, 0, 0, 206, 128, 255, 128, 128, 7])


def refused(status, call, *words):
    try:
        call(*words)
    except WadlookError as why:
        return why.status == status and ": " in f" : {why}"
    return False


def names(what, call, *words):
    try:
        call(*words)
    except WadlookError as why:
        return why.what == what
    return False


def raises(error, call, *words):
    try:
        call(*words)
    except error:
        return True
    return False


def with_words(base, place, *words):
    """The sample level with other words of 16 bits at a place."""
    wad = bytearray(base)
    struct.pack_into(f"<{len(words)}h", wad, place, *words)
    return wad


def cases(path):
    with open(path, "rb") as file:
        base = file.read()
    level = Wad(path).level("E1M1")
    asked = [(1, 5), (0, 5), (-1, 5), (16384, 0)]
    check("sectors of a list", level.sectors(asked) == [0, 1, 1, None])
    check("sectors of an iterator", level.sectors(iter(asked)) == [0, 1, 1, None])
    check("sectors of no points", level.sectors([]) == [])
    flat = array("i", [1, 5, 0, 5, -1, 5, 16384, 0])
    check("sectors of an array", level.sectors(flat).tolist() == [0, 1, 1, NOWHERE])
    check(
        "sectors of a view of two columns",
        level.sectors(memoryview(flat).cast("B").cast("i", (4, 2))).tolist() == [0, 1, 1, NOWHERE],
    )
    check("sectors of a view that can't be written", level.sectors(memoryview(flat).toreadonly()).tolist() == [0, 1, 1, NOWHERE])
    check("sectors of an empty array", level.sectors(array("i")).tolist() == [])
    check("an array is lent", lends(flat))
    lent = (ctypes.c_int32 * 2)(0, 5)
    check("sectors of another module's buffer", level.sectors(lent).tolist() == [1])
    rows, deep = (memoryview(flat).cast("B").cast("i", shape) for shape in ((2, 4), (2, 2, 2)))
    for bad in (array("d", [0.0, 5.0]), array("i", [1, 2, 3]), memoryview(flat)[::2], rows, deep):
        try:
            level.sectors(bad)
            check("a buffer that holds no points", False)
        except TypeError:
            check("a buffer that holds no points", True)
    try:
        level.sectors([(2**31, 0)])
        check("a coordinate of 33 bits", False)
    except OverflowError:
        check("a coordinate of 33 bits", True)
    for after in (-1, 2**64 + 9, 9 - 2**64):
        check(f"{after} entries behind a name", raises(OverflowError, level.wad.find, "E1M1", after))
    floats = [
        (level.place, 1.0, 0),
        (level.census, 0, 0, 1.0, 1),
        (level.block, 0, 1.5),
        (level.is_blocked, 1.0, 0),
        (level.wad.find, "E1M1", 1.0),
    ]
    for call, *given in floats:
        check(f"{call.__name__} of a number that is no integer", raises(TypeError, call, *given))
    check("places", level.places(asked) == [Place(0, 0), Place(1, 1), Place(1, 1), None])
    check("a place", level.place(0, 5) == Place(1, 1) and level.place(1, 5) == Place(0, 0) and level.place(0, 16384) is None)
    check("small letters and wide", Wad(base).level("e1m1", wide=True).sectors([(0, 5)]) == [1])
    check("a sound level", level.is_sound and level.findings == [] and level.faults == [] and level.notes == [])
    check("a census", level.census(-1, 0, 1, 1) == {0: 2, 1: 4})
    check("a large census", level.census(-512, -512, 511, 511) == {0: 523264, 1: 525312})
    check("no rectangle", refused(Status.NO_RECT, level.census, 1, 0, 0, 0))
    check("a lump", level.wad.find("E1M1", 7) == (7, NODES, 28) and bytes(level.wad.lump("REJECT")) == b"\0")
    check("sight", level.is_blocked(0, 1) is False and refused(Status.NO_SECTOR, level.is_blocked, 0, 2))
    blocked = bytearray(base)
    blocked[REJECT] = 2
    check("sight, blocked", Wad(blocked).level("E1M1").is_blocked(0, 1) is True)
    none = with_words(base, DIRECTORY + 16 * 9 + 4, 0, 0)
    check("sight, unknown", Wad(none).level("E1M1").is_blocked(0, 1) is None)
    check("a block", level.block(0, 5) == Block(0, 0, (0, 0)) and level.block(-9, 5) is None)
    check("a block out of range", refused(Status.OUT_OF_RANGE, level.block, 16384, 0))
    lists = with_words(base, BLOCKMAP, 0, 0, 1, 1, 5, 0, -2, -1)
    check("a block's words are signed", Wad(lists).level("E1M1").block(0, 5).lines == (0, -2))
    check("or wide", Wad(lists).level("E1M1", wide=True).block(0, 5).lines == (0, 65534))
    check("a list without an end", refused(Status.NO_END, Wad(with_words(base, BLOCKMAP + 14, 7)).level("E1M1").block, 0, 5))
    check("extracted", level.extract() == base)

    twice = Wad(with_words(base, NODES + 24, -32768, -32768)).level("E1M1")  # one ssector twice
    check("faults", [it[:2] for it in twice.faults] == [("F15", 0), ("F16", 1)] and not twice.is_sound and twice.notes == [])
    check("texts", twice.faults[0].text == "ssector named more than once")
    twice.findings.clear()
    check("faults stay, whatever is done to the list", len(twice.findings) == 2 and not twice.is_sound)
    for call, given in ((twice.sectors, ([(0, 5)],)), (twice.place, (0, 5)), (twice.census, (0, 0, 1, 1))):
        check("a level with faults", refused(Status.UNSOUND, call, *given))
    for status, bytes_ in (
        (Status.SHORT, base[:11]),
        (Status.MAGIC, b"X" + base[1:]),
        (Status.DIRECTORY, base[:-1]),
        (Status.SHORT, b""),
    ):
        check(f"no file: {status.name}", refused(status, Wad(bytes_).level, "E1M1"))
    for empty in (bytearray(), array("B"), memoryview(bytearray(base))[:0], memoryview(base)[:0]):
        check("a buffer of no bytes", refused(Status.SHORT, lambda source: Wad(source).level("E1M1"), empty))
    for size in range(len(base)):
        check(f"wad_cut {size}", refused(Status.SHORT if size < 12 else Status.DIRECTORY, Wad(base[:size]).level, "E1M1"))
    check("no name", refused(Status.NO_NAME, Wad(base).level, "E2M9"))
    check("a missing lump", refused(Status.LUMP_MISSING, Wad(base).level("THINGS").sectors, [(0, 5)]))
    label = with_words(base, DIRECTORY, -1, -1, 1, 0)
    check("a label outside the file, of which no byte is asked", Wad(label).level("E1M1").sectors([(0, 5)]) == [1])
    check("its entry", Wad(label).level("E1M1").entry == 0 and Wad(label).level("E1M1").under(0, 5) == Place(1, 1))
    check("a missing lump, audited", [it[:2] for it in Wad(base).level("THINGS").findings] == [("F1", 10)])

    names_in_bytes(base)
    entries(base)
    words(path, base)
    program(path)

    last = many_sectors(base)
    check("a level of 65,536 sectors is sound", last.is_sound and [it.code for it in last.findings] == ["N8"])
    check("the last of 65,536 sectors", last.places(asked) == [Place(0, 0), Place(NOWHERE, 1), Place(NOWHERE, 1), None])
    check("the last of 65,536 sectors, of pairs", last.sectors(asked) == [0, NOWHERE, NOWHERE, None])
    check("the last of 65,536 sectors, of an array", last.sectors(flat).tolist() == [0, NOWHERE, NOWHERE, NOWHERE])
    check("places of an array tell it from no place", last.places(flat) == last.places(asked))
    check("one place tells it from no place", last.place(0, 5) == Place(NOWHERE, 1) and last.place(16384, 0) is None)

    for status in Status:
        check(f"a refusal pickled and copied: {status.name}", all(stays(WadlookError(status, what)) for what in ("MAP01", "")))
    check("a refusal's words", str(WadlookError(Status.NO_NAME, "MAP01")) == "MAP01: no entry of this name")
    check("a refusal's words alone", str(WadlookError(Status.NO_NAME)) == "no entry of this name")

    two = TWO_COMMANDS
    demo = wadlook.read_demo(two)
    check("a demo", demo.commands == [Command(25, 0, 0, 0), Command(-50, -128, 255, 128)] and demo.after == 1)
    check("a demo's header", (demo.version, demo.skill, demo.players) == (109, 3, (1, 0, 0, 0)))
    for size in range(22):
        why = Status.DEMO_EMPTY if size == 0 else Status.DEMO_SHORT if size < 13 else Status.DEMO_NO_MARKER
        check(f"demo_cut {size}", refused(why, wadlook.read_demo, two[:size]))
    check("demo_cut 22", wadlook.read_demo(two[:22]) == demo._replace(after=0))
    check("no demo", refused(Status.DEMO_EMPTY, level.wad.demo, "E1M1"))
    check("a refused demo's name", names("E1M1", level.wad.demo, "E1M1"))
    check(
        "many commands",
        len(wadlook.read_demo(bytes([109, 3, 1, 1, 0, 0, 0, 0, 0, 1, 0, 0, 0]) + bytes(40000) + b"\x80").commands) == 10000,
    )

    with open("crates/look_engines/specs/Engines/Audit.antt", encoding="utf-8") as file:
        texts = dict(re.findall(r'^meaning ([FN]\d+) = codes "(.*)"$', file.read(), re.M))
    told_texts = list(wadlook._TEXTS.items())
    check("the findings' texts", told_texts[: len(texts)] == list(texts.items()))
    check("the warnings' texts", len(told_texts) == 55 and wadlook._TEXTS["W9"] == "texture not there")
    check("the statuses", {it.name: str(it.value) for it in Status} == numbers_of("wadlook_status"))
    check("the ends' texts", [len(wadlook._ENDS), wadlook._ENDS[3]] == [6, "no memory left"])
    kinds = [name.lower() for name in numbers_of("wadlook_kind")]
    check("the kinds", wadlook._KINDS == ["level" if name == "whole" else name for name in kinds])
    check("the ends", {it.name: str(it.value) for it in wadlook.End} == numbers_of("wadlook_end"))
    check("the codes' numbers", {code: str(number) for number, code in enumerate(wadlook._CODES)} == numbers_of("wadlook_code"))
    check("the words' numbers", [str(number) for number in range(14)] == list(numbers_of("wadlook_word").values()))
    with open("VERSION", encoding="utf-8") as file:
        version = file.read().strip()
    wadlook._so.wadlook_version.restype = ctypes.c_char_p
    check("the version", wadlook.__version__ == version and wadlook._so.wadlook_version().decode() == version)
    public = [getattr(wadlook, name) for name in wadlook.__all__ if callable(getattr(wadlook, name))]
    members = [
        it
        for kind in public
        if isinstance(kind, type)
        for name, it in vars(kind).items()
        if name[0] != "_" and (callable(it) or isinstance(it, property))
    ]
    check("docstrings", all(it.__doc__ for it in public + members))
    check("what help shows", "ForwardRef" not in "".join(pydoc.render_doc(it) for it in public))


def names_in_bytes(base):
    """Names as the bytes of a directory."""
    wad = Wad(base)
    for name in (b"E1M1", b"e1m1", b"E1M1\0\0\0\0", b"E1M1\0ABCDEF"):
        level = wad.level(name)
        check(f"a level by bytes: {name}", level.sectors([(0, 5)]) == [1] and level.place(0, 5) == Place(1, 1))
        check(f"a level's lumps by bytes: {name}", level.is_blocked(0, 1) is False and level.block(0, 5) == Block(0, 0, (0, 0)))
        check(f"an entry by bytes: {name}", wad.find(name, 7) == (7, NODES, 28) and bytes(wad.lump(name, 9)) == b"\0")
        check(f"a level of bytes tells its name: {name}", level.name.upper() == "E1M1" and level.extract() == base)
        check(f"pickled: {name}", pickle.loads(pickle.dumps(level)).sectors([(0, 5)]) == [1])
        check(f"no demo by bytes: {name}", refused(Status.DEMO_EMPTY, wad.demo, name))
    check("a name of bytes that isn't there", told(wad.level, b"E2M9\0\0\0\0") == "E2M9: no entry of this name")
    check("a name that isn't there", told(wad.level, "E2M9") == "E2M9: no entry of this name")
    check("an entry that isn't there", told(wad.find, "DEMO1") == "DEMO1: no entry of this name")
    check("a lump that isn't there", told(wad.lump, "REJECT", 2) == "REJECT: the list of entries ends before the lump")
    label = DIRECTORY + 8
    other = base[:label] + b"\xc9\xff1\0" + base[label + 4 :]
    check("a name that is no UTF-8", Wad(other).level(b"\xc9\xff1").sectors([(0, 5)]) == [1])
    check(
        "the same as a word of the system",
        Wad(other).level(b"\xc9\xff1".decode("utf-8", "surrogateescape")).sectors([(0, 5)]) == [1],
    )
    check("a name that is no UTF-8 in words", told(wad.level, b"\xc9\xff1") == r"\xc9\xff1: no entry of this name")
    for name in (1.0, None, bytearray(b"E1M1"), ["E1M1"]):
        for call in (wad.level, wad.find, wad.lump, wad.demo):
            check(f"{call.__name__} of a {type(name).__name__}", raises(TypeError, call, name))
    for call in (wad.find, wad.lump, wad.demo):
        check(f"{call.__name__} of an entry", raises(TypeError, call, 1))


def entries(base):
    """Levels by the entries of their labels, the cells of a picture, and points of a level with faults."""
    wad = Wad(base)
    check("the levels of a file", wad.levels == [Label(0, "E1M1", "doom", 0)])
    level = wad.level(0)
    check("a level by its entry", level.entry == 0 and level.sectors([(0, 5)]) == [1] and level.place(1, 5) == Place(0, 0))
    check("its lumps", level.is_blocked(0, 1) is False and level.block(0, 5) == Block(0, 0, (0, 0)) and level.extract() == base)
    check("the entry of a level by its name", wad.level("E1M1").entry == 0)
    check("a level by its entry, pickled", pickle.loads(pickle.dumps(level)).census(-1, 0, 1, 1) == {0: 2, 1: 4})
    for entry in (1, 10, 11, 2**64 - 1, 2**64, -1):
        check(f"no level at entry {entry}", refused(Status.NO_LEVEL, wad.level, entry))
    check("no level in words", told(wad.level, 3) == "entry 3: no level starts at this entry")
    check("points of a sound level", level.under(0, 5) == Place(1, 1) and level.under(16384, 0) is None)
    twice = Wad(with_words(base, NODES + 24, -32768, -32768)).level(0)  # one ssector twice
    check("points of a level with faults", twice.under(0, 5) == Place(0, 0) and refused(Status.UNSOUND, twice.place, 0, 5))
    ring = Wad(with_words(base, NODES + 24, 0, 0)).level(0)  # the root is its own child
    check("points of a level whose nodes break", ring.under(0, 5) is None)
    later = bytearray(base)
    later[NODES : NODES + 4] = b"XNOD"
    check("a level in another format", Wad(later).levels == [Label(0, "E1M1", "extended", tag="XNOD")])
    short = bytearray(base)
    for place, lump in ((10, b"OTHERMAP"), (3, b"OTHERDEF")):
        short[DIRECTORY + 16 * place + 8 : DIRECTORY + 16 * place + 16] = lump
        check("a level that lacks a lump", Wad(short).levels == [Label(0, "E1M1", "incomplete", place)])
    check("it isn't judged", refused(Status.OTHER_FORMAT, Wad(later).level, 0))
    check("a file that is none", refused(Status.SHORT, lambda: Wad(b"").levels))
    cells = level.cells(4, (-2, 0, 1, 0))
    check("cells", cells[:5] == (1, 4, 1, -2, 0) and cells.sectors.tolist()[1::2] == [1, 0])
    check("a frame out of order", refused(Status.NO_VIEW, level.cells, 4, (2, 0, 1, 0)))
    check("a bound of 17 bits", raises(OverflowError, level.cells, 4, (0, 0, 32768, 0)))
    check("no cells", all(raises(ValueError, level.cells, count) for count in (0, 1025, 2**32 + 1)))


WARNED = [
    "E1M1: W1 sector 0: isn't closed, at (0, 0)",
    "E1M1: W1 sector 0: isn't closed, at (0, 64)",
    "E1M1: W1 sector 1: isn't closed, at (0, 0)",
    "E1M1: W1 sector 1: isn't closed, at (0, 64)",
    "E1M1: W7 level: no player 2 start",
    "E1M1: W8 level: 0 deathmatch starts",
    "E1M1: W19 level: no exit",
]
"""What `wadlens check --map` tells of the sample behind its path."""


def words(path, base):
    """The words of `wadlens`: files by their paths, by their bytes and as pairs, what is found as objects, and refusals."""
    named = [("a.wad", base)]
    found = wadlook.check(path)
    check("findings as lines", [str(it) for it in found] == [f"{path}: {line}" for line in WARNED])
    check("findings of bytes", [str(it) for it in wadlook.check(base)] == [f"bytes: {line}" for line in WARNED])
    check("findings of a buffer", len(wadlook.check(array("B", base))) == len(WARNED))
    for files in (named[0], named, iter(named), [("a.wad", bytearray(base))], [(b"a.wad", memoryview(base))]):
        check("findings of a pair", [str(it) for it in wadlook.check(files)] == [f"a.wad: {line}" for line in WARNED])
    first = wadlook.check(named)[0]
    check("a finding", first == Found("a.wad", "E1M1", 0, "W1", "sector", 0, "isn't closed", (0, 0)))
    check("a finding of a level", found[-1].index is None and found[-1].at is None and found[-1].kind == "level")
    check("without warnings", wadlook.check(named, map=False) == [])
    check("the most of one code", [it.code for it in wadlook.check(named, most=1)] == ["W1", "W7", "W8", "W19"])
    for ignore in ("W1,W7-W8", ["W1", "w7-w8"], "w8,W7, W1"):
        check("ignored codes", [it.code for it in wadlook.check(named, ignore=ignore)] == ["W19"])
    check("a group of codes", wadlook.check(named, ignore="warnings") == [])
    for ignore in ("F1", "W8-W7", "N1-W1", "W26", "W1,"):
        check(f"no codes: {ignore}", raises(ValueError, lambda words: wadlook.check(named, ignore=words), ignore))
    check("more of one code than fits", raises(OverflowError, lambda: wadlook.check(named, most=-1)))
    check("sets of codes", wadlook.codes("") == 0 and wadlook.codes(["N2", "notes"]) == 0xFFF << 18)
    alike = base[:DIRECTORY] + b"".join(2 * [base[DIRECTORY:]])
    twice = alike[:4] + struct.pack("<ii", 22, DIRECTORY) + alike[12:]
    hidden = wadlook.check([("a.wad", twice)], ignore="W1-W8")
    check(
        "a hidden label",
        [str(it) for it in hidden] == ["a.wad: E1M1 (entry 0): W19 level: no exit", "a.wad: E1M1: W19 level: no exit"],
    )
    faulty = with_words(base, NODES + 24, -32768, -32768)
    faults = wadlook.check([("a.wad", faulty), ("none.wad", b"")], map=False)
    check("faults of one file", [it.code for it in faults] == ["F15", "F16", ""])
    check(
        "a file that is refused",
        str(faults[-1]) == "wadlens: none.wad: shorter than a WAD header" and faults[-1].file == "none.wad",
    )
    unbuilt = with_words(base, DIRECTORY + 16 * 7 + 4, 0, 0)  # NODES without bytes
    told_first = "a.wad: E1M1: NODES is empty: 1 ssectors can't be reached; build the nodes"
    check("nodes that weren't built", [str(it) for it in wadlook.check([("a.wad", unbuilt)], map=False)][0] == told_first)
    unordered = bytearray(base)
    for place, name in ((3, b"SEGS\0\0\0\0"), (5, b"SIDEDEFS")):
        unordered[DIRECTORY + 16 * place + 8 : DIRECTORY + 16 * place + 16] = name
    lines = ["incomplete: no SIDEDEFS where it belongs", "lumps in another order: SEGS before SIDEDEFS"]
    check("lumps in another order", [(it.code, it.message) for it in wadlook.check(unordered)] == [("", line) for line in lines])
    check("a path with a control", str(wadlook.check([("a\n.wad", b"")])[0]) == "wadlens: a\\x0a.wad: shorter than a WAD header")
    with_base = [it.code for it in wadlook.check(named, base=[("game.wad", base)])]
    check("over a base file", with_base == [it.code for it in found])
    for call in (wadlook.check, wadlook.survey):
        check(
            "a base file that is refused",
            refusal(call, named, [("game.wad", b"")]) == (2, "wadlens: game.wad: shorter than a WAD header"),
        )
    check("a finding copied and pickled", pickle.loads(pickle.dumps(first)) == first and copy.copy(first) == first)

    row, none = wadlook.survey([*named, ("none.wad", b"")])
    check("a survey", (row["file"], row["level"], row["sectors"], row["sound"]) == ("a.wad", "E1M1", 2, True))
    check("a survey of what is refused", none == {"file": "none.wad", "refused": "shorter than a WAD header"})
    check("a survey with warnings", wadlook.survey(named, map=True)[0]["warnings"] == {"W1": 4, "W7": 1, "W8": 1, "W19": 1})
    check("a picture", wadlook.picture("E1M1", named, cells=4).startswith("<svg "))
    check(
        "a picture of a part",
        wadlook.picture(b"E1M1", base, frame=(0, 0, 8, 8)).startswith(
            '<svg xmlns="http://www.w3.org/2000/svg" viewBox="-32 -40 72 72" '
        ),
    )
    check("no such picture", refusal(wadlook.picture, "E1M2", named) == (2, "wadlens: E1M2: no level of this name"))
    check("a frame out of order", raises(ValueError, lambda: wadlook.picture("E1M1", named, frame=(1, 0, 0, 0))))
    check("no cells", raises(ValueError, lambda: wadlook.picture("E1M1", named, cells=0)))
    check("a level cut out", wadlook.cut(path, 0) == base and wadlook.cut(base, "e1m1") == base)
    check("no level to cut out", refusal(wadlook.cut, named[0], 3) == (2, "wadlens: a.wad: no level starts at entry 3"))
    check("no entry's number", raises(OverflowError, wadlook.cut, base, -1) and raises(OverflowError, wadlook.cut, base, 2**64))
    check("more words than one file", raises(TypeError, wadlook.cut, 5, 0))
    explained = wadlook.explain("f3")
    check("a code explained", explained.startswith("F3: ") and len(wadlook.explain().splitlines()) == 55)
    check("no such code", raises(ValueError, wadlook.explain, "F19"))
    ordered = _program._ordered(["check", "a", "--max", "3", "--frame", "-1,0,1,0", "b", "--", "-c"])
    check("a program's words in any order", ordered == ["check", "--max=3", "--frame=-1,0,1,0", "--", "a", "b", "-c"])
    of_demos()


def run(*given):
    """How `python -m wadlook` ends, and what it writes to both ends."""
    ran = subprocess.run([sys.executable, "-m", "wadlook", *given], capture_output=True, text=True, check=False)
    return ran.returncode, ran.stdout, ran.stderr


def program(path):
    """`python -m wadlook` with files that can't be read, as `wadlens` tells of them."""
    with tempfile.TemporaryDirectory() as folder:
        absent = os.path.join(folder, "a\nb.wad")
        shown = absent.replace("\n", "\\x0a")
        lines = f"wadlens: {shown}: can't be opened\nwadlens: {folder}: can't be read\n"
        check(
            "files that can't be read, checked",
            run("check", absent, path, folder) == (2, "1 levels in 3 files: 0 faults, 0 notes, 0 not judged\n", lines),
        )
        status, objects, told = run("survey", absent, path, folder)
        rows = [json.loads(line) for line in objects.splitlines()]
        check("files that can't be read, surveyed", (status, told) == (2, lines) and rows[1]["level"] == "E1M1")
        reasons = {"file": absent, "refused": "can't be opened"}, {"file": folder, "refused": "can't be read"}
        check("their objects", (rows[0], rows[2]) == reasons)
        one = f"wadlens: {shown}: can't be opened\n"
        for words_of_it in (["cut", "--entry=0", absent], ["listing", absent], ["picture", "E1M1", path, absent]):
            check(f"a file that can't be read: {words_of_it[0]}", run(*words_of_it) == (2, "", one))
        check("files that can't be read, compared", run("compare", absent, folder) == (2, "", lines))
        check("a base file that can't be read", run("check", "--map", "--base", absent, path) == (2, "", one))
        larger = os.path.join(folder, "large.wad")
        with open(larger, "wb") as file:
            file.truncate(2**40)
        check("a file that is too large", run("check", larger)[2] == f"wadlens: {larger}: larger than 268435456 bytes\n")


def of_demos():
    easier = TWO_COMMANDS[:1] + b"\2" + TWO_COMMANDS[2:]
    pair = ("a.lmp", TWO_COMMANDS), ("b.lmp", easier)
    check("the same demos", wadlook.compare(pair[0], pair[0]) == "")
    check("other headers", wadlook.compare(*pair) == "header: skill 3, 2" and wadlook.compare(*pair, commands=True) == "")
    check("no demo to compare", refusal(wadlook.compare, pair[0], ("c.lmp", b"")) == (2, "wadlens: c.lmp: empty"))
    row = wadlook.demos(pair[0])[0]
    check("demos", (row["file"], row["skill"], row["tics"], row["after"]) == ("a.lmp", 3, 2, 1))
    listing = wadlook.listing(pair[0])
    check(
        "a listing", listing.startswith("demo version 109 skill 3 episode 1 map 1 ") and listing.endswith("tics 2 odd 0 after 1\n")
    )
    check("put together", wadlook.assemble(listing) == TWO_COMMANDS[:-1])
    wrong = "wadlens: standard input: line 1 is no line of a listing: a demo's header is wanted"
    check("no listing", refusal(wadlook.assemble, "x\n") == refusal(wadlook.assemble, b"x\n") == (2, wrong))
    try:
        wadlook.assemble("x\n")
    except Refusal as why:
        again = pickle.loads(pickle.dumps(why))
        check("a refusal pickled", (str(again), again.end) == (wrong, End.REFUSED))


def refusal(call, *given):
    """How a run is refused, and in which words."""
    try:
        call(*given)
    except Refusal as why:
        return why.end, str(why)
    return None


def told(call, *words):
    """The words in which a call is refused."""
    try:
        call(*words)
    except WadlookError as why:
        return str(why)
    return None


def numbers_of(enum):
    """The names and numbers of an enum of the header."""
    with open("include/wadlook.h", encoding="utf-8") as file:
        block = re.search(rf"^enum {enum} {{$(.*?)^}};$", file.read(), re.M | re.S)
    return dict(re.findall(r"^    WADLOOK_(\w+) = (\d+)", block[1], re.M))


def many_sectors(base):
    """The sample level with 65,536 sectors, of which sidedef 1 faces the last."""
    wad = with_words(base, SIDEDEFS + 58, -1)
    struct.pack_into("<ii", wad, DIRECTORY + 16 * 8, len(wad), 26 * 65536)
    return Wad(wad + bytes(26 * 65536)).level("E1M1", wide=True)


def stays(why):
    """Whether a refusal comes out of pickle, as from another process, and of copy as it went in."""
    why.added = "by the caller"
    again = pickle.loads(pickle.dumps(why)), copy.copy(why)
    return all((str(it), it.args, vars(it)) == (str(why), why.args, vars(why)) for it in again)


def lends(points):
    """Whether the library reads a buffer's points where they are."""
    return ctypes.addressof(wadlook._points_of(points)[0]) == ctypes.addressof(ctypes.c_char.from_buffer(points))


def numpy_cases(path):
    try:
        import numpy
    except ImportError:
        return
    level = Wad(path).level("E1M1")
    points = numpy.array([[1, 5], [0, 5], [16384, 0]], dtype=numpy.int32)
    check("numpy's points are lent", lends(points))
    check("sectors of numpy's points", numpy.asarray(level.sectors(points)).tolist() == [0, 1, NOWHERE])
    check("sectors of numpy's no points", numpy.asarray(level.sectors(points[:0])).tolist() == [])
    points.setflags(write=False)
    check("read-only points are copied", ctypes.addressof(wadlook._points_of(points)[0]) != points.ctypes.data)
    check("sectors of read-only points", level.sectors(points).tolist() == [0, 1, NOWHERE])
    rows = numpy.array([[1, 0, 16384, -1], [5, 5, 0, 5]], dtype=numpy.int32)
    for wrong in (points.astype(numpy.int64), points.astype(numpy.float32), points.T, rows, rows.reshape(2, 2, 2)):
        try:
            level.sectors(wrong)
            check("numpy's other arrays", False)
        except TypeError:
            check("numpy's other arrays", True)


def pandas_cases(path):
    try:
        import pandas
    except ImportError:
        return
    frame = pandas.DataFrame(wadlook.survey([path, ("none.wad", b"")]))
    check(
        "pandas takes a survey",
        frame.shape[0] == 2 and frame["sectors"][0] == 2 and frame["refused"][1] == "shorter than a WAD header",
    )
    check("pandas takes findings", pandas.DataFrame(wadlook.check(path))["code"].tolist() == ["W1"] * 4 + ["W7", "W8", "W19"])


cases(sys.argv[1])
numpy_cases(sys.argv[1])
pandas_cases(sys.argv[1])
sys.exit(add_up())
