"""Proved calls over the levels of Doom's WAD files.

    import wadlook
    for found in wadlook.check("mine.wad", base="doom2.wad"):
        print(found)                  # as `wadlens check --map` tells it
    wad = wadlook.Wad("doom2.wad")
    [it.name for it in wad.levels]    # ["MAP01", "MAP02", ..]
    level = wad.level("MAP12")
    level.faults                      # [] for a sound level
    level.sectors([(0, 5), (64, 8)])  # the sector of each point, None where one is out of range

`check`, `survey`, `demos`, `picture`, `cut`, `compare`, `listing`, `assemble` and `explain` do what these words of `wadlens` do, over files
that are given by their paths, by their bytes, or as `(path, bytes)`. `python -m wadlook check FILE...` has them as a program.

`help(wadlook.Wad)` and `help(wadlook.Level)` list the calls on one level, in Doom's format. `Wad.level` takes the entry of a
level's label, or its name. By its name a level of another format is read as Doom's, and then the answers mean nothing; by its
entry it is refused. A `Wad` is one file: of a PWAD over a game's file ask the PWAD first, and then the game's.

The module calls libwadlook through ctypes; `include/wadlook.h` of the project says what each call promises. It takes the library
beside it, as in a release's wheel, or that of the checkout that it stands in (`tools/library` builds it into out/lib), and else
libwadlook.so.0 where the system's loader finds it. The calls keep no state and let other threads of Python run.
"""

from __future__ import annotations

import ctypes
import enum
import operator
import os
from array import array
from typing import TYPE_CHECKING, Any, Iterable, NamedTuple, Protocol, Union, cast, get_type_hints, overload

if TYPE_CHECKING:
    from mmap import mmap

__all__ = [
    "Block",
    "Cells",
    "Command",
    "Demo",
    "End",
    "Finding",
    "Found",
    "Label",
    "Level",
    "Lump",
    "NOWHERE",
    "Place",
    "Refusal",
    "Status",
    "Wad",
    "WadlookError",
    "assemble",
    "check",
    "codes",
    "compare",
    "cut",
    "demos",
    "explain",
    "listing",
    "picture",
    "read_demo",
    "survey",
]

__version__ = "0.1.0"

NOWHERE = 65535
"""The sector and the ssector of a point that is out of range, in answers to buffers.

Under `wide` it is also the number of the last of 65,536 sectors, but never that of an ssector: `places`, and `sectors` of pairs,
tell them apart.
"""


class Status(enum.IntEnum):
    """How a call ended, as `include/wadlook.h` numbers it."""

    DONE = 0
    UNSOUND = 1
    MEMORY = 2
    NO_ROOM = 3
    SHORT = 4
    MAGIC = 5
    COUNT = 6
    DIRECTORY = 7
    NO_NAME = 8
    LUMP_MISSING = 9
    LUMP_OUTSIDE = 10
    TOO_LARGE = 11
    DEMO_EMPTY = 12
    DEMO_VERSION = 13
    DEMO_SHORT = 14
    DEMO_NO_PLAYER = 15
    DEMO_NO_MARKER = 16
    NO_RECT = 17
    OUT_OF_RANGE = 18
    NO_BLOCKMAP = 19
    NO_BLOCK = 20
    OFFSET_OUTSIDE = 21
    NO_END = 22
    NO_SECTOR = 23
    UNKNOWN = 24
    NO_LEVEL = 28
    OTHER_FORMAT = 29
    NO_VIEW = 30
    NOTHING_TO_DRAW = 31


class WadlookError(Exception):
    """A call was refused: `status` is why, `what` the name that it was asked for, if any, and the text says both in words."""

    def __init__(self, status: int, what: str = "") -> None:
        self.status, self.what = Status(status), what
        words = _words_of(status)
        super().__init__(f"{what}: {words}" if what else words)

    def __reduce__(self) -> tuple[type[WadlookError], tuple[Status, str], dict[str, object]]:
        return type(self), (self.status, self.what), self.__dict__


class Place(NamedTuple):
    """Where a point lies."""

    sector: int
    ssector: int


class Finding(NamedTuple):
    """A fault (F1 to F18) or a note (N1 to N12), the record or lump at which it holds, and what it says."""

    code: str
    index: int  # type: ignore[assignment]  # a tuple has a method of this name
    text: str


class Label(NamedTuple):
    """A level of a file: the entry of its label, the label's name, and its format: doom, hexen, udmf, extended, incomplete or outside.

    Of `incomplete` and `outside` `lump` is the place after the label, from 1 to 10, of the lump that isn't there or isn't inside the file.
    Of `extended` `tag` is how its nodes begin.
    """

    entry: int
    name: str
    format: str
    lump: int = 0
    tag: str = ""


class Cells(NamedTuple):
    """Which sectors a part of a map shows, in cells of a size in map units: the lowest row first, -1 where there is none.

    The cell of column i and row j stands at `sectors[j * columns + i]`, and shows the sector of the point (x + i * size, y + j * size).
    """

    size: int
    columns: int
    rows: int
    x: int
    y: int
    sectors: memoryview


class Lump(NamedTuple):
    """An entry's number, from 0, and its lump: `size` bytes of the file from `place` on."""

    entry: int
    place: int
    size: int


class Block(NamedTuple):
    """A block of BLOCKMAP and its list, as it stands: its first number is mostly 0 and no linedef."""

    column: int
    row: int
    lines: tuple[int, ...]


class Command(NamedTuple):
    """What one player does in one tic."""

    forward: int
    side: int
    turn: int
    buttons: int


class Demo(NamedTuple):
    """A demo's header and its commands, of each tic one for each player that takes part, in the order of the players."""

    version: int
    skill: int
    episode: int
    map: int
    deathmatch: int
    respawn: int
    fast: int
    no_monsters: int
    viewpoint: int
    players: tuple[int, int, int, int]
    commands: list[Command]
    after: int


Name = Union[str, bytes]
"""An entry's name: a text, or the bytes of a directory. The first eight bytes count, up to a NUL."""


class _NumpyArray(Protocol):
    """An array of numpy, as type checkers know it."""

    @property
    def __array_interface__(self) -> dict[str, Any]:
        ...


Buffer = Union["array[int]", memoryview, _NumpyArray]
Source = Union[bytes, bytearray, "mmap", "ctypes.Array[Any]", Buffer]
"""A file's bytes."""

Frame = tuple[int, int, int, int]
"""The columns x0 to x1 and the rows y0 to y1 of a map, as (x0, y0, x1, y1)."""

Pairs = Iterable[tuple[int, int]]
Points = Union[Pairs, Buffer]


class _Point(ctypes.Structure):
    _fields_ = [("x", ctypes.c_int32), ("y", ctypes.c_int32)]


class _Place(ctypes.Structure):
    _fields_ = [("ssector", ctypes.c_uint16), ("sector", ctypes.c_uint16)]


class _Finding(ctypes.Structure):
    _fields_ = [("code", ctypes.c_uint32), ("index", ctypes.c_uint32)]


class _Totals(ctypes.Structure):
    _fields_ = [("faults", ctypes.c_size_t), ("notes", ctypes.c_size_t)]


class _Rect(ctypes.Structure):
    _fields_ = [(name, ctypes.c_int32) for name in ("x0", "y0", "x1", "y1")]


class _Count(ctypes.Structure):
    _fields_ = [("sector", ctypes.c_uint32), ("points", ctypes.c_uint32)]


class _Lump(ctypes.Structure):
    _fields_ = [(name, ctypes.c_size_t) for name in ("entry", "place", "size")]


class _Label(ctypes.Structure):
    _fields_ = [
        ("entry", ctypes.c_size_t),
        ("name", ctypes.c_char * 8),
        ("format", ctypes.c_uint32),
        ("lump", ctypes.c_uint32),
        ("tag", ctypes.c_char * 4),
    ]


class _View(ctypes.Structure):
    _fields_ = [
        *((name, ctypes.c_int16) for name in ("x0", "y0", "x1", "y1")),
        ("cells", ctypes.c_uint32),
        ("framed", ctypes.c_bool),
    ]


class _Grid(ctypes.Structure):
    _fields_ = [*((name, ctypes.c_uint32) for name in ("size", "columns", "rows")), ("x", ctypes.c_int32), ("y", ctypes.c_int32)]


class _Block(ctypes.Structure):
    _fields_ = [("column", ctypes.c_uint32), ("row", ctypes.c_uint32), ("first", ctypes.c_size_t), ("count", ctypes.c_size_t)]


_HEADER = ("version", "skill", "episode", "map", "deathmatch", "respawn", "fast", "no_monsters", "viewpoint")


class _Demo(ctypes.Structure):
    _fields_ = [
        ("commands", ctypes.c_size_t),
        ("after", ctypes.c_size_t),
        ("players", ctypes.c_uint32),
        *((name, ctypes.c_uint8) for name in _HEADER),
        ("player", ctypes.c_uint8 * 4),
    ]


class _Command(ctypes.Structure):
    _fields_ = [("turn", ctypes.c_uint16), ("forward", ctypes.c_int8), ("side", ctypes.c_int8), ("buttons", ctypes.c_uint8)]


def _library() -> ctypes.CDLL:
    here = os.path.dirname(os.path.abspath(__file__))
    places = [os.path.join(here, "libwadlook.so"), os.path.join(here, os.pardir, os.pardir, "out", "lib", "libwadlook.so")]
    try:
        so = ctypes.CDLL(next((place for place in places if os.path.exists(place)), "libwadlook.so.0"))
    except OSError as why:
        raise ImportError(
            f"libwadlook isn't there, or isn't for this machine: {why}. A release's wheel brings it, Debian's package libwadlook0, "
            "and in a checkout `tools/library --released out`"
        ) from why
    bytes_in = [ctypes.c_void_p, ctypes.c_size_t]
    level = [*bytes_in, *bytes_in, ctypes.c_bool]
    entry = [*bytes_in, ctypes.c_size_t, ctypes.c_bool]
    takes = {
        "points_at": [*entry, *bytes_in, *bytes_in],
        "prepare_at": [*entry, *bytes_in, ctypes.c_void_p],
        "census_at": [*entry, ctypes.c_void_p, *bytes_in, ctypes.c_void_p],
        "audit_at": [*entry, *bytes_in, ctypes.c_void_p],
        "find_at": [*bytes_in, ctypes.c_size_t, ctypes.c_void_p],
        "extract_at": [*bytes_in, ctypes.c_size_t, *bytes_in, ctypes.c_void_p],
        "under": [*entry, _Point, ctypes.c_void_p],
        "cells": [*entry, ctypes.c_void_p, *bytes_in, ctypes.c_void_p],
        "levels": [*bytes_in, *bytes_in, ctypes.c_void_p],
        "run": [ctypes.c_void_p, *bytes_in, *bytes_in, *bytes_in, *bytes_in, ctypes.c_void_p],
        "points": [*level, *bytes_in, *bytes_in],
        "prepare": [*level, *bytes_in, ctypes.c_void_p],
        "point": [*bytes_in, *bytes_in, _Point],
        "census": [*level, ctypes.c_void_p, *bytes_in, ctypes.c_void_p],
        "audit": [*level, *bytes_in, ctypes.c_void_p],
        "find": [*bytes_in, *bytes_in, ctypes.c_size_t, ctypes.c_void_p],
        "sight": [*bytes_in, ctypes.c_uint32, ctypes.c_uint32, ctypes.c_uint32, ctypes.c_void_p],
        "block": [*bytes_in, ctypes.c_bool, _Point, ctypes.c_void_p],
        "extract": [*bytes_in, *bytes_in, *bytes_in, ctypes.c_void_p],
        "demo": [*bytes_in, *bytes_in, ctypes.c_void_p],
    }
    for name, types in takes.items():
        call = getattr(so, f"wadlook_{name}")
        call.argtypes = types
        call.restype = _Place if name == "point" else ctypes.c_uint32
    so.wadlook_codes.argtypes, so.wadlook_codes.restype = [ctypes.c_char_p, ctypes.c_void_p], ctypes.c_bool
    for name in ("status_text", "end_text", "code_name", "code_text", "kind_text", "format_text"):
        call = getattr(so, f"wadlook_{name}")
        call.argtypes, call.restype = [ctypes.c_uint32], ctypes.c_char_p
    return so


_so = _library()


def _listed(name: str) -> list[str]:
    """The texts of the numbers from 0 on, up to the first that has none."""
    call = getattr(_so, f"wadlook_{name}")
    out: list[str] = []
    while (text := call(len(out))) is not None:
        out.append(text.decode())
    return out


_CODES, _ENDS, _FORMATS, _KINDS = (_listed(name) for name in ("code_name", "end_text", "format_text", "kind_text"))
_TEXTS = dict(zip(_CODES, _listed("code_text")))

_MOST = 2 ** (8 * ctypes.sizeof(ctypes.c_size_t)) - 1
"""The greatest number of entries that the library takes."""


def _bytes_of(name: Name) -> bytes:
    """A name as the library takes it. Of a word or a path Python keeps bytes that are no UTF-8 as surrogates."""
    if isinstance(name, bytes):
        return name
    if isinstance(name, str):
        return name.encode("utf-8", "surrogateescape")
    raise TypeError(f"a name is of type str or bytes, not {type(name).__name__}")


def _text_of(name: Name) -> str:
    """A name in words: of bytes what stands before a NUL, where what is no UTF-8 is escaped."""
    return name if isinstance(name, str) else name.partition(b"\0")[0].decode("utf-8", "backslashreplace")


def _words_of(status: int) -> str:
    """What a status says."""
    return (_so.wadlook_status_text(status) or b"").decode()


def _stop_at(status: int, what: str = "") -> None:
    if status == Status.MEMORY:
        raise MemoryError(f"{what}: {_words_of(status)}" if what else _words_of(status))
    if status:
        raise WadlookError(status, what)


def _view_of(points: Points) -> Union[memoryview, None]:
    """The bytes of a buffer, lent; None of what is no buffer."""
    try:
        return memoryview(cast(memoryview, points))
    except TypeError:
        return None


def _points_of(points: Points) -> tuple[ctypes.Array[_Point], int]:
    """The points as the library reads them: the buffer itself, where it is one and can be written to."""
    flat = _view_of(points)
    if flat is None:
        flat = memoryview(array("i", (number for x, y in cast(Pairs, points) for number in (x, y))))
    if flat.itemsize != 4 or flat.format not in ("i", "l", "<i", "=i") or not flat.c_contiguous or flat.nbytes % 8:
        raise TypeError("points in a buffer are pairs of 32-bit integers without gaps, as array('i') or numpy's int32")
    if (flat.shape or ())[1:] not in ((), (2,)):
        raise TypeError(f"points in a buffer stand in one dimension or in two columns, not in the shape {flat.shape}")
    count = flat.nbytes // 8
    if count == 0:
        return (_Point * 1)(), 0
    if flat.readonly:
        return (_Point * count).from_buffer_copy(flat), count
    return (_Point * count).from_buffer(flat), count


def _fit(*numbers: int) -> None:
    """Refuses coordinates that are no integers, or don't fit 32 bits."""
    if not all(-(2**31) <= operator.index(number) < 2**31 for number in numbers):
        raise OverflowError("a coordinate doesn't fit 32 bits")


def _frame_of(frame: Union[Frame, None]) -> dict[str, int]:
    """What a struct of the library has of a frame: none, or four bounds of 16 bits."""
    if frame is None:
        return {"framed": False}
    x0, y0, x1, y1 = frame
    if not all(-(2**15) <= operator.index(bound) < 2**15 for bound in frame):
        raise OverflowError("a frame's bound doesn't fit 16 bits")
    return {"x0": x0, "y0": y0, "x1": x1, "y1": y1, "framed": True}


def _cells_of(cells: int) -> int:
    """How many cells the longer side has at most."""
    if not 1 <= operator.index(cells) <= 1024:
        raise ValueError("a side has 1 to 1024 cells")
    return cells


_Given = Union[bytes, "ctypes.Array[ctypes.c_char]"]


class _Lent:
    """A file's bytes. Calls take `given`: `bytes`, or an array over a lender's buffer, which neither frees nor moves it meanwhile.

    Each call asks `given` for its address. None is kept: a copy would take along the address of bytes that it doesn't hold.
    """

    def __init__(self, source: Source) -> None:
        view = memoryview(cast(memoryview, source))
        self.given: _Given
        if type(source) is bytes:
            self.given = source
        elif view.readonly or not view.nbytes:
            self.given = view.tobytes()
        else:
            self.given = (ctypes.c_char * view.nbytes).from_buffer(view)

    def _own(self) -> Union[bytes, bytearray]:
        """The bytes as they are now, apart from the lender's. They can be written to where the lender's can."""
        return self.given if isinstance(self.given, bytes) else bytearray(self.given)

    def __reduce__(self) -> tuple[type[_Lent], tuple[Union[bytes, bytearray]]]:
        return _Lent, (self._own(),)

    def __deepcopy__(self, memo: dict[int, object]) -> _Lent:
        return _Lent(self._own())

    def at(self, lump: Lump) -> int:
        """The address of a lump, for a call during which the caller holds this."""
        if isinstance(self.given, bytes):
            return (ctypes.c_void_p.from_buffer(ctypes.c_char_p(self.given)).value or 0) + lump.place
        return ctypes.addressof(self.given) + lump.place

    def view(self, lump: Lump) -> memoryview:
        """A lump's bytes, lent on."""
        return memoryview(self.given).cast("B")[lump.place : lump.place + lump.size]

    def part(self, lump: Lump) -> _Given:
        """A lump for many calls: lent, or a copy of `bytes`, which don't change."""
        if isinstance(self.given, bytes):
            return self.given[lump.place : lump.place + lump.size]
        return (ctypes.c_char * lump.size).from_buffer(self.given, lump.place)

    def find(self, name: Name, after: int) -> Lump:
        """What `Wad.find` answers: a lump of these bytes, whatever a kind of `Wad` makes of `find`."""
        given, asked, lump = self.given, _bytes_of(name), _Lump()
        if not 0 <= operator.index(after) <= _MOST:
            raise OverflowError("the number of entries behind a name isn't that of any")
        _stop_at(_so.wadlook_find(given, len(given), asked, len(asked), after, ctypes.byref(lump)), _text_of(name))
        return Lump(lump.entry, lump.place, lump.size)


def _at(lent: _Lent, entry: int) -> Lump:
    """The lump of an entry."""
    given, lump = lent.given, _Lump()
    _stop_at(_so.wadlook_find_at(given, len(given), entry, ctypes.byref(lump)), f"entry {entry}")
    return Lump(lump.entry, lump.place, lump.size)


class Wad:
    """A WAD file: its path, or its bytes, which are lent where they are `bytes`, a `bytearray` or a writable buffer.

    Calls let other threads run, so don't change lent bytes during a call. As a level keeps what was found of
    it, call `level` again after a change.

    A writable buffer stays lent while the `Wad`, a level or a lump of it is left. Until then Python refuses to resize a `bytearray`
    or an `array` and to close an `mmap`, with `BufferError`. It can't refuse that a file is cut short under a writable `mmap`, nor
    that `ctypes.resize` moves a buffer: a call after that can end the process.

    A pickle and `copy.deepcopy` take the bytes along as they are then, those of a path, too: later changes of the first aren't seen
    in them. `copy.copy` shares lent bytes.
    """

    def __init__(self, source: Union[str, "os.PathLike[str]", Source]) -> None:
        if isinstance(source, (str, os.PathLike)):
            self.name = os.fspath(source)
            with open(source, "rb") as file:
                source = file.read()
        else:
            self.name = ""
        self._lent = _Lent(source)

    def find(self, name: Name, after: int = 0) -> Lump:
        """The entry that many entries behind the last one of a name; behind a level's label 1 to 10 are its lumps."""
        return self._lent.find(name, after)

    def lump(self, name: Name, after: int = 0) -> memoryview:
        """The bytes of that entry's lump, lent."""
        return self._lent.view(self.find(name, after))

    @property
    def levels(self) -> list[Label]:
        """The levels of the file in the order of their entries, those whose name a later entry has, too."""
        given, room, count = self._lent.given, 64, ctypes.c_size_t()
        while True:
            labels = (_Label * room)()
            _stop_at(_so.wadlook_levels(given, len(given), labels, room, ctypes.byref(count)), self.name)
            if count.value <= room:
                break
            room = count.value
        listed = labels[: count.value]
        return [Label(it.entry, _text_of(it.name), _FORMATS[it.format], it.lump, _text_of(it.tag)) for it in listed]

    def level(self, name: Union[Name, int], wide: bool = False) -> Level:
        """The level of a name, or the one whose label is an entry; its indexes are read as unsigned where `wide` says so."""
        return Level(self, name, wide)

    def demo(self, name: Name) -> Demo:
        """The demo in the lump of a name."""
        return _demo_in(bytes(self.lump(name)), _text_of(name))


class _Prepared(NamedTuple):
    """What single places ask: NODES, and the sectors of so many ssectors. It is of one file's bytes: over others a level prepares anew."""

    nodes: _Given
    sectors: ctypes.Array[ctypes.c_uint16]
    ssectors: int

    def __reduce__(self) -> tuple[type[None], tuple[()]]:
        return type(None), ()


class Level:
    """A level of a file. What asks for a sound level raises `WadlookError` with `Status.UNSOUND` at another.

    A pickle and `copy.deepcopy` take its `wad` along, once for all levels of it that go together; `copy.copy` shares it.
    """

    def __init__(self, wad: Wad, name: Union[Name, int], wide: bool = False) -> None:
        self._asked: Union[bytes, int] = operator.index(name) if isinstance(name, int) else _bytes_of(name)
        self.wad, self.name, self.wide = wad, f"entry {name}" if isinstance(name, int) else _text_of(name), wide
        self._audited: list[Finding] | None = None
        self._prepared: _Prepared | None = None
        if isinstance(name, int):
            if not 0 <= name <= _MOST:
                raise WadlookError(Status.NO_LEVEL, self.name)
            totals = _Totals()
            self._call("audit", (_Finding * 1)(), 0, ctypes.byref(totals))
            return
        try:
            wad.find(name)
        except WadlookError as why:
            if why.status != Status.LUMP_OUTSIDE:  # of the label, of which no byte is read
                raise

    def __repr__(self) -> str:
        return f"<Level {self.name!r} of {self.wad.name!r}>"

    def _ask(self, call: str, *more: Any) -> int:
        """The status of a call on the level, which has a form for a name and one for an entry."""
        given, asked = self.wad._lent.given, self._asked
        if isinstance(asked, int):
            return int(getattr(_so, f"wadlook_{call}_at")(given, len(given), asked, self.wide, *more))
        return int(getattr(_so, f"wadlook_{call}")(given, len(given), asked, len(asked), self.wide, *more))

    def _call(self, call: str, *more: Any) -> None:
        """The same, where it isn't refused."""
        _stop_at(self._ask(call, *more), self.name)

    @property
    def entry(self) -> int:
        """The entry of the level's label, of which no byte is asked: they may be outside the file."""
        if isinstance(self._asked, int):
            return self._asked
        try:
            return self._find(0).entry
        except WadlookError as why:
            if why.status != Status.LUMP_OUTSIDE:
                raise
            return self._find(1).entry - 1

    def _find(self, number: int) -> Lump:
        """The lump of this number behind the level's label."""
        if isinstance(self._asked, int):
            return _at(self.wad._lent, self._asked + number)
        return self.wad._lent.find(self._asked, number)

    @property
    def findings(self) -> list[Finding]:
        """The level's faults and then its notes, by code and then by index. The list is the caller's own."""
        if self._audited is None:
            room, totals = 64, _Totals()
            while True:
                found = (_Finding * room)()
                self._call("audit", found, room, ctypes.byref(totals))
                count = totals.faults + totals.notes
                if count <= room:
                    break
                room = count
            self._audited = [Finding(_CODES[it.code], it.index, _TEXTS[_CODES[it.code]]) for it in found[:count]]
        return self._audited.copy()

    @property
    def faults(self) -> list[Finding]:
        """Those of its findings that are faults: none of a sound level."""
        return [it for it in self.findings if it.code[0] == "F"]

    @property
    def notes(self) -> list[Finding]:
        """Those of its findings that are notes."""
        return [it for it in self.findings if it.code[0] == "N"]

    @property
    def is_sound(self) -> bool:
        """Whether it has no fault."""
        return not self.faults

    def _places(self, points: Points) -> tuple[array[int], int]:
        given, count = _points_of(points)
        told = array("H", bytes(4 * max(count, 1)))
        out = (_Place * max(count, 1)).from_buffer(told)
        self._call("points", given, count, out, count)
        return told, count

    @overload
    def sectors(self, points: Buffer) -> memoryview:
        ...

    @overload
    def sectors(self, points: Pairs) -> list[Union[int, None]]:
        ...

    def sectors(self, points: Points) -> Union[list[Union[int, None]], memoryview]:
        """The sector of each point.

        Of pairs `(x, y)`: a list, with None where a point is out of range. Of a buffer of 32-bit integers x, y, x, y, .. (an
        `array('i')`, or numpy's int32 of two columns), which isn't copied unless it is read-only: a memoryview of unsigned
        16-bit integers, which numpy takes as it is, with NOWHERE where a point is out of range; under `wide` that is also the
        number of the last of 65,536 sectors, and `places` tells them apart. The call lets other threads run: until it returns,
        none may write to the buffer.
        """
        told, count = self._places(points)
        if _view_of(points) is not None:
            return memoryview(told)[1 : 2 * count : 2]
        return [None if told[k] == NOWHERE else told[k + 1] for k in range(0, 2 * count, 2)]

    def places(self, points: Points) -> list[Union[Place, None]]:
        """The sector and the ssector of each point, None where one is out of range."""
        told, count = self._places(points)
        return [None if told[k] == NOWHERE else Place(told[k + 1], told[k]) for k in range(0, 2 * count, 2)]

    def place(self, x: int, y: int) -> Union[Place, None]:
        """The sector and the ssector of one point. The level is audited at the first call alone."""
        _fit(x, y)
        if self._prepared is None:
            self._prepared = self._prepare()
        nodes, sectors, ssectors = self._prepared
        told = _so.wadlook_point(nodes, len(nodes), sectors, ssectors, _Point(x, y))
        return None if told.ssector == NOWHERE else Place(told.sector, told.ssector)

    def _prepare(self) -> _Prepared:
        lent, count, room = self.wad._lent, ctypes.c_size_t(), 32768  # no sound level has more ssectors
        sectors = (ctypes.c_uint16 * room)()
        status = self._ask("prepare", sectors, room, ctypes.byref(count))
        _stop_at(Status.UNSOUND if status == Status.NO_ROOM else status, self.name)
        return _Prepared(lent.part(self._find(7)), sectors, count.value)

    def census(self, x0: int, y0: int, x1: int, y1: int) -> dict[int, int]:
        """How many whole points of the columns x0 to x1 and the rows y0 to y1 lie in each sector, of those that have some."""
        _fit(x0, y0, x1, y1)
        rect, count, room = _Rect(x0, y0, x1, y1), ctypes.c_size_t(), 256
        while True:
            counts = (_Count * room)()
            self._call("census", ctypes.byref(rect), counts, room, ctypes.byref(count))
            if count.value <= room:
                return {it.sector: it.points for it in counts[: count.value]}
            room = count.value

    def is_blocked(self, a: int, b: int) -> Union[bool, None]:
        """Whether REJECT refuses the sight from sector a to sector b, None where it ends before their bit."""
        lent = self.wad._lent
        reject, count = self._find(9), self._find(8).size // 26
        if not (0 <= operator.index(a) < count and 0 <= operator.index(b) < count):
            raise WadlookError(Status.NO_SECTOR, self.name)
        bit = ctypes.c_uint32()
        status = _so.wadlook_sight(lent.at(reject), reject.size, count, a, b, ctypes.byref(bit))
        if status == Status.UNKNOWN:
            return None
        _stop_at(status, self.name)
        return bool(bit.value)

    def block(self, x: int, y: int) -> Union[Block, None]:
        """The block that holds a point and its list, None where no block does."""
        _fit(x, y)
        lent, block = self.wad._lent, _Block()
        lump = self._find(10)
        status = _so.wadlook_block(lent.at(lump), lump.size, self.wide, _Point(x, y), ctypes.byref(block))
        if status == Status.NO_BLOCK:
            return None
        _stop_at(status, self.name)
        words = bytes(lent.view(lump)[2 * block.first : 2 * (block.first + block.count)])
        signed = not self.wide
        lines = (int.from_bytes(words[k : k + 2], "little", signed=signed) for k in range(0, len(words), 2))
        return Block(block.column, block.row, tuple(lines))

    def extract(self) -> bytes:
        """A PWAD of the level alone: its label and its ten lumps."""
        given, asked, written = self.wad._lent.given, self._asked, ctypes.c_size_t()
        call = _so.wadlook_extract_at if isinstance(asked, int) else _so.wadlook_extract
        words = (given, len(given), asked) if isinstance(asked, int) else (given, len(given), asked, len(asked))
        status = call(*words, (ctypes.c_char * 1)(), 0, ctypes.byref(written))
        if status != Status.NO_ROOM:
            _stop_at(status, self.name)
        out = (ctypes.c_char * written.value)()
        _stop_at(call(*words, out, written.value, ctypes.byref(written)), self.name)
        return out.raw

    def under(self, x: int, y: int) -> Union[Place, None]:
        """The sector and the ssector of one point, also of a level with faults: None where the walk down its nodes breaks off."""
        _fit(x, y)
        given, told = self.wad._lent.given, _Place()
        _stop_at(_so.wadlook_under(given, len(given), self.entry, self.wide, _Point(x, y), ctypes.byref(told)), self.name)
        return None if told.ssector == NOWHERE else Place(told.sector, told.ssector)

    def cells(self, cells: int = 512, frame: Union[Frame, None] = None) -> Cells:
        """The sectors that cells show: at most so many along the longer side of the frame (x0, y0, x1, y1), or of the level's linedefs."""
        given, grid = self.wad._lent.given, _Grid()
        view = _View(cells=_cells_of(cells), **_frame_of(frame))
        words = given, len(given), self.entry, self.wide, ctypes.byref(view)
        status = _so.wadlook_cells(*words, (ctypes.c_int32 * 1)(), 0, ctypes.byref(grid))
        if status != Status.NO_ROOM:
            _stop_at(status, self.name)
        count = grid.columns * grid.rows
        told = array("i", bytes(4 * count))
        _stop_at(_so.wadlook_cells(*words, (ctypes.c_int32 * count).from_buffer(told), count, ctypes.byref(grid)), self.name)
        return Cells(grid.size, grid.columns, grid.rows, grid.x, grid.y, memoryview(told))


def read_demo(source: Source) -> Demo:
    """The demo that bytes hold."""
    return _demo_in(bytes(cast(memoryview, source)))


def _demo_in(given: bytes, name: str = "") -> Demo:
    """The demo that bytes hold, those of a lump of this name if there is one."""
    info, room = _Demo(), 4096
    while True:
        commands = (_Command * room)()
        _stop_at(_so.wadlook_demo(given, len(given), commands, room, ctypes.byref(info)), name)
        if info.commands <= room:
            break
        room = info.commands
    listed = [Command(it.forward, it.side, it.turn, it.buttons) for it in commands[: info.commands]]
    header = {name: getattr(info, name) for name in _HEADER}
    one, two, three, four = info.player
    return Demo(**header, players=(one, two, three, four), commands=listed, after=info.after)


from wadlook._words import (  # noqa: E402
    End,
    Found,
    Refusal,
    assemble,
    check,
    codes,
    compare,
    cut,
    demos,
    explain,
    listing,
    picture,
    survey,
)

for _tuple in (Place, Finding, Label, Cells, Lump, Block, Command, Demo, Found):
    # Or `help` shows references in the place of types.
    _tuple.__new__.__annotations__.update(get_type_hints(_tuple))
