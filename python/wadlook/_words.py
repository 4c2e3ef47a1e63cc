"""The words of `wadlens` that make no files, over files that are held in memory."""

from __future__ import annotations

import ctypes
import enum
import json
import operator
import os
import re
import stat
import struct
from typing import TYPE_CHECKING, Any, Dict, Iterable, List, NamedTuple, Optional, Sequence, Tuple, Union, cast

from wadlook import _CODES, _ENDS, _Lent, _so, Frame, Lump, Name, WadlookError, _bytes_of, _cells_of, _frame_of, _view_of

if TYPE_CHECKING:
    from wadlook import Buffer, Source

Path = Union[str, "os.PathLike[str]"]
File = Union[Path, "Source", Tuple[Union[str, bytes], "Source"]]
"""A file: its path, its bytes, or the path by which answers name it and its bytes."""

Codes = Union[str, Iterable[str]]
"""Words for codes, as `"N2,W7-W8"` or `["notes", "W9"]`."""


class End(enum.IntEnum):
    """How a run ended, as `include/wadlook.h` numbers it. The first four are the statuses of `wadlens`."""

    CLEAN = 0
    FAULTY = 1
    REFUSED = 2
    NO_MEMORY = 3
    STOPPED = 4
    MISTAKEN = 5


class Refusal(WadlookError):
    """A run was refused: the text says why, as `wadlens` tells it, and `end` how it ended."""

    def __init__(self, end: int, messages: str) -> None:
        Exception.__init__(self, messages.rstrip("\n") or _ENDS[end])
        self.end, self.messages, self.what = End(end), messages, ""

    def __reduce__(self) -> Any:
        return type(self), (self.end, self.messages), {}


class Ran(NamedTuple):
    """What a run wrote, and how it ended."""

    answer: bytes
    messages: bytes
    end: End


class Found(NamedTuple):
    """A finding or a warning, at a level of a file. `str()` gives the line that `wadlens check` prints of it.

    `file` is the path that was given, as lines show it, `level` the label's name and `entry` the label's entry. `index` is the number of
    the record, a block's column and row, or None of a level. `at` is where it is, `to` the other end of what has two, and `linedef` the
    linedef that it is found at. Where `code` is "" the message alone says what is wrong: a file is refused, a level isn't judged, its ten
    lumps stand in another order, or its nodes weren't built.
    """

    file: str
    level: str
    entry: int
    code: str
    kind: str
    index: Union[None, int, Tuple[int, int]]  # type: ignore[assignment]  # a tuple has a method of this name
    message: str
    at: Optional[Tuple[int, int]] = None
    to: Optional[Tuple[int, int]] = None
    linedef: Optional[int] = None
    hidden: bool = False

    def __str__(self) -> str:
        label = f"{self.level} (entry {self.entry})" if self.hidden else self.level
        if not self.code:
            return f"{self.file}: {label}: {self.message}" if self.level else f"wadlens: {self.file}: {self.message}"
        index = f" {self.index}" if self.index is not None else ""
        return f"{self.file}: {label}: {self.code} {self.kind}{index}: {self.message}{self._place()}"

    def _place(self) -> str:
        if self.linedef is not None:
            return f", of linedef {self.linedef}"
        if self.at is None:
            return ""
        return f", at {self.at}" if self.to is None else f", from {self.at} to {self.to}"


class _Question(ctypes.Structure):
    _fields_ = [
        ("name", ctypes.c_char_p),
        ("name_len", ctypes.c_size_t),
        *((name, ctypes.c_uint64) for name in ("number", "ignored", "failing")),
        *((name, ctypes.c_size_t) for name in ("limit", "bases")),
        *((name, ctypes.c_uint32) for name in ("word", "cells")),
        *((name, ctypes.c_int16) for name in ("x0", "y0", "x1", "y1")),
        *((name, ctypes.c_bool) for name in ("framed", "wide", "map", "strict", "game_ends")),
    ]


class _File(ctypes.Structure):
    _fields_ = [
        ("path", ctypes.c_char_p),
        ("path_len", ctypes.c_size_t),
        ("bytes", ctypes.c_void_p),
        ("bytes_len", ctypes.c_size_t),
    ]


class _Told(ctypes.Structure):
    _fields_ = [("answer", ctypes.c_size_t), ("messages", ctypes.c_size_t)]


# What is asked, by the numbers of `include/wadlook.h`.
_CHECK, _SURVEY, _DEMOS, _DEMOS_JSON, _CUT, _CHECK_JSON, _CUT_LEVEL, _PICTURE = range(8)
_COMPARE, _ASSEMBLE, _EXPLAIN, _EXPLAIN_ALL, _LISTING, _COMPARE_COMMANDS = range(8, 14)


class _Held(NamedTuple):
    """A file as the library takes it: the path as bytes, and its bytes, lent."""

    path: bytes
    lent: _Lent


_LARGEST = 2**28
"""The most bytes that a word reads of a file."""


def _read(path: Path) -> bytes:
    """A file's bytes; of one that is too large, as of a device without an end, only as many as show that."""
    with open(path, "rb") as file:
        about = os.fstat(file.fileno())
        is_short = stat.S_ISREG(about.st_mode) and about.st_size <= _LARGEST
        return file.read() if is_short else file.read(_LARGEST + 1)


def _held(file: File) -> _Held:
    if isinstance(file, tuple):
        name, source = file
        return _Held(_bytes_of(name), _Lent(source))
    if isinstance(file, (str, os.PathLike)):
        return _Held(os.fsencode(file), _Lent(_read(file)))
    return _Held(b"bytes", _Lent(file))


def _is_one(files: object) -> bool:
    """Whether one file was given in the place of several: its path, its bytes, or its path and its bytes."""
    if isinstance(files, tuple):
        return len(files) == 2 and isinstance(files[0], (str, bytes)) and not isinstance(files[1], (str, os.PathLike, tuple))
    return isinstance(files, (str, os.PathLike)) or _view_of(cast("Buffer", files)) is not None


def _many(files: Union[File, Iterable[File]]) -> List[_Held]:
    """The files, or the one file that was given in their place."""
    if _is_one(files):
        return [_held(cast(File, files))]
    return [_held(file) for file in cast("Iterable[File]", files)]


def _array(files: Sequence[_Held]) -> "ctypes.Array[_File]":
    whole = Lump(0, 0, 0)
    rows = [_File(file.path, len(file.path), file.lent.at(whole), len(file.lent.given)) for file in files]
    return (_File * len(rows))(*rows)


def _run(question: _Question, files: Sequence[_Held] = (), given: bytes = b"", room: int = 1 << 20) -> Ran:
    """What the library answers: asked again with the room that is enough, where there was too little."""
    rows, told, notes = _array(files), _Told(), 1 << 12
    while True:
        answer, messages = ctypes.create_string_buffer(room), ctypes.create_string_buffer(notes)
        end = _so.wadlook_run(
            ctypes.byref(question), rows, len(rows), given, len(given), answer, room, messages, notes, ctypes.byref(told)
        )
        if told.answer <= room and told.messages <= notes:
            break
        room, notes = max(room, told.answer), max(notes, told.messages)
    if end == End.NO_MEMORY:
        raise MemoryError(_ENDS[end])
    return Ran(ctypes.string_at(answer, told.answer), ctypes.string_at(messages, told.messages), End(end))


def _text(told: bytes) -> str:
    return told.decode("utf-8", "replace")


def _refuse(ran: Ran) -> Ran:
    """The same run, unless it was refused."""
    if ran.end == End.MISTAKEN:
        raise ValueError(_ENDS[ran.end])
    if ran.end != End.CLEAN and ran.messages and not ran.answer:
        raise Refusal(ran.end, _text(ran.messages))
    return ran


def _fits(number: int) -> int:
    """A number as the library takes it, of 64 bits."""
    if not 0 <= operator.index(number) < 2**64:
        raise OverflowError(f"{number} isn't 0 to 2**64 - 1")
    return number


def _number_of(word: str) -> int:
    try:
        return _CODES.index(word.upper())
    except ValueError:
        raise ValueError(f"there is no code {word}") from None


def _joined(words: Codes) -> str:
    return (words if isinstance(words, str) else ",".join(words)).replace(" ", "")


def codes(words: Codes) -> int:
    """A set of codes as the library takes it: the bit of each code's rank.

    Words are notes and warnings, ranges of them, and the groups `game`, `notes` and `warnings`: `"N2,W7-W8"` or `["N2", "game"]`.
    """
    text = _joined(words)
    bits = ctypes.c_uint64()
    if not _so.wadlook_codes(text.encode(), ctypes.byref(bits)):
        raise ValueError(f"{text} names no notes and warnings, as N2,W7-W8: codes, ranges, or game, notes, warnings")
    return bits.value


def _failing(words: Codes) -> Tuple[int, bool]:
    """What is as grave as a fault: a set of codes, and whether what ends the game is, which `game` asks for."""
    parts = _joined(words).split(",")
    others = [part for part in parts if part.lower() != "game"]
    return codes(others), len(others) < len(parts)


def _asked(
    word: int, *, map: bool = False, wide: bool = False, strict: bool = False, ignore: Codes = (), fail: Codes = (), **more: Any
) -> _Question:
    failing, game_ends = _failing(fail)
    return _Question(
        word=word, map=map, wide=wide, strict=strict, ignored=codes(ignore), failing=failing, game_ends=game_ends, **more
    )


def _shown(path: bytes) -> str:
    """A path as lines show it: no control as it is."""
    plain = re.sub(rb"\xc2[\x80-\x9f]|[\x00-\x1f\x7f]", lambda found: b"".join(b"\\x%02x" % byte for byte in found.group()), path)
    return plain.decode("utf-8", "replace")


def _last_entries(wad: bytes) -> Dict[bytes, int]:
    """The last entry of each name, as a look-up finds it."""
    count, place = struct.unpack_from("<ii", wad, 4)
    rows = struct.iter_unpack("<ii8s", wad[place : place + 16 * count])
    return {name: entry for entry, (_, _, name) in enumerate(rows)}


class _Labels:
    """Which labels of a file a look-up misses. The directory is gone over once, and only where something was found."""

    def __init__(self, lent: _Lent) -> None:
        self._lent = lent
        self._names: Optional[List[bytes]] = None
        self._last: Dict[bytes, int] = {}

    def is_hidden(self, entry: int) -> bool:
        if self._names is None:
            wad = bytes(self._lent.given)
            self._last = _last_entries(wad)
            count, place = struct.unpack_from("<ii", wad, 4)
            self._names = [wad[at + 8 : at + 16] for at in range(place, place + 16 * count, 16)]
        name = self._names[entry]
        asked = name.partition(b"\0")[0].upper().ljust(8, b"\0")
        return name != asked or self._last[name] != entry


def _unjudged(told: Dict[str, Any]) -> str:
    kind = told["format"]
    if kind == "incomplete":
        return f"incomplete: no {told['lump']} where it belongs"
    if kind == "outside":
        return f"outside: {told['lump']}"
    if kind == "extended":
        return f"extended nodes {told['tag']}: {told.get('broken', 'not read')}"
    return f"{kind}: not read"


def _pair(numbers: Optional[List[int]]) -> Optional[Tuple[int, int]]:
    return (numbers[0], numbers[1]) if numbers else None


def _uncoded(told: Dict[str, Any]) -> Optional[str]:
    """What an object says of a level that has no code."""
    if "format" in told:
        return _unjudged(told)
    if "order" in told:
        return "lumps in another order: {} before {}".format(*told["order"])
    return told["message"] if "empty" in told else None


def _found(path: str, told: Dict[str, Any], labels: _Labels) -> Optional[Found]:
    """What an object of `check --json` tells, if it says what is wrong."""
    if "refused" in told:
        return Found(path, "", 0, "", "file", None, told["refused"])
    uncoded = _uncoded(told)
    if uncoded is not None:
        return Found(path, told["level"], told["entry"], "", "level", None, uncoded, hidden=labels.is_hidden(told["entry"]))
    if "message" not in told:
        return None
    index, place = told.get("index"), told.get("place", {})
    at, to = place.get("at", place.get("from")), place.get("to")
    return Found(
        path,
        told["level"],
        told["entry"],
        told["code"],
        told["kind"],
        _pair(index) if isinstance(index, list) else index,
        told["message"],
        _pair(at),
        _pair(to),
        place.get("linedef"),
        labels.is_hidden(told["entry"]),
    )


def check(
    files: Union[File, Iterable[File]],
    base: Union[File, Iterable[File]] = (),
    *,
    map: bool = True,
    wide: bool = False,
    ignore: Codes = (),
    most: int = 0,
) -> List[Found]:
    """The findings of all levels of some files, and with `map` the warnings, in the order of `wadlens check`.

    `base` are files that each of the others stands on, as its game's: their textures and flats count, too. `ignore` names notes and
    warnings that aren't told. `most` is how many of one code in one level are told at most, 0 all.
    """
    under, over = _many(base), _many(files)
    out: List[Found] = []
    for file in over:
        question = _asked(_CHECK_JSON, map=map, wide=wide, ignore=ignore, number=_fits(most), bases=len(under))
        ran = _refuse(_run(question, [*under, file]))
        path, labels = _shown(file.path), _Labels(file.lent)
        for line in ran.answer.splitlines():
            found = _found(path, json.loads(line), labels)
            if found:
                out.append(found)
    return out


def survey(
    files: Union[File, Iterable[File]],
    base: Union[File, Iterable[File]] = (),
    *,
    map: bool = False,
    wide: bool = False,
    ignore: Codes = (),
) -> List[Dict[str, Any]]:
    """A dictionary for each level and for each file that is refused, with the members of `wadlens survey`: `pandas.DataFrame` takes it."""
    under, over = _many(base), _many(files)
    ran = _refuse(_run(_asked(_SURVEY, map=map, wide=wide, ignore=ignore, bases=len(under)), [*under, *over]))
    return [json.loads(line) for line in ran.answer.splitlines()]


def demos(files: Union[File, Iterable[File]]) -> List[Dict[str, Any]]:
    """A dictionary for each demo of some files, with the members of `wadlens demos --json`: those of demo files, and of WAD files' lumps."""
    return [json.loads(line) for line in _refuse(_run(_asked(_DEMOS_JSON), _many(files))).answer.splitlines()]


def picture(
    name: Name,
    files: Union[File, Iterable[File]],
    *,
    map: bool = False,
    wide: bool = False,
    ignore: Codes = (),
    cells: int = 512,
    frame: Optional[Frame] = None,
) -> str:
    """A level as the text of an SVG. The files are one set: a later one hides the names of those before it.

    `cells` is how many cells the longer side has at most, `frame` the part of the map (x0, y0, x1, y1) that is drawn in cells, and with
    `map` warnings are marked.
    """
    asked = _bytes_of(name)
    view: Dict[str, Any] = {"cells": _cells_of(cells), **_frame_of(frame)}
    question = _asked(_PICTURE, map=map, wide=wide, ignore=ignore, name=asked, name_len=len(asked), **view)
    return _text(_refuse(_run(question, _many(files))).answer)


def cut(file: File, level: Union[Name, int]) -> bytes:
    """A PWAD of one level alone, in any format: the level of a name, or the one whose label is an entry."""
    if isinstance(level, int):
        question = _asked(_CUT, number=_fits(level))
    else:
        asked = _bytes_of(level)
        question = _asked(_CUT_LEVEL, name=asked, name_len=len(asked))
    held = _held(file)
    return _refuse(_run(question, [held], room=len(held.lent.given) + (1 << 12))).answer


def compare(a: File, b: File, *, commands: bool = False) -> str:
    """Where two demo files first differ, in one line without its end; "" where all that is compared is the same.

    With `commands` that is how many players there are and what their commands do, and no header.
    """
    ran = _run(_asked(_COMPARE_COMMANDS if commands else _COMPARE), [_held(a), _held(b)])
    if ran.end == End.REFUSED:
        raise Refusal(ran.end, _text(ran.messages))
    return _text(ran.answer).rstrip("\n")


def listing(file: File) -> str:
    """What a demo file of any engine holds: a line of its header, lines of its options, a line for each command, and its totals."""
    return _text(_refuse(_run(_asked(_LISTING), [_held(file)])).answer)


def assemble(text: Union[str, bytes]) -> bytes:
    """A demo from its listing, as `wadlook demo` prints it."""
    given = text.encode() if isinstance(text, str) else text
    return _refuse(_run(_asked(_ASSEMBLE), given=given)).answer


def explain(code: Optional[str] = None) -> str:
    """What a code means, what the game does then, and what helps; without a code the list of all."""
    question = _asked(_EXPLAIN_ALL) if code is None else _asked(_EXPLAIN, number=_number_of(code))
    return _text(_refuse(_run(question)).answer)
