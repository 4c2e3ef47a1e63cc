"""What a type checker knows of the module `wadlook`: `.ci/style` gives this to mypy, and nothing runs it.

A line that is marked is refused, and the mark on one that isn't refused is told.
"""

import ctypes
import mmap
from array import array
from typing import List, Optional

import wadlook


def of_points(level: wadlook.Level, numbers: "array[int]") -> None:
    pairs: List[Optional[int]] = level.sectors([(0, 5), (64, 8)])
    pairs = level.sectors((x, y) for x in range(2) for y in range(2))
    lent: memoryview = level.sectors(numbers)
    lent = level.sectors(memoryview(numbers))
    places: List[Optional[wadlook.Place]] = level.places(numbers)
    pairs = level.sectors(numbers)  # type: ignore[assignment]
    lent = level.sectors([(0, 5)])  # type: ignore[assignment]
    level.sectors(5)  # type: ignore[call-overload]
    level.sectors([(0.5, 5)])  # type: ignore[list-item]
    level.places("0 5")  # type: ignore[arg-type]
    print(pairs, lent, places)


def of_files(path: str) -> None:
    wadlook.Wad(path)
    wadlook.Wad(b"PWAD")
    wadlook.Wad(bytearray(12))
    wadlook.Wad(mmap.mmap(-1, 12))
    wadlook.Wad((ctypes.c_char * 12)())
    wadlook.Wad(5)  # type: ignore[arg-type]


def of_names(wad: wadlook.Wad) -> None:
    size: int = wad.find(b"DEMO1").size + wad.find("MAP01", 7).size
    finding: wadlook.Finding = wad.level(b"MAP01").findings[0]
    place: Optional[wadlook.Place] = wad.level("MAP01").place(0, 5)
    wad.level(1.5)  # type: ignore[arg-type]
    labels: list[wadlook.Label] = wad.levels
    place.sector  # type: ignore[union-attr]
    print(size, finding.index + 1, place, labels, wad.level(1))


def of_words(listing: str) -> None:
    found: wadlook.Found = wadlook.check("mine.wad", ["doom2.wad", b"PWAD", ("name.wad", b"PWAD")], ignore="N2,W7-W8")[0]
    wadlook.check([("name.wad", bytearray(12))], wide=True, ignore=["notes"])
    wadlook.check(5)  # type: ignore[arg-type]
    rows: list[dict[str, object]] = wadlook.survey(["mine.wad"])
    picture: str = wadlook.picture("MAP01", "mine.wad", frame=(0, 0, 64, 64))
    level: bytes = wadlook.cut("mine.wad", 3) + wadlook.cut(b"PWAD", "MAP01") + wadlook.assemble(listing)
    print(
        found.at,
        rows,
        picture,
        level,
        wadlook.compare("a.lmp", b"", commands=True),
        wadlook.listing("a.lmp"),
        wadlook.explain("F3"),
        wadlook.demos(b"m"),
    )
