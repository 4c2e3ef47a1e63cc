"""The two marks in a file between which tools/tables writes."""

from pathlib import Path
from typing import List

BEGIN = "tools/tables writes from here"
END = "tools/tables writes up to here"


class Amiss(Exception):
    """What keeps the whole from being written, in one line."""


def text_of(path: str) -> str:
    try:
        return Path(path).read_text(encoding="utf-8")
    except (OSError, UnicodeDecodeError) as error:
        raise Amiss(f"{path} can't be read") from error


def place_of(path: str, lines: List[str], mark: str) -> int:
    """The line of a mark, of which there has to be one."""
    places = [at for at, line in enumerate(lines) if mark in line]
    if len(places) != 1:
        raise Amiss(f"{path} has the line '{mark}' {len(places)} times, and not once")
    return places[0]


def between(path: str) -> List[str]:
    """The lines between the marks of a file."""
    lines = text_of(path).split("\n")
    return lines[place_of(path, lines, BEGIN) + 1 : place_of(path, lines, END)]


def with_between(path: str, block: List[str]) -> str:
    """The text of a file with these lines between its marks."""
    lines = text_of(path).split("\n")
    first, last = place_of(path, lines, BEGIN), place_of(path, lines, END)
    if last < first:
        raise Amiss(f"{path} has its marks the wrong way round")
    return "\n".join([*lines[: first + 1], *block, *lines[last:]])
