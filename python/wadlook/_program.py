"""The words of `wadlens` that make no files, for whoever has the wheel alone."""

from __future__ import annotations

import argparse
import os
import re
import secrets
import sys
from typing import Dict, List, Tuple

from wadlook import _ENDS, Frame, __version__, _bytes_of, _frame_of
from wadlook import _words as words
from wadlook._words import End


_VALUED = ("--base", "--cells", "--entry", "--fail", "--frame", "--ignore", "--level", "--max")
"""The options that have a value."""


def _whole(text: str, least: int, most: int) -> int:
    """A whole number from the least to the most."""
    try:
        number = int(text)
    except ValueError:
        number = least - 1
    if not least <= number <= most:
        raise argparse.ArgumentTypeError(f"{text!r} is no whole number from {least} to {most}")
    return number


def _count(text: str) -> int:
    return _whole(text, 0, 2**64 - 1)


def _cells(text: str) -> int:
    return _whole(text, 1, 1024)


def _frame(text: str) -> Frame:
    bounds = [_whole(part, -(2**15), 2**15 - 1) for part in text.split(",")]
    if len(bounds) != 4 or bounds[0] > bounds[2] or bounds[1] > bounds[3]:
        raise argparse.ArgumentTypeError(f"{text!r} is no frame X0,Y0,X1,Y1 with its bounds in order")
    x0, y0, x1, y1 = bounds
    return x0, y0, x1, y1


def _judging(command: argparse.ArgumentParser) -> None:
    command.add_argument(
        "--ignore", metavar="CODES", action="append", default=[], help="ignore these notes and warnings, as N2,W7-W8"
    )
    command.add_argument("--map", action="store_true", help="also report likely mapping mistakes: warnings")
    command.add_argument("--wide", action="store_true", help="read a level's indexes as numbers from 0 to 65535")


def _reporting(command: argparse.ArgumentParser) -> None:
    _judging(command)
    command.add_argument("--fail", metavar="CODES", action="append", default=[], help="end with status 1 at these, too")
    command.add_argument("--strict", action="store_true", help="end with status 1 at a warning, too")
    command.add_argument(
        "--base", metavar="FILE", action="append", default=[], help="a file that every FILE stands on, as its game's"
    )


def _parser() -> argparse.ArgumentParser:
    parser = argparse.ArgumentParser(prog="python -m wadlook", description="Looks over all levels of Doom WAD files")
    parser.add_argument("--version", action="version", version=f"wadlook {__version__}")
    commands = parser.add_subparsers(dest="command", required=True)
    check = commands.add_parser("check", help="report what is wrong with each level, a line for each finding")
    check.add_argument(
        "--max", metavar="N", type=_count, default=20, help="show at most N of one code in one level; 0 shows all [20]"
    )
    check.add_argument("--json", action="store_true", help="write a JSON object a line for each finding")
    check.add_argument("--quiet", action="store_true", help="write nothing to standard output")
    _reporting(check)
    survey = commands.add_parser("survey", help="write a JSON object a line for each level and each refused file")
    _reporting(survey)
    demos = commands.add_parser("demos", help="list demos, one a line")
    demos.add_argument("--json", action="store_true", help="write a JSON object a line for each demo")
    picture = commands.add_parser("picture", help="draw a level as an SVG on standard output")
    _judging(picture)
    picture.add_argument("--cells", metavar="N", type=_cells, default=512, help="draw at most N cells along the longer side [512]")
    picture.add_argument("--frame", metavar="X0,Y0,X1,Y1", type=_frame, help="draw the cells of this part of the map alone")
    picture.add_argument("name", metavar="NAME", help="the level's name, as E1M1")
    cut = commands.add_parser("cut", help="extract one level as a WAD file on standard output")
    level = cut.add_mutually_exclusive_group(required=True)
    level.add_argument("--entry", metavar="G", type=_count, help="the number of the level's label among the entries of FILE")
    level.add_argument("--level", metavar="NAME", help="the level's name, as MAP01")
    cut.add_argument("file", metavar="FILE")
    compare = commands.add_parser("compare", help="report where two demo files first differ, in one line")
    compare.add_argument("--commands", action="store_true", help="compare how many players there are and what their commands do")
    compare.add_argument("a", metavar="A")
    compare.add_argument("b", metavar="B")
    listing = commands.add_parser("listing", help="list a demo of any engine: its header, its options and its commands")
    listing.add_argument("file", metavar="DEMO")
    commands.add_parser("assemble", help="make a demo from a listing on standard input")
    explain = commands.add_parser("explain", help="say what a code means; or list the codes")
    explain.add_argument("code", metavar="CODE", nargs="?")
    for command in (check, survey, demos, picture):
        command.add_argument("files", metavar="FILE", nargs="+")
    return parser


def _question(asked: argparse.Namespace) -> words._Question:
    """What the arguments ask."""
    command = asked.command
    judging = {name: getattr(asked, name) for name in ("map", "wide", "strict", "ignore", "fail") if hasattr(asked, name)}
    more = {}
    if command == "check":
        more["number"] = asked.max
    elif command == "picture":
        name = _bytes_of(asked.name)
        more = {"name": name, "name_len": len(name), "cells": asked.cells, **_frame_of(asked.frame)}
    elif command == "cut" and asked.level is not None:
        name = _bytes_of(asked.level)
        more = {"name": name, "name_len": len(name)}
    elif command == "cut":
        more["number"] = asked.entry
    elif command == "explain" and asked.code is not None:
        more["number"] = words._number_of(asked.code)
    number = {
        "check": words._CHECK_JSON if getattr(asked, "json", False) else words._CHECK,
        "survey": words._SURVEY,
        "demos": words._DEMOS_JSON if getattr(asked, "json", False) else words._DEMOS,
        "picture": words._PICTURE,
        "cut": words._CUT if getattr(asked, "level", None) is None else words._CUT_LEVEL,
        "compare": words._COMPARE_COMMANDS if getattr(asked, "commands", False) else words._COMPARE,
        "listing": words._LISTING,
        "assemble": words._ASSEMBLE,
        "explain": words._EXPLAIN_ALL if getattr(asked, "code", None) is None else words._EXPLAIN,
    }[command]
    return words._asked(number, bases=len(getattr(asked, "base", [])), **judging, **more)


def _paths(asked: argparse.Namespace) -> List[str]:
    if asked.command == "compare":
        return [asked.a, asked.b]
    if asked.command in ("cut", "listing"):
        return [asked.file]
    return [*getattr(asked, "base", []), *getattr(asked, "files", [])]


class _Files:
    """The files of a run, as the library takes them.

    One that can't be read is handed over without bytes, under a path that no other has: the library refuses it where the program
    does, and `told` puts in the program's words.
    """

    def __init__(self, asked: argparse.Namespace) -> None:
        self.held: List[words._Held] = []
        self._unread: Dict[bytes, Tuple[bytes, bytes, bytes]] = {}
        for path in _paths(asked):
            try:
                self.held.append(words._held(path))
            except OSError as why:
                without = self._without_bytes(os.fsencode(path), why)
                if asked.command == "picture":
                    # All files of a picture are read before one is looked at.
                    self.held = [without]
                    break
                self.held.append(without)

    def _without_bytes(self, path: bytes, why: OSError) -> words._Held:
        # A folder can be opened, and what was raised by a read has no file's name.
        is_opened = isinstance(why, IsADirectoryError) or why.filename is None
        in_line, in_object = _shown_as(path)
        alias = secrets.token_hex(16).encode()
        self._unread[alias] = in_line, in_object, b"can't be read" if is_opened else b"can't be opened"
        return words._held((alias, b""))

    def told(self, text: bytes) -> bytes:
        """What the library writes of the files, in the program's words."""
        for alias, (in_line, in_object, why) in self._unread.items():
            text = _put(b"wadlens: %s: .*" % alias, in_line + b": " + why, text)
            text = _put(b'{"file":"%s","refused":"[^"]*"' % alias, in_object + b',"refused":"' + why + b'"', text)
        return text


def _put(pattern: bytes, words_of_it: bytes, text: bytes) -> bytes:
    """The text with these words in the place of what fits a pattern."""
    return re.sub(pattern, lambda _: words_of_it, text)


def _shown_as(path: bytes) -> Tuple[bytes, bytes]:
    """How a line begins that refuses a file, and an object: as the library shows the path of a file without bytes."""
    ran = words._run(words._asked(words._SURVEY), [words._held((path, b""))])
    return ran.messages.rpartition(b": ")[0], ran.answer.rpartition(b',"refused"')[0]


def _ordered(arguments: List[str]) -> List[str]:
    """The command, its options, each with its value in one word, and then what it is asked of: they may stand in any order."""
    options: List[str] = []
    given: List[str] = []
    words = iter(arguments[1:])
    for word in words:
        if word == "--":
            given.extend(words)
        elif word in _VALUED:
            options.append(f"{word}={next(words, '')}")
        elif word.startswith("-") and word != "-":
            options.append(word)
        else:
            given.append(word)
    return [*arguments[:1], *options, *(["--", *given] if given else [])]


def main(arguments: List[str]) -> int:
    """Does what the arguments ask, and returns the status of `wadlens`."""
    parser = _parser()
    asked = parser.parse_args(_ordered(arguments))
    try:
        question = _question(asked)
        files = _Files(asked)
        given = sys.stdin.buffer.read() if asked.command == "assemble" else b""
        ran = words._run(question, files.held, given)
    except ValueError as why:
        parser.error(str(why))
    except MemoryError:
        sys.stderr.write(f"wadlens: {_ENDS[End.NO_MEMORY]}\n")
        return End.NO_MEMORY
    if ran.end == End.MISTAKEN:
        parser.error(_ENDS[ran.end])
    try:
        if not getattr(asked, "quiet", False):
            sys.stdout.buffer.write(files.told(ran.answer))
            sys.stdout.buffer.flush()
    except BrokenPipeError:
        os.dup2(os.open(os.devnull, os.O_WRONLY), sys.stdout.fileno())
    sys.stderr.buffer.write(files.told(ran.messages))
    return ran.end
