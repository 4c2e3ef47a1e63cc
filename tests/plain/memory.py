"""Seeded cases as the page's module takes them, over memory: of each case the runs whose
files are bytes under paths that are text, without a list or a folder; and pictures of the
first level of a file. Each with what the plain reading gives."""

import json
from base64 import b64encode
from collections.abc import Iterator
from typing import NamedTuple

from plain import lens, look, wadlens
from plain.cases import Case, case
from plain.levels import Level, opening_fault
from plain.look import Answer
from plain.picture import picture
from plain.runs import Run
from plain.wads import Files, entries, is_text, joined, packed, refusal, winner

LENS_COMMANDS = ("check", "survey", "demos", "cut")
MISTAKEN = Answer(2, b"", b"usage")
"""What a mistaken question gives: the command line's own text is the program's."""
NOT_DRAWN = Answer(2)


class Asked(NamedTuple):
    """Words, of which the last are paths, the bytes under these, an input, and what comes."""

    words: list[str]
    files: list[bytes]
    given: bytes
    wanted: Answer


def bytes_under(path: str, held: Files) -> bytes | None:
    return held.get(path) if is_text(path) else None


# ---- Words of wadlook and wadlens ----------------------------------------------------


def look_paths(words: list[str]) -> list[str]:
    """The paths that words of `wadlook` name; none where they are no form."""
    try:
        return look.asked_by(words).paths
    except look.Refused:
        return []


def of_look(run: Run, held: Files) -> Iterator[Asked]:
    """A run whose words are text, and whose files are all there."""
    if not run.words or not all(is_text(word) for word in run.words):
        return
    files = [bytes_under(path, held) for path in look_paths(run.words)]
    if None not in files:
        there = [file for file in files if file is not None]
        yield Asked(run.words, there, run.given, look.run(run.words, held, run.given))


def lens_words(asked: lens.Asked) -> list[str]:
    """What is asked in one order, with each option once: the base files behind the command."""
    flags = {"--wide": asked.wide, "--map": asked.map, "--strict": asked.strict}
    flags["--json"] = asked.json
    bases = [word for path in asked.bases for word in ("--base", path)]
    words = [asked.command, *bases, *(name for name, is_set in flags.items() if is_set)]
    if asked.command == "check" and asked.most != 20:
        words += ["--max", str(asked.most)]
    if asked.command == "cut":
        words += ["--entry", str(asked.entry)]
    return [*words, *asked.paths]


def of_lens(asked: lens.Asked, held: Files) -> Iterator[Asked]:
    """What is asked of those of its files that have bytes, the listed ones among them, over
    those of its base files. The page asks for no check in objects, ignores no code, and has no
    code but warnings fail."""
    if asked.command == "check" and asked.json:
        return
    there, bases = ([path for path in paths if bytes_under(path, held) is not None] for paths in (asked.paths, asked.bases))
    if there and not asked.lost:
        asked = asked._replace(paths=there, ignored=frozenset(), failing=frozenset(), game=False, bases=tuple(bases))
        files = [held[path] or b"" for path in (*bases, *there)]
        yield Asked(lens_words(asked), files, b"", wadlens.run(asked, held, b""))


def is_question(words: list[str]) -> bool:
    """Words whose question the page can ask: a picture whose numbers are there, in or out
    of their bounds, and else so many files, without other options."""
    command, option, numbers = (*words, "", "", "")[:3]
    match command:
        case "picture":
            return numbers.count(",") == {"--cells": 0, "--frame": 3}.get(option)
        case "cut":
            return option == "--entry" and numbers.isdecimal() and not any(word.startswith("--") for word in words[3:])
        case _:
            return words == [command] and command in LENS_COMMANDS


def of_mistaken(run: Run, held: Files) -> Iterator[Asked]:
    files = [held[word] or b"" for word in run.words if word in held]
    if all(is_text(word) for word in run.words) and is_question(run.words):
        ended = NOT_DRAWN if run.words[0] == "picture" else MISTAKEN
        yield Asked(run.words, files, b"", ended)


# ---- Pictures ------------------------------------------------------------------------


def drawn(asked: lens.Asked, file: bytes) -> Answer:
    """The picture of the level whose label is a file's first entry, whatever its format."""
    listed = [] if refusal(file) else entries(file)
    if not listed or opening_fault(listed, 0):
        return NOT_DRAWN
    level = Level(listed, 0, asked.wide)
    lines = picture(level, asked.cells, asked.frame)
    if lines is None:
        return NOT_DRAWN
    return Answer(1 if level.faults else 0, lens.lines(lines))


def alone(asked: lens.Asked, files: list[bytes]) -> list[bytes]:
    """The level that wins the name, as a file of its own, as the page cuts it out."""
    listed = [] if any(refusal(file) for file in files) else joined(files)
    g = winner(listed, asked.name.encode())
    if g is None or opening_fault(listed, g):
        return []
    level = Level(listed, g, asked.wide)
    return [packed(list(zip(level.names, [b"", *level.lumps])))]


def picture_words(asked: lens.Asked) -> list[str]:
    words = ["picture", *(["--wide"] if asked.wide else []), "--cells", str(asked.cells)]
    if asked.frame is not None:
        words += ["--frame", ",".join(str(bound) for bound in asked.frame)]
    return [*words, asked.name, "a.wad"]


def of_picture(asked: lens.Asked, held: Files) -> Iterator[Asked]:
    """The level that wins, alone, and the first one of each file as it stands."""
    found = [bytes_under(path, held) for path in dict.fromkeys(asked.paths)]
    files = [file for file in found if file is not None]
    for file in [*alone(asked, files), *files]:
        yield Asked(picture_words(asked), [file], b"", drawn(asked, file))


# ---- Cases ---------------------------------------------------------------------------


def asked_of(run: Run, held: Files) -> Iterator[Asked]:
    """What of a run the page can ask."""
    if run.program == "wadlook":
        yield from of_look(run, held)
    elif run.asked is None:
        yield from of_mistaken(run, held)
    elif run.asked.command in LENS_COMMANDS and run.asked.entry is not None:
        yield from of_lens(run.asked, held)
    elif run.asked.command == "picture":
        yield from of_picture(run.asked, held)


def text(data: bytes) -> str:
    return b64encode(data).decode()


def line(seed: int, number: int, found: Case) -> str:
    """A case as an object of JSON in a line, its bytes in base 64; a file stands once."""
    files: dict[bytes, int] = {}
    runs = []
    for run in found.runs:
        for asked in asked_of(run, found.files):
            places = [files.setdefault(file, len(files)) for file in asked.files]
            status, out, error, _ = asked.wanted
            wanted = {"status": status, "out": text(out), "error": text(error)}
            told = {"words": asked.words, "files": places, "input": text(asked.given)}
            runs.append({**told, "wanted": wanted})
    held = [text(file) for file in files]
    return json.dumps({"seed": seed, "case": number, "files": held, "runs": runs})


def write(count: int, seed: int, first: int) -> None:
    """So many cases, a line each."""
    for number in range(first, first + count):
        print(line(seed, number, case(seed, number)), flush=True)
