"""What the tests in Python share: the programs that they run, checks that count, seeded cases, and the last line, `N passed, M failed`."""

import os
import pathlib
from typing import Callable

TOP = pathlib.Path(__file__).resolve().parent.parent
PROGRAMS = {name: os.environ.get(name.upper()) or str(TOP / "crates" / name / "out" / name) for name in ("wadlook", "wadlens")}
"""The programs that WADLOOK and WADLENS name, and else those that are built."""
MOST_TOLD = 20

counts = {True: 0, False: 0}


def check(name: str, holds: object, *told: object) -> None:
    """Counts a check, and tells one that failed, with what there is to tell of it."""
    counts[bool(holds)] += 1
    if not holds:
        print(f"FAILED {name}", *told, sep="\n")


def skipped(why: str, what: str) -> None:
    """Tells what isn't tested. `tests/run` goes by this form."""
    print(f"skipped, as {why}: {what}")


def each_seeded(judge: Callable[[int, int], bool], count: int, seed: int, first: int) -> None:
    """Counts so many cases of a seed, from the one of this number on; `judge` tells those that failed, of which there are 20 at most."""
    for number in range(first, first + count):
        counts[judge(seed, number)] += 1
        if counts[False] == MOST_TOLD:
            print("and so on: the cases after this one weren't run")
            break


def add_up() -> int:
    """Tells the last line; the status."""
    print(f"{counts[True]} passed, {counts[False]} failed")
    return 1 if counts[False] else 0
