"""docs/PROMISES.md: whether the edits and the cases of its rows are there, and the edits that no row names."""

import re
from functools import lru_cache
from pathlib import Path
from typing import Dict, Iterator, List, NamedTuple, Sequence, Set, Tuple

import tables_cases as cases
import tables_definitions as definitions
from mutants_edits import Mutant, mutants_of
from mutants_kept import crates_with_mutants
from tables_marks import Amiss, text_of

PAGE = "docs/PROMISES.md"
HEAD = ["Promise", "Carried by", "Edits", "Cases"]
ITALIC = re.compile(r"(?<!\*)\*([A-Z][^*]*)\*(?!\*)")


class Promise(NamedTuple):
    """A row: its line, the crates that carry the promise, and the cells of edits and of cases."""

    line: int
    crates: Tuple[str, ...]
    edits: str
    cases: str


# ---- The rows -------------------------------------------------------------------------------------------------------------


def cells(line: str) -> List[str]:
    return [cell.strip() for cell in re.split(r"(?<!\\)\|", line.strip()[1:-1])]


def promises(crates: Sequence[str]) -> List[Promise]:
    """The rows of the tables of promises. One that is carried by the same calls as the one above it is carried by its crates."""
    out: List[Promise] = []
    inside = False
    for number, line in enumerate(text_of(PAGE).split("\n"), 1):
        row = cells(line) if line.startswith("|") else []
        if not row or row == HEAD:
            inside = row == HEAD
        elif inside and len(row) != len(HEAD):
            raise Amiss(f"{PAGE}:{number}: this row can't be read: {line}")
        elif inside and not row[0].startswith("---"):
            carrying = tuple(name for name in re.findall(r"`(\w+)`", row[1]) if name in crates)
            if not carrying and out and "the same" in row[1]:
                carrying = out[-1].crates
            out.append(Promise(number, carrying, row[2], row[3]))
    return out


def names_in(cell: str) -> Iterator[Tuple[str, str]]:
    """The names of a cell, each with the one in front of a colon to which it belongs, if there is one, up to a semicolon."""
    parts = cell.split("`")
    owner = ""
    for at in range(1, len(parts) - 1, 2):
        owner = "" if ";" in parts[at - 1] else owner
        if parts[at + 1].startswith(":"):
            owner = parts[at]
        yield parts[at], owner


# ---- Edits ----------------------------------------------------------------------------------------------------------------


@lru_cache(maxsize=None)
def edits() -> Dict[str, List[Mutant]]:
    """All edits, by their crates."""
    return {name: mutants_of(Path("crates") / name) for name in crates_with_mutants()}


def function_of(edit: Mutant) -> str:
    """The function that an edit changes, by its path in the crate; its file, where it changes what stands outside of functions."""
    paths = {"::".join([*each.modules, *([each.owner] if each.owner else []), each.name]) for each in edit.functions if each}
    if None in edit.functions:
        paths |= {file[len("src/") :] for file, _ in edit.lines}
    return ", ".join(f"`{path}`" for path in sorted(paths))


def named_edits(rows: Sequence[Promise], all_edits: Dict[str, List[Mutant]]) -> Tuple[Set[Tuple[str, str]], List[str]]:
    """The edits that rows name, each with its crate, and what rows name as one and isn't."""
    there = {(crate, edit.name) for crate, each in all_edits.items() for edit in each}
    named, out = set(), []
    for row in rows:
        for name, owner in names_in(row.edits):
            if name != owner:
                found = {(crate, name) for crate in ((owner,) if owner else row.crates)} & there
                named |= found
                if not found:
                    out.append(f"{PAGE}:{row.line}: {owner or ', '.join(row.crates) or 'no crate'} has no edit {name}")
    return named, out


def block() -> List[str]:
    """The table of the edits that no row names, by the functions that they change."""
    all_edits = edits()
    named, _ = named_edits(promises(list(all_edits)), all_edits)
    out = ["", "| Crate | Function | Edits |", "|---|---|---|"]
    order = definitions.crates()
    for crate in sorted(all_edits, key=lambda name: order.index(name) if name in order else len(order)):
        functions: Dict[str, List[str]] = {}
        for edit in all_edits[crate]:
            if (crate, edit.name) not in named:
                functions.setdefault(function_of(edit), []).append(f"`{edit.name}`")
        out += [f"| `{crate}` | {function} | {', '.join(functions[function])} |" for function in sorted(functions)]
    return [*out, ""]


# ---- Cases ----------------------------------------------------------------------------------------------------------------


def is_case(name: str, owner: str, row: Promise, names: Set[str]) -> bool:
    """Whether there is a test, a file or a group of that name."""
    if "/" in name:
        return Path(name).exists() or any((Path("crates") / crate / name).exists() for crate in row.crates)
    return name in (cases.groups_of(owner) if owner.startswith("tests/") else names)


def case_faults(rows: Sequence[Promise]) -> List[str]:
    names = cases.all_names()
    named = ((row, name, owner) for row in rows for name, owner in names_in(row.cases))
    return [f"{PAGE}:{row.line}: there is no case {name}" for row, name, owner in named if not is_case(name, owner, row, names)]


# ---- The whole ------------------------------------------------------------------------------------------------------------


def italic_faults(told: Sequence[str]) -> List[str]:
    """The names in italics, here and on other pages, that the page of definitions doesn't have."""
    there = set(told)
    pages = [*Path("docs").glob("*.md"), *Path("crates").glob("*/README.md")]
    paths = sorted(path.as_posix() for path in pages if path.as_posix() != definitions.PAGE)
    named = [(path, name) for path in paths for name in sorted(set(ITALIC.findall(text_of(path))))]
    return [f"{path}: no file defines {name}" for path, name in named if name not in there]


def faults(told: Sequence[str]) -> List[str]:
    """What the page says and isn't so; `told` are the names on the page of definitions."""
    all_edits = edits()
    rows = promises(list(all_edits))
    bad = [edit for each in all_edits.values() for edit in each if edit.bad]
    out = [f"crates/{edit.crate}: the edit {edit.name} can't be read: {edit.bad}" for edit in bad]
    return out + named_edits(rows, all_edits)[1] + case_faults(rows) + italic_faults(told)
