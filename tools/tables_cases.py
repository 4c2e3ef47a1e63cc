"""The names of tests and of worked cases, and what tests/CASES.md says of them."""

import re
from functools import lru_cache
from pathlib import Path
from typing import Dict, FrozenSet, Iterable, List, NamedTuple, Set

from tables_marks import text_of

PAGE = "tests/CASES.md"
RATTLE = ("crates/program_tests/src", "crates/level_tests/src", "crates/library_tests/src")
SCRIPTS = {"tests/wadlook": "tests/look_cases", "tests/wadlens": "tests/lens_cases"}
FOLDERS = (*RATTLE, *SCRIPTS.values(), "web/test")
IN_THE_PAGE = "worked_cases.mjs"


class Case(NamedTuple):
    """A test that stands for a worked case: in a script it has its group in front of its name."""

    case: str
    file: str
    name: str


# ---- The tests ------------------------------------------------------------------------------------------------------------


def rows_in(text: str) -> List[str]:
    """The rows of a script of cases, each with its group in front of its name."""
    group, out = "", []
    for line in text.split("\n"):
        begun = re.match(r"(?:cases_of_)?([a-z_]+)\(\)", line)
        found = re.match(r' *(?:[a-z]+=\S+ )?(?:[a-z_]+|"\$[12]") (?:"([^"]*)|\'([^\']*)|([^"\' ][^ ]*))', line)
        if begun:
            group = begun[1]
        elif found:
            out.append(f"{group} {found[1] or found[2] or found[3] or ''}")
    return out


@lru_cache(maxsize=None)
def tests_in(path: str) -> FrozenSet[str]:
    """The names of the tests, or rows, of a file."""
    text = text_of(path)
    if path.endswith(".rt"):
        return frozenset(re.findall(r"^#\[test\]\nfn ([a-z0-9_]+)", text, re.M))
    return frozenset(rows_in(text) if path.endswith(".sh") else re.findall(r"\[['`]([^'`\n]*)['`],", text))


def tests_named(file: str) -> Set[str]:
    """The names of the tests in the files of a name."""
    paths = [f"{folder}/{file}" for folder in FOLDERS if (Path(folder) / file).is_file()]
    return {name for path in paths for name in tests_in(path)}


@lru_cache(maxsize=None)
def groups_of(test: str) -> Set[str]:
    """The groups of cases that a script runs, and those that these call."""
    paths = Path(SCRIPTS[test]).glob("*.sh") if test in SCRIPTS else []
    return {name for path in paths for name in re.findall(r"^cases_of_(\w+)\(\)", text_of(path.as_posix()), re.M)}


def names_in_script(path: str) -> Set[str]:
    """The names of the rows, also without what stands behind a colon or a comma; some have it from a variable, or in front of one."""
    rows = {row.split(" ", 1)[1] for row in tests_in(path)}
    rows |= {found[1] or found[2] for found in re.finditer(r'\bname=(\w+)|"([\w ]+): \$1"', text_of(path))}
    return rows | {re.split("[:,]", row)[0] for row in rows}


def all_names() -> Set[str]:
    """The names of all tests, rows and worked cases."""
    names = {each.case for each in listed()}
    for folder in SCRIPTS.values():
        for path in Path(folder).glob("*.sh"):
            names |= names_in_script(path.as_posix())
    for folder in RATTLE:
        for path in Path(folder).glob("**/*.rt"):
            names |= tests_in(path.as_posix())
    for path in Path("crates").glob("*/proofs/WorkedCases.antt"):
        names |= set(re.findall(r"^\w+(?= )", text_of(path.as_posix()), re.M))
    return names


# ---- The page -------------------------------------------------------------------------------------------------------------


def listed_in(case: str, column: str, file: str) -> Iterable[Case]:
    """The tests that a column of the page names; a name in front of a colon is their file."""
    parts = column.split("`")
    group = ""
    for at in range(1, len(parts) - 1, 2):
        if parts[at + 1].startswith(":"):
            file = parts[at]
            continue
        found = re.search(r"([a-z_]+ )$", parts[at - 1])
        group = found[1] if found else group
        yield Case(case, file, (group if file.endswith(".sh") else "") + parts[at])


@lru_cache(maxsize=None)
def listed() -> List[Case]:
    """What the page lists; a case without a test is listed as one without a file."""
    out: List[Case] = []
    for line in text_of(PAGE).split("\n"):
        if line.startswith("| `"):
            columns = line.split("|")
            case = columns[1].split("`")[1]
            files = ("no file", "no file", IN_THE_PAGE)
            tests = [each for column, file in zip(columns[2:5], files) for each in listed_in(case, column, file)]
            out += tests or [Case(case, "no file", "test")]
    return out


def faults() -> List[str]:
    """What the page says and isn't so: tests that don't stand where it says, and cases of whose name there is none."""
    out, named = [], {each.case: False for each in listed()}
    files: Dict[str, Set[str]] = {each.file: tests_named(each.file) for each in listed()}
    for each in listed():
        if each.name not in files[each.file]:
            out.append(f"{PAGE}: {each.case}: there is no {each.name} in {each.file}")
        named[each.case] = named[each.case] or f" {each.case}" in f" {each.name}"
    out += [f"{PAGE}: {case}: no test has its name" for case, is_named in named.items() if not is_named]
    return out if named else [f"{PAGE} has no cases"]
