"""The mutants of a crate: what each changes, in which function, and which of them go into one copy."""

import re
from pathlib import Path
from typing import Dict, Iterable, List, NamedTuple, Optional, Set, Tuple

# Where a crate keeps them. The edits in the second are tried by the gate, too.
FOLDERS = ("mutants", "must-fail")

FUNCTION = re.compile(r"^(\s*)(?:pub(?:\([^)]*\))?\s+)?(?:(?:default|const|unsafe|extern(?:\s+\"C\")?)\s+)*fn\s+(\w+)")
OWNER = re.compile(r"^\s*(?:pub(?:\([^)]*\))?\s+)?(impl|trait)\b(.*)")

# A line of a file, and a file with its number there.
Line = Tuple[str, int]


class Bad(Exception):
    """What keeps a mutant from being applied."""


class Function(NamedTuple):
    """A function of a crate's source: where it stands, its module's path, and what it belongs to."""

    file: str
    first: int
    last: int
    name: str
    owner: str
    kind: str

    @property
    def modules(self) -> List[str]:
        parts = self.file[len("src/") : -len(".rt")].split("/")
        return [] if parts in (["lib"], ["main"]) else parts

    @property
    def path(self) -> str:
        """As `rt check` names it, without the crate."""
        return "::".join([*self.modules, *([self.owner + self.kind] if self.owner else []), self.name])


def indent(line: str) -> int:
    return len(line) - len(line.lstrip())


def last_line(lines: List[str], first: int) -> int:
    """Where the function that begins in a line ends, by the layout of `rt fmt`."""
    for at in range(first, len(lines)):
        text = lines[at].strip()
        if indent(lines[at]) == indent(lines[first]) and text and (text in ("}", "{}") or (at == first and text[-1] in "};")):
            return at
    return len(lines) - 1


def first_line(lines: List[str], at: int) -> int:
    """Where what is said of the function of a line begins: `rt check` names its attributes."""
    while at > 0 and lines[at - 1].lstrip().startswith(("#[", "//")):
        at -= 1
    return at


def without_parameters(text: str) -> str:
    """A head without what stands between < and >."""
    depth, out = 0, []
    for k, letter in enumerate(text):
        if letter == ">" and text[k - 1 : k] != "-":
            depth -= 1
        elif letter == "<":
            depth += 1
        elif depth == 0:
            out.append(letter)
    return "".join(out)


def owner_of(lines: List[str], at: int) -> Tuple[str, str]:
    """The type, and the trait where there is one, that a function in this line belongs to."""
    for k in range(at, -1, -1):
        found = OWNER.match(lines[k])
        if found and indent(lines[k]) < indent(lines[at]):
            head = " ".join([found[2], *lines[k + 1 : at]]).split("{")[0]
            words = without_parameters(head).split(" where ")[0].replace("&", " ").replace("mut ", " ")
            names = [part.split("::")[-1].split(":")[0].strip() for part in words.split(" for ")]
            return (names[1], names[0]) if len(names) > 1 else (names[0], "")
    return "", ""


def functions_in(file: str, lines: List[str]) -> List[Function]:
    """The functions of a file, each behind those that it stands in."""
    out = []
    for at, line in enumerate(lines):
        found = FUNCTION.match(line)
        if found:
            owner, kind = owner_of(lines, at) if found[1] else ("", "")
            out.append(Function(file, first_line(lines, at), last_line(lines, at), found[2], owner, kind))
    return out


def function_at(functions: List[Function], number: int) -> Optional[Function]:
    """The innermost function around a line."""
    around = [f for f in functions if f.first <= number <= f.last]
    return around[-1] if around else None


class Sources:
    """The files of a crate that its mutants change, read once."""

    def __init__(self, crate: Path) -> None:
        self.crate = crate
        self.kept: Dict[str, List[str]] = {}
        self.functions: Dict[str, List[Function]] = {}

    def lines(self, file: str) -> List[str]:
        if file not in self.kept:
            path = self.crate / file
            if not path.is_file() or ".." in Path(file).parts:
                raise Bad(f"there is no file {file}")
            self.kept[file] = path.read_text(encoding="utf-8").split("\n")
            self.functions[file] = functions_in(file, self.kept[file]) if re.match(r"src/.*\.rt$", file) else []
        return self.kept[file]


class Mutant:
    """An edit: the lines that it writes anew, and the functions that these stand in."""

    def __init__(self, path: Path, sources: Sources) -> None:
        self.name = path.stem
        self.crate = sources.crate.name
        self.bad = ""
        self.lines: Dict[Line, str] = {}
        self.functions: Set[Optional[Function]] = set()
        # The answers that no longer fit, by their folder: they are left out as it is tried again. Whether a name that one takes is gone.
        self.unfit: Dict[str, Set[str]] = {}
        self.gone = False
        # Whether it is tried by itself.
        self.alone = False
        try:
            self.read(path.read_text(encoding="utf-8"), sources)
        except (Bad, UnicodeDecodeError) as bad:
            self.bad = str(bad)

    def read(self, text: str, sources: Sources) -> None:
        file, old = "", None
        for line in text.splitlines():
            word, _, rest = line.partition(":")
            rest = rest[1:] if rest.startswith(" ") else rest
            if word == "file":
                file = rest
            elif word == "old":
                old = rest
            elif word == "new" and old is not None:
                self.change(file, old, rest, sources)
                old = None
        if not self.lines:
            raise Bad("it has no pair of 'old: ' and 'new: '")

    def change(self, file: str, old: str, new: str, sources: Sources) -> None:
        """Notes a pair, which applies to what those before it made."""
        now = [self.lines.get((file, k), line) for k, line in enumerate(sources.lines(file))]
        count = sum(line.count(old) for line in now) if old else 0
        if count != 1:
            raise Bad(f"'{old}' stands {count} times in {file}, and not once")
        at = next(k for k, line in enumerate(now) if old in line)
        self.lines[file, at] = now[at].replace(old, new)
        self.functions.add(function_at(sources.functions[file], at))

    @property
    def label(self) -> str:
        return f"{self.crate}/{self.name}"

    @property
    def is_of_functions(self) -> bool:
        return None not in self.functions


def mutants_of(crate: Path) -> List[Mutant]:
    """All mutants of a crate, in the order of their names."""
    sources = Sources(crate)
    paths = sorted(path for folder in FOLDERS for path in (crate / folder).glob("*.edit"))
    return [Mutant(path, sources) for path in sorted(paths, key=lambda path: path.name)]


def next_batch(waiting: Iterable[Mutant], most: int) -> List[Mutant]:
    """The first mutants that can be tried together: no two of a function, and one of what stands outside of functions by itself."""
    batch: List[Mutant] = []
    taken: Set[Optional[Function]] = set()
    for mutant in waiting:
        if mutant.alone or not mutant.is_of_functions:
            if not batch:
                return [mutant]
        elif len(batch) < most and not mutant.functions & taken:
            taken |= mutant.functions
            batch.append(mutant)
    return batch


def put_lines(crate: Path, sources: Sources, batch: Iterable[Mutant]) -> None:
    """Writes the lines of these mutants into a copy of their crate."""
    lines = {place: line for mutant in batch for place, line in mutant.lines.items()}
    for file in {file for file, _ in lines}:
        now = [lines.get((file, k), line) for k, line in enumerate(sources.lines(file))]
        (crate / file).write_text("\n".join(now), encoding="utf-8")


DECLARED = re.compile(r"^(?:pub\s+|private\s+|abbrev\s+|ghost\s+)*([^\s:=(){}]+)\s")


ANSWERED = re.compile(r"^pub\s+(\S+)\s+: goal\.", re.M)


def goals_of(path: Path) -> Set[str]:
    """The goals that a file of answers answers."""
    return set(ANSWERED.findall(path.read_text(encoding="utf-8"))) if path.exists() else set()


def leave_out(path: Path, names: Set[str]) -> None:
    """Takes these declarations out of a file of answers, and the whole file where one of them isn't found at its margin."""
    block, kept, seen = "", [], set()
    for line in path.read_text(encoding="utf-8").split("\n"):
        found = DECLARED.match(line + " ") if line[:1].strip() else None
        block = found[1] if found else block
        seen.add(block)
        if block not in names:
            kept.append(line)
    if names <= seen and any(" : goal." in line for line in kept):
        path.write_text("\n".join(kept), encoding="utf-8")
    else:
        path.unlink()
