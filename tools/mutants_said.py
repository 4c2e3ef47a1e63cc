"""What `rt check` said of a copy: which functions it proved, and what it didn't prove of the others."""

import re
from typing import Dict, Iterable, List, NamedTuple, Optional, Sequence, Set, Tuple

from mutants_edits import Function, Line, function_at

VERDICT = re.compile(r"^(fn|impl|trait|struct|enum|const|law|type) (\w+)::(\S+): (.*)")
OPEN = re.compile(r"^note: (src/\S+?\.rt):(\d+):\d+: it is not proved that (.*?) \(`([^`]+)`\)(.*)")
ANSWER = re.compile(r"^\./proofs/(.+)/(Answers|Invariants|Proof)\.antt:\d+:\d+: error: (?:`([^`]+)`: )?(.*)")
BEHIND = re.compile(r"\d+ declarations? that depends? on .* not checked: (.*)")
LEMMA = re.compile(r"^\./((?:proofs|specs)/\S+\.antt):\d+:\d+: error: (.*)")
REFUSED = re.compile(r"^(src/\S+?\.rt):(\d+):\d+: error(.*)")

# What an answer's error says where a name that it takes isn't there.
GONE = re.compile(
    r"can be named from here|cannot find|unknown|not in scope|has no (?:field|member|component|projection)|no such|is not bound"
)
VALUES = "allow values at which this goal is false"


class Goal(NamedTuple):
    """A goal that isn't proved: of which function, what it is of, and how that shows."""

    path: str
    name: str
    of: str
    values: bool
    # What the error in its answer says; empty where it has none and `search` left it open.
    error: str


def clause_of(goal: str, what: str) -> str:
    """What a goal is of, in a few words: a clause of a contract, or what the function owes besides."""
    named = re.search(r"-clause-(.+?)(?:-\d+)?$", goal)
    clause = " " + named[1] if named else ""
    required = re.match(r"what `([^`]+)` requires", what) or re.match(r"(.+?)-requires", goal)
    if required:
        return f"requires{clause} of {required[1]}"
    if goal.startswith("invariant_of"):
        return "invariant of " + goal[len("invariant_of-") :]
    if "ensures" in what or goal.startswith("returns"):
        return "ensures" + clause
    return what or goal


class Said:
    """The lines of a check, read."""

    def __init__(self, log: str, functions: Dict[str, List[Function]]) -> None:
        self.functions = functions
        self.lines = log.splitlines()
        self.verdicts: Dict[str, str] = {}
        self.others: List[str] = []
        self.goals: List[Goal] = []
        self.compile: List[Tuple[Line, str]] = []
        self.lemmas: List[str] = []
        self.unfit: Dict[str, Dict[str, str]] = {}
        for line in self.lines:
            self.read(line)
        self.proved = any(line.startswith("logic=proved ") for line in self.lines)
        self.judged = any(line.startswith("logic=") for line in self.lines)

    def read(self, line: str) -> None:
        found = VERDICT.match(line)
        if found:
            if found[1] == "fn":
                self.verdicts[found[3]] = found[4]
            elif found[4] != "proved" and "it waits for" not in found[4]:
                self.others.append(line)
            return
        found = OPEN.match(line)
        if found:
            self.goals.append(self.open_goal(found))
            return
        found = REFUSED.match(line)
        if found:
            self.compile.append(((found[1], int(found[2]) - 1), found[3].lstrip(": ")))
            return
        self.read_proof(line)

    def read_proof(self, line: str) -> None:
        found = ANSWER.match(line)
        if found and found[2] == "Answers":
            names = self.unfit.setdefault("proofs/" + found[1], {})
            behind = BEHIND.match(found[4])
            for name in behind[1].split(", ") if behind else [found[3] or ""]:
                names.setdefault(name, "" if behind else found[4])
            return
        found = LEMMA.match(line)
        if found:
            self.lemmas.append(f"{found[1]}: {found[2]}")

    def open_goal(self, found: "re.Match[str]") -> Goal:
        where = function_at(self.functions.get(found[1], []), int(found[2]) - 1)
        return Goal(where.path if where else found[1], found[4], clause_of(found[4], found[3]), VALUES in found[5], "")

    def answered(self) -> List[Goal]:
        """The goals whose answers no longer prove them, the first error of each."""
        out = []
        for folder, names in self.unfit.items():
            path = "::".join(folder.split("/")[1:])
            error = next((text for text in names.values() if text), "its answers were not checked")
            out += [Goal(path, name, clause_of(name, ""), False, text or error) for name, text in names.items()]
        return out

    def paths_of(self, function: Function) -> List[str]:
        """The paths by which the check names a function and what stands in it."""
        module = "::".join(function.modules)
        start = module + "::" if module else ""
        inner = [path for path in self.verdicts if path.startswith(f"{start}fn::") and f"::{function.name}::" in path]
        if function.path in self.verdicts:
            return [function.path, *inner]
        within = [path for path in self.verdicts if path.startswith(start) and path.split("::")[-1] == function.name]
        of_type = [
            path
            for path in within
            if function.owner and path.split("::")[-2:-1] and path.split("::")[-2].startswith(function.owner)
        ]
        return (of_type or within) + inner

    def is_of(self, path: str, functions: Iterable[Optional[Function]]) -> bool:
        """Whether a path is that of one of these functions."""
        return any(f and (path == f.path or path in self.paths_of(f)) for f in functions)

    def of(self, functions: Set[Optional[Function]]) -> List[Goal]:
        """The goals of these functions that aren't proved: first those that are false at values, last those with an answer."""
        goals = [goal for goal in [*self.goals, *self.answered()] if self.is_of(goal.path, functions)]
        return in_order(goals)

    def all_proved(self, functions: Set[Optional[Function]]) -> bool:
        """Whether all that these functions are in the check's eyes is proved."""
        paths = [path for f in functions if f for path in self.paths_of(f)]
        return bool(paths) and all(self.verdicts[path] == "proved" for path in paths)

    def first_other(self) -> str:
        """What else it refused, where no goal tells."""
        refused = [f"{path}: {said}" for path, said in self.verdicts.items() if said != "proved" and "it calls" not in said]
        errors = [line for line in self.lines if re.match(r"(\S+: )?error", line)]
        return next(iter([*self.lemmas, *self.others, *refused, *errors]), "nothing tells why")


def in_order(goals: Sequence[Goal]) -> List[Goal]:
    """Goals that are false at values first, and those with an answer last; of these first what the function ensures."""
    return sorted(goals, key=lambda goal: (bool(goal.error), not goal.values, not goal.name.startswith("returns")))


def is_gone(text: str) -> bool:
    """Whether an answer's error is that a name isn't there."""
    return bool(GONE.search(text))


def shorter(text: str, most: int = 160) -> str:
    return text if len(text) <= most else text[: most - 1] + "…"
