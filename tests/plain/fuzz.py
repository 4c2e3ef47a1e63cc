"""What tests/fuzz runs: the built programs on cases that are made up from a seed, whose
status, standard output, standard error and folders are compared with what a plain reading
of the definitions gives. The last line is `N passed, M failed`. With --json first the cases
are written down for the page's module."""

import shlex
import shutil
import subprocess
import sys
import tempfile
from pathlib import Path

from harness import PROGRAMS, TOP, add_up, each_seeded
from plain import memory
from plain.cases import Case, case, wanted
from plain.look import Answer
from plain.page import events_of
from plain.runs import Run
from plain.wadlens import MISTAKEN

CASES, SEED, SECONDS = 800, 1, 120


def gathered(folder: Path) -> dict[str, bytes] | None:
    """The files of a folder, a page as its events; nothing where there is no folder."""
    if not folder.is_dir():
        return None
    made = {path.name: path.read_bytes() for path in folder.iterdir()}
    pages = {name: events_of(made[name]) for name in made if name.endswith(".html")}
    return made | pages


def came(run: Run, room: str) -> Answer:
    """What a program gives in the folder of a case's files."""
    done = subprocess.run(
        [PROGRAMS[run.program], *run.words],
        input=run.given,
        capture_output=True,
        cwd=room,
        timeout=SECONDS,
    )
    error = MISTAKEN.error if b"\nUsage: wadlens" in done.stderr else done.stderr
    folder = run.asked.folder if run.asked else ""
    made = gathered(Path(room, folder)) if folder else None
    return Answer(done.returncode, done.stdout, error, made)


def first_lines(what: str, one: bytes, other: bytes) -> str:
    """The first lines that differ of two texts; nothing where the texts are the same."""
    if one == other:
        return ""
    lines, others = one.split(b"\n"), other.split(b"\n")
    pairs = [*zip(lines, others), (lines[-1], others[-1])]
    at = next(i for i, (a, b) in enumerate(pairs) if a != b or i == len(pairs) - 1)
    a, b = (repr(part[:300]) for part in pairs[at])
    return f"{what}, line {at + 1}\n    wanted: {a}\n    came:   {b}"


def first_difference(want: Answer, got: Answer) -> str:
    """Where what came first differs from what was wanted."""
    if want.status != got.status:
        return f"status {want.status} is wanted, and {got.status} came"
    here, there = want.folder or {}, got.folder or {}
    texts = [
        ("standard output", want.out, got.out),
        ("standard error", want.error, got.error),
        ("the files of the folder", names_in(want), names_in(got)),
        *((name, here[name], there[name]) for name in here if name in there),
    ]
    told = [first_lines(*text) for text in texts]
    return next((line for line in told if line), "no difference")


def names_in(answer: Answer) -> bytes:
    if answer.folder is None:
        return b"no folder"
    return "\n".join(sorted(answer.folder)).encode()


def keep(seed: int, number: int, found: Case, run: Run, want: Answer) -> Path:
    """A folder with the files of a case, a run's input and what is wanted of it."""
    folder = TOP / f"out/fuzz/{seed}-{number}"
    folder.mkdir(parents=True, exist_ok=True)
    write_files(found, str(folder))
    (folder / "input").write_bytes(run.given)
    (folder / "wanted.out").write_bytes(want.out)
    (folder / "wanted.error").write_bytes(want.error)
    for name, data in (want.folder or {}).items():
        (folder / f"wanted.{name}").write_bytes(data)
    return folder


def write_files(found: Case, room: str) -> None:
    for path, data in found.files.items():
        if data is None:
            Path(room, path).mkdir(exist_ok=True)
        else:
            Path(room, path).write_bytes(data)


def tell(seed: int, number: int, found: Case, run: Run, want: Answer, why: str) -> None:
    folder = keep(seed, number, found, run, want)
    words = shlex.join([run.program, *run.words])
    print(f"FAILED case {number} of seed {seed}: {words}: {why}")
    print(f"    kept: cd {shlex.quote(str(folder))} && {words} <input")
    print(f"    again: tests/fuzz 1 {seed} {number}", flush=True)


def judge(seed: int, number: int) -> bool:
    """Whether all runs of a case give what is wanted; the first that doesn't is told."""
    found = case(seed, number)
    with tempfile.TemporaryDirectory() as room:
        write_files(found, room)
        for run in found.runs:
            want, got = wanted(run, found.files), came(run, room)
            if want != got:
                tell(seed, number, found, run, want, first_difference(want, got))
                return False
    return True


def main(words: list[str]) -> int:
    # Words may have bytes that aren't UTF-8, and are told as they are.
    sys.stdout.reconfigure(errors="surrogateescape")
    told = [int(word) for word in words if word != "--json"]
    count, seed, first = told + [CASES, SEED, 0][len(told) :]
    if "--json" in words:
        memory.write(count, seed, first)
        return 0
    for program in PROGRAMS.values():
        if shutil.which(program) is None:
            print(f"tests/fuzz: there is no program {program}\n0 passed, 1 failed")
            return 1
    each_seeded(judge, count, seed, first)
    return add_up()


if __name__ == "__main__":
    sys.exit(main(sys.argv[1:]))
