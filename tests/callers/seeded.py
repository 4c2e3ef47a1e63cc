"""seeded.py CALLERS [CASES [SEED [FIRST]]]: the words of `wadlens` by the module `wadlook`, and by the programs in the folder CALLERS, beside
the plain reading of the definitions in tests/plain.

The cases are those of tests/fuzz: each of their runs of `wadlens` that makes no files, reads no list and names files that are there. What is
answered, what is told besides and the status are those of the plain reading, byte for byte. The last line is `N passed, M failed`, a case
each. `python` and `tests` are on PYTHONPATH.
"""

import os
import subprocess
import sys
import tempfile

from harness import add_up, each_seeded
from plain import wadlens
from plain.cases import case
from plain.fuzz import write_files
from wadlook import _words as words

CASES, SEED = 400, 1
COMMANDS = {
    "check": words._CHECK,
    "survey": words._SURVEY,
    "demos": words._DEMOS,
    "cut": words._CUT,
    "picture": words._PICTURE,
    "compare": words._COMPARE,
    "listing": words._LISTING,
    "assemble": words._ASSEMBLE,
}
FORMS = {words._CHECK: words._CHECK_JSON, words._DEMOS: words._DEMOS_JSON}


def question_of(asked):
    """What a run asks, as the library takes it."""
    word = COMMANDS[asked.command]
    if asked.json:
        word = FORMS[word]
    if asked.commands_alone:
        word = words._COMPARE_COMMANDS
    more = {"number": asked.most if asked.command == "check" else 0}
    if asked.command == "cut" and asked.entry is None:
        word = words._CUT_LEVEL
    elif asked.command == "cut":
        more["number"] = asked.entry
    if asked.name:
        name = words._bytes_of(asked.name)
        more.update(name=name, name_len=len(name))
    if asked.command == "picture":
        more.update(cells=asked.cells, framed=asked.frame is not None)
        more.update(zip(("x0", "y0", "x1", "y1"), asked.frame or ()))
    judging = {"map": asked.map, "wide": asked.wide, "strict": asked.strict}
    judging.update(ignore=",".join(sorted(asked.ignored)), fail=sorted(asked.failing) + ["game"] * asked.game)
    return words._asked(word, bases=len(asked.bases), **judging, **more)


def is_asked(run, files):
    """Whether the module can be asked what a run asks."""
    asked = run.asked
    if run.program != "wadlens" or asked is None or asked.command not in COMMANDS or asked.lost:
        return False
    paths = [*asked.bases, *asked.paths]
    return all(files.get(path) is not None for path in paths) and (paths or asked.command == "assemble")


def by_module(run, files):
    """What the module tells."""
    asked = run.asked
    held = [words._held((path, files[path])) for path in [*asked.bases, *asked.paths]]
    ran = words._run(question_of(asked), held, run.given)
    return ran.end, ran.answer, ran.messages


def by_caller(caller, run, room):
    """What a caller tells over the files in a folder."""
    ran = subprocess.run([caller, *run.words], cwd=room, input=run.given, capture_output=True, check=False)
    return ran.returncode, ran.stdout, ran.stderr


def wanted(run, files):
    """What the plain reading tells; None where it names a file that can't be read."""
    told = wadlens.run(run.asked, files, run.given)
    if b"can't be opened" in told.error or b"can't be read" in told.error:
        return None
    # That the name and a file may have been exchanged is told by the program alone.
    return told.status, told.out, told.error.replace(wadlens.NAME_FIRST.encode() + b"\n", b"")


class Judge:
    """Judges cases by the module and by so many callers."""

    def __init__(self, folder):
        self.callers = [os.path.abspath(os.path.join(folder, name)) for name in sorted(os.listdir(folder))]
        self.folder = folder

    def __call__(self, seed, number):
        """Whether each run gives what is wanted; the first that doesn't is told."""
        found = case(seed, number)
        with tempfile.TemporaryDirectory() as room:
            write_files(found, room)
            runs = (run for run in found.runs if is_asked(run, found.files))
            return all(self.is_right(run, found.files, room) or self.tell_again(seed, number) for run in runs)

    def is_right(self, run, files, room):
        """Whether the module and the callers tell what is wanted; the first that doesn't is told."""
        expected = wanted(run, files)
        if expected is None:
            return True
        given = {"Python": by_module(run, files)}
        if not any(word.startswith("--files-from") for word in run.words):
            given.update((os.path.basename(caller), by_caller(caller, run, room)) for caller in self.callers)
        for name, told in given.items():
            if told != expected:
                print(f"FAILED {name}: {run.words!a}: {told!a:.900} in place of {expected!a:.900}")
                return False
        return True

    def tell_again(self, seed, number):
        """Tells how a case is run again, which failed."""
        print(f"    again: PYTHONPATH=python:tests python3 tests/callers/seeded.py {self.folder} 1 {seed} {number}", flush=True)
        return False


def main(arguments):
    folder, *rest = arguments
    count, seed, first = [int(word) for word in rest] + [CASES, SEED, 0][len(rest) :]
    each_seeded(Judge(folder), count, seed, first)
    return add_up()


sys.exit(main(sys.argv[1:]))
