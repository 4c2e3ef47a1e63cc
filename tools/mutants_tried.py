"""Tries the mutants of a crate, batch by batch, in a copy of it and of those below."""

import os
import re
import signal
import subprocess
import threading
import time
from datetime import date
from pathlib import Path
from shutil import copytree, ignore_patterns, rmtree
from typing import Dict, List, Optional, Set, Tuple

import mutants_kept as kept
from mutants_edits import Function, Mutant, Sources, goals_of, leave_out, mutants_of, next_batch, put_lines
from mutants_said import Goal, Said, in_order, is_gone, shorter

# At most so many mutants are tried in one copy, and a check has at most so many seconds, and so many MB to begin with.
MOST = 16
LONGEST = 5400
ROOM = 4096


class Stopped(Exception):
    """The whole ends."""


def memory_left() -> int:
    """How many MB the machine has for what begins now."""
    try:
        found = re.search(r"^MemAvailable: *(\d+) kB", Path("/proc/meminfo").read_text(encoding="ascii"), re.M)
    except OSError:
        found = None
    return int(found[1]) // 1024 if found else 2 * ROOM


class Machine:
    """What the crates share: where copies stand, which checks run, what they took."""

    def __init__(self, kit: str) -> None:
        self.kit = kit
        self.room: Optional[Path] = None
        self.lock = threading.Lock()
        self.workers: List[threading.Thread] = []
        self.running: Set["subprocess.Popen[str]"] = set()
        self.ended = False
        self.checks, self.cpu = 0, 0.0

    def begin(self, folder: Path, log: Path) -> "subprocess.Popen[str]":
        """Starts a check once memory allows it."""
        while True:
            with self.lock:
                if self.ended:
                    raise Stopped
                if not self.running or memory_left() > ROOM:
                    with open(log, "w", encoding="utf-8") as out:
                        check = subprocess.Popen(
                            ["rt", "check", "--jobs", "2"],
                            cwd=folder,
                            stdin=subprocess.DEVNULL,
                            stdout=out,
                            stderr=subprocess.STDOUT,
                            start_new_session=True,
                            text=True,
                        )
                    self.running.add(check)
                    return check
            time.sleep(1)

    def check(self, folder: Path) -> Tuple[Optional[int], str, float]:
        """The status of `rt check` there, None where it took too long, what it said, and the seconds of processors."""
        log = folder.parent / f"{folder.name}.log"
        check = self.begin(folder, log)
        ending = time.time() + LONGEST
        while True:
            pid, status, used = os.wait4(check.pid, os.WNOHANG)
            if pid:
                break
            if time.time() > ending:
                self.kill(check, signal.SIGKILL)
                ending = float("inf")
            time.sleep(0.1)
        check.returncode = os.waitstatus_to_exitcode(status)
        with self.lock:
            self.running.discard(check)
            self.checks += 1
            self.cpu += used.ru_utime + used.ru_stime
            if self.ended:
                raise Stopped
        text = log.read_text(encoding="utf-8", errors="replace")
        return check.returncode if ending < float("inf") else None, text, used.ru_utime + used.ru_stime

    @staticmethod
    def kill(check: "subprocess.Popen[str]", how: int) -> None:
        try:
            os.killpg(check.pid, how)
        except OSError:
            pass

    def end(self) -> None:
        """Ends what runs, and what that started, and removes the copies."""
        with self.lock:
            self.ended = True
            left = list(self.running)
        for how, seconds in ((signal.SIGTERM, 5.0), (signal.SIGKILL, 5.0)):
            for check in left:
                self.kill(check, how)
            ending = time.time() + seconds
            while self.running and time.time() < ending:
                time.sleep(0.1)
        for worker in self.workers:
            worker.join(10)
        if self.room:
            rmtree(self.room, ignore_errors=True)


def below(name: str) -> List[str]:
    """The lines of crates.txt for a crate and those below it."""
    said = subprocess.run(["tools/below", name], check=True, capture_output=True, text=True).stdout
    return said.splitlines()


class Crate:
    """The mutants of a crate as they are tried."""

    def __init__(self, name: str, machine: Machine) -> None:
        self.name, self.machine = name, machine
        self.folder = Path("crates") / name
        # What is tried, also where somebody changes the files meanwhile.
        self.digest = kept.digest_of(self.folder)
        self.sources = Sources(self.folder)
        self.mutants = mutants_of(self.folder)
        self.waiting = [mutant for mutant in self.mutants if not mutant.bad]
        self.root = (machine.room or Path()) / name
        self.copy = self.root / "crates" / name
        self.stands = self.root / "as_it_stands"
        self.refused, self.failed = 0, False
        self.checks, self.cpu = 0, 0.0
        self.most = MOST

    # ---- What is told

    def tell(self, mutant: Mutant, verdict: str) -> None:
        """Prints the verdict on a mutant, which is done with."""
        self.refused += verdict.startswith("refused")
        self.failed = self.failed or not verdict.startswith(("refused", "NOT TRIED"))
        if mutant in self.waiting:
            self.waiting.remove(mutant)
        print(f"{mutant.label}: {verdict}", flush=True)

    def tell_goal(self, mutant: Mutant, goal: Goal, goals: List[Goal], how: str) -> None:
        """Tells at which goal a mutant is refused, with the names of others that are left open there."""
        names = [each.name for each in goals if each != goal and each.path == goal.path and not each.error]
        more = f", also open: {', '.join(names[:3])}" if names else ""
        self.tell(mutant, f"refused: {goal.of} of {goal.path} ({goal.name}) [{how}]{more}")

    # ---- The copies

    def lay(self) -> None:
        """Lays the crate and those below it in a folder of its own."""
        root = self.root
        (root / "crates").mkdir(parents=True)
        lines = below(self.name)
        (root / "crates.txt").write_text("\n".join(lines) + "\n", encoding="utf-8")
        if Path("HANDLES").exists():
            (root / "HANDLES").write_bytes(Path("HANDLES").read_bytes())
        skipped = ignore_patterns("out", "mutants", "must-fail", "data")
        for line in lines:
            each = line.split(":")[0].split()[0]
            copytree(Path("crates") / each, root / "crates" / each, ignore=skipped)
        copytree(self.copy, self.stands)
        subprocess.run(["git", "init", "-q", str(root)], check=True)

    def restore(self) -> None:
        """Puts the crate back as it stands."""
        for part in ("src", "specs", "proofs"):
            rmtree(self.copy / part, ignore_errors=True)
            if (self.stands / part).is_dir():
                copytree(self.stands / part, self.copy / part)

    def check(self, batch: List[Mutant]) -> Tuple[Optional[int], Said]:
        """Checks the crate with the lines of a batch, and without the answers that no longer fit it."""
        began = time.time()
        self.restore()
        put_lines(self.copy, self.sources, batch)
        unfit = unfit_of(batch)
        for folder, names in unfit.items():
            leave_out(self.copy / folder / "Answers.antt", names)
        status, log, cpu = self.machine.check(self.copy)
        self.checks += 1
        self.cpu += cpu
        what = f"{len(batch)} at once" if batch else "as it stands"
        without = f", {sum(map(len, unfit.values()))} answers left out" if unfit else ""
        print(f"-- {self.name}: {what}{without}: {time.time() - began:.0f} s, {cpu:.0f} s of processors", flush=True)
        return status, Said(log, self.functions())

    def functions(self) -> Dict[str, List[Function]]:
        """The functions of all its files."""
        for path in (self.folder / "src").rglob("*.rt"):
            self.sources.lines(path.relative_to(self.folder).as_posix())
        return self.sources.functions

    # ---- The batches

    def try_all(self) -> None:
        for mutant in self.mutants:
            if mutant.bad:
                self.tell(mutant, f"BAD MUTANT: {mutant.bad}")
        if self.waiting:
            self.lay()
            status, said = self.check([])
            if status != 0 or not said.proved:
                for mutant in list(self.waiting):
                    self.tell(mutant, "NOT TRIED: the crate isn't proved as it stands: " + shorter(said.first_other()))
        while self.waiting:
            self.try_batch(next_batch(self.waiting, self.most))
        rmtree(self.root, ignore_errors=True)
        self.record()

    def record(self) -> None:
        """Writes that all were refused; takes an earlier record away where one isn't."""
        path = self.folder / kept.RECORD
        if kept.digest_of(self.folder) != self.digest:
            print(f"== {self.name} changed while its mutants were tried: nothing is recorded", flush=True)
        elif self.refused == len(self.mutants):
            path.parent.mkdir(exist_ok=True)
            path.write_text(kept.text_of(self.folder, self.machine.kit, date.today().isoformat()), encoding="utf-8")
        elif self.failed and path.exists():
            path.unlink()
        count = len(self.mutants)
        print(
            f"== {self.name}: {self.refused} of {count} refused, {self.checks} checks, {self.cpu:.0f} s of processors, "
            f"{self.cpu / max(1, count):.1f} a mutant",
            flush=True,
        )

    def try_batch(self, batch: List[Mutant]) -> None:
        status, said = self.check(batch)
        if said.compile and not said.judged:
            self.part_uncompiled(batch, said)
        elif status not in (0, 1) or not said.judged:
            self.part_unanswered(batch, status, said)
        else:
            moved = [self.judge(mutant, said, len(batch) == 1) for mutant in batch]
            self.most = self.most if any(moved) else max(1, len(batch) // 2)

    def part_uncompiled(self, batch: List[Mutant], said: Said) -> None:
        """Finds which mutants don't parse or compile: those whose lines are named, and else by halves."""
        if len(batch) == 1:
            self.tell(batch[0], "BAD MUTANT: it doesn't compile: " + shorter(said.compile[0][1]))
            self.most = MOST
            return
        named = [mutant for mutant in batch if any(place in mutant.lines for place, _ in said.compile)]
        if not named:
            self.most = max(1, len(batch) // 2)
        for mutant in named:
            mutant.alone = True

    def part_unanswered(self, batch: List[Mutant], status: Optional[int], said: Said) -> None:
        """Tries those of a check that died in smaller batches."""
        if len(batch) > 1:
            self.most = max(1, len(batch) // 2)
            return
        why = "its check took too long" if status is None else f"its check ended with status {status}"
        self.tell(batch[0], f"NOT TRIED: {why}: {shorter(said.lines[-1]) if said.lines else 'it said nothing'}")

    # ---- The verdicts

    def judge(self, mutant: Mutant, said: Said, alone: bool) -> bool:
        """Judges a mutant of a batch, where that can be done; gives whether it is done with, or is tried in another way."""
        goals = said.of(mutant.functions)
        if alone and not goals:
            goals = in_order([*said.goals, *said.answered()])
        if alone and said.proved:
            self.tell(mutant, "NOT REFUSED: all is proved" + (", without the answers that no longer fit" if mutant.unfit else ""))
        elif goals:
            self.judge_goals(mutant, goals, said)
        elif alone:
            self.tell(mutant, "NO VERDICT: " + shorter(said.first_other()))
        elif said.all_proved(mutant.functions):
            # What calls it may refuse it.
            mutant.alone = True
        else:
            return False
        return True

    def judge_goals(self, mutant: Mutant, goals: List[Goal], said: Said) -> None:
        """Tells at which goal a mutant is refused, or has it tried again without an answer that no longer fits."""
        first = goals[0]
        if first.values:
            self.tell_goal(mutant, first, goals, "values")
        elif not first.error:
            self.tell_goal(mutant, first, goals, self.how(mutant, first, said))
        elif not self.leave_out_next(mutant, goals, said):
            self.tell(mutant, f"NO VERDICT: {first.of} of {first.path} ({first.name}): {shorter(first.error)}")

    def how(self, mutant: Mutant, goal: Goal, said: Said) -> str:
        """How a goal that is left open was proved as the body stands."""
        if any(goal.name in names for names in mutant.unfit.values()):
            return "name" if mutant.gone else "answer"
        # A goal is named by the conditions on its way: that of an answer which isn't there may be this one.
        texts = [text for folder, names in said.unfit.items() if path_of(folder) == goal.path for text in names.values()]
        return "name" if any(is_gone(text) for text in texts) else "search"

    def leave_out_next(self, mutant: Mutant, goals: List[Goal], said: Said) -> bool:
        """Notes one answer more that is left out: one search that fails is enough. Gives whether there is one."""
        for folder, names in said.unfit.items():
            left = [name for name in names if name not in mutant.unfit.get(folder, ())]
            if not left or not any(path_of(folder) == goal.path for goal in goals):
                continue
            answered = goals_of(self.stands / folder / "Answers.antt")
            left.sort(key=lambda name: (not names[name], is_gone(names[name]), not name.startswith("returns")))
            chosen = [name for name in left if name in answered][:1] or left
            mutant.unfit.setdefault(folder, set()).update(chosen)
            mutant.gone = any(is_gone(names[name]) for name in chosen)
            return True
        return False


def path_of(folder: str) -> str:
    """The path of the function whose proof stands in this folder."""
    return "::".join(folder.split("/")[1:])


def unfit_of(mutants: List[Mutant]) -> Dict[str, Set[str]]:
    """The answers that no longer fit some of these, by their folder."""
    out: Dict[str, Set[str]] = {}
    for mutant in mutants:
        for folder, names in mutant.unfit.items():
            out.setdefault(folder, set()).update(names)
    return out
