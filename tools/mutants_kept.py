"""The record of a crate: that all its mutants were refused, and of what."""

import hashlib
import re
from pathlib import Path
from typing import Dict, List

from mutants_edits import FOLDERS

RECORD = Path("mutants/TRIED")
HEAD = "Written by tools/mutants, once the prover refused each of this crate's mutants. Nobody edits it.\n"


def files_of(crate: Path) -> List[Path]:
    """What the record is of: the sources, the definitions and the mutants."""
    wanted = [path for part, end in (("src", ".rt"), ("specs", ".antt")) for path in (crate / part).rglob("*" + end)]
    wanted += [path for folder in FOLDERS for path in (crate / folder).glob("*.edit")]
    return [path for path in wanted if path.is_file()]


def digest_of(crate: Path) -> str:
    lines = []
    for path in files_of(crate):
        name = path.relative_to(crate).as_posix()
        # A mutant is the same in either folder.
        name = re.sub(r"^must-fail/", "mutants/", name) if name.endswith(".edit") else name
        lines.append(f"{hashlib.sha256(path.read_bytes()).hexdigest()}  {name}\n".encode())
    return hashlib.sha256(b"".join(sorted(lines))).hexdigest()


def count_of(crate: Path) -> int:
    return sum(path.suffix == ".edit" for path in files_of(crate))


def crates_with_mutants() -> List[str]:
    """The crates that have mutants or a record, in the order of crates.txt."""
    names = [line.split(":")[0].split()[0] for line in Path("crates.txt").read_text(encoding="utf-8").splitlines() if ":" in line]
    return [name for name in names if count_of(Path("crates") / name) or (Path("crates") / name / RECORD).exists()]


def record_of(crate: Path) -> Dict[str, str]:
    """The words of a record and what stands behind them; nothing where there is none."""
    try:
        text = (crate / RECORD).read_text(encoding="utf-8")
    except (OSError, UnicodeDecodeError):
        return {}
    return dict(line.split(": ", 1) for line in text.splitlines() if ": " in line)


def text_of(crate: Path, kit: str, day: str) -> str:
    return f"{HEAD}kit: {kit}\nrefused: {count_of(crate)}\nday: {day}\nsha256: {digest_of(crate)}\n"


def is_tried(crate: Path) -> bool:
    """Whether the record is of what stands there."""
    told = record_of(crate)
    day, kit = told.get("day", ""), told.get("kit", "")
    if not count_of(crate) or not re.fullmatch(r"\d{4}-\d\d-\d\d", day) or not kit:
        return False
    return (crate / RECORD).read_text(encoding="utf-8") == text_of(crate, kit, day)


def wants_record(crate: Path) -> bool:
    """Whether a crate has mutants that the gate doesn't try itself, or a record."""
    return any((crate / RECORD.parent).glob("*.edit")) or (crate / RECORD).exists()


def check(names: List[str]) -> int:
    """Prints which of these crates lack a right record; gives how many."""
    names = [name for name in names if wants_record(Path("crates") / name)]
    wrong = [name for name in names if not is_tried(Path("crates") / name)]
    for name in wrong:
        print(f"{name} changed since its mutants were tried: tools/mutants {name}")
    print(f"{len(names) - len(wrong)} passed, {len(wrong)} failed")
    return len(wrong)
