"""docs/DEFINITIONS.md: a row for each file of definitions, by its comments.

A row has the file's first comment. A name in bold in it is a definition of the file, and what stands behind is that definition's comment.
Which names these are, and what stands behind `Besides`, is by hand: it is taken over from the page. The last column has the other names.
"""

import re
from pathlib import Path
from typing import Dict, Iterable, List, NamedTuple, Tuple

from tables_marks import Amiss, between, text_of

PAGE = "docs/DEFINITIONS.md"
LAYERS = "docs/ARCHITECTURE.md"

DEFINED = re.compile(r"(?:  (?=\w+ pub |pub (?:record|data) ))?(?:\w+ )*pub (?:(?:record|data) )?(?!mod )([^\s:(){}]+)")
TOLD = re.compile(r"\*\*(\S+)\*\*:")
BESIDES = "*Besides:*"
ROW = re.compile(r"\| \[[^\]]*\]\(\.\./(crates/\S+\.antt)\) \| (.*) \| (.*) \|$")


class Definitions(NamedTuple):
    """A file of definitions: its first comment, and its names, each with its comment or that of the one in front of it."""

    path: str
    comment: str
    names: Dict[str, str]


class Row(NamedTuple):
    """What is by hand in a row: the names that it tells, and what else."""

    told: List[str]
    besides: str


# ---- The files ------------------------------------------------------------------------------------------------------------


def comment_of(lines: Iterable[str]) -> str:
    return " ".join(line.strip()[2:].strip() for line in lines)


def definitions_in(path: str) -> Definitions:
    lines = text_of(path).split("\n")
    first = next((at for at, line in enumerate(lines) if not line.startswith("--")), len(lines))
    names: Dict[str, str] = {}
    comment: List[str] = []
    last = ""
    for line in lines[first:]:
        found = DEFINED.match(line)
        if line.strip().startswith("--"):
            comment.append(line)
            continue
        if found:
            last = comment_of(comment) or last
            names[found[1]] = last
        comment = []
    return Definitions(path, comment_of(lines[:first]), names)


def crates() -> List[str]:
    """The crates by their layers, the lowest first."""
    layers: List[Tuple[int, str]] = []
    fenced = text_of(LAYERS).partition("\n## The layers\n")[2].partition("\n```\n")[2].partition("\n```\n")[0]
    layer = 0
    for number, name in re.findall(r"^(\d*) +(\w+)", fenced, re.M):
        layer = int(number or layer)
        layers.append((layer, name))
    names = [name for _, name in sorted(layers, key=lambda pair: pair[0])]
    for folder in sorted(path.parent.name for path in Path("crates").glob("*/specs")):
        if folder not in names:
            raise Amiss(f"{LAYERS} has no layer for {folder}")
    return names


def files_below(file: Path) -> List[Path]:
    """The files of the modules that a file names, in its order, each in front of those that it names."""
    folder = file.parent if file.stem == "Lib" else file.with_suffix("")
    out = []
    for module in re.findall(r"^pub mod (\w+)$", text_of(file.as_posix()), re.M):
        path = folder / f"{module}.antt"
        out += [path, *files_below(path)]
    return out


def definitions_of(crate: str) -> List[Definitions]:
    """The files of a crate that define something, in the order of its Lib.antt."""
    folder = Path("crates") / crate / "specs"
    if not folder.is_dir():
        return []
    files = files_below(folder / "Lib.antt")
    left = {path for path in folder.rglob("*.antt") if path != folder / "Lib.antt"} - set(files)
    if left:
        raise Amiss(f"{min(left).as_posix()} is named by no module")
    found = [definitions_in(path.as_posix()) for path in files]
    for each in found:
        if each.names and not each.comment:
            raise Amiss(f"{each.path} doesn't begin with a comment")
    return [each for each in found if each.names]


# ---- The page -------------------------------------------------------------------------------------------------------------


def rows_by_hand() -> Dict[str, Row]:
    """What is by hand in the rows of the page, by the files."""
    out = {}
    for line in between(PAGE):
        found = ROW.match(line)
        if found:
            told, _, besides = found[2].partition(BESIDES)
            out[found[1]] = Row(TOLD.findall(told), besides.strip())
        elif line.startswith("| ["):
            raise Amiss(f"{PAGE}: this row can't be read: {line}")
    return out


def plain(comment: str) -> str:
    """A comment as Markdown has it: what stands between backquotes stays as it is."""
    parts = re.split(r"(`[^`]*`)", comment.replace("|", r"\|"))
    return "".join(part if part.startswith("`") else re.sub(r"([<*])", r"\\\1", part) for part in parts)


def ended(text: str) -> str:
    return text if text.endswith((".", "!", "?")) else text + "."


def in_words(path: str) -> str:
    """The name of a file, in words."""
    name = path.partition("/specs/")[2][: -len(".antt")]
    return re.sub(r"(?<=[a-z])[A-Z]", lambda found: " " + found[0].lower(), name)


def row(file: Definitions, hand: Row) -> str:
    unknown = [name for name in hand.told if not file.names.get(name)]
    if unknown:
        why = "comments on" if unknown[0] in file.names else "defines"
        raise Amiss(f"{file.path} {why} no {unknown[0]}, which {PAGE} tells")
    told = [f"**{name}**: {ended(plain(file.names[name]))}" for name in file.names if name in hand.told]
    besides = [f"{BESIDES} {hand.besides}"] if hand.besides else []
    others = ", ".join(f"`{name}`" for name in file.names if name not in hand.told)
    text = " ".join([ended(plain(file.comment)), *told, *besides])
    return f"| [{in_words(file.path)}](../{file.path}) | {text} | {others} |"


def block() -> List[str]:
    """The page's tables, a crate each."""
    hand, out = rows_by_hand(), []
    for crate in crates():
        files = definitions_of(crate)
        if files:
            out += ["", f"## `{crate}`", "", "| Definitions | In plain words | Other names |", "|---|---|---|"]
            out += [row(file, hand.pop(file.path, Row([], ""))) for file in files]
    lost = [path for path, each in hand.items() if each.told or each.besides]
    if lost:
        raise Amiss(f"there is no {lost[0]}, of which {PAGE} has words by hand")
    return [*out, ""]


def names_in(lines: Iterable[str]) -> List[str]:
    """The names by which other pages call what the tables have: those of the rows, and those in italics."""
    text = "\n".join(lines)
    return re.findall(r"^\| \[(?:[^\]]*/)?([^\]]*)\]", text, re.M) + re.findall(r"(?<!\*)\*([A-Z][^*:]*)\*(?!\*)", text)
