"""What each code means to a mapper: the second table of codes, and what pages take from it."""

import re
from typing import Dict, List, NamedTuple

from tables_marks import Amiss, text_of

TABLE = "crates/level_codes/src/explanation.rt"

STRING = r'b"((?:[^"\\]|\\.|\\\n)*)"'
SPACE = r"\s*(?://[^\n]*\s*)*"
ROW = re.compile(rf"explained!\s*\{{\s*(\w+),\s*{STRING},\s*{STRING},\s*{STRING},?\s*\}},{SPACE}")


class Explanation(NamedTuple):
    """Lines: what a code is, what the game does with it, and what a mapper does about it."""

    what: List[str]
    game: List[str]
    cure: List[str]


def lines_of(literal: str) -> List[str]:
    """The lines of a byte string; a backslash at a line's end leaves that and the next one's indent out."""
    text = re.sub(r"\\\n\s*", "", literal)
    text = re.sub(r"\\(.)", lambda found: "\n" if found[1] == "n" else found[1], text)
    if not text.endswith("\n"):
        raise Amiss(f"{TABLE}: a text doesn't end in a line's end: {text}")
    return text[:-1].split("\n")


def explanations(names: List[str]) -> Dict[str, Explanation]:
    """The explanations of these codes, in whose order they have to stand."""
    text = text_of(TABLE)
    head = re.search(rf"const EXPLANATIONS: .*= \[{SPACE}", text)
    if not head:
        raise Amiss(f"{TABLE} has no table")
    at, out = head.end(), {}
    while found := ROW.match(text, at):
        at = found.end()
        out[found[1]] = Explanation(*(lines_of(part) for part in found.groups()[1:]))
    if not text.startswith("];", at):
        line = text.count("\n", 0, at) + 1
        raise Amiss(f"{TABLE}:{line}: this row can't be read: {text[at:].split(chr(10), 1)[0]}")
    if list(out) != names:
        differing = [name for name in [*names, *out] if name not in names or name not in out]
        raise Amiss(f"{TABLE} has other codes than the table: {' '.join(differing) or 'another order'}")
    return out


# ---- What takes them ------------------------------------------------------------------------------------------------------

BLOCK = re.compile(r"^```\n([FNW]\d+): .*?^```$", re.M | re.S)


def names_in_blocks(text: str) -> List[str]:
    """The codes that a page in Markdown explains, each in a block of its own."""
    return BLOCK.findall(text)


def with_blocks(text: str, heads: Dict[str, str], told: Dict[str, Explanation]) -> str:
    """The page with each of its blocks as `wadlens explain` prints it; one of no code stays."""

    def block(found: "re.Match[str]") -> str:
        name = found[1]
        if name not in told:
            return found[0]
        return "\n".join(["```", heads[name], *told[name].what, *told[name].game, *told[name].cure, "```"])

    return BLOCK.sub(block, text)


def entry_of(head: str, told: Explanation) -> List[str]:
    """The same for a man page, each part as a paragraph."""

    def paragraph(lines: List[str]) -> List[str]:
        # A line of a sentence each, as in the rest of the page.
        text = " ".join(lines).replace("\\", "\\e").replace("-", "\\-")
        return [re.sub(r"^(['.])", r"\\&\1", line) for line in re.sub(r"(?<=\.) (?=[A-Z])", "\n", text).split("\n")]

    quoted = head.replace('"', '""').replace("-", "\\-")
    return [".TP", f'.B "{quoted}"', *paragraph(told.what), ".br", *paragraph(told.game), ".br", *paragraph(told.cure)]
