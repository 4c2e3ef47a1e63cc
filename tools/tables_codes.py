"""The table of codes, and what each file takes from it."""

import re
from typing import Callable, Dict, Iterable, List, NamedTuple, Optional

from tables_explained import Explanation, entry_of, explanations, names_in_blocks, with_blocks
from tables_marks import Amiss, text_of

TABLE = "crates/level_codes/src/table.rt"

SPACE = r"\s*(?://[^\n]*\s*)*"
STRING = r'b"((?:[^"\\]|\\.)*)"'
CODE = rf"(fault|note|warning)!\s*\{{\s*(\w+),\s*{STRING},\s*(\w+),\s*(?:(\w+),\s*)?{STRING},\s*{STRING},?\s*\}}"
ROW = re.compile(rf"(?:(ends_game)!\s*\{{\s*)?{CODE}(?(1)\s*\}}),{SPACE}")

# The classes in their order, each with the letter of its codes.
CLASSES = {"fault": "F", "note": "N", "warning": "W"}

# Codes that are formats in `wadlens check`, which doesn't judge these.
FORMATS = ("F1", "F2", "N1")


class Row(NamedTuple):
    """A code: its name, its class and what it is found at, what it says in few words, the same as a sentence, and whether the game ends at it."""

    name: str
    group: str
    kind: str
    text: str
    meaning: str
    ends_game: bool

    @property
    def is_finding(self) -> bool:
        return self.group != "warning"


# ---- The table ------------------------------------------------------------------------------------------------------------


def unescaped(text: str) -> str:
    return re.sub(r"\\(.)", r"\1", text)


def row_of(found: Optional["re.Match[str]"]) -> Optional[Row]:
    """A row, where it has the form of its class."""
    if not found:
        return None
    ends_game, group, code, name, kind, wants, text, meaning = found.groups()
    is_right = name == code and (group == "warning") == bool(wants)
    return Row(name, group, kind, unescaped(text), unescaped(meaning), bool(ends_game)) if is_right else None


def rows_in(text: str) -> List[Row]:
    """The rows of a table, none of which may have another form."""
    head = re.search(rf"const TABLE: .*= \[{SPACE}", text)
    if not head:
        raise Amiss(f"{TABLE} has no table")
    at, out = head.end(), []
    while not text.startswith("];", at):
        found = ROW.match(text, at)
        row = row_of(found)
        if not found or not row:
            line = text.count("\n", 0, at) + 1
            raise Amiss(f"{TABLE}:{line}: this row can't be read: {text[at:].split(chr(10), 1)[0]}")
        at = found.end()
        out.append(row)
    return out


def table() -> List[Row]:
    """The rows, which stand in the order of a report: each class is numbered from 1 on, and follows the one before it."""
    text = text_of(TABLE)
    rows = rows_in(text)
    counts = {group: sum(row.group == group for row in rows) for group in CLASSES}
    wanted = [f"{letter}{number}" for group, letter in CLASSES.items() for number in range(1, 1 + counts[group])]
    for row, name in zip(rows, wanted):
        if row.name != name or CLASSES[row.group] != name[0]:
            raise Amiss(f"{TABLE}: {row.name} stands where {name} has to stand")
    count = re.search(r"REPORT_COUNT: usize = (\d+);", text)
    if not rows or not count or int(count[1]) != len(rows):
        raise Amiss(f"{TABLE} has {len(rows)} rows, and REPORT_COUNT is {count[1] if count else 'not there'}")
    return rows


# ---- Languages ------------------------------------------------------------------------------------------------------------


def quoted(text: str, mark: str = '"') -> str:
    """A string of C's kind, within these marks."""
    return mark + text.replace("\\", "\\\\").replace(mark, "\\" + mark) + mark


def script_string(text: str) -> str:
    """A string of JavaScript, in the marks that need no escape."""
    return quoted(text, '"' if "'" in text and '"' not in text else "'")


def script_block(rows: List[Row]) -> List[str]:
    told = explanations([row.name for row in rows])
    kinds = ", ".join(f"{letter}: {script_string(group.capitalize())}" for group, letter in CLASSES.items())
    return [
        "/** @type {Record<string, string>} */",
        "const MEANINGS = {",
        *[f"  {row.name}: {script_string(row.meaning)}," for row in rows],
        "};",
        f"const KINDS = /** @type {{Record<string, string>}} */ ({{ {kinds} }});",
        f"const ENDING = [{', '.join(script_string(row.name) for row in rows if row.ends_game)}];",
        "/** @type {Record<string, { text: string, parts: string[] }>} */",
        "const EXPLANATIONS = {",
        *[line for row in rows for line in script_entry(row, told[row.name])],
        "};",
    ]


def script_entry(row: Row, told: Explanation) -> List[str]:
    parts = [f"      {script_string(' '.join(lines))}," for lines in told]
    return [f"  {row.name}: {{", f"    text: {script_string(row.text)},", "    parts: [", *parts, "    ],", "  },"]


def library_block(rows: List[Row]) -> List[str]:
    """The texts of codes in the library, from which Python and Rust take them."""
    ends = {True: "true", False: "false"}
    told = [f"    {{{quoted(row.name)}, {quoted(row.text)}, {ends[row.ends_game]}}}," for row in rows]
    return ["static const struct code codes[] = {", *told, "};"]


def header_block(rows: List[Row]) -> List[str]:
    names = [f"WADLOOK_{row.name} = {number}" + "," * (number + 1 < len(rows)) for number, row in enumerate(rows)]
    widest = max(map(len, names))
    return [
        "enum wadlook_code {",
        *[f"    {name.ljust(widest)} /* {row.text} */" for name, row in zip(names, rows)],
        "};",
    ]


def page_block(rows: List[Row]) -> List[str]:
    """The table of findings in the man page of wadlook."""

    def line(row: Row) -> str:
        text = row.text.replace("\\", "\\e").replace("-", "\\-")
        return f"{row.name}\t{'0' if row.kind == 'Whole' else row.kind.lower()}\t{text}"

    return [line(row) for row in rows if row.is_finding]


def explained_page_block(rows: List[Row]) -> List[str]:
    """What each code means, in the man page of wadlens."""
    told = explanations([row.name for row in rows])
    return [line for row in rows for line in entry_of(head_of(row), told[row.name])]


def head_of(row: Row) -> str:
    return f"{row.name}: {row.text}"


# ---- Shells ---------------------------------------------------------------------------------------------------------------


GROUPS = {"game": "what ends the game", "notes": "all notes", "warnings": "all warnings"}


def words_of(rows: Iterable[Row]) -> Dict[str, str]:
    """What --ignore and --fail take beside ranges, with what it says."""
    return {**GROUPS, **{row.name: row.text for row in rows if row.group != "fault"}}


def explained(rows: Iterable[Row]) -> Dict[str, str]:
    """What `explain` takes, with what it says."""
    return {row.name: row.text for row in rows}


def bash_block(rows: List[Row]) -> List[str]:
    def words(name: str, some: Dict[str, str]) -> str:
        return f"{name}='{' '.join(some)}'"

    return [words("_wadlens_codes", words_of(rows)), words("_wadlens_explained", explained(rows))]


def zsh_block(rows: List[Row]) -> List[str]:
    def item(word: str, text: str) -> str:
        text = re.sub(r"([\\\[\]:])", r"\\\1", text).replace("'", "'\\''")
        return f"        '{word}[{text}]'"

    def items(some: Dict[str, str]) -> List[str]:
        return [item(*pair) for pair in some.items()]

    return ["    codes=(", *items(words_of(rows)), "    )", "    explained=(", *items(explained(rows)), "    )"]


def fish_block(rows: List[Row]) -> List[str]:
    def texts(name: str, some: Dict[str, str]) -> List[str]:
        items = [f"    {word} {quoted(text, chr(39))}" for word, text in some.items()]
        return [f"set -g {name} \\", *[item + " \\" for item in items[:-1]], *items[-1:]]

    return [*texts("__wadlens_codes", words_of(rows)), *texts("__wadlens_explained", explained(rows))]


BLOCKS: Dict[str, Callable[[List[Row]], List[str]]] = {
    "web/codes.mjs": script_block,
    "tools/texts.c": library_block,
    "include/wadlook.h": header_block,
    "docs/wadlook.1": page_block,
    "docs/wadlens.1": explained_page_block,
    "docs/completions/wadlens.bash": bash_block,
    "docs/completions/_wadlens": zsh_block,
    "docs/completions/wadlens.fish": fish_block,
}


def blocks() -> Dict[str, List[str]]:
    """What each file takes."""
    rows = table()
    return {path: block(rows) for path, block in BLOCKS.items()}


EXPLAINED = "docs/CODES.md"


def explained_page() -> str:
    """The page that explains each code in a block of its own, between words by hand."""
    rows = table()
    return with_blocks(text_of(EXPLAINED), {row.name: head_of(row) for row in rows}, explanations([row.name for row in rows]))


# ---- What stays by hand -----------------------------------------------------------------------------------------------------

SECOND_PAGE = "docs/wadlens.1"


def section(text: str, name: str) -> str:
    return text.partition(f"\n.SH {name}\n")[2].partition("\n.SH ")[0]


def page_faults(rows: List[Row]) -> List[str]:
    """What the man page of wadlens, whose messages have values, doesn't have as the table does."""
    text, out = text_of(SECOND_PAGE), []
    for name, is_finding in (("FINDINGS", True), ("WARNINGS", False)):
        wanted = [(row.name, row.kind.lower().replace("whole", "level")) for row in rows if row.is_finding == is_finding]
        wanted = [pair for pair in wanted if pair[0] not in FORMATS]
        there = re.findall(r"^([FNW]\d+)\t(\w+)\t\S", section(text, name), re.M)
        differing = [pair for pair in wanted if pair not in there] + [pair for pair in there if pair not in wanted]
        if wanted != there:
            out.append(f"{SECOND_PAGE}: {name} has another table: {' '.join(differing[0]) if differing else 'another order'}")
    last = {row.name[0]: row.name for row in rows}
    if f"N1 to {last.get('N')} and W1 to {last.get('W')}" not in text:
        out.append(f"{SECOND_PAGE}: --ignore takes N1 to {last.get('N')} and W1 to {last.get('W')}")
    ending = [row.name for row in rows if row.ends_game]
    if f"game\t{', '.join(ending)}:" not in text:
        out.append(f"{SECOND_PAGE}: game is {', '.join(ending)}")
    return out


def explained_faults(rows: List[Row]) -> List[str]:
    """Which blocks the page that explains each code lacks, and how many codes it tells."""
    text = text_of(EXPLAINED)
    there, wanted = names_in_blocks(text), [row.name for row in rows]
    out = [f"{EXPLAINED}: there is no code {name}" for name in there if name not in wanted]
    out += [f"{EXPLAINED}: there is no block of {name}" for name in wanted if name not in there]
    if not out and there != wanted:
        out.append(f"{EXPLAINED}: the codes stand in another order")
    if f" {len(rows)} codes" not in text:
        out.append(f"{EXPLAINED}: there are {len(rows)} codes")
    return out


def faults() -> List[str]:
    """What pages that are written by hand don't have as the table does."""
    rows = table()
    return [*page_faults(rows), *explained_faults(rows)]
