"""What `wadlens` does for what is asked, by docs/wadlens.1: picture, compare, listing, assemble
and atlas here, and what it tells of files one after another in lens.py."""

from os.path import dirname

from plain import demos, later, lens, page
from plain.lens import Asked, Format, Run
from plain.levels import Level
from plain.look import Answer
from plain.picture import picture
from plain.wads import Entry, Files, entries, joined, refusal, shown, winner

MISTAKEN = Answer(2, b"", b"the usage\n")
"""What words that are mistaken give, whatever the message before the usage says."""
NO_TEXT = Answer(
    2,
    b"",
    b"wadlens: a word isn't UTF-8, so the whole run is refused: hand such a file over as /dev/stdin <FILE\n",
)
"""What words give of which one isn't UTF-8."""


NAME_FIRST = "wadlens: the level's name comes before its files: wadlens picture NAME FILE..."


# ---- picture -------------------------------------------------------------------------


def read_set(run: Run, asked: Asked, held: Files) -> list[Entry] | None:
    """The entries of all files; nothing where one is refused, the first that is."""
    for path in asked.paths:
        if why := lens.unread(path, held):
            run.refuses(path, why)
            return None
    files = [held[path] or b"" for path in asked.paths]
    for path, file in zip(asked.paths, files):
        if number := refusal(file):
            run.refuses(path, lens.FILE_REFUSALS[number])
            return None
    return joined(files)


def format_at(listed: list[Entry], g: int) -> Format:
    """The format at an entry: where no level starts it lacks its first lump."""
    if lens.is_start(listed, g):
        return lens.format_of(listed, g)
    return Format("incomplete", "THINGS")


def draw(run: Run, asked: Asked, listed: list[Entry]) -> None:
    """The level that wins the name, or why not."""
    g = winner(listed, asked.name.encode())
    if g is None:
        run.refuses(asked.name, "no level of this name")
        return
    form = format_at(listed, g)
    if form.name != "doom":
        run.refuses(asked.name, form.words, form.verdict)
        run.is_refused = False
        return
    level = Level(listed, g, asked.wide)
    drawn = picture(level, asked.cells, asked.frame, lens.judged(asked, level, listed).warned)
    if drawn is None:
        run.refuses(asked.name, "nothing to draw")
        return
    run.out = drawn
    run.finds(lens.FAULTY if level.faults else lens.CLEAN)


# ---- compare and assemble ------------------------------------------------------------


def read_demos(run: Run, asked: Asked, held: Files) -> list[later.LaterDemo]:
    """The demos of files; none where one of them is refused."""
    for path in asked.paths:
        if why := lens.unread(path, held) or later.refusal_of(held[path] or b""):
            run.refuses(path, why)
    return [] if run.errors else [later.read(held[path] or b"") for path in asked.paths]


def compare(run: Run, asked: Asked, held: Files) -> None:
    if both := read_demos(run, asked, held):
        if told := later.difference(*both, asked.commands_alone):
            run.out.append(told)
            run.finds(lens.FAULTY)


def listing(run: Run, asked: Asked, held: Files) -> None:
    for demo in read_demos(run, asked, held):
        run.out += later.listing(demo)
        # A listing gives back the header.
        assert demo.wrapper or demo.version < 200 or later.header_told(run.out) == demo.header


def assemble(run: Run, given: bytes) -> None:
    made = demos.assembled(given)
    if isinstance(made, demos.Wrong):
        run.refuses("standard input", f"line {made.line} is no line of a listing: {made.wanted}")
    else:
        run.data = made


# ---- atlas ---------------------------------------------------------------------------


def contents(folder: str, held: Files) -> dict[str, bytes] | None:
    """The files of a folder; nothing where there is none."""
    if folder not in held or held[folder] is not None:
        return None
    front = folder + "/"
    inner = {path.removeprefix(front): data for path, data in held.items()}
    return {name: data or b"" for name, data in inner.items() if front + name in held}


def folder_refusal(folder: str, held: Files) -> str:
    above = dirname(folder)
    if above and contents(above, held) is None:
        return "the folder above it isn't there"
    if folder not in held:
        return ""
    inside = contents(folder, held)
    if inside is None:
        return "it isn't a folder"
    return "it isn't empty" if inside else ""


def file_rows(asked: Asked, n: int, base: list[Entry], listed: list[Entry], made: dict[str, bytes]) -> list[page.Row]:
    """The rows of a file's levels, over the entries of the base files; their pictures are made."""
    rows = []
    for g in range(len(listed)):
        if not lens.is_start(listed, g):
            continue
        form, name = lens.format_of(listed, g), shown(listed[g].name)
        row = page.Row(asked.paths[n - 1], g, name, form)
        if form.name == "doom":
            level = Level(listed, g, asked.wide)
            found = lens.judged(asked, level, base + listed)
            counts = {code: len(all_told) for code, all_told in found.warned.items()}
            row = row._replace(level=level, findings=found.findings, fails=lens.fails(asked, found))
            row = row._replace(warned=counts, unlisted=found.unlisted)
            row = row._replace(messages=lens.found_lines(level, found, asked.most))
            if drawn := picture(level, asked.cells, None, found.warned):
                row = row._replace(picture=f"{n}-{g}.svg")
                made[row.picture] = lens.lines(drawn)
        rows.append(row)
    return rows


def atlas(asked: Asked, held: Files) -> Answer:
    """The survey, and a folder with it, the pictures and the events of the page."""
    survey = lens.run(asked._replace(command="survey"), held)
    made = {"survey.jsonl": survey.out}
    rows: list[page.Row] = []
    refused = []
    for n, path in enumerate(asked.paths, 1):
        if why := lens.untaken(path, held):
            refused.append((path, why))
        else:
            rows += file_rows(asked, n, lens.base_of(asked, held), entries(held[path] or b""), made)
    if asked.paths and len(refused) == len(asked.paths):
        return Answer(survey.status, b"", survey.error, contents(asked.folder, held))
    made["index.html"] = page.wanted(asked, rows, refused)
    return Answer(survey.status, b"", survey.error, made)


# ---- The program ---------------------------------------------------------------------


def refused_first(asked: Asked, held: Files) -> tuple[str, str] | None:
    """What ends a run before any file is read, and why: a list, then an atlas' folder, then base
    files, each of which is read and judged before the next."""
    looked_at = [(asked.lost, lens.unread(asked.lost, held))] if asked.lost else []
    looked_at += [(asked.folder, folder_refusal(asked.folder, held))] if asked.command == "atlas" else []
    looked_at += [(path, lens.untaken(path, held)) for path in asked.bases]
    return next(((path, why) for path, why in looked_at if why), None)


def left_folder(asked: Asked, held: Files) -> dict[str, bytes] | None:
    """The folder of a run that ended before any file was read: one that is taken is made before the base files are read."""
    unread = asked.lost and lens.unread(asked.lost, held)
    taken = asked.command == "atlas" and not unread and not folder_refusal(asked.folder, held)
    return {} if taken else contents(asked.folder, held)


def run(asked: Asked, held: Files, given: bytes) -> Answer:
    told = Run()
    if first := refused_first(asked, held):
        told.refuses(*first)
        return told.answer()._replace(folder=left_folder(asked, held))
    match asked.command:
        case "picture":
            listed = read_set(told, asked, held)
            if listed is not None:
                draw(told, asked, listed)
            if asked.name[-4:].lower() == ".wad" and told.is_refused:
                told.errors.append(NAME_FIRST)
        case "compare":
            compare(told, asked, held)
        case "listing":
            listing(told, asked, held)
        case "assemble":
            assemble(told, given)
        case "atlas":
            return atlas(asked, held)
        case _:
            return lens.run(asked, held)
    return told.answer()
