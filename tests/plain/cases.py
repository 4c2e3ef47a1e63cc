"""Cases made up from a seed: files by their paths, and runs of the programs on them."""

from collections.abc import Callable
from random import Random
from typing import NamedTuple

from plain import demos, harm, lens, look, make, trick, wadlens
from plain.runs import (
    MISSING,
    Run,
    assemble_run,
    atlas_run,
    compare_run,
    cut_run,
    given,
    lens_run,
    listing_run,
    look_runs,
    named_cut_run,
    no_text,
    picture_run,
    point_lines,
)
from plain.wads import USUAL, Files, is_text

LABELS = (
    b"E1M1",
    b"E1M1",
    b"E1M1",
    b"MAP01",
    b"MAP31",
    b"e1m1",
    b"A\\ \xff",
    b"LONGNAME",
    b"<&\"'>",
)
OTHER_NAMES = ("E1M1", "e1m1", "E1M1LONG", "LONGNAMES", "A\\", "", "DEMO1", "THINGS")
PATHS = (
    "a.wad",
    "b.wad",
    'c "d".wad',
    "é\\.wad",
    "e\x01.wad",
    "f\n.wad",
    "h\x7f\x85\x1b[31m.wad",
    "g 😀.wad",
    "<b>&amp;'.wad",
)
FOLDER = "."
MISTAKEN = (
    "check",
    "check --strict a.wad",
    "check --null a.wad",
    "check --max -1 a.wad",
    "check --cells 3 a.wad",
    "survey --max 3 a.wad",
    "survey --strict a.wad",
    "demos --map a.wad",
    "picture E1M1",
    "picture --cells 0 E1M1 a.wad",
    "picture --cells 1025 E1M1 a.wad",
    "picture --frame 5,0,4,9 E1M1 a.wad",
    "picture --frame 0,5,9,4 E1M1 a.wad",
    "picture --frame 0,0,32768,0 E1M1 a.wad",
    "picture --frame=-32769,0,0,0 E1M1 a.wad",
    "picture --frame 0,0,9 E1M1 a.wad",
    "picture E1M1" + 65 * " a.wad",
    "cut a.wad",
    "cut --entry 0 a.wad a.wad",
    "cut --entry -1 a.wad",
    "atlas a.wad",
    "atlas --out atlas",
    "atlas --out atlas --cells 0 a.wad",
    "atlas --out atlas --max -1 a.wad",
    "atlas --out atlas --max a.wad",
    "atlas --out atlas --strict a.wad",
    "compare a.wad",
    "compare a.wad a.wad a.wad",
    "assemble a.wad",
    "look a.wad",
    "check --ignore= a.wad",
    "check --ignore F3 a.wad",
    "check --ignore N0 a.wad",
    "check --ignore N13 a.wad",
    "check --ignore N02 a.wad",
    "check --ignore ,W7 a.wad",
    "check --ignore N2,,W7 a.wad",
    "check --ignore N2 --ignore W0 a.wad",
    "check --ignore N2",
    "check a.wad --ignore",
    "survey --ignore W26 a.wad",
    "survey --ignore N2, a.wad",
    "survey --ignore N2,F18,W7 a.wad",
    "demos --ignore N2 a.wad",
    "check --ignore N9-N2 a.wad",
    "check --ignore N12-W1 a.wad",
    "check --ignore W25-W26 a.wad",
    "check --ignore N2- a.wad",
    "check --ignore -N2 a.wad",
    "check --ignore N2-N3-N4 a.wad",
    "check --ignore F3-F9 a.wad",
    "check --ignore F18-N2 a.wad",
    "check --ignore faults a.wad",
    "check --fail F3 a.wad",
    "check --fail= a.wad",
    "check --fail N13 a.wad",
    "check --fail W9 a.wad",
    "check --fail game a.wad",
    "check --fail warnings a.wad",
    "check --fail N2,w9-w11 a.wad",
    "check --map --fail W9 --ignore w9 a.wad",
    "check --fail N2 --ignore N1-N3 a.wad",
    "check --fail n1-n4 --ignore notes,N4 a.wad",
    "survey --fail W7 a.wad",
    "survey --map --fail W26 a.wad",
    "demos --fail N2 a.wad",
    "picture --fail N2 E1M1 a.wad",
    "cut --entry 0 --fail N2 a.wad",
    "atlas --out atlas --fail game a.wad",
    "atlas --out atlas --ignore F3 a.wad",
    "check --base a.wad a.wad",
    "check --map --base a.wad",
    "survey --base a.wad a.wad",
    "survey --map a.wad --base",
    "demos --base a.wad a.wad",
    "picture --base a.wad E1M1 a.wad",
    "atlas --out atlas --base a.wad a.wad",
    "check --map a.wad" + 64 * " --base a.wad",
    "survey --map" + 64 * " --base=a.wad" + " a.wad",
    "atlas --out atlas --map" + 64 * " --base a.wad" + " a.wad",
)
"""Words of `wadlens` that ask for nothing."""


class Case(NamedTuple):
    files: Files
    runs: list[Run]


def wanted(run: Run, files: Files) -> look.Answer:
    """What a run has to give, by the plain reading."""
    if run.program == "wadlook":
        return look.run(run.words, files, run.given)
    if not all(is_text(word) for word in run.words):
        return wadlens.NO_TEXT
    if run.asked is None:
        return wadlens.MISTAKEN
    return wadlens.run(run.asked, files, run.given)


# ---- Cases ---------------------------------------------------------------------------


def drafted(random: Random, most: int) -> make.Draft:
    """A level with at most so many damages."""
    draft = make.level(random)
    for _ in range(random.randrange(most + 1)):
        harm.level(random, draft)
    return draft


def name_in(random: Random, lumps: make.Lumps) -> str:
    """A name to be asked for: mostly one that a label among lumps has."""
    labels = [name for (name, _), (after, _) in zip(lumps, lumps[1:]) if after == b"THINGS"]
    words = [name.decode() for name in labels if name.isascii() and b"\0" not in name]
    return random.choice(words if words and random.random() < 0.8 else OTHER_NAMES)


def of_level(random: Random) -> Case:
    """A level, whole or damaged in a few places, and all that is asked of it."""
    draft = drafted(random, random.choice((0, 0, 1, 2, 4)))
    lumps = make.named(draft, random.choice(LABELS))
    if random.random() < 0.1:
        harm.lumps(random, lumps)
    path, name = random.choice(PATHS), name_in(random, lumps)
    files: Files = {path: make.file(random, lumps)}
    runs = look_runs(random, draft, name, [path])
    runs += [lens_run(random, command, [path]) for command in ("check", "survey")]
    return Case(files, [*runs, picture_run(random, draft, name, [path], files)])


def games(random: Random) -> Files:
    """Files with textures and flats, as those of games, a few of them damaged."""
    found: Files = {}
    for name in ("game.wad", "patch.wad"):
        data = make.file(random, make.resources(random))
        found[name] = harm.file(random, data) if random.random() < 0.2 else data
    return found


def of_oversights(random: Random) -> Case:
    """A level in which every reference holds, with a few oversights or none."""
    draft = make.neat(random)
    for _ in range(random.choice((0, 1, 1, 1, 2, 4))):
        harm.overlook(random, draft)
    if random.random() < 0.2:
        harm.level(random, draft)
    path = random.choice(PATHS)
    lumps = make.named(draft, b"E1M1")
    if random.random() < 0.6:
        lumps += make.resources(random)
    files: Files = {path: make.file(random, lumps)} | games(random)
    bases = [*files, FOLDER] if random.random() < 0.1 else [*files]
    files |= {FOLDER: None} if FOLDER in bases else {}
    runs = [lens_run(random, command, [path], mapped=True, bases=bases) for command in ("check", "survey") for _ in "ab"]
    return Case(files, [*runs, picture_run(random, draft, "E1M1", [path], files)])


def of_game(random: Random) -> Case:
    """A level in which every reference holds, with what the released game stumbles over."""
    draft = make.neat(random)
    for _ in range(random.choice((1, 1, 2, 4))):
        trick.play(random, draft)
    if random.random() < 0.2:
        harm.level(random, draft)
    name = random.choice(("E1M1", "E2M8", "E3M8", "MAP07"))
    lumps = make.named(draft, name.encode())
    files: Files = {"game.wad": make.file(random, trick.graphics(random, make.FLATS))}
    if random.random() < 0.5:
        lumps += trick.graphics(random, make.FLATS)
    path = random.choice(PATHS)
    files = {path: make.file(random, lumps)} | files
    runs = [lens_run(random, command, [path], mapped=True, bases=[*files]) for command in ("check", "survey") for _ in "ab"]
    return Case(files, [*runs, picture_run(random, draft, name, [path], files)])


def of_many(random: Random) -> Case:
    """A file of several levels, labels that hide others among them."""
    lumps: make.Lumps = [(b"PLAYPAL", random.randbytes(5))]
    draft = make.level(random)
    for _ in range(random.randrange(2, 7)):
        draft = drafted(random, random.choice((1, 3, 12)))
        own = make.named(draft, random.choice(LABELS))
        if random.random() < 0.3:
            harm.lumps(random, own)
        lumps += own
        if random.random() < 0.2:
            lumps.append((b"BEHAVIOR", b"ACS\0"))
    path, name = random.choice(PATHS), name_in(random, lumps)
    files: Files = {path: make.file(random, lumps)}
    runs = [lens_run(random, command, [path]) for command in ("check", "survey")]
    runs += [lens_run(random, "check", [path]), cut_run(random, path, len(lumps)), named_cut_run(random, path, name)]
    runs += [Run("wadlook", [command, path]) for command in ("lumps", "levels")]
    runs.append(Run("wadlook", ["audit", name, path]))
    runs.append(picture_run(random, draft, name, [path], files))
    return Case(files, [*runs, atlas_run(random, [path], files)])


def of_set(random: Random) -> Case:
    """Several files as a set, with damage to headers, directories and names."""
    files: Files = {}
    draft, every = make.level(random), []
    for path in random.sample(PATHS, random.randrange(1, 4)):
        lumps: make.Lumps = []
        for _ in range(random.randrange(3)):
            draft = drafted(random, 1)
            lumps += make.named(draft, random.choice(LABELS))
            for _ in range(random.choice((0, 0, 1, 2))):
                harm.lumps(random, lumps)
        if random.random() < 0.5:
            lumps.append((random.choice((b"DEMO1", b"DEMOX")), make.demo(random)))
        data = make.file(random, lumps)
        for _ in range(random.choice((0, 0, 0, 1, 2))):
            data = harm.file(random, data)
        files[path] = data
        every += lumps
    files |= {FOLDER: None} if random.random() < 0.05 else {}
    paths = [*files, *random.sample([*files, MISSING], random.choice((0, 0, 0, 1)))]
    name = name_in(random, every)
    runs = [Run("wadlook", [command, *paths]) for command in ("lumps", "levels")]
    runs.append(Run("wadlook", ["demo", random.choice(("demo1", name)), *paths]))
    runs += random.sample(look_runs(random, draft, name, paths), 4)
    commands = ("check", "survey", "demos")
    runs += [lens_run(random, command, paths) for command in commands]
    runs += [cut_run(random, random.choice(paths), 12), named_cut_run(random, random.choice(paths), name)]
    runs += [picture_run(random, draft, name, paths, files) for _ in "ab"]
    return Case(files, [*runs, atlas_run(random, paths, files)])


def of_demos(random: Random) -> Case:
    """Demos as files and as lumps, whole and damaged."""
    lumps: make.Lumps = []
    files: Files = {}
    for i in range(random.randrange(1, 6)):
        data = make.demo(random)
        for _ in range(random.choice((0, 0, 0, 1, 1, 2))):
            data = harm.demo(random, data)
        if random.random() < 0.5:
            names = (b"DEMO1", b"DEMO%d" % i, b"DEMO_\xc3\xa9", b"demo1", b"DEM")
            lumps.append((random.choice(names), data))
        else:
            files[f"demo{i}.lmp"] = data
    files |= {FOLDER: None} if random.random() < 0.1 else {}
    runs = [Run("wadlook", ["lmp", path]) for path in files]
    wad = make.file(random, lumps)
    files["demos.wad"] = harm.file(random, wad) if random.random() < 0.3 else wad
    names = ["demo1", "DEMO2", *(name.decode() for name, _ in lumps)]
    names = random.sample(names, min(len(names), 3))
    runs += [Run("wadlook", ["demo", name, "demos.wad"]) for name in names]
    runs.append(Run("wadlook", ["lmp", random.choice(("demos.wad", MISSING))]))
    paths = [*files, *random.choice(([], [], [MISSING]))]
    random.shuffle(paths)
    runs += [lens_run(random, "demos", paths) for _ in "ab"]
    return Case(files, runs + [compare_run(random, paths) for _ in "ab"])


def of_later_demos(random: Random) -> Case:
    """Demos of all engines as files and as lumps, whole and damaged, and the same demo with little else."""
    files: Files = {}
    lumps: make.Lumps = []
    for i in range(random.randrange(1, 5)):
        data = make.later_demo(random)
        for _ in range(random.choice((0, 0, 0, 1, 2))):
            data = harm.later_demo(random, data)
        files[f"demo{i}.lmp"] = data
        lumps.append((b"DEMO%d" % i, data))
    files["other.lmp"] = harm.later_sibling(random, files["demo0.lmp"] or b"")
    files["demos.wad"] = make.file(random, lumps)
    paths = list(files)
    runs = [lens_run(random, "demos", paths) for _ in "ab"]
    runs += [listing_run(path) for path in random.sample(paths, min(len(paths), 3))]
    runs += [compare_run(random, ["demo0.lmp", "other.lmp"]) for _ in "ab"]
    return Case(files, [*runs, compare_run(random, paths)])


def of_engines(random: Random) -> Case:
    """A demo of each version in each wrapper, some of them damaged."""
    demos = list(make.each_later_demo(random))
    demos = [harm.later_demo(random, data) if random.random() < 0.3 else data + make.footer(random) for data in demos]
    files: Files = {f"demo{i}.lmp": data for i, data in random.sample([*enumerate(demos)], 6)}
    runs = [listing_run(path) for path in files]
    runs += [compare_run(random, [*files]) for _ in "ab"]
    files["demos.wad"] = make.file(random, [(b"DEMO%d" % i, data) for i, data in enumerate(demos)])
    return Case(files, runs + [lens_run(random, "demos", ["demos.wad"]) for _ in "ab"])


def of_pairs(random: Random) -> Case:
    """Demos that differ in few places, whole and damaged."""
    data = make.demo(random)
    files: Files = {"a.lmp": data}
    for name in "bcde":
        other = harm.sibling(random, data)
        other = harm.sibling(random, other) if random.random() < 0.2 else other
        other = harm.demo(random, other) if random.random() < 0.15 else other
        files[f"{name}.lmp"] = other
    paths = [*files, random.choice((MISSING, *files))]
    return Case(files, [compare_run(random, paths) for _ in range(8)])


def listing_of(random: Random) -> bytes:
    """The listing of a demo, or a text that is almost one."""
    demo = demos.read(make.demo(random))
    told = [*demos.front_lines(demo), demos.last_line(demo)]
    text = "".join(line + "\n" for line in told).encode()
    for _ in range(random.choice((0, 1, 1, 1, 2))):
        text = harm.listing(random, text)
    return text


def of_listings(random: Random) -> Case:
    return Case({}, [assemble_run(listing_of(random)) for _ in range(10)])


def of_words(random: Random) -> Case:
    """Words that are a form, and words that are almost one."""
    files: Files = {}
    files["a.wad"] = make.file(random, make.named(make.level(random), b"E1M1"))
    commands = (*look.NAME_COMMANDS, "lumps", "levels", "lmp", "Show", "help", "")
    runs = [Run("wadlook", [])] if random.random() < 0.2 else []
    for _ in range(12):
        words = [random.choice(commands)]
        words += random.sample(("--wide", "E1M1", "a.wad", "-x", "-", "a.wad"), 3)
        words = words[: random.randrange(1, 5)]
        words += ["a.wad"] * random.choice((0, 0, 1, 63, 64))
        runs.append(Run("wadlook", words, b"0 0\n"))
    mistaken = random.sample(MISTAKEN, 10)
    runs += [Run("wadlens", words.split()) for words in mistaken]
    odd = no_text(random)
    files[odd] = files["a.wad"]
    for words in (["lumps", "a.wad", odd], ["show", odd, "a.wad"], ["lmp", odd]):
        runs.append(Run("wadlook", words))
    for words in (["survey", odd, "a.wad"], ["picture", odd, "a.wad"], [odd]):
        runs.append(Run("wadlens", words))
    return Case(files, runs)


def of_large(random: Random) -> Case:
    """A level with more records than signed indexes name."""
    draft = make.level(random)
    make.enlarge(random, draft)
    for _ in range(random.choice((0, 0, 1))):
        harm.level(random, draft)
    files = {"large.wad": make.file(random, make.named(draft, b"MAP01"))}
    paths = ["large.wad"]
    runs = random.sample(look_runs(random, draft, "MAP01", paths), 3)
    command = random.choice(("points", "audit", "show"))
    data = given(random, point_lines(random, draft))
    runs.append(Run("wadlook", [command, "--wide", "MAP01", *paths], data))
    return Case(files, runs + [lens_run(random, "check", paths)])


def of_cells(random: Random) -> Case:
    """A picture with as many cells as are usual."""
    draft = make.built(random, 600, 0.1)
    files: Files = {"a.wad": make.file(random, make.named(draft, b"E1M1"))}
    asked = lens.Asked("picture", ["a.wad"], name="E1M1")
    return Case(files, [Run("wadlens", ["picture", "E1M1", "a.wad"], b"", asked)])


def of_formats(random: Random) -> Case:
    """Levels of other formats, some with nothing to draw, and labels in odd places."""
    lumps: make.Lumps = []
    draft = make.Draft()
    for _ in range(random.randrange(1, 4)):
        draft = drafted(random, 1)
        if random.random() < 0.2:
            harm.lose_lines(random, draft)
        own = make.named(draft, random.choice(LABELS))
        match random.randrange(8):
            case 0:
                own[1:] = [(b"TEXTMAP", b"namespace"), (b"ZNODES", b"XGL3"), (b"ENDMAP", b"")]
                del own[random.choice((2, 3, 4)) :]
            case 1:
                own += [(b"BEHAVIOR", b"ACS"), (b"SCRIPTS", b"script 1")]
                del own[random.choice((12, 13)) :]
            case 2:
                k = random.choice((6, 7))
                own[k] = own[k][0], random.choice(harm.TAGS) + own[k][1]
            case 3:
                del own[random.randrange(len(own))]
            case 4:
                own.insert(random.randrange(3), (b"THINGS", b""))
            case 5:
                k = random.randrange(1, 11)
                own[k] = random.choice((USUAL[k - 1].lower(), b"GL_NODES")), own[k][1]
            case 6:
                tag = random.choice((b"XNOD", b"XGLN", b"XGL2"))
                k = 7 if tag == b"XNOD" else 6
                own[k] = own[k][0], harm.later_nodes(random, make.later(tag, draft))
        lumps += own
    data = make.file(random, lumps)
    if random.random() < 0.3:
        data = harm.file(random, data)
    files: Files = {"formats.wad": data}
    paths, name = [*files], name_in(random, lumps)
    runs = [lens_run(random, command, paths) for command in ("check", "survey")]
    runs += [cut_run(random, "formats.wad", len(lumps)) for _ in "ab"]
    runs.append(Run("wadlook", ["levels", "formats.wad"]))
    runs.append(picture_run(random, draft, name, paths, files))
    return Case(files, [*runs, atlas_run(random, paths, files)])


KINDS = (
    [of_level] * 8
    + [of_oversights] * 4
    + [of_game] * 4
    + [of_many] * 4
    + [of_set] * 6
    + [of_demos] * 3
    + [of_later_demos] * 3
    + [of_engines]
    + [of_pairs] * 2
    + [of_listings] * 2
    + [of_formats] * 3
)


def kind_of(number: int) -> Callable[[Random], Case]:
    """Of each kind so many, and now and then a large one."""
    if number % 200 == 124:
        return of_cells
    if number % 50 == 49:
        return of_large
    if number % 25 == 24:
        return of_words
    return KINDS[number % len(KINDS)]


def odd_files(found: Case) -> Files:
    """Files under the paths of a list that aren't UTF-8: they are there, and not taken."""
    paths = [path for run in found.runs if run.asked for path in run.asked.paths]
    data = next((data for data in found.files.values() if data), b"")
    return {path: data for path in paths if not is_text(path)}


def case(seed: int, number: int) -> Case:
    """The case of a number."""
    found = kind_of(number)(Random(f"{seed} {number}"))
    return found._replace(files=found.files | odd_files(found))
