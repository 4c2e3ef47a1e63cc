"""What tests/damaged_demos runs: demos cut at each place, and with each byte before their commands
turned, of which the built `wadlens` and the plain reading tell the same."""

import sys
import tempfile
from collections.abc import Iterator
from random import Random

from harness import TOP, add_up, check
from plain import later, lens, make
from plain.cases import Case, wanted
from plain.fuzz import came, first_difference, write_files
from plain.runs import Run, listing_run

RECORDED, CRAFTED = TOP / "tests/recorded_demos", TOP / "tests/crafted_demos/lines.tsv"
TURNS = (0xFF, 0x80, 0x01)
"""Which bits of a byte are turned."""
MOST_FRONT = 27 + 301
"""The greatest wrapper and header."""
SEED = "damaged demos"


def demos_that_stand() -> Iterator[tuple[str, bytes]]:
    """The recorded demos and the crafted ones, by their names."""
    for path in sorted(RECORDED.glob("*.lmp")):
        yield path.name, path.read_bytes()
    for row in CRAFTED.read_text().splitlines():
        number, digits, _ = row.split("\t")
        yield f"crafted demo {number}", bytes.fromhex(digits)


def made_demos() -> Iterator[tuple[int, str, bytes]]:
    """A demo of each version in each wrapper."""
    kinds = ((version, kind) for version in make.VERSIONS for kind in make.WRAPPERS)
    for (version, kind), data in zip(kinds, make.each_later_demo(Random(SEED))):
        yield version, kind, data


def front_size(data: bytes) -> int:
    """How many bytes stand before a demo's commands, without those of a key frame; of bytes that aren't
    read those that a wrapper and a header may have."""
    if later.refusal_of(data):
        return min(len(data), MOST_FRONT)
    demo = later.read(data)
    before = demo.wrapper.size if demo.wrapper else 0
    return before + len(demo.header) + (0 if demo.frame is None else 4)


def turned(data: bytes, turns: tuple[int, ...]) -> list[bytes]:
    """The demo with each byte before its commands turned, one at a time."""
    places = range(front_size(data))
    return [data[:at] + bytes([data[at] ^ bits]) + data[at + 1 :] for at in places for bits in turns]


# ---- Files of demos ------------------------------------------------------------------


def file_of_cuts(data: bytes) -> bytes:
    """A WAD file whose lumps begin at the same place, each of them a byte longer than the last."""
    head = b"PWAD" + b"".join(number.to_bytes(4, "little") for number in (len(data), 12 + len(data)))
    return head + data + b"".join(make.entry(12, size, b"DEMO1") for size in range(1, len(data) + 1))


def file_of(demos: list[bytes]) -> bytes:
    """A WAD file of these demos."""
    places = [12]
    for data in demos:
        places.append(places[-1] + len(data))
    head = b"PWAD" + b"".join(number.to_bytes(4, "little") for number in (len(demos), places[-1]))
    entries = (make.entry(place, len(data), b"DEMO2") for place, data in zip(places, demos))
    return head + b"".join(demos) + b"".join(entries)


# ---- What is asked -------------------------------------------------------------------


def demos_run(path: str, json: bool) -> Run:
    words = ["demos", *(["--json"] if json else []), path]
    return Run("wadlens", words, b"", lens.Asked("demos", [path], json=json))


def all_at_once(name: str, data: bytes) -> Iterator[tuple[str, Case]]:
    """A demo whose damaged ones are told of: the turned ones in lines and as objects, the cut ones as objects,
    which have all that lines have."""
    files = {"none.lmp": b"", "cut.wad": file_of_cuts(data), "turned.wad": file_of(turned(data, TURNS))}
    runs = [demos_run(path, True) for path in files]
    yield f"{name}, cut and turned", Case(files, [*runs, demos_run("none.lmp", False), demos_run("turned.wad", False)])


def one_by_one(name: str, data: bytes) -> Iterator[tuple[str, Case]]:
    """A demo beside which each turned one is listed and compared."""
    for at, other in enumerate(turned(data, TURNS[-1:])):
        asked = lens.Asked("compare", ["whole.lmp", "turned.lmp"])
        compared = Run("wadlens", ["compare", *asked.paths], b"", asked)
        yield f"{name}, turned at {at}", Case({"whole.lmp": data, "turned.lmp": other}, [listing_run("turned.lmp"), compared])


def all_cases() -> Iterator[tuple[str, Case]]:
    for name, data in demos_that_stand():
        yield from all_at_once(name, data)
    for version, kind, data in made_demos():
        name = f"version {version} in {kind}"
        yield from all_at_once(name, data)
        if kind == "none" or version == 202:
            yield from one_by_one(name, data)


def difference(found: Case) -> str:
    """Where the program's first answer that isn't the plain reading's differs; nothing where none does."""
    with tempfile.TemporaryDirectory() as room:
        write_files(found, room)
        for run in found.runs:
            want, got = wanted(run, found.files), came(run, room)
            if want != got:
                return f"{' '.join(run.words)}: {first_difference(want, got)}"
    return ""


def main() -> int:
    for name, found in all_cases():
        told = difference(found)
        check(name, not told, told)
    return add_up()


if __name__ == "__main__":
    sys.exit(main())
