"""recorders.py GAMES ROOM: see tests/recorders."""

import json
import os
import re
import shutil
import subprocess
import sys
from pathlib import Path
from typing import NamedTuple

from harness import PROGRAMS, add_up, check, skipped
from plain import later

RECORDS, PLAYS = 5, 60
"""Seconds after which a recording is ended, and a player is given up."""


class Engine(NamedTuple):
    """An engine that records demos: its names as a program, the port that it tells, and the version that it writes at each level of
    compatibility."""

    programs: tuple[str, ...]
    port: str
    versions: dict[str, int]


DSDA = Engine(
    ("dsda-doom",),
    "dsda-doom ",
    {level: 109 for level in ("0", "2", "3", "4", "5", "7")}
    | {"1": 106, "6": 110, "8": 201, "9": 202, "11": 203, "13": 210, "14": 211, "15": 212, "16": 213, "17": 214, "21": 221},
)
WOOF = Engine(("woof-doom", "woof"), "Woof ", {"vanilla": 109, "boom": 202, "mbf": 203, "mbf21": 221})
SKILL, MAP = 4, 1


class Player(NamedTuple):
    """An engine that was found, and where it runs."""

    program: str
    iwad: Path
    folder: Path

    def run(self, *words: str, ends: int) -> str:
        """What the engine says; it is interrupted after so many seconds, and killed soon after that."""
        homes = dict.fromkeys(("HOME", "XDG_DATA_HOME", "XDG_CONFIG_HOME"), str(self.folder))
        quiet = {"SDL_VIDEODRIVER": "dummy", "SDL_AUDIODRIVER": "dummy"}
        ended = ["timeout", "--kill-after=3", "--signal=INT", str(ends)]
        ran = subprocess.run(
            [*ended, self.program, "-iwad", str(self.iwad), *words, "-nosound", "-nomusic"],
            cwd=self.folder,
            env={**os.environ, **homes, **quiet},
            stdin=subprocess.DEVNULL,
            capture_output=True,
            text=True,
            errors="replace",
            check=False,
        )
        return ran.stdout + ran.stderr

    def record(self, level: str) -> tuple[bytes, str]:
        """The demo that is recorded at a level of compatibility, and what was said."""
        file = self.folder / "told.lmp"
        file.unlink(missing_ok=True)
        said = self.run("-complevel", level, "-skill", str(SKILL), "-warp", str(MAP), "-record", "told", ends=RECORDS)
        return file.read_bytes() if file.exists() else b"", said

    def timed(self) -> tuple[int | None, str]:
        """How many tics the engine tells of the demo, and what it said."""
        said = self.run("-timedemo", "told.lmp", "-nodraw", ends=PLAYS)
        told = re.search(r"\b[Tt]imed (\d+) gametics", said)
        return int(told[1]) if told else None, said


def lens(folder: Path, *words: str) -> str:
    ran = subprocess.run(
        [PROGRAMS["wadlens"], *words, "told.lmp"], cwd=folder, capture_output=True, text=True, errors="replace", check=False
    )
    return ran.stdout + ran.stderr


def judge(name: str, engine: Engine, player: Player, level: str, version: int) -> None:
    data, said = player.record(level)
    check(f"{name}: a demo was recorded", data, said[-400:])
    if not data:
        return
    why = later.refusal_of(data)
    check(f"{name}: it is read", not why, why)
    if why:
        return
    demo = later.read(data)
    told = json.loads(lens(player.folder, "demos", "--json"))
    asked = {"version": version, "skill": SKILL - 1, "episode": 1, "map": MAP, "players": 1}
    check(f"{name}: what was asked", {each: told.get(each) for each in asked} == asked, told)
    check(f"{name}: its port", str(told.get("port")).startswith(engine.port), told)
    check(f"{name}: the plain reading's object", told == {**later.members(demo), "file": "told.lmp"}, told, later.members(demo))
    check(f"{name}: the plain reading's line", lens(player.folder, "demos") == f"told.lmp: {later.line(demo)}\n")
    listed = lens(player.folder, "listing").splitlines()
    check(f"{name}: the plain reading's listing", listed == later.listing(demo))
    check(f"{name}: the listing's header", version < 200 or later.header_told(listed) == demo.header, listed[:2])
    tics, said = player.timed()
    check(
        f"{name}: as many tics as are played",
        tics is not None and listed[-1].startswith(f"tics {tics} "),
        tics,
        listed[-1],
        said[-400:],
    )


def main(games: str, room: str) -> int:
    iwad = Path(games) / "freedoom2.wad"
    path = f"{os.environ.get('PATH', '')}:/usr/games"
    for number, engine in enumerate((DSDA, WOOF)):
        found = next(filter(None, (shutil.which(program, path=path) for program in engine.programs)), None)
        if found is None or not iwad.is_file():
            lacks = f"there is no {engine.programs[0]}" if found is None else f"there is no {iwad}"
            skipped(lacks, f"demos that {engine.port.strip()} records (packages {engine.programs[0]}, freedoom)")
            continue
        folder = Path(room) / f"engine{number}"
        folder.mkdir()
        for level, version in engine.versions.items():
            judge(f"{engine.port.strip()}, level {level}", engine, Player(found, iwad, folder), level, version)
    return add_up()


sys.exit(main(sys.argv[1], sys.argv[2]))
