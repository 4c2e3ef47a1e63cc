"""Which warnings are looked for at a level, and what they tell, code by code, in their order."""

from collections.abc import Callable, Iterator

from plain import game
from plain import warnings as made
from plain.levels import Level
from plain.wads import Entry, winner
from plain.warnings import Warned, named_lump

REFERENCES = [f"F{n}" for n in range(3, 10)]
WANT_SOUND = ("W3", "W5")
ENDING = ("N4", "N11", "W9", "W10", "W11", "W17", "W18")
"""The codes at each of which the game ends."""
RESERVED = ("W12", "W13", "W20", "W23", "W24")
"""The codes that are told of no level yet."""

Look = Callable[[Level, list[Entry]], Iterator[Warned]]


def alone(look: Callable[[Level], Iterator[Warned]]) -> Look:
    """A look at a level that asks nothing of the files."""
    return lambda level, _: look(level)


LOOKS: dict[str, Look] = {
    "W1": alone(made.unclosed),
    "W2": alone(made.bare),
    "W3": alone(made.in_void),
    "W4": alone(made.untagged),
    "W5": alone(made.mismatched),
    "W6": alone(made.twins),
    "W7": alone(made.without_start),
    "W8": alone(made.few_starts),
    "W9": made.unknown_textures,
    "W10": made.unknown_flats,
    "W11": alone(made.unknown_things),
    "W14": alone(game.unknown_specials),
    "W15": alone(game.zero_tags),
    "W16": alone(game.crossings),
    "W17": alone(game.effects),
    "W18": alone(game.deadly_floors),
    "W19": alone(game.locked),
    "W21": alone(game.odd_things),
    "W22": game.limits,
    "W25": game.misplaced_flats,
}

WANTS = {"W9": ("TEXTURE1",), "W10": ("F_START",), "W25": ("F_START", "F_END")}
"""What has to be in a file, or these warnings aren't looked for."""


def is_listed(listed: list[Entry], name: str) -> bool:
    """The files have the lump TEXTURE1, or the entry of another name."""
    found = named_lump(listed, name.encode()) if name == "TEXTURE1" else winner(listed, name.encode())
    return found is not None


def unlisted(listed: list[Entry]) -> dict[str, list[str]]:
    """The codes that aren't looked for, as no file has what they go by, each with what lacks."""
    lacking = {code: [name for name in names if not is_listed(listed, name)] for code, names in WANTS.items()}
    return {code: names for code, names in lacking.items() if names}


def lacks_references(level: Level) -> bool:
    return any(code in level.findings for code in REFERENCES)


def unlooked(level: Level, listed: list[Entry]) -> list[str]:
    """The codes of warnings that aren't looked for at a level, in their order."""
    if lacks_references(level):
        return [*LOOKS]
    skipped = [*unlisted(listed), *(WANT_SOUND if level.faults else ())]
    return [code for code in LOOKS if code in skipped]


def warnings(level: Level, listed: list[Entry]) -> dict[str, list[Warned]]:
    """The warnings of each code of which there are some, in their order. The entries are those of
    the files in which the game finds textures and flats."""
    if lacks_references(level):
        return {}
    skipped = unlooked(level, listed)
    found = {code: list(look(level, listed)) for code, look in LOOKS.items() if code not in skipped}
    return {code: told for code, told in found.items() if told}
