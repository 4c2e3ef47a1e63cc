"""Demos, read plainly: Header, Command, Demo, Listing, Differences and Assembly of
docs/DEFINITIONS.md."""

import re
from typing import NamedTuple

VERSIONS = (109, 110, 111)
MARKER = 128
FIELDS = "version skill episode map deathmatch respawn fast nomonsters viewpoint"


class Command(NamedTuple):
    forward: int
    side: int
    turn: int
    buttons: int


class Demo(NamedTuple):
    """What bytes that begin with a header hold: the header, the commands that follow it,
    how many bytes come after the marker, and where there is no marker after them."""

    header: bytes
    commands: list[Command]
    after: int
    unended: int | None

    @property
    def players(self) -> list[int]:
        """The numbers of the players in the game."""
        return [n for n, byte in enumerate(self.header[9:], 1) if byte != 0]

    @property
    def tics(self) -> int:
        return len(self.commands) // len(self.players)

    @property
    def odd(self) -> int:
        return len(self.commands) % len(self.players)


def refusal(data: bytes) -> int:
    """The number of the first reason why bytes begin with no header; 0: they do."""
    if not data:
        return 1
    if data[0] not in VERSIONS:
        return 2
    if len(data) < 13:
        return 3
    return 0 if any(data[9:13]) else 4


def signed(byte: int) -> int:
    return byte - 256 if byte >= 128 else byte


def command(data: bytes) -> Command:
    return Command(
        signed(data[0]),
        signed(data[1]),
        int.from_bytes(data[2:-1], "little"),
        data[-1],
    )


def read(data: bytes) -> Demo:
    """Bytes that begin with a header."""
    long = 5 if data[0] == 111 else 4
    commands, at = [], 13
    while at + long <= len(data) and data[at] != MARKER:
        commands.append(command(data[at : at + long]))
        at += long
    ended = at < len(data) and data[at] == MARKER
    after = len(data) - at - 1 if ended else 0
    return Demo(data[:13], commands, after, None if ended else at)


def header_fields(header: bytes) -> list[str]:
    """The fields of a header by their names, the four players as one."""
    named = [f"{name} {byte}" for name, byte in zip(FIELDS.split(), header)]
    return [*named, "players " + " ".join(str(byte) for byte in header[9:])]


def turn_of(demo: Demo, i: int) -> tuple[int, int]:
    """The tic of the command of a number, and its player."""
    tic, place = divmod(i, len(demo.players))
    return tic, demo.players[place]


def command_text(command: Command) -> str:
    forward, side, turn, buttons = command
    return f"{forward} {side} {turn} {buttons:02x}"


def front_lines(demo: Demo) -> list[str]:
    """The lines of a listing but for the last: the header's, and the commands'."""
    lines = [f"demo {' '.join(header_fields(demo.header))}"]
    for i, command in enumerate(demo.commands):
        tic, player = turn_of(demo, i)
        lines.append(f"{tic} {player} {command_text(command)}")
    return lines


def last_line(demo: Demo) -> str:
    return f"tics {demo.tics} odd {demo.odd} after {demo.after}"


def refusal_words(data: bytes) -> str:
    """Why bytes are no demo, as wadlook says it; nothing where they are one."""
    number = refusal(data)
    if number == 2:
        return f"demo 2 version {data[0]}"
    if number:
        return f"demo {number}"
    unended = read(data).unended
    return "" if unended is None else f"demo 5 at {unended}"


# ---- Two demos -----------------------------------------------------------------------


def difference(a: Demo, b: Demo) -> str:
    """Where demos first differ; nothing where header and commands are the same."""
    for one, other in zip(header_fields(a.header), header_fields(b.header)):
        if one != other:
            return f"header: {one}, {other.split(' ', 1)[1]}"
    for i, (x, y) in enumerate(zip(a.commands, b.commands)):
        if x != y:
            tic, player = turn_of(a, i)
            told = f"{command_text(x)}, {command_text(y)}"
            return f"tic {tic} player {player}: {told}"
    if len(a.commands) == len(b.commands):
        return ""
    name, ended = min(("A", a), ("B", b), key=lambda each: len(each[1].commands))
    return f"{name} ends at tic {turn_of(a, len(ended.commands))[0]}"


# ---- A demo from its listing ---------------------------------------------------------

NUMBER = "(0|[1-9][0-9]*)"
SIGNED = "(0|-?[1-9][0-9]*)"
HEADER_LINE = " ".join(["demo", *(f"{name} {NUMBER}" for name in FIELDS.split()), "players", *[NUMBER] * 4])
COMMAND_LINE = f"{NUMBER} {NUMBER} {SIGNED} {SIGNED} {NUMBER} ([0-9a-f]{{2}})"
LAST_LINE = f"tics {NUMBER} odd {NUMBER} after {NUMBER}"
MOST_AFTER = 2**64 - 1


def header_in(line: str) -> bytes | None:
    """The header that a line of a listing tells."""
    form = re.fullmatch(HEADER_LINE, line)
    numbers = [int(told) for told in form.groups()] if form else []
    if not numbers or max(numbers) > 255 or numbers[0] not in VERSIONS:
        return None
    return bytes(numbers) if any(numbers[9:]) else None


def command_in(line: str, version: int, turn: tuple[int, int]) -> bytes | None:
    """The bytes of the command of a version that a line tells, whose turn has to be that."""
    form = re.fullmatch(COMMAND_LINE, line)
    if form is None:
        return None
    tic, player, forward, side, angle = (int(told) for told in form.groups()[:5])
    buttons, width = int(form[6], 16), 2 if version == 111 else 1
    fits = -127 <= forward <= 127 and -128 <= side <= 127 and angle < 256**width
    if (tic, player) != turn or not fits:
        return None
    return bytes([forward % 256, side % 256, *angle.to_bytes(width, "little"), buttons])


def is_last(line: str, demo: Demo) -> bool:
    form = re.fullmatch(LAST_LINE, line)
    if form is None:
        return False
    tics, odd, after = (int(told) for told in form.groups())
    return (tics, odd) == (demo.tics, demo.odd) and after <= MOST_AFTER


class Wrong(NamedTuple):
    """The number of the first line with which the lines begin no listing, and what is wanted
    there."""

    line: int
    wanted: str


def wanted(line: str, demo: Demo) -> str:
    """What is wanted behind the lines of a header and of commands."""
    if line.startswith("tics"):
        return f"the totals are tics {demo.tics} odd {demo.odd} after 0"
    tic, player = turn_of(demo, len(demo.commands))
    return f"tic {tic} player {player} or the totals are wanted"


def wrong(n: int, lines: list[str], rest: bytes, wanted: str) -> Wrong:
    """The fault of a line: where it is the last and has no end, that goes first."""
    unended = n == len(lines) + 1 and rest
    return Wrong(n, "the last line has no end" if unended else wanted)


def assembled(text: bytes) -> bytes | Wrong:
    """The demo of which a text is the listing, without what came after its marker; or where
    the text is none."""
    *parts, rest = text.split(b"\n")
    lines = [part.decode(errors="replace") for part in parts]
    header = header_in(lines[0]) if lines else None
    if header is None:
        return wrong(1, lines, rest, "a demo's header is wanted")
    demo, data = Demo(header, [], 0, None), header
    for n, line in enumerate(lines[1:], 2):
        if is_last(line, demo):
            ended = n == len(lines) and not rest
            return data + bytes([MARKER]) if ended else wrong(n + 1, lines, rest, "nothing more is wanted")
        told = command_in(line, header[0], turn_of(demo, len(demo.commands)))
        if told is None:
            return wrong(n, lines, rest, wanted(line, demo))
        demo.commands.append(command(told))
        data += told
    return wrong(len(lines) + 1, lines, rest, wanted("", demo))
