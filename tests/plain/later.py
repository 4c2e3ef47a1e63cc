"""Demos of all engines that are read, plainly: headers as rows of fields, wrappers, footers,
their listings and their differences, by docs/DEFINITIONS.md."""

from typing import NamedTuple

from plain import wads
from plain.demos import MARKER, Command, command, command_text

DOOM = "version skill episode map deathmatch respawn fast nomonsters viewpoint players:4"
BOOM = (
    "version signature:6 compatibility skill episode map deathmatch viewpoint monsters_remember"
    " variable_friction weapon_recoil allow_pushers - player_bobbing respawn fast nomonsters"
    " demo_insurance rngseed:4"
)
MBF = (
    BOOM + " monster_infighting dogs -:2 distfriend:2 monster_backing monster_avoid_hazards"
    " monster_friction help_friends dog_jumping monkeys comp:32"
)
MBF21 = (
    "version signature:6 skill episode map deathmatch viewpoint monsters_remember weapon_recoil"
    " player_bobbing respawn fast nomonsters rngseed:4 monster_infighting dogs distfriend:2"
    " monster_backing monster_avoid_hazards monster_friction help_friends dog_jumping monkeys comps"
)
BEHIND = " players:4 -:28"
"""Fields of a header in order, each with its number of bytes where that isn't one; those of
`-` belong to nothing."""

BOOM_SIGNATURE, MBF_SIGNATURE = b"\x1dBoom\xe6", b"\x1dMBF\xe6\0"
LISTED_FIRST = "version skill episode map deathmatch respawn fast nomonsters viewpoint".split()
MOST_OPTIONS = 25
MOST_TOLD = 4096


class Part(NamedTuple):
    """The bytes of a field in a header."""

    name: str
    at: int
    size: int


class Kind(NamedTuple):
    """What the demos of a version have: the engine, the signature, the fields, and how many bytes
    a turn has."""

    engine: str
    signature: bytes
    fields: str
    turn: int


def kind_of(version: int) -> Kind | None:
    """What the demos of a version have; nothing where the version isn't read."""
    if 104 <= version <= 111:
        name = "1.4 to 1.8" if version < 109 else ""
        return Kind(name, b"", DOOM, 2 if version == 111 else 1)
    if version in (200, 201, 202):
        pad = (269 if version == 200 else 77) - 27
        return Kind("Boom", BOOM_SIGNATURE, f"{BOOM} -:{pad}{BEHIND}", 1)
    if version == 203:
        return Kind("MBF", MBF_SIGNATURE, f"{MBF} -:6{BEHIND}", 1)
    if 210 <= version <= 214:
        turn = 2 if version == 214 else 1
        return Kind("PrBoom", MBF_SIGNATURE, f"{MBF} force_old_bsp -:5{BEHIND}", turn)
    return Kind("MBF21", MBF_SIGNATURE, MBF21, 2) if version == 221 else None


def parts_of(fields: str) -> list[Part]:
    parts, at = [], 0
    for field in fields.split():
        name, _, size = field.partition(":")
        parts.append(Part(name, at, int(size or 1)))
        at += parts[-1].size
    return parts


def size_of(parts: list[Part]) -> int:
    return parts[-1].at + parts[-1].size


class Wrapper(NamedTuple):
    """What stands before a demo: `DSDA` or `PR+UM`, and what that says."""

    name: str
    version: int
    size: int
    marker: int = 0
    tics: int = 0
    flags: int = 0
    map_name: bytes = bytes(8)


class Done(NamedTuple):
    """A command as it stands, and what stands behind it in a wrapper of DSDA-Doom: the actions, and
    the slots."""

    ticcmd: Command
    actions: int | None
    slots: list[int]

    @property
    def text(self) -> str:
        told = [command_text(self.ticcmd)]
        if self.actions is not None:
            told += [f"{self.actions:02x}", *map(str, self.slots)]
        return " ".join(told)


class LaterDemo(NamedTuple):
    wrapper: Wrapper | None
    kind: Kind
    parts: list[Part]
    header: bytes
    frame: bytes | None
    commands: list[Done]
    rest: bytes

    @property
    def version(self) -> int:
        return self.header[0]

    @property
    def seats(self) -> list[int]:
        """The numbers of the players in the game."""
        return [n for n, byte in enumerate(self.bytes_of("players"), 1) if byte]

    @property
    def tics(self) -> int:
        return len(self.commands) // len(self.seats)

    @property
    def odd(self) -> int:
        return len(self.commands) % len(self.seats)

    def bytes_of(self, name: str) -> bytes:
        for part in self.parts:
            if part.name == name:
                return self.header[part.at : part.at + part.size]
        return b""

    def number(self, name: str) -> int:
        return int.from_bytes(self.bytes_of(name), "big")

    def turn_of(self, i: int) -> tuple[int, int]:
        """The tic of the command of a number, and its player."""
        tic, place = divmod(i, len(self.seats))
        return tic, self.seats[place]


class NoDemo(Exception):
    """Why bytes are no demo."""


# ---- Reading -------------------------------------------------------------------------


def wrapper_in(data: bytes) -> Wrapper | None:
    """The wrapper that bytes begin with, if they begin with one."""
    if data[0] != 255:
        return None
    if data[1:7] == b"\x1dDSDA\xe6":
        version = data[7] if len(data) > 7 else 1
        if version not in (1, 2):
            raise NoDemo(f"version 255 (DSDA {version}): not read")
        size = 15 + version
        if len(data) < size:
            raise NoDemo(f"{len(data)} bytes of a header's {size}")
        marker, tics = (int.from_bytes(data[at : at + 4], "big") for at in (8, 12))
        return Wrapper("DSDA", version, size, marker, tics, data[16] if version == 2 else 0)
    if data[1:6] == b"PR+UM":
        wanted = b"\1\1\0\x08UMAPINFO"
        if not wanted.startswith(data[7:19]):
            raise NoDemo("version 255 (PR+UM): not read")
        if len(data) < 27:
            raise NoDemo(f"{len(data)} bytes of a header's 27")
        return Wrapper("PR+UM", 1, 27, map_name=data[19:27])
    raise NoDemo("version 255: not read")


def header_in(data: bytes, before: int) -> tuple[Kind, list[Part]]:
    """What the header at the front of bytes has, behind a wrapper of so many."""
    version = data[0]
    kind = kind_of(version)
    if kind is None:
        early = " (1.2 and before)" if version < 5 else ""
        raise NoDemo(f"version {version}{early}: not read")
    signature = kind.signature
    if data[1 : 1 + len(signature)] != signature[: len(data) - 1]:
        raise NoDemo(f"version {version} ({kind.engine}): its signature isn't {signature.hex(' ')}")
    fields = kind.fields
    if fields == MBF21:
        count = data[32] if len(data) > 32 else 0
        if count > MOST_OPTIONS:
            raise NoDemo(f"{count} compatibility options, 25 are the most")
        fields += f" comp:{count}{BEHIND}"
    parts = parts_of(fields)
    size = size_of(parts)
    if len(data) < size:
        raise NoDemo(f"{before + len(data)} bytes of a header's {before + size}")
    return kind, parts


def command_at(data: bytes, at: int, turn: int, has_actions: bool) -> tuple[Done, int] | None:
    """The whole command at a place, and where the next one would begin."""
    end = at + 3 + turn
    if end + has_actions > len(data):
        return None
    ticcmd = command(data[at:end])
    if not has_actions:
        return Done(ticcmd, None, []), end
    actions = data[end]
    slots = [bit for bit in (2, 4) if actions & bit]
    behind = end + 1 + len(slots)
    if behind > len(data):
        return None
    return Done(ticcmd, actions, list(data[end + 1 : behind])), behind


def read(data: bytes) -> LaterDemo:
    """The demo that bytes are."""
    if not data:
        raise NoDemo("empty")
    wrapper = wrapper_in(data)
    at = wrapper.size if wrapper else 0
    if at == len(data):
        raise NoDemo(f"{at} bytes of a header's {at + 1}")
    kind, parts = header_in(data[at:], at)
    header = data[at : at + size_of(parts)]
    demo = LaterDemo(wrapper, kind, parts, header, None, [], b"")
    if not demo.seats:
        raise NoDemo("no player in the game")
    at += len(header)
    if wrapper and wrapper.flags & 1:
        size = int.from_bytes(data[at : at + 4], "little")
        frame = data[at + 4 : at + 4 + size]
        if len(data) < at + 4 or len(frame) < size:
            raise NoDemo("its key frame isn't whole")
        demo, at = demo._replace(frame=frame), at + 4 + size
    has_actions = wrapper is not None and wrapper.name == "DSDA"
    while at < len(data) and data[at] != MARKER:
        found = command_at(data, at, kind.turn, has_actions)
        if found is None:
            break
        demo.commands.append(found[0])
        at = found[1]
    if data[at : at + 1] != bytes([MARKER]):
        raise NoDemo(f"no end marker: the bytes from place {at} on make no whole command")
    return demo._replace(rest=data[at + 1 :])


def refusal_of(data: bytes) -> str:
    """Why bytes are no demo; nothing where they are one."""
    try:
        read(data)
    except NoDemo as why:
        return str(why)
    return ""


# ---- Footers -------------------------------------------------------------------------


def footer_in(rest: bytes) -> dict[str, bytes]:
    """What the bytes behind a marker tell: the port, and the words of its command line."""
    told = {}
    if wads.refusal(rest) == 0:
        listed = wads.entries(rest)
        for member, name in (("port", b"PORTNAME"), ("words", b"CMDLINE")):
            at = wads.winner(listed, name)
            text = None if at is None else wads.lump(listed[at])
            if text is not None:
                told[member] = text.removesuffix(b"\n").rstrip(b" ")
    elif rest.startswith(b"Woof "):
        told["port"], *lines = rest.split(b"\n", 2)
        if lines:
            told["words"] = lines[0].rstrip(b" ")
    return {member: text[:MOST_TOLD] for member, text in told.items()}


# ---- Lines and objects ---------------------------------------------------------------


def front_of_line(demo: LaterDemo) -> str:
    """`version 202 (Boom) in DSDA 2`"""
    name = f" ({demo.kind.engine})" if demo.kind.engine else ""
    wrapper = demo.wrapper
    return f"version {demo.version}{name}" + (f" in {wrapper.name} {wrapper.version}" if wrapper else "")


def line(demo: LaterDemo) -> str:
    """What is told of a demo, in a line behind its path."""
    players = len(demo.seats)
    minutes, seconds = divmod(demo.tics // 35, 60)
    parts = [front_of_line(demo), *(f"{name} {demo.number(name)}" for name in ("skill", "episode", "map"))]
    parts += [f"{players} player" if players == 1 else f"{players} players", f"{demo.tics} tics"]
    parts += [f"{minutes}:{seconds:02}.{demo.tics % 35 * 100 // 35:02}"]
    parts += [] if demo.frame is None else [f"key frame {len(demo.frame)}"]
    parts += [f"odd {demo.odd}"] if demo.odd else []
    parts += [f"after {len(demo.rest)}"] if demo.rest else []
    return ", ".join(parts)


def members(demo: LaterDemo) -> dict[str, object]:
    """The members of a demo's object behind its file and its lump."""
    told: dict[str, object] = {"version": demo.version}
    if demo.kind.engine:
        told["engine"] = demo.kind.engine
    if demo.wrapper:
        told |= {"wrapper": demo.wrapper.name, "wrapper_version": demo.wrapper.version}
        if demo.wrapper.name == "PR+UM":
            told["map_name"] = wads.shown(wads.name_of(demo.wrapper.map_name))
    told |= {name: demo.number(name) for name in ("skill", "episode", "map")}
    told |= {"players": len(demo.seats), "tics": demo.tics, "odd": demo.odd, "after": len(demo.rest)}
    if demo.frame is not None:
        told["key_frame"] = len(demo.frame)
    if demo.kind.engine or demo.wrapper:
        told |= {name: demo.number(name) for name in ("deathmatch", "respawn", "fast", "nomonsters", "viewpoint")}
    return told | {name: text.decode(errors="replace") for name, text in footer_in(demo.rest).items()}


def wrapper_line(demo: LaterDemo) -> str:
    wrapper = demo.wrapper
    assert wrapper is not None
    if wrapper.name == "PR+UM":
        return f"wrapper PR+UM 1 map_name {wads.shown(wads.name_of(wrapper.map_name)) or '(empty)'}"
    told = f"wrapper DSDA {wrapper.version} marker {wrapper.marker} tics {wrapper.tics} flags {wrapper.flags}"
    return told if demo.frame is None else f"{told} key_frame {len(demo.frame)}"


def listing(demo: LaterDemo) -> list[str]:
    """The lines of a demo's listing."""
    players = " ".join(map(str, demo.bytes_of("players")))
    first = [f"{name} {demo.number(name)}" for name in LISTED_FIRST]
    told = [f"demo {' '.join(first)} players {players}"]
    told += [wrapper_line(demo)] if demo.wrapper else []
    apart = [*LISTED_FIRST, "players", "signature", "comp", "-"]
    options = [f" {part.name} {demo.number(part.name)}" for part in demo.parts if part.name not in apart]
    comp = demo.bytes_of("comp")
    if demo.version >= 200:
        told.append("options" + "".join(options) + (f" comp {' '.join(map(str, comp))}" if comp else ""))
    unread = [at for part in demo.parts if part.name == "-" for at in range(part.at, part.at + part.size)]
    left = [f" {at}:{demo.header[at]}" for at in unread if demo.header[at]]
    told += ["unread" + "".join(left)] if left else []
    for i, done in enumerate(demo.commands):
        tic, player = demo.turn_of(i)
        told.append(f"{tic} {player} {done.text}")
    return [*told, f"tics {demo.tics} odd {demo.odd} after {len(demo.rest)}"]


def header_told(lines: list[str]) -> bytes:
    """The header of a listing: what a demo's version tells, and its lines. It is of version 200 or above, and in no
    wrapper."""
    first, options, unread = (line.split()[1:] for line in [*lines[:2], lines[2] if lines[2].startswith("unread") else ""])
    comp = options[options.index("comp") + 1 :] if "comp" in options else []
    pairs = [*first[:-5], *options[: len(options) - len(comp) - bool(comp)]]
    values = {name: int(value) for name, value in zip(pairs[::2], pairs[1::2])}
    kind = kind_of(values["version"])
    assert kind is not None
    parts = parts_of(f"{kind.fields} comp:{values['comps']}{BEHIND}" if "comps" in values else kind.fields)
    told = {"signature": kind.signature, "players": bytes(map(int, first[-4:])), "comp": bytes(map(int, comp))}
    header = bytearray()
    for part in parts:
        number = values.get(part.name, 0).to_bytes(part.size, "big")
        header += told.get(part.name, number)
    for place, byte in (word.split(":") for word in unread):
        header[int(place)] = int(byte)
    return bytes(header)


# ---- Two demos -----------------------------------------------------------------------


def wrapper_told(demo: LaterDemo) -> str:
    return f"{demo.wrapper.name} {demo.wrapper.version}" if demo.wrapper else "none"


def spaced(data: bytes) -> str:
    return " ".join(map(str, data))


def header_difference(a: LaterDemo, b: LaterDemo) -> str:
    """Where headers of one version first differ; nothing where they don't."""
    for part in a.parts:
        span = slice(part.at, part.at + part.size)
        if a.header[span] == b.header[span]:
            continue
        if part.name == "players":
            return f"players {spaced(a.header[span])}, {spaced(b.header[span])}"
        if part.name not in ("-", "comp"):
            return f"{part.name} {a.number(part.name)}, {b.number(part.name)}"
        at = next(at for at in range(part.at, part.at + part.size) if a.header[at] != b.header[at])
        name = f"comp {at - part.at}" if part.name == "comp" else f"byte {at}"
        return f"{name} {a.header[at]}, {b.header[at]}"
    return ""


def head_difference(a: LaterDemo, b: LaterDemo) -> str:
    """Where demos first differ before their commands; nothing where they don't."""
    none = Wrapper("none", 0, 0)
    of_a, of_b = a.wrapper or none, b.wrapper or none
    if wrapper_told(a) != wrapper_told(b):
        return f"wrapper {wrapper_told(a)}, {wrapper_told(b)}"
    if of_a.flags != of_b.flags:
        return f"flags {of_a.flags}, {of_b.flags}"
    if of_a.map_name != of_b.map_name:
        return f"map name {spaced(of_a.map_name)}, {spaced(of_b.map_name)}"
    if a.version != b.version:
        return f"version {a.version}, {b.version}"
    if told := header_difference(a, b):
        return told
    frame_a, frame_b = a.frame or b"", b.frame or b""
    if len(frame_a) != len(frame_b):
        return f"key frame {len(frame_a)}, {len(frame_b)}"
    for at, (x, y) in enumerate(zip(frame_a, frame_b)):
        if x != y:
            return f"key frame byte {at} {x}, {y}"
    return ""


def meaning(demo: LaterDemo, done: Done) -> Command:
    """What a command does in the game: a turn of one byte is the high one."""
    turn = done.ticcmd.turn
    return done.ticcmd._replace(turn=turn if demo.kind.turn == 2 else 256 * turn)


def difference(a: LaterDemo, b: LaterDemo, commands_alone: bool = False) -> str:
    """Where demos first differ; nothing where all that is compared is the same."""
    if not commands_alone:
        if told := head_difference(a, b):
            return f"header: {told}"
    elif len(a.seats) != len(b.seats):
        return f"players {len(a.seats)}, {len(b.seats)}"
    for i, (x, y) in enumerate(zip(a.commands, b.commands)):
        if (meaning(a, x) != meaning(b, y)) if commands_alone else x != y:
            tic, player = a.turn_of(i)
            return f"tic {tic} player {player}: {x.text}, {y.text}"
    if len(a.commands) == len(b.commands):
        return ""
    name, ended = min(("A", a), ("B", b), key=lambda each: len(each[1].commands))
    return f"{name} ends at tic {a.turn_of(len(ended.commands))[0]}"
