"""WAD files, read plainly: Number, Name, Directory, Refusal, Entries, Winner, Slice
and Packing of docs/DEFINITIONS.md."""

from typing import NamedTuple

USUAL = [
    b"THINGS",
    b"LINEDEFS",
    b"SIDEDEFS",
    b"VERTEXES",
    b"SEGS",
    b"SSECTORS",
    b"NODES",
    b"SECTORS",
    b"REJECT",
    b"BLOCKMAP",
]
"""The usual names of the ten lumps after a level's label."""


Files = dict[str, bytes | None]
"""What is held under paths; nothing is a folder."""


def is_text(word: str) -> bool:
    """Whether a word or a path is UTF-8: a byte that isn't stands as a surrogate."""
    return not any("\ud800" <= one <= "\udfff" for one in word)


class Entry(NamedTuple):
    """An entry of a directory, and the bytes of the file whose entry it is."""

    file: bytes
    place: int
    size: int
    name: bytes


def number(data: bytes) -> int:
    """Bytes as a signed number, the low one first."""
    return int.from_bytes(data, "little", signed=True)


def name_of(stored: bytes) -> bytes:
    """What stands before the first NUL, all where there is none."""
    return stored.split(b"\0")[0]


def query(asked: bytes) -> bytes:
    """The name that is looked up for what was asked."""
    return name_of(asked[:8]).upper()


def shown(name: bytes) -> str:
    """Visible ASCII but the backslash as it is, other bytes by two digits."""
    return "".join(chr(byte) if 33 <= byte <= 126 and byte != 92 else f"\\x{byte:02x}" for byte in name)


def refusal(file: bytes) -> int:
    """The number of the first condition of a directory that fails; 0 where none does."""
    if len(file) < 12:
        return 1
    if file[:4] not in (b"IWAD", b"PWAD"):
        return 2
    count, place = number(file[4:8]), number(file[8:12])
    if count < 0:
        return 3
    if count > 0 and (place < 0 or place + 16 * count > len(file)):
        return 4
    return 0


def entries(file: bytes) -> list[Entry]:
    """The entries of a file's directory."""
    count, place = number(file[4:8]), number(file[8:12])
    records = [file[place + 16 * i : place + 16 * i + 16] for i in range(count)]
    return [Entry(file, number(record[:4]), number(record[4:8]), name_of(record[8:])) for record in records]


def joined(files: list[bytes]) -> list[Entry]:
    """The entries of all files in one list."""
    return [entry for file in files for entry in entries(file)]


def winners(listed: list[Entry]) -> dict[bytes, int]:
    """The greatest number of an entry that has a name, for each name that one has."""
    return {entry.name: g for g, entry in enumerate(listed)}


def winner(listed: list[Entry], asked: bytes) -> int | None:
    """The greatest number of an entry that has the name that is looked up."""
    return winners(listed).get(query(asked))


def lump(entry: Entry) -> bytes | None:
    """The bytes of an entry's lump; None where they aren't inside the file."""
    if entry.size == 0:
        return b""
    inside = 0 <= entry.place and entry.place + entry.size <= len(entry.file)
    if entry.size < 0 or not inside:
        return None
    return entry.file[entry.place : entry.place + entry.size]


def packed(lumps: list[tuple[bytes, bytes]]) -> bytes:
    """The PWAD of names and lumps: these from byte 12 on, then the directory."""
    body, table = b"", b""
    for name, data in lumps:
        place, size = 12 + len(body), len(data)
        table += place.to_bytes(4, "little") + size.to_bytes(4, "little")
        table += name.ljust(8, b"\0")
        body += data
    count, place = len(lumps), 12 + len(body)
    head = b"PWAD" + count.to_bytes(4, "little") + place.to_bytes(4, "little")
    return head + body + table
