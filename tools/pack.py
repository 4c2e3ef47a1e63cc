"""pack.py FOLDER FILE: packs all files of a folder into FILE, in the form that its ending names.

.tar.gz and .crate are tarballs, which keep links, .zip and .whl zips; of a wheel RECORD is written here. The same files give the same
bytes: they stand in the order of their names, owned by 0, with the time SOURCE_DATE_EPOCH, and nothing tells when, where or by whom they were packed.
"""

import base64
import gzip
import hashlib
import io
import os
import sys
import tarfile
import time
import zipfile
from pathlib import Path

MOMENT = int(os.environ["SOURCE_DATE_EPOCH"])


def files_below(folder: Path) -> list[tuple[str, Path]]:
    """The files, with their names in the archive."""
    paths = (path for path in folder.rglob("*") if path.is_file())
    return sorted((path.relative_to(folder).as_posix(), path) for path in paths)


def mode_of(path: Path) -> int:
    """What one may do with a file, whatever the mask was under which it came here."""
    return 0o755 if path.stat().st_mode & 0o100 else 0o644


def write_tarball(files: list[tuple[str, Path]], to: Path) -> None:
    with to.open("wb") as out, gzip.GzipFile("", "wb", 9, out, mtime=0) as packed:
        with tarfile.open(fileobj=packed, mode="w", format=tarfile.USTAR_FORMAT) as tar:
            for name, path in files:
                member = tarfile.TarInfo(name)
                member.mode, member.mtime = mode_of(path), MOMENT
                if path.is_symlink():
                    member.type, member.linkname = tarfile.SYMTYPE, os.readlink(path)
                    tar.addfile(member)
                    continue
                member.size = path.stat().st_size
                with path.open("rb") as body:
                    tar.addfile(member, body)


def write_zip(members: list[tuple[str, int, bytes]], to: Path) -> None:
    with zipfile.ZipFile(to, "w") as packed:
        for name, mode, body in members:
            member = zipfile.ZipInfo(name, time.gmtime(MOMENT)[:6])
            member.create_system = 3
            member.external_attr = (0o100000 | mode) << 16
            packed.writestr(member, body, zipfile.ZIP_DEFLATED, 9)


def record_of(members: list[tuple[str, int, bytes]]) -> tuple[str, int, bytes]:
    """RECORD of a wheel: each file's digest and size, and none of its own."""
    folder = next(name for name, _, _ in members if name.endswith(".dist-info/WHEEL")).rpartition("/")[0]
    lines = io.StringIO()
    for name, _, body in members:
        digest = base64.urlsafe_b64encode(hashlib.sha256(body).digest()).rstrip(b"=").decode()
        lines.write(f"{name},sha256={digest},{len(body)}\n")
    lines.write(f"{folder}/RECORD,,\n")
    return f"{folder}/RECORD", 0o644, lines.getvalue().encode()


def pack(folder: Path, to: Path) -> None:
    files = files_below(folder)
    if to.name.endswith((".tar.gz", ".crate")):
        write_tarball(files, to)
        return
    members = [(name, mode_of(path), path.read_bytes()) for name, path in files]
    if to.suffix == ".whl":
        members.append(record_of(members))
    write_zip(members, to)


if __name__ == "__main__":
    pack(Path(sys.argv[1]), Path(sys.argv[2]))
