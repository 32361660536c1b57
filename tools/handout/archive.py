"""An archive whose bytes depend on nothing but what is in it."""

import gzip
import hashlib
import io
import os
import tarfile
from dataclasses import dataclass

SUMS = "SHA256SUMS"


@dataclass(frozen=True)
class Entry:
    """A file of the archive."""

    data: bytes
    is_program: bool = False


def text(content: str, is_program: bool = False) -> Entry:
    """A file with this text."""
    return Entry(content.encode(errors="surrogateescape"), is_program)


def sums(entries: dict[str, Entry]) -> str:
    """The sums of the files, as sha256sum -c reads them."""
    return "".join(
        f"{hashlib.sha256(entries[name].data).hexdigest()}  {name}\n"
        for name in sorted(entries)
    )


def write(path: str, folder: str, entries: dict[str, Entry], seconds: int) -> None:
    """Writes the files under a folder with their sums: in the order of their names, of this time, owned by root."""
    entries = {**entries, SUMS: text(sums(entries))}
    unpacked = io.BytesIO()
    with tarfile.open(
        fileobj=unpacked, mode="w", format=tarfile.USTAR_FORMAT
    ) as archive:
        for name in sorted(entries):
            add(archive, f"{folder}/{name}", entries[name], seconds)
    with open(path + ".new", "wb") as file:
        with gzip.GzipFile("", "wb", 9, file, seconds) as packed:
            packed.write(unpacked.getvalue())
    os.replace(path + ".new", path)


def add(archive: tarfile.TarFile, name: str, entry: Entry, seconds: int) -> None:
    """Appends a file."""
    member = tarfile.TarInfo(name)
    member.size = len(entry.data)
    member.mtime = seconds
    member.mode = 0o755 if entry.is_program else 0o644
    archive.addfile(member, io.BytesIO(entry.data))
