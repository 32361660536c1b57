"""The two programs: what they print, which C library they need, and by which kit they were proved."""

import hashlib
import os
import shutil
import struct
import subprocess
from collections.abc import Iterator
from dataclasses import dataclass

from elf.refusal import Refused

X86_64 = 62
VERSIONS_NEEDED = 0x6FFFFFFE  # the kind of a section
SECONDS = 60  # that a program may take to print its help


@dataclass(frozen=True)
class Program:
    """A built program."""

    name: str
    path: str
    data: bytes

    @property
    def sum(self) -> str:
        """Its SHA-256."""
        return hashlib.sha256(self.data).hexdigest()


def read_program(name: str, path: str) -> Program:
    """Reads a program, which has to be one for Linux on x86-64."""
    with open(path, "rb") as file:
        data = file.read()
    is_elf = len(data) > 64 and data[:6] == b"\x7fELF\x02\x01"
    if not is_elf or struct.unpack_from("<H", data, 18)[0] != X86_64:
        raise Refused(
            f"{path} is no program for Linux on x86-64: name the built {name}"
        )
    return Program(name, path, data)


def versions_needed(data: bytes) -> Iterator[str]:
    """The versions of shared libraries' symbols that a program needs, as GLIBC_2.34."""
    (at,) = struct.unpack_from("<Q", data, 0x28)
    size, count = struct.unpack_from("<HH", data, 0x3A)
    sections = [
        struct.unpack_from("<IIQQQQII", data, at + i * size) for i in range(count)
    ]
    for _, kind, _, _, place, _, link, libraries in sections:
        if kind != VERSIONS_NEEDED:
            continue
        names = sections[link][4]
        for _ in range(libraries):
            _, versions, _, first, following = struct.unpack_from("<HHIII", data, place)
            version = place + first
            for _ in range(versions):
                _, _, _, name, step = struct.unpack_from("<IHHII", data, version)
                yield data[names + name : data.index(b"\0", names + name)].decode()
                version += step
            place += following


def oldest_glibc(programs: list[Program]) -> str:
    """The oldest glibc that has all that the programs need, as 2.34."""
    newest: tuple[int, ...] = ()
    for program in programs:
        try:
            versions = list(versions_needed(program.data))
        except (struct.error, ValueError, IndexError):
            raise Refused(f"{program.path} is only a part of a program") from None
        for version in versions:
            library, _, number = version.partition("_")
            if library != "GLIBC" or not number.replace(".", "").isdigit():
                raise Refused(f"{program.path} needs {version}, which isn't glibc's")
            newest = max(newest, tuple(map(int, number.split("."))))
    if not newest:
        raise Refused("the programs don't say which glibc they need")
    return ".".join(map(str, newest))


def kit_of(programs: list[Program]) -> str:
    """The kit and the logic that proved the programs, as `rt version` prints them: by the lists that tools/build leaves
    beside what it made, or else by the kit on the path."""
    lines = set()
    for program in programs:
        made_of = program.path + ".made-of"
        if os.path.exists(made_of):
            with open(made_of, encoding="utf-8", errors="replace") as file:
                lines.add(file.readline().strip())
        elif shutil.which("rt"):
            lines.add(output_of(["rt", "version"], "").strip())
        else:
            raise Refused(
                f"the kit that proved {program.path} isn't known: have its command rt on the path"
            )
    if len(lines) != 1 or not all(lines):
        raise Refused(f"the programs are of different kits: {', '.join(sorted(lines))}")
    return lines.pop()


def output_of(command: list[str], text: str) -> str:
    """What a program prints where this is its standard input."""
    said = " ".join(command)
    try:
        done = subprocess.run(
            command,
            input=text.encode(),
            stdout=subprocess.PIPE,
            timeout=SECONDS,
            check=False,
        )
    except OSError as fault:
        raise Refused(f"{command[0]} can't be run: {fault.strerror}") from None
    except subprocess.TimeoutExpired:
        raise Refused(f"{said} takes more than {SECONDS} seconds") from None
    if done.returncode:
        raise Refused(f"{said} has status {done.returncode}")
    return done.stdout.decode(errors="replace")


class Running:
    """The programs in a folder, under their own names, which their help has."""

    def __init__(self, programs: list[Program], room: str, source: str) -> None:
        self.room = room
        self.source = source
        for program in programs:
            path = os.path.join(room, program.name)
            with open(path, "wb") as file:
                file.write(program.data)
            os.chmod(path, 0o755)

    def help_of(self, name: str) -> str:
        """What a program prints by --help."""
        return output_of([os.path.join(self.room, name), "--help"], "")

    def lab(self, commands: list[str]) -> str:
        """What the lab prints by these commands."""
        command = [os.path.join(self.room, "rvlab"), self.source]
        return output_of(command, "".join(line + "\n" for line in commands))
