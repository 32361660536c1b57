"""Which line of which C file, or of assembly, each place of the code comes from."""

import os
import re
from bisect import bisect_right
from collections import defaultdict
from dataclasses import dataclass, field
from typing import NamedTuple

from elf.asking import output_of
from elf.notes import Note, read_notes
from elf.program import Program

WIDEST = 160  # of a line of C in a comment
AT_ONCE = 10000  # places that addr2line is asked for in a call


class Place(NamedTuple):
    """A line of a file."""

    path: str
    line: int

    @property
    def is_assembly(self) -> bool:
        """Whether the file is assembly."""
        return self.path.endswith((".s", ".S", ".sx", ".inc"))


class Row(NamedTuple):
    """A row of the table of lines: from an address on the code is of a line, 0 where it ends."""

    file: str
    line: int
    address: int
    is_statement: bool


class Files:
    """The texts of files, also of those that lie elsewhere now."""

    def __init__(self, folders: list[str]) -> None:
        self.folders = folders
        self.texts: dict[str, list[str] | None] = {}

    def text(self, path: str) -> list[str] | None:
        """The lines of a file, or nothing where it can't be read."""
        if path not in self.texts:
            self.texts[path] = self.read(path)
        return self.texts[path]

    def read(self, path: str) -> list[str] | None:
        """Reads a file, or one of its name in the folders."""
        for at in [
            path,
            *(os.path.join(folder, os.path.basename(path)) for folder in self.folders),
        ]:
            try:
                with open(at, encoding="latin-1") as file:
                    return file.read().split("\n")
            except OSError:
                continue
        return None

    def line(self, place: Place) -> str:
        """A line as a comment shows it."""
        text = self.text(place.path) or []
        line = text[place.line - 1] if 0 < place.line <= len(text) else ""
        return (
            re.sub(r"[\x00-\x08\x0b-\x1f]", " ", line).rstrip().expandtabs(4)[:WIDEST]
        )


@dataclass
class Lines:
    """The lines of a program, of those files alone that can be read: of others they would say nothing."""

    files: Files
    starts: list[int] = field(
        default_factory=list
    )  # where the code of another line begins
    places: list[Place | None] = field(default_factory=list)
    statements: dict[int, list[Place]] = field(
        default_factory=dict
    )  # of C, by the place where they begin
    notes: dict[int, str] = field(
        default_factory=dict
    )  # the variables that an instruction works on

    @property
    def has_assembly(self) -> bool:
        """Whether some line is of assembly."""
        return any(place and place.is_assembly for place in set(self.places))

    def at(self, address: int) -> Place | None:
        """The line that the code at an address is of."""
        i = bisect_right(self.starts, address) - 1
        return self.places[i] if i >= 0 else None


def read_lines(program: Program, table: str, prefix: str, files: Files) -> Lines:
    """Reads the lines of a program from objdump's table of them; it may have none."""
    units = [
        [row for row in rows if program.holds(row.address)] for rows in units_of(table)
    ]
    reader = Reader(files)
    for rows, paths in zip(units, paths_of(units, program.path, prefix)):
        for row in rows:
            reader.read(row, path_of(row, paths))
    lines = reader.lines
    lines.starts = sorted(reader.found)
    lines.places = [reader.found[address] for address in lines.starts]
    for address, places in lines.statements.items():
        lines.statements[address] = list(dict.fromkeys(places))
    return lines


class Reader:
    """Reads rows of the table of lines, of files that can be read."""

    def __init__(self, files: Files) -> None:
        self.lines = Lines(files, statements=defaultdict(list))
        self.found: dict[int, Place | None] = {}
        self.noted: dict[str, dict[int, Note]] = {}

    def read(self, row: Row, path: str) -> None:
        """Reads a row: the last line of a place counts, and all statements that begin there."""
        place = self.noted_place(row, path) if path.endswith(".s") else None
        if (
            place is None
            and row.line
            and not self.noted.get(path)
            and self.is_there(path)
        ):
            place = Place(path, row.line)
            if row.is_statement and not place.is_assembly:
                self.lines.statements[row.address].append(place)
        if row.line or row.address not in self.found:
            self.found[row.address] = place

    def noted_place(self, row: Row, path: str) -> Place | None:
        """The line of C of a row of a text with notes, which are kept."""
        if path not in self.noted:
            self.noted[path] = read_notes(self.lines.files.text(path) or [])
        note = self.noted[path].get(row.line)
        if note is None or not self.is_there(note.path):
            return None
        self.lines.notes[row.address] = note.variables
        begun = (Place(*one) for one in note.begun)
        self.lines.statements[row.address] += [
            one for one in begun if self.is_there(one.path)
        ]
        return Place(note.path, note.line)

    def is_there(self, path: str) -> bool:
        """Whether a file can be read."""
        return self.lines.files.text(path) is not None


def units_of(text: str) -> list[list[Row]]:
    """The rows of each unit of objdump's table, which names files without their folders."""
    row = re.compile(r"(\S.*?) +(\d+|-) +0x([0-9a-f]+)(?: |$)(?:.*(x)$)?")
    units: list[list[Row]] = []
    for line in text.split("\n"):
        match = row.match(line)
        if match:
            file, number, address, statement = match.groups()
            number = "0" if number == "-" else number
            units[-1].append(
                Row(
                    file,
                    int(number),
                    int(address, 16) & 0xFFFF_FFFF,
                    statement is not None,
                )
            )
        elif line.startswith("File name"):
            units.append([])
    return units


def paths_of(
    units: list[list[Row]], program: str, prefix: str
) -> list[dict[int | str, str]]:
    """The paths of each unit's files: by the places that addr2line tells them of, and by
    their names for rows that another row of the place hides."""
    places = [sorted({row.address for row in rows if row.line} - {0}) for rows in units]
    asked = [f"{place:x}" for each in places for place in each]
    answers = []
    for i in range(0, len(asked), AT_ONCE):
        command = [prefix + "addr2line", "-e", program, *asked[i : i + AT_ONCE]]
        answers += output_of(command).splitlines()
    paths: list[dict[int | str, str]] = []
    following = iter(answers)
    for each in places:
        found: dict[int | str, str] = {}
        for place in each:
            path = next(following).split(" (")[0].rpartition(":")[0]
            if path != "??":
                found[place] = path
                found.setdefault(path.rpartition("/")[2], path)
        paths.append(found)
    return paths


def path_of(row: Row, paths: dict[int | str, str]) -> str:
    """The path of a row's file, or its name where nothing tells it."""
    path = paths.get(row.address, "")
    if path.rpartition("/")[2] != row.file:
        path = paths.get(row.file, row.file)
    return os.path.normpath(path)
