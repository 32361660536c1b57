"""The source that is assembled: the harness and a submission, joined so that each line keeps its file and number."""

import re
from collections.abc import Iterator, Sequence
from dataclasses import dataclass, field

NAME = re.compile(r"[A-Za-z_.$][A-Za-z0-9_.$]*")
LABEL = re.compile(r"[ \t]*([A-Za-z_.$][A-Za-z0-9_.$]*|[0-9]+)[ \t]*:")
TOKEN = re.compile(
    r"""(?P<comment>\#|//) | "(?:\\.|[^"\\])*" | '(?:\\.[0-9A-Fa-f]*|[^'\\])'
    | [0-9][A-Za-z0-9_.$]* | %[A-Za-z0-9_.$]* | (?P<name>[A-Za-z_.$][A-Za-z0-9_.$]*)""",
    re.VERBOSE,
)
IGNORED = frozenset(
    ".text .data .rodata .bss .section .globl .global .local .option .type .size .file .ident .attribute".split()
)
REGISTERS = frozenset(
    ["zero", "ra", "sp", "gp", "tp", "fp"]
    + [f"x{n}" for n in range(32)]
    + [f"t{n}" for n in range(7)]
    + [f"s{n}" for n in range(12)]
    + [f"a{n}" for n in range(8)]
)
LONGEST = 1024  # bytes of a line
ALIGN = b".balign 4\n"


@dataclass(frozen=True)
class Part:
    """A file of the source: a part of the harness, or the submission."""

    file: str
    text: bytes
    submitted: bool = False

    def lines(self) -> list[str]:
        """Its lines, as the assembler cuts them."""
        pieces = self.text.decode("latin-1").split("\n")
        if pieces[-1] == "":
            pieces.pop()
        return [piece.removesuffix("\r") for piece in pieces]


@dataclass(frozen=True)
class Place:
    """A line of a part."""

    part: Part
    number: int

    def text(self) -> str:
        """The line itself."""
        return self.part.lines()[self.number - 1]


@dataclass
class Names:
    """The names that a line or a part defines and uses."""

    defined: list[str] = field(default_factory=list)
    used: list[str] = field(default_factory=list)
    local: list[str] = field(default_factory=list)


def names_of(line: str) -> Names:
    """The names of a line."""
    names = Names()
    at = 0
    while label := LABEL.match(line, at):
        kind = names.local if label[1][0].isdigit() else names.defined
        kind.append(label[1])
        at = label.end()
    words = list(words_of(line[at:]))
    if not words or words[0] in IGNORED:
        return names
    operands = words[1:]
    if words[0] in (".equ", ".set") and operands:
        names.defined.append(operands.pop(0))
    names.used.extend(operands)
    return names


def statement_of(line: str) -> str | None:
    """The mnemonic or directive of a line."""
    at = 0
    while label := LABEL.match(line, at):
        at = label.end()
    return next(words_of(line[at:]), None)


def words_of(text: str) -> Iterator[str]:
    """The names in a text, without those in strings and comments."""
    for token in TOKEN.finditer(text):
        if token["comment"]:
            return
        if token["name"]:
            yield token["name"]


def bad_byte(line: str) -> int | None:
    """Where a line has its first byte, outside of strings and comments, that begins no token."""
    start = 0
    for token in TOKEN.finditer(line):
        for at in range(start, token.start()):
            if line[at] != "\t" and not " " <= line[at] <= "~":
                return at
        if token["comment"]:
            return None
        start = token.end()
    rest = (
        at
        for at in range(start, len(line))
        if line[at] != "\t" and not " " <= line[at] <= "~"
    )
    return next(rest, None)


def places_of(parts: Sequence[Part]) -> Iterator[tuple[Place, Names]]:
    """Each line of some parts with its names."""
    for part in parts:
        for number, line in enumerate(part.lines(), 1):
            yield Place(part, number), names_of(line)


def definitions(parts: Sequence[Part]) -> dict[str, Place]:
    """Where each name of some parts is defined first."""
    found: dict[str, Place] = {}
    for place, names in places_of(parts):
        for name in names.defined:
            found.setdefault(name, place)
    return found


class Joined:
    """The joined source. `mark` begins the names that stand in no file."""

    def __init__(
        self,
        before: Sequence[Part],
        submission: Part,
        behind: Sequence[Part],
        mark: str,
        guarded: bool = True,
    ) -> None:
        self.mark = mark
        self.guard = f"{mark}_guard"
        self.parts = [*before, submission, *behind]
        self.places: list[Place | None] = []
        self.pieces: list[bytes] = []
        for part in before:
            self._add(part)
        if before:
            self._fill(ALIGN)
        self._add(submission)
        self._fill(ALIGN)
        if guarded:  # what a submission that runs past its end comes to
            self._fill(f"{self.guard}: .word 0\n".encode())
        for part in behind:
            self._add(part)

    def _add(self, part: Part) -> None:
        ended = part.text == b"" or part.text.endswith(b"\n")
        self.pieces.append(part.text if ended else part.text + b"\n")
        count = len(part.lines())
        self.places.extend(Place(part, number) for number in range(1, count + 1))

    def _fill(self, line: bytes) -> None:
        self.pieces.append(line)
        self.places.append(None)

    def text(self) -> bytes:
        """The source for the assembler."""
        return b"".join(self.pieces)

    def place(self, number: int) -> Place | None:
        """The line of a file that is this line of the joined source."""
        return self.places[number - 1] if 0 < number <= len(self.places) else None

    def labelled(self) -> tuple[bytes, list[tuple[str, Place | None]]]:
        """The same source with a label before each line, and the labels with their lines. It has the same bytes."""
        lines = self.text().split(b"\n")[:-1]
        labels: list[tuple[str, Place | None]] = []
        for at, place in enumerate(self.places):
            label = f"{self.mark}_{at}"
            line = f"{label}:".encode() + lines[at]
            if len(line) <= LONGEST:
                lines[at] = line
                labels.append((label, place))
        end = f"{self.mark}_end"
        labels.append((end, None))
        return b"\n".join(lines) + f"\n{end}:\n".encode(), labels
