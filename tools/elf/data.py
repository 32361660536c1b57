"""The directives for the data of a program: by the shapes of its variables, as texts, zeros, names and numbers."""

import re
from bisect import bisect_left

from elf.names import Names
from elf.program import BASE, Kind, Program
from elf.text import number
from elf.texts import LINE_LENGTH, quoted, text_at
from elf.variables import Shape

ZEROS = 16  # so many zeros among other values are a `.space`
PER_ROW = {".byte": 16, ".half": 12, ".word": 8}
NAMES_PER_ROW = 4
WIDEST_ROW = 64  # of a record that has a row of its own
WIDEST_LINE = 200  # of values after which no further one goes into the line


class Data:
    """Writes data, from label to label."""

    def __init__(
        self, program: Program, names: Names, shapes: dict[int, Shape]
    ) -> None:
        self.program, self.names, self.shapes = program, names, shapes
        named = (
            at
            for at, found in program.relocations.items()
            if Kind.WORD in found or Kind.ADD in found
        )
        self.named = sorted(named)  # the words that are written by names
        self.ends = sorted({part.end for part in names.variables})

    def rows(self, start: int, end: int) -> list[str]:
        """The lines for the bytes from start to end, with their labels."""
        rows = []
        while start < end:
            rows += [name + ":" for name in self.names.labels.get(start, [])]
            i = bisect_left(self.ends, start + 1)
            stop = min([self.names.next_label(start, end), *self.ends[i : i + 1]])
            rows += self.piece(start, stop)
            start = stop
        return rows

    def piece(self, start: int, end: int) -> list[str]:
        """The lines for bytes without a label inside."""
        if not any(self.program.image[start - BASE : end - BASE]):
            return [directive(".space", str(end - start))]
        return self.texts(start, end) or self.values(start, end)

    # ---- texts

    def texts(self, start: int, end: int) -> list[str]:
        """The lines for texts with zeros between them; none where the bytes are something else."""
        shape = self.shapes.get(start)
        is_data = start in self.names.best and start not in self.names.targets
        if shape not in (None, Shape(1, 0)) or self.next_named(start, end) < end:
            return []
        rows: list[str] = []
        at, limit = start, self.limit(start, end)
        while at < end:
            text = text_at(self.program, at, limit)
            if (
                text is None
                or len(text) < 3
                and end - start == 4
                and start % 4 == 0
                and shape is None
                and is_data
            ):
                return []
            if (
                at + len(text) > end
            ):  # a label stands in the text, which is the end of another
                return (
                    [*rows, *strings(text[: end - at])] if shape or not is_data else []
                )
            rows += strings(text)
            at += len(text)
            zeros = self.zeros(at, end)
            if zeros:
                rows.append(directive(".space", str(zeros)))
            at += zeros
        return rows

    def limit(self, address: int, end: int) -> int:
        """The end of the section that has a place."""
        section = self.program.section_at(address)
        return section.end if section else end

    def zeros(self, start: int, end: int) -> int:
        """How many zeros stand at a place."""
        piece = self.program.image[start - BASE : end - BASE]
        return len(piece) - len(piece.lstrip(b"\0"))

    # ---- values

    def values(self, start: int, end: int) -> list[str]:
        """The lines for bytes as numbers and names, of the widths that the variable's elements have."""
        rows = Rows()
        element, row = self.shapes.get(start, Shape(0, 0))
        if row > WIDEST_ROW:
            row = 0
        at = start
        while at < end:
            if row and (at - start) % row == 0:
                rows.flush()
            name = self.named_word(at, end)
            if name:
                rows.put(".word", name, row // 4 or NAMES_PER_ROW)
                at += 4
                continue
            stop = self.next_named(at + 1, end)
            zeros = self.zeros(at, stop)
            if at + zeros < stop:
                zeros -= zeros % 4
            is_padding = element == 0 and at + zeros == end
            if zeros and (zeros >= ZEROS or is_padding) and not (row and zeros < row):
                rows.flush()
                rows.lines.append(directive(".space", str(zeros)))
                at += zeros
                continue
            width = self.width(at, stop, element)
            value = int.from_bytes(
                self.program.image[at - BASE : at - BASE + width], "little"
            )
            word = {1: ".byte", 2: ".half", 4: ".word"}[width]
            rows.put(
                word,
                number(value) if width == 4 else str(value),
                row // 4 or PER_ROW[word],
            )
            at += width
        rows.flush()
        return rows.lines

    def width(self, at: int, stop: int, element: int) -> int:
        """How many bytes the value at a place has."""
        if element in (1, 2, 4) and at + element <= stop:
            return element
        return (
            4
            if element == 0 and at % 4 == 0 and (stop - at) % 4 == 0 and at + 4 <= stop
            else 1
        )

    def next_named(self, start: int, end: int) -> int:
        """The next word from a place on that is written by a name, or the end."""
        i = bisect_left(self.named, start)
        return self.named[i] if i < len(self.named) and self.named[i] < end else end

    def named_word(self, at: int, end: int) -> str | None:
        """The word at a place as a name or as the distance of two, where relocations say it."""
        found = self.program.relocations.get(at)
        if not found or at + 4 > end:
            return None
        value = self.program.word(at)
        if Kind.WORD in found and found[Kind.WORD].value == value:
            return self.names.reference(value, found[Kind.WORD].symbol)
        if Kind.ADD in found and Kind.SUB in found:
            one, two = found[Kind.ADD], found[Kind.SUB]
            if one.value - two.value & 0xFFFF_FFFF == value:
                names = self.names.reference(
                    one.value, one.symbol
                ), self.names.reference(two.value, two.symbol)
                return (
                    f"{names[0]} - {names[1]}"
                    if all(names) and one.value - two.value >= -(1 << 31)
                    else None
                )
        return None


class Rows:
    """Lines of values, of which several of one width share a line."""

    def __init__(self) -> None:
        self.lines: list[str] = []
        self.word = ""
        self.values: list[str] = []

    def put(self, word: str, value: str, most: int) -> None:
        """Adds a value to the line, if it is of this width and isn't full, or to a new line."""
        width = sum(len(value) for value in self.values)
        if word != self.word or len(self.values) >= most or width > WIDEST_LINE:
            self.flush()
        self.word = word
        self.values.append(value)

    def flush(self) -> None:
        """Ends the line."""
        if self.values:
            self.lines.append(directive(self.word, ",".join(self.values)))
        self.values = []


def directive(word: str, operands: str = "", note: str = "") -> str:
    """A line with a statement, and perhaps a note behind it."""
    line = f"        {word:7} {operands}" if operands else "        " + word
    return f"{line + ' ':40}# {note}" if note else line


def strings(text: bytes) -> list[str]:
    """The lines for a text, or for a beginning of one."""
    rows = []
    while len(text) > LINE_LENGTH:
        rows.append(directive(".ascii", quoted(text[: LINE_LENGTH - 10])))
        text = text[LINE_LENGTH - 10 :]
    if text.endswith(b"\0"):
        rows.append(directive(".asciz", quoted(text[:-1])))
    else:
        rows.append(directive(".ascii", quoted(text)))
    return rows


def section_mark(name: str) -> str:
    """The line where a section begins; it has no bytes."""
    spelled = name if re.fullmatch(r"[A-Za-z0-9_.$]+", name) else ".data"
    return "        " + (
        spelled
        if spelled in (".text", ".data", ".rodata", ".bss")
        else f".section {spelled}"
    )
