"""The source that is made of a program: its sections in their order, with labels, lines of C and notes."""

import os
import re

from elf.asking import Question
from elf.data import Data, directive, section_mark
from elf.lines import Files, Lines, Place, read_lines
from elf.names import Names
from elf.program import BASE, LIMIT, PAGE, Program
from elf.refusal import Refused
from elf.text import (
    CONTROLS,
    IMMEDIATES,
    LOADS,
    REGISTERS_ALONE,
    SHIFTS,
    STORES,
    WITHOUT_OPERANDS,
    Text,
)
from elf.text import BRANCHES as TO_PLACES
from elf.variables import Shape, read_variables
from elf.words import ask_for_listing, read_words

DEFAULT_PAGES = 256
WIDEST_NOTE = 120
PSEUDO = set(
    "nop mv not neg seqz snez sltz sgtz beqz bnez blez bgez bltz bgtz bgt ble bgtu bleu j jr ret csrr csrw csrs csrc"
    " csrwi csrsi csrci li la lla call tail fence lui auipc jal jalr unimp".split()
)
KNOWN = (
    CONTROLS
    | IMMEDIATES
    | LOADS
    | REGISTERS_ALONE
    | SHIFTS
    | STORES
    | TO_PLACES
    | set(WITHOUT_OPERANDS)
    | PSEUDO
)


class Source:
    """A source with the bytes of a program."""

    def __init__(
        self, program: Program, folders: list[str], prefix: str, with_debug: bool = True
    ) -> None:
        self.program = program
        listing = ask_for_listing(program, prefix)
        shapes: dict[int, Shape] = {}
        self.lines = Lines(Files(folders))
        if with_debug:
            objdump = [prefix + "objdump", "--wide"]
            table = Question([*objdump, "--dwarf=decodedline", program.path])
            types = Question(
                [*objdump, "--dwarf=info", "--dwarf-depth=3", program.path]
            )
        self.words = read_words(program, "".join(it.answer() for it in listing))
        if with_debug:
            self.lines = read_lines(program, table.answer(), prefix, Files(folders))
            shapes = read_variables(types.answer())
        self.names = Names(program, self.words, self.lines)
        self.text = Text(program, self.words, self.names)
        self.data = Data(program, self.names, shapes)
        self.has_assembly = self.lines.has_assembly
        self.shown: Place | None = None  # the line that was shown last

    def write(self) -> str:
        """The text of the source."""
        program = self.program
        body: list[str] = []
        at = BASE
        for section in program.sections:
            body += self.data.rows(at, section.start)
            body += ["", section_mark(section.name)]
            body += (self.code if section.is_code else self.data.rows)(
                section.start, section.end
            )
            at = section.end
        body += self.data.rows(at, program.end)
        body += [name + ":" for name in self.names.labels.get(program.end, [])]
        text = "\n".join(self.head() + body) + "\n"
        if len(text) > LIMIT:
            raise Refused(
                f"its source has {len(text)} bytes, and the board takes {LIMIT}: leave out what the program doesn't"
                " need (-Os, -Wl,--gc-sections)"
            )
        return text

    def head(self) -> list[str]:
        """The lines at the top: what it is, what it needs, and values outside of the image."""
        program, names = self.program, self.names
        name = os.path.basename(program.path).encode("ascii", "replace").decode()
        rows = [
            f"# Made by elf2s of {name}: {program.filled - BASE} bytes, entry {names.best.get(BASE, hex(BASE))}."
        ]
        if pages_of(program) > DEFAULT_PAGES:
            rows.append(f"# It needs --pages {pages_of(program)} or more.")
        return rows + [
            directive(".equ", f"{one},{names.values[one]:#x}")
            for one in sorted(names.constants)
        ]

    # ---- code

    def code(self, start: int, end: int) -> list[str]:
        """The lines for code from start to end, which may have data inside."""
        rows: list[str] = []
        at = start
        while at < end:
            rows += self.beginning(at)
            is_word = at + 4 <= end and at not in self.names.inside
            statement = self.text.at(at) if is_word else None
            if statement:
                note = statement.note or self.notes(at, statement.size)
                rows.append(directive(statement.word, statement.operands, note))
                at += statement.size
            elif is_word and at in self.words:
                mnemonic, operands, _ = self.words[at]
                rows.append(
                    directive(
                        ".word",
                        f"0x{self.program.word(at):08x}",
                        f"{mnemonic} {','.join(operands)}".strip(),
                    )
                )
                at += 4
            else:
                stop = self.names.next_label(at, end)
                stop = next(
                    (place for place in range(at + 1, stop) if place in self.words),
                    stop,
                )
                rows += self.data.piece(at, stop)
                at = stop
        return rows

    def notes(self, start: int, size: int) -> str:
        """The variables that the instructions of a statement work on."""
        if not self.lines.notes:
            return ""
        notes = (self.lines.notes.get(at, "") for at in range(start, start + size, 4))
        return "; ".join(dict.fromkeys(note for note in notes if note))[:WIDEST_NOTE]

    def beginning(self, address: int) -> list[str]:
        """The labels of a place, and the lines of C or of assembly that begin there."""
        names = self.names
        labels = names.labels.get(address, [])
        if not labels and address not in self.lines.statements:
            return self.assembly(address) if self.has_assembly else []
        function = names.function_at(address)
        is_function = function is not None and function.start == address
        steps = names.steps.get(address, {})
        own = [name for name in labels if name not in steps.values()]
        rows = ["", *(name + ":" for name in own)] if is_function else []
        others = [] if is_function else own
        for place in self.places(address, bool(others)):
            label = steps.get(place) or (others.pop(0) if others else "")
            if label or place != self.shown:
                rows.append(commented(label, place, self.lines.files))
            self.shown = place
        return rows + [name + ":" for name in others] + self.assembly(address)

    def places(self, address: int, is_named: bool) -> list[Place]:
        """The lines of C that begin at a place; where none does, a label has the line that it is in."""
        places = self.lines.statements.get(address, [])
        at = self.lines.at(address)
        if not places and is_named and at and not at.is_assembly and at != self.shown:
            return [at]
        steps = self.names.steps.get(address, {})
        return sorted(places, key=lambda place: place not in steps)

    def assembly(self, address: int) -> list[str]:
        """The line of assembly that an instruction comes from, where that isn't the instruction itself."""
        place = self.lines.at(address)
        if place is None or not place.is_assembly or place == self.shown:
            return []
        self.shown = place
        line = re.sub(r"^\s*(?:[\w.$]+:\s*)*", "", self.lines.files.line(place))
        if (
            not line
            or re.split(r"[\s;]", line, maxsplit=1)[0] in KNOWN
            or line.startswith((".", "#"))
        ):
            return []
        return [commented("", place, self.lines.files)]


def commented(label: str, place: Place, files: Files) -> str:
    """A line with a line of C as its comment, and perhaps a label."""
    comment = (
        f"# {os.path.basename(place.path)}:{place.line}  {files.line(place)}".rstrip()
    )
    return f"{label + ':' if label else '':23} {comment}"


def pages_of(program: Program) -> int:
    """How many pages the program asks for: up to the stack that lib/board.ld gives it, or else for its image."""
    tops = [symbol.value for symbol in program.symbols if symbol.name == "__stack_top"]
    asked = (
        -(-(tops[0] - BASE) // PAGE) if tops and BASE < tops[0] <= BASE + LIMIT else 0
    )
    return max(asked, program.pages)
