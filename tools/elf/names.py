"""The names of places: those of the program's symbols, and labels for other places that are named."""

import re
import subprocess
from bisect import bisect_left, bisect_right
from collections import Counter, defaultdict
from typing import NamedTuple

from elf.lines import Lines, Place
from elf.program import BASE, Kind, Program, Symbol, SymbolKind
from elf.texts import text_at
from elf.words import Word

LONGEST = 80  # of a name
BRANCHES = {"beq", "bne", "blt", "bge", "bltu", "bgeu", "jal"}
NAMING = [
    Kind.WORD,
    Kind.CALL,
    Kind.CALL_PLT,
    Kind.PCREL_HI,
    Kind.HI,
    Kind.LO_I,
    Kind.LO_S,
    Kind.ADD,
    Kind.SUB,
]
# a compiler's own labels, and the assembler's marks of code and data
HIDDEN = re.compile(r"\$[xd]|\.L|L0\x01|__global_pointer\$")


class Part(NamedTuple):
    """A named part of the program: a function, a variable."""

    start: int
    end: int
    name: str


class Names:
    """The labels of a program, each once, and the constants for values outside of it."""

    def __init__(
        self,
        program: Program,
        words: dict[int, Word],
        lines: Lines,
    ) -> None:
        self.program, self.words, self.lines = program, words, lines
        # by place: all labels, in the order in which they are written
        self.labels: dict[int, list[str]] = defaultdict(list)
        # by place: the label that stands for it
        self.best: dict[int, str] = {}
        # by place: the labels of the statements of C that begin there
        self.steps: dict[int, dict[Place, str]] = defaultdict(dict)
        # by name: its value, also of constants
        self.values: dict[str, int] = {}
        # by a symbol's name and value: how it is written
        self.spelled: dict[tuple[str, int], str] = {}
        self.constants: set[str] = set()  # the constants that are used
        self.functions: list[Part] = []
        self.variables: list[Part] = []
        self.files: dict[int, str | None] = {}  # by function: its file
        self.name_symbols()
        self.targets = self.find_targets()
        self.name_statements()
        self.name_targets()
        self.name_data()
        self.places = sorted(self.labels)
        self.inside = {address & ~3 for address in self.places if address % 4}

    # ---- what others ask

    def reference(self, value: int, symbol: int | None = None) -> str | None:
        """How a value is written: a name, perhaps with a distance; nothing where no name is near."""
        by = self.program.symbols[symbol] if symbol is not None else None
        if value in self.best:
            spelled = self.spelled.get((by.name, value)) if by else None
            return (
                spelled if spelled in self.labels.get(value, []) else self.best[value]
            )
        if by:
            constant = self.spelled.get((by.name, by.value))
            if constant and not self.program.holds(by.value):
                self.constants.add(constant)
                return constant + distance(value - by.value)
        variable = self.variable_at(value)
        if variable:
            return variable.name + distance(value - variable.start)
        if by:
            spelled = self.spelled.get((by.name, by.value))
            if spelled:
                return spelled + distance(value - by.value)
            place = self.place_of(by, value)
            if place in self.best:
                return self.best[place] + distance(value - place)
        return None

    def function_at(self, address: int) -> Part | None:
        """The function that an instruction is of: the last one before it in its section."""
        i = bisect_right(self.function_starts, address) - 1
        if i < 0:
            return None
        section = self.program.section_at(address)
        return (
            self.functions[i]
            if section and section.start <= self.functions[i].start
            else None
        )

    def variable_at(self, address: int) -> Part | None:
        """The variable that has an address."""
        i = bisect_right(self.variable_starts, address) - 1
        return self.variables[i] if i >= 0 and address < self.variables[i].end else None

    # ---- symbols

    def name_symbols(self) -> None:
        """Names what the symbols name; the first name of a place stands for it."""
        program = self.program
        plain = demangled(
            {
                symbol.name
                for symbol in program.symbols
                if symbol.name.startswith(("_Z", "_R"))
            }
        )
        ranked = []
        for i, symbol in enumerate(program.symbols):
            is_named = symbol.kind not in (
                SymbolKind.FILE,
                SymbolKind.SECTION,
                SymbolKind.THREAD,
            )
            if (
                is_named
                and symbol.is_defined
                and symbol.name
                and not HIDDEN.match(symbol.name)
            ):
                is_bare = symbol.kind not in (SymbolKind.FUNCTION, SymbolKind.OBJECT)
                rank = (
                    is_bare,
                    symbol.binding == 0,
                    symbol.binding == 2,
                    symbol.name.startswith("_"),
                    i,
                )
                ranked.append((rank, symbol))
        for _, symbol in sorted(ranked):
            self.name_symbol(symbol, spelling(plain.get(symbol.name, symbol.name)))
        self.functions = first_of_each(self.functions)
        self.variables = first_of_each(self.variables)
        self.function_starts = [part.start for part in self.functions]
        self.variable_starts = [part.start for part in self.variables]

    def name_symbol(self, symbol: Symbol, name: str) -> None:
        """Names what one symbol names."""
        value = symbol.value
        if not self.program.holds(value) and value != self.program.end:
            if self.values.setdefault(name, value) == value:
                self.spelled.setdefault((symbol.name, value), name)
            return
        shown = self.unique(name, value)
        self.spelled.setdefault((symbol.name, value), shown)
        if shown in self.labels.get(value, []):
            return
        self.labels[value].append(shown)
        self.best.setdefault(value, shown)
        section = self.program.section_at(value)
        part = Part(value, value + symbol.size, shown)
        if (
            symbol.kind == SymbolKind.FUNCTION
            or symbol.kind == SymbolKind.NONE
            and section
            and section.is_code
        ):
            self.functions.append(part)
        elif symbol.size:
            self.variables.append(part)

    def unique(self, name: str, value: int) -> str:
        """The name, with a number where it stands for another place."""
        shown, count = name, 1
        while self.values.get(shown, value) != value:
            count += 1
            shown = f"{name}.{count}"
        self.values[shown] = value
        return shown

    def fresh(self, name: str, address: int) -> str:
        """A label for a place: the name, with a number where it is there already."""
        shown, count = name, 1
        while shown in self.values:
            count += 1
            shown = f"{name}.{count}"
        self.values[shown] = address
        return shown

    def add(self, address: int, name: str) -> str:
        """Gives a place a further label."""
        shown = self.fresh(name, address)
        self.labels[address].append(shown)
        self.best.setdefault(address, shown)
        return shown

    # ---- places that the program names

    def find_targets(self) -> set[int]:
        """The places that instructions and data name."""
        program = self.program
        targets = set()
        for address, (mnemonic, operands, _) in self.words.items():
            if mnemonic in BRANCHES:
                targets.add(int(operands[-1], 16) & 0xFFFF_FFFF)
            elif mnemonic == "auipc" and address not in program.relocations:
                targets.add(self.pair_target(address, operands))
        for found in program.relocations.values():
            for kind in NAMING:
                if kind in found:
                    targets.add(
                        self.place_of(
                            program.symbols[found[kind].symbol], found[kind].value
                        )
                    )
        return {target for target in targets if program.holds(target)}

    def pair_target(self, address: int, operands: tuple[str, ...]) -> int:
        """What the pair of `auipc` and the next word names where no relocation says it; 0 for another pair."""
        mnemonic, others, _ = self.words.get(address + 4, Word("", ()))
        high = address + (int(operands[1], 16) << 12)
        if mnemonic == "jalr" and others[1].endswith(f"({operands[0]})"):
            target = high + int(others[1].partition("(")[0]) & 0xFFFF_FFFF
            return target if target in self.words else 0
        if mnemonic == "addi" and others[0] == others[1] == operands[0]:
            return high + int(others[2]) & 0xFFFF_FFFF
        return 0

    def place_of(self, symbol: Symbol, value: int) -> int:
        """The place whose label stands for a value: a compiler's own label, without its distance."""
        is_near = (
            symbol.name.startswith(".L")
            and not symbol.name.startswith(".LANCHOR")
            and 0 < value - symbol.value < 16
        )
        return symbol.value if is_near and value not in self.best else value

    # ---- code

    def name_statements(self) -> None:
        """Names the first place of each line of C in each function: `function.line`."""
        seen = set()
        for address in sorted(self.lines.statements):
            function = self.function_at(address)
            if function is None or address not in self.words:
                continue
            for place in self.lines.statements[address]:
                if (
                    place.path == self.file_of(function)
                    and not place.is_assembly
                    and (function, place.line) not in seen
                ):
                    seen.add((function, place.line))
                    self.steps[address][place] = self.add(
                        address, f"{function.name}.{place.line}"
                    )

    def name_targets(self) -> None:
        """Names the code that is jumped to: by its line of C, or by its number in the function."""
        count: Counter[int] = Counter()
        for address in sorted(
            target
            for target in self.targets
            if target in self.words and target not in self.best
        ):
            function = self.function_at(address)
            if function is None:
                section = self.program.section_at(address)
                self.add(
                    address,
                    f"{base_name(section.name if section else 'code')}.{address - BASE:x}",
                )
                continue
            place, own = self.lines.at(address), self.file_of(function)
            if place and place.path == own and not place.is_assembly:
                self.add(address, f"{function.name}.{place.line}")
            else:
                count[function.start] += 1
                is_c = own and not Place(own, 1).is_assembly
                self.add(
                    address,
                    f"{function.name}.{'x' if is_c else ''}{count[function.start]}",
                )

    def file_of(self, function: Part) -> str | None:
        """The file of a function: that of its first line."""
        if function.start not in self.files:
            lines = self.lines
            i = max(0, bisect_right(lines.starts, function.start) - 1)
            path = None
            while i < len(lines.starts) and path is None:
                place = lines.places[i]
                if (
                    lines.starts[i] > function.start
                    and self.function_at(lines.starts[i]) != function
                ):
                    break
                path = place.path if place else None
                i += 1
            self.files[function.start] = path
        return self.files[function.start]

    # ---- data

    def name_data(self) -> None:
        """Names the data that is named by its address alone: by its text, or by its place in the section."""
        for address in sorted(self.targets):
            section = self.program.section_at(address)
            if (
                section is None
                or address in self.best
                or section.is_code
                and address & ~3 in self.words
            ):
                continue
            if self.variable_at(address):
                continue
            is_name = address in self.program.relocations
            text = None if is_name else text_at(self.program, address, section.end)
            if text is None:
                self.add(
                    address, f"{base_name(section.name)}.{address - section.start:x}"
                )
            else:
                words = (
                    re.sub(r"[^A-Za-z0-9]+", "_", text[:-1].decode())
                    .strip("_")[:20]
                    .strip("_")
                )
                self.add(address, f"text.{words}" if words else "text")

    def next_label(self, address: int, end: int) -> int:
        """The next place after an address that has a label, or the end."""
        i = bisect_left(self.places, address + 1)
        return self.places[i] if i < len(self.places) and self.places[i] < end else end


def first_of_each(parts: list[Part]) -> list[Part]:
    """The parts by their places, the first of each place."""
    by_start: dict[int, Part] = {}
    for part in parts:
        by_start.setdefault(part.start, part)
    return sorted(by_start.values())


def spelling(name: str) -> str:
    """A name as the language can have it."""
    spelled = re.sub(r"[^A-Za-z0-9_.$]", "_", name)[:LONGEST]
    return (
        spelled
        if re.match(r"[A-Za-z_.$]", spelled) and spelled != "."
        else "_" + spelled
    )


def base_name(section: str) -> str:
    """The first word of a section's name."""
    return spelling(section.lstrip(".").split(".")[0] or "data")


def distance(count: int) -> str:
    """A distance behind a name."""
    return f"{count:+d}" if count else ""


def demangled(names: set[str]) -> dict[str, str]:
    """Names of C++ and Rust as they are written there, where c++filt is installed."""
    rows = sorted(names)
    if not rows:
        return {}
    try:
        done = subprocess.run(
            ["c++filt"],
            input="\n".join(rows),
            capture_output=True,
            text=True,
            check=False,
        )
    except OSError:
        return {}
    plain = (
        re.sub(r"::h[0-9a-f]{16}$", "", row).replace("::", ".")
        for row in done.stdout.split("\n")
    )
    return dict(zip(rows, plain))
