"""Small programs for the tests, made in memory."""

from elf.lines import Files, Lines
from elf.names import Names
from elf.program import BASE, Kind, Program, Relocation, Section, Symbol, SymbolKind
from elf.words import Word, word_of

CODE = Section(BASE, BASE + 0x100, ".text", True, True)
DATA = Section(BASE + 0x100, BASE + 0x200, ".data", False, True)


def program_of(image: bytes = b"", symbols: list[Symbol] | None = None) -> Program:
    """A program of 256 bytes of code and 256 of data, which begins with these bytes."""
    made = Program("made.elf", BASE, False, image=bytearray(image.ljust(0x200, b"\0")))
    made.filled = made.end
    made.sections = [CODE, DATA]
    made.section_starts = [section.start for section in made.sections]
    made.symbols = symbols or []
    return made


def function(name: str, offset: int) -> Symbol:
    """A global function."""
    return Symbol(name, BASE + offset, 4, SymbolKind.FUNCTION, 1, True)


def variable(name: str, offset: int, size: int) -> Symbol:
    """A global variable."""
    return Symbol(name, BASE + offset, size, SymbolKind.OBJECT, 1, True)


def relocate(
    program: Program, offset: int, kind: Kind, symbol: int, value: int
) -> None:
    """Adds a relocation, with its value counted from the start of the image."""
    found = program.relocations.setdefault(BASE + offset, {})
    found[kind] = Relocation(symbol, BASE + value)


def words_of(rows: list[tuple[int, str, str]]) -> dict[int, Word]:
    """The words of rows of (offset, mnemonic, operands), as objdump lists them."""
    return {BASE + at: word_of(word, operands) for at, word, operands in rows}


def names_of(
    program: Program, words: dict[int, Word], lines: Lines | None = None
) -> Names:
    """The names of a program."""
    return Names(program, words, lines or Lines(Files([])))
