"""What a linked program is: the bytes that it loads, its sections, symbols and relocations."""

import struct
from bisect import bisect_right
from collections import defaultdict
from dataclasses import dataclass, field
from enum import IntEnum
from typing import Any, NamedTuple

from elftools.common.exceptions import ELFError  # type: ignore[import]
from elftools.construct.core import ConstructError  # type: ignore[import]
from elftools.elf.constants import SH_FLAGS  # type: ignore[import]
from elftools.elf.elffile import ELFFile  # type: ignore[import]

from elf.refusal import Refused

BASE = 0x8000_0000
LIMIT = 0x100_0000  # the most bytes of an image, and of a source
PAGE = 4096
HAS_COMPRESSED = 1  # a flag of the ELF's header


class Kind(IntEnum):
    """The relocations that name a place (RISC-V ELF psABI, "Relocations")."""

    WORD = 1
    CALL = 18
    CALL_PLT = 19
    PCREL_HI = 23
    PCREL_LO_I = 24
    PCREL_LO_S = 25
    HI = 26
    LO_I = 27
    LO_S = 28
    TPREL_HI = 29
    TPREL_LO_I = 30
    TPREL_LO_S = 31
    ADD = 35
    SUB = 39


class SymbolKind(IntEnum):
    """The types of symbols (System V ABI, "Symbol Table")."""

    NONE = 0
    OBJECT = 1
    FUNCTION = 2
    SECTION = 3
    FILE = 4
    THREAD = 6


class Section(NamedTuple):
    """A section of the image; a section that isn't filled loads zeros."""

    start: int
    end: int
    name: str
    is_code: bool
    is_filled: bool


class Symbol(NamedTuple):
    """A row of the table of symbols."""

    name: str
    value: int
    size: int
    kind: int
    binding: int  # 0 local, 1 global, 2 weak
    is_defined: bool


class Relocation(NamedTuple):
    """That a place names a value, by a symbol."""

    symbol: int
    value: int


@dataclass
class Program:
    """A linked program, as its file says."""

    path: str
    entry: int
    may_have_compressed: bool
    image: bytearray = field(default_factory=bytearray)  # from BASE on
    filled: int = BASE  # the end of the bytes that the file has
    moved: list[tuple[int, int]] = field(
        default_factory=list
    )  # where bytes run that are loaded elsewhere
    code: list[tuple[int, int]] = field(
        default_factory=list
    )  # segments that may be executed
    has_sections: bool = True  # else the segments stand for them
    sections: list[Section] = field(default_factory=list)
    section_starts: list[int] = field(default_factory=list)
    symbols: list[Symbol] = field(default_factory=list)
    relocations: dict[int, dict[int, Relocation]] = field(
        default_factory=dict
    )  # by place and by kind

    @property
    def end(self) -> int:
        """The address after the image."""
        return BASE + len(self.image)

    @property
    def pages(self) -> int:
        """How many pages the image takes."""
        return max(1, -(-len(self.image) // PAGE))

    def holds(self, address: int) -> bool:
        """Whether what the program calls by this address is in the image there."""
        return BASE <= address < self.end and not any(
            start <= address < end for start, end in self.moved
        )

    def word(self, address: int) -> int:
        """The word at a place of the image."""
        return int.from_bytes(self.image[address - BASE : address - BASE + 4], "little")

    def section_at(self, address: int) -> Section | None:
        """The section that has an address."""
        i = bisect_right(self.section_starts, address) - 1
        return self.sections[i] if i >= 0 and address < self.sections[i].end else None


def read_program(path: str) -> Program:
    """Reads a linked program; refuses a file that the board can't run."""
    try:
        with open(path, "rb") as file:
            return read_elf(path, ELFFile(file))
    except OSError as fault:
        raise Refused(fault.strerror or str(fault)) from None
    except ELFError as fault:
        raise Refused(
            f"it can't be read as an ELF: {fault}. Give a program that a linker made"
        ) from None
    except (
        ConstructError,
        struct.error,
        ValueError,
        LookupError,
        TypeError,
        AttributeError,
        AssertionError,
    ):
        raise Refused("its tables are damaged: link it again") from None


def read_elf(path: str, elf: Any) -> Program:
    """Reads the parts of an ELF."""
    header = elf.header
    if header["e_machine"] != "EM_RISCV":
        raise Refused(
            f"it is for {header['e_machine']}, not for RISC-V: compile it by riscv64-unknown-elf-gcc"
        )
    if elf.elfclass != 32 or not elf.little_endian:
        raise Refused(
            "it isn't for a 32-bit little-endian machine: compile and link it with -march=rv32im -mabi=ilp32"
        )
    if header["e_type"] == "ET_REL":
        raise Refused(
            "it isn't linked: link it by tools/cc, or by the linker with -T lib/board.ld"
        )
    if header["e_type"] != "ET_EXEC":
        raise Refused(
            f"it isn't linked at a fixed address ({header['e_type']}): link it with -static -no-pie"
        )
    program = Program(path, header["e_entry"], bool(header["e_flags"] & HAS_COMPRESSED))
    read_segments(program, elf)
    if program.entry != BASE:
        raise Refused(
            f"its entry is {program.entry:#x}, and the board starts at {BASE:#x}: have the linker put the entry first,"
            " as lib/board.ld does with the section .text.start"
        )
    read_sections(program, elf)
    read_symbols(program, elf)
    read_relocations(program, elf)
    return program


def read_segments(program: Program, elf: Any) -> None:
    """Reads what is loaded, at the addresses where it is loaded."""
    parts: list[tuple[int, bytes, int]] = []  # address, bytes, size
    for segment in elf.iter_segments():
        if segment["p_type"] != "PT_LOAD" or not segment["p_memsz"]:
            continue
        low, runs, data, size = (
            segment["p_paddr"],
            segment["p_vaddr"],
            segment.data(),
            segment["p_memsz"],
        )
        if low < BASE < low + size and segment["p_offset"] == 0:
            skipped = (
                BASE - low
            )  # the file's own headers, which linkers put before the first section
            low, runs, data, size = BASE, runs + skipped, data[skipped:], size - skipped
        if not BASE <= low < low + size <= BASE + LIMIT:
            raise Refused(
                f"it loads something at {low:#x} to {low + size - 1:#x}, and the board has memory at {BASE:#x} to"
                f" {BASE + LIMIT - 1:#x}: link it with -T lib/board.ld"
            )
        if low != runs:
            program.moved.append((runs, runs + size))
        elif segment["p_flags"] & 1:
            program.code.append((low, low + len(data)))
        parts.append((low, data, size))
    if not parts:
        raise Refused("it loads nothing: link it with -T lib/board.ld")
    program.image = bytearray(max(low + size for low, _, size in parts) - BASE)
    program.filled = max(low + len(data) for low, data, _ in parts)
    for low, data, _ in parts:
        program.image[low - BASE : low - BASE + len(data)] = data


def read_sections(program: Program, elf: Any) -> None:
    """Reads the sections that the image has; where a file has none, its segments stand for them."""
    for section in elf.iter_sections():
        flags, start, size = section["sh_flags"], section["sh_addr"], section["sh_size"]
        is_filled = section["sh_type"] != "SHT_NOBITS"
        is_loaded = flags & SH_FLAGS.SHF_ALLOC and (
            is_filled or not flags & SH_FLAGS.SHF_TLS
        )
        if is_loaded and size and program.holds(start) and start + size <= program.end:
            is_code = bool(flags & SH_FLAGS.SHF_EXECINSTR)
            program.sections.append(
                Section(start, start + size, section.name, is_code, is_filled)
            )
    program.has_sections = bool(program.sections)
    if not program.sections:
        program.sections = [
            Section(start, end, ".text", True, True) for start, end in program.code
        ]
    program.sections.sort()
    program.section_starts = [section.start for section in program.sections]
    for one, next_one in zip(program.sections, program.sections[1:]):
        if next_one.start < one.end:
            raise Refused(
                f"its sections {one.name} and {next_one.name} overlap: link it again"
            )


def read_symbols(program: Program, elf: Any) -> None:
    """Reads the table of symbols, as records of ELF-32: pyelftools' own reader takes a second for 20,000."""
    table = elf.get_section_by_name(".symtab")
    if table is None:
        return
    names = elf.get_section(table["sh_link"]).data()
    for at, value, size, info, _, section in struct.iter_unpack(
        "<IIIBBH", table.data()
    ):
        name = names[at : names.index(0, at)].decode("latin-1")
        program.symbols.append(
            Symbol(name, value, size, info & 15, info >> 4, section != 0)
        )


def read_relocations(program: Program, elf: Any) -> None:
    """Reads the relocations that a linker kept (--emit-relocs) and that name a place."""
    kinds = set(Kind)
    places: dict[int, dict[int, Relocation]] = defaultdict(dict)
    for section in elf.iter_sections():
        if section["sh_type"] != "SHT_RELA":
            continue
        if not elf.get_section(section["sh_info"])["sh_flags"] & SH_FLAGS.SHF_ALLOC:
            continue
        for place, info, addend in struct.iter_unpack("<IIi", section.data()):
            kind, symbol = info & 255, info >> 8
            if kind in kinds and symbol < len(program.symbols):
                value = program.symbols[symbol].value + addend & 0xFFFF_FFFF
                places[place][kind] = Relocation(symbol, value)
    program.relocations = dict(places)
