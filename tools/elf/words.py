"""The instructions of a program, as GNU's objdump reads them."""

import re
import tempfile
from typing import NamedTuple

from elf.asking import Question
from elf.program import BASE, Program
from elf.refusal import Refused

# As instructions and not as aliases, and zeros too; with aliases objdump prints `add` for `addi`.
READING = ["-z", "-M", "no-aliases"]


class Word(NamedTuple):
    """A word that is an instruction of some RISC-V: its mnemonic, its operands, and what
    objdump says of the address that it makes."""

    mnemonic: str
    operands: tuple[str, ...]
    place: str = ""


def read_words(program: Program, listing: str) -> dict[int, Word]:
    """The words at multiples of four that objdump's listing has as instructions, by their addresses.

    Refuses a program in which it reads compressed instructions, if the file says that it may have some.
    """
    words: dict[int, Word] = {}
    seen: dict[tuple[str, str], Word] = {}
    for row in listing.split("\n"):
        cells = row.split("\t")
        if len(cells) < 3 or not cells[0].endswith(":"):
            continue
        address, bits, mnemonic = (
            int(cells[0][:-1], 16) & 0xFFFF_FFFF,
            cells[1].rstrip(),
            cells[2],
        )
        if (
            not mnemonic[0].isalpha()
            or re.fullmatch("[0-9a-f]{8}", mnemonic)
            or not program.holds(address)
        ):
            continue
        if len(bits) == 4 and program.may_have_compressed and mnemonic.startswith("c."):
            raise Refused(
                f"it has compressed instructions, which the board doesn't ({mnemonic} at {address:#x}): compile"
                " everything that is linked with -march=rv32im"
            )
        # (a damaged file may have other bytes in a section than in its segment)
        if (
            len(bits) == 8
            and address % 4 == 0
            and int(bits, 16) == program.word(address)
        ):
            key = mnemonic, cells[3] if len(cells) > 3 else ""
            if key not in seen:
                seen[key] = word_of(*key)
            words[address] = seen[key]
    return words


def word_of(mnemonic: str, text: str) -> Word:
    """A word by its mnemonic and what follows it: `a0,8(gp) # 80001008 <table+0x8>`."""
    operands = re.split("[<#]", text)[0].strip()
    place = re.search(r"# 80[0-9a-f]{6} <([^.>][^>]*)>", text)
    return Word(
        mnemonic,
        tuple(operands.split(",")) if operands else (),
        place[1] if place else "",
    )


def ask_for_listing(program: Program, prefix: str) -> list[Question]:
    """Asks objdump for the code; of a file without sections it reads the bytes."""
    objdump = prefix + "objdump"
    if program.has_sections:
        return [Question([objdump, "-d", *READING, program.path])]
    questions = []
    for start, end in program.code:
        with tempfile.NamedTemporaryFile(prefix="elf2s", suffix=".bin") as file:
            file.write(program.image[start - BASE : end - BASE])
            file.flush()
            machine = ["-b", "binary", "-m", "riscv:rv32", f"--adjust-vma={start:#x}"]
            question = Question([objdump, "-D", *READING, *machine, file.name])
            question.process.wait()
        questions.append(question)
    return questions
