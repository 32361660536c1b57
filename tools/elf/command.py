"""The command elf2s."""

import argparse
import sys

from elf.check import check
from elf.program import read_program
from elf.refusal import Refused
from elf.source import Source

PREFIX = "riscv64-unknown-elf-"


def main() -> int:
    """Makes a source of a program, or compares one with it."""
    parser = argparse.ArgumentParser(
        prog="elf2s",
        description="Makes a readable source of the board's assembler from a linked program (ELF).",
        epilog="With --check and --source an existing source is compared with the program, and none is made.",
    )
    parser.add_argument("elf", metavar="ELF")
    parser.add_argument(
        "-o",
        dest="output",
        metavar="SOURCE",
        help="where the source goes; standard output without it",
    )
    parser.add_argument(
        "--check",
        metavar="RVBOARD",
        help="compare what this program assembles with the ELF's bytes",
    )
    parser.add_argument(
        "--source", metavar="SOURCE", help="the existing source that is compared"
    )
    parser.add_argument(
        "--no-debug",
        dest="debug",
        action="store_false",
        help="leave out what debug information says: lines of C, their labels, types",
    )
    parser.add_argument(
        "-I",
        dest="folders",
        action="append",
        default=[],
        metavar="DIR",
        help="where to look for C files",
    )
    parser.add_argument(
        "--tools",
        default=PREFIX,
        metavar="PREFIX",
        help="what GNU's objdump's name begins with",
    )
    words = parser.parse_args()
    if words.source and not words.check:
        parser.error("--source needs --check RVBOARD")
    if words.check and not (words.output or words.source):
        parser.error("--check needs -o SOURCE, or --source SOURCE")
    try:
        program = read_program(words.elf)
        if words.source:
            return told(check(words.check, words.source, program))
        made = Source(program, words.folders, words.tools, words.debug).write()
        if words.output is None:
            sys.stdout.buffer.write(made.encode("latin-1", "replace"))
            return 0
        with open(words.output, "w", encoding="latin-1", errors="replace") as file:
            file.write(made)
        return told(check(words.check, words.output, program)) if words.check else 0
    except Refused as refused:
        print(f"elf2s: {words.elf}: {refused}", file=sys.stderr)
    except OSError as fault:
        where = fault.filename or "standard output"
        print(f"elf2s: {where}: {fault.strerror}", file=sys.stderr)
    return 1


def told(difference: str | None) -> int:
    """Tells a difference between a source and a program."""
    if difference:
        print(f"elf2s: {difference}", file=sys.stderr)
    return 1 if difference else 0
