"""The command rvrun: runs a linked program on the board, as cargo, CTest and make ask a runner to."""

import argparse
import os
import pty
import re
import subprocess
import sys
import tempfile

from elf.board import proved_program
from elf.check import check
from elf.command import PREFIX
from elf.program import read_program
from elf.refusal import Refused
from elf.source import DEFAULT_PAGES, Source, pages_of

MOST_STEPS = 1_000_000_000
NOT_HALTED, NOT_RUN = 124, 125


def main() -> int:
    """Runs a program; the exit status is its code."""
    parser = argparse.ArgumentParser(
        prog="rvrun",
        description="Runs a linked program (ELF) on the board: its console goes to standard output, the status line to"
        f" standard error. The exit status is the program's code, {NOT_HALTED} where it hasn't halted, {NOT_RUN} where"
        " it can't be run.",
    )
    parser.add_argument("elf", metavar="ELF")
    parser.add_argument(
        "--input",
        metavar="F",
        help="a timed list of received bytes and interrupt lines",
    )
    parser.add_argument(
        "--steps",
        metavar="N",
        default=str(MOST_STEPS),
        help="the most steps; a billion without it",
    )
    parser.add_argument(
        "--pages",
        metavar="N",
        help="pages of memory; without it as many as the program was linked for",
    )
    parser.add_argument(
        "--lab", action="store_true", help="open the program in rvlab, at main"
    )
    try:
        words = parser.parse_args()
    except SystemExit as ended:
        return NOT_RUN if ended.code else 0
    try:
        with tempfile.TemporaryDirectory(prefix="rvrun") as room:
            made = os.path.join(
                room, os.path.splitext(os.path.basename(words.elf))[0] + ".s"
            )
            program = read_program(words.elf)
            with open(made, "w", encoding="latin-1", errors="replace") as file:
                file.write(Source(program, [], PREFIX, with_debug=words.lab).write())
            options = [
                "--pages",
                words.pages or str(max(DEFAULT_PAGES, pages_of(program))),
            ]
            options += ["--input", words.input] if words.input else []
            if words.lab:
                has_main = any(symbol.name == "main" for symbol in program.symbols)
                return open_lab(
                    [proved_program("rvlab", "RVLAB"), made, *options], has_main
                )
            rvboard = proved_program("rvboard", "RVBOARD")
            difference = check(rvboard, made, program)
            if difference:
                raise Refused(
                    f"{difference}: this is a fault of rvrun's; please report it"
                )
            return run([rvboard, made, *options, "--steps", words.steps])
    except Refused as refused:
        print(f"rvrun: {words.elf}: {refused}", file=sys.stderr)
    except OSError as fault:
        print(f"rvrun: {fault.filename}: {fault.strerror}", file=sys.stderr)
    return NOT_RUN


def run(command: list[str]) -> int:
    """Runs the board, and passes on what it prints."""
    done = subprocess.run(command, stdout=subprocess.PIPE, check=False)
    if done.returncode > 2:
        return NOT_RUN
    console, _, status = done.stdout[:-1].rpartition(b"\n")
    sys.stdout.buffer.write(console + b"\n" if console else b"")
    sys.stdout.buffer.flush()
    print(status.decode(), file=sys.stderr)
    match = re.match(rb"halted (\d+) ", status)
    return min(int(match[1]), 255) if match else NOT_HALTED


def open_lab(command: list[str], has_main: bool) -> int:
    """Opens the lab with the program at main, and leaves it to who called."""
    first = b"until main\n" if has_main else b""
    if not sys.stdin.isatty():
        return subprocess.run(
            command, input=first + sys.stdin.buffer.read(), check=False
        ).returncode
    given = [first] if first else []

    def typed(terminal: int) -> bytes:
        return given.pop() if given else os.read(terminal, 1024)

    return os.waitstatus_to_exitcode(pty.spawn(command, stdin_read=typed))
