"""Compares a source with a program: the proved rvboard assembles it, and each byte of its memory is compared."""

import os
import re
import subprocess
import tempfile

from elf.program import BASE, LIMIT, PAGE, Program
from elf.refusal import Refused

Fault = re.Match[str] | None  # the line and the fault of a source that isn't accepted

HERE = "elf2s.here"  # a label that is put before a line to learn the line's address
AT_ONCE = 256  # bytes that the monitor shows by a command
MOST_FAULTS = 20  # lines that are taken out to learn where a faulty one stands


def check(rvboard: str, path: str, program: Program) -> str | None:
    """The first difference between a source and a program, with its line and address;
    nothing where there is none."""
    with open(path, encoding="latin-1") as file:
        rows = file.read().split("\n")
    board = Board(rvboard, program.pages)
    shown, end, fault = board.memory(rows)
    if fault:
        line = int(fault.group(1))
        address = address_of_fault(board, rows, line)
        place = f"{address:08x}: " if address is not None else ""
        return f"{path}:{line}: {place}{fault.group(2)}"
    wanted = bytes(program.image).ljust(program.pages * PAGE, b"\0")
    name = os.path.basename(program.path)
    if shown != wanted:
        at = next(i for i, pair in enumerate(zip(shown, wanted)) if pair[0] != pair[1])
        line = line_of(board, rows, BASE + at)
        bytes_of = f"has {shown[at]:02x}, and {name} has {wanted[at]:02x} there"
        return f"{path}:{line}: {BASE + at:08x} {bytes_of}"
    last = BASE + len(wanted)
    if end > last:
        line = line_of(board, rows, last)
        return f"{path}:{line}: the image ends at {end:08x}, and {name} at {program.end:08x}"
    return None


def line_of(board: "Board", rows: list[str], address: int) -> int:
    """The number of the last line that begins at an address or before it: the line that has its byte."""
    low, high = 0, len(rows)
    while high - low > 1:
        middle = (low + high) // 2
        place = board.place_of(rows, middle)
        if place is not None and place <= address:
            low = middle
        else:
            high = middle
    return low + 1


def address_of_fault(board: "Board", rows: list[str], line: int) -> int | None:
    """The address of a faulty line, as the source has it without the lines that are faulty."""
    rows = list(rows)
    faulty = line
    for _ in range(MOST_FAULTS):
        rows[faulty - 1] = ""
        _, _, fault = board.memory(rows)
        if fault is None:
            return board.place_of(rows, line - 1)
        faulty = int(fault.group(1))
    return None


class Board:
    """The proved program, as it is asked what a source is in memory."""

    def __init__(self, rvboard: str, pages: int) -> None:
        # (a file in this folder, too, by its name alone)
        self.rvboard = os.path.abspath(rvboard) if os.path.exists(rvboard) else rvboard
        self.pages = pages

    def ask(self, rows: list[str], commands: str) -> tuple[bytes, Fault]:
        """What the monitor answers before the first step, or the fault of the source."""
        with tempfile.TemporaryDirectory(prefix="elf2s") as folder:
            source = os.path.join(folder, "made.s")
            asked = os.path.join(folder, "commands")
            with open(source, "w", encoding="latin-1") as file:
                file.write("\n".join(rows))
            with open(asked, "w", encoding="ascii") as file:
                file.write(commands)
            sizes = ["--steps", "0", "--pages", str(LIMIT // PAGE)]
            command = [self.rvboard, source, *sizes, "--commands", asked]
            try:
                done = subprocess.run(command, capture_output=True, check=False)
            except OSError as fault:
                raise Refused(
                    f"{self.rvboard} can't be run ({fault.strerror}): name the built rvboard"
                ) from None
        said = done.stderr.decode(errors="replace").strip()
        fault_of_source = re.search(r"source line (\d+): (.*)", said)
        if done.returncode not in (0, 1, 2) and not fault_of_source:
            raise Refused(f"{self.rvboard} answers: {said or done.returncode}")
        return done.stdout, fault_of_source

    def memory(self, rows: list[str]) -> tuple[bytes, int, Fault]:
        """The memory before the first step and the end of the image, or the fault of the
        source."""
        size = self.pages * PAGE
        places = range(BASE, BASE + size, AT_ONCE)
        commands = f"b {HERE}\n" + "".join(f"m {at:#x} {AT_ONCE}\n" for at in places)
        answers, fault = self.ask([*rows, HERE + ":"], commands)
        lines = re.findall(rb"^[0-9a-f]{8}:((?: [0-9a-f]{2})+)$", answers, re.MULTILINE)
        shown = bytes.fromhex(b"".join(lines).decode())
        end = break_of(answers)
        if fault is None and (len(shown) != size or end is None):
            raise Refused(
                f"{self.rvboard} shows {len(shown)} bytes of memory, and not {size}: name"
                " the built rvboard"
            )
        return shown, end or 0, fault

    def place_of(self, rows: list[str], index: int) -> int | None:
        """The address of a line, by a label before it."""
        answers, _ = self.ask([*rows[:index], HERE + ":", *rows[index:]], f"b {HERE}\n")
        return break_of(answers)


def break_of(answers: bytes) -> int | None:
    """The address of a breakpoint that the monitor has set."""
    match = re.match(rb"break ([0-9a-f]{8})\n", answers)
    return int(match[1], 16) if match else None
