"""Runs of the built rvboard, with commands for its monitor (docs/MONITOR.md)."""

import os
import re
import subprocess
import tempfile
from collections.abc import Sequence
from dataclasses import dataclass

from grading.refusal import Refused, shown
from grading.source import Joined, Place

STOP = re.compile(rb"stop (halted|break|limit) pc=([0-9a-f]{8}) mode=[MU] steps=(\d+)")
TRAP = re.compile(rb"trap cause=([0-9a-f]{8}) epc=([0-9a-f]{8}) tval=([0-9a-f]{8})")
BREAK = re.compile(rb"break ([0-9a-f]{8})")
FAULT = re.compile(r"source line (\d+): (E\d+ \w+)\n")
ENDED = re.compile(rb"(?:halted (\d+)|running at ([0-9a-f]{8})) after (\d+) steps\n")


@dataclass(frozen=True)
class Stop:
    """Where and why the monitor stopped."""

    why: str
    pc: int
    steps: int


@dataclass(frozen=True)
class Trap:
    """A trap of the board."""

    cause: int
    epc: int
    tval: int


@dataclass(frozen=True)
class Settings:
    """What a run has beside its source."""

    steps: int
    pages: int
    timed: bytes | None


class Answers:
    """The output of a run: the answers of its commands are taken from the front, in their order."""

    def __init__(self, out: bytes) -> None:
        self.rest = out

    def line(self) -> bytes:
        """The next line."""
        line, _, self.rest = self.rest.partition(b"\n")
        return line

    def peek(self) -> bytes:
        """The next line, which isn't taken."""
        return self.rest.partition(b"\n")[0]

    def address(self) -> int | None:
        """The answer of `b`."""
        found = BREAK.fullmatch(self.line())
        return int(found[1], 16) if found else None

    def stop(self) -> Stop:
        """The answer of `c` or `s`."""
        line = self.line()
        found = STOP.fullmatch(line)
        if not found:
            raise Refused(f"rvboard answers {shown(line)} to c or s")
        return Stop(found[1].decode(), int(found[2], 16), int(found[3]))

    def registers(self) -> list[int]:
        """The answer of `r`: the registers, and pc."""
        rows = b" ".join(self.line() for _ in range(9))
        return [int(value, 16) for value in re.findall(rb"=([0-9a-f]{8})", rows)]

    def words(self, count: int) -> list[int | None] | None:
        """The answer of `m` for so many words; none where its name isn't there."""
        if self.peek() == b"?":
            self.line()
            return None
        rows = (self.line().partition(b": ")[2] for _ in range((count + 3) // 4))
        cells = b" ".join(rows).split()
        values: list[int | None] = []
        for at in range(0, 4 * count, 4):
            digits = b"".join(reversed(cells[at : at + 4]))
            values.append(None if b"-" in digits else int(digits, 16))
        return values

    def traps(self) -> list[Trap]:
        """The answer of `t`, which another command has to follow."""
        found = []
        while trap := TRAP.fullmatch(self.peek()):
            found.append(Trap(*(int(value, 16) for value in trap.groups())))
            self.line()
        return found


@dataclass(frozen=True)
class Run:
    """What a run left: a fault of its source, or what it printed."""

    out: bytes
    fault: tuple[int, str] | None = None  # the line of the joined source, and the fault
    refused: str = ""  # what else rvboard said on standard error

    def answers(self) -> Answers:
        """The answers of its commands."""
        return Answers(self.out)


class Board:
    """The program, and a folder for the files of its runs."""

    def __init__(self, program: str) -> None:
        self.program = program
        self.room = tempfile.TemporaryDirectory(prefix="rvgrade")

    def close(self) -> None:
        """Removes the folder."""
        self.room.cleanup()

    def run(self, source: bytes, settings: Settings, commands: Sequence[str]) -> Run:
        """Runs a source."""
        files = []
        words = [f"--steps={settings.steps}", f"--pages={settings.pages}"]
        try:
            for option, text in (
                ("--commands", "".join(f"{line}\n" for line in commands).encode()),
                ("--input", settings.timed),
            ):
                if text is not None:
                    handle, path = tempfile.mkstemp(dir=self.room.name)
                    files.append(path)
                    words += [option, path]
                    with open(handle, "wb") as file:
                        file.write(text)
            done = subprocess.run(
                [self.program, "-", *words],
                input=source,
                capture_output=True,
                check=False,
            )
        except OSError as fault:
            raise Refused(f"{self.program} can't be run: {fault.strerror}") from None
        finally:
            for path in files:
                os.unlink(path)
        if done.returncode in (0, 1, 2) and not done.stderr:
            return Run(done.stdout)
        said = done.stderr.decode(errors="replace")
        if fault_line := FAULT.fullmatch(said):
            return Run(b"", (int(fault_line[1]), fault_line[2]))
        refused = said.strip() or f"it ended with status {done.returncode}"
        return Run(b"", None, refused)


class Map:
    """The lines of a joined source by their addresses."""

    def __init__(self, rows: Sequence[tuple[int, Place | None]]) -> None:
        self.rows = rows

    def place(self, address: int) -> Place | None:
        """The line whose bytes are at an address: of several lines the last, since only it has bytes."""
        found = None
        for at, place in self.rows:
            if at > address:
                break
            found = place
        return found


@dataclass(frozen=True)
class Look:
    """The board at the end of a run, and before its last steps."""

    map: Map
    pcs: list[int]  # before the last step but one, before the last one, and after it
    traps: list[Trap]

    def place(self, back: int) -> Place | None:
        """The line of pc so many steps before the end."""
        return self.map.place(self.pcs[-1 - back]) if back < len(self.pcs) else None


def look(board: Board, joined: Joined, settings: Settings, steps: int) -> Look:
    """Runs a source again for so many steps, and looks at the last ones."""
    source, labels = joined.labelled()
    last = min(steps, 2)
    begin = [f"s {steps - last}"] if steps > last else []
    commands = [*(f"b {label}" for label, _ in labels), *begin, "r"]
    run = board.run(source, settings, [*commands, *last * ["s", "r"], "t", "r"])
    answers = run.answers()
    if run.fault or run.refused:
        return Look(Map([]), [], [])
    addresses = [(answers.address(), place) for _, place in labels]
    rows = [(at, place) for at, place in addresses if at is not None]
    if begin:
        answers.stop()
    pcs = [answers.registers()[32]]
    for _ in range(last):
        answers.stop()
        pcs.append(answers.registers()[32])
    return Look(Map(rows), pcs, answers.traps())
