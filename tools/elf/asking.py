"""How other programs are asked: GNU's binutils and the compilers."""

import subprocess
import tempfile
from collections.abc import Sequence

from elf.refusal import Refused

PACKAGES = {
    "addr2line": "binutils-riscv64-unknown-elf",
    "objdump": "binutils-riscv64-unknown-elf",
    "gcc": "gcc-riscv64-unknown-elf",
    "clang": "clang",
}


class Question:
    """A program that was begun and runs beside this one."""

    def __init__(self, command: Sequence[str]) -> None:
        self.name = command[0]
        self.said = tempfile.TemporaryFile()
        self.faults = tempfile.TemporaryFile()
        try:
            self.process = subprocess.Popen(
                command,
                stdin=subprocess.DEVNULL,
                stdout=self.said,
                stderr=self.faults,
            )
        except FileNotFoundError:
            raise not_installed(command[0]) from None

    def answer(self) -> str:
        """What the program prints, once it has ended."""
        status = self.process.wait()
        texts = []
        for file in (self.said, self.faults):
            with file:
                file.seek(0)
                texts.append(file.read().decode(errors="replace"))
        if status:
            raise Refused(f"{self.name} fails: {texts[1].strip() or status}")
        return texts[0]


def not_installed(program: str) -> Refused:
    """The refusal for a program that isn't there."""
    package = PACKAGES.get(program.rpartition("-")[2])
    advice = f": apt-get install {package}" if package else ""
    return Refused(f"{program} isn't installed{advice}")


def output_of(command: Sequence[str]) -> str:
    """What a program prints."""
    return Question(command).answer()
