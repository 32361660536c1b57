"""The repository, as git has it."""

import os
import subprocess
from dataclasses import dataclass

from elf.board import TOP
from elf.refusal import Refused


@dataclass(frozen=True)
class Commit:
    """A commit."""

    name: str  # 40 digits
    seconds: int  # when it was made, since 1970

    def __str__(self) -> str:
        return self.name


def git(*words: str) -> str:
    """What git prints in the repository."""
    try:
        done = subprocess.run(
            ["git", "-C", TOP, *words], capture_output=True, check=False
        )
    except OSError as fault:
        raise Refused(f"git can't be run: {fault.strerror}") from None
    if done.returncode:
        said = done.stderr.decode(errors="replace").strip()
        raise Refused(f"git {words[0]}: {said}")
    return done.stdout.decode(errors="surrogateescape")


def head() -> Commit:
    """The commit that is checked out."""
    name, seconds = git("show", "-s", "--format=%H %ct", "HEAD").split()
    return Commit(name, int(seconds))


def changes() -> list[str]:
    """The files that aren't as in the commit, or that it doesn't have; ignored ones aside."""
    rows = git(
        "status", "--porcelain", "-z", "--no-renames", "--untracked-files=all"
    ).split("\0")
    return [row[3:] for row in rows if row]


def files(*places: str) -> list[str]:
    """The files of the repository at these places that are there now."""
    names = git("ls-files", "-z", "--", *places).split("\0")
    return sorted(
        name for name in names if name and os.path.exists(os.path.join(TOP, name))
    )
