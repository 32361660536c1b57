"""What the archive has."""

import os
import re
import tempfile
from dataclasses import dataclass

from elf.board import TOP
from elf.refusal import Refused
from handout import tree
from handout.archive import Entry, text
from handout.completion import bash, zsh
from handout.helps import (
    Command,
    Help,
    read_commands,
    read_examples,
    read_help,
    read_tool_help,
)
from handout.manual import manual
from handout.programs import Program, Running, kit_of, oldest_glibc, output_of

DOCUMENTS = "GUIDE LAB JSON BOARD ASSEMBLER MONITOR C GRADING ISOLATION LIMITS".split()
# By program the document that has the table of its exit statuses. Of those that the archive needn't have it is handed
# out with the program.
MANUALS = {
    "rvboard": "docs/BOARD.md",
    "rvlab": "docs/LAB.md",
    "rvas": "docs/GDB.md",
    "rvgdb": "docs/GDB.md",
}
# The tools in Python that have a man page and completions, by the same.
TOOL_MANUALS = {"rvgrade": "docs/GRADING.md"}
WIDE = "COLUMNS=1000"  # with which each row of their helps is one line
# The tools that work on the repository itself, and so aren't handed out.
OWN_TOOLS = set("build counts definitions dist handout need".split())
README = "tools/handout/README.md"
PAGE = "board.html"
RESULT = "## The last result"  # of docs/GATE.md
LINK = re.compile(r"\[([^]\n]*)\]\(([^)#\s]+)(#[^)\s]*)?\)")
START = """\
#!/bin/sh
# Runs bin/PROGRAM from any folder.
exec "$(dirname "$(readlink -f "$0")")/bin/PROGRAM" "$@"
"""


@dataclass(frozen=True)
class Making:
    """What an archive is made of."""

    version: str
    commit: tree.Commit
    changes: list[str]  # files that aren't as in the commit
    are_named: bool  # the programs were named, and not built by their scripts
    programs: list[Program]
    page: bytes | None


def read(name: str) -> str:
    """A text of the repository."""
    with open(os.path.join(TOP, name), encoding="utf-8") as file:
        return file.read()


def entries_of(making: Making) -> dict[str, Entry]:
    """The files of the archive by their names, but for the list of their sums."""
    made = {
        f"bin/{program.name}": Entry(program.data, True) for program in making.programs
    }
    for program in making.programs:
        made[program.name] = text(START.replace("PROGRAM", program.name), True)
    for name in tree.files("tools", "lib", "examples"):
        if name.split("/")[1] not in OWN_TOOLS:
            made[name] = file_of_tree(name)
    if making.page is not None:
        made[PAGE] = Entry(making.page)
    made.update(documents(making))
    made.update(from_helps(making))
    return made


def file_of_tree(name: str) -> Entry:
    """A file of the repository as it is."""
    path = os.path.join(TOP, name)
    with open(path, "rb") as file:
        return Entry(file.read(), bool(os.stat(path).st_mode & 0o100))


def documents(making: Making) -> dict[str, Entry]:
    """The documents for users, and those that the archive alone has."""
    names = [f"docs/{name}.md" for name in DOCUMENTS]
    names += sorted({MANUALS[it.name] for it in making.programs} - set(names))
    made = {name: text(with_known_links(read(name), names)) for name in names}
    made["README.md"] = text(readme(making))
    made["PROVED"] = text(proved(making))
    return made


def with_known_links(content: str, names: list[str]) -> str:
    """A document whose links to documents that the archive doesn't have are their texts alone."""

    def kept(link: re.Match[str]) -> str:
        return link[0] if "docs/" + link[2] in names or "://" in link[2] else link[1]

    return LINK.sub(kept, content)


def readme(making: Making) -> str:
    """The README of the archive."""
    has = {program.name for program in making.programs}
    content = without_marks(read(README), has | ({"page"} if making.page else set()))
    parts = {
        "VERSION": making.version,
        "GLIBC": oldest_glibc(making.programs),
        "PAGE": PAGE,
    }
    for place, part in parts.items():
        content = content.replace(f"@{place}@", part)
    return content


def without_marks(content: str, has: set[str]) -> str:
    """A text without its marks. What stands between two is left out where the archive hasn't what the first names."""

    def kept(part: re.Match[str]) -> str:
        return part[2] if part[1] in has else ""

    return re.sub(r"<!-- (\w+) -->(.*?)<!-- end -->", kept, content, flags=re.DOTALL)


def proved(making: Making) -> str:
    """By what the programs were proved, and what the gate said."""
    _, mark, rest = read("docs/GATE.md").partition(RESULT + "\n")
    result = rest.partition("\n## ")[0].strip()
    if not (mark and result):
        raise Refused(f"docs/GATE.md has no section {RESULT!r}, which PROVED repeats")
    changes = "".join(
        f"\n                with the changed {name}" for name in making.changes
    )
    whence = (
        "named to tools/dist, which didn't build them"
        if making.are_named
        else "built of this commit's sources"
    )
    rows = [
        f"version         {making.version}",
        f"kit and logic   {kit_of(making.programs)}",
        f"commit          {making.commit}{changes}",
        f"programs        {whence}{' with the changes' if changes and not making.are_named else ''}",
        f"glibc           {oldest_glibc(making.programs)} or later",
        "",
        "The programs by SHA-256:",
        "",
        *(f"{program.sum}  bin/{program.name}" for program in making.programs),
        "",
        "What docs/GATE.md of this commit says of the last result of the gate, which proves and tests all:",
        "",
        result,
    ]
    return "\n".join(rows) + "\n"


def from_helps(making: Making) -> dict[str, Entry]:
    """Man pages and completions."""
    made = {}
    with tempfile.TemporaryDirectory(prefix="dist") as room:
        running = Running(making.programs, room, os.path.join(TOP, "examples/hello.s"))
        for name in (program.name for program in making.programs):
            words = read_help(name, running.help_of(name))
            commands, note = commands_of(running) if name == "rvlab" else ([], [])
            page = manual_of(making, words, MANUALS[name], commands, note)
            made.update(shared(words, page))
    for tool, document in TOOL_MANUALS.items():
        help_command = ["env", WIDE, os.path.join(TOP, "tools", tool), "--help"]
        words = read_tool_help(tool, output_of(help_command, ""))
        made.update(shared(words, manual_of(making, words, document, [], [])))
    return made


def shared(words: Help, page: str) -> dict[str, Entry]:
    """The man page and the completions of a program."""
    name = words.program
    return {
        f"share/man/man1/{name}.1": text(page),
        f"share/bash-completion/completions/{name}": text(bash(words)),
        f"share/zsh/site-functions/_{name}": text(zsh(words)),
    }


def commands_of(running: Running) -> tuple[list[Command], list[str]]:
    """The lab's commands with their examples, and the note below them."""
    rows, note = read_commands(running.lab(["help"]))
    words = [form.split(" ")[0] for form, _ in rows]
    said = running.lab([f"help {word}" for word in words])
    return list(read_examples(said, rows)), note


def manual_of(
    making: Making, words: Help, document: str, commands: list[Command], note: list[str]
) -> str:
    """A man page."""
    return manual(
        words,
        making.version,
        making.commit.seconds,
        read(document),
        document,
        commands,
        note,
    )
