"""What the programs say of themselves: the help of their words, and of the lab's commands."""

import re
from collections.abc import Iterator
from dataclasses import dataclass, replace

from elf.refusal import Refused

ROW = re.compile(r" +(\S+(?: \S+)*) {2,}(\S.*)")
OPTION = re.compile(r"(?:(-\w), )?(--[a-z][a-z-]*)(?: (?:<([A-Z]+)>|([A-Z/]+)))?")
ARGUMENT = re.compile(r"\[([A-Z]+)\]|<([A-Z]+)>|([A-Z]+)")
CHOICES = re.compile(r"\[possible values: ([^]]+)\]")
COMMAND = re.compile(r"([a-z]+(?: [A-Z[.]\S*)*) +(\S.*)")


@dataclass(frozen=True)
class Option:
    """A word that begins with a dash."""

    short: str  # as -h; nothing where there is none
    name: str  # as --help
    value: str  # what stands for its value, as F; nothing where it takes none
    text: str

    @property
    def names(self) -> list[str]:
        """The words, the short one first."""
        return [self.short, self.name] if self.short else [self.name]

    @property
    def takes_file(self) -> bool:
        """Whether its value is the path of a file."""
        return self.value == "FILE" or bool(self.value) and self.text.endswith(", a file")

    @property
    def choices(self) -> list[str]:
        """The values that it may have; none where they aren't listed."""
        found = CHOICES.search(self.text)
        return found[1].split(", ") if found else []


@dataclass(frozen=True)
class Argument:
    """A word that is no option. It is the path of a file in each program."""

    name: str  # as SOURCE
    is_needed: bool
    text: str
    is_many: bool = False  # whether there may be more than one


@dataclass(frozen=True)
class Help:
    """What a program prints by --help."""

    program: str
    about: str
    usages: list[str]  # each the words behind the program's name
    arguments: list[Argument]
    options: list[Option]


@dataclass(frozen=True)
class Command:
    """A command of the lab."""

    form: str  # with its operands, as s [N]
    text: str
    example: str

    @property
    def word(self) -> str:
        """The command without its operands."""
        return self.form.split(" ")[0]


def read_help(program: str, text: str) -> Help:
    """Reads what a program prints by --help. A line that isn't understood is refused, so that none is lost."""
    about = section = ""
    usages: list[str] = []
    arguments: list[Argument] = []
    options: list[Option] = []
    for number, line in enumerate(text.rstrip("\n").split("\n"), 1):
        if line in ("", "Arguments:", "Options:"):
            section = line or section
        elif number == 1:
            about = line
        elif line.startswith(f"Usage: {program} "):
            usages.append(line.removeprefix(f"Usage: {program} "))
        elif section == "Arguments:" and (argument := read_argument(line)):
            arguments.append(argument)
        elif section == "Options:" and (option := read_option(line)):
            options.append(option)
        else:
            raise Refused(f"{program} --help: line {number} isn't understood: {line}")
    if not (about and usages and options):
        raise Refused(f"{program} --help: it has no usage or no options")
    return Help(program, about, usages, arguments, options)


def read_tool_help(tool: str, text: str) -> Help:
    """Reads what a tool in Python prints by --help: its usages, what it does, its words, and a note."""
    usage, about, *tables = re.split(r"\n{2,}", text.rstrip("\n"))
    heads = {"positional arguments:": "Arguments:", "options:": "Options:"}
    rows = "\n\n".join(tables[: len(heads)])
    for head, other in heads.items():
        rows = rows.replace(head, other)
    words = " ".join(usage.removeprefix("usage:").split())
    usages = re.sub(rf"(?:^| ){tool} ", f"\nUsage: {tool} ", words)
    found = read_help(tool, f"{about.rstrip('.')}\n{usages}\n\n{rows}\n")
    many = [replace(it, is_many=".." in words) for it in found.arguments]
    return replace(found, arguments=many)


def read_argument(line: str) -> Argument | None:
    """Reads the line of an argument."""
    row = ROW.fullmatch(line)
    form = ARGUMENT.fullmatch(row[1]) if row else None
    if row is None or form is None:
        return None
    return Argument(form[1] or form[2] or form[3], form[1] is None, row[2])


def read_option(line: str) -> Option | None:
    """Reads the line of an option."""
    row = ROW.fullmatch(line)
    form = OPTION.fullmatch(row[1]) if row else None
    if row is None or form is None:
        return None
    return Option(form[1] or "", form[2], form[3] or form[4] or "", row[2])


def read_commands(said: str) -> tuple[list[tuple[str, str]], list[str]]:
    """Reads what the lab's `help` prints: each command's form with its text, and the lines below them."""
    lines = answers(said).get("help", [])
    column = first.start(2) if lines and (first := COMMAND.fullmatch(lines[0])) else 0
    rows = [COMMAND.fullmatch(line) for line in lines]
    rows = [row if row and row.start(2) == column else None for row in rows]  # all texts stand below each other
    count = rows.index(None) if None in rows else len(rows)
    commands = [(row[1], row[2]) for row in rows[:count] if row]
    if not commands or any(rows[count:]):
        raise Refused("rvlab: the list that its command help prints isn't understood")
    return commands, lines[count:]


def read_examples(said: str, rows: list[tuple[str, str]]) -> Iterator[Command]:
    """Reads the example of each command from what the lab prints by `help COMMAND`."""
    found = answers(said)
    for form, text in rows:
        word = form.split(" ")[0]
        lines = found.get(f"help {word}", [])
        if (
            len(lines) != 2
            or lines[0] != f"{form}: {text}"
            or "example: " not in lines[1]
        ):
            raise Refused(f"rvlab: what it prints by `help {word}` isn't understood")
        yield Command(form, text, lines[1].partition("example: ")[2])


def answers(said: str) -> dict[str, list[str]]:
    """The lab's answers by the commands that a transcript has."""
    found: dict[str, list[str]] = {}
    lines: list[str] = []
    for line in said.rstrip("\n").split("\n"):
        if line.startswith("> "):
            lines = found.setdefault(line.removeprefix("> "), [])
        elif line != ">":
            lines.append(line)
    return found
