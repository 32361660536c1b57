"""Man pages, made of what the programs and the documents say."""

import re
import time

from elf.refusal import Refused
from handout.helps import Command, Help

STATUSES = "| Exit status | When |"  # heads the table of a document
SIGNS = {
    "\\": "\\e",
    "-": "\\-",
    "'": "\\(aq",
    "`": "\\(ga",
    "^": "\\(ha",
    "~": "\\(ti",
    '"': "\\(dq",
}


def escaped(text: str) -> str:
    """A text as roff prints it sign by sign."""
    made = "".join(SIGNS.get(sign, sign) for sign in text)
    return "\\&" + made if made.startswith(".") else made


def bold(text: str) -> str:
    """A text in bold letters."""
    return f"\\fB{escaped(text)}\\fR"


def italic(text: str) -> str:
    """A text in italic letters, for what stands for something."""
    return f"\\fI{escaped(text)}\\fR"


def row(head: str, *lines: str) -> list[str]:
    """A paragraph with a head."""
    return [".TP", head, *lines]


def statuses(document: str, program: str) -> list[tuple[str, str]]:
    """The exit statuses of a program, without those of the repository's scripts: as a table of a document has them, of the
    section that the program heads or else the first one."""
    sections = re.split(r"^(?=#)", document, flags=re.MULTILINE)
    tables = [it for it in sections if STATUSES in it]
    if not tables:
        raise Refused(f"no document has a table {STATUSES!r} of {program}")
    own = (it for it in tables if program in it.partition("\n")[0])
    _, _, table = next(own, tables[0]).partition(STATUSES + "\n")
    rows = []
    for line in table.split("\n")[1:]:
        cells = [cell.strip() for cell in line.strip("|").split("|")]
        if len(cells) != 2:
            break
        if not cells[1].startswith("only of the script"):
            rows.append((cells[0], plain(cells[1])))
    return rows


def plain(text: str) -> str:
    """A text of a document without its marks."""
    return re.sub(r"\[([^]]*)\]\([^)]*\)", r"\1", text).replace("`", "")


def manual(
    words: Help,
    version: str,
    seconds: int,
    document: str,
    name: str,
    commands: list[Command],
    note: list[str],
) -> str:
    """The man page of a program: its words, its commands with the note below them, and the exit statuses of its
    document."""
    program = words.program
    date = time.strftime("%Y-%m-%d", time.gmtime(seconds))
    made_of = f"`{program} --help`" + (" and of its command `help`" if commands else "")
    lines = [
        f'.\\" Made by tools/dist of {made_of}.',
        f'.TH {program.upper()} 1 {date} "{version}" "Solartansy"',
        ".SH NAME",
        f"{program} \\- {escaped(words.about)}",
        ".SH SYNOPSIS",
        "\n.br\n".join(f"{bold(program)} {escaped(usage)}" for usage in words.usages),
        ".SH ARGUMENTS",
    ]
    for argument in words.arguments:
        lines += row(italic(argument.name), escaped(argument.text))
    lines.append(".SH OPTIONS")
    for option in words.options:
        head = ", ".join(map(bold, option.names))
        head += " " + italic(option.value) if option.value else ""
        lines += row(head, escaped(option.text))
    if commands:
        lines.append(".SH COMMANDS")
    for command in commands:
        operands = escaped(command.form.removeprefix(command.word))
        example = f"Example: {bold(command.example)}"
        lines += row(
            bold(command.word) + operands, escaped(command.text), ".br", example
        )
    if note:
        lines += [".PP", *map(escaped, note)]
    lines.append(".SH EXIT STATUS")
    for status, when in statuses(document, program):
        lines += row(bold(status), escaped(when))
    other = "rvlab" if program == "rvboard" else "rvboard"
    lines += [
        ".SH SEE ALSO",
        f".BR {other} (1),",
        f"the document {name} of the archive",
    ]
    return "\n".join(lines) + "\n"
