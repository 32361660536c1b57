"""What `gcc -S -g -fverbose-asm` says beside instructions: the variables of their operands, and the lines of C.

cc writes this text to be assembled with a table of its own lines (-Wa,-g), with `.file` and `.loc` as comments."""

import os
import re
from typing import NamedTuple


# comments, directives, bodies of macros, labels and empty lines
NO_INSTRUCTION = re.compile(r"\s*(#|\.|\\|[\w.$]+:\s*(#|$)|$)")
# values that have no name in the source
NAMELESS = re.compile(r"(tmp\d+|\*?_\d+|iftmp\.\w+)?")


class Note(NamedTuple):
    """What is said of an instruction: its line of C, its variables, and the statements that begin there."""

    path: str
    line: int
    variables: str
    begun: list[tuple[str, int]]


def read_notes(text: list[str]) -> dict[int, Note]:
    """The notes of a text of cc's, by its lines; another text has none."""
    notes: dict[int, Note] = {}
    files: dict[str, str] = {}
    path, line, is_statement = "", 0, True
    begun: list[tuple[str, int]] = []
    for number, row in enumerate(text, 1):
        if row.startswith("#file"):
            match = re.match(r'#file (\d+) (?:"([^"]*)" )?"([^"]*)"', row)
            if match:
                files[match[1]] = os.path.normpath(
                    os.path.join(os.getcwd(), match[2] or "", match[3])
                )
        elif row.startswith("#loc"):
            words = row.split()
            path, line = files.get(words[1], ""), int(words[2])
            if "is_stmt" in words:
                is_statement = words[words.index("is_stmt") + 1] == "1"
            if is_statement:
                begun.append((path, line))
        elif path and not NO_INSTRUCTION.match(row):
            names = (variable(word) for word in row.partition("#")[2].split(","))
            notes[number] = Note(
                path,
                line,
                ", ".join(dict.fromkeys(name for name in names if name)),
                begun,
            )
            begun = []
    return notes


def variable(operand: str) -> str:
    """An operand as gcc names it, without what only gcc understands."""
    operand = operand.strip()
    operand = re.sub(
        r"MEM\[\([^)]*\)(\d+)B\]", lambda match: f"[{int(match[1]):#x}]", operand
    )
    operand = re.sub(r"MEM <[^>]*> \[\([^)]*\)&(\w+)\]", r"\1", operand)
    operand = re.sub(r"MEM(?: <[^>]*>)?\[\([^)]*\)(\w+)(?:\(D\))?\]", r"*\1", operand)
    operand = re.sub(r"\b([A-Za-z]\w*?)(\.\d+)?_\d+(\(D\))?", r"\1", operand)
    return "" if NAMELESS.fullmatch(operand) else operand
