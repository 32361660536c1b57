"""The shapes of variables, by the types that the debug information (DWARF) gives them, as objdump prints it."""

import re
from typing import NamedTuple

WRAPPINGS = {"typedef", "const_type", "volatile_type", "array_type"}
RECORDS = {"structure_type", "union_type", "class_type"}
PLAIN = {"base_type", "pointer_type", "enumeration_type"}
KINDS = "|".join(["variable", *sorted(WRAPPINGS | RECORDS | PLAIN)])
ENTRY = re.compile(
    r"^ <[0-9a-f]+><([0-9a-f]+)>: Abbrev Number: \d+ \(DW_TAG_(" + KINDS + r")\)\n"
    r"((?: {4}<.*\n)*)",
    re.MULTILINE,
)
FORM = r" *: (?:\(\w+\) )?"  # of an attribute, which objdump tells in wide lines
TYPE = re.compile(r"DW_AT_(?:type|specification)" + FORM + r"<0x([0-9a-f]+)>")
SIZE = re.compile(r"DW_AT_byte_size" + FORM + r"(\d+)")
PLACE = re.compile(r"DW_AT_location *:.*\(DW_OP_addr: ([0-9a-f]+)\)")


class Shape(NamedTuple):
    """How the bytes of a variable are grouped: by elements, and by rows where it is made of records."""

    element: int
    row: int


class Entry(NamedTuple):
    """An entry of the debug information: its kind and its attributes."""

    kind: str
    attributes: str


def read_variables(text: str) -> dict[int, Shape]:
    """The shapes of the variables with a fixed address, by their addresses."""
    entries: dict[int, Entry] = {}
    placed: list[tuple[int, Entry]] = []
    for match in ENTRY.finditer(text):
        entry = Entry(match[2], match[3])
        entries[int(match[1], 16)] = entry
        if entry.kind == "variable":
            place = PLACE.search(entry.attributes)
            if place:
                placed.append((int(place[1], 16), entry))
    shapes = {address: shape_of(entry, entries) for address, entry in placed}
    return {address: shape for address, shape in shapes.items() if shape}


def shape_of(entry: Entry, entries: dict[int, Entry]) -> Shape | None:
    """The shape of a variable; nothing where its type says none."""
    for _ in range(len(entries)):
        if entry.kind in RECORDS | PLAIN:
            break
        found = TYPE.search(entry.attributes)
        following = entries.get(int(found[1], 16)) if found else None
        if following is None:
            return None
        entry = following
    found = SIZE.search(entry.attributes)
    size = int(found[1]) if found else 0
    if entry.kind in RECORDS:
        return Shape(4, size) if size else None
    return Shape(min(size, 4), 0) if size in (1, 2, 4, 8) else None
