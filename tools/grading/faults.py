"""What is said of a source that the assembler doesn't accept."""

import difflib
from collections.abc import Collection, Sequence
from dataclasses import dataclass

from grading.refusal import shown
from grading.source import (
    REGISTERS,
    Joined,
    Part,
    Place,
    bad_byte,
    definitions,
    names_of,
)

MEANINGS = {
    "E1": "it has a byte that isn't printing ASCII",
    "E2": "it has more than 1,024 bytes",
    "E3": "it can't be read as labels and a statement",
    "E4": "its first word is neither an instruction nor a directive of the board",
    "E5": "its instruction or directive doesn't take these operands",
    "E6": "it defines a name for the second time",
    "E7": "its value has to be known here, by an earlier line, and to be in the range",
    "E8": "an instruction has to be at a multiple of 4: put .align 2 before it",
    "E9": "the image passes 16,777,216 bytes",
    "E10": "a name or a local label in it isn't defined",
    "E11": "a value isn't in the range of its place",
}
MARKS = {
    b"\xef\xbb\xbf": "a byte order mark",
    b"\xff\xfe": "UTF-16",
    b"\xfe\xff": "UTF-16",
}
LONGEST = 80  # characters of a text that is shown


@dataclass(frozen=True)
class Verdict:
    """What a submission gets in a test: the kind, and sentences, the first with a line where there is one."""

    kind: str
    says: tuple[str, ...] = ()
    line: int | None = None


def quoted(text: str | bytes) -> str:
    """A text of a file or of the console, escaped and not too long."""
    cut = shown(text)
    return f'"{cut}"' if len(cut) <= LONGEST else f'"{cut[:LONGEST]}.."'


def at(place: Place, kind: str, text: str) -> Verdict:
    """A verdict at a line of the submission."""
    return Verdict(kind, (f"{where(place)}: {text}",), place.number)


def where(place: Place) -> str:
    """A line as file and number."""
    return f"{shown(place.part.file)}:{place.number}"


def source_of(place: Place) -> str:
    """The text of a line."""
    return quoted(place.text().strip(" \t\r").encode("latin-1"))


def fault_of(joined: Joined, submission: Part, number: int, fault: str) -> Verdict:
    """The verdict for the first fault of the joined source."""
    place = joined.place(number)
    harness = [part for part in joined.parts if not part.submitted]
    code = fault.split()[0]
    if place is None:
        return Verdict(
            "fault", (f"{shown(submission.file)}: {fault}: {MEANINGS[code]}",)
        )
    if code == "E6":
        return clash_of(place, submission, harness, fault)
    missing = [
        name
        for name in names_of(place.text()).used
        if name not in definitions(joined.parts) and name not in REGISTERS
    ]
    if place.part.submitted:
        return at(place, "fault", f"{fault}: {meaning(place, code, missing)}")
    if missing and code in ("E7", "E10"):
        own = definitions([submission])
        near = difflib.get_close_matches(
            missing[0].lower(), [name.lower() for name in own], 1
        )
        meant = [name for name in own if near and name.lower() == near[0]]
        advice = f"; is {shown(meant[0])} meant?" if meant else ""
        text = f"{shown(submission.file)}: it doesn't define {missing[0]}, which the harness uses{advice}"
        return Verdict("missing", (text,))
    text = f"{shown(submission.file)}: with it the harness has a fault, {fault} at {where(place)}: {MEANINGS[code]}"
    return Verdict("fault", (text,))


def meaning(place: Place, code: str, missing: Sequence[str]) -> str:
    """What a fault of the submission's line means, and the line."""
    text = place.part.text
    for mark, name in MARKS.items():
        if code == "E1" and place.number == 1 and text.startswith(mark):
            return f"the file begins with {name}: save it as UTF-8 without a mark"
    column = bad_byte(place.text()) if code == "E1" else None
    if column is not None:
        byte = ord(place.text()[column])
        return f"the byte 0x{byte:02x} in column {column + 1} isn't printing ASCII: {source_of(place)}"
    if missing and code in ("E7", "E10"):
        return f"{shown(missing[0])} isn't defined{' before' if code == 'E7' else ''}: {source_of(place)}"
    return f"{MEANINGS[code]}: {source_of(place)}"


def clash_of(
    place: Place, submission: Part, harness: Sequence[Part], fault: str
) -> Verdict:
    """The verdict for a name that is defined twice."""
    own, others = definitions([submission]), definitions(harness)
    for name in names_of(place.text()).defined:
        if name in own and name in others:
            text = f"{fault}: the harness has the name {name} for itself: choose another one"
            return at(own[name], "clash", text)
        if name in own and place.part.submitted and own[name] != place:
            text = f"{fault}: {name} is defined before, at line {own[name].number}"
            return at(place, "fault", text)
    return at(place, "fault", f"{fault}: {MEANINGS['E6']}: {source_of(place)}")


def borrowed(
    submission: Part, harness: Sequence[Part], shared: Collection[str]
) -> Verdict | None:
    """The verdict for a submission that uses a name of the harness's own."""
    others = definitions(harness).keys() - set(shared) - REGISTERS
    if not any(name.encode() in submission.text for name in others):
        return None
    for number, line in enumerate(submission.lines(), 1):
        for name in names_of(line).used:
            if name in others:
                text = f"it uses {name}, a name that the harness has for itself"
                return at(Place(submission, number), "borrowed", text)
    return None
