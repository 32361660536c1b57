"""What a run printed, compared with what it should print."""

from collections.abc import Sequence

from grading.board import ENDED
from grading.faults import quoted
from grading.refusal import Refused, shown


def console_of(rest: bytes) -> tuple[bytes, int | None]:
    """The console and the halt code, of what an output has after the answers."""
    at = rest.rfind(b"\n", 0, -1) + 1
    ended = ENDED.fullmatch(rest[at:])
    if not ended:
        raise Refused(f"rvboard ends with {shown(rest[at:])}")
    return rest[:at], int(ended[1]) if ended[1] else None


def pieces(text: bytes, compare: str) -> list[bytes]:
    """What is compared of a console. rvboard ends its last line, if it doesn't end itself."""
    if compare == "words":
        return text.split()
    lines = text.split(b"\n")
    if lines[-1] == b"":
        lines.pop()
    if compare == "exact":
        return lines
    lines = [line.rstrip(b" \t\r") for line in lines]
    while lines and lines[-1] == b"":
        lines.pop()
    return lines


def differences(wanted: bytes | None, got: bytes, compare: str) -> list[str]:
    """The first difference of a console, in a sentence; nothing where there is none."""
    if wanted is None:
        return []
    right, found = pieces(wanted, compare), pieces(got, compare)
    piece = "word" if compare == "words" else "line"
    for number, (one, other) in enumerate(zip(right, found), 1):
        if one != other:
            return [
                f"{piece} {number} of the console is {quoted(other)} and should be {quoted(one)}"
            ]
    return longer(right, found, piece)


def longer(right: Sequence[bytes], found: Sequence[bytes], piece: str) -> list[str]:
    """The difference of two lists of which one begins the other."""
    number = min(len(right), len(found)) + 1
    if len(found) < len(right):
        ended = (
            f"the console ends before {piece} {number}"
            if found
            else "the console is empty"
        )
        return [f"{ended}; {piece} {number} should be {quoted(right[number - 1])}"]
    if len(found) > len(right):
        return [
            f"{piece} {number} of the console is {quoted(found[number - 1])} and shouldn't be there"
        ]
    return []
