"""Texts among the data of a program: bytes up to a zero that read as one."""

from elf.program import BASE, Program

LINE_LENGTH = 110  # a text of more bytes takes several lines
ESCAPES = {34: '\\"', 92: "\\\\", 10: "\\n", 9: "\\t", 13: "\\r"}
TEXT_BYTES = frozenset(b"\t\n\r\x1b") | set(range(32, 127)) | set(range(128, 256))


def text_at(program: Program, address: int, end: int) -> bytes | None:
    """The bytes of a text at a place, with its zero, or nothing where there is none."""
    image = program.image
    zero = image.find(0, address - BASE, end - BASE)
    if zero <= address - BASE:
        return None
    text = bytes(image[address - BASE : zero + 1])
    if not TEXT_BYTES.issuperset(text[:-1]):
        return None
    try:
        text.decode()
    except UnicodeDecodeError:
        return None
    return text


def quoted(text: bytes) -> str:
    """Bytes as a string of the language."""
    return (
        '"'
        + "".join(
            ESCAPES.get(byte) or (chr(byte) if 32 <= byte < 127 else f"\\{byte:03o}")
            for byte in text
        )
        + '"'
    )
