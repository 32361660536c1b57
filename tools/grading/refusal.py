"""What rvgrade says where the tests, a word or a file are at fault."""


class Refused(Exception):
    """What is at fault, and what to do about it."""


def shown(text: str | bytes) -> str:
    """A text in which what isn't printable is escaped, so that it can't drive a terminal."""
    if isinstance(text, bytes):
        text = text.decode("utf-8", "surrogateescape")
    return "".join(one if one.isprintable() else escaped(one) for one in text)


def escaped(character: str) -> str:
    """The bytes of a character as escapes."""
    return "".join(f"\\x{b:02x}" for b in character.encode("utf-8", "surrogateescape"))
