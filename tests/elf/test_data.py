"""The directives that data is written as."""

import unittest

from elf.data import Data, strings
from elf.program import BASE, Kind, Symbol
from elf.texts import quoted
from elf.variables import Shape
from programs import names_of, program_of, relocate, variable

AT = 0x100


class Values(unittest.TestCase):
    """Numbers, by the shapes of variables."""

    def test_widths(self) -> None:
        image = bytes([1, 0, 2, 0, 3, 0, 4, 0])
        self.assertEqual(rows(image), [".word 0x20001,0x40003"])
        self.assertEqual(rows(image, Shape(2, 0)), [".half 1,2,3,4"])
        self.assertEqual(rows(image, Shape(1, 0)), [".byte 1,0,2,0,3,0,4,0"])

    def test_a_row_for_each_record(self) -> None:
        image = b"".join(n.to_bytes(4, "little") for n in (1, 0, 3, 4, 5, 6))
        self.assertEqual(
            rows(image, Shape(4, 8)), [".word 1,0", ".word 3,4", ".word 5,6"]
        )

    def test_zeros(self) -> None:
        self.assertEqual(rows(bytes(40)), [".space 40"])
        self.assertEqual(
            rows(b"\1\0\0\0" + bytes(32) + b"\2\0\0\0"),
            [".word 1", ".space 32", ".word 2"],
        )

    def test_names(self) -> None:
        program = program_of(symbols=[variable("x", AT, 8)])
        program.image[AT : AT + 4] = (BASE + AT + 4).to_bytes(4, "little")
        relocate(program, AT, Kind.WORD, 0, AT + 4)
        data = Data(program, names_of(program, {}), {})
        self.assertEqual(
            stripped(data.rows(BASE + AT, BASE + AT + 8)),
            ["x:", ".word x+4", ".space 4"],
        )

    def test_distances(self) -> None:
        program = program_of(symbols=[variable("x", AT, 4), variable("y", AT + 8, 4)])
        program.image[AT] = 8
        relocate(program, AT, Kind.ADD, 1, AT + 8)
        relocate(program, AT, Kind.SUB, 0, AT)
        data = Data(program, names_of(program, {}), {})
        self.assertEqual(
            stripped(data.rows(BASE + AT, BASE + AT + 4)), ["x:", ".word y - x"]
        )


class Texts(unittest.TestCase):
    """Strings."""

    def test_texts_with_zeros_between(self) -> None:
        self.assertEqual(
            rows(b"one\0\0\0\0\0two\0"), ['.asciz "one"', ".space 4", '.asciz "two"']
        )

    def test_no_text(self) -> None:
        self.assertEqual(rows(b"a\1\2\0"), [".word 0x20161"])

    def test_long_texts_take_several_lines(self) -> None:
        made = strings(b"x" * 250 + b"\0")
        self.assertEqual(
            [row.split()[0] for row in made], [".ascii", ".ascii", ".asciz"]
        )

    def test_quoted(self) -> None:
        self.assertEqual(quoted(b'a"\\\n\x1b\xff'), '"a\\"\\\\\\n\\033\\377"')


def rows(image: bytes, shape: Shape | None = None) -> list[str]:
    """The lines for a variable of these bytes."""
    program = program_of(
        bytes(AT) + image, [Symbol("x", BASE + AT, len(image), 1, 1, True)]
    )
    data = Data(program, names_of(program, {}), {BASE + AT: shape} if shape else {})
    return stripped(data.rows(BASE + AT, BASE + AT + len(image)))[1:]


def stripped(lines: list[str]) -> list[str]:
    """Lines without the blanks that align them."""
    return [" ".join(line.split()) for line in lines]


if __name__ == "__main__":
    unittest.main()
