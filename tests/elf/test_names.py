"""The names of places."""

import unittest

from elf.lines import Files, Lines, Place
from elf.names import spelling
from elf.program import BASE, Kind, Symbol, SymbolKind
from programs import function, names_of, program_of, relocate, variable, words_of

NOPS = [(at, "addi", "zero,zero,0") for at in range(0, 0x40, 4)]


class Symbols(unittest.TestCase):
    """Names of symbols."""

    def test_spelling(self) -> None:
        for name, wanted in [
            ("main", "main"),
            ("a-b", "a_b"),
            ("1st", "_1st"),
            (".", "_."),
            ("é", "_"),
        ]:
            self.assertEqual(spelling(name), wanted)
        self.assertEqual(len(spelling("x" * 1000)), 80)

    def test_two_of_a_name(self) -> None:
        program = program_of(symbols=[function("put", 0), function("put", 8)])
        names = names_of(program, words_of(NOPS))
        self.assertEqual((names.best[BASE], names.best[BASE + 8]), ("put", "put.2"))

    def test_a_function_stands_for_its_place(self) -> None:
        mark = Symbol("__start", BASE, 0, SymbolKind.NONE, 1, True)
        names = names_of(
            program_of(symbols=[mark, function("main", 0)]), words_of(NOPS)
        )
        self.assertEqual(names.best[BASE], "main")
        self.assertEqual(names.labels[BASE], ["main", "__start"])

    def test_a_value_outside_is_a_constant(self) -> None:
        top = Symbol("__stack_top", BASE + 0x1000, 0, SymbolKind.NONE, 1, True)
        names = names_of(program_of(symbols=[top]), words_of(NOPS))
        self.assertEqual(names.reference(BASE + 0x1000, 0), "__stack_top")
        self.assertEqual(names.constants, {"__stack_top"})

    def test_inside_a_variable(self) -> None:
        names = names_of(program_of(symbols=[variable("x", 0x100, 8)]), words_of(NOPS))
        self.assertEqual(names.reference(BASE + 0x104), "x+4")
        self.assertIsNone(names.reference(BASE + 0x108))


class Targets(unittest.TestCase):
    """Labels for places that have no symbol."""

    def test_jumps_are_counted_in_a_function(self) -> None:
        rows = [*NOPS[:2], (8, "jal", "zero,80000004"), (12, "beq", "a0,zero,80000000")]
        names = names_of(program_of(symbols=[function("f", 0)]), words_of(rows))
        self.assertEqual(names.best, {BASE: "f", BASE + 4: "f.1"})

    def test_texts_are_named_by_their_words(self) -> None:
        program = program_of(
            b"\0" * 0x100 + b"two words\0",
            [Symbol(".LC0", BASE + 0x100, 0, 0, 0, True)],
        )
        relocate(program, 0, Kind.HI, 0, 0x100)
        self.assertEqual(
            names_of(program, words_of(NOPS)).best[BASE + 0x100], "text.two_words"
        )

    def test_other_data_by_its_place(self) -> None:
        program = program_of(symbols=[Symbol(".LC0", BASE + 0x110, 0, 0, 0, True)])
        relocate(program, 0, Kind.HI, 0, 0x110)
        self.assertEqual(
            names_of(program, words_of(NOPS)).best[BASE + 0x110], "data.10"
        )


class Statements(unittest.TestCase):
    """Labels at lines of C."""

    def test_the_first_statement_of_a_line(self) -> None:
        one, two = Place("/c/a.c", 3), Place("/c/a.c", 4)
        lines = Lines(Files([]), [BASE, BASE + 4, BASE + 8], [one, two, one])
        lines.statements = {BASE: [one], BASE + 4: [two], BASE + 8: [one]}
        rows = [*NOPS[:3], (12, "jal", "zero,80000008")]
        names = names_of(
            program_of(symbols=[function("main", 0)]), words_of(rows), lines
        )
        self.assertEqual(names.labels[BASE], ["main", "main.3"])
        self.assertEqual(names.labels[BASE + 4], ["main.4"])
        self.assertEqual(names.labels[BASE + 8], ["main.3.2"])


if __name__ == "__main__":
    unittest.main()
