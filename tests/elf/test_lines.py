"""Lines of C, notes and types, as GNU's tools tell them."""

import unittest

from elf.lines import Row, units_of
from elf.notes import read_notes, variable
from elf.program import BASE
from elf.refusal import Refused
from elf.variables import Shape, read_variables
from elf.words import Word, read_words, word_of
from programs import program_of

TABLE = """
CU: /c/main.c:
File name                            Line number    Starting address    View    Stmt
main.c                                        8          0x80000000               x
main.c                                        9          0x80000004       1
a b.h                                         3          0x80000008               x
main.c                                        -          0x8000000c
"""
NOTED = """\
#file 1 "/c" "main.c"
#loc 1 7 2 is_stmt 1
\tlw\ta0,0(a1)\t# words[k_3], tmp77
#loc 1 8 2 is_stmt 0
\tret\t
"""
TYPES = """\
 <1><20>: Abbrev Number: 1 (DW_TAG_base_type)
    <21>   DW_AT_byte_size   : 2
 <1><30>: Abbrev Number: 2 (DW_TAG_array_type)
    <31>   DW_AT_type        : <0x20>
 <1><40>: Abbrev Number: 3 (DW_TAG_structure_type)
    <41>   DW_AT_byte_size   : (data1) 12
 <1><50>: Abbrev Number: 4 (DW_TAG_variable)
    <51>   DW_AT_type        : <0x30>
    <52>   DW_AT_location    : 5 byte block: 3 0 1 0 80 \t(DW_OP_addr: 80000100)
 <1><60>: Abbrev Number: 4 (DW_TAG_variable)
    <61>   DW_AT_type        : (ref4) <0x40>, rec
    <62>   DW_AT_location    : 5 byte block: 3 0 2 0 80 \t(DW_OP_addr: 80000200)
 <1><70>: Abbrev Number: 4 (DW_TAG_variable)
    <71>   DW_AT_type        : <0x99>
    <72>   DW_AT_location    : 5 byte block: 3 0 3 0 80 \t(DW_OP_addr: 80000300)
"""


class Tables(unittest.TestCase):
    """What objdump prints."""

    def test_lines(self) -> None:
        wanted = [
            Row("main.c", 8, BASE, True),
            Row("main.c", 9, BASE + 4, False),
            Row("a b.h", 3, BASE + 8, True),
            Row("main.c", 0, BASE + 12, False),
        ]
        self.assertEqual(units_of(TABLE), [wanted])

    def test_types(self) -> None:
        self.assertEqual(
            read_variables(TYPES),
            {BASE + 0x100: Shape(2, 0), BASE + 0x200: Shape(4, 12)},
        )

    def test_words(self) -> None:
        listing = "80000000:\t00b50533          \tadd\ta0,a0,a1\n80000004:\t00000000          \t.word\t0x0\n"
        program = program_of(0x00B50533.to_bytes(4, "little"))
        self.assertEqual(
            read_words(program, listing), {BASE: Word("add", ("a0", "a0", "a1"))}
        )

    def test_a_word_that_is_not_loaded(self) -> None:
        listing = "80000000:\t00b50533          \tadd\ta0,a0,a1\n"
        self.assertEqual(read_words(program_of(), listing), {})

    def test_an_address_that_objdump_tells(self) -> None:
        text = "a0,8(gp) # 80001008 <table+0x8>"
        self.assertEqual(word_of("lw", text), Word("lw", ("a0", "8(gp)"), "table+0x8"))
        text = "a0,0(a5) # 10000000 <table-0x70001000>"
        self.assertEqual(word_of("lw", text), Word("lw", ("a0", "0(a5)")))

    def test_compressed_code_is_refused(self) -> None:
        program = program_of()
        listing = "80000000:\t4501                \tc.li\ta0,0\n"
        self.assertEqual(read_words(program, listing), {})
        program.may_have_compressed = True
        with self.assertRaisesRegex(Refused, "c.li at 0x80000000.*-march=rv32im"):
            read_words(program, listing)


class Notes(unittest.TestCase):
    """What gcc -fverbose-asm says."""

    def test_notes(self) -> None:
        notes = read_notes(NOTED.split("\n"))
        self.assertEqual(notes[3].variables, "words[k]")
        self.assertEqual(
            (notes[3].path, notes[3].line, notes[3].begun),
            ("/c/main.c", 7, [("/c/main.c", 7)]),
        )
        self.assertEqual((notes[5].line, notes[5].begun), (8, []))

    def test_variables(self) -> None:
        for operand, wanted in [
            ("tmp80", ""),
            ("_12", ""),
            ("i_5(D)", "i"),
            ("MEM[(int *)p_4(D)]", "*p"),
        ]:
            self.assertEqual(variable(operand), wanted)


if __name__ == "__main__":
    unittest.main()
