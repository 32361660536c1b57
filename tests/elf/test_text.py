"""The statements that instructions are written as."""

import unittest

from elf.program import BASE, Kind, Program
from elf.text import Text
from programs import function, names_of, program_of, relocate, variable, words_of

ONE_WORD = [
    ("addi", "zero,zero,0", "nop"),
    ("addi", "a0,zero,-3", "li a0,-3"),
    ("addi", "a0,a1,0", "mv a0,a1"),
    ("addi", "a0,a1,7", "addi a0,a1,7"),
    ("xori", "a0,a1,-1", "not a0,a1"),
    ("sltiu", "a0,a1,1", "seqz a0,a1"),
    ("sub", "a0,zero,a1", "neg a0,a1"),
    ("sltu", "a0,zero,a1", "snez a0,a1"),
    ("slt", "a0,a1,zero", "sltz a0,a1"),
    ("slt", "a0,zero,a1", "sgtz a0,a1"),
    ("slli", "a0,a0,0x1f", "slli a0,a0,31"),
    ("beq", "a0,zero,80000010", "beqz a0,text.10"),
    ("blt", "zero,a0,80000010", "bgtz a0,text.10"),
    ("bge", "zero,a0,80000010", "blez a0,text.10"),
    ("bgeu", "a0,zero,7ffffff0", "bgeu a0,zero,. - 16"),
    ("jal", "zero,80000010", "j text.10"),
    ("jal", "ra,80000010", "jal text.10"),
    ("jal", "t0,80000010", "jal t0,text.10"),
    ("jalr", "zero,0(ra)", "ret"),
    ("jalr", "zero,0(a5)", "jr a5"),
    ("jalr", "ra,0(a5)", "jalr a5"),
    ("jalr", "t0,0(a5)", "jalr t0,a5"),
    ("jalr", "zero,4(a5)", "jalr zero,4(a5)"),
    ("lw", "a0,-4(sp)", "lw a0,-4(sp)"),
    ("lui", "a0,0x10000", "li a0,0x10000000"),
    ("lui", "a0,0x0", "lui a0,0x0"),
    ("auipc", "a0,0x0", "auipc a0,0x0"),
]
EXACT_WORDS = [
    (0x00000073, "ecall", "", "ecall"),
    (0x0000100F, "fence.i", "", "fence.i"),
    (0x0001100F, "fence.i", "", None),
    (0x0FF0000F, "fence", "iorw,iorw", "fence"),
    (0x0310000F, "fence", "rw,w", "fence rw,w"),
    (0x8330000F, "fence.tso", "", None),
    (0x0000000F, "fence", "unknown,unknown", None),
    (0x30029073, "csrrw", "zero,mstatus,t0", "csrw mstatus,t0"),
    (0x30502573, "csrrs", "a0,mtvec,zero", "csrr a0,mtvec"),
    (0x30445073, "csrrwi", "zero,mie,8", "csrwi mie,8"),
    (0x180022F3, "csrrs", "t0,satp,zero", "csrr t0,0x180"),
    (0x02051513, "slli", "a0,a0,0x20", None),
]


class OneWord(unittest.TestCase):
    """Single words, without names."""

    def test_each_form(self) -> None:
        for mnemonic, operands, wanted in ONE_WORD:
            with self.subTest(f"{mnemonic} {operands}"):
                self.assertEqual(
                    written(program_of(), [(0, mnemonic, operands)]), (wanted, 4)
                )

    def test_bits_that_are_written(self) -> None:
        for bits, mnemonic, operands, wanted in EXACT_WORDS:
            with self.subTest(f"{bits:08x}"):
                program = program_of(bits.to_bytes(4, "little"))
                self.assertEqual(
                    written(program, [(0, mnemonic, operands)]),
                    (wanted, 4) if wanted else None,
                )


class Pairs(unittest.TestCase):
    """Two words that the language has one statement for."""

    def test_constant(self) -> None:
        rows = [(0, "lui", "a0,0x12345"), (4, "addi", "a0,a0,-1")]
        self.assertEqual(written(program_of(), rows), ("li a0,0x12344fff", 8))

    def test_a_small_constant_would_be_one_word(self) -> None:
        rows = [(0, "lui", "a0,0x0"), (4, "addi", "a0,a0,5")]
        self.assertEqual(written(program_of(), rows), ("lui a0,0x0", 4))

    def test_another_register_is_no_constant(self) -> None:
        rows = [(0, "lui", "a0,0x12345"), (4, "addi", "a1,a0,-1")]
        self.assertEqual(written(program_of(), rows), ("li a0,0x12345000", 4))

    def test_nothing_is_hidden_by_a_pair(self) -> None:
        program = program_of(symbols=[function("inside", 4)])
        rows = [(0, "lui", "a0,0x12345"), (4, "addi", "a0,a0,-1")]
        self.assertEqual(written(program, rows), ("li a0,0x12345000", 4))

    def test_call_and_tail(self) -> None:
        program = program_of(symbols=[function("there", 0x40)])
        call = [
            (0, "auipc", "ra,0x0"),
            (4, "jalr", "ra,64(ra)"),
            (0x40, "addi", "zero,zero,0"),
        ]
        tail = [
            (0, "auipc", "t1,0x0"),
            (4, "jalr", "zero,64(t1)"),
            (0x40, "addi", "zero,zero,0"),
        ]
        self.assertEqual(written(program, call), ("call there", 8))
        self.assertEqual(written(program, tail), ("tail there", 8))

    def test_addresses(self) -> None:
        program = program_of(symbols=[variable("x", 0x100, 4)])
        first = (0, "auipc", "a0,0x0")
        self.assertEqual(
            written(program, [first, (4, "addi", "a0,a0,256")]), ("la a0,x", 8)
        )
        self.assertEqual(
            written(program, [first, (4, "lw", "a0,256(a0)")]), ("lw a0,x", 8)
        )
        self.assertEqual(
            written(program, [first, (4, "sw", "a1,256(a0)")]), ("sw a1,x,a0", 8)
        )
        self.assertEqual(
            written(program, [first, (4, "sw", "a0,256(a0)")]), ("auipc a0,0x0", 4)
        )
        self.assertEqual(
            written(program, [first, (4, "lw", "a1,256(a0)")]), ("auipc a0,0x0", 4)
        )


class Relocations(unittest.TestCase):
    """What a linker that keeps relocations tells."""

    def test_parts_of_an_address(self) -> None:
        program = program_of(symbols=[variable("x", 0x100, 8)])
        relocate(program, 0, Kind.HI, 0, 0x104)
        relocate(program, 4, Kind.LO_I, 0, 0x104)
        rows = [(0, "lui", "a0,0x80000"), (4, "lw", "a0,260(a0)")]
        self.assertEqual(written(program, rows), ("lui a0,%hi(x+4)", 4))
        self.assertEqual(written(program, rows, 4), ("lw a0,%lo(x+4)(a0)", 4))

    def test_a_relocation_that_was_relaxed_is_no_name(self) -> None:
        program = program_of(symbols=[variable("x", 0x100, 8)])
        relocate(program, 0, Kind.LO_I, 0, 0x104)
        self.assertEqual(written(program, [(0, "lw", "a0,8(gp)")]), ("lw a0,8(gp)", 4))


def written(
    program: Program, rows: list[tuple[int, str, str]], offset: int = 0
) -> tuple[str, int] | None:
    """The statement at a place and its size, or nothing."""
    words = words_of(rows)
    made = Text(program, words, names_of(program, words)).at(BASE + offset)
    return (f"{made.word} {made.operands}".strip(), made.size) if made else None


if __name__ == "__main__":
    unittest.main()
