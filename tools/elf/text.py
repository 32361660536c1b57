"""The statements of the board's language for the instructions of a program (docs/ASSEMBLER.md)."""

from collections.abc import Callable
from typing import NamedTuple

from elf.names import Names
from elf.program import Kind, Program, Relocation
from elf.words import Word

LOADS = {"lb", "lh", "lw", "lbu", "lhu"}
STORES = {"sb", "sh", "sw"}
IMMEDIATES = {"addi", "slti", "sltiu", "xori", "ori", "andi"}
SHIFTS = {"slli", "srli", "srai"}
REGISTERS_ALONE = set(
    "add sub sll slt sltu xor srl sra or and mul mulh mulhsu mulhu div divu rem remu".split()
)
BRANCHES = {"beq", "bne", "blt", "bge", "bltu", "bgeu"}
CONTROLS = {"csrrw", "csrrs", "csrrc", "csrrwi", "csrrsi", "csrrci"}
WITHOUT_OPERANDS = {
    "ecall": 0x73,
    "ebreak": 0x100073,
    "mret": 0x30200073,
    "wfi": 0x10500073,
    "fence.i": 0x100F,
}
FENCE, FENCE_FIXED = 0x0F, 0xF00FFFFF  # the bits of `fence` that aren't its sets

CONTROL_REGISTERS = {
    0x300: "mstatus",
    0x301: "misa",
    0x304: "mie",
    0x305: "mtvec",
    0x306: "mcounteren",
    0x30A: "menvcfg",
    0x310: "mstatush",
    0x31A: "menvcfgh",
    0x320: "mcountinhibit",
    0x340: "mscratch",
    0x341: "mepc",
    0x342: "mcause",
    0x343: "mtval",
    0x344: "mip",
    0xB00: "mcycle",
    0xB02: "minstret",
    0xB80: "mcycleh",
    0xB82: "minstreth",
    0xF11: "mvendorid",
    0xF12: "marchid",
    0xF13: "mimpid",
    0xF14: "mhartid",
    0xF15: "mconfigptr",
    **{0x3A0 + i: f"pmpcfg{i}" for i in range(4)},
    **{0x3B0 + i: f"pmpaddr{i}" for i in range(16)},
    **{0x320 + i: f"mhpmevent{i}" for i in range(3, 32)},
    **{0xB00 + i: f"mhpmcounter{i}" for i in range(3, 32)},
    **{0xB80 + i: f"mhpmcounter{i}h" for i in range(3, 32)},
}


class Statement(NamedTuple):
    """A statement, with a note behind it, and how many bytes it has."""

    word: str
    operands: str = ""
    note: str = ""
    size: int = 4


class Text:
    """Writes instructions. Each form gives nothing where the language has no statement with these bytes."""

    def __init__(self, program: Program, words: dict[int, Word], names: Names) -> None:
        self.program, self.words, self.names = program, words, names
        self.beginnings = {section.start for section in program.sections}
        self.forms: dict[str, Callable[[int, Word], Statement | None]] = {
            "lui": self.upper,
            "auipc": self.relative,
            "jal": self.jump,
            "jalr": self.jump_by_register,
            "fence": self.fence,
            **{name: self.memory for name in LOADS | STORES},
            **{name: self.immediate for name in IMMEDIATES},
            **{name: self.shift for name in SHIFTS},
            **{name: self.registers for name in REGISTERS_ALONE},
            **{name: self.branch for name in BRANCHES},
            **{name: self.control for name in CONTROLS},
            **{name: self.alone for name in WITHOUT_OPERANDS},
        }

    def at(self, address: int) -> Statement | None:
        """The statement at a place, or nothing where the language has none."""
        word = self.words.get(address)
        form = self.forms.get(word.mnemonic) if word else None
        if word is None or form is None:
            return None
        made = form(address, word)
        if made and word.place and not made.note and not self.program.relocations:
            made = made._replace(note=word.place)
        return made

    # ---- what relocations say

    def found(self, address: int) -> dict[int, Relocation]:
        """The relocations of a place."""
        return self.program.relocations.get(address, {})

    def name(self, relocation: Relocation) -> str | None:
        """How what a relocation names is written."""
        return self.names.reference(relocation.value, relocation.symbol)

    def low_part(self, address: int, offset: int) -> tuple[str, str]:
        """How a low immediate is written, and a note where the language can't say what it is."""
        for kind, relocation in self.found(address).items():
            if kind in (Kind.LO_I, Kind.LO_S):
                name = self.name(relocation)
                if name and low(relocation.value) == offset:
                    return f"%lo({name})", ""
            elif kind in (Kind.PCREL_LO_I, Kind.PCREL_LO_S):
                high = self.found(relocation.value).get(Kind.PCREL_HI)
                if high:
                    return (
                        str(offset),
                        f"%pcrel_lo({self.name(high) or hex(high.value)})",
                    )
            elif kind in (Kind.TPREL_LO_I, Kind.TPREL_LO_S):
                return (
                    str(offset),
                    f"%tprel_lo({self.program.symbols[relocation.symbol].name})",
                )
        return str(offset), ""

    # ---- constants and addresses

    def upper(self, address: int, word: Word) -> Statement:
        """`lui`, alone or with the `addi` that makes a constant of it."""
        register, high = word.operands[0], int(word.operands[1], 16)
        found = self.found(address)
        if Kind.HI in found:
            name = self.name(found[Kind.HI])
            if name and high_part(found[Kind.HI].value) == high:
                return Statement("lui", f"{register},%hi({name})")
        if Kind.TPREL_HI in found:
            name = self.program.symbols[found[Kind.TPREL_HI].symbol].name
            return Statement("lui", f"{register},{high:#x}", f"%tprel_hi({name})")
        if high == 0 or Kind.HI in found:
            return Statement("lui", f"{register},{high:#x}")
        next_word = self.words.get(address + 4)
        if (
            next_word
            and next_word.mnemonic == "addi"
            and self.is_inside(address + 4)
            and not self.found(address + 4)
        ):
            to, by, offset = next_word.operands
            if to == by == register and offset != "0":
                value = (high << 12) + int(offset) & 0xFFFF_FFFF
                return Statement("li", f"{register},{number(value)}", "", 8)
        return Statement("li", f"{register},{number(high << 12)}")

    def relative(self, address: int, word: Word) -> Statement:
        """`auipc`, alone or with the word that makes a call, an address, a load or a store by name of it."""
        register, high = word.operands[0], int(word.operands[1], 16)
        found = self.found(address)
        named = next(
            (
                found[kind]
                for kind in (Kind.CALL, Kind.CALL_PLT, Kind.PCREL_HI)
                if kind in found
            ),
            None,
        )
        name = self.name(named) if named else None
        second = self.words.get(address + 4)
        if second and self.is_inside(address + 4):
            pair = self.pair(register, address + (high << 12), second, named, name)
            if pair:
                return pair
        note = f"%pcrel_hi({name or hex(named.value)})" if named else ""
        return Statement("auipc", f"{register},{high:#x}", note)

    def pair(
        self,
        register: str,
        high: int,
        second: Word,
        named: Relocation | None,
        name: str | None,
    ) -> Statement | None:
        """The statement for `auipc` and this second word, where the language has one."""
        mnemonic, operands, _ = second
        if mnemonic == "addi" and operands[0] == operands[1] == register:
            offset = int(operands[2])
        elif (
            mnemonic in LOADS | STORES | {"jalr"}
            and base_of(operands[1])[1] == register
        ):
            offset = base_of(operands[1])[0]
        else:
            return None
        value = high + offset & 0xFFFF_FFFF
        if named is None:
            name = self.names.reference(value)
        elif named.value != value:
            return None
        if name is None:
            return None
        first = operands[0]
        if mnemonic == "addi":
            return Statement("la", f"{register},{name}", "", 8)
        if mnemonic in LOADS and first == register:
            return Statement(mnemonic, f"{register},{name}", "", 8)
        if mnemonic in STORES and first != register:
            return Statement(mnemonic, f"{first},{name},{register}", "", 8)
        if mnemonic == "jalr" and first == register == "ra":
            return Statement("call", name, "", 8)
        if mnemonic == "jalr" and first == "zero" and register == "t1":
            return Statement("tail", name, "", 8)
        return None

    def is_inside(self, address: int) -> bool:
        """Whether nothing names a word or begins at it, so that it may be a part of the statement before."""
        names = self.names
        return not (
            names.labels.get(address)
            or names.lines.statements.get(address)
            or address in names.inside
            or address in self.beginnings
        )

    # ---- the other forms

    def memory(self, address: int, word: Word) -> Statement:
        """A load or a store."""
        offset, base = base_of(word.operands[1])
        shown, note = self.low_part(address, offset)
        return Statement(word.mnemonic, f"{word.operands[0]},{shown}({base})", note)

    def jump_by_register(self, address: int, word: Word) -> Statement:
        """`jalr`, and its pseudo-instructions."""
        to = word.operands[0]
        offset, base = base_of(word.operands[1])
        shown, note = self.low_part(address, offset)
        if shown != "0":
            return Statement("jalr", f"{to},{shown}({base})", note)
        if to == "zero":
            return Statement("ret") if base == "ra" else Statement("jr", base, note)
        return Statement("jalr", base if to == "ra" else f"{to},{base}", note)

    def immediate(self, address: int, word: Word) -> Statement:
        """An instruction with an immediate, and its pseudo-instructions."""
        mnemonic, (to, by, text), _ = word
        offset = int(text, 0)
        shown, note = self.low_part(address, offset)
        if shown.startswith("%"):
            return Statement(mnemonic, f"{to},{by},{shown}")
        if mnemonic == "addi":
            if (to, by, offset) == ("zero", "zero", 0):
                return Statement("nop")
            if by == "zero":
                return Statement("li", f"{to},{offset}", note)
            if offset == 0:
                return Statement("mv", f"{to},{by}", note)
        if (mnemonic, offset) == ("xori", -1):
            return Statement("not", f"{to},{by}")
        if (mnemonic, offset) == ("sltiu", 1):
            return Statement("seqz", f"{to},{by}")
        return Statement(mnemonic, f"{to},{by},{offset}", note)

    def shift(self, address: int, word: Word) -> Statement | None:
        """A shift by a number below 32."""
        mnemonic, (to, by, text), _ = word
        count = int(text, 0)
        return Statement(mnemonic, f"{to},{by},{count}") if count < 32 else None

    def registers(self, address: int, word: Word) -> Statement:
        """An instruction on registers alone, and its pseudo-instructions."""
        mnemonic, operands, _ = word
        to, one, two = operands[:3]
        if one == "zero" and mnemonic in ("sub", "sltu", "slt"):
            return Statement(
                {"sub": "neg", "sltu": "snez", "slt": "sgtz"}[mnemonic], f"{to},{two}"
            )
        if two == "zero" and mnemonic == "slt":
            return Statement("sltz", f"{to},{one}")
        return Statement(mnemonic, f"{to},{one},{two}")

    def target(self, address: int, word: Word) -> str:
        """The target of a branch or a jump."""
        target = int(word.operands[-1], 16) & 0xFFFF_FFFF
        ahead = (target - address + 0x8000_0000 & 0xFFFF_FFFF) - 0x8000_0000
        return (
            self.names.best.get(target) or f". {'-' if ahead < 0 else '+'} {abs(ahead)}"
        )

    def jump(self, address: int, word: Word) -> Statement:
        """`jal`, and its pseudo-instructions."""
        to, target = word.operands[0], self.target(address, word)
        if to == "zero":
            return Statement("j", target)
        return Statement("jal", target if to == "ra" else f"{to},{target}")

    def branch(self, address: int, word: Word) -> Statement:
        """A branch, and its pseudo-instructions."""
        mnemonic, (one, two, _), _ = word
        target = self.target(address, word)
        if two == "zero" and mnemonic in ("beq", "bne", "blt", "bge"):
            return Statement(mnemonic + "z", f"{one},{target}")
        if one == "zero" and mnemonic in ("blt", "bge"):
            return Statement(
                {"blt": "bgtz", "bge": "blez"}[mnemonic], f"{two},{target}"
            )
        return Statement(mnemonic, f"{one},{two},{target}")

    def control(self, address: int, word: Word) -> Statement:
        """An instruction for control registers, and its pseudo-instructions; a nameless register has its number."""
        mnemonic, (to, _, source), _ = word
        at = self.program.word(address) >> 20
        register = CONTROL_REGISTERS.get(at, hex(at))
        if mnemonic == "csrrs" and source == "zero":
            return Statement("csrr", f"{to},{register}")
        if to == "zero":
            return Statement("csr" + mnemonic[4:], f"{register},{source}")
        return Statement(mnemonic, f"{to},{register},{source}")

    def alone(self, address: int, word: Word) -> Statement | None:
        """An instruction without operands, if its other bits are as the language writes them."""
        return (
            Statement(word.mnemonic)
            if WITHOUT_OPERANDS[word.mnemonic] == self.program.word(address)
            else None
        )

    def fence(self, address: int, word: Word) -> Statement | None:
        """`fence` with two sets, if its other bits are as the language writes them."""
        bits = self.program.word(address)
        before, after = (
            "".join(name for name, bit in zip("iorw", (8, 4, 2, 1)) if bits >> at & bit)
            for at in (24, 20)
        )
        if bits & FENCE_FIXED != FENCE or not before or not after:
            return None
        return Statement(
            "fence", "" if before == after == "iorw" else f"{before},{after}"
        )


def high_part(value: int) -> int:
    """`%hi`."""
    return (value + 0x800 >> 12) & 0xFFFFF


def low(value: int) -> int:
    """`%lo`."""
    return ((value & 0xFFF) ^ 0x800) - 0x800


def base_of(operand: str) -> tuple[int, str]:
    """The offset and the register of an operand of memory, `8(sp)`."""
    offset, _, register = operand.partition("(")
    return int(offset), register.rstrip(")")


def number(value: int) -> str:
    """A word as one writes it: small numbers in decimal."""
    signed = value - (1 << 32) if value >> 31 else value
    return str(signed) if -10000 < signed < 10000 else hex(value)
