"""What a submission gets in a test."""

import random
import secrets
from collections.abc import Sequence
from dataclasses import dataclass, replace

from grading.board import Board, Look, Run, Stop, Trap, look
from grading.console import console_of, differences
from grading.faults import Verdict, at, borrowed, fault_of, source_of, where
from grading.refusal import Refused, shown
from grading.source import (
    REGISTERS,
    Joined,
    Part,
    Place,
    definitions,
    names_of,
    statement_of,
    words_of,
)
from grading.tests import ALIASES, NEVER, Test, random_line

CAUSES = {
    0: "a jump to an address that isn't a multiple of 4",
    1: "no instruction may be fetched there",
    2: "no instruction that is allowed here",
    3: "ebreak",
    4: "a load at an address that isn't a multiple of its width",
    5: "a load that isn't allowed",
    6: "a store at an address that isn't a multiple of its width",
    7: "a store that isn't allowed",
    8: "ecall",
    11: "ecall",
    0x80000003: "a software interrupt",
    0x80000007: "a timer interrupt",
    0x8000000B: "an external interrupt",
}
RA = "ra isn't what it was at the function's entry"
DAMAGED = "did the submission change sp, ra, s0 to s11, or memory that isn't its own?"
CALLS = ("call", "jal", "jalr")
AGAIN = 8  # traps in a row that are the same


@dataclass(frozen=True)
class End:
    """How a run ended, by the answers of its commands."""

    stop: Stop
    reached: Stop | None  # the stop at the harness's end
    passed: dict[str, int]
    registers: list[int]
    words: dict[str, list[int | None] | None]
    code: int | None
    console: bytes
    guard: int | None  # the address of the guard


class Judge:
    """Runs submissions through tests. With a seed the random words are the same each time."""

    def __init__(self, board: Board, seed: str | None) -> None:
        self.board = board
        self.seed = seed
        self.known: dict[str, bytes] = {}  # what references print
        self.mark = f"rvgrade_{secrets.token_hex(8)}"

    def verdict(self, test: Test, submission: Part) -> Verdict:
        """The verdict for a submission in a test."""
        test, values = self.with_random(test, submission)
        console = test.console
        if test.reference:
            console = self.expected(test, test.reference)
        for name, value in values.items():
            if console is not None:
                console = console.replace(b"{%b}" % name.encode(), b"%08x" % value)
        return self.judged(replace(test, console=console), submission)

    def with_random(self, test: Test, submission: Part) -> tuple[Test, dict[str, int]]:
        """The test with fresh random words in its harness, and these words."""
        values = {}
        for name in test.random:
            words = f"{self.seed}/{test.name}/{name}/{submission.file}"
            chance = (
                random.SystemRandom() if self.seed is None else random.Random(words)
            )
            values[name] = chance.randrange(1, 1 << 31)
        parts = (with_values(test.before, values), with_values(test.behind, values))
        return replace(test, before=parts[0], behind=parts[1]), values

    def expected(self, test: Test, reference: Part) -> bytes:
        """What the reference prints, which has to be right in all else."""
        if test.name in self.known:
            return self.known[test.name]
        joined = self.joined(test, reference)
        run = self.board.run(joined.text(), test.settings, commands_of(test, joined))
        verdict = self.fails(replace(test, console=None), reference, joined, run)
        if verdict:
            raise Refused(
                f"test {shown(test.name)}: the reference fails: {verdict.says[0]}"
            )
        console = end_of(run, test).console
        if not test.random:
            self.known[test.name] = console
        return console

    def joined(self, test: Test, submission: Part) -> Joined:
        """The source of a run."""
        return Joined(
            test.before, submission, test.behind, self.mark, not test.continues
        )

    def judged(self, test: Test, submission: Part) -> Verdict:
        """The verdict of a run."""
        joined = self.joined(test, submission)
        run = self.board.run(joined.text(), test.settings, commands_of(test, joined))
        return self.fails(test, submission, joined, run) or Verdict("right")

    def fails(
        self, test: Test, submission: Part, joined: Joined, run: Run
    ) -> Verdict | None:
        """The verdict of a run, if it isn't right."""
        if run.fault:
            return fault_of(joined, submission, *run.fault)
        if run.refused == "image too large":
            pages = test.settings.pages
            text = f"{shown(submission.file)}: the image doesn't fit into the memory, {pages} pages of 4096 bytes"
            return Verdict("fault", (text,))
        if run.refused in ("cannot read source", "bad pages"):
            return Verdict("fault", (f"{shown(submission.file)}: {run.refused}",))
        if run.refused:
            raise Refused(
                f"test {shown(test.name)}: rvboard says: {shown(run.refused)}"
            )
        taken = borrowed(submission, test.harness, test.shared)
        if taken:
            return taken
        end = end_of(run, test)
        return self.stray(test, joined, end) or wrong(test, submission, end)

    def stray(self, test: Test, joined: Joined, end: End) -> Verdict | None:
        """The verdict of a run that didn't come to its end as it should."""
        stop = end.stop

        def seen() -> Look:
            return look(self.board, joined, test.settings, stop.steps)

        if stop.why == "break" and stop.pc == 0:
            return lost(seen(), test)
        if stop.why == "break" and stop.pc != end.guard:
            return Verdict("skipped", ("the harness comes to its end more than once",))
        if stop.why == "break":
            place = seen().place(1)
            text = "the code runs on past the end of the file: it lacks a ret, a jump or a halt"
            return told(
                place, "past-end", text, "the code runs past the end of the file"
            )
        if stop.why == "limit":
            never = test.halt == NEVER
            return skipped(test, end) if never else endless(seen(), test)
        if test.halt == NEVER:
            text = f"this halts the board, with code {end.code} after {stop.steps} steps; it should never end"
            return told(seen().place(1), "early", text, text)
        if test.end and not end.reached:
            text = f"this halts the board, with code {end.code}, before the harness has come to its end"
            if not differences(test.console, end.console, test.compare):
                text += "; what should be printed was, but not by the harness alone"
            return told(seen().place(1), "early", text, text)
        return self.cut_short(test, joined, end)

    def cut_short(self, test: Test, joined: Joined, end: End) -> Verdict | None:
        """The verdict of a run in which the harness didn't do all that it should, with a jump of the submission's."""
        verdict = skipped(test, end)
        if end.reached and alone_at_end(test) and (verdict or not test.passes):
            place = look(self.board, joined, test.settings, end.reached.steps).place(1)
            if place and place.part.submitted:
                text = "this jumps to the harness's end, to which only the harness should come"
                return told(place, "skipped", text, text)
        return verdict


def with_values(parts: Sequence[Part], values: dict[str, int]) -> tuple[Part, ...]:
    """Parts of a harness with random words for their constants."""
    found = []
    for part in parts:
        text = part.text
        for name, value in values.items():
            text = random_line(name).sub(rb"\g<1>0x%08x" % value, text)
        found.append(replace(part, text=text))
    return tuple(found)


def stops_of(test: Test) -> int:
    """How many commands `c` a run needs before the passes are cleared."""
    return sum(test.passes.values()) + 1


def commands_of(test: Test, joined: Joined) -> list[str]:
    """The commands of a run; `end_of` takes their answers in this order."""
    go = ["c", "r"] if test.registers else ["c"]
    names = [] if test.continues else [joined.guard]
    names += [*([test.end] if test.end else []), *test.passes]
    commands = ["b 0x0", *(f"b {name}" for name in names), *stops_of(test) * go]
    commands += [f"d {name}" for name in test.passes]
    commands += 2 * go
    return commands + [
        f"m {name} {4 * len(words)}" for name, words in test.words.items()
    ]


def end_of(run: Run, test: Test) -> End:
    """How a run ended."""
    answers = run.answers()
    answers.line()
    guard = None if test.continues else answers.address()
    end = answers.address() if test.end else None
    labels = {name: answers.address() for name in test.passes}
    passed = dict.fromkeys(test.passes, 0)
    final: Stop | None = None
    reached: Stop | None = None
    registers: list[int] = []
    count = stops_of(test)
    for number in range(count + 2):
        if number == count:
            for _ in test.passes:
                answers.line()
        stop = answers.stop()
        now = answers.registers() if test.registers else []
        if final:
            continue
        if not reached:
            registers = now
        if stop.why != "break" or stop.pc in (0, guard):
            final = stop
        elif stop.pc == end:
            reached = stop
        for name, address in labels.items():
            if stop.why == "break" and stop.pc == address:
                passed[name] += 1
        last = stop
    words = {name: answers.words(len(wanted)) for name, wanted in test.words.items()}
    console, code = console_of(answers.rest)
    return End(final or last, reached, passed, registers, words, code, console, guard)


def alone_at_end(test: Test) -> bool:
    """Whether the harness comes to its end from a line of its own, and not by the submission's return."""
    own = definitions(test.harness)
    for parts in (test.before, test.behind):
        last = ""
        for line in (line for part in parts for line in part.lines()):
            if test.end in names_of(line).defined:
                called = [name for name in names_of(last).used if name not in REGISTERS]
                if statement_of(last) in CALLS:
                    return called != [] and all(name in own for name in called)
                return last != ""
            last = line if statement_of(line) else last
    return False


def told(place: Place | None, kind: str, text: str, otherwise: str) -> Verdict:
    """A verdict at a line, which may be one of the harness or of no file."""
    if place and place.part.submitted:
        return at(place, kind, f"{text}: {source_of(place)}")
    if place:
        return Verdict(kind, (f"at the harness's line {where(place)}: {otherwise}",))
    return Verdict(kind, (otherwise,))


def lost(seen: Look, test: Test) -> Verdict:
    """The verdict of a run that came to address 0, where no memory is: by a trap, or by a jump."""
    trap = seen.traps[-1] if seen.traps else None
    if not trap or len(seen.pcs) < 2 or trap.epc != seen.pcs[-2]:
        return jumped(seen.place(1), 0)
    if seen.place(2) and not seen.place(1):  # no line's code is there
        return jumped(seen.place(2), trap.epc)
    text = f"it traps, and no handler is set: {cause_of(trap)}"
    place = seen.place(1)
    if place and not place.part.submitted:
        text += f"; {DAMAGED}"
    elif not place:
        text += f", at {trap.epc:08x}, which is no line's"
    return told(place, "trap", text, text)


def cause_of(trap: Trap) -> str:
    """A trap's cause, with its value where that tells something."""
    cause = CAUSES.get(trap.cause, f"cause {trap.cause}")
    if trap.cause == 2:
        return f"{cause} (the word {trap.tval:08x}; is it data?)"
    return (
        f"{cause} (address {trap.tval:08x})"
        if trap.cause in (0, 1, 4, 5, 6, 7)
        else cause
    )


def jumped(place: Place | None, target: int) -> Verdict:
    """The verdict of a jump to where no memory is."""
    text = f"it jumps to {target:08x}, where no code is"
    if place and returns(place):
        text += f": {RA}"
    elif place and not place.part.submitted:
        text += f"; {DAMAGED}"
    return told(place, "lost", text, text)


def returns(place: Place) -> bool:
    """Whether a line has a ret."""
    return "ret" in words_of(place.text())


def endless(seen: Look, test: Test) -> Verdict:
    """The verdict of a run that takes all its steps."""
    text = f"it doesn't end within {test.settings.steps} steps"
    last = seen.traps[-AGAIN:]
    if (
        len(last) == AGAIN
        and len({(trap.cause, trap.epc, trap.tval) for trap in last}) == 1
    ):
        text += f"; the same trap comes again and again: {cause_of(last[0])}"
        return told(seen.map.place(last[0].epc), "steps", text, text)
    pc = seen.pcs[-1] if seen.pcs else 0
    place = seen.place(0)
    if place and returns(place) and len(set(seen.pcs)) == 1:  # a ret to itself
        return told(place, "steps", f"{text}: {RA}", text)
    return told(
        place,
        "steps",
        f"{text}, and is here then",
        f"{text}, and is at {pc:08x} then",
    )


def skipped(test: Test, end: End) -> Verdict | None:
    """The verdict of a run in which the harness didn't do all that it should."""
    for name, wanted in test.passes.items():
        count = end.passed[name]
        if count != wanted:
            more = "more than " if count > wanted else ""
            times = wanted if count > wanted else count
            text = f"the harness comes to {name} {more}{times} times and should {wanted} times: it was jumped over or into"
            return Verdict("skipped", (text,))
    return None


def wrong(test: Test, submission: Part, end: End) -> Verdict | None:
    """The verdict of a run that came to its end: what it left is compared."""
    if test.halt != NEVER and end.code != test.halt:
        return Verdict(
            "code", (f"it halts with code {end.code} and should with {test.halt}",)
        )
    says = differences(test.console, end.console, test.compare)
    kinds = ["console"] if says else []
    for name, wanted in test.registers.items():
        value = end.registers[ALIASES[name]]
        if value != wanted:
            kinds.append("register")
            says.append(f"{name} is {value:08x} at the end and should be {wanted:08x}")
    for name, words in test.words.items():
        found = end.words[name]
        if found is None:
            kinds.append("missing")
            says.append(
                f"{shown(submission.file)}: it doesn't define {name}, whose words are looked at"
            )
        elif list(words) != found:
            kinds.append("memory")
            says.append(word_differs(name, words, found))
    return Verdict(kinds[0], tuple(says)) if kinds else None


def word_differs(name: str, wanted: Sequence[int], found: Sequence[int | None]) -> str:
    """The first word that differs."""
    for at_word, (value, right) in enumerate(zip(found, wanted)):
        if value != right:
            number = (
                f"word {at_word} at {name}"
                if len(wanted) > 1
                else f"the word at {name}"
            )
            is_now = "no memory" if value is None else f"{value:08x}"
            return f"{number} is {is_now} at the end and should be {right:08x}"
    return ""
