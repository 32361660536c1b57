"""The list of tests, TESTS.toml, with its faults."""

import difflib
import os
import re
import tomllib
from collections.abc import Mapping
from dataclasses import dataclass
from typing import Any

from grading.board import Settings
from grading.refusal import Refused, shown
from grading.source import NAME, Part, definitions, places_of

NEVER = "never"  # the end of a run that takes all its steps
COMPARED = ("lines", "exact", "words")
VISIBLE = ("visible", "hidden", "after_due_date", "after_published")
MOST = 1_000_000_000  # steps of a run
ALIASES = {"zero": 0, "ra": 1, "sp": 2, "gp": 3, "tp": 4, "fp": 8}
ALIASES |= {f"x{n}": n for n in range(32)}
ALIASES |= {f"a{n}": 10 + n for n in range(8)}
ALIASES |= {f"s{n}": n + (8 if n < 2 else 16) for n in range(12)}
ALIASES |= {f"t{n}": n + (5 if n < 3 else 25) for n in range(7)}


@dataclass(frozen=True)
class Test:
    """What is asked of a submission."""

    name: str
    points: float
    visibility: str
    before: tuple[Part, ...]
    behind: tuple[Part, ...]
    settings: Settings
    console: bytes | None
    compare: str
    halt: int | str
    registers: Mapping[str, int]
    words: Mapping[str, tuple[int, ...]]
    end: str | None
    passes: Mapping[str, int]
    shared: frozenset[str]
    random: tuple[str, ...]
    reference: Part | None
    continues: bool

    @property
    def harness(self) -> tuple[Part, ...]:
        """All parts of the harness."""
        return self.before + self.behind


class Row:
    """The keys of a test, each taken once: a key that isn't taken is unknown."""

    def __init__(self, keys: Mapping[str, Any], where: str, folder: str) -> None:
        self.keys = dict(keys)
        self.known: list[str] = []
        self.where = where
        self.folder = folder

    def fault(self, key: str, wanted: str) -> Refused:
        """The fault of a key's value."""
        return Refused(f"{self.where}: {key}: it has to be {wanted}")

    def take(self, key: str) -> Any:
        """The value of a key, or none."""
        self.known.append(key)
        return self.keys.pop(key, None)

    def text(self, key: str, otherwise: str | None = None) -> str | None:
        """A text."""
        value = self.take(key)
        if value is not None and not isinstance(value, str):
            raise self.fault(key, "a text")
        return otherwise if value is None else value

    def choice(self, key: str, choices: tuple[str, ...]) -> str:
        """One of some words, the first without the key."""
        value = self.text(key, choices[0])
        if value not in choices:
            raise self.fault(key, " or ".join(f'"{choice}"' for choice in choices))
        return value

    def number(self, key: str, least: int, most: int, otherwise: int) -> int:
        """A whole number of a range."""
        value = self.take(key)
        if value is None:
            return otherwise
        if type(value) is not int or not least <= value <= most:
            raise self.fault(key, f"a whole number from {least} to {most}")
        return value

    def flag(self, key: str) -> bool:
        """true or false; false without the key."""
        value = self.take(key)
        if value not in (None, True, False):
            raise self.fault(key, "true or false")
        return bool(value)

    def table(self, key: str) -> dict[str, Any]:
        """A table."""
        value = self.take(key)
        if value is not None and not isinstance(value, dict):
            raise self.fault(key, "a table, as { a0 = 5 }")
        return dict(value or {})

    def texts(self, key: str) -> list[str]:
        """A text, or a list of texts."""
        value = self.take(key)
        listed = [] if value is None else value if isinstance(value, list) else [value]
        if not all(isinstance(item, str) for item in listed):
            raise self.fault(key, "a text, or a list of texts")
        return list(listed)

    def part(self, path: str, submitted: bool = False) -> Part:
        """A file beside the list of tests."""
        return Part(path, self.read(path), submitted)

    def read(self, path: str) -> bytes:
        """The bytes of a file beside the list of tests."""
        try:
            with open(os.path.join(self.folder, path), "rb") as file:
                return file.read()
        except OSError as fault:
            raise Refused(f"{self.where}: {shown(path)}: {fault.strerror}") from None

    def content(self, key: str) -> bytes | None:
        """A text under a key, or in the file under the key with _file behind it."""
        text, path = self.text(key), self.text(f"{key}_file")
        if text is not None and path is not None:
            raise Refused(f"{self.where}: {key} and {key}_file: leave out one of them")
        if path is not None:
            return self.read(path)
        return None if text is None else text.encode()

    def end(self) -> None:
        """Refuses what is left."""
        for key in self.keys:
            near = difflib.get_close_matches(key, self.known, 1)
            advice = f": is {near[0]} meant?" if near else ""
            raise Refused(f"{self.where}: there is no key {shown(key)}{advice}")


def word_of(value: object) -> int | None:
    """The 32 bits of a number, or none."""
    if type(value) is int and -(1 << 31) <= value < 1 << 32:
        return value % (1 << 32)
    return None


def registers_of(row: Row) -> dict[str, int]:
    """The registers' values at the end."""
    found = {}
    for name, value in row.table("registers").items():
        word = word_of(value)
        if name not in ALIASES or word is None:
            raise row.fault("registers", "registers with their values, as { a0 = 5 }")
        found[name] = word
    return found


def words_of(row: Row) -> dict[str, tuple[int, ...]]:
    """The words of memory at the end."""
    found = {}
    for name, value in row.table("words").items():
        listed = value if isinstance(value, list) else [value]
        words = [word_of(item) for item in listed]
        exact = tuple(word for word in words if word is not None)
        placed = NAME.fullmatch(name) or re.fullmatch("0x[0-9a-fA-F]{1,8}", name)
        if not placed or len(exact) < len(words) or not 1 <= len(words) <= 64:
            raise row.fault(
                "words",
                'names or addresses with a word or up to 64, as { total = 5, "0x80000100" = [1, 2] }',
            )
        found[name] = exact
    return found


def passes_of(row: Row) -> dict[str, int]:
    """How many times labels of the harness are passed."""
    found = row.table("passes")
    for count in found.values():
        if type(count) is not int or not 0 <= count <= 10000:
            raise row.fault("passes", "labels with counts up to 10000")
    return found


def halt_of(row: Row) -> int | str:
    """The halt code that is expected."""
    value = row.take("halt")
    if value is None:
        return 0
    if value != NEVER and (type(value) is not int or not 0 <= value <= 65535):
        raise row.fault("halt", f'a code from 0 to 65535, or "{NEVER}"')
    return value if isinstance(value, int) else NEVER


def points_of(row: Row) -> float:
    """The points of a test."""
    value = row.take("points")
    if value is None:
        return 1
    if type(value) not in (int, float) or not 0 <= value <= 1e9:
        raise row.fault("points", "a number that is not below 0")
    return float(value) if value % 1 else int(value)


def test_of(row: Row, number: int) -> Test:
    """A test of the list."""
    name = row.text("name", f"test {number}")
    reference = row.text("reference")
    test = Test(
        name=name or "",
        points=points_of(row),
        visibility=row.choice("visibility", VISIBLE),
        before=tuple(row.part(path) for path in row.texts("before")),
        behind=tuple(row.part(path) for path in row.texts("behind")),
        settings=Settings(
            row.number("steps", 0, MOST, 1_000_000),
            row.number("pages", 1, 4096, 256),
            row.content("input"),
        ),
        console=row.content("console"),
        compare=row.choice("compare", COMPARED),
        halt=halt_of(row),
        registers=registers_of(row),
        words=words_of(row),
        end=row.text("end"),
        passes=passes_of(row),
        shared=frozenset(row.texts("shared")),
        random=tuple(row.texts("random")),
        reference=row.part(reference, True) if reference is not None else None,
        continues=row.flag("continues"),
    )
    row.end()
    check_names(test, row.where)
    return test


def check_names(test: Test, where: str) -> None:
    """Refuses names that the harness lacks, its local labels, and keys that don't go together."""
    defined = definitions(test.harness)
    for key, labels in (
        ("end", [test.end] if test.end else []),
        ("passes", list(test.passes)),
    ):
        for name in labels:
            if name not in defined:
                raise Refused(f"{where}: {key}: the harness has no label {shown(name)}")
    for name in test.random:
        if not any(random_line(name).search(part.text) for part in test.harness):
            raise Refused(
                f"{where}: random: the harness has no line .equ {shown(name)},NUMBER"
            )
    for place, names in places_of(test.harness):
        if names.local:
            raise Refused(
                f"{where}: {shown(place.part.file)}:{place.number}: a submission's {names.local[0]}b or "
                f"{names.local[0]}f could find the local label {names.local[0]}: give it a name"
            )
    if test.end in test.passes:
        raise Refused(f"{where}: passes: leave out the end")
    if test.reference and test.console is not None:
        raise Refused(f"{where}: console and reference: leave out one of them")
    if test.continues and not test.behind:
        raise Refused(f"{where}: continues: it needs a harness behind the submission")
    if test.halt == NEVER and test.end:
        raise Refused(f'{where}: end and halt = "{NEVER}": leave out one of them')


def random_line(name: str) -> re.Pattern[bytes]:
    """The line of the harness whose number is replaced by a random one."""
    return re.compile(
        rb"^([ \t]*\.equ[ \t]+%b[ \t]*,[ \t]*)(0[xX][0-9a-fA-F]+|[0-9]+)(?![\w.$+-])"
        % re.escape(name).encode(),
        re.MULTILINE,
    )


def read_tests(path: str) -> list[Test]:
    """The tests of a file. A test has the keys of its own, and else those at the head of the file."""
    try:
        with open(path, "rb") as file:
            keys = tomllib.load(file)
    except OSError as fault:
        raise Refused(f"{shown(path)}: {fault.strerror}") from None
    except (tomllib.TOMLDecodeError, UnicodeDecodeError) as fault:
        raise Refused(f"{shown(path)}: {fault}") from None
    rows = keys.pop("test", None)
    if not isinstance(rows, list) or not rows:
        raise Refused(f"{shown(path)}: it has no test: begin each with [[test]]")
    tests: list[Test] = []
    for number, row in enumerate(rows, 1):
        if not isinstance(row, dict):
            raise Refused(f"{shown(path)}: begin each test with [[test]]")
        where = f"{shown(path)}: test {number}"
        own = {**without_pairs(keys, row), **row}
        tests.append(test_of(Row(own, where, os.path.dirname(path)), number))
        if [test.name for test in tests].count(tests[-1].name) > 1:
            raise Refused(f"{where}: name: an earlier test has it")
    return tests


def without_pairs(head: Mapping[str, Any], row: Mapping[str, Any]) -> dict[str, Any]:
    """The keys at the head, without those that a test's own keys stand in for."""
    pairs = {"input", "console"}
    taken = {key.removesuffix("_file") for key in row} | (
        {"console"} if "reference" in row else set()
    )
    drop = (taken & pairs) | {f"{key}_file" for key in taken & pairs}
    if taken & {"console"}:
        drop.add("reference")
    return {key: value for key, value in head.items() if key not in drop}
