"""Results: as text, as JUnit XML, as JSON, and merged."""

import json
import xml.etree.ElementTree as ET
from collections.abc import Iterable, Sequence
from dataclasses import dataclass
from typing import Any

from grading.faults import Verdict
from grading.refusal import Refused, shown
from grading.tests import VISIBLE

UNGRADED = ("unread", "unrun")
FORMAT = 1  # of the results that are merged


@dataclass(frozen=True)
class Result:
    """A test of a submission."""

    name: str
    points: float
    visibility: str
    verdict: Verdict

    @property
    def right(self) -> bool:
        """Whether it was passed."""
        return self.verdict.kind == "right"

    @property
    def ungraded(self) -> bool:
        """Whether the file couldn't be read, or the run couldn't be made."""
        return self.verdict.kind in UNGRADED

    @property
    def score(self) -> float:
        """The points that it gets."""
        return self.points if self.right else 0

    def says(self) -> str:
        """The sentences."""
        return "\n".join(self.verdict.says)


@dataclass(frozen=True)
class Graded:
    """A submission with its results. `index` is its place, from 0, among the `count` that were named."""

    file: str
    index: int
    count: int
    results: tuple[Result, ...]

    @property
    def right(self) -> bool:
        """Whether it passed all tests."""
        return all(result.right for result in self.results)

    def text(self) -> str:
        """For the student: the points, and what is wrong, each sentence once."""
        score, most = (
            total(r.score for r in self.results),
            total(r.points for r in self.results),
        )
        rows = [
            f"{shown(self.file)}: {'right' if self.right else 'wrong'}, {score} of {most} points"
        ]
        failed = [result for result in self.results if not result.right]
        told: dict[str, list[Result]] = {}
        for result in failed:
            hidden = result.visibility != VISIBLE[0]
            told.setdefault("(hidden)" if hidden else result.says(), []).append(result)
        for says, results in told.items():
            every = len(self.results) > 1 and len(results) == len(self.results)
            names = "all tests" if every else ", ".join(shown(r.name) for r in results)
            first, *more = says.split("\n")
            rows += [f"  {names}: {first}", *(f"    {sentence}" for sentence in more)]
        return "\n".join(rows)

    def gradescope(self) -> dict[str, Any]:
        """Gradescope's form. What it doesn't take is in `extra_data`, from which results are merged."""
        return {
            "score": total(result.score for result in self.results),
            "output": self.text(),
            "tests": [
                {
                    "name": shown(result.name),
                    "score": result.score,
                    "max_score": result.points,
                    "status": "passed" if result.right else "failed",
                    "output": result.says(),
                    "visibility": result.visibility,
                }
                for result in self.results
            ],
            "extra_data": {
                "rvgrade": FORMAT,
                "file": self.file,
                "index": self.index,
                "count": self.count,
                "verdicts": [
                    {
                        "name": r.name,
                        "kind": r.verdict.kind,
                        "line": r.verdict.line,
                        "says": list(r.verdict.says),
                    }
                    for r in self.results
                ],
            },
        }


def total(points: Iterable[float]) -> float:
    """A sum of points, whole where it can be."""
    value = sum(points)
    return value if value % 1 else int(value)


def text_of(graded: Sequence[Graded]) -> str:
    """The results for the student, and how many there are."""
    right = sum(one.right for one in graded)
    rows = [one.text() for one in graded]
    if len(graded) != 1:
        rows.append(
            f"{len(graded)} submissions: {right} right, {len(graded) - right} wrong"
        )
    return "\n".join(rows) + "\n"


def json_of(graded: Sequence[Graded]) -> str:
    """One submission in Gradescope's form, and else a list of such."""
    forms = [one.gradescope() for one in graded]
    whole = forms[0] if len(forms) == 1 else {"rvgrade": FORMAT, "submissions": forms}
    return json.dumps(whole, indent=1) + "\n"


def junit_of(graded: Sequence[Graded]) -> bytes:
    """JUnit XML: a suite for each submission, a case for each test."""
    suites = ET.Element("testsuites")
    for one in graded:
        errors = sum(result.ungraded for result in one.results)
        failures = sum(not result.right for result in one.results) - errors
        suite = ET.SubElement(
            suites, "testsuite", name=shown(one.file), tests=str(len(one.results))
        )
        suite.set("failures", str(failures))
        suite.set("errors", str(errors))
        for result in one.results:
            case = ET.SubElement(
                suite, "testcase", classname=shown(one.file), name=shown(result.name)
            )
            if not result.right:
                kind = "error" if result.ungraded else "failure"
                told = ET.SubElement(case, kind, type=result.verdict.kind)
                told.set("message", result.verdict.says[0])
                told.text = result.says()
    for count in ("tests", "failures", "errors"):
        suites.set(count, str(sum(int(suite.get(count, "0")) for suite in suites)))
    ET.indent(suites)
    return bytes(ET.tostring(suites, encoding="utf-8", xml_declaration=True)) + b"\n"


def merged(paths: Sequence[str]) -> list[Graded]:
    """The results of shards, in the order in which the submissions were named."""
    found: dict[int, Graded] = {}
    count: int | None = None
    for path in paths:
        for graded in read_results(path):
            if count not in (None, graded.count):
                raise Refused(
                    f"{shown(path)}: it is of another list of submissions than the others"
                )
            count = graded.count
            if graded.index in found:
                raise Refused(
                    f"{shown(path)}: {shown(graded.file)} is in an earlier file, too"
                )
            found[graded.index] = graded
    missing = [index + 1 for index in range(count or 0) if index not in found]
    if missing:
        numbers = ", ".join(str(number) for number in missing[:8])
        raise Refused(
            f"{len(missing)} submissions are in no file, the first of them number {numbers}: a shard is missing"
        )
    return [found[index] for index in sorted(found)]


def read_results(path: str) -> list[Graded]:
    """The results of a file that --json wrote."""
    try:
        with open(path, encoding="utf-8") as file:
            whole = json.load(file)
        forms = whole["submissions"] if "submissions" in whole else [whole]
        return [graded_of(form) for form in forms]
    except OSError as fault:
        raise Refused(f"{shown(path)}: {fault.strerror}") from None
    except (ValueError, KeyError, TypeError):
        raise Refused(f"{shown(path)}: it isn't what --json writes") from None


def graded_of(form: dict[str, Any]) -> Graded:
    """A submission's results of Gradescope's form."""
    extra = form["extra_data"]
    if extra["rvgrade"] != FORMAT:
        raise ValueError
    results = [
        Result(
            row["name"],
            test["max_score"],
            test["visibility"],
            Verdict(row["kind"], tuple(row["says"]), row["line"]),
        )
        for test, row in zip(form["tests"], extra["verdicts"], strict=True)
    ]
    return Graded(extra["file"], extra["index"], extra["count"], tuple(results))
