"""The command rvgrade."""

import argparse
import io
import os
import re
import subprocess
import sys
from collections.abc import Sequence
from concurrent.futures import ThreadPoolExecutor

from grading.board import Board
from grading.faults import Verdict
from grading.judge import Judge
from grading.refusal import Refused, shown
from grading.results import Graded, Result, json_of, junit_of, merged, text_of
from grading.source import Joined, Part
from grading.tests import Test, read_tests

FOLDER = os.path.dirname(os.path.dirname(os.path.abspath(__file__)))
OWN_FAULTS = (
    "E1",
    "E2",
    "E3",
    "E4",
    "E5",
    "E6",
    "E8",
)  # which no submission can cause in a harness


def main() -> int:
    """Grades submissions, or merges results."""
    words = read_words()
    for stream in (sys.stdout, sys.stderr):
        if isinstance(stream, io.TextIOWrapper):
            stream.reconfigure(errors="backslashreplace")
    try:
        if words.merge:
            graded = merged(words.files)
        else:
            graded = grade(words)
        if words.junit is not None:
            write(words.junit, junit_of(graded))
        if words.json is not None:
            write(words.json, json_of(graded).encode())
        if not words.quiet:
            sys.stdout.write(text_of(graded))
            sys.stdout.flush()
    except Refused as refused:
        print(f"rvgrade: {refused}", file=sys.stderr)
        return 2
    except OSError as fault:
        where = shown(str(fault.filename)) if fault.filename else "standard output"
        print(f"rvgrade: {where}: {fault.strerror}", file=sys.stderr)
        return 2
    if any(result.ungraded for one in graded for result in one.results):
        return 2
    return 0 if all(one.right for one in graded) else 1


def read_words() -> argparse.Namespace:
    """The words of the command line."""
    parser = argparse.ArgumentParser(
        prog="rvgrade",
        usage="rvgrade TESTS.toml SUBMISSION.. [--shard I/N] [--junit FILE] [--json FILE] [--seed TEXT]\n"
        "               [--only TEST] [--jobs N] [--quiet]\n"
        "       rvgrade --merge RESULTS.json.. [--junit FILE] [--json FILE] [--quiet]",
        description="Grades submissions for the board by a list of tests (docs/GRADING.md).",
        epilog="Status 0: all are right. 1: some are wrong. 2: the tests, a word or a file is at fault.",
        allow_abbrev=False,
    )
    parser.add_argument(
        "files",
        nargs="+",
        metavar="FILE",
        help="the list of tests and the submissions, or results",
    )
    parser.add_argument(
        "--merge",
        action="store_true",
        help="put together the results of shards, which --json wrote",
    )
    parser.add_argument(
        "--shard",
        type=shard,
        default=(1, 1),
        metavar="I/N",
        help="grade the I-th of N shares alone",
    )
    parser.add_argument("--junit", metavar="FILE", help="write JUnit XML")
    parser.add_argument(
        "--json", metavar="FILE", help="write Gradescope's results, or a list of them"
    )
    parser.add_argument(
        "--seed", metavar="TEXT", help="choose the same random words each time"
    )
    parser.add_argument("--only", metavar="TEST", help="run this test alone")
    parser.add_argument(
        "--jobs",
        type=jobs,
        default=os.cpu_count() or 1,
        metavar="N",
        help="run so many at a time; otherwise as many as there are processors",
    )
    parser.add_argument("--quiet", action="store_true", help="print no text")
    words = parser.parse_args()
    if not words.merge and len(words.files) < 2:
        parser.error("name the list of tests and one submission or more")
    if words.merge and (words.shard != (1, 1) or words.seed):
        parser.error("--merge goes with neither --shard nor --seed")
    return words


def shard(text: str) -> tuple[int, int]:
    """The share I of N."""
    found = re.fullmatch(r"([1-9][0-9]{0,5})/([1-9][0-9]{0,5})", text)
    if not found or int(found[1]) > int(found[2]):
        raise argparse.ArgumentTypeError(
            "it has to be as 3/16: the number of a share, from 1, and how many there are"
        )
    return int(found[1]), int(found[2])


def jobs(text: str) -> int:
    """A number of runs at a time."""
    if not re.fullmatch("[1-9][0-9]{0,3}", text):
        raise argparse.ArgumentTypeError("it has to be a number from 1 to 9999")
    return int(text)


def program() -> str:
    """The path of rvboard: what RVBOARD says, or the one beside rvgrade, or the one that was handed out or built."""
    named = os.environ.get("RVBOARD")
    if named:
        return named
    top = os.path.dirname(FOLDER)
    handed_out = os.path.join(top, "bin", "rvboard")  # in what tools/dist makes
    for path in (os.path.join(FOLDER, "rvboard"), handed_out):
        if os.path.exists(path):
            return path
    script, built = os.path.join(top, "rvboard"), os.path.join(top, "out", "rvboard")
    if not os.path.exists(built) and os.path.exists(script):
        # the script proves and builds it, and tells that on standard error
        subprocess.run([script, "--help"], stdout=subprocess.DEVNULL, check=False)
    if not os.path.exists(built):
        raise Refused(
            "rvboard isn't there: put it beside rvgrade, or name it by RVBOARD=PATH"
        )
    return built


def chosen_tests(path: str, only: str | None) -> list[Test]:
    """The tests of the list, or the one that is wanted alone."""
    tests = [test for test in read_tests(path) if only in (None, test.name)]
    if not tests:
        raise Refused(f"{shown(path)}: it has no test {shown(only or '')}")
    return tests


def grade(words: argparse.Namespace) -> list[Graded]:
    """Grades the submissions of a share, as many at a time as there are processors."""
    path, files = words.files[0], words.files[1:]
    share, shares = words.shard
    tests = chosen_tests(path, words.only)
    board = Board(program())
    try:
        judge = Judge(board, words.seed)
        for test in tests:
            check_test(test, path, judge)
        numbers = range(share - 1, len(files), shares)
        with ThreadPoolExecutor(words.jobs) as pool:
            return list(
                pool.map(
                    lambda at: grade_one(judge, tests, files[at], at, len(files)),
                    numbers,
                )
            )
    finally:
        board.close()


def grade_one(
    judge: Judge, tests: Sequence[Test], file: str, index: int, count: int
) -> Graded:
    """Grades a submission."""
    try:
        with open(file, "rb") as opened:
            submission = Part(file, opened.read(), True)
    except OSError as fault:
        text = f"{shown(file)}: it can't be read: {fault.strerror}"
        return graded(
            file, index, count, tests, [Verdict("unread", (text,))] * len(tests)
        )
    verdicts = [verdict_of(judge, test, submission) for test in tests]
    return graded(file, index, count, tests, verdicts)


def verdict_of(judge: Judge, test: Test, submission: Part) -> Verdict:
    """The verdict of a test, also where its run can't be made."""
    try:
        return judge.verdict(test, submission)
    except Refused as refused:
        return Verdict("unrun", (f"it isn't graded: {refused}",))


def graded(
    file: str,
    index: int,
    count: int,
    tests: Sequence[Test],
    verdicts: Sequence[Verdict],
) -> Graded:
    """A submission with its verdicts."""
    results = [
        Result(test.name, test.points, test.visibility, verdict)
        for test, verdict in zip(tests, verdicts)
    ]
    return Graded(file, index, count, tuple(results))


def check_test(test: Test, path: str, judge: Judge) -> None:
    """Refuses a harness with faults of its own, a timed list that isn't one, and a reference that fails."""
    where = f"{shown(path)}: test {shown(test.name)}"
    alone = Joined(test.before, Part("", b"", True), test.behind, judge.mark)
    run = judge.board.run(alone.text(), test.settings, ["q"])
    if run.fault and run.fault[1].split()[0] in OWN_FAULTS:
        place = alone.place(run.fault[0])
        line = f"{shown(place.part.file)}:{place.number}" if place else ""
        raise Refused(f"{where}: the harness has a fault: {line}: {run.fault[1]}")
    if run.refused == "image too large":
        raise Refused(f"{where}: pages: the harness alone doesn't fit into the memory")
    listed = judge.board.run(b"nop\n", test.settings, ["q"])
    if listed.refused:
        raise Refused(f"{where}: rvboard says: {shown(listed.refused)}")
    if test.reference:
        judge.expected(judge.with_random(test, test.reference)[0], test.reference)


def write(path: str, content: bytes) -> None:
    """Writes a file."""
    with open(path, "wb") as file:
        file.write(content)
