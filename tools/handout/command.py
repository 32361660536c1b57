"""The command dist."""

import argparse
import base64
import hashlib
import os
import re
import subprocess
import sys
import time

from elf.board import TOP
from elf.refusal import Refused
from handout import archive, tree
from handout.contents import Making, entries_of
from handout.programs import Program, read_program

BEGAN = time.monotonic()
NAMES = ["rvboard", "rvlab"]
# Programs that are handed out too where they are there: a script at the top of the repository builds each.
OTHERS = ["rvas", "rvgdb"]
OUT = os.path.join(TOP, "out")
BUILT_PAGE = os.path.join(OUT, "web/index.html")
PAGE_SOURCES = ["web", ":!web/test*", "docs/ASSEMBLER.md", "examples", "crates/rv_*/src/*"]
VERSION = re.compile(r"[A-Za-z0-9][A-Za-z0-9._+-]{0,63}")


def main() -> int:
    """Makes the archive, and prints where it is."""
    words = arguments()
    try:
        path = make(words)
    except Refused as refused:
        print(f"dist: {refused}", file=sys.stderr)
        return 1
    except OSError as fault:
        print(f"dist: {fault.filename}: {fault.strerror}", file=sys.stderr)
        return 1
    with open(path, "rb") as file:
        data = file.read()
    print(
        f"{os.path.relpath(path)}: {len(data)} bytes, SHA-256 {hashlib.sha256(data).hexdigest()}"
    )
    return 0


def arguments() -> argparse.Namespace:
    """Reads the words of the call."""
    parser = argparse.ArgumentParser(
        prog="dist",
        usage="dist [--version V] [--no-page] [--dirty] [RVBOARD RVLAB [PAGE]]",
        description="Makes out/solartansy-V.tar.gz, which runs without the kit: the programs, the page, the tools for"
        " C, examples, documents, man pages, completions, sums, and by what the programs were proved.",
        epilog="Without RVBOARD and RVLAB it takes the programs of out/, which ./rvboard and ./rvlab prove and build"
        " where they are missing or older than their sources. The same commit and programs give the same bytes.",
    )
    parser.add_argument(
        "programs",
        nargs="*",
        metavar="RVBOARD RVLAB PAGE",
        help="the built programs, and the page; without PAGE it is out/web/index.html, which web/build makes",
    )
    parser.add_argument(
        "--version",
        metavar="V",
        help="the version; without it the commit's date and first digits",
    )
    parser.add_argument(
        "--no-page", dest="with_page", action="store_false", help="leave the page out"
    )
    parser.add_argument(
        "--dirty",
        action="store_true",
        help="take the files as they are, also where they aren't the commit's",
    )
    words = parser.parse_args()
    if len(words.programs) not in (0, 2, 3):
        parser.error("RVBOARD and RVLAB are named both, or none of them")
    if len(words.programs) == 3 and not words.with_page:
        parser.error("a page is named, and --no-page leaves it out")
    if words.version is not None and not VERSION.fullmatch(words.version):
        parser.error(
            f"--version {words.version}: letters, digits and . _ + - are wanted, at most 64"
        )
    return words


def say(what: str) -> None:
    """Tells how far it is, with the time since the start."""
    seconds = int(time.monotonic() - BEGAN)
    print(
        f"dist: {seconds // 60}:{seconds % 60:02} {what}", file=sys.stderr, flush=True
    )


def make(words: argparse.Namespace) -> str:
    """Makes the archive, and returns its path."""
    say("the repository")
    commit, changes = tree.head(), tree.changes()
    if changes and not words.dirty:
        raise Refused(
            f"{told(changes)} changed since the commit, or not in it: commit first, or say --dirty"
        )
    version = words.version or default_version(commit, changes)
    say("the programs")
    programs = named(words.programs) if words.programs else built()
    page = read_page(words.programs[2:]) if words.with_page else None
    say("documents, man pages and completions")
    entries = entries_of(
        Making(version, commit, changes, bool(words.programs), programs, page)
    )
    say(f"{len(entries) + 1} files, packed")
    os.makedirs(OUT, exist_ok=True)
    name = f"solartansy-{version}"
    path = os.path.join(OUT, name + ".tar.gz")
    archive.write(path, name, entries, commit.seconds)
    return path


def told(changes: list[str]) -> str:
    """The first of the changed files, and how many others there are."""
    others = len(changes) - 3
    names = ", ".join(changes[:3]) + (f" and {others} more" if others > 0 else "")
    return f"{names} {'is' if len(changes) == 1 else 'are'}"


def default_version(commit: tree.Commit, changes: list[str]) -> str:
    """The version where none is given."""
    date = time.strftime("%Y.%m.%d", time.gmtime(commit.seconds))
    return f"{date}-{commit.name[:8]}" + ("-dirty" if changes else "")


def named(paths: list[str]) -> list[Program]:
    """The programs that the call names, and those of the others that stand beside the first."""
    beside = [os.path.join(os.path.dirname(paths[0]), name) for name in OTHERS]
    others = [(name, path) for name, path in zip(OTHERS, beside) if os.path.exists(path)]
    return [read_program(name, path) for name, path in [*zip(NAMES, paths), *others]]


def built() -> list[Program]:
    """The programs of out/. Their scripts build them, unless they are built of the present sources already."""
    others = [name for name in OTHERS if os.path.exists(os.path.join(TOP, name))]
    for name in [*NAMES, *others]:
        script = os.path.join(TOP, name)
        done = subprocess.run(
            [script, "--help"],
            stdin=subprocess.DEVNULL,
            stdout=subprocess.DEVNULL,
            check=False,
        )
        if done.returncode:
            raise Refused(
                f"./{name} --help has status {done.returncode}, so there is no program: name built ones"
            )
    return named([os.path.join(OUT, name) for name in NAMES])


def read_page(paths: list[str]) -> bytes:
    """The page, which has to have all that it needs."""
    path = paths[0] if paths else BUILT_PAGE
    if not os.path.exists(path):
        raise Refused(
            f"{path} isn't there: web/build makes the page, and --no-page leaves it out"
        )
    if not paths:
        refuse_older(path)
    with open(path, "rb") as file:
        page = file.read()
    module = os.path.join(os.path.dirname(path), "board.wasm")
    if os.path.exists(module):
        with open(module, "rb") as file:
            inlined = base64.b64encode(file.read())
        if inlined not in page:
            raise Refused(
                f"{path} hasn't the board.wasm beside it: web/build makes both"
            )
    return page


def refuse_older(path: str) -> None:
    """Refuses a page that is older than a file which it is made of."""
    made = os.stat(path).st_mtime
    for name in tree.files(*PAGE_SOURCES):
        if os.stat(os.path.join(TOP, name)).st_mtime > made:
            raise Refused(
                f"{name} is newer than {path}: web/build makes the page anew, and --no-page leaves it out"
            )
