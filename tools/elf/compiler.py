"""The command cc: C, C++ and GNU assembly to a source of the board, by gcc or clang, and picolibc."""

import os
import re
import shutil
import subprocess
import sys
import tempfile
from collections.abc import Callable, Iterable
from concurrent.futures import ThreadPoolExecutor
from dataclasses import dataclass, field

from elf.asking import not_installed, output_of
from elf.board import LIB, proved_program
from elf.check import check
from elf.command import PREFIX
from elf.program import read_program
from elf.refusal import Refused
from elf.source import Source

HELP = """\
usage: cc [-o OUT] [--pages N] [--stack N] [--notes] [--clang] [--no-check] [-T SCRIPT] [WORD ..] FILE ..

Makes a source of the board (docs/C.md) of files in C (.c), C++ (.cc, .cpp, .cxx) and GNU assembly (.S, .s).

  -o OUT      where the source goes, a.s without it; an OUT that ends in .elf is the linked program
  --pages N   pages of memory that the program has, 256 without it; run it with as many
  --stack N   bytes that the heap leaves to the stack, 16384 without it
  --notes     beside instructions the variables that they work on
  --clang     compile by clang; the libraries and the linker stay GNU's
  --no-check  don't compare the source with the program by rvboard (RVBOARD names another one than out/rvboard)
  -T SCRIPT   another linker script than lib/board.ld

Every other word is the compiler's. -nostartfiles leaves out lib/start.S and lib/board.c, -nostdlib the library too;
-c, -S and -E are done by the compiler alone."""

C, CXX, ASSEMBLY = (".c",), (".cc", ".cpp", ".cxx", ".c++", ".C"), (".S", ".s", ".sx")
OBJECTS = (".o", ".a")
PAIRS = {
    "-I",
    "-D",
    "-U",
    "-include",
    "-isystem",
    "-iquote",
    "-idirafter",
    "-x",
    "-MF",
    "-MT",
    "-MQ",
    "--param",
}
LINKING = ("-l", "-L", "-Wl,", "-u", "-Xlinker")
ALONE = {"-c", "-S", "-E", "-M", "-MM"}
# By the older specification rv32im has the control registers and fence.i, and gcc finds its libraries by that name.
MACHINE = ["-march=rv32im", "-misa-spec=2.2", "-mabi=ilp32"]
CLANG_MACHINE = [
    "--target=riscv32-unknown-elf",
    "-march=rv32im",
    "-mabi=ilp32",
    "-gdwarf-4",
    "-nostdlibinc",
]
COMMON = ["-g", "-ffunction-sections", "-fdata-sections"]
FOR_CXX = [
    "-fno-exceptions",
    "-fno-rtti",
    "-fno-threadsafe-statics",
    "-fno-use-cxa-atexit",
]
LINKED = [
    "-nostartfiles",
    "-Wl,--gc-sections",
    "-Wl,--emit-relocs",
    "-Wl,--no-warn-rwx-segments",
]


@dataclass
class Job:
    """What the words of a call ask for."""

    output: str = "a.s"
    pages: int = 256
    stack: int = 16384
    script: str = os.path.join(LIB, "board.ld")
    with_notes: bool = False
    with_check: bool = True
    by_clang: bool = False
    with_start: bool = True
    is_alone: bool = False  # the compiler's own business
    files: list[str] = field(default_factory=list)
    words: list[str] = field(default_factory=list)
    linking: list[str] = field(default_factory=list)


class CompilerFailed(Exception):
    """The compiler has said what is wrong."""


def read_job(words: Iterable[str]) -> Job:
    """Reads the words of a call."""
    job = Job()
    rest = iter(words)

    def following(word: str) -> str:
        value = next(rest, None)
        if value is None:
            raise Refused(f"{word} needs a word after it; cc --help lists the words")
        return value

    def number(word: str, most: int) -> int:
        value = following(word)
        if not value.isdigit() or not 0 < int(value) <= most:
            raise Refused(f"{word} {value}: it needs a number from 1 to {most}")
        return int(value)

    settings: dict[str, Callable[[str], None]] = {
        "-o": lambda word: setattr(job, "output", following(word)),
        "-T": lambda word: setattr(job, "script", following(word)),
        "--pages": lambda word: setattr(job, "pages", number(word, 4096)),
        "--stack": lambda word: setattr(job, "stack", number(word, 4096 * 4096)),
        "--notes": lambda word: setattr(job, "with_notes", True),
        "--clang": lambda word: setattr(job, "by_clang", True),
        "--no-check": lambda word: setattr(job, "with_check", False),
    }
    for word in rest:
        if word in settings:
            settings[word](word)
        elif word in PAIRS:
            job.words += [word, following(word)]
        elif word in ("-u", "-Xlinker", "-L", "-l"):
            job.linking += [word, following(word)]
        elif word.startswith(LINKING):
            job.linking.append(word)
        elif not word.startswith("-") and word.endswith(C + CXX + ASSEMBLY + OBJECTS):
            job.files.append(word)
        else:
            job.words.append(word)
            job.with_start &= word not in ("-nostdlib", "-nostartfiles")
            job.is_alone |= word in ALONE
    return job


def main() -> int:
    """Compiles, links, and makes a source."""
    words = sys.argv[1:]
    if not words or words[0] in ("-h", "--help"):
        print(HELP)
        return 0 if words else 1
    try:
        job = read_job(words)
        if not job.files:
            raise Refused(
                "it needs a file in C, C++ or GNU assembly; cc --help lists the words"
            )
        for file in job.files:
            if (
                os.path.exists(job.output)
                and os.path.exists(file)
                and os.path.samefile(job.output, file)
            ):
                raise Refused(f"{file} would be written over: name another file by -o")
        with tempfile.TemporaryDirectory(prefix="cc") as room:
            return compile_all(job, room)
    except Refused as refused:
        print(f"cc: {refused}", file=sys.stderr)
    except CompilerFailed:
        pass
    return 1


def compile_all(job: Job, room: str) -> int:
    """Makes what the job asks for; the folder is for what comes between."""
    base = [*compiler(job), *COMMON, "-I", LIB]
    given = [*base, "-Og", *job.words]
    if job.is_alone:
        output = ["-o", job.output] if job.output != Job.output else []
        run([*given, *job.linking, *job.files, *output])
        return 0
    tasks = [
        (given, file, os.path.join(room, f"{i}.o")) for i, file in enumerate(job.files)
    ]
    if job.with_start:
        base += [word for word in job.words if "-prefix-map=" in word]
        own = [(base, "start.S"), ([*base, "-Os"], "board.c")]
        tasks = [
            (words, os.path.join(LIB, name), os.path.join(room, name + ".o"))
            for words, name in own
        ] + tasks
    with ThreadPoolExecutor(max_workers=os.cpu_count()) as pool:
        objects = list(pool.map(lambda task: compile_one(job, *task), tasks))
    is_elf = job.output.endswith(".elf")
    elf = (
        job.output
        if is_elf
        else os.path.join(
            room, os.path.splitext(os.path.basename(job.output))[0] + ".elf"
        )
    )
    link(job, objects, elf)
    return 0 if is_elf else make_source(job, elf)


def compiler(job: Job) -> list[str]:
    """The words of the compiler, with the library's headers."""
    gcc = PREFIX + "gcc"
    if shutil.which(gcc) is None:
        raise Refused(f"{not_installed(gcc)} picolibc-riscv64-unknown-elf")
    specs = output_of([gcc, "-print-file-name=picolibc.specs"]).strip()
    if not os.path.exists(specs):
        raise Refused(
            "picolibc isn't installed: apt-get install picolibc-riscv64-unknown-elf"
        )
    if not job.by_clang:
        return [gcc, *MACHINE, "-specs=picolibc.specs"]
    if shutil.which("clang") is None:
        raise not_installed("clang")
    with open(specs, encoding="utf-8") as file:
        headers = re.findall(r":(/[^:;}]*/include)\}", file.read())
    return [
        "clang",
        *CLANG_MACHINE,
        *(word for folder in headers[:1] for word in ("-isystem", folder)),
    ]


def run(command: list[str]) -> None:
    """Runs a compiler, which tells by itself what is wrong."""
    if subprocess.run(command, check=False).returncode:
        raise CompilerFailed


def compile_one(job: Job, words: list[str], file: str, output: str) -> str:
    """Compiles a file; objects and libraries stay as they are."""
    if file.endswith(OBJECTS):
        return file
    if file.endswith(CXX):
        words = [*words, *FOR_CXX]
    if (
        job.with_notes
        and not job.by_clang
        and file.endswith(C + CXX)
        and not file.startswith(LIB)
    ):
        text = output[:-1] + "s"
        run(
            [
                *words,
                "-fverbose-asm",
                "-fno-asynchronous-unwind-tables",
                "-S",
                file,
                "-o",
                text,
            ]
        )
        hide_lines(text)
        run([*words, "-g0", "-Wa,-g", "-c", text, "-o", output])
    else:
        run([*words, "-c", file, "-o", output])
    return output


def hide_lines(path: str) -> None:
    """Turns gcc's own table of lines into comments, so that the assembler's names lines of this text."""
    with open(path, encoding="latin-1") as file:
        text = file.read()
    text = re.sub(
        r"^\t\.section\t\.debug.*\Z", "", text, flags=re.MULTILINE | re.DOTALL
    )
    text = re.sub(r"^\t\.(loc|file)[ \t]", r"#\1 ", text, flags=re.MULTILINE)
    # nor are the places that gcc gives inline assembly lines of this text
    text = re.sub(r"^# (\d+ \")", r"#at \1", text, flags=re.MULTILINE)
    with open(path, "w", encoding="latin-1") as file:
        file.write(text)


def link(job: Job, objects: list[str], elf: str) -> None:
    """Links a program, always by GNU's linker."""
    place = [
        "-T",
        job.script,
        f"-Wl,--defsym=PAGES={job.pages}",
        f"-Wl,--defsym=STACK={job.stack}",
    ]
    words = [
        word
        for word in job.words
        if not job.by_clang or word.startswith(("-nostd", "-D", "-O"))
    ]
    run(
        [
            PREFIX + "gcc",
            *MACHINE,
            "-specs=picolibc.specs",
            *words,
            *LINKED,
            *place,
            *objects,
            *job.linking,
            "-o",
            elf,
        ]
    )


def make_source(job: Job, elf: str) -> int:
    """Makes the source of a program, and compares it."""
    program = read_program(elf)
    made = Source(program, [], PREFIX).write()
    with open(job.output, "w", encoding="latin-1", errors="replace") as file:
        file.write(made)
    if job.with_check:
        difference = check(proved_program("rvboard", "RVBOARD"), job.output, program)
        if difference:
            raise Refused(f"{difference}: this is a fault of cc's; please report it")
    return 0
