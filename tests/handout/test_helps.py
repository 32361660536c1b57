"""What is read of helps, and what isn't understood and so refused."""

import unittest

from elf.refusal import Refused
from handout.completion import bash, zsh
from handout.contents import with_known_links, without_marks
from handout.helps import (
    Argument,
    Command,
    Help,
    Option,
    read_commands,
    read_examples,
    read_help,
    read_tool_help,
)
from handout.manual import escaped, manual, statuses

HELP = """\
runs it

Usage: tool [OPTIONS] <SOURCE> [LIST]

Arguments:
  <SOURCE>  what is run
  [LIST]    its list

Options:
      --take <F>  some bytes, a file
      --most <N>  a number, it's 1 to 9 [default: 3]
  -h, --help      Print help
"""
TOOL_HELP = """\
usage: grade LIST FILE.. [--json FILE]
       grade --merge FILE..

Grades (docs/A.md).

positional arguments:
  FILE         some files

options:
  -h, --help   show this help message and exit
  --json FILE  write JSON
  --shard I/N  some alone

A note.
"""
SAID = """\
a.s: 1 line
80000000  1:  nop
> help
s [N]               takes steps
m WHERE [N] [w|t]   shows bytes, or words
why [REG|WHERE [N]] explains a trap
q                   ends
An empty line repeats. It is
free text.
> """
EXAMPLES = """\
> help s
s [N]: takes steps
  example: s 5
> help m
m WHERE [N] [w|t]: shows bytes, or words
  example: m sp 8 w
> help why
why [REG|WHERE [N]]: explains a trap
  example: why sp
> help q
q: ends
  example: q
> """
DOCUMENT = """\
Text.

| Exit status | When |
|---|---|
| 0 | halted, `x` |
| 5 | only of the script `tool` |
| 4 | no file ([A.md](A.md)) |

| 7 | another table |
"""


class Helps(unittest.TestCase):
    """The help of a program."""

    def test_each_row_is_read(self) -> None:
        self.assertEqual(
            read_help("tool", HELP),
            Help(
                "tool",
                "runs it",
                ["[OPTIONS] <SOURCE> [LIST]"],
                [
                    Argument("SOURCE", True, "what is run"),
                    Argument("LIST", False, "its list"),
                ],
                [
                    Option("", "--take", "F", "some bytes, a file"),
                    Option("", "--most", "N", "a number, it's 1 to 9 [default: 3]"),
                    Option("-h", "--help", "", "Print help"),
                ],
            ),
        )

    def test_files_are_told_from_numbers(self) -> None:
        options = read_help("tool", HELP).options
        self.assertEqual(
            [option.takes_file for option in options], [True, False, False]
        )

    def test_a_help_in_python_is_read(self) -> None:
        words = read_tool_help("grade", TOOL_HELP)
        self.assertEqual((words.program, words.about), ("grade", "Grades (docs/A.md)"))
        self.assertEqual(words.usages, ["LIST FILE.. [--json FILE]", "--merge FILE.."])
        self.assertEqual(words.arguments, [Argument("FILE", True, "some files", True)])
        options = [(it.names, it.value, it.takes_file) for it in words.options]
        self.assertEqual(
            options,
            [
                (["-h", "--help"], "", False),
                (["--json"], "FILE", True),
                (["--shard"], "I/N", False),
            ],
        )
        with self.assertRaises(Refused):
            read_tool_help("grade", TOOL_HELP.replace("  --json FILE", "  --json=FILE"))

    def test_what_is_not_understood_is_refused(self) -> None:
        changes = [
            ("  -h, --help ", "  -h, /help "),
            ("--most <N>", "--most <n..>"),
            ("  [LIST] ", "  LIST... "),
            ("some bytes, a file\n", "some bytes,\n                  a file\n"),
            ("Usage: tool", "Usage: other"),
            ("Options:", "Global options:"),
        ]
        for old, new in changes:
            self.assertIn(old, HELP)
            with self.assertRaises(Refused, msg=new):
                read_help("tool", HELP.replace(old, new))


class Commands(unittest.TestCase):
    """The commands of the lab."""

    def test_each_is_read_with_its_example(self) -> None:
        rows, note = read_commands(SAID)
        self.assertEqual(note, ["An empty line repeats. It is", "free text."])
        found = list(read_examples(EXAMPLES, rows))
        self.assertEqual([command.word for command in found], ["s", "m", "why", "q"])
        shows = Command("m WHERE [N] [w|t]", "shows bytes, or words", "m sp 8 w")
        self.assertEqual(found[1], shows)

    def test_a_list_that_is_not_understood_is_refused(self) -> None:
        for old, new in [
            ("m WHERE [N] [w|t]  ", "m WHERE [N] [w|t]"),
            ("> help\n", "> h\n"),
        ]:
            with self.assertRaises(Refused):
                read_commands(SAID.replace(old, new))

    def test_an_example_that_is_not_there_is_refused(self) -> None:
        rows, _ = read_commands(SAID)
        for old, new in [
            ("  example: q\n", ""),
            ("s [N]: takes", "s [N]: does"),
            ("example: s", "s"),
        ]:
            with self.assertRaises(Refused):
                list(read_examples(EXAMPLES.replace(old, new), rows))


class Made(unittest.TestCase):
    """What is made of them."""

    def test_signs_of_roff(self) -> None:
        self.assertEqual(
            escaped(".a-b\\n 'x' `y` ^~\""),
            "\\&.a\\-b\\en \\(aqx\\(aq \\(gay\\(ga \\(ha\\(ti\\(dq",
        )

    def test_exit_statuses(self) -> None:
        self.assertEqual(
            statuses(DOCUMENT, "tool"), [("0", "halted, x"), ("4", "no file (A.md)")]
        )
        two = f"# A\n{DOCUMENT}\n## The tool\n\n| Exit status | When |\n|---|---|\n| 7 | odd |\n"
        self.assertEqual(statuses(two, "tool"), [("7", "odd")])
        self.assertEqual(statuses(two, "other")[0], ("0", "halted, x"))
        with self.assertRaises(Refused):
            statuses("| Status | When |\n", "tool")

    def test_the_date_of_a_manual(self) -> None:
        page = manual(
            read_help("tool", HELP), "1.2", 86399, DOCUMENT, "docs/A.md", [], []
        )
        self.assertIn('.TH TOOL 1 1970-01-01 "1.2" "Solartansy"\n', page)

    def test_signs_of_zsh(self) -> None:
        brief = "a number, it'\\''s 1 to 9 \\[default\\: 3\\]"
        message = "a number, it'\\''s 1 to 9 [default\\: 3]"
        made = zsh(read_help("tool", HELP))
        self.assertIn(f"    '--most=[{brief}]:{message}: ' \\\n", made)
        self.assertIn("'--take=[some bytes, a file]:some bytes, a file:_files'", made)
        self.assertIn("'(- *)-h[Print help]' '(- *)--help[Print help]'", made)
        self.assertTrue(
            made.endswith("    ':what is run:_files' \\\n    '::its list:_files'\n")
        )

    def test_values_that_are_listed(self) -> None:
        option = Option("-f", "--form", "FORM", "the form [possible values: elf, bin]")
        words = Help("tool", "x", ["y"], [], [option])
        self.assertIn('-f | --form) mapfile -t COMPREPLY < <(compgen -W "elf bin" ', bash(words))
        text = "[the form \\[possible values\\: elf, bin\\]]:the form [possible values\\: elf, bin]:(elf bin)"
        self.assertIn(f"'(-f --form)-f{text}' '(-f --form)--form={text}'", zsh(words))

    def test_flags_go_together(self) -> None:
        flag = Option("", "--quiet", "", "no text")
        self.assertIn("    '--quiet[no text]' ", zsh(Help("tool", "x", ["y"], [Argument("A", True, "a")], [flag])))

    def test_links_to_what_is_not_there(self) -> None:
        text = "[A](A.md#x), [B](B.md), [C](#c) and [D](https://d.org/)"
        self.assertEqual(
            with_known_links(text, ["docs/A.md"]),
            "[A](A.md#x), B, [C](#c) and [D](https://d.org/)",
        )

    def test_what_is_not_there_is_left_out_of_the_readme(self) -> None:
        text = "a <!-- page -->b\n<!-- end --><!-- rvgdb -->c <!-- end -->d"
        self.assertEqual(without_marks(text, {"page"}), "a b\nd")
        self.assertEqual(without_marks(text, {"rvgdb"}), "a c d")
        self.assertEqual(without_marks(text, set()), "a d")


if __name__ == "__main__":
    unittest.main()
