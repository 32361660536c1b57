"""The words of cc."""

import unittest

from elf.compiler import read_job
from elf.refusal import Refused


class Words(unittest.TestCase):
    """What a call asks for."""

    def test_own_words_and_the_compilers(self) -> None:
        job = read_job(
            "-O2 main.c --pages 512 -I include -lm lib.a -o out.s -DX=1 start.S".split()
        )
        self.assertEqual((job.output, job.pages, job.with_start), ("out.s", 512, True))
        self.assertEqual(job.files, ["main.c", "lib.a", "start.S"])
        self.assertEqual(job.words, ["-O2", "-I", "include", "-DX=1"])
        self.assertEqual(job.linking, ["-lm"])

    def test_without_the_start(self) -> None:
        self.assertFalse(read_job(["-nostdlib", "a.S"]).with_start)

    def test_refused(self) -> None:
        for words in (["-o"], ["--pages", "0"], ["--pages", "4097"], ["--pages", "x"]):
            with self.assertRaises(Refused):
                read_job(words)


if __name__ == "__main__":
    unittest.main()
