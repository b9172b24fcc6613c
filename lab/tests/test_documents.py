"""What docs/WORKBENCH.md shows is what the workbench does."""

from __future__ import annotations

import contextlib
import io
import os
import re
import tempfile
import textwrap
import unittest
from pathlib import Path

from amurth_lab.certificates import read_problem
from amurth_lab.cli import main
from amurth_lab.importing import source_of
from amurth_lab.macros import BUILT_IN
from amurth_lab.parser import read_text
from amurth_lab.questions import Setting
from tests.support import program, setting

ROOT = Path(__file__).resolve().parents[2]
GUIDE = (ROOT / "docs" / "WORKBENCH.md").read_text()


def shown(first: str) -> str:
    """The indented text of the guide whose first line begins so."""
    text = GUIDE[GUIDE.index(f"\n    {first}") + 1 :]
    return textwrap.dedent(re.split(r"\n\n(?! )", text)[0])


def bare(text: str) -> str:
    """A text without paths, sizes and seconds, which differ."""
    text = re.sub(r"[\d.]+ s\b", "S", text)
    return re.sub(r" +", " ", re.sub(r"certificate \S+, [\d,]+ (bytes|kB|MB)", "certificate", text))


class Guide(unittest.TestCase):
    def setUp(self) -> None:
        folder = tempfile.TemporaryDirectory()
        self.addCleanup(folder.cleanup)
        self.addCleanup(os.chdir, os.getcwd())
        os.chdir(folder.name)

    def lab(self, *words: str) -> str:
        """The output of a command line."""
        out = io.StringIO()
        with contextlib.redirect_stdout(out):
            main([*words, "--program", str(program().path)])
        return out.getvalue()

    def test_the_first_story(self) -> None:
        source = shown("# The bitwise and of two unsigned ranges.")
        Path("and.lab").write_text(source)
        found = bare(self.lab("check-mine", "and.lab", "--width", "4"))
        self.assertIn("mine at width 4: UNSOUND", found)
        self.assertIn("mine at width 4: UNSOUND", bare(shown("mine at width 4: UNSOUND")))
        Path("and.lab").write_text(source.replace("lo = x.lo & y.lo", "lo = 0"))
        found = self.lab("check-mine", "and.lab")
        self.assertEqual(len(re.findall(r"^mine at width [2-8]: sound \(", found, re.MULTILINE)), 7)

    def test_the_second_story(self) -> None:
        source = shown("# The bitwise and of two unsigned ranges.").replace("lo = x.lo & y.lo", "lo = 0")
        Path("and.lab").write_text(source + "\n" + shown("grammar {\n      let changing"))
        found = self.lab("check-mine", "and.lab", "--width", "4")
        told = shown("mine at width 4: sound")
        self.assertEqual(bare(found).split("where")[0], bare(told).split("where")[0])
        self.assertIn("15,406 of 18,496", self.lab("optimal", "and.lab", "--width", "4"))
        self.assertIn("15,406 of 18,496", GUIDE)

    def test_the_language_at_one_look(self) -> None:
        text = shown("domain u-interval                     #").replace('use "common.lab"', "# use")
        text = text.replace("expect sound kernel                   # also", "expect sound kernel  # also")
        file = read_text(text, "guide.lab")
        at = Setting(file, 4)
        self.assertEqual(at.synthesis().depth, 3)  # with the level of the feasible inputs
        self.assertEqual(len(at.transformer(file.candidates[0]).terms), 2)

    def test_each_macro_is_named(self) -> None:
        for name in BUILT_IN:
            self.assertRegex(GUIDE, rf"[` ]{name}\b")


class Examples(unittest.TestCase):
    def test_each_problem_of_the_examples_becomes_a_source_that_asks_the_same(self) -> None:
        paths = sorted((ROOT / "examples").glob("*.amurth"))
        self.assertGreater(len(paths), 10)
        for path in paths:
            with self.subTest(path=path.name):
                problem = read_problem(path.read_text(), path.name)
                self.assertEqual(problem.text(), path.read_text())
                again = setting(source_of(problem, path.stem), problem.width).synthesis()
                same = (again.width, again.operation, again.assume, again.domain, again.turns, again.conflicts)
                expected = problem.operation, problem.assume, problem.domain, problem.turns, problem.conflicts
                self.assertEqual(same, (problem.width, *expected))
                self.assertEqual(again.trees(), problem.trees())


if __name__ == "__main__":
    unittest.main()
