"""The repository's own cases: all can be read, and nothing that they speak of is left out."""

import unittest

from runner.cases import read_cases
from runner.kinds.scripts import marked_lines

from .fakes import TOP


class OwnCases(unittest.TestCase):
    @classmethod
    def setUpClass(cls) -> None:
        cls.cases = read_cases(TOP / "tests/cases", TOP)
        cls.text = "".join(path.read_text() for path in sorted((TOP / "tests/cases").rglob("*.cases")))

    def test_there_are_many(self) -> None:
        self.assertGreaterEqual(len(self.cases), 4000)

    def test_each_example_is_run_by_a_case(self) -> None:
        for path in sorted((TOP / "examples").iterdir()):
            with self.subTest(path.name):
                self.assertIn(f"examples/{path.name}", self.text)

    def test_each_mark_of_readme_is_run_by_a_case(self) -> None:
        marks = marked_lines((TOP / "README.md").read_text(encoding="utf-8"))
        self.assertTrue(marks)
        for name in marks:
            with self.subTest(name):
                self.assertIn(f"\nreadme {name}\n", self.text)

    def test_no_line_is_long(self) -> None:
        self.assertEqual([line for line in self.text.splitlines() if len(line) > 120], [])
