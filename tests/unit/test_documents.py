"""The documents: what they name is there, in the order of `crates.txt`, and what they quote is as it stands."""

import re
import unittest
from pathlib import Path

from .fakes import TOP

DOCUMENTS = [TOP / "README.md", *sorted((TOP / "docs").glob("*.md"))]
# A file or a folder of the repository in backticks; places with `..`, `*` or a word in capitals stand for many.
_PLACE = re.compile(r"`((?:crates|examples|tests)/[a-z_./+A-Za-z-]+)`")


class Documents(unittest.TestCase):
    def test_each_place_that_is_named_is_there(self) -> None:
        for document in DOCUMENTS:
            for place in _PLACE.findall(document.read_text(encoding="utf-8")):
                if ".." in place or "/out/" in place or re.search(r"\b[A-Z]{2,}\b", place):
                    continue
                with self.subTest(document.name, place=place):
                    self.assertTrue((TOP / place).exists())

    def test_each_file_of_a_crate_that_is_named_is_there(self) -> None:
        places = [(document.name, place) for document in DOCUMENTS for place in self.files_in_crates(document)]
        self.assertGreater(len(places), 80)
        self.assertEqual([(name, place) for name, place in places if not (TOP / "crates" / place).is_file()], [])

    @staticmethod
    def files_in_crates(document: Path) -> list[str]:
        """The files that a document names by their crate and their path in it."""
        return re.findall(r"`((?:am_[a-z]+|amurth)/[\w/+]+\.(?:antt|rt))`", document.read_text(encoding="utf-8"))

    def test_crates_are_listed_in_their_order(self) -> None:
        names = [line.split(":")[0] for line in (TOP / "crates.txt").read_text(encoding="utf-8").splitlines()]
        self.assertEqual(self.crates_of_table("What each crate promises"), names)
        defining = self.crates_of_table("Where definitions stand")
        self.assertEqual(defining, [name for name in names if name in defining])

    @staticmethod
    def crates_of_table(title: str) -> list[str]:
        """The crates in the first column of the table that stands under this title of the architecture."""
        text = (TOP / "docs/ARCHITECTURE.md").read_text(encoding="utf-8")
        section = text.split(f"\n## {title}\n")[1].split("\n## ")[0]
        rows = [line for line in section.splitlines() if line.startswith("| `am")]
        return [name for row in rows for name in re.findall(r"`(\w+)`", row.split("|")[1])]

    def test_the_walkthrough_quotes_the_certificate(self) -> None:
        certificate = (TOP / "docs/complement.cert").read_text(encoding="utf-8").splitlines()
        text = (TOP / "docs/WALKTHROUGH.md").read_text(encoding="utf-8")
        quoted = re.findall(r"^    ((?:positive|negative|chain) .*)$", text, flags=re.M)
        self.assertEqual(len(quoted), 5)
        for line in quoted:
            self.assertIn(line, certificate)

    def test_the_walkthrough_is_of_the_example(self) -> None:
        problem = (TOP / "examples/complement.amurth").read_text(encoding="utf-8")
        self.assertIn(problem, (TOP / "docs/complement.cert").read_text(encoding="utf-8"))
        for name in ("README.md", "docs/WALKTHROUGH.md", "docs/LANGUAGE.md"):
            with self.subTest(name):
                shown = "".join(f"    {line}\n" for line in problem.splitlines())
                self.assertIn(shown, (TOP / name).read_text(encoding="utf-8"))
