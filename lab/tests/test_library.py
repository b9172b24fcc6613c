"""Each file of the library states what it is and what is expected, and docs/LIBRARY.md names files that are there."""

from __future__ import annotations

import re
import unittest
from pathlib import Path

from amurth_lab.parser import read_file
from amurth_lab.questions import Setting

ROOT = Path(__file__).resolve().parents[2]
LIBRARY = ROOT / "library"
TOLD = (ROOT / "docs" / "LIBRARY.md").read_text().split("<!-- table -->")[0]
NAMES = [path.relative_to(LIBRARY).with_suffix("").as_posix() for path in sorted(LIBRARY.rglob("*.lab"))]


def named(section: str) -> list[str]:
    """The names of files in a section of docs/LIBRARY.md."""
    text = TOLD.split(f"## {section}\n")[1].split("\n## ")[0]
    return [name for name in re.findall(r"`([a-z][a-z/0-9-]*)`", text) if "/" in name or "-mistake" in name]


class Library(unittest.TestCase):
    def test_each_file_says_what_it_is_and_what_is_expected(self) -> None:
        self.assertGreater(len(NAMES), 300)
        for name in NAMES:
            with self.subTest(name=name):
                file = read_file(LIBRARY / f"{name}.lab")
                self.assertRegex(file.description, r"[Aa]s\s+written\s+here")
                self.assertTrue(file.expectations)
                for width in file.widths:
                    self.assertEqual(Setting(file, width).width, width)

    def test_the_document_names_files_that_are_there(self) -> None:
        for section in ("Ten findings", "Mistakes and their repairs"):
            for name in named(section):
                with self.subTest(name=name):
                    self.assertTrue(any(file == name or file.endswith(f"/{name}") for file in NAMES))

    def test_each_system_has_a_mistake(self) -> None:
        told = named("Mistakes and their repairs")
        for system in sorted({name.split("/")[0] for name in NAMES}):
            with self.subTest(system=system):
                own = [name for name in NAMES if name.startswith(f"{system}/")]
                self.assertTrue(any(file == name or file.endswith(f"/{name}") for file in own for name in told))


if __name__ == "__main__":
    unittest.main()
