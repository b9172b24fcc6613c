"""The pictures of `docs/`: those that stand there are drawn from what stands in `crates.txt` now."""

import sys
import unittest
from xml.etree import ElementTree

from .fakes import TOP

sys.path.insert(0, str(TOP / "docs"))
import pictures  # noqa: E402

CRATES = """\
low: arrayvec
middle: low itoa
other: low
top: middle other low
am_test_all: top middle
"""


class Pictures(unittest.TestCase):
    def test_the_files_are_as_drawn(self) -> None:
        for path, text in pictures.pictures().items():
            with self.subTest(path.name):
                self.assertEqual(path.read_text(encoding="utf-8"), text, "draw it anew: python3 docs/pictures.py")

    def test_each_crate_but_those_of_tests_has_a_box(self) -> None:
        names = [line.split(":")[0] for line in (TOP / "crates.txt").read_text().splitlines()]
        drawn = [text.text for text in ElementTree.parse(TOP / "docs/layers.svg").iter() if text.tag.endswith("}text")]
        self.assertEqual(sorted(drawn), sorted(name for name in names if not name.startswith("am_test_")))

    def test_layers_and_lines(self) -> None:
        crates = pictures.read_crates(CRATES)
        self.assertEqual(crates, {"low": [], "middle": ["low"], "other": ["low"], "top": ["middle", "other", "low"]})
        self.assertEqual(pictures.layers(crates), [["low"], ["middle", "other"], ["top"]])
        self.assertEqual(pictures.nearest(crates, "top"), ["middle", "other"])

    def test_no_two_boxes_overlap(self) -> None:
        crates = pictures.read_crates((TOP / "crates.txt").read_text(encoding="utf-8"))
        at = pictures.places(crates)
        for row in pictures.layers(crates):
            left = sorted(at[name] for name in row)
            self.assertTrue(all(b - a >= pictures.BOX_WIDTH for a, b in zip(left, left[1:])))
