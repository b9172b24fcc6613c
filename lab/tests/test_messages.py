"""Each mistake of a source is shown at its place, with what was expected."""

from __future__ import annotations

import tempfile
import unittest
from pathlib import Path

from amurth_lab.parser import read_file
from amurth_lab.problem import MOST_SLOTS
from amurth_lab.questions import Setting
from amurth_lab.source import LabError
from tests.support import setting, source

HEAD = "domain u-interval\noperation add(x, y) = x + y\n"


def candidate(low: str, high: str = "ones") -> str:
    """A source with a candidate."""
    return f"{HEAD}candidate mine {{\n  lo = {low}\n  hi = {high}\n}}\n"


def expand(text: str, width: int = 4) -> None:
    """Expands all that a source has."""
    at = setting(text, width)
    for each in at.file.candidates:
        at.soundness(at.transformer(each))
    if at.file.grammar or at.file.candidates:
        at.synthesis()


# A source, and what its message has: the message, the line and column, and the label below the mark.
MISTAKES = [
    ("domain u-interval\n", "the file has no `operation`", "1:18", "operation add(x, y) = x + y"),
    ("operation f(x) = x\n", "the file has no `domain`", "1:19", "u-interval"),
    ("domian u-interval\n", "`domian` begins no statement", "1:1", "did you mean `domain`?"),
    ("domain u-intervall\n", "`u-intervall` is no domain", "1:8", "did you mean `u-interval`?"),
    ("domain parity\ndomain parity\n", "`domain` stands twice", "2:1", "line 1"),
    (HEAD + "widths 2..9\n", "a width is 2 to 8, found 9", "3:11", ""),
    (HEAD + "turns 5000\n", "`turns` is 0 to 4,096, found 5,000", "3:7", ""),
    (HEAD + "conflicts 0\n", "`conflicts` is 1 to 1,000,000, found 0", "3:11", ""),
    ("domain parity\noperation f(a, b, c, d) = a\n", "an operation has 1 to 3 inputs, found 4", "2:11", ""),
    (candidate("x.low"), "`low` is no field of u-interval", "4:8", "did you mean `lo`?"),
    (candidate("x.end"), "`end` is no field of u-interval", "4:8", "the fields are `lo` and `hi`"),
    (candidate("z.lo"), "`z` is no input of the operation", "4:8", "inputs: x, y"),
    (candidate("x"), "`x` is a word, which a transformer doesn't see", "4:8", "it sees `x.lo` and `x.hi`"),
    (candidate("onse"), "`onse` is unknown", "4:8", "did you mean `ones`?"),
    (candidate("Low"), "`Low` is unknown", "4:8", "nonterminal"),
    (candidate("umin(x.lo)"), "`umin` has 2 arguments, found 1", "4:8", ""),
    (candidate("umni(x.lo, 1)"), "`umni` is unknown", "4:8", "did you mean `umin`?"),
    (candidate("umin"), "`umin` needs arguments", "4:8", "expected `umin(..)`"),
    (candidate("16"), "16 doesn't fit in 4 bits", "4:8", "-8 to 15"),
    (candidate("-9"), "-9 doesn't fit in 4 bits", "4:8", "-8 to 15"),
    (candidate("0x"), "`0x` is no number", "4:8", "`0x` or `0b`"),
    (candidate("12ab"), "`12ab` is no number", "4:8", "decimal"),
    (candidate("x.lo @ 1"), "the character '@' has no meaning here", "4:13", ""),
    (candidate("(x.lo"), "expected `)`, found `hi`", "5:3", "expected `)`"),
    (candidate("x.lo +)"), "expected a term, found `)`", "4:14", ""),
    (candidate("x.lo ? 1"), "expected `:`", "5:3", "the other case"),
    (HEAD + "candidate mine {\n  lo = 0\n}\n", "candidate `mine` has no entry for `hi`", "3:11", "`lo` and `hi`"),
    (HEAD + "candidate mine {\n  lo = 0; hi = 0; top = 0\n}\n", "`top` is no field of u-interval", "4:19", ""),
    (candidate("0") + "expect sound mien\n", "there is no candidate `mien`", "7:14", "did you mean `mine`?"),
    (candidate("0") + "expect good mine\n", "`good` is no expectation", "7:8", "`unsound`"),
    (HEAD + "let add = 1\n", "`add` is a word of the language", "3:5", "another name"),
    (HEAD + "let a = a\n" + candidate("a")[len(HEAD) :], "`a` is named in its own term", "3:9", ""),
    (HEAD + "let a = 1\nlet a = 2\n", "`a` is defined twice", "4:5", "line 3"),
    (HEAD + "macro f(a) = f(a)\n" + candidate("f(1)")[len(HEAD) :], "the macro `f` uses itself", "3:14", ""),
    ("domain congruence\noperation f(x) = x\nfeasible x.m\n", "`feasible` can't be used with congruence", "3:10", ""),
    (HEAD + 'use "nowhere.lab"\n', "can't read nowhere.lab", "3:5", ""),
    (
        HEAD + "grammar {\n  lo = A\n  hi = 0\n  A = neg(A) | 1\n}\n",
        "the grammar needs a depth",
        "3:1",
        "`A`: say how many",
    ),
    (
        HEAD + "grammar {\n  lo = 0\n  hi = 0\n  low = 1\n}\n",
        "`low` is neither a field nor a nonterminal",
        "6:3",
        "`lo`?",
    ),
]


class Mistakes(unittest.TestCase):
    def test_each_mistake_is_shown_at_its_place(self) -> None:
        for text, message, place, label in MISTAKES:
            with self.subTest(text=text):
                with self.assertRaises(LabError) as caught:
                    expand(text)
                shown = caught.exception.render()
                self.assertIn(message, shown)
                self.assertIn(f"test.lab:{place}\n", shown)
                self.assertIn(label, shown)

    def test_the_mark_stands_below_the_mistake(self) -> None:
        with self.assertRaises(LabError) as caught:
            expand(candidate("1 + onse"))
        expected = [
            "error: `onse` is unknown",
            " --> test.lab:4:12",
            "  |",
            "4 |   lo = 1 + onse",
            "  |            ^^^^ did you mean `ones`?",
        ]
        self.assertEqual(caught.exception.render().split("\n"), expected)

    def test_a_file_that_uses_itself_is_refused(self) -> None:
        with tempfile.TemporaryDirectory() as folder:
            path = Path(folder, "a.lab")
            path.write_text('use "a.lab"\n' + HEAD)
            with self.assertRaisesRegex(LabError, "uses itself"):
                read_file(path)


class Limits(unittest.TestCase):
    def assert_over(self, text: str, what: str, line: int, width: int = 4) -> None:
        with self.assertRaises(LabError) as caught:
            Setting(source(text), width).synthesis()
        shown = caught.exception.render()
        self.assertIn(what, shown)
        self.assertIn(f"test.lab:{line}:", shown)

    def test_rules(self) -> None:
        leaves = "".join(f"  M{i} = x.lo + {i}\n" for i in range(12))
        low = "((M0 ^ M1) & (M2 ^ M3)) ^ ((M4 ^ M5) & (M6 ^ M7))"
        high = "(M8 ^ M9) & (M10 ^ M11)"
        self.assert_over(
            f"{HEAD}grammar {{\n  lo = {low}\n  hi = {high}\n{leaves}}}\n", "16 rules, and here are 22", 4
        )

    def test_productions(self) -> None:
        many = " | ".join(str(i) for i in range(65))
        self.assert_over(
            f"{HEAD}grammar {{\n  lo = {many}\n  hi = 0\n}}\n", "64 productions, and here are 66: 2 too many", 4, 8
        )

    def test_levels(self) -> None:
        deep = "neg(" * 6 + "A" + ")" * 6
        self.assert_over(f"{HEAD}grammar {{\n  lo = {deep}\n  hi = 0\n  A = 1 | 2\n}}\n", "5 levels of nodes", 4)

    def test_slots(self) -> None:
        text = (
            f"{HEAD}grammar {{\n  lo = S\n  hi = S\n  S = S + T | T - S | x.lo\n  T = S + S | x.hi\n  depth 5\n}}\n"
        )
        self.assert_over(text, f"{MOST_SLOTS} slots", 6)

    def test_load(self) -> None:
        rule = "S = S / S | S % S | S * S | x.lo | x.hi"
        text = f"{HEAD}turns 4096\ngrammar {{\n  lo = S\n  hi = S\n  {rule}\n  depth 4\n}}\n"
        self.assert_over(text, "gates of load", 7, 8)

    def test_an_operation_is_not_cut(self) -> None:
        body = " + ".join(["x * y"] * 30)
        with self.assertRaisesRegex(LabError, "the operation has 119 nodes at width 4"):
            Setting(source(f"domain parity\noperation f(x, y) = {body}\n"), 4)


if __name__ == "__main__":
    unittest.main()
