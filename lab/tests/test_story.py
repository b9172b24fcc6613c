"""A certificate of each outcome is told."""

from __future__ import annotations

import unittest

from amurth_lab.certificates import read_certificate
from amurth_lab.source import LabError
from amurth_lab.story import Story

PROBLEM = """\
amurth 1
width 2
operation 1 (not x0)
domain u-interval
start L H
depth 1
turns 1
conflicts 10
rule L (not f1) 0
rule H (not f0) f0
end
"""
NEGATIVE = "negative 0 (not f0) in 1 2 out 0\n"
POSITIVE = "positive (not f1) f0 in 0 2 word 0 kept 0\n"


def told(answer: str, accepted: bool | None = True, version: int = 2) -> str:
    """The story of a certificate with an answer."""
    certificate = read_certificate(f"certificate {version}\n{PROBLEM}answer {answer}end\n", "t")
    return "\n".join(Story(certificate, accepted).lines())


class Stories(unittest.TestCase):
    def assert_told(self, text: str, *parts: str) -> None:
        for part in parts:
            self.assertIn(part, text)

    def test_best(self) -> None:
        text = told(
            f"best\nterm (not f1)\nterm (not f0)\n{NEGATIVE}{POSITIVE}"
            "log sound\nchain 1 2 3\nlog best\nchain 1\nchain 2\n"
        )
        self.assert_told(
            text,
            "best for x -> ~x?",
            "4 tuples of trees",
            "L (start) = ~x.hi | 0",
            "Turn 1. At hand was lo = 0; hi = ~x.lo.",
            "It can be closer: where x in [1, 2], the result is [0, 2]",
            "leaves out 0 (0b00)",
            "Turn 2. At hand was lo = ~x.hi; hi = x.lo.",
            "It isn't sound: where x in [0, 2], take x = 0 (0b00).",
            "The operation gives 3 (0b11), and the result is [1, 0]",
            "3 is above `hi` = 0",
            "Of 1 word that were to be left out, 1 can still be.",
            "After 2 turns this one stood:",
            "`sound` of 1 derived clause and `best` of 2 derived clauses",
            "`check` accepted this certificate in this run, so it is proved that",
            "no sound transformer of the grammar is closer",
        )

    def test_hints_are_told_as_chains_are(self) -> None:
        answer = f"best\nterm (not f1)\nterm (not f0)\n{NEGATIVE}{POSITIVE}log sound\n%s\nlog best\n%s\n%s\n"
        chains = told(answer % ("chain 1 2 3", "chain 1", "chain 2"))
        hints = told(answer % ("clause by 1 3", "clause 2 4 by 1", "clause by 2"), version=4)
        self.assertEqual(hints, chains)

    def test_none(self) -> None:
        text = told(f"none\n{POSITIVE.replace('kept 0', 'kept')}log fit\nchain 1 2 3\n")
        self.assert_told(text, "no transformer covered all 1 words", "  - no transformer of the grammar is sound.")

    def test_turns(self) -> None:
        text = told(f"turns\n{NEGATIVE}{NEGATIVE}")
        self.assert_told(
            text, "The 1 turns of the problem were spent. Raise `turns`", "`check` accepts no such certificate"
        )
        self.assertIn("The same transformer was at hand.", text)

    def test_conflicts(self) -> None:
        text = told(f"conflicts\n{NEGATIVE}query sound (not f1) (not f0)\nlog spent\nchain 1 2 3\n")
        self.assert_told(text, "The 10 conflicts of one query, `sound`, were spent.", "Raise `conflicts`")

    def test_nothing_is_said_of_what_is_not_accepted(self) -> None:
        answer = "best\nterm (not f1)\nterm (not f0)\nlog sound\nlog best\n"
        self.assertNotIn("it is proved", told(answer, False))
        self.assertIn("NOT accept", told(answer, False))
        self.assertIn("wasn't asked in this run", told(answer, None))

    def test_what_is_no_certificate_is_refused(self) -> None:
        for text in (
            "",
            "certificate",
            "certificate 2 amurth 1 width 2",
            "hello",
            f"certificate 2\n{PROBLEM}answer best\nterm (f 1)\n",
        ):
            with self.subTest(text=text), self.assertRaisesRegex(LabError, "t is no certificate of Amurth"):
                read_certificate(text, "t")


if __name__ == "__main__":
    unittest.main()
