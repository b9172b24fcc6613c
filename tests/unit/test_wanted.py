"""What is wanted of a run, and how a difference is told."""

import unittest

from runner.process import Ended
from runner.wanted import AnyOf, Exactly, Like, Wanted


class ExactText(unittest.TestCase):
    def test_the_same_text_is_no_difference(self) -> None:
        self.assertIsNone(Exactly(b"best 1\n").difference(b"best 1\n"))

    def test_each_other_byte_is_a_difference(self) -> None:
        text = b"node 0 0,3\n"
        for at in range(len(text)):
            other = text[:at] + bytes([text[at] ^ 1]) + text[at + 1 :]
            with self.subTest(at=at):
                self.assertIn(f"differs at byte {at}:", Exactly(text).difference(other) or "")

    def test_each_torn_output_is_a_difference(self) -> None:
        text = b"node 0 0,3\n"
        for size in range(len(text)):
            with self.subTest(size=size):
                self.assertIn(f"torn after {size} of 11 bytes", Exactly(text).difference(text[:size]) or "")

    def test_a_text_that_goes_on_is_a_difference(self) -> None:
        self.assertIn("goes on after 2 bytes with `x`", Exactly(b"a\n").difference(b"a\nx") or "")


class Pattern(unittest.TestCase):
    def test_a_star_stands_for_a_part_of_one_line(self) -> None:
        self.assertIsNone(Like(b"term *\nend\n").difference(b"term (not f0)\nend\n"))
        self.assertIsNotNone(Like(b"term *\nend\n").difference(b"term 0\nterm 3\nend\n"))

    def test_two_stars_stand_for_any_text(self) -> None:
        self.assertIsNone(Like(b"log **end\n").difference(b"log sound\nchain 1\nend\n"))
        self.assertIsNotNone(Like(b"log **end\n").difference(b"log sound\nchain 1\nend"))


class OneOfTheBest(unittest.TestCase):
    wanted = AnyOf(b"certificate 2\n", (b"0 3", b"(not f1) 3"))

    def test_each_listed_tuple_is_taken(self) -> None:
        for terms in (b"term 0\nterm 3\n", b"term (not f1)\nterm 3\n"):
            self.assertIsNone(self.wanted.difference(b"certificate 2\nanswer best\n" + terms + b"log sound\n"))

    def test_another_tuple_or_answer_is_a_difference(self) -> None:
        for answer in (b"answer best\nterm 0\nterm 0\n", b"answer best\nterm 0\n", b"answer none\n", b"answer turns\n"):
            with self.subTest(answer):
                self.assertIsNotNone(self.wanted.difference(b"certificate 2\n" + answer))

    def test_another_head_is_a_difference(self) -> None:
        self.assertIsNotNone(self.wanted.difference(b"certificate 1\nanswer best\nterm 0\nterm 3\n"))

    def test_with_none_listed_the_answer_is_none(self) -> None:
        self.assertIsNone(AnyOf(b"", ()).difference(b"answer none\nlog fit\n"))
        self.assertIsNotNone(AnyOf(b"", ()).difference(b"answer best\nterm 0\n"))


class StatusAndErrors(unittest.TestCase):
    def test_each_part_that_differs_is_told(self) -> None:
        told = Wanted(0, Exactly(b"accepted\n")).difference(Ended(9, b"rejected\n", b"oh")) or ""
        self.assertEqual(len(told.splitlines()), 3)
        self.assertIn("wanted status 0, got status 9", told)
        self.assertIn("standard error: `oh`", told)

    def test_a_signal_and_a_run_without_end_are_told(self) -> None:
        self.assertIn("SIGSEGV", Wanted(0, Exactly(b"")).difference(Ended(-11, b"")) or "")
        self.assertIn("no end", Wanted(0, Exactly(b"")).difference(Ended(None, b"")) or "")
