"""The escapes of case files."""

import unittest

from runner import escapes


class Escapes(unittest.TestCase):
    def test_each_escape_is_read(self) -> None:
        self.assertEqual(escapes.read(r"a\nb\\c\x00\xff"), b"a\nb\\c\x00\xff")

    def test_a_repetition_is_written_out(self) -> None:
        self.assertEqual(escapes.read(r"\{3 (not }x\{2 \n}"), b"(not (not (not x\n\n")

    def test_an_unknown_escape_is_refused(self) -> None:
        for text in (r"\q", r"\x4", r"\{3}", r"\{x y}"):
            with self.subTest(text), self.assertRaises(escapes.BadEscape):
                escapes.read(text)

    def test_a_character_that_is_no_byte_is_refused(self) -> None:
        with self.assertRaises(escapes.BadEscape):
            escapes.read("\u2264")

    def test_each_byte_is_shown_so_that_it_reads_back(self) -> None:
        every = bytes(range(256))
        shown = escapes.shown(every)
        self.assertTrue(all(" " <= c <= "~" for c in shown))
        self.assertEqual(escapes.read(shown), every)
