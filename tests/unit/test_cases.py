"""Case files as they are read."""

from __future__ import annotations

from runner.blocks import BadCase
from runner.cases import read_cases
from runner.kinds.memory import Memory
from runner.kinds.runs import Run
from runner.kinds.scripts import Script, marked_lines
from runner.kinds.synthesis import Synthesis
from runner.wanted import AnyOf, Exactly, Like, Wanted

from .fakes import WithFakes

TEXT = "text bare\n| certificate 1\n| end\n"


class Reading(WithFakes):
    def read(self, text: str) -> list[object]:
        """The kinds of the cases of a file."""
        (self.folder / "a.cases").write_text(text, encoding="ascii")
        return [case.kind for case in read_cases(self.folder, self.folder)]

    def input(self, lines: str) -> bytes:
        """The input of a case with these lines."""
        (kind,) = self.read(f"{TEXT}\ncase one\nrun check\n{lines}status 0\noutput accepted\n")
        assert isinstance(kind, Run)
        return kind.text

    def refusal(self, text: str) -> str:
        """Why a file is refused."""
        with self.assertRaises(BadCase) as caught:
            self.read(text)
        return str(caught.exception)

    def test_a_run_has_words_input_status_and_output(self) -> None:
        (kind,) = self.read("# Why.\n\ncase one\nrun make 7\ninput\n| a\n| b\nstatus 9\noutput\n| c\n| d\n")
        self.assertEqual(kind, Run(["make", "7"], b"a\nb\n", Wanted(9, Exactly(b"c\nd\n"))))

    def test_what_is_not_said_is_empty(self) -> None:
        self.assertEqual(self.read("case one\nrun\nstatus 2\n"), [Run([], b"", Wanted(2, Exactly(b"")))])

    def test_a_backslash_at_the_end_joins_two_lines(self) -> None:
        self.assertEqual(self.input("input\n| a\\\n| b\\\\\n|\n| c\\\n"), b"ab\\\n\nc")

    def test_pieces_are_joined(self) -> None:
        (self.folder / "f").write_bytes(b"\x00f")
        self.assertEqual(self.input("input bare\ninput\n| flow 1\nfile f\n"), b"certificate 1\nend\nflow 1\n\x00f")

    def test_a_piece_is_edited(self) -> None:
        self.assertEqual(self.input("input bare\nold 1\\n\nnew 2 \\x20\n"), b"certificate 2  end\n")
        self.assertEqual(self.input("input bare\nold end\\n\nnew\n"), b"certificate 1\n")
        self.assertEqual(self.input("input bare\nfirst 4\n"), b"cert")

    def test_an_edit_that_does_not_fit_is_refused(self) -> None:
        for lines, why in (
            ("input bare\nold e\nnew f\n", "stands 3 times"),
            ("input bare\nold x\nnew f\n", "stands 0 times"),
            ("input bare\nold end\n", "old without new"),
            ("input bare\nfirst 99\n", "has 18 bytes"),
            ("input bear\n", "no text bear"),
            ("file nowhere\n", "no file nowhere"),
            ("new x\n", "can't stand here"),
        ):
            with self.subTest(lines):
                self.assertIn(why, self.refusal(f"{TEXT}case one\nrun check\n{lines}status 0\n"))

    def test_fields_say_the_kind(self) -> None:
        (kind,) = self.read("case one\nrun synth\ninput\n| a\nstatus 0\nbest\n| 0 3\n| 1 3\n")
        self.assertEqual(kind, Synthesis(b"a\n", Wanted(0, AnyOf(b"certificate 2\na\n", (b"0 3", b"1 3")))))
        (kind,) = self.read("case one\nrun make 7\nstatus 0\noutput make 7\nbest none\n")
        self.assertEqual(kind, Run(["make", "7"], b"", Wanted(0, AnyOf(b"make 7\n", ()))))
        (kind,) = self.read("case one\nrun make 7\nmemory\nstatus 0\nlike *\n")
        self.assertEqual(kind, Memory(["make", "7"], b"", Wanted(0, Like(b"*\n"))))
        (kind,) = self.read("case one\nshell\n| amurth check\ninput\n| a\nstatus 6\n")
        self.assertEqual(kind, Script("amurth check\n", b"a\n", Wanted(6, Exactly(b""))))
        (kind,) = self.read("case one\nrun check\nstdin folder\nstdout full\nstatus 3\n")
        self.assertEqual(kind, Run(["check"], b"", Wanted(3, Exactly(b"")), "folder", "full"))

    def test_a_faulty_file_is_refused_with_its_place(self) -> None:
        for text, why in (
            ("run check\n", "a.cases:1: a line before the first text or case"),
            ("case one\nrun check\n", "a.cases:1: a case wants a status"),
            ("case one\nstatus 0\n", "a.cases:1: a case has one of run, shell and readme"),
            ("case one\nrun\nshell\n| a\nstatus 0\n", "a.cases:1: a case has one of run, shell and readme"),
            ("case one\nrun\nstatus x\n", "a.cases:3: status wants a number"),
            ("case one\nrun\nstatus 0\nstatus 0\n", "a.cases:4: a second status"),
            ("case one\nrun\nstate 0\n", "a.cases:3: no field is named state"),
            ("case one\nrun\nstdin no\nstatus 0\n", "a.cases:3: stdin is one of"),
            ("case one\nrun \nstatus 0\n", "a.cases:2: a space at the end"),
            ("case one\nrun\nstatus 0\noutput \\q\n", "a.cases:4: a backslash before"),
            ("case one\nrun\nstatus 0\n\ncase one\nrun\nstatus 0\n", "a.cases:5: a second case named one"),
            (TEXT + TEXT, "a.cases:4: a second text named bare"),
        ):
            with self.subTest(text):
                self.assertIn(why, self.refusal(text))

    def test_lines_of_readme_are_found_by_their_mark(self) -> None:
        readme = "Text.\n\n<!-- run: check -->\n\n    amurth check\n    sh x\n\nText.\n\n    rt ci\n"
        self.assertEqual(marked_lines(readme), {"check": "amurth check\nsh x\n"})
        (self.folder / "README.md").write_text(readme, encoding="utf-8")
        (kind,) = self.read("case one\nreadme check\nstatus 0\n")
        self.assertEqual(kind, Script("amurth check\nsh x\n", b"", Wanted(0, Exactly(b""))))
        self.assertIn("no lines to be run as none", self.refusal("case one\nreadme none\nstatus 0\n"))
