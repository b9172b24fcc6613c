"""`run` on a folder: what is kept, what is run again, interruption, and how each end of the program is told."""

from __future__ import annotations

import contextlib
import io
import json
import os
import re
import signal
import subprocess
import sys
import tempfile
import time
import unittest
from pathlib import Path

from amurth_lab.cli import main
from tests.support import ADD, fake

LAB = Path(__file__).resolve().parents[1]
SOUND = ADD.split("grammar")[0]


class WithFolder(unittest.TestCase):
    def setUp(self) -> None:
        folder = tempfile.TemporaryDirectory()
        self.addCleanup(folder.cleanup)
        self.folder = Path(folder.name)
        self.files = self.folder / "files"
        (self.files / "deep").mkdir(parents=True)
        for name in ("one", "deep/one", "deep/two"):
            (self.files / f"{name}.lab").write_text(SOUND)

    def lab(self, *words: str | Path) -> tuple[int, str, str]:
        """The exit status, the output and the messages of a command line."""
        out, err = io.StringIO(), io.StringIO()
        with contextlib.redirect_stdout(out), contextlib.redirect_stderr(err):
            status = main([str(word) for word in words])
        return status, out.getvalue(), err.getvalue()

    def run_all(self, behaviour: str, *more: str | Path) -> tuple[int, str, str]:
        program = fake(self.folder, behaviour)
        return self.lab("run", self.files, "--out", self.folder / "out", "--program", program, *more)


class Run(WithFolder):
    def test_all_files_at_all_widths_are_run_and_kept(self) -> None:
        status, out, err = self.run_all("good", "-j", "2")
        self.assertEqual(status, 0, out + err)
        self.assertEqual(len(re.findall("^ok  ", err, re.MULTILINE)), 6)
        self.assertIn("6 files at a width as expected, 0 not", out)
        self.assertTrue((self.folder / "out/deep/one-w3.json").is_file())
        self.assertTrue((self.folder / "out/deep/one-w3-careful.cert").is_file())
        again = self.run_all("good")
        self.assertIn("6 of them kept from earlier runs", again[1])
        self.assertEqual(again[2], "")

    def test_only_what_changed_is_run_again(self) -> None:
        self.run_all("good")
        (self.files / "one.lab").write_text("# A new comment changes nothing.\n" + SOUND)
        self.assertIn("6 of them kept", self.run_all("good")[1])
        (self.files / "one.lab").write_text(SOUND.replace("let over = x.hi", "let over = 0 + x.hi"))
        self.assertIn("4 of them kept", self.run_all("good")[1])

    def test_another_program_runs_all_again(self) -> None:
        self.run_all("good")
        fake(self.folder, "slow").replace(self.folder / "amurth-good")
        program = self.folder / "amurth-good"
        out = self.lab("run", self.files / "one.lab", "--out", self.folder / "out", "--program", program, "-w", "2")[
            1
        ]
        self.assertNotIn("kept", out)

    def test_an_expectation_that_fails_fails_the_run(self) -> None:
        (self.files / "one.lab").write_text(SOUND + "expect unsound careful at 3\n")
        status, out, _ = self.run_all("good")
        self.assertEqual(status, 1)
        self.assertIn("one.lab:11:16: `expect unsound careful` doesn't hold at width 3: it is sound", out)
        self.assertIn("5 files at a width as expected, 1 not", out)

    def test_a_mistake_in_one_file_leaves_the_others(self) -> None:
        (self.files / "one.lab").write_text(SOUND + "candidat x\n")
        status, out, _ = self.run_all("good")
        self.assertEqual(status, 1)
        self.assertIn("did you mean `candidate`?", out)
        self.assertIn("4 files at a width as expected, 1 not", out)

    def test_quick_takes_one_width_of_each_file(self) -> None:
        (self.files / "one.lab").write_text(SOUND.replace("widths 2, 3", "widths 2"))
        out = self.run_all("good", "--quick", "--json", self.folder / "all.json")[1]
        self.assertIn("3 files at a width", out)
        records = json.loads((self.folder / "all.json").read_text())
        self.assertEqual({r["name"]: r["width"] for r in records}, {"deep/one": 3, "deep/two": 3, "one": 2})

    def test_the_table_stands_between_the_marks(self) -> None:
        document = self.folder / "table.md"
        document.write_text("Before\n<!-- table -->\nold\n<!-- end of table -->\nAfter\n")
        self.run_all("good", "--markdown", document)
        text = document.read_text()
        self.assertTrue(text.startswith("Before\n<!-- table -->\n| file |"), text)
        self.assertTrue(text.endswith("<!-- end of table -->\nAfter\n"), text)
        self.assertIn("| `deep/one` | careful | `add(x, y) = x + y` | u-interval | sound 2-3 |  |", text)

    def test_what_does_not_finish_stands_in_the_table_with_what_was_spent(self) -> None:
        document = self.folder / "table.md"
        self.run_all("8", "--width", "2", "--markdown", document)
        self.assertEqual(len(re.findall(r"conflicts 2 \(200,000 in [\d.]+ s\)", document.read_text())), 6)
        (self.files / "one.lab").write_text(SOUND + "expect sound careful at 2\n")
        status, out, _ = self.run_all("slow", "--timeout", "0.1", "-j", "3")
        self.assertEqual(status, 1)
        self.assertIn("1 file at a width as expected, 5 not", out)
        out = self.run_all("slow", "--kept", "--markdown", document)[1]
        self.assertIn("6 of them kept", out)
        self.assertEqual(len(re.findall(r"time 2-3 \([\d.]+ s\)", document.read_text())), 6)

    def test_where_nothing_is_kept_the_table_stays(self) -> None:
        document = self.folder / "table.md"
        document.write_text("<!-- table -->\nold\n<!-- end of table -->\n")
        status, _, err = self.run_all("good", "--kept", "--markdown", document)
        self.assertEqual(status, 2)
        self.assertIn("keeps nothing of these files", err)
        self.assertIn("old", document.read_text())

    def test_a_worker_that_is_killed_ends_the_run_with_what_is_left(self) -> None:
        status, out, err = self.run_all("killing", "--markdown", self.folder / "table.md")
        self.assertEqual(status, 1)
        self.assertIn("0 files at a width as expected, 0 not, 6 left", out)
        self.assertIn("run fewer at once by `-j`; what is done is kept", err)
        self.assertIn("and 6 are left.", (self.folder / "table.md").read_text())

    def test_the_page_stands_alone(self) -> None:
        self.run_all("good", "--html", self.folder / "page.html")
        text = (self.folder / "page.html").read_text()
        self.assertIn("</html>", text)
        self.assertIn("<svg", text)
        for needless in ("<script", "http:", "https:", "src=", "@import", "<link"):
            self.assertNotIn(needless, text)

    def test_an_interrupted_run_keeps_what_is_done_and_is_taken_up(self) -> None:
        words = [sys.executable, "-m", "amurth_lab", "run", str(self.files), "--out", str(self.folder / "out")]
        words += ["--program", str(fake(self.folder, "slow"))]
        # A shell that starts the tests in the background has them ignore interrupts, and the run would inherit that.
        self.addCleanup(signal.signal, signal.SIGINT, signal.signal(signal.SIGINT, signal.default_int_handler))
        process = subprocess.Popen(words, cwd=LAB, stdout=subprocess.PIPE, stderr=subprocess.PIPE, text=True)
        assert process.stderr is not None
        first = process.stderr.readline()
        self.assertIn("ok   ", first)
        os.kill(process.pid, signal.SIGINT)
        out, err = process.communicate(timeout=20)
        self.assertEqual(process.returncode, 130, out + err)
        self.assertIn("interrupted; what is done is kept", err)
        kept = len(list((self.folder / "out").rglob("*.json")))
        self.assertTrue(1 <= kept < 6, kept)
        status, out, _ = self.run_all("slow", "-j", "6")
        self.assertEqual(status, 0)
        self.assertIn(f"{kept} of them kept", out)


class Troubles(WithFolder):
    def judged(self, behaviour: str, *more: str) -> tuple[int, str]:
        words = ("check-mine", self.files / "one.lab", "-w", "2", "--out", self.folder, "--program")
        status, out, err = self.lab(*words, fake(self.folder, behaviour), *more)
        return status, out + err

    def test_each_end_of_the_program_is_told_with_what_to_do(self) -> None:
        told = {
            "5": "found no memory",
            "7": "raise `turns`",
            "8": "raise `conflicts`",
            "3": "couldn't read its input",
            "77": "ended with status 77",
            "killed": "was killed by signal 9",
            "refusing": "the core refused the expanded text: refused Number 15",
            "unsure": "`check` doesn't accept the certificate that `synth` wrote: rejected NotEmpty 0",
        }
        for behaviour, message in told.items():
            with self.subTest(behaviour=behaviour):
                status, text = self.judged(behaviour)
                self.assertEqual(status, 1)
                self.assertIn(message, text)
                self.assertNotIn(": sound (", text)

    def test_a_program_that_takes_too_long_is_ended(self) -> None:
        started = time.monotonic()
        status, text = self.judged("slow", "--timeout", "0.1")
        self.assertEqual(status, 1)
        self.assertIn("took more than 0.1 seconds", text)
        self.assertLess(time.monotonic() - started, 5)

    def test_a_missing_program_is_said_in_one_sentence(self) -> None:
        status, _, err = self.lab("solve", self.files / "one.lab", "--program", self.folder / "nothing")
        self.assertEqual(status, 2)
        self.assertIn(f"--program names {self.folder}/nothing, and no file is there", err)

    def test_bad_words_of_a_command_line(self) -> None:
        for words, message in (
            (("solve", "nowhere.lab"), "can't read nowhere.lab"),
            (("solve", self.files / "one.lab", "-w", "9"), "widths are 2 to 8"),
            (("solve", self.files / "one.lab", "-w", "x"), "`x` names no widths"),
            (("run", self.folder / "none"), "isn't there"),
            (("check-mine", self.files / "one.lab", "--candidate", "other"), "no candidate `other`"),
            (("optimal", self.files / "one.lab"), "`optimal` needs a width"),
            (("optimal", self.files / "one.lab", "-w", "5"), "ask at a width up to 4"),
            (("emit", "c", "nowhere.cert"), "can't read nowhere.cert"),
        ):
            with self.subTest(words=words):
                given = words if words[0] == "emit" else (*words, "--program", fake(self.folder, "good"))
                status, _, err = self.lab(*given)
                self.assertEqual(status, 2)
                self.assertIn(message, err)


if __name__ == "__main__":
    unittest.main()
