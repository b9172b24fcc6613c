"""The whole runner, as a person or a script sees it."""

from __future__ import annotations

import os
import pty
import subprocess
import sys

from .fakes import TOP, WithFakes

CASES = "case passes\nrun check\nstatus 0\noutput a\n\ncase fails\nrun check\nstatus 0\noutput b\n"


class WholeRun(WithFakes):
    def command(self, cases: str, *options: str) -> list[str]:
        """The command line for a program that writes `a`."""
        bench = self.bench("echo a")
        (self.folder / "one.cases").write_text(cases, encoding="ascii")
        program = str(bench.program)
        return [sys.executable, str(TOP / "tests/run"), program, "--cases", str(self.folder), *options]

    def run_on(self, cases: str, *options: str) -> subprocess.CompletedProcess[str]:
        """The run's end, with its output in a pipe."""
        return subprocess.run(self.command(cases, *options), capture_output=True, text=True, check=False)

    def test_a_failing_case_is_named_with_its_difference(self) -> None:
        ended = self.run_on(CASES)
        self.assertEqual(ended.returncode, 1)
        self.assertIn("one.cases:6: fails\n    output differs at byte 0: wanted `b\\n`, got `a\\n`\n", ended.stdout)
        self.assertEqual(ended.stdout.splitlines()[-1], "1 passed, 1 failed")

    def test_where_all_pass_the_sums_alone_are_written(self) -> None:
        ended = self.run_on(CASES, "--only", "passes")
        self.assertEqual((ended.returncode, ended.stdout, ended.stderr), (0, "1 passed, 0 failed\n", ""))

    def test_where_no_case_is_chosen_the_run_fails(self) -> None:
        ended = self.run_on(CASES, "--only", "nothing")
        self.assertEqual((ended.returncode, ended.stdout), (1, "0 passed, 0 failed\n"))

    def test_a_file_that_cannot_be_read_fails_the_run(self) -> None:
        ended = self.run_on("case one\nrun\n")
        self.assertEqual((ended.returncode, ended.stdout), (2, ""))
        self.assertIn("one.cases:1: a case wants a status", ended.stderr)

    def test_without_a_program_the_run_fails(self) -> None:
        command = self.command(CASES)
        (self.folder / "program").unlink()
        ended = subprocess.run(command, capture_output=True, text=True, check=False)
        self.assertEqual(ended.returncode, 2)
        self.assertIn("no program at", ended.stderr)

    def test_without_a_program_the_cases_are_listed(self) -> None:
        command = self.command(CASES, "--list")
        (self.folder / "program").unlink()
        ended = subprocess.run(command, capture_output=True, text=True, check=False)
        self.assertEqual((ended.returncode, len(ended.stdout.splitlines()), ended.stderr), (0, 2, ""))

    def test_a_terminal_is_told_how_far_the_run_is(self) -> None:
        leader, follower = pty.openpty()
        ended = subprocess.run(self.command(CASES, "--jobs", "1"), stdout=follower, check=False)
        os.close(follower)
        told = os.read(leader, 65536).decode()
        os.close(leader)
        self.assertEqual(ended.returncode, 1)
        self.assertIn("\r1 of 2, 0 failed", told)
        self.assertEqual(told.splitlines()[-1].rpartition("\x1b[K")[2], "1 passed, 1 failed")
