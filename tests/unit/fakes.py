"""Fake programs of the shell, on which the runner is tried."""

from __future__ import annotations

import tempfile
import unittest
from pathlib import Path

from runner.process import Bench
from runner.wanted import Exactly, Wanted

TOP = Path(__file__).resolve().parents[2]


class WithFakes(unittest.TestCase):
    """A test with a folder of its own, in which it makes programs."""

    def setUp(self) -> None:
        folder = tempfile.TemporaryDirectory()
        self.addCleanup(folder.cleanup)
        self.folder = Path(folder.name)

    def bench(self, *lines: str) -> Bench:
        """A bench whose program is a script of these lines."""
        program = self.folder / "program"
        program.write_text("\n".join(("#!/bin/sh", *lines, "")), encoding="ascii")
        program.chmod(0o755)
        return Bench(program, self.folder, self.folder)


def exactly(status: int, text: bytes) -> Wanted:
    """A status and a text that are wanted."""
    return Wanted(status, Exactly(text))
