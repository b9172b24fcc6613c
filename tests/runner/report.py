"""What a person sees: how far the run is, each failing case with its difference, and the two sums."""

from __future__ import annotations

import sys
import textwrap
from typing import TextIO

from .cases import Case


class Report:
    """Writes failures as they come. On a terminal a line says how far the run is."""

    def __init__(self, total: int, out: TextIO = sys.stdout) -> None:
        self.total = total
        self.out = out
        self.passed = 0
        self.failed = 0

    def add(self, case: Case, difference: str | None) -> None:
        """Counts a case that ended."""
        if difference is None:
            self.passed += 1
        else:
            self.failed += 1
            self._clear()
            print(f"{case.place}: {case.name}", textwrap.indent(difference, "    "), sep="\n", file=self.out)
        if self.out.isatty():
            self.out.write(f"\r{self.passed + self.failed} of {self.total}, {self.failed} failed\x1b[K")
            self.out.flush()

    def end(self) -> int:
        """Writes the last line, and answers the status: 0 where cases were run and none failed."""
        self._clear()
        print(f"{self.passed} passed, {self.failed} failed", file=self.out)
        return 0 if self.passed and not self.failed else 1

    def _clear(self) -> None:
        if self.out.isatty():
            self.out.write("\r\x1b[K")
