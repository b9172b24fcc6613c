"""A synthesis with one of several answers: its terms are among the best ones, and `check` accepts the certificate."""

from __future__ import annotations

from dataclasses import dataclass

from ..process import Bench
from ..wanted import Exactly, Wanted


@dataclass(frozen=True)
class Synthesis:
    """`synth` is run on a problem, and `check` on what it wrote."""

    problem: bytes
    wanted: Wanted

    def difference(self, bench: Bench) -> str | None:
        """How the synthesis or the check of its certificate differs from what is wanted."""
        written = bench.run(["synth"], self.problem)
        found = self.wanted.difference(written)
        if found:
            return found
        rejected = Wanted(0, Exactly(b"accepted\n")).difference(bench.run(["check"], written.output))
        return f"check of the certificate: {rejected}" if rejected else None
