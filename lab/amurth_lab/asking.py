"""Asks the core: writes the problem, runs `synth`, keeps the certificate, and has `check` accept it."""

from __future__ import annotations

import time
from dataclasses import dataclass
from pathlib import Path
from typing import Callable

from .certificates import Certificate, read_certificate
from .display import size_text
from .problem import Problem
from .program import Program, Trouble
from .source import LabError

#: The most bytes of a text that the program reads.
LONGEST = 1 << 26


@dataclass(frozen=True)
class Answer:
    """A certificate that `check` accepted in this run."""

    certificate: Certificate
    path: Path
    size: int
    seconds: float

    @property
    def is_best(self) -> bool:
        """Whether a best transformer was found; else none of the problem is sound."""
        return self.certificate.answer == "best"


@dataclass(frozen=True)
class Asker:
    """The program, the folder where certificates are kept, and who is told what is under way."""

    program: Program
    folder: Path
    tell: Callable[[str], None] = lambda line: None

    def ask(self, problem: Problem, name: str) -> Answer:
        """The accepted answer to a problem. The certificate is kept under a name."""
        started = time.monotonic()
        try:
            return self._asked(problem, name)
        except LabError as error:
            error.seconds = time.monotonic() - started
            raise

    def _asked(self, problem: Problem, name: str) -> Answer:
        self.tell(f"{name}: synth")
        self.folder.mkdir(parents=True, exist_ok=True)
        (self.folder / f"{name}.amurth").write_text(problem.text())
        written = self.program.synth(problem)
        path = self.folder / f"{name}.cert"
        self.tell(f"{name}: check")
        is_accepted, line = self.program.accepts(written.output)
        if line.startswith("refused Long "):
            raise Trouble(
                "limit",
                f"the certificate has {len(written.output):,} bytes, and `check` reads at most {LONGEST:,}",
                "nothing is said of the transformer; try a smaller width",
                amount=size_text(len(written.output)),
            )
        if not is_accepted:
            raise LabError(
                f"`check` doesn't accept the certificate that `synth` wrote: {line}",
                None,
                "",
                "nothing is said of the transformer; this is a fault of the program or of the machine",
            )
        path.write_text(written.output)
        return Answer(read_certificate(written.output, str(path)), path, len(written.output), written.seconds)
