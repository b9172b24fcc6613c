"""Finds and runs the core program, and says in one sentence what went wrong and what helps."""

from __future__ import annotations

import hashlib
import os
import shutil
import subprocess
import time
from dataclasses import dataclass
from pathlib import Path

from .problem import Problem
from .source import LabError

VARIABLE = "AMURTH"
BESIDE = Path(__file__).resolve().parents[2] / "crates" / "amurth" / "out" / "amurth"


def find_program(given: str | None) -> Path:
    """The program: as given, from the environment, beside the repository, or on the path."""
    if given is not None:
        return _runnable(Path(given), "--program")
    if os.environ.get(VARIABLE):
        return _runnable(Path(os.environ[VARIABLE]), f"the variable {VARIABLE}")
    if BESIDE.is_file():
        return BESIDE
    found = shutil.which("amurth")
    if found is None:
        raise LabError(
            "the program `amurth` isn't there",
            None,
            "",
            f"it was looked for at {BESIDE} and on the path",
            "build it by `rt ci` at the top of the repository, or name it by `--program PATH` "
            f"or the variable {VARIABLE}",
        )
    return Path(found)


def _runnable(path: Path, who: str) -> Path:
    if not path.is_file():
        raise LabError(f"{who} names {path}, and no file is there")
    if not os.access(path, os.X_OK):
        raise LabError(f"{who} names {path}, which can't be run", None, "", f"`chmod +x {path}` may help")
    return path.resolve()


@dataclass(frozen=True)
class Written:
    """What a run of the program left: its exit status, its output, and the seconds it took."""

    status: int
    output: str
    seconds: float


class Refusal(LabError):
    """A refusal of the core, which the workbench should have told before."""


class Trouble(LabError):
    """A run of the program that ended without an answer.

    For tables, `kind` is a short word, and `amount` what was spent beside time.
    """

    def __init__(self, kind: str, message: str, *notes: str, amount: str = "") -> None:
        super().__init__(message, None, "", *notes)
        self.kind = kind
        self.amount = amount


@dataclass(frozen=True)
class Program:
    """The core program, with a limit of seconds for each run."""

    path: Path
    timeout: float | None = None

    @property
    def digest(self) -> str:
        """A word that changes with the program's bytes."""
        return hashlib.sha256(self.path.read_bytes()).hexdigest()

    def run(self, command: str, text: str) -> Written:
        """Runs a command on a text."""
        started = time.monotonic()
        try:
            done = subprocess.run(
                [str(self.path), command], input=text.encode(), capture_output=True, timeout=self.timeout, check=False
            )
        except subprocess.TimeoutExpired as error:
            raise Trouble(
                "time",
                f"`{command}` took more than {self.timeout:g} seconds and was ended",
                "raise `--timeout`, ask at a smaller width, or make the grammar smaller",
            ) from error
        except OSError as error:
            raise LabError(f"{self.path} can't be run: {error.strerror}") from error
        return Written(done.returncode, done.stdout.decode(errors="replace"), time.monotonic() - started)

    def synth(self, problem: Problem) -> Written:
        """The certificate of a problem. A spent budget and all else that is no answer is raised."""
        written = self.run("synth", problem.text())
        if written.status == 0:
            return written
        if written.status == 6:
            raise refused(written.output, problem)
        raise trouble("synth", written, problem)

    def accepts(self, certificate: str) -> tuple[bool, str]:
        """Whether `check` accepts a certificate, and the line that it wrote."""
        written = self.run("check", certificate)
        if written.status in (0, 6, 9):
            return written.status == 0 and written.output.strip() == "accepted", written.output.strip()
        raise trouble("check", written, None)


def refused(line: str, problem: Problem) -> Refusal:
    """A refusal of the core, shown at the source of the refused word."""
    words = line.split()
    name, number = (words + ["", "0"])[1:3]
    if name in ("Slots", "Load"):
        most = {"Slots": "256 slots", "Load": "a load of 16,777,216"}[name]
        return Refusal(f"the core allows {most}, and this problem has {int(number):,}", problem.span)
    span = problem.span_at(int(number)) if number.isdigit() else problem.span
    text = problem.text()[int(number) :].split("\n")[0][:60] if number.isdigit() else ""
    return Refusal(
        f"the core refused the expanded text: {line.strip()}", span, "", f"the refused word begins `{text}`"
    )


def trouble(command: str, written: Written, problem: Problem | None) -> Trouble:
    """Says what an exit status without an answer means, and what to do."""
    status = written.status
    if status == 7 and problem is not None:
        return Trouble(
            "turns",
            f"the {problem.turns} turns of the problem are spent",
            "raise `turns`, at most 4096",
            amount=f"{problem.turns:,}",
        )
    if status == 8 and problem is not None:
        return Trouble(
            "conflicts",
            f"the {problem.conflicts:,} conflicts of one query are spent",
            "raise `conflicts`, at most 1000000, ask at a smaller width, or make the grammar smaller",
            amount=f"{problem.conflicts:,}",
        )
    if status == 5:
        return Trouble(
            "memory", f"`{command}` found no memory", "ask at a smaller width, or run fewer at once by `-j`"
        )
    if status < 0:
        return Trouble(
            "killed",
            f"`{command}` was killed by signal {-status}",
            "it may have taken too much memory: run fewer at once",
        )
    if status in (2, 3, 4):
        what = {2: "doesn't know the command", 3: "couldn't read its input", 4: "couldn't write its output"}[status]
        return Trouble(
            "program", f"the program {what} (`{command}`, status {status})", "is it the program of this repository?"
        )
    return Trouble("program", f"`{command}` ended with status {status}", "is it the program of this repository?")
