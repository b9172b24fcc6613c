"""One run of a program: its words, its streams, what it wrote and how it ended."""

from __future__ import annotations

import os
import resource
import signal
import subprocess
from dataclasses import dataclass
from pathlib import Path
from typing import IO

SECONDS = 60
CLOSED = "closed"

Stream = int | IO[bytes] | str


@dataclass(frozen=True)
class Ended:
    """How a run ended. A status below zero is the signal that ended it; with None it ran out of time."""

    status: int | None
    output: bytes
    errors: bytes = b""

    def manner(self) -> str:
        """The end in words."""
        if self.status is None:
            return f"no end after {SECONDS} seconds"
        if self.status < 0:
            return f"ended by {signal.Signals(-self.status).name}"
        return f"status {self.status}"


@dataclass(frozen=True)
class Limits:
    """What a child does before it becomes the program: it closes streams, and limits its address space and files."""

    closed: tuple[int, ...] = ()
    address_space: int | None = None
    file_size: int | None = None

    def __call__(self) -> None:
        for number in self.closed:
            os.close(number)
        if self.address_space is not None:
            resource.setrlimit(resource.RLIMIT_AS, (self.address_space, self.address_space))
        if self.file_size is not None:
            signal.signal(signal.SIGXFSZ, signal.SIG_IGN)
            resource.setrlimit(resource.RLIMIT_FSIZE, (self.file_size, self.file_size))


def run(
    command: list[str],
    text: bytes | None,
    *,
    stdin: Stream = subprocess.PIPE,
    stdout: Stream = subprocess.PIPE,
    address_space: int | None = None,
    file_size: int | None = None,
    folder: Path | None = None,
    environment: dict[str, str] | None = None,
) -> Ended:
    """Runs a command on a text, or on streams of the caller's, of which each may be CLOSED."""
    closed = tuple(number for number, stream in enumerate((stdin, stdout)) if stream == CLOSED)
    limits = Limits(closed, address_space, file_size)
    child = subprocess.Popen(
        command,
        stdin=None if stdin == CLOSED else stdin,
        stdout=None if stdout == CLOSED else stdout,
        stderr=subprocess.PIPE,
        preexec_fn=limits if limits != Limits() else None,
        cwd=folder,
        env=environment,
    )
    try:
        output, errors = child.communicate(text, timeout=SECONDS)
    except subprocess.TimeoutExpired:
        child.kill()
        output, errors = child.communicate()
        return Ended(None, output or b"", errors or b"")
    return Ended(child.returncode, output or b"", errors or b"")


@dataclass(frozen=True)
class Bench:
    """What every case is given: the program, the top of the repository, and a folder of this run's own."""

    program: Path
    top: Path
    scratch: Path

    def run(self, words: list[str], text: bytes | None = b"", **streams: Stream | None) -> Ended:
        """Runs the program."""
        return run([str(self.program), *words], text, **streams)  # type: ignore[arg-type]
