"""Runs in which each read fails in turn, and then each write.

Status 3 and nothing written where reading fails; status 4 and what was taken of the answer where writing does.
"""

from __future__ import annotations

import os
import tempfile
import tty
from collections.abc import Iterator
from contextlib import contextmanager
from dataclasses import dataclass

from ..process import Bench, Ended
from ..wanted import Wanted


@dataclass(frozen=True)
class Faults:
    """The program is run with these words on a text, and again with a fault after each byte that it reads or writes."""

    words: list[str]
    text: bytes
    wanted: Wanted

    def difference(self, bench: Bench) -> str | None:
        """The first fault at which the run ended in another way than it has to."""
        whole = bench.run(self.words, self.text)
        found = self.wanted.difference(whole)
        if found:
            return found
        for read in range(len(self.text) + 1):
            end = _unread(bench, self.words, self.text[:read])
            if end != Ended(3, b""):
                return f"no read after {read} bytes: {_told(end)}"
        for written in range(len(whole.output)):
            end = _unwritten(bench, self.words, self.text, written)
            if end != Ended(4, whole.output[:written]):
                return f"no write after {written} bytes: {_told(end)}"
        return None


def _told(end: Ended) -> str:
    return f"{end.manner()}, {len(end.output)} bytes written"


def _unread(bench: Bench, words: list[str], text: bytes) -> Ended:
    """A run in which reading fails after a text."""
    with _torn(text) as source:
        return bench.run(words, None, stdin=source)


@contextmanager
def _torn(text: bytes) -> Iterator[int]:
    """A terminal from which a text can be read, and which fails then, since its other end is closed."""
    reading, writing = os.openpty()
    tty.setraw(writing)
    os.write(writing, text)
    os.close(writing)
    yield reading
    os.close(reading)


def _unwritten(bench: Bench, words: list[str], text: bytes, size: int) -> Ended:
    """A run into a file that takes this many bytes."""
    with tempfile.TemporaryFile(dir=bench.scratch) as file:
        ended = bench.run(words, text, stdout=file, file_size=size)
        file.seek(0)
        return Ended(ended.status, file.read(), ended.errors)
