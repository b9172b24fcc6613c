"""A run of the program, from its usual streams or from streams that are closed, full, or come in pieces."""

from __future__ import annotations

import os
import subprocess
from collections.abc import Iterator
from contextlib import contextmanager
from dataclasses import dataclass
from threading import Thread

from ..process import CLOSED, Bench, Stream
from ..wanted import Wanted

STDIN = ("pipe", "closed", "folder", "pieces")
STDOUT = ("pipe", "closed", "full", "gone")


@dataclass(frozen=True)
class Run:
    """The program is run with these words and this input, and its end is compared."""

    words: list[str]
    text: bytes
    wanted: Wanted
    stdin: str = "pipe"
    stdout: str = "pipe"

    def difference(self, bench: Bench) -> str | None:
        """How the run differs from what is wanted."""
        with _stdin(self.stdin, self.text) as given, _stdout(self.stdout) as taken:
            text = self.text if given == subprocess.PIPE else None
            return self.wanted.difference(bench.run(self.words, text, stdin=given, stdout=taken))


@contextmanager
def _stdin(manner: str, text: bytes) -> Iterator[Stream]:
    if manner == "pipe":
        yield subprocess.PIPE
    elif manner == "closed":
        yield CLOSED
    elif manner == "folder":
        folder = os.open("/", os.O_RDONLY)
        yield folder
        os.close(folder)
    else:
        reading, writing = os.pipe2(os.O_DIRECT)
        feeder = Thread(target=_feed, args=(writing, text))
        feeder.start()
        yield reading
        os.close(reading)
        feeder.join()


def _feed(writing: int, text: bytes) -> None:
    """Writes a text byte by byte into a pipe of packets, so that each read gets one byte, and closes it."""
    with os.fdopen(writing, "wb", buffering=0) as pipe:
        try:
            for byte in text:
                pipe.write(bytes([byte]))
        except BrokenPipeError:
            pass


@contextmanager
def _stdout(manner: str) -> Iterator[Stream]:
    if manner == "pipe":
        yield subprocess.PIPE
    elif manner == "closed":
        yield CLOSED
    elif manner == "full":
        with open("/dev/full", "wb") as full:
            yield full
    else:
        reading, writing = os.pipe()
        os.close(reading)
        yield writing
        os.close(writing)
