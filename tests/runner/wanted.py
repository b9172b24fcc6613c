"""What a run has to end with: a status, and a text, a pattern or one of a list of answers."""

from __future__ import annotations

import re
from dataclasses import dataclass
from typing import Protocol

from .escapes import shown
from .process import Ended

_AROUND = 30


class Text(Protocol):
    """What the output has to be."""

    def difference(self, output: bytes) -> str | None:
        """In words how the output isn't what is wanted, None where it is."""


@dataclass(frozen=True)
class Exactly:
    """The output is this text, byte for byte."""

    text: bytes

    def difference(self, output: bytes) -> str | None:
        if output == self.text:
            return None
        if self.text.startswith(output):
            return f"output torn after {len(output)} of {len(self.text)} bytes, before {_at(self.text, len(output))}"
        if output.startswith(self.text):
            return f"output goes on after {len(self.text)} bytes with {_at(output, len(self.text))}"
        at = next(i for i, (a, b) in enumerate(zip(self.text, output)) if a != b)
        return f"output differs at byte {at}: wanted {_at(self.text, at)}, got {_at(output, at)}"


@dataclass(frozen=True)
class Like:
    """The output fits a pattern: `*` stands for a part of a line, `**` for any text."""

    pattern: bytes

    def difference(self, output: bytes) -> str | None:
        wild = {b"*": rb"[^\n]*", b"**": rb"(?s:.*)"}
        parts = re.split(rb"(\*\*?)", self.pattern)
        if re.fullmatch(b"".join(wild.get(part) or re.escape(part) for part in parts), output):
            return None
        return f"output doesn't fit the pattern {_at(self.pattern, 0)}: got {_at(output, 0)}"


@dataclass(frozen=True)
class AnyOf:
    """The output is a head, and then the answer with one of these tuples of terms; with none of them, `none`."""

    head: bytes
    tuples: tuple[bytes, ...]

    def difference(self, output: bytes) -> str | None:
        if not output.startswith(self.head):
            return Exactly(self.head).difference(output[: len(self.head)])
        lines = output[len(self.head) :].split(b"\n")
        if lines[0] == b"answer none":
            return f"answer none, where {len(self.tuples)} are best" if self.tuples else None
        if lines[0] != b"answer best":
            return f"no answer at byte {len(self.head)}: got {_at(output, len(self.head))}"
        terms = b" ".join(line.removeprefix(b"term ") for line in lines if line.startswith(b"term "))
        return None if terms in self.tuples else f"none of the {len(self.tuples)} best: {shown(terms)}"


@dataclass(frozen=True)
class Wanted:
    """How a run has to end. Nothing may come on standard error."""

    status: int
    text: Text

    def difference(self, ended: Ended) -> str | None:
        """Each difference in words, None where there is none."""
        found = [
            None if ended.status == self.status else f"wanted status {self.status}, got {ended.manner()}",
            self.text.difference(ended.output),
            f"standard error: {_at(ended.errors, 0)}" if ended.errors else None,
        ]
        return "\n".join(text for text in found if text) or None


def _at(text: bytes, at: int) -> str:
    """The text from a byte on, cut and quoted; the end where there is no further byte."""
    part = text[at : at + _AROUND]
    return f"`{shown(part)}`" + (" .." if len(text) > at + _AROUND else "") if part else "the end"
