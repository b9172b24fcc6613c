"""Source files, places in them, and mistakes shown at their places."""

from __future__ import annotations

import difflib
from dataclasses import dataclass, field
from typing import Iterable


@dataclass(frozen=True)
class SourceFile:
    """A text with the name that messages call it by."""

    path: str
    text: str

    def position(self, offset: int) -> tuple[int, int]:
        """The line and the column of a character, both counted from 1."""
        line = self.text.count("\n", 0, offset) + 1
        return line, offset - (self.text.rfind("\n", 0, offset) + 1) + 1

    def line(self, number: int) -> str:
        """The text of a line, counted from 1."""
        lines = self.text.split("\n")
        return lines[number - 1].rstrip("\r").expandtabs(1) if number <= len(lines) else ""


@dataclass(frozen=True)
class Span:
    """The characters of a file from `start` up to, but not with, `end`."""

    file: SourceFile = field(repr=False)
    start: int
    end: int

    def to(self, other: "Span") -> "Span":
        """The characters from the first of this span to the last of another one."""
        return Span(self.file, self.start, other.end)

    @property
    def place(self) -> str:
        """File, line and column, as editors read them."""
        line, column = self.file.position(self.start)
        return f"{self.file.path}:{line}:{column}"

    @property
    def line_number(self) -> int:
        """The line of the first character."""
        return self.file.position(self.start)[0]


@dataclass(frozen=True)
class Diagnostic:
    """What is wrong, where, what stands below the mark, and what else helps."""

    message: str
    span: Span | None = None
    label: str = ""
    notes: tuple[str, ...] = ()
    level: str = "error"

    def render(self) -> str:
        """The lines for people: message, place, source line, mark and notes."""
        out = [f"{self.level}: {self.message}"]
        margin = ""
        if self.span is not None:
            line, column = self.span.file.position(self.span.start)
            text = self.span.file.line(line)
            margin = " " * len(str(line))
            length = max(1, min(self.span.end - self.span.start, len(text) - column + 1))
            mark = " " * (column - 1) + "^" * length
            out += [
                f"{margin}--> {self.span.place}",
                f"{margin} |",
                f"{line} | {text}",
                f"{margin} | {mark} {self.label}".rstrip(),
            ]
        out += [f"{margin} = note: {note}" for note in self.notes]
        return "\n".join(out)


class LabError(Exception):
    """A mistake of the source, of the command line or of the program that was run.

    `seconds` is the time that a question took before it was raised; none where nothing was asked.
    """

    seconds: float | None = None

    def __init__(self, message: str, span: Span | None = None, label: str = "", *notes: str) -> None:
        super().__init__(message)
        self.diagnostic = Diagnostic(message, span, label, tuple(notes))

    def render(self) -> str:
        """The mistake as it is shown."""
        return self.diagnostic.render()

    @property
    def is_mistake(self) -> bool:
        """Whether it is a mistake of the source, which no other width or program mends."""
        return type(self) is LabError and self.diagnostic.span is not None


def near(word: str, names: Iterable[str]) -> str:
    """A clause that names the nearest of some names, or nothing."""
    found = difflib.get_close_matches(word, list(names), 1, 0.6)
    return f"did you mean `{found[0]}`?" if found else ""


def listed(names: Iterable[str]) -> str:
    """Names in one phrase: `a`, `b` and `c`."""
    quoted = [f"`{name}`" for name in names]
    if len(quoted) < 2:
        return "".join(quoted)
    return ", ".join(quoted[:-1]) + " and " + quoted[-1]
