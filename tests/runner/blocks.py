"""The layout of a case file: blocks with a name, of fields with a value, an indented text or both."""

from __future__ import annotations

from collections.abc import Iterator
from dataclasses import dataclass, field
from pathlib import Path

from . import escapes


class BadCase(Exception):
    """A case file that can't be read, with its place."""


@dataclass
class Field:
    """A line `KEYWORD VALUE`, and the lines with a bar that follow it."""

    keyword: str
    value: str
    place: str
    lines: list[str] = field(default_factory=list)

    def text(self) -> bytes:
        """The bytes of whole lines: the value as one line where there is one, then the lines with a bar."""
        lines = [self.value, *self.lines] if self.value else self.lines
        return self._read("".join(line[:-1] if _goes_on(line) else line + "\n" for line in lines))

    def part(self) -> bytes:
        """The bytes of a part of a text: the lines where there are some, else the value without a line end."""
        return self.text() if self.lines else self._read(self.value)

    def _read(self, escaped: str) -> bytes:
        try:
            return escapes.read(escaped)
        except escapes.BadEscape as bad:
            raise self.bad(str(bad)) from None

    def number(self) -> int:
        """The value as a number."""
        if not self.value.isdecimal():
            raise self.bad(f"{self.keyword} wants a number")
        return int(self.value)

    def bad(self, why: str) -> BadCase:
        """The fault of this field, to be raised."""
        return BadCase(f"{self.place}: {why}")


@dataclass
class Block:
    """A line `text NAME` or `case NAME`, and its fields."""

    keyword: str
    name: str
    place: str
    fields: list[Field] = field(default_factory=list)


def _goes_on(line: str) -> bool:
    """Whether a line ends with a single backslash: its line end isn't part of the text."""
    return (len(line) - len(line.rstrip("\\"))) % 2 == 1


def read_blocks(path: Path, shown: str) -> Iterator[Block]:
    """The blocks of a file, whose name is shown in places."""
    block: Block | None = None
    for number, line in enumerate(path.read_text(encoding="ascii").split("\n"), start=1):
        place = f"{shown}:{number}"
        keyword, _, value = line.partition(" ")
        if line == "" or line.startswith("#"):
            continue
        if line.endswith(" "):
            raise BadCase(f"{place}: a space at the end of the line; write it as \\x20")
        if keyword in ("text", "case"):
            if block:
                yield block
            block = Block(keyword, value, place)
        elif block is None:
            raise BadCase(f"{place}: a line before the first text or case")
        elif keyword == "|" and block.keyword == "text":
            block.fields = block.fields or [Field("input", "", place)]
            block.fields[0].lines.append(value)
        elif keyword == "|" and block.fields:
            block.fields[-1].lines.append(value)
        else:
            block.fields.append(Field(keyword, value, place))
    if block:
        yield block
