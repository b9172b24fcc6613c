"""Cuts a source into tokens."""

from __future__ import annotations

import re
from dataclasses import dataclass

from .source import LabError, SourceFile, Span

_TOKEN = re.compile(
    r"""
    (?P<space>[ \t\r\n]+|\#[^\n]*)
  | (?P<number>0[xX][0-9a-fA-F_]+|0[bB][01_]+|[0-9][0-9_]*)
  | (?P<name>[A-Za-z_][A-Za-z0-9_]*)
  | (?P<string>"[^"\n]*")
  | (?P<symbol><=s\b|>=s\b|<s\b|>s\b|>>>|\.\.|&&|\|\||==|!=|<=|>=|<<|>>|[-+*/%~!&|^<>=?:,.;(){}])
    """,
    re.VERBOSE,
)
_DIGITS = re.compile(r"[0-9A-Za-z_]*")


@dataclass(frozen=True)
class Token:
    """A word of the source; `kind` is name, number, string, symbol or end."""

    kind: str
    text: str
    span: Span

    @property
    def shown(self) -> str:
        """How messages call the token."""
        return "the end of the file" if self.kind == "end" else f"`{self.text}`"

    @property
    def value(self) -> int:
        """The number that a number token stands for."""
        text = self.text.replace("_", "").lower()
        if text.startswith("0x"):
            return int(text[2:], 16)
        if text.startswith("0b"):
            return int(text[2:], 2)
        return int(text)


def tokens(file: SourceFile) -> list[Token]:
    """All tokens of a file, with one of kind `end` at the end."""
    out: list[Token] = []
    place = 0
    while place < len(file.text):
        found = _TOKEN.match(file.text, place)
        if found is None:
            raise _unknown(file, place)
        kind = found.lastgroup or ""
        if kind == "number":
            _reject_bad_number(file, place, found.end())
        if kind != "space":
            out.append(Token(kind, found.group(), Span(file, place, found.end())))
        place = found.end()
    out.append(Token("end", "", Span(file, len(file.text), len(file.text))))
    return out


def _unknown(file: SourceFile, place: int) -> LabError:
    span = Span(file, place, place + 1)
    if file.text[place] == '"':
        return LabError("a string has no end", span, 'expected `"` on the same line')
    return LabError(f"the character {file.text[place]!r} has no meaning here", span)


def _reject_bad_number(file: SourceFile, start: int, end: int) -> None:
    rest = _DIGITS.match(file.text, end)
    length = 0 if rest is None else len(rest.group())
    digits = file.text[start:end].lower().lstrip("0xb").replace("_", "")
    if length or (not digits and file.text[start:end].lower() in ("0x", "0b")):
        word = file.text[start : end + length]
        raise LabError(
            f"`{word}` is no number",
            Span(file, start, end + length),
            "expected a decimal, `0x` or `0b` number",
        )


def description(text: str) -> str:
    """The first block of comment lines of a source, without their marks."""
    lines: list[str] = []
    for line in text.split("\n"):
        stripped = line.strip()
        if not stripped.startswith("#"):
            if lines or stripped:
                break
            continue
        lines.append(stripped.lstrip("#").strip())
    return "\n".join(lines)
