"""What a case hands to the program: pieces one after the other, each written out, named, or a file, and edited."""

from __future__ import annotations

from dataclasses import dataclass
from pathlib import Path

from .blocks import Field

KEYWORDS = ("input", "file", "old", "new", "first")


@dataclass
class Sources:
    """Where pieces come from: the texts that have names, and the top of the repository for files."""

    texts: dict[str, bytes]
    top: Path


def read_input(fields: list[Field], sources: Sources) -> bytes:
    """The bytes that the fields of an input give."""
    pieces: list[bytes] = []
    old: Field | None = None
    for field in fields:
        if field.keyword == "old" and old is None and pieces:
            old = field
        elif field.keyword == "new" and old is not None:
            pieces[-1] = _replaced(pieces[-1], old, field)
            old = None
        elif field.keyword == "first" and old is None and pieces:
            pieces[-1] = _cut(pieces[-1], field)
        elif field.keyword in ("input", "file") and old is None:
            pieces.append(_piece(field, sources))
        else:
            raise field.bad(f"{field.keyword} can't stand here")
    if old is not None:
        raise old.bad("old without new")
    return b"".join(pieces)


def _piece(field: Field, sources: Sources) -> bytes:
    if field.keyword == "file":
        path = sources.top / field.value
        if not path.is_file():
            raise field.bad(f"no file {field.value}")
        return path.read_bytes()
    if not field.value:
        return field.text()
    if field.lines:
        raise field.bad("an input is a text that has a name, or lines with a bar")
    if field.value not in sources.texts:
        raise field.bad(f"no text {field.value}")
    return sources.texts[field.value]


def _replaced(text: bytes, old: Field, new: Field) -> bytes:
    """The text with the old part, which stands in it once, replaced by the new one."""
    part = old.part()
    if text.count(part) != 1:
        raise old.bad(f"the old part stands {text.count(part)} times in the text")
    return text.replace(part, new.part())


def _cut(text: bytes, field: Field) -> bytes:
    if field.number() > len(text):
        raise field.bad(f"the text has {len(text)} bytes")
    return text[: field.number()]
