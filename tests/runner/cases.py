"""Cases and texts that have names, read from the files of a folder."""

from __future__ import annotations

from collections.abc import Iterable
from dataclasses import dataclass
from pathlib import Path
from typing import Protocol

from . import escapes
from .blocks import BadCase, Block, Field, read_blocks
from .inputs import KEYWORDS as INPUT
from .inputs import Sources, read_input
from .kinds.faults import Faults
from .kinds.memory import Memory
from .kinds.runs import STDIN, STDOUT, Run
from .kinds.scripts import Script, marked_lines
from .kinds.synthesis import Synthesis
from .process import Bench
from .wanted import AnyOf, Exactly, Like, Text, Wanted

ONCE = ("run", "shell", "readme", "memory", "faults", "stdin", "stdout", "status", "output", "like", "best")


class Kind(Protocol):
    """What a case does."""

    def difference(self, bench: Bench) -> str | None:
        """In words how the case fails, None where it passes."""


@dataclass(frozen=True)
class Case:
    """A case with its name and place."""

    name: str
    place: str
    kind: Kind


def read_cases(folder: Path, top: Path) -> list[Case]:
    """All cases of a folder's files, in the order of the files' names; a text may be named in any file."""
    blocks = [
        block
        for path in sorted(folder.rglob("*.cases"))
        for block in read_blocks(path, str(path.relative_to(top) if path.is_relative_to(top) else path))
    ]
    sources = Sources(_texts(block for block in blocks if block.keyword == "text"), top)
    cases = [Case(block.name, block.place, _kind(block, sources)) for block in blocks if block.keyword == "case"]
    _refuse_twice(cases)
    return cases


def _texts(blocks: Iterable[Block]) -> dict[str, bytes]:
    texts: dict[str, bytes] = {}
    for block in blocks:
        if len(block.fields) != 1:
            raise BadCase(f"{block.place}: a text is lines with a bar")
        if block.name in texts:
            raise BadCase(f"{block.place}: a second text named {block.name}")
        texts[block.name] = block.fields[0].text()
    return texts


def _refuse_twice(cases: list[Case]) -> None:
    """Refuses two cases of one file with one name."""
    seen: set[tuple[str, str]] = set()
    for case in cases:
        key = (case.place.rpartition(":")[0], case.name)
        if key in seen:
            raise BadCase(f"{case.place}: a second case named {case.name}")
        seen.add(key)


def _kind(block: Block, sources: Sources) -> Kind:
    """What a block's fields say that is done."""
    fields: dict[str, Field] = {}
    given: list[Field] = []
    for field in block.fields:
        if field.keyword in INPUT:
            given.append(field)
        elif field.keyword not in ONCE:
            raise field.bad(f"no field is named {field.keyword}")
        elif field.keyword in fields:
            raise field.bad(f"a second {field.keyword}")
        else:
            fields[field.keyword] = field
    if "status" not in fields:
        raise BadCase(f"{block.place}: a case wants a status")
    if sum(word in fields for word in ("run", "shell", "readme")) != 1:
        raise BadCase(f"{block.place}: a case has one of run, shell and readme")
    text = read_input(given, sources)
    wanted = Wanted(fields["status"].number(), _text(fields, text))
    if "run" not in fields:
        return Script(_script(fields, sources), text, wanted)
    words = [escapes.read(word).decode("latin-1") for word in fields["run"].value.split()]
    if "memory" in fields:
        return Memory(words, text, wanted, fields["memory"].text().decode("latin-1"))
    if "faults" in fields:
        return Faults(words, text, wanted)
    if words == ["synth"] and "best" in fields:
        return Synthesis(text, wanted)
    return Run(words, text, wanted, _manner(fields, "stdin", STDIN), _manner(fields, "stdout", STDOUT))


def _text(fields: dict[str, Field], given: bytes) -> Text:
    """What the output has to be. Where nothing is said, it is empty."""
    if "best" in fields:
        best = fields["best"]
        tuples = () if best.value == "none" else tuple(best.text().split(b"\n")[:-1])
        return AnyOf(fields["output"].text() if "output" in fields else b"certificate 2\n" + given, tuples)
    if "like" in fields:
        return Like(fields["like"].text())
    return Exactly(fields["output"].text() if "output" in fields else b"")


def _manner(fields: dict[str, Field], keyword: str, manners: tuple[str, ...]) -> str:
    """How a stream is handed to the program."""
    if keyword not in fields:
        return manners[0]
    if fields[keyword].value not in manners:
        raise fields[keyword].bad(f"{keyword} is one of {', '.join(manners)}")
    return fields[keyword].value


def _script(fields: dict[str, Field], sources: Sources) -> str:
    """The shell's lines of a case, its own or those that README marks with its name."""
    if "shell" in fields:
        return fields["shell"].text().decode("latin-1")
    marked = marked_lines((sources.top / "README.md").read_text(encoding="utf-8"))
    name = fields["readme"].value
    if name not in marked:
        raise fields["readme"].bad(f"README marks no lines to be run as {name}")
    return marked[name]
