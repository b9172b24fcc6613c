"""The syntax tree of a source."""

from __future__ import annotations

from dataclasses import dataclass, field
from typing import Union

from .source import SourceFile, Span


@dataclass(frozen=True)
class Number:
    """A constant as written; `negative` where a minus stands directly before it."""

    value: int
    span: Span
    negative: bool = False


@dataclass(frozen=True)
class Name:
    """A name alone: an input, a word of the width, a let or a nonterminal."""

    name: str
    span: Span


@dataclass(frozen=True)
class FieldOf:
    """A field of an input, as `x.lo`."""

    input: str
    field: str
    span: Span


@dataclass(frozen=True)
class Unary:
    """A prefix operator."""

    op: str
    operand: "Expr"
    span: Span


@dataclass(frozen=True)
class Binary:
    """An infix operator."""

    op: str
    left: "Expr"
    right: "Expr"
    span: Span


@dataclass(frozen=True)
class Choice:
    """`condition ? then : other`."""

    condition: "Expr"
    then: "Expr"
    other: "Expr"
    span: Span


@dataclass(frozen=True)
class Call:
    """An operator of the core or a macro at arguments, in either form."""

    name: str
    args: tuple["Expr", ...]
    span: Span
    name_span: Span


Expr = Union[Number, Name, FieldOf, Unary, Binary, Choice, Call]


@dataclass(frozen=True)
class Let:
    """A name for a term."""

    name: str
    body: Expr
    span: Span


@dataclass(frozen=True)
class Macro:
    """A name for a term with parameters."""

    name: str
    params: tuple[str, ...]
    body: Expr
    span: Span


@dataclass(frozen=True)
class Operation:
    """The concrete operation with its named inputs."""

    name: str
    inputs: tuple[str, ...]
    body: Expr
    span: Span

    @property
    def text(self) -> str:
        """The operation as it stands in the source, on one line."""
        whole = self.span.file.text[self.span.start : self.span.end]
        return " ".join(line.partition("#")[0].strip() for line in whole.split("\n")).partition(" ")[2].strip()


@dataclass(frozen=True)
class Entry:
    """A field or a nonterminal with its alternatives; a candidate's entry has one."""

    name: str
    alternatives: tuple[Expr, ...]
    span: Span


@dataclass(frozen=True)
class Candidate:
    """A transformer that the author has."""

    name: str
    lets: tuple[Let, ...]
    entries: tuple[Entry, ...]
    span: Span


@dataclass(frozen=True)
class Grammar:
    """What transformers may be built from."""

    lets: tuple[Let, ...]
    entries: tuple[Entry, ...]
    depth: int | None
    span: Span


@dataclass(frozen=True)
class Expectation:
    """What the author says of the file: `kind` is sound, unsound, best or none."""

    kind: str
    name: str | None
    widths: tuple[int, ...] | None
    span: Span

    def holds_at(self, width: int) -> bool:
        """Whether the expectation is stated at a width."""
        return self.widths is None or width in self.widths

    def __str__(self) -> str:
        return self.kind if self.name is None else f"{self.kind} {self.name}"


@dataclass
class LabFile:
    """A whole source."""

    source: SourceFile
    description: str = ""
    domain: str = ""
    operation: Operation | None = None
    assume: Expr | None = None
    feasible: Expr | None = None
    widths: tuple[int, ...] = tuple(range(2, 9))
    turns: int = 200
    conflicts: int = 200_000
    depth: int | None = None
    lets: list[Let] = field(default_factory=list)
    macros: list[Macro] = field(default_factory=list)
    candidates: list[Candidate] = field(default_factory=list)
    grammar: Grammar | None = None
    expectations: list[Expectation] = field(default_factory=list)

    def candidate(self, name: str) -> Candidate | None:
        """The candidate of a name."""
        return next((c for c in self.candidates if c.name == name), None)
