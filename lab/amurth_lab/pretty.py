"""Prints terms in the source language, with the inputs' names."""

from __future__ import annotations

from dataclasses import dataclass
from typing import Sequence

from .domains import Domain
from .expressions import PRECEDENCE
from .terms import Apply, Const, Hole, Term, Var, nodes, parts_of
from .words import ones

_INFIX = {
    "or": "|", "xor": "^", "and": "&", "eq": "==", "ult": "<", "ule": "<=", "slt": "<s", "sle": "<=s",
    "shl": "<<", "lshr": ">>", "ashr": ">>>", "add": "+", "sub": "-", "mul": "*", "udiv": "/", "urem": "%",
}  # fmt: skip
_GROUPED = frozenset(("|", "^", "&", "+", "*"))
# C's bitwise operators bind more loosely than comparisons, which few remember: their operands are grouped.
_LEAST = {"|": 11, "^": 11, "&": 11, "==": 9, "<": 9, "<=": 9, "<s": 9, "<=s": 9, "<<": 11, ">>": 11, ">>>": 11}
_TIGHT = 20
_CHOICE = 0


@dataclass(frozen=True)
class Printer:
    """Prints terms at a width; `names` are the variables'."""

    width: int
    names: tuple[str, ...]

    def term(self, term: Term) -> str:
        """The text of a term."""
        return self._level(term)[0]

    def _inside(self, term: Term, least: int) -> str:
        text, level = self._level(term)
        return text if level >= least else f"({text})"

    def _level(self, term: Term) -> tuple[str, int]:
        """The text, and how tightly its outermost operator binds."""
        if isinstance(term, Const):
            return self.word(term.value), _TIGHT
        if isinstance(term, Var):
            return self.names[term.index], _TIGHT
        if isinstance(term, Hole):
            return term.name, _TIGHT
        return self._apply(term)

    def _apply(self, term: Apply) -> tuple[str, int]:
        if term.op in _INFIX:
            return self._infix(_INFIX[term.op], term.args[0], term.args[1])
        if term.op in ("not", "neg"):
            return ("~" if term.op == "not" else "-") + self._inside(term.args[0], 15), 15
        if term.op == "ite":
            parts = self._inside(term.args[0], 1), self._inside(term.args[1], 0), self._inside(term.args[2], 0)
            return f"{parts[0]} ? {parts[1]} : {parts[2]}", _CHOICE
        return f"{term.op}({', '.join(self.term(arg) for arg in term.args)})", _TIGHT

    def _infix(self, op: str, left: Term, right: Term) -> tuple[str, int]:
        level = PRECEDENCE[op]
        least = _LEAST.get(op, level)
        first = self._inside(left, least if not _is(left, op) else level)
        second = self._inside(right, max(least, level + 1) if not (_is(right, op) and op in _GROUPED) else level)
        return f"{first} {op} {second}", level

    def word(self, value: int) -> str:
        """A word, by its name where it has one."""
        if value == ones(self.width):
            return "ones"
        if self.width >= 4 and value == 1 << (self.width - 1):
            return "msb"
        if self.width >= 4 and value == ones(self.width) >> 1:
            return "max_s"
        return str(value)


def _is(term: Term, op: str) -> bool:
    return isinstance(term, Apply) and _INFIX.get(term.op) == op


def field_names(domain: Domain, inputs: Sequence[str]) -> tuple[str, ...]:
    """The names of the fields of all inputs, in the core's order."""
    return tuple(f"{name}.{field}" for name in inputs for field in domain.fields)


LEAST_SHARED = 5


def shared(terms: Sequence[Term]) -> tuple[list[tuple[str, Term]], list[Term]]:
    """Names for the parts that stand more than once, each with its term, and the terms with these names."""
    uses: dict[Term, int] = {}
    order = parts_of(terms)
    for part in order:
        for arg in part.args if isinstance(part, Apply) else ():
            uses[arg] = uses.get(arg, 0) + 1
    named: dict[Term, Term] = {}
    lets: list[tuple[str, Term]] = []
    for part in order:
        if not isinstance(part, Apply):
            named[part] = part
            continue
        short = Apply(part.op, tuple(named[arg] for arg in part.args))
        if uses.get(part, 0) > 1 and nodes(part) >= LEAST_SHARED:
            lets.append((f"t{len(lets) + 1}", short))
            named[part] = Hole(lets[-1][0])
        else:
            named[part] = short
    return lets, [named[term] for term in terms]
