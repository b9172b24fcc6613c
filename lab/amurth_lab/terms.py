"""Terms of the core, built with constants folded; their texts, sizes and values."""

from __future__ import annotations

from dataclasses import dataclass, field
from typing import Callable, Iterable, Sequence, Union

from .words import COMPARISONS, apply, ones, weight


@dataclass(frozen=True)
class Const:
    """A word."""

    value: int


@dataclass(frozen=True)
class Var:
    """An input of the operation, or a field of the inputs, by its number."""

    index: int


@dataclass(frozen=True)
class Hole:
    """A place that a nonterminal fills."""

    name: str


@dataclass(frozen=True, eq=False)
class Apply:
    """An operator at terms. Equality is that of texts, and the hash is kept."""

    op: str
    args: tuple["Term", ...]
    _hash: int = field(init=False, repr=False)
    nodes: int = field(init=False, repr=False)
    has_hole: bool = field(init=False, repr=False)

    def __post_init__(self) -> None:
        object.__setattr__(self, "_hash", hash((self.op, self.args)))
        object.__setattr__(self, "nodes", 1 + sum(nodes(arg) for arg in self.args))
        object.__setattr__(self, "has_hole", any(has_hole(arg) for arg in self.args))

    def __hash__(self) -> int:
        return self._hash

    def __eq__(self, other: object) -> bool:
        if self is other:
            return True
        if not isinstance(other, Apply) or self._hash != other._hash:
            return False
        return self.op == other.op and self.args == other.args


Term = Union[Const, Var, Hole, Apply]


def nodes(term: Term) -> int:
    """The number of operators and leaves."""
    return term.nodes if isinstance(term, Apply) else 1


def has_hole(term: Term) -> bool:
    """Whether a nonterminal stands somewhere in a term."""
    return term.has_hole if isinstance(term, Apply) else isinstance(term, Hole)


def make(width: int, op: str, *args: Term) -> Term:
    """An operator at terms, or its value where all of them are words."""
    words = [arg.value for arg in args if isinstance(arg, Const)]
    if len(words) == len(args):
        return Const(apply(op, width, words))
    return Apply(op, args)


def is_truth(term: Term) -> bool:
    """Whether a term's value is 0 or 1 by its form."""
    if isinstance(term, Const):
        return term.value <= 1
    if not isinstance(term, Apply):
        return False
    if term.op in COMPARISONS:
        return True
    if term.op in ("and", "or", "xor", "mul"):
        return all(is_truth(arg) for arg in term.args)
    if term.op == "ite":
        return is_truth(term.args[1]) and is_truth(term.args[2])
    return False


def truth(width: int, term: Term) -> Term:
    """1 where a term isn't 0, and else 0."""
    return term if is_truth(term) else make(width, "ult", Const(0), term)


def substitute(term: Term, leaves: Sequence[Term]) -> Term:
    """Puts terms for the variables."""
    if isinstance(term, Var):
        return leaves[term.index]
    if isinstance(term, Apply):
        return Apply(term.op, tuple(substitute(arg, leaves) for arg in term.args))
    return term


def show(term: Term, letter: str) -> str:
    """The core's text, with a letter before the variables' numbers."""
    if isinstance(term, Const):
        return str(term.value)
    if isinstance(term, Var):
        return f"{letter}{term.index}"
    if isinstance(term, Hole):
        return term.name
    return f"({term.op} {' '.join(show(arg, letter) for arg in term.args)})"


def term_weight(width: int, term: Term) -> int:
    """How many gates the core counts for a term."""
    if not isinstance(term, Apply):
        return 0
    return weight(term.op, width) + sum(term_weight(width, arg) for arg in term.args)


def parts_of(terms: Iterable[Term]) -> list[Term]:
    """All parts of terms, each once, and each after its own parts."""
    order: dict[Term, None] = {}

    def visit(term: Term) -> None:
        if term in order:
            return
        if isinstance(term, Apply):
            for arg in term.args:
                visit(arg)
        order[term] = None

    for term in terms:
        visit(term)
    return list(order)


_PYTHON = {
    "not": "{M} ^ {0}",
    "neg": "-{0} & {M}",
    "and": "{0} & {1}",
    "or": "{0} | {1}",
    "xor": "{0} ^ {1}",
    "add": "{0} + {1} & {M}",
    "sub": "{0} - {1} & {M}",
    "mul": "{0} * {1} & {M}",
    "udiv": "{0} // {1} if {1} else {M}",
    "urem": "{0} % {1} if {1} else {0}",
    "shl": "{0} << {1} & {M} if {1} < {W} else 0",
    "lshr": "{0} >> {1}",
    "ashr": "({0} ^ {H}) - {H} >> {1} & {M}",
    "eq": "1 if {0} == {1} else 0",
    "ult": "1 if {0} < {1} else 0",
    "ule": "1 if {0} <= {1} else 0",
    "slt": "1 if {0} ^ {H} < {1} ^ {H} else 0",
    "sle": "1 if {0} ^ {H} <= {1} ^ {H} else 0",
    "umin": "{0} if {0} < {1} else {1}",
    "umax": "{1} if {0} < {1} else {0}",
    "smin": "{0} if {0} ^ {H} < {1} ^ {H} else {1}",
    "smax": "{1} if {0} ^ {H} < {1} ^ {H} else {0}",
    "ite": "{1} if {0} else {2}",
}

Evaluator = Callable[[Sequence[int]], tuple[int, ...]]


def evaluator(width: int, terms: Sequence[Term]) -> Evaluator:
    """A function from the variables' words to the terms' values, quick at many calls."""
    names: dict[Term, str] = {}
    lines = ["def values(v):"]
    for part in parts_of(terms):
        if isinstance(part, Const):
            names[part] = str(part.value)
        elif isinstance(part, Var):
            names[part] = f"v[{part.index}]"
        elif isinstance(part, Apply):
            names[part] = f"t{len(names)}"
            args = [names[arg] for arg in part.args]
            value = _PYTHON[part.op].format(*args, M=ones(width), H=1 << (width - 1), W=width)
            lines.append(f"    {names[part]} = {value}")
    lines.append(f"    return ({''.join(names[term] + ', ' for term in terms)})")
    scope: dict[str, Evaluator] = {}
    exec("\n".join(lines), scope)  # the text is made of the 23 forms above alone
    return scope["values"]


def value(width: int, term: Term, env: Sequence[int]) -> int:
    """The value of a term, by going through it."""
    if isinstance(term, Const):
        return term.value
    if isinstance(term, Var):
        return env[term.index]
    if isinstance(term, Apply):
        return apply(term.op, width, [value(width, arg, env) for arg in term.args])
    raise ValueError("a nonterminal has no value")
