"""Equal terms that are shorter or flatter: for people to read, and to pass the core's limits."""

from __future__ import annotations

from functools import lru_cache

from .terms import Apply, Const, Term, is_truth, make, nodes, show
from .words import ASSOCIATIVE, ones

_COMMUTATIVE = ASSOCIATIVE | {"eq"}
# What an operator gives with a word at its left or right: "same" is the other argument, a number that word.
_ABSORBED = {"and": 0, "or": -1, "mul": 0, "umin": 0, "umax": -1}
_NEUTRAL = {"and": -1, "or": 0, "xor": 0, "add": 0, "mul": 1, "umin": -1, "umax": 0}
_NEUTRAL_RIGHT = {**_NEUTRAL, "sub": 0, "shl": 0, "lshr": 0, "ashr": 0, "udiv": 1}
_SAME: dict[str, str | int] = {
    "and": "same", "or": "same", "umin": "same", "umax": "same", "smin": "same", "smax": "same",
    "xor": 0, "sub": 0, "eq": 1, "ule": 1, "sle": 1, "ult": 0, "slt": 0, "urem": 0,
}  # fmt: skip


def simplify(width: int, term: Term) -> Term:
    """An equal term that isn't longer, by local rules."""
    return _simplified(width, term)


@lru_cache(maxsize=1 << 16)
def _simplified(width: int, term: Term) -> Term:
    if not isinstance(term, Apply):
        return term
    args = tuple(_simplified(width, arg) for arg in term.args)
    out = make(width, term.op, *args)
    for _ in range(8):
        shorter = _step(width, out)
        if shorter == out:
            return out
        out = shorter
    return out


def _step(width: int, term: Term) -> Term:
    if not isinstance(term, Apply):
        return term
    if len(term.args) == 1:
        return _unary(term)
    if term.op == "ite":
        return _choice(width, term)
    return _binary(width, term)


def _unary(term: Apply) -> Term:
    inner = term.args[0]
    return inner.args[0] if isinstance(inner, Apply) and inner.op == term.op else term


def _choice(width: int, term: Apply) -> Term:
    condition, then, other = term.args
    if isinstance(condition, Const):
        return then if condition.value else other
    if then == other:
        return then
    if then == Const(1) and other == Const(0) and is_truth(condition):
        return condition
    negated = _negated(condition)
    if negated is not None:
        return make(width, "ite", negated, other, then)
    return term


def _negated(condition: Term) -> Term | None:
    """The term c of a condition `c == 0`."""
    if isinstance(condition, Apply) and condition.op == "eq" and Const(0) in condition.args:
        return condition.args[1] if condition.args[0] == Const(0) else condition.args[0]
    return None


def _binary(width: int, term: Apply) -> Term:
    op, (a, b) = term.op, term.args
    if a == b and op in _SAME:
        same = _SAME[op]
        return a if isinstance(same, str) else Const(same)
    if op in _COMMUTATIVE and isinstance(a, Const):
        a, b = b, a
    if isinstance(b, Const):
        if op in _ABSORBED and b.value == _ABSORBED[op] & ones(width):
            return b
        if op in _NEUTRAL_RIGHT and b.value == _NEUTRAL_RIGHT[op] & ones(width):
            return a
        if op == "xor" and b.value == ones(width):
            return make(width, "not", a)
    if op in ("and", "or", "umin", "umax", "smin", "smax"):
        return _repeated(op, a, b)
    return Apply(op, (a, b)) if op in _COMMUTATIVE else term


def _repeated(op: str, a: Term, b: Term) -> Term:
    """Leaves out what stands already in the other argument."""
    parts = _flat(op, Apply(op, (a, b)))
    kept = list(dict.fromkeys(parts))
    if len(kept) == len(parts):
        return Apply(op, (a, b))
    out = kept[0]
    for part in kept[1:]:
        out = Apply(op, (out, part))
    return out


def _flat(op: str, term: Term) -> list[Term]:
    if isinstance(term, Apply) and term.op == op:
        return [part for arg in term.args for part in _flat(op, arg)]
    return [term]


def balanced(term: Term) -> Term:
    """An equal term in which chains of an associative operator are trees of the least depth."""
    if not isinstance(term, Apply):
        return term
    if term.op not in ASSOCIATIVE:
        return Apply(term.op, tuple(balanced(arg) for arg in term.args))
    return _gathered(term.op, [balanced(part) for part in _flat(term.op, term)])


def _gathered(op: str, parts: list[Term]) -> Term:
    """Combines the smallest two parts until one is left, which keeps big parts near the top."""
    parts = sorted(parts, key=nodes)
    while len(parts) > 1:
        parts = sorted([Apply(op, (parts[0], parts[1])), *parts[2:]], key=nodes)
    return parts[0]


def ordered(term: Term) -> Term:
    """An equal term with the arguments of commutative operators in the order of their texts."""
    if not isinstance(term, Apply):
        return term
    args = [ordered(arg) for arg in term.args]
    if term.op in ASSOCIATIVE:
        parts = sorted((p for arg in args for p in _flat(term.op, arg)), key=lambda part: show(part, "f"))
        out = parts[0]
        for part in parts[1:]:
            out = Apply(term.op, (out, part))
        return out
    if term.op == "eq":
        args.sort(key=lambda arg: show(arg, "f"))
    return Apply(term.op, tuple(args))


def same_terms(width: int, a: tuple[Term, ...], b: tuple[Term, ...]) -> bool:
    """Whether terms are equal by regrouping and the local rules; many equal terms aren't found so."""
    return [ordered(simplify(width, t)) for t in a] == [ordered(simplify(width, t)) for t in b]
