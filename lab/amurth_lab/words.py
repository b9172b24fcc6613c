"""Words of 2 to 8 bits: the core's 23 operators, their weights, and words that follow from the width."""

from __future__ import annotations

from typing import Any, Callable, Sequence

WIDTHS = range(2, 9)

ARITY = {
    "not": 1, "neg": 1, "and": 2, "or": 2, "xor": 2, "add": 2, "sub": 2, "mul": 2,
    "udiv": 2, "urem": 2, "shl": 2, "lshr": 2, "ashr": 2,
    "eq": 2, "ult": 2, "ule": 2, "slt": 2, "sle": 2,
    "umin": 2, "umax": 2, "smin": 2, "smax": 2, "ite": 3,
}  # fmt: skip

# Operators whose value is always 0 or 1.
COMPARISONS = frozenset(("eq", "ult", "ule", "slt", "sle"))

# Operators that may be regrouped freely.
ASSOCIATIVE = frozenset(("and", "or", "xor", "add", "mul", "umin", "umax", "smin", "smax"))


def ones(width: int) -> int:
    """The word of all one bits."""
    return (1 << width) - 1


def signed(width: int, word: int) -> int:
    """The signed number of a word in two's complement."""
    return word - (1 << width) if word >> (width - 1) else word


_VALUES: dict[str, Callable[..., Any]] = {
    "not": lambda w, a: ~a,
    "neg": lambda w, a: -a,
    "and": lambda w, a, b: a & b,
    "or": lambda w, a, b: a | b,
    "xor": lambda w, a, b: a ^ b,
    "add": lambda w, a, b: a + b,
    "sub": lambda w, a, b: a - b,
    "mul": lambda w, a, b: a * b,
    "udiv": lambda w, a, b: a // b if b else -1,
    "urem": lambda w, a, b: a % b if b else a,
    "shl": lambda w, a, b: a << b if b < w else 0,
    "lshr": lambda w, a, b: a >> b,
    "ashr": lambda w, a, b: signed(w, a) >> b,
    "eq": lambda w, a, b: a == b,
    "ult": lambda w, a, b: a < b,
    "ule": lambda w, a, b: a <= b,
    "slt": lambda w, a, b: signed(w, a) < signed(w, b),
    "sle": lambda w, a, b: signed(w, a) <= signed(w, b),
    "umin": lambda w, a, b: min(a, b),
    "umax": lambda w, a, b: max(a, b),
    "smin": lambda w, a, b: min(a, b, key=lambda c: signed(w, c)),
    "smax": lambda w, a, b: max(a, b, key=lambda c: signed(w, c)),
    "ite": lambda w, a, b, c: b if a else c,
}


def apply(op: str, width: int, args: Sequence[int]) -> int:
    """The value of an operator at words, as SMT-LIB has it where it has the operator."""
    return int(_VALUES[op](width, *args)) & ones(width)


def weight(op: str, width: int) -> int:
    """How many gates the core counts for an operator."""
    w = width
    if op == "not":
        return 0
    if op in ("and", "or", "xor"):
        return w
    if op in ("eq", "ite"):
        return 2 * w
    if op in ("umin", "umax", "smin", "smax"):
        return 4 * w
    if op in ("shl", "lshr", "ashr"):
        return w * w
    if op == "mul":
        return w * (w + 1) // 2 + 3 * w * w
    if op in ("udiv", "urem"):
        return 4 * w * (w + 1)
    return 3 * w


# Names for words that follow from the width.
WIDTH_WORDS: dict[str, Callable[[int], int]] = {
    "ones": ones,
    "msb": lambda w: 1 << (w - 1),
    "width": lambda w: w,
    "half": lambda w: w // 2,
    "max_u": ones,
    "min_u": lambda w: 0,
    "max_s": lambda w: ones(w) >> 1,
    "min_s": lambda w: 1 << (w - 1),
    "lowhalf": lambda w: ones(w // 2),
}
