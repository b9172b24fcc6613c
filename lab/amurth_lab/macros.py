"""Built-in macros: machine operations said in the core's operators, for any width. Loops over bits are unrolled."""

from __future__ import annotations

from dataclasses import dataclass
from functools import reduce
from typing import Any, Callable

from .terms import Const, Term, make
from .words import ones


class MacroError(Exception):
    """A macro can't be said here; the text says why."""


@dataclass(frozen=True)
class BuiltIn:
    """A macro of the workbench: how many arguments it has, what it means, and how it is said at a width."""

    arity: int
    meaning: str
    build: Callable[..., Term]


class _Builder:
    """Short names for terms of a width."""

    def __init__(self, width: int) -> None:
        self.width = width

    def __call__(self, op: str, *args: Term | int) -> Term:
        return make(self.width, op, *(Const(arg & ones(self.width)) if isinstance(arg, int) else arg for arg in args))

    def sign(self, a: Term) -> Term:
        """All ones where a is negative, and else 0."""
        return self("ashr", a, self.width - 1)

    def signed_by(self, value: Term, sign: Term) -> Term:
        """The value, negated where the sign is all ones."""
        return self("sub", self("xor", value, sign), sign)

    def balanced(self, op: str, parts: list[Term]) -> Term:
        """An associative operator over parts, as a tree of the least depth."""
        while len(parts) > 1:
            paired = [self(op, *parts[i : i + 2]) for i in range(0, len(parts) - 1, 2)]
            parts = paired + (parts[-1:] if len(parts) % 2 else [])
        return parts[0]


def _abs(t: _Builder, a: Term) -> Term:
    return t("umin", a, t("neg", a))


def _sdiv(t: _Builder, a: Term, b: Term) -> Term:
    return t.signed_by(t("udiv", _abs(t, a), _abs(t, b)), t.sign(t("xor", a, b)))


def _srem(t: _Builder, a: Term, b: Term) -> Term:
    return t.signed_by(t("urem", _abs(t, a), _abs(t, b)), t.sign(a))


def _popcount(t: _Builder, a: Term) -> Term:
    # a less all its right shifts: each bit 2^i stands for 2^i - (2^i - 1) = 1
    return reduce(lambda sum_, i: t("sub", sum_, t("lshr", a, i)), range(1, t.width), a)


def _ctlz(t: _Builder, a: Term) -> Term:
    return t.balanced("add", [t("ult", a, 1 << i) for i in range(t.width)])


def _cttz(t: _Builder, a: Term) -> Term:
    return t.balanced("add", [t("eq", t("and", a, (2 << i) - 1), 0) for i in range(t.width)])


def _modulo_width(t: _Builder, n: Term) -> Term:
    if t.width & (t.width - 1) == 0:
        return t("and", n, t.width - 1)
    return t("urem", n, t.width)


def _fshl(t: _Builder, a: Term, b: Term, n: Term) -> Term:
    shift = _modulo_width(t, n)
    return t("or", t("shl", a, shift), t("lshr", b, t("sub", t.width, shift)))


def _fshr(t: _Builder, a: Term, b: Term, n: Term) -> Term:
    shift = _modulo_width(t, n)
    return t("or", t("shl", a, t("sub", t.width, shift)), t("lshr", b, shift))


def _extreme(t: _Builder, a: Term) -> Term:
    """The least signed number where a is negative, and else the greatest."""
    return t("xor", t.sign(a), ones(t.width) >> 1)


def _sadd_overflow(t: _Builder, a: Term, b: Term) -> Term:
    total = t("add", a, b)
    return t("slt", t("and", t("xor", a, total), t("xor", b, total)), 0)


def _ssub_overflow(t: _Builder, a: Term, b: Term) -> Term:
    return t("slt", t("and", t("xor", a, b), t("xor", a, t("sub", a, b))), 0)


def _sadd_sat(t: _Builder, a: Term, b: Term) -> Term:
    return t("ite", _sadd_overflow(t, a, b), _extreme(t, a), t("add", a, b))


def _ssub_sat(t: _Builder, a: Term, b: Term) -> Term:
    return t("ite", _ssub_overflow(t, a, b), _extreme(t, a), t("sub", a, b))


def _mulhu(t: _Builder, a: Term, b: Term) -> Term:
    """The high half of a product by half words: the low half has `half` bits, the high one a bit more at odd widths."""
    half = t.width // 2
    low = [t("and", x, (1 << half) - 1) for x in (a, b)]
    high = [t("lshr", x, half) for x in (a, b)]
    first = t("add", t("mul", high[0], low[1]), t("lshr", t("mul", low[0], low[1]), half))
    second = t("add", t("mul", low[0], high[1]), t("and", first, (1 << half) - 1))
    carried = t("add", t("lshr", first, half), t("lshr", second, half))
    if t.width % 2 == 0:
        return t("add", t("mul", high[0], high[1]), carried)
    last = t("add", t("mul", high[0], t("and", high[1], 1)), carried)
    return t("add", t("mul", high[0], t("lshr", high[1], 1)), t("lshr", last, 1))


def _mulhs(t: _Builder, a: Term, b: Term) -> Term:
    return t("sub", t("sub", _mulhu(t, a, b), t("and", t.sign(a), b)), t("and", t.sign(b), a))


def _sext(t: _Builder, a: Term, n: Term) -> Term:
    shift = t("sub", t.width, n)
    return t("ashr", t("shl", a, shift), shift)


def _zext(t: _Builder, a: Term, n: Term) -> Term:
    return t("and", a, t("sub", t("shl", 1, n), 1))


def _smear(t: _Builder, a: Term) -> Term:
    # all shifts side by side, which is as short as doubling them and lies flatter
    return t.balanced("or", [a, *(t("lshr", a, i) for i in range(1, t.width))])


def _bitreverse(t: _Builder, a: Term) -> Term:
    parts: list[Term] = []
    for bit in range(t.width):
        move = t.width - 1 - 2 * bit
        moved = t("shl", a, move) if move >= 0 else t("lshr", a, -move)
        parts.append(t("and", moved, 1 << (t.width - 1 - bit)))
    return t.balanced("or", parts)


def _bswap(t: _Builder, a: Term) -> Term:
    if t.width % 2:
        raise MacroError(f"`bswap` swaps two halves, and a width of {t.width} has none")
    return t("or", t("shl", a, t.width // 2), t("lshr", a, t.width // 2))


def _of(arity: int, meaning: str, build: Callable[..., Any]) -> BuiltIn:
    return BuiltIn(arity, meaning, lambda width, *args: build(_Builder(width), *args))


BUILT_IN: dict[str, BuiltIn] = {
    "sdiv": _of(2, "signed quotient, rounded towards 0, as SMT-LIB's bvsdiv", _sdiv),
    "srem": _of(2, "signed remainder with the dividend's sign, as SMT-LIB's bvsrem", _srem),
    "abs": _of(1, "absolute value; that of the least number is itself", _abs),
    "popcount": _of(1, "number of one bits", _popcount),
    "ctlz": _of(1, "number of leading zeros", _ctlz),
    "cttz": _of(1, "number of trailing zeros", _cttz),
    "rotl": _of(2, "rotation to the left, by an amount modulo the width", lambda t, a, n: _fshl(t, a, a, n)),
    "rotr": _of(2, "rotation to the right, by an amount modulo the width", lambda t, a, n: _fshr(t, a, a, n)),
    "fshl": _of(3, "high word of a:b shifted to the left, modulo the width", _fshl),
    "fshr": _of(3, "low word of a:b shifted to the right, modulo the width", _fshr),
    "uadd_sat": _of(2, "unsigned saturating sum", lambda t, a, b: t("add", a, t("umin", b, t("not", a)))),
    "usub_sat": _of(2, "unsigned saturating difference", lambda t, a, b: t("sub", a, t("umin", a, b))),
    "sadd_sat": _of(2, "signed saturating sum", _sadd_sat),
    "ssub_sat": _of(2, "signed saturating difference", _ssub_sat),
    "mulhu": _of(2, "high half of the unsigned product", _mulhu),
    "mulhs": _of(2, "high half of the signed product", _mulhs),
    "sext": _of(2, "the low n bits, sign extended", _sext),
    "zext": _of(2, "the low n bits", _zext),
    "carry": _of(2, "1 where the unsigned sum overflows", lambda t, a, b: t("ult", t("add", a, b), a)),
    "borrow": _of(2, "1 where the unsigned difference is negative", lambda t, a, b: t("ult", a, b)),
    "uadd_overflow": _of(2, "as carry", lambda t, a, b: t("ult", t("add", a, b), a)),
    "usub_overflow": _of(2, "as borrow", lambda t, a, b: t("ult", a, b)),
    "umul_overflow": _of(2, "1 where the unsigned product overflows", lambda t, a, b: t("ult", t("udiv", -1, b), a)),
    "sadd_overflow": _of(2, "1 where the signed sum overflows", _sadd_overflow),
    "ssub_overflow": _of(2, "1 where the signed difference overflows", _ssub_overflow),
    "blsi": _of(1, "the lowest one bit alone", lambda t, a: t("and", a, t("neg", a))),
    "smear": _of(1, "all bits from the highest one bit down", _smear),
    "avg_floor": _of(2, "mean, rounded down", lambda t, a, b: t("add", t("and", a, b), t("lshr", t("xor", a, b), 1))),
    "avg_ceil": _of(2, "mean, rounded up", lambda t, a, b: t("sub", t("or", a, b), t("lshr", t("xor", a, b), 1))),
    "bitreverse": _of(1, "the bits in reverse order", _bitreverse),
    "bswap": _of(1, "the two halves swapped", _bswap),
}
