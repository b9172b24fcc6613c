"""The nine domains of the core: fields, values, members, closest values, and how values are told."""

from __future__ import annotations

from dataclasses import dataclass
from functools import lru_cache
from itertools import product
from typing import Callable, Iterator, Sequence

from .terms import Apply, Const, Term, Var, evaluator, substitute
from .words import ones, signed

Value = tuple[int, ...]


def _t(op: str, *args: Term | int) -> Term:
    return Apply(op, tuple(Const(arg) if isinstance(arg, int) else arg for arg in args))


F0, F1, F2 = Var(0), Var(1), Var(2)


@dataclass(frozen=True)
class Domain:
    """A domain. The two tests are terms of the core: over the fields, and over the fields and then a word."""

    name: str
    fields: tuple[str, ...]
    valid_term: Term
    member_term: Term
    is_signed: bool = False
    is_product: bool = False

    @property
    def parts(self) -> tuple["Domain", ...]:
        """The domains of a product, or the domain alone."""
        return tuple(DOMAINS[name] for name in self.name.split("+")) if self.is_product else (self,)

    def split(self, value: Sequence[int]) -> Iterator[tuple["Domain", Value]]:
        """The parts of a value with their domains."""
        place = 0
        for part in self.parts:
            yield part, tuple(value[place : place + len(part.fields)])
            place += len(part.fields)

    def is_valid(self, width: int, value: Sequence[int]) -> bool:
        """Whether a tuple is an abstract value."""
        return _test(width, self.valid_term)(value)[0] != 0

    def has_member(self, width: int, value: Sequence[int], word: int) -> bool:
        """Whether a word is a member of a tuple, valid or not."""
        return _test(width, self.member_term)((*value, word))[0] != 0

    def members(self, width: int, value: Value) -> int:
        """All members, as a set of bits: bit c stands for the word c."""
        return _members(self, width, value)

    def values(self, width: int) -> tuple[Value, ...]:
        """All abstract values at a width."""
        return _values(self, width)

    def top(self, width: int) -> Value:
        """The value with all words."""
        return _TOPS[self.name](width) if not self.is_product else sum((part.top(width) for part in self.parts), ())

    def empty(self, width: int) -> Value | None:
        """A tuple without members, or none where the domain has no such tuple."""
        return _EMPTY[self.name](width) if self.name in _EMPTY else None

    def point(self, width: int, fields: Sequence[Term]) -> tuple[Term, Term]:
        """For a value's fields: a test that tells single words (or single parities), and the word."""
        return _POINTS[self.parts[0].name](width, fields)


@lru_cache(maxsize=None)
def _test(width: int, term: Term) -> Callable[[Sequence[int]], tuple[int, ...]]:
    return evaluator(width, [term])


@lru_cache(maxsize=1 << 20)
def _members(domain: Domain, width: int, value: Value) -> int:
    test = _test(width, domain.member_term)
    return sum(1 << word for word in range(1 << width) if test((*value, word))[0])


@lru_cache(maxsize=None)
def _values(domain: Domain, width: int) -> tuple[Value, ...]:
    if not domain.is_product:
        words = range(1 << width)
        return tuple(v for v in product(words, repeat=len(domain.fields)) if domain.is_valid(width, v))
    first, second = domain.parts
    pairs = (a + b for a in first.values(width) for b in second.values(width))
    return tuple(value for value in pairs if domain.is_valid(width, value))


def _low_ones(width: int, bits: int) -> int:
    """The greatest number 2^j - 1 whose bits are all among some bits."""
    return ones((~bits & -~bits).bit_length() - 1) if bits != ones(width) else bits


def _words(members: int) -> list[int]:
    return [word for word in range(members.bit_length()) if members >> word & 1]


def _closest_interval(width: int, members: int, is_signed: bool) -> Value:
    words = sorted(_words(members), key=lambda word: signed(width, word) if is_signed else word)
    return words[0], words[-1]


def _closest_bits(width: int, members: int) -> Value:
    words = _words(members)
    zeros, known = ones(width), ones(width)
    for word in words:
        zeros, known = zeros & ~word, known & word
    return zeros, known


def _closest_congruence(width: int, members: int) -> Value:
    words = _words(members)
    same = ones(width)
    for word in words:
        same &= ~(word ^ words[0])
    modulus = _low_ones(width, same)
    return modulus, words[0] & modulus


def _closest_arc(width: int, members: int) -> Value:
    """The shortest way round that meets all words: the complement of the widest gap between neighbours."""
    words = _words(members)
    gaps = [
        ((after - word) & ones(width) or 1 << width, word, after) for word, after in zip(words, words[1:] + words[:1])
    ]
    _, last, first = max(gaps, key=lambda gap: gap[0])
    return first, last


def closest(domain: Domain, width: int, members: int) -> Value:
    """An abstract value with the fewest members among those that have some words; there is at least one word."""
    if domain.is_product:
        return sum((closest(part, width, members) for part in domain.parts), ())
    if domain.name.endswith("-interval"):
        if domain.name == "w-interval":
            return _closest_arc(width, members)
        return _closest_interval(width, members, domain.is_signed)
    if domain.name == "known-bits":
        return _closest_bits(width, members)
    if domain.name == "parity":
        even = sum(1 << word for word in range(0, 1 << width, 2))
        return (bool(members & even) + 2 * bool(members & ~even),)
    return _closest_congruence(width, members)


_INTERVAL = ("lo", "hi")
_SIMPLE = (
    Domain("u-interval", _INTERVAL, _t("ule", F0, F1), _t("and", _t("ule", F0, F2), _t("ule", F2, F1))),
    Domain("s-interval", _INTERVAL, _t("sle", F0, F1), _t("and", _t("sle", F0, F2), _t("sle", F2, F1)), True),
    Domain(
        "known-bits",
        ("zeros", "ones"),
        _t("eq", _t("and", F0, F1), 0),
        _t("and", _t("eq", _t("and", F2, F0), 0), _t("eq", _t("and", F2, F1), F1)),
    ),
    Domain(
        "parity",
        ("p",),
        _t("and", _t("ule", 1, F0), _t("ule", F0, 3)),
        _t("and", _t("lshr", F0, _t("and", F1, 1)), 1),
    ),
    Domain(
        "congruence",
        ("m", "r"),
        _t("and", _t("eq", _t("and", F0, _t("add", F0, 1)), 0), _t("eq", _t("and", F1, _t("not", F0)), 0)),
        _t("eq", _t("and", _t("xor", F2, F1), F0), 0),
    ),
    Domain("w-interval", ("first", "last"), Const(1), _t("ule", _t("sub", F2, F0), _t("sub", F1, F0))),
)


def _product(a: Domain, b: Domain) -> Domain:
    word, second = Var(4), (Var(2), Var(3))
    valid_second = substitute(b.valid_term, second)
    valid = _t("ite", a.valid_term, _t("ite", valid_second, substitute(b.member_term, (*second, Var(0))), 0), 0)
    member = _t("ite", substitute(a.member_term, (F0, F1, word)), substitute(b.member_term, (*second, word)), 0)
    return Domain(f"{a.name}+{b.name}", a.fields + b.fields, valid, member, is_product=True)


DOMAINS: dict[str, Domain] = {domain.name: domain for domain in _SIMPLE}
for _first, _second in (("u-interval", "known-bits"), ("u-interval", "congruence"), ("w-interval", "congruence")):
    _pair = _product(DOMAINS[_first], DOMAINS[_second])
    DOMAINS[_pair.name] = _pair

_TOPS: dict[str, Callable[[int], Value]] = {
    "u-interval": lambda w: (0, ones(w)),
    "s-interval": lambda w: (1 << (w - 1), ones(w) >> 1),
    "known-bits": lambda w: (0, 0),
    "parity": lambda w: (3,),
    "congruence": lambda w: (0, 0),
    "w-interval": lambda w: (0, ones(w)),
}
_EMPTY: dict[str, Callable[[int], Value]] = {
    "u-interval": lambda w: (1, 0),
    "s-interval": lambda w: (1, 0),
    "known-bits": lambda w: (ones(w), ones(w)),
    "parity": lambda w: (0,),
    "u-interval+known-bits": lambda w: (1, 0, 0, 0),
    "u-interval+congruence": lambda w: (1, 0, 0, 0),
    "w-interval+congruence": lambda w: (0, 0, 1, 1),
}


def _same_ends(width: int, fields: Sequence[Term]) -> tuple[Term, Term]:
    return _t("eq", fields[0], fields[1]), fields[0]


_POINTS: dict[str, Callable[[int, Sequence[Term]], tuple[Term, Term]]] = {
    "u-interval": _same_ends,
    "s-interval": _same_ends,
    "w-interval": _same_ends,
    "known-bits": lambda w, f: (_t("eq", _t("or", f[0], f[1]), ones(w)), f[1]),
    "parity": lambda w, f: (_t("ult", f[0], 3), _t("lshr", f[0], 1)),
    "congruence": lambda w, f: (_t("eq", f[0], ones(w)), f[1]),
}
