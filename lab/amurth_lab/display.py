"""Tells words and abstract values to people."""

from __future__ import annotations

from typing import Sequence

from .domains import Domain, Value
from .words import signed


def number(domain: Domain, width: int, word: int) -> str:
    """A word, as a signed number where the domain is."""
    return str(signed(width, word)) if domain.is_signed else str(word)


def word_text(domain: Domain, width: int, word: int) -> str:
    """A word with its bits."""
    return f"{number(domain, width, word)} (0b{word:0{width}b})"


def value_text(domain: Domain, width: int, value: Sequence[int]) -> str:
    """An abstract value, or a tuple that is none."""
    return " and ".join(_part_text(part, width, fields) for part, fields in domain.split(value))


def _part_text(domain: Domain, width: int, value: Value) -> str:
    if domain.name == "known-bits":
        return bits_text(width, value)
    if domain.name == "parity":
        return {1: "even", 2: "odd", 3: "even or odd"}.get(value[0] & 3, "neither even nor odd")
    if domain.name == "congruence":
        return _congruence_text(width, value)
    if domain.name == "w-interval":
        wraps = ", which wraps" if value[1] < value[0] else ""
        return f"[{value[0]} .. {value[1]}]{wraps}"
    low, high = (number(domain, width, end) for end in value)
    return f"[{low}, {high}]" + ("" if domain.is_valid(width, value) else " (turned around: no words)")


def bits_text(width: int, value: Sequence[int]) -> str:
    """Known bits as 0, 1 and ?, the highest first; ! where a bit is said to be both."""
    marks = {(0, 0): "?", (1, 0): "0", (0, 1): "1", (1, 1): "!"}
    bits = range(width - 1, -1, -1)
    return "".join(marks[value[0] >> bit & 1, value[1] >> bit & 1] for bit in bits)


def _congruence_text(width: int, value: Value) -> str:
    modulus, rest = value
    if modulus & (modulus + 1):
        return f"words that agree with {rest} on the bits of {modulus}"
    if modulus == 0:
        return "any word"
    if modulus == (1 << width) - 1:
        return f"just {rest & modulus}"
    return f"{rest & modulus} modulo {modulus + 1}"


def missed(domain: Domain, width: int, value: Sequence[int], word: int) -> str:
    """Which bit or end of a value misses a word that it should have."""
    reasons = []
    for part, fields in domain.split(value):
        if not part.has_member(width, fields, word):
            reasons.append(_part_missed(part, width, fields, word))
    return "; ".join(reasons)


def _part_missed(domain: Domain, width: int, value: Value, word: int) -> str:
    shown = number(domain, width, word)
    if domain.name == "known-bits":
        return _bits_missed(width, value, word)
    if domain.name == "parity":
        return f"{shown} is {'odd' if word & 1 else 'even'}, and `p` is {value[0]}, which has bit {word & 1} clear"
    if domain.name == "congruence":
        bit = (word ^ value[1]) & value[0]
        low = (bit & -bit).bit_length() - 1
        return f"bit {low} of {shown} is {word >> low & 1}, and `m` = {value[0]} fixes it as that of `r` = {value[1]}"
    if domain.name == "w-interval":
        return f"{shown} isn't met on the way from `first` = {value[0]} up to `last` = {value[1]}"
    low, high = (signed(width, end) if domain.is_signed else end for end in value)
    at = signed(width, word) if domain.is_signed else word
    below = [f"{at} is below `lo` = {low}"] if at < low else []
    above = [f"{at} is above `hi` = {high}"] if at > high else []
    return " and ".join(below + above)


def _bits_missed(width: int, value: Value, word: int) -> str:
    wrong = []
    for bit in range(width - 1, -1, -1):
        if value[0] >> bit & 1 and word >> bit & 1:
            wrong.append(f"bit {bit} is 1, and `zeros` says 0")
        if value[1] >> bit & 1 and not word >> bit & 1:
            wrong.append(f"bit {bit} is 0, and `ones` says 1")
    return "; ".join(wrong)


def size_text(size: int) -> str:
    """A number of bytes, rounded."""
    if size < 10_000:
        return f"{size:,} bytes"
    return f"{size / 1000:,.0f} kB" if size < 10_000_000 else f"{size / 1e6:,.1f} MB"


def seconds_text(seconds: float) -> str:
    """A time, rounded."""
    if seconds < 60:
        return f"{seconds:.2f} s" if seconds < 10 else f"{seconds:.0f} s"
    return f"{int(seconds) // 60} min {int(seconds) % 60} s"


def count(number_: int, what: str) -> str:
    """A number with its noun."""
    return f"{number_:,} {what}" + ("" if number_ == 1 else "s")
