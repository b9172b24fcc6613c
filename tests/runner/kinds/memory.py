"""Runs under falling limits of the address space: the answer as it is without a limit, or status 5 and nothing written.

The limits lie between the least one under which the program starts (it ends with status 2 where it has no words) and
one that gives room enough for the answer.
"""

from __future__ import annotations

from collections.abc import Callable
from dataclasses import dataclass
from functools import cache

from ..process import Bench, Ended
from ..wanted import Wanted
from .scripts import shell

PAGE = 4096
LIMITS = 64
NO_MEMORY = Ended(5, b"")


@dataclass(frozen=True)
class Memory:
    """The program is run with these words under many limits, on an input that lines of the shell make of a text."""

    words: list[str]
    text: bytes
    wanted: Wanted
    making: str = ""

    def difference(self, bench: Bench) -> str | None:
        """The first limit under which something else came than the answer or want of memory."""
        text = shell(bench, self.making, self.text).output if self.making else self.text
        whole = bench.run(self.words, text)
        found = self.wanted.difference(whole)
        if found:
            return found

        def end(limit: int) -> Ended:
            return bench.run(self.words, text, address_space=limit)

        least = least_start(bench)
        ends = {limit: end(limit) for limit in limits(least, _enough(least, end, whole))}
        for limit, end in ends.items():
            if end not in (whole, NO_MEMORY):
                return f"with {limit} bytes: {end.manner()}, {len(end.output)} of {len(whole.output)} bytes written"
        if NO_MEMORY not in ends.values():
            return "no limit was tight enough for want of memory"
        return None


def _enough(least: int, end: Callable[[int], Ended], whole: Ended) -> int:
    """A limit that gives room for the answer: the least start and a power of two of pages."""
    more = PAGE
    while more < 2**30 and end(least + more) != whole:
        more *= 2
    return least + more


def limits(least: int, enough: int) -> list[int]:
    """The limits to try, from enough down to the least, in equal steps of whole pages."""
    step = max(PAGE, (enough - least) // LIMITS // PAGE * PAGE)
    return list(range(enough, least - 1, -step))


@cache
def least_start(bench: Bench) -> int:
    """The least number of bytes with which the program starts, to a page."""
    low, high = 0, 2**32 // PAGE
    while high - low > 1:
        middle = (low + high) // 2
        if bench.run([], address_space=middle * PAGE).status == 2:
            high = middle
        else:
            low = middle
    return high * PAGE
