"""Problems of the core: their texts, with the source of each part, and the core's limits."""

from __future__ import annotations

from dataclasses import dataclass, field
from functools import lru_cache
from typing import Union

from .domains import Domain
from .source import LabError, Span
from .terms import Term, show, term_weight
from .words import weight

MOST_RULES = 16
MOST_PRODUCTIONS = 64
MOST_NODES = 64
MOST_DEPTH = 5
MOST_SLOTS = 256
MOST_LOAD = 16_777_216


class LimitPassed(LabError):
    """A problem passes a limit of the core at its width."""


@dataclass(frozen=True)
class Leaf:
    """A production that is a term over the fields of all inputs."""

    term: Term
    span: Span | None = field(default=None, compare=False)


@dataclass(frozen=True)
class Node:
    """A production that is an operator at nonterminals."""

    op: str
    names: tuple[str, ...]
    span: Span | None = field(default=None, compare=False)


Production = Union[Leaf, Node]
Rules = dict[str, list[Production]]


@dataclass
class Problem:
    """A problem of the core. `notes` are what a reader should know of how it was made."""

    width: int
    inputs: int
    operation: Term
    assume: Term | None
    domain: Domain
    starts: tuple[str, ...]
    depth: int
    turns: int
    conflicts: int
    rules: Rules
    span: Span | None = None
    notes: list[str] = field(default_factory=list)

    def text(self) -> str:
        """The text that the core reads."""
        return "".join(piece for piece, _ in self._pieces())

    def span_at(self, place: int) -> Span | None:
        """The source of the part at a place of the text."""
        for piece, span in self._pieces():
            if place < len(piece):
                return span
            place -= len(piece)
        return self.span

    def _pieces(self) -> list[tuple[str, Span | None]]:
        out: list[tuple[str, Span | None]] = [
            (f"amurth 1\nwidth {self.width}\n", self.span),
            (f"operation {self.inputs} {show(self.operation, 'x')}\n", self.span),
        ]
        if self.assume is not None:
            out.append((f"assume {show(self.assume, 'x')}\n", self.span))
        head = f"domain {self.domain.name}\nstart {' '.join(self.starts)}\ndepth {self.depth}\n"
        out.append((f"{head}turns {self.turns}\nconflicts {self.conflicts}\n", self.span))
        for name, productions in self.rules.items():
            out.append((f"rule {name}", productions[0].span if productions else self.span))
            for production in productions:
                out.append((" " + _shown(production), production.span))
            out.append(("\n", self.span))
        out.append(("end\n", self.span))
        return out

    def slots(self) -> int:
        """How many slots the core counts: places of a tree that the productions of one nonterminal may fill."""
        return sum(self._counts(start, self.depth)[0] for start in self.starts)

    def load(self) -> int:
        """The core's bound on the gates of each query's formula."""
        w = self.width
        block = sum(self._counts(start, self.depth)[1] for start in self.starts)
        member = term_weight(w, self.domain.member_term) + w
        valid = term_weight(w, self.domain.valid_term) + w
        assumed = 0 if self.assume is None else term_weight(w, self.assume) + w
        return (self.turns + 2) * (block + 4 * member + 2 * valid) + term_weight(w, self.operation) + assumed

    def _counts(self, start: str, depth: int) -> tuple[int, int]:
        """The slots and the weight of a slot and of those below it, where trees have so many levels."""

        @lru_cache(maxsize=None)
        def below(name: str, levels: int) -> tuple[int, int]:
            offered = [p for p in self.rules[name] if levels > 1 or isinstance(p, Leaf)]
            own = sum(_weight(self.width, p) + self.width for p in offered)
            children = {(i, n) for p in offered if isinstance(p, Node) for i, n in enumerate(p.names)}
            counts = [below(n, levels - 1) for _, n in children]
            return 1 + sum(c[0] for c in counts), own + sum(c[1] for c in counts)

        return below(start, depth)

    def trees(self, limit: int = 1 << 64) -> int:
        """How many tuples of trees there are, or the limit where there are more."""

        @lru_cache(maxsize=None)
        def count(name: str, levels: int) -> int:
            total = 0
            for production in self.rules[name] if levels else []:
                trees = 1
                for child in production.names if isinstance(production, Node) else ():
                    trees *= count(child, levels - 1)
                total += trees
            return min(total, limit)

        out = 1
        for start in self.starts:
            out = min(out * count(start, self.depth), limit)
        return out

    def check_limits(self) -> None:
        """Raises the mistake that tells which limit of the core is passed, by how much, and where."""
        productions = [p for rule in self.rules.values() for p in rule]
        if len(self.rules) > MOST_RULES:
            late = list(self.rules.values())[MOST_RULES]
            note = "each nonterminal and each nested part of a production takes a rule"
            raise self._over("rules", len(self.rules), MOST_RULES, late[0].span if late else None, note)
        if len(productions) > MOST_PRODUCTIONS:
            note = "leave out alternatives, or split the question into two grammars"
            late_span = productions[MOST_PRODUCTIONS].span
            raise self._over("productions", len(productions), MOST_PRODUCTIONS, late_span, note)
        if self.depth > MOST_DEPTH:
            note = "nest fewer operators above nonterminals; parts without nonterminals are free up to 64 nodes"
            raise self._over("levels of nodes", self.depth, MOST_DEPTH, self._deepest(), note)
        if self.slots() > MOST_SLOTS:
            note = "a slot is a place of a tree; a smaller depth or fewer nonterminals help"
            raise self._over("slots", self.slots(), MOST_SLOTS, self._widest(), note)
        if self.load() > MOST_LOAD:
            note = f"the load grows with `turns`, which is {self.turns}; products and quotients weigh most"
            raise self._over("gates of load", self.load(), MOST_LOAD, self._widest(), note)

    def _over(self, what: str, found: int, most: int, span: Span | None, note: str) -> LimitPassed:
        over = f"{found:,}: {found - most:,} too many"
        message = f"at width {self.width} the core allows {most:,} {what}, and here are {over}"
        return LimitPassed(message, span or self.span, "", note)

    def _deepest(self) -> Span | None:
        name, span = self.starts[0], None
        for _ in range(MOST_DEPTH + 1):
            nodes = [p for p in self.rules[name] if isinstance(p, Node)]
            if not nodes:
                break
            span = nodes[-1].span or span
            name = nodes[-1].names[0]
        return span

    def _widest(self) -> Span | None:
        spans = [(self._counts(start, self.depth)[1], start) for start in self.starts]
        rule = self.rules[max(spans)[1]]
        return rule[0].span if rule else None


def _shown(production: Production) -> str:
    if isinstance(production, Leaf):
        return show(production.term, "f")
    return f"({production.op} {' '.join(production.names)})"


def _weight(width: int, production: Production) -> int:
    return term_weight(width, production.term) if isinstance(production, Leaf) else weight(production.op, width)
