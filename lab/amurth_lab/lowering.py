"""Makes rules of the core from terms with nonterminals, and cuts leaves that are too big into nodes."""

from __future__ import annotations

from dataclasses import dataclass, field
from typing import Sequence

from .domains import Domain
from .elaborate import Expander, Scope
from .problem import MOST_NODES, Leaf, Node, Production, Rules
from .simplify import balanced, simplify
from .source import LabError, Span, listed
from .syntax import Entry, Grammar
from .terms import Apply, Const, Hole, Term, has_hole, make, nodes


@dataclass
class Lowering:
    """Rules in the making. Equal parts share a nonterminal."""

    width: int
    rules: Rules = field(default_factory=dict)
    taken: set[str] = field(default_factory=set)
    parts: dict[Term, str] = field(default_factory=dict)
    notes: list[str] = field(default_factory=list)
    cut_levels: int = 0

    def fresh(self, base: str) -> str:
        """A nonterminal's name that isn't taken."""
        name, number = base, 2
        while name in self.taken:
            name, number = f"{base[:14]}{number}", number + 1
        self.taken.add(name)
        return name

    def start(self, domain: Domain, place: int) -> str:
        """A name for the start of a field."""
        return self.fresh(domain.fields[place].capitalize())

    def production(self, term: Term, span: Span | None) -> Production:
        """A production for a term: a leaf, or a node over parts with rules of their own."""
        if not has_hole(term):
            return self._leaf(term, span)
        assert isinstance(term, Apply)
        return Node(term.op, tuple(self.part(arg, span) for arg in term.args), span)

    def part(self, term: Term, span: Span | None) -> str:
        """The nonterminal of a part."""
        if isinstance(term, Hole):
            return term.name
        if term not in self.parts:
            self.parts[term] = name = self.fresh(f"A{len(self.parts) + 1}")
            self.rules[name] = []
            self.rules[name].append(self.production(term, span))
        return self.parts[term]

    def _leaf(self, term: Term, span: Span | None) -> Production:
        if nodes(term) <= MOST_NODES:
            return Leaf(term, span)
        small = simplify(self.width, term)
        if nodes(small) <= MOST_NODES:
            self._note(term, span, f"an equal term of {nodes(small)} nodes is asked about instead")
            return Leaf(small, span)
        flat = min((small, balanced(small)), key=_cuts)
        self._note(term, span, f"it is cut into {_cuts(flat)} levels of nodes")
        self.cut_levels = max(self.cut_levels, _cuts(flat))
        return self._cut(flat, span)

    def _cut(self, term: Term, span: Span | None) -> Production:
        if nodes(term) <= MOST_NODES:
            return Leaf(term, span)
        assert isinstance(term, Apply)
        names = []
        for arg in term.args:
            if arg not in self.parts:
                self.parts[arg] = self.fresh(f"A{len(self.parts) + 1}")
                self.rules[self.parts[arg]] = [self._cut(arg, span)]
            names.append(self.parts[arg])
        return Node(term.op, tuple(names), span)

    def _note(self, term: Term, span: Span | None, what: str) -> None:
        where = f" of line {span.line_number}" if span else ""
        note = (
            f"a leaf{where} has {nodes(term)} nodes at width {self.width}, and the core allows {MOST_NODES}: {what}"
        )
        if note not in self.notes:
            self.notes.append(note)

    def height(self, starts: Sequence[str]) -> int | None:
        """How many levels the trees from some starts have at most, or none where a nonterminal meets itself again."""
        heights: dict[str, int | None] = {}

        def of(name: str) -> int | None:
            if name not in heights:
                heights[name] = None
                children = [of(n) for p in self.rules[name] for n in (p.names if isinstance(p, Node) else ())]
                known = [child for child in children if child is not None]
                heights[name] = None if len(known) < len(children) else 1 + max(known, default=0)
            return heights[name]

        found = [of(start) for start in starts]
        return None if None in found else max((h for h in found if h is not None), default=1)


def _cuts(term: Term) -> int:
    """How many levels of nodes stand above the parts that are small enough for a leaf."""
    if nodes(term) <= MOST_NODES or not isinstance(term, Apply):
        return 0
    return 1 + max(_cuts(arg) for arg in term.args)


def lower_choices(
    width: int, domain: Domain, choices: Sequence[Sequence[tuple[Term, Span | None]]]
) -> tuple[Lowering, tuple[str, ...]]:
    """Rules that derive one of some terms for each field, and their starts."""
    out = Lowering(width)
    starts = tuple(out.start(domain, place) for place in range(len(domain.fields)))
    for start in starts:
        out.rules[start] = []
    for start, terms in zip(starts, choices):
        for term, span in dict(terms).items():
            out.rules[start].append(out.production(term, span))
    return out, starts


@dataclass
class GrammarLowering:
    """Lowers a grammar block at a width; `feasible` is put around every start where it is given."""

    expander: Expander
    grammar: Grammar
    feasible: Term | None

    def lower(self) -> tuple[Lowering, tuple[str, ...], int]:
        """The rules, their starts and the depth."""
        domain = self.expander.domain
        out = Lowering(self.expander.width)
        entries = {entry.name: entry for entry in self.grammar.entries}
        names = {name: name for name in entries if name not in domain.fields}
        out.taken.update(names)
        names.update({name: out.start(domain, place) for place, name in enumerate(domain.fields)})
        scope = self.expander.fields.with_lets(self.grammar.lets)
        terms = self._terms(entries, scope, names)
        for name in self._reached(entries, terms, names):
            out.rules[names[name]] = []
        for name in [n for n in entries if names[n] in out.rules]:
            found = self._closed(name, terms, names)
            out.rules[names[name]] += [out.production(term, span) for term, span in found]
        starts = tuple(names[field] for field in domain.fields)
        height = out.height(starts)
        wrapped = starts if self.feasible is None else self._wrapped(out, starts, self.feasible)
        return out, wrapped, self._depth(out, starts, height, wrapped)

    def _terms(
        self, entries: dict[str, Entry], scope: Scope, names: dict[str, str]
    ) -> dict[str, list[tuple[Term, Span]]]:
        scope = Scope(scope.inputs, True, scope.lets, {}, frozenset(name for name in entries if name[0].isupper()))
        out: dict[str, list[tuple[Term, Span]]] = {}
        for name, entry in entries.items():
            out[name] = [(self.expander.term(expr, scope), expr.span) for expr in entry.alternatives]
        return out

    def _reached(
        self, entries: dict[str, Entry], terms: dict[str, list[tuple[Term, Span]]], names: dict[str, str]
    ) -> list[str]:
        """The fields, and the nonterminals that stand in terms, in the order of the source."""
        reached = list(self.expander.domain.fields)
        for name in reached:
            for term, _ in self._closed(name, terms, names):
                reached += [hole for hole in _holes(term) if hole not in reached]
        return [name for name in entries if name in reached]

    def _closed(
        self, name: str, terms: dict[str, list[tuple[Term, Span]]], names: dict[str, str]
    ) -> list[tuple[Term, Span]]:
        """The alternatives, with those of a nonterminal in the place of one that stands alone."""
        out: dict[Term, Span] = {}
        seen: list[str] = [name]
        for current in seen:
            for term, span in terms[current]:
                if isinstance(term, Hole):
                    seen += [term.name] if term.name not in seen else []
                else:
                    out.setdefault(term, span)
        return list(out.items())

    def _wrapped(self, out: Lowering, starts: tuple[str, ...], feasible: Term) -> tuple[str, ...]:
        """Starts whose results have no members where the inputs aren't feasible."""
        domain, width = self.expander.domain, self.expander.width
        empty = domain.empty(width)
        assert empty is not None
        wrapped = []
        for place, start in enumerate(starts):
            leaves = [p for p in out.rules[start] if isinstance(p, Leaf)]
            is_used = any(start in p.names for rule in out.rules.values() for p in rule if isinstance(p, Node))
            if len(leaves) == len(out.rules[start]) and not is_used:
                whole = [(make(width, "ite", feasible, p.term, Const(empty[place])), p.span) for p in leaves]
                out.rules[start] = [out.production(term, span) for term, span in whole]
                wrapped.append(start)
                continue
            above = out.fresh(start)
            parts = (out.part(feasible, self.grammar.span), start, out.part(Const(empty[place]), self.grammar.span))
            out.rules[above] = [Node("ite", parts, self.grammar.span)]
            wrapped.append(above)
        return tuple(wrapped)

    def _depth(self, out: Lowering, starts: tuple[str, ...], height: int | None, wrapped: tuple[str, ...]) -> int:
        given = self.grammar.depth or self.expander.file.depth
        whole = out.height(wrapped)
        if given is None and height is None:
            loops = [e.name for e in self.grammar.entries if e.name in out.rules and out.height([e.name]) is None]
            raise LabError(
                "the grammar needs a depth, since a nonterminal meets itself again",
                self.grammar.span,
                f"{listed(loops)}: say how many levels of nodes a tree may have, as `depth 3`",
            )
        if given is None or (height is not None and given >= height and whole is not None):
            assert whole is not None
            return whole
        extra = (1 if wrapped != starts else 0) + out.cut_levels
        if out.cut_levels:
            out.notes.append(f"the depth is {given + extra}, since {out.cut_levels} levels were added by cutting")
        return given + extra


def _holes(term: Term) -> list[str]:
    if isinstance(term, Hole):
        return [term.name]
    if isinstance(term, Apply):
        return [name for arg in term.args for name in _holes(arg)]
    return []
