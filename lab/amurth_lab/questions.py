"""The questions that are asked of the core, as problems made from a source at a width."""

from __future__ import annotations

from dataclasses import dataclass
from functools import cached_property
from typing import Sequence

from .domains import DOMAINS, Domain
from .elaborate import Expander
from .lowering import GrammarLowering, Lowering, lower_choices
from .problem import MOST_NODES, LimitPassed, Problem
from .simplify import simplify
from .source import LabError, Span
from .syntax import Candidate, Expr, LabFile
from .terms import Apply, Const, Term, Var, evaluator, make, nodes, substitute, truth


@dataclass(frozen=True)
class Transformer:
    """A candidate's terms at a width, as written; `whole` are those with the feasibility put around."""

    name: str
    terms: tuple[Term, ...]
    whole: tuple[Term, ...]
    spans: tuple[Span | None, ...]


class Setting:
    """A file at a width: its operation, its domain and its transformers."""

    def __init__(self, file: LabFile, width: int) -> None:
        assert file.operation is not None
        self.file = file
        self.width = width
        self.domain: Domain = DOMAINS[file.domain]
        self.expander = Expander(file, width)
        self.inputs = file.operation.inputs
        self.notes: list[str] = []
        self.operation = self._small(file.operation.body, "operation")
        self.assume = None if file.assume is None else self._small(file.assume, "assumption")
        self.feasible = None if file.feasible is None else self._feasible(file.feasible)

    def _small(self, expr: Expr, what: str) -> Term:
        term = self.expander.term(expr, self.expander.words)
        if nodes(term) > MOST_NODES:
            term = simplify(self.width, term)
            self.notes.append(f"an equal, shorter term of {nodes(term)} nodes is asked about as the {what}")
        if nodes(term) > MOST_NODES:
            raise LimitPassed(
                f"the {what} has {nodes(term)} nodes at width {self.width}, and the core allows {MOST_NODES}: "
                f"{nodes(term) - MOST_NODES} too many",
                expr.span,
                "",
                "this can't be cut; a part that stands twice counts twice",
            )
        return term

    def _feasible(self, expr: Expr) -> Term:
        if self.domain.empty(self.width) is None:
            raise LabError(
                f"`feasible` can't be used with {self.domain.name}", expr.span, "the domain has no empty value"
            )
        return truth(self.width, self.expander.term(expr, self.expander.fields))

    @cached_property
    def evaluate(self) -> "Evaluation":
        """The operation and the assumption as functions."""
        return Evaluation(self)

    def transformer(self, candidate: Candidate) -> Transformer:
        """A candidate's terms."""
        scope = self.expander.fields.with_lets(candidate.lets)
        entries = {entry.name: entry for entry in candidate.entries}
        found = [entries[name] for name in self.domain.fields]
        terms = tuple(self.expander.term(entry.alternatives[0], scope) for entry in found)
        spans = tuple(entry.alternatives[0].span for entry in found)
        return Transformer(candidate.name, terms, self.wrap(terms), spans)

    def wrap(self, terms: tuple[Term, ...]) -> tuple[Term, ...]:
        """Terms whose result has no members where the inputs aren't feasible."""
        if self.feasible is None:
            return terms
        empty = self.domain.empty(self.width)
        assert empty is not None
        return tuple(make(self.width, "ite", self.feasible, t, Const(e)) for t, e in zip(terms, empty))

    def unwrap(self, terms: Sequence[Term]) -> tuple[Term, ...]:
        """Terms without what `wrap` puts around them."""
        return tuple(
            term.args[1] if isinstance(term, Apply) and term.op == "ite" and term.args[0] == self.feasible else term
            for term in terms
        )

    def soundness(self, transformer: Transformer) -> Problem:
        """The problem whose grammar has a transformer's terms alone: best means sound, none means unsound."""
        return self._of_choices([[pair] for pair in zip(transformer.whole, transformer.spans)])

    def synthesis(self) -> Problem:
        """The problem of the grammar, or of the candidates' entries, mixed, where the file has no grammar."""
        if self.file.grammar is not None:
            lowering, starts, depth = GrammarLowering(self.expander, self.file.grammar, self.feasible).lower()
            return self._problem(lowering, starts, depth)
        if not self.file.candidates:
            end = Span(self.file.source, 0, 0)
            raise LabError("the file has neither a grammar nor a candidate", end, "there is nothing to choose from")
        found = [self.transformer(candidate) for candidate in self.file.candidates]
        fields = range(len(self.domain.fields))
        return self._of_choices([[(t.whole[place], t.spans[place]) for t in found] for place in fields])

    def _of_choices(self, choices: Sequence[Sequence[tuple[Term, Span | None]]], is_checked: bool = True) -> Problem:
        lowering, starts = lower_choices(self.width, self.domain, choices)
        return self._problem(lowering, starts, lowering.height(starts) or 1, is_checked)

    def inclusion(self, low: tuple[Term, ...], high: tuple[Term, ...]) -> Problem | None:
        """The problem that is `best` where each member of the low terms' result is one of the high ones'.

        It has one input more, whose operation is that input. Where the input's value is a single word (or parity) which
        the low result has, the answer is the high result, and else it is the value of all words. None for 3 inputs.
        """
        if len(self.inputs) >= 3:
            return None
        width, count = self.width, len(self.inputs) * len(self.domain.fields)
        own = [Var(count + place) for place in range(len(self.domain.fields))]
        is_point, word = self.domain.point(width, own)
        member = substitute(self.domain.member_term, (*low, word))
        condition = make(width, "and", is_point, truth(width, member))
        terms = [make(width, "ite", condition, h, Const(t)) for h, t in zip(high, self.domain.top(width))]
        out = self._of_choices([[(term, None)] for term in terms], is_checked=False)
        out.inputs, out.operation, out.assume = len(self.inputs) + 1, Var(len(self.inputs)), None
        out.turns = min(out.turns, 4)  # one tuple of terms fails at most one example
        out.check_limits()
        return out

    def _problem(self, lowering: Lowering, starts: tuple[str, ...], depth: int, is_checked: bool = True) -> Problem:
        assert self.file.operation is not None
        out = Problem(
            width=self.width,
            inputs=len(self.inputs),
            operation=self.operation,
            assume=self.assume,
            domain=self.domain,
            starts=starts,
            depth=depth,
            turns=self.file.turns,
            conflicts=self.file.conflicts,
            rules=lowering.rules,
            span=self.file.operation.span,
            notes=self.notes + lowering.notes,
        )
        if is_checked:
            out.check_limits()
        return out


class Evaluation:
    """The operation, the assumption and the domain of a setting, by the workbench's own evaluation."""

    def __init__(self, setting: Setting) -> None:
        self.width = setting.width
        self.domain = setting.domain
        self.inputs = len(setting.inputs)
        self._operation = evaluator(setting.width, [setting.operation])
        self._assume = evaluator(setting.width, [Const(1) if setting.assume is None else setting.assume])

    def split(self, fields: Sequence[int]) -> list[tuple[int, ...]]:
        """The values of the inputs."""
        size = len(self.domain.fields)
        return [tuple(fields[i * size : (i + 1) * size]) for i in range(self.inputs)]

    def operation(self, words: Sequence[int]) -> int:
        """The operation's value at words."""
        return self._operation(words)[0]

    def is_assumed(self, words: Sequence[int]) -> bool:
        """Whether words meet the assumption."""
        return self._assume(words)[0] != 0

    def is_case(self, fields: Sequence[int], words: Sequence[int]) -> bool:
        """Whether the inputs are values, and the words are members of theirs that meet the assumption."""
        return self.is_assumed(words) and all(
            self.domain.is_valid(self.width, value) and self.domain.has_member(self.width, value, word)
            for value, word in zip(self.split(fields), words)
        )
