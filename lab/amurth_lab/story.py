"""Tells a certificate: the question, the synthesis turn by turn, and what its acceptance means."""

from __future__ import annotations

from dataclasses import dataclass
from typing import Sequence

from .certificates import Certificate, Turn
from .display import count, missed, value_text, word_text
from .pretty import Printer, field_names, shared
from .problem import Leaf, Problem
from .simplify import simplify
from .terms import Apply, Hole, Term, evaluator, value

INPUT_NAMES = ("x", "y", "z")


@dataclass
class Story:
    """Tells a certificate. `accepted` is what `check` said of it in this run, or none where it wasn't asked."""

    certificate: Certificate
    accepted: bool | None

    def __post_init__(self) -> None:
        problem = self.certificate.problem
        self.problem: Problem = problem
        self.names = INPUT_NAMES[: problem.inputs]
        self.fields = Printer(problem.width, field_names(problem.domain, self.names))
        self.words = Printer(problem.width, self.names)

    def lines(self) -> list[str]:
        """The whole story."""
        return [*self._question(), "", *self._turns(), *self._end(), "", *self._meaning()]

    def _question(self) -> list[str]:
        p = self.problem
        out = [
            f"The question: which transformer of {p.domain.name} at width {p.width} is best for "
            f"{', '.join(self.names)} -> {self.words.term(p.operation)}?"
        ]
        if p.assume is not None:
            out.append(f"Only words with {self.words.term(p.assume)} matter.")
        trees = p.trees()
        many = "more than 2^64 of them" if trees >= 1 << 64 else f"{count(trees, 'tuple')} of trees"
        out.append(f"Transformers come from this grammar, with {count(p.depth, 'level')} of nodes ({many}):")
        for name, productions in p.rules.items():
            shown = [self._production(production) for production in productions]
            mark = " (start)" if name in p.starts else ""
            out.append(f"    {name}{mark} = {' | '.join(shown) if shown else 'nothing'}")
        return out

    def _production(self, production: object) -> str:
        if isinstance(production, Leaf):
            text = self.fields.term(production.term)
            return f"({text})" if " | " in text else text
        op, names = getattr(production, "op"), getattr(production, "names")
        return self.fields.term(Apply(op, tuple(Hole(name) for name in names)))

    def _turns(self) -> list[str]:
        if not self.certificate.turns:
            return ["No turn was needed: the first transformer that was tried settled it."]
        out: list[str] = []
        shown: tuple[Term, ...] = ()
        negatives = 0
        for number, turn in enumerate(self.certificate.turns, 1):
            out += self._transformer(number, turn.terms, shown)
            out += self._positive(turn, negatives) if turn.is_positive else self._negative(turn)
            negatives = len(turn.kept) if turn.is_positive else negatives + 1
            shown = turn.terms
        return out

    def _transformer(self, number: int, terms: Sequence[Term], shown: Sequence[Term]) -> list[str]:
        head = f"Turn {number}. "
        if tuple(terms) == tuple(shown):
            return [head + "The same transformer was at hand."]
        return [head + "At hand was " + "; ".join(self._entries(terms)) + "."]

    def _entries(self, terms: Sequence[Term]) -> list[str]:
        """The entries of a transformer, with names for parts that stand more than once."""
        lets, short = shared([simplify(self.problem.width, term) for term in terms])
        named = [f"let {name} = {self.fields.term(term)}" for name, term in lets]
        return named + [f"{f} = {self.fields.term(t)}" for f, t in zip(self.problem.domain.fields, short)]

    def _inputs(self, turn: Turn) -> str:
        size = len(self.problem.domain.fields)
        parts = [turn.fields[i * size : (i + 1) * size] for i in range(self.problem.inputs)]
        shown = [value_text(self.problem.domain, self.problem.width, part) for part in parts]
        return ", ".join(f"{name} in {text}" for name, text in zip(self.names, shown))

    def _positive(self, turn: Turn, negatives: int) -> list[str]:
        p = self.problem
        result = evaluator(p.width, turn.terms)(turn.fields)
        word = value(p.width, p.operation, turn.words)
        taken = ", ".join(f"{n} = {word_text(p.domain, p.width, c)}" for n, c in zip(self.names, turn.words))
        out = [
            f"    It isn't sound: where {self._inputs(turn)}, take {taken}. The operation gives "
            f"{word_text(p.domain, p.width, word)}, and the result is {value_text(p.domain, p.width, result)}: "
            f"{missed(p.domain, p.width, result, word) or 'it has the word'}.",
            "    From here on each transformer has to cover this.",
        ]
        if negatives:
            out.append(f"    Of {count(negatives, 'word')} that were to be left out, {len(turn.kept)} can still be.")
        return out

    def _negative(self, turn: Turn) -> list[str]:
        p = self.problem
        result = evaluator(p.width, turn.terms)(turn.fields)
        return [
            f"    It can be closer: where {self._inputs(turn)}, the result is {value_text(p.domain, p.width, result)}, "
            f"and another transformer that covers all so far leaves out {word_text(p.domain, p.width, turn.words[0])}.",
            "    From here on each transformer leaves it out too, unless a word that was missed rules that out.",
        ]

    def _end(self) -> list[str]:
        c = self.certificate
        logs = " and ".join(f"`{name}` of {count(size, 'derived clause')}" for name, size in c.logs.items())
        if c.answer == "best":
            out = [f"After {count(len(c.turns), 'turn')} this one stood:"]
            out += [f"    {entry}" for entry in self._entries(c.terms)]
            return out + [f"The certificate shows it by the refutations {logs}."]
        if c.answer == "none":
            return [
                f"After {count(len(c.turns), 'turn')} no transformer covered all {len(c.positives)} words "
                "that have to be covered.",
                f"The certificate shows it by the refutation {logs}.",
            ]
        if c.answer == "turns":
            return [f"The {self.problem.turns} turns of the problem were spent. Raise `turns`, at most 4096."]
        return [
            f"The {self.problem.conflicts:,} conflicts of one query, `{c.query}`, were spent.",
            "Raise `conflicts`, at most 1000000, ask at a smaller width, or make the grammar smaller.",
        ]

    def _meaning(self) -> list[str]:
        answer = self.certificate.answer
        if answer not in ("best", "none"):
            return ["`check` accepts no such certificate: it shows work that was done, and nothing of transformers."]
        if self.accepted is False:
            return ["`check` does NOT accept this certificate in this run: nothing follows from it."]
        head = "`check` accepted this certificate in this run, so it is proved that"
        if self.accepted is None:
            head = "`check` wasn't asked in this run. Where it accepts the certificate, it is proved that"
        return [head, *(_BEST if answer == "best" else _NONE), *_TRUST]


_BEST = (
    "  - at every abstract input, and for all words of it that meet the assumption, the transformer's result has the",
    "    operation's value (it is sound);",
    "  - no sound transformer of the grammar is closer: none has at every abstract input only words of this one's",
    "    result, and at some input fewer of them (it is best).",
)
_NONE = ("  - no transformer of the grammar is sound.",)
_TRUST = (
    "This is said of the operation, the grammar and the width as written above, and of nothing else. Whoever wrote the",
    "certificate needn't be trusted: `check` goes by its contents alone, and is itself proved.",
)
