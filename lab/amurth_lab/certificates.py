"""Reads what the core writes: certificates, and lines of refusal or rejection."""

from __future__ import annotations

import re
from dataclasses import dataclass, field
from typing import Iterator

from .domains import DOMAINS, Domain
from .problem import Leaf, Node, Problem, Rules
from .source import LabError
from .terms import Apply, Const, Term, Var
from .words import ARITY


_LOG = re.compile(r"\blog\s+([a-z]+)")


@dataclass(frozen=True)
class Turn:
    """An example of a synthesis: inputs with a word of each (positive), or with a word that is excluded (negative)."""

    is_positive: bool
    terms: tuple[Term, ...]
    fields: tuple[int, ...]
    words: tuple[int, ...]
    kept: tuple[int, ...] = ()


@dataclass
class Certificate:
    """A certificate of any version; of each log, with chains or with hints, the number of derived clauses is kept."""

    version: int
    problem: Problem
    answer: str
    terms: tuple[Term, ...] = ()
    turns: list[Turn] = field(default_factory=list)
    query: str = ""
    logs: dict[str, int] = field(default_factory=dict)

    @property
    def positives(self) -> list[Turn]:
        """The positive examples."""
        return [turn for turn in self.turns if turn.is_positive]

    @property
    def negatives(self) -> list[Turn]:
        """The negative examples that remain after all turns."""
        out: list[Turn] = []
        for turn in self.turns:
            out = [out[place] for place in turn.kept] if turn.is_positive else [*out, turn]
        return out


class _Words:
    """The words of a text, with one word of sight."""

    def __init__(self, text: str, name: str) -> None:
        self._words: Iterator[str] = iter(text.replace("(", " ( ").replace(")", " ) ").split())
        self.name = name
        self.here = next(self._words, "")

    def take(self) -> str:
        word, self.here = self.here, next(self._words, "")
        return word

    def expect(self, word: str) -> None:
        if self.take() != word:
            raise LabError(f"{self.name} is no certificate of Amurth: `{word}` was expected")

    def number(self) -> int:
        word = self.take()
        if not word.isdigit():
            raise LabError(f"{self.name} is no certificate of Amurth: a number was expected, found `{word}`")
        return int(word)

    def numbers(self) -> tuple[int, ...]:
        out = []
        while self.here.isdigit():
            out.append(self.number())
        return tuple(out)

    def term(self) -> Term:
        if self.here.isdigit():
            return Const(self.number())
        if self.here != "(":
            return Var(int(self.take()[1:]))
        self.take()
        op = self.take()
        args = tuple(self.term() for _ in range(ARITY[op]))
        self.expect(")")
        return Apply(op, args)


def read_certificate(text: str, name: str) -> Certificate:
    """Reads a certificate. It is not checked: the core's `check` does that."""
    start = _LOG.search(text)
    words = _Words(text if start is None else text[: start.start()], name)
    words.expect("certificate")
    try:
        version = words.number()
        out = Certificate(version, _problem(words), _answer(words))
        _body(words, out)
        out.logs = _logs(text) if start is not None else {}
    except (KeyError, ValueError, IndexError) as error:
        raise LabError(f"{name} is no certificate of Amurth: a word isn't as expected") from error
    return out


def read_problem(text: str, name: str) -> Problem:
    """Reads a problem of the core."""
    return _problem(_Words(text, name))


def _answer(words: _Words) -> str:
    words.expect("answer")
    return words.take()


def _problem(words: _Words) -> Problem:
    words.expect("amurth")
    words.number()
    words.expect("width")
    width = words.number()
    words.expect("operation")
    inputs, operation = words.number(), words.term()
    assume = None
    if words.here == "assume":
        words.take()
        assume = words.term()
    words.expect("domain")
    domain: Domain = DOMAINS[words.take()]
    words.expect("start")
    starts = tuple(words.take() for _ in domain.fields)
    depth, turns, conflicts = (_budget(words, word) for word in ("depth", "turns", "conflicts"))
    return Problem(width, inputs, operation, assume, domain, starts, depth, turns, conflicts, _rules(words))


def _budget(words: _Words, word: str) -> int:
    words.expect(word)
    return words.number()


def _rules(words: _Words) -> Rules:
    rules: Rules = {}
    while words.here == "rule":
        words.take()
        name = words.take()
        rules[name] = []
        while words.here not in ("rule", "end"):
            rules[name].append(_production(words))
    words.expect("end")
    return rules


def _production(words: _Words) -> Leaf | Node:
    if words.here != "(":
        return Leaf(words.term())
    words.take()
    op = words.take()
    if words.here[:1].isupper():
        names = tuple(words.take() for _ in range(ARITY[op]))
        words.expect(")")
        return Node(op, names)
    args = tuple(words.term() for _ in range(ARITY[op]))
    words.expect(")")
    return Leaf(Apply(op, args))


def _body(words: _Words, out: Certificate) -> None:
    count = len(out.problem.domain.fields)
    if out.answer == "best":
        terms = []
        for _ in range(count):
            words.expect("term")
            terms.append(words.term())
        out.terms = tuple(terms)
    while words.here in ("positive", "negative"):
        out.turns.append(_turn(words, count))
    if words.here == "query":
        words.take()
        out.query = words.take()


def _turn(words: _Words, count: int) -> Turn:
    is_positive = words.take() == "positive"
    terms = tuple(words.term() for _ in range(count))
    words.expect("in")
    fields = words.numbers()
    if not is_positive:
        words.expect("out")
        return Turn(False, terms, fields, (words.number(),))
    words.expect("word")
    inside = words.numbers()
    words.expect("kept")
    return Turn(True, terms, fields, inside, words.numbers())


def _logs(text: str) -> dict[str, int]:
    """The logs' names, each with the number of its derived clauses, which a chain or a hint begins.

    Logs may be long, and aren't cut into words.
    """
    starts = list(_LOG.finditer(text))
    ends = [start.start() for start in starts[1:]] + [len(text)]
    derived = ("chain", "clause")
    return {s.group(1): sum(text.count(word, s.end(), end) for word in derived) for s, end in zip(starts, ends)}


def read_list(text: str, count: int) -> list[tuple[Term, ...]]:
    """The tuples of terms that `list` writes, with so many terms each."""
    words = _Words(text, "the list")
    words.expect("best")
    out = []
    for _ in range(words.number()):
        words.expect("terms")
        out.append(tuple(words.term() for _ in range(count)))
    return out
