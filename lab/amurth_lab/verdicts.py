"""Judges an author's own transformers: sound or unsound, best in the grammar or not, with inputs that show it."""

from __future__ import annotations

from dataclasses import dataclass
from itertools import product
from typing import Callable, Sequence

from .asking import Answer, Asker
from .certificates import read_list
from .questions import Setting, Transformer
from .simplify import same_terms
from .source import LabError
from .syntax import Candidate
from .terms import Term, evaluator

MOST_INPUTS_TRIED = 300_000


@dataclass(frozen=True)
class Counterexample:
    """Inputs and words of theirs where a transformer's result doesn't have the operation's value."""

    fields: tuple[int, ...]
    words: tuple[int, ...]
    value: int
    result: tuple[int, ...]


@dataclass(frozen=True)
class Closer:
    """Inputs and a word that one result has and another, sound one hasn't."""

    fields: tuple[int, ...]
    word: int
    wide: tuple[int, ...]
    narrow: tuple[int, ...]


@dataclass(frozen=True)
class Soundness:
    """Whether a transformer is sound, by an accepted certificate."""

    transformer: Transformer
    answer: Answer
    counterexample: Counterexample | None

    @property
    def is_sound(self) -> bool:
        """Whether it is sound."""
        return self.answer.is_best


@dataclass(frozen=True)
class Inclusion:
    """Whether all members of one transformer's results are another's: yes, no with an input, or not known."""

    holds: bool | None
    how: str
    example: Closer | None = None


@dataclass(frozen=True)
class Standing:
    """Where a sound transformer stands to the best one that was found.

    `kind` is `best`; `closer`, where the found one is closer; or `incomparable`, where each says more somewhere;
    or `unknown`. `gain` shows an input where the found one says more.
    """

    kind: str
    found: tuple[Term, ...]
    how: str
    gain: Closer | None = None
    is_best_by_list: bool | None = None


def judge_soundness(setting: Setting, candidate: Candidate, asker: Asker, name: str) -> Soundness:
    """Asks whether a candidate is sound."""
    transformer = setting.transformer(candidate)
    answer = asker.ask(setting.soundness(transformer), name)
    if answer.is_best:
        return Soundness(transformer, answer, None)
    result = evaluator(setting.width, transformer.whole)
    for turn in answer.certificate.positives:
        if _fails(setting, result, turn.fields, turn.words):
            fields = shrink(setting, turn.fields, turn.words, lambda at: _fails(setting, result, at, turn.words))
            value = setting.evaluate.operation(turn.words)
            return Soundness(transformer, answer, Counterexample(fields, turn.words, value, result(fields)))
    raise LabError(
        "the certificate says that no transformer is sound, and the workbench finds none of its examples failed",
        None,
        "",
        "this is a fault of the workbench or of the program: please report it with the certificate",
    )


def _fails(
    setting: Setting, result: Callable[[Sequence[int]], tuple[int, ...]], fields: Sequence[int], words: Sequence[int]
) -> bool:
    """Whether words of these inputs show that a transformer is unsound, by the workbench's own evaluation."""
    evaluate = setting.evaluate
    value = evaluate.operation(words)
    return evaluate.is_case(fields, words) and not setting.domain.has_member(setting.width, result(fields), value)


def shrink(
    setting: Setting, fields: Sequence[int], words: Sequence[int], shows: Callable[[Sequence[int]], bool]
) -> tuple[int, ...]:
    """Inputs with fewer members that show the same at the same words, by changing one field at a time."""
    best = tuple(fields)
    size = _members(setting, best)
    while True:
        moves = [
            (*best[:place], word, *best[place + 1 :])
            for place in range(len(best))
            for word in range(1 << setting.width)
        ]
        shown = [move for move in moves if setting.evaluate.is_case(move, words) and shows(move)]
        sizes = [(_members(setting, move), move) for move in shown]
        least = min(sizes, default=(size, best))
        if least[0] >= size:
            return best
        size, best = least


def _members(setting: Setting, fields: Sequence[int]) -> int:
    return sum(setting.domain.members(setting.width, value).bit_count() for value in setting.evaluate.split(fields))


def judge_standing(setting: Setting, mine: Transformer, found: Answer, asker: Asker, name: str) -> Standing:
    """Where a sound candidate stands to the best transformer that the core found in the grammar.

    Where all members of mine are the found one's, none of the grammar is closer than mine, since it would be closer
    than the found one, which is best.
    """
    best = found.certificate.terms
    upward = included(setting, mine.whole, best, asker, f"{name}-in-best")
    if upward.holds:
        return Standing("best", best, upward.how)
    if upward.holds is None:
        return Standing("unknown", best, upward.how)
    downward = included(setting, best, mine.whole, asker, f"{name}-over-best")
    if downward.holds:
        return Standing("closer", best, downward.how, upward.example)
    if downward.holds is None:
        return Standing("unknown", best, downward.how, upward.example)
    return Standing("incomparable", best, downward.how, upward.example, _by_list(setting, mine, found, asker))


def _by_list(setting: Setting, mine: Transformer, found: Answer, asker: Asker) -> bool | None:
    """Whether none of all best transformers of a small problem is closer than mine; none where it isn't small."""
    problem = found.certificate.problem
    inputs = len(setting.inputs) * len(setting.domain.fields)
    if problem.trees(4097) > 4096 or inputs * setting.width > 16:
        return None
    written = asker.program.run("list", problem.text())
    if written.status != 0:
        return None
    for terms in read_list(written.output, len(setting.domain.fields)):
        if _tried(setting, terms, mine.whole).holds and not _tried(setting, mine.whole, terms).holds:
            return False
    return True


def included(setting: Setting, low: tuple[Term, ...], high: tuple[Term, ...], asker: Asker, name: str) -> Inclusion:
    """Whether each member of the low terms' result is one of the high terms', at all inputs."""
    if same_terms(setting.width, low, high):
        return Inclusion(True, "the terms are equal")
    try:
        problem = setting.inclusion(low, high)
        if problem is not None:
            return _asked(setting, low, high, asker.ask(problem, name))
        reason = "three inputs leave no place for a further one"
    except LabError as error:
        reason = error.diagnostic.message
    if len(setting.domain.values(setting.width)) ** len(setting.inputs) <= MOST_INPUTS_TRIED:
        return _tried(setting, low, high)
    return Inclusion(None, reason)


def _asked(setting: Setting, low: tuple[Term, ...], high: tuple[Term, ...], answer: Answer) -> Inclusion:
    if answer.is_best:
        return Inclusion(True, f"the core compared them ({answer.path})")
    wide, narrow = evaluator(setting.width, low), evaluator(setting.width, high)
    count = len(setting.inputs) * len(setting.domain.fields)
    for turn in answer.certificate.positives:
        example = _closer_at(setting, wide, narrow, turn.fields[:count], turn.words[-1])
        if example is not None:
            return Inclusion(False, f"the core compared them ({answer.path})", example)
    return Inclusion(None, "the comparison's examples show no difference")


def _closer_at(
    setting: Setting,
    wide: Callable[[Sequence[int]], tuple[int, ...]],
    narrow: Callable[[Sequence[int]], tuple[int, ...]],
    fields: Sequence[int],
    word: int,
) -> Closer | None:
    first, second = wide(fields), narrow(fields)
    domain, width = setting.domain, setting.width
    if domain.has_member(width, first, word) and not domain.has_member(width, second, word):
        return Closer(tuple(fields), word, first, second)
    return None


def _tried(setting: Setting, low: tuple[Term, ...], high: tuple[Term, ...]) -> Inclusion:
    """The comparison by going through all inputs."""
    domain, width = setting.domain, setting.width
    wide, narrow = evaluator(width, low), evaluator(width, high)
    for values in product(domain.values(width), repeat=len(setting.inputs)):
        fields = sum(values, ())
        first, second = wide(fields), narrow(fields)
        extra = domain.members(width, first) & ~domain.members(width, second) if first != second else 0
        if extra:
            return Inclusion(False, "all inputs were tried", Closer(fields, extra.bit_length() - 1, first, second))
    return Inclusion(True, "all inputs were tried")
