"""Judges a whole file at a width: each candidate, the grammar, and what the file expects."""

from __future__ import annotations

from dataclasses import dataclass, field
from pathlib import Path
from typing import Iterable

from .asking import Answer, Asker
from .questions import Setting
from .source import LabError
from .syntax import Expectation, LabFile
from .verdicts import Soundness, Standing, judge_soundness, judge_standing


@dataclass(frozen=True)
class Outcome:
    """Whether an expectation holds at a width; none where that isn't known, and why."""

    expectation: Expectation
    holds: bool | None
    why: str = ""


@dataclass
class Judgement:
    """All that was found of a file at a width. A mistake or a trouble stands in the place of an answer."""

    file: LabFile
    width: int
    setting: Setting | None = None
    expects_elsewhere: bool = False
    soundness: dict[str, Soundness | LabError] = field(default_factory=dict)
    solved: Answer | LabError | None = None
    standings: dict[str, Standing | LabError] = field(default_factory=dict)
    outcomes: list[Outcome] = field(default_factory=list)

    @property
    def is_as_expected(self) -> bool:
        """Whether each expectation holds. Without any, whether each candidate is sound or the grammar has an answer.

        Where all of a file's expectations are for other widths, an answer may be missing, and none may be unsound.
        """
        if self.outcomes:
            return all(outcome.holds for outcome in self.outcomes)
        asked = self.soundness.values() if self.file.candidates else [self.solved]
        return all(self._is_good(found) for found in asked)

    def _is_good(self, found: Soundness | Answer | LabError | None) -> bool:
        if isinstance(found, LabError):
            return self.expects_elsewhere
        return found.is_sound if isinstance(found, Soundness) else found is not None


def stem(file: LabFile, width: int) -> str:
    """The beginning of the names of what is kept of a file at a width."""
    return f"{Path(file.source.path).stem}-w{width}"


def judge(
    file: LabFile, width: int, asker: Asker, names: Iterable[str] | None = None, with_grammar: bool = True
) -> Judgement:
    """Judges a file at a width. Mistakes of the source are raised, and troubles with one question are kept."""
    out = Judgement(file, width, Setting(file, width))
    stated = [e for e in file.expectations if e.holds_at(width)]
    out.expects_elsewhere = bool(file.expectations) and not stated
    for candidate in file.candidates:
        if names is None or candidate.name in names:
            out.soundness[candidate.name] = _sound(out, candidate.name, asker)
    if with_grammar and _needs_grammar(out, stated):
        out.solved = _solved(out, asker)
        for name in _judged(out, stated):
            out.standings[name] = _standing(out, name, asker)
    out.outcomes = [
        _outcome(out, expectation) for expectation in stated if names is None or (expectation.name or "") in names
    ]
    return out


def _needs_grammar(out: Judgement, stated: list[Expectation]) -> bool:
    if any(e.kind in ("best", "none") for e in stated):
        return True
    is_asked = not out.file.candidates or any(_is_sound(found) for found in out.soundness.values())
    return out.file.grammar is not None and is_asked


def _judged(out: Judgement, stated: list[Expectation]) -> list[str]:
    """The sound candidates that are compared with the best transformer."""
    if not isinstance(out.solved, Answer) or not out.solved.is_best:
        return []
    wanted = [e.name for e in stated if e.kind == "best"]
    sound = [name for name, found in out.soundness.items() if _is_sound(found)]
    return [name for name in sound if out.file.grammar is not None or name in wanted]


def _is_sound(found: Soundness | LabError) -> bool:
    return isinstance(found, Soundness) and found.is_sound


def _sound(out: Judgement, name: str, asker: Asker) -> Soundness | LabError:
    candidate = out.file.candidate(name)
    assert candidate is not None and out.setting is not None
    try:
        return judge_soundness(out.setting, candidate, asker, f"{stem(out.file, out.width)}-{name}")
    except LabError as error:
        return _kept(error)


def _solved(out: Judgement, asker: Asker) -> Answer | LabError:
    assert out.setting is not None
    try:
        return asker.ask(out.setting.synthesis(), f"{stem(out.file, out.width)}-best")
    except LabError as error:
        return _kept(error)


def _standing(out: Judgement, name: str, asker: Asker) -> Standing | LabError:
    mine = out.soundness[name]
    assert isinstance(mine, Soundness) and isinstance(out.solved, Answer) and out.setting is not None
    try:
        return judge_standing(out.setting, mine.transformer, out.solved, asker, f"{stem(out.file, out.width)}-{name}")
    except LabError as error:
        return _kept(error)


def _kept(error: LabError) -> LabError:
    """A trouble of one question stands in the place of its answer; a mistake of the source ends all."""
    if error.is_mistake:
        raise error
    return error


def _outcome(out: Judgement, expectation: Expectation) -> Outcome:
    if expectation.kind == "none":
        return _none_outcome(out, expectation)
    found = out.soundness.get(expectation.name or "")
    if isinstance(found, LabError) or found is None:
        return Outcome(expectation, None, "" if found is None else found.diagnostic.message)
    if expectation.kind == "unsound":
        return Outcome(expectation, not found.is_sound, "it is sound" if found.is_sound else "")
    if not found.is_sound:
        return Outcome(expectation, False, "it is unsound")
    return Outcome(expectation, True) if expectation.kind == "sound" else _best_outcome(out, expectation)


def _none_outcome(out: Judgement, expectation: Expectation) -> Outcome:
    if isinstance(out.solved, Answer):
        return Outcome(expectation, not out.solved.is_best, "some transformer is sound" if out.solved.is_best else "")
    return Outcome(expectation, None, "" if out.solved is None else out.solved.diagnostic.message)


def _best_outcome(out: Judgement, expectation: Expectation) -> Outcome:
    standing = out.standings.get(expectation.name or "")
    if isinstance(standing, Standing):
        if standing.kind == "best" or standing.is_best_by_list:
            return Outcome(expectation, True)
        if standing.kind == "closer" or standing.is_best_by_list is False:
            return Outcome(expectation, False, "a transformer of the grammar is closer")
        if standing.kind == "incomparable":
            return Outcome(
                expectation, None, "a transformer of the grammar says more at some inputs, and less at others"
            )
        return Outcome(expectation, None, standing.how)
    if isinstance(standing, LabError):
        return Outcome(expectation, None, standing.diagnostic.message)
    if isinstance(out.solved, LabError):
        return Outcome(expectation, None, out.solved.diagnostic.message)
    if isinstance(out.solved, Answer):
        return Outcome(expectation, True, "no transformer of the grammar is sound, so none is closer")
    return Outcome(expectation, None, "the grammar wasn't asked about")
