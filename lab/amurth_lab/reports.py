"""Writes judgements and answers as lines for people."""

from __future__ import annotations

from typing import Sequence

from .asking import Answer
from .display import count, missed, seconds_text, size_text, value_text, word_text
from .judging import Judgement, Outcome
from .optimal import Optimality
from .pretty import Printer, field_names, shared
from .questions import Setting
from .simplify import simplify
from .source import LabError
from .terms import Term, show, value
from .verdicts import Closer, Counterexample, Soundness, Standing

INDENT = "    "


def judgement_lines(found: Judgement) -> list[str]:
    """What `check-mine` says of a file at a width."""
    assert found.setting is not None
    out: list[str] = []
    for name, sound in found.soundness.items():
        out += soundness_lines(found.setting, name, sound)
        standing = found.standings.get(name)
        if standing is not None:
            out += standing_lines(found.setting, name, standing)
    if isinstance(found.solved, LabError):
        out += [f"the grammar at width {found.width}: no answer", *_indented(found.solved.render())]
    elif found.solved is not None and not found.solved.is_best:
        out.append(f"the grammar at width {found.width}: no transformer of it is sound ({accepted(found.solved)})")
    return out + [outcome_line(outcome, found.width) for outcome in found.outcomes if not outcome.holds]


def outcome_line(outcome: Outcome, width: int) -> str:
    """What is said where an expectation doesn't hold."""
    what = "isn't known" if outcome.holds is None else "doesn't hold"
    why = f": {outcome.why}" if outcome.why else ""
    return (
        f"expected `{outcome.expectation}` at width {width}, and that {what}{why} ({outcome.expectation.span.place})"
    )


def accepted(answer: Answer) -> str:
    """Where the accepted certificate is."""
    return f"certificate {answer.path}, {size_text(answer.size)}, accepted by `check`; {seconds_text(answer.seconds)}"


def soundness_lines(setting: Setting, name: str, found: Soundness | LabError) -> list[str]:
    """The verdict on a candidate."""
    head = f"{name} at width {setting.width}"
    if isinstance(found, LabError):
        return [f"{head}: no answer", *_indented(found.render())]
    notes = [f"{INDENT}note: {note}" for note in setting.soundness(found.transformer).notes]
    if found.counterexample is None:
        return [f"{head}: sound ({accepted(found.answer)})", *notes]
    return [
        f"{head}: UNSOUND ({accepted(found.answer)})",
        *counterexample_lines(setting, name, found.counterexample),
        *notes,
    ]


def counterexample_lines(setting: Setting, name: str, example: Counterexample) -> list[str]:
    """A counterexample in words."""
    domain, width = setting.domain, setting.width
    operation = setting.file.operation
    assert operation is not None
    words = ", ".join(f"{x} = {word_text(domain, width, c)}" for x, c in zip(setting.inputs, example.words))
    rows = [
        ("where", inputs_text(setting, example.fields)),
        ("take", words),
        (operation.name, f"gives {word_text(domain, width, example.value)}"),
        (name, f"gives {value_text(domain, width, example.result)}"),
        ("missed", missed(domain, width, example.result, example.value)),
    ]
    if setting.feasible is not None and not value(width, setting.feasible, example.fields):
        rows.append(("note", "the `feasible` term is false at these inputs, though words of theirs matter"))
    return _rows(rows)


def inputs_text(setting: Setting, fields: Sequence[int]) -> str:
    """The abstract inputs by their names."""
    values = setting.evaluate.split(fields)
    return ", ".join(f"{x} in {value_text(setting.domain, setting.width, v)}" for x, v in zip(setting.inputs, values))


def _rows(rows: Sequence[tuple[str, str]]) -> list[str]:
    wide = max(len(left) for left, _ in rows)
    return [f"{INDENT}{left:<{wide}} {right}" for left, right in rows]


def _indented(text: str) -> list[str]:
    return [INDENT + line for line in text.split("\n")]


def standing_lines(setting: Setting, name: str, found: Standing | LabError) -> list[str]:
    """Where a sound candidate stands to the grammar."""
    head = f"{name} at width {setting.width}"
    if isinstance(found, LabError):
        return [f"{head}: whether it is best isn't known", *_indented(found.render())]
    where = "in the grammar" if setting.file.grammar else "among the candidates' entries"
    if found.kind == "best":
        return [f"{head}: best {where}: nothing sound there is closer ({found.how})"]
    if found.kind == "unknown" and found.gain is not None:
        first = f"{head}: this one {where} is sound and says more at some inputs;"
        return [
            f"{first} whether it says less at others isn't known",
            *_found_lines(setting, found, name),
            f"{INDENT}note: {found.how}",
        ]
    if found.kind == "unknown":
        return [f"{head}: whether it is best {where} isn't known: {found.how}", *_found_lines(setting, found)]
    if found.kind == "closer":
        return [f"{head}: not best: this one {where} is sound and closer", *_found_lines(setting, found, name)]
    lines = [f"{head}: this one {where} is sound and says more at some inputs, and less at others"]
    if found.is_best_by_list:
        lines = [f"{head}: best {where}, as all best ones are incomparable to it; this one says more at some inputs"]
    if found.is_best_by_list is False:
        lines = [
            f"{head}: not best: another one {where} is closer; this one says more at some inputs, and less at others"
        ]
    return lines + _found_lines(setting, found, name)


def _found_lines(setting: Setting, found: Standing, name: str = "") -> list[str]:
    lines = term_lines(setting, found.found)
    return lines + (closer_lines(setting, name, found.gain) if found.gain is not None and name else [])


def closer_lines(setting: Setting, name: str, example: Closer) -> list[str]:
    """An input where another transformer says more than a candidate."""
    domain, width = setting.domain, setting.width
    return _rows(
        [
            ("where", inputs_text(setting, example.fields)),
            (name, f"gives {value_text(domain, width, example.wide)}"),
            ("that one", f"gives {value_text(domain, width, example.narrow)}"),
            ("left out", word_text(domain, width, example.word)),
        ]
    )


def term_lines(setting: Setting, terms: Sequence[Term], is_exact: bool = False) -> list[str]:
    """A transformer's entries in the source language, simplified; and exactly as the core wrote them."""
    printer = Printer(setting.width, field_names(setting.domain, setting.inputs))
    shown = setting.unwrap(terms)
    lets, short = shared([simplify(setting.width, term) for term in shown])
    rows = [(f"let {name} =", printer.term(term)) for name, term in lets]
    rows += [(f"{name} =", printer.term(term)) for name, term in zip(setting.domain.fields, short)]
    lines = _rows(rows)
    if is_exact:
        lines += [f"{INDENT}exactly: term {show(term, 'f')}" for term in terms]
    if tuple(shown) != tuple(terms):
        lines.append(f"{INDENT}where the inputs are feasible, and no words elsewhere")
    return lines


def solution_lines(setting: Setting, answer: Answer) -> list[str]:
    """What `solve` says at a width."""
    certificate = answer.certificate
    positive = len(certificate.positives)
    work = f"{count(len(certificate.turns), 'turn')}, {positive} of them by words that were missed"
    head = f"width {setting.width}"
    if not answer.is_best:
        return [f"{head}: no transformer of the grammar is sound ({accepted(answer)}; {work})"]
    notes = [f"{INDENT}note: {note}" for note in setting.synthesis().notes]
    lines = term_lines(setting, certificate.terms, is_exact=True)
    return [f"{head}: best ({accepted(answer)}; {work})", *lines, *notes]


def optimality_lines(setting: Setting, name: str, found: Optimality, worst: int) -> list[str]:
    """What `optimal` says at a width."""
    share = 100 * found.optimal / found.feasible if found.feasible else 100.0
    out = [
        f"width {setting.width}: {name} is the closest value of {setting.domain.name} at {found.optimal:,} of "
        f"{found.feasible:,} abstract inputs ({share:.1f} %), by going through all of them"
    ]
    if found.infeasible:
        out.append(f"{INDENT}{count(found.infeasible, 'input')} more have no words that meet the assumption")
    if found.missed:
        out.append(f"{INDENT}it is UNSOUND: at {count(found.missed, 'input')} it misses words")
    if found.feasible:
        out.append(f"{INDENT}on average it has {found.extra_words / found.feasible:.2f} words too many")
    for coarse in found.worst[:worst]:
        assert coarse.closest is not None
        given, best = (value_text(setting.domain, setting.width, v) for v in (coarse.result, coarse.closest))
        out.append(
            f"{INDENT}{coarse.extra} too many where {inputs_text(setting, coarse.fields)}: {given}, closest {best}"
        )
    return out
