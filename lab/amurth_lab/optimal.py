"""How near a transformer is to the closest values of its domain, by going through all inputs and words."""

from __future__ import annotations

from dataclasses import dataclass, field
from itertools import product
from typing import Callable, Iterator, Sequence

from .domains import Value, closest
from .questions import Setting
from .source import LabError
from .terms import Term, evaluator

MOST_INPUTS = 5_000_000


@dataclass(frozen=True)
class Coarse:
    """Inputs at which a result has words that the closest value of the domain hasn't."""

    fields: tuple[int, ...]
    result: Value
    closest: Value | None
    extra: int


@dataclass
class Optimality:
    """At how many inputs a transformer gives the closest value of the domain, and where it is coarsest.

    `extras` has the number of words too many at each input, for operations of one input.
    """

    tried: int = 0
    infeasible: int = 0
    optimal: int = 0
    missed: int = 0
    extra_words: int = 0
    worst: list[Coarse] = field(default_factory=list)
    extras: dict[tuple[int, ...], int] = field(default_factory=dict)

    @property
    def feasible(self) -> int:
        """The inputs with words that meet the assumption."""
        return self.tried - self.infeasible


def check_small(setting: Setting) -> None:
    """Raises a mistake where brute force would take too long."""
    width, inputs = setting.width, len(setting.inputs)
    most = 5 if inputs == 1 else 4
    total = len(setting.domain.values(min(width, most))) ** inputs
    if width > most or total > MOST_INPUTS:
        raise LabError(
            f"`optimal` goes through all inputs, and width {width} with {inputs} of {setting.domain.name} has too many",
            None,
            "",
            f"ask at a width up to {most}" if width > most else "ask at a smaller width",
        )


def measure(
    setting: Setting, terms: Sequence[Term], tell: Callable[[int, int], None] = lambda done, all_: None
) -> Optimality:
    """Compares a transformer's results with the closest values, at all inputs."""
    check_small(setting)
    out = Optimality()
    result = evaluator(setting.width, terms)
    domain, width = setting.domain, setting.width
    total = len(domain.values(width)) ** len(setting.inputs)
    best: dict[int, Value] = {}
    for fields, image in images(setting):
        if out.tried % 4096 == 0:
            tell(out.tried, total)
        out.tried += 1
        given = result(fields)
        members = domain.members(width, given)
        if image == 0:
            out.infeasible += 1
            continue
        if image not in best:
            best[image] = closest(domain, width, image)
        if len(setting.inputs) == 1:
            out.extras[fields] = members.bit_count() - domain.members(width, best[image]).bit_count()
        _count(out, fields, given, best[image], members.bit_count() - domain.members(width, best[image]).bit_count())
        out.missed += 1 if image & ~members else 0
    out.worst.sort(key=lambda coarse: -coarse.extra)
    return out


def _count(out: Optimality, fields: tuple[int, ...], given: Value, best: Value, extra: int) -> None:
    if extra <= 0:
        out.optimal += 1
        return
    out.extra_words += extra
    out.worst.append(Coarse(fields, given, best, extra))
    if len(out.worst) > 2000:
        out.worst.sort(key=lambda coarse: -coarse.extra)
        del out.worst[100:]


def images(setting: Setting) -> Iterator[tuple[tuple[int, ...], int]]:
    """All inputs, each with the operation's values at their words that meet the assumption, as a set of bits."""
    evaluate = setting.evaluate
    at_all = product(range(1 << setting.width), repeat=len(setting.inputs))
    table = {at: 1 << evaluate.operation(at) for at in at_all if evaluate.is_assumed(at)}
    members = {value: setting.domain.members(setting.width, value) for value in setting.domain.values(setting.width)}
    yield from _joined(table, members, (), len(setting.inputs))


def _joined(
    table: dict[tuple[int, ...], int], members: dict[Value, int], fields: tuple[int, ...], left: int
) -> Iterator[tuple[tuple[int, ...], int]]:
    """Joins a table from words to sets over the first input's members, value by value, and goes on with the rest."""
    if left == 0:
        yield fields, table.get((), 0)
        return
    for value, inside in members.items():
        smaller: dict[tuple[int, ...], int] = {}
        for at, image in table.items():
            if inside >> at[0] & 1:
                smaller[at[1:]] = smaller.get(at[1:], 0) | image
        yield from _joined(smaller, members, (*fields, *value), left - 1)
