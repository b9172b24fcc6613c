"""Writes a problem of the core as a source."""

from __future__ import annotations

from .pretty import Printer, field_names
from .problem import Leaf, Problem, Production
from .source import LabError
from .terms import Apply

INPUT_NAMES = ("x", "y", "z")


def source_of(problem: Problem, name: str) -> str:
    """The source whose grammar, at the problem's width, derives what the problem's grammar derives."""
    inputs = INPUT_NAMES[: problem.inputs]
    words = Printer(problem.width, inputs)
    lines = [
        f"# {name}, written from a problem of the core.",
        f"domain {problem.domain.name}",
        f"operation f({', '.join(inputs)}) = {words.term(problem.operation)}",
    ]
    if problem.assume is not None:
        lines.append(f"assume {words.term(problem.assume)}")
    lines += [f"widths {problem.width}", f"turns {problem.turns}  conflicts {problem.conflicts}", "", "grammar {"]
    lines += [f"  {field} = {start}" for field, start in zip(problem.domain.fields, problem.starts)]
    fields = Printer(problem.width, field_names(problem.domain, inputs))
    for nonterminal, productions in problem.rules.items():
        if not productions:
            raise LabError(f"nothing derives from `{nonterminal}` in {name}, which a source can't say")
        lines.append(f"  {nonterminal} = " + "\n     | ".join(_shown(fields, p) for p in productions))
    return "\n".join([*lines, f"  depth {problem.depth}", "}", ""])


def _shown(fields: Printer, production: Production) -> str:
    if isinstance(production, Leaf):
        text = fields.term(production.term)
        return f"({text})" if isinstance(production.term, Apply) and production.term.op == "or" else text
    return f"{production.op}({', '.join(production.names)})"
