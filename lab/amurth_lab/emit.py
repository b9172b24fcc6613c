"""Writes the transformer of a certificate as functions in C, Rust or Python."""

from __future__ import annotations

from .certificates import Certificate
from .domains import Domain
from .languages import LANGUAGES, Function, Language
from .pretty import Printer, field_names
from .simplify import simplify
from .source import LabError
from .terms import Apply, Const, Term, Var, nodes

INPUT_NAMES = ("x", "y", "z")
MEMBER = "1 where the word c is a member of the value with these fields, and else 0."
EMPTY = "1 where a tuple with these fields has no member, and else 0."


def emit(certificate: Certificate, language: str, name: str, is_accepted: bool) -> str:
    """The transformer of a certificate, a function for each field and one that tells results without members."""
    if certificate.answer != "best":
        raise LabError(f"the certificate's answer is `{certificate.answer}`, so it has no transformer to write")
    problem = certificate.problem
    writer = LANGUAGES[language](problem.width)
    lines = writer.head(_comment(certificate, name, is_accepted))
    for function in _field_functions(certificate, name):
        lines += writer.function(function)
    lines += _emptiness(writer, problem.domain, name)
    return "\n".join(lines) + "\n"


def _comment(certificate: Certificate, name: str, is_accepted: bool) -> list[str]:
    problem = certificate.problem
    inputs = INPUT_NAMES[: problem.inputs]
    shown = Printer(problem.width, inputs)
    assume = "" if problem.assume is None else f" where {shown.term(problem.assume)}"
    verdict = "accepted" if is_accepted else "wasn't asked about"
    operation = f"{', '.join(inputs)} -> {shown.term(problem.operation)}{assume}"
    return [
        f"{name}: a best transformer of {problem.domain.name} for {operation}",
        "",
        f"Words have {problem.width} bits, in the low bits of a byte; higher bits of arguments have to be 0, and are 0",
        f"in results. Written from a certificate of Amurth, which `amurth check` {verdict} when this was written. Best",
        "is meant in the grammar of the certificate's problem. The theorem speaks of the certificate's terms, and not",
        "of this text.",
    ]


def _field_functions(certificate: Certificate, name: str) -> list[Function]:
    problem = certificate.problem
    inputs = INPUT_NAMES[: problem.inputs]
    dotted = field_names(problem.domain, inputs)
    printer = Printer(problem.width, dotted)
    out = []
    for field, term in zip(problem.domain.fields, certificate.terms):
        text = printer.term(simplify(problem.width, term)).replace("*/", "* /")
        meaning = (f"The result's `{field}`: {text}" if nodes(term) <= 24 else f"The result's `{field}`.",)
        out.append(Function(f"{name}_{field}", tuple(n.replace(".", "_") for n in dotted), meaning, term))
    return out


def _emptiness(writer: Language, domain: Domain, name: str) -> list[str]:
    """Functions that tell members, and tuples without members, by the domain's definitions."""
    member = Function(f"{name}_has_member", (*domain.fields, "c"), (MEMBER,), domain.member_term)
    out = writer.function(member)
    if domain.is_product:
        return out + writer.search(f"{name}_is_empty", domain.fields, EMPTY, member.name)
    return out + writer.function(Function(f"{name}_is_empty", domain.fields, (EMPTY,), _empty_term(domain)))


def _empty_term(domain: Domain) -> Term:
    first, last = Var(0), Var(1)
    if domain.name == "u-interval":
        return Apply("ult", (last, first))
    if domain.name == "s-interval":
        return Apply("slt", (last, first))
    if domain.name == "known-bits":
        return Apply("ult", (Const(0), Apply("and", (first, last))))
    if domain.name == "parity":
        return Apply("eq", (Apply("and", (first, Const(3))), Const(0)))
    return Const(0)
