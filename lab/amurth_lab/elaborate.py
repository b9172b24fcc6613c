"""Expands terms of a source to terms of the core, at one width."""

from __future__ import annotations

from dataclasses import dataclass, field, replace
from typing import Mapping

from .domains import DOMAINS, Domain
from .macros import BUILT_IN, MacroError
from .source import LabError, Span, listed, near
from .syntax import Binary, Call, Choice, Expr, FieldOf, LabFile, Let, Macro, Name, Number, Unary
from .terms import Const, Hole, Term, Var, make, truth
from .words import ARITY, WIDTH_WORDS, ones

_DIRECT = {
    "|": "or", "^": "xor", "&": "and", "==": "eq", "<": "ult", "<=": "ule", "<s": "slt", "<=s": "sle",
    "<<": "shl", ">>": "lshr", ">>>": "ashr", "+": "add", "-": "sub", "*": "mul", "/": "udiv", "%": "urem",
}  # fmt: skip
_TURNED = {">": "ult", ">=": "ule", ">s": "slt", ">=s": "sle"}
_PREFIX = {"~": "not", "-": "neg"}


@dataclass(frozen=True)
class Scope:
    """What names mean: `inputs` as words or as values with fields, lets, parameters of a macro, nonterminals."""

    inputs: tuple[str, ...]
    sees_fields: bool
    lets: Mapping[str, Let] = field(default_factory=dict)
    params: Mapping[str, Term] = field(default_factory=dict)
    nonterminals: frozenset[str] = frozenset()
    open_names: tuple[str, ...] = ()

    def with_lets(self, lets: tuple[Let, ...] | list[Let]) -> "Scope":
        """The scope with further lets."""
        return replace(self, lets={**self.lets, **{let.name: let for let in lets}})


class Expander:
    """Expands the terms of a file at a width."""

    def __init__(self, file: LabFile, width: int) -> None:
        assert file.operation is not None
        self.file = file
        self.width = width
        self.domain: Domain = DOMAINS[file.domain]
        self.macros: dict[str, Macro] = {macro.name: macro for macro in file.macros}
        self.words = Scope(file.operation.inputs, False).with_lets(file.lets)
        self.fields = Scope(file.operation.inputs, True).with_lets(file.lets)

    def term(self, expr: Expr, scope: Scope) -> Term:
        """The term of the core that an expression stands for."""
        if isinstance(expr, Number):
            return self._number(expr)
        if isinstance(expr, Name):
            return self._name(expr, scope)
        if isinstance(expr, FieldOf):
            return self._field(expr, scope)
        if isinstance(expr, Unary):
            return self._unary(expr, scope)
        if isinstance(expr, Binary):
            return self._binary(expr, scope)
        if isinstance(expr, Choice):
            parts = (self.term(part, scope) for part in (expr.condition, expr.then, expr.other))
            return make(self.width, "ite", *parts)
        return self._call(expr, scope)

    def _number(self, expr: Number) -> Term:
        value = -expr.value if expr.negative else expr.value
        if not -(1 << (self.width - 1)) <= value <= ones(self.width):
            raise LabError(
                f"{value} doesn't fit in {self.width} bits",
                expr.span,
                f"words have {self.width} bits here: {-(1 << (self.width - 1))} to {ones(self.width)}",
                "`widths` says at which widths the file is meant; `ones`, `msb`, `half` follow from the width",
            )
        return Const(value & ones(self.width))

    def _name(self, expr: Name, scope: Scope) -> Term:
        name = expr.name
        if name in scope.params:
            return scope.params[name]
        if name in scope.lets:
            return self._let(scope.lets[name], expr.span, scope)
        if name in scope.inputs:
            if scope.sees_fields:
                fields = listed(f"{name}.{part}" for part in self.domain.fields)
                raise LabError(f"`{name}` is a word, which a transformer doesn't see", expr.span, f"it sees {fields}")
            return Var(scope.inputs.index(name))
        if name in WIDTH_WORDS:
            return Const(WIDTH_WORDS[name](self.width))
        if name in scope.nonterminals:
            return Hole(name)
        raise self._unknown(name, expr.span, scope)

    def _unknown(self, name: str, span: Span, scope: Scope) -> LabError:
        if name in ARITY or name in BUILT_IN or name in self.macros:
            return LabError(f"`{name}` needs arguments", span, f"expected `{name}(..)`")
        known = [*scope.params, *scope.lets, *scope.inputs, *WIDTH_WORDS, *scope.nonterminals]
        if name[0].isupper():
            label = near(name, scope.nonterminals) or "no nonterminal of the grammar has this name"
            return LabError(f"`{name}` is unknown", span, label)
        return LabError(f"`{name}` is unknown", span, near(name, known) or f"known here: {', '.join(known)}")

    def _let(self, let: Let, use: Span, scope: Scope) -> Term:
        if let.name in scope.open_names:
            raise LabError(f"`{let.name}` is named in its own term", use, "a let can't use itself")
        return self.term(let.body, replace(scope, open_names=(*scope.open_names, let.name)))

    def _field(self, expr: FieldOf, scope: Scope) -> Term:
        if expr.input not in scope.inputs:
            label = near(expr.input, scope.inputs) or f"inputs: {', '.join(scope.inputs)}"
            raise LabError(f"`{expr.input}` is no input of the operation", expr.span, label)
        if not scope.sees_fields:
            raise LabError(
                f"`{expr.input}.{expr.field}` isn't known here",
                expr.span,
                f"the operation is over words: `{expr.input}`",
            )
        fields = self.domain.fields
        if expr.field not in fields:
            label = near(expr.field, fields) or f"the fields are {listed(fields)}"
            raise LabError(f"`{expr.field}` is no field of {self.domain.name}", expr.span, label)
        return Var(scope.inputs.index(expr.input) * len(fields) + fields.index(expr.field))

    def _unary(self, expr: Unary, scope: Scope) -> Term:
        operand = self.term(expr.operand, scope)
        if expr.op == "!":
            return make(self.width, "eq", operand, Const(0))
        return make(self.width, _PREFIX[expr.op], operand)

    def _binary(self, expr: Binary, scope: Scope) -> Term:
        left, right = self.term(expr.left, scope), self.term(expr.right, scope)
        if expr.op in _DIRECT:
            return make(self.width, _DIRECT[expr.op], left, right)
        if expr.op in _TURNED:
            return make(self.width, _TURNED[expr.op], right, left)
        if expr.op == "!=":
            return make(self.width, "eq", make(self.width, "eq", left, right), Const(0))
        op = "and" if expr.op == "&&" else "or"
        return make(self.width, op, truth(self.width, left), truth(self.width, right))

    def _call(self, expr: Call, scope: Scope) -> Term:
        arity = self._arity(expr)
        if len(expr.args) != arity:
            plural = "argument" if arity == 1 else "arguments"
            raise LabError(f"`{expr.name}` has {arity} {plural}, found {len(expr.args)}", expr.span)
        args = [self.term(arg, scope) for arg in expr.args]
        if expr.name in self.macros:
            return self._expand(self.macros[expr.name], args, expr, scope)
        if expr.name in ARITY:
            return make(self.width, expr.name, *args)
        try:
            return BUILT_IN[expr.name].build(self.width, *args)
        except MacroError as error:
            raise LabError(str(error), expr.span) from error

    def _arity(self, expr: Call) -> int:
        if expr.name in self.macros:
            return len(self.macros[expr.name].params)
        if expr.name in ARITY:
            return ARITY[expr.name]
        if expr.name in BUILT_IN:
            return BUILT_IN[expr.name].arity
        label = near(expr.name, [*ARITY, *BUILT_IN, *self.macros]) or "neither an operator of the core nor a macro"
        raise LabError(f"`{expr.name}` is unknown", expr.name_span, label)

    def _expand(self, macro: Macro, args: list[Term], expr: Call, scope: Scope) -> Term:
        mark = macro.name + "()"
        if mark in scope.open_names:
            raise LabError(f"the macro `{macro.name}` uses itself", expr.span, "loops have to be written out")
        top = {let.name: let for let in self.file.lets}
        inner = replace(scope, lets=top, params=dict(zip(macro.params, args)), open_names=(*scope.open_names, mark))
        return self.term(macro.body, inner)
