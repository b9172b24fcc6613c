"""Reads terms: C's operators and precedence, calls, and the core's prefix form."""

from __future__ import annotations

from dataclasses import replace

from .lexer import Token
from .source import LabError
from .syntax import Binary, Call, Choice, Expr, FieldOf, Name, Number, Unary
from .words import ARITY

# Binary operators with their precedence, the loosest first. All group to the left.
PRECEDENCE = {
    op: level
    for level, ops in enumerate(
        (
            ("||",),
            ("&&",),
            ("|",),
            ("^",),
            ("&",),
            ("==", "!="),
            ("<", "<=", ">", ">=", "<s", "<=s", ">s", ">=s"),
            ("<<", ">>", ">>>"),
            ("+", "-"),
            ("*", "/", "%"),
        ),
        1,
    )
    for op in ops
}
PREFIX = ("!", "~", "-")


class TokenReader:
    """A list of tokens with the place that is read next."""

    def __init__(self, tokens: list[Token]) -> None:
        self.tokens = tokens
        self.place = 0

    @property
    def here(self) -> Token:
        """The next token."""
        return self.tokens[self.place]

    @property
    def last(self) -> Token:
        """The token that was read last."""
        return self.tokens[max(0, self.place - 1)]

    def ahead(self, distance: int) -> Token:
        """A later token, or the last one."""
        return self.tokens[min(self.place + distance, len(self.tokens) - 1)]

    def advance(self) -> Token:
        """Takes the next token."""
        token = self.here
        if token.kind != "end":
            self.place += 1
        return token

    def is_symbol(self, *texts: str) -> bool:
        """Whether one of some symbols is next."""
        return self.here.kind == "symbol" and self.here.text in texts

    def accept(self, text: str) -> bool:
        """Takes a symbol where it is next."""
        if self.is_symbol(text):
            self.advance()
            return True
        return False

    def expect(self, text: str, why: str = "") -> Token:
        """Takes a symbol that has to be next."""
        if not self.is_symbol(text):
            raise self.unexpected(f"`{text}`" + (f" {why}" if why else ""))
        return self.advance()

    def expect_name(self, what: str) -> Token:
        """Takes a name that has to be next."""
        if self.here.kind != "name":
            raise self.unexpected(what)
        return self.advance()

    def expect_number(self, what: str) -> Token:
        """Takes a number that has to be next."""
        if self.here.kind != "number":
            raise self.unexpected(what)
        return self.advance()

    def unexpected(self, expected: str) -> LabError:
        """The mistake that something else is next."""
        return LabError(f"expected {expected}, found {self.here.shown}", self.here.span, f"expected {expected}")


class ExpressionReader(TokenReader):
    """Reads terms from tokens."""

    def term(self, bar_separates: bool = False) -> Expr:
        """A whole term. Where `|` separates alternatives, a bitwise or needs parentheses."""
        condition = self._binary(1, bar_separates)
        if not self.accept("?"):
            return condition
        then = self.term()
        self.expect(":", "and the term for the other case")
        other = self.term(bar_separates)
        return Choice(condition, then, other, condition.span.to(other.span))

    def _binary(self, level: int, bar_separates: bool) -> Expr:
        left = self._unary()
        while True:
            op = self.here.text if self.here.kind == "symbol" else ""
            if PRECEDENCE.get(op, 0) < level or (op == "|" and bar_separates):
                return left
            self.advance()
            right = self._binary(PRECEDENCE[op] + 1, bar_separates)
            left = Binary(op, left, right, left.span.to(right.span))

    def _unary(self) -> Expr:
        if not self.is_symbol(*PREFIX):
            return self._primary()
        sign = self.advance()
        if sign.text == "-" and self.here.kind == "number":
            number = self.advance()
            return Number(number.value, sign.span.to(number.span), True)
        operand = self._unary()
        return Unary(sign.text, operand, sign.span.to(operand.span))

    def _primary(self) -> Expr:
        token = self.here
        if token.kind == "number":
            self.advance()
            return Number(token.value, token.span)
        if token.kind == "name":
            return self._name()
        if self.is_symbol("("):
            return self._prefix_form() if self._at_prefix_form() else self._grouped()
        raise self.unexpected("a term")

    def _name(self) -> Expr:
        name = self.advance()
        if self.accept("."):
            field = self.expect_name("the name of a field")
            return FieldOf(name.text, field.text, name.span.to(field.span))
        if self.is_symbol("("):
            return self._call(name)
        return Name(name.text, name.span)

    def _call(self, name: Token) -> Call:
        if self._at_prefix_form():
            inner = self._prefix_form()
            return Call(name.text, (inner,), name.span.to(inner.span), name.span)
        self.expect("(")
        args = [] if self.is_symbol(")") else [self.term()]
        while self.accept(","):
            args.append(self.term())
        end = self.expect(")", "or `,` and a further argument")
        return Call(name.text, tuple(args), name.span.to(end.span), name.span)

    def _grouped(self) -> Expr:
        start = self.expect("(")
        inner = self.term()
        end = self.expect(")")
        return replace(inner, span=start.span.to(end.span))

    def _at_prefix_form(self) -> bool:
        """Whether `(` and an operator's name begin the core's form, as `(umin (add a b) c)`, and no call."""
        op, after = self.ahead(1), self.ahead(2)
        if op.kind != "name" or op.text not in ARITY:
            return False
        if after.text != "(":
            return after.kind != "symbol" or after.text in PREFIX
        end, has_comma = self._group(self.place + 2)
        return not has_comma and (ARITY[op.text] > 1 or self.tokens[min(end + 1, len(self.tokens) - 1)].text == ")")

    def _group(self, start: int) -> tuple[int, bool]:
        """The place of the parenthesis that ends the group at a place, and whether a comma stands between its parts."""
        depth, has_comma = 0, False
        for place in range(start, len(self.tokens)):
            text = self.tokens[place].text if self.tokens[place].kind == "symbol" else ""
            depth += (text == "(") - (text == ")")
            has_comma = has_comma or (depth == 1 and text == ",")
            if depth == 0:
                return place, has_comma
        return len(self.tokens) - 1, has_comma

    def _prefix_form(self) -> Call:
        start = self.expect("(").span
        name = self.advance()
        args: list[Expr] = []
        while not self.is_symbol(")") and len(args) < ARITY[name.text]:
            args.append(self._unary())
        if len(args) < ARITY[name.text]:
            whole = start.to(self.here.span)
            raise LabError(f"`{name.text}` has {ARITY[name.text]} arguments, found {len(args)}", whole)
        end = self.expect(")", f"after the {ARITY[name.text]} arguments of `{name.text}`")
        return Call(name.text, tuple(args), start.to(end.span), name.span)
