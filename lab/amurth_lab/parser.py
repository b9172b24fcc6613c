"""Reads a source: statements, blocks and expectations."""

from __future__ import annotations

from pathlib import Path

from .domains import DOMAINS
from .expressions import ExpressionReader
from .lexer import Token, description, tokens
from .source import LabError, SourceFile, Span, listed, near
from .syntax import Candidate, Entry, Expectation, Expr, Grammar, LabFile, Let, Macro, Operation
from .words import ARITY, WIDTH_WORDS, WIDTHS

STATEMENTS = (
    "domain", "operation", "assume", "feasible", "widths", "turns", "conflicts", "depth",
    "let", "macro", "candidate", "grammar", "expect", "use",
)  # fmt: skip
RESERVED = frozenset(STATEMENTS) | frozenset(ARITY) | frozenset(WIDTH_WORDS)
MOST_INPUTS = 3


def read_file(path: str | Path) -> LabFile:
    """Reads the source at a path, with the files that it uses."""
    try:
        text = Path(path).read_text(encoding="utf-8")
    except (OSError, UnicodeDecodeError) as error:
        why = error.strerror if isinstance(error, OSError) else "it isn't UTF-8 text"
        raise LabError(f"can't read {path}: {why}") from error
    return read_text(text, str(path))


def read_text(text: str, path: str) -> LabFile:
    """Reads a source. Files that it uses are looked for beside `path`."""
    file = _Parser(SourceFile(path, text), ()).file()
    _check_whole(file)
    return file


class _Parser(ExpressionReader):
    def __init__(self, source: SourceFile, users: tuple[Path, ...]) -> None:
        super().__init__(tokens(source))
        self.out = LabFile(source, description(source.text))
        self.users = users
        self.seen: dict[str, Span] = {}

    def file(self) -> LabFile:
        """All statements up to the end of the text."""
        while self.here.kind != "end":
            word = self.expect_name("a statement, as `domain`, `operation` or `candidate`")
            if word.text not in STATEMENTS:
                hint = near(word.text, STATEMENTS)
                raise LabError(
                    f"`{word.text}` begins no statement", word.span, hint or f"statements: {', '.join(STATEMENTS)}"
                )
            getattr(self, "_" + word.text)(word)
        return self.out

    def _once(self, word: Token) -> None:
        if word.text in self.seen:
            line = self.seen[word.text].line_number
            raise LabError(f"`{word.text}` stands twice", word.span, f"the first stands in line {line}")
        self.seen[word.text] = word.span

    def _new_name(self, token: Token, taken: dict[str, Span], what: str) -> str:
        if token.text in RESERVED:
            raise LabError(
                f"`{token.text}` is a word of the language", token.span, f"expected another name for the {what}"
            )
        if token.text in taken:
            line = taken[token.text].line_number
            raise LabError(f"`{token.text}` is defined twice", token.span, f"the first stands in line {line}")
        taken[token.text] = token.span
        return token.text

    def _domain(self, word: Token) -> None:
        self._once(word)
        first = self.expect_name("the name of a domain")
        name, span = first.text, first.span
        while self.is_symbol("-", "+"):
            name += self.advance().text
            part = self.expect_name("the rest of the domain's name")
            name, span = name + part.text, span.to(part.span)
        if name not in DOMAINS:
            raise LabError(f"`{name}` is no domain", span, near(name, DOMAINS) or f"domains: {', '.join(DOMAINS)}")
        self.out.domain = name

    def _operation(self, word: Token) -> None:
        self._once(word)
        name = self.expect_name("the operation's name")
        inputs = self._parameters("an input's name", "input")
        if not 1 <= len(inputs) <= MOST_INPUTS:
            raise LabError(f"an operation has 1 to {MOST_INPUTS} inputs, found {len(inputs)}", name.span)
        self.expect("=", "and the operation's term")
        body = self.term()
        self.out.operation = Operation(name.text, inputs, body, word.span.to(body.span))

    def _parameters(self, what: str, kind: str) -> tuple[str, ...]:
        self.expect("(")
        taken: dict[str, Span] = {}
        while not self.is_symbol(")"):
            self._new_name(self.expect_name(what), taken, kind)
            if not self.accept(","):
                break
        self.expect(")")
        return tuple(taken)

    def _assume(self, word: Token) -> None:
        self._once(word)
        self.out.assume = self.term()

    def _feasible(self, word: Token) -> None:
        self._once(word)
        self.out.feasible = self.term()

    def _widths(self, word: Token) -> None:
        self._once(word)
        self.out.widths = self._width_list()

    def _width_list(self) -> tuple[int, ...]:
        found: set[int] = set()
        while True:
            low = self._one_width()
            high = self._one_width() if self.accept("..") else low
            found.update(range(low, high + 1))
            if not self.accept(","):
                return tuple(sorted(found))

    def _one_width(self) -> int:
        token = self.expect_number("a width")
        if token.value not in WIDTHS:
            raise LabError(f"a width is {WIDTHS[0]} to {WIDTHS[-1]}, found {token.value}", token.span)
        return token.value

    def _budget(self, word: Token, least: int, most: int) -> int:
        self._once(word)
        token = self.expect_number("a number")
        if not least <= token.value <= most:
            raise LabError(f"`{word.text}` is {least} to {most:,}, found {token.value:,}", token.span)
        return token.value

    def _turns(self, word: Token) -> None:
        self.out.turns = self._budget(word, 0, 4096)

    def _conflicts(self, word: Token) -> None:
        self.out.conflicts = self._budget(word, 1, 1_000_000)

    def _depth(self, word: Token) -> None:
        self.out.depth = self._budget(word, 1, 5)

    def _let(self, word: Token) -> None:
        self.out.lets.append(self._let_after(word, self.seen))

    def _let_after(self, word: Token, taken: dict[str, Span]) -> Let:
        name = self.expect_name("the name that is given")
        self._new_name(name, taken, "term")
        self.expect("=", "and the term that is named")
        body = self.term()
        return Let(name.text, body, word.span.to(body.span))

    def _macro(self, word: Token) -> None:
        name = self.expect_name("the macro's name")
        self._new_name(name, self.seen, "macro")
        params = self._parameters("a parameter's name", "parameter")
        self.expect("=", "and the macro's term")
        body = self.term()
        self.out.macros.append(Macro(name.text, params, body, word.span.to(body.span)))

    def _candidate(self, word: Token) -> None:
        name = self.expect_name("the candidate's name")
        self._new_name(name, self.seen, "candidate")
        lets, entries, _ = self._block(is_grammar=False)
        self.out.candidates.append(Candidate(name.text, lets, entries, name.span))

    def _grammar(self, word: Token) -> None:
        self._once(word)
        lets, entries, depth = self._block(is_grammar=True)
        self.out.grammar = Grammar(lets, entries, depth, word.span)

    def _block(self, is_grammar: bool) -> tuple[tuple[Let, ...], tuple[Entry, ...], int | None]:
        self.expect("{")
        taken: dict[str, Span] = {}
        lets: list[Let] = []
        entries: list[Entry] = []
        depth = None
        while not self.is_symbol("}"):
            if self.accept(";"):
                continue
            word = self.expect_name("an entry, as `lo = ..`, `let`, or `}`")
            if word.text == "let":
                lets.append(self._let_after(word, taken))
            elif word.text == "depth" and is_grammar:
                self.seen.pop("depth", None)
                depth = self._budget(word, 1, 5)
            else:
                entries.append(self._entry(word, taken, is_grammar))
        self.expect("}")
        return tuple(lets), tuple(entries), depth

    def _entry(self, word: Token, taken: dict[str, Span], is_grammar: bool) -> Entry:
        if word.text not in ("ones", "p", "m", "r"):
            self._new_name(word, taken, "entry")
        elif word.text in taken:
            raise LabError(f"`{word.text}` is defined twice", word.span)
        taken[word.text] = word.span
        self.expect("=", "and the entry's term")
        alternatives: list[Expr] = []
        self.accept("|") if is_grammar else None
        alternatives.append(self.term(bar_separates=is_grammar))
        while is_grammar and self.accept("|"):
            alternatives.append(self.term(bar_separates=True))
        return Entry(word.text, tuple(alternatives), word.span)

    def _expect(self, word: Token) -> None:
        kind = self.expect_name("`sound`, `unsound`, `best` or `none`")
        if kind.text not in ("sound", "unsound", "best", "none"):
            raise LabError(
                f"`{kind.text}` is no expectation", kind.span, "expected `sound`, `unsound`, `best` or `none`"
            )
        name = None if kind.text == "none" else self.expect_name("a candidate's name")
        widths = None
        if self.here.kind == "name" and self.here.text == "at":
            self.advance()
            widths = self._width_list()
        span = kind.span if name is None else name.span
        self.out.expectations.append(Expectation(kind.text, None if name is None else name.text, widths, span))

    def _use(self, word: Token) -> None:
        if self.here.kind != "string":
            raise self.unexpected('a path in quotes, as "common.lab"')
        token = self.advance()
        path = Path(self.out.source.path).parent / token.text.strip('"')
        if path.resolve() in self.users:
            raise LabError("the file uses itself", token.span)
        try:
            text = path.read_text(encoding="utf-8")
        except OSError as error:
            raise LabError(f"can't read {path}: {error.strerror}", token.span) from error
        users = self.users + (Path(self.out.source.path).resolve(), path.resolve())
        used = _Parser(SourceFile(str(path), text), users).file()
        if used.operation or used.candidates or used.grammar:
            raise LabError("a file that is used has lets and macros alone", token.span)
        items: list[Let | Macro] = [*used.lets, *used.macros]
        for item in items:
            self.seen.setdefault(item.name, item.span)
        self.out.lets += used.lets
        self.out.macros += used.macros


def _check_whole(file: LabFile) -> None:
    """What a source needs as a whole: its domain, its operation, each field once, names that are there."""
    end = Span(file.source, len(file.source.text.rstrip()), len(file.source.text.rstrip()))
    if not file.domain:
        raise LabError("the file has no `domain`", end, f"domains: {', '.join(DOMAINS)}")
    if file.operation is None:
        raise LabError("the file has no `operation`", end, "expected a line as `operation add(x, y) = x + y`")
    fields = DOMAINS[file.domain].fields
    for candidate in file.candidates:
        _check_fields(candidate.entries, fields, candidate.span, f"candidate `{candidate.name}`", file.domain)
        for entry in candidate.entries:
            if entry.name not in fields:
                label = near(entry.name, fields) or f"the fields are {listed(fields)}"
                raise LabError(f"`{entry.name}` is no field of {file.domain}", entry.span, label)
    if file.grammar is not None:
        _check_fields(file.grammar.entries, fields, file.grammar.span, "the grammar", file.domain)
        _check_nonterminals(file.grammar.entries, fields)
    names = [candidate.name for candidate in file.candidates]
    for expectation in file.expectations:
        if expectation.name is not None and expectation.name not in names:
            label = near(expectation.name, names) or (
                f"candidates: {listed(names)}" if names else "the file has none"
            )
            raise LabError(f"there is no candidate `{expectation.name}`", expectation.span, label)


def _check_fields(entries: tuple[Entry, ...], fields: tuple[str, ...], span: Span, what: str, domain: str) -> None:
    missing = [name for name in fields if name not in [entry.name for entry in entries]]
    if missing:
        raise LabError(
            f"{what} has no entry for {listed(missing)}", span, f"{domain} has the fields {listed(fields)}"
        )


def _check_nonterminals(entries: tuple[Entry, ...], fields: tuple[str, ...]) -> None:
    for entry in entries:
        if entry.name in fields:
            continue
        if not entry.name[0].isupper() or "_" in entry.name or len(entry.name) > 16:
            label = near(entry.name, fields) or "begins with a capital letter and has 1 to 16 letters and digits"
            raise LabError(f"`{entry.name}` is neither a field nor a nonterminal's name", entry.span, label)
