"""Functions over words in C, Rust and Python."""

from __future__ import annotations

from abc import ABC, abstractmethod
from dataclasses import dataclass
from typing import Sequence

from .terms import Apply, Const, Term, Var, parts_of
from .words import ones


@dataclass(frozen=True)
class Function:
    """A function over words: its name, its parameters, what it means, and its term."""

    name: str
    params: tuple[str, ...]
    meaning: tuple[str, ...]
    term: Term


class Language(ABC):
    """Writes functions in a language."""

    def __init__(self, width: int) -> None:
        self.width = width
        self.masks = {
            "M": f"0x{ones(width):02x}",
            "H": f"0x{1 << (width - 1):02x}",
            "W": str(width),
            "L": str(width - 1),
        }

    forms: dict[str, str] = {}
    # Shorter forms for a second argument that is a constant: a shift below the width, or a divisor that isn't 0.
    by_constant = {"shl": "({0} << {1}) & {M}", "lshr": "{0} >> {1}", "udiv": "{0} / {1}", "urem": "{0} % {1}"}

    def literal(self, word: int) -> str:
        """A word as it is written."""
        return str(word)

    @abstractmethod
    def search(self, name: str, params: Sequence[str], meaning: str, member: str) -> list[str]:
        """A function that is 1 where no word is a member by the function `member`, found by trying all words."""

    @abstractmethod
    def head(self, comment: Sequence[str]) -> list[str]:
        """The first lines, with a comment on the whole."""

    @abstractmethod
    def function(self, function: Function) -> list[str]:
        """A function."""

    def steps(self, function: Function) -> tuple[list[tuple[str, str]], str]:
        """The values that are computed one after the other, with their names, and the name of the result."""
        names: dict[Term, str] = {}
        out: list[tuple[str, str]] = []
        for part in parts_of([function.term]):
            if isinstance(part, Const):
                names[part] = self.literal(part.value)
            elif isinstance(part, Var):
                names[part] = function.params[part.index]
            elif isinstance(part, Apply):
                names[part] = f"t{len(out) + 1}"
                args = [names[arg] for arg in part.args]
                out.append((names[part], self._form(part).format(*args, **self.masks)))
        return out, names[function.term]

    def _form(self, part: Apply) -> str:
        last = part.args[-1]
        is_plain = isinstance(last, Const) and (
            last.value > 0 if part.op in ("udiv", "urem") else last.value < self.width
        )
        return self.by_constant[part.op] if is_plain and part.op in self.by_constant else self.forms[part.op]


class C(Language):
    """C of 1999."""

    forms = {
        "not": "~{0} & {M}",
        "neg": "-{0} & {M}",
        "and": "{0} & {1}",
        "or": "{0} | {1}",
        "xor": "{0} ^ {1}",
        "add": "({0} + {1}) & {M}",
        "sub": "({0} - {1}) & {M}",
        "mul": "({0} * {1}) & {M}",
        "udiv": "{1} != 0 ? {0} / {1} : {M}",
        "urem": "{1} != 0 ? {0} % {1} : {0}",
        "shl": "{1} < {W} ? ({0} << {1}) & {M} : 0",
        "lshr": "{1} < {W} ? {0} >> {1} : 0",
        "ashr": "({0} & {H}) != 0 ? {M} & ~((~{0} & {M}) >> ({1} < {L} ? {1} : {L})) : {0} >> ({1} < {L} ? {1} : {L})",
        "eq": "{0} == {1}",
        "ult": "{0} < {1}",
        "ule": "{0} <= {1}",
        "slt": "({0} ^ {H}) < ({1} ^ {H})",
        "sle": "({0} ^ {H}) <= ({1} ^ {H})",
        "umin": "{0} < {1} ? {0} : {1}",
        "umax": "{0} < {1} ? {1} : {0}",
        "smin": "({0} ^ {H}) < ({1} ^ {H}) ? {0} : {1}",
        "smax": "({0} ^ {H}) < ({1} ^ {H}) ? {1} : {0}",
        "ite": "{0} != 0 ? {1} : {2}",
    }

    def head(self, comment: Sequence[str]) -> list[str]:
        return ["/*", *(f" * {line}".rstrip() for line in comment), " */", "#include <stdint.h>"]

    def function(self, function: Function) -> list[str]:
        steps, result = self.steps(function)
        params = ", ".join(f"uint8_t {name}" for name in function.params)
        out = ["", *(f"/* {line} */" for line in function.meaning)]
        out += [f"static inline uint8_t {function.name}({params})", "{"]
        out += [f"    (void){name};" for place, name in enumerate(function.params) if not _uses(function.term, place)]
        out += [f"    const uint8_t {name} = (uint8_t)({text});" for name, text in steps]
        return [*out, f"    return {result};", "}"]

    def search(self, name: str, params: Sequence[str], meaning: str, member: str) -> list[str]:
        typed = ", ".join(f"uint8_t {param}" for param in params)
        loop = f"for (unsigned c = 0; c <= {self.masks['M']}; c++) {{"
        call = f"if ({member}({', '.join(params)}, (uint8_t)c)) {{"
        body = [f"    {loop}", f"        {call}", "            return 0;", "        }", "    }", "    return 1;", "}"]
        return ["", f"/* {meaning} */", f"static inline uint8_t {name}({typed})", "{", *body]


class Rust(Language):
    """Rust of 2021."""

    forms = {
        "not": "!{0} & {M}",
        "neg": "{0}.wrapping_neg() & {M}",
        "and": "{0} & {1}",
        "or": "{0} | {1}",
        "xor": "{0} ^ {1}",
        "add": "{0}.wrapping_add({1}) & {M}",
        "sub": "{0}.wrapping_sub({1}) & {M}",
        "mul": "{0}.wrapping_mul({1}) & {M}",
        "udiv": "if {1} != 0 {{ {0} / {1} }} else {{ {M} }}",
        "urem": "if {1} != 0 {{ {0} % {1} }} else {{ {0} }}",
        "shl": "if {1} < {W} {{ ({0} << {1}) & {M} }} else {{ 0 }}",
        "lshr": "if {1} < {W} {{ {0} >> {1} }} else {{ 0 }}",
        "ashr": "if {0} & {H} != 0 {{ {M} & !((!{0} & {M}) >> {1}.min({L})) }} else {{ {0} >> {1}.min({L}) }}",
        "eq": "u8::from({0} == {1})",
        "ult": "u8::from({0} < {1})",
        "ule": "u8::from({0} <= {1})",
        "slt": "u8::from({0} ^ {H} < {1} ^ {H})",
        "sle": "u8::from({0} ^ {H} <= {1} ^ {H})",
        "umin": "{0}.min({1})",
        "umax": "{0}.max({1})",
        "smin": "if {0} ^ {H} < {1} ^ {H} {{ {0} }} else {{ {1} }}",
        "smax": "if {0} ^ {H} < {1} ^ {H} {{ {1} }} else {{ {0} }}",
        "ite": "if {0} != 0 {{ {1} }} else {{ {2} }}",
    }

    def head(self, comment: Sequence[str]) -> list[str]:
        return [f"//! {line}".rstrip() for line in comment]

    def literal(self, word: int) -> str:
        return f"{word}u8"

    def function(self, function: Function) -> list[str]:
        steps, result = self.steps(function)
        names = [name if _uses(function.term, place) else f"_{name}" for place, name in enumerate(function.params)]
        params = ", ".join(f"{name}: u8" for name in names)
        out = ["", *(f"/// {line}" for line in function.meaning), f"pub fn {function.name}({params}) -> u8 {{"]
        out += [f"    let {name}: u8 = {text};" for name, text in steps]
        return [*out, f"    {result}", "}"]

    def search(self, name: str, params: Sequence[str], meaning: str, member: str) -> list[str]:
        typed = ", ".join(f"{param}: u8" for param in params)
        search = f"(0..={self.masks['M']}u8).any(|c| {member}({', '.join(params)}, c) != 0)"
        return ["", f"/// {meaning}", f"pub fn {name}({typed}) -> u8 {{", f"    u8::from(!{search})", "}"]


class Python(Language):
    """Python 3."""

    by_constant = {**Language.by_constant, "udiv": "{0} // {1}"}
    forms = {
        "not": "{0} ^ {M}",
        "neg": "-{0} & {M}",
        "and": "{0} & {1}",
        "or": "{0} | {1}",
        "xor": "{0} ^ {1}",
        "add": "({0} + {1}) & {M}",
        "sub": "({0} - {1}) & {M}",
        "mul": "({0} * {1}) & {M}",
        "udiv": "{0} // {1} if {1} else {M}",
        "urem": "{0} % {1} if {1} else {0}",
        "shl": "({0} << {1}) & {M} if {1} < {W} else 0",
        "lshr": "{0} >> {1}",
        "ashr": "((({0} ^ {H}) - {H}) >> {1}) & {M}",
        "eq": "int({0} == {1})",
        "ult": "int({0} < {1})",
        "ule": "int({0} <= {1})",
        "slt": "int({0} ^ {H} < {1} ^ {H})",
        "sle": "int({0} ^ {H} <= {1} ^ {H})",
        "umin": "min({0}, {1})",
        "umax": "max({0}, {1})",
        "smin": "{0} if {0} ^ {H} < {1} ^ {H} else {1}",
        "smax": "{1} if {0} ^ {H} < {1} ^ {H} else {0}",
        "ite": "{1} if {0} else {2}",
    }

    def head(self, comment: Sequence[str]) -> list[str]:
        return ['"""' + comment[0], *(line.rstrip() for line in comment[1:]), '"""']

    def function(self, function: Function) -> list[str]:
        steps, result = self.steps(function)
        params = ", ".join(f"{name}: int" for name in function.params)
        doc = [f"    {line}" for line in function.meaning]
        doc[0] = '    """' + doc[0].strip()
        doc[-1] += '"""'
        return [
            "",
            "",
            f"def {function.name}({params}) -> int:",
            *doc,
            *(f"    {n} = {t}" for n, t in steps),
            f"    return {result}",
        ]

    def search(self, name: str, params: Sequence[str], meaning: str, member: str) -> list[str]:
        typed = ", ".join(f"{param}: int" for param in params)
        search = f"any({member}({', '.join(params)}, c) for c in range({ones(self.width) + 1}))"
        return ["", "", f"def {name}({typed}) -> int:", f'    """{meaning}"""', f"    return int(not {search})"]


def _uses(term: Term, index: int) -> bool:
    return any(part == Var(index) for part in parts_of([term]))


LANGUAGES: dict[str, type[Language]] = {"c": C, "rust": Rust, "python": Python}
