"""Functions that are written from certificates, compared with the terms' values."""

from __future__ import annotations

import random
import shutil
import subprocess
import tempfile
import unittest
from itertools import product
from pathlib import Path
from typing import Callable

from amurth_lab.certificates import Certificate
from amurth_lab.domains import DOMAINS
from amurth_lab.emit import emit
from amurth_lab.problem import Problem
from amurth_lab.source import LabError
from amurth_lab.terms import Apply, Const, Term, Var, evaluator
from amurth_lab.words import ARITY


def certificate(domain: str, width: int, terms: tuple[Term, ...], answer: str = "best") -> Certificate:
    """A certificate with some terms, of an operation of one input."""
    problem = Problem(width, 1, Apply("not", (Var(0),)), None, DOMAINS[domain], (), 1, 1, 1, {})
    return Certificate(2, problem, answer, terms)


def all_operators(rng: random.Random, count: int) -> Term:
    """A term over so many fields in which each operator stands."""
    term: Term = Var(0)
    for op, arity in sorted(ARITY.items(), key=lambda pair: rng.random()):
        others = [rng.choice([Var(rng.randrange(count)), Const(rng.randrange(4)), term]) for _ in range(arity - 1)]
        term = Apply(op, (Apply("xor", (term, Var(rng.randrange(count)))), *others))
    return term


CASES = [
    ("u-interval", 2), ("u-interval", 3), ("s-interval", 3), ("known-bits", 3), ("parity", 4), ("congruence", 3),
    ("w-interval", 2), ("u-interval+known-bits", 2), ("w-interval+congruence", 2), ("known-bits", 8),
]  # fmt: skip
Table = list[int]


class Emit(unittest.TestCase):
    def setUp(self) -> None:
        rng = random.Random(4)
        self.cases = []
        for name, width in CASES:
            fields = DOMAINS[name].fields
            self.cases.append(certificate(name, width, tuple(all_operators(rng, len(fields)) for _ in fields)))
        self.folder = tempfile.TemporaryDirectory()
        self.addCleanup(self.folder.cleanup)

    def inputs(self, cert: Certificate) -> list[tuple[int, ...]]:
        count, width = len(cert.problem.domain.fields), cert.problem.width
        if count * width <= 8:
            return list(product(range(1 << width), repeat=count))
        rng = random.Random(5)
        return [tuple(rng.randrange(1 << width) for _ in range(count)) for _ in range(300)]

    def expected(self, cert: Certificate) -> Table:
        """The terms' values, and emptiness, at each input one after the other."""
        domain, width = cert.problem.domain, cert.problem.width
        values = evaluator(width, cert.terms)
        out: Table = []
        for fields in self.inputs(cert):
            out += [*values(fields), int(domain.members(width, fields) == 0)]
        return out

    def calls(self, cert: Certificate, form: Callable[[str, str], str]) -> list[str]:
        names = [f"t_{field}" for field in cert.problem.domain.fields] + ["t_is_empty"]
        return [form(name, ", ".join(str(f) for f in fields)) for fields in self.inputs(cert) for name in names]

    def test_python(self) -> None:
        for cert in self.cases:
            scope: dict[str, Callable[..., int]] = {}
            exec(emit(cert, "python", "t", True), scope)
            found = [eval(call, scope) for call in self.calls(cert, lambda name, args: f"{name}({args})")]
            self.assertEqual(found, self.expected(cert), cert.problem.domain.name)

    def run_program(self, compiler: list[str], source: str, suffix: str) -> Table:
        path = Path(self.folder.name, "t" + suffix)
        path.write_text(source)
        program = Path(self.folder.name, "t")
        subprocess.run([*compiler, str(path), "-o", str(program)], check=True, capture_output=True)
        return [int(word) for word in subprocess.run([program], check=True, capture_output=True).stdout.split()]

    def test_c(self) -> None:
        compiler = shutil.which("cc") or shutil.which("gcc") or shutil.which("clang")
        if compiler is None:
            self.skipTest("there is no C compiler")
        for cert in self.cases:
            calls = self.calls(cert, lambda name, args: f'printf("%d\\n", {name}({args}));')
            body = "\n".join(calls)
            text = f"#include <stdio.h>\n{emit(cert, 'c', 't', True)}\nint main(void) {{\n{body}\nreturn 0; }}\n"
            flags = ["-std=c99", "-Wall", "-Wextra", "-Wno-type-limits", "-Werror", "-O0"]
            self.assertEqual(
                self.run_program([compiler, *flags], text, ".c"), self.expected(cert), cert.problem.domain.name
            )

    def test_rust(self) -> None:
        compiler = shutil.which("rustc")
        if compiler is None or subprocess.run([compiler, "--version"], capture_output=True, check=False).returncode:
            self.skipTest("there is no Rust compiler")
        for cert in self.cases[3:4]:
            body = "\n".join(self.calls(cert, lambda name, args: f'println!("{{}}", {name}({args}));'))
            text = f"{emit(cert, 'rust', 't', True)}\nfn main() {{\n{body}\n}}\n"
            self.assertEqual(
                self.run_program([compiler, "--edition=2021", "-Awarnings"], text, ".rs"), self.expected(cert)
            )

    def test_a_certificate_without_a_transformer_is_refused(self) -> None:
        with self.assertRaisesRegex(LabError, "no transformer to write"):
            emit(certificate("parity", 2, (), "none"), "c", "t", True)


if __name__ == "__main__":
    unittest.main()
