"""What needs the built program; passed over where it isn't there."""

from __future__ import annotations

import random
import tempfile
import unittest
from itertools import product
from pathlib import Path

from amurth_lab.asking import Answer, Asker
from amurth_lab.certificates import read_list
from amurth_lab.judging import judge
from amurth_lab.optimal import measure
from amurth_lab.program import Program
from amurth_lab.questions import Setting
from amurth_lab.reports import judgement_lines
from amurth_lab.source import LabError
from amurth_lab.story import Story
from amurth_lab.terms import Term, evaluator
from amurth_lab.verdicts import Soundness, Standing
from tests.support import ADD, program, source

# Over one input: the domain, and what its fields are called.
DOMAINS = {
    "u-interval": ("x.lo", "x.hi"),
    "s-interval": ("x.lo", "x.hi"),
    "known-bits": ("x.zeros", "x.ones"),
    "parity": ("x.p",),
    "congruence": ("x.m", "x.r"),
    "w-interval": ("x.first", "x.last"),
}
INFIX = ("+", "-", "&", "^", "*", "<<", ">>", ">>>", "<", "<=s", "==", "!=", "/", "%", "&&")
CALLS = ("umin", "umax", "smin", "smax", "sadd_sat", "mulhu", "avg_floor", "sdiv")


def random_text(rng: random.Random, names: tuple[str, ...], size: int) -> str:
    """A random term in the source language."""
    if size <= 1:
        return rng.choice([*names, *names, "ones", "msb", "0", "1"])
    left, right = random_text(rng, names, size // 2), random_text(rng, names, size - 1 - size // 2)
    kind = rng.randrange(5)
    if kind == 0:
        return f"{rng.choice(CALLS)}({left}, {right})"
    if kind == 1:
        return f"({rng.choice('!~-')}{left})"
    if kind == 2:
        return f"({rng.choice(names)} ? {left} : {right})"
    return f"({left} {rng.choice(INFIX)} {right})"


def random_source(rng: random.Random) -> str:
    """A random source over one input; each field has a term that keeps the grammar from having no sound one."""
    domain, names = rng.choice(list(DOMAINS.items()))
    tops = {"lo": "0", "hi": "ones", "p": "3", "first": "0", "last": "ones"}
    if domain == "s-interval":
        tops = {"lo": "msb", "hi": "max_s"}
    lines = [f"domain {domain}", f"operation f(x) = {random_text(rng, ('x',), 5)}", "grammar {"]
    for name in names:
        field = name[2:]
        drawn = " | ".join(random_text(rng, names, rng.randrange(1, 7)) for _ in range(3))
        lines.append(f"  {field} = {drawn} | {tops.get(field, '0')}")
    return "\n".join([*lines, "}", ""])


def tuples(setting: Setting) -> list[tuple[Term, ...]]:
    """All tuples of a grammar's terms, in the order of their trees."""
    problem = setting.synthesis()
    return list(product(*([getattr(p, "term") for p in problem.rules[start]] for start in problem.starts)))


def best_by_force(setting: Setting) -> list[tuple[Term, ...]]:
    """All best tuples, by the workbench's own evaluation at all inputs."""
    domain, width = setting.domain, setting.width
    inputs = domain.values(width)
    evaluate = setting.evaluate
    words = range(1 << width)
    needed = [
        sum({1 << evaluate.operation((c,)) for c in words if domain.members(width, v) >> c & 1}) for v in inputs
    ]
    sound: list[tuple[tuple[Term, ...], list[int]]] = []
    for terms in tuples(setting):
        values = evaluator(width, terms)
        results = [domain.members(width, values(v)) for v in inputs]
        if all(image & ~result == 0 for image, result in zip(needed, results)):
            sound.append((terms, results))
    closer = lambda a, b: a != b and all(x & ~y == 0 for x, y in zip(a, b))  # noqa: E731
    return [terms for terms, mine in sound if not any(closer(other, mine) for _, other in sound)]


class WithProgram(unittest.TestCase):
    def setUp(self) -> None:
        self.program: Program = program()
        folder = tempfile.TemporaryDirectory()
        self.addCleanup(folder.cleanup)
        self.asker = Asker(self.program, Path(folder.name))

    def test_random_sources_are_listed_as_they_are_evaluated(self) -> None:
        rng = random.Random(6)
        for number in range(100):
            text = random_source(rng)
            with self.subTest(number=number, text=text):
                try:
                    setting = Setting(source(text), rng.choice((2, 2, 3)))
                    problem = setting.synthesis()
                except LabError as error:
                    self.assertIn("core allows", str(error))
                    continue
                if any(isinstance(getattr(p, "op", None), str) for rule in problem.rules.values() for p in rule):
                    continue
                written = self.program.run("list", problem.text())
                self.assertEqual(written.status, 0, written.output)
                found = read_list(written.output, len(problem.starts))
                self.assertEqual([str(t) for t in found], [str(t) for t in best_by_force(setting)])

    def test_a_wrong_transformer_is_refuted_with_a_small_counterexample(self) -> None:
        found = judge(source(ADD), 3, self.asker)
        naive = found.soundness["naive"]
        assert isinstance(naive, Soundness) and naive.counterexample is not None and found.setting is not None
        example, setting = naive.counterexample, found.setting
        self.assertFalse(naive.is_sound)
        self.assertTrue(setting.evaluate.is_case(example.fields, example.words))
        self.assertFalse(setting.domain.has_member(3, example.result, example.value))
        text = "\n".join(judgement_lines(found))
        self.assertIn("careful at width 3: sound (certificate ", text)
        self.assertIn("naive at width 3: UNSOUND", text)
        self.assertIn("careful at width 3: not best: this one in the grammar is sound and closer", text)
        self.assertTrue(found.is_as_expected)

    def test_best_closer_and_incomparable(self) -> None:
        head = "domain u-interval\noperation neg(x) = -x\n"
        ends = "candidate ends {{ lo = 0; hi = {} }}\n"
        grammar = "grammar {\n  lo = 0\n  hi = x.lo ? -x.lo : ones | x.hi ? ones : 0 | ones\n}\nexpect best ends\n"
        for high, kind, is_expected in (
            ("x.lo ? -x.lo : ones", ("best", "incomparable"), True),
            ("x.hi ? ones : 0", ("best", "incomparable"), True),
            ("ones", ("closer",), False),
        ):
            with self.subTest(high=high):
                found = judge(source(head + ends.format(high) + grammar), 3, self.asker)
                standing = found.standings["ends"]
                assert isinstance(standing, Standing)
                self.assertIn(standing.kind, kind)
                self.assertEqual(found.is_as_expected, is_expected)
                if standing.kind == "incomparable":
                    self.assertTrue(standing.is_best_by_list)

    def test_feasible_inputs_alone_count(self) -> None:
        text = (
            "domain u-interval\noperation refined(x, y) = x\nassume x < y\n{}"
            "candidate tight {{ lo = x.lo; hi = umin(x.hi, y.hi - 1) }}\n"
            "grammar {{\n  lo = x.lo\n  hi = umin(x.hi, y.hi - 1) | umin(x.hi, y.hi) | x.hi\n}}\nexpect best tight\n"
        )
        with_term = judge(source(text.format("feasible x.lo < y.hi\n")), 3, self.asker)
        self.assertTrue(with_term.is_as_expected, judgement_lines(with_term))
        wrong = judge(source(text.format("feasible x.lo + 1 < y.hi\n")), 3, self.asker)
        tight = wrong.soundness["tight"]
        assert isinstance(tight, Soundness)
        self.assertFalse(tight.is_sound)
        self.assertIn("the `feasible` term is false at these inputs", "\n".join(judgement_lines(wrong)))

    def test_no_sound_transformer(self) -> None:
        text = "domain parity\noperation inc(x) = x + 1\ngrammar { p = x.p | 1 }\nexpect none\n"
        self.assertTrue(judge(source(text), 2, self.asker).is_as_expected)

    def test_a_leaf_that_was_cut_keeps_its_verdict(self) -> None:
        big = " & ".join(f"((x.zeros * {i % 4} + {i % 7}) | ~x.ones)" for i in range(20))
        text = f"domain known-bits\noperation f(x) = x\ncandidate c {{\n  zeros = x.zeros & ({big})\n  ones = 0\n}}\n"
        found = judge(source(text), 3, self.asker)
        sound = found.soundness["c"]
        assert isinstance(sound, Soundness) and found.setting is not None
        self.assertEqual(sound.is_sound, measure(found.setting, sound.transformer.whole).missed == 0)
        self.assertGreater(sound.answer.certificate.problem.depth, 1)

    def test_a_synthesis_is_told_and_measured(self) -> None:
        setting = Setting(source(ADD), 3)
        answer = self.asker.ask(setting.synthesis(), "add")
        self.assertIsInstance(answer, Answer)
        text = "\n".join(Story(answer.certificate, True).lines())
        self.assertIn("so it is proved that", text)
        found = measure(setting, answer.certificate.terms)
        self.assertEqual((found.missed, found.optimal, found.feasible), (0, 1296, 1296))


if __name__ == "__main__":
    unittest.main()
