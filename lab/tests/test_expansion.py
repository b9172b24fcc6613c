"""Sources are expanded to hand-written texts of the core."""

from __future__ import annotations

import random
import unittest

from amurth_lab.questions import Setting
from amurth_lab.simplify import balanced, ordered, simplify
from amurth_lab.terms import Apply, Const, Term, Var, evaluator, nodes, show
from amurth_lab.words import ARITY
from tests.support import ADD, setting, source

KNOWN = "domain known-bits\noperation f(x, y) = x ^ y\n"


def term(text: str, width: int = 4) -> str:
    """The core's text of a term over the words x and y."""
    return show(setting(f"domain parity\noperation f(x, y) = {text}\n", width).operation, "x")


class Terms(unittest.TestCase):
    def test_operators_have_the_meaning_and_the_precedence_of_c(self) -> None:
        pairs = {
            "x + y * 3": "(add x0 (mul x1 3))",
            "x - y - 1": "(sub (sub x0 x1) 1)",
            "x << 1 + y": "(shl x0 (add 1 x1))",
            "x & y == 3": "(and x0 (eq x1 3))",
            "x | y ^ 1 & y": "(or x0 (xor x1 (and 1 x1)))",
            "x < y": "(ult x0 x1)",
            "x > y": "(ult x1 x0)",
            "x >=s y": "(sle x1 x0)",
            "x <s y": "(slt x0 x1)",
            "x >>> 1": "(ashr x0 1)",
            "x / y % 3": "(urem (udiv x0 x1) 3)",
            "x != y": "(eq (eq x0 x1) 0)",
            "!x": "(eq x0 0)",
            "~x + -y": "(add (not x0) (neg x1))",
            "x < y && x": "(and (ult x0 x1) (ult 0 x0))",
            "x < 1 || y < 1": "(or (ult x0 1) (ult x1 1))",
            "x ? y : x ? 1 : 2": "(ite x0 x1 (ite x0 1 2))",
        }
        for text, expected in pairs.items():
            with self.subTest(text=text):
                self.assertEqual(term(text), expected)

    def test_calls_and_the_form_of_the_core_mean_the_same(self) -> None:
        for text in (
            "umin(add(x, y), ~x)",
            "(umin (add x y) (not x))",
            "(umin (add x y) ~x)",
            "umin((add x y), not(x))",
        ):
            with self.subTest(text=text):
                self.assertEqual(term(text), "(umin (add x0 x1) (not x0))")
        self.assertEqual(term("(umin(x, y) + 1)"), "(add (umin x0 x1) 1)")
        self.assertEqual(term("(not (and x y))"), "(not (and x0 x1))")
        self.assertEqual(term("not (and x y)"), "(not (and x0 x1))")
        self.assertEqual(term("(not(x) + 1)"), "(add (not x0) 1)")

    def test_constants(self) -> None:
        pairs = {
            "0b101": "5",
            "0xf": "15",
            "-1": "15",
            "-8": "8",
            "ones": "15",
            "msb": "8",
            "width": "4",
            "half": "2",
        }
        more = {"max_s": "7", "min_s": "8", "lowhalf": "3", "ones / 3": "5", "width - 1": "3", "1 << half": "4"}
        for text, expected in {**pairs, **more}.items():
            with self.subTest(text=text):
                self.assertEqual(term(text), expected)

    def test_words_follow_from_the_width(self) -> None:
        self.assertEqual([term("x + msb", w) for w in (2, 8)], ["(add x0 2)", "(add x0 128)"])
        self.assertEqual(term("ones", 8), "255")

    def test_lets_and_macros_are_expanded_where_they_are_used(self) -> None:
        text = (
            "domain u-interval\noperation f(x) = inc(top) & x\nlet top = ones - 1\nmacro inc(a) = a + 1\n"
            "let low = x.lo\ncandidate c {\n let two = low + low\n lo = two\n hi = inc(x.hi)\n}\n"
        )
        at = setting(text, 4)
        self.assertEqual(show(at.operation, "x"), "(and 15 x0)")
        shown = [show(t, "f") for t in at.transformer(at.file.candidates[0]).terms]
        self.assertEqual(shown, ["(add f0 f0)", "(add f1 1)"])


class Problems(unittest.TestCase):
    def test_a_candidate_is_a_grammar_of_its_own(self) -> None:
        at = setting(ADD, 3)
        expected = """\
amurth 1
width 3
operation 2 (add x0 x1)
domain u-interval
start Lo Hi
depth 1
turns 200
conflicts 200000
rule Lo (ite (ult (add f1 f3) f1) 0 (add f0 f2))
rule Hi (ite (ult (add f1 f3) f1) 7 (add f1 f3))
end
"""
        self.assertEqual(at.soundness(at.transformer(at.file.candidates[0])).text(), expected)

    def test_nonterminals_in_terms_become_rules_and_levels(self) -> None:
        expected = """\
amurth 1
width 2
operation 2 (add x0 x1)
domain u-interval
start Lo Hi
depth 2
turns 200
conflicts 200000
rule Lo (ite Same A1 A2) 0
rule Hi (ite Same A3 A4) 3
rule Same (eq (ult (add f0 f2) f0) (ult (add f1 f3) f1)) (eq (ult (add f1 f3) f1) 0)
rule A1 (add f0 f2)
rule A2 0
rule A3 (add f1 f3)
rule A4 3
end
"""
        self.assertEqual(setting(ADD, 2).synthesis().text(), expected)

    def test_a_nonterminal_alone_gives_its_alternatives(self) -> None:
        text = f"{KNOWN}grammar {{\n  zeros = Z | 0\n  ones = Z\n  Z = x.zeros | (Z & y.zeros)\n  depth 2\n}}\n"
        problem = setting(text, 4).synthesis()
        self.assertIn(
            "rule Zeros 0 f0 (and Z A1)\nrule Ones f0 (and Z A1)\nrule Z f0 (and Z A1)\nrule A1 f2\n", problem.text()
        )
        self.assertEqual((problem.depth, problem.starts), (2, ("Zeros", "Ones")))

    def test_without_a_grammar_the_candidates_entries_are_mixed(self) -> None:
        problem = Setting(source(ADD.split("grammar")[0]), 3).synthesis()
        self.assertEqual((problem.trees(), len(problem.rules["Lo"]), len(problem.rules["Hi"])), (4, 2, 2))

    def test_feasibility_is_put_around_the_starts(self) -> None:
        text = "domain u-interval\noperation f(x, y) = x\nassume x < y\nfeasible x.lo < y.hi\n"
        leaves = "grammar {\n  lo = x.lo\n  hi = x.hi | umin(x.hi, y.hi - 1)\n}\n"
        rules = setting(text + leaves, 4).synthesis().text()
        self.assertIn("assume (ult x0 x1)\n", rules)
        self.assertIn("rule Lo (ite (ult f0 f3) f0 1)\n", rules)
        self.assertIn("rule Hi (ite (ult f0 f3) f1 0) (ite (ult f0 f3) (umin f1 (sub f3 1)) 0)\n", rules)
        nodes_ = "grammar {\n  lo = x.lo\n  hi = umin(A, A)\n  A = x.hi | y.hi\n}\n"
        wrapped = setting(text + nodes_, 4).synthesis()
        self.assertIn("start Lo Hi2\ndepth 3\n", wrapped.text())
        self.assertIn("rule Hi2 (ite A1 Hi A2)\n", wrapped.text())

    def test_a_leaf_that_is_too_big_is_cut_into_nodes(self) -> None:
        big = " + ".join(f"(x.lo * {i % 4} ^ y.hi)" for i in range(40))
        text = f"domain u-interval\noperation f(x, y) = x\ncandidate c {{\n  lo = 0\n  hi = {big}\n}}\n"
        at = setting(text, 3)
        problem = at.soundness(at.transformer(at.file.candidates[0]))
        self.assertEqual(problem.trees(), 1)
        self.assertGreater(problem.depth, 1)
        self.assertIn("is cut into", problem.notes[0])
        problem.check_limits()


class Equal(unittest.TestCase):
    """What is done to terms leaves their values as they are."""

    def random_term(self, rng: random.Random, size: int) -> Term:
        if size <= 1:
            return rng.choice([Var(0), Var(1), Const(0), Const(1), Const(7), Const(rng.randrange(8))])
        op = rng.choice(list(ARITY))
        return Apply(op, tuple(self.random_term(rng, size // ARITY[op]) for _ in range(ARITY[op])))

    def test_simplified_balanced_and_ordered_terms_are_equal(self) -> None:
        rng = random.Random(3)
        for _ in range(600):
            before = self.random_term(rng, rng.randrange(2, 40))
            short = simplify(3, before)
            self.assertLessEqual(nodes(short), nodes(before))
            values = evaluator(3, [before, short, balanced(before), ordered(before)])
            for x in range(8):
                for y in range(8):
                    self.assertEqual(len(set(values((x, y)))), 1, (show(before, "f"), x, y))


if __name__ == "__main__":
    unittest.main()
