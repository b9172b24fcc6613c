"""Each built-in macro against its meaning in whole numbers: at all words of small widths, and at some of others."""

from __future__ import annotations

import random
import unittest
from itertools import product
from typing import Callable, Iterable

from amurth_lab.macros import BUILT_IN, MacroError
from amurth_lab.terms import Apply, Var, evaluator
from amurth_lab.words import ARITY, apply, ones, signed


def _div(a: int, b: int) -> int:
    return -(-a // b) if (a < 0) != (b < 0) else a // b


def _sdiv(w: int, a: int, b: int) -> int:
    x, y = signed(w, a), signed(w, b)
    return _div(x, y) if y else (1 if x < 0 else -1)


def _srem(w: int, a: int, b: int) -> int:
    x, y = signed(w, a), signed(w, b)
    return x - y * _div(x, y) if y else x


def _clamp(w: int, number: int) -> int:
    return max(-(1 << (w - 1)), min(ones(w) >> 1, number))


def _over(w: int, number: int) -> bool:
    return number != _clamp(w, number)


def _bits(w: int, a: int) -> str:
    return f"{a:0{w}b}"


def _shifted(w: int, a: int, b: int, n: int) -> int:
    return ((a << w | b) << (n % w)) >> w & ones(w)


MEANING: dict[str, Callable[..., int]] = {
    "sdiv": _sdiv,
    "srem": _srem,
    "abs": lambda w, a: abs(signed(w, a)),
    "popcount": lambda w, a: a.bit_count(),
    "ctlz": lambda w, a: w - a.bit_length(),
    "cttz": lambda w, a: w if a == 0 else len(_bits(w, a)) - len(_bits(w, a).rstrip("0")),
    "rotl": lambda w, a, n: _shifted(w, a, a, n),
    "rotr": lambda w, a, n: _shifted(w, a, a, -n % w),
    "fshl": _shifted,
    "fshr": lambda w, a, b, n: (a << w | b) >> (n % w),
    "uadd_sat": lambda w, a, b: min(ones(w), a + b),
    "usub_sat": lambda w, a, b: max(0, a - b),
    "sadd_sat": lambda w, a, b: _clamp(w, signed(w, a) + signed(w, b)),
    "ssub_sat": lambda w, a, b: _clamp(w, signed(w, a) - signed(w, b)),
    "mulhu": lambda w, a, b: a * b >> w,
    "mulhs": lambda w, a, b: signed(w, a) * signed(w, b) >> w,
    "sext": lambda w, a, n: signed(n, a & ones(n)) if 0 < n <= w else 0,
    "zext": lambda w, a, n: a & ones(n) if n <= w else a,
    "carry": lambda w, a, b: a + b > ones(w),
    "borrow": lambda w, a, b: a < b,
    "uadd_overflow": lambda w, a, b: a + b > ones(w),
    "usub_overflow": lambda w, a, b: a < b,
    "umul_overflow": lambda w, a, b: a * b > ones(w),
    "sadd_overflow": lambda w, a, b: _over(w, signed(w, a) + signed(w, b)),
    "ssub_overflow": lambda w, a, b: _over(w, signed(w, a) - signed(w, b)),
    "blsi": lambda w, a: a & -a,
    "smear": lambda w, a: ones(a.bit_length()),
    "avg_floor": lambda w, a, b: (a + b) // 2,
    "avg_ceil": lambda w, a, b: (a + b + 1) // 2,
    "bitreverse": lambda w, a: int(_bits(w, a)[::-1], 2),
    "bswap": lambda w, a: (a << w // 2 | a >> w // 2),
}
# Arguments of which only some numbers have a meaning.
COUNTS: dict[str, Callable[[int, tuple[int, ...]], bool]] = {
    "sext": lambda w, args: 0 < args[1] <= w,
    "zext": lambda w, args: args[1] <= w,
}


def _inputs(width: int, arity: int, rng: random.Random) -> Iterable[tuple[int, ...]]:
    if width * arity <= 10:
        return product(range(1 << width), repeat=arity)
    edge = (0, 1, 2, width - 1, width, width + 1, ones(width) >> 1, 1 << (width - 1), ones(width) - 1, ones(width))
    drawn = [tuple(rng.randrange(1 << width) for _ in range(arity)) for _ in range(400)]
    return [*product(edge, repeat=arity), *drawn]


class Macros(unittest.TestCase):
    def test_each_macro_has_its_meaning(self) -> None:
        rng = random.Random(1)
        self.assertEqual(set(MEANING), set(BUILT_IN))
        for name, macro in BUILT_IN.items():
            for width in range(2, 9):
                if name == "bswap" and width % 2:
                    continue
                with self.subTest(macro=name, width=width):
                    term = macro.build(width, *(Var(i) for i in range(macro.arity)))
                    values = evaluator(width, [term])
                    for args in _inputs(width, macro.arity, rng):
                        if COUNTS.get(name, lambda w, a: True)(width, args):
                            expected = int(MEANING[name](width, *args)) & ones(width)
                            self.assertEqual(values(args)[0], expected, args)

    def test_a_word_of_odd_width_has_no_halves_to_swap(self) -> None:
        with self.assertRaises(MacroError):
            BUILT_IN["bswap"].build(3, Var(0))

    def test_a_built_evaluator_agrees_with_the_operators(self) -> None:
        rng = random.Random(2)
        for op, arity in ARITY.items():
            for width in range(2, 9):
                values = evaluator(width, [Apply(op, tuple(Var(i) for i in range(arity)))])
                for args in _inputs(width, arity, rng):
                    self.assertEqual(values(args)[0], apply(op, width, args), (op, width, args))


if __name__ == "__main__":
    unittest.main()
