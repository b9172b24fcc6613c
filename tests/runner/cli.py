"""The command line: which program, which cases, and how many side by side."""

from __future__ import annotations

import argparse
import multiprocessing
import os
import sys
import tempfile
from collections.abc import Sequence
from pathlib import Path

from .blocks import BadCase
from .cases import Case, read_cases
from .kinds.runs import Run
from .process import Bench
from .report import Report

TOP = Path(__file__).resolve().parents[2]
BUILT = TOP / "crates/amurth/out/amurth"


def main(arguments: Sequence[str] | None = None) -> int:
    """Runs the cases, and answers the exit status."""
    options = _options(arguments)
    try:
        cases = [case for case in read_cases(options.cases, TOP) if _is_chosen(case, options.only)]
    except BadCase as bad:
        print(bad, file=sys.stderr)
        return 2
    if options.list:
        for case in cases:
            print(f"{case.place}: {case.name}")
        return 0
    if not options.program.is_file():
        print(f"no program at {options.program}: rt ci builds it", file=sys.stderr)
        return 2
    return _run_all(cases, options.program.resolve(), options.jobs)


def _options(arguments: Sequence[str] | None) -> argparse.Namespace:
    parser = argparse.ArgumentParser(prog="tests/run", description="Runs the program on the cases of tests/cases.")
    parser.add_argument("program", nargs="?", type=Path, default=BUILT, help="the program, else the built one")
    parser.add_argument("--cases", type=Path, default=TOP / "tests/cases", help="the folder of the case files")
    parser.add_argument("--only", metavar="TEXT", help="only cases whose place and name hold this text")
    parser.add_argument("--jobs", type=int, default=len(os.sched_getaffinity(0)), help="runs side by side")
    parser.add_argument("--list", action="store_true", help="list the cases and run none")
    return parser.parse_args(arguments)


def _is_chosen(case: Case, text: str | None) -> bool:
    return text is None or text in f"{case.place}: {case.name}"


def _longest_first(cases: list[Case]) -> list[int]:
    """The cases' numbers, with those first that run the program many times."""
    return sorted(range(len(cases)), key=lambda number: isinstance(cases[number].kind, Run))


def _run_all(cases: list[Case], program: Path, jobs: int) -> int:
    """Runs the cases in processes of their own, so that a case may set limits before its program starts."""
    report = Report(len(cases))
    with tempfile.TemporaryDirectory() as scratch:
        bench = Bench(program, TOP, Path(scratch))
        with multiprocessing.get_context("fork").Pool(jobs, _begin, (cases, bench)) as pool:
            for number, difference in pool.imap_unordered(_one, _longest_first(cases)):
                report.add(cases[number], difference)
    return report.end()


_given: tuple[list[Case], Bench]


def _begin(cases: list[Case], bench: Bench) -> None:
    global _given
    _given = (cases, bench)


def _one(number: int) -> tuple[int, str | None]:
    cases, bench = _given
    return number, cases[number].kind.difference(bench)
