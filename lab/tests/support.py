"""What the tests share: short sources, and the program where it is there."""

from __future__ import annotations

import sys
import unittest
from pathlib import Path

from amurth_lab.parser import read_text
from amurth_lab.program import Program, find_program
from amurth_lab.questions import Setting
from amurth_lab.source import LabError
from amurth_lab.syntax import LabFile

FAKE = Path(__file__).with_name("fake_amurth.py")

ADD = """\
# Sums of unsigned ranges.
domain u-interval
operation add(x, y) = x + y
widths 2, 3
candidate careful {
  let over = x.hi + y.hi < x.hi
  lo = over ? 0 : x.lo + y.lo
  hi = over ? ones : x.hi + y.hi
}
candidate naive { lo = x.lo + y.lo; hi = x.hi + y.hi }
grammar {
  lo = Same ? x.lo + y.lo : 0 | 0
  hi = Same ? x.hi + y.hi : ones | ones
  Same = carry(x.lo, y.lo) == carry(x.hi, y.hi) | !carry(x.hi, y.hi)
}
expect sound careful
expect unsound naive
"""


def source(text: str) -> LabFile:
    """A source of a test."""
    return read_text(text, "test.lab")


def setting(text: str, width: int) -> Setting:
    """A source of a test at a width."""
    return Setting(source(text), width)


def program() -> Program:
    """The built program; the test is passed over where it isn't there."""
    try:
        return Program(find_program(None), 60)
    except LabError as error:
        raise unittest.SkipTest("the program isn't built") from error


def fake(folder: Path, behaviour: str) -> Path:
    """A program in a folder that behaves as a word says; see fake_amurth.py."""
    path = folder / f"amurth-{behaviour}"
    path.write_text(f'#!/bin/sh\nexec {sys.executable} -I {FAKE} {behaviour} "$@"\n')
    path.chmod(0o755)
    return path
