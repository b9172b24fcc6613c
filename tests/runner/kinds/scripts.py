"""A script of the shell, of a case's own or read from README, in a folder that looks like the top of the repository."""

from __future__ import annotations

import os
import re
import shutil
import tempfile
from dataclasses import dataclass
from pathlib import Path

from ..process import Bench, Ended, run
from ..wanted import Wanted

BUILT = Path("crates/amurth/out/amurth")
_MARKED = re.compile(r"^<!-- run: (?P<name>\S+) -->\n\n(?P<code>(?:    .*\n)+)", re.MULTILINE)


@dataclass(frozen=True)
class Script:
    """The shell runs these lines on an input, with `amurth` on the path and the folder `examples` at hand."""

    lines: str
    text: bytes
    wanted: Wanted

    def difference(self, bench: Bench) -> str | None:
        """How the script's output and status differ from what is wanted."""
        return self.wanted.difference(shell(bench, self.lines, self.text))


def shell(bench: Bench, lines: str, text: bytes) -> Ended:
    """Runs lines of the shell in a new folder that looks like the top of the repository."""
    with tempfile.TemporaryDirectory(dir=bench.scratch) as made:
        top = Path(made)
        built = top / BUILT
        built.parent.mkdir(parents=True)
        built.symlink_to(bench.program)
        if (bench.top / "examples").is_dir():
            shutil.copytree(bench.top / "examples", top / "examples")
        environment = os.environ | {"PATH": f"{built.parent}:{os.environ['PATH']}", "LC_ALL": "C"}
        return run(["sh", "-c", lines], text, folder=top, environment=environment)


def marked_lines(readme: str) -> dict[str, str]:
    """The lines of code that README marks to be run, by their names."""
    return {found["name"]: re.sub(r"^    ", "", found["code"], flags=re.M) for found in _MARKED.finditer(readme)}
