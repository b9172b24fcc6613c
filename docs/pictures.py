#!/usr/bin/env python3
"""Draws the pictures of `docs/`: the layers of crates, out of `crates.txt`, and the loop of a synthesis.

    python3 docs/pictures.py            writes docs/layers.svg and docs/loop.svg anew
    python3 docs/pictures.py --check    says which of them isn't as it would be written
"""

from __future__ import annotations

import argparse
import sys
from dataclasses import dataclass
from pathlib import Path

ROOT = Path(__file__).resolve().parent.parent

STYLE = """\
<style>
  text { font: 13px sans-serif; fill: #1f2328; text-anchor: middle; }
  .name { font-weight: bold; }
  .note { font-size: 12px; fill: #59636e; }
  rect { fill: #f6f8fa; stroke: #59636e; }
  .end { fill: #ddf4e4; }
  path { fill: none; stroke: #818b98; }
  .way { stroke: #1f2328; marker-end: url(#tip); }
  .tip { fill: #1f2328; stroke: none; }
  @media (prefers-color-scheme: dark) {
    text { fill: #f0f6fc; }
    .note { fill: #9198a1; }
    rect { fill: #212830; stroke: #9198a1; }
    .end { fill: #12361f; }
    path { stroke: #656c76; }
    .way { stroke: #f0f6fc; }
    .tip { fill: #f0f6fc; }
  }
</style>
<defs><marker id="tip" viewBox="0 0 8 8" refX="8" refY="4" markerWidth="8" markerHeight="8" orient="auto">
  <path class="tip" d="M0,0 L8,4 L0,8 z"/>
</marker></defs>
"""


def svg(width: int, height: int, title: str, parts: list[str]) -> str:
    """A whole picture of this size."""
    head = f'<svg xmlns="http://www.w3.org/2000/svg" viewBox="0 0 {width} {height}" width="{width}" height="{height}">'
    return "\n".join([head, f"<title>{title}</title>", STYLE + "\n".join(parts), "</svg>"]) + "\n"


# ---- the layers

BOX_WIDTH, BOX_HEIGHT, GAP, STEP, MARGIN = 96, 28, 14, 62, 12


def read_crates(text: str) -> dict[str, list[str]]:
    """The crates in order, each with the crates of this repository that it names; tests are left out."""
    lines = [line.split(":") for line in text.splitlines() if line.strip()]
    names = [name for name, _ in lines if not name.startswith("am_test_")]
    return {name: [below for below in rest.split() if below in names] for name, rest in lines if name in names}


def reachable(crates: dict[str, list[str]], name: str) -> set[str]:
    """All crates on which one stands, directly or not."""
    return {further for below in crates[name] for further in {below} | reachable(crates, below)}


def nearest(crates: dict[str, list[str]], name: str) -> list[str]:
    """The crates that one names and that no other of them stands on: the lines that are drawn."""
    further = {lower for below in crates[name] for lower in reachable(crates, below)}
    return [below for below in crates[name] if below not in further]


def layers(crates: dict[str, list[str]]) -> list[list[str]]:
    """Rows from the lowest up: a crate stands one row above the highest that it names."""
    heights: dict[str, int] = {}
    for name, below in crates.items():
        heights[name] = 1 + max((heights[other] for other in below), default=-1)
    rows: list[list[str]] = [[] for _ in range(1 + max(heights.values()))]
    for name, height in heights.items():
        rows[height].append(name)
    return rows


def places(crates: dict[str, list[str]]) -> dict[str, float]:
    """How far right the middle of each crate stands: near the middle of its neighbours, with no two overlapping."""
    rows = layers(crates)
    lines = {name: nearest(crates, name) for name in crates}
    around = {name: lines[name] + [other for other in crates if name in lines[other]] for name in crates}
    at = {name: float(k * (BOX_WIDTH + GAP)) for row in rows for k, name in enumerate(row)}
    for _ in range(40):
        for row in rows:
            wanted = {name: sum(at[other] for other in around[name]) / max(1, len(around[name])) for name in row}
            row.sort(key=lambda name: (wanted[name], name))
            spread(row, wanted, at)
    left = min(at.values())
    return {name: place - left for name, place in at.items()}


def spread(row: list[str], wanted: dict[str, float], at: dict[str, float]) -> None:
    """Gives a sorted row its places: as wanted, pushed right where two would overlap, and the whole row centred."""
    edge = float("-inf")
    for name in row:
        at[name] = edge = max(wanted[name], edge + BOX_WIDTH + GAP)
    shift = sum(wanted[name] - at[name] for name in row) / len(row)
    for name in row:
        at[name] += shift


def draw_layers(text: str) -> str:
    """The picture of the layers of a `crates.txt`."""
    crates = read_crates(text)
    rows = layers(crates)
    at = places(crates)
    low = {name: len(rows) - 1 - height for height, row in enumerate(rows) for name in row}
    x = {name: MARGIN + BOX_WIDTH // 2 + round(at[name]) for name in crates}
    y = {name: MARGIN + low[name] * STEP for name in crates}
    parts = []
    for name in crates:
        for below in nearest(crates, name):
            start, end = y[name] + BOX_HEIGHT, y[below]
            bend = (start + end) // 2
            parts.append(f'<path d="M{x[name]},{start} C{x[name]},{bend} {x[below]},{bend} {x[below]},{end}"/>')
    for name in crates:
        corner = f'x="{x[name] - BOX_WIDTH // 2}" y="{y[name]}"'
        parts.append(f'<rect {corner} width="{BOX_WIDTH}" height="{BOX_HEIGHT}" rx="5"/>')
        parts.append(f'<text x="{x[name]}" y="{y[name] + 19}">{name}</text>')
    width = max(x.values()) + BOX_WIDTH // 2 + MARGIN
    return svg(width, 2 * MARGIN + (len(rows) - 1) * STEP + BOX_HEIGHT, "The layers of crates", parts)


# ---- the loop


@dataclass(frozen=True)
class Box:
    """A box of the loop, with its middle, its lines and the class that colours it."""

    x: int
    y: int
    lines: tuple[str, ...]
    kind: str = "query"


BOXES = (
    Box(110, 50, ("fit", "is there any transformer?")),
    Box(380, 50, ("sound", "is it sound?")),
    Box(650, 50, ("precise", "is a closer one left?")),
    Box(380, 190, ("keep", "what can stay of the", "negative examples?")),
    Box(110, 190, ("none", "no transformer is sound"), "end"),
    Box(650, 190, ("best", "no sound one is closer"), "end"),
)

# A way's path, and what stands beside it with its place.
WAYS = (
    ("M200,42 L290,42", "transformer", 245, 34),
    ("M470,42 L560,42", "yes", 515, 34),
    ("M380,78 L380,155", "no: a positive example", 306, 112),
    ("M420,155 L420,78", "a transformer", 464, 140),
    ("M290,190 L200,190", "no sound one", 245, 182),
    ("M110,78 L110,162", "no", 96, 124),
    ("M650,78 L650,162", "no", 664, 124),
    ("M620,22 C600,-14 430,-14 410,22", "yes: a negative example, and the closer one", 515, -12),
)


def draw_loop() -> str:
    """The picture of the loop: queries, examples, and the two right ends."""
    parts = ['<g transform="translate(0,36)">']
    for path, note, x, y in WAYS:
        parts.append(f'<path class="way" d="{path}"/>')
        parts.append(f'<text class="note" x="{x}" y="{y}">{note}</text>')
    for box in BOXES:
        height = 18 + 18 * len(box.lines)
        corner = f'x="{box.x - 90}" y="{box.y - height // 2}"'
        parts.append(f'<rect class="{box.kind}" {corner} width="180" height="{height}" rx="5"/>')
        for k, line in enumerate(box.lines):
            kind = "name" if k == 0 else "line"
            parts.append(f'<text class="{kind}" x="{box.x}" y="{box.y - height // 2 + 22 + 18 * k}">{line}</text>')
    return svg(760, 276, "The loop of a synthesis", parts + ["</g>"])


def pictures() -> dict[Path, str]:
    """Each picture's file and what it has to hold."""
    text = (ROOT / "crates.txt").read_text(encoding="utf-8")
    return {ROOT / "docs" / "layers.svg": draw_layers(text), ROOT / "docs" / "loop.svg": draw_loop()}


def main(words: list[str] | None = None) -> int:
    """Writes the pictures, or with `--check` names those that differ."""
    parser = argparse.ArgumentParser(description="Draws docs/layers.svg and docs/loop.svg.")
    parser.add_argument("--check", action="store_true", help="write nothing, and name the pictures that differ")
    check = parser.parse_args(words).check
    stale = [path for path, text in pictures().items() if not path.is_file() or path.read_text("utf-8") != text]
    for path in stale:
        if check:
            print(f"{path.relative_to(ROOT)} isn't as docs/pictures.py draws it")
        else:
            path.write_text(pictures()[path], encoding="utf-8")
    return 1 if check and stale else 0


if __name__ == "__main__":
    sys.exit(main())
