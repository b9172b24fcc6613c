"""Small pictures in SVG: times by width, and where a result is coarser than the closest value."""

from __future__ import annotations

from html import escape
from math import log10
from typing import Mapping, Sequence

CELL = 9
BAR = 16
HEIGHT = 60


def times(seconds: Mapping[int, float]) -> str:
    """A bar for each width, as high as the logarithm of its seconds; a hundredth of a second has the least height."""
    if not seconds:
        return ""
    widths = sorted(seconds)
    most = max(2.0, max(log10(max(seconds[w], 0.01)) + 2.0 for w in widths))
    parts = []
    for place, width in enumerate(widths):
        height = 3 + (HEIGHT - 3) * max(0.0, log10(max(seconds[width], 0.01)) + 2.0) / most
        x = place * (BAR + 6)
        tip = f"width {width}: {seconds[width]:.2f} s"
        parts.append(
            f'<g><title>{tip}</title><rect class="bar" x="{x}" y="{HEIGHT - height:.1f}" '
            f'width="{BAR}" height="{height:.1f}"/>'
            f'<text x="{x + BAR / 2}" y="{HEIGHT + 12}" text-anchor="middle">{width}</text></g>'
        )
    wide = len(widths) * (BAR + 6)
    label = ", ".join(f"{seconds[w]:.2f} s at width {w}" for w in widths)
    return _svg(wide, HEIGHT + 16, parts, f"seconds by width: {label}")


def coarseness(cells: Sequence[Sequence[int]], fields: Sequence[str], width: int) -> str:
    """A square for each value of the input: how many words the result has too many there."""
    side = 1 << width
    most = max((cell[2] for cell in cells), default=0)
    parts = [f'<rect class="ground" x="14" y="0" width="{side * CELL}" height="{side * CELL}"/>']
    for first, second, extra in cells:
        x, y = 14 + first * CELL, (side - 1 - second) * CELL
        tip = f"{fields[0]} = {first}, {fields[1]} = {second}: " + (f"{extra} too many" if extra > 0 else "closest")
        style = f'style="fill-opacity:{0.25 + 0.75 * extra / most:.2f}"' if extra > 0 else ""
        kind = "coarse" if extra > 0 else "close"
        box = f'x="{x}" y="{y}" width="{CELL - 1}" height="{CELL - 1}"'
        parts.append(f'<rect class="{kind}" {box} {style}><title>{escape(tip)}</title></rect>')
    bottom = side * CELL
    parts += [
        f'<text x="14" y="{bottom + 12}">{escape(fields[0])} 0 to {side - 1}</text>',
        f'<text x="10" y="{bottom}" transform="rotate(-90 10 {bottom})">{escape(fields[1])} 0 to {side - 1}</text>',
    ]
    return _svg(
        side * CELL + 16, bottom + 16, parts, f"words too many by {fields[0]} and {fields[1]}, at most {most}"
    )


def _svg(width: float, height: float, parts: Sequence[str], label: str) -> str:
    size = f'width="{width:.0f}" height="{height:.0f}" viewBox="0 0 {width:.0f} {height:.0f}"'
    return f'<svg {size} role="img" aria-label="{escape(label)}">{"".join(parts)}</svg>'
