"""Writes what a run found as a page that stands alone: no script, and nothing from elsewhere."""

from __future__ import annotations

from html import escape
from typing import Sequence

from .batch import Done
from .charts import coarseness, times
from .display import seconds_text, size_text
from .domains import DOMAINS
from .records import Record
from .tables import TROUBLES, Row, failures, rows, verdict

STYLE = """
:root { color-scheme: light dark; --ink: #1d2430; --quiet: #5b6675; --ground: #ffffff; --line: #d9dee6; --soft: #f4f6f9;
  --good: #1b7f4b; --bad: #c0302c; --best: #1f5fbf; --open: #8a6100; }
@media (prefers-color-scheme: dark) { :root { --ink: #e3e8ef; --quiet: #9aa6b5; --ground: #14181e; --line: #313943;
  --soft: #1c222a; --good: #4fc98a; --bad: #ff7a73; --best: #7fb0ff; --open: #e0b04a; } }
body { font: 15px/1.5 system-ui, sans-serif; color: var(--ink); background: var(--ground); max-width: 72rem;
  margin: 2rem auto; padding: 0 1rem; }
h1 { font-size: 1.5rem; margin: 0 0 .3rem; } h2 { font-size: 1.1rem; margin: 2rem 0 .5rem; }
.quiet { color: var(--quiet); } code, pre { font: 13px/1.45 ui-monospace, monospace; }
pre { background: var(--soft); padding: .7rem .9rem; overflow-x: auto; border-radius: 6px; margin: .5rem 0; }
details { border-top: 1px solid var(--line); } details:last-of-type { border-bottom: 1px solid var(--line); }
summary { display: grid; grid-template-columns: minmax(14rem, 2fr) 9rem 3fr; gap: .8rem; padding: .45rem .3rem;
  cursor: pointer; }
summary:hover { background: var(--soft); } .inside { padding: .3rem .6rem 1rem; }
.word { display: inline-block; margin: 0 .5rem .1rem 0; padding: 0 .45rem; border-radius: 4px;
  border: 1px solid currentColor; font-size: 13px; white-space: nowrap; }
.sound { color: var(--good); } .best { color: var(--best); } .unsound, .none { color: var(--bad); }
.open { color: var(--open); }
.pictures { display: flex; flex-wrap: wrap; gap: 2rem; align-items: flex-end; } figure { margin: .6rem 0; }
figcaption { font-size: 13px; color: var(--quiet); } svg text { font: 11px system-ui, sans-serif; fill: var(--quiet); }
svg .bar { fill: var(--best); } svg .ground { fill: var(--soft); } svg .close { fill: var(--good); fill-opacity: .35; }
svg .coarse { fill: var(--bad); }
"""


def page(done: Done) -> str:
    """The page."""
    total, good = len(done.records), sum(1 for record in done.records if record["is_as_expected"])
    body = [
        "<h1>Transformers, judged by Amurth</h1>",
        f'<p class="quiet">{total:,} files at a width; {good:,} as expected, {total - good:,} not. '
        f"{seconds_text(done.seconds)}, {done.kept:,} kept from earlier runs.</p>",
        "<p>A verdict is said by an accepted certificate, of the rule as written in its file, at the widths that stand "
        "beside it. <em>Best</em> is meant in the file's grammar.</p>",
        *_failed(done.records),
    ]
    folder = ""
    for row in rows(done.records):
        above = row.name.rpartition("/")[0] or "files"
        if above != folder:
            folder = above
            body.append(f"<h2>{escape(folder)}</h2>")
        body.append(_row(row))
    head = '<meta charset="utf-8"><meta name="viewport" content="width=device-width, initial-scale=1">'
    head += f"<title>Amurth: verdicts</title><style>{STYLE}</style>"
    text = "\n".join(body)
    return f'<!doctype html>\n<html lang="en"><head>{head}</head>\n<body>\n{text}\n</body></html>\n'


def _failed(records: Sequence[Record]) -> list[str]:
    lines = failures(records)
    if not lines:
        return []
    return ["<h2>Not as expected</h2>", f"<pre>{escape(chr(10).join(lines))}</pre>"]


def _row(row: Row) -> str:
    name = escape(row.name.rpartition("/")[2])
    words = " ".join(_word(text) for text in row.verdicts)
    head = f"<summary><code>{name}</code><span>{escape(row.candidate)}</span><span>{words}</span></summary>"
    return f'<details>{head}<div class="inside">{"".join(_inside(row))}</div></details>'


def _word(text: str) -> str:
    kind = text.split()[0]
    shown = "open" if kind in TROUBLES else kind
    return f'<span class="word {escape(shown)}">{escape(text)}</span>'


def _inside(row: Row) -> list[str]:
    first = row.records[0]
    out = [f"<p>{escape(first['description']).replace(chr(10), ' ')}</p>" if first["description"] else ""]
    out.append(f"<p><code>{escape(first['operation'])}</code> over {escape(first['domain'])}</p>")
    for width, part in sorted(row.parts.items()):
        if part.get("lines") and (
            width == min(row.parts) or verdict(part) != verdict(row.parts.get(width - 1, part))
        ):
            out.append(f'<p class="quiet">{escape(_said(row, width, part))}</p>')
            out.append(f"<pre>{escape(chr(10).join(part['lines']))}</pre>")
    out.append(f'<div class="pictures">{_times(row)}{_picture(row)}</div>')
    last = row.widest
    if last:
        work = f"{last['turns']} turns, {size_text(last['bytes'])}, {seconds_text(last['seconds'])}"
        out.append(
            f'<p class="quiet">The widest certificate: <code>{escape(last["certificate"])}</code>; {work}.</p>'
        )
    return out


def _said(row: Row, width: int, part: Record) -> str:
    if part["verdict"] == "unsound":
        return f"At width {width} it is unsound:"
    if part["verdict"] == "sound":
        return f"At width {width} this one of the grammar says more:"
    return f"At width {width}: {verdict(part)}" + ("." if "message" in part else ":")


def _times(row: Row) -> str:
    seconds = {width: part["seconds"] for width, part in row.parts.items() if "seconds" in part}
    if not seconds:
        return ""
    return f"<figure>{times(seconds)}<figcaption>time by width (logarithmic)</figcaption></figure>"


def _picture(row: Row) -> str:
    drawn = {width: part["picture"] for width, part in row.parts.items() if part.get("picture")}
    if not drawn:
        return ""
    width = max(drawn, key=lambda w: (w <= 4, w))
    fields = DOMAINS[row.records[0]["domain"]].fields
    caption = f"the result at each input of {width} bits: green is the closest value, red has words too many"
    return f"<figure>{coarseness(drawn[width], fields, width)}<figcaption>{caption}</figcaption></figure>"
