"""Writes what a run found as tables: for the terminal, and in Markdown."""

from __future__ import annotations

from dataclasses import dataclass
from pathlib import Path
from typing import Iterable, Mapping, Sequence

from .batch import Done
from .display import count, seconds_text, size_text
from .records import Record
from .source import LabError

START = "<!-- table -->"
END = "<!-- end of table -->"
HEAD = ("file", "candidate", "operation", "domain", "sound", "best in its grammar", "optimal at 4")
NUMBERS = ("turns", "time", "bytes")
STANDINGS = {"best": "yes", "closer": "no"}
TROUBLES = ("time", "conflicts", "turns", "memory", "killed", "program", "limit")


@dataclass
class Row:
    """A candidate of a file, or its grammar, at all widths that were run."""

    name: str
    candidate: str
    records: list[Record]
    parts: dict[int, Record]

    @property
    def verdicts(self) -> list[str]:
        """The verdicts with their widths, as `best 2-7` and `time 8 (5 min 0 s)`."""
        return _phrases({width: (verdict(part), part) for width, part in self.parts.items()})

    @property
    def soundness(self) -> list[str]:
        """The verdicts without regard to the grammar, as `sound 2-8`."""
        return _phrases({width: (str(part["verdict"]), part) for width, part in self.parts.items()})

    @property
    def standings(self) -> list[str]:
        """Where the sound candidate was compared with the grammar's best, whether it is best itself, as `yes 2-8`."""
        found: dict[int, tuple[str, Record]] = {}
        for record in self.records:
            part, grammar = self.parts[record["width"]], record.get("grammar") or {}
            if "standing" in part:
                found[record["width"]] = (STANDINGS.get(part["standing"], "open"), {})
            elif part["verdict"] == "sound" and grammar.get("verdict") in TROUBLES:
                found[record["width"]] = (grammar["verdict"], grammar)
        return _phrases(found)

    @property
    def widest(self) -> Record:
        """The part of the greatest width that finished."""
        finished = [part for _, part in sorted(self.parts.items()) if "certificate" in part]
        return finished[-1] if finished else {}

    @property
    def measured(self) -> Record:
        """The part that numbers are told of: the grammar's where the candidate was compared with it, else its own."""
        compared = [record for record in self.records if "standing" in self.parts[record["width"]]]
        return compared[-1]["grammar"] if compared else self.widest

    @property
    def optimal(self) -> str:
        """Whether it is the closest value of the domain at width 4, or at how many inputs it isn't."""
        found = self.parts.get(4, {}).get("optimal")
        if found is None:
            return ""
        return "yes" if found["at"] == found["of"] else f"not at {found['of'] - found['at']:,} of {found['of']:,}"


def verdict(part: Record) -> str:
    """One word for a candidate or a grammar at a width."""
    if part["verdict"] == "sound" and part.get("standing") == "best":
        return "best"
    return str(part["verdict"])


def _phrases(found: Mapping[int, tuple[str, Record]]) -> list[str]:
    """Words with the widths that they hold at, and what was spent at the widest where there is no answer."""
    grouped = _grouped([(width, word) for width, (word, _) in sorted(found.items())])
    return [f"{word} {_range(widths)}{_spent(found[widths[-1]][1])}" for word, widths in grouped]


def _spent(part: Record) -> str:
    if "spent" not in part:
        return ""
    amount = f"{part['amount']} in " if part["amount"] else ""
    return f" ({amount}{seconds_text(part['spent'])})"


def _grouped(words: Sequence[tuple[int, str]]) -> list[tuple[str, list[int]]]:
    out: list[tuple[str, list[int]]] = []
    for width, word in words:
        if out and out[-1][0] == word:
            out[-1][1].append(width)
        else:
            out.append((word, [width]))
    return out


def _range(widths: Sequence[int]) -> str:
    if len(widths) > 1 and widths[-1] - widths[0] == len(widths) - 1:
        return f"{widths[0]}-{widths[-1]}"
    return ", ".join(str(width) for width in widths)


def rows(records: Iterable[Record]) -> list[Row]:
    """A row for each file and candidate, and one for a grammar of a file without candidates."""
    out: dict[tuple[str, str], Row] = {}
    for record in records:
        if record.get("error"):
            continue
        parts = dict(record["candidates"])
        if not parts and record.get("grammar"):
            parts["(grammar)"] = record["grammar"]
        for candidate, part in parts.items():
            row = out.setdefault((record["name"], candidate), Row(record["name"], candidate, [], {}))
            row.records.append(record)
            row.parts[record["width"]] = part
    return list(out.values())


def summary(done: Done) -> list[str]:
    """The table for the terminal, what didn't hold, and the numbers."""
    out = [f"{row.name:<40} {row.candidate:<20} {', '.join(row.verdicts)}" for row in rows(done.records)]
    out += failures(done.records)
    good = sum(1 for record in done.records if record["is_as_expected"])
    total = f"{count(good, 'file')} at a width as expected, {len(done.records) - good} not"
    kept = f", {done.kept} of them kept from earlier runs" if done.kept else ""
    left = f", {done.left} left" if done.left else ""
    return [*out, f"{total}{kept}{left}; {seconds_text(done.seconds)}"]


def failures(records: Iterable[Record]) -> list[str]:
    """What didn't hold, with what shows it at the least width of each."""
    out: list[str] = []
    seen: set[tuple[str, str]] = set()
    for record in records:
        if record.get("error"):
            out += [f"{record['name']}: a mistake", *("    " + line for line in record["error"].split("\n"))]
        elif not record["is_as_expected"] and not record["outcomes"]:
            out.append(
                f"{record['path']}: not every question has the answer that is hoped for at width {record['width']}"
            )
        else:
            for outcome in record["outcomes"]:
                if not outcome["holds"]:
                    place = (record["name"], outcome["text"])
                    out += _failure(record, outcome, place not in seen)
                    seen.add(place)
    return out


def _failure(record: Record, outcome: Record, is_first: bool) -> list[str]:
    what = "isn't known" if outcome["holds"] is None else "doesn't hold"
    why = f": {outcome['why']}" if outcome["why"] else ""
    line = f"{outcome['place']}: `expect {outcome['text']}` {what} at width {record['width']}{why}"
    return [line, *(_shown(record, outcome["text"]) if is_first else ())]


def _shown(record: Record, text: str) -> list[str]:
    name = text.split()[-1]
    return list(record["candidates"].get(name, {}).get("lines", []))


def markdown(done: Done) -> list[str]:
    """The table in Markdown, with the numbers below."""
    head = (*HEAD, *NUMBERS)
    out = ["| " + " | ".join(head) + " |", "|---" * len(head) + "|"]
    out += ["| " + " | ".join(_cells(row)) + " |" for row in rows(done.records)]
    work = sum(record.get("work", 0.0) for record in done.records)
    peak = max((record.get("peak", 0) for record in done.records), default=0)
    good = sum(1 for record in done.records if record["is_as_expected"])
    files = count(len({record["name"] for record in done.records}), "file")
    verdicts = f"{files}, {len(done.records):,} with their widths, of which {good:,} are as expected"
    left = f", and {done.left:,} are left" if done.left else ""
    used = f"All took {seconds_text(work)} of one processor; no process had more than {peak / 1e6:,.0f} MB."
    return [*out, "", f"{verdicts}{left}. {used}"]


def _cells(row: Row) -> list[str]:
    first, last = row.records[0], row.measured
    numbers = [""] * len(NUMBERS)
    if last:
        numbers = [f"{last['turns']:,}", seconds_text(last["seconds"]), size_text(last["bytes"])]
    operation = first["operation"].replace("|", "\\|")
    names = [f"`{row.name}`", row.candidate, f"`{operation}`", first["domain"]]
    return [*names, ", ".join(row.soundness), ", ".join(row.standings), row.optimal, *numbers]


def write_markdown(path: Path, done: Done) -> None:
    """Puts the table between the marks of a document, or writes a document that has it alone."""
    table = "\n".join(markdown(done))
    if not path.exists():
        path.write_text(f"{START}\n{table}\n{END}\n")
        return
    text = path.read_text()
    if START not in text or END not in text:
        raise LabError(f"{path} has no place for the table", None, "", f"it stands between `{START}` and `{END}`")
    before, rest = text.split(START, 1)
    path.write_text(f"{before}{START}\n{table}\n{END}{rest.split(END, 1)[1]}")
