"""What `run` keeps of a file at a width: a record that is written as JSON, and read again."""

from __future__ import annotations

import hashlib
import json
import os
import resource
import time
from dataclasses import dataclass, field
from pathlib import Path
from typing import Any

from . import __version__
from .asking import Answer, Asker
from .judging import Judgement, judge
from .optimal import Optimality, measure
from .parser import read_file
from .program import Program, Trouble
from .questions import Setting
from .reports import closer_lines, counterexample_lines, term_lines
from .source import LabError
from .syntax import LabFile
from .verdicts import Soundness, Standing

Record = dict[str, Any]
OPTIMAL_WIDTH = 4
PICTURE_WIDTH = 5
MOST_OPTIMAL = 70_000
SELF, CHILDREN = resource.RUSAGE_SELF, resource.RUSAGE_CHILDREN


@dataclass(frozen=True)
class Job:
    """A file at a width. `name` is the file's path below the folder that was named, without its suffix."""

    path: Path
    name: str
    width: int
    program: Path
    timeout: float | None
    out: Path
    key: str
    told: Record = field(default_factory=dict, compare=False)

    @property
    def record_path(self) -> Path:
        """Where the record is kept."""
        return self.out / f"{self.name}-w{self.width}.json"

    def kept(self, is_last: bool = False) -> Record | None:
        """The record of an earlier run, where neither the expanded text nor the program has changed since.

        One that was ended for want of time serves where no more time is given now, or where nothing is run (`is_last`).
        """
        try:
            found = json.loads(self.record_path.read_text())
        except (OSError, ValueError):
            return None
        if found.get("key") != self.key:
            return None
        was_ended = any(part["verdict"] == "time" for part in parts(found))
        limit = found.get("timeout")
        has_more_time = limit is not None and (self.timeout is None or self.timeout > limit)
        if was_ended and has_more_time and not is_last:
            return None
        for outcome, place in zip(found.get("outcomes", []), self.told.get("places", [])):
            outcome["place"] = place
        return {**found, **self.told}


def parts(record: Record) -> list[Record]:
    """The candidates' and the grammar's parts of a record."""
    return [*record.get("candidates", {}).values(), *([record["grammar"]] if record.get("grammar") else [])]


def told_of(file: LabFile, width: int) -> Record:
    """What a record has of the source's words, which may change without a new verdict."""
    assert file.operation is not None
    return {
        "description": file.description,
        "domain": file.domain,
        "operation": file.operation.text,
        "inputs": len(file.operation.inputs),
        "places": [e.span.place for e in file.expectations if e.holds_at(width)],
    }


def key_of(file: LabFile, width: int, digest: str) -> str:
    """A word that changes with the expanded texts, the expectations, the program and the workbench."""
    stated = [str(e) for e in file.expectations if e.holds_at(width)]
    texts = [__version__, digest, *stated]
    try:
        setting = Setting(file, width)
        for candidate in file.candidates:
            texts += [candidate.name, setting.soundness(setting.transformer(candidate)).text()]
        texts.append(setting.synthesis().text())
    except LabError:
        texts.append(file.source.text)
    return hashlib.sha256("\0".join(texts).encode()).hexdigest()


def run_job(job: Job) -> Record:
    """Judges a file at a width, and keeps the record."""
    started, work = time.monotonic(), _work()
    record: Record = {
        "name": job.name,
        "path": str(job.path),
        "width": job.width,
        "key": job.key,
        "timeout": job.timeout,
    }
    try:
        file = read_file(job.path)
        asker = Asker(Program(job.program, job.timeout), job.out / Path(job.name).parent)
        record |= _record(judge(file, job.width, asker))
    except LabError as error:
        record |= {"error": error.render(), "is_as_expected": False}
    record["seconds"] = time.monotonic() - started
    record["work"] = _work() - work
    record["peak"] = 1024 * max(resource.getrusage(who).ru_maxrss for who in (SELF, CHILDREN))
    job.record_path.parent.mkdir(parents=True, exist_ok=True)
    part = job.record_path.with_suffix(".part")
    part.write_text(json.dumps(record, indent=1))
    part.replace(job.record_path)
    return record


def failed(job: Job, error: Exception) -> Record:
    """What stands in the place of a record where the workbench itself failed. It isn't kept."""
    told: Record = {"name": job.name, "path": str(job.path), "width": job.width, "seconds": 0.0}
    return told | {"error": f"error: the workbench failed: {error!r}", "is_as_expected": False}


def _work() -> float:
    """The seconds of processor time of this process and of its programs that have ended."""
    return sum(os.times()[:4])


def _record(found: Judgement) -> Record:
    return {
        **told_of(found.file, found.width),
        "candidates": {name: _candidate(found, name) for name in found.soundness},
        "grammar": None if found.solved is None else _grammar(found),
        "outcomes": [
            {"text": str(o.expectation), "holds": o.holds, "why": o.why, "place": o.expectation.span.place}
            for o in found.outcomes
        ],
        "is_as_expected": found.is_as_expected,
    }


def _candidate(found: Judgement, name: str) -> Record:
    sound = found.soundness[name]
    assert found.setting is not None
    if isinstance(sound, LabError):
        return _trouble(sound)
    out: Record = {"verdict": "sound" if sound.is_sound else "unsound", **_answer(sound.answer)}
    if sound.counterexample is not None:
        out["lines"] = counterexample_lines(found.setting, name, sound.counterexample)
    standing = found.standings.get(name)
    if isinstance(standing, Standing):
        out["standing"] = _standing_word(standing)
        if standing.gain is not None:
            out["lines"] = [
                *term_lines(found.setting, standing.found),
                *closer_lines(found.setting, name, standing.gain),
            ]
    if sound.is_sound:
        out |= _measured(found.setting, sound)
    return out


def _standing_word(standing: Standing) -> str:
    if standing.kind == "incomparable" and standing.is_best_by_list is not None:
        return "best" if standing.is_best_by_list else "closer"
    return standing.kind


def _measured(setting: Setting, sound: Soundness) -> Record:
    """How near a sound candidate is to the closest values, where that is tried quickly."""
    inputs = len(setting.domain.values(min(setting.width, PICTURE_WIDTH))) ** len(setting.inputs)
    is_small = setting.width <= (PICTURE_WIDTH if len(setting.inputs) == 1 else OPTIMAL_WIDTH)
    if not is_small or inputs > MOST_OPTIMAL or (len(setting.inputs) > 1 and setting.width != OPTIMAL_WIDTH):
        return {}
    found = measure(setting, sound.transformer.whole)
    return {"optimal": {"at": found.optimal, "of": found.feasible}, "picture": _picture(found)}


def _picture(found: Optimality) -> list[list[int]]:
    """For one input with two fields: the fields, and how many words the result has too many."""
    return [[*fields, extra] for fields, extra in found.extras.items() if len(fields) == 2]


def _grammar(found: Judgement) -> Record:
    assert found.setting is not None and found.solved is not None
    if isinstance(found.solved, LabError):
        return _trouble(found.solved)
    out: Record = {"verdict": found.solved.certificate.answer, **_answer(found.solved)}
    if found.solved.is_best:
        out["lines"] = term_lines(found.setting, found.solved.certificate.terms)
    return out


def _answer(answer: Answer) -> Record:
    turns = len(answer.certificate.turns)
    return {"certificate": str(answer.path), "bytes": answer.size, "seconds": answer.seconds, "turns": turns}


def _trouble(error: LabError) -> Record:
    kind, amount = (error.kind, error.amount) if isinstance(error, Trouble) else ("limit", "")
    spent = {} if error.seconds is None else {"spent": error.seconds, "amount": amount}
    return {"verdict": kind, "message": error.diagnostic.message, "lines": error.render().split("\n"), **spent}
