"""Runs all files of a folder at all widths side by side, and keeps what is done."""

from __future__ import annotations

import multiprocessing
import os
import signal
import sys
import time
from concurrent.futures import ProcessPoolExecutor, as_completed
from concurrent.futures.process import BrokenProcessPool
from dataclasses import dataclass, field
from pathlib import Path
from typing import Sequence, TextIO

from .parser import read_file
from .program import Program
from .records import Job, Record, failed, key_of, run_job, told_of
from .source import LabError
from .syntax import LabFile

SUFFIX = ".lab"
QUICK_WIDTH = 3
INTERRUPTED = "interrupted"
KILLED = "a worker was killed, perhaps for want of memory: run fewer at once by `-j`"


@dataclass(frozen=True)
class Request:
    """What is to be run: files, widths, and how."""

    paths: tuple[Path, ...]
    widths: tuple[int, ...] | None
    program: Program
    out: Path
    jobs: int = 1
    is_quick: bool = False
    is_kept_only: bool = False
    is_recheck: bool = False


@dataclass
class Done:
    """What a run found, in the order of files and widths; `kept` are those of earlier runs, `left` those to come.

    `end` says why a run ended before all was done.
    """

    records: list[Record] = field(default_factory=list)
    kept: int = 0
    left: int = 0
    seconds: float = 0.0
    end: str = ""

    @property
    def is_interrupted(self) -> bool:
        """Whether it was interrupted."""
        return self.end == INTERRUPTED

    @property
    def is_as_expected(self) -> bool:
        """Whether nothing ended the run, and all expectations hold."""
        return not self.end and all(record["is_as_expected"] for record in self.records)


def sources(paths: Sequence[Path]) -> list[tuple[Path, str]]:
    """The source files at some paths, each with its name: its path below the folder that was named, without a suffix.

    Where several folders are named, the folder's own name comes before it.
    """
    out: dict[Path, str] = {}
    for path in paths:
        if not path.exists():
            raise LabError(f"{path} isn't there")
        found = sorted(path.rglob("*" + SUFFIX)) if path.is_dir() else [path]
        if not found:
            raise LabError(f"{path} has no file that ends with {SUFFIX}")
        for file in found:
            below = file.relative_to(path) if path.is_dir() else file
            name = Path(path.name, below) if path.is_dir() and len(paths) > 1 else below
            out[file] = "/".join(part for part in name.with_suffix("").parts if part not in ("/", ".."))
    return list(out.items())


def widths_of(file: LabFile, asked: tuple[int, ...] | None, is_quick: bool) -> list[int]:
    """The widths of a file that are run: those that were asked for and that it is meant for; one for a quick run."""
    own = [width for width in file.widths if asked is None or width in asked]
    if not is_quick or not own:
        return own
    above = [width for width in own if width >= QUICK_WIDTH]
    return [above[0] if above else own[-1]]


def run(request: Request, shown: TextIO | None = None) -> Done:
    """Runs what isn't kept, and tells each file as it is done."""
    started = time.monotonic()
    jobs, mistakes = _jobs(request)
    done = Done(records=mistakes)
    found: dict[Job, Record] = {}
    for job in jobs:
        kept = job.kept(request.is_kept_only)
        if kept is not None and (not request.is_recheck or _is_accepted(request.program, kept)):
            found[job] = kept
    done.kept = len(found)
    waiting = [job for job in jobs if job not in found]
    if not request.is_kept_only:
        done.end = _work(waiting, request.jobs, found, Progress(shown or sys.stderr, len(waiting)))
    done.left = len(jobs) - len(found)
    done.records += [found[job] for job in jobs if job in found]
    done.seconds = time.monotonic() - started
    return done


def _is_accepted(program: Program, record: Record) -> bool:
    """Whether `check` accepts the kept certificates of a record in this run."""
    parts = [*record.get("candidates", {}).values(), record.get("grammar") or {}]
    paths = [Path(part["certificate"]) for part in parts if "certificate" in part]
    return all(path.is_file() and program.accepts(path.read_text())[0] for path in paths)


def _jobs(request: Request) -> tuple[list[Job], list[Record]]:
    """A job for each file and width; and a record for each file that can't be read."""
    digest = request.program.digest
    out: list[Job] = []
    mistakes: list[Record] = []
    for path, name in sources(request.paths):
        try:
            file = read_file(path)
        except LabError as error:
            mistakes.append(
                {"name": name, "path": str(path), "width": 0, "error": error.render(), "is_as_expected": False}
            )
            continue
        for width in widths_of(file, request.widths, request.is_quick):
            key = key_of(file, width, digest)
            told, program = told_of(file, width), request.program
            out.append(Job(path, name, width, program.path, program.timeout, request.out, key, told))
    return out, mistakes


def _start_worker() -> None:
    """A worker leaves interrupts to the run, and ends its program when it is ended itself."""
    signal.signal(signal.SIGINT, signal.SIG_IGN)
    signal.signal(signal.SIGTERM, lambda number, frame: sys.exit(1))


def _run_or_end(job: Job) -> Record:
    """The record of a job. A failure of the workbench leaves the other jobs."""
    try:
        return run_job(job)
    except SystemExit:
        os._exit(1)
    except Exception as error:  # pylint: disable=broad-exception-caught
        return failed(job, error)


def _end_workers() -> None:
    workers = multiprocessing.active_children()
    for worker in workers:
        worker.terminate()
    for worker in workers:
        worker.join(2)
        if worker.is_alive():
            worker.kill()


def _work(waiting: list[Job], workers: int, found: dict[Job, Record], progress: "Progress") -> str:
    """Runs jobs, the narrow ones first. Answers why it ended early, or nothing; what is done then is kept."""
    if not waiting:
        return ""
    context = multiprocessing.get_context("spawn")
    executor = ProcessPoolExecutor(min(workers, len(waiting)), context, _start_worker)
    try:
        asked = {executor.submit(_run_or_end, job): job for job in sorted(waiting, key=lambda job: job.width)}
        for future in as_completed(asked):
            found[asked[future]] = future.result()
            progress.done(found[asked[future]])
    except (BrokenProcessPool, KeyboardInterrupt) as error:
        executor.shutdown(wait=False, cancel_futures=True)
        _end_workers()
        progress.end()
        return INTERRUPTED if isinstance(error, KeyboardInterrupt) else KILLED
    executor.shutdown()
    progress.end()
    return ""


class Progress:
    """A bar where a terminal looks on, and else a plain line for each file and width."""

    def __init__(self, out: TextIO, total: int) -> None:
        self.out = out
        self.total = total
        self.count = 0
        self.is_terminal = out.isatty()

    def done(self, record: Record) -> None:
        """Tells that a file is done at a width."""
        self.count += 1
        word = "ok  " if record["is_as_expected"] else "FAIL"
        line = f"{word} {record['name']} at width {record['width']} ({record['seconds']:.2f} s)"
        if not self.is_terminal:
            print(line, file=self.out, flush=True)
            return
        filled = 30 * self.count // self.total
        bar = "#" * filled + "." * (30 - filled)
        if word == "FAIL":
            print(f"\r\033[K{line}", file=self.out)
        print(
            f"\r\033[K[{bar}] {self.count}/{self.total} {record['name']} w{record['width']}",
            end="",
            file=self.out,
            flush=True,
        )

    def end(self) -> None:
        """Removes the bar."""
        if self.is_terminal:
            print("\r\033[K", end="", file=self.out, flush=True)
