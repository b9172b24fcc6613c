"""The command line."""

from __future__ import annotations

import argparse
import json
import sys
from pathlib import Path
from typing import Callable, Sequence

from .asking import Asker
from .batch import Request, run
from .certificates import read_certificate, read_problem
from .emit import emit
from .importing import source_of
from .judging import Judgement, judge, stem
from .languages import LANGUAGES
from .optimal import check_small, measure
from .page import page
from .parser import read_file
from .program import Program, find_program
from .questions import Setting
from .reports import judgement_lines, optimality_lines, solution_lines
from .source import LabError
from .story import Story
from .syntax import LabFile
from .tables import summary, write_markdown
from .terms import Term
from .words import WIDTHS

FAILED = 1
MISTAKE = 2
INTERRUPTED = 130
#: The seconds after which `run` ends a run of the program.
LIMIT = 300.0


def main(argv: Sequence[str] | None = None) -> int:
    """Runs the command line, and answers the exit status."""
    options = _parser().parse_args(argv)
    try:
        return int(options.command(options))
    except LabError as error:
        print(error.render(), file=sys.stderr)
        return MISTAKE
    except KeyboardInterrupt:
        print("interrupted", file=sys.stderr)
        return INTERRUPTED
    except BrokenPipeError:
        sys.stderr.close()
        return FAILED


def _parser() -> argparse.ArgumentParser:
    parser = argparse.ArgumentParser(
        prog="amurth-lab",
        description="A workbench for authors of abstract transformers, around the verified synthesiser Amurth.",
    )
    commands = parser.add_subparsers(title="commands", required=True, metavar="COMMAND")
    mine = _command(commands, "check-mine", _check_mine, "say whether each candidate of a file is sound, and best")
    _add_file(mine)
    mine.add_argument(
        "--candidate", action="append", metavar="NAME", help="judge this candidate alone (may be repeated)"
    )
    mine.add_argument("--sound-only", action="store_true", help="don't ask about the grammar")
    solve = _command(commands, "solve", _solve, "find the best transformer of a file's grammar")
    _add_file(solve)
    expand = _command(commands, "expand", _expand, "write the core problems that a file stands for")
    _add_widths(expand)
    expand.add_argument("--candidate", metavar="NAME", help="the soundness of this candidate, not the grammar")
    import_ = _command(commands, "import", _import, "write a problem of the core as a source")
    import_.add_argument("problem", metavar="PROBLEM", help="a problem, as examples/complement.amurth")
    explain = _command(
        commands, "explain", _explain, "tell a certificate turn by turn, and what its acceptance means"
    )
    _add_certificate(explain)
    emit_ = _command(commands, "emit", _emit, "write a certificate's transformer as C, Rust or Python")
    emit_.add_argument("language", choices=sorted(LANGUAGES))
    _add_certificate(emit_)
    emit_.add_argument("--name", default="transformer", help="what the functions' names begin with (transformer)")
    best = _command(
        commands, "optimal", _optimal, "say at how many inputs an answer is the closest value of the domain"
    )
    _add_file(best)
    best.add_argument("--candidate", metavar="NAME", help="measure this candidate, not the best transformer")
    best.add_argument("--worst", type=int, default=5, metavar="N", help="how many of the worst inputs are shown (5)")
    _add_run(commands)
    return parser


def _add_run(commands: "argparse._SubParsersAction[argparse.ArgumentParser]") -> None:
    run_ = _command(commands, "run", _run, "judge all files of a folder at all widths, and whatever changed since")
    run_.add_argument("paths", nargs="+", type=Path, metavar="FOLDER", help="folders of sources, or sources")
    run_.add_argument(
        "--widths", "--width", "-w", metavar="W", help="of the files' own widths these alone, as 4 or 2..4"
    )
    run_.add_argument("--jobs", "-j", type=int, default=1, metavar="N", help="how many are run at once (1)")
    run_.add_argument("--quick", action="store_true", help="each file at one width: 3, or the next that it has")
    run_.add_argument("--kept", action="store_true", help="run nothing, and show what earlier runs kept")
    run_.add_argument("--recheck", action="store_true", help="have `check` read kept certificates again")
    run_.add_argument("--json", type=Path, metavar="FILE", help="write all that was found as JSON")
    run_.add_argument("--html", type=Path, metavar="FILE", help="write a page that stands alone")
    run_.add_argument("--markdown", type=Path, metavar="FILE", help="put the table between the marks of a document")
    run_.add_argument("--out", type=Path, default=Path("lab-out"), metavar="DIR", help="where all is kept (lab-out)")
    add_program(run_, LIMIT)


def _add_certificate(parser: argparse.ArgumentParser) -> None:
    parser.add_argument(
        "certificate", metavar="CERTIFICATE", help="a certificate, as lab-out/NAME.cert; - is standard input"
    )
    add_program(parser)


def _command(
    commands: "argparse._SubParsersAction[argparse.ArgumentParser]", name: str, run: object, help_: str
) -> argparse.ArgumentParser:
    out = commands.add_parser(name, help=help_, description=help_[0].upper() + help_[1:] + ".")
    out.set_defaults(command=run)
    return out


def _add_widths(parser: argparse.ArgumentParser) -> None:
    parser.add_argument("file", metavar="FILE", help="a source, as library/NAME.lab")
    parser.add_argument("--width", "-w", metavar="W", help="widths, as 4 or 2..4 or 4,8; the file's own else")


def _add_file(parser: argparse.ArgumentParser) -> None:
    _add_widths(parser)
    add_program(parser)
    parser.add_argument(
        "--out", type=Path, default=Path("lab-out"), metavar="DIR", help="where certificates are kept (lab-out)"
    )


def add_program(parser: argparse.ArgumentParser, limit: float | None = None) -> None:
    """Adds the options that say which program is run, and for how long."""
    shown = "" if limit is None else f" ({limit:g})"
    parser.add_argument(
        "--program", metavar="PATH", help="the program `amurth`; else $AMURTH, beside the repository, or the path"
    )
    parser.add_argument(
        "--timeout", type=float, default=limit, metavar="SECONDS",
        help=f"end a run of the program after this time{shown}",
    )  # fmt: skip


def asked_widths(text: str | None, file: LabFile) -> tuple[int, ...]:
    """The widths that a command line names, or the file's."""
    return file.widths if text is None else parsed_widths(text)


def parsed_widths(text: str) -> tuple[int, ...]:
    """The widths that a text names."""
    out: set[int] = set()
    for part in text.split(","):
        ends = part.split("..")
        if len(ends) > 2 or not all(end.strip().isdigit() for end in ends):
            raise LabError(f"`{text}` names no widths", None, "", "widths are written as 4, as 2..4 or as 4,8")
        out.update(range(int(ends[0]), int(ends[-1]) + 1))
    wrong = [width for width in out if width not in WIDTHS]
    if wrong or not out:
        raise LabError(f"widths are {WIDTHS[0]} to {WIDTHS[-1]}, and `{text}` names others")
    return tuple(sorted(out))


def _asker(options: argparse.Namespace) -> Asker:
    return Asker(Program(find_program(options.program), options.timeout), options.out, _teller())


def _teller() -> "Teller":
    return Teller(sys.stderr.isatty())


class Teller:
    """Shows what is under way on a terminal, on one line that is wiped."""

    def __init__(self, is_shown: bool) -> None:
        self.is_shown = is_shown

    def __call__(self, line: str) -> None:
        if self.is_shown:
            print(f"\r\033[K{line}", end="", file=sys.stderr, flush=True)

    def wipe(self) -> None:
        """Removes the line."""
        if self.is_shown:
            print("\r\033[K", end="", file=sys.stderr, flush=True)


def _check_mine(options: argparse.Namespace) -> int:
    file = read_file(options.file)
    if not file.candidates:
        raise LabError(
            f"{options.file} has no candidate", None, "", "`solve` asks for the best transformer of its grammar"
        )
    for name in options.candidate or ():
        if file.candidate(name) is None:
            raise LabError(f"{options.file} has no candidate `{name}`")
    asker = _asker(options)
    found: list[Judgement] = []
    for width in asked_widths(options.width, file):
        found.append(judge(file, width, asker, options.candidate, not options.sound_only))
        _wipe(asker)
        print("\n".join(judgement_lines(found[-1])), flush=True)
    return 0 if all(judgement.is_as_expected for judgement in found) else FAILED


def _wipe(asker: Asker) -> None:
    if isinstance(asker.tell, Teller):
        asker.tell.wipe()


def _solve(options: argparse.Namespace) -> int:
    file = read_file(options.file)
    asker = _asker(options)
    status = 0
    for width in asked_widths(options.width, file):
        setting = Setting(file, width)
        try:
            answer = asker.ask(setting.synthesis(), f"{stem(file, width)}-best")
            lines = solution_lines(setting, answer)
        except LabError as error:
            if error.is_mistake:
                raise
            lines, status = [
                f"width {width}: no answer",
                *("    " + line for line in error.render().split("\n")),
            ], FAILED
        _wipe(asker)
        print("\n".join(lines), flush=True)
    return status


def _expand(options: argparse.Namespace) -> int:
    file = read_file(options.file)
    for width in asked_widths(options.width, file):
        setting = Setting(file, width)
        if options.candidate is None:
            problem = setting.synthesis()
        else:
            candidate = file.candidate(options.candidate)
            if candidate is None:
                raise LabError(f"{options.file} has no candidate `{options.candidate}`")
            problem = setting.soundness(setting.transformer(candidate))
        for note in problem.notes:
            print(f"note: {note}", file=sys.stderr)
        print(problem.text(), end="")
    return 0


def _import(options: argparse.Namespace) -> int:
    try:
        problem = read_problem(_read(options.problem), options.problem)
    except (KeyError, ValueError, IndexError) as error:
        raise LabError(
            f"{options.problem} is no problem of the core", None, "", "`amurth synth` says where"
        ) from error
    print(source_of(problem, Path(options.problem).stem), end="")
    return 0


def _read(path: str) -> str:
    try:
        return sys.stdin.read() if path == "-" else Path(path).read_text()
    except (OSError, UnicodeDecodeError) as error:
        raise LabError(f"can't read {path}: {error}") from error


def _acceptance(options: argparse.Namespace, text: str) -> bool | None:
    """What `check` says of a certificate, or none where the program isn't there."""
    try:
        program = Program(find_program(options.program), options.timeout)
    except LabError:
        if options.program is not None:
            raise
        return None
    return program.accepts(text)[0]


def _explain(options: argparse.Namespace) -> int:
    text = _read(options.certificate)
    certificate = read_certificate(text, options.certificate)
    is_accepted = _acceptance(options, text)
    print("\n".join(Story(certificate, is_accepted).lines()))
    return 0 if is_accepted or certificate.answer in ("turns", "conflicts") else FAILED


def _emit(options: argparse.Namespace) -> int:
    if not options.name.isidentifier():
        raise LabError(f"`{options.name}` is no name for functions")
    text = _read(options.certificate)
    certificate = read_certificate(text, options.certificate)
    is_accepted = _acceptance(options, text)
    if is_accepted is False:
        raise LabError(f"`check` doesn't accept {options.certificate}, so nothing is written")
    print(emit(certificate, options.language, options.name, bool(is_accepted)), end="")
    return 0


def _optimal(options: argparse.Namespace) -> int:
    file = read_file(options.file)
    if options.width is None:
        raise LabError("`optimal` needs a width", None, "", "as `--width 4`; to 4, or 5 for one input")
    asker = _asker(options)
    for width in asked_widths(options.width, file):
        setting = Setting(file, width)
        check_small(setting)
        name, terms = _measured(options, setting, asker)
        _wipe(asker)
        print(
            "\n".join(optimality_lines(setting, name, measure(setting, terms, _progress(asker)), options.worst)),
            flush=True,
        )
    return 0


def _measured(options: argparse.Namespace, setting: Setting, asker: Asker) -> tuple[str, tuple[Term, ...]]:
    """The candidate that was named, or the best transformer."""
    if options.candidate is not None:
        candidate = setting.file.candidate(options.candidate)
        if candidate is None:
            raise LabError(f"{options.file} has no candidate `{options.candidate}`")
        return candidate.name, setting.transformer(candidate).whole
    answer = asker.ask(setting.synthesis(), f"{stem(setting.file, setting.width)}-best")
    if not answer.is_best:
        raise LabError("no transformer of the grammar is sound, so none can be measured")
    return "the best transformer", answer.certificate.terms


def _progress(asker: Asker) -> Callable[[int, int], None]:
    return lambda done, total: asker.tell(f"{done:,} of {total:,} inputs")


def _run(options: argparse.Namespace) -> int:
    program = Program(find_program(options.program), options.timeout)
    widths = None if options.widths is None else parsed_widths(options.widths)
    request = Request(
        tuple(options.paths), widths, program, options.out, max(1, options.jobs),
        options.quick, options.kept, options.recheck,
    )  # fmt: skip
    done = run(request)
    if options.kept and not done.records:
        raise LabError(f"{options.out} keeps nothing of these files, widths and program, so there is nothing to show")
    print("\n".join(summary(done)), flush=True)
    if options.json is not None:
        options.json.write_text(json.dumps(done.records, indent=1) + "\n")
    if options.html is not None:
        options.html.write_text(page(done))
    if options.markdown is not None:
        write_markdown(options.markdown, done)
    if done.end:
        print(f"{done.end}; what is done is kept, and the same line takes it up", file=sys.stderr)
        return INTERRUPTED if done.is_interrupted else FAILED
    return 0 if done.is_as_expected else FAILED
