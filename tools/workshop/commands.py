"""The command line: make, show, picture, set, batch."""

from __future__ import annotations

import argparse
import os
import pathlib
import sys
from typing import Sequence

from . import batch, job_file, making, names, outcome, page, picture, programs, refusals, report, sheet, units, words

UNPROVED = (
    "These tools are Python and are not proved. What the programs job, gaps and jobs print is; "
    "the tools only make their input and tell their output."
)


def main(arguments: Sequence[str]) -> int:
    """Runs one command; the status is 0, or 1 where it could not do what was asked."""
    options = _parser().parse_args(arguments)
    try:
        return options.run(options)
    except (words.Problem, refusals.Refused, sheet.CutSheet, programs.ProgramFailed, units.NotANumber) as error:
        print(f"zapekuri: {error}" if not isinstance(error, words.Problem) else str(error), file=sys.stderr)
    except BrokenPipeError:  # whoever reads has enough, as head does
        os.dup2(os.open(os.devnull, os.O_WRONLY), sys.stdout.fileno())
    except OSError as error:
        print(f"zapekuri: {error.filename}: {error.strerror}", file=sys.stderr)
    except UnicodeDecodeError:
        print("zapekuri: the file is not a text in UTF-8", file=sys.stderr)
    return 1


def _parser() -> argparse.ArgumentParser:
    parser = argparse.ArgumentParser(prog="zapekuri", description=__doc__, epilog=UNPROVED)
    commands = parser.add_subparsers(metavar="COMMAND", required=True)
    for name, run, options, about in [
        ("make", run_make, _make_options, "Makes a job file of a description, and the names beside it."),
        ("show", run_show, _show_options, "Tells a job's sheet in words and decimals."),
        ("picture", run_picture, _picture_options, "Draws the mechanism and each joint's gap."),
        ("set", run_set, _set_options, "Sets a job file's limit, mode or tolerances."),
        ("batch", run_batch, _batch_options, "Runs every *.job of a folder and tells them in one table."),
    ]:
        command = commands.add_parser(name, help=about, description=about, epilog=UNPROVED)
        command.set_defaults(run=run)
        options(command)
    return parser


def _make_options(make: argparse.ArgumentParser) -> None:
    make.add_argument("description", type=pathlib.Path, metavar="DESCRIPTION")
    default = "the description's name with .job, where not given"
    make.add_argument("-o", dest="out", type=pathlib.Path, metavar="JOB", help=default)


def _job_and_sheets(command: argparse.ArgumentParser) -> None:
    command.add_argument("job", type=pathlib.Path, metavar="JOB")
    stored = "stored texts of job and of gaps, in place of running them"
    command.add_argument("sheets", nargs="*", type=pathlib.Path, metavar="SHEET", help=stored)
    command.add_argument("--program", type=pathlib.Path, help="the job program (crates/job/out/job)")


def _show_options(show: argparse.ArgumentParser) -> None:
    _job_and_sheets(show)
    show.add_argument("--rows", action="store_true", help="each row by itself, in place of each joint")


def _picture_options(draw: argparse.ArgumentParser) -> None:
    _job_and_sheets(draw)
    draw.add_argument("-o", dest="out", type=pathlib.Path, required=True, metavar="FILE", help="FILE.svg or FILE.html")
    draw.add_argument("--along", choices="xyz", help="the axis to look along; where not given, the one that shows most")


def _set_options(change: argparse.ArgumentParser) -> None:
    change.add_argument("job", type=pathlib.Path, metavar="JOB")
    change.add_argument("--limit", type=_steps, metavar="N", help="steps at most")
    change.add_argument("--mode", type=int, metavar="M", help="0 diagonal, 1 incomplete Cholesky, 2 block Jacobi")
    change.add_argument("--linear", metavar="MM", help="the tolerance of linear rows, in millimetres")
    change.add_argument("--angular", metavar="DEG", help="the tolerance of angular rows, in degrees")
    change.add_argument("-o", dest="out", type=pathlib.Path, metavar="OUT", help="the file itself, where not given")


def _batch_options(many: argparse.ArgumentParser) -> None:
    many.add_argument("folder", type=pathlib.Path, metavar="FOLDER")
    many.add_argument("--jobs", type=int, default=2, metavar="N", help="programs at a time (2)")
    many.add_argument("--seconds", type=float, default=600.0, metavar="S", help="how long one file may take (600)")


def _steps(word: str) -> int:
    """A limit as the file can hold it."""
    if not (word.isascii() and word.isdigit() and int(word) < 2**32):
        raise argparse.ArgumentTypeError(f"expected a whole number from 0 to {2**32 - 1}, found '{word}'")
    return int(word)


def run_make(options: argparse.Namespace) -> int:
    made = making.made(options.description.read_text(encoding="utf-8-sig"), str(options.description))
    out = options.out or options.description.with_suffix(".job")
    if out == options.description:
        raise words.Problem(str(out), 1, "expected another name for the job file: use -o")
    out.write_bytes(job_file.written(made.job))
    names.beside(out).write_text(names.text_of(made.mechanism, made.job), encoding="utf-8")
    for item in made.foreseen:
        print(
            f"{options.description}:{item.line}: {item.detail}; "
            f"the job program will turn this back by {refusals.in_words(item.number)}",
            file=sys.stderr,
        )
    job = made.job
    print(
        f"{out}: {len(job.rows)} rows of {len(made.mechanism.joints)} joints, {len(job.bodies)} links, "
        f"limit {job.limit}, mode {job.mode}"
    )
    return 0


def _looked_at(options: argparse.Namespace):
    """A job with its names and what came of it."""
    data = options.job.read_bytes()
    job = job_file.read(data)
    if options.sheets:
        came = outcome.stored([path.read_text(encoding="ascii") for path in options.sheets], job)
    else:
        came = outcome.computed(data, job, options.program)
    return job, names.of(options.job, job), came


def run_show(options: argparse.Namespace) -> int:
    job, named, came = _looked_at(options)
    print(report.text(options.job.name, job, named, came.sheet, came.note, options.rows), end="")
    return 0


def run_picture(options: argparse.Namespace) -> int:
    job, named, came = _looked_at(options)
    drawn = picture.svg_text(options.job.name, job, named, came.sheet, options.along)
    kind = options.out.suffix.lower()
    if kind not in (".svg", ".html"):
        raise words.Problem(str(options.out), 1, "expected a name that ends in .svg or .html")
    told = (
        drawn
        if kind == ".svg"
        else page.html(drawn, report.text(options.job.name, job, named, came.sheet, came.note), options.job.name)
    )
    options.out.write_text(told, encoding="utf-8")
    print(options.out)
    return 0


def run_set(options: argparse.Namespace) -> int:
    read = lambda word, unit: None if word is None else unit(word)
    linear, angular = read(options.linear, units.metres), read(options.angular, units.radians)
    if options.mode not in (None, 0, 1, 2):
        raise refusals.Refused(3, f"mode {options.mode}")
    if any(number is not None and number < 0.0 for number in (linear, angular)):
        raise refusals.Refused(26)
    data = options.job.read_bytes()
    new, out = job_file.changed(data, options.limit, options.mode, linear, angular), options.out or options.job
    # through a file beside it, so that a full disk or a broken run leaves the old one whole
    aside = out.with_name(out.name + ".new")
    aside.write_bytes(new)
    aside.replace(out)
    if out != options.job and names.beside(options.job).exists():
        names.beside(out).write_bytes(names.beside(options.job).read_bytes())
    print("\n".join(report.heading(str(out), job_file.read(new), names.Names())))
    return 0


def run_batch(options: argparse.Namespace) -> int:
    return batch.run(options.folder, max(1, options.jobs), options.seconds, sys.stdout, sys.stderr)
