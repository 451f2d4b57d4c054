"""Every job of a folder through the programs, several at a time, told in one table. Nothing is lost in silence."""

from __future__ import annotations

import concurrent.futures
import dataclasses
import pathlib
from typing import IO, List, Optional, Sequence

from . import job_file, names, programs, report, sheet, stream, units
from .job_file import Job
from .refusals import Refused, refusal

CHUNK = 32  # files for one run of `jobs`: enough to save its starts, few enough to tell progress


@dataclasses.dataclass
class Entry:
    """One file and what came of it."""

    path: pathlib.Path
    data: bytes = b""
    job: Optional[Job] = None
    sheet: Optional[sheet.Sheet] = None
    failure: str = ""

    def kind(self) -> str:
        if self.sheet is None:
            return "without an answer"
        if self.sheet.refusal:
            return "turned back"
        return {sheet.CLOSED: "closed", sheet.OPEN: "open"}.get(self.sheet.verdict, "not judged")


def _opened(path: pathlib.Path) -> Entry:
    entry = Entry(path)
    try:
        entry.data = path.read_bytes()
        entry.job = job_file.read(entry.data)
    except OSError as error:
        entry.failure = f"cannot be read: {error.strerror}"
    except Refused:
        pass  # the program says so itself
    return entry


def _parsed(entry: Entry, text: str) -> sheet.Sheet:
    if entry.job is not None:
        return sheet.parsed(text, entry.job)
    told = sheet.parsed(text, Job([], [], 0, 0, (0.0, 0.0)))
    if told.refusal not in (1, 2):
        raise sheet.CutSheet("the program reads a job where these tools find none")
    return told


def _alone(entry: Entry, program: pathlib.Path, seconds: float) -> Entry:
    """One file through the job program."""
    try:
        entry.sheet = _parsed(entry, programs.run(program, entry.data, seconds))
    except (programs.ProgramFailed, sheet.CutSheet) as error:
        entry.failure = str(error) if isinstance(error, programs.ProgramFailed) else f"cut sheet: {error}"
    return entry


def _together(entries: Sequence[Entry], jobs: pathlib.Path, program: pathlib.Path, seconds: float) -> Sequence[Entry]:
    """Some files through one run of `jobs`; what it leaves out or cuts is asked of the job program."""
    texts = stream.run(jobs, [entry.data for entry in entries], seconds * len(entries))
    for entry, text in zip(entries, texts):
        try:
            entry.sheet = _parsed(entry, text or "")
        except sheet.CutSheet:
            _alone(entry, program, seconds)
    return entries


def _measure(entry: Entry, gaps: Optional[pathlib.Path], seconds: float) -> None:
    """Each row's gap of a file that is open, and where a refusal fell, for the last column."""
    if gaps is None or entry.sheet is None or entry.job is None or entry.kind() not in ("open", "turned back"):
        return
    try:
        measured = sheet.measured(programs.run(gaps, entry.data, seconds), entry.job)
        entry.sheet = sheet.joined(entry.sheet, measured)
    except (programs.ProgramFailed, sheet.CutSheet) as error:
        entry.failure = f"gaps: {error}"


def _worst(entry: Entry) -> str:
    """The joint to look at first."""
    if entry.failure:
        return entry.failure
    if entry.sheet is None or entry.job is None:
        return ""
    named = names.of(entry.path, entry.job)
    if entry.sheet.refusal:
        return report.place_in_words(entry.sheet, entry.job, named)
    beyond = [row for row in sheet.by_joint(entry.sheet, entry.job).values() if not row.within]
    return report.joint_in_words(beyond[0].owner, entry.job, named) if beyond else ""


def _line(entry: Entry) -> List[str]:
    rows = str(len(entry.job.rows)) if entry.job else "-"
    answer = entry.kind()
    if entry.sheet is not None and entry.sheet.refusal:
        answer += f" by {entry.sheet.refusal} ({refusal(entry.sheet.refusal).name})"
    gap = entry.sheet.gap if entry.sheet else None
    kinds = {row.dimension for row in entry.job.rows} if entry.job else set()
    told = [units.told(gap[kind], kind) if gap and kind in kinds else "-" for kind in (0, 1)]
    return [entry.path.name, rows, answer, *told, _worst(entry)]


def _groups(entries: List[Entry], jobs: Optional[pathlib.Path]) -> List[List[Entry]]:
    """What is run at once: single files, or chunks for `jobs`, which is given no file that is too long for a job."""
    whole = [entry for entry in entries if not entry.failure]
    if jobs is None:
        return [[entry] for entry in whole]
    short = [entry for entry in whole if len(entry.data) <= job_file.MOST_BYTES]
    chunks = [short[k : k + CHUNK] for k in range(0, len(short), CHUNK)]
    return chunks + [[entry] for entry in whole if len(entry.data) > job_file.MOST_BYTES]


def totals(entries: Sequence[Entry]) -> str:
    kinds = ("closed", "open", "turned back", "not judged", "without an answer")
    counts = [sum(entry.kind() == kind for entry in entries) for kind in kinds]
    return f"{len(entries)} files: " + ", ".join(f"{count} {kind}" for count, kind in zip(counts, kinds))


def run(folder: pathlib.Path, at_once: int, seconds: float, out: IO[str], progress: IO[str]) -> int:
    """The table to `out`; the status is 1 where a file is left without a whole answer."""
    program, jobs, gaps = programs.needed("job"), programs.found("jobs"), programs.found("gaps")
    if not folder.is_dir():
        raise NotADirectoryError(20, "Not a directory", str(folder))
    entries = [_opened(path) for path in sorted(folder.glob("*.job"))]

    def work(group: List[Entry]) -> int:
        if jobs is None or len(group[0].data) > job_file.MOST_BYTES:
            _alone(group[0], program, seconds)
        else:
            _together(group, jobs, program, seconds)
        for entry in group:
            _measure(entry, gaps, seconds)
        return len(group)

    done = sum(bool(entry.failure) for entry in entries)
    with concurrent.futures.ThreadPoolExecutor(at_once) as pool:
        for finished in concurrent.futures.as_completed([pool.submit(work, group) for group in _groups(entries, jobs)]):
            done += finished.result()
            if progress.isatty():
                print(f"\r{done} of {len(entries)}", end="", file=progress, flush=True)
    if progress.isatty():
        print(file=progress)
    head = ["file", "rows", "answer", "widest, linear", "widest, angular", "where to look first"]
    for line in report.table([head] + [_line(entry) for entry in entries], indent=""):
        print(line, file=out)
    print(totals(entries), file=out)
    return 1 if any(entry.sheet is None or entry.failure for entry in entries) else 0
