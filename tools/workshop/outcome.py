"""What came of a job: its sheet, from the programs or from stored texts, with each row's gap where it is known."""

from __future__ import annotations

import pathlib
from typing import NamedTuple, Optional, Sequence

from . import programs, sheet
from .job_file import Job


class Outcome(NamedTuple):
    sheet: sheet.Sheet
    note: str = ""


def _is_sheet_of_job(text: str) -> bool:
    """A sheet has lines of rows and bodies; a text of `gaps` has none."""
    return any(line.startswith(("row ", "body ")) for line in text.split("\n"))


def stored(texts: Sequence[str], job: Job) -> Outcome:
    """From one or two stored texts: of `job`, of `gaps`, or both."""
    sheets = [sheet.parsed(text, job) for text in texts if _is_sheet_of_job(text)]
    gaps = [sheet.measured(text, job) for text in texts if not _is_sheet_of_job(text)]
    if len(sheets) > 1 or len(gaps) > 1:
        raise sheet.CutSheet("two texts of one program: expected one of job and one of gaps")
    if not sheets:
        return Outcome(gaps[0])
    return Outcome(sheet.joined(sheets[0], gaps[0] if gaps else None))


def computed(data: bytes, job: Job, program: Optional[pathlib.Path] = None, seconds: Optional[float] = None) -> Outcome:
    """By running the programs: `job`, or the one named, and `gaps` where it was built."""
    text = programs.run(program or programs.needed("job"), data, seconds)
    whole, gaps = sheet.parsed(text, job), programs.found("gaps")
    if gaps is None:
        return Outcome(whole, "Each joint's own gap is told by the program gaps: 'rt run' in crates/gaps proves and builds it.")
    return Outcome(sheet.joined(whole, sheet.measured(programs.run(gaps, data, seconds), job)))
