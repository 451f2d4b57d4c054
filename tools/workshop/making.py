"""From a description's text to a job, with what can be foreseen of it."""

from __future__ import annotations

from typing import List, NamedTuple

from . import description, job_file
from .foresight import Foreseen, foreseen
from .mechanism import Mechanism
from .rows import job_of
from .words import Problem


class Made(NamedTuple):
    mechanism: Mechanism
    job: job_file.Job
    foreseen: List[Foreseen]


def made(text: str, file: str) -> Made:
    """Problem where the text is no description, Refused by 2 where the mechanism is too large for a job file."""
    mechanism = description.read(text, file)
    job = job_of(mechanism)
    if mechanism.tolerances[1] is None and any(row.dimension for row in job.rows):
        joint = mechanism.joints[next(row.owner for row in job.rows if row.dimension)]
        message = f"expected a tolerance in deg too: '{joint.name}' in line {joint.line} has rows of angle"
        raise Problem(file, mechanism.lines["tolerance"], message)
    return Made(mechanism, job, foreseen(mechanism, job))
