"""What in a description the job program will turn back, told by `make` beforehand with its line.

The file is written all the same: the program decides.
"""

from __future__ import annotations

import math
from typing import List, NamedTuple

from .job_file import Job
from .mechanism import Mechanism


class Foreseen(NamedTuple):
    line: int
    number: int
    detail: str


def foreseen(mechanism: Mechanism, job: Job) -> List[Foreseen]:
    """The refusals that can be seen without solving."""
    found: List[Foreseen] = []
    if any(tolerance < 0.0 for tolerance in job.tolerances):
        found.append(Foreseen(mechanism.lines["tolerance"], 26, "a tolerance is below 0"))
    if job.rows and job.limit == 0:
        found.append(Foreseen(mechanism.lines.get("limit", 1), 5, "the limit is 0"))
    for link, body in zip(mechanism.links, job.bodies):
        if not all(math.isfinite(number) for number in (body.inverse_mass, *body.inverse_inertia)):
            found.append(Foreseen(link.line, 6, f"the inverse of '{link.name}' is beyond the doubles"))
    for owner, joint in enumerate(mechanism.joints):
        if joint.a == joint.b:
            found.append(Foreseen(joint.line, 7, f"'{joint.name}' joins '{mechanism.links[joint.a].name}' with itself"))
            continue
        gapes = any(row.owner == owner and abs(row.error) > job.tolerance(i) for i, row in enumerate(job.rows))
        if gapes and all(mechanism.links[end].stands for end in (joint.a, joint.b)):
            found.append(Foreseen(joint.line, 9, f"'{joint.name}' gapes between two frames"))
    return found
