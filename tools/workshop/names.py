"""The side file JOB.names: what a job file has no room for. `make` writes it, `show`, `picture` and `batch` read it.

Words in lines: a first line with the job's fingerprint, a title, a line for each link by its number, and one for each
joint with its kind and, in millimetres, both links' points and the axis where there is one. A side file whose
fingerprint is not the job's belongs to another job and is not used.
"""

from __future__ import annotations

import dataclasses
import pathlib
from typing import Dict, Optional, Tuple

from .job_file import Job
from .mechanism import Mechanism
from .vectors import Vector, times

MARK = "zapekuri-names"


@dataclasses.dataclass(frozen=True)
class NamedJoint:
    name: str
    kind: str
    points: Optional[Tuple[Vector, Vector]] = None
    axis: Optional[Vector] = None


@dataclasses.dataclass(frozen=True)
class Names:
    """Names by number; a number without one is told as a number."""

    title: str = ""
    links: Dict[int, str] = dataclasses.field(default_factory=dict)
    joints: Dict[int, NamedJoint] = dataclasses.field(default_factory=dict)
    note: str = ""

    def link(self, number: int) -> str:
        return self.links.get(number, f"link {number}")

    def joint(self, owner: int) -> str:
        return self.joints[owner].name if owner in self.joints else f"joint {owner}"

    def kind(self, owner: int) -> str:
        return self.joints[owner].kind if owner in self.joints else ""


def beside(job: pathlib.Path) -> pathlib.Path:
    return job.with_name(job.name + ".names")


def _words(*vectors: Vector) -> str:
    return " ".join(repr(1000.0 * number) for vector in vectors for number in vector)


def text_of(mechanism: Mechanism, job: Job) -> str:
    """The side file of a job that was made from a description."""
    lines = [f"{MARK} {job.fingerprint()}", f"title {mechanism.title}".rstrip()]
    lines += [f"link {number} {link.name}" for number, link in enumerate(mechanism.links)]
    for owner, joint in enumerate(mechanism.joints):
        axis = joint.along or (joint.axes[0] if joint.axes else None)
        line = f"joint {owner} {joint.kind} {joint.name}"
        if joint.placed:
            line += f" at {_words(*joint.points)}"
        if axis:
            line += f" axis {' '.join(repr(number) for number in axis)}"
        lines.append(line)
    return "\n".join(lines) + "\n"


def _joint(words: list) -> NamedJoint:
    kind, name, rest = words[0], words[1], words[2:]
    points = axis = None
    if rest[:1] == ["at"]:
        numbers = [float(word) for word in rest[1:7]]
        points, rest = (times(0.001, tuple(numbers[:3])), times(0.001, tuple(numbers[3:]))), rest[7:]
    if rest[:1] == ["axis"]:
        axis = tuple(float(word) for word in rest[1:4])
    return NamedJoint(name, kind, points, axis)


def parsed(text: str, job: Job) -> Names:
    """The names in a side file, or none with a note where it belongs to another job or is damaged."""
    lines = text.splitlines()
    if not lines or lines[0].split() != [MARK, job.fingerprint()]:
        return Names(note="The names beside it are another job's and are not used.")
    title, links, joints = "", {}, {}
    try:
        for line in lines[1:]:
            what, *words = line.split()
            if what == "title":
                title = " ".join(words)
            elif what == "link":
                links[int(words[0])] = words[1]
            elif what == "joint":
                joints[int(words[0])] = _joint(words[1:])
    except (ValueError, IndexError):
        return Names(note="The names beside it are damaged and are not used.")
    return Names(title, links, joints)


def of(path: pathlib.Path, job: Job) -> Names:
    """The names beside a job file, if there are any."""
    try:
        return parsed(beside(path).read_text(encoding="utf-8"), job)
    except (FileNotFoundError, UnicodeDecodeError):
        return Names()
