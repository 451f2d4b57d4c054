"""What there is to draw: links as bars from their centres to their joints, and the spots where joints are seen."""

from __future__ import annotations

import dataclasses
import math
from typing import Dict, List, NamedTuple, Optional, Set, Tuple

from .job_file import Job
from .labels import Segment
from .names import Names
from .signs import SIGN
from .svg import Point
from .vectors import Vector, plus, times
from .view import Panel, View, fitted


class Marked(NamedTuple):
    """Joints drawn black in a diamond, and links, with the word that says why; and whether gaps were measured."""

    owners: Set[int]
    word: str
    measured: bool
    links: Set[int] = set()


class Bar(NamedTuple):
    """A link's bar to one of its joints; to where teeth meet it is thin."""

    link: int
    segment: Segment
    thin: bool


@dataclasses.dataclass
class Spot:
    """A place on the paper with the joints that are seen there: those drawn over each other are one spot."""

    at: Point
    owners: List[int]
    grounded: bool = False
    black: bool = False


class Scene(NamedTuple):
    view: View
    bars: List[Bar]
    spots: List[Spot]


def joint_places(names: Names) -> Dict[int, Vector]:
    """Where each joint stands that has a place: between its two links' points."""
    placed = {owner: joint.points for owner, joint in names.joints.items() if joint.points is not None}
    return {owner: times(0.5, plus(*points)) for owner, points in placed.items()}


def _stands(job: Job, link: int) -> bool:
    return link < len(job.bodies) and job.bodies[link].inverse_mass == 0.0


def _bars(job: Job, names: Names, ends: Dict[int, Tuple[int, int]], places: Dict[int, Vector], view: View) -> List[Bar]:
    bars = []
    for owner in (owner for owner in ends if owner in places):
        for link in ends[owner]:
            if link < len(job.bodies) and not _stands(job, link):
                segment = (view.place(job.bodies[link].centre), view.place(places[owner]))
                bars.append(Bar(link, segment, names.kind(owner) == "gear"))
    return bars


def _spots(
    job: Job, ends: Dict[int, Tuple[int, int]], places: Dict[int, Vector], view: View, black: Set[int]
) -> List[Spot]:
    spots: List[Spot] = []
    for owner, place in places.items():
        at = view.place(place)
        spot = next((spot for spot in spots if math.dist(spot.at, at) < 2 * SIGN), None)
        if spot is None:
            spot = Spot(at, [])
            spots.append(spot)
        spot.owners.append(owner)
        spot.grounded |= any(_stands(job, link) for link in ends.get(owner, ()))
        spot.black |= owner in black
    return spots


def scene_of(job: Job, names: Names, marked: Marked, panel: Panel, along: Optional[str]) -> Optional[Scene]:
    """None where nothing is known of places."""
    places = joint_places(names)
    if not places or not job.has_centres:
        return None
    ends = {row.owner: (row.a, row.b) for row in job.rows}
    moving = [body.centre for number, body in enumerate(job.bodies) if not _stands(job, number)]
    view = fitted([*places.values(), *moving], panel, along)
    return Scene(view, _bars(job, names, ends, places, view), _spots(job, ends, places, view, marked.owners))
