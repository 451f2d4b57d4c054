"""Reads one line of a description that tells a joint.

What a scanner gives: each link is scanned by itself, so a joint is seen twice, and the two points (`at P and Q`, the
first link's and the second's) are its gap. A gap taken with a feeler or a dial is told by `at P gap G` instead.
"""

from __future__ import annotations

import dataclasses
import math
from typing import Mapping, Optional, Tuple

from . import units
from .mechanism import Joint, Link
from .vectors import AXES, ZERO, Vector, dot, negated, plus, times
from .words import Words

# What each kind takes, and what it cannot do without in space and in a plane.
TAKES = {
    "pin": ("at", "gap", "axis", "turn"),
    "pivot": ("at", "gap", "axis"),
    "ball": ("at", "gap"),
    "slide": ("at", "gap", "axis", "turn"),
    "weld": ("at", "gap", "turn"),
    "gear": ("teeth", "axis", "inside", "at", "along", "slip"),
}

# Rows are of first order in the angle: further apart than this, two axes are not one axis scanned twice.
MOST_APART = math.radians(10.0)


@dataclasses.dataclass
class Told:
    """What a line has told so far."""

    points: Optional[Tuple[Vector, Optional[Vector]]] = None
    gap: Optional[Vector] = None
    axes: Optional[Tuple[Vector, Vector]] = None
    turn: Optional[Vector] = None
    teeth: Optional[Tuple[float, float]] = None
    along: Optional[Vector] = None
    slip: Optional[str] = None
    inside: Optional[bool] = None


def joint_of(kind: str, words: Words, links: Mapping[str, Link], plane: Optional[str]) -> Joint:
    """The joint that a line tells, its kind already taken."""
    name = words.take("the joint's name")
    numbers = [_link_number(words, links, which) for which in ("first", "second")]
    told = Told()
    while words.look() is not None:
        word = words.take("")
        if word not in TAKES[kind]:
            raise words.problem(f"expected of a {kind}: {', '.join(TAKES[kind])}; found '{word}'")
        _option(word, words, told, plane)
    joint = Joint(name, kind, numbers[0], numbers[1], (ZERO, ZERO), words.line)
    return _gear(joint, words, told, plane) if kind == "gear" else _held(joint, words, told, plane)


def _link_number(words: Words, links: Mapping[str, Link], which: str) -> int:
    name = words.take(f"the {which} link's name")
    if name not in links:
        known = f"; known so far: {', '.join(links)}" if links else "; there is none so far"
        raise words.problem(f"expected the {which} link's name, found '{name}'{known}")
    return list(links).index(name)


def _option(word: str, words: Words, told: Told, plane: Optional[str]) -> None:
    field = "points" if word == "at" else "axes" if word == "axis" else word
    if getattr(told, field) is not None:
        raise words.problem(f"'{word}' stands twice: expected it once")
    if word == "at":
        first = words.vector(units.metres, "a point in mm", plane)
        second = words.vector(units.metres, "the second link's point in mm", plane) if words.took("and") else None
        told.points = (first, second)
    elif word == "gap":
        told.gap = words.vector(units.metres, "the gap in mm", plane)
    elif word == "axis":
        axis = words.direction("the axis")
        told.axes = (axis, words.direction("the second link's axis") if words.took("and") else axis)
    elif word == "turn":
        told.turn = _turn(words, plane)
    elif word == "teeth":
        first = words.above_zero(units.plain, "the first link's teeth,")
        told.teeth = (first, words.above_zero(units.plain, "the second link's teeth,"))
    elif word == "along":
        told.along = words.direction("the rack's direction")
    elif word == "slip":
        told.slip = words.take("by how much the teeth are off")
    else:
        told.inside = True


def _turn(words: Words, plane: Optional[str]) -> Vector:
    """Degrees about x, y and z; in a plane one number, about its axis."""
    if plane is None:
        return words.vector(units.radians, "the turn in degrees about x, y and z")
    angle = words.number(units.radians, "the turn in degrees")
    return times(angle, AXES[plane])


def _held(joint: Joint, words: Words, told: Told, plane: Optional[str]) -> Joint:
    """Pin, pivot, ball, slide or weld: two points that should be one."""
    if told.points is None or (told.points[1] is None) == (told.gap is None):
        raise words.problem("expected 'at P and Q', both links' points, or 'at P gap G'")
    first, second = told.points
    points = (first, second) if second is not None else (plus(first, told.gap or ZERO), first)
    axes = _axes(joint.kind, words, told, plane) if "axis" in TAKES[joint.kind] else None
    if plane and told.turn is not None and joint.kind == "pin":
        raise words.problem("expected no 'turn': in a plane a pin leaves turning free")
    return dataclasses.replace(joint, points=points, axes=axes, turn=told.turn or ZERO)


def _axes(kind: str, words: Words, told: Told, plane: Optional[str]) -> Optional[Tuple[Vector, Vector]]:
    """The axis that the kind needs: a slide's always, and in a plane across its axis; the others' in space alone."""
    across = AXES[plane] if plane else None
    if kind == "slide" and told.axes and across and any(abs(dot(axis, across)) > 1e-12 for axis in told.axes):
        raise words.problem("expected an axis that lies in the plane")
    if kind != "slide" and across:
        if told.axes and any(axis != across for axis in told.axes):
            raise words.problem(f"expected no axis but {plane}: in a plane pins stand across it")
        return None
    if told.axes is None:
        raise words.problem(f"expected 'axis' and a direction: a {kind} has one")
    return _paired(words, told.axes, told.turn)


def _paired(words: Words, axes: Tuple[Vector, Vector], turn: Optional[Vector]) -> Tuple[Vector, Vector]:
    """Both links' axes, pointing the same way: a scanner may take one from its other end."""
    first, second = axes
    if first != second and turn is not None:
        raise words.problem("expected either 'turn' or two axes: both tell how the links are turned")
    second = negated(second) if dot(first, second) < 0.0 else second
    if dot(first, second) < math.cos(MOST_APART):
        raise words.problem("expected two axes that are at most 10 degrees apart")
    return first, second


def _gear(joint: Joint, words: Words, told: Told, plane: Optional[str]) -> Joint:
    """Two wheels by their teeth, or a wheel in a rack where `along` tells the rack's direction."""
    if (told.teeth is None) == (told.along is None):
        raise words.problem("expected either 'teeth N M', of two wheels, or 'along' and a direction, of a rack")
    if told.slip is None:
        raise words.problem("expected 'slip': by how much the teeth are off, of wheels in degrees, of a rack in mm")
    try:
        slip = (units.radians if told.teeth else units.metres)(told.slip)
    except units.NotANumber as error:
        raise words.problem(f"expected a slip: {error}") from None
    if told.teeth is None:
        return _rack(dataclasses.replace(joint, slip=slip), words, told)
    if told.axes is None and plane is None:
        raise words.problem("expected 'axis' and a direction: wheels have one")
    if told.points is not None and told.points[1] is not None:
        raise words.problem("expected one point of a gear: where the teeth meet")
    axis_a, axis_b = told.axes or (AXES[plane or "z"],) * 2
    point = told.points[0] if told.points else None
    return dataclasses.replace(
        joint,
        slip=slip,
        ratio=told.teeth[0] / told.teeth[1],
        axes=(axis_a, negated(axis_b) if told.inside else axis_b),
        points=(point, point) if point else (ZERO, ZERO),
        placed=point is not None,
    )


def _rack(joint: Joint, words: Words, told: Told) -> Joint:
    if told.points is None or told.points[1] is not None or told.axes or told.inside:
        raise words.problem("expected of a rack: 'at', one point where the teeth meet, 'along' and 'slip'")
    return dataclasses.replace(joint, along=told.along, points=(told.points[0], told.points[0]))
