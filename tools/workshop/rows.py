"""From joints to rows: which directions each kind of joint holds, and what the scan measured along them.

A linear row along n says that the two links' points do not part along n: n · (p_a − p_b) = 0. When link a moves by x
and turns by t its point moves by x + t × arm, so the row's numbers are n and arm_a × n for a, the same negated for b,
and its error is what n · (p_a − p_b) is on the scan. An angular row about n says that a is not turned against b:
n for a, −n for b, and the measured angle for the error.

| kind  | in space, linear | angular         | in a plane, linear | angular      |
|-------|------------------|-----------------|--------------------|--------------|
| pin   | x, y, z          | 2 across axis   | 2 in the plane     | none         |
| pivot | 2 across axis    | none            | 2 in the plane     | none         |
| ball  | x, y, z          | none            | 2 in the plane     | none         |
| slide | 2 across axis    | x, y, z         | 1 across axis      | 1            |
| weld  | x, y, z          | x, y, z         | 2 in the plane     | 1            |
| gear  | of a wheel in a rack: 1 along the rack; of two wheels: 1 angular row, the teeth's ratio               |
"""

from __future__ import annotations

from typing import List, Sequence

from .job_file import ANGULAR, LINEAR, Body, Job, Row
from .mechanism import KEYS, Joint, Link, Mechanism
from .vectors import X, Y, Z, ZERO, Vector, across, cross, dot, minus, negated, plus, times


def linear_directions(joint: Joint, plane: Vector | None) -> Sequence[Vector]:
    """Along which directions the joint's two points must not part."""
    if joint.kind == "gear":
        return (joint.along,) if joint.along else ()
    if joint.kind == "slide":
        return (cross(plane, joint.axes[0]),) if plane else across(joint.axes[0])
    if plane:
        return across(plane)
    return across(joint.axes[0]) if joint.kind == "pivot" else (X, Y, Z)


def angular_directions(joint: Joint, plane: Vector | None) -> Sequence[Vector]:
    """About which directions one link must not turn against the other."""
    if joint.kind in ("slide", "weld"):
        return (plane,) if plane else (X, Y, Z)
    if joint.kind == "pin" and not plane:
        return across(joint.axes[0])
    return ()


def _linear(joint: Joint, owner: int, direction: Vector, links: Sequence[Link]) -> Row:
    arm_a = minus(joint.points[0], links[joint.a].centre)
    arm_b = minus(joint.points[1], links[joint.b].centre)
    # of a wheel in a rack the scan tells how far the teeth are off, not two points
    error = joint.slip if joint.kind == "gear" else dot(minus(*joint.points), direction)
    return Row(
        LINEAR,
        KEYS[joint.kind],
        owner,
        joint.a,
        joint.b,
        direction,
        cross(arm_a, direction),
        negated(direction),
        negated(cross(arm_b, direction)),
        error,
    )


def _angular(joint: Joint, owner: int, direction: Vector) -> Row:
    # Where both links' axes were scanned, the turn across them is b's axis × a's, to first order in the angle.
    turn = plus(joint.turn, cross(joint.axes[1], joint.axes[0])) if joint.axes else joint.turn
    error = dot(turn, direction)
    return Row(ANGULAR, KEYS[joint.kind], owner, joint.a, joint.b, ZERO, direction, ZERO, negated(direction), error)


def _gear(joint: Joint, owner: int) -> Row:
    """Teeth of a times its angle is minus teeth of b times its own: the wheels turn against each other."""
    axis_a, axis_b = joint.axes
    return Row(
        ANGULAR, KEYS["gear"], owner, joint.a, joint.b, ZERO, times(joint.ratio, axis_a), ZERO, axis_b, joint.slip
    )


def rows_of(joint: Joint, owner: int, links: Sequence[Link], plane: Vector | None) -> List[Row]:
    """The rows of one joint, linear before angular."""
    if joint.ratio is not None:
        return [_gear(joint, owner)]
    rows = [_linear(joint, owner, direction, links) for direction in linear_directions(joint, plane)]
    return rows + [_angular(joint, owner, direction) for direction in angular_directions(joint, plane)]


def job_of(mechanism: Mechanism) -> Job:
    """The whole job: joints in their order, each the owner of its rows."""
    rows = [
        row
        for owner, joint in enumerate(mechanism.joints)
        for row in rows_of(joint, owner, mechanism.links, mechanism.plane)
    ]
    bodies = [Body(link.inverse_mass, link.inverse_inertia, link.centre) for link in mechanism.links]
    # In exact arithmetic the method ends after as many steps as there are rows; twice that leaves room for rounding.
    limit = 2 * len(rows) if mechanism.limit is None else mechanism.limit
    linear, angular = mechanism.tolerances
    return Job(rows, bodies, limit, mechanism.mode, (linear, 0.0 if angular is None else angular))
