"""Vectors of three doubles, as tuples, with the few operations that rows are made of."""

from __future__ import annotations

import math
from typing import Tuple

Vector = Tuple[float, float, float]

ZERO: Vector = (0.0, 0.0, 0.0)
X: Vector = (1.0, 0.0, 0.0)
Y: Vector = (0.0, 1.0, 0.0)
Z: Vector = (0.0, 0.0, 1.0)
AXES = {"x": X, "y": Y, "z": Z}


def plus(u: Vector, v: Vector) -> Vector:
    return (u[0] + v[0], u[1] + v[1], u[2] + v[2])


def minus(u: Vector, v: Vector) -> Vector:
    return (u[0] - v[0], u[1] - v[1], u[2] - v[2])


def negated(u: Vector) -> Vector:
    return (-u[0], -u[1], -u[2])


def times(factor: float, u: Vector) -> Vector:
    return (factor * u[0], factor * u[1], factor * u[2])


def dot(u: Vector, v: Vector) -> float:
    return u[0] * v[0] + u[1] * v[1] + u[2] * v[2]


def cross(u: Vector, v: Vector) -> Vector:
    return (u[1] * v[2] - u[2] * v[1], u[2] * v[0] - u[0] * v[2], u[0] * v[1] - u[1] * v[0])


def length(u: Vector) -> float:
    return math.hypot(*u)


def unit(u: Vector) -> Vector:
    """The direction of u, whose length is above 0; an axis of the bench keeps its exact numbers."""
    size = length(u)
    return (u[0] / size, u[1] / size, u[2] / size)


def across(axis: Vector) -> Tuple[Vector, Vector]:
    """Two directions square to a unit axis and to each other; for an axis of the bench, the two others in turn."""
    for own, pair in ((X, (Y, Z)), (Y, (Z, X)), (Z, (X, Y))):
        if axis == own:
            return pair
    # The bench's axis that lies least along this one is the safest to start from.
    start = min((X, Y, Z), key=lambda own: abs(dot(own, axis)))
    first = unit(cross(axis, start))
    return first, cross(axis, first)
