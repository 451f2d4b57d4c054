"""A link's inverse inertia, nine numbers by columns, from its moments, its whole inertia, or its shape and mass.

An inertia by hand is judged as the library's `inverse_spd` judges it, by refusals 22, 23 and 12 in this order. The
inverse itself is worked here, in Python, and is not proved.
"""

from __future__ import annotations

import math
from typing import Sequence, Tuple

from .refusals import Refused
from .vectors import X, Y, Z, Vector, dot

Columns = Tuple[float, ...]
NONE: Columns = (0.0,) * 9


def diagonal(x: float, y: float, z: float) -> Columns:
    """Nine numbers of which only the diagonal is filled."""
    return (x, 0.0, 0.0, 0.0, y, 0.0, 0.0, 0.0, z)


def about(axis: Vector, inverse: float) -> Columns:
    """A link that turns about one axis alone, as in a plane."""
    return tuple(inverse * axis[i] * axis[j] for j in range(3) for i in range(3))


def of_box(mass: float, x: float, y: float, z: float) -> Columns:
    """A box with its edges along the bench's axes."""
    return diagonal(12.0 / (mass * (y * y + z * z)), 12.0 / (mass * (z * z + x * x)), 12.0 / (mass * (x * x + y * y)))


def of_cylinder(mass: float, radius: float, length: float, axis: Vector) -> Columns:
    """A rod or a disc about its axis: they differ only in what is long."""
    sideways = 4.0 / (mass * (radius * radius + length * length / 3.0))
    lengthwise = 2.0 / (mass * radius * radius)
    if axis in (X, Y, Z):  # without the rounding of the general case
        return diagonal(*(lengthwise if part else sideways for part in axis))
    return tuple(sideways * (i == j) + (lengthwise - sideways) * axis[i] * axis[j] for j in range(3) for i in range(3))


def of_thin_rod(mass: float, length: float) -> float:
    """About an axis across a rod."""
    return 12.0 / (mass * length * length)


def of_flat_disc(mass: float, radius: float) -> float:
    """About a disc's own axis."""
    return 2.0 / (mass * radius * radius)


def inverse(inertia: Sequence[float]) -> Columns:
    """The inverse of a symmetric, positive definite inertia, nine numbers by columns; Refused where it is not."""
    scale = max(abs(number) for number in inertia)
    if scale == 0.0:
        raise Refused(23, "all nine numbers are 0")
    scaled = [number / scale for number in inertia]
    for column, row in ((0, 1), (0, 2), (1, 2)):
        if abs(scaled[3 * column + row] - scaled[3 * row + column]) > 2.0**-47:
            raise Refused(22, f"{inertia[3 * column + row]:g} and {inertia[3 * row + column]:g}")
    factor = _factor(scaled)
    columns = [_solved(factor, unit, scale) for unit in range(3)]
    return tuple(number for column in columns for number in column)


def _factor(scaled: Sequence[float]) -> Tuple[Tuple[float, ...], ...]:
    """Cholesky's triangle by rows."""
    rows = [[0.0] * 3 for _ in range(3)]
    for row in range(3):
        for column in range(row + 1):
            rest = scaled[3 * column + row] - sum(rows[row][k] * rows[column][k] for k in range(column))
            if row == column:
                if not 0.0 < rest < math.inf:
                    raise Refused(23)
                rows[row][row] = math.sqrt(rest)
            else:
                rows[row][column] = rest / rows[column][column]
    return tuple(tuple(row) for row in rows)


def _solved(factor: Sequence[Sequence[float]], unit: int, scale: float) -> Tuple[float, ...]:
    """One column of the inverse: forward, then backward."""
    forward, column = [0.0] * 3, [0.0] * 3
    for i in range(3):
        right = (1.0 if i == unit else 0.0) / scale
        forward[i] = (right - sum(factor[i][k] * forward[k] for k in range(i))) / factor[i][i]
    for i in reversed(range(3)):
        column[i] = (forward[i] - sum(factor[k][i] * column[k] for k in range(i + 1, 3))) / factor[i][i]
    if not all(math.isfinite(number) for number in column):
        raise Refused(12)
    return tuple(column)


def turned(columns: Sequence[float], vector: Vector) -> Vector:
    """A matrix by columns times a vector: from an angular impulse to how far a link turns."""
    x, y, z = (dot((columns[i], columns[3 + i], columns[6 + i]), vector) for i in range(3))
    return (x, y, z)
