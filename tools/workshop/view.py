"""From places in space to places on the paper: the axis to look along, and the scale."""

from __future__ import annotations

import dataclasses
from typing import Iterable, List, Optional, Tuple

from .svg import Point
from .vectors import Vector

# What lies to the right and what upward, for each axis that is looked along.
SIDES = {"x": (1, 2), "y": (0, 2), "z": (0, 1)}


@dataclasses.dataclass(frozen=True)
class Panel:
    """A stretch of the paper."""

    left: float
    top: float
    right: float
    bottom: float


@dataclasses.dataclass(frozen=True)
class View:
    along: str
    scale: float  # units of the picture a metre
    middle: Tuple[float, float]
    centre: Point

    def place(self, point: Vector) -> Point:
        right, up = (point[side] for side in SIDES[self.along])
        return (
            self.centre[0] + self.scale * (right - self.middle[0]),
            self.centre[1] - self.scale * (up - self.middle[1]),
        )

    def step(self, direction: Vector) -> Point:
        """How a direction runs on the paper."""
        right, up = (direction[side] for side in SIDES[self.along])
        return (right, -up)

    def in_words(self) -> str:
        right, up = ("xyz"[side] for side in SIDES[self.along])
        return f"seen along {self.along}: {right} to the right, {up} upward"


def _spread(points: List[Vector], side: int) -> float:
    return max(point[side] for point in points) - min(point[side] for point in points)


def fitted(points: Iterable[Vector], panel: Panel, along: Optional[str], margin: float = 55.0) -> View:
    """The view that fits all points into a panel; where no axis is told, along that of least spread, z first."""
    all_points = list(points)
    axis = along or min("zyx", key=lambda name: _spread(all_points, "xyz".index(name)))
    right, up = SIDES[axis]
    width, height = panel.right - panel.left - 2 * margin, panel.bottom - panel.top - 2 * margin
    # a mechanism of one point is drawn as if it were a centimetre wide
    scale = min(width / max(_spread(all_points, right), 0.01), height / max(_spread(all_points, up), 0.01))
    middle = tuple((max(p[side] for p in all_points) + min(p[side] for p in all_points)) / 2 for side in (right, up))
    return View(axis, scale, middle, ((panel.left + panel.right) / 2, (panel.top + panel.bottom) / 2))
