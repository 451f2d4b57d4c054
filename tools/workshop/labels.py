"""Where labels stand: each beside what it names, off other labels, joints and links, and inside its panel."""

from __future__ import annotations

import math
from typing import List, NamedTuple, Optional, Sequence, Tuple

from .svg import Point, width_of
from .view import Panel

Segment = Tuple[Point, Point]
HALF_BAR = 6.5  # half of a link's bar
REACHES = (16.0, 26.0, 40.0, 58.0, 80.0, 110.0)  # how far off a label may stand


class Box(NamedTuple):
    left: float
    top: float
    right: float
    bottom: float

    def overlap(self, other: "Box") -> float:
        across = min(self.right, other.right) - max(self.left, other.left)
        down = min(self.bottom, other.bottom) - max(self.top, other.top)
        return across * down if across > 0.0 and down > 0.0 else 0.0

    def near(self, point: Point, reach: float) -> bool:
        across = self.left - reach <= point[0] <= self.right + reach
        return across and self.top - reach <= point[1] <= self.bottom + reach


class Label(NamedTuple):
    """A label's words and where their box stands; the leader runs from the box to what is named."""

    words: str
    box: Box
    anchor: Point
    far: bool


def around(point: Point, radius: float) -> Box:
    return Box(point[0] - radius, point[1] - radius, point[0] + radius, point[1] + radius)


class Placer:
    """Places labels one after the other, each at the best of the places around its anchor."""

    def __init__(self, panel: Panel, taken: Sequence[Box], segments: Sequence[Segment]) -> None:
        self.panel, self.taken = panel, list(taken)
        self.dots = [dot for segment in segments for dot in _dots(segment)]

    def place(self, words: str, anchor: Point, size: float) -> Optional[Label]:
        """None where there is no room that is free of other labels and signs."""
        width, height = width_of(words, size) + 4.0, 1.25 * size
        reached = around(anchor, REACHES[-1] + width + HALF_BAR)
        taken = [box for box in self.taken if reached.overlap(box) > 0.0]
        dots = [dot for dot in self.dots if reached.near(dot, 0.0)]
        boxes = [(self._cost(box, reach, taken, dots), reach, box) for reach, box in _candidates(anchor, width, height)]
        _, reach, box = min(boxes, key=lambda item: item[0])
        if self._outside(box) > 0.0 or any(box.overlap(other) > 0.0 for other in taken):
            return None
        self.taken.append(box)
        return Label(words, box, anchor, reach > 26.0)

    def _outside(self, box: Box) -> float:
        panel = self.panel
        return max(0.0, panel.left - box.left, box.right - panel.right, panel.top - box.top, box.bottom - panel.bottom)

    def _cost(self, box: Box, reach: float, taken: Sequence[Box], dots: Sequence[Point]) -> float:
        overlap = sum(box.overlap(other) for other in taken)
        crossed = sum(1 for dot in dots if box.near(dot, HALF_BAR))
        return 1000.0 * self._outside(box) + 10.0 * overlap + 40.0 * crossed + reach


def _dots(segment: Segment) -> List[Point]:
    """Points along a segment, a bar's half width apart."""
    (x1, y1), (x2, y2) = segment
    count = 1 + int(math.dist(*segment) / HALF_BAR)
    return [(x1 + k / count * (x2 - x1), y1 + k / count * (y2 - y1)) for k in range(count + 1)]


def _candidates(anchor: Point, width: float, height: float) -> List[Tuple[float, Box]]:
    """Boxes around an anchor, near ones first."""
    places = []
    for reach in REACHES:
        for eighth in range(16):
            angle = eighth * math.pi / 8.0
            x, y = anchor[0] + reach * math.cos(angle), anchor[1] - reach * math.sin(angle)
            left = x - width * (1.0 - math.cos(angle)) / 2.0
            top = y - height * (1.0 + math.sin(angle)) / 2.0
            places.append((reach, Box(left, top, left + width, top + height)))
    return places
