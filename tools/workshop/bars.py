"""Each joint's measured gap against its tolerance, as bars over a scale of powers of ten.

The scale is gap by tolerance, so that millimetres and degrees share it: left of the heavy line is closed, right of it
open. A closed bar ends straight and is white, an open one ends in a point and is black.
"""

from __future__ import annotations

import math
from typing import List

from . import svg, units
from .job_file import Job
from .names import Names
from .sheet import Measured, Sheet, by_joint
from .view import Panel

SIZE = 14.0
LEAST_PITCH, MOST_PITCH = 25.0, 44.0
LOWEST = -20  # below this no double is told apart from rounding


class Scale:
    """Powers of ten from left to right, the tolerance among them."""

    def __init__(self, ratios: List[float], left: float, right: float) -> None:
        powers = [math.log10(ratio) for ratio in ratios if 0.0 < ratio < math.inf]
        self.low = max(LOWEST, min([math.floor(power) for power in powers] + [-2]))
        self.high = max([math.ceil(power) for power in powers] + [2])
        self.left, self.right = left, right

    def at(self, ratio: float) -> float:
        if ratio <= 0.0:
            return self.left
        power = min(max(math.log10(ratio) if ratio < math.inf else self.high, self.low), self.high)
        return self.left + (self.right - self.left) * (power - self.low) / (self.high - self.low)

    def ticks(self) -> List[int]:
        step = max(1, math.ceil((self.high - self.low) / 5))
        return [power for power in range(self.low, self.high + 1) if power % step == 0]


def panel_of(sheet: Sheet, job: Job, names: Names, panel: Panel) -> List[str]:
    """The bars, widest first; what does not fit is counted, never dropped in silence."""
    entries = list(by_joint(sheet, job).items())
    top = panel.top + 62.0
    room = int((panel.bottom - top - 30.0) / LEAST_PITCH)
    shown = entries if len(entries) <= room else entries[: room - 1]
    pitch = min(MOST_PITCH, (panel.bottom - top - 30.0) / max(1, len(shown)))
    left, right = panel.left + 150.0, panel.right - 178.0
    scale = Scale([row.ratio for _, row in entries], left, right)
    bottom = top + pitch * len(shown)
    parts = [svg.text("Measured gap of each joint", (panel.left, panel.top + 16.0), 16.0, font_weight="bold")]
    parts += _axis(scale, top, bottom, panel)
    for k, ((owner, dimension), row) in enumerate(shown):
        parts += _bar(row, dimension, names.joint(owner), names.kind(owner), scale, top + pitch * (k + 0.5), panel)
    if len(shown) < len(entries):
        words = f"and {len(entries) - len(shown)} more, none wider by its tolerance: see 'zapekuri show'"
        parts.append(svg.text(words, (panel.left, bottom + 22.0), SIZE))
    return parts


def _axis(scale: Scale, top: float, bottom: float, panel: Panel) -> List[str]:
    parts = []
    for power in scale.ticks():
        x = scale.at(10.0**power)
        if power:
            parts.append(
                svg.line((x, top - 6.0), (x, bottom), stroke="#999999", stroke_width=0.8, stroke_dasharray="2 3")
            )
            parts.append(svg.text(f"1e{power}", (x, top - 10.0), 12.0, text_anchor="middle"))
    x = scale.at(1.0)
    parts.append(svg.line((x, top - 8.0), (x, bottom + 4.0), stroke_width=3))
    parts.append(svg.text("tolerance", (x, top - 26.0), 13.0, text_anchor="middle", font_weight="bold"))
    if 0 in scale.ticks():
        parts.append(svg.text("1", (x, top - 11.0), 12.0, text_anchor="middle"))
    parts.append(svg.text("gap by tolerance", (panel.left, top - 10.0), 12.0))
    return parts


def _bar(row: Measured, dimension: int, name: str, kind: str, scale: Scale, y: float, panel: Panel) -> List[str]:
    start, end, half = scale.left, scale.at(row.ratio), 6.5
    label = _label(name, kind, 146.0)
    parts = [svg.text(label, (panel.left, y + 5.0), SIZE, font_weight="normal" if row.within else "bold")]
    if row.within:
        parts.append(
            svg.rectangle(
                (start, y - half), max(end - start, 1.5), 2 * half, fill="white", stroke="black", stroke_width=1.6
            )
        )
    else:
        tip = max(end, start + 14.0)
        points = [(start, y - half), (tip - 10.0, y - half), (tip, y), (tip - 10.0, y + half), (start, y + half)]
        parts.append(svg.polygon(points, fill="black", stroke="black", stroke_width=1.6))
    told = units.told(row.number, dimension).replace(" deg", "°")
    answer, weight = ("closed", "normal") if row.within else ("OPEN", "bold")
    parts.append(svg.text(told, (panel.right - 66.0, y + 5.0), SIZE, text_anchor="end"))
    return parts + [svg.text(answer, (panel.right, y + 5.0), SIZE, text_anchor="end", font_weight=weight)]


def _label(name: str, kind: str, width: float) -> str:
    """Name and kind; where there is no room, the name alone, and of a long name its beginning."""
    words = f"{name} {kind}".strip()
    return words if svg.width_of(words, SIZE) <= width else svg.cut(name, width, SIZE)
