"""A joint's sign by its kind, and the ground under a frame.

White where the joint is closed, black within a diamond where it is open, dashed where nothing was measured.
"""

from __future__ import annotations

import math
from typing import Dict, List, Optional

from . import svg
from .svg import Point

SIGN = 9.0  # about half a sign's width
DIAMOND = 2.1 * SIGN


def sign(kind: str, at: Point, axis: Optional[Point], black: bool, measured: bool) -> List[str]:
    """A circle for pins, pivots and balls, a box for slides and welds, teeth for gears."""
    style: Dict[str, object] = {"stroke": "black", "stroke_width": 2, "fill": "black" if black else "white"}
    if not measured and not black:
        style.update(fill="#cccccc" if kind == "gear" else "white", stroke_dasharray="3 2")
    parts = _diamond(at) if black else []
    if kind in ("slide", "weld"):
        return parts + [_box(kind, at, axis, style)]
    if kind == "gear":
        return parts + [_circle(at, SIGN, **{**style, "stroke_dasharray": "3.5 2.2", "stroke_width": 5})]
    parts.append(_circle(at, SIGN * 0.85, **style))
    rim = {"stroke": "white" if black else "black", "stroke_width": 1.5}
    if kind == "ball":
        parts.append(_circle(at, SIGN * 0.5, fill="none", **rim))
    elif kind == "pivot":
        parts.append(_circle(at, SIGN * 0.25, fill="black", **rim))
    return parts


def _circle(at: Point, radius: float, **style: object) -> str:
    return svg.element("circle", cx=at[0], cy=at[1], r=radius, **style)


def _diamond(at: Point) -> List[str]:
    x, y = at
    corners = [(x - DIAMOND, y), (x, y - DIAMOND), (x + DIAMOND, y), (x, y + DIAMOND)]
    return [svg.polygon(corners, fill="white", stroke="black", stroke_width=2.5)]


def _box(kind: str, at: Point, axis: Optional[Point], style: Dict[str, object]) -> str:
    """A slide lies along its axis."""
    angle = math.degrees(math.atan2(axis[1], axis[0])) if axis and math.hypot(*axis) > 1e-9 else 0.0
    half = SIGN * (1.5 if kind == "slide" else 1.0)
    turn = f"rotate({angle:.1f} {at[0]:.2f} {at[1]:.2f})"
    return svg.rectangle((at[0] - half, at[1] - SIGN * 0.8), 2 * half, 1.6 * SIGN, transform=turn, **style)


def ground(at: Point) -> List[str]:
    """The frame beneath a joint: a line with strokes, as drawing offices draw it."""
    x, y = at[0], at[1] + SIGN + 9.0
    parts = [svg.line((x - 16.0, y), (x + 16.0, y), stroke_width=2.5), svg.line(at, (x, y), stroke_width=2)]
    return parts + [svg.line((x + k, y), (x + k - 6.0, y + 7.0), stroke_width=1.2) for k in (-10.0, -3.0, 4.0, 11.0)]
