"""The mechanism in its panel: bars, ground, signs, names, and a scale.

Open and closed joints differ in shape and in words, so that a copy in black and white says as much.
"""

from __future__ import annotations

from typing import List, NamedTuple, Optional, Sequence

from . import svg
from .job_file import Job
from .labels import Label, Placer, around
from .names import Names
from .scene import Bar, Marked, Scene, Spot, scene_of
from .signs import DIAMOND, SIGN, ground, sign
from .svg import Point
from .view import Panel, View

SIZE = 15.0
BOLD = 1.12  # how much wider bold letters are
FOOT = 40.0  # room for scale and view under the drawing
UNKNOWN = (
    "Where links and joints lie is not known: the job file was not made by 'zapekuri make', "
    "or its .names file is missing."
)


class Wanted(NamedTuple):
    """A label to be placed."""

    words: str
    at: Point
    bold: bool
    italic: bool


def mechanism(job: Job, names: Names, marked: Marked, panel: Panel, along: Optional[str]) -> List[str]:
    """The drawing; where nothing is known of places, words that say so."""
    above_foot = Panel(panel.left, panel.top, panel.right, panel.bottom - FOOT)
    scene = scene_of(job, names, marked, above_foot, along)
    if scene is None:
        return [svg.paragraph(UNKNOWN, (panel.left + 20.0, panel.top + 40.0), panel.right - panel.left - 40.0)[0]]
    parts = _bars(scene.bars)
    for spot in scene.spots:
        parts += ground(spot.at) if spot.grounded else []
    for spot in scene.spots:
        parts += _sign(spot, names, marked, scene.view)
    return parts + _labels(job, names, marked, scene, above_foot) + _foot(scene.view, panel)


def _bars(bars: Sequence[Bar]) -> List[str]:
    """Thin ones first; of thick ones all rims before any filling, so that a link is one shape."""
    parts = [svg.line(*bar.segment, stroke_width=1.6, stroke_dasharray="7 4") for bar in bars if bar.thin]
    for colour, width in (("black", 13.0), ("#d8d8d8", 9.5)):
        thick = [bar.segment for bar in bars if not bar.thin]
        parts += [svg.line(*segment, stroke=colour, stroke_width=width, stroke_linecap="round") for segment in thick]
    return parts


def _sign(spot: Spot, names: Names, marked: Marked, view: View) -> List[str]:
    """One sign for all joints of a spot: that of a marked one, if there is one."""
    owner = next((owner for owner in spot.owners if owner in marked.owners), spot.owners[0])
    axis = names.joints[owner].axis
    return sign(names.kind(owner), spot.at, view.step(axis) if axis else None, spot.black, marked.measured)


def _spot_words(spot: Spot, names: Names, marked: Marked) -> str:
    told = [names.joint(owner) + (f" {marked.word}" if owner in marked.owners else "") for owner in spot.owners]
    return ", ".join(told[:2]) + (f" and {len(told) - 2} more" if len(told) > 2 else "")


def _wanted(job: Job, names: Names, marked: Marked, scene: Scene) -> List[Wanted]:
    """Names of joints, marked ones first, then of links."""
    spots = sorted(scene.spots, key=lambda spot: not spot.black)
    labels = [Wanted(_spot_words(spot, names, marked), spot.at, spot.black, False) for spot in spots]
    for link in sorted({bar.link for bar in scene.bars}):
        bold = link in marked.links
        words = names.link(link) + (f" {marked.word}" if bold else "")
        labels.append(Wanted(words, scene.view.place(job.bodies[link].centre), bold, True))
    return labels


def _labels(job: Job, names: Names, marked: Marked, scene: Scene, panel: Panel) -> List[str]:
    """Every label that finds room; the others are counted."""
    taken = [around(spot.at, DIAMOND if spot.black else SIGN) for spot in scene.spots]
    taken += [around((spot.at[0], spot.at[1] + 22.0), 12.0) for spot in scene.spots if spot.grounded]
    inner = Panel(panel.left + 4.0, panel.top + 4.0, panel.right - 4.0, panel.bottom - 4.0)
    placer = Placer(inner, taken, [bar.segment for bar in scene.bars])
    parts: List[str] = []
    left_out = 0
    for want in _wanted(job, names, marked, scene):
        label = placer.place(want.words, want.at, SIZE * (BOLD if want.bold else 1.0))
        parts += _label(label, want) if label else []
        left_out += label is None
    if left_out:
        words = f"{left_out} labels have no room here: see 'zapekuri show'"
        parts.append(svg.text(words, (panel.left + 16.0, panel.bottom + 6.0), 14.0))
    return parts


def _label(label: Label, want: Wanted) -> List[str]:
    """The words, with a leader to what they name where that is far."""
    box, anchor, parts = label.box, label.anchor, []
    if label.far:
        end = (min(max(anchor[0], box.left), box.right), min(max(anchor[1], box.top), box.bottom))
        parts.append(svg.line(anchor, end, stroke_width=0.8, stroke_dasharray="2 2"))
    style = {"font_weight": "bold"} if want.bold else {"font_style": "italic"} if want.italic else {}
    # a white rim keeps the words readable where they cross a bar
    rim = {"stroke": "white", "stroke_width": 4, "paint_order": "stroke", "stroke_linejoin": "round"}
    at = ((box.left + box.right) / 2, box.bottom - 0.3 * SIZE)
    return parts + [svg.text(label.words, at, SIZE, text_anchor="middle", **rim, **style)]


def _foot(view: View, panel: Panel) -> List[str]:
    """How it is seen, and a scale."""
    wanted = 0.25 * (panel.right - panel.left) / view.scale
    steps = [m * 10.0**k for k in range(-6, 4) for m in (1, 2, 5)]
    step = max(size for size in steps if size <= max(wanted, 1e-6))
    y, left = panel.bottom - 14.0, panel.left + 16.0
    right = left + step * view.scale
    parts = [svg.line((left, y), (right, y), stroke_width=3)]
    parts += [svg.line((x, y - 6.0), (x, y + 6.0), stroke_width=2) for x in (left, right)]
    parts.append(svg.text(f"{1000.0 * step:g} mm", (right + 10.0, y + 5.0), SIZE))
    return parts + [svg.text(view.in_words(), (panel.right - 12.0, y + 5.0), 14.0, text_anchor="end")]
