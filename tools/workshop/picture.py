"""One sheet of paper, A4 across: the answer on top, the mechanism at the left, each joint's gap at the right."""

from __future__ import annotations

from typing import List, Optional, Tuple

from . import bars, drawing, report, svg
from .job_file import Job
from .names import Names
from .refusals import refusal
from .scene import Marked
from .sheet import CLOSED, OPEN, UNJUDGED, Sheet
from .view import Panel

WIDTH, HEIGHT = 1188.0, 840.0  # four units a millimetre
LEFT = Panel(30.0, 140.0, 640.0, 794.0)
RIGHT = Panel(668.0, 140.0, 1158.0, 794.0)


def _answer(sheet: Sheet) -> str:
    if sheet.refusal:
        return f"TURNED BACK BY {sheet.refusal}"
    return {CLOSED: "CLOSED", OPEN: "OPEN", UNJUDGED: "NOT JUDGED"}[sheet.verdict or 0]


def _answer_box(answer: str) -> Tuple[List[str], float]:
    """The answer at the top right, black on white in a round box only where all is closed; and the box's left side."""
    ink, paper, corners = ("black", "white", 18) if answer == "CLOSED" else ("white", "black", 0)
    width = svg.width_of(answer, 22.0) * 1.12 + 34.0
    left = WIDTH - 30.0 - width
    letters = {"text_anchor": "middle", "font_weight": "bold", "fill": ink}
    box = svg.rectangle((left, 18.0), width, 40.0, fill=paper, stroke="black", stroke_width=3, rx=corners)
    return [box, svg.text(answer, (left + width / 2, 46.0), 22.0, **letters)], left


def _head(file: str, job: Job, names: Names, sheet: Sheet) -> List[str]:
    """Title, verdict and the figures that it stands on."""
    box, left = _answer_box(_answer(sheet))
    title = svg.cut(names.title or file, left - 50.0, 24.0 * 1.12)
    told = f"{file}: {len(job.rows)} rows, {len(job.bodies)} links, mode {job.mode}, limit {job.limit}"
    lines = [f"{told}; {report.tolerances(job)}"] + (report.verdict(sheet, job, names)[1:3] if sheet.gap else [])
    parts = [svg.text(title, (30.0, 46.0), 24.0, font_weight="bold"), *box]
    for words, y in zip(lines, (80.0, 102.0, 122.0)):
        parts.append(svg.text(svg.cut(words.replace(" deg", "°"), WIDTH - 60.0, 15.0), (30.0, y), 15.0))
    return parts


def _turned_back(sheet: Sheet, job: Job, names: Names) -> List[str]:
    """In place of bars: why, where and what to do."""
    entry = refusal(sheet.refusal or UNJUDGED)
    no_gaps = (
        "None were measured: the program turned this job back." if sheet.refusal else "The closing check gives none."
    )
    said = {
        "Why": f"{entry.text} (refusal {entry.number}, {entry.name})",
        "Where": report.place_in_words(sheet, job, names),
        "What to do": entry.advice,
        "Gaps": no_gaps,
    }
    parts, y = [], RIGHT.top + 16.0
    for head, words in said.items():
        if words:
            parts.append(svg.text(head, (RIGHT.left, y), 16.0, font_weight="bold"))
            told, y = svg.paragraph(words, (RIGHT.left, y + 24.0), RIGHT.right - RIGHT.left)
            parts.append(told)
            y += 18.0
    return parts


def _right(sheet: Sheet, job: Job, names: Names) -> List[str]:
    """The bars, or why there are none."""
    if sheet.refusal or sheet.verdict == UNJUDGED:
        return _turned_back(sheet, job, names)
    if sheet.measured:
        return bars.panel_of(sheet, job, names, RIGHT)
    words = f"{report.widest(sheet, job).capitalize()}."
    if job.rows:
        words += " Each joint's own is told by the program gaps, which has not been built."
    return [svg.paragraph(words, (RIGHT.left, RIGHT.top + 16.0), RIGHT.right - RIGHT.left)[0]]


def marked(sheet: Sheet) -> Marked:
    """The joints that are beyond their tolerance, or the joint or link where the refusal fell."""
    what = sheet.place[:1]
    if what == ("row",):
        return Marked({int(sheet.place[2])}, "LOOK HERE", False)
    if what == ("body",):
        return Marked(set(), "LOOK HERE", False, {int(sheet.place[1])})
    return Marked({row.owner for row in sheet.measured or () if not row.within}, "OPEN", bool(sheet.measured))


def _legend(sheet: Sheet) -> str:
    if sheet.measured:
        signs = "white sign, straight bar: closed  ·  black sign in a diamond, pointed bar: open"
    elif sheet.place[:1] == ("row",):
        signs = "dashed sign: not measured  ·  black sign in a diamond: where the job was turned back"
    else:
        signs = "dashed sign: not measured"
    return f"{signs}  ·  drawn by tools that are not proved; what they tell of the joints is the programs'"


def svg_text(file: str, job: Job, names: Names, sheet: Sheet, along: Optional[str] = None) -> str:
    """The whole picture as the text of an SVG file."""
    size = f'width="297mm" height="210mm" viewBox="0 0 {WIDTH:g} {HEIGHT:g}"'
    frame = {"fill": "none", "stroke": "#777777", "stroke_width": 1}
    parts = [
        f'<svg xmlns="http://www.w3.org/2000/svg" {size} font-family="{svg.FONT}" fill="black">',
        svg.element("title", svg.escape(f"{names.title or file}: {_answer(sheet)}")),
        svg.rectangle((0.0, 0.0), WIDTH, HEIGHT, fill="white"),
        *_head(file, job, names, sheet),
        svg.rectangle((LEFT.left, LEFT.top), LEFT.right - LEFT.left, LEFT.bottom - LEFT.top, **frame),
        *drawing.mechanism(job, names, marked(sheet), LEFT, along),
        *_right(sheet, job, names),
        svg.text(_legend(sheet), (30.0, 818.0), 13.0),
        "</svg>",
    ]
    return "\n".join(parts) + "\n"
