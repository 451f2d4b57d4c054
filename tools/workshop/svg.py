"""Elements of an SVG picture as text, with every word escaped."""

from __future__ import annotations

from typing import List, Sequence, Tuple
from xml.sax.saxutils import escape, quoteattr

Point = Tuple[float, float]
FONT = "DejaVu Sans, Verdana, Arial, sans-serif"
# How wide a letter is at size 1: a little more than most are, so that labels keep apart.
LETTER = 0.62


def width_of(words: str, size: float) -> float:
    return LETTER * size * len(words)


def element(name: str, content: str = "", **attributes: object) -> str:
    """One element; in attribute names _ stands for -, and numbers keep two decimals."""
    told = lambda value: f"{value:.2f}".rstrip("0").rstrip(".") if isinstance(value, float) else str(value)
    parts = [f"{key.rstrip('_').replace('_', '-')}={quoteattr(told(value))}" for key, value in attributes.items()]
    head = " ".join([name, *parts])
    return f"<{head}>{content}</{name}>" if content else f"<{head}/>"


def text(words: str, at: Point, size: float = 15.0, **attributes: object) -> str:
    return element("text", escape(words), x=at[0], y=at[1], font_size=size, **attributes)


def line(start: Point, end: Point, **attributes: object) -> str:
    return element("line", x1=start[0], y1=start[1], x2=end[0], y2=end[1], **{"stroke": "black", **attributes})


def rectangle(at: Point, width: float, height: float, **attributes: object) -> str:
    return element("rect", x=at[0], y=at[1], width=width, height=height, **attributes)


def polygon(points: Sequence[Point], **attributes: object) -> str:
    return element("polygon", points=" ".join(f"{x:.2f},{y:.2f}" for x, y in points), **attributes)


def cut(words: str, width: float, size: float) -> str:
    """The words, or as many of their letters as there is room for."""
    most = int(width / (LETTER * size))
    return words if len(words) <= most else words[: most - 1] + "…"


def wrapped(words: str, width: float, size: float) -> List[str]:
    """Lines no wider than this, broken at blanks; a word that is too long by itself stays whole."""
    lines: List[str] = []
    for word in words.split():
        if lines and width_of(f"{lines[-1]} {word}", size) <= width:
            lines[-1] += f" {word}"
        else:
            lines.append(word)
    return lines


def paragraph(words: str, at: Point, width: float, size: float = 15.0, **attributes: object) -> Tuple[str, float]:
    """Wrapped text, and how far down the next line would stand."""
    x, y = at
    parts = []
    for part in wrapped(words, width, size):
        parts.append(text(part, (x, y), size, **attributes))
        y += 1.4 * size
    return "\n".join(parts), y
