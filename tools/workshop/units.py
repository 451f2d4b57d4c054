"""Numbers as people write them: millimetres, degrees and kilograms here, metres and radians in a job file."""

from __future__ import annotations

import math
import re
from fractions import Fraction

# Three digits of exponent are beyond every double already.
_NUMBER = re.compile(r"[+-]?(\d+(\.\d*)?|\.\d+)([eE][+-]?\d{1,3})?")


class NotANumber(ValueError):
    """A word that should have been a number."""


def exact(word: str) -> Fraction:
    """The number that a word says, without rounding."""
    if not _NUMBER.fullmatch(word):
        raise NotANumber(f"expected a number, found '{word}'")
    return Fraction(word)


def rounded(number: Fraction) -> float:
    """The nearest double."""
    try:
        return float(number)
    except OverflowError:
        raise NotANumber("the number is beyond the doubles, which end at 1.8e308") from None


def plain(word: str) -> float:
    """A number without a unit, or in kilograms."""
    return rounded(exact(word))


def metres(word: str) -> float:
    """Millimetres to metres, rounded once: 60.21 becomes the double nearest to 0.06021."""
    return rounded(exact(word) / 1000)


def radians(word: str) -> float:
    """Degrees to radians."""
    return math.radians(rounded(exact(word)))


def _digits(number: float) -> str:
    """Three digits; without an exponent where a reader would not want one."""
    if 1e-4 <= abs(number) < 1e6:
        told = f"{number:.{max(0, 2 - math.floor(math.log10(abs(number))))}f}"
        return told.rstrip("0").rstrip(".") if "." in told else told
    return f"{number:.3g}".replace("e-0", "e-").replace("e+0", "e+")


def in_mm(length: float) -> str:
    """A length in metres, told in millimetres."""
    return f"{_digits(1000.0 * length)} mm"


def in_degrees(angle: float) -> str:
    """An angle in radians, told in degrees."""
    return f"{_digits(math.degrees(angle))} deg"


def told(number: float, dimension: int) -> str:
    """A number of a row: of a linear one (0) in millimetres, of an angular one (1) in degrees."""
    return in_degrees(number) if dimension else in_mm(number)
