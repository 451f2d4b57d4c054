"""What the programs print, read strictly: a line that is missing, cut or odd is an error and never a guess.

`job` prints a sheet (README.md, "Reading a sheet"). `gaps` prints a sheet's first four lines and then for each row
`measured ROW OWNER NUMBER TOLERANCE WITHIN`, and for a refused job where the refusal fell.
"""

from __future__ import annotations

import dataclasses
import struct
from typing import Dict, List, Optional, Tuple

from .job_file import Job
from .vectors import Vector

CLOSED, OPEN, UNJUDGED = 1, 0, 18


class CutSheet(Exception):
    """A text that is not a whole sheet of this job."""


@dataclasses.dataclass(frozen=True)
class Measured:
    """A row's measured gap with its radius of rounding, in metres or radians, and what it is judged by."""

    row: int
    owner: int
    number: float
    tolerance: float
    within: bool

    @property
    def ratio(self) -> float:
        """Gap by tolerance: at most 1 exactly where the row is closed."""
        if self.tolerance == 0.0:
            return 0.0 if self.number == 0.0 else float("inf")
        return self.number / self.tolerance


@dataclasses.dataclass(frozen=True)
class Sheet:
    refusal: int
    count: int = 0
    flag: int = 0
    gap: Optional[Tuple[float, float]] = None
    verdict: Optional[int] = None
    multipliers: Tuple[float, ...] = ()
    impulses: Tuple[Tuple[Vector, Vector], ...] = ()
    new_centres: Optional[Tuple[Vector, ...]] = None
    measured: Optional[Tuple[Measured, ...]] = None
    place: Tuple[str, ...] = ()


def double(digits: str) -> float:
    """A double from its 16 hexadecimal digits."""
    if len(digits) != 16:
        raise CutSheet(f"'{digits}' is not 16 hexadecimal digits")
    try:
        return struct.unpack(">d", bytes.fromhex(digits))[0]
    except ValueError:
        raise CutSheet(f"'{digits}' is not 16 hexadecimal digits") from None


class _Lines:
    """The lines of a text, taken in order; each is known by its first word."""

    def __init__(self, text: str) -> None:
        if not text.endswith("\n"):
            raise CutSheet("the text ends in the middle of a line" if text else "there is no text")
        self._lines = text.split("\n")[:-1]
        self._next = 0

    def take(self, word: str, count: int) -> List[str]:
        if self._next == len(self._lines):
            raise CutSheet(f"the line '{word}' is missing")
        first, *words = self._lines[self._next].split(" ")
        if first != word or len(words) != count:
            raise CutSheet(f"line {self._next + 1} is not '{word}' with {count} words: '{self._lines[self._next]}'")
        self._next += 1
        return words

    def next_word(self) -> str:
        return "" if self._next == len(self._lines) else self._lines[self._next].split(" ")[0]

    def take_place(self) -> Tuple[str, ...]:
        """The rest of a line `refused`, if there is one."""
        if self.next_word() != "refused":
            return ()
        words = tuple(self._lines[self._next].split(" ")[1:])
        self._next += 1
        lengths = {"row": 3, "body": 2, "limit": 1}
        if not words or lengths.get(words[0]) != len(words):
            raise CutSheet(f"'refused {' '.join(words)}' is no place")
        return words

    def end(self) -> None:
        if self._next != len(self._lines):
            raise CutSheet(f"a line too many: '{self._lines[self._next]}'")


def _whole(word: str) -> int:
    if not (word.isascii() and word.isdigit()):
        raise CutSheet(f"'{word}' is not a number")
    return int(word)


def _same(word: str, number: int, what: str) -> None:
    if _whole(word) != number:
        raise CutSheet(f"{what} {number} is missing: found {word}")


def _head(lines: _Lines) -> Sheet:
    """The first four lines; of a refused job the first alone."""
    refusal, count, flag = (_whole(word) for word in lines.take("solve", 3))
    if refusal:
        return Sheet(refusal)
    gap = None
    if lines.next_word() == "gap":
        try:
            gap = tuple(double(word) for word in lines.take("gap", 2))
        except CutSheet:
            lines.take("gap", 1)  # gap none
    lines.take("carried", 2)
    verdict = _whole(lines.take("close", 1)[0])
    if verdict not in (CLOSED, OPEN, UNJUDGED) or (verdict == UNJUDGED) != (gap is None):
        raise CutSheet(f"'close {verdict}' does not go with the line 'gap'")
    return Sheet(0, count, flag, gap, verdict)


def _vectors(words: List[str]) -> Tuple[Vector, ...]:
    numbers = [double(word) for word in words]
    return tuple(tuple(numbers[k : k + 3]) for k in range(0, len(numbers), 3))  # type: ignore[misc]


def parsed(text: str, job: Job) -> Sheet:
    """What the job program printed of this job."""
    lines = _Lines(text)
    sheet = _head(lines)
    if sheet.refusal:
        lines.end()
        return sheet
    multipliers, bodies = [], []
    for row in range(len(job.rows)):
        number, digits = lines.take("row", 2)
        _same(number, row, "row")
        multipliers.append(double(digits))
    for body in range(len(job.bodies)):
        number, *digits = lines.take("body", 10 if job.has_centres else 7)
        _same(number, body, "body")
        bodies.append(_vectors(digits))
    lines.end()
    return dataclasses.replace(
        sheet,
        multipliers=tuple(multipliers),
        impulses=tuple((vectors[0], vectors[1]) for vectors in bodies),
        new_centres=tuple(vectors[2] for vectors in bodies) if job.has_centres else None,
    )


def measured(text: str, job: Job) -> Sheet:
    """What the program `gaps` printed of this job."""
    lines = _Lines(text)
    sheet = _head(lines)
    if sheet.refusal:
        sheet = dataclasses.replace(sheet, place=lines.take_place())
        lines.end()
        return sheet
    found: List[Measured] = []
    for row in range(len(job.rows) if sheet.verdict != UNJUDGED else 0):
        number, owner, gap, tolerance, within = lines.take("measured", 5)
        _same(number, row, "row")
        if within not in ("0", "1"):
            raise CutSheet(f"row {row} is neither within nor beyond: '{within}'")
        found.append(Measured(row, _whole(owner), double(gap), double(tolerance), within == "1"))
    lines.end()
    return dataclasses.replace(sheet, measured=tuple(found))


def joined(sheet: Sheet, gaps: Optional[Sheet]) -> Sheet:
    """Both programs' words of one job as one; CutSheet where they differ."""
    if gaps is None:
        return sheet
    heads = [(part.refusal, part.count, part.flag, part.gap, part.verdict) for part in (sheet, gaps)]
    if heads[0] != heads[1]:
        raise CutSheet("the programs job and gaps tell different things of this file")
    return dataclasses.replace(sheet, measured=gaps.measured, place=gaps.place)


def by_joint(sheet: Sheet, job: Job) -> Dict[Tuple[int, int], Measured]:
    """The row that gapes most of each joint and kind of row (owner and dimension), widest by its tolerance first."""
    widest: Dict[Tuple[int, int], Measured] = {}
    for row in sheet.measured or ():
        place = (row.owner, job.rows[row.row].dimension)
        if place not in widest or row.ratio > widest[place].ratio:
            widest[place] = row
    return dict(sorted(widest.items(), key=lambda item: -item[1].ratio))
