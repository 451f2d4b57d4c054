"""Reads a description: lines of words, a comment after #. tools/README.md tells the language to its users."""

from __future__ import annotations

from typing import Dict, Optional, Tuple

from . import inertia, units
from .joint_line import joint_of
from .mechanism import KEYS, Joint, Link, Mechanism
from .refusals import Refused
from .vectors import AXES, ZERO, Vector
from .words import Problem, Words

MOST_STEPS = 2**32 - 1
STATEMENTS = ("title", "plane", "limit", "mode", "tolerance", "frame", "link", *KEYS)


class Reader:
    """What has been read so far; each statement adds to it."""

    def __init__(self) -> None:
        self.title = ""
        self.plane: Optional[str] = None
        self.limit: Optional[int] = None
        self.mode = 0
        self.tolerances: Dict[str, float] = {}
        self.links: Dict[str, Link] = {}
        self.joints: Dict[str, Joint] = {}
        self.lines: Dict[str, int] = {}

    def statement(self, words: Words) -> None:
        what = words.take("a statement")
        if what not in STATEMENTS:
            raise words.problem(f"expected one of {', '.join(STATEMENTS)}, found '{what}'")
        if what in KEYS:
            joint = joint_of(what, words, self.links, self.plane)
            self._once(words, joint.name, self.joints, "joint")
            self.joints[joint.name] = joint
        elif what in ("frame", "link"):
            link = self._link(what, words)
            self.links[link.name] = link
        else:
            if what in self.lines:
                raise words.problem(f"'{what}' stands in line {self.lines[what]} already: expected it once")
            self.lines[what] = words.line
            getattr(self, f"_{what}")(words)
        if words.look() is not None:
            raise words.problem(f"expected the end of the line, found '{words.look()}'")

    @staticmethod
    def _once(words: Words, name: str, known: dict, what: str) -> None:
        if name in known:
            raise words.problem(f"{what} '{name}' stands in line {known[name].line} already: expected another name")

    def _title(self, words: Words) -> None:
        self.title = words.rest()

    def _plane(self, words: Words) -> None:
        if self.links:
            raise words.problem("expected 'plane' before the first link")
        self.plane = words.take("x, y or z, the axis that the plane lies across")
        if self.plane not in AXES:
            raise words.problem(f"expected x, y or z, the axis that the plane lies across, found '{self.plane}'")

    def _limit(self, words: Words) -> None:
        self.limit = words.whole("the step limit", MOST_STEPS)

    def _mode(self, words: Words) -> None:
        self.mode = words.whole("the mode", 2)

    def _tolerance(self, words: Words) -> None:
        reads = {"mm": units.metres, "deg": units.radians}
        while words.look() is not None:
            word = words.take("a tolerance")
            unit = words.take("mm or deg")
            if unit not in reads or unit in self.tolerances:
                raise words.problem(f"expected mm or deg, each once, found '{unit}'")
            try:
                self.tolerances[unit] = reads[unit](word)
            except units.NotANumber as error:
                raise words.problem(f"expected a tolerance: {error}") from None

    def _link(self, what: str, words: Words) -> Link:
        name = words.take("the link's name")
        self._once(words, name, self.links, "link")
        centre, mass, shape = None, None, None
        while words.look() is not None:
            word = words.take("")
            if word == "at" and centre is None:
                centre = words.vector(units.metres, "the centre in mm", self.plane)
            elif word == "mass" and mass is None and what == "link":
                mass = words.above_zero(units.plain, "the mass in kg")
            elif word in SHAPES and shape is None and what == "link":
                if mass is None:
                    raise words.problem(f"expected 'mass' before '{word}'")
                shape = self._shape(word, words, mass)
            else:
                more = "at, mass and one shape" if what == "link" else "at"
                raise words.problem(f"expected {more}, each once, found '{word}'")
        if what == "frame":
            return Link(name, centre or ZERO, 0.0, inertia.NONE, words.line)
        if centre is None or mass is None or shape is None:
            raise words.problem(f"expected of link '{name}': at, mass and one of {', '.join(SHAPES)}")
        return Link(name, centre, 1.0 / mass, shape, words.line)

    def _shape(self, word: str, words: Words, mass: float) -> Tuple[float, ...]:
        try:
            return SHAPES[word](words, mass, self.plane)
        except ZeroDivisionError:
            raise words.problem("expected a mass and sizes whose product is above 0 in doubles") from None


def _planar(columns: Tuple[float, ...], plane: Optional[str]) -> Tuple[float, ...]:
    """In a plane a link turns about one axis alone; for an inertia along the bench's axes that number stays."""
    if plane is None:
        return columns
    place = "xyz".index(plane)
    return inertia.about(AXES[plane], columns[4 * place])


def _box(words: Words, mass: float, plane: Optional[str]) -> Tuple[float, ...]:
    x, y, z = (words.above_zero(units.metres, f"the box's edge along {axis} in mm,") for axis in "xyz")
    return _planar(inertia.of_box(mass, x, y, z), plane)


def _rod(words: Words, mass: float, plane: Optional[str]) -> Tuple[float, ...]:
    length = words.above_zero(units.metres, "the rod's length in mm,")
    if plane:
        return inertia.about(AXES[plane], inertia.of_thin_rod(mass, length))
    thickness = words.above_zero(units.metres, "the rod's thickness in mm,")
    return inertia.of_cylinder(mass, thickness / 2.0, length, _lying(words, "along"))


def _disc(words: Words, mass: float, plane: Optional[str]) -> Tuple[float, ...]:
    radius = words.above_zero(units.metres, "the disc's radius in mm,")
    if plane:
        return inertia.about(AXES[plane], inertia.of_flat_disc(mass, radius))
    thickness = words.above_zero(units.metres, "the disc's thickness in mm,")
    return inertia.of_cylinder(mass, radius, thickness, _lying(words, "about"))


def _lying(words: Words, preposition: str) -> Vector:
    if not words.took(preposition):
        raise words.problem(f"expected '{preposition}' and a direction")
    return words.direction("the direction it lies in")


def _moments(words: Words, mass: float, plane: Optional[str]) -> Tuple[float, ...]:
    x, y, z = (words.above_zero(_kg_m2, f"the moment about {axis} in kg mm2,") for axis in "xyz")
    return _planar(inertia.diagonal(1.0 / x, 1.0 / y, 1.0 / z), plane)


def _inertia(words: Words, mass: float, plane: Optional[str]) -> Tuple[float, ...]:
    nine = [words.number(_kg_m2, "nine numbers of inertia in kg mm2, by columns") for _ in range(9)]
    try:
        if plane is None:
            return inertia.inverse(nine)
        inertia.inverse(nine)
    except Refused as refused:
        raise words.problem(f"the inertia is {refused}") from None
    return inertia.about(AXES[plane], 1.0 / nine[4 * "xyz".index(plane)])


def _kg_m2(word: str) -> float:
    return units.rounded(units.exact(word) / 1000000)


SHAPES = {"box": _box, "rod": _rod, "disc": _disc, "moments": _moments, "inertia": _inertia}


def read(text: str, file: str = "description") -> Mechanism:
    """The mechanism that a description tells; Problem where a line says what it cannot."""
    reader, line = Reader(), 0
    for line, content in enumerate(text.splitlines(), start=1):
        words = Words(file, line, content)
        if words.look() is not None:
            reader.statement(words)
    if not reader.links:
        raise Problem(file, max(line, 1), "expected at least one link, found the end of the file")
    if "mm" not in reader.tolerances:
        raise Problem(file, reader.lines.get("tolerance", max(line, 1)), "expected 'tolerance NUMBER mm', found none")
    return Mechanism(
        title=reader.title,
        limit=reader.limit,
        mode=reader.mode,
        tolerances=(reader.tolerances["mm"], reader.tolerances.get("deg")),
        plane=AXES[reader.plane] if reader.plane else None,
        links=list(reader.links.values()),
        joints=list(reader.joints.values()),
        lines=reader.lines,
    )
