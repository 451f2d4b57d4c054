"""A job file's bytes: read, written in the one form that the converter writes, and its trailer changed.

Little-endian: 248 bytes a row (27 doubles, 8 words), 80 bytes a mass, or 104 with the part's centre at its end, and a
trailer of 48 bytes that points back at both sections. README.md and samples/make.py tell the same from their sides.
"""

from __future__ import annotations

import dataclasses
import hashlib
import struct
from typing import List, Optional, Sequence, Tuple

from .refusals import Refused
from .vectors import ZERO, Vector

ROW, TRAILER = 248, 48
MOST_BYTES, MOST_ROWS, MOST_BODIES = 65536, 128, 64
LINEAR, ANGULAR = 0, 1
_TRAILER = struct.Struct("<6I2d2I")
_ROW = struct.Struct("<27d8I")


@dataclasses.dataclass(frozen=True)
class Row:
    """One row: what of its 27 numbers and 8 words a rigid joint uses."""

    dimension: int
    key: int
    owner: int
    a: int
    b: int
    linear_a: Vector
    angular_a: Vector
    linear_b: Vector
    angular_b: Vector
    error: float

    def packed(self) -> bytes:
        numbers = [0.0] * 27
        numbers[0:6] = [*self.linear_a, *self.angular_a]
        numbers[9:15] = [*self.linear_b, *self.angular_b]
        numbers[15] = self.error
        numbers[20:22] = [float("-inf"), float("inf")]
        return _ROW.pack(*numbers, self.key, self.dimension, self.a, self.b, 0, 1, self.owner, 0)

    @staticmethod
    def unpacked(data: bytes) -> "Row":
        n = _ROW.unpack(data)
        key, dimension, a, b, _force_driven, _position, owner, _spare = n[27:]
        return Row(dimension, key, owner, a, b, n[0:3], n[3:6], n[9:12], n[12:15], n[15])


@dataclasses.dataclass(frozen=True)
class Body:
    """A link as the solver knows it: inverse mass, inverse inertia by columns, and where its centre lies."""

    inverse_mass: float
    inverse_inertia: Tuple[float, ...]
    centre: Vector = ZERO


@dataclasses.dataclass(frozen=True)
class Job:
    rows: Sequence[Row]
    bodies: Sequence[Body]
    limit: int
    mode: int
    tolerances: Tuple[float, float]
    has_centres: bool = True

    def tolerance(self, row: int) -> float:
        """The one of the file's two tolerances that a row is judged by."""
        return self.tolerances[1 if self.rows[row].dimension else 0]

    def fingerprint(self) -> str:
        """Names this mechanism: the same whatever limit, mode and tolerances are set."""
        return hashlib.sha256(_sections(self)).hexdigest()[:16]


@dataclasses.dataclass(frozen=True)
class Trailer:
    rows: int
    bodies: int
    limit: int
    mode: int
    row_offset: int
    mass_offset: int
    linear: float
    angular: float
    length: int
    spare: int

    @property
    def mass_size(self) -> int:
        return 104 if self.spare else 80

    def packed(self) -> bytes:
        return _TRAILER.pack(*dataclasses.astuple(self))


def trailer_of(data: bytes) -> Trailer:
    """The trailer of a file that refusals 1 and 2 let pass."""
    if not TRAILER <= len(data) <= MOST_BYTES:
        raise Refused(1, f"{len(data)} bytes")
    trailer = Trailer(*_TRAILER.unpack(data[-TRAILER:]))
    if trailer.length != len(data):
        raise Refused(1, f"{len(data)} bytes, and the file says {trailer.length}")
    if trailer.spare > 1:
        raise Refused(1, f"its last word is {trailer.spare}")
    if trailer.rows > MOST_ROWS or trailer.bodies > MOST_BODIES:
        raise Refused(2, f"{trailer.rows} rows, {trailer.bodies} bodies")
    rows = (trailer.row_offset, trailer.row_offset + ROW * trailer.rows)
    masses = (trailer.mass_offset, trailer.mass_offset + trailer.mass_size * trailer.bodies)
    if max(rows[1], masses[1]) > len(data) - TRAILER:
        raise Refused(2, "a section runs over the end")
    if rows[0] < rows[1] and masses[0] < masses[1] and rows[0] < masses[1] and masses[0] < rows[1]:
        raise Refused(2, "the sections overlap")
    return trailer


def read(data: bytes) -> Job:
    """The job of a file; Refused by 1 or 2 where it is none."""
    trailer = trailer_of(data)
    at = lambda offset, size, i: data[offset + size * i : offset + size * (i + 1)]
    rows = [Row.unpacked(at(trailer.row_offset, ROW, i)) for i in range(trailer.rows)]
    bodies: List[Body] = []
    for j in range(trailer.bodies):
        mass = at(trailer.mass_offset, trailer.mass_size, j)
        numbers = struct.unpack(f"<{trailer.mass_size // 8}d", mass)
        bodies.append(Body(numbers[0], numbers[1:10], numbers[10:13] or ZERO))
    return Job(rows, bodies, trailer.limit, trailer.mode, (trailer.linear, trailer.angular), trailer.spare == 1)


def _sections(job: Job) -> bytes:
    rows = b"".join(row.packed() for row in job.rows)
    centres = lambda body: struct.pack("<3d", *body.centre) if job.has_centres else b""
    masses = (struct.pack("<10d", body.inverse_mass, *body.inverse_inertia) + centres(body) for body in job.bodies)
    return rows + b"".join(masses)


def written(job: Job) -> bytes:
    """The job in its one written form: rows from byte 0, masses straight after, then the trailer."""
    if len(job.rows) > MOST_ROWS or len(job.bodies) > MOST_BODIES:
        raise Refused(2, f"{len(job.rows)} rows, {len(job.bodies)} links")
    sections = _sections(job)
    trailer = Trailer(
        rows=len(job.rows),
        bodies=len(job.bodies),
        limit=job.limit,
        mode=job.mode,
        row_offset=0,
        mass_offset=ROW * len(job.rows),
        linear=job.tolerances[0],
        angular=job.tolerances[1],
        length=len(sections) + TRAILER,
        spare=1 if job.has_centres else 0,
    )
    return sections + trailer.packed()


def changed(
    data: bytes,
    limit: Optional[int] = None,
    mode: Optional[int] = None,
    linear: Optional[float] = None,
    angular: Optional[float] = None,
) -> bytes:
    """The same file with another limit, mode or tolerance; every other byte as it was."""
    new = {"limit": limit, "mode": mode, "linear": linear, "angular": angular}
    trailer = dataclasses.replace(trailer_of(data), **{name: value for name, value in new.items() if value is not None})
    return data[:-TRAILER] + trailer.packed()
