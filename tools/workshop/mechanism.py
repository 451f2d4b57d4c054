"""A mechanism as it is described: links, joints, and how it is to be solved. Metres, radians, kilograms."""

from __future__ import annotations

import dataclasses
from typing import Dict, List, Optional, Tuple

from .vectors import ZERO, Vector

# The key that each row of a joint bears, so that a program's rules can go by kind of joint.
KEYS = {"pin": 1, "slide": 2, "weld": 3, "ball": 4, "gear": 5, "pivot": 6}


@dataclasses.dataclass(frozen=True)
class Link:
    """A part. A frame is one that stands: its inverse mass and inverse inertia are 0."""

    name: str
    centre: Vector
    inverse_mass: float
    inverse_inertia: Tuple[float, ...]
    line: int

    @property
    def stands(self) -> bool:
        return self.inverse_mass == 0.0


@dataclasses.dataclass(frozen=True)
class Joint:
    """Two links, where each has the joint by its own scan, and what is measured there."""

    name: str
    kind: str
    a: int
    b: int
    points: Tuple[Vector, Vector]
    line: int
    axes: Optional[Tuple[Vector, Vector]] = None
    turn: Vector = ZERO
    ratio: Optional[float] = None
    along: Optional[Vector] = None
    slip: float = 0.0
    placed: bool = True  # two wheels need not tell where their teeth meet


@dataclasses.dataclass(frozen=True)
class Mechanism:
    title: str
    limit: Optional[int]  # none told: twice the number of rows
    mode: int
    tolerances: Tuple[float, Optional[float]]
    plane: Optional[Vector]
    links: List[Link]
    joints: List[Joint]
    lines: Dict[str, int]  # where limit, mode and the like stand
