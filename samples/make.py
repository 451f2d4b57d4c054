#!/usr/bin/env python3
"""Writes the sample jobs beside this file: P1 of document 01, a four-bar linkage and a clock train, the last two also
with the centres of their parts, and three mechanisms on one bench.

    python3 samples/make.py [CONVERTER]

The same bytes each time, in the one written form of document 02, e: rows from byte 0, masses straight after, then
the trailer. Each file is held to what the converter (by default crates/convert/out/convert, where it is there) writes of it. A job file is little-endian: 248 bytes a row (27 doubles, then 8 words),
80 bytes a mass, and a trailer of 48 bytes that points back at both sections. Where the trailer's last word
is 1 a mass has 104 bytes, its centre at its end.

Linkage and train are drawn here as a workshop would scan them: true places, and for each part a
small error of its scan, after which the joints gape by fractions of a millimetre. Metres and radians.
"""

import pathlib
import struct
import subprocess
import sys

INFINITY = float("inf")
LINEAR, ANGULAR = 0, 1


def cross(u, v):
    return (u[1] * v[2] - u[2] * v[1], u[2] * v[0] - u[0] * v[2], u[0] * v[1] - u[1] * v[0])


def minus(u, v):
    return tuple(x - y for x, y in zip(u, v))


def dot(u, v):
    return sum(x * y for x, y in zip(u, v))


def negated(u):
    return tuple(-x for x in u)


class Job:
    def __init__(self, limit, mode, linear, angular, spare=0):
        self.limit, self.mode, self.tolerances, self.spare = limit, mode, (linear, angular), spare
        self.rows, self.masses, self.centres, self.owner = b"", b"", b"", -1

    def body(self, inverse_mass, inverse_inertia):
        """A body with its inverse inertia about the world's axes; returns its number."""
        x, y, z = inverse_inertia
        columns = (x, 0.0, 0.0, 0.0, y, 0.0, 0.0, 0.0, z)
        self.masses += struct.pack("<10d", inverse_mass, *columns)
        self.centres += bytes(24)
        return len(self.masses) // 80 - 1

    def place(self, centres):
        """Where the bodies lie; only a file of spare 1 tells it."""
        self.centres = b"".join(struct.pack("<3d", *centre) for centre in centres)

    def joint(self):
        """The rows that follow belong to one joint."""
        self.owner += 1

    def row(self, dimension, a, b, linear_a, angular_a, linear_b, angular_b, error):
        numbers = [0.0] * 27
        numbers[0:6] = [*linear_a, *angular_a]
        numbers[9:15] = [*linear_b, *angular_b]
        numbers[15] = error
        numbers[20:22] = [-INFINITY, INFINITY]
        key = len(self.rows) // 248 % 256
        words = (key, dimension, a, b, 0, 1, self.owner, 0)
        self.rows += struct.pack("<27d8I", *numbers, *words)

    def pin(self, a, b, centres, points, axis):
        """Where body a has its pin is where body b has its hole, along one axis."""
        arm_a, arm_b = minus(points[0], centres[a]), minus(points[1], centres[b])
        error = dot(minus(points[0], points[1]), axis)
        self.row(
            LINEAR, a, b, axis, cross(arm_a, axis), negated(axis), negated(cross(arm_b, axis)), error
        )

    def mass_section(self):
        if self.spare != 1:
            return self.masses
        bodies = range(len(self.masses) // 80)
        return b"".join(self.masses[80 * j : 80 * j + 80] + self.centres[24 * j : 24 * j + 24] for j in bodies)

    def bytes(self):
        rows, bodies, masses = len(self.rows) // 248, len(self.masses) // 80, self.mass_section()
        length = len(self.rows) + len(masses) + 48
        words = (rows, bodies, self.limit, self.mode, 0, len(self.rows))
        trailer = struct.pack("<6I2d2I", *words, *self.tolerances, length, self.spare)
        return self.rows + masses + trailer


def p1():
    """Document 01: two bodies of inverse mass 0.5 a quarter apart."""
    job = Job(limit=4, mode=0, linear=0.001, angular=0.001)
    job.joint()
    bodies = [job.body(0.5, (0.0, 0.0, 0.0)) for _ in range(2)]
    zero = (0.0, 0.0, 0.0)
    job.row(LINEAR, *bodies, (1.0, 0.0, 0.0), zero, (-1.0, 0.0, 0.0), zero, -0.25)
    # numbers not named are 0, the owner too
    return job


def four_bar(spare=0):
    """Frame, crank, coupler and rocker in a plane: four joints of two rows each."""
    job = Job(limit=32, mode=1, linear=1e-9, angular=1e-9, spare=spare)
    # joints A and D on the frame, B at the crank's end, C at the rocker's
    a, b, c, d = (0.0, 0.0, 0.0), (0.06, 0.08, 0.0), (0.32, 0.19, 0.0), (0.30, 0.0, 0.0)
    middle = lambda u, v: tuple((x + y) / 2 for x, y in zip(u, v))
    centres = [(0.15, 0.0, 0.0), middle(a, b), middle(b, c), middle(c, d)]
    lengths, masses = [0.1, 0.282, 0.191], [0.2, 0.5, 0.35]
    job.body(0.0, (0.0, 0.0, 0.0))
    for length, mass in zip(lengths, masses):
        inverse = 12.0 / (mass * length * length)
        job.body(1.0 / mass, (0.0, 0.0, inverse))
    # how far each part was scanned off its true place
    scans = [(0.0, 0.0), (2.1e-4, -1.3e-4), (-1.7e-4, 0.9e-4), (0.6e-4, 2.4e-4)]
    at = lambda part, point: (point[0] + scans[part][0], point[1] + scans[part][1], 0.0)
    seen = [at(part, centre) for part, centre in enumerate(centres)]
    job.place(seen)
    for first, second, point in [(0, 1, a), (1, 2, b), (2, 3, c), (3, 0, d)]:
        job.joint()
        points = (at(first, point), at(second, point))
        for axis in [(1.0, 0.0, 0.0), (0.0, 1.0, 0.0)]:
            job.pin(first, second, seen, points, axis)
    return job


def clock_train(spare=0):
    """Plates and four arbors: each turns in two pivots (four rows) with no endshake (one row), and each drives the next by its teeth (one row of angle)."""
    job = Job(limit=64, mode=0, linear=1e-9, angular=1e-9, spare=spare)
    # great, centre, third and escape arbor: place in the plates, kilograms, radius of its wheel
    arbors = [(0.0, 0.0, 0.40, 0.045), (0.05, 0.03, 0.12, 0.032), (0.09, 0.01, 0.06, 0.026), (0.12, 0.04, 0.03, 0.020)]
    teeth = [(96, 12), (80, 10), (75, 8)]
    slips = [4e-4, -7e-4, 3e-4]
    front, back = -0.03, 0.03
    centres = [(0.05, 0.02, 0.0)]
    job.body(0.0, (0.0, 0.0, 0.0))
    for x, y, mass, radius in arbors:
        across, along = 4.0 / (mass * (radius * radius + 0.0012)), 2.0 / (mass * radius * radius)
        job.body(1.0 / mass, (across, across, along))
        centres.append((x, y, 0.0))
    scans = [(0.0, 0.0, 0.0), (1.1e-4, -0.4e-4, 0.7e-4), (-0.8e-4, 1.6e-4, -0.5e-4), (0.3e-4, -1.2e-4, 1.4e-4), (-1.5e-4, 0.2e-4, 0.6e-4)]
    seen = [tuple(x + e for x, e in zip(centre, scan)) for centre, scan in zip(centres, scans)]
    job.place(seen)
    for arbor in range(1, 5):
        x, y, _ = centres[arbor]
        for z, axes in [(front, 3), (back, 2)]:
            job.joint()
            hole = (x, y, z)
            pivot = tuple(p + e for p, e in zip(hole, scans[arbor]))
            for axis in [(1.0, 0.0, 0.0), (0.0, 1.0, 0.0), (0.0, 0.0, 1.0)][:axes]:
                job.pin(arbor, 0, seen, (pivot, hole), axis)
    zero = (0.0, 0.0, 0.0)
    for driver, ((wheel, pinion), slip) in enumerate(zip(teeth, slips), start=1):
        # wheel and pinion turn against each other: wheel teeth times one angle is minus pinion teeth times the other
        job.joint()
        ratio = wheel / pinion
        job.row(ANGULAR, driver, driver + 1, zero, (0.0, 0.0, ratio), zero, (0.0, 0.0, 1.0), slip)
    return job


def bench():
    """Three mechanisms on one frame, scanned together, so that their rows are mixed: a pendulum, a crank with its coupler, and a wheel whose one pin was scanned twice."""
    job = Job(limit=32, mode=1, linear=1e-9, angular=1e-9)
    pivots = [None, (0.0, 0.0, 0.0), (0.2, 0.0, 0.0), (0.26, 0.08, 0.0), (0.5, 0.03, 0.0)]
    centres = [(0.25, 0.0, 0.0), (0.0, -0.12, 0.0), (0.23, 0.04, 0.0), (0.34, 0.10, 0.0), (0.5, 0.03, 0.0)]
    job.body(0.0, (0.0, 0.0, 0.0))
    for mass, length in [(0.5, 0.24), (0.2, 0.1), (0.4, 0.16), (0.25, 0.12)]:
        job.body(1.0 / mass, (0.0, 0.0, 12.0 / (mass * length * length)))
    scans = [(0.0, 0.0), (1.9e-4, -0.8e-4), (-1.2e-4, 0.5e-4), (0.7e-4, 1.6e-4), (-0.9e-4, -1.1e-4)]
    at = lambda part, point: (point[0] + scans[part][0], point[1] + scans[part][1], 0.0)
    seen = [at(part, centre) for part, centre in enumerate(centres)]
    x, y = (1.0, 0.0, 0.0), (0.0, 1.0, 0.0)
    # part, what it turns on, along which axis
    for part, on, axis in [(1, 0, x), (2, 0, x), (2, 0, y), (4, 0, x), (1, 0, y), (3, 2, x), (3, 2, y), (4, 0, x)]:
        job.joint()
        job.pin(part, on, seen, (at(part, pivots[part]), at(on, pivots[part])), axis)
    return job


def converted(converter, file, spare):
    """What the converter writes of a job file, asked for the layout that it has."""
    run = subprocess.run([converter, ("old", "new")[spare]], input=file, stdout=subprocess.PIPE, check=True)
    return run.stdout


if __name__ == "__main__":
    here = pathlib.Path(__file__).resolve().parent
    converter = pathlib.Path(sys.argv[1] if sys.argv[1:] else here.parent / "crates/convert/out/convert").resolve()
    plain = [("p1", p1()), ("four_bar", four_bar()), ("clock_train", clock_train()), ("bench", bench())]
    for name, job in plain + [("four_bar_centres", four_bar(1)), ("clock_train_centres", clock_train(1))]:
        file = job.bytes()
        if converter.exists() and converted(converter, file, job.spare) != file:
            sys.exit(f"{name}.job is not what the converter writes of it")
        (here / f"{name}.job").write_bytes(file)
        print(f"{name}.job: {len(job.rows) // 248} rows, {len(job.masses) // 80} bodies, {len(file)} bytes")
    print("each as the converter writes it" if converter.exists() else f"not held to the converter: there is no '{converter}'")
