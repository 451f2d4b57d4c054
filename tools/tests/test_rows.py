"""Rows against mechanics: a row's numbers must give the first-order change of what the row measures."""

import math
import random
import unittest

from workshop import making
from workshop.rows import rows_of
from workshop.vectors import X, Y, Z, ZERO, across, cross, dot, length, minus, plus, times, unit

SPACE = """tolerance 1 mm 1 deg
link a at 10 20 -5 mass 2 box 10 20 30
link b at -30 7 12 mass 1 box 10 20 30
"""
PLANE = """plane z
tolerance 1 mm 1 deg
link a at 10 20 mass 2 rod 30
link b at -30 7 mass 1 rod 30
"""
AXIS = "1 2 2"  # of length 3


def turned(vector, turn):
    """A vector turned about a rotation vector, by Rodrigues' formula."""
    angle = length(turn)
    if angle == 0.0:
        return vector
    axis = times(1.0 / angle, turn)
    along = times(dot(axis, vector) * (1.0 - math.cos(angle)), axis)
    return plus(plus(times(math.cos(angle), vector), times(math.sin(angle), cross(axis, vector))), along)


class Jacobians(unittest.TestCase):
    def made(self, text):
        return making.made(text, "f")

    def motions(self, flat):
        """Small moves and turns of both links."""
        draw = random.Random(7)
        for _ in range(5):
            move = [tuple(draw.uniform(-1e-6, 1e-6) for _ in range(3)) for _ in range(2)]
            turn = [
                times(draw.uniform(-1e-5, 1e-5), Z) if flat else tuple(draw.uniform(-1e-5, 1e-5) for _ in range(3))
                for _ in range(2)
            ]
            yield move, turn

    def check_linear(self, line, text, directions, flat):
        """n · (p_a − p_b), with the points carried by their links, changes as the row says."""
        made = self.made(text + line)
        joint, links = made.mechanism.joints[0], made.mechanism.links
        rows = [row for row in made.job.rows if row.dimension == 0]
        self.assertEqual(len(rows), len(directions))
        for row, n in zip(rows, directions):
            self.assertAlmostEqual(row.error, dot(minus(*joint.points), n), places=15)
            for move, turn in self.motions(flat):
                points = [
                    plus(plus(link.centre, m), turned(minus(p, link.centre), t))
                    for link, p, m, t in zip(links, joint.points, move, turn)
                ]
                self.assertAlmostEqual(dot(minus(*points), n), row.error + self.change(row, move, turn), delta=1e-11)

    @staticmethod
    def change(row, move, turn):
        return (
            dot(row.linear_a, move[0])
            + dot(row.angular_a, turn[0])
            + dot(row.linear_b, move[1])
            + dot(row.angular_b, turn[1])
        )

    def test_linear_rows_of_every_kind(self):
        at = "at 1 2 3 and 1.2 1.9 3.3"
        axis = unit((1.0, 2.0, 2.0))
        for line, directions in [
            (f"pin J a b {at} axis {AXIS}", (X, Y, Z)),
            (f"ball J a b {at}", (X, Y, Z)),
            (f"weld J a b {at}", (X, Y, Z)),
            (f"pivot J a b {at} axis {AXIS}", across(axis)),
            (f"slide J a b {at} axis {AXIS}", across(axis)),
        ]:
            self.check_linear(line, SPACE, directions, False)
        flat = "at 1 2 and 1.2 1.9"
        for line, directions in [
            (f"pin J a b {flat}", (X, Y)),
            (f"pivot J a b {flat}", (X, Y)),
            (f"ball J a b {flat}", (X, Y)),
            (f"weld J a b {flat}", (X, Y)),
            (f"slide J a b {flat} axis 3 4 0", ((-0.8, 0.6, 0.0),)),
        ]:
            self.check_linear(line, PLANE, directions, True)

    def test_angular_rows_of_every_kind(self):
        at, axis = "at 0 0 0 gap 0 0 0", unit((1.0, 2.0, 2.0))
        turn = tuple(math.radians(angle) for angle in (0.1, -0.2, 0.3))
        for line, text, directions, measured in [
            (f"pin J a b {at} axis {AXIS} turn 0.1 -0.2 0.3", SPACE, across(axis), turn),
            (f"weld J a b {at} turn 0.1 -0.2 0.3", SPACE, (X, Y, Z), turn),
            (f"slide J a b {at} axis {AXIS} turn 0.1 -0.2 0.3", SPACE, (X, Y, Z), turn),
            ("weld J a b at 0 0 gap 0 0 turn 0.3", PLANE, (Z,), times(math.radians(0.3), Z)),
            ("slide J a b at 0 0 gap 0 0 axis x turn 0.3", PLANE, (Z,), times(math.radians(0.3), Z)),
        ]:
            rows = [row for row in self.made(text + line).job.rows if row.dimension == 1]
            self.assertEqual(len(rows), len(directions))
            for row, n in zip(rows, directions):
                self.assertAlmostEqual(row.error, dot(measured, n), places=15)
                for move, turns in self.motions(text is PLANE):
                    self.assertAlmostEqual(self.change(row, move, turns), dot(n, minus(*turns)), places=18)

    def test_two_scanned_axes_tell_the_tilt(self):
        """b's axis is a's turned back by a small angle: the rows measure that angle."""
        axis, tilt = Z, (0.0003, -0.0002, 0.0)
        other = turned(axis, times(-1.0, tilt))
        for end in (1.0, -1.0):  # whichever end of the axis the scanner took first
            words = " ".join(f"{end * number:.15f}" for number in other)
            made = self.made(SPACE + f"pin J a b at 0 0 0 gap 0 0 0 axis z and {words}")
            rows = [row for row in made.job.rows if row.dimension == 1]
            for row, n in zip(rows, (X, Y)):
                self.assertAlmostEqual(row.error, dot(tilt, n), delta=1e-10)

    def test_kinds_without_angles(self):
        for line in ["ball J a b at 0 0 0 gap 1 0 0", "pivot J a b at 0 0 0 gap 1 0 0 axis z"]:
            self.assertTrue(all(row.dimension == 0 for row in self.made(SPACE + line).job.rows))

    def test_gears(self):
        """A wheel of 40 teeth that turns by one carries a pinion of 10 back by four; inside, forward."""
        for inside, sign in [("", -1.0), (" inside", 1.0)]:
            (row,) = self.made(SPACE + f"gear J a b teeth 40 10 axis z slip 0.5{inside}").job.rows
            self.assertEqual((row.dimension, row.error), (1, math.radians(0.5)))
            self.assertAlmostEqual(
                self.change(row, (ZERO, ZERO), (times(0.1, Z), times(sign * 0.4, Z))), 0.0, places=15
            )

    def test_rack(self):
        """A wheel of 25 mm that turns by t carries the rack that lies under it by 25 t along x."""
        text = "plane z\ntolerance 1 mm\nlink a at 0 25 mass 1 disc 25\nlink b at 90 -5 mass 1 box 200 10 10\n"
        (row,) = self.made(text + "gear J a b at 0 0 along x slip 0.4").job.rows
        self.assertEqual((row.dimension, row.error), (0, 0.0004))
        self.assertAlmostEqual(self.change(row, (ZERO, (0.025 * 0.1, 0.0, 0.0)), (times(0.1, Z), ZERO)), 0.0, places=15)

    def test_owner_and_key(self):
        text = (
            SPACE
            + "ball one a b at 0 0 0 gap 0 0 0\ngear two a b teeth 1 2 axis z slip 0\nweld three a b at 0 0 0 gap 0 0 0"
        )
        rows = self.made(text).job.rows
        self.assertEqual([row.owner for row in rows], [0] * 3 + [1] + [2] * 6)
        self.assertEqual([row.key for row in rows], [4] * 3 + [5] + [3] * 6)
        mechanism = self.made(text).mechanism
        self.assertEqual(len(rows_of(mechanism.joints[2], 2, mechanism.links, None)), 6)
