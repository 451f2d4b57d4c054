"""Directions across an axis."""

import unittest

from workshop.vectors import X, Y, Z, across, cross, dot, length, unit


class Across(unittest.TestCase):
    def test_two_directions_that_are_square_and_turn_to_the_axis(self):
        for axis in [X, Y, Z, unit((1.0, 2.0, 3.0)), unit((-1.0, 1e-9, 0.0)), unit((0.0, 0.0, -5.0))]:
            first, second = across(axis)
            for u, v in [(first, second), (first, axis), (second, axis)]:
                self.assertAlmostEqual(dot(u, v), 0.0, places=15)
            self.assertAlmostEqual(length(first), 1.0, places=15)
            self.assertAlmostEqual(dot(cross(first, second), axis), 1.0, places=14)

    def test_axes_of_the_bench_are_exact(self):
        self.assertEqual([across(axis) for axis in (X, Y, Z)], [(Y, Z), (Z, X), (X, Y)])
