"""Inverse inertias, and what is turned back."""

import itertools
import unittest

from workshop import inertia
from workshop.refusals import Refused
from workshop.vectors import X, Z, unit


def product(a, b):
    """Two matrices by columns."""
    return [sum(a[3 * k + i] * b[3 * j + k] for k in range(3)) for j in range(3) for i in range(3)]


class Inertia(unittest.TestCase):
    def close(self, numbers, wanted, places=12):
        for number, want in zip(numbers, wanted):
            self.assertAlmostEqual(number, want, places=places)

    def test_inverse_times_inertia_is_one(self):
        for matrix in (
            [2, 1, 0, 1, 2, 0, 0, 0, 4],
            [3, -1, 0.5, -1, 2, 0.25, 0.5, 0.25, 1],
            [1e-9, 0, 0, 0, 1e-9, 0, 0, 0, 1e-9],
        ):
            self.close(product(matrix, inertia.inverse(matrix)), inertia.diagonal(1.0, 1.0, 1.0))

    def test_refusals(self):
        for number, matrix in [
            (22, [2, 1, 0, 0.9, 2, 0, 0, 0, 4]),
            (23, [1, 2, 0, 2, 1, 0, 0, 0, 1]),
            (23, [0] * 9),
            (23, [1, 0, 0, 0, 1, 0, 0, 0, -1]),
            (12, [1, 0, 0, 0, 1, 0, 0, 0, 2.0**-1074]),
        ]:
            with self.assertRaises(Refused) as caught:
                inertia.inverse([float(n) for n in matrix])
            self.assertEqual(caught.exception.number, number)

    def test_shapes_against_their_moments(self):
        mass, r, length = 3.0, 0.2, 0.7
        along, across = mass * r * r / 2, mass * (3 * r * r + length * length) / 12
        self.close(inertia.of_cylinder(mass, r, length, Z), inertia.diagonal(1 / across, 1 / across, 1 / along))
        self.close(inertia.of_cylinder(mass, r, length, X), inertia.diagonal(1 / along, 1 / across, 1 / across))
        x, y, z = 0.3, 0.4, 0.5
        moments = [mass * (a * a + b * b) / 12 for a, b in ((y, z), (z, x), (x, y))]
        self.close(inertia.of_box(mass, x, y, z), inertia.diagonal(*(1 / m for m in moments)))

    def test_a_leaning_cylinder_is_a_turned_one(self):
        axis = unit((1.0, 2.0, -2.0))
        columns = inertia.of_cylinder(3.0, 0.2, 0.7, axis)
        lengthwise = 2.0 / (3.0 * 0.2 * 0.2)
        self.close(inertia.turned(columns, axis), [lengthwise * part for part in axis])
        for i, j in itertools.product(range(3), repeat=2):
            self.assertAlmostEqual(columns[3 * i + j], columns[3 * j + i], places=12)

    def test_turning_goes_by_columns(self):
        self.assertEqual(inertia.turned([1.0, 2.0, 3.0, 4.0, 5.0, 6.0, 7.0, 8.0, 9.0], X), (1.0, 2.0, 3.0))
