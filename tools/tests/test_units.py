"""Numbers as people write them."""

import math
import unittest

from workshop import units


class Units(unittest.TestCase):
    def test_millimetres_are_rounded_once(self):
        for word, metres in [("60.21", 0.06021), ("0.1", 0.0001), ("-1e-6", -1e-9), (".5", 0.0005), ("3.", 0.003)]:
            self.assertEqual(units.metres(word), metres)

    def test_degrees(self):
        self.assertEqual(units.radians("180"), math.pi)

    def test_what_is_no_number(self):
        for word in ["", "1,5", "nan", "inf", "0x10", "1e", "--1", "1_0", "3/4", "1e9999999999", "1e999"]:
            with self.assertRaises(units.NotANumber):
                units.plain(word)

    def test_three_digits(self):
        told = [units.in_mm(value) for value in (0.0, 1e-9, 0.00038, 7.49, 1.4e11, 1e-17)]
        self.assertEqual(told, ["0 mm", "1e-6 mm", "0.38 mm", "7490 mm", "1.4e+14 mm", "1e-14 mm"])
        self.assertEqual(units.told(math.pi, 1), "180 deg")
