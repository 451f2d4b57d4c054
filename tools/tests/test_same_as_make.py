"""The mechanisms of samples/make.py, described in words, give the same numbers."""

import importlib.util
import math
import unittest
from fractions import Fraction

from workshop import job_file, making

from .where import SAMPLES, WORKSHOP


def maker():
    spec = importlib.util.spec_from_file_location("samples_make", SAMPLES / "make.py")
    module = importlib.util.module_from_spec(spec)
    spec.loader.exec_module(module)
    return module


def numbers(job):
    """All that a solve reads, but for the key, which here tells the kind of joint."""
    rows = [
        (r.dimension, r.owner, r.a, r.b, r.linear_a, r.angular_a, r.linear_b, r.angular_b, r.error) for r in job.rows
    ]
    return rows, [(b.inverse_mass, b.inverse_inertia, b.centre) for b in job.bodies]


def mm(metres: float) -> str:
    """A double in metres as millimetres with all its digits, which a description takes without loss."""
    exact = Fraction(metres) * 1000
    whole, rest = divmod(abs(exact.numerator), exact.denominator)
    digits = []
    while rest:
        digit, rest = divmod(10 * rest, exact.denominator)
        digits.append(str(digit))
    return ("-" if exact < 0 else "") + f"{whole}." + "".join(digits)


class SameAsMake(unittest.TestCase):
    def test_the_handwritten_descriptions_to_a_rounding(self):
        for name, made in [("four_bar", maker().four_bar(1)), ("clock_train", maker().clock_train(1))]:
            text = (WORKSHOP / f"{name}.scan").read_text(encoding="utf-8")
            self.same(
                making.made(text, name).job, job_file.read(made.bytes()), 2e-9 if name == "clock_train" else 4e-17
            )

    def test_the_sample_files_are_those(self):
        for name, made in [("four_bar", maker().four_bar(1)), ("clock_train", maker().clock_train(1))]:
            self.assertEqual((SAMPLES / f"{name}_centres.job").read_bytes(), made.bytes())

    def test_all_digits_give_all_bits(self):
        """The linkage once more, each number with all its digits: then rows, masses and centres are equal."""
        make = maker()
        wanted = job_file.read(make.four_bar(1).bytes())
        scans = [(0.0, 0.0), (2.1e-4, -1.3e-4), (-1.7e-4, 0.9e-4), (0.6e-4, 2.4e-4)]
        corners = [(0.0, 0.0), (0.06, 0.08), (0.32, 0.19), (0.30, 0.0)]
        lines = ["plane z", "limit 32", "mode 1", "tolerance 1e-6 mm"]
        shapes = [None, ("0.2", "100"), ("0.5", "282"), ("0.35", "191")]
        for number, (body, shape) in enumerate(zip(wanted.bodies, shapes)):
            at = f"{number} at {mm(body.centre[0])} {mm(body.centre[1])}"
            lines.append(f"link {at} mass {shape[0]} rod {shape[1]}" if shape else f"frame {at}")
        for joint, (a, b) in enumerate([(0, 1), (1, 2), (2, 3), (3, 0)]):
            points = [" ".join(mm(part + off) for part, off in zip(corners[joint], scans[link])) for link in (a, b)]
            lines.append(f"pin {joint} {a} {b} at {points[0]} and {points[1]}")
        job = making.made("\n".join(lines), "f").job
        self.assertEqual(numbers(job), numbers(wanted))
        self.assertEqual((job.limit, job.mode, job.tolerances[0]), (wanted.limit, wanted.mode, wanted.tolerances[0]))

    def test_all_digits_give_all_bits_of_the_train(self):
        """The clock train with all digits, its slips in degrees."""
        wanted = job_file.read(maker().clock_train(1).bytes())
        scans = [
            (1.1e-4, -0.4e-4, 0.7e-4),
            (-0.8e-4, 1.6e-4, -0.5e-4),
            (0.3e-4, -1.2e-4, 1.4e-4),
            (-1.5e-4, 0.2e-4, 0.6e-4),
        ]
        arbors = [(0.0, 0.0, "0.40", 45), (0.05, 0.03, "0.12", 32), (0.09, 0.01, "0.06", 26), (0.12, 0.04, "0.03", 20)]
        words = lambda point: " ".join(mm(part) for part in point)
        lines = ["limit 64", "tolerance 1e-6 mm 1 deg", f"frame plates at {words(wanted.bodies[0].centre)}"]
        for k, (_, _, mass, radius) in enumerate(arbors):
            lines.append(f"link {k} at {words(wanted.bodies[k + 1].centre)} mass {mass} disc {radius} 60 about z")
        for k, (x, y, _, _) in enumerate(arbors):
            for z, kind, axis in [(-0.03, "ball", ""), (0.03, "pivot", "axis z")]:
                pivot = tuple(part + off for part, off in zip((x, y, z), scans[k]))
                lines.append(f"{kind} {k}{kind} {k} plates at {words(pivot)} and {words((x, y, z))} {axis}")
        for k, (teeth, slip) in enumerate([("96 12", 4e-4), ("80 10", -7e-4), ("75 8", 3e-4)]):
            lines.append(f"gear {k} {k} {k + 1} teeth {teeth} axis z slip {math.degrees(slip)!r}")
        self.assertEqual(numbers(making.made("\n".join(lines), "f").job), numbers(wanted))

    def same(self, job, wanted, delta):
        self.assertEqual((job.limit, job.mode), (wanted.limit, wanted.mode))
        rows, bodies = numbers(job)
        wanted_rows, wanted_bodies = numbers(wanted)
        self.assertEqual([row[:4] for row in rows], [row[:4] for row in wanted_rows])
        for row, want in zip(rows, wanted_rows):
            for vector, other in zip(row[4:8], want[4:8]):
                for one, two in zip(vector, other):
                    self.assertAlmostEqual(one, two, delta=4e-17)
            self.assertAlmostEqual(row[8], want[8], delta=delta if row[0] else 4e-17)
        for body, want in zip(bodies, wanted_bodies):
            for one, two in zip((body[0], *body[1], *body[2]), (want[0], *want[1], *want[2])):
                self.assertAlmostEqual(one, two, delta=4e-16 * max(1.0, abs(two)))
