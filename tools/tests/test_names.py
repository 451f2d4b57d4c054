"""The side file."""

import dataclasses
import pathlib
import tempfile
import unittest

from workshop import making, names

from .where import WORKSHOP


class SideFile(unittest.TestCase):
    def setUp(self):
        self.made = making.made((WORKSHOP / "clock_train.scan").read_text(encoding="utf-8"), "clock")
        self.text = names.text_of(self.made.mechanism, self.made.job)

    def test_round_trip(self):
        named = names.parsed(self.text, self.made.job)
        self.assertEqual((named.title, named.note), ("Clock train", ""))
        self.assertEqual([named.link(k) for k in range(6)], ["plates", "great", "centre", "third", "escape", "link 5"])
        for owner, joint in enumerate(self.made.mechanism.joints):
            self.assertEqual((named.joint(owner), named.kind(owner)), (joint.name, joint.kind))
            for point, want in zip(named.joints[owner].points, joint.points):
                for one, two in zip(point, want):
                    self.assertAlmostEqual(one, two, places=15)
        self.assertEqual(named.joints[1].axis, (0.0, 0.0, 1.0))
        self.assertIsNone(named.joints[0].axis)

    def test_another_limit_is_the_same_mechanism(self):
        job = dataclasses.replace(self.made.job, limit=1, mode=2, tolerances=(1.0, 1.0))
        self.assertEqual(names.parsed(self.text, job).title, "Clock train")

    def test_another_job_has_other_names(self):
        job = dataclasses.replace(self.made.job, rows=self.made.job.rows[1:])
        named = names.parsed(self.text, job)
        self.assertEqual(named.joint(1), "joint 1")
        self.assertIn("another job's", named.note)

    def test_a_damaged_side_file(self):
        damaged = self.text.replace("joint 3 pivot centre-b at", "joint 3 pivot centre-b at x")
        self.assertIn("damaged", names.parsed(damaged, self.made.job).note)

    def test_none_beside_the_job(self):
        with tempfile.TemporaryDirectory() as folder:
            named = names.of(pathlib.Path(folder) / "a.job", self.made.job)
        self.assertEqual((named.joint(3), named.note), ("joint 3", ""))
