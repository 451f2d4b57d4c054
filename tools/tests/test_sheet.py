"""Sheets are read strictly."""

import math
import unittest

from workshop import job_file, outcome, sheet

from .where import sample, text


class Sheets(unittest.TestCase):
    def setUp(self):
        self.job = job_file.read(sample("four_bar"))
        self.text, self.gaps = text("four_bar.sheet"), text("four_bar.gaps")

    def test_a_whole_sheet(self):
        told = sheet.parsed(self.text, self.job)
        self.assertEqual((told.refusal, told.verdict, len(told.multipliers), len(told.impulses)), (0, 1, 8, 4))
        self.assertEqual(told.new_centres[0], (0.15, 0.0, 0.0))

    def test_every_cut_is_found(self):
        for whole, read in [(self.text, sheet.parsed), (self.gaps, sheet.measured)]:
            for length in range(len(whole)):
                with self.assertRaises(sheet.CutSheet):
                    read(whole[:length], self.job)
            with self.assertRaises(sheet.CutSheet):
                read(whole + "body 4\n", self.job)

    def test_a_missing_line_in_the_middle(self):
        for whole, read in [(self.text, sheet.parsed), (self.gaps, sheet.measured)]:
            lines = whole.splitlines(keepends=True)
            for k in range(len(lines)):
                with self.assertRaises(sheet.CutSheet):
                    read("".join(lines[:k] + lines[k + 1 :]), self.job)

    def test_odd_words(self):
        for old, new in [
            ("close 1", "close 2"),
            ("close 1", "close 18"),
            ("solve 0 1 1", "solve 0 x 1"),
            ("row 3", "row 4"),
            ("row 0 3", "row 0 g"),
        ]:
            self.assertIn(old, self.text)
            with self.assertRaises(sheet.CutSheet):
                sheet.parsed(self.text.replace(old, new), self.job)

    def test_refused(self):
        self.assertEqual(sheet.parsed("solve 13 0 0\n", self.job).refusal, 13)
        for line, place in [
            ("refused row 2 1", ("row", "2", "1")),
            ("refused body 3", ("body", "3")),
            ("refused limit", ("limit",)),
        ]:
            self.assertEqual(sheet.measured(f"solve 7 0 0\n{line}\n", self.job).place, place)
        for wrong in ["refused row 2", "refused", "refused door 1", "refused limit\nrefused limit"]:
            with self.assertRaises(sheet.CutSheet):
                sheet.measured(f"solve 7 0 0\n{wrong}\n", self.job)
        with self.assertRaises(sheet.CutSheet):
            sheet.parsed("solve 7 0 0\nrefused limit\n", self.job)

    def test_not_judged(self):
        job = job_file.read(sample("unjudged_18"))
        told = sheet.parsed(text("unjudged_18.sheet"), job)
        self.assertEqual((told.verdict, told.gap), (18, None))
        self.assertEqual(sheet.measured(text("unjudged_18.gaps"), job).measured, ())

    def test_gaps_by_joint(self):
        told = outcome.stored([self.text, self.gaps], self.job).sheet
        widest = sheet.by_joint(told, self.job)
        self.assertEqual(list(widest), [(1, 0), (0, 0), (2, 0), (3, 0)])
        self.assertEqual(next(iter(widest.values())).number, told.gap[0])
        self.assertEqual(sorted(row.ratio for row in widest.values()), [row.ratio for row in reversed(widest.values())])

    def test_a_tolerance_of_zero(self):
        row = lambda gap: sheet.Measured(0, 0, gap, 0.0, gap == 0.0).ratio
        self.assertEqual((row(0.0), row(1e-300)), (0.0, math.inf))

    def test_texts_that_do_not_belong_together(self):
        other = self.gaps.replace("solve 0 1 1", "solve 0 2 1")
        with self.assertRaises(sheet.CutSheet):
            outcome.stored([self.text, other], self.job)
        with self.assertRaises(sheet.CutSheet):
            outcome.stored([self.text, self.text], self.job)
