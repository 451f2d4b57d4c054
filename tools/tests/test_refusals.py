"""The words of refusals come from docs/refusals.tsv."""

import unittest

from workshop import refusals


class Words(unittest.TestCase):
    def test_each_number_has_its_line(self):
        lines = refusals.TABLE.read_text(encoding="utf-8").splitlines()[1:]
        self.assertGreater(len(lines), 29)
        for line in lines:
            number, name, text, advice = line.split("\t")
            self.assertEqual(refusals.in_words(int(number)), f"{number} ({name}): {text} {advice}")

    def test_a_number_that_is_not_in_the_table(self):
        self.assertIn("does not have this number", refusals.in_words(99))
