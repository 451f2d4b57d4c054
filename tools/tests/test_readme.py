"""What tools/README.md shows is what the tools do."""

import re
import unittest

from workshop.description import SHAPES, STATEMENTS
from workshop.mechanism import KEYS

from .test_report import shown
from .where import ROOT, WORKSHOP

README = (ROOT / "tools" / "README.md").read_text(encoding="utf-8")
FENCES = re.findall(r"^```(\w*)\n(.*?)^```$", README, re.MULTILINE | re.DOTALL)
BLOCKS = [block for language, block in FENCES if not language]


class Readme(unittest.TestCase):
    maxDiff = None

    def test_the_report(self):
        self.assertEqual(BLOCKS[0], shown("heddle_frame_open").replace("heddle_frame_open.job", "frame.job"))

    def test_the_description(self):
        comment, text = (WORKSHOP / "four_bar.scan").read_text(encoding="utf-8").split("\n", 1)
        self.assertTrue(comment.startswith("#"))
        self.assertEqual(BLOCKS[1], text)

    def test_every_word_of_the_language_is_told(self):
        for word in STATEMENTS:
            self.assertRegex(README, rf"`{word}[ `]" if word not in KEYS else rf"\| `{word}` \| {KEYS[word]} \|")
        for word in SHAPES:
            self.assertRegex(README, rf"\| `{word}[ `]")

    def test_every_sample_is_told(self):
        told = set(re.findall(r"`([a-z_0-9]+)`", README.split("| description |")[1].split("A linkage in motion")[0]))
        self.assertEqual(told, {path.stem for path in WORKSHOP.glob("*.scan")})
