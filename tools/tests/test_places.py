"""tools/places: the places of a proof counted anew from a generated walk."""

import importlib.machinery
import importlib.util
import unittest

from .where import ROOT

loader = importlib.machinery.SourceFileLoader("places", str(ROOT / "tools" / "places"))
places = importlib.util.module_from_spec(importlib.util.spec_from_loader("places", loader))
loader.exec_module(places)

WALK = """
      pub record Start : Type 0 where
        pub args : Args

      pub record After-fits : Type 0 where
        pub before : Start
        pub fits : After-fits·own before

      pub record Else1 : Type 0 where
        pub before : After-fits
        pub if1 : Else1·own before

      pub record After-check : Type 0 where
        pub before : Else1
        pub check : After-check·own before
"""

PROOF = """-- a proof

abbrev at-if1 : tie.After-check → tie.Else1
at-if1 c = {}

abbrev start : tie.After-check → tie.Start
start c = {}

abbrev start₂ : tie.Else1 Inv-loop μ-loop → tie.Start Inv-loop μ-loop
start₂ c = {}

pub spec : Type 0
spec = answer (at-if1 c .if1 .left) (start c .args)
"""

COUNTED = PROOF.format("c .before", "at-if1 c .before .before", "c .before .before")


class Places(unittest.TestCase):
    before = places.befores(WALK)

    def test_walk(self):
        self.assertEqual(self.before, {"After-fits": "Start", "Else1": "After-fits", "After-check": "Else1"})
        self.assertEqual(places.steps(self.before, "After-check", "Start"), 3)
        self.assertIsNone(places.steps(self.before, "After-fits", "After-check"))

    def test_counted_anew(self):
        stale = PROOF.format("c .before .before", "at-if1 c .before", "c\n    .before .before .before")
        self.assertEqual(places.counted(stale, self.before), (COUNTED, []))

    def test_counted_stays(self):
        self.assertEqual(places.counted(COUNTED, self.before), (COUNTED, []))

    def test_no_path(self):
        text = COUNTED.replace("→ tie.Else1", "→ tie.Then1")
        self.assertEqual(places.counted(text, self.before)[1], ["at-if1"])

    def test_long_path_is_broken(self):
        before = {f"A{i}": f"A{i - 1}" for i in range(1, 41)}
        text, _ = places.counted("abbrev far : tie.A40 → tie.A0\nfar c = c .before\n", before)
        self.assertEqual(text.count(".before"), 40)
        self.assertTrue(all(len(line) <= places.WIDTH for line in text.split("\n")))
        self.assertEqual(places.counted(text, before), (text, []))
