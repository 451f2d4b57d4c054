"""Descriptions: what they say, and errors that name file, line and what was expected."""

import unittest

from workshop import description, making
from workshop.words import Problem

HEAD = "plane z\ntolerance 0.01 mm 0.01 deg\nframe base\nlink arm at 10 0 mass 2 rod 20\n"
SPACE = "tolerance 0.01 mm 0.01 deg\nframe base\nlink arm at 10 0 0 mass 2 box 10 20 30\n"


class Errors(unittest.TestCase):
    def fails(self, text: str, line: int, *words: str):
        with self.assertRaises(Problem) as caught:
            making.made(text, "loom.scan")
        self.assertTrue(str(caught.exception).startswith(f"loom.scan:{line}: "), str(caught.exception))
        for word in words:
            self.assertIn(word, str(caught.exception))

    def test_unknown_statement(self):
        self.fails(HEAD + "pinn A base arm\n", 5, "expected one of title", "found 'pinn'")

    def test_unknown_link(self):
        self.fails(
            HEAD + "\n# a comment\npin A base crnk at 0 0 and 1 0\n", 7, "second link's name", "'crnk'", "base, arm"
        )

    def test_names_stand_once(self):
        self.fails(HEAD + "frame base\n", 5, "link 'base' stands in line 3 already")
        self.fails(
            HEAD + "pin A base arm at 0 0 gap 1 0\npin A base arm at 0 0 gap 1 0\n", 6, "joint 'A' stands in line 5"
        )

    def test_words_stand_once(self):
        self.fails("limit 3\nlimit 4\n", 2, "'limit' stands in line 1")
        self.fails(HEAD + "pin A base arm at 0 0 at 1 0\n", 5, "'at' stands twice")

    def test_numbers(self):
        self.fails(HEAD + "pin A base arm at 0 1,5 and 1 0\n", 5, "expected a point in mm", "'1,5'")
        self.fails(HEAD + "pin A base arm at 0 and 1 0\n", 5, "two or three numbers, found 1 and then 'and'")
        self.fails(SPACE + "ball A base arm at 0 0 and 1 0 0\n", 4, "three numbers, found 2 and then 'and'")
        self.fails("link a at 0 0 0 mass 0 box 1 1 1\n", 1, "mass in kg above 0")
        self.fails("link a at 0 0 0 mass 1e999 box 1 1 1\n", 1, "mass in kg", "beyond the doubles")
        self.fails("link a at 0 0 0 mass 1 box 1 -1 1\n", 1, "edge along y")
        self.fails("limit -1\n", 1, "step limit", "'-1'")
        self.fails("limit 4294967296\n", 1, "from 0 to 4294967295")
        self.fails("mode 3\n", 1, "from 0 to 2", "'3'")

    def test_line_ends_early_or_late(self):
        self.fails("frame\n", 1, "expected the link's name, found the end of the line")
        self.fails("limit 3 4\n", 1, "expected the end of the line, found '4'")

    def test_links_need_centre_mass_and_shape(self):
        self.fails("link a at 0 0 0 mass 1\n", 1, "box, rod, disc, moments, inertia")
        self.fails("link a mass 1 box 1 1 1\n", 1, "at, mass and one of")
        self.fails("link a at 0 0 0 box 1 1 1 mass 1\n", 1, "expected 'mass' before 'box'")
        self.fails("link a at 0 0 0 mass 1 rod 10\n", 1, "rod's thickness")
        self.fails("link a at 0 0 0 mass 1 rod 10 2\n", 1, "expected 'along'")

    def test_inertia_by_hand(self):
        self.fails("link a at 0 0 0 mass 1 inertia 1 2 0 2 1 0 0 0 1\n", 1, "refused by 23", "positive definite")
        self.fails("link a at 0 0 0 mass 1 inertia 1 0.5 0 0.4 1 0 0 0 1\n", 1, "refused by 22")
        self.fails("link a at 0 0 0 mass 1 inertia 1 0 0 0 1 0 0 0\n", 1, "nine numbers", "end of the line")

    def test_joints_need_what_their_kind_has(self):
        self.fails(HEAD + "pin A base arm at 0 0\n", 5, "'at P and Q'", "'at P gap G'")
        self.fails(HEAD + "pin A base arm at 0 0 and 1 1 gap 1 0\n", 5, "'at P and Q'")
        self.fails(HEAD + "pin A base arm at 0 0 gap 1 0 axis x\n", 5, "no axis but z")
        self.fails(HEAD + "pin A base arm at 0 0 gap 1 0 turn 1\n", 5, "leaves turning free")
        self.fails(HEAD + "slide A base arm at 0 0 gap 1 0\n", 5, "a slide has one")
        self.fails(HEAD + "slide A base arm at 0 0 gap 1 0 axis z\n", 5, "lies in the plane")
        self.fails(HEAD + "ball A base arm at 0 0 gap 1 0 axis z\n", 5, "expected of a ball: at, gap")
        self.fails(SPACE + "pin A base arm at 0 0 0 gap 1 0 0\n", 4, "a pin has one")
        self.fails(SPACE + "pin A base arm at 0 0 0 gap 1 0 0 axis 0 0 0\n", 4, "not all 0")
        self.fails(SPACE + "pin A base arm at 0 0 0 gap 1 0 0 axis z and 0 1 1\n", 4, "at most 10 degrees apart")
        both = "pin A base arm at 0 0 0 gap 1 0 0 axis z and 0 0.1 1 turn 0 0 1\n"
        self.fails(SPACE + both, 4, "either 'turn' or two axes")
        self.fails(HEAD + "gear A base arm slip 1\n", 5, "either 'teeth N M'")
        self.fails(HEAD + "gear A base arm teeth 3 4 along x slip 1\n", 5, "either 'teeth N M'")
        self.fails(HEAD + "gear A base arm teeth 3 4\n", 5, "expected 'slip'")
        self.fails(HEAD + "gear A base arm along x slip 1\n", 5, "expected of a rack")

    def test_tolerances(self):
        self.fails("frame a\n", 1, "expected 'tolerance NUMBER mm'")
        self.fails("frame a\ntolerance 1 deg\n", 2, "expected 'tolerance NUMBER mm'")
        self.fails("tolerance 1 inch\n", 1, "mm or deg")
        text = HEAD.replace(" 0.01 deg", "") + "weld W base arm at 0 0 gap 0 0\n"
        self.fails(text, 2, "in deg too", "'W' in line 5")

    def test_plane_comes_first(self):
        self.fails("frame a\nplane z\n", 2, "before the first link")
        self.fails("plane w\n", 1, "expected x, y or z")

    def test_an_empty_file(self):
        self.fails("", 1, "at least one link")


class Read(unittest.TestCase):
    def test_what_a_description_says(self):
        m = description.read(HEAD + "title  A  loom # old\nlimit 7\nmode 2\npin A base arm at 0 0 gap 0.5 -0.25\n")
        self.assertEqual((m.title, m.limit, m.mode, m.plane), ("A loom", 7, 2, (0.0, 0.0, 1.0)))
        self.assertEqual(m.links[1].centre, (0.01, 0.0, 0.0))
        self.assertEqual(m.joints[0].points, ((0.0005, -0.00025, 0.0), (0.0, 0.0, 0.0)))

    def test_planes_of_two_numbers(self):
        for plane, centre in [("x", (0.0, 0.001, 0.002)), ("y", (0.001, 0.0, 0.002)), ("z", (0.001, 0.002, 0.0))]:
            m = description.read(f"plane {plane}\ntolerance 1 mm\nframe a at 1 2\n")
            self.assertEqual(m.links[0].centre, centre)

    def test_the_limit_that_is_not_told(self):
        self.assertEqual(making.made(HEAD + "pin A base arm at 0 0 gap 1 0\n", "f").job.limit, 4)

    def test_moments_and_inertia_agree(self):
        shapes = ["moments 1 2 4", "inertia 1 0 0 0 2 0 0 0 4"]
        links = [description.read(f"tolerance 1 mm\nlink a at 0 0 0 mass 1 {shape}\n").links[0] for shape in shapes]
        self.assertEqual(links[0].inverse_inertia[0], 1e6)
        for one, other in zip(*(link.inverse_inertia for link in links)):
            self.assertAlmostEqual(one, other, delta=1e-9)
        for shape in ["moments 1 2 4", "inertia 1 0 0.5 0 2 0 0.5 0 4"]:
            flat = description.read(f"plane z\ntolerance 1 mm\nlink a at 0 0 0 mass 1 {shape}\n").links[0]
            self.assertEqual(flat.inverse_inertia, (0.0,) * 8 + (250000.0,))

    def test_what_is_foreseen(self):
        def numbers(text):
            return [(item.line, item.number) for item in making.made(text, "f").foreseen]

        self.assertEqual(numbers(HEAD + "pin A base arm at 0 0 gap 1 0\n"), [])
        self.assertEqual(numbers(HEAD + "limit 0\npin A base arm at 0 0 gap 1 0\n"), [(5, 5)])
        self.assertEqual(numbers(HEAD + "pin A arm arm at 0 0 gap 1 0\n"), [(5, 7)])
        self.assertEqual(numbers(HEAD + "frame post\npin A base post at 0 0 gap 1 0\n"), [(6, 9)])
        self.assertEqual(numbers(HEAD + "frame post\npin A base post at 0 0 gap 0 0\n"), [])
        self.assertEqual(numbers(HEAD.replace("0.01 mm", "-1 mm")), [(2, 26)])
        self.assertEqual(numbers(HEAD.replace("mass 2", "mass 4e-310")), [(4, 6)])
