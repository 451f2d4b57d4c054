"""Pictures: well-formed, inside the paper, readable, and telling open from closed in words and shape."""

import re
import unittest
from xml.etree import ElementTree

from workshop import job_file, making, names, outcome, page, picture, sheet, svg
from workshop.labels import Box, Placer, around
from workshop.view import Panel, fitted

from .where import WORKSHOP, sample, text

SVG = "{http://www.w3.org/2000/svg}"


def drawn(name: str, along=None, named: bool = True) -> str:
    job = job_file.read(sample(name))
    told = outcome.stored([text(f"{name}.gaps")], job).sheet
    known = names.of(WORKSHOP / f"{name}.job", job) if named else names.Names()
    return picture.svg_text(f"{name}.job", job, known, told, along)


def chain(count: int):
    """A chain of many links, every third joint open, with the text that gaps would print of it."""
    lines = ["plane z", "tolerance 0.01 mm", "frame wall"]
    lines += [f"link bar-{k} at {100 * k + 50} 0 mass 1 rod 100" for k in range(count)]
    ends = ["wall"] + [f"bar-{k}" for k in range(count)]
    lines += [f"pin joint-number-{k} {ends[k]} {ends[k + 1]} at {100 * k} 0 gap 0.1 0.1" for k in range(count)]
    made = making.made("\n".join(lines), "chain")
    gap = lambda k: 2e-5 if k % 3 == 0 else 1e-7
    rows = tuple(
        sheet.Measured(i, row.owner, gap(row.owner), 1e-5, gap(row.owner) <= 1e-5)
        for i, row in enumerate(made.job.rows)
    )
    told = sheet.Sheet(0, 5, 0, (2e-5, 0.0), 0, measured=rows)
    known = names.parsed(names.text_of(made.mechanism, made.job), made.job)
    return made.job, known, told


class Pictures(unittest.TestCase):
    def looked_at(self, told: str):
        root = ElementTree.fromstring(told)
        self.assertEqual(root.tag, f"{SVG}svg")
        for element in root.iter(f"{SVG}text"):
            size, x, y = (float(element.get(name)) for name in ("font-size", "x", "y"))
            self.assertGreaterEqual(size, 12.0)
            # about as wide as common letters are; the picture's own measure is wider
            width = 0.52 * size * len(element.text)
            left = x - {"middle": width / 2, "end": width}.get(element.get("text-anchor"), 0.0)
            self.assertTrue(0.0 <= left and left + width <= picture.WIDTH, element.text)
            self.assertTrue(size <= y <= picture.HEIGHT, element.text)
        return root, [element.text for element in root.iter(f"{SVG}text")]

    def test_every_sample(self):
        found = sorted(path.stem for path in WORKSHOP.glob("*.scan"))
        self.assertGreater(len(found), 10)
        for name in found:
            for along in (None, "x", "y", "z"):
                self.looked_at(drawn(name, along))
            self.looked_at(drawn(name, named=False))

    def test_closed(self):
        root, words = self.looked_at(drawn("four_bar"))
        self.assertIn("CLOSED", words)
        self.assertEqual(words.count("closed"), 4)
        self.assertFalse([word for word in words if word.endswith("OPEN")])
        for name in ["A", "B", "C", "D", "crank", "coupler", "rocker"]:
            self.assertIn(name, words)

    def test_open_is_told_in_words_and_in_shape(self):
        root, words = self.looked_at(drawn("heddle_frame_open"))
        job = job_file.read(sample("heddle_frame_open"))
        told = sheet.measured(text("heddle_frame_open.gaps"), job)
        open_joints = {row.owner for row in told.measured if not row.within}
        self.assertTrue(0 < len(open_joints) < 7)
        named = names.of(WORKSHOP / "heddle_frame_open.job", job)
        for owner in range(7):
            self.assertEqual(f"{named.joint(owner)} OPEN" in words, owner in open_joints)
        diamonds = [e for e in root.iter(f"{SVG}polygon") if e.get("fill") == "white"]
        arrows = [e for e in root.iter(f"{SVG}polygon") if e.get("fill") == "black"]
        beyond = [row for row in sheet.by_joint(told, job).values() if not row.within]
        self.assertEqual((len(diamonds), len(arrows)), (len(open_joints), len(beyond)))

    def test_turned_back(self):
        _, words = self.looked_at(drawn("refused_09_fixed"))
        self.assertIn("TURNED BACK BY 9", words)
        self.assertIn("bolt LOOK HERE", words)
        self.assertIn("What to do", words)
        _, words = self.looked_at(drawn("refused_06_mass"))
        self.assertIn("pendulum LOOK HERE", words)

    def test_what_was_not_measured_is_not_drawn_as_closed(self):
        for name in ["refused_06_mass", "worn_frame", "unjudged_18"]:
            root, words = self.looked_at(drawn(name))
            signs = [e for e in root.iter(f"{SVG}circle")]
            self.assertTrue(signs)
            self.assertTrue(all(sign.get("stroke-dasharray") for sign in signs))
            self.assertFalse([word for word in words if "closed" in word])
        root, _ = self.looked_at(drawn("four_bar"))
        self.assertFalse([e for e in root.iter(f"{SVG}circle") if e.get("stroke-dasharray")])

    def test_a_long_title_does_not_reach_the_answer(self):
        job, known, told = chain(2)
        _, words = self.looked_at(picture.svg_text("c.job", job, names.Names("Loom " * 40, {}, known.joints), told))
        (title,) = [word for word in words if word.startswith("Loom Loom")]
        self.assertTrue(title.endswith("…") and svg.width_of(title, 24.0) < picture.WIDTH - 160.0)

    def test_many_joints_are_counted(self):
        job, known, told = chain(60)
        _, words = self.looked_at(picture.svg_text("chain.job", job, known, told))
        shown = sum(word in ("OPEN", "closed") for word in words) - 1  # the answer on top is one of them
        (rest,) = [word for word in words if re.match(r"and \d+ more, none wider", word)]
        self.assertEqual(shown + int(rest.split()[1]), 60)
        self.assertGreater(shown, 20)
        (rest,) = [word for word in words if re.match(r"\d+ labels have no room here", word)]
        self.assertLess(int(rest.split()[0]), 120)

    def test_words_are_escaped(self):
        job, known, told = chain(2)
        odd = names.Names('<&">', {}, known.joints)
        root = ElementTree.fromstring(picture.svg_text("a&b.job", job, odd, told))
        self.assertIn('<&">', [element.text for element in root.iter(f"{SVG}text")])

    def test_no_gaps_known(self):
        job, known, told = chain(2)
        bare = sheet.Sheet(0, 5, 0, (2e-5, 0.0), 0)
        _, words = self.looked_at(picture.svg_text("chain.job", job, known, bare))
        self.assertTrue(any("widest gap is 0.02 mm" in word.lower() for word in words))

    def test_page(self):
        told = page.html(drawn("four_bar"), "<report & words>", "four_bar.job")
        self.assertIn("&lt;report &amp; words&gt;", told)
        self.assertIn("A4 landscape", told)
        self.assertNotIn("http://www.w3.org/1999", told)


class Parts(unittest.TestCase):
    def test_the_view_shows_the_widest_plane(self):
        panel = Panel(0.0, 0.0, 600.0, 600.0)
        points = [(0.0, 0.0, 0.0), (0.1, 0.02, 0.2)]
        self.assertEqual(fitted(points, panel, None).along, "y")
        self.assertEqual(fitted(points, panel, "x").along, "x")
        self.assertEqual(fitted([(1.0, 2.0, 3.0)], panel, None).along, "z")
        for along in "xyz":
            view = fitted(points, panel, along)
            for point in points:
                self.assertTrue(all(0.0 < part < 600.0 for part in view.place(point)))

    def test_labels_keep_apart(self):
        panel = Panel(0.0, 0.0, 400.0, 400.0)
        spots = [(200.0, 200.0), (205.0, 200.0), (395.0, 395.0), (5.0, 5.0)]
        placer = Placer(panel, [around(spot, 9.0) for spot in spots], [])
        boxes = [placer.place("a label", spot, 15.0).box for spot in spots]
        self.assertIsNone(placer.place("a label that is far too long for this panel", (200.0, 200.0), 15.0))
        for k, box in enumerate(boxes):
            self.assertTrue(box.left >= 0.0 and box.right <= 400.0 and box.top >= 0.0 and box.bottom <= 400.0)
            for other in boxes[:k]:
                self.assertEqual(box.overlap(other), 0.0)

    def test_wrapping(self):
        lines = svg.wrapped("one two three " * 9, 200.0, 15.0)
        self.assertGreater(len(lines), 3)
        self.assertTrue(all(svg.width_of(line, 15.0) <= 200.0 for line in lines))
        self.assertEqual(Box(0.0, 0.0, 2.0, 2.0).overlap(Box(1.0, 1.0, 3.0, 3.0)), 1.0)
