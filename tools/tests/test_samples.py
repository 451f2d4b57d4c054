"""The samples are what the tools make of their descriptions, and what the programs print of them."""

import pathlib
import unittest

from workshop import job_file, making, names, outcome, picture, programs, report

from .where import SAMPLES, WORKSHOP, text

NAMES = sorted(path.stem for path in WORKSHOP.glob("*.scan"))


class Samples(unittest.TestCase):
    def test_every_description_has_its_files(self):
        wanted = {
            f"{name}{end}" for name in NAMES for end in (".scan", ".job", ".job.names", ".sheet", ".gaps", ".svg")
        }
        found = {path.name for path in WORKSHOP.iterdir()} - {"remake"}
        self.assertEqual(found, wanted)

    def test_jobs_and_names(self):
        for name in NAMES:
            made = making.made((WORKSHOP / f"{name}.scan").read_text(encoding="utf-8"), name)
            self.assertEqual(job_file.written(made.job), (WORKSHOP / f"{name}.job").read_bytes(), name)
            self.assertEqual(
                names.text_of(made.mechanism, made.job), (WORKSHOP / f"{name}.job.names").read_text(encoding="utf-8")
            )

    def test_pictures(self):
        for name in NAMES:
            path = WORKSHOP / f"{name}.job"
            job = job_file.read(path.read_bytes())
            told = outcome.stored([text(f"{name}.gaps")], job).sheet
            drawn = picture.svg_text(path.name, job, names.of(path, job), told)
            self.assertEqual(drawn, path.with_suffix(".svg").read_text(encoding="utf-8"), name)

    def test_foreseen_refusals_are_those_of_the_sheets(self):
        for name in NAMES:
            made = making.made((WORKSHOP / f"{name}.scan").read_text(encoding="utf-8"), name)
            refused = int(text(f"{name}.sheet").split()[1])
            self.assertIn(
                [item.number for item in made.foreseen], [[refused]] if refused in (5, 6, 7, 9, 26) else [[]], name
            )


@unittest.skipUnless(programs.found("job"), "whole ways through crates/job/out/job, which was not built")
class WholeWays(unittest.TestCase):
    def printed(self, program: str, path: pathlib.Path) -> str:
        return programs.run(programs.needed(program), path.read_bytes(), 60.0)

    def test_sheets(self):
        for name in NAMES:
            self.assertEqual(self.printed("job", WORKSHOP / f"{name}.job"), text(f"{name}.sheet"), name)

    def test_every_sample_can_be_shown(self):
        for path in sorted([*SAMPLES.glob("*.job"), *WORKSHOP.glob("*.job")]):
            data = path.read_bytes()
            job = job_file.read(data)
            came = outcome.computed(data, job)
            told = report.text(path.name, job, names.of(path, job), came.sheet, came.note)
            self.assertRegex(told, "CLOSED|OPEN|TURNED BACK|NOT JUDGED")

    def test_links_end_up_where_the_sheet_says(self):
        """Centre plus inverse mass times linear impulse is the sheet's own new centre."""
        for name in NAMES:
            data = (WORKSHOP / f"{name}.job").read_bytes()
            job = job_file.read(data)
            told = outcome.computed(data, job).sheet
            for body, (linear, _), centre in zip(job.bodies, told.impulses, told.new_centres or ()):
                for part, push, new in zip(body.centre, linear, centre):
                    self.assertEqual(part + body.inverse_mass * push, new)

    @unittest.skipUnless(programs.found("gaps"), "each row's gap from crates/gaps/out/gaps, which was not built")
    def test_gaps(self):
        """Where the program does not tell the place of a refusal, the rest is compared."""
        for name in NAMES:
            printed, recorded = self.printed("gaps", WORKSHOP / f"{name}.job"), text(f"{name}.gaps")
            if "refused" not in printed:
                recorded = "".join(line for line in recorded.splitlines(keepends=True) if not line.startswith("refused"))
            self.assertEqual(printed, recorded, name)
