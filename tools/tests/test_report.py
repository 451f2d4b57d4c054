"""Reports against recorded texts. `tools/tests/record` writes them anew; read the difference before it is kept."""

import unittest

from workshop import job_file, names, outcome, report

from .where import GOLDEN, WORKSHOP, sample, text

CASES = [
    "four_bar",
    "heddle_frame_open",
    "clock_train",
    "door",
    "worn_frame",
    "refused_05_limit",
    "refused_06_mass",
    "refused_07_itself",
    "refused_09_fixed",
    "unjudged_18",
]


def shown(name: str, rows: bool = False, named: bool = True, gaps: bool = True) -> str:
    job = job_file.read(sample(name))
    texts = [text(f"{name}.sheet")] + ([text(f"{name}.gaps")] if gaps else [])
    if texts[0].startswith("solve 0 ") is False:
        texts = texts[-1:]
    told = outcome.stored(texts, job)
    known = names.of(WORKSHOP / f"{name}.job", job) if named else names.Names()
    return report.text(f"{name}.job", job, known, told.sheet, told.note, rows)


def every() -> dict:
    texts = {name: shown(name) for name in CASES}
    texts["four_bar_rows"] = shown("four_bar", rows=True)
    texts["heddle_frame_open_without_names"] = shown("heddle_frame_open", named=False)
    texts["heddle_frame_open_without_gaps"] = shown("heddle_frame_open", gaps=False)
    return texts


class Reports(unittest.TestCase):
    maxDiff = None

    def test_recorded(self):
        texts = every()
        self.assertEqual(sorted(texts), sorted(path.stem for path in GOLDEN.glob("*.txt")))
        for name, told in texts.items():
            self.assertEqual(told, (GOLDEN / f"{name}.txt").read_text(encoding="utf-8"), name)
