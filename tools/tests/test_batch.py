"""Batches, with programs that are small scripts: they answer from recorded sheets, die, hang or cut."""

import pathlib
import shutil
import sys
from unittest import mock

from workshop import programs, stream

from .test_commands import Folder
from .where import WORKSHOP

# Answers by the file's bytes, from the recorded sheets; a file that is not recorded is refused by 1.
ANSWER = f"""#!{sys.executable}
import pathlib, struct, sys, time
files = pathlib.Path({str(WORKSHOP)!r}).glob("*.job")
recorded = {{path.read_bytes(): path.with_suffix(".KIND").read_bytes() for path in files}}
def answer(data):
    return recorded.get(data, b"solve 1 0 0\\n")
"""
ALONE = "sys.stdout.buffer.write(answer(sys.stdin.buffer.read()))\n"
DIES = """data = sys.stdin.buffer.read()
sys.stdout.buffer.write(answer(data))
sys.stdout.flush()
if len(data) == SIZE:
    import os
    os.abort()
"""
CUTS = """data = sys.stdin.buffer.read()
sys.stdout.buffer.write(answer(data)[:-20] if len(data) == SIZE else answer(data))
"""
HANGS = "time.sleep(60)\n"
STREAM = """data, n = sys.stdin.buffer.read(), FIRST
while data and n < MOST:
    (size,) = struct.unpack("<I", data[:4])
    sys.stdout.buffer.write(b"job %d\\n" % n + answer(data[4:4 + size]))
    data, n = data[4 + size:], n + 1
"""


class Batches(Folder):
    def setUp(self):
        super().setUp()
        self.jobs, self.crates = self.folder / "jobs", self.folder / "crates"
        self.jobs.mkdir()
        self.crates.mkdir()
        for name in ["four_bar", "door", "worn_frame", "refused_09_fixed", "unjudged_18"]:
            shutil.copy(WORKSHOP / f"{name}.job", self.jobs)
            shutil.copy(WORKSHOP / f"{name}.job.names", self.jobs)
        (self.jobs / "cut.job").write_bytes((WORKSHOP / "door.job").read_bytes()[:-7])
        patch = mock.patch.object(programs, "CRATES", self.crates)
        patch.start()
        self.addCleanup(patch.stop)

    def program(self, name, body, kind="sheet", **words):
        for word, value in words.items():
            body = body.replace(word, str(value))
        path = self.crates / name / "out" / name
        path.parent.mkdir(parents=True, exist_ok=True)
        path.write_text(ANSWER.replace("KIND", kind) + body)
        path.chmod(0o755)

    def batch(self, *more):
        status, out, err = self.run_it("batch", self.jobs, *more)
        *table, totals = out.splitlines()
        return status, {line.split()[0]: line for line in table}, totals

    def test_a_table_with_totals(self):
        self.program("job", ALONE)
        self.program("gaps", ALONE, "gaps")
        for at_once in (1, 3):
            status, lines, totals = self.batch("--jobs", at_once)
            self.assertEqual(status, 0)
            self.assertEqual(totals, "6 files: 1 closed, 1 open, 3 turned back, 1 not judged, 0 without an answer")
            self.assertRegex(lines["four_bar.job"], r"8 +closed +1\.6\de-14 mm +-$")
            self.assertRegex(lines["door.job"], r"10 +open .* upper \(pin of jamb and door\)$")
            self.assertRegex(lines["refused_09_fixed.job"], r"turned back by 9 \(Immovable\) .*bolt")
            self.assertRegex(lines["worn_frame.job"], r"turned back by 13 \(Pivot\)")
            self.assertRegex(lines["cut.job"], r"- +turned back by 1 \(File\)")

    def test_without_gaps(self):
        self.program("job", ALONE)
        status, lines, _ = self.batch()
        self.assertEqual(status, 0)
        self.assertRegex(lines["door.job"], r"10 +open +0\.748 mm +0\.0384 deg$")

    def test_a_program_that_dies_is_told(self):
        size = (self.jobs / "door.job").stat().st_size
        self.program("job", DIES, SIZE=size)
        status, lines, totals = self.batch()
        self.assertEqual(status, 1)
        self.assertIn("job died by signal 6", lines["door.job"])
        self.assertTrue(totals.endswith("1 without an answer"))

    def test_a_cut_sheet_is_told(self):
        size = (self.jobs / "door.job").stat().st_size
        self.program("job", CUTS, SIZE=size)
        status, lines, totals = self.batch()
        self.assertEqual(status, 1)
        self.assertIn("cut sheet", lines["door.job"])
        self.assertTrue(totals.endswith("1 without an answer"))

    def test_a_program_that_does_not_end_is_stopped(self):
        self.program("job", HANGS)
        for path in self.jobs.iterdir():
            if not path.name.startswith("door"):
                path.unlink()
        status, lines, _ = self.batch("--seconds", "0.3")
        self.assertEqual(status, 1)
        self.assertIn("stopped after 0.3 s", lines["door.job"])

    def test_gaps_that_die_are_told(self):
        self.program("job", ALONE)
        self.program("gaps", CUTS, "gaps", SIZE=(self.jobs / "door.job").stat().st_size)
        status, lines, _ = self.batch()
        self.assertEqual(status, 1)
        self.assertIn("gaps: ", lines["door.job"])

    def test_through_jobs(self):
        """The stream gives the same table; what it leaves out is asked of the job program."""
        self.program("job", ALONE)
        self.program("gaps", ALONE, "gaps")
        wanted = self.batch()
        for first, most in ((0, 99), (1, 3), (0, 0)):
            self.program("jobs", STREAM, FIRST=first, MOST=most)
            self.assertEqual(self.batch(), wanted)

    def test_jobs_alone_would_do(self):
        self.program("job", HANGS)
        self.program("jobs", STREAM, FIRST=0, MOST=99)
        status, _, totals = self.batch("--seconds", "10")
        self.assertEqual(
            (status, totals), (0, "6 files: 1 closed, 1 open, 3 turned back, 1 not judged, 0 without an answer")
        )

    def test_a_file_that_cannot_be_read(self):
        self.program("job", ALONE)
        (self.jobs / "folder.job").mkdir()
        status, lines, totals = self.batch()
        self.assertEqual(status, 1)
        self.assertIn("cannot be read", lines["folder.job"])
        self.assertTrue(totals.startswith("7 files"))

    def test_no_folder(self):
        self.program("job", ALONE)
        status, _, err = self.run_it("batch", self.folder / "none")
        self.assertEqual(status, 1)
        self.assertIn("Not a directory", err)

    def test_streams_that_are_out_of_order(self):
        self.assertEqual(stream.split("job 0\na\njob 1\nb\n", 3), ["a\n", "b\n", None])
        self.assertEqual(stream.split("job 0\na\njob 0\nb\n", 2), [None, None])
        self.assertEqual(stream.split("job 0\na\njob 7\nb\n", 2), [None, None])
