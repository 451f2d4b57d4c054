"""The command line, in a folder of its own."""

import contextlib
import io
import pathlib
import shutil
import tempfile
import unittest
from unittest import mock

from workshop import job_file, names, programs
from workshop.commands import main

from .where import GOLDEN, SAMPLES, WORKSHOP


class Folder(unittest.TestCase):
    def setUp(self):
        self.folder = pathlib.Path(tempfile.mkdtemp())
        self.addCleanup(shutil.rmtree, self.folder)

    def run_it(self, *arguments):
        out, err = io.StringIO(), io.StringIO()
        with contextlib.redirect_stdout(out), contextlib.redirect_stderr(err):
            status = main([str(argument) for argument in arguments])
        return status, out.getvalue(), err.getvalue()


class Commands(Folder):
    def test_make_writes_job_and_names(self):
        shutil.copy(WORKSHOP / "four_bar.scan", self.folder)
        status, out, err = self.run_it("make", self.folder / "four_bar.scan")
        self.assertEqual((status, err), (0, ""))
        self.assertIn("8 rows of 4 joints, 4 links, limit 32, mode 1", out)
        for name in ["four_bar.job", "four_bar.job.names"]:
            self.assertEqual((self.folder / name).read_bytes(), (WORKSHOP / name).read_bytes())

    def test_make_takes_a_text_from_any_editor(self):
        text = (WORKSHOP / "four_bar.scan").read_text(encoding="utf-8")
        (self.folder / "four_bar.scan").write_bytes(text.replace("\n", "\r\n").encode("utf-8-sig"))
        self.assertEqual(self.run_it("make", self.folder / "four_bar.scan")[0], 0)
        self.assertEqual((self.folder / "four_bar.job").read_bytes(), (WORKSHOP / "four_bar.job").read_bytes())

    def test_make_tells_what_it_foresees(self):
        status, _, err = self.run_it("make", WORKSHOP / "refused_09_fixed.scan", "-o", self.folder / "a.job")
        self.assertEqual(status, 0)
        self.assertIn(
            "refused_09_fixed.scan:14: 'bolt' gapes between two frames; "
            "the job program will turn this back by 9 (Immovable)",
            err,
        )

    def test_make_fails_with_a_line_and_writes_nothing(self):
        (self.folder / "bad.scan").write_text("tolerance 1 mm\nlink\n")
        status, _, err = self.run_it("make", self.folder / "bad.scan")
        self.assertEqual(
            (status, err), (1, f"{self.folder / 'bad.scan'}:2: expected the link's name, found the end of the line\n")
        )
        self.assertEqual([path.name for path in self.folder.iterdir()], ["bad.scan"])

    def test_make_takes_no_file_that_is_no_text(self):
        status, _, err = self.run_it("make", WORKSHOP / "four_bar.job", "-o", self.folder / "a.job")
        self.assertEqual(status, 1)
        self.assertIn("not a text", err)

    def test_show_of_stored_texts(self):
        status, out, _ = self.run_it("show", WORKSHOP / "door.job", WORKSHOP / "door.sheet", WORKSHOP / "door.gaps")
        self.assertEqual((status, out), (0, (GOLDEN / "door.txt").read_text(encoding="utf-8")))

    def test_show_of_a_sheet_of_another_job(self):
        status, out, err = self.run_it("show", WORKSHOP / "door.job", WORKSHOP / "four_bar.sheet")
        self.assertEqual((status, out), (1, ""))
        self.assertIn("line 13 is not 'row' with 2 words", err)

    def test_show_without_a_program(self):
        with mock.patch.object(programs, "CRATES", self.folder):
            status, _, err = self.run_it("show", WORKSHOP / "door.job")
        self.assertEqual(status, 1)
        self.assertIn("'rt run' in crates/job", err)

    def test_picture_of_stored_texts(self):
        for suffix in ("svg", "html"):
            out = self.folder / f"door.{suffix}"
            status, _, _ = self.run_it(
                "picture", WORKSHOP / "door.job", WORKSHOP / "door.sheet", WORKSHOP / "door.gaps", "-o", out
            )
            self.assertEqual(status, 0)
            self.assertIn("upper OPEN", out.read_text(encoding="utf-8"))
        status, _, err = self.run_it(
            "picture", WORKSHOP / "door.job", WORKSHOP / "door.sheet", "-o", self.folder / "door.png"
        )
        self.assertEqual(status, 1)
        self.assertIn(".svg or .html", err)

    def test_set(self):
        status, out, _ = self.run_it(
            "set",
            WORKSHOP / "door.job",
            "--limit",
            9,
            "--mode",
            1,
            "--linear",
            "0.5",
            "--angular",
            "180",
            "-o",
            self.folder / "new.job",
        )
        self.assertEqual(status, 0)
        job = job_file.read((self.folder / "new.job").read_bytes())
        self.assertEqual((job.limit, job.mode, job.tolerances), (9, 1, (0.0005, 3.141592653589793)))
        self.assertEqual(names.of(self.folder / "new.job", job).title, "Door on two hinges")
        self.assertEqual(sorted(path.name for path in self.folder.iterdir()), ["new.job", "new.job.names"])

    def test_set_in_place(self):
        shutil.copy(SAMPLES / "p1.job", self.folder)
        self.run_it("set", self.folder / "p1.job", "--limit", 5)
        self.assertEqual(job_file.read((self.folder / "p1.job").read_bytes()).limit, 5)
        self.assertEqual([path.name for path in self.folder.iterdir()], ["p1.job"])

    def test_set_refuses(self):
        (self.folder / "cut.job").write_bytes((SAMPLES / "p1.job").read_bytes()[:-1])
        for arguments, words in [
            ([self.folder / "cut.job", "--limit", 5], "refused by 1 (File)"),
            ([SAMPLES / "p1.job", "--mode", 3, "-o", self.folder / "x"], "refused by 3 (Length)"),
            ([SAMPLES / "p1.job", "--linear", "-1", "-o", self.folder / "x"], "refused by 26 (Tolerance)"),
            ([SAMPLES / "p1.job", "--linear", "1,5", "-o", self.folder / "x"], "expected a number, found '1,5'"),
            ([self.folder / "none.job", "--limit", 5], "No such file"),
        ]:
            status, out, err = self.run_it("set", *arguments)
            self.assertEqual((status, out), (1, ""))
            self.assertIn(words, err)
        with self.assertRaises(SystemExit), contextlib.redirect_stderr(io.StringIO()) as err:
            main(["set", "x", "--limit", "4294967296"])
        self.assertIn("from 0 to 4294967295", err.getvalue())
        self.assertEqual([path.name for path in self.folder.iterdir()], ["cut.job"])

    def test_help_says_what_is_not_proved(self):
        for command in [[], ["make"], ["show"], ["picture"], ["set"], ["batch"]]:
            with self.assertRaises(SystemExit), contextlib.redirect_stdout(io.StringIO()) as out:
                main([*command, "--help"])
            self.assertIn("not proved", " ".join(out.getvalue().split()))
