"""Job files read and written."""

import dataclasses
import struct
import unittest

from workshop import job_file
from workshop.refusals import Refused

from .where import SAMPLES, WORKSHOP


def with_trailer(data: bytes, **words) -> bytes:
    return data[:-48] + dataclasses.replace(job_file.trailer_of(data), **words).packed()


class Files(unittest.TestCase):
    def setUp(self):
        self.data = (SAMPLES / "four_bar.job").read_bytes()

    def test_written_files_read_back_and_are_written_alike(self):
        files = sorted([*SAMPLES.glob("*.job"), *WORKSHOP.glob("*.job")])
        self.assertGreater(len(files), 10)
        for path in files:
            data = path.read_bytes()
            self.assertEqual(job_file.written(job_file.read(data)), data, path.name)

    def test_sections_in_another_place(self):
        t = job_file.trailer_of(self.data)
        rows, masses = self.data[: t.mass_offset], self.data[t.mass_offset : -48]
        moved = b"abc" + masses + b"x" + rows
        trailer = dataclasses.replace(t, row_offset=4 + len(masses), mass_offset=3, length=len(moved) + 48)
        self.assertEqual(job_file.read(moved + trailer.packed()), job_file.read(self.data))

    def test_refusals_1_and_2(self):
        d, rows = self.data, 8 * 248
        for number, data in [
            (1, b""),
            (1, d[-47:]),
            (1, d[:-1]),
            (1, d + b"\0"),
            (1, with_trailer(d, spare=2)),
            (1, bytes(65537)),
            (2, with_trailer(d, rows=129)),
            (2, with_trailer(d, bodies=65)),
            (2, with_trailer(d, rows=9)),
            (2, with_trailer(d, mass_offset=rows - 1)),
            (2, with_trailer(d, mass_offset=rows + 1)),
            (2, with_trailer(d, rows=0, row_offset=len(d) - 47)),
            (2, with_trailer(d, row_offset=2**32 - 1)),
        ]:
            with self.assertRaises(Refused) as caught:
                job_file.read(data)
            self.assertEqual(caught.exception.number, number)

    def test_an_empty_section_overlaps_nothing(self):
        job_file.read(with_trailer(self.data, bodies=0, mass_offset=100))

    def test_changing_touches_the_trailer_alone(self):
        new = job_file.changed(self.data, limit=7, mode=2, linear=0.5, angular=0.25)
        self.assertEqual(new[:-48], self.data[:-48])
        job = job_file.read(new)
        self.assertEqual((job.limit, job.mode, job.tolerances), (7, 2, (0.5, 0.25)))
        self.assertEqual(job_file.changed(self.data), self.data)

    def test_numbers_keep_their_bits(self):
        odd = struct.pack("<Q", 0x7FF0000000000001) + self.data[8:]
        self.assertEqual(job_file.changed(odd, limit=3)[:8], odd[:8])

    def test_too_many_rows(self):
        job = job_file.read(self.data)
        with self.assertRaises(Refused) as caught:
            job_file.written(dataclasses.replace(job, rows=list(job.rows) * 17))
        self.assertEqual(caught.exception.number, 2)
