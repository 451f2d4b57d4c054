#!/usr/bin/env python3
"""Writes the stream of job files that crates/jobs reads, and what must be printed of it.

    python3 oracle/streams.py

Files and sheets are those of crates/job_sheets, which oracle/sheets.py makes with the oracle's model: of its first list the
first two files of each refusal, the first dozen that are accepted, and the largest. In the stream each file is preceded by its length,
32 bits, little end first. Among them are an empty file and two of more than 65,536 bytes, which document 01 refuses by 1: one of
65,537 and one of 150,000, more than the program holds at once, that begins with a whole job file. The last file ends before its length does.
"""

import pathlib
import struct

HERE = pathlib.Path(__file__).resolve().parent
RECORDED = HERE.parent / "crates" / "job_sheets"
CRATE = HERE.parent / "crates" / "jobs"
REFUSED_BY_1 = b"solve 1 0 0\n"


def recorded():
    """The files of the first list, each with its sheet."""
    listed = (RECORDED / "stdin").read_bytes()
    sheets = (b"solve" + sheet for sheet in (RECORDED / "stdout").read_bytes().split(b"solve")[1:])
    at = 0
    while listed[at : at + 4] != b"\xff" * 4:
        end = at + 4 + struct.unpack_from("<I", listed, at)[0]
        yield listed[at + 4 : end], next(sheets)
        at = end


def chosen():
    """A few of each kind, in the order of the list, and the largest of all that are accepted."""
    files = list(recorded())
    largest = max((file for file, sheet in files if sheet.startswith(b"solve 0 ")), key=len)
    seen = {}
    for file, sheet in files:
        refusal = sheet.split()[1]
        seen[refusal] = seen.get(refusal, 0) + 1
        few = seen[refusal] <= (12 if refusal == b"0" else 2)
        if file == largest or (few and len(file) <= 8192):
            yield file, sheet


def framed(file):
    return struct.pack("<I", len(file)) + file


def main():
    jobs = list(chosen())
    whole = jobs[0][0]
    long = [whole + bytes(size - len(whole)) for size in (65_537, 150_000)]
    middle = len(jobs) // 2
    jobs[middle:middle] = [(long[0], REFUSED_BY_1), (b"", REFUSED_BY_1)]
    jobs[-1:-1] = [(long[1], REFUSED_BY_1)]
    stream = b"".join(framed(file) for file, _ in jobs) + framed(whole)[:-1]
    sheets = [sheet for _, sheet in jobs] + [REFUSED_BY_1]
    (CRATE / "stdin").write_bytes(stream)
    (CRATE / "stdout").write_bytes(b"".join(b"job %d\n" % i + sheet for i, sheet in enumerate(sheets)))
    print(f"{len(sheets)} jobs, {len(stream)} bytes")


main()
