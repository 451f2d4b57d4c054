#!/usr/bin/env python3
"""Writes the job files that crates/job_sheets replays, and what the oracle prints of each.

    python3 oracle/sheets.py [RUN]

RUN is the oracle's command, `oracle/run` if none is given. Each file of the list is preceded by its
length, 32 bits, little end first. The list: document 01's examples, the sample jobs, the first three
of 2,000 generated files for each refusal and, where the job is accepted, for each flag and verdict,
files at the edges of refusals 1 and 2, and P1 at tolerances on both sides of 26. Then files of spare 1, whose
masses have their centres: as many generated ones, the edges of 1 and 2 where a mass has 104 bytes, and P1 at places
of every kind; and one of spare 0 that 17 turns back by a new centre.

A length of 2^32 - 1 ends a list. A second list has of the same files the first two for each refusal, flag and
verdict, with what the program that lists gaps prints; a third has jobs with 8 rows and 4 bodies that go through
the functions for C in memory for mode 1, with centres and without. Behind it are two files as the job program finds
them, with no length: it reads 65,537 bytes, which are refused by 1 though they begin with a whole file, and then
what is left, the longest sheet there is.
"""

import importlib.util
import math
import pathlib
import struct
import subprocess
import sys
import tempfile

HERE = pathlib.Path(__file__).resolve().parent
CRATE = HERE.parent / "crates" / "job_sheets"
LONGEST = 8192
SAMPLES = ("clock_train", "clock_train_centres", "four_bar", "four_bar_centres", "p1")
LEAST = math.nextafter(0.0, 1.0)


def kind(sheet):
    """Refusal, flag and verdict."""
    lines = sheet.split(b"\n")
    refusal, _, flag = lines[0].split()[1:]
    return refusal, flag, lines[3] if refusal == b"0" else b""


def generated(run, folder, seed, spare):
    subprocess.run([run, "files", folder, "2000", seed, spare], check=True, stdout=subprocess.DEVNULL)
    seen = {}
    for index in range(2000):
        path = pathlib.Path(folder) / f"{index}.job"
        alike = kind(path.with_suffix(".out").read_bytes())
        if path.stat().st_size <= LONGEST and seen.get(alike, 0) < 3:
            seen[alike] = seen.get(alike, 0) + 1
            yield path.read_bytes()


def samples():
    """samples/make.py, which has a job to be filled and its file."""
    made = importlib.util.spec_from_file_location("make", HERE.parent / "samples" / "make.py")
    module = importlib.util.module_from_spec(made)
    made.loader.exec_module(module)
    return module


def placed(job, row_offset, mass_offset, length):
    """The job's file with its sections at these places; the other bytes are 0."""
    file = bytearray(length)
    for section, at in ((job.rows, row_offset), (job.mass_section(), mass_offset)):
        file[at : at + len(section)] = section
    counts = (len(job.rows) // 248, len(job.masses) // 80, job.limit, job.mode)
    return bytes(file[: length - 48]) + struct.pack(
        "<6I2d2I", *counts, row_offset, mass_offset, *job.tolerances, length, job.spare
    )


def ring(make, rows, bodies, spare=0):
    """Bodies in a ring, two rows a joint, of a length and of an angle by turns."""
    job = make.Job(limit=6, mode=0, linear=2e-3, angular=1e-3, spare=spare)
    for body in range(bodies):
        job.body(0.5 + body / 64, (1.0, 0.75, 1.0 + body / 32))
    job.place([(body / 8, -body / 16, 1 / (body + 3)) for body in range(bodies)])
    for row in range(rows):
        a, b = row // 2 % bodies, (row // 2 + 1) % bodies
        job.owner = row // 2
        one, none = (0.0, 1.0, 0.125), (0.0, 0.0, 0.0)
        if row % 2 == make.LINEAR:
            job.row(make.LINEAR, a, b, one, (0.25, 0.0, 0.5), make.negated(one), (0.0, 0.5, 0.25), 0.001 * (row % 11 - 4))
        else:
            job.row(make.ANGULAR, a, b, none, one, none, make.negated(one), 0.002 * (row % 7 - 3))
    return job


def edges(make):
    """Each limit of refusals 1 and 2 and one beyond it; empty sections at the trailer's start and past it."""
    p1, largest = make.p1(), ring(make, 128, 64)
    # its rows end where the trailer begins
    yield placed(largest, 65_536 - 48 - len(largest.rows), 0, 65_536)
    yield placed(p1, 65_537 - 48 - 248, 0, 65_537)
    yield ring(make, 129, 2).bytes()
    yield ring(make, 128, 2).bytes()
    yield from (ring(make, 1, bodies).bytes() for bodies in (64, 65))
    bodies, rows, nothing = make.p1(), make.p1(), make.p1()
    bodies.rows = rows.masses = nothing.rows = nothing.masses = b""
    # no rows, and a row section that begins inside the masses, at the trailer, one byte further, at the file's end
    yield from (placed(bodies, at, 0, 208) for at in (40, 160, 161, 208, 2**32 - 1))
    # the same of no masses: the row then names bodies that there are none of (7)
    yield from (placed(rows, 0, at, 296) for at in (40, 248, 249, 296, 2**32 - 1))
    # neither, in a file of 48 bytes
    yield from (placed(nothing, *at, 48) for at in ((0, 0), (1, 0), (0, 1)))
    yield placed(nothing, 0, 0, 48)[1:]
    yield largest.bytes()


def tolerances(make):
    """P1 at tolerances that 26 lets pass and turns back; a NaN one beside 4, 5, 6 and 7, and without rows."""
    passing = ((-0.0, 0.0), (LEAST, sys.float_info.max))
    odd = ((-LEAST, 0.0), (0.0, -1.0), (math.inf, 0.0), (0.0, -math.inf), (math.nan, 0.0), (0.0, -math.nan))
    rows, masses = make.p1().rows, make.p1().masses
    beside = (
        {"rows": rows[:216] + struct.pack("<I", 256) + rows[220:]},
        {"limit": 0},
        {"masses": struct.pack("<d", math.nan) + masses[8:]},
        {"rows": rows[:228] + struct.pack("<I", 2) + rows[232:]},
        {"rows": b""},
        {"rows": b"", "masses": b""},
    )
    changes = [{"tolerances": pair} for pair in passing + odd]
    changes += [{"tolerances": (0.001, math.nan), **change} for change in beside]
    for change in changes:
        job = make.p1()
        vars(job).update(change)
        yield job.bytes()


def p1_at(make, first, second, **changes):
    """P1 of spare 1 with its two bodies at these places."""
    job = make.p1()
    job.spare = 1
    job.place([first, second])
    vars(job).update(changes)
    return job


def with_error(rows, error):
    return rows[: 8 * 15] + struct.pack("<d", error) + rows[8 * 16 :]


def centred_edges(make):
    """The edges of 1 and 2 where a mass has 104 bytes."""
    p1, largest = p1_at(make, (1.0, 2.0, 3.0), (-1.0, -0.0, 0.5)), ring(make, 128, 64, 1)
    yield placed(largest, 65_536 - 48 - len(largest.rows), 0, 65_536)
    yield placed(p1, 65_537 - 48 - 248, 0, 65_537)
    yield from (ring(make, rows, 2, 1).bytes() for rows in (128, 129))
    yield from (ring(make, 1, bodies, 1).bytes() for bodies in (64, 65))
    # two masses take 208 bytes: rows that begin behind 160 of them, or one byte early, overlap; and masses that
    # begin one byte early overlap the rows
    yield from (placed(p1, at, 0, at + 248 + 48) for at in (160, 207, 208))
    yield from (placed(p1, 0, at, 248 + 208 + 48) for at in (247, 248))
    # masses of which 80 bytes each lie before the trailer, or all bytes but one
    yield from (placed(p1, 0, 248, 248 + size + 48) for size in (160, 207))
    bodies, rows, nothing = (p1_at(make, (1.0, 2.0, 3.0), (0.0, -0.0, 4.0)) for _ in range(3))
    bodies.rows = rows.masses = nothing.rows = nothing.masses = b""
    # no rows, and a row section that begins inside the masses, at the trailer, one byte further
    yield from (placed(bodies, at, 0, 256) for at in (40, 208, 209))
    yield from (placed(rows, 0, at, 296) for at in (40, 248, 249))
    yield from (placed(nothing, *at, 48) for at in ((0, 0), (0, 1)))
    # a spare from 2 up, before 2 too
    for spare in (2, 3, 256, 2**31, 2**32 - 1):
        yield p1.bytes()[:-4] + struct.pack("<I", spare)
    yield ring(make, 129, 2, 1).bytes()[:-4] + struct.pack("<I", 2)
    # a file of the other spare: 1 with 80 bytes a mass (2), 0 with 104, whose second mass is not where it is read
    yield make.p1().bytes()[:-4] + struct.pack("<I", 1)
    yield p1.bytes()[:-4] + struct.pack("<I", 0)


def centres(make):
    """P1 of spare 1 at places of every kind: what is moved, what keeps its bits, 6 and 17."""
    largest, unit, zero = sys.float_info.max, 2.0**971, (0.0, 0.0, 0.0)
    rows, masses = make.p1().rows, make.p1().masses
    for first, second in (
        (zero, zero),
        ((0.25, 0.5, 1.0), (-1.0, -0.0, 0.5)),
        ((-0.0, -0.0, -0.0), (-0.0, 0.0, -0.0)),
        ((-0.125, -0.0, 7.0), (0.125, 0.0, LEAST)),
        ((2.0**50, 2.0**51, 0.1), (-(2.0**50), 1e17, 1e-17)),
        ((largest, -largest, largest), (largest, 1e-300, -1e300)),
    ):
        yield p1_at(make, first, second).bytes()
        yield p1_at(make, first, second, tolerances=(1.0, 1.0)).bytes()  # count 0
        yield p1_at(make, first, second, rows=b"").bytes()
    # body 0 moves by half its error: half a unit of the largest double, and a little less
    light = struct.pack("<10d", 2.0**960, *[0.0] * 9) * 2
    for error, at in ((-unit, largest), (-math.nextafter(unit, 0.0), largest), (unit, -largest), (unit, largest)):
        yield p1_at(make, (at, 0.0, 0.0), zero, rows=with_error(rows, error), masses=light).bytes()
    # 6 by each number of a centre, without rows too; beside 4, 26, 5, 7 and 9
    for at, odd in enumerate((math.nan, math.inf, -math.inf, -math.nan, math.inf, math.nan)):
        both = [0.5] * 6
        both[at] = odd
        yield p1_at(make, both[:3], both[3:]).bytes()
    changes = (
        {"rows": b""},
        {"rows": rows[:216] + struct.pack("<I", 256) + rows[220:]},
        {"tolerances": (0.001, -1.0)},
        {"limit": 0},
        {"rows": rows[:228] + struct.pack("<I", 2) + rows[232:]},
        {"masses": bytes(160)},
        {"masses": struct.pack("<d", math.nan) + masses[8:]},
    )
    for change in changes:
        yield p1_at(make, zero, (0.0, math.nan, 0.0), **change).bytes()


def from_the_origin(make):
    """A file of spare 0 that 17 turns back, since a body moves from +0.0 beyond the doubles: two rows that turn one
    body, about x and y, which the operator all but cancels, so that alpha is about 2^20; and it at half the error."""
    mass, part, error = 2.0**-600, 2.0**-11, 2.0**209
    lower = -mass * (part + 1.0 / part) * (1.0 - 2.0**-20)
    for size in (error, error * 2.0**-9):
        job = make.Job(limit=3, mode=0, linear=0.5 * size, angular=sys.float_info.max)
        job.masses = struct.pack("<10d", 0.0, mass, lower, 0.0, 0.0, mass, 0.0, 0.0, 0.0, 0.0)
        job.masses += struct.pack("<10d", 2.0**1018, *[0.0] * 9)
        zero = (0.0, 0.0, 0.0)
        job.joint()
        job.row(make.ANGULAR, 0, 1, zero, (1.0, 0.0, 0.0), zero, zero, part * size)
        job.row(make.LINEAR, 0, 1, zero, (0.0, 1.0, 0.0), (2.0**-821, 0.0, 0.0), zero, size)
        yield job.bytes()


def lent(make):
    """The four-bar linkage in memory for mode 1, and what is told of it where the oracle does not say."""
    for mode, told in ((1, None), (0, b"solve 3 0 0\n"), (2, b"solve 3 0 0\n")):
        job = make.four_bar()
        job.mode = mode
        yield job.bytes(), told
    job = make.four_bar()
    # unlike tolerances, and one row in eight of an angle: flag 0, open, and both maxima have numbers of their own
    job.limit, job.tolerances = 1, (1e-25, 1e-6)
    job.rows = job.rows[: -248 + 220] + struct.pack("<I", make.ANGULAR) + job.rows[-248 + 224 :]
    yield job.bytes(), None
    job.masses = job.masses[:-8] + struct.pack("<d", make.INFINITY)
    yield job.bytes(), None
    # within the linear tolerance from the start, and far from the angular one: count 0, closed
    job = make.four_bar()
    job.tolerances = (1.0, 1e-12)
    yield job.bytes(), None
    # 27 before 6: the functions for C take rules, and 26 is the job program's
    job.tolerances = (1.0, -LEAST)
    job.masses = job.masses[:-8] + struct.pack("<d", make.INFINITY)
    yield job.bytes(), b"solve 27 0 0\n"
    yield from ((job.bytes(), told) for job, told in lent_centres(make))


def lent_centres(make):
    """The same with centres: moved, kept at count 0, 6, and 17 by a new one."""
    yield make.four_bar(1), None
    for tolerance, centre in ((1.0, (-0.0, 0.5, -0.0)), (1e-9, (-0.0, -0.0, -0.0)), (1e-9, (0.5, math.inf, 0.5))):
        job = make.four_bar(1)
        job.tolerances = (tolerance, tolerance)
        job.place([centre] * 4)
        yield job, None
    # errors so much larger and links so much lighter: each moves by so much more, and leaves the doubles
    job, by = make.four_bar(1), 2.0**990
    rows = (job.rows[at : at + 248] for at in range(0, len(job.rows), 248))
    job.rows = b"".join(with_error(row, by * struct.unpack("<d", row[120:128])[0]) for row in rows)
    job.masses = struct.pack("<40d", *(by * x for x in struct.unpack("<40d", job.masses)))
    job.tolerances = (by * 1e-9, by * 1e-9)
    job.place([(sys.float_info.max, -sys.float_info.max, 0.0)] * 4)
    yield job, None


def as_found(make):
    """What the job program reads by itself: one byte too many after a whole file of 65,536; the longest sheet."""
    largest = ring(make, 128, 64)
    yield placed(largest, 0, len(largest.rows), 65_536) + b"\0"
    yield ring(make, 128, 64, 1).bytes()


def listed(files):
    return b"".join(struct.pack("<I", len(file)) + file for file in files) + b"\xff" * 4


def sheet_of(run, file, folder, command="job"):
    path = pathlib.Path(folder) / "one.job"
    path.write_bytes(file)
    return subprocess.run([run, command, path], check=True, capture_output=True).stdout


def first_two(files, sheets):
    """The first two files of each kind of sheet."""
    seen = {}
    for file, sheet in zip(files, sheets):
        alike = kind(sheet)
        seen[alike] = seen.get(alike, 0) + 1
        if seen[alike] <= 2 and len(file) <= LONGEST:
            yield file


def main():
    run = pathlib.Path(sys.argv[1] if len(sys.argv) > 1 else HERE / "run").resolve()
    make = samples()
    subprocess.run([run, "examples"], check=True, stdout=subprocess.DEVNULL)
    with tempfile.TemporaryDirectory() as folder:
        paths = sorted((run.parent / "target" / "examples").glob("P*.job"))
        paths += [HERE.parent / "samples" / f"{name}.job" for name in SAMPLES]
        files = [path.read_bytes() for path in paths]
        files += [*generated(run, folder, "7", "0"), *edges(make), *tolerances(make)]
        files += [*generated(run, folder, "8", "1"), *centred_edges(make), *centres(make), *from_the_origin(make)]
        through_c, found = list(lent(make)), list(as_found(make))
        sheets = [sheet_of(run, file, folder) for file in files]
        gaping = list(first_two(files, sheets))
        sheets += [sheet_of(run, file, folder, "gapped") for file in gaping]
        sheets += [told or sheet_of(run, file, folder) for file, told in through_c]
        sheets += [sheet_of(run, file, folder) for file in found]
    lists = listed(files) + listed(gaping) + listed([file for file, _ in through_c])
    (CRATE / "stdin").write_bytes(lists + b"".join(found))
    (CRATE / "stdout").write_bytes(b"".join(sheets))
    print(f"{len(files)} job files, {len(gaping)} for the gaps, {len(through_c)} for C, {len(found)} as the job program finds them")


main()
