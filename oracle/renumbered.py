#!/usr/bin/env python3
"""Jobs and the same jobs with their bodies under other numbers (document 02, n), on an implementation.

    python3 oracle/renumbered.py [PAIRS] [SEED] [--library SO] [--program BIN]

Each of PAIRS jobs (20,000 where no number is given) is drawn with every body number in range, and renumbered by a drawn
permutation of all its bodies: body_a and body_b of each row by it, masses and centres moved along, the order of rows
fixed. Both go through the solve, the solve by groups and the closing check with its list of margins, of positions and
of velocities, with rules, a shift, centres and residuals of their own, in all modes; and, where they fit into a job
file, through the job program's process. Compared, bit for bit: refusal, or flag, count and maxima; the rows' numbers,
solution and rule numbers; each row's group and each group's answer; verdict, gap and margins; the program's lines.
Impulses and centres of body b must be those of its new number. After a refusal nothing may be written.

--library is a shared library with the functions that src/adapter.c declares, by default the port's,
oracle/target/port.so; --program the job program, by default crates/job/out/job. Where one of them is not there, it is left
out.

Prints how many came to each answer. The exit status is 1 where a pair differs, or none was compared.
"""

import argparse
import collections
import ctypes
import math
import pathlib
import random
import struct
import subprocess
import sys

import cases

HOME = pathlib.Path(__file__).resolve().parent

ERROR, COMPLIANCE, MULTIPLIER, CACHED = 15, 18, 24, 26
KEY, DIMENSION, BODY_A, BODY_B, FORCE_DRIVEN, POSITION, OWNER, SPARE = range(8)
INFINITY = math.inf


def number(chance):
    """Near 1, now and then a zero of either sign or a whole number, so that sums tie and cancel."""
    return chance.choice((0.0, -0.0, 1.0, -1.0, 0.5, chance.uniform(-2, 2), chance.uniform(-2, 2), chance.uniform(-2, 2)))


class Job:
    """A job of lent memory. Numbers are doubles, rows of 27, and words of 8; masses of 10, centres of 3."""

    def __init__(self, chance):
        self.chance = chance
        self.bodies = chance.choice((1, 2, 3, 4, 6, 9, chance.randrange(2, 30)))
        self.mode = chance.randrange(3)
        self.limit = chance.choice((1, 2, 5, 40, 200))
        self.shift = chance.choice((0.0, -0.0, 0.0, 1e-9, 0.25, 1.0))
        self.numbers, self.words = [], []
        joints = chance.choice((0, 1, 2, 3, 5, 8, chance.randrange(1, 16)))
        if chance.randrange(500) == 0:
            # All on one body: more than 16,384 pairs.
            joints, self.bodies, self.mode = 90, 2, 1
        for owner in range(joints if self.bodies > 1 else 0):
            self.joint(owner // chance.choice((1, 1, 1, 2)))
        self.rows = len(self.numbers) // 27
        self.masses = [one for _ in range(self.bodies) for one in self.mass()]
        self.centres = [number(chance) for _ in range(3 * self.bodies)]
        self.residuals = [chance.choice((0.0, 1e-3, number(chance))) for _ in range(self.rows)]
        self.tolerances = [chance.choice((0.0, 1e-12, 1e-9, 1e-3, 0.5)) for _ in range(2)]
        self.rules = self.drawn_rules()
        for _ in range(chance.choice((0, 0, 0, 1, 1, 2))):
            self.fault()
        special = chance.randrange(1000)
        if special < 25 and self.rows:
            self.light()
        elif special < 50 and self.rows:
            self.crossed()

    def joint(self, owner):
        chance = self.chance
        a, b = chance.sample(range(self.bodies), 2)
        for _ in range(chance.randrange(1, 5)):
            if chance.randrange(9) == 0:
                a, b = b, a
            linear = [number(chance) for _ in range(3)]
            opposite = [-one for one in linear] if chance.randrange(2) else [number(chance) for _ in range(3)]
            angular = [[number(chance) for _ in range(3)] for _ in range(3)]
            scalars = [chance.uniform(-0.1, 0.1), 0.0, 0.0, 0.0, 0.0]
            scalars += [-INFINITY, INFINITY, -INFINITY, INFINITY, number(chance), number(chance), 0.0]
            row = linear + angular[0] + angular[1] + opposite + angular[2] + scalars
            if self.numbers and chance.randrange(30) == 0:
                row = self.numbers[-27:]
            if chance.randrange(40) == 0:
                row[:15] = [chance.choice((0.0, -0.0))] * 15
                row[ERROR] = chance.choice((0.0, 1e-4))
            self.numbers += row
            self.words += [chance.randrange(256), chance.randrange(2), a, b, 0, 1, owner, 0]

    def mass(self):
        chance = self.chance
        if chance.randrange(6) == 0:
            return [chance.choice((0.0, -0.0)) for _ in range(10)]
        x, y, z = (chance.uniform(0.2, 3.0) for _ in range(3))
        e, f, g = (chance.choice((0.0, chance.uniform(-0.1, 0.1))) for _ in range(3))
        return [chance.uniform(0.1, 3.0), x, e, f, e, y, g, f, g, z]

    def drawn_rules(self):
        """Dimension, first and last key, tolerance: the two tolerances over all keys, or cut in two."""
        cut = self.chance.choice((None, None, self.chance.randrange(255)))
        spans = [(0, 255)] if cut is None else [(0, cut), (cut + 1, 255)]
        rules = [(kind, *span, self.tolerances[kind] * self.chance.choice((1, 1, 2))) for kind in (0, 1) for span in spans]
        self.chance.shuffle(rules)
        return rules

    def fault(self):
        """Something that a refusal looks at, or that overflows; never a body number out of range."""
        chance, row = self.chance, self.chance.randrange(max(self.rows, 1))
        huge = chance.choice((1e150, -1e160, 1e200, 1e308))

        def put(values, at, value):
            if at < len(values):
                values[at] = value

        chance.choice((
            lambda: setattr(self, "mode", 3),
            lambda: setattr(self, "limit", 0),
            lambda: setattr(self, "shift", chance.choice((-1e-9, 1.5, math.nan))),
            lambda: put(self.words, 8 * row + chance.choice((KEY, DIMENSION, FORCE_DRIVEN, POSITION, SPARE)), 300),
            lambda: put(self.words, 8 * row + POSITION, 0),
            lambda: put(self.words, 8 * row + BODY_B, self.words[8 * row + BODY_A] if self.words else 0),
            lambda: put(self.masses, chance.randrange(10 * self.bodies), chance.choice((math.nan, huge, 1e-200))),
            lambda: put(self.centres, chance.randrange(3 * self.bodies), chance.choice((INFINITY, 1.7e308))),
            lambda: put(self.residuals, row, chance.choice((math.nan, huge))),
            lambda: put(self.numbers, 27 * row + chance.randrange(27), chance.choice((math.nan, huge))),
            lambda: put(self.numbers, 27 * row + COMPLIANCE, 1.0),
            lambda: put(self.numbers, 27 * row + MULTIPLIER + chance.randrange(2), 1.7e308),
            lambda: put(self.numbers, 27 * row + CACHED, -1.0),
            lambda: put(self.numbers, 27 * row + ERROR, huge),
            lambda: put(self.numbers, 27 * row + chance.randrange(15), huge),
            lambda: self.rules.append(chance.choice(((0, 3, 2, 0.1), (2, 0, 255, 0.1), (1, 7, 7, math.nan), (0, 9, 200, 0.1)))),
            lambda: self.rules.pop(),
        ))()  # fmt: skip

    def light(self):
        """Bodies so hard to move that a solution number is huge, and rows whose accumulated numbers are full: 17."""
        self.masses = [1e-294 * one for one in self.masses]
        for row in range(self.rows):
            for place in (MULTIPLIER, MULTIPLIER + 1):
                self.numbers[27 * row + place] = self.chance.choice((1, -1)) * sys.float_info.max
        self.rules = [(kind, 0, 255, 1e-9) for kind in (0, 1)]

    def crossed(self):
        """Turning about unit vectors, with products of inertia that overflow once two bodies' are added: 12."""
        for body in range(self.bodies):
            self.masses[10 * body : 10 * body + 10] = [1.0, 1.0, 1.7e308, 0.0, 1.7e308, 1.0, 0.0, 0.0, 0.0, 1.0]
        for row in range(self.rows):
            unit = [0.0] * 15
            axis = row % 2
            unit[3 + axis] = unit[12 + axis] = 1.0
            self.numbers[27 * row : 27 * row + 15] = unit

    def renumbered(self, new):
        """The same job with body b under the number new[b]."""
        other = object.__new__(Job)
        other.__dict__.update(self.__dict__)
        other.words = list(self.words)
        for row in range(self.rows):
            for place in (8 * row + BODY_A, 8 * row + BODY_B):
                other.words[place] = new[self.words[place]]
        other.masses, other.centres = moved(self.masses, 10, new), moved(self.centres, 3, new)
        return other

    def file(self, layout):
        """A job file, with the two tolerances and no rules."""
        row_bytes = b"".join(
            doubles(self.numbers[27 * i : 27 * i + 27]) + words_of(self.words[8 * i : 8 * i + 8]) for i in range(self.rows)
        )
        mass_bytes = b"".join(
            doubles(self.masses[10 * b : 10 * b + 10] + (self.centres[3 * b : 3 * b + 3] if layout else []))
            for b in range(self.bodies)
        )
        body = row_bytes + mass_bytes
        head = (self.rows, self.bodies, self.limit, self.mode, 0, len(row_bytes))
        return body + struct.pack("<6I2d2I", *head, *self.tolerances, len(body) + cases.TRAILER_BYTES, layout)


def doubles(values):
    return struct.pack(f"<{len(values)}d", *values)


def words_of(values):
    return struct.pack(f"<{len(values)}I", *values)


def moved(values, width, new):
    """What each body has, under its new number."""
    put = [None] * len(values)
    for b, at in enumerate(new):
        put[width * at : width * at + width] = values[width * b : width * b + width]
    return put


class Calls:
    """The C functions of either kind on one job: what they answer, and all that they leave."""

    def __init__(self, library, kind):
        self.library = library
        self.solves = ("oracle_solve_position", "oracle_solve_velocity")[kind]
        self.benches = ("oracle_solve_groups", "oracle_solve_velocity_groups")[kind]
        self.lists = ("oracle_closing_margins", "oracle_velocity_closing_margins")[kind]
        self.velocity = kind == 1

    def lent(self, job):
        beside = job.residuals if self.velocity else job.centres
        words = [word for rule in job.rules for word in rule[:3]]
        lend = lambda values: cases.lent(ctypes.c_double, doubles(values))
        return (
            lend(job.numbers), cases.lent(ctypes.c_uint32, words_of(job.words)), lend(job.masses), lend(beside),
            cases.lent(ctypes.c_uint32, words_of(words)), lend([rule[3] for rule in job.rules]),
        )  # fmt: skip

    def solve(self, job):
        lent = self.lent(job)
        solution, impulses = cases.outputs(job.rows), cases.outputs(6 * job.bodies)
        centres = [] if self.velocity else [cases.outputs(3 * job.bodies)]
        rules, answer = cases.word_outputs(job.rows), (ctypes.c_uint64 * 5)()
        self.library.call(
            self.solves, *lent, job.rows, job.bodies, job.limit, job.mode, job.shift, solution, impulses, *centres, rules, answer
        )
        per_row = [list(answer), cases.bits(lent[0]), cases.bits(solution), list(rules), self.library.work()]
        return per_row, cases.bits(impulses), cases.bits(centres[0]) if centres else []

    def bench(self, job):
        lent = self.lent(job)
        solution, impulses = cases.outputs(job.rows), cases.outputs(6 * job.bodies)
        centres = [] if self.velocity else [cases.outputs(3 * job.bodies)]
        rules, groups, answers = (cases.word_outputs(each * job.rows) for each in (1, 1, 3))
        maxima, count, answer = cases.outputs(2 * job.rows), cases.word_outputs(1), (ctypes.c_uint64 * 1)()
        self.library.call(
            self.benches, *lent, job.rows, job.bodies, job.limit, job.mode, job.shift,
            solution, impulses, *centres, rules, groups, answers, maxima, count, answer,
        )  # fmt: skip
        told = [list(answer), list(count), list(groups), list(answers), cases.bits(maxima), list(rules)]
        per_row = told + [cases.bits(lent[0]), cases.bits(solution)]
        return per_row, cases.bits(impulses), cases.bits(centres[0]) if centres else []

    def compare_bench(self, job, other, new, met):
        """The solve by groups; what differs."""
        kind = "velocity groups" if self.velocity else "position groups"
        (rows, impulses, centres), (rows_new, impulses_new, centres_new) = self.bench(job), self.bench(other)
        [refusal], [count] = rows[0], rows[1]
        met[kind, f"refused {refusal}" if refusal else ("several" if count > 1 else f"{count} groups")] += 1
        said = [] if rows == rows_new else [f"{kind}: answers or rows"]
        if moved(impulses, 6, new) != impulses_new or moved(centres, 3, new) != centres_new:
            said.append(f"{kind}: impulses or centres")
        return said

    def check(self, job, listed):
        rules, answer = cases.word_outputs(job.rows), (ctypes.c_uint64 * 4)()
        margin_rows, margins = cases.word_outputs(job.rows), cases.outputs(job.rows)
        self.library.call(
            self.lists, *self.lent(job), job.rows, job.bodies, cases.lent(ctypes.c_double, listed), rules, margin_rows, margins, answer
        )
        return [list(answer), list(rules), list(margin_rows), cases.bits(margins), self.library.work()]

    def compare(self, job, other, new, met):
        """Solve, then check what was solved, or what happens to be listed; what differs."""
        kind = "velocity" if self.velocity else "position"
        (rows, impulses, centres), (rows_new, impulses_new, centres_new) = self.solve(job), self.solve(other)
        refusal = rows[0][0]
        met[kind, f"refused {refusal}" if refusal else ("count 0" if rows[0][1] == 0 else f"flag {rows[0][2]}")] += 1
        said = [] if rows == rows_new else [f"{kind}: answer or rows"]
        if moved(impulses, 6, new) != impulses_new:
            said.append(f"{kind}: impulses")
        if moved(centres, 3, new) != centres_new:
            said.append(f"{kind}: centres")
        if refusal and set(rows[2] + impulses + centres) - {cases.UNTOUCHED} | set(rows[3]) - {cases.UNTOUCHED_WORD}:
            said.append(f"{kind}: written though refused")
        listed = doubles(job.residuals) if refusal else struct.pack(f"<{job.rows}Q", *rows[2])
        told = self.check(job, listed)
        met[kind + " check", f"refused {told[0][0]}" if told[0][0] else ("closed" if told[0][1] else "open")] += 1
        said += [] if told == self.check(other, listed) else [f"{kind}: check or margins"]
        return said + self.compare_bench(job, other, new, met)


def program_lines(program, file):
    run = subprocess.run([program], input=file, capture_output=True, timeout=60)
    return [run.returncode] + run.stdout.decode("ascii", "replace").splitlines()


def compare_program(program, job, other, new, layout, met):
    """The program's lines, those of bodies under their new numbers."""
    old, found = (program_lines(program, one.file(layout)) for one in (job, other))
    first = next((at for at, line in enumerate(old) if str(line).startswith("body ")), len(old))
    lines = [line.split(" ", 2) for line in old[first:]]
    wanted = old[:first] + [" ".join(one) for one in sorted([["body", str(new[int(b)]), rest] for _, b, rest in lines], key=lambda one: int(one[1]))]
    met["program", " ".join(str(old[1]).split(" ")[:2]) if len(old) > 1 else "no lines"] += 1
    return [] if wanted == found else ["program: lines"]


def main():
    parser = argparse.ArgumentParser(description="Jobs with their bodies under other numbers.")
    parser.add_argument("pairs", nargs="?", type=int, default=20_000)
    parser.add_argument("seed", nargs="?", type=int, default=1)
    parser.add_argument("--library", type=pathlib.Path, default=HOME / "target/port.so")
    parser.add_argument("--program", type=pathlib.Path, default=HOME.parent / "crates/job/out/job")
    asked = parser.parse_args()
    calls = []
    if asked.library.exists():
        library = cases.Library(asked.library.resolve())
        calls = [Calls(library, kind) for kind in (0, 1)]
    else:
        print(f"left out: there is no '{asked.library}'")
    if not asked.program.exists():
        print(f"left out: there is no '{asked.program}'")
    met, wrong, compared = collections.Counter(), 0, 0
    for index in range(asked.pairs):
        chance = random.Random(f"{asked.seed}:{index}")
        job = Job(chance)
        new = list(range(job.bodies))
        chance.shuffle(new)
        other = job.renumbered(new)
        said = [one for call in calls for one in call.compare(job, other, new, met)]
        if asked.program.exists() and job.rows <= 128 and job.bodies <= 64:
            said += compare_program(asked.program.resolve(), job, other, new, chance.randrange(2), met)
        compared += bool(calls) or asked.program.exists()
        if said:
            wrong += 1
            print(f"DIFFERS pair {index} of seed {asked.seed}: {'; '.join(said)}")
    for what in sorted({one for one, _ in met}):
        told = sorted((answer, count) for (one, answer), count in met.items() if one == what)
        print(f"{what}: " + ", ".join(f"{count} {answer}" for answer, count in told))
    print(f"{compared} pairs compared, {wrong} differ")
    return 1 if wrong or not compared else 0


if __name__ == "__main__":
    sys.exit(main())
