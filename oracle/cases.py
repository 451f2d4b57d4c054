#!/usr/bin/env python3
"""Replays worked cases of document 02 on an implementation, and compares every bit.

    python3 oracle/cases.py [FILE..] [--library SO] [--program BIN] [--converter BIN] [--margins BIN]

FILE is a list of cases, one JSON object a line; its folder's README has the format. Without one,
every *.jsonl of the folder KAPITSA_CASES is read, by default ../shared/cases seen from the
repository's root. --library is a shared library with the functions that src/adapter.c declares:
the port's (oracle/target/port.so, the default, made by oracle/port), or the model behind the same
functions (oracle/target/reference_o0.so, made by oracle/build). --program is the job program, by
default crates/job/out/job, --converter the converter, by default crates/convert/out/convert, and --margins the
program that lists margins, by default crates/margins/out/margins. Where one of them is not there, its cases
are left out.

Of document 02, e: a convert case is one run of the converter; a same case two, whose files must be
equal or not. The writer has no program of its own. A write case is held to a writer in this script,
and goes through the converter as a job file of its numbers with the masses before the rows and bytes
of no meaning between them: the converter writes as the writer does, so that bytes and refusals must
be the case's. What that leaves out is a job that no job file holds, for which this script's writer
alone speaks, and a slice or an output of another length, of which there is no case.

Of document 02, m: a margins case is a check with its list, held to the check without one besides. The
program that lists margins gives the check what it solves, and a case a list of its own: a case goes
through the program too where it has no rules, its job fits into a job file, and the library's solve
comes to the case's list, bit for bit, or to its refusal; it is then counted once more.

Of document 02, g: a groups case is a solve by groups, held to the case, and each of its groups besides to
a solve of its rows alone: its answer and every number of its rows and bodies.

Of document 02, l: a sequence case is its steps one after the other, each proposal in memory of its own
and the rows in theirs; an undivided solve of a copy of the rows beside each proposal must leave what
the proposal and a commit of it, both on copies, leave.

Prints, for each list, how many cases of each kind are equal, which differ, and how many are left
out and why. The exit status is 1 where one differs, or none was compared.
"""

import argparse
import collections
import copy
import ctypes
import json
import math
import os
import pathlib
import re
import struct
import subprocess
import sys

HOME = pathlib.Path(__file__).resolve().parent

# The requests of document 02 that are in place. A case is left out while it needs another.
LANDED = {"d", "e", "f", "g", "h", "j", "k", "l", "m"}

# The request that brings a kind of case.
BROUGHT_BY = {"groups": "g", "margins": "m", "sequence": "l"}
BROUGHT_BY |= dict.fromkeys(("write", "write beyond a file", "convert", "same"), "e")

# A margins case that the program which lists margins can be given too.
BY_PROGRAM = "margins by the program"

ROW_NUMBERS, ROW_WORDS, ROW_BYTES = 27, 8, 248
MULTIPLIER = 24
# A row's numbers behind its five vectors, as row.rs names them.
SCALARS = 15
FIELDS = (
    "error target_velocity force_bias compliance damping min_multiplier max_multiplier min_impulse"
    " max_impulse accumulated_multiplier accumulated_impulse cached_velocity_effective_mass"
).split()
TRAILER_BYTES = 48
MOST_BYTES = 65_536

# Fills lent outputs beforehand: what stays as it was shows. The bits of a NaN with a payload.
UNTOUCHED = 0x7FF800005EED5EED
UNTOUCHED_WORD = 0x5EED5EED


def bytes_of(text):
    """Hexadecimal digits in which (n) stands for n zero bytes."""
    return bytes.fromhex(re.sub(r"\((\d+)\)", lambda run: "00" * int(run[1]), text))


def bits_of(text):
    """The patterns of doubles that are written without the zeros at their end."""
    return [int(one.ljust(16, "0"), 16) for one in text.split()]


def double(bits):
    return struct.unpack("<d", struct.pack("<Q", bits))[0]


def wanted_of(text, before):
    """The same, where `-` stands for a number that stays as it was."""
    written = [None if one == "-" else bits_of(one)[0] for one in text.split()]
    return [old if one is None else one for one, old in zip(written, before, strict=True)]


def is_odd(tolerance):
    """Refusal 26's test: negative, NaN or infinite."""
    return not (0.0 <= tolerance < math.inf)


Trailer = collections.namedtuple(
    "Trailer", "rows bodies limit mode row_offset mass_offset linear angular length layout"
)


def trailer_of(file):
    return Trailer(*struct.unpack("<6I2d2I", file[-TRAILER_BYTES:]))


class Job:
    """A table out of its container, which is laid out like a job file; taken as it is, also where
    counts or words are beyond what a reader would take."""

    def __init__(self, container):
        trailer = trailer_of(container)
        self.rows, self.bodies, self.limit, self.mode = trailer[:4]
        self.tolerances = [trailer.linear, trailer.angular]
        self.tolerance_bits = struct.unpack("<2Q", container[-24:-8])
        self.layout = trailer.layout
        mass_bytes = 104 if trailer.layout == 1 else 80

        def records(offset, count, size):
            end = min(offset + size * count, len(container) - TRAILER_BYTES)
            return [container[at : at + size] for at in range(offset, end, size)]

        rows = records(trailer.row_offset, self.rows, ROW_BYTES)
        masses = records(trailer.mass_offset, self.bodies, mass_bytes)
        self.numbers = b"".join(row[: 8 * ROW_NUMBERS] for row in rows)
        self.words = b"".join(row[8 * ROW_NUMBERS :] for row in rows)
        self.masses = b"".join(mass[:80] for mass in masses)
        self.centres = b"".join(mass[80:] if trailer.layout == 1 else bytes(24) for mass in masses)

    def row_section(self):
        numbers, words = 8 * ROW_NUMBERS, ROW_BYTES - 8 * ROW_NUMBERS
        return b"".join(
            self.numbers[numbers * i : numbers * (i + 1)] + self.words[words * i : words * (i + 1)]
            for i in range(self.rows)
        )

    def mass_section(self, layout):
        return b"".join(
            self.masses[80 * b : 80 * (b + 1)] + (self.centres[24 * b : 24 * (b + 1)] if layout == 1 else b"")
            for b in range(self.bodies)
        )

    def trailer(self, row_offset, mass_offset, length, layout):
        words = (self.rows, self.bodies, self.limit, self.mode, row_offset, mass_offset)
        return struct.pack("<6I2Q2I", *words, *self.tolerance_bits, length, layout)

    def elsewhere(self):
        """A job file of this job in its own layout: masses first, with bytes that belong to nothing."""
        rows, masses = self.row_section(), self.mass_section(self.layout)
        before, between, behind = b"\xa5" * 3, b"\x5a" * 5, b"\xff"
        row_offset = len(before + masses + between)
        body = before + masses + between + rows + behind
        return body + self.trailer(row_offset, len(before), len(body) + TRAILER_BYTES, self.layout)

    def only(self, rows):
        """The same with these rows alone."""
        only = copy.copy(self)
        only.rows = len(rows)
        only.numbers = b"".join(self.numbers[8 * ROW_NUMBERS * row : 8 * ROW_NUMBERS * (row + 1)] for row in rows)
        only.words = b"".join(self.words[4 * ROW_WORDS * row : 4 * ROW_WORDS * (row + 1)] for row in rows)
        return only

    def joining(self):
        """The bodies of the rows whose ten mass numbers are not all zero."""
        words, masses = lent(ctypes.c_uint32, self.words), lent(ctypes.c_double, self.masses)
        bodies = sorted({*words[2::8], *words[3::8]})
        return [body for body in bodies if any(masses[10 * body : 10 * (body + 1)])]

    def words_fit(self):
        """Refusal 4's test."""
        words = struct.unpack(f"<{len(self.words) // 4}I", self.words)
        rows = zip(*(words[place::8] for place in range(8)))
        return all(
            key < 256 and dimension < 2 and driven < 2 and enabled < 2 and spare == 0
            for key, dimension, _, _, driven, enabled, _, spare in rows
        )

    def written(self, layout):
        """The one written form of this job, or the number by which the writer turns it back."""
        if self.rows > 128 or self.bodies > 64:
            return 2
        if self.mode > 2 or layout > 1:
            return 3
        if not self.words_fit():
            return 4
        if layout == 0 and any(self.centres):
            return 24
        rows, masses = self.row_section(), self.mass_section(layout)
        return rows + masses + self.trailer(0, len(rows), len(rows + masses) + TRAILER_BYTES, layout)


def lent(kind, data):
    """Memory that holds these bytes."""
    size = ctypes.sizeof(kind)
    return (kind * (len(data) // size)).from_buffer_copy(data)


def bits(memory):
    return list(struct.unpack(f"<{len(memory)}Q", bytes(memory)))


def outputs(length):
    return lent(ctypes.c_double, struct.pack("<Q", UNTOUCHED) * length)


def word_outputs(length):
    return lent(ctypes.c_uint32, struct.pack("<I", UNTOUCHED_WORD) * length)


class Library:
    """The functions of src/adapter.c. Each method gives what differs from the case."""

    def __init__(self, path):
        self.library = ctypes.CDLL(str(path))

    def call(self, function, *arguments):
        """A slice is a pointer, then its length; other arguments are as they are."""
        passed = []
        for one in arguments:
            if isinstance(one, ctypes.Array):
                passed += [one, ctypes.c_size_t(len(one))]
            else:
                passed.append(ctypes.c_double(one) if isinstance(one, float) else ctypes.c_uint32(one))
        called = getattr(self.library, function)
        called.restype = None
        called(*passed)

    def work(self):
        """Where the library tells of its work memory, it must be 0."""
        cleared = getattr(self.library, "oracle_work_cleared", None)
        return [] if cleared is None or cleared() else ["work memory is not cleared"]

    def solve(self, case):
        job, expect = case.job, case.expect
        numbers = lent(ctypes.c_double, job.numbers)
        words, masses = lent(ctypes.c_uint32, job.words), lent(ctypes.c_double, job.masses)
        centres, new_centres = lent(ctypes.c_double, job.centres), outputs(3 * min(job.bodies, 600))
        solution, impulses = outputs(min(job.rows, 600)), outputs(6 * min(job.bodies, 600))
        rule_numbers = word_outputs(min(job.rows, 600))
        answer = (ctypes.c_uint64 * 5)(*[UNTOUCHED] * 5)
        self.call(
            "oracle_solve_position", numbers, words, masses, centres, *case.lent_rules(), job.rows,
            job.bodies, job.limit, job.mode, case.shift, solution, impulses, new_centres,
            rule_numbers, answer,
        )  # fmt: skip
        before = bits(lent(ctypes.c_double, job.numbers))
        if expect["refusal"]:
            wanted = [expect["refusal"], 0, 0, 0, 0]
            wanted_solution, wanted_impulses = [UNTOUCHED] * len(solution), [UNTOUCHED] * len(impulses)
            wanted_centres = [UNTOUCHED] * len(new_centres)
            wanted_rules = [UNTOUCHED_WORD] * len(rule_numbers)
        else:
            wanted = [0, expect["count"], expect["flag"], *bits_of(expect["maxima"])]
            wanted_solution, wanted_impulses = bits_of(expect["solution"]), bits_of(expect["impulses"])
            wanted_centres = bits_of(expect["centres"])
            wanted_rules = expect["rules"]
            before[MULTIPLIER::ROW_NUMBERS] = bits_of(expect["multipliers"])
        return self.work() + different(
            ("answer", list(answer), wanted),
            ("solution", bits(solution), wanted_solution),
            ("multipliers or row numbers", bits(numbers), before),
            ("impulses", bits(impulses), wanted_impulses),
            ("new centres", bits(new_centres), wanted_centres),
            ("centres", bits(centres), bits(lent(ctypes.c_double, job.centres))),
            ("rule numbers", list(rule_numbers), wanted_rules),
        )

    def checked(self, function, case, *lists):
        """The answer and the rule numbers of a check, with a list where memory is lent for one."""
        job = case.job
        numbers, masses = lent(ctypes.c_double, job.numbers), lent(ctypes.c_double, job.masses)
        words, centres = lent(ctypes.c_uint32, job.words), lent(ctypes.c_double, job.centres)
        rule_numbers = word_outputs(min(job.rows, 600))
        answer = (ctypes.c_uint64 * 4)(*[UNTOUCHED] * 4)
        self.call(
            function, numbers, words, masses, centres, *case.lent_rules(), job.rows, job.bodies,
            lent(ctypes.c_double, case.list), rule_numbers, *lists, answer,
        )  # fmt: skip
        return list(answer), list(rule_numbers)

    def check(self, case):
        expect = case.expect
        answer, rule_numbers = self.checked("oracle_closing_check", case)
        wanted = [expect["refusal"], 0, 0, 0]
        if not expect["refusal"]:
            wanted = [0, expect["closed"], *bits_of(expect["gap"])]
        return self.work() + different(
            ("refusal, verdict and gap", answer, wanted),
            ("rule numbers", rule_numbers, case.wanted_rules()),
        )

    def margins(self, case):
        rows, expect = min(case.job.rows, 600), case.expect
        margin_rows, margins = word_outputs(rows), outputs(rows)
        answer, rule_numbers = self.checked("oracle_closing_margins", case, margin_rows, margins)
        cleared = self.work()
        wanted_rows, wanted_margins = [UNTOUCHED_WORD] * rows, [UNTOUCHED] * rows
        gap = answer[2:]
        if expect.get("closed"):
            wanted_rows = [row for row, _ in expect["margins"]]
            wanted_margins = [bits_of(number)[0] for _, number in expect["margins"]]
            gap = case.gap_of(wanted_rows, wanted_margins)
        return cleared + different(
            ("refusal, verdict and gap", answer, [expect["refusal"], expect.get("closed", 0), *gap]),
            ("as the check without a list", (answer, rule_numbers), self.checked("oracle_closing_check", case)),
            ("rule numbers", rule_numbers, case.wanted_rules()),
            ("rows of the list", list(margin_rows), wanted_rows),
            ("numbers of the list", bits(margins), wanted_margins),
        )

    def solution(self, case):
        """What the solve answers and, where it is accepted, its solution; the rows are not kept."""
        job = case.job
        solution, impulses = outputs(job.rows), outputs(6 * job.bodies)
        new_centres, rule_numbers = outputs(3 * job.bodies), word_outputs(job.rows)
        answer = (ctypes.c_uint64 * 5)(*[UNTOUCHED] * 5)
        self.call(
            "oracle_solve_position", lent(ctypes.c_double, job.numbers), lent(ctypes.c_uint32, job.words),
            lent(ctypes.c_double, job.masses), lent(ctypes.c_double, job.centres), *case.lent_rules(),
            job.rows, job.bodies, job.limit, job.mode, 0.0, solution, impulses, new_centres,
            rule_numbers, answer,
        )  # fmt: skip
        return list(answer), bits(solution)

    def groups(self, case):
        bench = Bench(case.job)
        refusal = bench.solve(self, case)
        wanted = Bench(case.job)
        said = different(("refusal", refusal, case.expect["refusal"]))
        if not case.expect["refusal"]:
            wanted.expect(case.expect)
            said += [one for group in case.expect["groups"] for one in self.alone(case, group, bench)]
        return said + self.work() + different(*zip(Bench.NAMES, bench.found(), wanted.found()))

    def alone(self, case, group, bench):
        """A group against a solve of its rows alone."""
        job, rows = case.job.only(group["rows"]), group["rows"]
        numbers, rule_numbers = lent(ctypes.c_double, job.numbers), word_outputs(job.rows)
        solution, impulses, new_centres = outputs(job.rows), outputs(6 * job.bodies), outputs(3 * job.bodies)
        answer = (ctypes.c_uint64 * 5)(*[UNTOUCHED] * 5)
        self.call(
            "oracle_solve_position", numbers, lent(ctypes.c_uint32, job.words), lent(ctypes.c_double, job.masses),
            lent(ctypes.c_double, job.centres), *case.lent_rules(), job.rows, job.bodies, job.limit, job.mode,
            case.shift, solution, impulses, new_centres, rule_numbers, answer,
        )  # fmt: skip
        told = [group["refusal"], group.get("count", 0), group.get("flag", 0)]
        told += bits_of(group["maxima"]) if "maxima" in group else [0, 0]
        row = lambda list_, each: [one for at in rows for one in list_[each * at : each * (at + 1)]]
        of = lambda list_, each: [one for body in job.joining() for one in list_[each * body : each * (body + 1)]]
        return different(
            ("a group alone: answer", list(answer), told),
            ("a group alone: rows", row(bits(bench.numbers), ROW_NUMBERS), bits(numbers)),
            ("a group alone: solution", row(bits(bench.solution), 1), bits(solution)),
            ("a group alone: rule numbers", row(list(bench.rules), 1), list(rule_numbers)),
            ("a group alone: impulses", of(bits(bench.impulses), 6), of(bits(impulses), 6)),
            ("a group alone: new centres", of(bits(bench.centres), 3), of(bits(new_centres), 3)),
        )

    def sequence(self, case):
        sheet, said = Sheet(self, case), []
        for number, (step, expect) in enumerate(zip(case.steps, case.expect["steps"], strict=True)):
            found = getattr(sheet, step["do"].replace("-", "_"))(step, expect)
            found += different(("multipliers", sheet.multipliers(), bits_of(expect["multipliers"])))
            said += [f"step {number}, {step['do']}: {one}" for one in found]
        return said


class Bench:
    """What a solve by groups is lent, the rows' numbers too."""

    NAMES = (
        "row numbers", "solution", "impulses", "new centres", "maxima of the groups", "rule numbers",
        "group numbers", "answers of the groups", "group count",
    )  # fmt: skip

    def __init__(self, job):
        rows, bodies = min(job.rows, 600), min(job.bodies, 600)
        self.job, self.numbers = job, lent(ctypes.c_double, job.numbers)
        self.solution, self.impulses = outputs(rows), outputs(6 * bodies)
        self.centres, self.maxima = outputs(3 * bodies), outputs(2 * rows)
        self.rules, self.groups = word_outputs(rows), word_outputs(rows)
        self.answers, self.count = word_outputs(3 * rows), word_outputs(1)

    def solve(self, library, case):
        job, answer = self.job, (ctypes.c_uint64 * 1)(UNTOUCHED)
        library.call(
            "oracle_solve_groups", self.numbers, lent(ctypes.c_uint32, job.words), lent(ctypes.c_double, job.masses),
            lent(ctypes.c_double, job.centres), *case.lent_rules(), job.rows, job.bodies, job.limit, job.mode,
            case.shift, self.solution, self.impulses, self.centres, self.rules, self.groups, self.answers,
            self.maxima, self.count, answer,
        )  # fmt: skip
        return answer[0]

    def found(self):
        doubles = (self.numbers, self.solution, self.impulses, self.centres, self.maxima)
        return [*map(bits, doubles), *map(list, (self.rules, self.groups, self.answers, self.count))]

    def put(self, memory, place, value):
        """A pattern, or a word, at a place."""
        size = ctypes.sizeof(memory._type_)
        ctypes.memmove(ctypes.addressof(memory) + size * place, value.to_bytes(size, "little"), size)

    def expect(self, expect):
        """What the case says is written."""
        multipliers = wanted_of(expect["multipliers"], bits(self.numbers)[MULTIPLIER::ROW_NUMBERS])
        for row, value in enumerate(multipliers):
            self.put(self.numbers, ROW_NUMBERS * row + MULTIPLIER, value)
        for memory, text in (
            (self.solution, expect["solution"]), (self.impulses, expect["impulses"]), (self.centres, expect["centres"]),
        ):  # fmt: skip
            for place, value in enumerate(wanted_of(text, bits(memory))):
                self.put(memory, place, value)
        for row, rule in enumerate(expect["rules"]):
            self.rules[row] = UNTOUCHED_WORD if rule is None else rule
        self.count[0] = len(expect["groups"])
        for number, group in enumerate(expect["groups"]):
            for row in group["rows"]:
                self.groups[row] = number
            self.answers[3 * number : 3 * number + 3] = [group["refusal"], group.get("count", 0), group.get("flag", 0)]
            for place, value in enumerate(bits_of(group["maxima"]) if "maxima" in group else []):
                self.put(self.maxima, 2 * number + place, value)


class Proposal:
    """What a proposal is lent, and the answer to it: refusal and the maxima."""

    def __init__(self, rows, bodies):
        self.words, self.rules = word_outputs(4), word_outputs(min(rows, 600))
        self.solution, self.started = outputs(min(rows, 600)), outputs(min(rows, 600))
        self.impulses, self.centres = outputs(6 * min(bodies, 600)), outputs(3 * min(bodies, 600))
        self.answer = (ctypes.c_uint64 * 3)(*[UNTOUCHED] * 3)

    def lent(self):
        return self.words, self.solution, self.impulses, self.centres, self.started, self.rules

    def found(self):
        doubles = (self.solution, self.impulses, self.centres, self.started)
        return [list(self.answer), list(self.words), list(self.rules), *map(bits, doubles)]


class Sheet:
    """A table on which a sequence of steps is run: its rows as they are now, and its proposals."""

    def __init__(self, library, case):
        self.library, self.case, job = library, case, case.job
        self.numbers = [job.numbers[at : at + 8 * ROW_NUMBERS] for at in range(0, len(job.numbers), 8 * ROW_NUMBERS)]
        self.words = [job.words[at : at + 4 * ROW_WORDS] for at in range(0, len(job.words), 4 * ROW_WORDS)]
        self.taken, self.proposals = [], {}
        self.beyond = job.rows - len(self.numbers)  # rows that the container has no room for

    def rows(self):
        return len(self.numbers) + self.beyond

    def lent_numbers(self):
        return lent(ctypes.c_double, b"".join(self.numbers))

    def keep(self, numbers):
        data = bytes(numbers)
        self.numbers = [data[at : at + 8 * ROW_NUMBERS] for at in range(0, len(data), 8 * ROW_NUMBERS)]

    def multipliers(self):
        return [bits(lent(ctypes.c_double, row))[MULTIPLIER] for row in self.numbers]

    def given(self, numbers):
        job = self.case.job
        return (
            numbers, lent(ctypes.c_uint32, b"".join(self.words)), lent(ctypes.c_double, job.masses),
            lent(ctypes.c_double, job.centres), *self.case.lent_rules(), self.rows(), job.bodies, job.limit,
            job.mode, self.case.shift,
        )  # fmt: skip

    def proposed(self):
        """A proposal of the rows as they are, and whether the call left them so."""
        to, numbers = Proposal(self.rows(), self.case.job.bodies), self.lent_numbers()
        self.library.call("oracle_propose_position", *self.given(numbers), *to.lent(), to.answer)
        return to, different(("row numbers", bits(numbers), bits(self.lent_numbers()))) + self.library.work()

    def committed(self, numbers, to):
        answer = (ctypes.c_uint64 * 1)(UNTOUCHED)
        self.library.call("oracle_commit_proposal", numbers, self.rows(), to.words, to.solution, to.started, answer)
        return answer[0]

    def propose(self, step, expect):
        to, said = self.proposed()
        if expect["refusal"]:
            wanted = [[expect["refusal"], 0, 0], *Proposal(self.rows(), self.case.job.bodies).found()[1:]]
        else:
            words = [self.rows(), expect["flag"], expect["count"], 0]
            doubles = [bits_of(expect[one]) for one in ("solution", "impulses", "centres", "started")]
            wanted = [[0, *bits_of(expect["maxima"])], words, expect["rules"], *doubles]
            self.proposals[step["as"]] = to
        names = ("answer", "words", "rule numbers", "solution", "impulses", "new centres", "started")
        return said + different(*zip(names, to.found(), wanted)) + self.undivided()

    def undivided(self):
        """A proposal and its commit, and the solve in their place, on copies of the rows."""
        to, _ = self.proposed()
        numbers, whole = self.lent_numbers(), self.lent_numbers()
        if not to.answer[0] and self.committed(numbers, to):
            return ["a commit right after is refused"]
        once = Proposal(self.rows(), self.case.job.bodies)
        answer = (ctypes.c_uint64 * 5)(*[UNTOUCHED] * 5)
        given = (once.solution, once.impulses, once.centres, once.rules, answer)
        self.library.call("oracle_solve_position", *self.given(whole), *given)
        refusal, *maxima = to.answer
        counts = [0, 0] if refusal else [to.words[2], to.words[1]]
        named = ("solution", "impulses", "centres", "rules")
        both = [[bytes(getattr(one, name)) for name in named] for one in (to, once)]
        return different(
            ("the undivided solve's answer", [refusal, *counts, *maxima], list(answer)),
            ("the undivided solve's row numbers", bits(numbers), bits(whole)),
            ("the undivided solve's outputs", *both),
        )

    def commit(self, step, expect):
        to, numbers = self.proposals[step["what"]], self.lent_numbers()
        before = [bits(numbers), *to.found()]
        refusal = self.committed(numbers, to)
        after = [bits(numbers), *to.found()]
        said = different(("refusal", refusal, expect["refusal"]))
        if refusal:
            said += different(("what is lent, after a refusal", str(after), str(before)))
        else:
            before[0][MULTIPLIER::ROW_NUMBERS] = after[0][MULTIPLIER::ROW_NUMBERS]
            before[2][3] = 1
            said += different(("what is lent beside the multipliers", str(after), str(before)))
        self.keep(numbers)
        return said

    def set(self, step, expect):
        row = bytearray(self.numbers[step["row"]])
        place = 8 * (SCALARS + FIELDS.index(step["field"]))
        row[place : place + 8] = struct.pack("<Q", bits_of(step["value"])[0])
        self.numbers[step["row"]] = bytes(row)
        return []

    def drop_row(self, step, expect):
        self.taken.append((self.numbers.pop(), self.words.pop()))
        return []

    def add_row(self, step, expect):
        numbers, words = self.taken.pop() if self.taken else (self.numbers[-1], self.words[-1])
        self.numbers.append(numbers)
        self.words.append(words)
        return []


class Program:
    """The job program's own process."""

    def __init__(self, path):
        self.path = path

    def program(self, case):
        run = subprocess.run([self.path], input=case.file, capture_output=True, timeout=60)
        return different(
            ("text", run.stdout.decode("ascii", "replace"), case.expect["text"]),
            ("exit status", run.returncode, 0),
        )


class Margins:
    """The process of the program that lists margins, beside the library that solves."""

    def __init__(self, path, library):
        self.path, self.library = path, library

    def takes(self, case):
        """Whether what the program gives the check is the case's list, or its solve is turned back as the
        case's check."""
        job = case.job
        if case.has_rules or job.rows > 128 or job.bodies > 64 or len(case.container) > MOST_BYTES:
            return False
        (refusal, *_), solution = self.library.solution(case)
        if refusal:
            return refusal == case.expect["refusal"]
        return struct.pack(f"<{job.rows}Q", *solution) == case.list

    def text(self, case):
        """What the case, and the library's solve and check, make of the lines."""
        (refusal, count, flag, *carried), _ = self.library.solution(case)
        if refusal:
            return f"solve {26 if refusal == 27 else refusal} 0 0\n"
        (_, _, *gap), _ = self.library.checked("oracle_closing_check", case)
        told = lambda numbers: "".join(f" {number:016x}" for number in numbers)
        expect = case.expect
        verdict = expect["refusal"] or expect["closed"]
        lines = [
            f"solve 0 {count} {flag}",
            "gap none" if expect["refusal"] else "gap" + told(gap),
            "carried" + told(carried),
            f"close {verdict}",
        ]
        lines += [f"margin {row}{told(bits_of(number))}" for row, number in expect.get("margins", [])]
        return "".join(line + "\n" for line in lines)

    def margins(self, case):
        run = subprocess.run([self.path], input=case.container, capture_output=True, timeout=60)
        return different(
            ("text", run.stdout.decode("ascii", "replace"), self.text(case)),
            ("exit status", run.returncode, 0),
        )


class Converter:
    """The converter's own process, and the writer as far as it shows in it."""

    def __init__(self, path):
        self.path = path

    def run(self, file, layout):
        """The file, or the number of the refusal."""
        run = subprocess.run([self.path, ("old", "new")[layout]], input=file, capture_output=True, timeout=60)
        line = re.fullmatch(rb"convert (\d+)\n", run.stdout)
        return f"exit status {run.returncode}" if run.returncode else int(line[1]) if line else run.stdout

    def convert(self, case):
        return different(("file or refusal", self.run(case.file, case.layout), case.outcome(case.file)))

    def write(self, case):
        found = self.run(case.job.elsewhere(), case.layout)
        return writer(case) + different(("file or refusal", found, case.outcome(case.container)))

    def same(self, case):
        both = [self.run(file, case.layout) for file in (case.file, case.other)]
        if not all(isinstance(one, bytes) for one in both):
            return [f"refused: {both}"]
        return different(("equal bytes", int(both[0] == both[1]), case.expect["equal"]))


def writer(case):
    """The writer of this script."""
    return different(("this script's writer", case.job.written(case.layout), case.outcome(case.container)))


def different(*compared):
    return [
        f"{what}: {shown(found)}, wanted {shown(wanted)}"
        for what, found, wanted in compared
        if found != wanted
    ]


def shown(value):
    if isinstance(value, tuple):
        return ", ".join(map(shown, value))
    if isinstance(value, list):
        return "[" + " ".join(f"{one:x}" for one in value) + "]"
    return f"{len(value)} bytes" if isinstance(value, bytes) else repr(value)


class Case:
    def __init__(self, line):
        given = json.loads(line)
        self.name, self.op, self.expect = given["name"], given["op"], given["expect"]
        self.container = bytes_of(given["job"]) if "job" in given else None
        self.job = Job(self.container) if "job" in given else None
        self.file = bytes_of(given["file"]) if "file" in given else None
        self.other = bytes_of(given["other"]) if "other" in given else None
        self.layout, self.steps = given.get("layout"), given.get("steps")
        if self.op == "write" and len(self.job.elsewhere()) > MOST_BYTES:
            self.op = "write beyond a file"
        self.list = b"".join(struct.pack("<Q", one) for one in bits_of(given.get("list", "")))
        self.shift = double(bits_of(given["shift"])[0]) if "shift" in given else 0.0
        self.rules = [(*words, bits_of(tolerance)[0]) for *words, tolerance in given.get("rules", [])]
        self.has_rules, self.has_shift = "rules" in given, "shift" in given
        if self.job and not self.has_rules:
            linear, angular = self.job.tolerance_bits
            self.rules = [(0, 0, 255, linear), (1, 0, 255, angular)]

    def outcome(self, given):
        """What writer and converter must give: a file, which may be the one given, or a refusal."""
        file = self.expect.get("file")
        return self.expect["refusal"] or (given if file == "same" else bytes_of(file))

    def lent_rules(self):
        """Three words a rule, and its tolerance, whose NaN keeps its payload."""
        words = [word for rule in self.rules for word in rule[:3]]
        tolerances = [rule[3] for rule in self.rules]
        return (
            lent(ctypes.c_uint32, struct.pack(f"<{len(words)}I", *words)),
            lent(ctypes.c_double, struct.pack(f"<{len(tolerances)}Q", *tolerances)),
        )

    def rules_of_rows(self):
        """For each row the rules that it is under; a check's outcome does not list them."""
        words = list(lent(ctypes.c_uint32, self.job.words))
        for key, dimension in zip(words[0::8], words[1::8]):
            held = [first <= key <= last and kind == dimension for kind, first, last, _ in self.rules]
            yield [number for number, holds in enumerate(held) if holds]

    def wanted_rules(self):
        """The rule numbers that a check leaves."""
        if self.expect["refusal"]:
            return [UNTOUCHED_WORD] * min(self.job.rows, 600)
        return [rule for row in self.rules_of_rows() for rule in row]

    def gap_of(self, rows, numbers):
        """The largest number of each dimension, as patterns, which grow with the numbers from +0.0."""
        dimensions = list(lent(ctypes.c_uint32, self.job.words))[1::8]
        return [max([0] + [number for row, number in zip(rows, numbers) if dimensions[row] == one]) for one in (0, 1)]

    def waits_for(self):
        """The requests that must be in place before the case can be compared."""
        needs = {BROUGHT_BY[self.op]} if self.op in BROUGHT_BY else set()
        if self.has_rules:
            needs.add("k")
        if self.has_shift:
            needs.add("f")
        if self.op == "program":
            # A file that is too short for a trailer is refused by 1 all along.
            trailer = trailer_of(self.file.rjust(TRAILER_BYTES, b"\0"))
            needs |= {"d"} if trailer.layout == 1 else set()
            needs |= {"j"} if is_odd(trailer.linear) or is_odd(trailer.angular) else set()
        elif self.op in ("solve", "groups", "check", "margins"):
            needs.add("d")
            needs |= {"j"} if any(map(is_odd, self.job.tolerances)) else set()
        return needs - LANDED

    def settle(self):
        """A library that takes rules tells an odd tolerance by 27; 26 is the program's."""
        if "k" in LANDED and self.op in ("solve", "groups", "check", "margins") and self.expect.get("refusal") == 26:
            self.expect = {"refusal": 27}
        if self.op == "sequence":
            for expect in self.expect["steps"]:
                expect["refusal"] = 27 if expect.get("refusal") == 26 else expect.get("refusal", 0)
        return self


def replay(path, by_op):
    """Prints one list's tally; how many were compared, and how many differ."""
    equal, left, differing = collections.Counter(), collections.Counter(), []
    def compare(op, by, case):
        if isinstance(by, str):
            left[op, by] += 1
            return
        said = by(case)
        equal[op] += not said
        if said:
            differing.append((op, case.name, said))

    for line in path.read_text().splitlines():
        case = Case(line).settle()
        waits = case.waits_for()
        if waits:
            left[case.op, "waits for request " + ", ".join(sorted(waits))] += 1
            continue
        compare(case.op, by_op[case.op], case)
        program = by_op[BY_PROGRAM]
        if case.op == "margins" and (isinstance(program, str) or program.takes(case)):
            compare(BY_PROGRAM, program if isinstance(program, str) else program.margins, case)
    print(f"{path.name}:")
    for op in sorted(set(equal) | {op for op, _, _ in differing}):
        wrong = sum(1 for one in differing if one[0] == op)
        print(f"  {op}: {equal[op]} equal, {wrong} differ")
    for op, name, said in differing:
        print(f"  DIFFERS {op} {name}: {'; '.join(said)}")
    for (op, why), count in sorted(left.items()):
        print(f"  {op}: {count} left out: {why}")
    return sum(equal.values()) + len(differing), len(differing)


def main():
    cases = pathlib.Path(os.environ.get("KAPITSA_CASES", HOME.parent.parent / "shared/cases"))
    parser = argparse.ArgumentParser(description="Replays worked cases of document 02.")
    parser.add_argument("files", nargs="*", type=pathlib.Path, metavar="FILE")
    parser.add_argument("--library", type=pathlib.Path, default=HOME / "target/port.so")
    parser.add_argument("--program", type=pathlib.Path, default=HOME.parent / "crates/job/out/job")
    parser.add_argument("--converter", type=pathlib.Path, default=HOME.parent / "crates/convert/out/convert")
    parser.add_argument("--margins", type=pathlib.Path, default=HOME.parent / "crates/margins/out/margins")
    asked = parser.parse_args()
    files = asked.files or sorted(cases.glob("*.jsonl"))
    if not files:
        sys.exit(f"oracle/cases.py: no cases in '{cases}'; set KAPITSA_CASES to their folder")
    missing = lambda path: f"there is no '{path}'"
    by_op = dict.fromkeys(("solve", "groups", "check", "margins", "sequence"), missing(asked.library))
    by_op["program"] = missing(asked.program)
    by_op[BY_PROGRAM] = missing(asked.margins)
    by_op |= dict.fromkeys(("write", "convert", "same"), missing(asked.converter))
    by_op["write beyond a file"] = writer
    if asked.library.exists():
        library = Library(asked.library.resolve())
        by_op.update(solve=library.solve, groups=library.groups, check=library.check, margins=library.margins)
        by_op.update(sequence=library.sequence)
        if asked.margins.exists():
            by_op[BY_PROGRAM] = Margins(asked.margins.resolve(), library)
    if asked.program.exists():
        by_op["program"] = Program(asked.program.resolve()).program
    if asked.converter.exists():
        converter = Converter(asked.converter.resolve())
        by_op.update(write=converter.write, convert=converter.convert, same=converter.same)
    compared = wrong = 0
    for path in files:
        here, bad = replay(path, by_op)
        compared, wrong = compared + here, wrong + bad
    print(f"{compared} cases compared, {wrong} differ")
    return 1 if wrong or not compared else 0


if __name__ == "__main__":
    sys.exit(main())
