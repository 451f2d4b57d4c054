#!/usr/bin/env python3
"""Closing checks for speeds, held to exact rational arithmetic.

    python3 oracle/closing/velocities.py LIBRARY [CHECKS] [SEED]

LIBRARY is a shared library with the functions that src/adapter.c declares: the port's, oracle/target/port.so, or the
model behind the same functions, oracle/target/reference_o0.so. 100,000 checks are drawn where no number is given, as
record.py draws its own: sheets whose residuals the listed impulses nearly undo, tolerances at the largest |r| + E and
one unit beside it, numbers at the edges of refusal 18, and something that another refusal looks at. Then each row
is given a residual, which is its error with the sign turned round, and any error, which 7 alone reads (document 02, a).
What a check must answer is worked by record.py on fractions, rounded where document 01 rounds: refusal or verdict, and
the bits of the measured gap. On the exact gaps it is tested what the verdict means: closed, that every exact gap is
within its tolerance; open, that one is not well within; and that no measured gap is below the exact one. The rule
number of each row is compared too, and after a refusal nothing may be written.

Prints how many came to each answer. The exit status is 1 where one differs.
"""
import ctypes
import math
import random
import sys

import record
from record import ERROR, HIGH, LOW

# Fills lent outputs beforehand: what stays as it was shows.
UNTOUCHED = 0x5EED5EED


class Speeds(record.Sheet):
    """A sheet whose residuals, with their sign turned round, stand in the place of its errors."""

    def __init__(self, sheet):
        super().__init__(sheet.numbers, sheet.words, sheet.masses, sheet.multipliers, sheet.tolerances)
        self.residuals = [-row[ERROR] for row in sheet.numbers]

    def errors(self):
        return [-residual for residual in self.residuals]

    def passes_20(self):
        return all(map(math.isfinite, self.residuals))


def larger(chance):
    """Up to 12 rows on up to 5 bodies, at their own reach or beside it."""
    numbers = [chance.uniform(-2.0, 2.0) for _ in range(30)]
    sheet = record.some_sheet(chance.randrange(5, 13), chance.randrange(2, 6), numbers, chance)
    if record.passes_18(sheet):
        record.at_reach(sheet, chance)
    return sheet


def drawn(chance):
    sheet = Speeds(larger(chance) if chance.randrange(16) == 0 else record.one(chance))
    far = (0.0, -0.0, math.nextafter(LOW, 0.0), 2 * HIGH, 1e300)
    for row in sheet.numbers:
        if math.isfinite(row[ERROR]):
            row[ERROR] = chance.choice(far) if chance.randrange(4) == 0 else chance.uniform(-2.0, 2.0)
        if chance.randrange(60) == 0:
            row[ERROR] = chance.choice((math.nan, math.inf))
    at = chance.randrange(len(sheet.residuals))
    kind = chance.randrange(30)
    if kind == 0:
        sheet.residuals[at] = chance.choice((math.nan, math.inf, -math.inf))
    elif kind == 1:
        sheet.residuals[at] = record.edge(chance)
    return sheet


def doubles(values):
    """As a C array, by their bits."""
    return (ctypes.c_uint64 * len(values))(*map(record.bits, values))


def words(values):
    return (ctypes.c_uint32 * len(values))(*values)


def flat(lists):
    return [x for listed in lists for x in listed]


class Library:
    def __init__(self, path):
        library = ctypes.CDLL(path)
        self.check = library.oracle_velocity_closing_check
        self.check.restype = None
        self.cleared = getattr(library, "oracle_work_cleared", lambda: 1)

    def answer(self, sheet):
        """Refusal, verdict, both gaps by their bits, and the rule numbers; None where work memory is left written."""
        lent = [
            doubles(flat(sheet.numbers)),
            words(flat(sheet.words)),
            doubles(flat(sheet.masses)),
            doubles(sheet.residuals),
            words([0, 0, 255, 1, 0, 255]),
            doubles(sheet.tolerances),
        ]
        rows, numbers = len(sheet.numbers), words([UNTOUCHED] * len(sheet.numbers))
        told = (ctypes.c_uint64 * 4)()
        slices = [(listed, ctypes.c_size_t(len(listed))) for listed in lent]
        multipliers = doubles(sheet.multipliers)
        self.check(
            *flat(slices),
            ctypes.c_uint32(rows),
            ctypes.c_uint32(len(sheet.masses)),
            *(multipliers, ctypes.c_size_t(rows)),
            *(numbers, ctypes.c_size_t(rows)),
            *(told, ctypes.c_size_t(4)),
        )
        return (list(told), list(numbers)) if self.cleared() else None


def wanted(sheet):
    told, gap = record.outcome(sheet)
    if told > 1:
        return [told, 0, 0, 0], [UNTOUCHED] * len(sheet.numbers)
    return [0, told, *map(record.bits, gap)], [word[1] for word in sheet.words]


def named(answer):
    refusal, verdict = answer[:2]
    return f"refused by {refusal}" if refusal else "closed" if verdict else "open"


def main(path, checks=100_000, seed=record.SEED):
    library, chance, tally, differ = Library(path), random.Random(int(seed)), {}, 0
    for number in range(int(checks)):
        sheet = drawn(chance)
        must = wanted(sheet)
        tally[named(must[0])] = tally.get(named(must[0]), 0) + 1
        found = library.answer(sheet)
        if found != must:
            differ += 1
            print(f"check {number}: {found}, wanted {must}")
    for name in sorted(tally):
        print(tally[name], name)
    print(f"{checks} checks, {differ} differ")
    return differ == 0


if __name__ == "__main__":
    if len(sys.argv) < 2:
        sys.exit(__doc__)
    sys.exit(0 if main(*sys.argv[1:]) else 1)
