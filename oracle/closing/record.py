#!/usr/bin/env python3
"""Closing checks worked in exact rational arithmetic.

Written from document 01 ("The closing check", refusals 3, 4, 6, 7, 18) and 02 (27, the gap, 6 of the centres, which
nothing else reads) alone, the two tolerances taken as two rules over keys 0 to 255, so that 28 finds nothing wrong:
every operation is done on fractions, and where the document rounds, the exact result is rounded to the nearest double
once. For each check the exact gap is formed as well, and what verdict and measured gap mean is tested on it before
the check is listed.

    cd crates/closing_recorded && ../../oracle/closing/record.py > stdin 2> stdout

`stdin` is the list and `stdout` what the program must print of it. First come 1,500 drawn checks, then those that
are not drawn: two refusals at once, the largest counts and one beyond, tolerances on both sides of 27 and at the
reach, centres of every kind. The drawn ones have centres of +0.0.

A check is a run of 64-bit words, little end first: its length in bytes, rows n, bodies b, the linear and the
angular tolerance, the answer (0 open, 1 closed, else the refusal's number), the linear and the angular gap, 27n
row numbers, 8n row words, 10b mass numbers, 3b centre numbers, n multipliers. So the gap stands in bytes 48 to 63,
the row numbers begin at byte 64 and the centres at 64 + 280n + 80b. A gap is the largest rounded |r| + E of the rows
of its dimension, from +0.0 upward; both are +0.0 where the check is refused. Doubles are given by their bits. The
same seed makes the same bytes.
"""
import copy
import itertools
import math
import random
import struct
import sys
from fractions import Fraction

SEED = 1952
LOW, HIGH = 2.0 ** -150, 2.0 ** 150
ERROR, MIN_MULTIPLIER = 15, 20
MOST_ROWS, MOST_BODIES = 512, 256


def rounded(exact):
    """The nearest double; a zero is +0.0, which no verdict tells from -0.0."""
    return Fraction(float(exact))


def dot(u, v, to):
    x, y, z = (to(a * b) for a, b in zip(u, v))
    return to(to(x + y) + z)


def times(columns, v, to):
    return [dot([column[i] for column in columns], v, to) for i in range(3)]


def scaled(v, by, to):
    return [to(x * by) for x in v]


def plus(u, v, to):
    return [to(x + y) for x, y in zip(u, v)]


class Sheet:
    """A table of rows and masses with its listed multipliers and two tolerances; the centres are +0.0 at first."""

    def __init__(self, numbers, words, masses, multipliers, tolerances):
        self.numbers, self.words, self.masses = numbers, words, masses
        self.multipliers, self.tolerances = multipliers, tolerances
        self.centres = [[0.0] * 3 for _ in masses]

    def values(self, number, to):
        """Each row's value: J M^-1 J^T on the multipliers, rows ascending, linear then angular, a before b."""
        rows = [[number(x) for x in row[:15]] for row in self.numbers]
        masses = [[number(x) for x in mass] for mass in self.masses]
        impulses = [([Fraction(0)] * 3, [Fraction(0)] * 3) for _ in masses]
        for row, word, multiplier in zip(rows, self.words, self.multipliers):
            for body, linear, angular in ((word[2], row[0:3], row[3:6]), (word[3], row[9:12], row[12:15])):
                before = impulses[body]
                impulses[body] = (
                    plus(before[0], scaled(linear, number(multiplier), to), to),
                    plus(before[1], scaled(angular, number(multiplier), to), to),
                )
        responses = [
            (scaled(impulse[0], mass[0], to), times([mass[1:4], mass[4:7], mass[7:10]], impulse[1], to))
            for mass, impulse in zip(masses, impulses)
        ]
        found = []
        for row, word in zip(rows, self.words):
            a, b = responses[word[2]], responses[word[3]]
            total = to(dot(row[0:3], a[0], to) + dot(row[3:6], a[1], to))
            total = to(total + dot(row[9:12], b[0], to))
            found.append(to(total + dot(row[12:15], b[1], to)))
        return found

    def measured(self):
        """For each row the rounded |r|, the radius E and the exact gap."""
        factor = rounded((len(self.numbers) + 16) * Fraction(1, 2 ** 51))
        values = self.values(Fraction, rounded)
        sizes = self.values(lambda x: abs(Fraction(x)), rounded)
        exact = self.values(Fraction, lambda x: x)
        found = []
        for error, value, size, whole in zip(map(Fraction, self.errors()), values, sizes, exact):
            radius = rounded(rounded(abs(error) + size) * factor)
            found.append((abs(rounded(-error - value)), radius, abs(error + whole)))
        return found

    def errors(self):
        return [row[ERROR] for row in self.numbers]

    def passes_20(self):
        return True

    def tolerance(self, row):
        return self.tolerances[self.words[row][1]]


def passes_4(word):
    return word[0] <= 255 and all(word[i] <= 1 for i in (1, 4, 5)) and word[7] == 0


def passes_27(tolerance):
    """Of a rule over all keys of its dimension nothing else can be odd."""
    return math.isfinite(tolerance) and tolerance >= 0.0


def passes_7(row, word, bodies):
    plain = row[:MIN_MULTIPLIER] + row[24:]
    low, high, least, most = row[MIN_MULTIPLIER:24]
    return (
        word[2] != word[3]
        and word[2] < bodies
        and word[3] < bodies
        and all(map(math.isfinite, plain))
        and row[18] >= 0.0
        and row[19] >= 0.0
        and row[26] >= 0.0
        and not any(map(math.isnan, (low, high, least, most)))
        and low <= high
        and least <= most
    )


def in_range(x):
    return x == 0.0 or LOW <= abs(x) <= HIGH


def passes_18(sheet):
    listed = sheet.multipliers + sheet.errors()
    for row in sheet.numbers:
        listed += row[0:6] + row[9:15]
    for mass in sheet.masses:
        listed += mass
    return all(map(in_range, listed))


def outcome(sheet):
    """The answer and the measured gap."""
    told = refusal(sheet)
    return (told, [0.0, 0.0]) if told else verdict(sheet)


def answer(sheet):
    return outcome(sheet)[0]


def refusal(sheet):
    """The first refusal that turns the sheet back, or 0."""
    bodies = len(sheet.masses)
    if len(sheet.numbers) > MOST_ROWS or bodies > MOST_BODIES:
        return 3
    if not all(map(passes_4, sheet.words)):
        return 4
    if not all(map(passes_27, sheet.tolerances)):
        return 27
    if not all(math.isfinite(x) for listed in sheet.masses + sheet.centres for x in listed):
        return 6
    if not sheet.passes_20():
        return 20
    if not all(passes_7(row, word, bodies) for row, word in zip(sheet.numbers, sheet.words)):
        return 7
    if not passes_18(sheet):
        return 18
    return 0


def verdict(sheet):
    """1 closed or 0 open, and the largest rounded |r| + E of the linear rows and of the angular ones."""
    closed, largest = True, [Fraction(0), Fraction(0)]
    for i, (size, radius, gap) in enumerate(sheet.measured()):
        reach, tolerance, dimension = rounded(size + radius), Fraction(sheet.tolerance(i)), sheet.words[i][1]
        assert gap <= reach <= rounded(gap + 2 * radius), "the measured gap is below the exact one, or far above it"
        assert reach > tolerance or gap <= tolerance, "closed, and the exact gap is beyond its tolerance"
        assert reach <= tolerance or gap + 2 * radius > tolerance, "open, and the exact gap is well within"
        closed, largest[dimension] = closed and reach <= tolerance, max(largest[dimension], reach)
    return int(closed), [float(each) for each in largest]


def number(chance):
    """A number of a row, a mass or the list: often plain, sometimes zero, sometimes far from one."""
    kind = chance.randrange(8)
    if kind == 0:
        return chance.choice((0.0, -0.0))
    if kind == 1:
        return chance.choice((-1.0, 1.0)) * math.ldexp(1.0 + chance.random(), chance.randrange(-149, 149))
    if kind == 2:
        return chance.choice((-1.0, 1.0)) * 2.0 ** chance.randrange(-40, 41)
    return chance.uniform(-2.0, 2.0)


def edge(chance):
    """2^-150, 2^150 and their neighbours."""
    size = chance.choice((LOW, HIGH))
    return chance.choice((-1.0, 1.0)) * chance.choice((size, math.nextafter(size, 0.0), math.nextafter(size, math.inf)))


def row_of(chance):
    row = [number(chance) for _ in range(16)] + [0.0] * 11
    row[MIN_MULTIPLIER:24] = [-math.inf, math.inf, -math.inf, math.inf]
    return row


def sheet_of(chance):
    n, b = chance.choice((1, 1, 1, 2, 2, 3, 4)), chance.choice((2, 2, 3))
    words = []
    for owner in range(n):
        a, c = chance.sample(range(b), 2)
        words.append([chance.randrange(256), chance.randrange(2), a, c, 0, chance.randrange(2), owner, 0])
    masses = [[number(chance) for _ in range(10)] for _ in range(b)]
    return Sheet([row_of(chance) for _ in range(n)], words, masses, [number(chance) for _ in range(n)], [0.5, 0.5])


def settle(sheet, chance):
    """Errors that the multipliers nearly undo, so that the gap is small beside the sizes."""
    for row, value in zip(sheet.numbers, sheet.values(Fraction, rounded)):
        if abs(value) <= HIGH and (value == 0 or abs(value) >= LOW):
            row[ERROR] = -float(value)
            if chance.randrange(2):
                row[ERROR] = math.nextafter(row[ERROR], chance.choice((-math.inf, math.inf)))


def at_reach(sheet, chance):
    """Both tolerances at the largest |r| + E, or one unit beside it."""
    reach = max(float(size + radius) for size, radius, _ in sheet.measured())
    sheet.tolerances = [chance.choice((reach, math.nextafter(reach, 0.0), math.nextafter(reach, math.inf)))] * 2


def at_edge(sheet, chance):
    """One number at the edge of refusal 18, of any kind, also where 18 does not look."""
    lists = sheet.numbers + sheet.masses + [sheet.multipliers]
    listed = chance.choice(lists)
    at = chance.randrange(min(len(listed), 16))
    listed[at] = edge(chance)


def spoiled(sheet, chance):
    """Something that another refusal looks at."""
    kind = chance.randrange(6)
    row, word = chance.choice(sheet.numbers), chance.choice(sheet.words)
    if kind == 0:
        word[chance.choice((1, 4, 5, 7))] = chance.choice((1, 2, 3))
    elif kind == 1:
        word[0] = chance.choice((255, 256))
    elif kind == 2:
        chance.choice(sheet.masses)[chance.randrange(10)] = chance.choice((math.nan, math.inf, -math.inf))
    elif kind == 3:
        row[chance.randrange(27)] = chance.choice((math.nan, math.inf, -1.0))
    elif kind == 4:
        word[2] = chance.choice((word[3], len(sheet.masses)))
    else:
        sheet.multipliers[chance.randrange(len(sheet.multipliers))] = chance.choice((math.nan, math.inf, 5e-324))


def one(chance):
    sheet = sheet_of(chance)
    kind = chance.randrange(10)
    if kind < 6:
        settle(sheet, chance)
    if kind < 4 and passes_18(sheet):
        at_reach(sheet, chance)
    elif kind < 6:
        odd = (math.inf, -math.inf, math.nan, 0.0, -0.0, -1.0, 1e-9, 1e300)
        sheet.tolerances = [chance.choice(odd), chance.choice(odd)]
    elif kind < 8:
        at_edge(sheet, chance)
    elif kind == 8:
        spoiled(sheet, chance)
    return sheet


# ---- checks that are not drawn


def plain_sheet(rows, bodies):
    """P1's row, again and again along a chain of bodies: closed, and no refusal looks twice at it."""
    numbers, words = [], []
    for owner in range(rows):
        row = [0.0] * 27
        row[0], row[9], row[ERROR] = 1.0, -1.0, -0.25
        row[MIN_MULTIPLIER:24] = [-math.inf, math.inf, -math.inf, math.inf]
        a = owner % (bodies - 1)
        numbers.append(row)
        words.append([owner % 256, owner % 2, a, a + 1, 0, 1, owner, 0])
    masses = [[0.5] + [0.0] * 9 for _ in range(bodies)]
    return Sheet(numbers, words, masses, [0.25] * rows, [1.0, 2.0])


def put(listed, value):
    """A change of a sheet: number or word `at` of its row or body `i`, or tolerance `i`, becomes `value`."""

    def change(sheet, i):
        where, at = listed
        target = getattr(sheet, where)
        if where in ("multipliers", "tolerances"):
            target[i] = value
        else:
            target[i][at] = value

    return change


LEAST = math.nextafter(0.0, 1.0)

# What each refusal looks at and those before it do not, in the order in which they are judged.
FAULTS = {
    4: [put(("words", at), value) for at, value in ((0, 256), (1, 2), (4, 2), (5, 2), (7, 1))],
    27: [put(("tolerances", 0), value) for value in (-LEAST, math.nan, math.inf)],
    6: [
        put(("masses", 0), math.nan),
        put(("masses", 4), math.inf),
        put(("masses", 9), -math.inf),
        put(("centres", 0), -math.inf),
        put(("centres", 2), math.nan),
    ],
    7: [
        put(("numbers", 6), math.nan),
        put(("words", 3), 2),
        put(("numbers", ERROR), math.inf),
        put(("numbers", 19), -1.0),
        put(("numbers", 21), math.nan),
        put(("numbers", 24), math.inf),
    ],
    18: [
        put(("numbers", 1), math.nextafter(LOW, 0.0)),
        put(("numbers", 14), 2 * HIGH),
        put(("numbers", ERROR), 2 * HIGH),
        put(("masses", 5), math.nextafter(HIGH, math.inf)),
        put(("multipliers", 0), LOW / 2),
    ],
}


def two_faults():
    """Every two refusals at once, the earlier one before the other in the table and behind it."""
    for first, second in itertools.combinations(FAULTS, 2):
        for one_fault, other in itertools.product(FAULTS[first], FAULTS[second]):
            for i in (0, 1):
                sheet = plain_sheet(2, 2)
                other(sheet, 1 - i)
                one_fault(sheet, i)
                assert answer(sheet) == first
                yield sheet


def all_faults(sheet):
    """The first of each refusal's faults, in the last row or body, and one more at each step."""
    for number in reversed(FAULTS):
        FAULTS[number][0](sheet, -1)
        assert answer(sheet) in (3, number)
        yield copy.deepcopy(sheet)


def counts():
    """256 bodies; then one body too many and one row too many, with every other refusal in them."""
    yield plain_sheet(1, MOST_BODIES)
    for beyond in (plain_sheet(1, MOST_BODIES + 1), plain_sheet(MOST_ROWS + 1, 2)):
        *_, last = all_faults(beyond)
        assert answer(last) == 3
        yield last


def without_rows():
    """Closed at any tolerance that 27 lets pass; 3, 6 and 18 look at the masses still."""
    for tolerances in ([math.nan, -1.0], [0.0, 0.0], [-math.inf, 1.0], [-0.0, LEAST], [1.0, math.inf], [-LEAST, 0.0]):
        sheet = plain_sheet(0, 2)
        sheet.tolerances = tolerances
        yield sheet
    yield Sheet([], [], [], [], [0.0, 0.0])
    yield from (plain_sheet(0, MOST_BODIES), plain_sheet(0, MOST_BODIES + 1))
    for fault in (FAULTS[6][1], FAULTS[18][3], FAULTS[6][3]):
        sheet = plain_sheet(0, 2)
        fault(sheet, 1)
        yield sheet


def at_27():
    """27 by one tolerance alone, and what it lets pass: a gap of 0 closes at −0.0."""
    passing, odd = (0.0, -0.0, LEAST, sys.float_info.max), (-LEAST, -1.0, -math.inf, math.inf, math.nan)
    for value, place in itertools.product(passing + odd, (0, 1)):
        sheet = plain_sheet(2, 2)
        for row in sheet.numbers:
            row[ERROR] = 0.0
        sheet.multipliers = [0.0, 0.0]
        sheet.tolerances[place] = value
        assert answer(sheet) == (1 if value in passing else 27)
        yield sheet


def at_centres():
    """6 by one number of a centre, of a body in no row too; what 18 would turn back of a mass passes, and the answer
    is that of centres +0.0."""
    passing = (0.0, -0.0, LEAST, LOW / 2, 2 * HIGH, -sys.float_info.max, 1.5)
    for value, place in itertools.product(passing + (math.nan, math.inf, -math.inf), (0, 4, 8)):
        for tolerances in ([1.0, 1.0], [0.0, 0.0]):
            sheet = plain_sheet(2, 3)
            sheet.words[1][2:4] = sheet.words[0][2:4]
            sheet.tolerances = tolerances
            plain = outcome(sheet)
            sheet.centres[place // 3][place % 3] = value
            assert outcome(sheet) == (plain if value in passing else (6, [0.0, 0.0]))
            yield sheet


def some_sheet(rows, bodies, numbers, chance):
    """Rows of both kinds from a store of numbers, with errors that the multipliers nearly undo."""
    sheet = plain_sheet(rows, bodies)
    for i in range(rows):
        sheet.numbers[i][:16] = [chance.choice(numbers) for _ in range(16)]
        sheet.words[i][2:4] = chance.sample(range(bodies), 2)
    sheet.masses = [[chance.choice(numbers) for _ in range(10)] for _ in range(bodies)]
    sheet.multipliers = [chance.choice(numbers) for _ in range(rows)]
    settle(sheet, chance)
    return sheet


def at_own_reach(rows, bodies, numbers, chance):
    """Both tolerances at their own reach: closed; then the one, then the other a unit less: open."""
    sheet = some_sheet(rows, bodies, numbers, chance)
    _, (linear, angular) = outcome(sheet)
    assert passes_18(sheet) and 0.0 < linear != angular > 0.0
    less = lambda x: math.nextafter(x, 0.0)
    for told, *tolerances in ((1, linear, angular), (0, less(linear), angular), (0, linear, less(angular))):
        sheet.tolerances = tolerances
        assert outcome(sheet) == (told, [linear, angular])
        yield sheet


def not_drawn(chance):
    yield from two_faults()
    yield from all_faults(plain_sheet(3, 3))
    yield from counts()
    yield from without_rows()
    yield from at_27()
    yield from at_centres()
    for rows in (5, 6, 7, 8):
        for bodies in (2, 3, 4, 2):
            yield from at_own_reach(rows, bodies, [chance.uniform(-2.0, 2.0) for _ in range(40)], chance)
    yield from at_own_reach(MOST_ROWS, MOST_BODIES, [chance.uniform(-2.0, 2.0) for _ in range(12)], chance)


def bits(x):
    return struct.unpack("<Q", struct.pack("<d", x))[0] if x == x else 0x7FF8000000000000


def words_of(sheet, told, gap):
    words = [len(sheet.numbers), len(sheet.masses), *map(bits, sheet.tolerances), told, *map(bits, gap)]
    words += [bits(x) for row in sheet.numbers for x in row]
    words += [x for word in sheet.words for x in word]
    words += [bits(x) for mass in sheet.masses for x in mass]
    words += [bits(x) for centre in sheet.centres for x in centre]
    words += [bits(x) for x in sheet.multipliers]
    return [8 * (len(words) + 1), *words]


PRINTED = {1: "closed", 0: "open", **{number: f"refused by {number}" for number in (3, 4, 27, 6, 7, 18)}}


def main():
    chance, tally = random.Random(SEED), dict.fromkeys(PRINTED, 0)
    for sheet in itertools.chain((one(chance) for _ in range(1500)), not_drawn(random.Random(SEED))):
        told, gap = outcome(sheet)
        tally[told] += 1
        words = words_of(sheet, told, gap)
        sys.stdout.buffer.write(struct.pack("<%dQ" % len(words), *words))
    for told, name in PRINTED.items():
        print(tally[told], name, file=sys.stderr)
    print("0 other\n0 differ", file=sys.stderr)


if __name__ == "__main__":
    main()
