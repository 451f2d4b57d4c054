"""A sheet as text in decimals, for reading at the bench."""

from __future__ import annotations

import math
from typing import List, Sequence

from . import inertia, units
from .job_file import Job, Row
from .names import Names
from .refusals import refusal
from .sheet import CLOSED, OPEN, UNJUDGED, Measured, Sheet, by_joint
from .vectors import AXES, Vector, times

MODES = {0: "diagonal", 1: "incomplete Cholesky", 2: "block Jacobi"}


def table(rows: Sequence[Sequence[str]], indent: str = "  ") -> List[str]:
    """Columns under each other, without blanks at the end."""
    widths = [max(len(row[k]) for row in rows) for k in range(len(rows[0]))] if rows else []
    return [indent + "  ".join(word.ljust(width) for word, width in zip(row, widths)).rstrip() for row in rows]


def _direction(vector: Vector) -> str:
    for name, axis in AXES.items():
        if vector in (axis, times(-1.0, axis)):
            return name
    return f"({', '.join(f'{number:.3g}' for number in vector)})"


def row_in_words(row: Row) -> str:
    """Along or about what a row measures."""
    if row.key == 5:
        return "teeth"
    return f"about {_direction(row.angular_a)}" if row.dimension else f"along {_direction(row.linear_a)}"


def joint_in_words(owner: int, job: Job, names: Names) -> str:
    """A joint with its kind and its two links."""
    row = next((row for row in job.rows if row.owner == owner), None)
    links = f"{names.link(row.a)} and {names.link(row.b)}" if row else "no rows"
    return f"{names.joint(owner)} ({names.kind(owner) + ' of ' if names.kind(owner) else ''}{links})"


def tolerances(job: Job) -> str:
    """Those of the two tolerances that a row is judged by."""
    kinds = {row.dimension for row in job.rows} & {0, 1} or {0, 1}
    told = [units.told(job.tolerances[kind], kind) for kind in (0, 1) if kind in kinds]
    return f"tolerance{'s' if len(told) > 1 else ''} {' and '.join(told)}"


def heading(file: str, job: Job, names: Names) -> List[str]:
    joints = len({row.owner for row in job.rows})
    lines = [names.title, ""] if names.title else []
    lines.append(f"{file}: {len(job.rows)} rows of {joints} joints, {len(job.bodies)} links")
    mode = f"mode {job.mode} ({MODES.get(job.mode, 'there is none such')})"
    lines.append(f"limit {job.limit}, {mode}, {tolerances(job)}")
    return lines + ([names.note] if names.note else [])


def place_in_words(sheet: Sheet, job: Job, names: Names) -> str:
    """Where a refusal fell, or nothing where that is not told."""
    if sheet.place[:1] == ("row",):
        row, owner = int(sheet.place[1]), int(sheet.place[2])
        told = f", {row_in_words(job.rows[row])}" if row < len(job.rows) else ""
        return f"row {row}{told}, of {joint_in_words(owner, job, names)}"
    if sheet.place[:1] == ("body",):
        return names.link(int(sheet.place[1]))
    return "the step limit" if sheet.place else ""


def verdict(sheet: Sheet, job: Job, names: Names) -> List[str]:
    """The answer in words: refused and what to do, closed, open or not judged."""
    if sheet.refusal:
        entry, place = refusal(sheet.refusal), place_in_words(sheet, job, names)
        lines = [f"TURNED BACK by {entry.number} ({entry.name}). {entry.text}"]
        return lines + ([f"Where: {place}."] if place else []) + [f"What to do: {entry.advice}"]
    if sheet.verdict == UNJUDGED:
        entry = refusal(UNJUDGED)
        return [f"NOT JUDGED, by {entry.number} ({entry.name}). {entry.text}", f"What to do: {entry.advice}"]
    met = "the solver met its own test" if sheet.flag else "the limit ended the solver"
    after = f"After {sheet.count} step{'' if sheet.count == 1 else 's'} ({met}) {widest(sheet, job)}."
    if sheet.verdict == CLOSED:
        return ["CLOSED. The exact gap of every row is within its tolerance.", after]
    lines = ["OPEN. At least one row's measured gap, with its radius of rounding, is beyond its tolerance.", after]
    if sheet.measured:
        beyond = {row.owner for row in sheet.measured if not row.within}
        worst = next(iter(by_joint(sheet, job).values()))
        lines.append(
            f"{len(beyond)} of {len({row.owner for row in job.rows})} joints are open, "
            f"most of all {joint_in_words(worst.owner, job, names)}."
        )
    return lines


def widest(sheet: Sheet, job: Job) -> str:
    """The sheet's line `gap` in words."""
    assert sheet.gap is not None
    kinds = {row.dimension for row in job.rows}
    told = [units.told(sheet.gap[kind], kind) for kind in (0, 1) if kind in kinds]
    return f"the widest gap is {' and '.join(told)}" if told else "there is no row to measure"


def joints(sheet: Sheet, job: Job, names: Names) -> List[str]:
    """Each joint's widest row of each kind, the one that gapes most by its tolerance first."""
    if not sheet.measured:
        return []
    lines = [["joint", "", "between", "scanned", "measured", "tolerance", "", "widest row"]]
    for (owner, dimension), row in by_joint(sheet, job).items():
        own = [r for r in job.rows if r.owner == owner and r.dimension == dimension]
        scanned = max(abs(r.error) for r in own)
        lines.append(_measured(row, scanned, job, names))
    return ["", *table(lines)]


def each_row(sheet: Sheet, job: Job, names: Names) -> List[str]:
    """Every row by itself, the one that gapes most by its tolerance first."""
    if not sheet.measured:
        return []
    lines = [["joint", "", "between", "scanned", "measured", "tolerance", "", "row"]]
    for row in sorted(sheet.measured, key=lambda row: -row.ratio):
        lines.append(_measured(row, abs(job.rows[row.row].error), job, names))
    return ["", *table(lines)]


def _measured(row: Measured, scanned: float, job: Job, names: Names) -> List[str]:
    own = job.rows[row.row]
    told = [units.told(number, own.dimension) for number in (scanned, row.number, row.tolerance)]
    between = f"{names.link(own.a)}, {names.link(own.b)}"
    answer = "closed" if row.within else "OPEN"
    return [names.joint(row.owner), names.kind(row.owner), between, *told, answer, f"{row.row}, {row_in_words(own)}"]


def links(sheet: Sheet, job: Job, names: Names) -> List[str]:
    """How each link moves and turns, and where its centre ends up where the file tells where it was."""
    if not sheet.impulses:
        return []
    head = ["link", "moves by, mm (x y z)", "turns by, deg (x y z)"]
    lines = [head + (["ends up at, mm (x y z)"] if sheet.new_centres else [])]
    for number, (body, (linear, angular)) in enumerate(zip(job.bodies, sheet.impulses)):
        moved = _numbers(times(1000.0 * body.inverse_mass, linear), ".3g")
        turned = _numbers(tuple(math.degrees(part) for part in inertia.turned(body.inverse_inertia, angular)), ".3g")
        line = [names.link(number), moved, turned]
        if sheet.new_centres:
            line.append(_numbers(times(1000.0, sheet.new_centres[number]), ".6g"))
        lines.append(line)
    return ["", *table(lines)]


def _numbers(vector: Sequence[float], form: str) -> str:
    return " ".join(format(number + 0.0, form) for number in vector)


def text(file: str, job: Job, names: Names, sheet: Sheet, note: str = "", rows: bool = False) -> str:
    """The whole report."""
    parts = heading(file, job, names) + [""] + verdict(sheet, job, names)
    parts += (each_row if rows else joints)(sheet, job, names) + links(sheet, job, names)
    return "\n".join(parts + (["", note] if note else [])) + "\n"
