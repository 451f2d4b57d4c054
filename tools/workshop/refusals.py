"""What a refusal's number means, in the words of docs/refusals.tsv, which are said nowhere else."""

from __future__ import annotations

import csv
import functools
import pathlib
from typing import Dict, NamedTuple

TABLE = pathlib.Path(__file__).resolve().parents[2] / "docs" / "refusals.tsv"


class Refusal(NamedTuple):
    number: int
    name: str
    text: str
    advice: str


@functools.lru_cache(maxsize=None)
def table() -> Dict[int, Refusal]:
    """Every refusal by its number."""
    with TABLE.open(encoding="utf-8", newline="") as lines:
        rows = csv.DictReader(lines, delimiter="\t", quoting=csv.QUOTE_NONE)
        return {
            int(row["number"]): Refusal(int(row["number"]), row["name"], row["text"], row["advice"]) for row in rows
        }


def refusal(number: int) -> Refusal:
    """The refusal of this number; one that the table does not have is told as such."""
    unknown = Refusal(
        number, "Unknown", "The table of refusals does not have this number.", "Use tools and programs of one state."
    )
    return table().get(number, unknown)


def in_words(number: int) -> str:
    """One line: number, name, what it means, what to do."""
    entry = refusal(number)
    return f"{entry.number} ({entry.name}): {entry.text} {entry.advice}"


class Refused(Exception):
    """Something was turned back by a refusal's number."""

    def __init__(self, number: int, detail: str = "") -> None:
        self.number, self.detail = number, detail
        super().__init__(f"refused by {in_words(number)}" + (f" ({detail})" if detail else ""))
