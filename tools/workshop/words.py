"""One line of a description as words taken from the left; errors name the file, the line and what was expected."""

from __future__ import annotations

from typing import Callable, List, Optional

from . import units
from .vectors import AXES, Vector, length, unit

PLACES = {"x": (1, 2), "y": (0, 2), "z": (0, 1)}


class Problem(Exception):
    """A description that cannot be made into a job."""

    def __init__(self, file: str, line: int, message: str) -> None:
        self.file, self.line, self.message = file, line, message
        super().__init__(f"{file}:{line}: {message}")


class Words:
    """The words of one line, without its comment."""

    def __init__(self, file: str, line: int, text: str) -> None:
        self.file, self.line = file, line
        self._words: List[str] = text.split("#", 1)[0].split()
        self._next = 0

    def problem(self, message: str) -> Problem:
        return Problem(self.file, self.line, message)

    def look(self) -> Optional[str]:
        """The next word, left where it is."""
        return self._words[self._next] if self._next < len(self._words) else None

    def take(self, expected: str) -> str:
        word = self.look()
        if word is None:
            raise self.problem(f"expected {expected}, found the end of the line")
        self._next += 1
        return word

    def took(self, word: str) -> bool:
        """Takes this very word, where it is next."""
        if self.look() != word:
            return False
        self._next += 1
        return True

    def rest(self) -> str:
        words, self._next = self._words[self._next :], len(self._words)
        return " ".join(words)

    def number(self, read: Callable[[str], float], expected: str) -> float:
        word = self.take(expected)
        try:
            return read(word)
        except units.NotANumber as error:
            raise self.problem(f"expected {expected}: {error}") from None

    def above_zero(self, read: Callable[[str], float], expected: str) -> float:
        number = self.number(read, f"{expected} above 0")
        if not number > 0.0:
            raise self.problem(f"expected {expected} above 0")
        return number

    def whole(self, expected: str, most: int) -> int:
        word = self.take(expected)
        if not (word.isascii() and word.isdigit() and len(word) < 12 and int(word) <= most):
            raise self.problem(f"expected {expected}, a whole number from 0 to {most}, found '{word}'")
        return int(word)

    def vector(self, read: Callable[[str], float], expected: str, plane: Optional[str] = None) -> Vector:
        """Three numbers; in a plane also two, the third being 0."""
        numbers: List[float] = []
        while self.look() is not None and len(numbers) < 3:
            try:
                numbers.append(read(self.look() or ""))
            except units.NotANumber as error:
                if _looks_like_a_number(self.look() or ""):
                    raise self.problem(f"expected {expected}: {error}") from None
                break
            self._next += 1
        if len(numbers) == 3:
            return (numbers[0], numbers[1], numbers[2])
        if len(numbers) == 2 and plane:
            spread = [0.0, 0.0, 0.0]
            for place, number in zip(PLACES[plane], numbers):
                spread[place] = number
            return (spread[0], spread[1], spread[2])
        wanted = "two or three numbers" if plane else "three numbers"
        raise self.problem(f"expected {expected}, {wanted}, found {len(numbers)}" + _then(self.look()))

    def direction(self, expected: str) -> Vector:
        """x, y or z, or three numbers that are not all 0."""
        if self.look() in AXES:
            return AXES[self.take(expected)]
        vector = self.vector(units.plain, f"{expected}: x, y, z or a direction")
        if not length(vector) > 0.0:
            raise self.problem(f"expected {expected}: a direction whose numbers are not all 0")
        return unit(vector)


def _looks_like_a_number(word: str) -> bool:
    return word[0].isdigit() or word[0] in "+-."


def _then(word: Optional[str]) -> str:
    return "" if word is None else f" and then '{word}'"
