"""The proved programs, run on a file's bytes. One that dies, or is not there, is told and never taken for an answer."""

from __future__ import annotations

import pathlib
import subprocess
from typing import Optional

CRATES = pathlib.Path(__file__).resolve().parents[2] / "crates"


class ProgramFailed(Exception):
    """A program that gave no text."""


def found(name: str) -> Optional[pathlib.Path]:
    """Where a program is, if it was built."""
    path = CRATES / name / "out" / name
    return path if path.is_file() else None


def needed(name: str) -> pathlib.Path:
    """Where a program is that nothing goes without."""
    path = found(name)
    if path is None:
        raise ProgramFailed(f"there is no crates/{name}/out/{name}: 'rt run' in crates/{name} proves and builds it")
    return path


def run(program: pathlib.Path, data: bytes, seconds: Optional[float] = None) -> str:
    """What a program prints of these bytes."""
    try:
        done = subprocess.run(
            [str(program)], input=data, stdout=subprocess.PIPE, stderr=subprocess.PIPE, timeout=seconds
        )
    except subprocess.TimeoutExpired:
        raise ProgramFailed(f"{program.name} was stopped after {seconds:g} s; a smaller limit ends sooner") from None
    except OSError as error:
        raise ProgramFailed(f"{program.name} cannot be started: {error.strerror}") from None
    if done.returncode != 0:
        how = f"by signal {-done.returncode}" if done.returncode < 0 else f"with status {done.returncode}"
        raise ProgramFailed(f"{program.name} died {how}")
    return done.stdout.decode("ascii", errors="replace")
