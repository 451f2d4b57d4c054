"""Places that the tests read from."""

import pathlib

ROOT = pathlib.Path(__file__).resolve().parents[2]
SAMPLES = ROOT / "samples"
WORKSHOP = SAMPLES / "workshop"
GOLDEN = pathlib.Path(__file__).resolve().parent / "golden"


def sample(name: str) -> bytes:
    return (WORKSHOP / f"{name}.job").read_bytes()


def text(name: str) -> str:
    return (WORKSHOP / name).read_text(encoding="ascii")
