"""Many files through one run of the program `jobs`.

To it goes each file's length as a little-endian word and then its bytes; from it come, for each, a line `job N` and
its sheet.
"""

from __future__ import annotations

import pathlib
import struct
import subprocess
from typing import List, Optional, Sequence


def framed(files: Sequence[bytes]) -> bytes:
    return b"".join(struct.pack("<I", len(data)) + data for data in files)


def split(text: str, count: int) -> List[Optional[str]]:
    """The sheet of each file, None where the text has none; N must go up by one from the first."""
    sheets: List[Optional[str]] = [None] * count
    first, at = None, None
    for line in text.splitlines(keepends=True):
        words = line.split()
        if words[:1] == ["job"] and len(words) == 2 and words[1].isdigit():
            first = int(words[1]) if first is None else first
            at = int(words[1]) - first
            if not 0 <= at < count or sheets[at] is not None:
                return [None] * count
            sheets[at] = ""
        elif at is not None:
            sheets[at] = (sheets[at] or "") + line
    return sheets


def run(program: pathlib.Path, files: Sequence[bytes], seconds: float) -> List[Optional[str]]:
    """Sheets as far as the program came; whoever calls looks at each and asks again for what is missing."""
    try:
        done = subprocess.run(
            [str(program)], input=framed(files), stdout=subprocess.PIPE, stderr=subprocess.DEVNULL, timeout=seconds
        )
        out = done.stdout
    except subprocess.TimeoutExpired as stopped:
        out = stopped.stdout or b""
    except OSError:
        out = b""
    return split(out.decode("ascii", errors="replace"), len(files))
