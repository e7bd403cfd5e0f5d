"""How far a writer is, for whoever looks on: the file `progress` beside the locks of a folder.

It has one object of JSON: `tool`, `pid`, `rows`, and perhaps `part`, from 0 to 1, and `batches`. A
writer replaces it some times a second, and removes it before it lets the folder go. What a killed
writer leaves is believed by nobody: the file counts only while the lock of writers is held by the
process that it names.
"""
from __future__ import annotations

import json
import os
import time
from contextlib import suppress
from typing import NamedTuple, Optional

NAME = os.path.join(".turns", "progress")
PAUSE = 0.2  # seconds between two writes
LONGEST = 4096  # bytes of the file


class Progressed(NamedTuple):
    """How far a writer is: the part is of the bytes or moves that there are, None if that is not
    known."""

    tool: str
    pid: int
    rows: int
    part: Optional[float]
    batches: int


class ProgressFile:
    """The file of a writer, which holds the lock of writers as long as it tells something. A fault
    is none of the writer's: then the file is not written."""

    def __init__(self, folder: str, tool: str) -> None:
        self.path, self.tool, self.last = os.path.join(folder, NAME), tool, 0.0

    def is_due(self) -> bool:
        """Whether the last write is long enough ago."""
        return time.monotonic() > self.last + PAUSE

    def tell(self, rows: int, part: Optional[float] = None, batches: int = 0) -> None:
        """Writes how far the writer is, unless it did so just now."""
        if not self.is_due():
            return
        self.last = time.monotonic()
        content = Progressed(self.tool, os.getpid(), rows, part, batches)._asdict()
        with suppress(OSError):
            with open(self.path + ".new", "w", encoding="utf-8") as file:
                json.dump(content, file)
            os.replace(self.path + ".new", self.path)

    def end(self) -> None:
        """Removes the file."""
        self.last = 0.0
        for path in (self.path, self.path + ".new"):
            with suppress(OSError):
                os.remove(path)


def progress_in(folder: str, pid: int) -> Optional[Progressed]:
    """How far the writer with this process is; None if it does not tell so."""
    try:
        with open(os.path.join(folder, NAME), encoding="utf-8") as file:
            content = json.loads(file.read(LONGEST))
        part = content["part"]
        found = Progressed(
            str(content["tool"]),
            int(content["pid"]),
            int(content["rows"]),
            None if part is None else min(max(float(part), 0.0), 1.0),
            int(content["batches"]),
        )
    except (OSError, ValueError, KeyError, TypeError, OverflowError):
        return None
    return found if found.pid == pid else None
