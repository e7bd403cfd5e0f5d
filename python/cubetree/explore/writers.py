"""Who is at work in a folder, as the system lists its locks. No lock is taken to find out."""
from __future__ import annotations

import os
from typing import Dict, Iterable, NamedTuple, Optional

from ..locks import BATCH, WRITER
from ..progress import Progressed, progress_in

LOCKS = "/proc/locks"


class Work(NamedTuple):
    """The work of a writer: whether a batch is being taken in, and how far it is, if it says so."""

    is_batch: bool
    progress: Optional[Progressed]


def work_in(folder: str) -> Optional[Work]:
    """The work of the writer in a folder; None if there is none, or if the system has no list."""
    holders = holders_in(folder)
    pid = holders.get(WRITER, holders.get(BATCH))
    if pid is None:
        return None
    return Work(BATCH in holders, progress_in(folder, pid))


def holders_in(folder: str) -> Dict[str, int]:
    """The processes that hold the locks of writers, by the names of these."""
    inodes: Dict[int, str] = {}
    for name in (WRITER, BATCH):
        try:
            inodes[os.stat(os.path.join(folder, ".turns", name)).st_ino] = name
        except OSError:
            continue
    try:
        with open(LOCKS, encoding="ascii", errors="replace") as file:
            return holders_of(inodes, file)
    except OSError:
        return {}


def holders_of(inodes: Dict[int, str], lines: Iterable[str]) -> Dict[str, int]:
    """The holders of these files among the lines of the system. A line is as
    `1: FLOCK  ADVISORY  WRITE 4242 fe:01:131109 0 EOF`; one that waits has `->` after its number.
    """
    found: Dict[str, int] = {}
    for line in lines:
        words = line.split()
        if len(words) > 5 and words[1] == "FLOCK" and words[3] == "WRITE":
            name = inodes.get(int(words[5].rpartition(":")[2]))
            if name:
                found[name] = int(words[4])
    return found
