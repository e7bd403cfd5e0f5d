"""What is done for one shard, beside its folder: these functions run as tasks of the engine, on
the worker of the shard.

A folder that is a shard has a file `.shard`, which is no part of the warehouse. Its first line
says which shard it is and of how many. A line `loading SOURCE` stands there when a load of a
file begins, and `loaded` when it has ended. Which rows a batch had stands in the record of
`batches`; shards of older tools have it in lines of `.shard`, the number of a batch and the sum
of its bytes.

A task hands back what it has found, or a Trouble; it raises nothing, since an exception has to be
made again elsewhere.
"""
from __future__ import annotations

import functools
import json
import os
import re
from typing import Callable, NamedTuple, Optional, TypeVar, Union

from ..batches import SHARD, Noted, Record, sum_of, sync_folder
from ..codec import MARK
from ..errors import Busy, Damaged, Ended, Fault, Refused, told
from ..locks import Reader, Writer
from ..progress import ProgressFile
from ..questions import sent
from ..schema import Schema, declared_lines, kept_lines
from ..session import GREATEST, Asking, Loading
from .folds import reply_of

TOOL, BESIDE = "cube shards", ".shard"
PLACE = re.compile(rb"shard (\d+) of (\d+)\n")
TAKEN = re.compile(rb"^(\d+) ([0-9a-f]{32})$", re.M)
MARKS = re.compile(rb"^(?:loading (.*)|loaded)$", re.M)
UNKNOWN, DAMAGED, ENDED, BUSY, SCHEMA, CHANGED, REFUSED, FAILED = (
    "unknown",
    "damaged",
    "ended",
    "busy",
    "schema",
    "changed",
    "refused",
    "failed",
)


class Trouble(NamedTuple):
    """What went wrong with a shard: its kind, and what it is in words, or the reply of the
    program."""

    kind: str
    words: str


class State(NamedTuple):
    """What a shard keeps: which one it is and of how many, the lines of its schema, its facts, the
    number of the batch that is due, and the source of a load that has begun and not ended."""

    place: int
    of: int
    lines: list[str]
    facts: int
    due: int
    loading: str = ""


class Taken(NamedTuple):
    """What became of a batch: whether it was there already, whether one before it is due first,
    and the facts that the shard has."""

    is_already: bool
    is_early: bool
    facts: int


Result = TypeVar("Result")


def kind_of(fault: Fault) -> str:
    """The kind of a fault."""
    kinds = {Busy: BUSY, Damaged: DAMAGED, Refused: REFUSED}
    return kinds.get(type(fault), ENDED if isinstance(fault, Ended) else FAILED)


def telling(
    work: Callable[..., Union[Trouble, Result]],
) -> Callable[..., Union[Trouble, Result]]:
    """A task that hands back a Trouble in place of a fault."""

    @functools.wraps(work)
    def tried(*words: object) -> Union[Trouble, Result]:
        """What the task finds; a Trouble if it raises something."""
        try:
            return work(*words)
        except Refused as fault:
            return Trouble(REFUSED, fault.reply)
        except Fault as fault:
            return Trouble(kind_of(fault), str(fault))
        except OSError as error:
            return Trouble(FAILED, told(error))

    return tried


# ---- the file of a shard


def beside(folder: str) -> str:
    """The path of the file."""
    return os.path.join(folder, BESIDE)


def place_of(folder: str) -> Optional[tuple[int, int]]:
    """Which shard a folder is, and of how many; None where it is none."""
    try:
        with open(beside(folder), "rb") as file:
            place = PLACE.match(file.read(100))
    except FileNotFoundError:
        return None
    return (int(place[1]), int(place[2])) if place else None


def note(folder: str, line: bytes) -> None:
    """Adds a line to the file of a shard, and syncs it; what a stop has left of one before is
    closed."""
    with open(beside(folder), "a+b") as file:
        size = file.seek(0, os.SEEK_END)
        file.seek(max(size - 1, 0))
        file.write((b"" if file.read(1) in (b"", b"\n") else b"\n") + line)
        file.flush()
        os.fsync(file.fileno())
    if size == 0:
        sync_folder(folder)


def taken_sum(folder: str, record: Record, number: int) -> Optional[str]:
    """The sum of a batch that counts, as it was sent last; None if it is not known."""
    noted = record.of(number)
    if noted:
        return noted.sum
    with open(beside(folder), "rb") as file:
        sums = {int(line[1]): line[2].decode() for line in TAKEN.finditer(file.read())}
    return sums.get(number)


def loading_of(folder: str) -> str:
    """The source of the load that has begun and not ended; no text if there is none."""
    with open(beside(folder), "rb") as file:
        marks = MARKS.findall(file.read())
    return str(json.loads(marks[-1])) if marks and marks[-1] else ""


# ---- tasks


def trouble_of(folder: str, place: int, count: int) -> Optional[Trouble]:
    """Why a folder is not the shard of this place."""
    if not os.path.isdir(folder):
        return Trouble(UNKNOWN, "there is no such folder")
    found = place_of(folder)
    if found is None:
        return Trouble(UNKNOWN, "the folder is no shard: `shards init` makes it one")
    if found != (place, count):
        return Trouble(
            UNKNOWN,
            (
                f"the folder is shard {found[0]} of {found[1]}, and is named as shard {place} of"
                f" {count}"
            ),
        )
    return None


@telling
def begin(
    folder: str, place: int, count: int, lines: list[str], waits: bool
) -> Union[Trouble, State]:
    """Makes a folder the shard of this place, and declares the schema of these lines in it,
    unless that was done before."""
    os.makedirs(folder, exist_ok=True)
    found = place_of(folder)
    if found not in (None, (place, count)):
        return trouble_of(folder, place, count) or Trouble(UNKNOWN, "")
    loading = Loading(Writer(TOOL, folder, waits))
    try:
        if loading.schema is None:
            reply = loading.exchange(
                "".join(line + "\n" for line in ["schema", *declared_lines(lines), "end"]).encode()
            )
            if reply != "declared":
                return Trouble(REFUSED, reply)
        elif loading.schema.says() != Schema(lines).says():
            return Trouble(SCHEMA, "the folder has another schema")
        elif found is None and loading.status != "facts 0":
            return Trouble(UNKNOWN, "the folder has facts that no shard has loaded")
        if found is None:
            note(folder, b"shard %d of %d\n" % (place, count))
        return State(
            place,
            count,
            kept_lines(folder),
            int(loading.run.ask(b"status\n").split()[1]),
            loading.due(),
        )
    finally:
        loading.drop()


@telling
def look(folder: str, place: int, count: int, waits: bool) -> Union[Trouble, State]:
    """What a shard keeps."""
    trouble = trouble_of(folder, place, count)
    if trouble:
        return trouble
    asking = Asking(Reader(TOOL, folder, waits))
    try:
        if asking.schema is None:
            return Trouble(UNKNOWN, "no schema is declared in the folder: `shards init` does it")
        due = Refused(asking.ask(b"load %d\nend\n" % GREATEST)).due or GREATEST
        facts = int(asking.status.split()[1])
        return State(place, count, kept_lines(folder), facts, due, loading_of(folder))
    finally:
        asking.end()


@telling
def mark(folder: str, place: int, count: int, source: Optional[str]) -> Union[Trouble, bool]:
    """Notes that a load of a source begins, or that it has ended if no source is named."""
    trouble = trouble_of(folder, place, count)
    if trouble:
        return trouble
    text = b"loaded" if source is None else b"loading " + json.dumps(source).encode()
    note(folder, text + b"\n")
    return True


@telling
def take_in(
    folder: str, place: int, count: int, waits: bool, number: int, rows: bytes, amount: int
) -> Union[Trouble, Taken]:
    """Loads the batch of this number, which has an amount of rows, unless it counts already."""
    trouble = trouble_of(folder, place, count)
    if trouble:
        return trouble
    loading, progress = Loading(Writer(TOOL, folder, waits)), ProgressFile(folder, TOOL)
    try:
        facts, due = int(loading.status.split()[1]), loading.due()
        if number > due:
            return Taken(False, True, facts)
        record, found = Record(folder, due, facts), sum_of([rows])
        if number < due:
            is_same = taken_sum(folder, record, number) == found
            return (
                Taken(True, False, facts)
                if is_same
                else Trouble(CHANGED, f"batch {number} was loaded with other rows")
            )
        record.note(Noted(number, facts, amount, found, 0, SHARD))
        progress.tell(amount)
        # A byte order mark at the front of a block would be dropped, but for an empty line before
        # it, which is no row.
        reply = loading.exchange(
            b"load %d\n%s%send\n" % (number, b"\n" if rows.startswith(MARK) else b"", rows)
        )
        if not reply.startswith("committed "):
            return Trouble(REFUSED, reply)
        loading.run.end()
        return Taken(False, False, int(reply.split()[1]))
    finally:
        progress.end()
        loading.drop()


@telling
def answer(folder: str, place: int, count: int, waits: bool, text: str) -> Union[Trouble, bytes]:
    """The reply to a slice, as it was printed."""
    trouble = trouble_of(folder, place, count)
    if trouble:
        return trouble
    asking = Asking(Reader(TOOL, folder, waits))
    try:
        reply = asking.run.last_answer(b"slice %s\n" % sent(text))
        reply_of(reply)
        return reply
    finally:
        asking.drop()
