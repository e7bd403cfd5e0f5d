"""Sends the batches of a spool to the program, and puts the rows aside that it refuses."""
from __future__ import annotations

import os
import time
from typing import Optional

from ..batches import FEED, Noted, Record, sum_of
from ..codec import block, line_writer
from ..columns import kept_columns
from ..conversions import Conversion
from ..errors import Fault, Full, Refused
from ..locks import Writer
from ..progress import ProgressFile
from ..session import Loading
from ..ui import counted
from .limits import rows_over
from .rowstream import faults_of, may_be_unsendable
from .sources import say
from .spool import Batch, Spool, owner_of

# Seconds: of a run, of a run without a batch, and between two runs, in which others get in.
LONGEST_RUN, LONGEST_PAUSE, GAP = 10.0, 0.2, 0.05


class Sender:
    """The runs of a feed, which last no longer than there are batches to send, or some seconds
    where others wait."""

    def __init__(self, folder: str, spool: Spool, refused: str, waits: bool) -> None:
        self.folder, self.spool, self.refused, self.waits = folder, spool, refused, waits
        self.loading: Optional[Loading] = None
        self.sent, self.batches, self.put_aside, self.facts, self.used = 0, 0, 0, 0, 0.0
        self.progress = ProgressFile(folder, "cube feed")
        self.begin()

    # ---- runs

    def begin(self) -> Loading:
        """A run, with the number that is due."""
        if self.loading:
            return self.loading
        self.loading = Loading(Writer("cube feed", self.folder, self.waits), is_shielded=True)
        self.waits, self.used = True, time.monotonic()
        if self.loading.schema is None:
            raise Fault(f"no schema is declared in {self.folder}")
        self.schema, self.owner = self.loading.schema, owner_of(self.folder, self.loading.schema)
        self.facts = int(self.loading.status.split()[1])
        self.due = self.loading.due()
        self.record = Record(self.folder, self.due, self.facts)
        self.conversion = Conversion(self.schema, kept_columns(self.folder, self.schema))
        return self.loading

    def rest(self, is_over: bool = False) -> None:
        """Ends a run that has nothing to send, or is so long that others may wait for it."""
        if self.loading and (
            is_over
            or time.monotonic() > self.used + LONGEST_PAUSE
            or self.loading.age() > LONGEST_RUN
        ):
            loading, self.loading = self.loading, None
            self.progress.end()
            loading.end()
            time.sleep(0 if is_over else GAP)

    def drop(self) -> None:
        """Ends a run that need not end well."""
        if self.loading:
            self.progress.end()
            self.loading.drop()

    # ---- batches

    def send(self, batch: Batch) -> None:
        """Sends a batch until it is acknowledged."""
        loading = self.begin()
        self.progress.tell(self.sent + len(batch.rows), None, self.batches)
        if self.owner != self.spool.owner:
            raise Fault(f"the folder {self.folder} was begun anew since the feed began")
        self.set_number(batch)
        self.write_refused(batch)
        rows, unkept = self.conversion.kept(batch.rows)
        if unkept or may_be_unsendable(batch.rows):
            self.put_faults_aside(batch, "")
            rows = self.conversion.kept(batch.rows)[0]
        while batch.rows:
            lines = [row + b"\n" for row in rows]
            number = self.numbered(batch, lines)
            reply = loading.exchange(block(b"load %d" % number, lines))
            if not reply.startswith("refused "):
                self.count(batch, reply)
                break
            self.put_faults_aside(batch, reply)
            rows = self.conversion.kept(batch.rows)[0]
        self.spool.drop(batch)
        self.used = time.monotonic()

    def set_number(self, batch: Batch) -> None:
        """Gives a batch the number that is due, where it has none."""
        if batch.number is None:
            self.spool.number(batch, self.due)
        elif batch.number > self.due:
            raise Fault(
                f"batch {batch.number} stands in the spool {self.spool.folder}, and"
                f" {self.folder} has no batch {self.due}: it was set back"
            )

    def numbered(self, batch: Batch, rows: list[bytes]) -> int:
        """The number under which rows are sent. If another tool has taken the one of the batch for
        other rows, the batch gets the number that is due."""
        number, found = batch.number or 0, sum_of(rows)
        if number < self.due:
            noted = self.record.of(number)
            if noted and (noted.source, noted.sum) == (FEED, found):
                return number
            if noted is None:
                say(f"batch {number} counts already; {self.folder} has no record of its rows")
                return number
            number = self.due
            say(f"batch {batch.number} has rows of {noted.source}; this one becomes batch {number}")
            self.spool.number(batch, number)
        self.record.note(Noted(number, self.facts, len(rows), found, 0, FEED))
        return number

    def count(self, batch: Batch, reply: str) -> None:
        """Counts what is acknowledged."""
        if reply.startswith("committed "):
            self.facts = int(reply.split()[1])
        self.due = self.record.due = max(self.due, (batch.number or 0) + 1)
        self.sent, self.batches = self.sent + len(batch.rows), self.batches + 1

    def put_faults_aside(self, batch: Batch, reply: str) -> None:
        """Takes the rows out of a batch that are refused: the one that the reply names, and all
        that would be in its place; or those that the folder has no room for."""
        if reply == "refused facts":
            raise Full(
                f"{self.folder} has {counted(self.facts, 'fact')}, and no room for those of batch"
                f" {batch.number}"
            )
        rows, unkept = self.conversion.kept(batch.rows)
        found = faults_of(rows, self.schema)
        row = Refused(reply).row
        if row:
            found[row - 1] = reply.partition(f"row {row} ")[2]
        found.update(rows_over(reply, rows, self.schema, self.folder))
        faults = {
            **{place: self.schema.row_fault(reason) for place, reason in found.items()},
            **unkept,
        }
        if reply and not faults:
            raise Fault(f"batch {batch.number} is refused: {reply}")
        if faults:
            text = "".join(
                refused_line(why, batch.rows[place]) for place, why in sorted(faults.items())
            )
            self.spool.rewrite(
                batch,
                [row for place, row in enumerate(batch.rows) if place not in faults],
                text,
                size_of(self.refused),
            )
            self.put_aside += len(faults)
            say(f"{counted(len(faults), 'row')} of batch {batch.number} refused: {self.refused}")
            self.write_refused(batch)

    def write_refused(self, batch: Batch) -> None:
        """Writes the rows that were taken out of a batch into their file, where they stand
        already if this was done before."""
        if "refused" in batch.head:
            place = min(batch.head["offset"], size_of(self.refused))
            write_at(self.refused, batch.head["refused"].encode("utf-8", "surrogateescape"), place)

    def put_row_aside(self, why: str, row: bytes) -> None:
        """Puts a row aside that is in no batch."""
        write_at(
            self.refused,
            refused_line(why, row).encode("utf-8", "surrogateescape"),
            size_of(self.refused),
        )
        self.put_aside += 1
        say(f"a row was put aside: {self.refused}")


def refused_line(why: str, row: bytes) -> str:
    """A refused row after the reason, as a line of csv."""
    return line_writer()([why, row.decode("utf-8", "surrogateescape")])[:-2] + "\n"


def size_of(path: str) -> int:
    """How many bytes a file has, none where it is not there."""
    return os.stat(path).st_size if os.path.exists(path) else 0


def write_at(path: str, text: bytes, place: int) -> None:
    """Writes bytes at an offset of a file, and syncs it."""
    try:
        descriptor = os.open(path, os.O_WRONLY | os.O_CREAT, 0o666)
        try:
            while text:
                written = os.pwrite(descriptor, text, place)
                place, text = place + written, text[written:]
            os.fsync(descriptor)
        finally:
            os.close(descriptor)
    except OSError as error:
        raise Fault(f"refused rows cannot be written: {path}: {error.strerror}") from error
