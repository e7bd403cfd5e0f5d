"""A load of a file into a folder: its rows are sent in numbered batches, each of which counts
once."""
from __future__ import annotations

import csv
import io
import re
import shlex
from bisect import bisect_right
from concurrent.futures import Future, ThreadPoolExecutor
from dataclasses import dataclass, field
from typing import Iterator, Optional

from ..batches import Noted, Record, sum_of
from ..codec import MOST_BYTES, MOST_ROWS, block, has_end
from ..errors import Ended, Fault, Refused
from ..locks import Writer
from ..schema import Schema, declared_lines
from ..session import Loading
from ..ui import counted
from .resume import Piece, Rows, fronts_of
from .sniff import NOTHING

GREATEST = (1 << 64) - 1


@dataclass
class Batch:
    """Rows of a source that go into one block: the row of the source that comes first, and the
    pieces that the rows came in."""

    first: int
    pieces: list[Piece] = field(default_factory=list)
    ends: list[int] = field(default_factory=list)
    size: int = 0

    def __len__(self) -> int:
        return self.ends[-1] if self.ends else 0

    def add(self, piece: Piece) -> None:
        """Adds the rows of a piece."""
        self.pieces.append(piece)
        self.ends.append(len(self) + len(piece.rows))
        self.size += size_of(piece)

    def sendable(self) -> list[bytes]:
        """Its rows, each with its line feed, in few texts; a fault if a row has a line that is
        `end`, which would end the block."""
        texts, before = [], 0
        for piece in self.pieces:
            texts.append(b"\n".join(piece.rows) + b"\n")
            if has_end(b"\n" + texts[-1]):
                ends = (has_end(b"\n" + row + b"\n") for row in piece.rows)
                place = self.place(before + list(ends).index(True) + 1)
                raise Fault(f"{place} has a line that is `end`, which would end the block")
            before += len(piece.rows)
        return texts

    def row(self, number: int) -> bytes:
        """A row of the batch, from 1."""
        place = bisect_right(self.ends, number - 1)
        before = self.ends[place - 1] if place else 0
        return self.pieces[place].rows[number - 1 - before]

    def place(self, number: int) -> str:
        """Where a row of the batch stands in the source, in words."""
        place = bisect_right(self.ends, number - 1)
        before = self.ends[place - 1] if place else 0
        line = self.pieces[place].lines[number - 1 - before]
        return f"row {self.first + number - 1} (line {line})"


def size_of(piece: Piece) -> int:
    """The bytes of the rows of a piece, with their line feeds."""
    return sum(map(len, piece.rows)) + len(piece.rows)


def fit_one_batch(rows: Rows, size: int) -> bool:
    """Whether the rows that are left fit one batch. None of them is taken. They do not, and no more
    are read, if the size of the file says so by the rows at its front."""
    count = length = 0
    for piece in rows.look_ahead():
        count, length = count + len(piece.rows), length + size_of(piece)
        if count > MOST_ROWS or length > MOST_BYTES or size * count > 2 * MOST_ROWS * length:
            return False
    return True


def batches(rows: Rows, most: int) -> Iterator[Batch]:
    """The rows that are left, in batches within the limits of rows and bytes, each as soon as it
    is full."""
    batch = Batch(rows.row)
    for piece in rows.take(GREATEST):
        while piece.rows:
            piece, rest = fitting(batch, piece, most)
            if piece.rows:
                batch.add(piece)
            if rest.rows or len(batch) == most:
                yield batch
                batch = Batch(batch.first + len(batch))
            piece = rest
    if len(batch):
        yield batch


def fitting(batch: Batch, piece: Piece, most: int) -> tuple[Piece, Piece]:
    """The rows of a piece that still go into a batch, and the others."""
    count = min(most - len(batch), len(piece.rows))
    if batch.size + size_of(piece) > MOST_BYTES:
        room = MOST_BYTES - batch.size
        for place, row in enumerate(piece.rows[:count]):
            room -= len(row) + 1
            if room < 0:
                count = place
                break
    if count == 0 and not len(batch):
        raise Fault(
            f"{Batch(batch.first, [piece], [len(piece.rows)]).place(1)} has more than"
            f" {MOST_BYTES:,} bytes"
        )
    return Piece(piece.rows[:count], piece.lines[:count]), Piece(
        piece.rows[count:], piece.lines[count:]
    )


class Load:
    """A load into a folder. While the program takes in one batch, the next one is read."""

    def __init__(self, turns: Writer) -> None:
        self.replies = ThreadPoolExecutor(1)
        self.reply: Optional[Future[str]] = None
        self.batch: Optional[Batch] = None
        self.loading = Loading(turns)
        self.folder = turns.folder
        self.facts = int(self.loading.status.split()[1]) if self.loading.schema else 0
        self.loaded = self.last = self.number = 0

    def declare(self, lines: list[str]) -> None:
        """Declares a schema."""
        block_lines = ["schema", *declared_lines(lines), "end"]
        reply = self.loading.exchange("".join(line + "\n" for line in block_lines).encode())
        if reply != "declared":
            line = Refused(reply).line
            raise Fault(f"the schema was refused: {reply}" + (f": {lines[line]}" if line else ""))

    @property
    def schema(self) -> Schema:
        """The schema of the folder, which is declared."""
        assert self.loading.schema
        return self.loading.schema

    def record(self) -> Record:
        """The record of the batches of the folder, whose schema is declared."""
        record = Record(self.folder, self.loading.due(), self.facts)
        self.number = record.due
        return record

    def send(self, batch: Batch, record: Record, source: str, is_first: bool) -> None:
        """Sends a batch after the one before it, once that is acknowledged. It may be the first of
        its source."""
        self.take_reply()
        rows, fronts = batch.sendable(), fronts_of(batch.pieces) if is_first else ()
        found = sum_of(rows)
        record.note(Noted(self.number, self.facts, len(batch), found, batch.first, source, fronts))
        self.loading.send(block(b"load %d" % self.number, rows))
        # The reply is read as soon as it is there, so that readers have their turn meanwhile.
        self.batch, self.reply = batch, self.replies.submit(self.loading.reply)

    def take_reply(self) -> None:
        """Waits for the reply to the batch that is under way; a fault if it is a refusal."""
        if self.batch is None or self.reply is None:
            return
        batch, reply, self.batch = self.batch, self.reply.result(), None
        if not reply.startswith("committed "):
            raise Fault(self.refusal(batch, reply))
        self.facts, self.number = int(reply.split()[1]), self.number + 1
        self.loaded, self.last = self.loaded + len(batch), len(batch)

    def refusal(self, batch: Batch, reply: str) -> str:
        """A refusal in words, with the row of the file."""
        row = Refused(reply).row
        if row:
            reason = reply.partition(f"row {row} ")[2]
            return f"{batch.place(row)} was refused: {self.row_fault(reason, batch.row(row))}"
        if reply == f"already {self.number}":
            return f"another run has sent batch {self.number} meanwhile"
        last = batch.first + len(batch) - 1
        return f"rows {batch.first} to {last} were refused: {reply}"

    def row_fault(self, reason: str, row: bytes) -> str:
        """Why a row was refused, with the field that is wrong."""
        text = row.decode("utf-8", "backslashreplace")
        fields = next(csv.reader(io.StringIO(text, newline="")))
        words, why = reason.split(), self.schema.row_fault(reason)
        if len(words) < 2:
            return why
        place = int(words[1]) - 1
        return f"{why}: {fields[place][:60]!r}{hint_of(self.schema, place, fields[place])}"

    def ended_by(self, fault: Exception) -> str:
        """A fault in words, with what the folder keeps. If a batch is under way when a row of the
        next one is faulty, its reply comes first."""
        try:
            if not isinstance(fault, Ended):
                self.take_reply()
        except Fault as earlier:
            fault = earlier
        if isinstance(fault, Ended):
            return (
                f"{fault}; {counted(self.facts, 'fact')} acknowledged, and the batch under way may"
                " be kept too: the same command goes on"
            )
        return f"{fault}; the folder keeps {counted(self.facts, 'fact')}"

    def close(self) -> None:
        """Ends the run after the batch that is under way, and lets others into the folder."""
        self.replies.shutdown()
        self.loading.drop()


def hint_of(schema: Schema, place: int, cell: str) -> str:
    """What helps with a cell that is no number, as the folder has numbers."""
    name = schema.columns()[place]
    if name in schema.measures and re.fullmatch(r"[+-]?\d*\.\d+", cell):
        return f"; in a new folder, --decimals {name}={len(cell.partition('.')[2])} reads it"
    if name in schema.numbers and re.fullmatch(r"-\d+", cell):
        return f"; a number to group by is not below 0: in a new folder, --text {name} reads it"
    if cell in NOTHING and (name in schema.numbers or name in schema.measures):
        return f"; --na {shlex.quote(cell)} takes such cells as 0"
    return ""
