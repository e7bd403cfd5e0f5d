"""Which rows of a source a folder has already, and which ones a load has to send.

The record of batches says which rows of which source count. A load compares the first rows of its
source with them and goes on after the last one that is there, however large its batches are. What
cannot be distinguished from a mistake is a `Changed`, and nothing is sent: rows would be lost, or
would count twice.
"""
from __future__ import annotations

import hashlib
from collections import deque
from dataclasses import dataclass, field
from operator import eq
from typing import Iterator, NamedTuple, Optional, Sequence

from ..batches import Loaded, Noted, Record
from ..errors import Changed, Fault
from ..ui import counted

INPUT = "-"  # the source that is standard input
FRONT_DIGITS = 8  # of a sum in the fronts of a batch
ALIKE = 64  # rows at the front that two files hardly have in common by chance


class Piece(NamedTuple):
    """Some rows of a source, without their line feeds, and the line in which each of them ends."""

    rows: list[bytes]
    lines: Sequence[int]


class Rows:
    """The rows of a source, which are taken from its front; `row` is the one that comes next."""

    def __init__(self, pieces: Iterator[Piece]) -> None:
        self.pieces, self.front, self.row = pieces, Piece([], []), 1
        self.ahead: deque[Piece] = deque()

    def take(self, most: int) -> Iterator[Piece]:
        """The next rows, as many as these or all that are left."""
        while most > 0:
            if not self.front.rows:
                if self.ahead:
                    self.front = self.ahead.popleft()
                else:
                    piece = next(self.pieces, None)
                    if piece is None:
                        return
                    self.front = piece
            taken = Piece(self.front.rows[:most], self.front.lines[:most])
            self.front = Piece(self.front.rows[most:], self.front.lines[most:])
            most -= len(taken.rows)
            self.row += len(taken.rows)
            if taken.rows:
                yield taken

    def look_ahead(self) -> Iterator[Piece]:
        """The rows that are left, which stay."""
        yield from (self.front, *self.ahead)
        for piece in self.pieces:
            self.ahead.append(piece)
            yield piece

    def give_back(self, piece: Piece) -> None:
        """Puts rows that were taken last back to the front."""
        lines = [*piece.lines, *self.front.lines]
        self.front = Piece(piece.rows + self.front.rows, lines)
        self.row -= len(piece.rows)

    def skip(self, row: int) -> None:
        """Passes over the rows before this one."""
        for _ in self.take(row - self.row):
            pass


@dataclass
class Start:
    """Where a load begins: the number of its next batch, the first row of the source, the batches
    that have to be found there, and loads of other sources that must not be found there. It
    settles what is not known of earlier batches if the user gives the number that is due."""

    number: int
    first: int = 1
    settles: bool = False
    expected: list[Noted] = field(default_factory=list)
    others: list[Loaded] = field(default_factory=list)


class Words(NamedTuple):
    """What the words of a load say: its source, the number and the row that it begins with."""

    source: str
    number: Optional[int] = None
    row: Optional[int] = None


def start_of(words: Words, record: Record, facts: int) -> Start:
    """Where a load begins; a Changed if the record does not tell."""
    if words.number is None:
        return start_by_source(words, record, facts)
    if words.number > record.due:
        raise Fault(f"batch {words.number} was refused: the folder has no batch {record.due} yet")
    if words.number < record.due:
        return start_by_number(words, record, words.number)
    whole = [load for load in record.loads() if load.first == 1]
    settles = record.unknown(facts) != ""
    return Start(record.due, words.row or 1, settles, others=[] if words.row else whole)


def start_by_number(words: Words, record: Record, number: int) -> Start:
    """Where a load begins whose first batch counts already."""
    noted, more = record.of(number), f"--number {record.due} --from-row R loads rows from R on"
    if noted is None:
        raise Changed(
            f"batch {number} counts, and {record.path} does not say which rows it had: {more}"
        )
    if words.row not in (None, noted.first):
        raise Changed(f"batch {number} began with row {noted.first} of {noted.source}: {more}")
    gap = record.gap(number)
    if gap:
        raise Changed(
            f"batch {gap} counts, and {record.path} does not say which rows it had: {more}"
        )
    load = next((load for load in record.loads() if noted in load.batches), None)
    expected = load.batches[load.batches.index(noted) :] if load else [noted]
    return Start(record.due, noted.first or 1, expected=expected)


def start_by_source(words: Words, record: Record, facts: int) -> Start:
    """Where a load without a number begins."""
    row, due = words.row or 1, record.due
    # Standard input has no name by which its rows could be known.
    mine = [load for load in record.loads() if load.source == words.source != INPUT]
    same = [load for load in mine if load.first == row]
    unknown = record.unknown(facts)
    if unknown:
        raise Changed(
            f"it is not known which rows {unknown} of the folder had, so rows of this source may be"
            f" among them: --number {due} loads all its rows, and --number {due} --from-row R those"
            " from R on"
        )
    if same:
        return Start(due, row, expected=same[-1].batches)
    if any(load.next_row() > row for load in mine):
        raise Changed(
            f"the folder has rows of it already, from {' and '.join(map(covered, mine))}:"
            f" --number {due} --from-row {row} adds its rows from {row} on"
        )
    return Start(due, row, others=[load for load in record.loads() if load.first == row])


def covered(load: Loaded) -> str:
    """The rows that a load has, in words."""
    return f"row {load.first} to {load.next_row() - 1} ({load.numbers()})"


# ---- the rows themselves


def expect_rows(rows: Rows, start: Start, source: str) -> int:
    """Passes over the rows that are there, and says how many; a Changed if they are others."""
    rows.skip(start.first)
    for noted in start.expected:
        first, found = rows.row, hashlib.blake2b(digest_size=16)
        for piece in rows.take(noted.rows):
            found.update(b"\n".join(piece.rows) + b"\n")
        count, origin = rows.row - first, origin_of(noted, source)
        if noted.rows and count < noted.rows and noted.first:
            raise Changed(
                f"it ends with row {rows.row - 1}, and batch {noted.number}{origin} has its rows"
                f" {first} to {first + noted.rows - 1}: rows were cut off, or it is another file;"
                f" --number {start.number} loads all its rows as new ones"
            )
        if found.hexdigest() != noted.sum:
            raise Changed(
                f"rows {first} to {rows.row - 1} are not those of batch {noted.number}{origin}:"
                f" --number {start.number} loads all its rows as new ones"
            )
    return rows.row - start.first


def origin_of(noted: Noted, source: str) -> str:
    """Where a batch came from, unless it is this source."""
    return "" if noted.source == source else f" (from {noted.source})"


class Fronts:
    """Takes rows from the front of a source, and has the sums of its first N rows for some N."""

    def __init__(self, rows: Rows) -> None:
        self.rows, self.found = rows, hashlib.blake2b(digest_size=16)
        self.taken: list[bytes] = []
        self.lines: list[int] = []

    def sum_at(self, size: int) -> str:
        """The sum of the first rows up to this one; no text if there are fewer. Sizes ascend."""
        for piece in self.rows.take(size - len(self.taken)):
            self.found.update(b"\n".join(piece.rows) + b"\n")
            self.taken += piece.rows
            self.lines += piece.lines
        return self.found.hexdigest() if len(self.taken) == size else ""


def fronts_of(pieces: Sequence[Piece]) -> tuple[str, ...]:
    """The sums of the first 1, 2, 4, 8 .. rows, as the record of batches has them."""
    fronts, size = Fronts(Rows(iter(pieces))), 1
    sums: list[str] = []
    while found := fronts.sum_at(size):
        sums.append(found[:FRONT_DIGITS])
        size *= 2
    return tuple(sums)


def expect_no_rows(rows: Rows, start: Start) -> None:
    """A Changed if the source begins with the rows of another load's first batch, or with as many
    of them as two files hardly have in common by chance, or if it is shorter than that batch and
    its first rows up to a power of two are the same."""
    if not start.others:
        return
    whole: dict[int, dict[str, Loaded]] = {}
    for load in start.others:
        whole.setdefault(load.batches[0].rows, {})[load.batches[0].sum] = load
    fronts = Fronts(rows)
    sums: list[str] = []
    powers = [1 << power for power in range(max(whole).bit_length())]
    for size in sorted({*whole, *powers}):
        found = fronts.sum_at(size)
        if not found:
            break
        if found in whole.get(size, {}):
            raise Changed(came_already(size, whole[size][found], start, is_whole=True))
        if size == 1 << len(sums):
            sums.append(found[:FRONT_DIGITS])
    for load in start.others:
        batch = load.batches[0]
        common = 1 << sum(map(eq, sums, batch.fronts)) >> 1
        is_a_part = len(fronts.taken) < batch.rows and common == 1 << len(sums) >> 1
        if common and (is_a_part or common >= ALIKE):
            raise Changed(came_already(common, load, start, is_whole=False))
    rows.give_back(Piece(fronts.taken, fronts.lines))


def came_already(size: int, load: Loaded, start: Start, is_whole: bool) -> str:
    """That the first rows of a source came already, and what to type."""
    on = f"--number {load.batches[0].number} goes on after the rows that are there, "
    return (
        f"its first {counted(size, 'row')} came already in {load.numbers()}, from {load.source}:"
        f" {on if is_whole else ''}--number {start.number} --from-row {start.first} adds all its"
        " rows again"
    )
