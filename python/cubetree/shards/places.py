"""Shards: where they are, what can be wrong with one, and which rows of a file go to which.

A row goes to a shard by the CRC of its bytes, and the rows of a shard into batches by their number
and bytes alone. So a file that is loaded again is cut in the same way.
"""
from __future__ import annotations

import os
import re
from array import array
from itertools import accumulate
from typing import Iterable, Iterator, NamedTuple, Sequence
from zlib import crc32

from ..codec import MOST_BYTES
from ..errors import Fault, Stopped
from ..status import Status

MOST_OF_A_BATCH = MOST_BYTES - 64


class ShardFault(Stopped):
    """What ends the work with shards, and the status for it."""

    def __init__(self, status: Status, words: str) -> None:
        super().__init__(words)
        self.exit_status = status


class Shard(NamedTuple):
    """A shard: its number from 1, the address of its worker, and the folder there."""

    number: int
    worker: str
    folder: str

    def name(self) -> str:
        """The shard in words."""
        return f"shard {self.number} ({self.folder} on {self.worker})"

    def fault(self, status: Status, words: str) -> ShardFault:
        """What is wrong with it."""
        return ShardFault(status, f"{self.name()}: {words}")


def shards_in(path: str) -> tuple[str, list[Shard]]:
    """The address of the scheduler and the shards that a file names."""
    with open(path, encoding="utf-8") as file:
        lines = [
            (number, line.split(None, 1))
            for number, line in enumerate(file.read().splitlines(), 1)
            if line.strip() and not line.startswith("#")
        ]
    schedulers = [
        words[1].strip() for _, words in lines if words[0] == "scheduler" and len(words) == 2
    ]
    shards: list[Shard] = []
    for number, words in lines:
        if words[0] == "scheduler" and len(words) == 2 and len(schedulers) == 1:
            continue
        if len(words) < 2 or not re.fullmatch(r"[a-z]+://\S+:\d+", words[0]):
            raise Fault(
                f"{path}: line {number} is neither `scheduler ADDRESS`, once, nor `ADDRESS FOLDER`"
                " with an address as tcp://10.0.0.2:40001"
            )
        shards.append(Shard(len(shards) + 1, words[0], words[1].strip()))
    if not schedulers or not shards:
        raise Fault(
            f"{path}: there is no line `scheduler ADDRESS`"
            if shards
            else f"{path}: no shard is named"
        )
    if len({shard[1:] for shard in shards}) < len(shards):
        raise Fault(f"{path}: a folder is named twice")
    return schedulers[0], shards


def folders_in(folder: str) -> list[str]:
    """The folders of the shards of a local cluster, by their numbers."""
    numbers = (
        sorted(int(name) for name in os.listdir(folder) if re.fullmatch(r"[1-9]\d*", name))
        if os.path.isdir(folder)
        else []
    )
    if numbers != list(range(1, len(numbers) + 1)):
        raise ShardFault(
            Status.SHARD, f"{folder} has a folder {numbers[-1]}, and not all before it"
        )
    return [os.path.abspath(os.path.join(folder, str(number))) for number in numbers]


# ---- batches


class Cut(NamedTuple):
    """A batch of a shard, which is counted from 0: its number, its rows with their line feeds,
    and the rows of the file that they are."""

    shard: int
    number: int
    rows: bytes
    places: array[int]


class Cutter:
    """Cuts rows into batches for shards, numbered from these numbers on, with at most this many
    rows each."""

    def __init__(self, numbers: Sequence[int], most_rows: int) -> None:
        self.numbers, self.most_rows, self.row = list(numbers), most_rows, 0
        self.rows: list[list[bytes]] = [[] for _ in numbers]
        self.places: list[array[int]] = [array("Q") for _ in numbers]
        self.sizes = [0] * len(self.numbers)

    def batches(self, pieces: Iterable[Sequence[bytes]]) -> Iterator[Cut]:
        """The batches of the rows that come in these pieces."""
        for piece in pieces:
            self.share_out(piece)
            for shard in range(len(self.numbers)):
                while self.is_full(shard):
                    yield self.cut(shard)
        for shard in range(len(self.numbers)):
            if self.rows[shard]:
                yield self.cut(shard)

    def share_out(self, piece: Sequence[bytes]) -> None:
        """Gives each row of a piece to its shard."""
        count, seen = len(self.numbers), [len(rows) for rows in self.rows]
        give = [(rows.append, places.append) for rows, places in zip(self.rows, self.places)]
        for place, row in enumerate(piece, self.row + 1):
            row_of, place_of = give[crc32(row) % count]
            row_of(row)
            place_of(place)
        self.row += len(piece)
        for shard, before in enumerate(seen):
            self.sizes[shard] += (
                sum(map(len, self.rows[shard][before:])) + len(self.rows[shard]) - before
            )

    def is_full(self, shard: int) -> bool:
        """Whether a shard has the rows of a batch, to which the next one is not added."""
        return len(self.rows[shard]) >= self.most_rows or self.sizes[shard] > MOST_OF_A_BATCH

    def cut(self, shard: int) -> Cut:
        """The next batch of a shard: as many of its first rows as one may have."""
        rows, end = self.rows[shard], min(self.most_rows, len(self.rows[shard]))
        if self.sizes[shard] > MOST_OF_A_BATCH:
            ends = accumulate(len(row) + 1 for row in rows[:end])
            end = max(
                1, next((place for place, size in enumerate(ends) if size > MOST_OF_A_BATCH), end)
            )
        text = b"\n".join([*rows[:end], b""])
        places, number = self.places[shard][:end], self.numbers[shard]
        if b"\nend\n" in text or b"\nend\r" in text or text.startswith((b"end\n", b"end\r")):
            self.refuse_end(rows[:end], places)
        self.rows[shard], self.places[shard] = rows[end:], self.places[shard][end:]
        self.sizes[shard] -= len(text)
        self.numbers[shard] = number + 1
        return Cut(shard, number, text, places)

    def refuse_end(self, rows: Sequence[bytes], places: array[int]) -> None:
        """Ends a load at a row that would end its block."""
        for row, place in zip(rows, places):
            if re.search(rb"^end\r?$", row, re.M):
                raise Fault(f"row {place} has a line that is `end`, which would end the block")
