"""A load of a file into shards: a task for each batch, some of each shard under way at a time."""
from __future__ import annotations

from typing import Any, Callable, Sequence

from ..errors import Fault, Refused
from ..schema import Schema
from . import worker
from .cluster import Engine
from .places import Cut
from .worker import State

AHEAD = 2  # batches of a shard that are under way: one is taken in while the next one is on its way


class Load:
    """What is under way, and what was acknowledged."""

    def __init__(
        self, engine: Engine, schema: Schema, states: Sequence[State], show: Callable[[int], None]
    ) -> None:
        self.engine, self.schema, self.show = engine, schema, show
        self.facts = [state.facts for state in states]
        self.under_way: list[dict[Any, Cut]] = [{} for _ in states]
        self.loaded, self.already, self.bytes = 0, 0, 0
        self.next = [state.due for state in states]

    def send(self, batch: Cut) -> None:
        """Sends a batch to its shard, once that has room for it."""
        while len(self.under_way[batch.shard]) >= AHEAD:
            self.take_replies(self.under_way[batch.shard])
        self.submit(batch)

    def submit(self, batch: Cut) -> None:
        """Makes a task of a batch."""
        shard = self.engine.shards[batch.shard]
        future = self.engine.submit(
            shard, worker.take_in, self.engine.waits, batch.number, batch.rows, len(batch.places)
        )
        self.under_way[batch.shard][future] = batch

    def finish(self) -> None:
        """Waits for all batches."""
        while any(self.under_way):
            self.take_replies(
                {future: batch for each in self.under_way for future, batch in each.items()}
            )

    def take_replies(self, futures: dict[Any, Cut]) -> None:
        """Waits for one of these batches, and counts those that are done."""
        left = set(self.engine.wait(list(futures), any_of=True))
        for future, batch in list(futures.items()):
            if future not in left:
                self.count(future, batch)
        self.show(self.bytes)

    def count(self, future: Any, batch: Cut) -> None:
        """Counts a batch once it is acknowledged. One that has come before another is sent again
        after it."""
        shard = self.engine.shards[batch.shard]
        try:
            taken = self.engine.result(shard, future, worker.take_in)
        except Refused as refused:
            raise Fault(self.refusal(batch, refused)) from refused
        del self.under_way[batch.shard][future]
        if taken.is_early:
            if not any(
                other.number < batch.number for other in self.under_way[batch.shard].values()
            ):
                raise Fault(
                    f"{shard.name()}: batch {batch.number} was refused: the shard has no batch"
                    " before it; --number is what was said when the load began"
                )
            self.submit(batch)
            return
        rows = len(batch.places)
        self.loaded, self.already = self.loaded + (
            0 if taken.is_already else rows
        ), self.already + (rows if taken.is_already else 0)
        self.facts[batch.shard] = taken.facts
        self.next[batch.shard] = batch.number + 1
        self.bytes += len(batch.rows)

    def refusal(self, batch: Cut, refused: Refused) -> str:
        """A refusal in words, with the row of the file."""
        if refused.row:
            why = self.schema.row_fault(refused.reply.partition(f"row {refused.row} ")[2])
            return (
                f"row {batch.places[refused.row - 1]} was refused: {why}; take it out of the file,"
                " and the same words go on"
            )
        return (
            f"batch {batch.number} of {self.engine.shards[batch.shard].name()} was refused:"
            f" {refused.reply}"
        )
