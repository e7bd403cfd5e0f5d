"""A feed: it gathers rows from sources, and has them sent batch by batch."""
from __future__ import annotations

import argparse
import os
import select
import time
from concurrent.futures import Future, ThreadPoolExecutor, wait
from typing import Any, Optional

from ..errors import Fault
from ..ui import Progress, counted
from .sender import Sender
from .sources import Source, lost_streams, say, source_of
from .spool import Batch, Place, Spool, spool_folder

LOOK = 0.1  # seconds between two looks at files
DRAIN = 1.0  # seconds in which pipes are read that have something left at the end


class Feed:
    """Gathers rows from sources, and has them sent batch by batch."""

    def __init__(self, options: argparse.Namespace) -> None:
        self.most_rows: int = options.rows
        self.most_bytes: int = options.bytes
        self.every: float = options.every
        self.report: float = options.report
        self.progress, self.signals, self.rows, self.first, self.sent_first = (
            Progress(),
            0,
            0,
            0.0,
            0.0,
        )
        self.reported, self.rate, self.mark = time.monotonic(), 0.0, (time.monotonic(), 0)
        self.spool = Spool(spool_folder(options.folder, options.spool))
        refused = options.refused or self.spool.path("refused.csv")
        self.sender = Sender(options.folder, self.spool, refused, not options.no_wait)
        self.threads = ThreadPoolExecutor(1)
        self.sending: Optional[Future[None]] = None
        self.sent, self.tells_sent = os.pipe()
        self.look = self.look_before = time.monotonic()

    def run(self, paths: list[str]) -> None:
        """Feeds until the end."""
        for batch in self.spool.recover(self.sender.owner):
            self.sender.send(batch)
        if self.spool.rows:
            self.first = time.monotonic()
        self.sources = [
            source_of(path, self.spool.places, self.spool.forget, self.sender.put_row_aside)
            for path in paths
        ]
        self.put_fronts_aside()
        while not self.signals and not all(source.is_over for source in self.sources):
            self.turn()
        self.drain()
        self.flush()
        self.sender.rest(is_over=True)
        if not self.signals:
            self.spool.forget_input()

    def put_fronts_aside(self) -> None:
        """Lets go of streams that have ended with a feed before, and puts the fronts of rows
        aside that they have left."""
        for place in lost_streams(self.sources, self.spool.places):
            if place.rest:
                self.sender.put_row_aside("its end was not read", place.rest.encode("latin-1"))
                self.spool.add(place._replace(rest=""), [])
            self.spool.forget(place)

    # ---- rows

    def turn(self) -> None:
        """Reads what has come, and sends what is due."""
        is_idle = self.is_idle()
        had = not self.is_full() and self.read(self.sources)
        self.show()
        if self.is_due() and is_idle:
            self.send()
        elif not had:
            self.rest()

    def read(self, sources: list[Source]) -> bool:
        """Reads a piece of each source, until a batch is full; whether something had come. Where
        the spool has no more room, what was gathered is sent first."""
        had = False
        self.look_before, self.look = self.look, time.monotonic()
        for _ in range(len(sources)):
            if self.is_full():
                break
            source = sources.pop(0)
            sources.append(source)
            try:
                self.spool.reserve()
            except OSError as error:
                if not self.spool.rows and self.is_idle():
                    raise Fault(
                        f"the spool {self.spool.folder} has no room: {error.strerror}"
                    ) from error
                self.flush()
                return True
            had |= source.read(self.take)
        return had

    def take(self, place: Place, rows: list[bytes]) -> None:
        """Keeps the rows of a piece, which have come after the look before."""
        if rows and not self.spool.rows:
            self.first = self.look_before
        self.spool.add(place, rows)
        self.rows += len(rows)

    def is_full(self) -> bool:
        """Whether there are as many rows as a batch has."""
        return len(self.spool.rows) >= self.most_rows or self.spool.size >= self.most_bytes

    def is_due(self) -> bool:
        """Whether a batch is to be sent."""
        return (
            self.is_full() or bool(self.spool.rows) and time.monotonic() >= self.first + self.every
        )

    # ---- batches

    def is_idle(self) -> bool:
        """Whether no batch is under way; what has failed is raised."""
        if self.sending and self.sending.done():
            sending, self.sending = self.sending, None
            os.read(self.sent, 1)
            sending.result()
        return self.sending is None

    def send(self) -> None:
        """Sends what was gathered, while the next rows are read."""
        self.sender.rest()
        batch: Batch = self.spool.seal()
        self.sent_first = self.first
        self.sending = self.threads.submit(self.sender.send, batch)
        self.sending.add_done_callback(lambda _: os.write(self.tells_sent, b"."))

    def flush(self) -> None:
        """Sends all that was gathered, and waits for it."""
        self.finish()
        if self.spool.rows:
            self.send()
        self.finish()

    def finish(self) -> None:
        """Waits for the batch that is under way."""
        if self.sending:
            wait([self.sending])
        self.is_idle()

    def rest(self) -> None:
        """Waits until something has come or is due."""
        if self.sending and self.is_full():
            wait([self.sending], LOOK)
        else:
            if self.sending is None:
                self.sender.rest()
            streams = (
                []
                if self.is_full()
                else [each for source in self.sources for each in source.waits_on()]
            )
            left = (
                self.first + self.every - time.monotonic()
                if self.spool.rows and self.sending is None
                else LOOK
            )
            select.select([self.sent, *streams], [], [], min(max(left, 0), LOOK))

    def drain(self) -> None:
        """Reads what is left in pipes."""
        end = time.monotonic() + DRAIN
        streams = [source for source in self.sources if source.waits_on()]
        while streams and time.monotonic() < end and self.read(streams):
            if self.is_full():
                self.flush()

    # ---- what it says

    def so_far(self) -> str:
        """Rows, rate, batches and the age of the oldest row that waits."""
        now, (before, rows) = time.monotonic(), self.mark
        if now > before + 1:
            self.rate, self.mark = (self.rows - rows) / (now - before), (now, self.rows)
        age = (
            ", the oldest that waits for"
            f" {now - (self.sent_first if self.sending else self.first):.1f} s"
            if self.sending or self.spool.rows
            else ""
        )
        aside = f", {self.sender.put_aside:,} refused" if self.sender.put_aside else ""
        return (
            f"{counted(self.rows, 'row')}, {self.rate:,.0f} a second,"
            f" {counted(self.sender.batches, 'batch', 'batches')} sent{aside}{age}"
        )

    def show(self) -> None:
        """Shows how far it is."""
        if self.progress.is_due():
            self.progress.show(self.so_far())
        elif (
            not self.progress.shown
            and self.report
            and time.monotonic() > self.reported + self.report
        ):
            self.reported = time.monotonic()
            say(self.so_far())

    def stop(self, *_: Any) -> None:
        """Ends by a signal, and at once by the second."""
        self.signals += 1
        if self.signals > 1:
            self.progress.clear()
            say(
                f"ended at once; {counted(len(self.spool.rows), 'row')} and the batch under way"
                f" stand in the spool {self.spool.folder}"
            )
            os._exit(1)
