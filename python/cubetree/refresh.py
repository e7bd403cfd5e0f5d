"""A batch that is taken in by short steps, and questions that are answered between them."""
from __future__ import annotations

import argparse
import os
import select
import sys
import time
from collections import deque

from .codec import line_writer, rows_of_file
from .errors import Fault
from .format.files import live_body
from .format.forest import WIDE, Forest
from .locks import Writer
from .progress import ProgressFile
from .schema import Schema
from .session import Loading
from .ui import Progress, counted

FIRST_STEP = 1000  # moves


# ---- how many moves there are


class Moves:
    """How many moves take a batch in, by the pages and points before it and after it."""

    def __init__(self, folder: str, schema: Schema) -> None:
        self.folder, self.forest, self.before = folder, Forest(schema), live_body(folder)

    def most(self, rows: int) -> int:
        """As many as there are where no two rows and no fact have the same attributes, and some
        number is above 4,294,967,293."""
        points = [
            count + rows if arity else 1
            for arity, count in zip(self.forest.arities, self.before.points)
        ]
        return self.up_to(points, WIDE) if rows else 0

    def made(self) -> int:
        """Those that were made, once the batch is accepted."""
        after = live_body(self.folder)
        return self.up_to(after.points, after.width())

    def up_to(self, points: list[int], width: int) -> int:
        """Reads of old pages, points and writes of new pages."""
        return (
            self.forest.pages(self.before.points, self.before.width())
            + sum(points)
            + self.forest.pages(points, width)
        )


# ---- the refresh


class Refresh:
    """A batch that is taken in by steps, each about as long as it should be."""

    def __init__(self, turns: Writer, seconds: float) -> None:
        self.folder, self.seconds = turns.folder, seconds
        self.loading = Loading(turns)
        self.progress = ProgressFile(turns.folder, "cube refresh")
        self.asked, self.steps, self.longest, self.size = 0, 0, 0.0, FIRST_STEP
        self.finishing = False

    def begin(self, rows: bytes) -> None:
        """Makes the batch pending."""
        if self.loading.schema is None:
            raise Fault("no schema is declared in the folder")
        self.count = Moves(self.folder, self.loading.schema)
        began = time.monotonic()
        reply = self.loading.exchange(b"begin\n" + rows + b"end\n")
        self.beginning = time.monotonic() - began
        if reply != "begun":
            raise Fault(f"the batch was refused: {reply}")
        self.rows = int(self.loading.ask(b"status\n").split()[3])
        self.most = self.count.most(self.rows)

    def is_over(self) -> bool:
        """Whether all moves were asked for."""
        return self.asked >= self.most

    def step(self) -> None:
        """Makes as many moves as a step should have, by the one before."""
        size, began = min(self.size, self.most - self.asked), time.monotonic()
        self.loading.ask(b"step %d\n" % size)
        spent = max(time.monotonic() - began, 1e-6)
        self.asked, self.steps, self.longest = (
            self.asked + size,
            self.steps + 1,
            max(self.longest, spent),
        )
        self.size = max(int(size * min(self.seconds / spent, 2)), 1)

    def finish(self) -> int:
        """How many facts the folder keeps then."""
        self.finishing, began = True, time.monotonic()
        facts = int(self.loading.exchange(b"finish\n").split()[1])
        self.ending = time.monotonic() - began
        return facts

    def moves(self) -> int:
        """How many there were, once it is finished."""
        return self.count.made() if self.rows else 0

    def left_behind(self) -> str:
        """What a run that has ended early leaves of the batch, in words."""
        return (
            "whether the batch is kept `status` tells"
            if self.finishing
            else "nothing of the batch is kept"
        )


class Questions:
    """The slices of standard input, which are answered as they come."""

    def __init__(self, loading: Loading) -> None:
        self.loading, self.open, self.front = loading, sys.stdin is not None, b""
        self.waiting: deque[bytes] = deque()
        self.answered, self.longest = 0, 0.0
        self.written = line_writer()

    def look(self, seconds: float) -> None:
        """Takes what has come, and waits so long for it where nothing has."""
        if not self.open:
            time.sleep(0 if self.waiting else seconds)
        elif select.select([0], [], [], 0 if self.waiting else seconds)[0]:
            piece = os.read(0, 1 << 16)
            self.open = piece != b""
            *lines, self.front = (self.front + piece + (b"" if self.open else b"\n")).split(b"\n")
            self.waiting += [line for line in lines if line.strip()]

    def pause(self, seconds: float) -> None:
        """Answers what comes, until the time is over."""
        end = time.monotonic() + seconds
        while True:
            self.look(max(end - time.monotonic(), 0))
            if self.waiting:
                self.answer()
            if time.monotonic() >= end:
                return

    def rest(self) -> None:
        """Answers all that has come."""
        self.look(0)
        while self.waiting:
            self.answer()

    def answer(self) -> None:
        """Answers the first that waits."""
        text, began = self.waiting.popleft().rstrip(b"\r").strip(b" "), time.monotonic()
        if text == b"status":
            rows: list[list[str]] = []
            last = self.loading.ask(b"status\n")
        else:
            rows, last = self.loading.answer(b"slice " + text.removeprefix(b"slice "))
        self.answered, self.longest = self.answered + 1, max(self.longest, time.monotonic() - began)
        print("".join(self.written(row)[:-2] + "\n" for row in rows) + last, flush=True)


def show(progress: Progress, refresh: Refresh, questions: Questions) -> None:
    """Shows how far the refresh is."""
    refresh.progress.tell(refresh.rows, refresh.asked / max(refresh.most, 1))
    if progress.is_due():
        part = (
            f"{refresh.asked:,} moves, {refresh.asked / max(refresh.most, 1):.0%} of at most"
            f" {refresh.most:,}"
        )
        progress.show(
            f"{part}, {refresh.asked / progress.spent():,.0f} a second,"
            f" {counted(questions.answered, 'slice')} answered"
        )


def take_in(options: argparse.Namespace, refresh: Refresh, progress: Progress) -> None:
    """Takes a batch in, and answers slices meanwhile."""
    questions = Questions(refresh.loading)
    refresh.begin(rows_of_file(options.rows))
    while not refresh.is_over():
        refresh.step()
        questions.pause(options.pause / 1000)
        show(progress, refresh, questions)
    facts, meanwhile = refresh.finish(), questions.answered
    spent, moves = progress.spent(), refresh.moves()
    progress.clear()
    questions.rest()
    refresh.loading.end()
    steps = (
        f"in {counted(refresh.steps, 'step')}, the longest of {1000 * refresh.longest:.1f} ms"
        if refresh.steps
        else "in no step"
    )
    ends = (
        f"`begin` took {1000 * refresh.beginning:.1f} ms and `finish`"
        f" {1000 * refresh.ending:.1f} ms"
    )
    print(
        (
            f"cube refresh: {counted(refresh.rows, 'row')} accepted; the folder keeps"
            f" {counted(facts, 'fact')}"
        ),
        file=sys.stderr,
    )
    print(
        (
            f"cube refresh: {counted(moves, 'move')} {steps}, and"
            f" {counted(meanwhile, 'answer')} between them; {ends}; {spent:.1f} s"
        ),
        file=sys.stderr,
    )
