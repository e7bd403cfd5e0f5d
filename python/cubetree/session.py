"""Runs of the program in their turns: one that only asks, and those of a writer, one after the
other."""
from __future__ import annotations

import time
from typing import Optional, Sequence

from .batches import Numbered
from .errors import Refused
from .levels import PROBE, Level
from .locks import Reader, Turns, Writer
from .process import Run
from .schema import Schema, kept_schema
from .values import Kind

MOST_OF_A_SCRIPT = 1 << 30
GREATEST = (1 << 64) - 1  # number of a batch


class Session:
    """A run of the program in a folder, with the schema that it has found there."""

    def __init__(self, turns: Turns, is_shielded: bool = False) -> None:
        self.turns, self.is_shielded = turns, is_shielded
        self.schema: Optional[Schema] = None
        self.kinds: Optional[dict[str, Kind]] = None  # of columns, as far as they were asked for
        turns.enter()
        try:
            self.start()
        except BaseException:
            turns.leave()
            raise

    def start(self) -> None:
        """Begins a run, which tells its status."""
        self.run = Run(self.turns.folder, self.turns.descriptors(), self.is_shielded)
        self.began, self.sent, self.levels = time.monotonic(), 0, 0
        self.status = self.run.ask(b"status\n")
        self.schema = None if self.status == "no schema" else kept_schema(self.turns.folder)

    def age(self) -> float:
        """The seconds that the run lasts already."""
        return time.monotonic() - self.began

    def make_room(self, size: int, more: int = 0) -> None:
        """Counts what is sent, and has room for what may follow it."""
        self.sent += size

    def ask(self, command: bytes) -> str:
        """The reply to a command that changes nothing."""
        self.make_room(len(command))
        return self.run.ask(command)

    def answer(self, command: bytes) -> tuple[list[list[str]], str]:
        """The records of the reply to a command that asks for rows, and its last line."""
        self.make_room(len(command) + 1)
        return self.run.answer(command)

    def tell(self, levels: Sequence[Level], more: int = 0) -> str:
        """Tells the run those of these levels that it does not have yet, with room for what
        follows; a refusal, or the last reply."""
        self.make_room(0, sum(len(level.command) for level in levels) + len(PROBE) + more)
        reply = "" if self.levels or not levels else self.ask(PROBE)
        if reply == "refused unknown":
            return reply
        for level in levels[self.levels :]:
            reply = self.ask(level.command)
            if reply.startswith("refused "):
                return reply
            self.levels += 1
        return reply

    def end(self) -> None:
        """Ends the run, and lets others into the folder."""
        try:
            self.run.end()
        finally:
            self.turns.leave()

    def drop(self) -> None:
        """Ends a run that need not end well."""
        self.run.close()
        self.turns.leave()


class Asking(Session):
    """A run that only asks, which is in its turn until its end."""

    def __init__(self, turns: Reader) -> None:
        super().__init__(turns)


class Loading(Session):
    """The runs of a writer, as many as the limit of a script asks for, and its turns for what
    they do with the files."""

    def __init__(self, turns: Writer, is_shielded: bool = False) -> None:
        self.writer, self.is_pending = turns, False
        self.numbered: Optional[Numbered] = None
        super().__init__(turns, is_shielded)

    def start(self) -> None:
        """Begins a run, in a turn."""
        with self.writer.batch():
            super().start()

    def make_room(self, size: int, more: int = 0) -> None:
        """Begins a new run where the script of this one would be too long."""
        if self.sent + size + more > MOST_OF_A_SCRIPT - 64 and not self.is_pending:
            self.run.end()
            self.start()
        super().make_room(size)

    def send(self, command: bytes) -> None:
        """Sends a command that works on the files, in a turn."""
        self.make_room(len(command))
        if not self.is_pending:
            self.writer.begin_batch()
        self.run.send(command)

    def reply(self) -> str:
        """The reply to it, after which readers have their turn unless a batch is pending."""
        reply = self.run.reply()
        word = reply.split(" ")[0]
        self.is_pending = (
            word == "begun" or self.is_pending and word not in ("committed", "abandoned")
        )
        if word == "declared":
            self.schema = kept_schema(self.turns.folder)
        if not self.is_pending:
            self.writer.end_batch()
        return reply

    def exchange(self, command: bytes) -> str:
        """Sends it, and gives its reply."""
        self.send(command)
        return self.reply()

    def due(self) -> int:
        """The number of the batch that is due: an empty batch with the greatest number is refused,
        and the refusal says which one is missing."""
        refused = Refused(self.exchange(b"load %d\nend\n" % GREATEST))
        if refused.due is None and refused.reply != "refused empty":
            raise refused
        return refused.due or GREATEST

    def facts(self) -> int:
        """How many facts the folder has."""
        return int(self.exchange(b"status\n").split()[1])
