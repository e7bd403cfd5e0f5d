"""Takes back the last change of a folder: its last batch, or its upgrade to format 2.

A commit of generation G leaves both slots of the root raised. The slot, the side and the names of
G - 1 stand untouched until the next batch begins, which shuts their gate. So one byte takes G back:
the gate of the live slot, from 1 to 0. A stop within that write leaves any byte there: a 1 means G
as before, and each other one G - 1. Both are states that the program's theorem begins with.

Before it writes, it makes a folder of links to the files and a copy of the root without G, and has
the program audit it: what would be there is opened and read, page by page. It never writes 0 to a
gate that is not 1: torn into a 1, that would bring the batch back.
"""
from __future__ import annotations

import os
import tempfile
from typing import NamedTuple, Optional

from .audits import audit_of
from .batches import Noted, Record
from .errors import Damaged, Fault
from .feed.spool import entry_at
from .format.files import GATES, Body, raised_bodies
from .locks import Writer
from .process import Run
from .ui import counted

FILES = ("names", "side0", "side1")


class Unsound(Fault):
    """The pages of a folder break a rule."""


class Change(NamedTuple):
    """The last change of a folder: the body that has it, and the one before it."""

    live: Body
    before: Body

    def rows(self) -> int:
        """The rows of the batch; 0 if it is an upgrade."""
        return self.live.facts - self.before.facts

    def number(self) -> Optional[int]:
        """The number of the batch, if it has one."""
        return self.live.last if self.live.last != self.before.last else None

    def words(self, noted: Optional[Noted]) -> str:
        """The change in words."""
        if not self.rows():
            return "the upgrade to format 2"
        rows, number = counted(self.rows(), "row"), self.number()
        if number is None:
            return f"the last batch, of {rows}"
        if noted is None:
            return f"batch {number}, of {rows}"
        last = noted.first + noted.rows - 1
        places = f"rows {noted.first:,} to {last:,} of " if noted.first else ""
        return f"batch {number}, of {rows}: {places}{noted.source}"


class Undo:
    """What is taken back of a folder, while no other run is in it. The folder is left as it was
    until `write`."""

    def __init__(self, folder: str, waits: bool) -> None:
        self.folder, self.turns = folder, Writer("cube undo", folder, waits)
        self.turns.enter()
        try:
            with self.turns.batch():
                self.facts = self.audited(folder)
                self.change = change_of(folder)
                self.expect_alone()
                self.try_without()
                self.record = Record(folder, self.change.live.last + 1, self.facts)
        except BaseException:
            self.turns.leave()
            raise

    def __enter__(self) -> Undo:
        return self

    def __exit__(self, *_: object) -> None:
        self.turns.leave()

    def words(self) -> str:
        """What is taken back, in words."""
        number = self.change.number()
        return self.change.words(self.record.of(number) if number else None)

    # ---- what is tried

    def audited(self, folder: str) -> int:
        """The facts of a folder whose pages are all sound; a fault if they aren't."""
        run = Run(folder, self.turns.descriptors())
        try:
            status, audit = run.ask(b"status\n"), run.ask(b"audit\n")
        finally:
            run.close()
        if status == "no schema":
            raise Fault(f"no schema is declared in {self.folder}")
        if not audit_of(audit).is_sound:
            raise Unsound(f"{self.folder} is not sound, so nothing is taken back: see audit")
        return int(status.split()[1])

    def try_without(self) -> None:
        """Audits a folder as this one would be without the change."""
        with tempfile.TemporaryDirectory() as room:
            self.make_without(room)
            try:
                is_sound = self.audited(room) == self.change.before.facts
            except (Unsound, Damaged):
                is_sound = False
        if not is_sound:
            raise Unsound("nothing can be taken back: the batch before it is damaged")

    def expect_alone(self) -> None:
        """A fault if somebody would send the batch again, or if the folder is a part of shards."""
        if os.path.exists(os.path.join(self.folder, ".shard")):
            raise Fault(f"{self.folder} is a shard: the other shards would keep the batch")
        spool = os.path.join(self.folder, ".feed")
        if os.path.isdir(spool) and has_rows(spool):
            raise Fault(f"a feed has rows in {os.path.realpath(spool)}: let it send them first")

    def make_without(self, room: str) -> None:
        """Makes a folder as this one would be without the change."""
        with open(os.path.join(self.folder, "root"), "rb") as file:
            root = bytearray(file.read())
        root[GATES + self.change.live.slot] = 0
        with open(os.path.join(room, "root"), "wb") as file:
            file.write(root)
        for name in FILES:
            path = os.path.abspath(os.path.join(self.folder, name))
            if os.path.exists(path):
                os.symlink(path, os.path.join(room, name))

    # ---- what is done

    def write(self) -> None:
        """Takes the change back."""
        with self.turns.batch():
            if change_of(self.folder) != self.change:
                raise Fault("another run has changed the folder meanwhile")
            shut_gate(os.path.join(self.folder, "root"), self.change.live.slot)
            facts = self.audited(self.folder)
        if facts != self.change.before.facts:
            raise Fault(f"the folder keeps {facts:,} facts after it, which is wrong: see audit")
        self.record.forget(self.change.before.last + 1)


def change_of(folder: str) -> Change:
    """The last change of a folder; a fault if it can't be taken back."""
    bodies = sorted(raised_bodies(folder), key=lambda body: body.generation)
    if not bodies[-1].generation:
        raise Fault("nothing can be taken back: no batch was accepted")
    if len(bodies) < 2 or bodies[0].generation + 1 != bodies[1].generation:
        raise Fault(
            "nothing can be taken back: since the last batch another one has begun, or the last"
            " batch was taken back already"
        )
    return Change(bodies[1], bodies[0])


def has_rows(spool: str) -> bool:
    """Whether a spool has rows that were not acknowledged."""
    names = os.listdir(spool)
    if "sealed" in names or any(name.startswith("sending.") for name in names):
        return True
    try:
        with open(os.path.join(spool, "gathered"), "rb") as file:
            text = file.read()
    except FileNotFoundError:
        return False
    return entry_at(text, text.find(b"\n") + 1)[0] is not None


def shut_gate(path: str, slot: int) -> None:
    """Writes 0 to the gate of a slot, which has to be 1, and syncs it."""
    descriptor = os.open(path, os.O_RDWR)
    try:
        if os.pread(descriptor, 1, GATES + slot) != b"\1":
            raise Fault("another run has changed the folder meanwhile")
        os.pwrite(descriptor, b"\0", GATES + slot)
        os.fsync(descriptor)
    finally:
        os.close(descriptor)
