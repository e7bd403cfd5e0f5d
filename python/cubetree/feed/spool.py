"""The spool of a feed: the rows that were read and are not acknowledged yet, and the places up
to which they were read.

A spool is a folder with up to three files. `gathered` takes rows as they are read. Once a batch is
due it becomes `sealed`, and a new `gathered` begins. When the number of the batch is known,
`sealed` becomes `sending.N`, and is synced with the folder before the batch is sent. It goes after
the batch is acknowledged. So at any moment each row that was read stands in exactly one of them, or
in the warehouse, and only of the rows of `sending.N` is it in doubt; there the number tells.

Each file begins with a line of JSON: whose it is, and the places of all sources. For each piece
that was read there is another line, with the place after it and a checksum, and then the rows.
What a stop has left of the last piece is cut off, and read again where its source is a file.
"""
from __future__ import annotations

import fcntl
import json
import os
import zlib
from typing import Any, NamedTuple, Optional, Sequence

from ..errors import Busy, Fault
from ..schema import Schema

FORM = 1
INPUT = "-"  # the path of standard input
ROOM = 1 << 20  # bytes that are there for a piece before it is read


class Place(NamedTuple):
    """How far a source was read: up to an offset of a file with these first bytes, or with the
    front of a row of a stream."""

    path: str
    inode: int
    offset: int = 0
    first: int = 0
    rest: str = ""


class Batch:
    """Rows that are sent together, with the number of their batch, which may not be known yet,
    and the head of their file."""

    def __init__(self, name: str, head: dict[str, Any], rows: list[bytes]) -> None:
        self.name, self.head, self.rows = name, head, rows
        self.number = int(name[8:]) if name.startswith("sending.") else None


def owner_of(folder: str, schema: Schema) -> dict[str, Any]:
    """What a spool knows of its warehouse."""
    return {
        "form": FORM,
        "folder": os.path.realpath(folder),
        "inode": os.stat(folder).st_ino,
        "schema": schema.says(),
    }


def spool_folder(folder: str, named: Optional[str]) -> str:
    """The folder of the spool of a warehouse: `.feed` within it, which leads to another one
    where one was named."""
    beside = os.path.join(folder, ".feed")
    if not os.path.isdir(folder):
        raise Fault(f"no such folder: {folder}")
    if named and not os.path.lexists(beside):
        os.makedirs(named, exist_ok=True)
        os.symlink(os.path.abspath(named), beside)
    if named and not (
        os.path.exists(named) and os.path.exists(beside) and os.path.samefile(named, beside)
    ):
        raise Fault(
            f"the feed of {folder} has its spool in {os.path.realpath(beside)}, and not in {named}"
        )
    if os.path.islink(beside) and not os.path.exists(beside):
        raise Fault(f"the spool of {folder} is not there: {os.path.realpath(beside)}")
    os.makedirs(beside, exist_ok=True)
    return os.path.realpath(beside)


class Spool:
    """The spool in a folder, which no other feed uses meanwhile."""

    def __init__(self, folder: str) -> None:
        self.folder, self.descriptor = folder, os.open(folder, os.O_RDONLY)
        try:
            fcntl.flock(self.descriptor, fcntl.LOCK_EX | fcntl.LOCK_NB)
        except BlockingIOError as error:
            raise Busy(f"another feed has the spool {folder}") from error
        self.places: dict[tuple[str, int], Place] = {}
        self.gathered: Optional[int] = None
        self.rows: list[bytes] = []
        self.used, self.room, self.size = 0, 0, 0

    def path(self, name: str) -> str:
        """The path of one of its files."""
        return os.path.join(self.folder, name)

    # ---- what was left

    def recover(self, owner: dict[str, Any]) -> list[Batch]:
        """The batches that were sealed, in order; what was gathered is gone on with."""
        self.owner = owner
        names = [
            name
            for name in os.listdir(self.folder)
            if name.startswith("sending.") and name[8:].isdigit()
        ]
        names.sort(key=lambda name: int(name[8:]))
        batches = [batch for batch in map(self.read, [*names, "sealed"]) if batch]
        gathered = self.read("gathered")
        if gathered:
            self.gathered = os.open(self.path("gathered"), os.O_RDWR)
            os.ftruncate(self.gathered, self.used)
            self.room = self.used
            self.rows = gathered.rows
            self.size = sum(map(len, self.rows))
        else:
            self.begin()
        return batches

    def read(self, name: str) -> Optional[Batch]:
        """One of its files, whose places are those from then on; None where it is not there."""
        try:
            with open(self.path(name), "rb") as file:
                text = file.read()
        except FileNotFoundError:
            return None
        end = text.find(b"\n") + 1
        try:
            head = json.loads(text[:end])
        except ValueError as error:
            if name == "gathered":
                # A stop of the machine has left nothing of it, and then it kept nothing yet.
                return None
            raise Fault(f"the spool {self.folder} is damaged: {name}") from error
        self.expect_owner(head)
        self.places = {(place[0], place[1]): Place(*place) for place in head["places"]}
        rows: list[bytes] = []
        while True:
            self.used = end
            entry, end = entry_at(text, end)
            if entry is None:
                return Batch(name, head, rows)
            place = Place(*entry["place"])
            if place.path:
                self.places[place[:2]] = place
            rows += entry["rows"]

    def expect_owner(self, head: dict[str, Any]) -> None:
        """A fault where a file is not of this warehouse."""
        if head["form"] != FORM:
            raise Fault(f"the spool {self.folder} has another form than this feed")
        if self.owner["inode"] != head["inode"] and self.owner["folder"] != head["folder"]:
            raise Fault(f"the spool {self.folder} is of another folder: {head['folder']}")
        if self.owner["schema"] != head["schema"]:
            raise Fault(f"the spool {self.folder} is of another schema")

    # ---- what is gathered

    def head(self, **more: Any) -> dict[str, Any]:
        """The first line of a file that begins now."""
        return {**self.owner, "places": list(self.places.values()), **more}

    def begin(self) -> None:
        """Begins to gather."""
        self.gathered = os.open(
            self.path("gathered.new"), os.O_RDWR | os.O_CREAT | os.O_TRUNC, 0o666
        )
        self.used, self.room, self.rows, self.size = 0, 0, [], 0
        self.write(line_of(self.head()))
        os.rename(self.path("gathered.new"), self.path("gathered"))

    def write(self, text: bytes) -> None:
        """Writes at the end of what is gathered."""
        assert self.gathered is not None
        try:
            while text:
                written = os.pwrite(self.gathered, text, self.used)
                self.used, text = self.used + written, text[written:]
        except OSError as error:
            raise Fault(f"the spool {self.folder} has no room: {error.strerror}") from error

    def reserve(self) -> None:
        """Takes the room for one more piece, so that what is read can be kept."""
        assert self.gathered is not None
        if self.room < self.used + ROOM:
            os.posix_fallocate(self.gathered, self.used, 2 * ROOM)
            self.room = self.used + 2 * ROOM

    def add(self, place: Place, rows: list[bytes]) -> None:
        """Keeps the rows of a piece, with the place after it."""
        self.write(entry_of(place, rows))
        self.places[place[:2]] = place
        self.rows += rows
        self.size += sum(map(len, rows)) + len(rows)

    def forget(self, place: Place) -> None:
        """Lets go of a source that is read to its end."""
        self.places.pop(place[:2], None)

    def forget_input(self) -> None:
        """Lets go of standard input that was read to its end: another file may come there next."""
        assert self.gathered is not None
        for place in list(self.places.values()):
            if place.path == INPUT:
                self.forget(place)
        os.close(self.gathered)
        self.begin()
        self.sync("gathered")
        os.fsync(self.descriptor)

    # ---- what is sent

    def seal(self) -> Batch:
        """The batch that was gathered."""
        assert self.gathered is not None
        os.ftruncate(self.gathered, self.used)
        # The next file begins with the places after these rows, so they have to be there whenever
        # it is.
        os.fsync(self.gathered)
        os.close(self.gathered)
        os.rename(self.path("gathered"), self.path("sealed"))
        batch = Batch("sealed", self.head(), self.rows)
        self.begin()
        return batch

    def sync(self, name: str) -> None:
        """Syncs one of its files."""
        descriptor = os.open(self.path(name), os.O_RDONLY)
        try:
            os.fsync(descriptor)
        finally:
            os.close(descriptor)

    def number(self, batch: Batch, number: int) -> None:
        """Gives a batch its number, before it is sent."""
        self.sync("gathered")
        batch.number = number
        self.rename(batch, batch.name)

    def rename(self, batch: Batch, name: str) -> None:
        """Makes a file that of a batch, by its number."""
        batch.name = f"sending.{batch.number}"
        os.rename(self.path(name), self.path(batch.name))
        os.fsync(self.descriptor)

    def rewrite(self, batch: Batch, rows: list[bytes], refused: str, offset: int) -> None:
        """Leaves only these rows in a batch, and notes what was refused and where in its file
        that stands."""
        batch.head = {
            **batch.head,
            "refused": batch.head.get("refused", "") + refused,
            "offset": batch.head.get("offset", offset),
        }
        batch.rows = rows
        descriptor = os.open(self.path("sending.new"), os.O_WRONLY | os.O_CREAT | os.O_TRUNC, 0o666)
        with os.fdopen(descriptor, "wb") as file:
            file.write(line_of(batch.head) + entry_of(Place("", 0), rows))
            file.flush()
            os.fsync(descriptor)
        self.rename(batch, "sending.new")

    def drop(self, batch: Batch) -> None:
        """Lets go of a batch that is acknowledged."""
        os.remove(self.path(batch.name))


def line_of(value: dict[str, Any]) -> bytes:
    """A line of JSON."""
    return json.dumps(value).encode() + b"\n"


def entry_of(place: Place, rows: Sequence[bytes]) -> bytes:
    """The bytes of a piece."""
    text = b"".join(row + b"\n" for row in rows)
    lengths = {} if text.count(b"\n") == len(rows) else {"lengths": list(map(len, rows))}
    return line_of({"place": place, "bytes": len(text), "sum": zlib.crc32(text), **lengths}) + text


def entry_at(text: bytes, start: int) -> tuple[Optional[dict[str, Any]], int]:
    """The piece at an offset and the offset after it; None where no whole one is."""
    end = text.find(b"\n", start) + 1
    try:
        entry = json.loads(text[start:end])
        behind = end + entry["bytes"]
        rows = text[end:behind]
        is_whole = len(rows) == entry["bytes"] and zlib.crc32(rows) == entry["sum"]
    except (ValueError, KeyError, TypeError):
        is_whole = False
    if not is_whole:
        return None, start
    if "lengths" in entry:
        entry["rows"], place = [], 0
        for length in entry["lengths"]:
            entry["rows"].append(rows[place : place + length])
            place += length + 1
    else:
        entry["rows"] = rows.split(b"\n")[:-1]
    return entry, behind
