"""Which rows the numbered batches of a folder had, and where they came from.

The program knows of a numbered batch only that it counts: it answers `already N` to any rows under
that number. So each tool that sends numbered batches first notes in the file `.batches` of the
folder which rows they are, and syncs that line. A line has

    CHECK NUMBER FACTS ROWS SUM FIRST FRONTS SOURCE

the CRC-32 of what follows, in eight digits of hex, the number of the batch, the facts that the
folder had before it, the rows of the batch, the BLAKE2b of 16 bytes, in hex, of these rows as they
are sent, each with its line feed, the row of the source that comes first, the sums of fronts, and
the source: the path of a file, or a word, as a text of JSON. FIRST counts from 1; it is 0 for
sources whose rows have no places. FRONTS has the first eight digits of the sums of the first 1, 2,
4, 8 .. rows, with commas between them, for the first batch of a file, and else `-`: by these a
shorter file is known that begins with the same rows.

If a number stands in several lines, the last one is what was sent last. A batch counts if its
number is below the one that is due. So a line that a stop has torn does not count, nor does one
whose batch never reached the program. A line `CHECK old FROM TO` stands for batches without places
whose lines were dropped to keep the file short. A line `CHECK from NUMBER` says that the user knows
what the batches before this one had; without it each batch of the folder has to have a line, or a
load of rows that may be among them is refused. A line `CHECK same [SOURCE, OTHER]` says that SOURCE
is the file whose rows are noted as those of OTHER: it was renamed or copied.

Whoever writes to the file holds the lock W of `turns`.
"""
from __future__ import annotations

import hashlib
import json
import os
import warnings
import zlib
from dataclasses import dataclass, field
from typing import Iterable, NamedTuple, Optional

from .errors import Changed, Fault
from .ui import counted

NAME = ".batches"
FEED, PYTHON, SHARD = "feed", "python", "shard"  # sources that are no files
LONGEST, LINES_KEPT = 1 << 20, 1_000  # bytes from which on old lines are dropped, and those kept


class Noted(NamedTuple):
    """What is known of a batch."""

    number: int
    facts: int
    rows: int
    sum: str
    first: int
    source: str
    fronts: tuple[str, ...] = ()

    def text(self) -> str:
        """The line of the file, without its check."""
        fronts = ",".join(self.fronts) or "-"
        return " ".join(map(str, self[:5])) + f" {fronts} {json.dumps(self.source)}"


@dataclass
class Loaded:
    """Rows of one source that the folder has: batches whose rows follow each other there."""

    source: str
    first: int
    batches: list[Noted] = field(default_factory=list)

    def next_row(self) -> int:
        """The row of the source that comes next."""
        return self.first + sum(batch.rows for batch in self.batches)

    def numbers(self) -> str:
        """The numbers of its batches in words: `batch 3`, `batches 3 to 7`."""
        first, last = self.batches[0].number, self.batches[-1].number
        return f"batch {first}" if first == last else f"batches {first} to {last}"


def sum_of(rows: Iterable[bytes]) -> str:
    """The sum of rows, each of which has its line feed."""
    found = hashlib.blake2b(digest_size=16)
    for row in rows:
        found.update(row)
    return found.hexdigest()


class Record:
    """The record of a folder where the batch `due` comes next and which has `facts` facts."""

    def __init__(self, folder: str, due: int, facts: int) -> None:
        self.folder, self.path, self.due = folder, os.path.join(folder, NAME), due
        self.noted: dict[int, Noted] = {}
        self.old: list[tuple[int, int]] = []
        self.begins = 0
        self.others: dict[str, str] = {}
        self.is_there = due > 1 and os.path.exists(self.path)
        if self.is_there:
            self.read()
            self.expect_folder(facts)

    # ---- what is there

    def read(self) -> None:
        """Reads the lines. What is no line was torn by a stop, and its batch was never sent."""
        with open(self.path, "rb") as file:
            lines = file.read().split(b"\n")[:-1]
        for line in lines:
            check, _, text = line.partition(b" ")
            if check != b"%08x" % zlib.crc32(text):
                continue
            word, *numbers = text.split(b" ", 6)
            if word == b"old":
                self.old.append((int(numbers[0]), int(numbers[1])))
            elif word == b"from":
                self.begins = max(self.begins, int(numbers[0]))
            elif word == b"same":
                source, other = json.loads(text[5:])
                self.others[source] = other
            else:
                noted = noted_in(text)
                self.noted[noted.number] = noted

    def expect_folder(self, facts: int) -> None:
        """Tests that the file can be that of the folder; a fault if it can't."""
        last = max(self.noted, default=0)
        before = self.noted.get(self.due - 1)
        if last > self.due or before and before.facts + before.rows > facts:
            number = last if last > self.due else self.due - 1
            raise Fault(
                f"{self.path} has batch {number}, which this folder never took: the file is of"
                " another folder, or the folder was set back. If it was set back, take the lines"
                f" from `{self.due} ` on out of the file"
            )

    def of(self, number: int) -> Optional[Noted]:
        """What is known of a batch that counts."""
        return self.noted.get(number) if number < self.due else None

    def unknown(self, facts: int) -> str:
        """The facts or the batch without a line, in words; no text if there is none."""
        before = self.noted[1].facts if 1 in self.noted else 0 if self.is_there else facts
        if before and not self.begins:
            return counted(before, "fact")
        number = self.gap(1)
        return f"batch {number}" if number else ""

    def gap(self, number: int) -> Optional[int]:
        """The first batch that counts and has no line, from a number on; None if there is none."""
        number = max(number, self.begins)
        for low, high in sorted([*self.old, *((each, each) for each in self.noted)]):
            if low > number:
                break
            number = max(number, high + 1)
        return number if number < self.due else None

    def settle(self) -> None:
        """Notes that the user knows what the folder had before the batch that is due."""
        self.begins = self.due
        self.write(f"from {self.due}")

    def name_of(self, source: str) -> str:
        """The name by which the rows of a source are noted."""
        return self.others.get(source, source)

    def note_same(self, source: str, other: str) -> None:
        """Notes that the rows of a source are those of another one."""
        self.others[source] = other
        self.write("same " + json.dumps([source, other]))

    def loads(self) -> list[Loaded]:
        """The rows of sources with places that the folder has."""
        last: dict[str, Loaded] = {}
        found: list[Loaded] = []
        for number in sorted(number for number in self.noted if number < self.due):
            noted = self.noted[number]
            load = last.get(noted.source)
            if not noted.first:
                continue
            if not load or load.next_row() != noted.first:
                load = last[noted.source] = Loaded(noted.source, noted.first)
                found.append(load)
            load.batches.append(noted)
        return found

    # ---- what is sent

    def note(self, noted: Noted) -> None:
        """Notes a batch before it is sent, and syncs the file."""
        self.noted[noted.number] = noted
        self.write(noted.text())

    def write(self, text: str) -> None:
        """Adds a line to the file, and syncs it."""
        if not self.is_there:
            self.replace([text])
            return
        with open(self.path, "r+b") as file:
            size = file.seek(0, os.SEEK_END)
            file.seek(max(size - 1, 0))
            torn = size > 0 and file.read(1) != b"\n"
            file.write(b"\n" * torn + line_of(text))
            file.flush()
            os.fsync(file.fileno())
        if size > LONGEST:
            self.shorten()

    def shorten(self) -> None:
        """Drops the lines of old batches without places."""
        gone = [each.number for each in self.noted.values() if not each.first]
        gone = [number for number in sorted(gone) if number < self.due - LINES_KEPT]
        if len(gone) < LINES_KEPT:
            return
        for number in gone:
            del self.noted[number]
            if self.old and self.old[-1][1] == number - 1:
                self.old[-1] = (self.old[-1][0], number)
            else:
                self.old.append((number, number))
        self.write_anew()

    def forget(self, number: int) -> None:
        """Drops the lines of batches from a number on, which were taken back."""
        gone = [each for each in self.noted if each >= number]
        for each in gone:
            del self.noted[each]
        self.due = min(self.due, number)
        self.begins = min(self.begins, number)
        if self.is_there and gone:
            self.write_anew()

    def write_anew(self) -> None:
        """Writes all lines anew."""
        texts = [f"from {self.begins}"] if self.begins else []
        texts += [f"old {first} {last}" for first, last in self.old]
        texts += ["same " + json.dumps(pair) for pair in self.others.items()]
        self.replace(texts + [self.noted[number].text() for number in sorted(self.noted)])

    def replace(self, texts: list[str]) -> None:
        """Makes the file anew."""
        with open(self.path + ".new", "wb") as file:
            file.writelines(map(line_of, texts))
            file.flush()
            os.fsync(file.fileno())
        os.rename(self.path + ".new", self.path)
        sync_folder(self.folder)
        self.is_there = True


class Numbered:
    """The numbered batches of a writer: each is compared or noted before it is sent."""

    def __init__(self, folder: str, due: int, facts: int, source: str) -> None:
        self.record, self.facts, self.source = Record(folder, due, facts), facts, source

    def is_new(self, number: int, rows: list[bytes]) -> bool:
        """Whether a batch is to be sent. It is not if it counts with these rows; if it counts with
        other rows that is a Changed, and if it is not known with which ones, a warning."""
        noted, found = self.record.of(number), sum_of(rows)
        if number >= self.record.due:
            if number == self.record.due:
                self.record.note(Noted(number, self.facts, len(rows), found, 0, self.source))
            return True
        if noted is None:
            warnings.warn(f"batch {number} counts already, and it is not known with which rows")
        elif noted.sum != found:
            raise Changed(f"batch {number} was loaded with other rows, from {noted.source}")
        return False

    def count(self, number: int, facts: int) -> None:
        """Counts a batch that was acknowledged, after which there are `facts` facts."""
        self.record.due, self.facts = number + 1, facts


def line_of(text: str) -> bytes:
    """A line of the file, with its check."""
    return b"%08x %s\n" % (zlib.crc32(text.encode()), text.encode())


def noted_in(text: bytes) -> Noted:
    """What the line of a batch notes."""
    words = text.decode().split(" ", 6)
    number, facts, rows, first = (int(words[place]) for place in (0, 1, 2, 4))
    fronts = () if words[5] == "-" else tuple(words[5].split(","))
    return Noted(number, facts, rows, words[3], first, json.loads(words[6]), fronts)


def sync_folder(folder: str) -> None:
    """Syncs a folder in which a file was made."""
    descriptor = os.open(folder, os.O_RDONLY)
    try:
        os.fsync(descriptor)
    finally:
        os.close(descriptor)
