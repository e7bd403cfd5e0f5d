"""What the tests of shards with an engine have in common."""
import contextlib
import csv
import io
import os
import random
import signal
import sqlite3
import subprocess
import time
import unittest
from typing import Any, Optional, TextIO

from cubetree.process import program
from tests.helpers import CUBE, SCHEMA, Case, run, wait_too_long
from tests.machines import Machines, has_engine

SLICES = [
    "count,sum(qty),min(qty),max(qty)",
    "sum(qty),count by part",
    "max(qty) by part,year where year=1999..2003",
    "min(qty) by year where part=p7",
    "sum(qty) by part where year=7",
]


def rows_of(seed: int, count: int) -> "list[tuple[str, int, int]]":
    """Facts that are drawn, the same ones each time."""
    draw = random.Random(seed)
    return [
        (
            (
                draw.choice(["a,b", 'say "x"', "größe"])
                if draw.random() < 0.01
                else f"p{draw.randrange(40)}"
            ),
            draw.randrange(1990, 2020),
            draw.randrange(-99, 1000),
        )
        for _ in range(count)
    ]


def lines_of(rows: "list[tuple[str, int, int]]") -> str:
    """Their lines as csv."""
    text = io.StringIO()
    csv.writer(text, lineterminator="\n").writerows(rows)
    return text.getvalue()


def sums_in_sqlite(rows: "list[tuple[str, int, int]]") -> "list[list[list[str]]]":
    """What SQLite answers to the slices, over the same rows."""
    base = sqlite3.connect(":memory:")
    base.execute("create table facts (part text, year int, qty int)")
    base.executemany("insert into facts values (?, ?, ?)", rows)
    queries = [
        "select count(*), sum(qty), min(qty), max(qty) from facts",
        "select part, sum(qty), count(*) from facts group by part order by part",
        (
            "select part, year, max(qty) from facts where year between 1999 and 2003 group by part,"
            " year order by part, year"
        ),
        "select year, min(qty) from facts where part = 'p7' group by year order by year",
        "select part, sum(qty) from facts where year = 7 group by part order by part",
    ]
    return [[[str(cell) for cell in row] for row in base.execute(query)] for query in queries]


def pipe_to(process: "subprocess.Popen[bytes]", path: str) -> TextIO:
    """The end of a named pipe that a process reads; a failure if the process ends before."""
    while process.poll() is None:
        with contextlib.suppress(OSError):
            descriptor = os.open(path, os.O_WRONLY | os.O_NONBLOCK)
            os.set_blocking(descriptor, True)
            return open(descriptor, "w")
        time.sleep(0.02)
    raise AssertionError(process.communicate()[1])


@unittest.skipUnless(has_engine(), "no package python3-distributed")
class WithEngine(Case):
    """Tests with the engine."""

    def setUp(self) -> None:
        super().setUp()
        signal.signal(signal.SIGALRM, wait_too_long)
        signal.alarm(self.MOST_SECONDS)
        self.addCleanup(signal.alarm, 0)
        self.put("schema", SCHEMA)

    MOST_SECONDS = 600
    where: "list[str]" = []

    def shards(self, command: str, *words: str, **more: Any) -> "tuple[str, str]":
        return run(CUBE, "shards", command, *self.where, *words, **more)

    def answers(self) -> "list[list[list[str]]]":
        """The rows of the answers to all slices."""
        told = self.shards("ask", "--csv", given="".join(text + "\n" for text in SLICES).encode())[
            0
        ]
        return [list(csv.reader(io.StringIO(text)))[1:] for text in told.split("\n\n")]


class ManyMachines(WithEngine):
    """Shards by a scheduler that runs beside."""

    COUNT, APART, DEATHS = 4, False, 1
    machines: Machines
    # What the workers run in the place of the program: it does what a file beside it says.
    STUB = (
        '#!/bin/sh\nif [ -e "$ROOM/die" ]; then kill -9 $PPID; exit 1; fi\nif [ -e "$ROOM/early" ];'
        ' then exit 7; fi\nexec "$PROGRAM"\n'
    )

    def setUp(self) -> None:
        super().setUp()
        self.put("stub", self.STUB)
        os.chmod("stub", 0o755)
        self.machines = Machines(
            self.room,
            self.COUNT,
            self.APART,
            self.DEATHS,
            CUBETREE=os.path.join(self.room, "stub"),
            ROOM=self.room,
            PROGRAM=program(),
        )
        self.addCleanup(self.machines.stop)
        self.where = ["--shards", "shards"]
        self.name()

    def name(self, *order: int, folders: str = "f{}", scheduler: Optional[str] = None) -> None:
        """Writes the file of shards."""
        lines = [f"scheduler {scheduler or f'tcp://127.0.0.1:{self.machines.port}'}"]
        lines += [
            f"{self.machines.addresses[number]} {os.path.join(self.room, folders.format(number))}"
            for number in order or range(self.COUNT)
        ]
        self.put("shards", "\n".join(lines))
