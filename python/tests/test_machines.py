"""Tests of shards on many machines: what is wrong is named, and workers are killed."""
import contextlib
import fcntl
import os
import random
import signal
import subprocess
import threading
import time
from typing import Any
from zlib import crc32

import pytest

from cubetree.process import program
from cubetree.status import Status
from tests import helpers
from tests.engines import ManyMachines, lines_of, pipe_to, rows_of, sums_in_sqlite
from tests.helpers import CUBE, SCHEMA, run


class Messages(ManyMachines):
    COUNT = 2

    def failed(self, status: int, wanted: str, command: str, *words: str) -> None:
        """A command ends with this status, and says this, with nothing on standard output."""
        told, said = self.shards(command, *words, status=status)
        self.assertEqual(told, "")
        self.assertRegex(said.splitlines()[-1], wanted)
        self.assertLess(said.count("\n"), 5)

    def row(self, shard: int, number: str) -> str:
        """A row that goes to this shard."""
        return next(
            row
            for row in (f"p{part},1,{number}" for part in range(100))
            if crc32(row.encode()) % 2 == shard
        )

    def test_messages(self) -> None:
        """Each thing that can be wrong is named, with a status of its own."""
        self.unknown()
        self.refused()
        self.changed_and_damaged()
        self.missing()
        self.dying()
        self.words()

    def unknown(self) -> None:
        self.failed(
            11, r"shard 1 \(.*/f0 on tcp://127.0.0.1:\d+\): there is no such folder", "status"
        )
        os.mkdir("f0")
        self.failed(
            11, "shard 1 .*: the folder is no shard: `shards init` makes it one", "ask", "count"
        )
        self.put("bad", "attr part\n")
        self.failed(1, "the schema was refused: refused schema line 1: attr part", "init", "bad")
        self.shards("init", "schema")
        self.name(1, 0)
        self.failed(
            11, "shard 1 .*: the folder is shard 2 of 2, and is named as shard 1 of 2", "status"
        )
        self.name(0)
        self.failed(
            11,
            "shard 1 .*: the folder is shard 1 of 2, and is named as shard 1 of 1",
            "load",
            self.put("file", "part,year,qty\na,1,1\n"),
        )
        self.name()
        self.put("other", SCHEMA + "view part\n")
        self.failed(11, "shard 1 .*: the folder has another schema", "init", "other")
        os.mkdir("w/x")
        run(program(), given=f"schema\n{SCHEMA}end\nload\na,1,1\nend\n".encode(), cwd="w/x")
        self.name(folders="w/x")
        with open("shards") as file:
            first = file.read().splitlines()
        self.put("shards", "\n".join(first[:2]))
        self.failed(
            11, "shard 1 .*: the folder has facts that no shard has loaded", "init", "schema"
        )
        self.name()

    def refused(self) -> None:
        first, second = self.row(0, "1"), self.row(1, "2")
        self.put("file", f"part,year,qty\n{first}\n{second}\np1,x,1\n{second}\n")
        self.failed(
            1,
            (
                "row 3 was refused: year is no whole number, or is out of range; take it out of the"
                " file, and the same words go on"
            ),
            "load",
            "file",
        )
        self.put("file", f"part,year,qty\n{first}\n{second}\n{second}\n")
        self.shards("load", "--number", "1", "file")
        self.assertEqual(self.answers()[0], [["3", "5", "1", "2"]])
        self.assertEqual(
            self.shards("ask", "--json", "count,sum(qty)")[0], '{"count": 3, "sum(qty)": 5}\n'
        )
        self.failed(
            1, "the shards have facts already: --number tells the first batches", "load", "file"
        )
        self.failed(
            1, "--number has 3 numbers, and there are 2 shards", "load", "--number", "1,2,3", "file"
        )
        self.failed(
            1,
            "shard [12] .*: batch 5 was refused: the shard has no batch before it",
            "load",
            "--number",
            "5",
            "file",
        )
        self.failed(
            1,
            "row 1 has a line that is `end`",
            "load",
            "--number",
            "2",
            self.put("ends", 'part,year,qty\n"a\nend\nb",1,1\n'),
        )
        self.failed(
            1,
            "the header has no column for `year`; its columns are part, qty",
            "load",
            "--number",
            "2",
            self.put("narrow", "part,qty\na,1\n"),
        )
        self.failed(1, "nothing: No such file", "load", "--number", "2", "nothing")
        self.failed(1, r" +\^", "ask", "sum(cost)")
        self.failed(1, "a query in SQL is for one folder", "ask", "select count(*) from facts")
        self.failed(1, "a slice is one line", "ask", "count\nstatus")

    def changed_and_damaged(self) -> None:
        changed = f"part,year,qty\n{self.row(0, '7')}\n"
        self.failed(
            6,
            "shard 1 .*: batch 1 was loaded with other rows",
            "load",
            "--number",
            "1",
            self.put("file", changed),
        )
        half = str(1 << 126)
        self.put("file", f"part,year,qty\n{self.row(0, half)}\n{self.row(1, half)}\n")
        self.shards("load", "--number", "2", "file")
        self.failed(
            12,
            r"the numbers of a column add up to more than 2\^127 - 1 over all shards",
            "ask",
            "sum(qty)",
        )
        self.assertEqual(self.shards("ask", "--csv", "count")[0], "count\n5\n")
        with open("f1/root", "rb") as file:
            root = file.read()
        with open("f1/root", "r+b") as file:
            for slot in range(2):  # the number of the format in each body
                file.seek(1024 * slot + 8)
                file.write(b"xx")
        self.failed(
            11,
            r"shard 2 .*: the program ended with the status 6: cubetree: damaged file 0 at \d+",
            "ask",
            "count",
        )
        self.failed(
            11, "shard 2 .*: the program ended with the status 6", "load", "--number", "3", "file"
        )
        with open("f1/root", "wb") as file:
            file.write(root)
        with open("f0/.turns/writer") as lock:
            fcntl.flock(lock, fcntl.LOCK_EX)
            self.failed(
                4, "shard 1 .*: another run is in ", "load", "--no-wait", "--number", "3", "file"
            )

    def missing(self) -> None:
        self.put("early", "")
        self.failed(3, "shard 1 .*: the program ended with the status 7", "status")
        os.remove("early")
        with open("shards") as file:
            lines = file.read().splitlines()
        self.put("shards", "\n".join([*lines[:2], f"tcp://127.0.0.1:9 {self.room}/f1"]))
        self.failed(
            10,
            (
                "shard 2 .*/f1 on tcp://127.0.0.1:9.: the scheduler has had no worker of this"
                " address for 1 second"
            ),
            "status",
            "--patience",
            "1",
        )
        self.name(scheduler="tcp://127.0.0.1:9")
        self.failed(
            9, "no scheduler answers at tcp://127.0.0.1:9", "ask", "--patience", "1", "count"
        )
        self.name()
        os.mkdir("no")
        self.put("no/distributed.py", "raise ImportError\n")
        self.put(
            "no/sitecustomize.py",
            f"import sys\nsys.path.insert(0, {os.path.join(self.room, 'no')!r})\n",
        )
        told, said = self.shards("status", status=9, env=dict(os.environ, PYTHONPATH="no"))
        self.assertEqual(
            (told, said),
            (
                "",
                (
                    "cube shards: /usr/bin/python3 has no package `distributed`: apt install"
                    " python3-distributed, which is for /usr/bin/python3\n"
                ),
            ),
        )
        fold = self.put(
            "fold", "#!/bin/sh\ncat > none\necho 'cubefold: no whole reply' >&2\nexit 11\n"
        )
        os.chmod(fold, 0o755)
        told, said = self.shards(
            "ask", "count", status=12, env=dict(os.environ, CUBEFOLD=os.path.abspath(fold))
        )
        self.assertEqual(told, "")
        self.assertEqual(
            said.splitlines()[-1],
            "cube shards: the replies cannot be folded: cubefold: no whole reply",
        )
        self.assertRegex(
            said,
            (
                "^cube shards: the load of .*/file has begun and not ended: the answers may have"
                " some of its rows"
            ),
        )

    def dying(self) -> None:
        self.put("die", "")
        self.failed(10, "shard [12] .*: its worker has died 2 times in one task", "ask", "count")
        os.remove("die")
        self.assertEqual(self.shards("ask", "--csv", "count")[0], "count\n5\n")

    def test_lost_in_a_load(self) -> None:
        """A worker that does not come back, and a scheduler that is lost, end a load that is
        under way."""
        self.shards("init", "schema")
        self.cut_off(
            Status.WORKER,
            "shard 1 .*: the scheduler has had no worker of this address for 1 second",
            self.lose_worker,
        )
        self.cut_off(Status.ENGINE, "the scheduler was lost", self.machines.scheduler.kill)

    def lose_worker(self) -> None:
        """Ends the first worker for good."""
        worker = self.machines.worker_of(0)
        assert worker is not None
        self.machines.nannies[0].kill()
        with contextlib.suppress(ProcessLookupError):
            os.kill(worker, signal.SIGKILL)

    def cut_off(self, status: int, wanted: str, lose: Any) -> None:
        """A load ends so when something is lost in its midst."""
        os.mkfifo("pipe")
        patience = "1" if status == Status.WORKER else "60"
        words = [
            "load",
            *self.where,
            "--patience",
            patience,
            "--number",
            "1",
            "--batch",
            "100",
            "pipe",
        ]
        begun = subprocess.Popen([CUBE, "shards", *words], stderr=subprocess.PIPE)
        with contextlib.suppress(BrokenPipeError), pipe_to(begun, "pipe") as pipe:
            pipe.write("part,year,qty\n" + lines_of(rows_of(1, 2000)))
            pipe.flush()
            time.sleep(1)
            lose()
            pipe.write(lines_of(rows_of(2, 30_000)))
        said = begun.communicate(timeout=100)[1].decode()
        self.assertEqual(begun.returncode, status, said)
        self.assertRegex(said, wanted)
        os.remove("pipe")
        if status == Status.WORKER:
            self.machines.start_worker(0)
            self.machines.addresses[0] = self.machines.addresses.pop()
            self.name()

    def words(self) -> None:
        for words in (
            ["status"],
            ["status", "--local", "x", "--shards", "y"],
            ["load", "--local", "x"],
            ["init", "--shards", "x", "--count", "2", "s"],
            ["never"],
            [],
        ):
            run(CUBE, "shards", *words, status=2)
        for words in (
            ["--batch", "0"],
            ["--number", "0"],
            ["--number", "x"],
            ["--delimiter", "xx"],
            ["--patience", "-1"],
        ):
            run(CUBE, "shards", "load", "--local", "x", *words, "file", status=2)
        self.assertIn(
            "s has no shards: `cube shards init` makes them",
            run(CUBE, "shards", "status", "--local", "s", status=11)[1],
        )
        self.assertIn("usage", run(CUBE, "shards", "--help")[0])


@pytest.mark.slow
class KilledWorkers(ManyMachines):
    """A load during which workers are killed."""

    APART, DEATHS = True, 100

    def test_killed_at_random(self) -> None:
        """Workers are killed until twenty had a batch; the sums are those of SQLite in the end,
        and each fact counts once."""
        signal.alarm(300 + 10 * helpers.KILLS)
        draw, rows, is_over = random.Random(time.time_ns()), rows_of(58, 100), threading.Event()
        self.shards("init", "schema")
        os.mkfifo("pipe")
        begun = subprocess.Popen(
            [CUBE, "shards", "load", *self.where, "--batch", "250", "pipe"],
            stderr=subprocess.PIPE,
        )
        self.addCleanup(begun.communicate)
        self.addCleanup(begun.kill)

        def write() -> None:
            """Writes facts until the last worker was killed, as fast as the load takes them."""
            with open("pipe", "w", newline="") as pipe:
                pipe.write("part,year,qty\n" + lines_of(rows))
                for seed in range(1 << 30):
                    if is_over.is_set():
                        return
                    some = rows_of(seed, 1000)
                    rows.extend(some)
                    pipe.write(lines_of(some))

        writer = threading.Thread(target=write, daemon=True)
        writer.start()
        were_busy = 0
        while were_busy < helpers.KILLS:
            time.sleep(draw.random())
            were_busy += self.machines.kill_worker(draw.randrange(self.COUNT), 2)
        self.assertIsNone(begun.poll(), "the load has ended early")
        is_over.set()
        said = begun.communicate(timeout=300)[1].decode()
        self.assertEqual(begun.returncode, 0, said)
        writer.join()
        self.assertRegex(
            said,
            (
                rf"rows loaded(, [\d,]+ were there already)?; the shards keep {len(rows):,} facts;"
                r" the next numbers are "
            ),
        )
        self.assertIn(
            f"4 shards: {len(rows):,} facts, the next batches are ", self.shards("status")[0]
        )
        self.assertEqual(self.answers(), sums_in_sqlite(rows))
