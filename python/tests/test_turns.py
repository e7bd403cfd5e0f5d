"""Tests of the turns that runs in one folder take."""
import errno
import fcntl
import io
import os
import random
import re
import signal
import subprocess
import threading
import time
from typing import Any
from unittest import mock

import cubetree
from cubetree import Busy, Fault
from cubetree import locks as turns
from cubetree.process import program
from tests.helpers import CUBE, UNDO, Case, ask, load, run, until, wait_too_long

LAST = "cube load: to take the last 30 of them back: cube undo --folder w\n"


class Turns(Case):
    """Tools beside each other in a folder: python/cubetree/locks.py says who waits for whom."""

    BUSY = "another run is in w\n"
    WAITS = "waits for another run in w\n"
    # Hands its lines on to the program, and the end of a block of rows only once the file `go` is
    # there.
    SLOW = """#!/bin/sh
while IFS= read -r line; do
    if [ "$line" = end ] && [ "$before" != "load 18446744073709551615" ]; then
        touch ../mid
        until [ -e ../go ]; do sleep 0.02; done
    fi
    printf '%s\\n' "$line"
    before=$line
done | "$PROGRAM"
"""

    def setUp(self) -> None:
        super().setUp()
        signal.signal(signal.SIGALRM, wait_too_long)
        signal.alarm(300)
        self.addCleanup(signal.alarm, 0)
        run(program(), given=b"schema\nattr part text\nmeasure qty\nview part\nend\n", cwd="w")
        self.into = ["--into", "w"]

    def start(self, tool: str, *words: str, **more: Any) -> "subprocess.Popen[bytes]":
        """A tool that goes on beside the test."""
        begun = subprocess.Popen(
            [CUBE, tool, *words],
            **{"stdout": subprocess.PIPE, "stderr": subprocess.PIPE, **more},
        )
        self.addCleanup(begun.communicate)
        self.addCleanup(begun.kill)
        return begun

    def start_load(
        self, rows: bytes, *words: str
    ) -> "tuple[subprocess.Popen[bytes], io.RawIOBase]":
        """A load whose file is a pipe that has these rows, and the end of it that takes more."""
        os.mkfifo("pipe")
        begun = self.start("load", *self.into, *words, "pipe")
        pipe = open("pipe", "wb", buffering=0)
        self.addCleanup(pipe.close)
        pipe.write(b"part,qty\n" + rows)
        return begun, pipe

    def told_by(self, begun: "subprocess.Popen[bytes]") -> "tuple[str, str]":
        """What a tool told that has ended well."""
        told, said = begun.communicate(timeout=60)
        self.assertEqual(begun.returncode, 0, said)
        return told.decode(), said.decode()

    def is_free(self, *words: str) -> bool:
        """Whether a shell line would get this lock, or its turn in the folder."""
        return subprocess.run(["flock", "-n", *(words or ["w"]), "true"]).returncode == 0

    def expect_busy(self, *tools: str) -> None:
        """Without waiting these tools end with a status of their own."""
        self.put("more", "part,qty\nz,1\n")
        self.put("rows", "z,1\n")
        words = {
            "ask": ["--in", "w", "count"],
            "load": [*self.into, "more"],
            "refresh": ["--in", "w", "rows"],
        }
        for tool in tools:
            self.assertEqual(
                run(CUBE, tool, "--no-wait", *words[tool], status=4),
                ("", f"cube {tool}: {self.BUSY}"),
            )

    def test_answers_beside_a_load(self) -> None:
        """Twenty `ask` beside a load of 100 batches: each answer is that of the file's front up
        to the end of a batch."""
        draw = random.Random(49)
        batches = [
            [(f"p{draw.randrange(400)}", draw.randrange(-99, 1000)) for _ in range(30)]
            for _ in range(100)
        ]
        fronts, sums = {}, {}
        for number, batch in enumerate([[], *batches]):
            for part, qty in batch:
                sums[part] = [sums.get(part, [0, 0])[0] + qty, sums.get(part, [0, 0])[1] + 1]
            fronts[30 * number] = {part: list(each) for part, each in sums.items()}
        load, pipe = self.start_load(b"", "--batch", "30")
        asks = [self.start("ask", "--in", "w", "--csv", stdin=subprocess.PIPE) for _ in range(20)]
        seen: "list[list[int]]" = [[] for _ in asks]
        for first in range(0, 100, 10):
            pipe.write(
                "".join(
                    f"{part},{qty}\n"
                    for batch in batches[first : first + 10]
                    for part, qty in batch
                ).encode()
            )
            for each in asks:
                each.stdin.write(b"sum(qty),count by part\n" * 2 + b"count where part=none\n")
                each.stdin.flush()
            for each, counts in zip(asks, seen):
                for answer in self.two_answers(each):
                    counts.append(sum(count for _, count in answer.values()))
                    self.assertEqual(answer, fronts[counts[-1]])
        pipe.close()
        said = [self.told_by(load)[1], *(self.told_by(each)[1] for each in asks)]
        self.assertEqual(
            {re.sub(f".*: {self.WAITS}", "", each) for each in said},
            {"cube load: 3,000 rows loaded; the folder keeps 3,000 facts\n" + LAST, ""},
        )
        for counts in seen:
            self.assertEqual(counts, sorted(counts))
        self.assertGreater(len(set(sum(seen, []))), 5)
        self.assertEqual(self.rows("count"), [["3000"]])

    def two_answers(self, ask: "subprocess.Popen[bytes]") -> "list[dict[str, list[int]]]":
        """The rows of two answers, behind which one without rows stands."""
        answers: "list[dict[str, list[int]]]" = []
        for line in iter(ask.stdout.readline, b"count\n"):
            self.assertNotEqual(line, b"", "an ask ended early")
            if line.startswith(b"part,"):
                answers.append({})
            elif line != b"\n":
                part, *values = line.decode().split(",")
                answers[-1][part] = [int(value) for value in values]
        self.assertEqual(len(answers), 2)
        return answers

    def test_turnstile(self) -> None:
        """A reader that waits gets in before the next batch, and while a writer waits no new
        reader does."""
        writer, reader, other, order = (
            turns.Writer("cube load", "w"),
            turns.Reader("cube ask", "w"),
            turns.Reader("cube ask", "w", waits=False),
            [],
        )
        writer.enter()
        writer.begin_batch()
        waiting = threading.Thread(
            target=lambda: (
                reader.enter(),
                order.append("reader"),
                time.sleep(0.1),
                reader.leave(),
            ),
            daemon=True,
        )
        waiting.start()
        until(lambda: not self.is_free("w/.turns/queue"))
        writer.end_batch()
        writer.begin_batch()
        self.assertEqual(order, ["reader"])
        writer.end_batch()
        waiting.join()
        reader.enter()
        waiting = threading.Thread(target=writer.begin_batch, daemon=True)
        waiting.start()
        until(lambda: not self.is_free("-s", "w/.turns/queue"))
        with self.assertRaises(Busy):
            other.enter()
        reader.leave()
        waiting.join()
        writer.leave()
        other.enter()
        other.leave()

    def test_two_loads_begun_at_once(self) -> None:
        """One waits until the other is through, and nothing of either is lost."""
        names = ["a", "b", "c"]
        for name in names:
            self.put(name, "part,qty\n" + "".join(f"{name}{i % 70},{i}\n" for i in range(600)))
        for load in [self.start("load", *self.into, "--batch", "50", name) for name in names]:
            self.told_by(load)
        wanted = {
            f"{name}{part}": sum(range(part, 600, 70)) for name in names for part in range(70)
        }
        self.assertEqual({part: int(qty) for part, qty in self.rows("sum(qty) by part")}, wanted)

    def test_writer_waits_for_writer(self) -> None:
        """The second writer waits for the life of the first one, and says so; questions are
        answered meanwhile."""
        first, pipe = self.start_load(b"a,1\na,2\na,4\n", "--batch", "2")
        until(lambda: self.rows("count,sum(qty)") == [["2", "3"]])
        self.put("second", "part,qty\nb,8\n")
        second = self.start("load", *self.into, "second")
        self.assertEqual(second.stderr.readline().decode(), f"cube load: {self.WAITS}")
        self.expect_busy("load", "refresh")
        self.assertFalse(self.is_free())
        self.assertEqual(self.rows("count,sum(qty)"), [["2", "3"]])
        pipe.close()
        self.assertEqual(
            self.told_by(first)[1],
            (
                "cube load: 3 rows loaded; the folder keeps 3 facts\n"
                "cube load: to take the last 1 of them back: cube undo --folder w\n"
            ),
        )
        self.assertEqual(
            self.told_by(second)[1], "cube load: 1 row loaded; the folder keeps 4 facts\n" + UNDO
        )
        self.assertEqual(self.rows("sum(qty) by part"), [["a", "7"], ["b", "8"]])
        self.assertTrue(self.is_free())

    def test_tool_killed_in_a_batch(self) -> None:
        """Its locks hold until its program has taken the batch in."""
        self.put("slow", self.SLOW)
        os.chmod("slow", 0o755)
        self.put("file", "part,qty\na,1\na,2\n")
        load = self.start(
            "load",
            *self.into,
            "file",
            env=dict(os.environ, CUBETREE=os.path.abspath("slow"), PROGRAM=program()),
        )
        self.addCleanup(self.put, "go", "")
        until(lambda: os.path.exists("mid"))
        load.kill()
        load.wait()
        self.expect_busy("ask", "load", "refresh")
        late = self.start("ask", "--in", "w", "--csv", "count,sum(qty)")
        self.assertEqual(late.stderr.readline().decode(), f"cube ask: {self.WAITS}")
        self.put("go", "")
        self.assertEqual(self.told_by(late), ("count,sum(qty)\n2,3\n", ""))

    def test_shell_line(self) -> None:
        """`flock FOLDER cubetree` and the tools exclude each other."""
        shell = subprocess.Popen(
            ["flock", ".", program()], cwd="w", stdin=subprocess.PIPE, stdout=subprocess.PIPE
        )
        self.addCleanup(shell.communicate)
        for number in (1, 2):
            shell.stdin.write(b"load\na,1\nend\n")
            shell.stdin.flush()
            self.assertEqual(shell.stdout.readline(), b"committed %d\n" % number)
            self.expect_busy("ask", "load", "refresh")
        late = self.start("ask", "--in", "w", "--csv", "count")
        shell.stdin.write(b"load\na,1\nend\n")
        shell.communicate()
        self.assertEqual(self.told_by(late), ("count\n3\n", ""))
        load, pipe = self.start_load(b"a,1\n", "--number", "1")
        until(lambda: not self.is_free())
        shell = subprocess.Popen(
            ["flock", ".", program()], cwd="w", stdin=subprocess.PIPE, stdout=subprocess.PIPE
        )
        pipe.write(b"a,1\n")
        pipe.close()
        self.assertEqual(shell.communicate(b"status\n")[0], b"facts 5\n")
        self.told_by(load)

    def test_ask_that_waits_is_in_nobodys_way(self) -> None:
        """An `ask` that waits for a line, or for whoever reads its answer, holds no lock; one
        with many lines gives its turn away after a second."""
        run(
            program(),
            given=b"load\n" + b"".join(b"p%d,1\n" % i for i in range(1000)) + b"end\n",
            cwd="w",
        )
        idle = self.start("ask", "--in", "w", "--csv", stdin=subprocess.PIPE)
        idle.stdin.write(b"count\n")
        idle.stdin.flush()
        self.assertEqual(idle.stdout.readline() + idle.stdout.readline(), b"count\n1000\n")
        until(self.is_free)
        here, there = os.pipe()
        self.addCleanup(os.close, here)
        fcntl.fcntl(there, 1031, 4096)  # F_SETPIPE_SZ: a pipe that has no room for the answer
        full = self.start("ask", "--in", "w", "--csv", "count by part", stdout=there)
        os.close(there)
        self.assertEqual(os.read(here, 11), b"part,count\n")
        until(self.is_free)
        self.assertIsNone(full.poll())
        self.put("lines", "count by part where part=p7\n" * 200_000)
        with open("lines", "rb") as lines:
            busy = self.start("ask", "--in", "w", stdin=lines, stdout=subprocess.DEVNULL)
        until(lambda: not self.is_free())
        self.put("file", "part,qty\na,1\n")
        self.assertIn("1 row loaded", load(*self.into, "--number", "1", "file")[1])
        self.assertIsNone(busy.poll())
        self.assertEqual(self.told_by(idle), ("", ""))

    def test_refresh_is_one_batch(self) -> None:
        """Other tools wait from `begin` to `finish`, and those that are begun then find a folder
        without a batch."""
        self.put("rows", "a,1\n")
        paced = self.start(
            "refresh",
            "--in",
            "w",
            "--step",
            "0.001",
            "--pause",
            "60000",
            "rows",
            stdin=subprocess.PIPE,
            start_new_session=True,
        )
        paced.stdin.write(b"status\n")
        paced.stdin.flush()
        self.assertEqual(paced.stdout.readline(), b"facts 0 pending 1\n")
        self.expect_busy("ask", "load", "refresh")
        paced.kill()
        self.assertEqual(self.rows("count"), [])

    def test_folder_that_cannot_be_locked(self) -> None:
        self.put("file", "part,qty\na,1\n")
        self.put("rows", "a,1\n")
        self.put("w/.turns", "")
        for tool, words in [
            ("ask", ["--in", "w", "count"]),
            ("load", [*self.into, "file"]),
            ("refresh", ["--in", "w", "rows"]),
            ("feed", ["--into", "w"]),
        ]:
            self.assertIn(
                "the folder w cannot be locked: w/.turns: File exists",
                run(CUBE, tool, *words, status=1)[1],
            )
        with cubetree.open("w") as warehouse, self.assertRaisesRegex(
            Fault, "the folder w cannot be locked: w/.turns: File exists"
        ):
            warehouse.status()
        os.remove("w/.turns")
        self.assertIn("no such folder: nowhere", load("--into", "nowhere", "file", status=1)[1])
        os.chmod("w", 0o555)
        self.addCleanup(os.chmod, "w", 0o755)
        if os.getuid():
            self.assertIn(
                "the folder w cannot be locked: w/.turns: Permission denied",
                ask("--in", "w", "count", status=1)[1],
            )
        with mock.patch("fcntl.flock", side_effect=OSError(errno.ENOLCK, "No locks available")):
            with self.assertRaisesRegex(
                Fault, "the folder w cannot be locked: .*No locks available"
            ):
                turns.Reader("cube ask", "w").enter()
