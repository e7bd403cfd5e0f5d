"""Tests of feed: kills, full disks, and spools that do not fit."""
import contextlib
import fcntl
import os
import random
import resource
import shutil
import signal
import sqlite3
import subprocess
import sys
import time
import unittest
from unittest import mock

from cubetree import locks as turns
from cubetree.feed.sender import Sender
from cubetree.feed.sources import Stream
from cubetree.feed.spool import Place, Spool, spool_folder
from cubetree.process import Run, program
from tests import helpers
from tests.feeds import Feeding
from tests.helpers import CUBE, SCHEMA, load, run, until


class Faults(Feeding):
    """Feeds that are stopped or go wrong."""

    def kill(self, feed: "subprocess.Popen[bytes]", draw: random.Random) -> str:
        """Kills a feed, or its program, or both, and tells which."""
        with open(f"/proc/{feed.pid}/task/{feed.pid}/children") as children:
            programs = [int(child) for child in children.read().split()]
        way = draw.choice(["feed", "both", "program"])
        if way == "program":
            for child in programs:
                os.kill(child, signal.SIGKILL)
            time.sleep(0.1)
        (os.killpg if way == "both" else os.kill)(feed.pid, signal.SIGKILL)
        said = feed.communicate()[1].decode()
        if feed.returncode != -signal.SIGKILL:
            self.assertEqual((way, feed.returncode), ("program", 3), said)
            self.assertIn("cube feed: the program ended with the status -9", said)
        return f"{way} {'at work' if programs else 'at rest'}"

    def test_killed(self) -> None:
        """A feed that is killed at random moments, or its program, or both: sums and refused
        rows are those of the file, each once."""
        draw = random.Random(49)
        words, ends, lines = ["--every", "0.05", "--rows", "400", "log"], [], []
        self.put("log", "")
        for number in range(helpers.KILLS):
            feed = self.start(*words)
            for _ in range(draw.randrange(1, 4)):
                rows = [
                    f"p{draw.randrange(300)},{draw.randrange(1990, 2020)},"
                    f"{draw.randrange(-99, 1000)}"
                    for _ in range(draw.randrange(200))
                ]
                rows += [
                    f"bad{len(lines)}{row}" for row in (",x,1", ",1", ",1,") if draw.random() < 0.1
                ]
                lines += rows
                self.append("log", *rows)
                time.sleep(draw.random() * 0.3)
            ends.append(self.kill(feed, draw))
            if self.is_spooled(b"%d" % os.stat("log").st_ino) and draw.random() < 0.3:
                os.rename("log", f"log.{number}")
                self.put("log", "")
        self.assertGreater(len(set(ends)), 3, ends)
        bad = [line for line in lines if line.startswith("bad")]
        # A row that no feed has sent yet: once it counts, the last feed has begun, and ends by
        # SIGTERM as it says.
        lines.append("last,2000,1")
        self.append("log", lines[-1])
        feed = self.start(*words)
        until(lambda: self.rows("count") == [[str(len(lines) - len(bad))]])
        feed.terminate()
        said = feed.communicate()[1].decode()
        self.assertIn(feed.returncode, (0, 1), said)
        base = sqlite3.connect(":memory:")
        base.execute("create table facts (part text, year int, qty int)")
        base.executemany(
            "insert into facts values (?, ?, ?)",
            [line.split(",") for line in lines if line not in bad],
        )
        for slice, query in [
            (
                "count,sum(qty),min(qty),max(qty)",
                "select count(*), sum(qty), min(qty), max(qty) from facts",
            ),
            (
                "sum(qty),count by part",
                "select part, sum(qty), count(*) from facts group by part order by part",
            ),
            (
                "sum(qty) by year where part=p17",
                "select year, sum(qty) from facts where part = 'p17' group by year order by year",
            ),
        ]:
            self.assertEqual(
                self.rows(slice), [[str(cell) for cell in row] for row in base.execute(query)]
            )
        self.assertEqual(sorted(row[1] for row in self.refused()), sorted(bad))

    # A feed that is killed by itself before the call of the system with this number, of those that
    # change files.
    CUT = """import os, runpy, sys
left = int(sys.argv[1])
def cut(call):
    def counted(*words, **more):
        global left
        left -= 1
        if left < 0:
            os.kill(os.getpid(), 9)
        return call(*words, **more)
    return counted
for name in ("open", "pwrite", "rename", "remove", "fsync", "ftruncate", "posix_fallocate"):
    setattr(os, name, cut(getattr(os, name)))
sys.argv[:] = sys.argv[2:]
sys.path.insert(0, os.path.dirname(sys.argv[0]))
runpy.run_path(sys.argv[0], run_name="__main__")
"""

    def test_killed_at_each_call(self) -> None:
        """A feed that is killed before any of its calls leaves each row once to the next one,
        refused rows too, also those with the 50th text of a part: every fourth call is tried,
        and each one where there are 200 kills."""
        self.declare("attr part text max 49", *SCHEMA.splitlines()[1:])
        self.put("cut.py", self.CUT)
        rows = [
            (
                f"{'p' * 240}{number % 50:03},x{number},1"
                if number % 100 == 99
                else f"{'p' * 240}{number % 50:03},{number},1"
            )
            for number in range(400)
        ]
        self.put("rows", "".join(row + "\n" for row in rows))
        bad = [row for row in rows if ",x" in row or "p049," in row]
        words = ["--into", "w", "--rows", "1"]
        os.rename("w", "empty")
        for call in range(0, 200, 1 if helpers.KILLS >= 200 else 4):
            shutil.rmtree("w", ignore_errors=True)
            shutil.copytree("empty", "w")
            with open("rows", "rb") as file:
                cut = subprocess.run(
                    [sys.executable, "cut.py", str(call), CUBE, "feed", *words],
                    stdin=file,
                    capture_output=True,
                )
            if cut.returncode != -signal.SIGKILL:
                break
            # At its very end a feed lets go of its input, and the next one would read it anew.
            with open("rows", "rb") as file:
                is_over = (
                    os.path.exists("w/.feed/refused.csv")
                    and not self.is_spooled(b'"-"')
                    and self.rows("count") == [["392"]]
                )
                run(
                    CUBE,
                    "feed",
                    *words,
                    status=None,
                    stdin=subprocess.DEVNULL if is_over else file,
                )
            with self.subTest(call=call):
                self.assertEqual(self.rows("count,sum(qty)"), [["392", "392"]])
                self.assertEqual(sorted(row[1] for row in self.refused()), sorted(bad))
        self.assertEqual(cut.returncode, 1, cut.stderr)
        self.assertGreater(call, 40)

    def test_killed_over_a_pipe(self) -> None:
        """What was spooled of a pipe counts once, and a row that was cut is gone on with, or put
        aside where its pipe is gone."""
        os.mkfifo("pipe")
        feed = self.start("--every", "1000", "pipe")
        pipe = os.open("pipe", os.O_WRONLY)
        os.write(pipe, b"a,1,1\nb,1,")
        until(lambda: self.is_spooled(b"b,1,"))
        os.kill(feed.pid, signal.SIGKILL)
        feed.communicate()
        with open(os.open("pipe", os.O_RDWR)):
            os.write(pipe, b"7\nc,1,1\n")
            os.close(pipe)
            feed = self.start("--every", "0.1", "pipe")
            until(lambda: self.kept() == [["a", "1"], ["b", "7"], ["c", "1"]])
        until(lambda: self.kept() == [["a", "1"], ["b", "7"], ["c", "1"]])
        self.stop(feed)
        feed = self.start("--every", "1000")
        feed.stdin.write(b"d,1,1\ne,1,")
        feed.stdin.flush()
        until(lambda: self.is_spooled(b"e,1,"))
        feed.kill()
        feed.communicate()
        self.assertIn("2 rows sent; 1 refused", self.feed(given=b"7,7,7\n", status=1))
        self.assertEqual(self.kept(), [["7", "7"], ["a", "1"], ["b", "7"], ["c", "1"], ["d", "1"]])
        feed = self.start("--every", "1000", "pipe")
        with open("pipe", "wb", buffering=0) as pipe:
            pipe.write(b"f,1,1\ng")
            until(lambda: self.is_spooled(b'"g"'))
            feed.kill()
            feed.communicate()
        feed = self.start("--every", "0", "pipe")
        with open("pipe", "wb") as pipe:
            pipe.write(b"h,1,1\ni,1,1\n")
        until(lambda: len(self.kept()) == 7)
        self.stop(feed, status=1)
        self.assertEqual(self.kept()[5:], [["f", "1"], ["i", "1"]])
        self.assertEqual(
            self.refused(), [["its end was not read", "e,1,"], ["a stop has parted it", "gh,1,1"]]
        )

    def test_writer_at_the_opening(self) -> None:
        """A new writer that writes as soon as its pipe is opened does not go on with the row of
        the former one."""
        for was_there in (True, False):
            os.mkfifo("pipe")
            kept = Place("pipe", os.stat("pipe").st_ino, rest="g")
            time.sleep(0.05)
            pipe, opened, aside = -1, os.open, []
            if was_there:
                pipe = os.open("pipe", os.O_RDWR)
                os.write(pipe, b"h,1,1\n")
                time.sleep(0.05)

            def open_and_write(path: str, flags: int) -> int:
                nonlocal pipe
                descriptor = opened(path, flags)
                if not was_there:
                    pipe = opened(path, os.O_WRONLY)
                    os.write(pipe, b"h,1,1\n")
                return descriptor

            with mock.patch("os.open", open_and_write):
                stream = Stream(
                    "pipe", {("pipe", kept.inode): kept}, lambda why, row: aside.append((why, row))
                )
            taken: "list[bytes]" = []
            self.assertTrue(stream.read(lambda place, rows: taken.extend(rows)))
            self.assertEqual(
                (taken, aside),
                ([b"gh,1,1"], []) if was_there else ([], [("a stop has parted it", b"gh,1,1")]),
            )
            for descriptor in (pipe, stream.descriptor):
                os.close(descriptor)
            os.remove("pipe")

    def test_rotated_files(self) -> None:
        """A file is followed over rotations, also by a feed that did not run meanwhile."""
        sums = lambda: self.rows("sum(qty)")
        self.put("log", "a,1,1\na,1,")
        feed = self.start("--every", "0", "log")
        until(lambda: sums() == [["1"]])
        self.append("log", "2")
        os.rename("log", "log.1")
        self.append("log.1", "a,1,4")
        until(lambda: sums() == [["7"]])
        self.append("log", "a,1,8")
        until(lambda: sums() == [["15"]])
        self.append("log.1", "a,1,16")
        until(lambda: sums() == [["31"]])
        self.stop(feed)
        self.append("log", "a,1,32")
        os.rename("log.1", "log.2")
        os.rename("log", "log.1")
        self.append("log", "a,1,64")
        feed = self.start("--every", "0", "log")
        until(lambda: sums() == [["127"]])
        self.put("log", "")
        self.assertIn(
            b"cube feed: log was written anew, and is read from its beginning\n",
            feed.stderr.readline(),
        )
        self.append("log", "a,1,128")
        until(lambda: sums() == [["255"]])
        os.remove("log")
        self.append("log", "a,1,256")
        until(lambda: sums() == [["511"]])
        self.stop(feed)
        os.rename("log", "other")
        os.remove("other")
        self.append("log", "a,1,512")
        feed = self.start("--every", "0", "log")
        until(lambda: sums() == [["1023"]])
        self.assertIn(
            "cube feed: the former log is gone: what it had after byte 8 is not read\n",
            self.stop(feed),
        )

    def test_full_disk(self) -> None:
        """A spool without room ends the feed, and what was not read is read by the next one;
        rows that cannot be put aside stay in the spool."""
        self.put("log", "".join(f"p{number % 7},1,1\n" for number in range(5000)))
        limit = lambda: resource.setrlimit(resource.RLIMIT_FSIZE, (1000, 1000))
        said = self.feed("log", status=1, preexec_fn=limit)
        self.assertRegex(
            said,
            (
                "cube feed: the spool .* has no room: File too large; what was read stands in the"
                " spool "
            ),
        )
        self.append("log", "b,1")
        feed = self.start("--every", "0", "--refused", "/dev/full", "log")
        said = feed.communicate(timeout=60)[1].decode()
        self.assertEqual(feed.returncode, 1)
        self.assertIn(
            "cube feed: refused rows cannot be written: /dev/full: No space left on device; ", said
        )
        feed = self.start("--every", "0", "log")
        until(lambda: self.rows("count") == [["5000"]])
        self.stop(feed)
        self.assertEqual(self.refused(), [["it has not 3 fields", "b,1"]])

    @unittest.skipIf(os.getuid(), "only root can make a small disk")
    def test_small_disk(self) -> None:
        """Where the disk of the spool is small, batches are."""
        os.mkdir("small")
        if subprocess.run(
            ["mount", "-t", "tmpfs", "-o", "size=3m", "tmpfs", "small"], capture_output=True
        ).returncode:
            self.skipTest("no small disk can be made")
        self.addCleanup(subprocess.run, ["umount", "small"], check=True)
        self.put("log", "".join(f"{'p' * 250}{number % 7},1,1\n" for number in range(20_000)))
        with open("log", "rb") as log:
            said = self.feed("--spool", "small", stdin=log)
        self.assertIn("cube feed: 20,000 rows sent; the folder keeps 20,000 facts", said)

    def test_several_sources(self) -> None:
        """Files and a pipe together, over a kill: the rows of each count once."""
        os.mkfifo("pipe")
        self.put("one", "a,1,1\na,1,2\n")
        self.put("two", "b,1,4\nb,1,")
        words = ["--every", "0.05", "one", "pipe", "two"]
        pipe = os.open("pipe", os.O_RDWR)
        self.addCleanup(os.close, pipe)
        feed = self.start(*words)
        os.write(pipe, b"c,1,16\nc,1,")
        until(
            lambda: self.kept() == [["a", "3"], ["b", "4"], ["c", "16"]]
            and self.is_spooled(b'"c,1,"')
        )
        feed.kill()
        feed.communicate()
        self.append("two", "8")
        os.write(pipe, b"32\n")
        feed = self.start(*words)
        until(lambda: self.kept() == [["a", "3"], ["b", "12"], ["c", "48"]])
        self.append("one", "a,1,64")
        until(lambda: self.kept() == [["a", "67"], ["b", "12"], ["c", "48"]])
        self.assertIn("; the folder keeps 7 facts\n", self.stop(feed))

    def test_two_signals(self) -> None:
        """By the first one a feed ends once all is sent, and by the second one at once: the rows
        stay in the spool."""
        writer = turns.Writer("cube load", "w")
        feed = self.start("--every", "0")
        until(lambda: os.path.exists("w/.feed/gathered"))
        writer.enter()
        self.addCleanup(writer.leave)
        feed.stdin.write(b"a,1,1\nb,1,1\n")
        feed.stdin.flush()
        self.assertEqual(feed.stderr.readline(), b"cube feed: waits for another run in w\n")
        feed.terminate()
        time.sleep(0.5)
        self.assertIsNone(feed.poll())
        feed.terminate()
        self.assertRegex(
            feed.communicate(timeout=60)[1].decode(),
            (
                "cube feed: ended at once; 0 rows and the batch under way stand in the spool"
                " .*/w/.feed\n"
            ),
        )
        self.assertEqual(feed.returncode, 1)
        writer.leave()
        self.assertIn("cube feed: 2 rows sent; the folder keeps 2 facts", self.feed(given=b""))

    def test_synced_before_it_is_sent(self) -> None:
        """A batch and its number are on disk before the program has a byte of it, and the file
        goes once it is acknowledged."""
        calls: "list[str]" = []
        spool = Spool(spool_folder("w", None))
        sender = Sender("w", spool, "w/.feed/refused.csv", True)
        self.addCleanup(sender.drop)
        spool.recover(sender.owner)
        spool.add(Place("log", 7, 12), [b"a,1,1", b"a,1,2"])
        inode = os.fstat(spool.gathered or 0).st_ino
        fsync, rename, remove, send = os.fsync, os.rename, os.remove, Run.send
        kept = lambda descriptor: (
            "batch"
            if os.fstat(descriptor).st_ino == inode
            else "spool" if os.path.samestat(os.fstat(descriptor), os.stat("w/.feed")) else "next"
        )
        with (
            mock.patch(
                "os.fsync", lambda each: (fsync(each), calls.append(f"sync {kept(each)}"))[0]
            ),
            mock.patch(
                "os.rename",
                lambda one, other: (
                    rename(one, other),
                    calls.append(f"rename {os.path.basename(other)}"),
                )[0],
            ),
            mock.patch(
                "os.remove",
                lambda path: (remove(path), calls.append(f"remove {os.path.basename(path)}"))[0],
            ),
            mock.patch.object(
                Run,
                "send",
                lambda run, command: (
                    calls.append(command.decode().split("\n")[0]),
                    send(run, command),
                )[1],
            ),
        ):
            sender.send(spool.seal())
        self.assertEqual(
            calls,
            [
                "sync batch",
                "rename sealed",
                "rename gathered",
                "sync next",
                "rename sending.1",
                "sync spool",
                "sync next",
                "rename .batches",
                "sync next",
                "load 1",
                "remove sending.1",
            ],
        )
        self.assertEqual(self.kept(), [["a", "3"]])

    def test_torn_piece(self) -> None:
        """What a stop of the machine has left of the last piece is read again: of a file that
        was cut, or one whose last bytes are zeros."""
        self.put("log", "")
        for number, has_zeros in enumerate([False, True]):
            feed = self.start("--every", "1000", "log")
            for qty in (1, 2):
                self.append("log", f"p{number},1,{qty}")
                until(lambda: self.is_spooled(b"p%d,1,%d\n" % (number, qty)))
            feed.kill()
            feed.communicate()
            with open("w/.feed/gathered", "r+b") as gathered:
                gathered.truncate(len(gathered.read().rstrip(b"\0")) - 3)
                gathered.seek(0, os.SEEK_END)
                gathered.write(bytes(3 * has_zeros))
            feed = self.start("--every", "0", "log")
            until(lambda: len(self.kept()) > number and self.kept()[number] == [f"p{number}", "3"])
            self.stop(feed)
        self.assertEqual(self.rows("count,sum(qty)"), [["4", "6"]])

    def test_spool_of_another(self) -> None:
        """A spool belongs to one folder and its schema, and a folder has one spool."""
        self.put("rows", "a,1,1\n")
        self.feed("--spool", "mine", given=b"a,1,1\n")
        self.assertTrue(os.path.samefile("w/.feed", "mine"))
        said = self.feed("--spool", "other", given=b"", status=1)
        self.assertRegex(
            said, "cube feed: the feed of w has its spool in .*/mine, and not in other\n"
        )
        shutil.copytree("w", "copy", symlinks=True)
        said = run(CUBE, "feed", "--into", "copy", status=1)[1]
        self.assertRegex(said, "cube feed: the spool .*/mine is of another folder: .*/w; ")
        for name in ("root", "names", "side0", "side1"):
            with contextlib.suppress(FileNotFoundError):
                os.remove(f"w/{name}")
        self.assertIn("cube feed: no schema is declared in w\n", self.feed(given=b"", status=1))
        run(program(), given=b"schema\nattr part text\nmeasure qty\nview part\nend\n", cwd="w")
        self.assertRegex(
            self.feed(given=b"", status=1), "cube feed: the spool .*/mine is of another schema; "
        )
        os.rename("mine", "away")
        self.assertRegex(
            self.feed(given=b"", status=1), "cube feed: the spool of w is not there: .*/mine\n"
        )
        self.assertIn(
            "cube feed: no such folder: nowhere\n",
            run(CUBE, "feed", "--into", "nowhere", status=1)[1],
        )

    def test_program_that_ends_early(self) -> None:
        """The batch stays in the spool with its number, and the same words go on."""
        self.cut_off(b"a,1,1\n")
        os.rename("w/.feed/sending.1", "w/.feed/sending.5")
        self.assertRegex(
            self.feed(given=b"", status=1),
            "cube feed: batch 5 stands in the spool .*, and w has no batch 1: it was set back; ",
        )
        os.rename("w/.feed/sending.5", "w/.feed/sending.1")
        self.assertIn(
            "cube feed: 2 rows sent; the folder keeps 2 facts", self.feed(given=b"b,1,1\n")
        )
        self.assertEqual(os.listdir("w/.feed"), ["gathered"])

    def test_number_of_another(self) -> None:
        """A batch whose number others took meanwhile is sent under the next one, also if their rows
        are the same."""
        self.cut_off(b"a,1,1\n")
        self.put("file", "part,year,qty\na,1,1\n")
        load("--into", "w", "file")
        said = self.feed(given=b"b,1,1\n")
        self.assertRegex(said, "batch 1 has rows of .*/file; this one becomes batch 2\n")
        self.assertEqual(self.kept(), [["a", "2"], ["b", "1"]])

    def test_acknowledged_and_not_dropped(self) -> None:
        """A batch that counts already is not sent under another number."""
        self.cut_off(b"a,1,1\n")
        shutil.copy("w/.feed/sending.1", "again")
        self.assertIn("1 row sent", self.feed(given=b""))
        shutil.copy("again", "w/.feed/sending.1")
        self.feed(given=b"")
        self.assertEqual(self.kept(), [["a", "1"]])
        os.remove("w/.batches")
        shutil.copy("again", "w/.feed/sending.1")
        self.assertIn("batch 1 counts already; w has no record of its rows\n", self.feed(given=b""))
        self.assertEqual(self.kept(), [["a", "1"]])

    def test_kinds_of_columns(self) -> None:
        """Rows have amounts, dates and cells without a value as the folder's csv files had them."""
        self.put("file", "part,year,qty\na,2025-03-01,1.50\n")
        load("--into", "w", "--decimals", "qty=2", "--dates", "year", "--na", "NA", "file")
        rows = [
            b"a,2025-03-02,2",
            b"NA,2025-03-03,NA",
            b"a,2025-03-02,0.255",
            b"a,1,1",
            b"b,2025-02-30,1",
            b"a,2025-03-04",
        ]
        self.feed(given=b"\n".join(rows) + b"\n", status=1)
        self.assertEqual(
            self.rows("sum(qty) by part,year"),
            [["", "2025-03-03", "0.00"], ["a", "2025-03-01", "1.50"], ["a", "2025-03-02", "2.00"]],
        )
        self.assertEqual([row[1].encode() for row in self.refused()], rows[2:])
        for reason, *_ in self.refused():
            self.assertRegex(reason, "qty is|year is|fields")

    def test_turns(self) -> None:
        """Two feeds of a folder exclude each other, and one that waits for its turn goes on
        reading."""
        feed = self.start("--every", "0")
        until(lambda: os.path.exists("w/.feed/gathered"))
        self.assertRegex(
            self.feed(given=b"", status=4), "cube feed: another feed has the spool .*/w/.feed\n"
        )
        writer = turns.Writer("cube load", "w")
        writer.enter()
        feed.stdin.write(b"a,1,1\n")
        feed.stdin.flush()
        self.assertEqual(feed.stderr.readline(), b"cube feed: waits for another run in w\n")
        feed.stdin.write(b"b,1,1\n")
        feed.stdin.flush()
        until(lambda: self.is_spooled(b"b,1,1"))
        feed.terminate()
        writer.leave()
        self.assertIn("cube feed: 2 rows sent", feed.communicate(timeout=60)[1].decode())
        with open("w/root"):
            fcntl.flock(os.open("w", os.O_RDONLY), fcntl.LOCK_EX)
            self.assertEqual(
                self.feed("--no-wait", given=b"", status=4), "cube feed: another run is in w\n"
            )

    def test_words(self) -> None:
        for words in (
            ["--into", "w", "--rows", "0"],
            ["--into", "w", "--bytes", "0"],
            ["--into", "w", "--every", "-1"],
            ["--into", "w", "f", "f"],
            ["--never"],
        ):
            run(CUBE, "feed", *words, status=2)
        self.assertIn("cube feed: no such file: nothing; ", self.feed("nothing", status=1))
        self.assertIn("cube feed: neither a file nor a pipe: w; ", self.feed("w", status=1))
        self.assertIn("usage", run(CUBE, "feed", "--help")[0])
