"""Tests of what explore says of a folder, and of writers that are at work there."""
from __future__ import annotations

import json
import os
import signal
import socket
import subprocess
import threading
import time
import unittest
from pathlib import Path
from typing import List
from unittest import mock

import cubetree
from cubetree.explore import waiting, writers
from cubetree.progress import NAME, ProgressFile, progress_in
from tests.exploring import Exploring
from tests.helpers import CUBE, load, run, until

HAS_LOCKS = os.path.exists(writers.LOCKS)


class Folders(Exploring):
    """The state of folders, and beside whom they are asked."""

    def test_state(self) -> None:
        """It is that of the files."""
        self.fill()
        self.serve()
        state = self.state()
        self.assertEqual(state["phase"], "ready")
        self.assertEqual((state["facts"], state["number"], state["format"]), (6, 1, 1))
        self.assertIsNone(state["work"])
        self.assertEqual(state["folder"], os.path.realpath("w"))
        views = [(view["attributes"], view["points"], view["bytes"]) for view in state["views"]]
        self.assertEqual(
            views,
            [(["part", "year"], 6, 4096), (["part"], 6, 4096), (["year"], 3, 4096), ([], 1, 4096)],
        )
        for name, size in state["sizes"].items():
            path = Path("w", name)
            self.assertEqual(size, path.stat().st_size if path.exists() else 0)
        self.assertEqual(state["changed"], os.path.getmtime("w/root"))
        with cubetree.open("w") as warehouse:
            warehouse.load([("x", 2000, 1)], 2)
        after = self.state()
        self.assertEqual((after["facts"], after["number"]), (7, 2))
        self.assertGreater(after["generation"], state["generation"])

    def test_no_warehouse(self) -> None:
        """A folder without a schema is said to be so, and stays empty; then it is loaded."""
        self.serve()
        self.assertEqual(self.state()["phase"], "empty")
        self.assertIn("no schema is declared", self.answer("count", 400)["fault"])
        self.assertEqual(os.listdir("w"), [])
        self.fill()
        self.assertEqual(self.state()["phase"], "ready")
        self.assertEqual(self.answer("count")["rows"], [["6"]])

    def test_folder_goes(self) -> None:
        """A folder that is removed is gone, and may come again."""
        self.fill()
        self.serve()
        self.answer("count")
        time.sleep(0.3)
        os.rename("w", "v")
        self.assertEqual(self.state()["phase"], "gone")
        self.assertIn("gone", self.answer("count", 400)["fault"])
        os.rename("v", "w")
        self.assertEqual(self.answer("count")["rows"], [["6"]])

    def test_damage(self) -> None:
        """Damage is named, with the file."""
        self.fill()
        self.serve()
        time.sleep(0.3)
        sides = [path for path in Path("w").glob("side*") if path.stat().st_size]
        for path in sides:
            path.write_bytes(b"\xff" * path.stat().st_size)
        self.assertIn("damaged file", self.answer("count by part", 400)["fault"])
        self.put("w/.columns", "{")
        state = self.state()
        self.assertEqual(state["phase"], "damaged")
        self.assertIn(".columns is damaged", state["fault"])
        os.remove("w/.columns")
        with open("w/names", "r+b") as file:
            file.write(b"\0" * 100)
        self.assertEqual(self.state()["phase"], "damaged")
        self.put("w/root", b"\xff" * 2050)
        self.assertEqual(self.state()["phase"], "damaged")
        self.put("w/root", b"\0" * 2050)
        self.assertEqual(self.state()["phase"], "empty")
        self.assertIn("fault", self.answer("count", 400))

    def test_no_folder(self) -> None:
        """A server of no folder does not begin."""
        said = run(CUBE, "explore", "--no-browser", "none", status=1)[1]
        self.assertEqual(said, "cube explore: no such folder: none\n")
        run(CUBE, "explore", "w", "--folder", "w", status=2)

    def test_port(self) -> None:
        """A port is taken as it is named; one in use is refused."""
        with socket.socket() as taken:
            taken.bind(("127.0.0.1", 0))
            taken.listen()
            port = taken.getsockname()[1]
            said = run(CUBE, "explore", "--no-browser", "--port", str(port), "w", status=1)[1]
            self.assertEqual(said, f"cube explore: the port {port} is in use: give another one\n")
        self.serve("--port", str(port))
        self.assertEqual(self.port, port)
        for word in ("65536", "-1", "x"):
            run(CUBE, "explore", "--port", word, "w", status=2)

    def test_beside_a_batch(self) -> None:
        """While a batch is taken in, an answer is not there yet; questions do not pile up."""
        self.fill()
        served = self.serve()
        with cubetree.open("w") as warehouse:
            warehouse.begin([("x", 1999, 5)])
            if HAS_LOCKS:
                work = self.state()["work"]
                self.assertEqual((work["batch"], work["tool"]), (True, "another run"))
            began = time.monotonic()
            threads = [
                threading.Thread(target=self.answer, args=(f"count where year={1990 + n}", 503))
                for n in range(40)
            ]
            for thread in threads:
                thread.start()
            for thread in threads:
                thread.join()
            self.assertLess(time.monotonic() - began, 10)
            self.assertIn("another run", self.answer("count where year=1991", 503)["busy"])
            warehouse.finish()
        self.assertEqual(self.answered("count")["rows"], [["7"]])
        self.assertIsNone(self.state()["work"])
        self.assertEqual(self.stop(served), "")

    def test_locked_folder(self) -> None:
        """A shell that holds the folder is waited for, and nothing is said on standard error."""
        self.fill()
        served = self.serve()
        time.sleep(0.3)
        lock = subprocess.Popen(["flock", "w", "sh", "-c", "echo; read x"], stdin=-1, stdout=-1)
        self.addCleanup(lock.communicate)
        assert lock.stdout
        lock.stdout.readline()
        self.assertIn("another run", self.answer("count", 503)["busy"])
        self.assertEqual(self.state()["facts"], 6)
        self.assertEqual(self.stop(served), "")

    def test_between_batches(self) -> None:
        """A question gets in between two batches of a load, as any reader."""
        self.fill()
        self.serve()
        facts: List[int] = []
        with cubetree.open("w") as warehouse:
            rows = [(f"p{n}", n % 4000, 1) for n in range(20_000)]
            batches = threading.Thread(target=lambda: [warehouse.load(rows) for _ in range(6)])
            batches.start()
            while batches.is_alive():
                facts.append(int(self.answered("count")["rows"][0][0]))
            batches.join()
        self.assertTrue(set(facts) <= {6 + 20_000 * n for n in range(7)}, facts)
        self.assertGreater(len(set(facts)), 3)


class Work(Exploring):
    """How far a writer is."""

    def test_file(self) -> None:
        """It is replaced some times a second, removed at the end, and believed of its process."""
        self.fill()
        file = ProgressFile("w", "cube load")
        file.tell(10, 0.25, 3)
        found = progress_in("w", os.getpid())
        self.assertEqual(found, ("cube load", os.getpid(), 10, 0.25, 3))
        file.tell(20)
        self.assertEqual(progress_in("w", os.getpid()), found)
        time.sleep(0.21)
        file.tell(20)
        self.assertEqual(progress_in("w", os.getpid()), ("cube load", os.getpid(), 20, None, 0))
        self.assertIsNone(progress_in("w", os.getpid() + 1))
        file.end()
        self.assertEqual(sorted(os.listdir("w/.turns")), ["batch", "queue", "writer"])
        file.end()

    def test_odd_files(self) -> None:
        """A file of anything else says nothing."""
        self.fill()
        for text in (
            "",
            "{",
            "[]",
            "1",
            '{"tool": 1}',
            '{"tool":"x","pid":"y","rows":1}',
            "\xff" * 9000,
        ):
            self.put(f"w/{NAME}", text.encode("latin-1"))
            self.assertIsNone(progress_in("w", os.getpid()), text)
        content = {"tool": "x", "pid": 7, "rows": 1, "part": 7, "batches": 0}
        self.put(f"w/{NAME}", json.dumps(content))
        self.assertEqual(progress_in("w", 7), ("x", 7, 1, 1.0, 0))
        self.put(f"w/{NAME}", json.dumps({**content, "rows": 1e999}))
        self.assertIsNone(progress_in("w", 7))

    def test_no_fault_of_a_load(self) -> None:
        """A file that cannot be written fails no load."""
        os.makedirs(f"w/{NAME}.new")
        self.put("f", "part,year,qty\nx,1999,1\n")
        self.put("schema", "attr part text\nattr year number\nmeasure qty\nview part,year\nview\n")
        printed = load("--folder", "w", "--schema", "schema", "f")[1]
        self.assertIn("1 row loaded", printed)
        self.assertEqual(run(CUBE, "copy", "w", "copied")[0], "copied keeps 1 fact\n")
        self.assertNotIn(".turns", os.listdir("copied"))

    @unittest.skipUnless(HAS_LOCKS, "no list of locks")
    def test_load_under_way(self) -> None:
        """A load tells its rows and batches as long as it goes on; nothing of it is left behind."""
        self.fill()
        self.serve()
        os.mkfifo("rows")
        loading = subprocess.Popen(
            [CUBE, "load", "--folder", "w", "--batch", "1000", "--yes", "rows"],
            stderr=subprocess.DEVNULL,
        )
        self.addCleanup(loading.wait)
        self.addCleanup(loading.kill)
        with open("rows", "w") as file:
            file.write("part,year,qty\n")
            for n in range(5000):
                file.write(f"p{n % 7},{n % 40},1\n")
                if n % 1000 == 999:
                    file.flush()
                    time.sleep(0.25)
            until(lambda: (self.state()["work"] or {}).get("batches", 0) not in (0, None))
            work = self.state()["work"]
            self.assertEqual(work["tool"], "cube load")
            self.assertTrue(1000 <= work["rows"] <= 5000, work)
            self.assertEqual(self.answer("count where part=p0 and year=0")["groups"], 0)
        self.assertEqual(loading.wait(30), 0)
        self.assertEqual(self.state()["facts"], 5006)
        self.assertIsNone(self.state()["work"])
        self.assertEqual(sorted(os.listdir("w/.turns")), ["batch", "queue", "writer"])

    @unittest.skipUnless(HAS_LOCKS, "no list of locks")
    def test_killed_writer(self) -> None:
        """What a killed load leaves is believed by nobody, beside another writer neither."""
        self.fill()
        self.serve()
        refresh = subprocess.Popen(
            [
                CUBE,
                "refresh",
                "--folder",
                "w",
                "--step",
                "1",
                "--pause",
                "100",
                self.put("rows", "".join(f"p{n},{n % 999},1\n" for n in range(60_000))),
            ],
            stdin=subprocess.DEVNULL,
            stderr=subprocess.DEVNULL,
        )
        self.addCleanup(refresh.wait)
        self.addCleanup(refresh.kill)
        until(lambda: (self.state()["work"] or {}).get("rows") == 60_000)
        work = self.state()["work"]
        self.assertEqual((work["tool"], work["batch"]), ("cube refresh", True))
        self.assertTrue(0 < work["part"] < 1)
        refresh.send_signal(signal.SIGKILL)
        refresh.wait()
        until(lambda: self.state()["work"] is None)
        self.assertTrue(os.path.exists(f"w/{NAME}"))
        self.assertEqual(self.answer("count")["rows"], [["6"]])
        with cubetree.open("w") as warehouse:
            warehouse.begin([("x", 1999, 5)])
            work = self.state()["work"]
            self.assertEqual((work["tool"], work["rows"]), ("another run", None))

    @unittest.skipUnless(HAS_LOCKS, "no list of locks")
    def test_feed(self) -> None:
        """A feed tells its rows while it sends."""
        self.fill()
        self.serve()
        feed = subprocess.Popen(
            [CUBE, "feed", "--folder", "w", "--rows", "20000"],
            stdin=subprocess.PIPE,
            stderr=subprocess.DEVNULL,
        )
        self.addCleanup(feed.communicate)
        self.addCleanup(feed.kill)
        assert feed.stdin
        found = None
        for _ in range(40):
            feed.stdin.write(b"".join(b"p%d,%d,1\n" % (n, n % 40) for n in range(20_000)))
            feed.stdin.flush()
            found = self.state()["work"]
            if found and found["tool"] == "cube feed":
                break
        self.assertTrue(found and found["rows"] >= 20_000 and found["part"] is None, found)
        feed.stdin.close()
        self.assertEqual(feed.wait(60), 0)
        self.assertIsNone(self.state()["work"])
        self.assertEqual(sorted(os.listdir("w/.turns")), ["batch", "queue", "writer"])

    def test_lines_of_locks(self) -> None:
        """The lines of the system are read, those that wait are not, and odd ones neither."""
        lines = [
            "1: FLOCK  ADVISORY  WRITE 4242 fe:01:11 0 EOF\n",
            "1: -> FLOCK  ADVISORY  WRITE 4243 fe:01:11 0 EOF\n",
            "2: FLOCK  ADVISORY  READ 4244 fe:01:12 0 EOF\n",
            "3: POSIX  ADVISORY  WRITE 4245 fe:01:12 0 EOF\n",
            "4: FLOCK  ADVISORY  WRITE 4246 fe:01:13 0 EOF\n",
            "\n",
        ]
        inodes = {11: "writer", 12: "batch"}
        self.assertEqual(writers.holders_of(inodes, lines), {"writer": 4242})

    def test_no_list_of_locks(self) -> None:
        """Where the system has no list, nothing is said of writers."""
        self.fill()
        with mock.patch("cubetree.explore.writers.LOCKS", "none"), cubetree.open("w") as warehouse:
            warehouse.begin([("x", 1999, 5)])
            self.assertIsNone(writers.work_in("w"))


class Waiting(unittest.TestCase):
    """The thread that asks."""

    def test_one_for_all(self) -> None:
        """Those that ask the same wait for one answer, and later ones get a new one."""
        asker, go = waiting.Asker(), threading.Event()
        made: List[int] = []

        def work() -> int:
            """Counts its calls."""
            go.wait(20)
            made.append(1)
            return len(made)

        found: List[int] = []
        threads = [
            threading.Thread(target=lambda: found.append(asker.ask("x", work, 20)))
            for _ in range(5)
        ]
        for thread in threads:
            thread.start()
        until(lambda: len(asker.jobs) == 1)
        time.sleep(0.1)
        go.set()
        for thread in threads:
            thread.join()
        self.assertEqual((found, asker.ask("x", work), asker.jobs), ([1] * 5, 2, {}))

    def test_limits(self) -> None:
        """There is an end to what waits, and what nobody asks again is dropped."""
        asker, go = waiting.Asker(), threading.Event()
        made: List[int] = []

        def work() -> None:
            """Waits, and counts its calls."""
            go.wait(20)
            made.append(1)

        for n in range(waiting.MOST_WAITING):
            with self.assertRaises(cubetree.Busy):
                asker.ask(str(n), work, 0.001)
        with self.assertRaisesRegex(cubetree.Busy, "too many questions"):
            asker.ask("more", lambda: None, 0.001)
        for job in asker.jobs.values():
            job.until = 0.0
        go.set()
        until(lambda: asker.jobs == {})
        self.assertEqual(len(made), 1)
        self.assertEqual(asker.ask("more", lambda: 7), 7)

    def test_faults(self) -> None:
        """A fault goes to whoever asked, and the thread goes on."""
        asker = waiting.Asker()
        with self.assertRaises(ZeroDivisionError):
            asker.ask("x", lambda: 1 // 0)
        self.assertEqual(asker.ask("x", lambda: 7), 7)


if __name__ == "__main__":
    unittest.main()
