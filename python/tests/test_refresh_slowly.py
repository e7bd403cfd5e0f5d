"""Tests of refresh-slowly."""
import contextlib
import os
import random
import signal
import subprocess

from cubetree.process import program
from tests.helpers import CUBE, SCHEMA, Case, ask, run


class RefreshSlowly(Case):
    def setUp(self):
        super().setUp()
        draw = random.Random(22)
        self.rows_of = [
            [
                f"p{draw.randrange(40)},{draw.randrange(1990, 2020)},{draw.randrange(-99, 1000)}\n"
                for _ in range(size)
            ]
            for size in (3000, 500)
        ]
        run(
            program(),
            given=f"schema\n{SCHEMA}end\nload\n{''.join(self.rows_of[0])}end\n".encode(),
            cwd="w",
        )
        self.put("rows", "".join(self.rows_of[1]))

    def refresh(self, *words, **more):
        return run(CUBE, "refresh", "--in", "w", *words, **more)

    def test_answers_between_steps(self):
        """All that has come is answered, from the facts before the batch, and the last one
        behind it where it waits so long."""
        slices = [
            "slice count",
            "sum(qty) by year where year=1990..1995",
            "status",
            "",
            "count by colour\r",
        ]
        told, said = self.refresh(
            "--step", "1", "--pause", "2", "rows", given="\n".join(slices).encode()
        )
        sums = {}
        for row in self.rows_of[0]:
            _, year, qty = row.split(",")
            if int(year) < 1996:
                sums[year] = sums.get(year, 0) + int(qty)
        wanted = [
            "3000",
            "rows 1",
            *(f"{year},{sums[year]}" for year in sorted(sums)),
            f"rows {len(sums)}",
            "facts 3000 pending 500",
            "refused attribute 10",
        ]
        self.assertEqual(told.splitlines(), wanted)
        self.assertIn("cube refresh: 500 rows accepted; the folder keeps 3,500 facts\n", said)
        self.assertIn(", and 4 answers between them", said)
        # The sums are those of one load of the same rows.
        os.mkdir("l")
        run(
            program(),
            given=f"schema\n{SCHEMA}end\nload\n{''.join(sum(self.rows_of, []))}end\n".encode(),
            cwd="l",
        )
        for slice in ("count,sum(qty),min(qty),max(qty) by part,year", "sum(qty) by year", "count"):
            self.assertEqual(ask("--in", "w", slice), ask("--in", "l", slice))

    def test_count_of_moves(self):
        """Of the warehouse of docs/FORMATS.md and a batch of two facts: four old pages, nine
        points and four new pages."""
        os.mkdir("f")
        run(
            program(),
            given=(
                f"schema\n{SCHEMA}end\nload\nbolt,1997,5\nnut,1997,-2\nbolt,1998,4\nend\n".encode()
            ),
            cwd="f",
        )
        said = self.refresh("--in", "f", self.put("two", "bolt,1999,1\nnut,1999,1\n"))[1]
        self.assertIn("cube refresh: 17 moves in 1 step", said)
        # In pages of format 2, which the number 4,294,967,294 asks for, 65 points have two leaves
        # and a page over them.
        os.mkdir("n")
        rows = "".join(f"{number},1\n" for number in range(64))
        run(
            program(),
            given=f"schema\nattr n number\nmeasure m\nview n\nend\nload\n{rows}end\n".encode(),
            cwd="n",
        )
        for row, moves in [("4294967294,1\n", 1 + 65 + 3), ("5,1\n", 3 + 65 + 3)]:
            self.assertIn(
                f"cube refresh: {moves} moves in 1 step",
                self.refresh("--in", "n", self.put("one", row))[1],
            )
        said = self.refresh("--in", "f", self.put("none", ""))[1]
        self.assertIn(
            (
                "cube refresh: 0 rows accepted; the folder keeps 5 facts\ncube refresh: 0 moves"
                " in no step"
            ),
            said,
        )

    def test_refusals(self):
        os.mkdir("empty")
        for words, wanted in [
            (
                ["--in", "empty", "rows"],
                "no schema is declared in the folder; nothing of the batch is kept",
            ),
            (["--in", "nowhere", "rows"], "no such folder: nowhere"),
            (["nothing"], "nothing: No such file"),
            (
                [self.put("faulty", "a,1,1\nb,x,1\n")],
                "the batch was refused: refused row 2 number 2; nothing of the batch is kept",
            ),
            ([self.put("ends", "a,1,1\nend\n")], "ends has a line that is `end`"),
        ]:
            with self.subTest(words):
                self.assertIn(wanted, self.refresh(*words, status=1)[1])
        for words in ([], ["--step", "0", "rows"], ["--pause", "-1", "rows"], ["--never", "rows"]):
            self.refresh(*words, status=2)
        self.assertIn("usage", self.refresh("--help")[0])
        self.assertEqual(self.rows("count"), [["3000"]])

    def test_stopped(self):
        """Killed between two steps it leaves the folder as it was."""
        paced = subprocess.Popen(
            [
                CUBE,
                "refresh",
                "--in",
                "w",
                "--step",
                "0.001",
                "--pause",
                "5000",
                "rows",
            ],
            stdin=subprocess.PIPE,
            stdout=subprocess.PIPE,
            start_new_session=True,
        )
        paced.stdin.write(b"status\n")
        paced.stdin.flush()
        self.assertEqual(paced.stdout.readline(), b"facts 3000 pending 500\n")
        os.killpg(paced.pid, signal.SIGKILL)
        paced.communicate()
        self.assertEqual(self.rows("count"), [["3000"]])
        self.refresh("--pause", "0", "rows")
        self.assertEqual(self.rows("count"), [["3500"]])

    def test_progress(self):
        """On a terminal a line shows the moves."""
        try:
            here, there = os.openpty()
        except OSError:
            self.skipTest("no terminal can be made")
        self.addCleanup(os.close, here)
        subprocess.run(
            [
                CUBE,
                "refresh",
                "--in",
                "w",
                "--step",
                "5",
                "--pause",
                "120",
                "rows",
            ],
            stdin=subprocess.DEVNULL,
            stderr=there,
            check=True,
            timeout=60,
        )
        os.close(there)
        said = b""
        with contextlib.suppress(OSError):
            while piece := os.read(here, 4096):
                said += piece
        self.assertRegex(
            said.decode(),
            r"\r[\d,]+ moves, \d+% of at most [\d,]+, [\d,]+ a second, 0 slices answered\x1b\[K",
        )
