"""Tests of feed: rows that come one by one, and rows that are refused."""
import os
import re
import subprocess

from cubetree import Schema
from cubetree.feed.rowstream import row_fault
from cubetree.process import program
from tests.feeds import Feeding
from tests.helpers import SCHEMA, run, until


class Rows(Feeding):
    """Rows as they come."""

    def test_rows_one_by_one(self) -> None:
        """Rows of a pipe wait no longer than they should, and the feed is in nobody's way
        meanwhile."""
        feed = self.start("--every", "0.3", "--report", "0.2")
        for number in range(3):
            feed.stdin.write(b"a,1,1\nb,1,")
            feed.stdin.write(b"%d\n" % number)
            feed.stdin.flush()
            until(
                lambda: self.kept()
                == [["a", str(number + 1)], ["b", str(number * (number + 1) // 2)]]
            )
            until(lambda: subprocess.run(["flock", "-n", "w", "true"]).returncode == 0)
        said = feed.communicate(b"c,1,1\nc,1,1", timeout=60)[1].decode()
        self.assertEqual(feed.returncode, 0, said)
        self.assertIn("cube feed: 8 rows sent; the folder keeps 8 facts\n", said)
        self.assertRegex(
            said,
            (
                r"cube feed: \d rows?, \d+ a second, \d batch(es)? sent, the oldest that waits for"
                r" 0\.\d s\n"
            ),
        )
        self.assertLess(max(map(float, re.findall(r"that waits for (\S+) s\n", said))), 0.3 + 1.5)

    def test_batches(self) -> None:
        """A batch is sent by its rows or its bytes, and the end of a feed sends the rest."""
        for words in (["--rows", "2"], ["--bytes", "10"]):
            feed = self.start(*words, "--every", "1000")
            for number in range(4):
                before = self.rows("count")
                feed.stdin.write(b"a,1,1\n")
                feed.stdin.flush()
                if number % 2:
                    until(lambda: self.rows("count") != before)
            feed.stdin.write(b"a,1,1\n")
            feed.stdin.flush()
            until(lambda: b"a,1,1" in open("w/.feed/gathered", "rb").read())
            self.assertIn("cube feed: 5 rows sent", self.stop(feed))
        self.assertEqual(self.kept(), [["a", "10"]])

    def test_refused_rows(self) -> None:
        """Each row that is refused stands with its reason in the file, and all others are taken
        in."""
        unsendable = [b"end", b'"a\nend\nb",1,1', b'"a' + b" " * 70_000]
        odd = [
            b"a,1",
            b"a,1,1,1",
            b"a,-1,1",
            b"a,%d,1" % (1 << 63),
            b"a,+,1",
            b"a,1,",
            b"a,1,1.5",
            b" ,1, 1",
            b"x" * 256 + b",1,1",
            b"a,1,%d" % (1 << 127),
        ]
        good = [
            b'"a""\nb",1,1',
            b'a"b,1,1',
            b'"a"b"c,1,1',
            b'"a\r",1,1',
            b",1,-%d" % (1 << 100),
            b"a,%d,+007" % ((1 << 63) - 1),
            b"a,00000001,1",
            b"x" * 255 + b",-0,1",
            b" end,1,1",
        ]
        os.mkdir("one")
        blocks = b"".join(b"load\n" + row + b"\nend\n" for row in odd + good)
        replies = run(program(), given=f"schema\n{SCHEMA}end\n".encode() + blocks, cwd="one")[
            0
        ].splitlines()[1:]
        faults = [row_fault(row, Schema(SCHEMA.splitlines())) for row in odd + good]
        self.assertEqual(
            [f"refused row 1 {fault}" for fault in faults if fault], replies[: len(odd)]
        )
        self.assertEqual(
            replies[len(odd) :], [f"committed {number}" for number in range(1, len(good) + 1)]
        )
        said = self.feed(
            given=b"\n\r\n".join(odd[:1] + good + odd[1:] + unsendable) + b"\n", status=1
        )
        self.assertIn(f"cube feed: {len(good)} rows sent; {len(odd + unsendable)} refused: ", said)
        self.assertEqual([row[1].encode() for row in self.refused()], odd + unsendable)
        self.assertEqual(
            self.refused()[2], ["year is no whole number, or is out of range", "a,-1,1"]
        )
        self.assertEqual(self.rows("count,sum(qty)"), [[str(len(good)), str(14 - (1 << 100))]])
        said = self.feed("--refused", "mine", given=b"b,1\n", status=1)
        self.assertIn(
            (
                "cube feed: 1 row of batch 2 refused: mine\ncube feed: 0 rows sent; 1 refused:"
                " mine; the folder keeps 9 facts\n"
            ),
            said,
        )
        with open("mine") as file:
            self.assertEqual(file.read(), 'it has not 3 fields,"b,1"\n')

    def test_no_room_for_texts(self) -> None:
        """Rows with a new text are put aside where an attribute has no room for it, and all
        others are taken in, in this batch and in the next ones."""
        self.declare(
            "attr part text max 2",
            "attr year number",
            "attr shop text max 3",
            "measure qty",
            "view part,year,shop",
        )
        rows = ["a,1,x,1", "a,1,y,2", "b,1,x,4", "c,1,z,8", "b,2,z,16", "a,2,u,32", "b,3,z,64"]
        said = self.feed(given="\n".join(rows).encode(), status=1)
        self.assertIn("cube feed: 1 row of batch 1 refused: ", said)
        self.assertIn("cube feed: 5 rows sent; 2 refused: ", said)
        no_part, no_shop = [
            f"{name} has a new text, and no more room for one" for name in ("part", "shop")
        ]
        self.assertEqual(self.refused(), [[no_part, "c,1,z,8"], [no_shop, "a,2,u,32"]])
        self.assertEqual(
            self.rows("sum(qty) by part,shop"),
            [["a", "x", "1"], ["a", "y", "2"], ["b", "x", "4"], ["b", "z", "80"]],
        )
        said = self.feed(
            "--rows", "2", given=b'"c",1,x,1\n"a",1,"x",128\nb,1,y,256\nb,1,,512\n', status=1
        )
        self.assertIn("cube feed: 2 rows sent; 2 refused: ", said)
        self.assertEqual(self.refused()[2:], [[no_part, '"c",1,x,1'], [no_shop, "b,1,,512"]])
        self.assertEqual(self.rows("count,sum(qty)"), [["7", str(1 + 2 + 4 + 80 + 128 + 256)]])
        self.assertEqual(os.listdir("w/.feed").count("refused.csv"), 1)
        self.assertFalse([name for name in os.listdir("w/.feed") if name.startswith("se")])

    def test_no_room_for_numbers(self) -> None:
        """Rows that would bring the mass of a measure above its greatest value are put aside,
        and smaller ones are taken in."""
        self.declare("attr part text", "measure qty", "measure cost", "view part")
        half, greatest = 1 << 126, (1 << 127) - 1
        self.feed(given=b"a,%d,1\n" % half)
        said = self.feed(
            given=b"b,-%d,1\nc,%d,%d\nd,1,1\n" % (half, half - 2, greatest - 2) + b"e,1,1\nf,0,1\n",
            status=1,
        )
        self.assertIn("cube feed: 2 rows sent; 3 refused: ", said)
        no_qty, no_cost = [
            f"{name} would add up to more than 2^127 - 1" for name in ("qty", "cost")
        ]
        self.assertEqual(
            self.refused(), [[no_qty, f"b,-{half},1"], [no_qty, "e,1,1"], [no_cost, "f,0,1"]]
        )
        self.assertEqual(self.rows("sum(qty),sum(cost)"), [[str(greatest), str(greatest)]])

    def test_no_room_for_facts(self) -> None:
        """A folder that takes no more facts ends the feed with a status of its own, and the rows
        stay in the spool."""
        self.feed(given=b"a,1,1\n")
        with open("w/root", "r+b") as root:
            root.seek(1024 + 32)  # the facts of the live body
            root.write((1 << 40).to_bytes(8, "big"))
        for given in (b"a,1,1\nb,1,1\n", b""):
            said = self.feed(given=given, status=8)
            self.assertRegex(
                said,
                (
                    "cube feed: w has 1,099,511,627,776 facts, and no room for those of batch 2;"
                    " what was read stands in the spool .*/w/.feed\n$"
                ),
            )
            with open("w/.feed/sending.2") as file:
                self.assertIn("\na,1,1\nb,1,1\n", file.read())
        with open("w/root", "r+b") as root:
            root.seek(1024 + 32)
            root.write((1).to_bytes(8, "big"))
        self.assertIn("cube feed: 2 rows sent; the folder keeps 3 facts", self.feed(given=b""))
