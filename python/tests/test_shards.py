"""Tests of shards: how files are cut, how replies are folded, and shards on this machine."""
import contextlib
import os
import random
import shutil
import socket
import unittest
from typing import Any, Iterable, Optional
from unittest import mock
from zlib import crc32

from cubetree.csvfile.reader import pieces
from cubetree.csvfile.tables import Table
from cubetree.errors import Ended, Fault
from cubetree.process import program
from cubetree.schema import Schema
from cubetree.shards import folds
from cubetree.shards.places import Cutter, shards_in
from tests.engines import SLICES, WithEngine, lines_of, rows_of, sums_in_sqlite
from tests.helpers import SCHEMA, Case, ask, load, run
from tests.test_load_csv import LoadCsv


class Cut(Case):
    """What needs no engine: the rows of a file, and the batches that they go into."""

    def flat(
        self,
        name: str,
        delimiter: str = ",",
        lines: "tuple[str, ...]" = ("attr part text", "measure qty", "view part"),
    ) -> "list[bytes]":
        return [
            row for piece in pieces(Table(name, delimiter), Schema(lines)) for row in piece.rows
        ]

    def test_odd_files(self) -> None:
        """The rows are those that `cube load` makes of the file."""
        self.put("schema", "attr part text\nmeasure qty\nview part\n")
        for content in [
            *(content for content, _ in LoadCsv.ODD),
            b"part,qty\na,1\n\nb,2",
            b"part,qty",
        ]:
            with self.subTest(content[:40]):
                words = ["--delimiter", ";"] if b";" in content else []
                script = load(
                    "--script", "--schema", "schema", "--yes", *words, self.put("file", content)
                )[0].encode("utf-8", "surrogateescape")
                wanted = script.partition(b"load\n")[2].rpartition(b"end\n")[0].lstrip(b"\n")
                self.assertEqual(
                    b"".join(row + b"\n" for row in self.flat("file", *words[1:])), wanted
                )

    def test_long_file(self) -> None:
        """What is read as it stands, in pieces, with a quote far behind, is as if read by csv."""
        rows = (
            [(f"p{number}", number, 1) for number in range(150_000)]
            + [('a"b', 1, 1), ("end of it", 2, 2)]
            + [(f"q{number}", number, 1) for number in range(1000)]
        )
        self.put("file", "part,year,qty\n" + lines_of(rows).replace("p7,", "\n\np7,"))
        self.put("odd", 'part,year,"qty"\n' + lines_of(rows))
        lines = tuple(SCHEMA.splitlines())
        self.assertEqual(self.flat("file", ",", lines), self.flat("odd", ",", lines))
        self.assertEqual(len(self.flat("file", ",", lines)), len(rows))
        self.put("short", "part,year,qty\n" + lines_of(rows) + "x,1\n")
        with self.assertRaisesRegex(
            Fault, r"row 151003 \(line 151004\) has 2 fields, and the header has 3"
        ):
            self.flat("short", ",", lines)

    def test_batches_are_the_same_in_all_pieces(self) -> None:
        """However a file comes in pieces, its batches are the same, each of a shard of its own,
        and no row is lost."""
        rows = [line.encode() for line in lines_of(rows_of(4, 5000)).splitlines()]
        wanted = sorted(Cutter([1, 5, 1], 100).batches([rows]))
        for size in (1, 7, 1000):
            self.assertEqual(
                sorted(
                    Cutter([1, 5, 1], 100).batches(
                        rows[first : first + size] for first in range(0, len(rows), size)
                    )
                ),
                wanted,
            )
        for shard in range(3):
            batches = [batch for batch in wanted if batch.shard == shard]
            self.assertEqual(
                [batch.number for batch in batches],
                list(range([1, 5, 1][shard], [1, 5, 1][shard] + len(batches))),
            )
            self.assertEqual(
                b"".join(batch.rows for batch in batches).splitlines(),
                [row for row in rows if crc32(row) % 3 == shard],
            )
            self.assertGreater(len(batches), 10)
        for batch in wanted:
            self.assertEqual(batch.rows.splitlines(), [rows[place - 1] for place in batch.places])

    def test_batches_of_long_rows(self) -> None:
        """A batch is cut by its bytes as well, the same in all pieces, and a row that would end
        its block is named."""
        rows = [b"x" * 40_000 + b",%d" % number for number in range(4000)]
        wanted = list(Cutter([1], 100_000).batches([rows]))
        self.assertEqual([len(batch.places) for batch in wanted], [1677, 1677, 646])
        self.assertEqual(list(Cutter([1], 100_000).batches([row] for row in rows)), wanted)
        for row in (b"end", b'"a\nend\nb",1', b'"a\r\nend\r\nb",1'):
            with self.assertRaisesRegex(Fault, "row 2 has a line that is `end`"):
                list(Cutter([1], 10).batches([[b"a,1", row, b"b,1"]]))

    def test_files_of_shards(self) -> None:
        self.put("shards", "# mine\nscheduler tcp://h:1\n\ntcp://a:2 /x y\ntcp://b:2\t/x\n")
        self.assertEqual(
            shards_in("shards"), ("tcp://h:1", [(1, "tcp://a:2", "/x y"), (2, "tcp://b:2", "/x")])
        )
        for text, wanted in [
            ("tcp://a:2 /x\n", "there is no line `scheduler ADDRESS`"),
            ("scheduler tcp://h:1\n", "no shard is named"),
            ("scheduler tcp://h:1\ntcp://a:2\n", "line 2 is neither"),
            ("scheduler tcp://h:1\nscheduler tcp://h:2\ntcp://a:2 /x\n", "line 1 is neither"),
            ("scheduler tcp://h:1\na:2 /x\n", "line 2 is neither"),
            ("scheduler tcp://h:1\ntcp://a:2 /x\ntcp://a:2 /x\n", "a folder is named twice"),
        ]:
            self.put("shards", text)
            with self.assertRaisesRegex(Fault, wanted):
                shards_in("shards")


def has_fold() -> bool:
    """Whether there is a program `cubefold`."""
    try:
        return bool(program("cubefold"))
    except Fault:
        return False


class Ranges(Case):
    """Replies that are folded range by range."""

    LINES = [*SCHEMA.splitlines(), "view part"]
    SUMS = "sum(qty) by part"
    FOLDED = [
        "sum(qty),count by part,year",
        "min(qty) by year,part",
        "count by part",
        "max(qty) by year where year=5..100000",
        "count",
        "sum(qty) by part where year=7",
    ]

    def reply(self, rows: "list[tuple[str, int, int]]", text: str) -> bytes:
        """That of a folder with these facts."""
        shutil.rmtree("w")
        os.mkdir("w")
        script = (
            f"schema\n{SCHEMA}view part\nend\nload\n{lines_of(rows)}end\nstatus\nslice {text}\n"
            .encode("utf-8", "surrogateescape")
        )
        return (
            run(program(), given=script, cwd="w")[0]
            .encode("utf-8", "surrogateescape")
            .partition(b"facts %d\n" % len(rows))[2]
        )

    def test_ranges(self) -> None:
        """They make the reply of the whole, to the byte, however long the ranges are, and so do
        texts that are quoted, by one run."""
        draw, lines = random.Random(57), [*SCHEMA.splitlines(), "view part"]
        for texts in (
            ["", "a", "a b", "b", "10", "9", "-5", "\udcff", "é", "z" * 200],
            ["a", 'a"b', "a,b", "a\nrows 1"],
        ):
            parts = [
                [
                    (
                        draw.choice(texts) + str(draw.randrange(9)),
                        draw.choice([1, 9, 10, 99, 1 << 62, draw.randrange(5000)]),
                        draw.randrange(-9, 9),
                    )
                    for _ in range(400)
                ]
                for _ in range(3)
            ]
            for text in self.FOLDED:
                replies, whole = [self.reply(part, text) for part in parts], self.reply(
                    sum(parts, []), text
                )
                for long in (1, 40, 1000, 1 << 19):
                    with (
                        self.subTest(text),
                        mock.patch.object(folds, "LONG", long),
                        mock.patch.object(os, "cpu_count", lambda: 7),
                    ):
                        made = folds.folded(lines, text, replies)
                        self.assertEqual(made.rows + made.last.encode() + b"\n", whole)
                        ranges = folds.ranges_of(
                            Schema(lines), text, [folds.reply_of(each) for each in replies]
                        )
                        self.assertEqual(
                            len(ranges) > 1,
                            all(b'"' not in each for each in replies)
                            and sum(map(len, replies)) >= 2 * long + 30,
                        )

    def sums(self, places: "Iterable[int]", count: Optional[int] = None) -> bytes:
        """A reply to SUMS with a row for each place, whose last line has this count."""
        rows = [b"p%04d,%d\n" % (place, place) for place in places]
        return b"".join(rows) + b"rows %d\n" % (len(rows) if count is None else count)

    def ranges(self, *replies: bytes) -> "list[list[bytes]]":
        """The ranges of replies to SUMS that are long enough for seven."""
        with mock.patch.object(folds, "LONG", 1000), mock.patch.object(os, "cpu_count", lambda: 7):
            given = [folds.reply_of(each) for each in replies]
            return folds.ranges_of(Schema(self.LINES), self.SUMS, given)

    def folded(self, *replies: bytes, long: int = 1000) -> "tuple[Any, ...]":
        """The rows and the last line of the fold of replies to SUMS, or how it ends."""
        with mock.patch.object(folds, "LONG", long), mock.patch.object(os, "cpu_count", lambda: 7):
            try:
                return tuple(folds.folded(self.LINES, self.SUMS, replies))
            except Ended as ended:
                return ended.status, ended.said

    def test_cuts(self) -> None:
        """Each range has the rows of both replies with its keys, and their number."""
        ranges = self.ranges(self.sums(range(1000)), self.sums(range(500, 700)))
        self.assertEqual(len(ranges), 7)
        parts = [[folds.reply_of(reply) for reply in each] for each in zip(*ranges)]
        wholes = [self.sums(range(1000)), self.sums(range(500, 700))]
        for replies, whole in zip(parts, wholes):
            rows = b"".join(reply.rows for reply in replies)
            self.assertEqual(rows, folds.reply_of(whole).rows)
            for reply in replies:
                self.assertEqual(reply.last, f"rows {len(reply.rows.splitlines())}")
        for first, second in zip(*parts):
            self.assertLessEqual(set(second.rows.split(b"\n")), set(first.rows.split(b"\n")))

    def test_reply_that_lost_rows_is_not_cut(self) -> None:
        """Nor is one with more rows than its last line says."""
        whole = self.sums(range(1000))
        self.assertEqual(len(self.ranges(whole, whole)), 7)
        for places, count in [
            ([*range(400), *range(600, 1000)], 1000),
            (range(999), 1000),
            (range(1000), 999),
            (range(1000), 0),
        ]:
            faulty = self.sums(places, count)
            self.assertEqual(self.ranges(whole, faulty), [])
            self.assertEqual(self.ranges(faulty, whole), [])

    def test_keys_at_the_cuts(self) -> None:
        """A range begins after the last key of the ranges before it; some have no rows."""
        parts = folds.Keys(Schema(self.LINES), self.SUMS)
        self.assertTrue(parts.ascend([b"p1,1\np3,1\n", b"", b"p4,1\n", b"p5,1\np6,1\n"]))
        self.assertFalse(parts.ascend([b"p1,1\np3,1\n", b"p3,1\np4,1\n"]))
        self.assertFalse(parts.ascend([b"p1,1\np3,1\n", b"", b"p2,1\np4,1\n"]))
        years = folds.Keys(Schema(self.LINES), "sum(qty) by year")
        self.assertTrue(years.ascend([b"-5,1\n9,1\n", b"10,1\n"]))
        self.assertFalse(years.ascend([b"10,1\n", b"9,1\n"]))

    @unittest.skipUnless(has_fold(), "no program cubefold")
    def test_reply_that_lost_rows_is_refused(self) -> None:
        """As by one fold, which ends with the status 11."""
        whole = self.sums(range(1000))
        faulty = self.sums([*range(400), *range(600, 1000)], 1000)
        for replies in ((whole, faulty), (faulty, whole)):
            ends = self.folded(*replies)
            self.assertEqual(ends[0], 11)
            self.assertEqual(ends, self.folded(*replies, long=1 << 19))

    @unittest.skipUnless(has_fold(), "no program cubefold")
    def test_reply_out_of_order(self) -> None:
        """The fold sorts its rows, wherever they stand."""
        draw, rows = random.Random(59), list(range(1000))
        twice = [b"p%04d,%d\n" % (place, 2 * place) for place in rows]
        for turn in range(12):
            begin, end = sorted(draw.sample(rows, 2))
            moved = rows[begin:end] + rows[:begin] + rows[end:]
            if turn == 11:
                draw.shuffle(moved)
            made = self.folded(self.sums(rows), self.sums(moved))
            self.assertEqual(made, (b"".join(twice), "rows 1000"))

    @unittest.skipUnless(has_fold(), "no program cubefold")
    def test_reply_with_a_faulty_key(self) -> None:
        """A key that is not a number is refused, also where the search for a cut reads it."""
        rows = [b"%d,1\n" % year for year in range(1000, 2000)]
        whole = b"".join(rows) + b"rows 1000\n"
        faulty = whole.replace(b"1500,1\n", b"soon,1\n")
        with mock.patch.object(self, "SUMS", "sum(qty) by year"):
            self.assertEqual(self.folded(whole, whole)[1], "rows 1000")
            self.assertEqual(self.folded(whole, faulty), self.folded(whole, faulty, long=1 << 19))


class LocalShards(WithEngine):
    def setUp(self) -> None:
        super().setUp()
        with contextlib.suppress(OSError):  # where it is taken already
            of_another_engine = socket.create_server(("", 8787))
            self.addCleanup(of_another_engine.close)

    def test_local_cluster(self) -> None:
        """Four shards on this machine answer as one folder does; a file that is loaded again
        counts once."""
        self.where = ["--local", "s"]
        rows = rows_of(57, 6000)
        self.put("file", "part,year,qty\n" + lines_of(rows))
        self.assertEqual(
            self.shards("init", "--count", "4", "schema"),
            ("", "cube shards: 4 shards, which keep 0 facts\n"),
        )
        said = self.shards("load", "--batch", "400", "file")[1]
        self.assertRegex(
            said,
            (
                r"cube shards: --number 1,1,1,1 goes on where this load is cut off\ncube shards:"
                r" 6,000 rows"
                r" loaded; the shards keep 6,000 facts; the next numbers are 5,5,5,5\n"
            ),
        )
        self.assertIn(
            "0 rows loaded, 6,000 were there already; the shards keep 6,000 facts",
            self.shards("load", "--batch", "400", "--number", "1", "file")[1],
        )
        self.assertRegex(
            self.shards("status")[0],
            (
                r"shard 4 \(.*/s/4 on tcp://127.0.0.1:\d+\): 1,\d+ facts, the next batch is 5\n4"
                r" shards: 6,000 facts, the next batches are 5,5,5,5\n"
            ),
        )
        self.assertEqual(self.answers(), sums_in_sqlite(rows))
        load("--into", "w", "--schema", "schema", "file")
        asked = "".join(
            text + "\n" for text in [*SLICES, "count by part,part", "sum(cost)"]
        ).encode()
        for words in (
            ["avg(qty) by part"],
            ["sum(qty)/count,count where year=1999..2003"],
            ["--csv", "--sort", "avg(qty) desc,part", "--top", "5", "avg(qty) by part"],
            ["--csv", "--sort", "part desc", "count by part"],
            ["--markdown", "--top", "3", "sum(qty) by part"],
        ):
            self.assertEqual(self.shards("ask", *words), ask("--folder", "w", *words))
        told, said = self.shards("ask", given=asked, status=1)
        self.assertEqual(
            (told, said.replace("cube shards: ", "cube ask: ")),
            ask("--in", "w", given=asked, status=1),
        )
