"""Tests of the Python package."""
import os
import subprocess
import time
from typing import Any

import cubetree
from cubetree.process import program
from tests.helpers import SCHEMA, Room, live_format

ROWS = [
    ("bolt", 1997, 5),
    ("nut", 1997, -2),
    ("bolt", 1998, 4),
    ('a, "b"\nc', 1999, 12345678901234567890),
]


class Python(Room):
    def declared(self) -> cubetree.Warehouse:
        """A warehouse with a schema and these rows."""
        warehouse = cubetree.open("w", wait=False)
        self.addCleanup(warehouse.close)
        warehouse.declare("# mine\n" + SCHEMA)
        self.assertEqual(warehouse.load(ROWS), 4)
        return warehouse

    def refused(self, call: Any, *words: Any) -> cubetree.Refused:
        """How a call is refused."""
        with self.assertRaises(cubetree.Refused) as caught:
            call(*words)
        return caught.exception

    def test_rows_in_and_out(self) -> None:
        with self.declared() as warehouse:
            answer = warehouse.slice("sum(qty),count by part,year")
            self.assertEqual(answer.columns, ("part", "year", "sum(qty)", "count"))
            self.assertEqual(answer, sorted((*row, 1) for row in ROWS))
            self.assertEqual(warehouse.slice("count by year where part=none"), [])
            self.assertEqual(warehouse.slice("max(qty)")[0], (12345678901234567890,))
            odd = ["", "end", " x", "\r", "\ufeff", "\udcff\udcfe", "\u00e9", "rows 1", "a\rb", "1"]
            self.assertEqual(warehouse.load((text, 1, True) for text in odd), 14)
            self.assertEqual(
                warehouse.slice("count by part where year=1"),
                sorted(((text, 1) for text in odd), key=lambda row: os.fsencode(row[0])),
            )
        self.assertEqual(warehouse.status(), (True, 14, None))

    def test_numbered(self) -> None:
        warehouse = self.declared()
        self.assertEqual(
            [warehouse.load(ROWS, 1), warehouse.load(ROWS, number=1), warehouse.load(ROWS[:1], 2)],
            [8, None, 9],
        )
        self.assertEqual(self.refused(warehouse.load, ROWS, 5).due, 3)
        self.assertEqual(self.refused(warehouse.load, [], 3).reply, "refused empty")

    def test_pending(self) -> None:
        warehouse = self.declared()
        warehouse.begin(ROWS[:2])
        self.assertEqual(warehouse.status(), (True, 4, 2))
        self.assertEqual(self.refused(warehouse.load, ROWS).reply, "refused pending")
        warehouse.step(3)
        self.assertEqual(warehouse.slice("count"), [(4,)])
        with cubetree.open("w", wait=False) as other, self.assertRaises(cubetree.Busy):
            other.status()
        self.assertEqual(warehouse.finish(), 6)
        warehouse.begin(ROWS)
        warehouse.abandon()
        self.assertEqual(self.refused(warehouse.finish).reply, "refused nothing pending")
        with cubetree.open("w", wait=False) as other:
            self.assertEqual(other.slice("count"), [(6,)])

    def test_upgrade(self) -> None:
        """The pages have format 2 behind it, or behind the first batch with a number above
        4,294,967,293; the answers stay."""
        warehouse = self.declared()
        answer = warehouse.slice("sum(qty),count by part,year")
        warehouse.begin(ROWS[:1])
        self.assertEqual(self.refused(warehouse.upgrade).reply, "refused pending")
        warehouse.abandon()
        self.assertEqual(live_format("w"), 1)
        for _ in range(2):
            warehouse.upgrade()
            self.assertEqual(live_format("w"), 2)
        self.assertEqual(
            (warehouse.status(), warehouse.slice("sum(qty),count by part,year")),
            ((True, 4, None), answer),
        )
        greatest = (1 << 63) - 1
        self.assertEqual(warehouse.load([("z", greatest, 1)]), 5)
        self.assertEqual(
            warehouse.slice(f"count by part,year where year=4294967294..{greatest}"),
            [("z", greatest, 1)],
        )
        refused = self.refused(warehouse.load, [("z", 1, 1), ("z", greatest + 1, 1)])
        self.assertEqual((refused.row, refused.field), (2, 2))
        self.assertEqual(self.refused(warehouse.slice, f"count where year={greatest + 1}").byte, 18)
        os.mkdir("v")
        with cubetree.open("v") as other:
            self.assertEqual(self.refused(other.upgrade).reply, "refused no schema")
            other.declare(SCHEMA)
            for number, wanted in [(4294967293, 1), (4294967294, 2), (1, 2)]:
                other.load([("z", number, 1)])
                self.assertEqual(live_format("v"), wanted)

    def test_refusals(self) -> None:
        warehouse = self.declared()
        for rows, place in [
            ([("a", 1, 1), ("b", 2)], (2, None)),
            ([(), ("b", 2)], (1, None)),
            ([("end",)], (1, None)),
            ([("a", 1, 1), ("a", -1, 1)], (2, 2)),
            ([("a", 1, "x")], (1, 3)),
            ([("x" * 256, 1, 1)], (1, 1)),
            ([("a", 1, 1), ("a\nend\nb", 1, 1)], (2, None)),
        ]:
            refused = self.refused(warehouse.load, rows)
            self.assertEqual((refused.row, refused.field), place, rows)
        for slice, byte in [
            ("sum(cost)", 5),
            ("count by part,part", 15),
            ("count by part where year=x", 26),
            ("status", 1),
        ]:
            self.assertEqual(self.refused(warehouse.slice, slice).byte, byte)
        self.assertEqual(self.refused(warehouse.declare, SCHEMA).reply, "refused declared")
        for value in (1.5, None, b"x"):
            with self.assertRaises(TypeError):
                warehouse.load([("a", 1, value)])  # type: ignore[list-item]
        with self.assertRaisesRegex(cubetree.Fault, "a slice is one line"):
            warehouse.slice("count\nstatus")
        self.assertEqual(warehouse.status().facts, 4)
        os.mkdir("v")
        with cubetree.open("v") as empty:
            self.assertEqual(empty.status(), (False, 0, None))
            self.assertEqual(self.refused(empty.slice, "count").reply, "refused no schema")
            self.assertEqual(
                self.refused(
                    empty.declare, ["attr a text", "# of what", "measure Q", "view a"]
                ).line,
                3,
            )
            empty.declare(["attr a text max 1", "measure q", "view a"])
            self.assertEqual(self.refused(empty.load, [("a", 1), ("b", 1)]).name, "a")
        with self.assertRaisesRegex(cubetree.Fault, "no such folder: nowhere"):
            cubetree.open("nowhere")

    def test_damaged(self) -> None:
        self.declared().close()
        with open("w/root", "r+b") as root:
            for slot in range(2):  # the number of the format in each body
                root.seek(1024 * slot + 8)
                root.write(b"xx")
        with self.assertRaises(cubetree.Damaged) as caught:
            cubetree.open("w").status()
        self.assertEqual((caught.exception.status, caught.exception.file), (6, "root"))

    def test_program_that_ends_early(self) -> None:
        """The call is cut off, and the next one begins a new run."""
        warehouse = self.declared()
        with open("stub", "w") as file:
            file.write(f"#!/bin/sh\nhead -c 7 | {program()}\nkill -9 $$\n")
        os.chmod("stub", 0o755)
        warehouse.close()
        former = os.environ.get("CUBETREE")
        os.environ["CUBETREE"] = os.path.abspath("stub")
        try:
            with self.assertRaises(cubetree.Ended) as caught:
                warehouse.load(ROWS)
        finally:
            os.environ.pop("CUBETREE") if former is None else os.environ.update(CUBETREE=former)
        self.assertEqual(caught.exception.status, -9)
        self.assertEqual(warehouse.load(ROWS), 8)

    def test_turns(self) -> None:
        """What asks is in nobody's way once it pauses, and what loads keeps other writers out
        for its life."""
        writer, reader, other = (
            self.declared(),
            cubetree.open("w", wait=False),
            cubetree.open("w", wait=False),
        )
        self.assertEqual(reader.status(), (True, 4, None))
        with self.assertRaises(cubetree.Busy):
            other.load(ROWS)
        writer.close()
        self.assertEqual(reader.status(), (True, 4, None))
        time.sleep(1)
        self.assertEqual(subprocess.call(["flock", "-n", "w", "true"]), 0)
        self.assertEqual(other.load(ROWS), 8)
        self.assertEqual(reader.slice("count"), [(8,)])
        other.close()

    def test_pandas(self) -> None:
        try:
            import pandas  # type: ignore[import]
        except ImportError:
            self.skipTest("no pandas")
        warehouse = self.declared()
        answer = warehouse.slice("sum(qty),count by part,year where year=1997..1998")
        frame = pandas.DataFrame(answer, columns=answer.columns)
        self.assertEqual(frame.dtypes.map(str).tolist(), ["object", "int64", "int64", "int64"])
        self.assertEqual(frame.groupby("part")["sum(qty)"].sum().to_dict(), {"bolt": 9, "nut": -2})
        self.assertEqual(
            warehouse.load(frame[["part", "year", "sum(qty)"]].itertuples(index=False)), 7
        )
