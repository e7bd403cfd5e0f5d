"""Tests of levels, in the Python package and in ask."""
import json
import os
import subprocess
from typing import Any
from unittest import mock

import cubetree
from cubetree import session as sessions
from cubetree.process import program
from tests.helpers import SCHEMA, Case, ask

FACTS = [("bolt", 1997, 5), ("nut", 1997, -2), ("bolt", 1998, 4)]
STEEL = {"bolt": "steel", "nut": "steel"}


class Levels(Case):
    def setUp(self) -> None:
        super().setUp()
        with cubetree.open("w") as warehouse:
            warehouse.declare(SCHEMA)
            warehouse.load(FACTS)

    def opened(self, folder: str = "w") -> cubetree.Warehouse:
        """A warehouse that is closed behind the test."""
        warehouse = cubetree.open(folder)
        self.addCleanup(warehouse.close)
        return warehouse

    def refused(self, call: Any, *words: Any) -> cubetree.Refused:
        """How a call is refused."""
        with self.assertRaises(cubetree.Refused) as caught:
            call(*words)
        return caught.exception

    def test_rollup(self) -> None:
        warehouse = self.opened()
        self.assertEqual(warehouse.level("kind", "part", STEEL), 2)
        answer = warehouse.rollup("sum(qty) by kind")
        self.assertEqual(
            (answer.columns, answer.numeric, answer),
            (("kind", "sum(qty)"), (False, True), [("steel", 7)]),
        )
        self.assertEqual(
            warehouse.rollup("count by kind,year"), [("steel", 1997, 2), ("steel", 1998, 1)]
        )
        self.assertEqual(warehouse.rollup("count where kind=brass"), [])
        self.assertEqual(warehouse.rollup("count by part"), [("bolt", 2), ("nut", 1)])
        self.assertEqual(self.refused(warehouse.slice, "count by kind").byte, 10)

    def test_without_parent(self) -> None:
        warehouse = self.opened()
        warehouse.level("kind", "part", [("bolt", "steel")])
        self.assertEqual(warehouse.rollup("count by kind"), [("", 1), ("steel", 2)])
        self.assertEqual(warehouse.rollup('sum(qty) by part where kind=""'), [("nut", -2)])

    def test_several_levels(self) -> None:
        """Levels of texts and of numbers, beside attributes and each other."""
        warehouse = self.opened()
        self.assertEqual(
            warehouse.level("kind", "part", [("bolt", 'a, "b"\nc'), ("nut", "\udcff")]), 2
        )
        self.assertEqual(
            warehouse.level("decade", "year", {1997: "90s", 1998: "90s", 2001: "00s"}), 3
        )
        self.assertEqual(warehouse.levels, ["kind", "decade"])
        self.assertEqual(
            warehouse.rollup("min(qty),max(qty),sum(qty),count by decade"), [("90s", -2, 5, 7, 3)]
        )
        self.assertEqual(
            warehouse.rollup("count by decade,kind"),
            [("90s", 'a, "b"\nc', 2), ("90s", "\udcff", 1)],
        )
        self.assertEqual(
            warehouse.rollup('sum(qty) by year where kind="a, ""b""\udcff" and decade=90s'), []
        )
        self.assertEqual(
            warehouse.rollup("sum(qty) by year,part where decade=90s and year=1998..2005"),
            [(1998, "bolt", 4)],
        )
        self.assertEqual(warehouse.rollup("sum(qty) where decade=90s"), [(7,)])

    def test_refusals(self) -> None:
        warehouse = self.opened()
        for words, reply, place in [
            (("part", "year", []), "refused level name", (None, None)),
            (("qty", "part", []), "refused level name", (None, None)),
            (("Kind", "part", []), "refused level name", (None, None)),
            (("a b", "part", []), "refused level name", (None, None)),
            (("", "part", []), "refused level name", (None, None)),
            (("k", "colour", []), "refused level attribute", (None, None)),
            (("k", "part\nload", []), "refused level attribute", (None, None)),
            (("k", "part", [("a", "b"), ("a", "b", "c")]), "refused row 2 fields", (2, None)),
            (("k", "part", [()]), "refused row 1 fields", (1, None)),
            (("k", "part", [("x" * 256, "b")]), "refused row 1 long 1", (1, 1)),
            (("k", "year", [(1, "b"), (2, "x" * 256)]), "refused row 2 long 2", (2, 2)),
            (("k", "year", [(1, "b"), ("x", "b")]), "refused row 2 number 1", (2, 1)),
            (("k", "year", [(1 << 63, "b")]), "refused row 1 number 1", (1, 1)),
            (
                ("k", "part", [("a", "b"), ("b", "b"), ("a", "c")]),
                "refused row 3 repeated",
                (3, None),
            ),
            (("k", "year", [("01", "b"), ("+1", "b")]), "refused row 2 repeated", (2, None)),
            (("k", "part", [("a\nend\nb", "c")]), "refused row 1 end", (1, None)),
        ]:
            with self.subTest(words):
                refused = self.refused(warehouse.level, *words)
                self.assertEqual((refused.reply, (refused.row, refused.field)), (reply, place))
        self.assertEqual(warehouse.levels, [])
        for number in range(14):
            self.assertEqual(warehouse.level(f"level_{number}", "part", STEEL), 2)
        self.assertEqual(
            self.refused(warehouse.level, "level_0", "part", STEEL).reply, "refused level name"
        )
        self.assertEqual(
            self.refused(warehouse.level, "one_more", "part", STEEL).reply, "refused level many"
        )
        self.assertEqual(warehouse.rollup("count by level_13,level_0"), [("steel", "steel", 3)])
        for text, reply, byte in [
            ("count by colour", "refused attribute 10", 10),
            ("sum(level_0)", "refused measure 5", 5),
            ("count by level_0,level_0", "refused repeated 18", 18),
            ("count where level_0=", "refused syntax 21", 21),
            ('count where level_0="' + "x" * 256 + '"', "refused value 21", 21),
        ]:
            refused = self.refused(warehouse.rollup, text)
            self.assertEqual((refused.reply, refused.byte), (reply, byte))
        for call in (warehouse.rollup, warehouse.slice):
            with self.assertRaisesRegex(cubetree.Fault, "a slice is one line"):
                call("count\nstatus")
        self.assertEqual(warehouse.status().facts, 3)

    def test_other_folders(self) -> None:
        """Without a schema, and without a view that has the attribute of a level."""
        os.mkdir("v")
        warehouse = self.opened("v")
        self.assertEqual(
            self.refused(warehouse.level, "kind", "part", STEEL).reply, "refused no schema"
        )
        self.assertEqual(self.refused(warehouse.rollup, "count").reply, "refused no schema")
        warehouse.declare(["attr part text", "attr year number", "measure qty", "view year"])
        warehouse.load(FACTS)
        warehouse.level("kind", "part", STEEL)
        for text in ("count by kind", "count where kind=steel", "count by year,kind"):
            self.assertEqual(self.refused(warehouse.rollup, text).reply, "refused notcovered")
        self.assertEqual(warehouse.rollup("count by year"), [(1997, 2), (1998, 1)])

    def test_runs(self) -> None:
        """Each run of the program is told the levels, and no folder keeps one."""
        warehouse = self.opened()
        warehouse.level("kind", "part", STEEL)
        warehouse.pause()
        self.assertEqual(warehouse.rollup("count by kind"), [("steel", 3)])
        warehouse.load([("saw", 1999, 1)])
        self.assertEqual(warehouse.rollup("count by kind"), [("", 1), ("steel", 3)])
        warehouse.begin([("saw", 1999, 1)])
        self.assertEqual(warehouse.level("decade", "year", {1999: "90s"}), 1)
        self.assertEqual(warehouse.rollup("count by decade"), [("", 3), ("90s", 1)])
        warehouse.finish()
        with mock.patch.object(sessions, "MOST_OF_A_SCRIPT", 600):
            for count in range(3, 12):
                warehouse.load([("saw", 1999, 1)])
                self.assertEqual(
                    warehouse.rollup("count by decade,kind"), [("", "steel", 3), ("90s", "", count)]
                )
        with cubetree.open("w") as other:
            warehouse.close()
            self.assertEqual(self.refused(other.rollup, "count by kind").byte, 10)

    def test_older_program(self) -> None:
        """A program that knows no levels is not told one: its rows would be commands."""
        self.put(
            "older", f"#!/bin/sh\nsed -u 's/^rollup /other /; s/^level /other /' | {program()}\n"
        )
        os.chmod("older", 0o755)
        with mock.patch.dict(os.environ, CUBETREE=os.path.abspath("older")):
            warehouse = self.opened()
            self.assertEqual(
                self.refused(warehouse.level, "kind", "part", [("a\nload\nz,1,1", "b")]).reply,
                "refused unknown",
            )
            self.assertEqual(self.refused(warehouse.rollup, "count").reply, "refused unknown")
            self.assertEqual(warehouse.status().facts, 3)

    def test_ask(self) -> None:
        self.put("kinds.csv", "bolt,steel\r\n\r\nnut,steel")
        self.put("decades.csv", '1997,"the ""90s"""\n')
        words = [
            "--in",
            "w",
            "--level",
            "kind",
            "part",
            "kinds.csv",
            "--level",
            "decade",
            "year",
            "decades.csv",
        ]
        self.assertEqual(
            ask(*words, "sum(qty),count by kind")[0],
            "kind   sum(qty)  count\n-----  --------  -----\nsteel         7      3\n(1 row)\n",
        )
        lines = (
            b"rollup count by decade\nselect count(*) from facts\nslice count by part where"
            b" kind=steel\ncount by colour\n"
        )
        told, said = ask(*words, "--json", given=lines, status=1)
        self.assertEqual(
            [json.loads(line) for line in told.splitlines() if line],
            [
                {"decade": "", "count": 1},
                {"decade": 'the "90s"', "count": 2},
                {"count(*)": 3},
                {"part": "bolt", "count": 2},
                {"part": "nut", "count": 1},
            ],
        )
        self.assertEqual(
            said,
            (
                "cube ask: refused attribute 10: no attribute has this name; there are part, year,"
                " kind, decade\n  count by colour\n           ^\n"
            ),
        )
        self.assertIn(
            "; SQL has no levels\n",
            ask(*words, "select kind from facts group by kind", status=1)[1],
        )
        self.assertEqual(subprocess.run(["flock", "-n", "w", "true"]).returncode, 0)

    def test_ask_refusals(self) -> None:
        self.put("kinds.csv", "bolt,steel\n")
        self.put("long.csv", f"bolt,{'x' * 256}\n")
        for name, attribute, content, wanted in [
            (
                "kind",
                "part",
                "bolt\n",
                "refused row 1 fields: a row of a level has a value and its parent",
            ),
            (
                "kind",
                "part",
                f"bolt,{'x' * 256}\n",
                "refused row 1 long 2: a text has at most 255 bytes",
            ),
            (
                "kind",
                "part",
                "bolt,a\n\nbolt,b\n",
                "refused row 2 repeated: an earlier row has this value",
            ),
            (
                "kind",
                "year",
                "1997,a\nx,b\n",
                "refused row 2 number 1: the value is no whole number, or is out of range",
            ),
            (
                "part",
                "year",
                "",
                (
                    "refused level name: a level has a name as in a schema, which no attribute,"
                    " measure or other level has"
                ),
            ),
            (
                "kind",
                "colour",
                "",
                "refused level attribute: no attribute has this name; there are part, year",
            ),
        ]:
            with self.subTest(wanted):
                said = ask(
                    "--in",
                    "w",
                    "--level",
                    name,
                    attribute,
                    self.put("rows.csv", content),
                    "count",
                    status=1,
                )[1]
                self.assertEqual(said, f"cube ask: level {name} {attribute} rows.csv: {wanted}\n")
        for words, wanted in [
            (["kind", "part", "nothing"], "nothing: No such file"),
            (["kind", "part", self.put("ends", "a,b\nend\n")], "ends has a line that is `end`"),
        ]:
            self.assertIn(wanted, ask("--in", "w", "--level", *words, "count", status=1)[1])
        for words in (
            ["--level", "kind", "part"],
            ["--level", "kind", "part", "kinds.csv", "--explain", "count"],
            ["--explain", "--level", "kind", "part", "kinds.csv", "count"],
        ):
            ask("--in", "w", *words, status=2)
        os.mkdir("empty")
        self.assertIn(
            "refused no schema: no schema is declared in the folder",
            ask("--in", "empty", "--level", "kind", "part", "kinds.csv", "count by kind", status=1)[
                1
            ],
        )
