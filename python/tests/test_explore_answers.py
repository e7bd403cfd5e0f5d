"""Tests of what explore answers: rows, files of csv, commands, and refusals."""
from __future__ import annotations

import hashlib
import os
import subprocess
import unittest
from pathlib import Path
from unittest import mock

import cubetree
from cubetree.explore import writers
from cubetree.explore.asking import Explorer, quoted
from tests.exploring import BYTES, HIDDEN, MARKUP, QUOTES, ROWS, Exploring, asked
from tests.helpers import CUBE, load, run

HAS_LOCKS = os.path.exists(writers.LOCKS)


class Answers(Exploring):
    """What is answered."""

    def setUp(self) -> None:
        super().setUp()
        self.fill()

    def test_answer(self) -> None:
        """Its rows are texts, whatever they have, and numbers have all their digits."""
        self.serve()
        found = self.answer("sum(qty),count by part,year where year=1997..1998")
        self.assertEqual(found["columns"], ["part", "year", "sum(qty)", "count"])
        self.assertEqual(found["kinds"], ["text", "number", "number", "number"])
        self.assertEqual((found["groups"], found["count"], found["view"]), (2, 3, ["part", "year"]))
        self.assertEqual(
            sorted(found["rows"]),
            sorted(
                [
                    [MARKUP, "1997", "1267650600228229401496703205376", "1"],
                    [QUOTES, "1998", "-2", "1"],
                    ["x\\x00y\\u202eback", "1998", "3", "1"],
                ]
            ),
        )
        self.assertEqual(self.answer("count by year")["view"], ["year"])
        self.assertEqual(self.answer("count")["view"], [])
        self.assertEqual(self.answer("count by part where part=none")["rows"], [])
        self.assertEqual(self.answer("avg(qty) where year=1999")["rows"], [["5.0000"]])
        self.assertTrue(0 < found["milliseconds"] < 10_000)

    def test_values_of_conditions(self) -> None:
        """Any text can be asked for, as it is."""
        self.serve()
        for text, count in (
            (MARKUP, 1),
            (QUOTES, 1),
            (HIDDEN, 1),
            (BYTES, 1),
            ("", 1),
            ("\xff", 0),
        ):
            condition = 'part="{}"'.format(text.replace('"', '""'))
            found = self.answer(f"count where {condition}")["rows"]
            self.assertEqual(found, [[str(count)]] if count else [], text)

    def test_values(self) -> None:
        """The values to choose from are there as they are and as they are shown."""
        self.serve()
        found = {
            each["value"]: each["shown"] for each in self.json("/values.json?name=part")["values"]
        }
        self.assertEqual(set(found), {part for part, _, _ in ROWS})
        self.assertEqual((found[BYTES], found[HIDDEN]), ("\\udcff\\udcfe", "x\\x00y\\u202eback"))
        years = self.json("/values.json?name=year")["values"]
        self.assertEqual([(each["value"], each["count"]) for each in years][0], ("1999", "3"))
        self.assertEqual({each["value"] for each in years}, {"1997", "1998", "1999"})
        for name in ("none", "", "part where year=1998", "count"):
            self.assertIn("fault", self.json(f"/values.json?name={asked(name)}", 400))

    def test_pages(self) -> None:
        """It says how many pages a question reads: here a leaf of each view, and the top."""
        self.serve()
        pages = self.json(f"/pages.json?slice={asked('count by year')}")
        self.assertEqual(set(pages), {"pages", "of"})
        with cubetree.open("w") as warehouse:
            seen = warehouse.visits("count by year")
        self.assertEqual((pages["pages"], pages["of"]), (seen.pages, seen.of))
        with mock.patch("cubetree.explore.asking.MOST_PAGES", 1):
            self.assertEqual(Explorer("w").pages("count by year"), {})

    def test_csv(self) -> None:
        """A file has the bytes that the folder has, quoted where it is due."""
        self.serve()
        reply, body = self.get(f"/answer.csv?slice={asked('sum(qty) by part')}")
        self.assertEqual(reply.headers["Content-Disposition"], 'attachment; filename="answer.csv"')
        self.assertEqual(reply.headers["Content-Type"], "text/csv; charset=utf-8")
        lines = body.split(b"\n")
        self.assertEqual((lines[0], lines[-1], len(lines)), (b"part,sum(qty)", b"", 8))
        self.assertIn(b'"a ""b"", c\'d\\",-2', lines)
        self.assertIn(b"\xff\xfe,4", lines)
        self.assertIn(MARKUP.encode() + b",1267650600228229401496703205376", lines)
        printed = subprocess.run(
            [CUBE, "ask", "--folder", "w", "--csv", "sum(qty) by part"], capture_output=True
        )
        self.assertEqual(body, printed.stdout)

    def test_command(self) -> None:
        """The command asks the same, as bash takes it."""
        self.serve()
        for text in (
            MARKUP,
            QUOTES,
            BYTES,
            "",
            "\u05d0\u05d1",
            "$(touch hit)`touch hit`",
            "\u202e1",
        ):
            condition = 'part="{}"'.format(text.replace('"', '""'))
            found = self.answer(f"count,sum(qty) where {condition}")
            line = found["command"].replace("cube ask", f"{CUBE} ask --csv")
            self.assertNotRegex(found["command"], "[\0-\x1f\u202e]")
            printed = run("bash", "-c", line.encode())[0]
            own = "".join(f"{','.join(row)}\n" for row in [["count", "sum(qty)"], *found["rows"]])
            self.assertEqual(printed, own, found["command"])
        self.assertFalse(os.path.exists("hit"))
        self.assertIsNone(self.answer('count where part="x\0y"')["command"])
        self.assertEqual(quoted("\udcff7'\\\n"), r"$'\3777\'\\\012'")

    def test_command_of_an_odd_folder(self) -> None:
        """The folder may have any name."""
        os.rename("w", "it's a <b> $x")
        self.serve(folder="it's a <b> $x")
        line = self.answer("count")["command"]
        self.assertIn("""'it'"'"'s a <b> $x'""".replace("it'", f"{os.getcwd()}/it'"), line)
        self.assertEqual(run("bash", "-c", line.replace("cube", CUBE, 1))[0].split()[2], "6")

    def test_many_rows(self) -> None:
        """The page gets some rows, those with the greatest first value; csv has all."""
        with mock.patch("cubetree.explore.asking.MOST_ROWS", 2):
            found = Explorer("w").answer("sum(qty),count by part where year=1999")
        self.assertEqual((found["count"], len(found["rows"])), (3, 2))
        self.assertEqual([row[1] for row in found["rows"]], ["6", "5"])

    def test_refusals(self) -> None:
        """What is refused is named, with its place, and nothing is written."""
        self.serve()
        before = {name: sum_of(f"w/{name}") for name in sorted(os.listdir("w")) if name != ".turns"}
        for text, said in (
            ("count by part,price", "no attribute has this name; there are part, year"),
            ("count by month(year)", "year is no column of dates"),
            ("sum(price)", "no measure has this name; there is qty"),
            ("count;drop", "something else is due here"),
            ("count where year=199x", "year is a number"),
            ("count\nload\nx,1,1\nend", "a slice is one line of at most 65,000 bytes"),
            ("count where part=" + "x" * 65_000, "a slice is one line of at most 65,000 bytes"),
            ("", "refused"),
        ):
            for path in ("/answer.json", "/pages.json", "/answer.csv"):
                found = self.json(f"{path}?slice={asked(text)}", 400)
                self.assertIn(said, found["fault"], text[:40])
        self.assertIn("\n  count by x\n           ^", self.answer("count by x", 400)["fault"])
        self.assertIn("has no `slice`", self.json("/answer.json?x=1", 400)["fault"])
        after = {name: sum_of(f"w/{name}") for name in sorted(os.listdir("w")) if name != ".turns"}
        self.assertEqual(before, after)

    def test_dates_and_amounts(self) -> None:
        """Amounts have their decimals, and dates are grouped by their months."""
        self.put("f", "Day,Unit fee\n2025-03-14,12.50\n2025-03-15,0.05\n2025-12-01,-1.00\n")
        os.mkdir("v")
        load("--folder", "v", "--dates", "Day", "--cents", "Unit fee", "--yes", "f")
        self.serve(folder="v")
        found = self.answer("sum(unit_fee),avg(unit_fee),count by month(day)")
        self.assertEqual(found["kinds"], ["month", "number", "number", "number"])
        self.assertEqual(
            found["rows"],
            [["2025-03", "12.55", "6.275000", "2"], ["2025-12", "-1.00", "-1.000000", "1"]],
        )
        self.assertEqual(self.answer("count by year(day)")["kinds"], ["year", "number"])
        self.assertEqual(
            self.answer("count by day where day=2025-12")["rows"], [["2025-12-01", "1"]]
        )
        state = self.state()
        self.assertEqual(state["attributes"], [{"name": "day", "title": "Day", "kind": "day"}])
        self.assertEqual(
            state["measures"], [{"name": "unit_fee", "title": "Unit fee", "kind": "decimal"}]
        )


def sum_of(path: str) -> str:
    """The sum of a file."""
    return hashlib.sha256(Path(path).read_bytes()).hexdigest()


if __name__ == "__main__":
    unittest.main()
