"""Tests of the page of explore, in a headless Chromium.

What is expected is worked out here of the rows, with decimals, and not by the code under test.
"""
from __future__ import annotations

import csv
import json
import os
import subprocess
import threading
import unittest
from collections import defaultdict
from decimal import Decimal
from typing import Dict, List, Tuple
from unittest import mock
from urllib.parse import quote

import cubetree
from cubetree.explore import server
from cubetree.explore.asking import Explorer
from tests import browser
from tests.exploring import MARKUP, QUOTES
from tests.helpers import CUBE
from tests.pages import DEPOTS, ROWS, Paged, Row, amount, by_size, eye, grouped


@unittest.skipUnless(browser.is_there(), "no chromium")
@unittest.skipUnless(server.charts_there(), "no libjs-chart.js")
class Page(Paged):
    """The page over a folder of deliveries."""

    # ---- what is shown

    def test_first_question(self) -> None:
        """A page begins with the first measure by month, as a line in the order of time."""
        self.load()
        self.serve()
        self.open()
        self.assertTrue(self.text("command").endswith(" 'sum(fee) by month(day)'"))
        sums = grouped(lambda row: row[0][:7], lambda row: row[3])
        self.assertEqual(self.table(), [[month, eye(sums[month])] for month in sorted(sums)])
        chart = self.chart()
        self.assertEqual(chart["type"], "line")
        self.assertEqual(chart["labels"], ["2025-01", "2025-02", "2025-03", "2025-04"])
        own = [float(sums[month]) for month in sorted(sums)]
        self.assertEqual(chart["series"], {"sum(fee)": [*own[:2], None, own[2]]})
        self.page.until("document.getElementById('told').textContent.includes('page')")
        with cubetree.open("w") as warehouse:
            seen = warehouse.visits("sum(fee) by month(day)")
        self.assertRegex(
            self.text("told"),
            rf"^3 rows in [\d.]+ ms, from the view day: {seen.pages} of {seen.of} pages$",
        )
        self.assertEqual(self.page.said, [])
        self.assertIn("52 facts; the last numbered batch is 1;", self.text("facts"))
        self.assertEqual(self.text("work"), "no load under way")

    def test_stack(self) -> None:
        """A stack has the seven greatest series, and the exact sum of the others."""
        self.load()
        self.serve()
        self.open(columns=["sum(fee)"], by=["month(day)", "depot"], kind="stack")
        cells = grouped(lambda row: (row[0][:7], row[1]), lambda row: row[3])
        self.assertEqual(
            sorted(self.table()), sorted([*key, eye(value)] for key, value in cells.items())
        )
        weights: Dict[str, Decimal] = defaultdict(Decimal)
        for (_, depot), value in cells.items():
            weights[depot] += abs(value)
        ranked = by_size(weights)
        chart = self.chart()
        self.assertEqual((chart["type"], chart["stacked"]), ("bar", True))
        self.assertEqual(chart["names"], [*ranked[:7], f"{len(DEPOTS) - 7} others"])
        months = ["2025-01", "2025-02", "2025-04"]
        for depot in ranked[:7]:
            own = [float(cells[month, depot]) for month in months]
            self.assertEqual(chart["series"][depot], [*own[:2], None, own[2]])
        rest = [float(sum(cells[month, depot] for depot in ranked[7:])) for month in months]
        self.assertEqual(chart["series"][f"{len(DEPOTS) - 7} others"], [*rest[:2], None, rest[2]])
        self.assertIn("from the view day, depot", self.text("told"))
        self.assertIn("the least 6 others are joined", self.text("told"))

    def test_time_along_the_axis(self) -> None:
        """Time goes along the axis, whichever group comes first; means are not joined."""
        self.load()
        self.serve()
        self.open(columns=["avg(fee)"], by=["depot", "month(day)"])
        chart = self.chart()
        self.assertEqual(chart["labels"], ["2025-01", "2025-02", "2025-03", "2025-04"])
        self.assertEqual(len(chart["names"]), 8)
        self.assertTrue(set(chart["names"]) <= set(DEPOTS))
        sums = grouped(lambda row: (row[1], row[0][:7]), lambda row: row[3])
        counts = grouped(lambda row: (row[1], row[0][:7]), lambda _: 1)
        shown = {(depot, month): text for depot, month, text in self.table()}
        for key, total in sums.items():
            self.assertEqual(shown[key], eye((total / counts[key]).quantize(Decimal("0.000001"))))
        months = ["2025-01", "2025-02", "2025-04"]
        for depot in chart["names"]:
            own = [float(sums[depot, month] / counts[depot, month]) for month in months]
            self.assertEqual(chart["series"][depot], [*own[:2], None, own[2]])

    def test_bars(self) -> None:
        """Bars of texts have the greatest first, or go by name; the first ones are drawn, and a
        small column has an axis of its own."""
        self.load()
        self.serve()
        self.open(columns=["sum(fee)", "count"], by=["depot"], most=5)
        sums = grouped(lambda row: row[1], lambda row: row[3])
        ranked = by_size(sums)
        chart = self.chart()
        self.assertEqual((chart["type"], chart["labels"]), ("bar", ranked[:5]))
        self.assertEqual(chart["series"]["sum(fee)"], [float(sums[depot]) for depot in ranked[:5]])
        self.assertEqual(chart["series"]["count"], [4] * 5)
        self.assertEqual(chart["axes"], ["y", "right"])
        before = self.page.run("Number(document.body.dataset.drawn)")
        self.page.run(
            """(() => {
            const order = document.getElementById("order");
            order.value = "group";
            order.dispatchEvent(new Event("change"));
        })()"""
        )
        self.drawn(before)
        self.assertEqual(self.chart()["labels"], sorted(DEPOTS)[:5])

    def test_totals(self) -> None:
        """Without a group the totals are large, and there is no chart."""
        self.load()
        self.serve()
        self.open(columns=["count", "sum(fee)"], by=[])
        total = sum(row[3] for row in ROWS)
        self.assertEqual(self.text("totals"), f"52count{eye(total)}sum(fee)")
        self.assertTrue(self.page.run("document.getElementById('frame').hidden"))
        self.assertIn("from the view of no attribute", self.text("told"))

    def test_large_numbers(self) -> None:
        """Numbers of 128 bits are exact, and are sorted as they are."""
        most = (1 << 124) + 1
        self.fill([("a", 1, most), ("b", 2, most + 1), ("c", 3, -most)])
        self.serve()
        self.open(columns=["sum(qty)"], by=["part"])
        shown = {"a": eye(most), "b": eye(most + 1), "c": eye(-most)}
        self.assertEqual(dict(self.table()), shown)
        self.click_head("sum(qty)")
        self.assertEqual([row[0] for row in self.table()], ["b", "a", "c"])
        self.click_head("sum(qty)")
        self.assertEqual([row[0] for row in self.table()], ["c", "a", "b"])

    def test_hostile_texts(self) -> None:
        """Texts with markup are texts, wherever they stand."""
        self.fill()
        self.serve()
        self.open(columns=["count"], by=["part"])
        shown = {MARKUP, QUOTES, "x\\x00y\\u202eback", "\\udcff\\udcfe", "\u05d0\u05d1", "(empty)"}
        self.assertEqual({row[0] for row in self.table()}, shown)
        for where in ("#table", "#told", "#command", "#filters", "header"):
            for tag in ("script", "img", "b"):
                count = f"document.querySelectorAll('{where} {tag}').length"
                self.assertEqual(self.page.run(count), 0)
        self.fill_in("part: is", MARKUP)
        self.assertEqual(self.table(), [[MARKUP, "1"]])
        self.assertIn('part="<script>', self.text("command"))
        self.fill_in("part: is", "<b>none</b>")
        self.assertEqual(self.table(), [])
        self.assertNotEqual(self.page.run("document.title"), "hit")
        self.assertEqual(self.page.said, [])

    def test_policy(self) -> None:
        """No script comes in by markup, and no picture from elsewhere."""
        self.fill()
        self.serve()
        self.open()
        self.page.run(
            """(() => {
            const script = document.createElement("script");
            try { script.textContent = "window.hit = 1"; } catch { }
            document.body.append(script);
            const image = new Image();
            image.src = "http://127.0.0.1:1/x.png";
            document.body.append(image);
        })()"""
        )
        self.page.until("new Promise((done) => setTimeout(() => done(true), 200))")
        self.assertEqual(self.page.run("typeof window.hit"), "undefined")
        self.assertIn("Content Security Policy", str(self.page.said))
        with self.assertRaises(RuntimeError):
            self.page.run("document.body.innerHTML = '<p>x</p>'")

    # ---- what is chosen

    def test_chips(self) -> None:
        """Groups that no view has beside the others are grey, and say so."""
        self.load()
        self.serve()
        self.open(columns=["count"], by=["depot"])
        self.click("month(day)")
        self.assertTrue(self.text("command").endswith("'count by depot,month(day)'"))
        grey = "document.querySelector('[data-key=kind]')"
        self.assertEqual(self.page.run(f"{grey}.ariaDisabled"), "true")
        self.assertEqual(self.page.run(f"{grey}.title"), "no view has depot, day, kind together")
        self.page.run(f"{grey}.click()")
        self.assertEqual(self.text("covered"), "kind: no view has depot, day, kind together")
        self.assertTrue(self.text("command").endswith("'count by depot,month(day)'"))
        self.click("year(day)")
        self.assertTrue(self.text("command").endswith("'count by depot,year(day)'"))
        self.click("year(day)")
        self.click("kind")
        self.assertTrue(self.text("command").endswith("'count by depot,kind'"))
        self.assertTrue(
            self.page.run(
                "[...document.querySelectorAll('[data-name=day] input')].every((each) =>"
                " each.disabled)"
            )
        )
        self.click("min(fee)")
        self.click("count")
        self.assertTrue(self.text("command").endswith("'min(fee) by depot,kind'"))
        least: Dict[Tuple[str, str], Decimal] = {}
        for row in ROWS:
            least[row[1], row[2]] = min(least.get((row[1], row[2]), row[3]), row[3])
        self.assertEqual(
            sorted(self.table()), sorted([*key, eye(value)] for key, value in least.items())
        )

    def test_filters(self) -> None:
        """A filter offers the values that there are; dates may be months and ranges."""
        self.load()
        self.serve()
        self.open(columns=["sum(fee)"], by=["depot"])
        self.page.run("document.querySelector('[data-name=depot] input').focus()")
        self.page.until("document.querySelectorAll('#values-depot option').length")
        values = self.page.run(
            "[...document.querySelectorAll('#values-depot option')].map((each) => each.value)"
        )
        self.assertEqual(sorted(values), sorted(DEPOTS))
        self.fill_in("day: is, or from", "2025-01")
        rows = [row for row in ROWS if row[0] < "2025-02"]
        sums = grouped(lambda row: row[1], lambda row: row[3], rows)
        self.assertEqual(dict(self.table()), {key: eye(value) for key, value in sums.items()})
        self.fill_in("day: to", "2025-02-01")
        self.fill_in("depot: is", QUOTES)
        total = sum(row[3] for row in ROWS if row[1] == QUOTES and row[0] < "2025-03")
        self.assertEqual(self.table(), [[QUOTES, eye(total)]])
        self.assertIn("where day=2025-01..2025-02-01 and depot=", self.text("command"))
        address = self.page.run("location.href")
        self.page.open(address)
        self.drawn(0)
        self.assertEqual(self.table(), [[QUOTES, eye(total)]])
        self.fill_in("depot: is", "")
        self.fill_in("day: to", "")
        self.fill_in("day: is, or from", "2025-13", is_faulty=True)
        self.page.until("document.getElementById('fault').textContent.includes('day has days')")

    def test_values_that_are_not_shown(self) -> None:
        """Values with characters that cannot be seen are chosen by what is shown of them."""
        self.fill()
        self.serve()
        self.open(columns=["sum(qty)"], by=["year"])
        self.page.run("document.querySelector('[data-name=part] input').focus()")
        self.page.until("document.querySelectorAll('#values-part option').length")
        for shown, row in (
            ("\\udcff\\udcfe", ["1999", "4"]),
            ("x\\x00y\\u202eback", ["1998", "3"]),
            ('""', ["1999", "6"]),
        ):
            self.fill_in("part: is", shown)
            self.assertEqual(self.table(), [row])

    def test_keys(self) -> None:
        """Chips and heads are pressed by keys, and keep the focus."""
        self.load()
        self.serve()
        self.open(columns=["count"], by=["depot"])
        before = self.page.run("Number(document.body.dataset.drawn)")
        self.page.run("document.querySelector('[data-key=\"sum(fee)\"]').focus()")
        self.page.press("Enter")
        before = self.drawn(before)
        focused = "document.activeElement.dataset.key"
        self.assertEqual(self.page.run(focused), "sum(fee)")
        self.assertEqual(self.page.run("document.activeElement.ariaPressed"), "true")
        outline = "getComputedStyle(document.activeElement).outlineStyle"
        self.assertEqual(self.page.run(outline), "solid")
        self.page.press("Tab")
        self.assertEqual(self.page.run(focused), "avg(fee)")
        self.page.run("document.querySelectorAll('#table th button')[2].focus()")
        self.page.press("Enter")
        sums = grouped(lambda row: row[1], lambda row: row[3])
        ranked = by_size(sums)
        self.assertEqual([row[0] for row in self.table()], ranked)
        self.assertEqual(self.page.run(focused), "sort 2")
        sort = "document.querySelectorAll('#table th')[2].ariaSort"
        self.assertEqual(self.page.run(sort), "descending")
        unnamed = """[...document.querySelectorAll("button, input, select, canvas")]
            .filter((each) => !each.textContent.trim())
            .filter((each) => !each.getAttribute("aria-label") && !each.labels?.length).length"""
        self.assertEqual(self.page.run(unnamed), 0)

    def test_csv(self) -> None:
        """The link gives the answer as csv."""
        self.load()
        self.serve()
        self.open(columns=["sum(fee)"], by=["depot"])
        fetched = "fetch(document.getElementById('csv').href).then((reply) => reply.text())"
        rows = list(csv.reader(self.page.run(fetched).splitlines()))
        sums = grouped(lambda row: row[1], lambda row: row[3])
        self.assertEqual(sorted(rows[1:]), sorted([key, str(value)] for key, value in sums.items()))

    def test_odd_addresses(self) -> None:
        """An address with a question of another folder, or with none, is read as far as it goes."""
        self.load()
        self.serve()
        for text in ("x", "null", "[1]", '{"columns":1,"where":7}', '{"kind":"pie","most":-1}'):
            self.page.open(f"{self.address}#{quote(text)}")
            self.drawn(0)
        where = {"day": {"from": 5}, "none": {"from": "x"}, "depot": {"from": "Hull"}}
        self.open(columns=["sum(x)", "count"], by=["none", "kind", "kind"], where=where)
        self.assertTrue(self.text("command").endswith("'count by kind where depot=Hull'"))

    # ---- what goes on beside it

    def test_refresh(self) -> None:
        """The page says that a batch is being taken in; after it the chart is new."""
        self.load()
        self.serve()
        self.open(columns=["count"], by=["month(day)"])
        rows = "".join(f"{20250501 + n % 28},H{n % 997},k{n % 9},1,1\n" for n in range(30_000))
        self.put("more", rows)
        words = [CUBE, "refresh", "--folder", "w", "--step", "1", "--pause", "200", "more"]
        refresh = subprocess.Popen(words, stdin=subprocess.DEVNULL, stderr=subprocess.DEVNULL)
        self.addCleanup(refresh.wait)
        self.addCleanup(refresh.kill)
        self.page.until(
            "document.getElementById('work').textContent"
            " === 'cube refresh: a batch is being taken in'"
        )
        self.page.until("document.getElementById('far').textContent === '30\u2009000 rows'")
        self.page.until("!document.getElementById('part').hidden")
        self.page.run("document.querySelector('[data-key=\"sum(parcels)\"]').click()")
        waits = "document.getElementById('work').textContent.endsWith('; the answer waits')"
        self.page.until(waits)
        self.assertEqual(self.chart()["names"], ["count"])
        self.page.until("Chart.getChart('chart').data.labels.includes('2025-05')")
        self.assertEqual(refresh.wait(30), 0)
        self.assertEqual(self.table()[-1][:2], ["2025-05", eye(30_000)])
        self.assertEqual(self.chart()["names"], ["count", "sum(parcels)"])
        self.page.until("document.getElementById('work').textContent === 'no load under way'")
        self.assertTrue(self.text("facts").startswith(f"{eye(30_052)} facts;"))

    def test_load_beside(self) -> None:
        """A page that nobody touches has a new chart after a batch, and keeps its question."""
        self.load()
        self.serve()
        self.open(columns=["sum(fee)"], by=["depot"])
        more: List[Row] = [("2025-05-01", "Hull", "k0", amount(123), 1)]
        before = self.page.run("Number(document.body.dataset.drawn)")
        self.load(ROWS + more)
        self.drawn(before)
        hull = sum(row[3] for row in ROWS + more if row[1] == "Hull")
        self.assertEqual(dict(self.table())["Hull"], eye(hull))
        self.assertIn(float(hull), self.chart()["series"]["sum(fee)"])
        self.assertTrue(self.text("facts").startswith("53 facts; the last numbered batch is 2;"))

    def test_quick_clicks(self) -> None:
        """Of several questions in a row the last one is answered."""
        self.load()
        self.serve()
        self.open(columns=["count"], by=["depot"])
        keys = ["month(day)", "sum(fee)", "count", "depot", "avg(parcels)", "max(parcels)"]
        clicks = "".join(f"document.querySelector('[data-key=\"{key}\"]').click();" for key in keys)
        self.page.run(clicks)
        heads = "[...document.querySelectorAll('#table th')].map((each) => each.textContent).join()"
        self.page.until(f"{heads} === 'month(day),sum(fee),avg(parcels),max(parcels)'")
        self.page.until("document.getElementById('told').textContent.includes('page')")
        sums = grouped(lambda row: row[0][:7], lambda row: row[3])
        self.assertEqual([row[1] for row in self.table()], [eye(sums[key]) for key in sorted(sums)])
        self.assertEqual(self.page.said, [])

    def test_locked_folder(self) -> None:
        """A folder that another run held without a change to it is asked again."""
        self.load()
        self.serve()
        self.open(columns=["count"], by=["depot"])
        lock = subprocess.Popen(["flock", "w", "sh", "-c", "echo; read x"], stdin=-1, stdout=-1)
        self.addCleanup(lock.communicate)
        assert lock.stdout and lock.stdin
        lock.stdout.readline()
        before = self.page.run("Number(document.body.dataset.drawn)")
        self.page.run("document.querySelector('[data-key=\"sum(parcels)\"]').click()")
        work = "document.getElementById('work').textContent"
        self.page.until(f"{work} === 'another run is at work here; the answer waits'")
        self.assertEqual(self.chart()["names"], ["count"])
        lock.communicate(b"\n")
        self.drawn(before)
        self.assertEqual(self.chart()["names"], ["count", "sum(parcels)"])
        self.page.until(f"{work} === 'no load under way'")

    def test_two_pages(self) -> None:
        """Two pages at a time have an answer each."""
        self.load()
        self.serve()
        other = browser.Browser()
        self.addCleanup(other.end)
        other.open(f"{self.address}#{quote(json.dumps({'columns': ['count'], 'by': ['depot']}))}")
        self.open(columns=["sum(fee)"], by=["kind"])
        other.until("document.querySelectorAll('#table tbody tr').length")
        rows = other.run("document.querySelectorAll('#table tbody tr').length")
        self.assertEqual((rows, len(self.table())), (len(DEPOTS), 2))

    def test_no_schema_yet(self) -> None:
        """A folder without a schema says how to load; then the page appears by itself."""
        self.serve()
        self.page.open(self.address)
        self.page.until("document.getElementById('notice')?.textContent")
        self.assertIn(f"cube load FILE.csv --folder {os.path.realpath('w')}", self.text("notice"))
        self.assertTrue(self.page.run("document.getElementById('main').hidden"))
        self.load()
        self.drawn(0)
        self.assertTrue(self.page.run("document.getElementById('notice').hidden"))
        self.assertFalse(self.page.run("document.getElementById('main').hidden"))

    def test_ended_server(self) -> None:
        """A page whose server has ended says so."""
        self.load()
        served = self.serve()
        self.open()
        self.stop(served)
        self.page.until("document.getElementById('notice').textContent.includes('has ended')")

    def test_folder_is_gone(self) -> None:
        """A page whose folder was removed says so."""
        self.load()
        self.serve()
        self.open()
        os.rename("w", "gone")
        self.page.until("document.getElementById('notice').textContent.includes('is gone')")
        os.mkdir("w")
        self.page.until("document.getElementById('notice').textContent.includes('cube load')")

    # ---- other windows

    def test_dark_and_narrow(self) -> None:
        """The page follows the colours that are preferred, and fits a narrow window."""
        self.load()
        self.serve()
        light, ink = "rgb(255, 255, 255)", "getComputedStyle(document.body).color"
        paper = "getComputedStyle(document.body).backgroundColor"
        self.open(columns=["sum(fee)"], by=["depot"])
        self.assertEqual(self.page.run(paper), light)
        colour = "Chart.getChart('chart').data.datasets[0].backgroundColor"
        before = self.page.run(colour)
        self.page.size(420, 900, "dark")
        self.page.until(f"{paper} !== '{light}'")
        self.page.until(f"{colour} !== '{before}'")
        dark, bright = (self.page.run(each) for each in (paper, ink))
        self.assertGreater(contrast(dark, bright), 7)
        self.assertLessEqual(self.page.run("document.documentElement.scrollWidth"), 420)
        self.assertLessEqual(self.page.run("document.getElementById('chart').offsetWidth"), 420)
        self.assertEqual(self.page.run("innerWidth"), 420)

    def test_no_charts(self) -> None:
        """Without Chart.js there are tables, and a line that names the package."""
        self.load()
        with server.Server(Explorer("w"), 0, None) as served:
            threading.Thread(target=served.serve_forever, daemon=True).start()
            self.addCleanup(served.shutdown)
            self.address = served.address(served.word)
            self.open(columns=["count"], by=["kind"])
            self.assertEqual(len(self.table()), 2)
            self.assertIn("apt install libjs-chart.js", self.text("nochart"))
            self.assertTrue(self.page.run("document.getElementById('frame').hidden"))

    def test_too_many_rows(self) -> None:
        """An answer that is cut has no chart by time, and one of the greatest texts."""
        self.load()
        with mock.patch("cubetree.explore.asking.MOST_ROWS", 6):
            with server.Server(Explorer("w"), 0, server.charts_there()) as served:
                threading.Thread(target=served.serve_forever, daemon=True).start()
                self.addCleanup(served.shutdown)
                self.address = served.address(served.word)
                self.open(columns=["sum(fee)"], by=["depot"])
                sums = grouped(lambda row: row[1], lambda row: row[3])
                ranked = by_size(sums)
                self.assertEqual(self.chart()["labels"], ranked[:6])
                self.assertEqual(self.table()[-1], ["7 more rows: csv has all"])
                self.click("month(day)")
                self.assertIn("39 rows are too many for a chart", self.text("nochart"))
                self.assertTrue(self.page.run("document.getElementById('frame').hidden"))


def contrast(one: str, other: str) -> float:
    """The contrast of two colours, as WCAG 2 defines it."""

    def light(colour: str) -> float:
        """How light a colour is."""
        parts = [int(part) / 255 for part in colour[4:-1].split(",")]
        red, green, blue = (
            part / 12.92 if part <= 0.03928 else float(((part + 0.055) / 1.055) ** 2.4)
            for part in parts
        )
        return 0.2126 * red + 0.7152 * green + 0.0722 * blue

    low, high = sorted((light(one), light(other)))
    return (high + 0.05) / (low + 0.05)


if __name__ == "__main__":
    unittest.main()
