"""What the tests of the page of explore have in common: rows, and what is read of the page."""
from __future__ import annotations

import csv
import json
from collections import defaultdict
from decimal import Decimal
from typing import Any, Dict, List, Tuple
from urllib.parse import quote

from tests import browser
from tests.exploring import MARKUP, QUOTES, Exploring
from tests.helpers import load


def amount(cents: int) -> Decimal:
    """An amount of two decimals."""
    return Decimal(cents).scaleb(-2)


THIN, MINUS = "\u2009", "\u2212"
DEPOTS = ["Hull", MARKUP, "Zürich", QUOTES, *(f"D{n:02}" for n in range(8)), "\u05d0\u05d1"]
DAYS = ["2025-01-05", "2025-01-31", "2025-02-01", "2025-04-30"]  # None is in March.
SCHEMA = "attr day number\nattr depot text\nattr kind text\nmeasure fee\nmeasure parcels\n"
SCHEMA += "view day,depot\nview depot,kind\nview day\nview depot\nview\n"
Row = Tuple[str, str, str, Decimal, int]
ROWS: List[Row] = [
    (day, depot, f"k{at % 2}", amount((at * 1237 + place * 7919) % 90_001 - 9_000), 1 + at % 5)
    for at, depot in enumerate(DEPOTS)
    for place, day in enumerate(DAYS)
]


def grouped(keys: Any, values: Any, rows: List[Row] = ROWS) -> Dict[Any, Any]:
    """The sums of values of rows by keys of rows."""
    found: Dict[Any, Any] = defaultdict(int)
    for row in rows:
        found[keys(row)] += values(row)
    return dict(found)


def by_size(sums: Dict[str, Any]) -> List[str]:
    """The keys of sums, the greatest one first."""
    return sorted(sums, key=sums.__getitem__, reverse=True)


def eye(number: Any) -> str:
    """A number as the table shows it."""
    return f"{number:,}".replace(",", THIN).replace("-", MINUS)


class Paged(Exploring):
    """A test of the page, in a browser that the tests of a class share."""

    page: browser.Browser

    @classmethod
    def setUpClass(cls) -> None:
        cls.page = browser.Browser()

    @classmethod
    def tearDownClass(cls) -> None:
        cls.page.end()

    def setUp(self) -> None:
        super().setUp()
        self.page.open("about:blank")
        self.page.until("true")
        self.page.said.clear()
        self.page.size(1280, 900)

    def load(self, rows: List[Row] = ROWS) -> None:
        """Loads rows into the folder `w`."""
        self.put("schema", SCHEMA)
        with open("rows.csv", "w", encoding="utf-8", newline="") as file:
            csv.writer(file).writerows([("Day", "Depot", "Kind", "Fee", "Parcels"), *rows])
        words = ("--schema", "schema", "--dates", "Day", "--cents", "Fee", "--yes")
        load("--folder", "w", *words, "rows.csv")

    def open(self, **wanted: Any) -> None:
        """Opens the page, perhaps with a question, and waits for its answer."""
        self.page.open(self.address + (f"#{quote(json.dumps(wanted))}" if wanted else ""))
        self.drawn(0)

    def drawn(self, before: int) -> int:
        """Waits for a drawing after this one, and gives its number."""
        found: int = self.page.until(
            f"Number(document.body?.dataset.drawn) > {before} &&"
            " Number(document.body.dataset.drawn)"
        )
        return found

    def click(self, key: str) -> None:
        """Clicks a chip, and waits for what it draws."""
        before = self.page.run("Number(document.body.dataset.drawn)")
        self.page.run(f"document.querySelector('[data-key={json.dumps(key)}]').click()")
        self.drawn(before)

    def fill_in(self, label: str, value: str, is_faulty: bool = False) -> None:
        """Fills in a field, and waits for the answer, which a fault has none of."""
        before = self.page.run("Number(document.body.dataset.drawn)")
        self.page.run(
            f"""(() => {{
            const field = [...document.querySelectorAll("input")]
                .find((each) => each.getAttribute("aria-label") === {json.dumps(label)});
            field.value = {json.dumps(value)};
            field.dispatchEvent(new Event("change"));
        }})()"""
        )
        if not is_faulty:
            self.drawn(before)

    def text(self, name: str) -> str:
        """The text of an element."""
        found: str = self.page.run(f"document.getElementById({json.dumps(name)}).textContent")
        return found

    def table(self) -> List[List[str]]:
        """The rows of the table."""
        found: List[List[str]] = self.page.run(
            "[...document.querySelectorAll('#table tbody tr')]"
            ".map((row) => [...row.cells].map((cell) => cell.textContent))"
        )
        return found

    def chart(self) -> Dict[str, Any]:
        """What Chart.js draws: its kind, its labels, and its series by name."""
        found: Dict[str, Any] = self.page.run(
            """(() => {
            const { type, data, options } = Chart.getChart("chart").config;
            const series = data.datasets.map((each) => [each.label, each.data]);
            return { type, labels: data.labels, series: Object.fromEntries(series),
                names: series.map(([name]) => name), stacked: options.scales.y.stacked,
                axes: data.datasets.map((each) => each.yAxisID) };
        })()"""
        )
        return found

    def click_head(self, name: str) -> None:
        """Clicks a head of the table."""
        self.page.run(
            "[...document.querySelectorAll('#table th button')]"
            f".find((each) => each.textContent.startsWith({json.dumps(name)})).click()"
        )
