"""Drawn questions with means, ratios and months, against sqlite3 over the raw rows."""
from __future__ import annotations

import csv
import io
import random
import sqlite3
from decimal import Decimal, localcontext
from pathlib import Path
from typing import Dict, List, NamedTuple, Tuple

import cubetree
from tests.deriving import cells, loaded

DEPOTS = ["Hull", "Bath", "a b", "\u00e9", ""]
BASES = [
    "count",
    *(f"{word}({name})" for word in ("sum", "min", "max") for name in ("parcels", "fee")),
]
GROUPS = {
    "depot": "depot",
    "kg": "kg",
    "day": "case day when '' then '0' else day end",
    "month(day)": "case day when '' then '0' else substr(day, 1, 7) end",
    "year(day)": "cast(substr(day, 1, 4) as int)",
}


class Drawn(NamedTuple):
    """A question in the words of both programs: its text, its columns and groups, and the query in
    SQL, which has all that columns are worked out of."""

    text: str
    columns: List[str]
    groups: List[str]
    query: str


def drawn_rows(draw: random.Random) -> List[Tuple[str, int, str, int, int]]:
    """Facts: a depot, a weight, a day or none, parcels and cents."""
    days = [
        f"{y}-{m:02}-{d:02}" for y in (2023, 2024, 2025) for m in (1, 2, 11, 12) for d in (1, 28)
    ]
    return [
        (
            draw.choice(DEPOTS),
            draw.choice([2, 9, 10, 100]),
            draw.choice([*days, ""]),
            draw.randrange(-3, 4),
            draw.randrange(-900, 900),
        )
        for _ in range(400)
    ]


def drawn_bound(draw: random.Random) -> Tuple[str, str]:
    """A condition on the days, for both programs."""
    years = sorted([draw.choice(["2023", "2024", "2025"]) for _ in range(2)])
    months = sorted([f"{draw.choice(years)}-{draw.choice(['01', '11', '12'])}" for _ in range(2)])
    return draw.choice(
        [
            (f"month(day)={months[0]}", f"substr(day, 1, 7) = '{months[0]}'"),
            (f"day={months[0]}", f"substr(day, 1, 7) = '{months[0]}'"),
            (
                f"month(day)={'..'.join(months)}",
                f"substr(day, 1, 7) between '{months[0]}' and '{months[1]}'",
            ),
            (f"month(day)={years[0]}", f"substr(day, 1, 4) = '{years[0]}'"),
            (f"year(day)={years[1]}", f"substr(day, 1, 4) = '{years[1]}'"),
            (
                f"year(day)={'..'.join(years)}",
                f"substr(day, 1, 4) between '{years[0]}' and '{years[1]}'",
            ),
            ("month(day)=0", "day = ''"),
            (f"day={months[0]}-28", f"day = '{months[0]}-28'"),
        ]
    )


def drawn(draw: random.Random) -> Drawn:
    """A question."""
    columns = [
        draw.choice(
            [
                draw.choice(BASES),
                f"avg({draw.choice(['parcels', 'fee'])})",
                f"{draw.choice(BASES)}/{draw.choice(BASES)}",
            ]
        )
        for _ in range(draw.randrange(1, 4))
    ]
    groups = draw.sample([*GROUPS], draw.randrange(0, 4))
    depot, low = draw.choice(DEPOTS), draw.choice([2, 9])
    bounds = [
        each
        for each in (
            drawn_bound(draw),
            (f'depot="{depot}"', f"depot = '{depot}'"),
            (f"kg={low}..10", f"kg between {low} and 10"),
        )
        if draw.random() < 0.3
    ]
    draw.shuffle(bounds)
    text = ",".join(columns) + (" by " + ",".join(groups) if groups else "")
    text += " where " + " and ".join(each for each, _ in bounds) if bounds else ""
    keys = ", ".join(GROUPS[each] for each in groups)
    query = f"select {keys + ', ' if keys else ''}{', '.join(map(in_sql, BASES))} from facts"
    query += " where " + " and ".join(each for _, each in bounds) if bounds else ""
    return Drawn(
        text, columns, groups, query + (f" group by {keys} order by {keys}" if keys else "")
    )


def in_sql(base: str) -> str:
    """A column of the program in SQL."""
    return "count(*)" if base == "count" else base


def cell_of(column: str, found: Dict[str, int]) -> str:
    """The cell of a column, of the sums, counts and extremes that sqlite3 has found."""
    name = column.replace("avg(", "sum(") + ("/count" if column.startswith("avg") else "")
    above, slash, below = name.partition("/")
    places = 2 if "fee" in above else 0
    if not slash:
        return format(Decimal(found[above]).scaleb(-places), "f")
    with localcontext() as context:
        context.prec = 60
        divisor = Decimal(found[below]).scaleb(-2 if "fee" in below else 0)
        if not divisor:
            return ""
        quotient = Decimal(found[above]).scaleb(-places) / divisor
        return format(quotient.quantize(Decimal(1).scaleb(-places - 4)) + 0, "f")


def wanted_rows(base: sqlite3.Connection, question: Drawn) -> List[str]:
    """The rows of the answer, by sqlite3."""
    rows = []
    for row in base.execute(question.query):
        keys, sums = row[: len(question.groups)], row[len(question.groups) :]
        found = dict(zip(BASES, sums))
        if found["count"]:
            rows.append(
                ",".join([*map(str, keys), *(cell_of(each, found) for each in question.columns)])
            )
    return rows


def test_as_in_sqlite(tmp_path: Path) -> None:
    """Drawn questions, each answered as sqlite3 answers it over the raw rows."""
    draw = random.Random(2026)
    rows = drawn_rows(draw)
    schema = (
        "attr depot text\nattr kg number\nattr day number\nmeasure parcels\nmeasure fee\nview"
        " depot,kg,day\n"
    )
    text = io.StringIO()
    csv.writer(text).writerows(
        [
            ("depot", "kg", "day", "parcels", "fee"),
            *((*row[:4], Decimal(row[4]).scaleb(-2)) for row in rows),
        ]
    )
    words = ["--dates", "day", "--cents", "fee", "--na", "", "--batch", "90"]
    folder = loaded(tmp_path, schema, text.getvalue(), *words)
    base = sqlite3.connect(":memory:")
    base.execute("create table facts (depot text, kg int, day text, parcels int, fee int)")
    base.executemany("insert into facts values (?, ?, ?, ?, ?)", rows)
    empty = 0
    with cubetree.open(folder) as warehouse:
        for _ in range(300):
            question = drawn(draw)
            wanted = wanted_rows(base, question)
            assert cells(warehouse.slice(question.text)) == wanted, question.text
            empty += not wanted
    assert empty < 60
