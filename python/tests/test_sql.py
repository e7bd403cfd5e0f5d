"""Queries in SQL over a dozen facts, with answers that were worked out by hand: one or more for
each feature. Drawn ones are in test_sql_drawn.py, and refusals in test_sql_refused.py."""
from __future__ import annotations

import datetime
from decimal import Decimal as D
from typing import Any, Iterator, List, Tuple

import pytest

import cubetree
from tests.deriving import loaded
from tests.helpers import CUBE, run

SCHEMA = (
    "attr part text\nattr area text\nattr year number\nattr day number\nmeasure qty\nmeasure fee\n"
    "view part,area,year\nview day,year\nview area\nview year\nview\n"
)
FACTS = [
    ("bolt", "N", 1995, 20250314, 5, 1),
    ("bolt", "N", 1996, 20250401, 3, 2),
    ("bolt", "S", 1996, 20250314, -2, 0),
    ("nut", "N", 1995, 20250301, 7, 1),
    ("nut", "S", 1997, 20250314, 4, 3),
    ("nut", "S", 1997, 20260102, 1, 1),
    ("nut", "", 1996, 20250401, -5, 2),
    ("it's", "N", 1997, 20250301, 9, 0),
    ("it's", "S", 1995, 20250401, 2, 4),
    ("Ä", "N", 1996, 20260102, 6, 1),
    ("Ä", "", 1996, 20250314, -1, 2),
    ("", "S", 1997, 20250301, 8, 1),
]
OF_FEES = "attr part text\nattr day number\nattr period number\nmeasure fee\nview part,day\n"
OF_FEES += "view period,part\nview\n"
FEES = (
    "part,day,period,fee\nbolt,2025-03-14,2025-03,0.10\nbolt,2025-03-15,2025-03,0.10\n"
    "bolt,2025-04-01,2025-04,0.10\nnut,2025-03-14,2025-03,12.50\nnut,2025-04-01,2025-04,-2.25\n"
)
MARCH, IDES, APRIL = (datetime.date(2025, *day) for day in ((3, 14), (3, 15), (4, 1)))
Cases = List[Tuple[str, List[Any]]]

# What stands after SELECT, with the rows. A row of one value is that value.
NAMED: Cases = [
    (
        "part, SUM(qty) AS s FROM facts GROUP BY part ORDER BY s DESC LIMIT 2",
        [("it's", 11), ("", 8)],
    ),
    (
        "part p, SUM(qty) FROM facts GROUP BY p ORDER BY 2 LIMIT 2 OFFSET 1",
        [("bolt", 6), ("nut", 7)],
    ),
    ("year FROM facts GROUP BY year ORDER BY COUNT(*) DESC", [1996, 1997, 1995]),
    ("area FROM facts GROUP BY area ORDER BY LENGTH(area) DESC, area DESC", ["S", "N", ""]),
    ("NULLIF(area, '') AS a FROM facts GROUP BY a ORDER BY a DESC NULLS FIRST", [None, "S", "N"]),
    ("NULLIF(area, '') AS a FROM facts GROUP BY a ORDER BY a NULLS LAST", ["N", "S", None]),
    ("year FROM facts GROUP BY year ORDER BY year LIMIT 1, 2", [1996, 1997]),
    (
        "area, SUM(qty) AS qty FROM facts GROUP BY area ORDER BY qty",
        [("", -6), ("S", 13), ("N", 30)],
    ),
    ("part FROM facts GROUP BY part HAVING COUNT(*) > 2 ORDER BY part", ["bolt", "nut"]),
    ("SUM(qty) AS s FROM facts GROUP BY part HAVING s BETWEEN 6 AND 8 ORDER BY s", [6, 7, 8]),
    ("DISTINCT area FROM facts ORDER BY area DESC", ["S", "N", ""]),
    ("COUNT(*) FROM (SELECT DISTINCT part, area FROM facts)", [10]),
    ("pArT, sum(QTY) from FACTS where YEAR = 1997 group by part order by 1 limit 1", [("", 8)]),
    ('"f"."part" FROM "facts" AS "f" WHERE [year] = 1997 GROUP BY f.`part`', ["", "it's", "nut"]),
    ("/* a, 'b' */ COUNT(*) -- it's\nFROM facts; -- the end", [12]),
    ("1 + 1, 'x' || 'y'", [(2, "xy")]),
]
AGGREGATES: Cases = [
    ("COUNT(*), SUM(qty), MIN(qty), MAX(qty) FROM facts WHERE year = 1996", [(5, 1, -5, 6)]),
    ("AVG(qty), TOTAL(qty), COUNT(qty) FROM facts WHERE year = 1996", [(0.2, 1.0, 5)]),
    ("COUNT(*), SUM(qty), MIN(part), AVG(qty) FROM facts WHERE year = 9", [(0, None, None, None)]),
    ("TOTAL(fee) FROM facts WHERE part LIKE 'x%'", [0.0]),
    ("year, COUNT(*) FROM facts WHERE year = 9 GROUP BY year", []),
    ("COUNT(part), MIN(part), MAX(part) FROM facts WHERE area = ''", [(2, "nut", "Ä")]),
    ("MIN(year), SUM(year), AVG(year) FROM facts WHERE area = ''", [(1996, 3992, 1996.0)]),
    ("COUNT(DISTINCT part), COUNT(DISTINCT area), SUM(DISTINCT year) FROM facts", [(5, 3, 5988)]),
    ("SUM(year * 2), COUNT(NULLIF(area, '')) FROM facts", [(47906, 10)]),
    ("SUM(LENGTH(part)), MAX(LENGTH(part)) FROM facts", [(34, 4)]),
    ("SUM(qty * 2 + 1), SUM(-qty), SUM(qty - fee) FROM facts", [(86, -37, 19)]),
    ("SUM(qty * year), SUM(qty + year) FROM facts WHERE year = 1996", [(1996, 9981)]),
    ("SUM(CASE WHEN area = 'N' THEN qty ELSE 0 END) FROM facts", [30]),
    ("SUM(CASE WHEN area = 'S' THEN fee END), SUM(IIF(year < 1996, qty, -1)) FROM facts", [(9, 5)]),
    ("SUM(qty) * 1.0 / COUNT(*), SUM(qty) / COUNT(*) FROM facts WHERE part = 'nut'", [(1.75, 1)]),
    (
        "COUNT(*) FILTER (WHERE area = 'N'), MAX(qty) FILTER (WHERE area = 'X') FROM facts",
        [(5, None)],
    ),
    ("SUM(qty) FILTER (WHERE year > 1995 AND area <> '') FROM facts", [29]),
    (
        "COALESCE(SUM(qty), 0), IIF(COUNT(*) = 0, 'no', 'yes') FROM facts WHERE year = 9",
        [(0, "no")],
    ),
]
EXPRESSIONS: Cases = [
    (
        "year / 2 * 2 AS two, SUM(qty) FROM facts GROUP BY two ORDER BY two",
        [(1994, 14), (1996, 23)],
    ),
    (
        "CASE WHEN year < 1997 THEN 'old' ELSE 'new' END, COUNT(*) FROM facts GROUP BY 1",
        [("new", 4), ("old", 8)],
    ),
    (
        "CAST(year AS TEXT) || '!' FROM facts GROUP BY year ORDER BY 1 DESC",
        ["1997!", "1996!", "1995!"],
    ),
    (
        "part || '/' || area, SUM(qty) FROM facts WHERE year = 1995 GROUP BY 1 ORDER BY 1 LIMIT 1",
        [("bolt/N", 5)],
    ),
    (
        "MAX(year, 1996), COUNT(*) FROM facts GROUP BY year ORDER BY year",
        [(1996, 3), (1996, 5), (1997, 4)],
    ),
    ("UPPER(part), LENGTH(part) FROM facts WHERE part LIKE 'N%' GROUP BY part", [("NUT", 3)]),
    ("SUM(qty) FROM facts WHERE part GLOB '[bn]*t'", [13]),
    ("COUNT(*) FROM facts WHERE area <> ''", [10]),
    ("COUNT(*) FROM facts WHERE area != 'N'", [7]),
    ("COUNT(*) FROM facts WHERE area == 'N'", [5]),
    ("COUNT(*) FROM facts WHERE NOT (area = 'N' OR year = 1997)", [4]),
    ("COUNT(*) FROM facts WHERE NULLIF(area, '') IS NULL", [2]),
    ("COUNT(*) FROM facts WHERE year NOT BETWEEN 1996 AND 1997", [3]),
    ("COUNT(*) FROM facts WHERE part IN ('bolt', 'it''s')", [5]),
    ("COUNT(*) FROM facts WHERE area NOT IN ('N', NULL)", [0]),
    ("COUNT(*) FROM facts WHERE year = '1996' AND part > 'nut'", [2]),
]
DATES: Cases = [
    (
        "strftime('%Y-%m', day) AS m, SUM(qty) FROM facts GROUP BY m ORDER BY m",
        [("2025-03", 30), ("2025-04", 0), ("2026-01", 7)],
    ),
    (
        "date(day), COUNT(*) FROM facts WHERE day < 20250315 GROUP BY day",
        [("2025-03-01", 3), ("2025-03-14", 4)],
    ),
    (
        "date(day, 'start of month') AS d FROM facts GROUP BY d ORDER BY d DESC LIMIT 1",
        ["2026-01-01"],
    ),
    ("SUM(qty) FROM facts WHERE strftime('%Y', day) = '2026'", [7]),
    ("date(MAX(day)), MIN(day) FROM facts WHERE year = 1997", [("2026-01-02", 20250301)]),
]
NESTED: Cases = [
    ("SUM(qty) FROM facts WHERE year IN (SELECT year FROM by_year WHERE count > 3)", [23]),
    ("COUNT(*) FROM facts WHERE year = (SELECT MAX(year) FROM facts)", [4]),
    (
        (
            "area FROM facts AS f WHERE EXISTS (SELECT 1 FROM by_part_area_year AS v WHERE v.area ="
            " f.area AND v.sum_qty > 7) GROUP BY area ORDER BY area"
        ),
        ["N", "S"],
    ),
    (
        (
            "year, (SELECT MAX(v.sum_qty) FROM by_part_area_year AS v WHERE v.year = f.year) FROM"
            " facts AS f GROUP BY year ORDER BY year"
        ),
        [(1995, 7), (1996, 6), (1997, 9)],
    ),
    (
        "COUNT(*), MAX(s) FROM (SELECT part, SUM(qty) AS s FROM facts GROUP BY part) WHERE s > 5",
        [(4, 11)],
    ),
    (
        (
            "area, SUM(qty) FROM facts GROUP BY 1 UNION ALL SELECT 'all', SUM(qty) FROM facts ORDER"
            " BY 2"
        ),
        [("", -6), ("S", 13), ("N", 30), ("all", 37)],
    ),
    (
        (
            "year FROM facts WHERE area = '' GROUP BY year UNION SELECT year FROM by_year WHERE"
            " count = 4 ORDER BY 1"
        ),
        [1996, 1997],
    ),
    (
        (
            "part FROM facts GROUP BY part EXCEPT SELECT part FROM facts WHERE area = 'N' GROUP BY"
            " part"
        ),
        [""],
    ),
    (
        (
            "part FROM facts WHERE area = 'S' GROUP BY part INTERSECT SELECT part FROM facts WHERE"
            " area = 'N' GROUP BY part ORDER BY 1"
        ),
        ["bolt", "it's", "nut"],
    ),
]
TABLES: Cases = [
    ("* FROM by_year ORDER BY year DESC LIMIT 1", [(1997, 4, 22, 1, 9, 5, 0, 3)]),
    ("count, sum_qty, max_fee FROM total", [(12, 37, 4)]),
    (
        (
            "a.year, COUNT(*), a.sum_qty FROM by_year AS a JOIN by_part_area_year AS b ON a.year ="
            " b.year GROUP BY a.year, a.sum_qty ORDER BY 1"
        ),
        [(1995, 3, 14), (1996, 5, 1), (1997, 3, 22)],
    ),
    (
        (
            "a.area, b.sum_qty FROM by_area AS a LEFT JOIN by_part_area_year AS b ON a.area ="
            " b.area AND b.sum_qty > 7 ORDER BY a.area"
        ),
        [("", None), ("N", 9), ("S", 8)],
    ),
    (
        "year, y.sum_qty * 100 / t.sum_qty FROM by_year AS y, total AS t ORDER BY 1",
        [(1995, 37), (1996, 2), (1997, 59)],
    ),
    ("COUNT(*) FROM by_year CROSS JOIN by_area", [9]),
    ("year FROM by_year LIMIT 0", []),
]
WINDOWS: Cases = [
    (
        "year, SUM(SUM(qty)) OVER (ORDER BY year) FROM facts GROUP BY year",
        [(1995, 14), (1996, 15), (1997, 37)],
    ),
    (
        "part, RANK() OVER (ORDER BY COUNT(*) DESC) AS r FROM facts GROUP BY part ORDER BY r, part",
        [("nut", 1), ("bolt", 2), ("it's", 3), ("Ä", 3), ("", 5)],
    ),
    (
        "area, SUM(qty) * 100 / SUM(SUM(qty)) OVER () FROM facts GROUP BY area ORDER BY area",
        [("", -16), ("N", 81), ("S", 35)],
    ),
    (
        (
            "year, part FROM (SELECT year, part, ROW_NUMBER() OVER (PARTITION BY year ORDER BY"
            " sum_qty DESC) AS n FROM by_part_area_year) WHERE n = 1 ORDER BY year"
        ),
        [(1995, "nut"), (1996, "Ä"), (1997, "it's")],
    ),
    ("year - LAG(year) OVER (ORDER BY year) AS d FROM by_year ORDER BY d", [None, 1, 1]),
]
WITH: Cases = [
    (
        (
            "WITH t AS (SELECT year AS y, SUM(qty) AS s FROM facts GROUP BY year) SELECT SUM(s),"
            " MIN(y) FROM t WHERE s > 10"
        ),
        [(36, 1995)],
    ),
    (
        (
            "WITH a(y, s) AS (SELECT year, SUM(qty) FROM facts GROUP BY year), b AS (SELECT MAX(s)"
            " AS m FROM a) SELECT y FROM a, b WHERE s = m"
        ),
        [1997],
    ),
]
PASSED: List[Tuple[str, List[Any], List[Any]]] = [
    ("SUM(qty) FROM facts WHERE part = ?", ["it's"], [11]),
    ("SUM(qty) FROM facts WHERE year > ? AND area IN (?, ?)", [1995, "N", ""], [12]),
    ("COUNT(*) FROM facts WHERE year < ?", [1996.5], [8]),
    ("SUM(qty) FROM facts WHERE year = ?", [D("1997")], [22]),
    ("COUNT(*) FROM facts WHERE NULLIF(area, '') IS ?", [None], [2]),
    (
        "part FROM facts GROUP BY part HAVING COUNT(*) >= ? ORDER BY COUNT(*) LIMIT ?",
        [3, 1],
        ["bolt"],
    ),
    ("SUM(qty) FROM facts WHERE date(day) = ?", [MARCH], [6]),
    ("?, COUNT(*) FROM facts WHERE part <> '?' -- ?", ["x"], [("x", 12)]),
]
AMOUNTS: List[Tuple[str, List[Any], List[Any]]] = [
    (
        "part, SUM(fee) AS s FROM facts GROUP BY part ORDER BY s",
        [],
        [("bolt", D("0.30")), ("nut", D("10.25"))],
    ),
    (
        "day, MAX(fee) FROM facts GROUP BY day ORDER BY day DESC LIMIT 2",
        [],
        [(APRIL, D("0.10")), (IDES, D("0.10"))],
    ),
    (
        "period, COUNT(*) FROM facts GROUP BY period ORDER BY 2 DESC",
        [],
        [("2025-03", 3), ("2025-04", 2)],
    ),
    ("SUM(fee) FROM facts WHERE day >= '2025-03-15' AND part = 'bolt'", [], [D("0.20")]),
    ("SUM(fee) * 2, AVG(fee) FROM facts WHERE part = 'nut'", [], [(20.5, 5.125)]),
    ("part FROM facts GROUP BY part HAVING SUM(fee) = 0.3", [], ["bolt"]),
    (
        "strftime('%m', day) AS m, SUM(fee) FROM facts WHERE part = 'nut' GROUP BY m ORDER BY m",
        [],
        [("03", D("12.50")), ("04", D("-2.25"))],
    ),
    ("date(day, '+1 day') FROM facts WHERE day LIKE '2025-04%' GROUP BY day", [], ["2025-04-02"]),
    (
        "day, sum_fee FROM by_part_day WHERE part = 'nut' ORDER BY day",
        [],
        [(MARCH, D("12.50")), (APRIL, D("-2.25"))],
    ),
    ("SUM(fee) FROM facts WHERE day = ?", [MARCH], [D("12.60")]),
    ("day FROM by_part_day WHERE sum_fee > ?", [D("12.4")], [MARCH]),
    ("period || '!' FROM facts WHERE period > '2025-03' GROUP BY period", [], ["2025-04!"]),
]


@pytest.fixture(scope="module")
def dozen(tmp_path_factory: pytest.TempPathFactory) -> Iterator[cubetree.Connection]:
    """A connection to the dozen facts."""
    folder = tmp_path_factory.mktemp("warehouse")
    with cubetree.open(folder) as warehouse:
        warehouse.declare(SCHEMA)
        warehouse.load(FACTS)
    with cubetree.connect(folder) as opened:
        yield opened


@pytest.fixture(scope="module")
def fees(tmp_path_factory: pytest.TempPathFactory) -> str:
    """The folder of facts with amounts and dates."""
    words = ["--dates", "day,period", "--cents", "fee", "--yes"]
    return loaded(tmp_path_factory.mktemp("fees"), OF_FEES, FEES, *words)


def rows(connection: cubetree.Connection, text: str, parameters: Any = ()) -> List[Any]:
    """The rows of an answer; a row of one value is that value."""
    found = connection.cursor().execute(text, parameters).fetchall()
    return [row[0] if len(row) == 1 else row for row in found]


def typed(values: List[Any]) -> List[Any]:
    """The values of rows beside their types, since 2 is no 2.0, and no amount of 2."""
    return [
        [(type(cell), cell) for cell in row] if isinstance(row, tuple) else (type(row), row)
        for row in values
    ]


SELECTS = [*NAMED, *AGGREGATES, *EXPRESSIONS, *DATES, *NESTED, *TABLES, *WINDOWS]
QUERIES = [("SELECT " + text, due) for text, due in SELECTS] + WITH


@pytest.mark.parametrize(("text", "due"), QUERIES, ids=[text for text, _ in QUERIES])
def test_answer(dozen: cubetree.Connection, text: str, due: List[Any]) -> None:
    """A query has these rows, by a cursor and by Warehouse.sql."""
    assert typed(rows(dozen, text)) == typed(due)


@pytest.mark.parametrize(("text", "given", "due"), PASSED)
def test_parameters(
    dozen: cubetree.Connection, text: str, given: List[Any], due: List[Any]
) -> None:
    """A query with these parameters has these rows."""
    assert typed(rows(dozen, "SELECT " + text, given)) == typed(due)


@pytest.mark.parametrize(("text", "given", "due"), AMOUNTS)
def test_amounts(fees: str, text: str, given: List[Any], due: List[Any]) -> None:
    """A query over amounts and dates has these rows."""
    with cubetree.connect(fees) as connection:
        assert typed(rows(connection, "SELECT " + text, given)) == typed(due)


def test_ask(fees: str) -> None:
    """`cube ask` answers the same queries."""
    text = "SELECT part, SUM(fee) AS s FROM facts GROUP BY part ORDER BY s DESC"
    assert run(CUBE, "ask", "--folder", fees, "--csv", text)[0] == "part,s\nnut,10.25\nbolt,0.30\n"
    text = "WITH t AS (SELECT day AS d FROM facts GROUP BY day) SELECT MIN(d) AS first FROM t"
    assert run(CUBE, "ask", "--folder", fees, "--csv", text)[0] == "first\n2025-03-14\n"
