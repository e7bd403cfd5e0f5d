"""Queries in SQL that the program does not answer by itself: what goes to the program, what SQLite
does with the rows, what is exact, and what is refused. The answers are worked out by hand."""
from __future__ import annotations

import datetime
import signal
import subprocess
import sys
import time
from decimal import Decimal
from pathlib import Path
from typing import Any, Iterator, List
from unittest import mock

import pytest

import cubetree
from cubetree.columns import Columns
from cubetree.query.core import Core
from cubetree.query.memory import Memory
from cubetree.session import Session
from cubetree.values import Kind
from cubetree.warehouse import records_of
from tests.helpers import CUBE

SCHEMA = """attr part text
attr year number
attr day number
measure qty
measure fee
view part,year
view day,part
view part
view year
view
"""
FACTS = [
    ("bolt", 1997, 20250314, 5, 14),
    ("nut", 1997, 20250314, -2, 1),
    ("bolt", 1998, 20250401, 4, 29),
]
MILLION = 1_000_000


@pytest.fixture(scope="module")
def folder(tmp_path_factory: pytest.TempPathFactory) -> Path:
    """A warehouse with days and amounts."""
    path = tmp_path_factory.mktemp("warehouse")
    with cubetree.open(path) as warehouse:
        warehouse.declare(SCHEMA)
        warehouse.load(FACTS)
    kinds = {"day": Kind("day", order="YMD"), "fee": Kind("decimal", places=2)}
    Columns(kinds=kinds).write(str(path))
    return path


@pytest.fixture
def warehouse(folder: Path) -> Iterator[cubetree.Warehouse]:
    """The warehouse, open."""
    with cubetree.open(folder) as opened:
        yield opened


def refused(warehouse: cubetree.Warehouse, text: str) -> cubetree.Refused:
    """The refusal of a query."""
    with pytest.raises(cubetree.Refused) as caught:
        warehouse.sql(text)
    return caught.value


@pytest.mark.parametrize(
    "text, rows",
    [
        # The constant may stand first, and a name in upper case.
        ("select count(*) from facts where 1998 > year", [(2,)]),
        ("select count(*) from facts where 1997 < year", [(1,)]),
        ("select PART, SUM(QTY) from FACTS group by Part order by 2", [("nut", -2), ("bolt", 9)]),
        ("select sum(qty) as S from facts group by part order by s desc", [(9,), (-2,)]),
        (
            "select part P, count(*) from facts group by p order by P desc",
            [("nut", 1), ("bolt", 2)],
        ),
        (
            (
                "select part, year, sum(qty) from facts group by part, year order by 3 limit 1"
                " offset 1"
            ),
            [("bolt", 1998, 4)],
        ),
        # A date may be compared as its number, also where SQLite makes the test.
        ("select count(*) from facts where day = 20250401 or part = 'nut'", [(2,)]),
        ("select count(*) from facts where day > '2025-03-14'", [(1,)]),
        ("select count(*) from facts where day in (20250314, '2025-05-05')", [(2,)]),
        ("select month(day) m, sum(qty) from facts group by m", [(3, 3), (4, 4)]),
        ("select strftime('%d', day) d from facts group by day order by d", [("01",), ("14",)]),
        # A test of a table is made also where its rows are joined.
        (
            (
                "select a.year, b.part from by_year a left join by_part_year b on b.year = a.year"
                " where b.part = 'nut'"
            ),
            [(1997, "nut")],
        ),
        (
            (
                "select part from by_part left join (select part from by_part where count > 1) b"
                " using (part) order by part"
            ),
            [("bolt",), ("nut",)],
        ),
        ("select count(*) from by_part a natural join by_part_year b", [(1,)]),
        # The first two rows are of one part.
        (
            (
                "select count(*) from by_part where part in"
                " (select part from by_part_year order by part limit 2)"
            ),
            [(1,)],
        ),
        ("select count(*) from by_part where part in (select part from facts)", [(2,)]),
        # A test of a table around a query is no test of the table within.
        (
            (
                "select count(*) from by_year a where"
                " (select count(*) from by_part_year b where a.year = 1997) = 3"
            ),
            [(1,)],
        ),
        (
            "with a(p, n) as (select part, count from by_part) select p, n from a order by n",
            [("nut", 1), ("bolt", 2)],
        ),
        (
            "select 5 between 0 < 1 and 9, sum(sum_fee) = 0.15 from by_part_year where year = 1997",
            [(1, 1)],
        ),
        (
            "select not 1 = 2, 5 between 0 and 9 < 3, -2 - -3, 7 - 4 - 2, 2 || 3 * 2",
            [(1, 0, 1, 1, 46)],
        ),
        ("select 'a' 'b c'", [("a",)]),
        ("select year from by_year order by year limit 1, 5", [(1998,)]),
        (
            "select case when max(day) > '2025' then max(day) else 0 end from facts",
            [("2025-04-01",)],
        ),
        ("select max(day) from facts union all select 'x'", [("2025-04-01",), ("x",)]),
        ("select * from total", [(3, 7, -2, 5, Decimal("0.44"), Decimal("0.01"), Decimal("0.29"))]),
    ],
)
def test_answers(warehouse: cubetree.Warehouse, text: str, rows: List[Any]) -> None:
    assert warehouse.sql(text) == rows


def test_amounts(warehouse: cubetree.Warehouse) -> None:
    """Amounts are Decimals, and sums of them are exact: 0.14 + 0.01 is 0.15, and 0.29 is 29 cents,
    which 100 times these floating-point numbers is not."""
    answer = warehouse.sql("select day, sum(fee) s from facts group by day having s = 0.15")
    assert answer == [(datetime.date(2025, 3, 14), Decimal("0.15"))]
    assert answer.columns == ("day", "s")
    assert warehouse.sql("select m from (select min(fee) m from facts where year = 1998)") == [
        (Decimal("0.29"),)
    ]
    found = warehouse.sql("select sum(case when part = 'nut' then 0 else fee end) from facts")
    assert found == [(Decimal("0.43"),)]
    assert str(warehouse.sql("select sum(sum_fee) from by_part")[0][0]) == "0.44"


@pytest.mark.parametrize(
    "text, commands",
    [
        (
            "select year from by_part_year where 'nut' = part and year in (1997, 1998)",
            [
                "sql SELECT part, year, COUNT(*) FROM facts WHERE part = 'nut' AND year IN (1997,"
                " 1998) GROUP BY part,year"
            ],
        ),
        (
            "select avg(qty) from facts where day between '2025-03-01' and date('2025-03-31')",
            ["sql SELECT SUM(qty), COUNT(*) FROM facts WHERE day BETWEEN 20250301 AND 20250331"],
        ),
        (
            "select part from by_part where count > (select min(count) from by_year)",
            ["slice count by part", "slice count by year"],
        ),
        (
            (
                "select count(*) from by_year a where"
                " (select count(*) from by_part_year b where a.year = 1997) = 3"
            ),
            ["slice count by year", "slice count by part,year"],
        ),
        (
            "select sum(fee) from facts where part <> 'nut' or year = 1",
            ["slice sum(fee) by part,year"],
        ),
    ],
)
def test_what_the_program_is_asked(
    warehouse: cubetree.Warehouse, text: str, commands: List[str]
) -> None:
    """It is asked for groups and tests, and for no more columns than the query needs."""
    asked: List[str] = []

    def noted(session: Session, core: Core) -> List[List[str]]:
        """Notes what is asked."""
        asked.append(core.command())
        return records_of(session, core)

    with mock.patch("cubetree.warehouse.records_of", noted):
        warehouse.sql(text)
    assert asked == commands


def test_keys(warehouse: cubetree.Warehouse) -> None:
    """An answer knows which of its columns are grouped by."""
    for text in (
        "select year, sum(qty) s from facts group by year order by s",
        "select year * 2, sum(qty) + 0 from facts group by 1",
        "select year y, avg(qty) from facts group by y",
    ):
        assert warehouse.sql(text).keys == {0}


# ---- what is exact


@pytest.fixture
def wide(tmp_path: Path) -> Iterator[cubetree.Warehouse]:
    """A warehouse of numbers of more than 63 bits, with a column whose name is a word of SQL."""
    with cubetree.open(tmp_path) as opened:
        opened.declare("attr from text\nattr year number\nmeasure qty\nview from,year\nview year\n")
        opened.load([("a", 1, 1 << 62), ("a", 2, 1 << 100), ("\udcff", 3, 7), ("b", 1, 1 << 62)])
        yield opened


def test_sums_beyond_63_bits(wide: cubetree.Warehouse) -> None:
    """They are exact where rows are only named, sorted and cut."""
    text = 'select "from" as f, sum(qty) as s from facts group by "from" order by s desc limit 2'
    assert wide.sql(text) == [("a", (1 << 100) + (1 << 62)), ("b", 1 << 62)]
    assert wide.sql("select year, sum_qty from by_year order by sum_qty desc limit 1") == [
        (2, 1 << 100)
    ]


@pytest.mark.parametrize(
    "text",
    [
        'select sum(qty) s from facts group by "from" having s > 1',
        "select sum(sum_qty) from by_year",
        "select sum(qty) * 2 from facts where year = 1",
        "select sum(qty) * 2 > 1 from facts where year = 1",
        "select sum(qty) / 2 * 4 / 4 from facts where year = 1",
        "select 9223372036854775807 + 1",
        "select 9223372036854775808",
        "select -(-9223372036854775807 - 1)",
        "select sum(year * 9223372036854775807) from facts",
    ],
)
def test_nothing_is_rounded(wide: cubetree.Warehouse, text: str) -> None:
    with pytest.raises(cubetree.Fault, match="63 bits"):
        wide.sql(text)


def test_error_of_a_number(wide: cubetree.Warehouse) -> None:
    with cubetree.connect(wide.folder) as connection, pytest.raises(cubetree.DataError):
        connection.cursor().execute("select sum(sum_qty) from by_year")


def test_words_of_sql_as_names(wide: cubetree.Warehouse) -> None:
    """The program takes no such name in a query, and SQLite makes the test."""
    text = 'select "from", count(*) from facts where "from" = \'b\' group by "from"'
    assert wide.sql(text) == [("b", 1)]


def test_texts_that_are_not_utf8(wide: cubetree.Warehouse) -> None:
    text = """select "from" || '!' from facts group by "from" having "from" > 'b' """
    assert wide.sql(text) == [("\udcff!",)]
    assert wide.sql("""select count(*) from facts where "from" = '\udcff'""") == [(1,)]


# ---- what is refused


@pytest.mark.parametrize(
    "text, reply, words",
    [
        ("select sum(qty / 2) from facts", "group 12", "no such expression of measures"),
        ("select sum(10 / qty) from facts", "group 12", "no such expression of measures"),
        ("select sum(qty % 2) from facts", "group 12", "no such expression of measures"),
        ("select sum(qty * qty) from facts", "group 12", "no such expression of measures"),
        ("select max(qty + 1) from facts", "group 12", "MAX takes no such expression"),
        ("select part, count(*) over () from facts", "group 8", "a row of each fact"),
        ("select * from facts", "group 8", "ask for all columns of a view"),
        ("select qty from facts group by qty", "group 8", "ask for SUM(qty), MIN, MAX, AVG"),
        ("select year, sum(qty) from facts", "group 8", "year is not in GROUP BY"),
        ("select 2 * year from facts group by year * 2", "group 12", "year is not in GROUP BY"),
        ("select year * 3 % 2 from facts group by year * 2", "group 8", "year is not in GROUP BY"),
        (
            (
                "select part, (select max(v.count) from by_year v where v.year = f.year) from facts"
                " f group by part"
            ),
            "group 65",
            "year is not in GROUP BY",
        ),
        ("select day + 1 from facts group by day", "value 8", "strftime('%Y', day)"),
        ("select year from by_year a, by_part_year b", "name 8", "name the table"),
        ("select x from facts, by_year", "table 22", "join tables of views"),
        ("select x from nowhere", "table 15", "there are facts, by_part_year, by_day_part,"),
        ("select x.part from by_part", "name 8", "there are part, count, sum_qty"),
        ("select nosuch(1)", "query", "no such function: nosuch"),
        ("with recursive a as (select 1) select * from a", "syntax 6", "recursion"),
        ("select 1; select 2", "syntax 9", "syntax error at `;`"),
        ("insert into facts values (1)", "syntax 1", "syntax error at `insert`"),
        ("select 1 /* x", "syntax 10", "a comment begins here and is not closed"),
    ],
)
def test_refusals(warehouse: cubetree.Warehouse, text: str, reply: str, words: str) -> None:
    found = refused(warehouse, text)
    assert found.reply == f"refused sql {reply}"
    assert words in str(found)


def test_missing_view(warehouse: cubetree.Warehouse) -> None:
    """The refusal names the views, and the one that would do."""
    found = refused(warehouse, "select year, count(*) from facts where day > '2025' group by year")
    assert found.reply == "refused notcovered"
    assert "the views are of part,year; day,part; part; year; none;" in str(found)
    assert str(found).endswith("load into a new folder with a view of day,year")


def test_memory_only_reads() -> None:
    memory = Memory()
    memory.seal()
    for text in ("CREATE TABLE x (a)", "ATTACH 'x' AS y", "PRAGMA user_version"):
        with pytest.raises(cubetree.Refused, match="not authorized"):
            memory.rows(text)
    memory.close()


# ---- long queries


@pytest.mark.parametrize(
    "text, words",
    [
        ("select 1" + " isnull" * (MILLION // 7), "tests in a row"),
        ("select 1" + " < 1" * (MILLION // 4), "terms in a row"),
        ("select 1 from total" + ",total" * (MILLION // 6), "more than 64 tables"),
        (
            "with " + ",".join(f"a{n} as (select 1)" for n in range(50_000)) + " select 1",
            "more than 500 queries",
        ),
    ],
    ids=("tests", "comparisons", "tables", "queries"),
)
def test_a_million_bytes(warehouse: cubetree.Warehouse, text: str, words: str) -> None:
    """What SQLite would take long for, or not take, is refused by name. More such queries are in
    test_sql_refused.py."""
    assert words in str(refused(warehouse, text))


def test_long_lists(warehouse: cubetree.Warehouse) -> None:
    """What is too long for a line of the program is a test of SQLite."""
    numbers = ",".join(map(str, range(20_000)))
    assert warehouse.sql(f"select count(*) from facts where year in ({numbers})") == [(3,)]


def test_interrupt(folder: Path) -> None:
    """Ctrl-C ends a query in which SQLite is at work."""
    joined = ", ".join(f"by_part_year t{number}" for number in range(24))
    words = [CUBE, "ask", "--folder", str(folder), f"select count(*) from {joined}"]
    process = subprocess.Popen(
        [sys.executable, *words],
        stderr=subprocess.PIPE,
        text=True,
    )
    time.sleep(2)
    process.send_signal(signal.SIGINT)
    said = process.communicate(timeout=60)[1]
    assert (process.returncode, said) == (1, "cube ask: stopped\n")
