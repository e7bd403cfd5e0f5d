"""Tests of export: what is written, and views from Python."""
from __future__ import annotations

import datetime
import os
import re
import sqlite3
import stat
from contextlib import closing
from decimal import Decimal
from pathlib import Path
from typing import List

import pytest

import cubetree
from cubetree import Fault
from cubetree.export import export, export_csv
from cubetree.version import __version__
from tests.exporting import (  # noqa: F401
    BY_PART_YEAR,
    BY_YEAR,
    COUNTS,
    EXPORT,
    OF_QTY,
    SCHEMA,
    TOTAL,
    is_sound,
    loaded,
    made,
    made_by,
    room_of,
    rows,
    tables,
)
from tests.helpers import run

# ---- what is written


def test_export() -> None:
    """Each view is a table, with its attributes as the key."""
    assert run(*EXPORT, "w", "w.db") == ("w.db: 3 tables, 6 rows, of 4 facts\n", "")
    assert tables("w.db") == ["by_part_year", "by_year", "total", "_about"]
    assert rows("w.db", "SELECT * FROM by_part_year ORDER BY part, year") == BY_PART_YEAR
    assert rows("w.db", "SELECT * FROM by_year ORDER BY year") == BY_YEAR
    assert rows("w.db", "SELECT * FROM total") == TOTAL
    assert (
        made_by("w.db", "by_part_year")
        == 'CREATE TABLE "by_part_year" ("part" TEXT NOT NULL, "year" INTEGER NOT NULL, '
        f'{COUNTS}, {OF_QTY}, PRIMARY KEY ("part", "year")) WITHOUT ROWID'
    )
    assert made_by("w.db", "total") == f'CREATE TABLE "total" ({COUNTS}, {OF_QTY})'
    assert is_sound("w.db") and sorted(os.listdir()) == ["w", "w.db"]
    assert stat.S_IMODE(os.stat("w.db").st_mode) == 0o666 & ~mask()


def mask() -> int:
    """The mask of new files."""
    found = os.umask(0)
    os.umask(found)
    return found


def test_about() -> None:
    """It has the folder, the facts, the time in UTC, and the version."""
    before = datetime.datetime.utcnow().replace(microsecond=0)
    run(*EXPORT, "w/../w", "w.db", "total")
    ((folder, facts, written, version),) = rows("w.db", "SELECT * FROM _about")
    assert (folder, facts, version) == (os.path.abspath("w"), 4, __version__)
    assert before <= datetime.datetime.strptime(written, "%Y-%m-%dT%H:%M:%SZ")
    assert datetime.datetime.strptime(written, "%Y-%m-%dT%H:%M:%SZ") <= datetime.datetime.utcnow()


@pytest.mark.parametrize(
    "names, there, count",
    [
        (["part,year"], ["by_part_year"], "1 table, 3 rows"),
        (["total"], ["total"], "1 table, 1 row"),
        (["total", "by_year"], ["total", "by_year"], "2 tables, 3 rows"),
        (["year", "by_part_year"], ["by_year", "by_part_year"], "2 tables, 5 rows"),
    ],
)
def test_chosen_views(names: List[str], there: List[str], count: str) -> None:
    """They are named by their attributes or their tables, and written in this order."""
    assert run(*EXPORT, "w", "w.db", *names)[0] == f"w.db: {count}, of 4 facts\n"
    assert tables("w.db") == [*there, "_about"]


def test_kinds() -> None:
    """Amounts are numbers, and days and months texts; a cell without a day is 0."""
    loaded("v", "day,month,fee\n2025-03-14,2025-03,12.50\n,2025-04,-0.05\n", "--na", "")
    run(*EXPORT, "v", "v.db")
    found = rows("v.db", "SELECT * FROM by_day ORDER BY day")
    assert found == [("0", 1, -0.05, -0.05, -0.05), ("2025-03-14", 1, 12.5, 12.5, 12.5)]
    assert [type(cell) for cell in found[0]] == [str, int, float, float, float]
    assert '"day" TEXT NOT NULL, "count" INTEGER' in made_by("v.db", "by_day")
    assert '"sum_fee" REAL NOT NULL' in made_by("v.db", "by_day")
    months = rows("v.db", "SELECT month, count, sum_fee FROM by_month ORDER BY month")
    assert months == [("2025-03", 1, 12.5), ("2025-04", 1, -0.05)]


def test_whole_amounts() -> None:
    """An amount without cents is a floating-point number too."""
    loaded("v", "part,fee\na,12.50\na,-0.50\n", "--cents", "fee")
    run(*EXPORT, "v", "v.db")
    assert rows("v.db", "SELECT typeof(sum_fee), sum_fee FROM by_part") == [("real", 12.0)]


def test_great_numbers() -> None:
    """Texts stand for whole numbers of more than 63 bits, and their columns are named."""
    made("v", "attr part text\nmeasure a\nmeasure b\nview part\nview\n", [])
    with cubetree.open("v") as warehouse:
        facts = [("x", 2**63 - 1, -(2**63)), ("y", 2**63, -(2**63) - 1), ("z", 5, -7)]
        warehouse.load(facts)
    printed, said = run(*EXPORT, "v", "v.db")
    assert printed == "v.db: 2 tables, 4 rows, of 3 facts\n"
    names = [f"by_part.{word}_{name}" for name in "ab" for word in ("sum", "min", "max")]
    names += ["total.sum_a", "total.max_a", "total.sum_b", "total.min_b"]
    said_of = "cube export: texts stand for numbers that SQLite would round: "
    assert said == f"{said_of}{', '.join(names)}\n"
    assert rows("v.db", "SELECT part, sum_a, max_b FROM by_part ORDER BY part") == [
        ("x", 9223372036854775807, -9223372036854775808),
        ("y", "9223372036854775808", "-9223372036854775809"),
        ("z", 5, -7),
    ]
    found = rows("v.db", "SELECT min_a, sum_a, sum_b FROM total")
    assert found == [(5, "18446744073709551620", "-18446744073709551624")]
    assert '"sum_a"  NOT NULL' in made_by("v.db", "by_part") and is_sound("v.db")
    assert '"min_a" INTEGER NOT NULL' in made_by("v.db", "total")


def test_great_amounts() -> None:
    """Texts stand for amounts of more than 15 digits, with all their decimals."""
    loaded(
        "v",
        "part,fee\na,9999999999999.99\nb,10000000000000.00\nc,-10000000000000.01\n",
        "--cents",
        "fee",
    )
    said = run(*EXPORT, "v", "v.db", "part")[1]
    assert said.endswith(": by_part.sum_fee, by_part.min_fee, by_part.max_fee\n")
    found = rows("v.db", "SELECT part, sum_fee FROM by_part ORDER BY part")
    assert found == [
        ("a", 9999999999999.99),
        ("b", "10000000000000.00"),
        ("c", "-10000000000000.01"),
    ]


def test_bytes() -> None:
    """Texts keep all their bytes: null characters, quotes, line feeds, and what is no UTF-8."""
    texts = ["", "a\0b", "a\0c", 'it\'s "so"', "x\ny,\r\n", "\udcff\udcc3(", "Ä"]
    made("v", "attr part text\nmeasure qty\nview part\n", [(text, 1) for text in texts])
    run(*EXPORT, "v", "v.db")
    found = rows("v.db", "SELECT CAST(part AS BLOB), typeof(part) FROM by_part ORDER BY part")
    want = [text.encode("utf-8", "surrogateescape") for text in texts]
    assert found == [(text, "text") for text in sorted(want)]
    run(*EXPORT, "v", "out", "--csv")
    assert (
        Path("out/by_part.csv").read_bytes()
        == b"part,count,sum_qty,min_qty,max_qty\n,1,1,1,1\na\0b,1,1,1,1\na\0c,1,1,1,1\n"
        b'"it\'s ""so""",1,1,1,1\n"x\ny,\r\n",1,1,1,1\n\xc3\x84,1,1,1,1\n\xff\xc3(,1,1,1,1\n'
    )


def test_hostile_names() -> None:
    """Names may be words of SQL, have the form of a number, or be those of values."""
    names = "select", "by", "where", "count", "sum_qty", "oid", "rowid"
    schema = "".join(f"attr {name} text\n" for name in names) + "measure qty\nmeasure table\n"
    made("v", f"{schema}view {','.join(names)}\nview\n", [(*"abcdefg", 3, 4)])
    run(*EXPORT, "v", "v.db")
    with closing(sqlite3.connect("v.db")) as database:
        found = database.execute('SELECT * FROM "by_select_by_where_count_sum_qty_oid_rowid"')
        columns = [each[0] for each in found.description]
        assert found.fetchall() == [(*"abcdefg", 1, 3, 3, 3, 4, 4, 4)]
    values = ["count_2", "sum_qty_2", "min_qty", "max_qty", "sum_table", "min_table", "max_table"]
    assert columns == [*names, *values]


def test_same_table_names() -> None:
    """Views whose tables would have one name have a number behind it."""
    schema = "attr a text\nattr b text\nattr a_b text\nattr total text\nmeasure q\n"
    views = "view a,b\nview a_b\nview\nview total\n"
    made("v", schema + views, [("x", "y", "z", "t", 1), ("x", "y", "u", "t", 2)])
    run(*EXPORT, "v", "v.db")
    assert tables("v.db") == ["by_a_b", "by_a_b_2", "total", "by_total", "_about"]
    assert rows("v.db", "SELECT a, b, count FROM by_a_b") == [("x", "y", 2)]
    found = rows("v.db", "SELECT a_b, sum_q FROM by_a_b_2 ORDER BY a_b")
    assert found == [("u", 2), ("z", 1)]
    run(*EXPORT, "v", "one.db", "total", "a_b")
    assert tables("one.db") == ["total", "by_a_b_2", "_about"]


@pytest.mark.parametrize("words", [[], ["--csv"]])
def test_no_facts(words: List[str]) -> None:
    """A folder without facts has tables without rows, but for the total."""
    made("v", SCHEMA, [])
    printed = run(*EXPORT, "v", "out", *words)[0]
    if words:
        heads = {path.name: path.read_text() for path in Path("out").iterdir()}
        assert heads["by_year.csv"] == "year,count,sum_qty,min_qty,max_qty\n"
        assert set(heads) == {"by_part_year.csv", "by_year.csv", "total.csv"}
    else:
        assert rows("out", "SELECT * FROM by_year") == [] and is_sound("out")
        assert made_by("out", "by_year").startswith('CREATE TABLE "by_year" ("year" INTEGER NOT')
    assert re.fullmatch("out: 3 tables, [01] rows?, of 0 facts\n", printed)


# ---- csv


def test_csv() -> None:
    """Each view is a file of csv, whose amounts and days are as they are shown."""
    loaded("v", "day,fee\n2025-03-14,12.50\n2025-03-15,0.05\n2025-03-15,-3\n", "--cents", "fee")
    said = run(*EXPORT, "v", "out", "--csv")
    assert said == ("out: 2 tables, 3 rows, of 3 facts\n", "")
    assert sorted(os.listdir("out")) == ["by_day.csv", "total.csv"]
    assert (
        Path("out/by_day.csv").read_text()
        == "day,count,sum_fee,min_fee,max_fee\n"
        "2025-03-14,1,12.50,12.50,12.50\n2025-03-15,2,-2.95,-3.00,0.05\n"
    )
    assert (
        Path("out/total.csv").read_text() == "count,sum_fee,min_fee,max_fee\n3,9.55,-3.00,12.50\n"
    )
    assert sorted(os.listdir()) == ["f.csv", "out", "v", "w"]


def test_csv_to_standard_output() -> None:
    """One view goes there by `-`, and nothing else."""
    want = "year,count,sum_qty,min_qty,max_qty\n1997,3,4,-2,5\n1998,1,4,4,4\n"
    assert run(*EXPORT, "w", "-", "--csv", "year") == (want, "")
    assert run(*EXPORT, "--csv", "w", "-", "by_year") == (want, "")
    for words in (["-"], ["-", "--csv"], ["-", "year"], ["-", "year", "total", "--csv"]):
        said = run(*EXPORT, "w", *words, status=2)[1]
        assert said.endswith("error: - takes the rows of one view: name it, and give --csv\n")
    assert os.listdir() == ["w"]


def test_csv_into_an_empty_folder() -> None:
    """It keeps its permissions; one with a file is refused and stays."""
    os.mkdir("out")
    os.chmod("out", 0o750)
    run(*EXPORT, "w", "out", "--csv", "total")
    assert os.listdir("out") == ["total.csv"]
    assert stat.S_IMODE(os.stat("out").st_mode) == 0o750
    said = run(*EXPORT, "w", "out", "--csv", status=1)[1]
    assert said == "cube export: out is there, and is no empty folder\n"
    Path("file").write_text("")
    said = run(*EXPORT, "w", "file", "--csv", status=1)[1]
    assert said == "cube export: file is there, and is no empty folder\n"
    assert os.listdir("out") == ["total.csv"] and sorted(os.listdir()) == ["file", "out", "w"]


# ---- from Python


def test_view() -> None:
    """Rows are tuples, with the kinds of their columns."""
    with cubetree.open("w") as warehouse:
        view = warehouse.view("part,year")
        assert sorted(view) == BY_PART_YEAR == sorted(warehouse.view("by_part_year"))
        assert view.columns == ("part", "year", "count", "sum_qty", "min_qty", "max_qty")
        assert view.numeric == (False, True, True, True, True, True)
        assert list(warehouse.view("total")) == TOTAL
    loaded("v", "day,fee\n2025-03-14,12.50\n", "--cents", "fee")
    with cubetree.open("v") as warehouse:
        row = (datetime.date(2025, 3, 14), 1, *[Decimal("12.50")] * 3)
        assert list(warehouse.view("day")) == [row]
    with cubetree.open("v", raw=True) as warehouse:
        assert list(warehouse.view("day")) == [(20250314, 1, 1250, 1250, 1250)]


def test_frame() -> None:
    """A view is a table of pandas."""
    pandas = pytest.importorskip("pandas")
    with cubetree.open("w") as warehouse:
        view = warehouse.view("year")
    frame = pandas.DataFrame(view, columns=view.columns)
    assert frame.set_index("year")["sum_qty"].to_dict() == {1997: 4, 1998: 4}


def test_view_beside_a_pending_batch() -> None:
    """A wrong name drops no batch, and a view is without it until it is finished."""
    with cubetree.open("w") as warehouse:
        warehouse.begin([("bolt", 1999, 7)])
        with pytest.raises(Fault, match="no view has the name nope; there are part,year; year; to"):
            warehouse.view("nope")
        assert sorted(warehouse.view("year")) == BY_YEAR
        assert warehouse.finish() == 5
        assert sorted(warehouse.view("year")) == [*BY_YEAR, (1999, 1, 7, 7, 7)]


@pytest.mark.parametrize(
    "query",
    ["SELECT nope FROM by_year", "SELECT", "SELECT COUNT(*) FROM nope", "SELECT part FROM facts"],
)
def test_refused_query_beside_a_pending_batch(query: str) -> None:
    """A query that is refused drops no batch either."""
    with cubetree.open("w") as warehouse:
        warehouse.begin([("bolt", 1999, 7)])
        with pytest.raises(Fault):
            warehouse.sql(query)
        assert list(warehouse.sql("SELECT COUNT(*) FROM facts")) == [(4,)]
        assert warehouse.finish() == 5


def test_export_from_a_writer() -> None:
    """A warehouse that has loaded a batch exports it too."""
    with cubetree.open("w") as warehouse:
        warehouse.load([("bolt", 1999, 7)])
        warehouse.load([("bolt", 1999, 1)])
        assert export(warehouse, "w.db", ["total"]) == (1, 1, 6, [])
        assert export_csv(warehouse, "out") == (3, 8, 6, [])
    assert rows("w.db", "SELECT total.count, facts FROM total, _about") == [(6, 6)]


def test_view_without_schema() -> None:
    """That is a fault."""
    os.mkdir("v")
    with cubetree.open("v") as warehouse:
        with pytest.raises(Fault, match="^no schema is declared in the folder$"):
            warehouse.view("total")
