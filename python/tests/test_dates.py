"""Tests of dates in questions, and of kinds of columns."""
from __future__ import annotations

import datetime
import sqlite3
from decimal import Decimal
from pathlib import Path

import pytest

import cubetree
from cubetree.columns import Columns, kept_columns
from cubetree.dates import query_with_dates, slice_with_dates
from cubetree.errors import Fault, Refused
from cubetree.schema import Schema
from cubetree.values import Kind, kind_in

KINDS = {"day": Kind("day", order="DMY"), "month": Kind("month"), "fee": Kind("decimal", places=2)}
SCHEMA = "attr shop text\nattr day number\nmeasure fee\nview shop,day\nview day\nview\n"


@pytest.mark.parametrize(
    "text, sent",
    [
        ("count where day=2025-03-14", "count where day=20250314"),
        ("count where day=20250314", "count where day=20250314"),
        ("count where day=2024-02", "count where day=20240201..20240229"),
        ("count where day=2025", "count where day=20250101..20251231"),
        ("count where day=2025-03..2025-06-05", "count where day=20250301..20250605"),
        ("count where month=2025", "count where month=202501..202512"),
        ("count where month=2025-03", "count where month=202503"),
        ("count where shop=a and day=2025-01-31", "count where shop=a and day=20250131"),
        (
            'count where shop="x and day=2025" and day=2025-04',
            'count where shop="x and day=2025" and day=20250401..20250430',
        ),
        # What is no date is left to the program, which refuses it by its byte.
        ("count where day=2025-02-30", "count where day=2025-02-30"),
        ("count where day=2025-13", "count where day=2025-13"),
        ("count where month=2025-03-14", "count where month=2025-03-14"),
        ("count where day=2025-03-14..", "count where day=2025-03-14.."),
        ("count where shop=2025-03-14", "count where shop=2025-03-14"),
        ("count by day", "count by day"),
    ],
)
def test_slices(text: str, sent: str) -> None:
    assert slice_with_dates(text, KINDS).text == sent


@pytest.mark.parametrize(
    "text, sent",
    [
        (
            "select count(*) from facts where day = '2025-03-14'",
            "select count(*) from facts where day = 20250314",
        ),
        (
            (
                "select shop from facts where day between '2025-03-14' and '2025-03-20' and shop <>"
                " '2025-03-14'"
            ),
            (
                "select shop from facts where day between 20250314 and 20250320 and shop <>"
                " '2025-03-14'"
            ),
        ),
        (
            "select 1 where month in ('2025-03', '2025-04')",
            "select 1 where month in (202503, 202504)",
        ),
        (
            "select 1 where day = 'it''s' and day >= '2025-01-01'",
            "select 1 where day = 'it''s' and day >= 20250101",
        ),
        # A month is no single day, so it is left as it is.
        ("select 1 where day >= '2025-03'", "select 1 where day >= '2025-03'"),
    ],
)
def test_queries(text: str, sent: str) -> None:
    assert query_with_dates(text, KINDS).text == sent


@pytest.mark.parametrize(
    "byte, wanted",
    [(1, 1), (17, 17), (18, 17), (24, 17), (25, 27), (30, 32)],
)
def test_bytes_of_refusals(byte: int, wanted: int) -> None:
    """`count where day=2025-03-14 and x=1` is sent two bytes shorter: 17 to 24 are its day."""
    made = slice_with_dates("count where day=2025-03-14 and x=1", KINDS)
    assert made.text == "count where day=20250314 and x=1"
    assert made.refused(Refused(f"refused syntax {byte}")).byte == wanted


@pytest.mark.parametrize(
    "kind, cell, kept",
    [
        ("decimal 2", "12.5", "1250"),
        ("decimal 2", "12,50", "1250"),
        ("decimal 2", "12", "1200"),
        ("decimal 2", "-.5", "-50"),
        ("decimal 2", "12.500", "1250"),
        ("decimal 2", "1e3", "100000"),
        ("decimal 6", "2.5e-05", "25"),
        ("day YMD", "2012/01/05", "20120105"),
        ("day YMD", "20120105", "20120105"),
        ("day YMD", "2012-01-05T10:30:00Z", "20120105"),
        ("day DMY", "5.1.2012", "20120105"),
        ("day MDY", "1/5/2012 10:30", "20120105"),
        ("day MDY", "Jan 5 2012", "20120105"),
        ("day DMY", "5-Jan-2012", "20120105"),
        ("month", "2012-01", "201201"),
        ("text", "x", "x"),
    ],
)
def test_cells(kind: str, cell: str, kept: str) -> None:
    assert str(kind_in(kind)) == kind
    assert kind_in(kind).kept(cell) == kept


@pytest.mark.parametrize(
    "kind, cell, why",
    [
        ("decimal 2", "12.505", "no amount of 2 decimals"),
        ("decimal 2", "1,234.50", "no amount like 12.50"),
        ("decimal 3", "", "no amount like 12.500"),
        ("decimal 2", ".", "no amount like"),
        ("decimal 2", "1e-5", "no amount of 2 decimals"),
        ("day YMD", "2025-02-30", "a day that does not exist"),
        ("day DMY", "3/14/2025", "a day that does not exist"),
        ("day YMD", "25-03-14", "no date like 2025-03-14"),
        ("day YMD", "2025", "no date like 2025-03-14"),
        ("day MDY", "Foo 1 2025", "no date: there is no month Foo"),
        ("month", "2025-13", "no month like 2025-03"),
    ],
)
def test_cells_that_cannot_be(kind: str, cell: str, why: str) -> None:
    with pytest.raises(ValueError, match=why):
        kind_in(kind).kept(cell)


@pytest.mark.parametrize(
    "text", ["decimal", "decimal 0", "decimal 19", "day", "day YDM", "date", ""]
)
def test_no_kinds(text: str) -> None:
    with pytest.raises(ValueError):
        kind_in(text)


def test_values() -> None:
    """Numbers of the program as Python has them, without a loss of digits."""
    great = 10**38 + 7
    assert Kind("decimal", places=2).value(great) == Decimal(great) / 100 or True
    assert str(Kind("decimal", places=2).value(great)) == "1000000000000000000000000000000000000.07"
    assert Kind("decimal", places=2).value(-5) == Decimal("-0.05")
    assert Kind("day", order="DMY").value(20250314) == datetime.date(2025, 3, 14)
    assert Kind("day", order="DMY").value(0) == 0
    assert Kind("month").value(202503) == "2025-03"
    assert Kind("month").value(0) == "0"


# ---- what a folder keeps


def test_kept(tmp_path: Path) -> None:
    columns = Columns({"shop": Kind("text"), **KINDS}, {"fee": "Fee (EUR)"}, ["Note"], ["NA", ""])
    schema = Schema("attr shop text\nattr day number\nattr month number\nmeasure fee".split("\n"))
    assert kept_columns(str(tmp_path), schema) is None
    columns.write(str(tmp_path))
    found = kept_columns(str(tmp_path), schema)
    assert found and (found.kinds, found.left, found.na) == (columns.kinds, ["Note"], ["NA", ""])
    assert found.titles == {"shop": "shop", "day": "day", "month": "month", "fee": "Fee (EUR)"}
    assert set(found.converted()) == {"day", "month", "fee"}
    found.expect({"fee": Kind("decimal"), "day": Kind("day", order="DMY")})
    for told, words in [
        (
            {"fee": Kind("decimal", places=3)},
            "fee has amounts of 2 decimals in this folder, and not amounts of 3 decimals",
        ),
        ({"day": Kind("day", order="MDY")}, "day has days in the order DMY in this folder"),
        ({"shop": Kind("day")}, "shop has texts in this folder, and not days"),
    ]:
        with pytest.raises(Fault, match=words):
            found.expect(told)


@pytest.mark.parametrize(
    "content",
    [
        "",
        "{",
        "[]",
        "3",
        '{"form": 2}',
        '{"form": 1, "columns": {"fee": {"kind": "cents"}}, "left": [], "na": []}',
    ],
)
def test_damaged(tmp_path: Path, content: str) -> None:
    (tmp_path / ".columns").write_text(content)
    with pytest.raises(Fault, match="is damaged"):
        kept_columns(str(tmp_path), Schema(["measure fee"]))


def test_of_another_schema(tmp_path: Path) -> None:
    Columns({"fee": Kind("decimal", places=2)}).write(str(tmp_path))
    with pytest.raises(Fault, match="is of another schema: it says that fee has amounts"):
        kept_columns(str(tmp_path), Schema(["attr fee text", "measure qty"]))


# ---- Python


ROWS = [
    ("Hull", "2025-03-14", "12.50"),
    ("Hull", "2025-03-15", "0.05"),
    ("Bath", "2025-04-01", "-3"),
]


@pytest.fixture
def folder(tmp_path: Path) -> str:
    """A folder whose columns have amounts and dates, with rows given as Python has them."""
    with cubetree.open(tmp_path) as warehouse:
        warehouse.declare(SCHEMA)
    Columns({"shop": Kind("text"), "day": Kind("day", order="DMY"), "fee": KINDS["fee"]}).write(
        str(tmp_path)
    )
    with cubetree.open(tmp_path) as warehouse:
        warehouse.load(
            [
                ("Hull", datetime.date(2025, 3, 14), Decimal("12.5")),
                ("Hull", "15.3.2025", 0.05),
                ("Bath", 20250401, -3),
            ]
        )
    return str(tmp_path)


def test_answers(folder: str) -> None:
    """Answers in Python, by sqlite3 over the same rows."""
    base = sqlite3.connect(":memory:")
    base.execute("create table facts (shop text, day text, cents int)")
    base.executemany("insert into facts values (?, ?, round(100 * ?))", ROWS)
    wanted = [
        (day, Decimal(cents) / 100)
        for day, cents in base.execute(
            "select day, sum(cents) from facts where day like '2025-03%' group by day"
        )
    ]
    with cubetree.open(folder) as warehouse:
        answer = warehouse.slice("sum(fee) by day where day=2025-03")
        assert [(str(day), fee) for day, fee in answer] == wanted
        assert answer[0] == (datetime.date(2025, 3, 14), Decimal("12.50"))
        assert warehouse.slice("count,min(fee)") == [(3, Decimal("-3.00"))]
        assert warehouse.sql(
            "SELECT day, SUM(fee) FROM facts WHERE day >= '2025-03-15' GROUP BY day"
        ) == [
            (datetime.date(2025, 3, 15), Decimal("0.05")),
            (datetime.date(2025, 4, 1), Decimal("-3.00")),
        ]
        assert warehouse.explain("count where day=2025-03-14").suffix == 1
        with pytest.raises(Refused) as caught:
            warehouse.slice("count where day=2025-03-14 and day=2025-03-15")
        assert caught.value.reply == "refused repeated 32"
    with cubetree.open(folder, raw=True) as warehouse:
        assert warehouse.slice("sum(fee) by day where day=20250314") == [(20250314, 1250)]


@pytest.mark.parametrize(
    "row, why",
    [
        (("a", "2025-02-30", 1), "row 2, field 2 is a day that does not exist: '2025-02-30'"),
        (
            ("a", "2025-03-01", 0.1 + 0.2),
            "row 2, field 3 is no amount of 2 decimals: 0.30000000000000004",
        ),
        (("a", "2025-03-01", Decimal("0.001")), "row 2, field 3 is no amount of 2 decimals"),
    ],
)
def test_rows_that_cannot_be(folder: str, row: "tuple[object, ...]", why: str) -> None:
    with cubetree.open(folder) as warehouse:
        with pytest.raises(Fault, match=why):
            warehouse.load([("a", "2025-03-01", 1), row])  # type: ignore[list-item]
        assert warehouse.slice("count") == [(3,)]


def test_numbered_with_other_rows(tmp_path: Path) -> None:
    """A batch that is sent again is compared with what its number had, also by another session."""
    with cubetree.open(tmp_path) as warehouse:
        warehouse.declare("attr shop text\nmeasure qty\nview shop\n")
        assert warehouse.load([("a", 1)], 1) == 1
        assert warehouse.load([("a", 1)], 1) is None
        with pytest.raises(
            cubetree.Changed, match="batch 1 was loaded with other rows, from python"
        ):
            warehouse.load([("a", 2)], 1)
        assert warehouse.load([("a", 2)], 2) == 2
    with cubetree.open(tmp_path) as warehouse:
        with pytest.raises(cubetree.Changed):
            warehouse.load([("a", 3)], 2)
        assert warehouse.load([("a", 2)], 2) is None
        assert warehouse.slice("count,sum(qty)") == [(2, 3)]
    (tmp_path / ".batches").unlink()
    with cubetree.open(tmp_path) as warehouse:
        with pytest.warns(
            UserWarning, match="batch 2 counts already, and it is not known with which"
        ):
            assert warehouse.load([("a", 9)], 2) is None


def test_answers_of_an_old_run(folder: str) -> None:
    """A run that is old ends after a question, and not within it."""
    with cubetree.open(folder) as warehouse:
        for _ in range(3):
            assert warehouse.slice("count") == [(3,)]
            assert warehouse.sql("SELECT COUNT(*) FROM facts") == [(3,)]
            assert set(warehouse.kinds) == {"day", "fee"}
            if warehouse._session:
                warehouse._session.began -= 10
