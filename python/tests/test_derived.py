"""Tests of means, ratios, months and years in questions."""
from __future__ import annotations

import csv
import io
import json
from datetime import date
from decimal import Decimal
from itertools import product
from pathlib import Path
from typing import List

import pytest

import cubetree
from cubetree import Fault, Refused
from cubetree.dates import slice_with_dates
from cubetree.values import Kind
from tests.deriving import KINDS, cells, loaded
from tests.helpers import ask

SCHEMA = "attr depot text\nattr day number\nmeasure parcels\nmeasure fee\n"
VIEWS = "view day\nview depot,day\nview\n"
# Of the months: no date 4 parcels, 1.00; 2024-12 0, 7.00; 2025-03 5, 12.55; 2025-04 5, -3.00.
FEES = """depot,day,parcels,fee
Hull,2025-03-14,2,12.50
Hull,2025-03-15,3,0.05
Bath,2025-04-01,5,-3.00
Bath,2024-12-31,0,7.00
Ely,,4,1.00
"""
GREATEST = 2**127 - 1


@pytest.fixture(name="fees", scope="module")
def folder_of_fees(tmp_path_factory: pytest.TempPathFactory) -> str:
    """A folder with FEES."""
    words = ["--cents", "fee", "--dates", "day", "--na", ""]
    return loaded(tmp_path_factory.mktemp("fees"), SCHEMA + VIEWS, FEES, *words)


def asked(folder: str, text: str, raw: bool = False) -> List[str]:
    """The rows of the answer to a question."""
    with cubetree.open(folder, raw=raw) as warehouse:
        return cells(warehouse.slice(text))


# ---- answers


@pytest.mark.parametrize(
    "text, rows",
    [
        ("avg(parcels)", ["2.8000"]),
        ("avg(fee),count", ["3.510000,5"]),
        ("count,avg(fee),sum(fee)", ["5,3.510000,17.55"]),
        ("avg(fee),avg(parcels)", ["3.510000,2.8000"]),
        ("count/count,sum(fee)/sum(fee)", ["1.0000,1.000000"]),
        ("sum(fee)/count by depot", ["Bath,2.000000", "Ely,1.000000", "Hull,6.275000"]),
        (
            "sum(fee)/sum(parcels) by month(day)",
            ["0,0.250000", "2024-12,", "2025-03,2.510000", "2025-04,-0.600000"],
        ),
        (
            "sum(parcels)/sum(fee) by month(day)",
            ["0,4.0000", "2024-12,0.0000", "2025-03,0.3984", "2025-04,-1.6667"],
        ),
        ("min(fee)/max(fee) by year(day)", ["0,1.000000", "2024,1.000000", "2025,-0.240000"]),
        ("count/sum(parcels) by year(day)", ["0,0.2500", "2024,", "2025,0.3000"]),
        ("count/min(fee) by year(day)", ["0,1.0000", "2024,0.1429", "2025,-1.0000"]),
        ("avg(fee) where depot=none", []),
        ("avg(fee) by month(day) where depot=none", []),
    ],
)
def test_means_and_ratios(fees: str, text: str, rows: List[str]) -> None:
    """They have four decimals more than their first column, and a cell by 0 is empty."""
    assert asked(fees, text) == rows


@pytest.mark.parametrize(
    "text, rows",
    [
        (
            "min(fee),max(fee),sum(fee),count by month(day)",
            [
                "0,1.00,1.00,1.00,1",
                "2024-12,7.00,7.00,7.00,1",
                "2025-03,0.05,12.50,12.55,2",
                "2025-04,-3.00,-3.00,-3.00,1",
            ],
        ),
        (
            "min(fee),max(parcels),count by year(day)",
            ["0,1.00,4,1", "2024,7.00,0,1", "2025,-3.00,5,3"],
        ),
        (
            "count by day,month(day)",
            [
                "0,0,1",
                "2024-12-31,2024-12,1",
                "2025-03-14,2025-03,1",
                "2025-03-15,2025-03,1",
                "2025-04-01,2025-04,1",
            ],
        ),
        (
            "count by month(day),year(day)",
            ["0,0,1", "2024-12,2024,1", "2025-03,2025,2", "2025-04,2025,1"],
        ),
        (
            "avg(fee) by year(day),month(day)",
            [
                "0,0,1.000000",
                "2024,2024-12,7.000000",
                "2025,2025-03,6.275000",
                "2025,2025-04,-3.000000",
            ],
        ),
        ("count by year(day),depot", ["0,Ely,1", "2024,Bath,1", "2025,Bath,1", "2025,Hull,2"]),
        ("count by depot,year(day)", ["Bath,2024,1", "Bath,2025,1", "Ely,0,1", "Hull,2025,2"]),
        (
            "count by month(day),depot,day where year(day)=2025",
            ["2025-03,Hull,2025-03-14,1", "2025-03,Hull,2025-03-15,1", "2025-04,Bath,2025-04-01,1"],
        ),
    ],
)
def test_parts_of_dates(fees: str, text: str, rows: List[str]) -> None:
    """Sums and counts of a month add up, and its least and greatest values are those of a day."""
    assert asked(fees, text) == rows


@pytest.mark.parametrize(
    "text, rows",
    [
        ("avg(fee),count by depot where month(day)=2025-03", ["Hull,6.275000,2"]),
        ("avg(fee) where year(day)=2025", ["3.183333"]),
        ("count where year(day)=2024..2025", ["4"]),
        ("count where month(day)=2024-12..2025-03", ["3"]),
        ("count where month(day)=2024..2025-03", ["3"]),
        ("count where month(day)=2025", ["3"]),
        ("count where month(day)=2025-04..2025-03", []),
        ("count by depot where month(day)=0", ["Ely,1"]),
        ("avg(fee) by depot where year(day)=0", ["Ely,1.000000"]),
        ("sum(fee) where depot=Bath and year(day)=2025", ["-3.00"]),
        ("sum(fee) where year(day)=2025 and depot=Bath", ["-3.00"]),
        ("count by day where month(day)=2025-04", ["2025-04-01,1"]),
        ("count by year(day) where day=2025-03-14", ["2025,1"]),
    ],
)
def test_conditions(fees: str, text: str, rows: List[str]) -> None:
    """Parts of dates bound a question as dates do, and 0 stands for cells without one."""
    assert asked(fees, text) == rows


def test_values(fees: str) -> None:
    """Python has amounts as Decimal, days as dates, months as texts and years as numbers."""
    with cubetree.open(fees) as warehouse:
        answer = warehouse.slice(
            "avg(fee),count/sum(parcels) by day,month(day),year(day) where day=2024-12-31"
        )
        assert answer == [(date(2024, 12, 31), "2024-12", 2024, Decimal(7), "")]
        assert str(answer[0][3]) == "7.000000"
        names = ["day", "month(day)", "year(day)", "avg(fee)", "count/sum(parcels)"]
        assert answer.columns == tuple(names)
        assert answer.numeric == (False, False, True, True, True)
        kinds = [KINDS["day"], Kind("month"), None, Kind("decimal", places=6)]
        assert answer.kinds == (*kinds, Kind("decimal", places=4))
        assert warehouse.slice("avg(fee) by year(day)")[0] == (0, Decimal(1))
        assert warehouse.explain("avg(fee) by month(day)").view == ("day",)
        assert warehouse.explain("count by depot where year(day)=2025").view == ("depot", "day")
        visits = warehouse.visits("avg(fee) by month(day),day where month(day)=2025-03")
        assert (visits.choice.view, visits.choice.run) == (("day",), True)


def test_raw(fees: str) -> None:
    """Raw answers have no dates, and their means are those of whole numbers."""
    assert asked(fees, "avg(fee),sum(fee)/sum(parcels)", raw=True) == ["351.0000,125.3571"]
    assert asked(fees, "avg(fee) where day=20250314..20250315", raw=True) == ["627.5000"]
    for text in ("count by month(day)", "count where year(day)=2025"):
        name = "month(day)" if "month" in text else "year(day)"
        with pytest.raises(Fault) as caught:
            asked(fees, text, raw=True)
        assert str(caught.value) == f"{name}: day is no column of dates; no column has dates here"


ROUNDED = {
    (1, 32): "0.0312",
    (3, 32): "0.0938",
    (-1, 32): "-0.0312",
    (-3, 32): "-0.0938",
    (1, -32): "-0.0312",
    (-3, -32): "0.0938",
    (2, 3): "0.6667",
    (-2, 3): "-0.6667",
    (1, 20000): "0.0000",
    (-1, 20000): "0.0000",
    (3, 20000): "0.0002",
    (0, -7): "0.0000",
    (7, 0): "",
    (0, 0): "",
}


def test_rounding_and_great_numbers(tmp_path: Path) -> None:
    """Quotients are rounded half to even, also those of numbers of 39 digits."""
    with cubetree.open(tmp_path) as warehouse:
        warehouse.declare("attr part text\nmeasure a\nmeasure b\nview part\nview\n")
        warehouse.load((f"{n:02}", *pair) for n, pair in enumerate(ROUNDED))
        wanted = [f"{n:02},{quotient}" for n, quotient in enumerate(ROUNDED.values())]
        assert cells(warehouse.slice("sum(a)/sum(b) by part")) == wanted
    (tmp_path / "great").mkdir()
    with cubetree.Warehouse(tmp_path / "great", kinds={"b": Kind("decimal", places=2)}) as great:
        great.declare("attr part text\nmeasure a\nmeasure b\nview part\nview\n")
        great.load([("x", GREATEST - 1, "0.03"), ("y", 1, "0")])
        assert cells(great.slice("avg(a),sum(a)/sum(b),sum(a)/max(a),sum(b)/sum(a)")) == [
            "85070591730234615865843651857942052863.5000,"
            "5671372782015641057722910123862803524233.3333,1.0000,0.000000"
        ]
        assert cells(great.slice("min(a)/max(a),max(a)/min(a)")) == [f"0.0000,{GREATEST - 1}.0000"]
        great.load([("z", 0, Decimal(f"{GREATEST - 3}E-2"))])
        assert cells(great.slice("avg(b),max(b)/min(b)")) == [
            "567137278201564105772291012386280352.423333,"
        ]


def test_order(tmp_path: Path) -> None:
    """Rows ascend by numbers in order of size, and by texts in order of their bytes."""
    texts = [b"Z", b"a", b"\xc3\xa9", b"\xff", b"", b"a.b", b"\xf0\x9f\x98\x80", b"\xee\x80\x80"]
    weights, days = [9, 100, 10], [b"2025-10-01", b"2025-09-30", b"2025-09-01", b""]
    rows = [b"%s,%d,%s,1\n" % row for row in product(texts, weights, days)]
    schema = "attr depot text\nattr kg number\nattr day number\nmeasure fee\nview depot,kg,day\n"
    content = b"depot,kg,day,fee\n" + b"".join(rows)
    folder = loaded(tmp_path, schema, content, "--dates", "day", "--na", "", "--yes")
    names = [text.decode("utf-8", "surrogateescape") for text in sorted(texts)]
    months = [("0", 1), ("2025-09", 2), ("2025-10", 1)]
    with cubetree.open(folder) as warehouse:
        found = warehouse.slice("count by depot,kg,month(day)")
        assert found == [
            (name, kg, *month) for name, kg, month in product(names, sorted(weights), months)
        ]
        found = warehouse.slice("count by kg,month(day),depot")
        assert found == [
            (kg, month, name, count)
            for kg, (month, count), name in product(sorted(weights), months, names)
        ]
        assert warehouse.slice("count by year(day),depot")[:2] == [(0, "", 3), (0, "Z", 3)]
    text = "avg(fee) by depot,year(day) where year(day)=2025"
    printed = ask("--folder", folder, "--csv", text)[0]
    lines = [f"{name},2025,1.0000\n" for name in names]
    assert printed == "depot,year(day),avg(fee)\n" + "".join(lines)


def test_months(tmp_path: Path) -> None:
    """A column of months has months and years too."""
    schema = "attr depot text\nattr month number\nmeasure fee\nview depot,month\nview month\nview\n"
    content = "depot,month,fee\na,2024-12,1\nb,2025-01,2\na,2025-01,3\nb,,5\n"
    folder = loaded(tmp_path, schema, content, "--dates", "month=YM", "--na", "")
    for text, rows in [
        ("avg(fee) by year(month)", ["0,5.0000", "2024,1.0000", "2025,2.5000"]),
        ("count by month(month)", ["0,1", "2024-12,1", "2025-01,2"]),
        ("count by month,year(month)", ["0,0,1", "2024-12,2024,1", "2025-01,2025,2"]),
        ("count by depot where month(month)=2025-01", ["a,1", "b,1"]),
        ("sum(fee) by depot where year(month)=2024..2025", ["a,4", "b,2"]),
        ("sum(fee) where year(month)=2025", ["5"]),
        ("sum(fee) where month(month)=2024-12..2025-01", ["6"]),
        ("sum(fee) where month(month)=0", ["5"]),
    ]:
        assert asked(folder, text) == rows


def test_measure_with_the_name_count(tmp_path: Path) -> None:
    """Amounts in a column `count` do not make counts amounts: 4.50 of two rows is 2.25."""
    schema = "attr depot text\nmeasure count\nmeasure fee\nview depot\nview\n"
    content = "depot,count,fee\na,1.50,10.00\na,3.00,2.00\n"
    folder = loaded(tmp_path, schema, content, "--cents", "count,fee")
    for text, rows in [
        ("avg(count)", ["2.250000"]),
        ("avg(fee),count,sum(count)", ["6.000000,2,4.50"]),
        ("sum(count)/count,count/sum(count)", ["2.250000,0.4444"]),
    ]:
        assert asked(folder, text) == rows
    with cubetree.open(folder) as warehouse:
        kept = warehouse.slice("count,avg(fee)").kinds
    assert kept == (None, Kind("decimal", places=6))


# ---- refusals


@pytest.mark.parametrize(
    "marked, word",
    [
        ("avg(^cost)", "measure"),
        ("avg(fee),avg(^cost),sum(fee)/count by depot", "measure"),
        ("count,avg(fee),sum(fee)/sum(^cost) by depot", "measure"),
        ("avg(^depot)", "measure"),
        ("avg(fee) by ^colour", "attribute"),
        ("avg(fee) by month(day),^colour", "attribute"),
        ("avg(fee) by day,month(day),^colour", "attribute"),
        ("avg(fee) by month(day),depot,year(day),^colour,day", "attribute"),
        ('avg(fee) where depot="K\u00f6ln" and month(day)=2025-03 and ^colour=x', "attribute"),
        ("sum(fee)/count where year(day)=2025 and month(^day)=2025-03", "repeated"),
        ("avg(fee) where month(day)=2025-03 and ^day=2025-03-14", "repeated"),
        ("avg(fee) by year(day),year(^day)", "repeated"),
        ("avg(fee) by day,month(day),^day", "repeated"),
        ("count by month(day),day,^day", "repeated"),
        ("avg(fee) by depot,^depot,month(day)", "repeated"),
        ("avg(fee),count by depot where day=^2025-02-30", "value"),
        ("avg(fee) by year(day) where month(day)=2025-03 and depot=x^\u00e9", "syntax"),
        ("avg(fee)^ by", "syntax"),
        ("avg(fee)^ where", "syntax"),
        ("avg(fee) by depot^ day", "syntax"),
        ("avg(fee),sum(fee)/count^  by depot", "syntax"),
        ("avg(fee) by month(day)^ group by depot", "syntax"),
        ("avg(fee) by depot where depot=x^ or month(day)=2025-03", "syntax"),
        ("avg(fee) by ^month(day", "attribute"),
        ("count by depot,^month()", "attribute"),
        ("count by ^month,day", "attribute"),
        ("avg(fee),^avg(fee)/count", "syntax"),
        ("sum(fee)/count,^avg()", "syntax"),
        ("sum(fee)^/count/count", "syntax"),
        ("avg(fee),sum(fee)^/cost by month(day)", "syntax"),
        ("avg(fee),^", "syntax"),
    ],
)
def test_bytes_of_refusals(fees: str, marked: str, word: str) -> None:
    """A refusal has the byte of the text that was typed."""
    byte = marked.encode().index(b"^") + 1
    text = marked.replace("^", "", 1)
    with cubetree.open(fees) as warehouse, pytest.raises(Refused) as caught:
        warehouse.slice(text)
    assert caught.value.reply == f"refused {word} {byte}"


MONTHS = "months: 2025-03, 2025, or 2025-03..2025-06"
YEARS = "years: 2025, or 2024..2025"


@pytest.mark.parametrize(
    "text, said",
    [
        (
            "count by month(depot)",
            "month(depot): depot is no column of dates; columns of dates: day",
        ),
        ("avg(fee) by year(fee)", "year(fee): fee is no column of dates; columns of dates: day"),
        ("count by month(x)", "month(x): x is no column of dates; columns of dates: day"),
        (
            "count where month(depot)=2025-03",
            "month(depot): depot is no column of dates; columns of dates: day",
        ),
        ("count where month(day)=2025-03-14", f"month(day)=2025-03-14: month(day) has {MONTHS}"),
        ("count where month(day)=20250314", f"month(day)=20250314: month(day) has {MONTHS}"),
        ("count where month(day)=202503", f"month(day)=202503: month(day) has {MONTHS}"),
        ("count where month(day)=2025-13", f"month(day)=2025-13: month(day) has {MONTHS}"),
        ("count where month(day)=2025-00", f"month(day)=2025-00: month(day) has {MONTHS}"),
        ("count where month(day)=", f"month(day)=: month(day) has {MONTHS}"),
        ("count where month(day)=2025-03..", f"month(day)=2025-03..: month(day) has {MONTHS}"),
        ("count where year(day)=2025-03 and depot=x", f"year(day)=2025-03: year(day) has {YEARS}"),
        ("count where depot=x and year(day)=25", f"year(day)=25: year(day) has {YEARS}"),
        ('count where year(day)="2025"', f'year(day)="2025": year(day) has {YEARS}'),
    ],
)
def test_faults(fees: str, text: str, said: str) -> None:
    """A part of what is no date, and a value that is no such part, are named."""
    with cubetree.open(fees) as warehouse, pytest.raises(Fault) as caught:
        warehouse.slice(text)
    assert str(caught.value) == said


def test_refusals_of_ask(fees: str, tmp_path: Path) -> None:
    """Below a refusal stands the text that was typed, with a mark at the place."""
    text = "avg(fee),sum(fee)/count by month(day),colour"
    said = ask("--folder", fees, text, status=1)[1].splitlines()
    assert said[0].startswith("cube ask: refused attribute 39: no attribute has this name; ")
    assert said[1:] == [f"  {text}", "  " + " " * text.index("colour") + "^"]
    said = ask("--folder", fees, "count by month(depot)", status=1)[1]
    wanted = "month(depot): depot is no column of dates; columns of dates: day"
    assert said == f"cube ask: {wanted}\n"
    said = ask("--folder", fees, "avg(fee),count/count by", status=1)[1]
    assert said.endswith("\n  avg(fee),count/count by\n" + 22 * " " + "^\n")
    narrow = loaded(
        tmp_path,
        SCHEMA + "view depot\nview\n",
        FEES,
        "--dates",
        "day",
        "--na",
        "",
        "--cents",
        "fee",
    )
    for text, view in [
        ("avg(fee) by month(day)", "day"),
        ("sum(fee)/count by depot,day,month(day)", "depot,day"),
        ("count where year(day)=2025 and depot=x", "day,depot"),
    ]:
        said = ask("--folder", narrow, text, status=1)[1]
        wanted = f"the views are of depot; none; load into a new folder with a view of {view}\n"
        assert said.startswith("cube ask: refused notcovered: ") and said.endswith(wanted)


# ---- what ask prints


def test_forms(fees: str) -> None:
    """A table, csv, JSON and Markdown have the columns as they are asked for."""
    text = "avg(fee),sum(fee)/sum(parcels) by month(day)"
    assert (
        ask("--folder", fees, text)[0]
        == "month(day)   avg(fee)  sum(fee)/sum(parcels)\n"
        "----------  ---------  ---------------------\n"
        "0            1.000000               0.250000\n"
        "2024-12      7.000000\n"
        "2025-03      6.275000               2.510000\n"
        "2025-04     -3.000000              -0.600000\n"
        "(4 rows)\n"
    )
    printed = ask("--folder", fees, "--csv", text + " where depot=Bath")[0].splitlines()
    assert printed[0] == "month(day),avg(fee),sum(fee)/sum(parcels)"
    assert printed[1:] == ["2024-12,7.000000,", "2025-04,-3.000000,-0.600000"]
    printed = ask("--folder", fees, "--json", "avg(fee),count/sum(parcels) by year(day)")[0]
    assert [json.loads(line) for line in printed.splitlines()] == [
        {"year(day)": 0, "avg(fee)": "1.000000", "count/sum(parcels)": "0.2500"},
        {"year(day)": 2024, "avg(fee)": "7.000000", "count/sum(parcels)": ""},
        {"year(day)": 2025, "avg(fee)": "3.183333", "count/sum(parcels)": "0.3000"},
    ]
    assert (
        ask("--folder", fees, "--markdown", "avg(fee) by year(day) where depot=Hull")[0]
        == "| year(day) | avg(fee) |\n| --: | --: |\n| 2025 | 6.275000 |\n"
    )


@pytest.mark.parametrize(
    "words, rows",
    [
        (["--sort", "avg(fee) desc", "avg(fee) by month(day)"], "2024-12 2025-03 0 2025-04"),
        (["--sort", "sum(fee)/count", "sum(fee)/count by month(day)"], "2025-04 0 2025-03 2024-12"),
        (["--sort", "month(day) desc", "count by month(day)"], "2025-04 2025-03 2024-12 0"),
        (["--sort", "year(day) desc,depot", "count by year(day),depot"], "2025 2025 2024 0"),
        (["--top", "2", "avg(fee) by month(day)"], "2024-12 2025-03"),
        (["--top", "1", "sum(parcels)/sum(fee) by month(day)"], "0"),
        (["--top", "2", "avg(fee),count by month(day)"], "0 2024-12"),
    ],
)
def test_sort_and_top(fees: str, words: List[str], rows: str) -> None:
    """Rows are sorted by derived columns and groups as by others."""
    printed = ask("--folder", fees, "--csv", *words)[0]
    assert [row[0] for row in csv.reader(io.StringIO(printed))][1:] == rows.split()


def test_explain(fees: str) -> None:
    """The view is that of the columns of dates."""
    lines = ask("--folder", fees, "--explain", "avg(fee) by month(day) where year(day)=2025")[0]
    assert lines.startswith("view   day\nrun    yes: ")
    lines = ask("--folder", fees, "--explain", "avg(fee),count/count by depot,year(day)")[0]
    assert lines.startswith("view   depot,day\n")
    said = ask("--folder", fees, "--explain", "count by month(depot)", status=1)[1]
    assert said.startswith("cube ask: month(depot): depot is no column of dates; ")


def test_levels(fees: str, tmp_path: Path) -> None:
    """A level may stand beside a month; Ely has no parent."""
    file = tmp_path / "kinds"
    file.write_text("Hull,north\nBath,south\n")
    rows = [
        ",0,1.000000",
        "north,2025-03,6.275000",
        "south,2024-12,7.000000",
        "south,2025-04,-3.000000",
    ]
    words = ["--folder", fees, "--level", "kind", "depot", str(file), "--csv"]
    printed = ask(*words, "avg(fee) by kind,month(day)")[0]
    assert printed.splitlines() == ["kind,month(day),avg(fee)", *rows]
    with cubetree.open(fees) as warehouse:
        warehouse.level_file("kind", "depot", file)
        assert cells(warehouse.rollup("avg(fee) by kind,month(day)")) == rows
        found = warehouse.rollup("sum(fee)/sum(parcels),count by year(day) where kind=south")
        assert cells(found) == ["2024,,1", "2025,-0.600000,1"]
        found = warehouse.rollup(
            "count by month(day),kind,day where month(day)=2025-03 and kind=north"
        )
        assert cells(found) == ["2025-03,north,2025-03-14,1", "2025-03,north,2025-03-15,1"]
        with pytest.raises(Refused, match="refused attribute 24"):
            warehouse.rollup("avg(fee) by month(day),knd")
        with pytest.raises(Fault, match="kind is no column of dates; columns of dates: day"):
            warehouse.rollup("avg(fee) by month(kind)")


# ---- beside other things


def test_count_beside_a_measure_of_its_name(tmp_path: Path) -> None:
    """A count is a plain number in a plain question too."""
    content = "depot,count\na,1.50\na,3.00\n"
    folder = loaded(
        tmp_path, "attr depot text\nmeasure count\nview depot\nview\n", content, "--cents", "count"
    )
    assert asked(folder, "count,sum(count)") == ["2,4.50"]


def test_dates_in_quotes() -> None:
    """A quoted value stays as it is."""
    text = 'count where depot="x and day=2025 and y"'
    assert slice_with_dates(text, KINDS).text == text


@pytest.mark.parametrize("marked", ["avg(fee) by ^colour", "count by month(day),^colour"])
def test_bytes_of_explain(fees: str, marked: str) -> None:
    """A refusal of `explain` has the byte of the text that was typed."""
    with cubetree.open(fees) as warehouse:
        for explain in (warehouse.explain, warehouse.visits):
            with pytest.raises(Refused) as caught:
                explain(marked.replace("^", ""))
            assert caught.value.byte == marked.index("^") + 1


def test_range_of_months_is_no_text(fees: str) -> None:
    """A range of months is said to be nothing else."""
    text = "count where month(day)=2024-12..2025-03"
    assert ask("--folder", fees, "--csv", text) == ("count\n3\n", "")


def test_months_without_a_schema(tmp_path: Path) -> None:
    """A folder without a schema says so, whatever is asked."""
    with cubetree.open(tmp_path) as warehouse, pytest.raises(Fault, match="refused no schema"):
        warehouse.slice("count by month(day)")
