"""Tests of what is seen in the columns of csv files, also of ten real ones."""
import csv
import os
import random
from typing import Dict, List

import pytest

from cubetree import Fault, Schema
from cubetree.csvfile import sniff
from cubetree.csvfile.sniff import meaning
from cubetree.csvfile.tables import Table
from cubetree.design import proposals
from cubetree.design.proposals import Doubt, Told, columns_of, proposal, see_rows
from cubetree.values import TEXT, WHOLE_NUMBER, Kind
from tests.helpers import FILES


@pytest.fixture
def put(tmp_path):
    """Writes a file, and says its path."""
    number = 0

    def put(content):
        nonlocal number
        number += 1
        path = tmp_path / f"file{number}"
        path.write_bytes(content if isinstance(content, bytes) else content.encode())
        return str(path)

    return put


@pytest.fixture
def column_of(put):
    """The only column of a file with these cells under a title, as it was seen."""

    def column_of(title, cells, told=Told(), delimiter=","):
        lines = [f'"{text}"{delimiter}' for text in (title, *cells)]
        table = Table(put("\n".join(lines)), delimiter, names=[title, "rest"])
        columns = columns_of(table, told)
        see_rows(columns, table, table.rows())
        return columns[0]

    return column_of


def kind_of(column) -> Kind:
    """The kind that a column is loaded with, by its role."""
    return column.number_kind() if column.role == "measure" else column.attribute_kind()


def texts(count: int, form: str = "{}") -> List[str]:
    """Different texts, in an order that is none."""
    numbers = list(range(count))
    random.Random(count).shuffle(numbers)
    return [form.format(number) for number in numbers]


# ---- titles


@pytest.mark.parametrize(
    "title, whole, decimal",
    [
        ("OrderID", "key", "key"),
        ("order id", "key", "key"),
        ("ORDERNO", "key", "key"),
        ("customer", "key", ""),
        ("customers", "", ""),
        ("phone number", "key", ""),
        ("NumberOfLives", "amount", "amount"),
        ("number of days", "amount", "amount"),
        ("day of week", "key", ""),
        ("price per day", "amount", "amount"),
        ("Total carbon emissions from x", "amount", "amount"),
        ("num_rooms", "amount", "amount"),
        ("start_lng", "key", "key"),
        ("code 2", "key", "key"),
        ("Jahr", "key", "key"),
        ("index", "key", ""),
        ("air quality index", "", ""),
        ("Größe", "", ""),
        ("", "", ""),
        ("2010", "", ""),
    ],
)
def test_titles(title, whole, decimal):
    assert (meaning(title, True), meaning(title, False)) == (whole, decimal)


# ---- kinds and roles

SEEN = [
    # decimals
    ("x", ["1.5", "2.25", "3"], "measure", "decimal 2"),
    ("x", ["1,5", "2,25", "3"], "measure", "decimal 2"),
    ("x", ["12.50", "13.00"], "measure", "decimal 2"),
    ("x", [".5", "-1.", "+2"], "measure", "decimal 1"),
    ("x", ["0.1234567890123456789"[:20], "1"], "measure", "decimal 18"),
    ("x", ["1.5000000000000000000", "1"], "measure", "decimal 1"),
    ("x", ["0.1234567890123456789", "1"], "attribute", "text"),
    ("x", ["1e-05", "2.5E+3"], "measure", "decimal 5"),
    ("x", ["1.5e-11", "1"], "measure", "decimal 12"),
    ("x", ["1.5e-12", "1"], "attribute", "text"),
    ("x", ["1e3", "2e3"], "measure", "decimal 1"),
    ("x", ["1e30", "2e3"], "attribute", "text"),
    ("x", ["12345678901234567890123456789.5", "1"], "attribute", "text"),
    ("x", ["1.5", "2,5"], "attribute", "text"),
    ("x", ["1.5", "2.5"] * 12, "attribute", "text"),
    ("price", ["1.5", "2.5"] * 12, "measure", "decimal 1"),
    ("x", ["1.5", "2.5"] * 11, "measure", "decimal 1"),
    ("lat", ["1.5", "2.5"], "attribute", "text"),
    # marks between thousands
    ("x", ["1,234", "5,678"], "attribute", "text"),
    ("x", ["1,234", "0,678"], "measure", "decimal 3"),
    ("x", ["1,234", "5,67"], "measure", "decimal 3"),
    ("x", ["1.234", "5.678"], "measure", "decimal 3"),
    ("x", ["1,234,567", "12"], "attribute", "text"),
    ("x", ["1.234,5", "12,5"], "attribute", "text"),
    ("x", ["1,234.5", "12.5"], "attribute", "text"),
    # whole numbers
    ("x", texts(50), "measure", "whole"),
    ("x", ["-3", "+4", "12"], "measure", "whole"),
    ("x", ["9" * 38, "1"], "measure", "whole"),
    ("x", ["9" * 39, "1"], "attribute", "text"),
    ("x", ["9" * 5000, "1"], "attribute", "text"),
    ("x", ["007", "12"], "attribute", "text"),
    ("qty", ["1", "2"] * 8, "measure", "whole"),
    ("x", ["1", "3"] * 8, "attribute", "whole"),
    ("x", ["1", "3"] * 3, "measure", "whole"),
    ("x", ["-1", "3"] * 8, "attribute", "text"),
    ("x", ["1", str(1 << 63)] * 8, "attribute", "text"),
    ("x", ["1", str((1 << 63) - 1)] * 8, "attribute", "whole"),
    ("customer id", texts(50), "attribute", "whole"),
    ("customer id", texts(150), "identifier", "whole"),
    ("year", ["1999", "2001"], "attribute", "whole"),
    ("x", ["1999", "2001", "1703"], "attribute", "whole"),
    ("x", ["1999", "2001", "2101"], "measure", "whole"),
    ("x", ["1999.0", "2001.0"], "attribute", "text"),
    ("x", [str(n) for n in range(1, 31)], "identifier", "whole"),
    ("x", [str(n) for n in range(0, 30)], "identifier", "whole"),
    ("x", [str(n) for n in range(5, 35)], "attribute", "whole"),
    ("x", [str(n // 2) for n in range(80)], "attribute", "whole"),
    ("x", [str(n % 40) for n in range(80)], "attribute", "whole"),
    ("x", [str(n % 40) for n in range(78)] + ["99", "3"], "measure", "whole"),
    ("x", [str(n * 7 % 20 + 1) for n in range(200)], "attribute", "whole"),
    ("x", [str(n * 7 % 20 + 2) for n in range(200)], "measure", "whole"),
    ("x", texts(150, "40000000{:03}"), "identifier", "whole"),
    ("x", texts(150, "4000000{:03}")[:90], "measure", "whole"),
    ("x", [str(n * n * 10**8 + n) for n in range(200)], "measure", "whole"),
    # texts
    ("x", ["a", "b", "c"], "attribute", "text"),
    ("x", texts(150, "p{}"), "identifier", "text"),
    ("x", texts(100, "p{}"), "attribute", "text"),
    ("x", ["p"] * 17 + texts(135, "p{}"), "attribute", "text"),
    ("x", ["", "NA"], "empty", "text"),
    # days and months
    ("x", ["2025-03-14", "2025-3-4"], "date", "day YMD"),
    ("x", ["2012/01/01", "2012.01.02"], "date", "day YMD"),
    ("x", ["2010/01/01 00:00:00", "2010-01-01T01:30Z"], "date", "day YMD"),
    ("x", ["14.3.2025", "1.3.2025"], "date", "day DMY"),
    ("x", ["14-Mar-2025", "1-Apr-2025"], "date", "day DMY"),
    ("x", ["3/14/2025", "1/3/2025"], "date", "day MDY"),
    ("x", ["Jan 1 2000", "February 13, 2000"], "date", "day MDY"),
    ("x", ["20250314", "20250315", "19990101"], "date", "day YMD"),
    ("x", ["20250314", "20250315"], "measure", "whole"),
    ("date", ["20250314", "20250315"], "date", "day YMD"),
    ("x", ["20250314", "20250315", "19991301"], "measure", "whole"),
    ("x", ["20250314", "20250315", "12340315"], "measure", "whole"),
    ("x", ["2025-03", "2024-12"], "date", "month"),
    ("x", ["202503", "202412", "202401"], "date", "month"),
    ("x", ["202503", "202412", "202413"], "measure", "whole"),
    ("x", ["202503", "202412", "123407"], "measure", "whole"),
    ("x", ["2025-03", "2024-13"], "attribute", "text"),
    ("x", ["1.2.2025", "3.4.2025"], "attribute", "text"),
    ("x", ["2025-02-28", "2025-02-30"], "attribute", "text"),
    ("x", ["2024-02-29", "2000-02-29"], "date", "day YMD"),
    ("x", ["2025-02-28", "soon"], "attribute", "text"),
]


@pytest.mark.parametrize("title, cells, role, kind", SEEN)
def test_roles_and_kinds(column_of, title, cells, role, kind):
    column = column_of(title, cells)
    assert (column.role, str(kind_of(column))) == (role, kind)


@pytest.mark.parametrize("title, cells, role, kind", SEEN)
def test_piece_by_piece(column_of, monkeypatch, title, cells, role, kind):
    """The same is seen if a piece has three rows, and if values are missing."""
    monkeypatch.setattr(proposals, "PIECE", 3)
    column = column_of(title, cells)
    assert (column.role, str(kind_of(column))) == (role, kind)
    if len(cells) < 20:
        column = column_of(title, ["NA", *cells, ""])
        assert (column.role, str(kind_of(column))) == (role, kind)


def test_thousands_by_delimiter(column_of):
    """In a file of semicolons, points may stand between thousands."""
    assert column_of("x", ["1.234", "5.678"], delimiter=";").role == "attribute"
    assert column_of("x", ["1.234", "0.678"], delimiter=";").role == "measure"
    said = column_of("x", ["1.234", "5.678"], delimiter=";").unclear()
    assert said == "thousands separators or decimals: --decimals x=3 if decimals"


def test_few_values_are_kept(column_of, monkeypatch):
    """No more values are kept than a text attribute has, whatever the file has."""
    monkeypatch.setattr(sniff, "MOST_VALUES", 100)
    monkeypatch.setattr(proposals, "PIECE", 10)
    column = column_of("x", texts(1000, "{}.5"))
    assert len(column.values) == 110
    assert column.seen(Kind("decimal", 1)) == "more than 100 different values, 0.5 to 999.5"
    days = [f"{year}-{month}-7" for year in range(2000, 2020) for month in range(12, 0, -1)]
    column = column_of("x", days)
    assert len(column.values) == 110
    wanted = "more than 100 different values, 2000-01-07 to 2019-12-07"
    assert column.seen(Kind("day", order="YMD")) == wanted


@pytest.mark.parametrize(
    "cells, comment",
    [
        (
            ["2", "1"],
            "# x: 2 different values, 1 to 2; summed (a guess: --text x keeps it as text)",
        ),
        (
            ["9.5", "100.5", "5.5"],
            (
                "# x: 3 different values, 5.5 to 100.5; 1 decimal; summed (a guess: --text x keeps"
                " it as text)"
            ),
        ),
        (
            ["12.50", "-3"],
            (
                "# x: 2 different values, -3 to 12.50; 2 decimals; summed (a guess: --text x keeps"
                " it as text)"
            ),
        ),
        (
            ["2", "NA", "", "NA"],
            (
                "# x: 1 different value, 2 to 2; 1 empty and 2 'NA' counted as 0; summed (a guess:"
                " --text x keeps it as text)"
            ),
        ),
        (
            ["1", "3"] * 8,
            (
                "# x: 2 different values, 1 to 3; not summed, few different values (a guess: --sum"
                " x sums it)"
            ),
        ),
        (
            ["14.3.2025 12:30", "1.4.2025 7:00", "1.4.2025 8:00"],
            (
                "# x: 2 different values, 2025-03-14 to 2025-04-01; days in the order DMY; times of"
                " day are dropped (a guess: --text x keeps it as text)"
            ),
        ),
        (
            ["2025-03", "-"],
            (
                "# x: 1 different value, 2025-03 to 2025-03; months; 1 '-' counted as 0 (a guess:"
                " --text x keeps it as text)"
            ),
        ),
        (["a", "b", ""], "# x: 3 different values"),
        (
            ["1.2.2025", "3.4.2025"],
            (
                "# x: 2 different values; x has dates, and 1.2.2025 may have the day or the month"
                " first: --dates x=DMY or --dates x=MDY"
            ),
        ),
        (
            ["2025-02-28", "2025-02-30", "2025-02-31"],
            (
                "# x: 3 different values; x has dates, and 2025-02-30 in row 2 (line 3) does not"
                " exist: --text x keeps them as texts"
            ),
        ),
        (
            [*texts(60), "unknown"],
            (
                "# x: 61 different values; numbers but for 'unknown' in row 61 (line 62): --na"
                " unknown takes it for 0"
            ),
        ),
        (
            ["1.5", "1,5"],
            "# x: 2 different values; numbers with decimal points and with decimal commas",
        ),
        (
            ["1,234,567"],
            (
                "# x: 1 different value; numbers with thousands separators: without them it would"
                " be a measure"
            ),
        ),
        (
            ["1.5e-15"],
            "# x: 1 different value; numbers of 16 decimals: --decimals x=16 if all are needed",
        ),
        (
            ["1.5e-18"],
            (
                "# x: 1 different value; numbers of 19 decimals: a measure has at most 18, so round"
                " them before"
            ),
        ),
        (["1e40"], "# x: 1 different value; numbers of too many digits"),
    ],
)
def test_comments(column_of, cells, comment):
    column = column_of("x", cells)
    assert column.comment(kind_of(column), True) == comment


# ---- what the words of a load say


def test_words_override_guesses(column_of):
    column = column_of("x", ["1.5", "2"], Told(texts={"x"}))
    assert (column.role, kind_of(column)) == ("attribute", TEXT)
    assert column.comment(TEXT, True) == "# x: 2 different values"
    column = column_of("year", ["1999", "2001"], Told(sums={"year"}))
    assert (column.role, kind_of(column)) == ("measure", WHOLE_NUMBER)
    column = column_of("x", ["1,234", "5,678"], Told({"x": Kind("decimal", 3)}))
    assert (column.role, kind_of(column)) == ("measure", Kind("decimal", 3))
    column = column_of("x", ["12", "13"], Told({"x": Kind("decimal", 2)}))
    assert (column.role, kind_of(column)) == ("measure", Kind("decimal", 2))
    column = column_of("x", ["1.2.2025", "3.4.2025"], Told({"x": Kind("day", order="DMY")}))
    assert (column.role, kind_of(column)) == ("date", Kind("day", order="DMY"))
    column = column_of("x", ["none", "5"], Told(na=("none",)))
    assert (column.role, column.absent) == ("measure", {"none": 1})


def test_words_are_completed(column_of):
    """A day without an order and a decimal without places are found."""
    for cells, kind, wanted in [
        (["1.25", "2"], Kind("decimal"), Kind("decimal", 2)),
        (["13.2.2025"], Kind("day"), Kind("day", order="DMY")),
        (["2025-02"], Kind("day"), Kind("month")),
        (["20250314"], Kind("day"), Kind("day", order="YMD")),
    ]:
        assert kind_of(column_of("x", cells, Told({"x": kind}))) == wanted


@pytest.mark.parametrize(
    "cells, told, said",
    [
        (
            ["1.5", "1.505", "x"],
            Told({"x": Kind("decimal", 2)}),
            "row 2 (line 3): x is no amount of 2 decimals: '1.505'",
        ),
        (
            ["1.5", "1e3x"],
            Told({"x": Kind("decimal", 2)}),
            "row 2 (line 3): x is no amount like 12.50: '1e3x'",
        ),
        (
            ["2025-02-28", "2025-02-30"],
            Told({"x": Kind("day", order="YMD")}),
            "row 2 (line 3): x is a day that does not exist: '2025-02-30'",
        ),
        (
            ["2025-02", "2025"],
            Told({"x": Kind("month")}),
            "row 2 (line 3): x is no month like 2025-03: '2025'",
        ),
        (
            ["1", "a"],
            Told(sums={"x"}),
            "x cannot be summed: not all of its values are numbers, as 'a' in row 2 (line 3)",
        ),
        (["", "NA"], Told(sums={"x"}), "x cannot be summed: it has no values"),
        (
            ["1.5", "1,5"],
            Told(sums={"x"}),
            (
                "x cannot be summed: not all of its values are numbers: numbers with decimal points"
                " and with decimal commas"
            ),
        ),
        (
            ["1", "a"],
            Told({"x": Kind("decimal")}),
            "x cannot be summed: not all of its values are numbers, as 'a' in row 2 (line 3)",
        ),
        (
            ["1", "2"],
            Told({"x": Kind("decimal")}),
            "x has whole numbers only: --decimals x=2 if it has 2 decimals",
        ),
        (
            ["2025-02-28", "soon"],
            Told({"x": Kind("day")}),
            "x has no dates, as 'soon' in row 2 (line 3)",
        ),
        (
            ["1.2.2025"],
            Told({"x": Kind("day")}),
            (
                "x has dates, and 1.2.2025 may have the day or the month first: --dates x=DMY or"
                " --dates x=MDY"
            ),
        ),
    ],
)
def test_words_that_do_not_fit(column_of, cells, told, said):
    with pytest.raises(Fault) as caught:
        column_of("x", cells, told)
    assert str(caught.value) == said


# ---- real files

M1, M2, M3 = (Kind("decimal", places) for places in (1, 2, 3))
YMD, MDY = Kind("day", order="YMD"), Kind("day", order="MDY")
EMPLOYED = (
    "nonfarm private goods_producing service_providing private_service_providing"
    " mining_and_logging construction manufacturing durable_goods nondurable_goods"
    " trade_transportation_utilties wholesale_trade retail_trade transportation_and_warehousing"
    " utilities information financial_activities professional_and_business_servic"
    " education_and_health_services leisure_and_hospitality other_services government"
    " nonfarm_change"
).split()

# How a file is to be read, how many rows it has, the kinds of its attributes and measures, and the
# words of its doubts: set down by looking at the files.
JUDGED: Dict[str, tuple] = {
    "carbon_emissions.csv": (
        {},
        264,
        {"year": WHOLE_NUMBER},
        {"total_carbon_emissions_from_foss": WHOLE_NUMBER},
        [],
    ),
    "debian.csv": (
        {"fill": True},
        22,
        {
            "version": TEXT,
            "codename": TEXT,
            "series": TEXT,
            "created": YMD,
            "release": YMD,
            "eol": YMD,
            "eol_lts": YMD,
            "eol_elts": YMD,
        },
        {},
        ["--na ''"],
    ),
    "HRlist2.txt": (
        {"delimiter": " ", "has_header": False},
        96,
        {"column_1": TEXT, "column_4": TEXT},
        {"column_2": M1, "column_3": WHOLE_NUMBER},
        [],
    ),
    "iris.csv": (
        {},
        150,
        {"virginica": WHOLE_NUMBER},
        {"column_150": M1, "column_4": M1, "setosa": M1, "versicolor": M1},
        ["--no-header"],
    ),
    "macrodata.csv": (
        {},
        203,
        {"year": WHOLE_NUMBER, "quarter": WHOLE_NUMBER},
        {
            "realgdp": M3,
            "realcons": M1,
            "realinv": M3,
            "realgovt": M3,
            "realdpi": M1,
            "cpi": M3,
            "m1": M1,
            "tbilrate": M2,
            "unemp": M1,
            "pop": M3,
            "infl": M2,
            "realint": M2,
        },
        [],
    ),
    "murders.csv": (
        {},
        51,
        {"state": TEXT, "abb": TEXT, "region": TEXT},
        {"population": WHOLE_NUMBER, "total": WHOLE_NUMBER},
        [],
    ),
    "ssa-death-probability.csv": (
        # NumberOfLives has `99,362` and so on, which could be 99.362 as well.
        {},
        240,
        {"age": WHOLE_NUMBER, "sex": TEXT, "numberoflives": TEXT},
        {"deathprob": Kind("decimal", 6), "lifeexp": M2},
        [],
    ),
    "stocks.csv": ({}, 560, {"symbol": TEXT, "date": MDY}, {"price": M2}, []),
    "ubuntu.csv": (
        {"fill": True},
        45,
        {
            "version": TEXT,
            "codename": TEXT,
            "series": TEXT,
            "created": YMD,
            "release": YMD,
            "eol": YMD,
            "eol_server": YMD,
            "eol_esm": YMD,
            "eol_legacy": YMD,
        },
        {},
        ["--na ''"],
    ),
    "us-employment.csv": (
        {},
        120,
        {"month": YMD},
        {**dict.fromkeys(EMPLOYED, WHOLE_NUMBER), **dict.fromkeys(EMPLOYED[11:15], M1)},
        [],
    ),
}


@pytest.mark.parametrize("name", JUDGED)
def test_real_files(name):
    reading, rows, attributes, measures, doubts = JUDGED[name]
    path = os.path.join(FILES, name)
    table = Table(path, **reading)
    columns = columns_of(table, Told())
    see_rows(columns, table, table.rows())
    assert table.row == rows
    seen = {column.name: kind_of(column) for column in columns if column.role == "measure"}
    assert seen == measures
    others = [column for column in columns if column.name not in seen]
    assert {column.name: kind_of(column) for column in others} == attributes
    found = proposal(Table(path, **reading))
    assert [doubt.word for doubt in found.doubts] == doubts
    assert Schema(found.lines).measures == (list(measures)[:4] or ["one"])


@pytest.mark.parametrize("name", JUDGED)
def test_real_files_are_converted(name):
    """What is proposed can be loaded: the sums are those of the amounts in the file."""
    reading, rows, _, measures, _ = JUDGED[name]
    path = os.path.join(FILES, name)
    found, table = proposal(Table(path, **reading)), Table(path, **reading)
    table.convert(found.kinds, found.na)
    kept = list(table.rows())
    assert len(kept) == rows
    if reading:
        return
    with open(path, newline="", encoding="utf-8") as file:
        plain = list(csv.reader(file))[1:]
    for column, kind in measures.items():
        if column in found.kinds:
            place = table.names.index(column)
            total = sum(float(row[place]) for row in plain)
            assert sum(int(row[place]) for row in kept) == pytest.approx(total * 10**kind.places)


@pytest.mark.parametrize(
    "name, said",
    [
        (
            "debian.csv",
            "row 1 (line 2) has 6 fields, and the header has 8: --fill takes the missing",
        ),
        (
            "ubuntu.csv",
            "row 1 (line 2) has 6 fields, and the header has 9: --fill takes the missing",
        ),
        ("HRlist2.txt", "each row has 4 words and no delimiter: --delimiter space, or --delimiter"),
    ],
)
def test_real_files_that_are_refused(name, said):
    with pytest.raises(Fault) as caught:
        list(Table(os.path.join(FILES, name)).rows())
    assert str(caught.value).startswith(said)


def test_real_file_without_a_header():
    found = proposal(Table(os.path.join(FILES, "HRlist2.txt"), " "))
    wanted = Doubt("the first line may be no header, as it has '4.8', '5840'", "--no-header")
    assert found.doubts == [wanted]
