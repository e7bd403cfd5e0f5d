"""Tests of ask."""
from __future__ import annotations

import csv
import io
import json
import os
import random
import sqlite3
from datetime import date
from decimal import Decimal
from pathlib import Path
from typing import Sequence, Tuple

import pytest

from cubetree.codec import Answer
from cubetree.errors import Fault
from cubetree.output import json_lines, table
from cubetree.process import program
from cubetree.sorting import Key, Order, Top, arranged, keys_of, most_of
from cubetree.values import Kind, Value
from tests.helpers import SCHEMA, Case, ask, load, run

Fact = Tuple[str, int, int]


class Ask(Case):
    ROWS = (
        'bolt,1997,5\nnut,1997,-2\nbolt,1998,4\n"a, ""b""\nc",1999,123456789012345678901234567890\n'
    )

    def setUp(self):
        super().setUp()
        run(program(), given=f"schema\n{SCHEMA}end\nload\n{self.ROWS}end\n".encode(), cwd="w")

    def test_table(self):
        table = (
            "part  sum(qty)  count\n----  --------  -----\nbolt         5      1\nnut         -2   "
            "   1\n(2 rows)\n"
        )
        self.assertEqual(ask("--in", "w", "slice sum(qty),count by part where year=1997")[0], table)
        self.assertEqual(
            ask("--in", "w", "sum(qty),count", "by", "part", "where", "year=1997")[0], table
        )
        self.assertIn('\na, "b"\\nc  ', ask("--in", "w", "count by part")[0])
        self.assertEqual(
            ask("count by year where part=none", cwd="w")[0], "year  count\n----  -----\n(0 rows)\n"
        )

    def test_amounts(self):
        """What is of a measure of cents stands as amounts in each form; counts, attributes and
        other measures stay."""
        table = (
            "part  sum(qty)  count\n----  --------  -----\nbolt      0.05      1\nnut      -0.02   "
            "   1\n(2 rows)\n"
        )
        self.assertEqual(
            ask("--in", "w", "--cents", "qty", "sum(qty),count by part where year=1997")[0], table
        )
        self.assertEqual(
            ask("--in", "w", "--csv", "--cents", "Qty", "min(qty) where year=1999")[0],
            "min(qty)\n1234567890123456789012345678.90\n",
        )
        self.assertEqual(
            ask("--in", "w", "--json", "--cents", "qty", "select max(qty), count(*) from facts")[0],
            '{"max(qty)": "1234567890123456789012345678.90", "count(*)": 4}\n',
        )
        self.assertIn(
            "--cents: no measure has the name part; there are qty",
            ask("--in", "w", "--cents", "part", "count", status=1)[1],
        )

    def test_csv_and_json(self):
        wanted = (
            'part,year,max(qty)\n"a,'
            ' ""b""\nc",1999,123456789012345678901234567890\n'
            "bolt,1997,5\nbolt,1998,4\nnut,1997,-2\n"
        )
        self.assertEqual(ask("--in", "w", "--csv", "max(qty) by part,year")[0], wanted)
        rows = [
            json.loads(line)
            for line in ask("--in", "w", "--json", "max(qty) by part,year")[0].splitlines()
        ]
        self.assertEqual(
            rows[0], {"part": 'a, "b"\nc', "year": 1999, "max(qty)": 123456789012345678901234567890}
        )
        self.assertEqual(len(rows), 4)

    def test_lines(self):
        told, said = ask(
            "--in",
            "w",
            "--csv",
            given=b"slice count\n\nsum(cost)\r\ncount by part where year=1998\n",
            status=1,
        )
        self.assertEqual(told, "count\n4\n\npart,count\nbolt,1\n")
        self.assertEqual(
            said,
            (
                "cube ask: refused measure 5: no measure has this name; there is qty\n  sum(cost)\n"
                "      ^\n"
            ),
        )

    def test_ranges_of_texts(self):
        """A text that looks like a range is one value, and is said to be."""
        told, said = ask("--in", "w", "count by year where part=a..c and year=1997..1998")
        self.assertEqual(told, "year  count\n----  -----\n(0 rows)\n")
        self.assertEqual(
            said,
            (
                "cube ask: part is a text: a..c is one value, no range (ranges need an attribute of"
                " numbers, in a new folder)\n"
            ),
        )
        self.assertEqual(
            ask("--in", "w", 'count where part="a..c, year=1..2" and year=1997..1998')[1], ""
        )
        self.put("file", "part,year,qty\n2025-03,1997,5\n")
        self.put("asked", "sum(qty) where part=2025-03..2025-06\n")
        self.assertEqual(load("--propose", "--ask", "asked", "file")[1], "")
        said = load("--propose", "--text", "part", "--ask", "asked", "file")[1]
        self.assertEqual(
            said,
            (
                "cube load: part is a text: 2025-03..2025-06 is one value, no range (ranges need an"
                " attribute of numbers, in a new folder)\n"
            ),
        )

    def test_refusals(self):
        os.mkdir("empty")
        for words, wanted in [
            (["--in", "w", "sum(qty) by"], "refused syntax 9"),
            (
                ["--in", "w", "count by colour"],
                (
                    "refused attribute 10: no attribute has this name; there are part, year; a"
                    " level needs --level NAME ATTR FILE\n"
                ),
            ),
            (["--in", "w", "count by part,part"], "refused repeated 15"),
            (
                ["--in", "w", "count by part where year=x"],
                "refused value 26: year is a number: 202503, or 202503..202506\n",
            ),
            (
                ["--in", "w", "count by part where year=1997-03..1997-04"],
                "refused value 26: year is a number: 202503",
            ),
            (
                ["--in", "w", "count by part where year=1997/03"],
                "refused syntax 30: year is a number: 202503",
            ),
            (
                ["--in", "w", "count where part=a" + 255 * "b"],
                "refused value 18: no such value can be",
            ),
            (["--in", "w", "count where part=K\u00f6ln"], '; quote a value as part="K\u00f6ln"\n'),
            (
                ["--in", "w", "count where part=St. Gallen and year=1997"],
                '; quote a value as part="St. Gallen"\n',
            ),
            (["--in", "w", "count where part='nut'"], '; quote a value as part="nut"\n'),
            (["--in", "w", "count by qty"], "there are part, year; qty is a measure\n"),
            (["--in", "w", "sum(part)"], "there is qty; part is an attribute\n"),
            (
                ["--in", "w", "count,Sum(qty) by part"],
                "; columns are count, sum, min, max in small letters\n",
            ),
            (["--in", "w", "count where year>=1997"], "; a range is 202503..202506\n"),
            (["--in", "w", "count where part=a or part=b"], "NAME=VALUE and ..\n"),
            (["--in", "w", "count where year=1997 or 1998"], "NAME=VALUE and ..\n"),
            (
                ["--in", "w", "select count(*) from facts where year='x'"],
                "refused sql value 39: year has numbers",
            ),
            (
                ["--in", "w", "--explain", "select count(*) from facts"],
                "--explain is for questions, and not for queries in SQL\n",
            ),
            (["--in", "w", "status"], "refused syntax 1"),
            (["--in", "empty", "count"], "refused no schema: no schema is declared in the folder"),
            (["--in", "nowhere", "count"], "no such folder: nowhere"),
            (["--in", "w", "count\nstatus"], "a slice is one line"),
        ]:
            with self.subTest(words):
                self.assertIn(wanted, ask(*words, status=1)[1])
        ask("--never", status=2)
        os.mkdir("narrow")
        run(
            program(),
            given=b"schema\nattr part text\nattr year number\nmeasure qty\nview part\nview\nend\n",
            cwd="narrow",
        )
        said = ask("--in", "narrow", "count by part where year=1", status=1)[1]
        self.assertIn(
            (
                "have a condition; the views are of part; none; load into a new folder with a view"
                " of part,year\n"
            ),
            said,
        )
        said = ask("--in", "narrow", "select part, year from facts group by part, year", status=1)[
            1
        ]
        self.assertIn(
            "the views are of part; none; load into a new folder with a view of part,year\n",
            said,
        )

    def test_damaged(self):
        with open("w/root", "r+b") as root:
            for slot in range(2):  # the number of the format in each body
                root.seek(1024 * slot + 8)
                root.write(b"xx")
        said = ask("--in", "w", "count", status=3)[1]
        self.assertIn("cubetree: damaged file", said)
        self.assertIn("cube ask: the program ended with the status 6", said)


# ---- --sort and --top, without the program


def sums(*records: Sequence[str]) -> Answer:
    """An answer to `sum(qty) by part,year`."""
    return Answer(("part", "year", "sum(qty)"), (False, True, True), records)


def order(sort: str = "", top: int = 0) -> Order:
    """What these arguments of --sort and --top ask for."""
    return Order(keys_of(sort) if sort else (), top or None)


@pytest.mark.parametrize(
    "text, keys",
    [
        ("part", [("part", False)]),
        ("sum(qty) desc,part", [("sum(qty)", True), ("part", False)]),
        (" SUM ( qty )  DESC , part asc ", [("SUM ( qty )", True), ("part", False)]),
        ("desc", [("desc", False)]),
        ("asc desc", [("asc", True)]),
        ("-sum(qty)", [("-sum(qty)", False)]),
    ],
)
def test_keys(text: str, keys: "list[tuple[str, bool]]") -> None:
    assert keys_of(text) == tuple(Key(*key) for key in keys)


@pytest.mark.parametrize("text", ["", " ", ",", "part,", "part,,year"])
def test_keys_without_a_name(text: str) -> None:
    with pytest.raises(Fault, match="--sort: a column has no name in '.*': type columns"):
        keys_of(text)


def test_numbers_of_rows() -> None:
    assert [most_of(text) for text in ("1", "10", "007")] == [1, 10, 7]
    for text in ("", "0", "00", "x", "-1", "+1", "1.5", "1_000", " 1", "1\n", "\u0661", "1" * 19):
        with pytest.raises(Fault, match="--top: '.*' is not a number of rows: type 1 or more"):
            most_of(text)


@pytest.mark.parametrize(
    "sort, top, places",
    [
        ("", 0, [0, 1, 2, 3, 4]),
        ("sum(qty)", 0, [1, 2, 0, 3, 4]),
        ("sum(qty) desc", 0, [4, 0, 3, 2, 1]),
        ("sum(qty) desc,part desc", 0, [4, 3, 0, 2, 1]),
        ("year desc,sum(qty)", 0, [1, 3, 4, 2, 0]),
        ("part desc", 0, [4, 3, 2, 0, 1]),
        ("part desc,sum(qty)", 0, [4, 3, 2, 1, 0]),
        ("part desc,year desc", 0, [4, 3, 2, 1, 0]),
        ("Sum ( QTY )", 0, [1, 2, 0, 3, 4]),
        ("", 1, [4]),
        ("", 3, [4, 0, 3]),
        ("", 5, [4, 0, 3, 2, 1]),
        ("", 9, [4, 0, 3, 2, 1]),
        ("part", 2, [0, 1]),
        ("sum(qty)", 2, [1, 2]),
    ],
)
def test_order(sort: str, top: int, places: "list[int]") -> None:
    """Numbers go by size, and texts by their bytes: ee.., f0.. and ff in the last three."""
    records = [
        ("a, b", "1997", "10"),
        ("a, b", "2001", "-20"),
        ("\ue000", "1998", "9"),
        ("\U0001f600", "2001", "10"),
        ("\udcff", "2001", str(1 << 126)),
    ]
    wanted = [sums(*records)[place] for place in places]
    found = arranged(sums(*records), "sum(qty) by part,year", order(sort, top))
    assert found == wanted
    assert found.columns == ("part", "year", "sum(qty)")


@pytest.mark.parametrize(
    "text, columns, is_sorted",
    [
        ("sum(qty) by part", ("part", "sum(qty)"), True),
        ("count,sum(qty) by part", ("part", "count", "sum(qty)"), False),
        ("sum(qty) by part,count", ("part", "count", "sum(qty)"), True),
        ("select part, Count ( * ) from facts group by part", ("part", "Count ( * )"), True),
        ("SELECT SUM(qty), year FROM facts GROUP BY year", ("SUM(qty)", "year"), True),
        ("select part, year from facts group by part, year", ("part", "year"), False),
    ],
)
def test_top_alone(text: str, columns: "tuple[str, ...]", is_sorted: bool) -> None:
    """It sorts by the only count, sum, minimum or maximum. The third question groups by an
    attribute with the name `count`."""
    records = [[str(row)] * len(columns) for row in (1, 2, 3)]
    answer = Answer(columns, [True] * len(columns), records)
    wanted = 3 if is_sorted else 1
    assert arranged(answer, text, order(top=1)) == [(wanted,) * len(columns)]


def test_columns_of_one_name() -> None:
    """The number is taken, and not the attribute with the name `count`."""
    answer = Answer(("count", "count"), (False, True), [("a", "7"), ("b", "9"), ("c", "8")])
    found = arranged(answer, "count by count", order("count desc"))
    assert found == [("b", 9), ("c", 8), ("a", 7)]


@pytest.mark.parametrize(
    "sort, said",
    [
        ("cost", "cost; there are part, year, sum(qty)"),
        ("year,sum(qty) up", "sum(qty) up; there are part, year, sum(qty)"),
        ("count(*)", "count(*); there are part, year, sum(qty)"),
        ("-cost", "-cost; there are part, year, sum(qty)"),
        ("xpart", "xpart; there are part, year, sum(qty)"),
        (
            "-Sum(qty)",
            (
                "-Sum(qty); there are part, year, sum(qty); for descending order type"
                " --sort 'Sum(qty) desc'"
            ),
        ),
    ],
)
def test_unknown_columns(sort: str, said: str) -> None:
    with pytest.raises(Fault) as caught:
        arranged(sums(), "sum(qty) by part,year", order(sort))
    wanted = f"--sort: no column of the answer has the name {said}\n  sum(qty) by part,year"
    assert str(caught.value) == wanted


def test_the_only_column() -> None:
    with pytest.raises(Fault, match="has the name part; there is count\n  count where part=a"):
        arranged(Answer(("count",), (True,), [["7"]]), "count where part=a", order("part"))


def test_amounts_after_sorting() -> None:
    """Amounts are sorted by their size, and a table counts all rows."""
    rows, kinds = [(f"p{n}", str(n)) for n in range(1234)], [None, Kind("decimal", places=2)]
    answer = Answer(("part", "sum(fee)"), (False, True), rows, kinds)
    found = arranged(answer, "sum(fee) by part", order(top=2))
    assert found == [("p1233", Decimal("12.33")), ("p1232", Decimal("12.32"))]
    lines = ["part   sum(fee)", "-----  --------", "p1233     12.33", "p1232     12.32"]
    assert table(found) == [*lines, "(2 of 1,234 rows)"]
    assert table(Top(Answer(("count",), (True,), [["7"], ["8"]]), 1))[-1] == "(1 of 2 rows)"


@pytest.mark.parametrize(
    "sort, places",
    [
        ("day", [1, 2, 0]),
        ("day desc", [0, 2, 1]),
        ("sum(fee)", [2, 1, 0]),
        ("sum(fee) desc", [0, 1, 2]),
    ],
)
def test_order_of_amounts_and_dates(sort: str, places: "list[int]") -> None:
    """A day that is missing is the number 0, which comes before all dates."""
    rows: "list[tuple[Value, ...]]" = [
        (date(2025, 3, 14), Decimal("10.05")),
        (0, Decimal("10.00")),
        (date(2024, 12, 31), Decimal("-9.50")),
    ]
    answer = Answer(("day", "sum(fee)"), (False, True), [])
    answer[:] = rows
    found = arranged(answer, "sum(fee) by day", order(sort))
    assert found == [rows[place] for place in places]


def test_amounts_and_dates_in_json() -> None:
    answer = Answer(("day", "sum(fee)", "count"), (False, True, True), [])
    answer[:] = [(date(2025, 3, 14), Decimal("12.50"), 7)]
    assert json_lines(answer) == ['{"day": "2025-03-14", "sum(fee)": "12.50", "count": 7}']


# ---- --sort and --top of ask

# Sums of parts in the order of the program: 900, 1000, -2000, 900 and 10000.
TOP_FACTS: "list[Fact]" = [
    ("Apple, Inc.", 1997, 1000),
    ("Apple, Inc.", 1998, -100),
    ("Cisco", 1997, 1000),
    ("Zet", 1999, -2000),
    ('a "q"', 1998, 900),
    ("bolt", 1998, 10000),
]
SUMS_IN_SQL = "select part, SUM ( qty ) from facts group by part"


def csv_text(rows: "Sequence[Sequence[object]]") -> str:
    """Rows as lines of csv."""
    text = io.StringIO()
    csv.writer(text, lineterminator="\n").writerows(rows)
    return text.getvalue()


def load_facts(folder: Path, facts: "list[Fact]") -> None:
    """Makes a warehouse with these facts in a new folder."""
    folder.mkdir()
    script = f"schema\n{SCHEMA}end\nload\n{csv_text(facts)}end\n"
    run(program(), given=script.encode(), cwd=folder)


@pytest.fixture
def tops(tmp_path: Path) -> str:
    """A folder with TOP_FACTS."""
    load_facts(tmp_path / "tops", TOP_FACTS)
    return str(tmp_path / "tops")


def csv_rows(*words: str, status: int = 0) -> "list[list[str]]":
    """The rows of ask --csv."""
    printed, _ = ask("--csv", *words, status=status)
    return list(csv.reader(io.StringIO(printed, newline="")))


def test_top_of_a_table(tops: str) -> None:
    table = "part         sum(qty)\n-----------  --------\nbolt            10000\n"
    table += "Cisco            1000\nApple, Inc.       900\n"
    printed = ask("--in", tops, "--top", "3", "sum(qty) by part")[0]
    assert printed == table + "(3 of 5 rows)\n"
    for top in ("5", "6"):
        assert ask("--in", tops, "--top", top, "sum(qty) by part")[0].endswith("\n(5 rows)\n")


@pytest.mark.parametrize(
    "words, parts",
    [
        (["--sort", "sum(qty)", "sum(qty) by part"], "ZAaCb"),
        (["--sort", "sum(qty) desc", "sum(qty) by part"], "bCAaZ"),
        (["--sort", "sum(qty) desc,part desc", "sum(qty) by part"], "bCaAZ"),
        (["--sort", "count desc,sum(qty)", "--top", "2", "sum(qty),count by part"], "AZ"),
        (["--sort", "COUNT(*) desc", "--top", "2", "count by part"], "AC"),
        (["--sort", "count", "--top", "2", "count,max(qty) by part"], "CZ"),
        (["--top", "2", "sum(qty),count by part"], "AC"),
        (["--top", "2", "max(qty) by part"], "bA"),
        (["--top", "2", "select part from facts group by part"], "AC"),
        (["--top", "2", SUMS_IN_SQL], "bC"),
        (["--sort", "sum(qty)", "--top", "2", SUMS_IN_SQL], "ZA"),
    ],
)
def test_sorted_rows(tops: str, words: "list[str]", parts: str) -> None:
    """The first letters of the parts, in the order of the rows. Amounts do not change it."""
    for cents in ([], ["--cents", "qty"]):
        rows = csv_rows("--in", tops, *cents, *words)[1:]
        assert "".join(row[0][0] for row in rows) == parts


def test_top_of_amounts_and_json(tops: str) -> None:
    words = ["--in", tops, "--cents", "qty", "--top", "3"]
    assert csv_rows(*words, "sum(qty) by part") == [
        ["part", "sum(qty)"],
        ["bolt", "100.00"],
        ["Cisco", "10.00"],
        ["Apple, Inc.", "9.00"],
    ]
    words += ["--json", "--sort", "MIN(qty)", "--top", "2"]
    printed = ask(*words, "select year, min(qty) from facts group by year")[0]
    assert [json.loads(line) for line in printed.splitlines()] == [
        {"year": 1999, "min(qty)": "-20.00"},
        {"year": 1998, "min(qty)": "-1.00"},
    ]


def test_sorted_levels(tops: str, tmp_path: Path) -> None:
    """Apple and Cisco have 1,900 together, Zet and bolt 8,000, and the part without a kind 900."""
    kinds = tmp_path / "kinds"
    kinds.write_text('"Apple, Inc.",tech\nCisco,tech\nZet,else\nbolt,else\n')
    words = ["--in", tops, "--level", "kind", "part", str(kinds)]
    rows = csv_rows(*words, "--top", "2", "sum(qty) by kind")
    assert rows == [["kind", "sum(qty)"], ["else", "8000"], ["tech", "1900"]]
    rows = csv_rows(*words, "--sort", "kind desc", "sum(qty) by kind")[1:]
    assert rows == [["tech", "1900"], ["else", "8000"], ["", "900"]]


def test_several_sorted_questions(tops: str) -> None:
    """Each is sorted by itself, and one without the column is refused."""
    lines = b"sum(qty) by part\ncount by year\nSELECT year, SUM(qty) FROM facts GROUP BY year\n"
    words = ["--in", tops, "--csv", "--sort", "sum(qty) desc", "--top", "1"]
    printed, said = ask(*words, given=lines, status=1)
    assert printed == "part,sum(qty)\nbolt,10000\n\nyear,SUM(qty)\n1998,10800\n"
    missing = (
        "cube ask: --sort: no column of the answer has the name sum(qty); there are year, count\n"
    )
    assert said == missing + "  count by year\n"


@pytest.mark.parametrize(
    "words, said",
    [
        (
            ["--top", "0"],
            "cube ask: --top: '0' is not a number of rows: type 1 or more in at most 18",
        ),
        (["--top", "x"], "cube ask: --top: 'x' is not a number of rows"),
        (["--sort", ""], "cube ask: --sort: a column has no name in '': type columns with commas"),
        (["--sort", "part,,year"], "cube ask: --sort: a column has no name in 'part,,year'"),
        (
            ["--explain", "--top", "1"],
            "cube ask: --explain prints no rows to sort or to cut: leave out",
        ),
        (["--sort", "part", "--explain"], "cube ask: --explain prints no rows to sort or to cut"),
    ],
)
def test_wrong_orders(tops: str, words: "list[str]", said: str) -> None:
    printed, errors = ask("--in", tops, *words, "count by part", status=2)
    assert printed == ""
    assert said.replace("cube ask: ", "cube ask: error: ") in errors
    assert errors.splitlines()[-1].startswith("cube ask: error: ")


def test_missing_arguments(tops: str) -> None:
    for words in (["--sort"], ["--top"]):
        assert "usage: cube ask" in ask("--in", tops, *words, status=2)[1]


@pytest.mark.parametrize(
    "words, query",
    [
        (["--top", "10", "sum(qty) by part"], "sum(qty) desc, part limit 10"),
        (["--sort", "max(qty) desc,part desc", "max(qty) by part"], "max(qty) desc, part desc"),
        (["--sort", "min(qty)", "--top", "7", "min(qty) by part"], "min(qty), part limit 7"),
    ],
)
def test_as_in_sqlite(tmp_path: Path, words: "list[str]", query: str) -> None:
    """SQLite orders facts that are drawn in the same way. Its texts ascend by their bytes, too."""
    draw = random.Random(58)
    names = ["Huawei, Ltd.", 'say "x"', "gr\u00f6\u00dfe", "Apple", "a, b", "\U0001f600", "\ue000"]
    parts = [f"{name}{n}" for name in names for n in range(9)]
    facts = [(draw.choice(parts), draw.randrange(9), draw.randrange(-9, 10)) for _ in range(900)]
    load_facts(tmp_path / "w", facts)
    base = sqlite3.connect(":memory:")
    base.execute("create table facts (part text, year int, qty int)")
    base.executemany("insert into facts values (?, ?, ?)", facts)
    column = words[-1].split()[0]
    wanted = base.execute(f"select part, {column} from facts group by part order by {query}")
    found = csv_rows("--in", str(tmp_path / "w"), *words)[1:]
    assert found == [[part, str(number)] for part, number in wanted]


def test_markdown(tmp_path: Path, monkeypatch: pytest.MonkeyPatch) -> None:
    """Numbers stand to the right, and a bar within a cell is no end of it."""
    monkeypatch.chdir(tmp_path)
    os.mkdir("w")
    Path("file").write_text("part,qty\na|b,5\nc,-2\n")
    Path("schema").write_text("attr part text\nmeasure qty\nview part\n")
    load("--schema", "schema", "--folder", "w", "file")
    assert ask("--folder", "w", "--markdown", "sum(qty) by part")[0].splitlines() == [
        "| part | sum(qty) |",
        "| --- | --: |",
        "| a\\|b | 5 |",
        "| c | -2 |",
    ]
