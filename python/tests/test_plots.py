"""Tests of charts: bars and lines in a terminal, and pictures by gnuplot."""
from __future__ import annotations

import os
import re
import shutil
import xml.etree.ElementTree
from datetime import date, timedelta
from decimal import Decimal
from pathlib import Path
from typing import List, Sequence, Tuple

import pytest

from cubetree import Answer, Fault
from cubetree.plots import Chart, Series, chart_lines, chart_of, draw
from cubetree.process import program
from cubetree.sorting import Top
from cubetree.values import Kind
from tests.helpers import ask, run

needs_gnuplot = pytest.mark.skipif(shutil.which("gnuplot") is None, reason="no gnuplot")
Pairs = Sequence[Tuple[str, "int | Decimal"]]


def by_name(pairs: Pairs) -> Chart:
    """A chart of rows that have names."""
    return Chart(
        [Series("sum(qty)", [key for key, _ in pairs], [value for _, value in pairs])], False
    )


def ordered(pairs: Pairs, time: str = "") -> Chart:
    """A chart of rows that are in the order of their key."""
    return by_name(pairs)._replace(is_ordered=True, time=time)


def answer_of(records: Sequence[Sequence[str]], kind: str = "text", places: int = 0) -> Answer:
    """An answer of groups of this kind and of sums."""
    kinds = [Kind(kind) if kind in ("day", "month") else None]
    kinds.append(Kind("decimal", places=places) if places else None)
    return Answer(("a", "sum(qty)"), (kind != "text", True), records, kinds)


# ---- bars


@pytest.mark.parametrize(
    "values, width, bars",
    [
        # A name has 1 character, a number 2 or 3: 16 or 15 cells are left of 22.
        ([16, 8, 4, 1, 0], 23, ["█" * 16, "█" * 8, "█" * 4, "█", ""]),
        ([16, 10], 23, ["█" * 16, "█" * 10]),
        ([64, 1, 2, 3, 5, 7, 63], 23, ["█" * 16, "▎", "▌", "▊", "█▎", "█▊", "█" * 15 + "▊"]),
        ([128, 1, 2, 3, 5, 7], 24, ["█" * 16, "▏", "▎", "▍", "▋", "▉"]),
        # A value that is not 0 has an eighth at least, and a negative one a cell.
        ([9999, 1, 0, -1], 26, ["█" * 16, "▏", "", "▒"]),
        ([16, -16, -8, -7, -4], 24, ["█" * 16, "▒" * 16, "▒" * 8, "▒" * 7, "▒" * 4]),
        ([-20, -10, 5], 24, ["▒" * 16, "▒" * 8, "█" * 4]),
        ([0, 0], 23, ["", ""]),
        # 3 is 4.8 of 16 cells, or 38.4 eighths.
        ([10, 3], 23, ["█" * 16, "█" * 4 + "▊"]),
        # Not less than 10 cells, however narrow the terminal is.
        ([10, 5], 3, ["█" * 10, "█" * 5]),
    ],
)
def test_bars(values: List[int], width: int, bars: List[str]) -> None:
    """The greatest magnitude fills what is left beside names and numbers, in eighths of a cell."""
    chart = by_name([(chr(97 + place), value) for place, value in enumerate(values)])
    wide = max(len(f"{value:,}") for value in values)
    lines = chart_lines(chart, width)
    assert lines[0] == "sum(qty)"
    rows = [
        f"{chr(97 + place)}  {value:>{wide},}  {bar}".rstrip()
        for place, (value, bar) in enumerate(zip(values, bars))
    ]
    assert lines[1:] == rows


def test_width() -> None:
    """Lines are as wide as the terminal and no wider, and long names are cut to 30 characters."""
    pairs: Pairs = [("x" * 50, 123456), ("y", -7)]
    lines = chart_lines(by_name(pairs), 100)
    assert lines[1] == "x" * 30 + "  123,456  " + "█" * 59
    assert lines[2] == "y" + " " * 29 + "       -7  ▒"
    for width in (22, 24, 40, 80, 200):
        assert max(map(len, chart_lines(by_name(pairs), width))) == width
    assert chart_lines(by_name(pairs), 24)[1] == "xxx  123,456  " + "█" * 10
    assert chart_lines(by_name(pairs), 1)[1] == "x  123,456  " + "█" * 10


def test_width_of_the_terminal(monkeypatch: pytest.MonkeyPatch) -> None:
    """The width is that of the terminal where none is given."""
    monkeypatch.setenv("COLUMNS", "30")
    assert chart_lines(by_name([("a", 1)]))[1] == "a  1  " + "█" * 24


@pytest.mark.parametrize(
    "count, more",
    [(39, None), (40, None), (41, "(1 more row)"), (1240, "(1,200 more rows)")],
)
def test_many_rows(count: int, more: "str | None") -> None:
    """There are 40 bars, and a line that counts the rows without one."""
    pairs = [(f"p{place}", 10_000 - place) for place in range(count)]
    lines = chart_lines(by_name(pairs), 80)
    assert lines[1].startswith("p0 ")
    shown = [line.split()[0] for line in lines[1:41]]
    assert shown == [key for key, _ in pairs[:40]]
    assert lines[41:] == ([more] if more else [])


def test_scale_of_many_rows() -> None:
    """The rows that are not shown do not count for the lengths."""
    pairs = [(f"p{place:02}", 10) for place in range(40)] + [("far", -1000)]
    assert chart_lines(by_name(pairs), 40)[1] == "p00  10  " + "█" * 31


def test_decimals() -> None:
    """Amounts have all their digits, also the smallest ones."""
    pairs: Pairs = [
        ("a", Decimal("1234567.50")),
        ("b", Decimal("0.00000000")),
        ("c", Decimal("0.00000012")),
        ("d", Decimal("-1234567.50")),
    ]
    assert chart_lines(by_name(pairs), 38) == [
        "sum(qty)",
        "a   1,234,567.50  " + "█" * 20,
        "b     0.00000000",
        "c     0.00000012  ▏",
        "d  -1,234,567.50  " + "▒" * 20,
    ]
    great = Decimal(f"{2**127 - 1}E-2")
    line = chart_lines(by_name([("a", great)]), 90)[1]
    assert line.split()[1] == "1,701,411,834,604,692,317,316,873,037,158,841,057.27"
    least = chart_lines(ordered([(str(n), Decimal(n).scaleb(-8)) for n in range(30)]), 80)[0]
    assert least == "sum(qty): least 0.00000000, greatest 0.00000029"


def test_great_numbers() -> None:
    """Numbers of 39 digits have their bars too."""
    most = 2**127 - 1
    lines = chart_lines(by_name([("a", most), ("b", -most), ("c", most // 2)]), 120)
    room = 120 - 1 - 4 - len(f"{-most:,}")
    assert [line.split()[2] for line in lines[1:]] == ["█" * room, "▒" * room, bar_of(room * 4)]
    halves = [(str(n), most if n < 15 else -most) for n in range(30)]
    assert chart_lines(ordered(halves), 80)[1] == "█" * 15 + "▁" * 15


def bar_of(eighths: int) -> str:
    """A bar by its length."""
    return "█" * (eighths // 8) + " ▏▎▍▌▋▊▉"[eighths % 8].strip()


# ---- lines


def test_line() -> None:
    """From 25 rows on ordered rows are a line, each value a block of the eight."""
    values = [0, 10, 20, 30, 40, 50, 60, 70] * 3
    pairs = [(str(1990 + place), value) for place, value in enumerate(values)]
    assert chart_lines(ordered(pairs), 80)[1].startswith("1990   0")
    pairs.append(("2014", 35))
    assert chart_lines(ordered(pairs), 80) == [
        "sum(qty): least 0, greatest 70",
        "▁▂▃▄▅▆▇█" * 3 + "▅",
        "1990" + " " * 17 + "2014",
    ]
    assert chart_lines(by_name(pairs), 80)[1].startswith("1990   0")


def test_blocks_of_a_line() -> None:
    """A value stands for the nearest of the eight blocks."""
    values = [-7, 7, 0, 1, -1, *([-7] * 20)]  # 0 is 3.5 of 7, 1 is 4.0, and -1 is 3.0
    pairs = [(str(place), value) for place, value in enumerate(values)]
    assert chart_lines(ordered(pairs), 80)[1] == "▁█▅▅▄" + "▁" * 20
    equal = [(str(place), -3) for place in range(25)]
    assert chart_lines(ordered(equal), 80)[:2] == ["sum(qty): least -3, greatest -3", "▁" * 25]


def test_narrow_line() -> None:
    """If there are more values than cells, each shows the mean of some, and none is left out."""
    pairs = [(f"{place:02}", 7 * (place // 10)) for place in range(80)]
    lines = chart_lines(ordered(pairs), 8)
    assert lines[1:] == ["▁▂▃▄▅▆▇█", "00    79"]
    # 25 values in 10 cells: parts of 2 and 3, the last one 22 to 24. Means 0 but for the last one.
    values = [*([0] * 24), 21]
    lines = chart_lines(ordered([(str(place), value) for place, value in enumerate(values)]), 10)
    assert lines == ["sum(qty): least 0, greatest 21", "▁" * 9 + "█", "0       24"]
    assert chart_lines(ordered(pairs), 3)[2] == "00 79"


# ---- charts of answers


def shown_rows(answer: Answer, is_sorted: bool = False) -> List[Tuple[str, "int | Decimal"]]:
    """The rows of the chart of an answer."""
    series = chart_of(answer, [1], is_sorted).series[0]
    return list(zip(series.keys, series.values))


RECORDS = [("b", "5"), ("c", "-9"), ("a", "7"), ("d", "5")]


def test_order_of_names() -> None:
    """The greatest values come first, equal ones as they stand; sorted rows stay as they are."""
    assert shown_rows(answer_of(RECORDS)) == [("a", 7), ("b", 5), ("d", 5), ("c", -9)]
    assert shown_rows(answer_of(RECORDS), True) == [("b", 5), ("c", -9), ("a", 7), ("d", 5)]
    answer = answer_of(RECORDS)
    assert shown_rows(Top(answer, 2), True) == [("b", 5), ("c", -9)]
    assert answer == [("b", 5), ("c", -9), ("a", 7), ("d", 5)]


@pytest.mark.parametrize(
    "kind, keys, shown, time",
    [
        ("whole", ["7", "12", "100"], ["7", "12", "100"], ""),
        ("day", ["0", "20250314", "20250401"], ["0", "2025-03-14", "2025-04-01"], "%Y-%m-%d"),
        ("month", ["0", "202503", "202504"], ["0", "2025-03", "2025-04"], "%Y-%m"),
    ],
)
def test_order_of_keys(kind: str, keys: List[str], shown: List[str], time: str) -> None:
    """Rows of one number, day or month are in its order, unless the user has sorted them."""
    answer = answer_of(list(zip(keys, ["5", "9", "7"])), kind)
    chart = chart_of(answer, [1], False)
    assert (chart.is_ordered, chart.time) == (True, time)
    assert chart.series == [Series("sum(qty)", shown, [5, 9, 7])]
    assert chart_of(answer, [1], True).is_ordered
    answer.reverse()
    chart = chart_of(answer, [1], True)
    assert (chart.is_ordered, chart.time) == (False, "")
    assert chart.series[0].keys == shown[::-1]


def test_sorted_rows_are_no_line() -> None:
    """A line shows rows in the order of their key; others are bars as they stand."""
    records = [(str(2000 + place), str(place % 7)) for place in range(30)]
    answer = answer_of(records, "whole")
    assert len(chart_lines(chart_of(answer, [1], False), 80)) == 3
    answer.sort(key=lambda row: row[1], reverse=True)
    lines = chart_lines(chart_of(answer, [1], True), 80)
    assert len(lines) == 31
    assert [line.split()[0] for line in lines[1:4]] == ["2006", "2013", "2020"]


def test_names() -> None:
    """Names stand on one line, several groups side by side, and a total is called so."""
    records = [('a\n"b"\t', "1", "3"), ("", "2", "2"), ("\udcff\x1b[31m", "3", "1")]
    answer = Answer(("part", "year", "sum(qty)"), (False, True, True), records)
    chart = chart_of(answer, [2], False)
    assert chart.series[0].keys == ['a\\n"b"\\t 1', "(empty) 2", "\\udcff\\x1b[31m 3"]
    pairs = [("1990", "a", "1"), ("1991", "a", "2")]
    chart = chart_of(Answer(("year", "part", "sum(qty)"), (True, False, True), pairs), [2], False)
    assert (chart.is_ordered, chart.series[0].keys) == (False, ["1991 a", "1990 a"])
    total = chart_of(Answer(("count", "sum(qty)"), (True, True), [("3", "9")]), [0, 1], False)
    assert chart_lines(total, 24)[:2] == ["count", "all  3  " + "█" * 16]
    assert chart_lines(total, 24)[2:] == ["", "sum(qty)", "all  9  " + "█" * 16]


def test_empty_answers_and_cells() -> None:
    """An answer without rows has the names of its columns, and a cell that is empty no bar."""
    assert chart_lines(chart_of(answer_of([]), [1], False), 80) == ["sum(qty)"]
    assert chart_lines(chart_of(answer_of([], "whole"), [1], False), 80) == ["sum(qty)"]
    assert chart_lines(chart_of(Answer(("a",), (False,), [("x",)]), [], False), 80) == []
    answer = answer_of([("a", "150"), ("b", ""), ("c", "300")], places=2)
    assert shown_rows(answer) == [("c", Decimal("3.00")), ("a", Decimal("1.50"))]


# ---- ask --plot


@pytest.fixture(name="folder")
def folder_of(tmp_path: Path, monkeypatch: pytest.MonkeyPatch) -> Path:
    """A folder `w` with facts of parts and years, in the current folder."""
    monkeypatch.chdir(tmp_path)
    (tmp_path / "w").mkdir()
    rows = "".join(f"{part},{year},{year - 1990}\n" for part in "ab" for year in range(1990, 2020))
    schema = (
        "schema\nattr part text\nattr year number\nmeasure qty\nview part,year\nview year\nend\n"
    )
    rows += "c,1990,-8\n"
    run(program(), given=f"{schema}load\n{rows}end\n".encode(), cwd="w")
    return tmp_path


def test_plot(folder: Path) -> None:
    """`--plot` prints a chart within COLUMNS; the sums of the parts are 435, and -8."""
    narrow = dict(os.environ, COLUMNS="29")
    words = ["--folder", "w", "--plot"]
    bars = ask(*words, "sum(qty) by part", env=narrow)[0]
    assert bars == f"sum(qty)\na  435  {'█' * 21}\nb  435  {'█' * 21}\nc   -8  ▒\n"
    bars = ask(*words, "--sort", "part desc", "sum(qty) by part", env=narrow)[0]
    assert [line[0] for line in bars.splitlines()] == ["s", "c", "b", "a"]
    bars = ask(*words, "--top", "1", "avg(qty) by part", env=narrow)[0]
    assert bars == f"avg(qty)\na  14.5000  {'█' * 17}\n"
    # 30 years, each of 2 or 3 facts: 2 is 0 of 7, and 3 is 7.
    line = ask(*words, "count by year", env=narrow)[0].splitlines()
    assert line == ["count: least 2, greatest 3", "█" + "▁" * 28, "1990" + " " * 21 + "2019"]
    top = ask(*words, "--top", "26", "sum(qty) by year", env=narrow)[0].splitlines()
    assert [row.split()[:2] for row in top[1:3]] == [["2019", "58"], ["2018", "56"]]
    assert len(top) == 27
    assert ask(*words, "count where part=none")[0] == "count\n"


def test_words(folder: Path) -> None:
    """Charts go without other forms, and a picture is for one question."""
    for words in (["--plot", "--csv"], ["--picture", "x.png", "--json"], ["--plot", "--explain"]):
        said = ask("--folder", "w", *words, "count", status=2)[1]
        assert "--plot and --picture go without --csv, --json, --markdown and --explain" in said
    said = ask("--folder", "w", "--picture", "x.png", status=2)[1]
    assert said == "usage: " + said[7:] and "--picture is for one question" in said
    said = ask("--folder", "w", "--picture", "x.pdf", "count", status=1)[1]
    assert said == "cube ask: x.pdf: a picture is a file .png or .svg\n"
    assert os.listdir() == ["w"]


# ---- pictures


def texts_of(path: str) -> List[str]:
    """The texts of an svg file, which has to be well-formed."""
    tree = xml.etree.ElementTree.parse(path)
    found = tree.iter("{http://www.w3.org/2000/svg}text")
    return ["".join(each.itertext()).strip() for each in found]


@needs_gnuplot
def test_pictures(folder: Path) -> None:
    """A picture is of the kind that its name says, and nothing is left beside it."""
    words = ["--folder", "w", "--picture"]
    assert ask(*words, "a.png", "sum(qty) by part") == ("", "")
    assert Path("a.png").read_bytes().startswith(b"\x89PNG\r\n\x1a\n")
    assert ask(*words, "a.SVG", "--plot", "sum(qty) by part")[0].startswith("sum(qty)\na  435  █")
    texts = texts_of("a.SVG")
    assert {"a", "b", "c", "sum(qty)", "sum(qty) by part"} <= set(texts)
    assert ask(*words, "years.svg", "sum(qty),count by year") == ("", "")
    assert {"sum(qty)", "count", "sum(qty),count by year", "1990"} <= set(texts_of("years.svg"))
    os.mkdir('a"b`c\\ d')
    assert ask(*words, 'a"b`c\\ d/x.svg', "count") == ("", "")
    assert "count" in texts_of('a"b`c\\ d/x.svg')
    assert sorted(os.listdir()) == ['a"b`c\\ d', "a.SVG", "a.png", "w", "years.svg"]
    said = ask(*words, "a.png", "count where part=none", status=1)[1]
    assert said == "cube ask: the answer has no rows to draw\n"


def heights(chart: Chart) -> List[float]:
    """The heights of the bars of a chart, in order, without that of the legend."""
    draw(chart, "bars.svg", "t")
    boxes = re.findall(r"<polygon [^>]*points = '([^']*)'", Path("bars.svg").read_text())
    sides = [[float(point.split(",")[1]) for point in box.split()] for box in boxes]
    return [max(side) - min(side) for side in sides][1:]


@needs_gnuplot
@pytest.mark.parametrize("values", [[100, 50, -25], [104, 52, 26], [-100, -50, -25], [7, 0, 0]])
def test_bars_of_a_picture(
    tmp_path: Path, monkeypatch: pytest.MonkeyPatch, values: List[int]
) -> None:
    """Bars begin at 0, also where all are far from it, and negative ones are there."""
    monkeypatch.chdir(tmp_path)
    pairs = [(chr(97 + place), value) for place, value in enumerate(values)]
    found = [height for height in heights(by_name(pairs)) if height > 1]
    wanted = [abs(value) / abs(values[0]) for value in values if value]
    assert [height / found[0] for height in found] == pytest.approx(wanted, abs=0.01)


@needs_gnuplot
def test_many_bars_of_a_picture(tmp_path: Path, monkeypatch: pytest.MonkeyPatch) -> None:
    """There are 40 bars, as in a terminal; ordered rows are all drawn."""
    monkeypatch.chdir(tmp_path)
    pairs = [(str(1000 + place), 1000 - place) for place in range(50)]
    assert len(heights(by_name(pairs))) == 40
    texts = texts_of("bars.svg")
    assert "1039" in texts and "1040" not in texts
    draw(ordered(pairs), "line.svg", "t")
    assert {"1040", "1050"} & set(texts_of("line.svg"))


@needs_gnuplot
def test_cells_without_a_date(tmp_path: Path, monkeypatch: pytest.MonkeyPatch) -> None:
    """Days and months stand at their time, and what has none is left out."""
    monkeypatch.chdir(tmp_path)
    for kind, time in (("day", "%Y-%m-%d"), ("month", "%Y-%m")):
        days = [date(2025, 1, 1) + timedelta(31 * place) for place in range(4)]
        keys = [f"{day:%Y%m%d}"[: 8 if kind == "day" else 6] for day in days]
        records = [("0", "99"), *((key, "7") for key in keys)]
        chart = chart_of(answer_of(records, kind), [1], False)
        assert (chart.time, len(chart.series[0].keys)) == (time, 5)
        draw(chart, "times.svg", "t")
        texts = texts_of("times.svg")
        assert any(text.startswith("2025-0") for text in texts)
        assert not {"99", "100", "0", "500", "2000"} & set(texts)
        with pytest.raises(Fault, match="the answer has no rows to draw"):
            draw(chart_of(answer_of([("0", "99")], kind), [1], False), "times.svg", "t")


@needs_gnuplot
def test_columns_without_values(tmp_path: Path, monkeypatch: pytest.MonkeyPatch) -> None:
    """A column whose cells are all empty is left out."""
    monkeypatch.chdir(tmp_path)
    empty, full = Series("empty", [], []), Series("full", ["1", "2"], [5, 6])
    for is_ordered in (True, False):
        draw(Chart([empty, full], is_ordered), "x.svg", "t")
        assert "full" in texts_of("x.svg") and "empty" not in texts_of("x.svg")
    with pytest.raises(Fault, match="no rows to draw"):
        draw(Chart([empty], True), "x.svg", "t")


HOSTILE = {
    '"; system("touch ../hit"); "': "'; system('touch ../hit'); '",
    "`touch ../hit`": "'touch ../hit'",
    "$(touch ../hit)": "$(touch ../hit)",
    '\\"; !touch ../hit': "\\'; !touch ../hit",
    "a\n!touch ../hit\nb": "a\\n!touch ../hit\\nb",
    "END_OF_ROWS": "END_OF_ROWS",
    "\\": "\\",
    "@GNUTERM @x": "@GNUTERM @x",
    "{/Bold %s} ^_<&>": "{/Bold %s} ^_<&>",
    "\x01\x1b\r\x7f\udcff": "\\x01\\x1b\\r\\x7f\\udcff",
}


@needs_gnuplot
@pytest.mark.parametrize("kind", ["svg", "png"])
def test_hostile_names(tmp_path: Path, monkeypatch: pytest.MonkeyPatch, kind: str) -> None:
    """Nothing in a name, a title or a column is a command."""
    monkeypatch.chdir(tmp_path)
    path, texts = f"p.{kind}", [*HOSTILE.values()]
    chart = chart_of(answer_of([(name, "1") for name in HOSTILE]), [1], False)
    for name, text in HOSTILE.items():
        named = chart._replace(series=[chart.series[0]._replace(name=name)])
        for each, title, wanted in ((chart, name, [text, "sum(qty)"]), (named, "t", [text, "t"])):
            draw(each, path, title)
            assert os.listdir() == [path]
            if kind == "svg":
                found = texts_of(path)
                assert sorted(item for item in found if item in texts) == sorted([*texts, text])
                assert set(wanted) <= set(found)


@needs_gnuplot
def test_long_names_of_a_picture(tmp_path: Path, monkeypatch: pytest.MonkeyPatch) -> None:
    """Names are cut to 30 characters, as in a terminal, so that they leave room for the bars."""
    monkeypatch.chdir(tmp_path)
    found = heights(by_name([("x" * 255, 9), ("y" * 30, 9), ("z", 3)]))
    assert {"x" * 30, "y" * 30, "z"} <= set(texts_of("bars.svg"))
    assert found[0] > 100 and found[2] == pytest.approx(found[0] / 3, rel=0.02)


@needs_gnuplot
def test_hostile_question(folder: Path) -> None:
    """The title is the question, whatever bytes it has."""
    part = '"`touch ../hit`""; system(""touch ../hit"")\\\x07\udcff"'
    rows = f"load\n{part},1990,1\nend\n".encode("utf-8", "surrogateescape")
    run(program(), given=rows, cwd="w")
    assert ask("--folder", "w", "--picture", "p.svg", f"count where part={part}") == ("", "")
    title = r"count where part=''touch ../hit'''; system(''touch ../hit'')\\x07\udcff'"
    assert title in texts_of("p.svg")
    assert sorted(os.listdir()) == ["p.svg", "w"]


@needs_gnuplot
def test_folders_that_take_no_picture(folder: Path) -> None:
    """The fault names the place, and nothing is left behind."""
    words = ["--folder", "w", "--picture"]
    os.mkdir("there.png")
    Path("file").touch()
    for path, named in [
        ("nowhere/x.png", "nowhere/"),
        ("file/x.png", "file/"),
        ("there.png", "there.png"),
        ("/proc/x.png", "/proc/"),
    ]:
        said = ask(*words, path, "count", status=1)[1]
        assert said.startswith("cube ask: ") and named in said and said.count("\n") == 1
    assert sorted(os.listdir()) == ["file", "there.png", "w"] and not os.listdir("there.png")


def fake(script: str) -> "dict[str, str]":
    """An environment in which gnuplot is this shell script."""
    os.makedirs("fake", exist_ok=True)
    Path("fake/gnuplot").write_text(f"#!/bin/sh\n{script}\n")
    os.chmod("fake/gnuplot", 0o755)
    return dict(os.environ, PATH=f"{os.path.abspath('fake')}:{os.environ['PATH']}")


def test_gnuplot_that_fails(folder: Path) -> None:
    """An old picture stays as it was, and what gnuplot said last is said."""
    Path("x.png").write_bytes(b"old")
    words = ["--folder", "w", "--picture", "x.png", "count"]
    for script, said in [
        ("cat > /dev/null; echo half > picture; echo one >&2; echo two >&2; exit 1", "two"),
        ("exit 7", "7"),
        ("kill -9 $$", "-9"),
    ]:
        assert ask(*words, status=1, env=fake(script))[1] == f"cube ask: gnuplot failed: {said}\n"
        assert Path("x.png").read_bytes() == b"old"
    said = ask(*words, status=1, env=fake("cat > /dev/null"))[1]
    assert said.startswith("cube ask: ") and said.count("\n") == 1
    assert Path("x.png").read_bytes() == b"old"
    assert ask(*words, env=fake("cat > picture")) == ("", "")
    assert b"$rows0 << END_OF_ROWS" in Path("x.png").read_bytes()
    assert sorted(os.listdir()) == ["fake", "w", "x.png"]


def test_without_gnuplot(folder: Path) -> None:
    """The fault names the package to install; --plot needs none."""
    os.mkdir("bin")
    python = shutil.which("python3")
    assert python
    os.symlink(python, "bin/python3")
    alone = dict(os.environ, PATH=os.path.abspath("bin"), CUBETREE=program())
    words = ["--folder", "w", "--picture", "x.png", "count"]
    said = ask(*words, status=1, env=alone)[1]
    assert said == "cube ask: a picture needs gnuplot: apt install gnuplot-nox\n"
    assert not os.path.exists("x.png")
    assert ask("--folder", "w", "--plot", "count", env=alone)[0].startswith("count\nall  61  █")
