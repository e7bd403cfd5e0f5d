"""Charts of an answer: bars and lines in a terminal, and pictures by gnuplot.

Rows of one number, day or month are in its order: a line if there are many of them, otherwise a bar
each. Other rows have a bar each, the greatest values first.
"""
from __future__ import annotations

import os
import re
import shutil
import subprocess
import tempfile
from decimal import Decimal
from math import isfinite
from typing import List, NamedTuple, Sequence, Tuple, Union

from .codec import Answer
from .errors import Fault
from .output import cell_of
from .sorting import comparable
from .ui import counted, shown
from .values import Value

EIGHTHS, SHADE, SPARKS = " ▏▎▍▌▋▊▉", "▒", "▁▂▃▄▅▆▇█"
MOST_BARS, LINE_FROM = 40, 25  # rows
WIDEST_NAME, LEAST_ROOM = 30, 10  # characters of a name, and cells of the longest bar
GNUPLOT, PICTURE = "gnuplot", "picture"
TIMES = {"day": "%Y-%m-%d", "month": "%Y-%m"}  # of the kinds of columns, for gnuplot
DATE = re.compile(r"[0-9]{4}-[0-9]{2}(?:-[0-9]{2})?")
Number = Union[int, Decimal]


class Series(NamedTuple):
    """A column of values: its name, the keys of its rows, and their values."""

    name: str
    keys: List[str]
    values: List[Number]


class Chart(NamedTuple):
    """The columns of an answer that are shown, whether its rows are in the order of their key, and
    how gnuplot reads that key as a time."""

    series: List[Series]
    is_ordered: bool
    time: str = ""


def chart_of(answer: Answer, places: Sequence[int], is_sorted: bool) -> Chart:
    """The chart of an answer whose values stand in the columns of these places. Rows that the user
    has sorted stay as they are."""
    groups = [place for place in range(len(answer.columns)) if place not in places]
    kind = answer.kinds[groups[0]] if len(groups) == 1 else None
    time = TIMES.get(kind.name, "") if kind else ""
    is_ordered = (
        len(groups) == 1
        and (bool(time) or answer.numeric[groups[0]])
        and is_ascending([row[groups[0]] for row in answer])
    )
    found = []
    for place in places:
        rows = [row for row in answer if is_number(row[place])]
        if not is_ordered and not is_sorted:
            rows.sort(key=lambda row: number(row[place]), reverse=True)
        keys = [" ".join(shown(cell_of(row[each])) or "(empty)" for each in groups) for row in rows]
        found.append(Series(answer.columns[place], keys, [number(row[place]) for row in rows]))
    return Chart(found, is_ordered, time if is_ordered else "")


def is_ascending(keys: Sequence[Value]) -> bool:
    """Whether keys are in order; they are not if the user has sorted the rows by something else."""
    sizes = [comparable(key) for key in keys]
    return sizes == sorted(sizes)


def is_number(value: object) -> bool:
    """Whether a value can be shown."""
    return isinstance(value, (int, Decimal)) or isinstance(value, float) and isfinite(value)


def number(value: object) -> Number:
    """A value that is a number; a mean of a query is a float."""
    if isinstance(value, float):
        return Decimal(repr(value))
    assert isinstance(value, (int, Decimal))
    return value


# ---- in a terminal


def chart_lines(chart: Chart, width: int = 0) -> List[str]:
    """The lines of a chart, within the width of the terminal."""
    width = width or shutil.get_terminal_size((80, 24)).columns
    lines: List[str] = []
    for series in chart.series:
        is_line = chart.is_ordered and len(series.keys) >= LINE_FROM
        lines += ["", *(line(series, width) if is_line else bars(series, width))]
    return lines[1:]


def bars(series: Series, width: int) -> List[str]:
    """A bar for each of the first rows."""
    names = [name or "all" for name in series.keys[:MOST_BARS]]
    values = series.values[:MOST_BARS]
    digits = [digits_of(value) for value in values]
    column = max(map(len, digits), default=0)
    widest = max(1, min(WIDEST_NAME, width - column - 4 - LEAST_ROOM))
    wide = min(widest, max(map(len, names), default=0))
    room = max(LEAST_ROOM, width - wide - column - 4)
    most = greatest(values) or 1
    left = len(series.keys) - len(names)
    return [
        series.name,
        *(
            f"{name[:wide]:<{wide}}  {text:>{column}}  {bar(value, most, room)}".rstrip()
            for name, text, value in zip(names, digits, values)
        ),
        *([f"({counted(left, 'more row')})"] if left else []),
    ]


def digits_of(value: Number) -> str:
    """A value with all its digits, and commas between thousands."""
    return f"{value:,f}" if isinstance(value, Decimal) else f"{value:,}"


def greatest(values: Sequence[Number]) -> Number:
    """The greatest magnitude of some values; 0 if there are none."""
    return max(max(values, default=0), -min(values, default=0))


def bar(value: Number, most: Number, room: int) -> str:
    """A bar in eighths of a cell, one at least unless the value is 0; shaded if it is negative."""
    eighths = round(Decimal(max(value, -value)) * room * 8 / Decimal(most))
    if value < 0:
        return SHADE * max(1, eighths // 8)
    eighths = max(1, eighths) if value else 0
    return "█" * (eighths // 8) + (EIGHTHS[eighths % 8] if eighths % 8 else "")


def line(series: Series, width: int) -> List[str]:
    """A line of blocks. If there are more values than cells, each shows the mean of some."""
    count = len(series.values)
    cells = min(width, count)
    parts = [series.values[count * at // cells : count * (at + 1) // cells] for at in range(cells)]
    means = [Decimal(sum(part)) / len(part) for part in parts]
    low, high = min(means), max(means)
    blocks = (SPARKS[int((mean - low) * 7 / (high - low or 1) + Decimal("0.5"))] for mean in means)
    first, last = series.keys[0], series.keys[-1]
    least, most = digits_of(min(series.values)), digits_of(max(series.values))
    return [
        f"{series.name}: least {least}, greatest {most}",
        "".join(blocks),
        f"{first}{last.rjust(max(cells - len(first), len(last) + 1))}",
    ]


# ---- pictures


def draw(chart: Chart, path: str, title: str) -> None:
    """Draws a chart into a file, png or svg by its name."""
    kind = os.path.splitext(path)[1].lower().lstrip(".")
    if kind not in ("png", "svg"):
        raise Fault(f"{path}: a picture is a file .png or .svg")
    if shutil.which(GNUPLOT) is None:
        raise Fault("a picture needs gnuplot: apt install gnuplot-nox")
    if not drawn_series(chart):
        raise Fault("the answer has no rows to draw")
    if os.path.isdir(path):
        raise Fault(f"{path} is a folder")
    folder = os.path.dirname(os.path.abspath(path))
    with tempfile.TemporaryDirectory(prefix=".picture-", dir=folder) as room:
        script = script_of(chart, kind, title).encode()
        done = subprocess.run([GNUPLOT], cwd=room, input=script, capture_output=True, check=False)
        if done.returncode:
            said = done.stderr.decode("utf-8", "replace").strip().splitlines()
            raise Fault(f"gnuplot failed: {said[-1] if said else done.returncode}")
        os.replace(os.path.join(room, PICTURE), path)


def quoted(text: str) -> str:
    """A text for gnuplot, in which nothing is a command."""
    plain = shown(text).replace("\\", "\\\\").replace('"', "'").replace("`", "'")
    return f'"{plain}"'


def drawn_rows(chart: Chart, series: Series) -> List[Tuple[str, Number]]:
    """The rows of a series that are drawn. A cell without a date has no place in a time."""
    rows = list(zip(series.keys, series.values))
    if chart.time:
        return [row for row in rows if DATE.fullmatch(row[0])]
    return rows if chart.is_ordered else rows[:MOST_BARS]


def drawn_series(chart: Chart) -> List[Series]:
    """The columns that are drawn: those that have rows, and only the first of them as bars."""
    found = [series for series in chart.series if drawn_rows(chart, series)]
    return found if chart.is_ordered else found[:1]


def script_of(chart: Chart, kind: str, title: str) -> str:
    """The script of gnuplot for a chart. Rows go to it as data."""
    blocks, plots = [], []
    for place, series in enumerate(drawn_series(chart)):
        data = [
            f"{key if chart.is_ordered else quoted(key[:WIDEST_NAME])} {format(value, 'f')}"
            for key, value in drawn_rows(chart, series)
        ]
        blocks.append(f"$rows{place} << END_OF_ROWS\n" + "\n".join(data) + "\nEND_OF_ROWS")
        plots.append(f"$rows{place} using {columns_of(chart)} title {quoted(series.name)}")
    time = f'set xdata time\nset timefmt "{chart.time}"\nset format x "{chart.time}"\n'
    return (
        f"set terminal {kind} size 900,400\n"
        f"set output {quoted(PICTURE)}\n"
        "set style fill solid 0.8\nset boxwidth 0.8 relative\nset key noenhanced top\n"
        'set xtics noenhanced rotate by -45\nset format y "%.10g"\n'
        f"set title {quoted(title)} noenhanced\n"
        f"{time if chart.time else ''}"
        f"{'' if chart.is_ordered else 'set yrange [*<0:0<*]' + chr(10)}"
        + "\n".join(blocks)
        + f"\nplot {', '.join(plots)}\n"
    )


def columns_of(chart: Chart) -> str:
    """Which columns gnuplot plots, and how."""
    if chart.time or chart.is_ordered:
        return "1:2 with linespoints lw 2 pt 7 ps 0.5"
    return "0:2:xtic(1) with boxes"
