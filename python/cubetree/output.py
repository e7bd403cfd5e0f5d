"""What an answer looks like: an aligned table, csv, or JSON."""
from __future__ import annotations

import json
from decimal import Decimal
from typing import Callable, Optional

from .codec import Answer, line_writer
from .sorting import Top
from .ui import counted, shown
from .values import Value


def cell_of(value: Optional[Value]) -> str:
    """A value as it is shown; an amount has all its decimals, and NULL is empty."""
    if value is None:
        return ""
    return format(value, "f") if isinstance(value, Decimal) else str(value)


def table(answer: Answer) -> list[str]:
    """Texts stand to the left and numbers to the right, and the last line counts the rows."""
    cells = [list(answer.columns)] + [[shown(cell_of(cell)) for cell in row] for row in answer]
    widths = [max(map(len, column)) for column in zip(*cells)]
    lines = [
        [
            cell.rjust(width) if right else cell.ljust(width)
            for cell, width, right in zip(row, widths, answer.numeric)
        ]
        for row in cells
    ]
    lines.insert(1, ["-" * width for width in widths])
    count = counted(len(answer), "row")
    if isinstance(answer, Top):
        count = f"{len(answer):,} of {counted(answer.whole, 'row')}"
    return [*("  ".join(line).rstrip() for line in lines), f"({count})"]


def csv_lines(answer: Answer) -> list[str]:
    """The rows as csv, after a header line."""
    written = line_writer()
    rows = (map(cell_of, row) for row in answer)
    return [written(row)[:-2] for row in [answer.columns, *rows]]


def json_lines(answer: Answer) -> list[str]:
    """An object for each row, in which amounts and dates are texts."""
    objects = (dict(zip(answer.columns, row)) for row in answer)
    return [json.dumps(each, ensure_ascii=False, default=cell_of) for each in objects]


def markdown(answer: Answer) -> list[str]:
    """A table in Markdown."""
    cells = [[shown(cell_of(cell)).replace("|", "\\|") for cell in row] for row in answer]
    marks = ["--:" if right else "---" for right in answer.numeric]
    return [f"| {' | '.join(row)} |" for row in ([*answer.columns], marks, *cells)]


FORMS: dict[str, Callable[[Answer], list[str]]] = {
    "table": table,
    "csv": csv_lines,
    "json": json_lines,
    "markdown": markdown,
}
