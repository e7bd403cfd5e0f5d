"""Two warehouses for drawn queries, each with a base of sqlite3 that has the same raw facts.

One has whole numbers alone. The other is loaded from a csv file, with amounts, days and months.
Amounts are quarters, so that no sum of them is rounded, in whatever order it is taken.
"""
from __future__ import annotations

import csv
import datetime
import random
import sqlite3
from pathlib import Path
from typing import Any, Callable, Dict, List, NamedTuple, Sequence, Tuple

import cubetree
from tests.helpers import load

Row = Tuple[Any, ...]
PARTS = ["bolt", "nut", "it's", "Ä", "", 'a "b"', "%_", "Bolt"]
AREAS = ["N", "S", "n", "", "Süd"]
YEARS = [1995, 1996, 1997, 1998, 2001]
DAYS = [
    datetime.date(year, month, day)
    for year, month, day in (
        (2024, 2, 29),
        (2024, 12, 31),
        (2025, 1, 1),
        (2025, 3, 14),
        (2025, 3, 31),
        (2026, 1, 28),
    )
]
MONTHS = ["2024-12", "2025-01", "2025-03", "2026-01"]
TYPES = {"text": "TEXT", "day": "TEXT", "month": "TEXT", "amount": "REAL"}
OF_MEASURES = ("sum", "min", "max")


class Shape(NamedTuple):
    """What drawn queries may name: the attributes and the measures with the kinds of their values,
    the attributes of each view, and values of each attribute, as sqlite3 has them."""

    attributes: Dict[str, str]
    measures: Dict[str, str]
    views: Tuple[Tuple[str, ...], ...]
    values: Dict[str, Sequence[Any]]

    def kinds(self) -> Dict[str, str]:
        """The kinds of the columns of facts."""
        return {**self.attributes, **self.measures}

    def columns_of(self, view: Sequence[str]) -> Dict[str, str]:
        """The columns of the table of a view, with their kinds."""
        found = {name: self.attributes[name] for name in view}
        found["count"] = "whole"
        for measure, kind in self.measures.items():
            found.update({f"{word}_{measure}": kind for word in OF_MEASURES})
        return found

    def tables(self) -> Dict[str, Tuple[str, ...]]:
        """The views by the names of their tables."""
        return {"by_" + "_".join(view) if view else "total": view for view in self.views}

    def is_covered(self, names: Sequence[str]) -> bool:
        """Whether a view has all of these attributes."""
        return any({*names} <= {*view} for view in self.views)


PLAIN = Shape(
    {"part": "text", "area": "text", "year": "whole", "day": "number of a day"},
    {"qty": "whole", "fee": "whole"},
    (("part", "area", "year"), ("part", "day"), ("year", "day"), ("area",), ("year",), ()),
    {
        "part": PARTS,
        "area": AREAS,
        "year": YEARS,
        "day": [int(f"{day:%Y%m%d}") for day in DAYS],
    },
)
CONVERTED = Shape(
    {"part": "text", "area": "text", "year": "whole", "day": "day", "period": "month"},
    {"qty": "whole", "fee": "amount"},
    (("part", "area", "year"), ("year", "day"), ("period", "part"), ("part", "day"), ("area",), ()),
    {
        "part": PARTS,
        "area": AREAS,
        "year": YEARS,
        "day": [day.isoformat() for day in DAYS],
        "period": MONTHS,
    },
)


class Pair(NamedTuple):
    """A connection to a warehouse, a base of sqlite3 with the same facts, and their shape."""

    shape: Shape
    connection: cubetree.Connection
    base: sqlite3.Connection

    def close(self) -> None:
        """Ends both."""
        self.connection.close()
        self.base.close()


# ---- facts


def drawn_rows(shape: Shape, draw: random.Random, count: int) -> List[Row]:
    """Facts as sqlite3 has them."""
    return [
        (
            *(draw.choice(shape.values[name]) for name in shape.attributes),
            draw.randrange(-9, 30),
            draw.randrange(-40, 90) / 4 if shape.measures["fee"] == "amount" else draw.randrange(6),
        )
        for _ in range(count)
    ]


def base_of(shape: Shape, rows: Sequence[Row]) -> sqlite3.Connection:
    """A base of sqlite3 with the facts, and with a table for each view."""
    base = sqlite3.connect(":memory:")
    base.execute(f"CREATE TABLE facts ({declared(shape.kinds())})")
    base.executemany(f"INSERT INTO facts VALUES ({marks(len(shape.kinds()))})", rows)
    for name, view in shape.tables().items():
        add_view(base, shape, name, view)
    for function in ("date", "strftime"):
        base.create_function(function, -1, of_days(function), deterministic=True)
    return base


def add_view(base: sqlite3.Connection, shape: Shape, name: str, view: Sequence[str]) -> None:
    """Adds the table of a view."""
    base.execute(f"CREATE TABLE {name} ({declared(shape.columns_of(view))})")
    asked = [f"{word}({each})" for each in shape.measures for word in OF_MEASURES]
    items = ", ".join([*view, "COUNT(*)", *asked])
    group = f" GROUP BY {', '.join(view)}" if view else ""
    base.execute(f"INSERT INTO {name} SELECT {items} FROM facts{group}")


def declared(kinds: Dict[str, str]) -> str:
    """The declaration of columns."""
    return ", ".join(f'"{name}" {TYPES.get(kind, "INTEGER")}' for name, kind in kinds.items())


def marks(count: int) -> str:
    """Question marks."""
    return ", ".join("?" * count)


def of_days(function: str) -> Callable[..., Any]:
    """A function of dates of sqlite3 that takes a day as a number too, such as 20250314."""
    own = sqlite3.connect(":memory:", check_same_thread=False)

    def called(*values: Any) -> Any:
        """What sqlite3 itself gives for the day as a text."""
        return own.execute(f"SELECT {function}({marks(len(values))})", shown(values)).fetchone()[0]

    return called


def shown(values: Sequence[Any]) -> List[Any]:
    """The same values, a day that is a number as a text."""
    return [
        f"{each // 10_000}-{each // 100 % 100:02}-{each % 100:02}" if is_day(each) else each
        for each in values
    ]


def is_day(value: object) -> bool:
    """Whether a value is the number of a day."""
    return isinstance(value, int) and 10_000_101 <= value <= 99_991_231


def schema_of(shape: Shape) -> str:
    """The declaration of a warehouse of this shape."""
    lines = [
        f"attr {name} {'text' if kind == 'text' else 'number'}"
        for name, kind in shape.attributes.items()
    ]
    lines += [f"measure {name}" for name in shape.measures]
    lines += [("view " + ",".join(view)).strip() for view in shape.views]
    return "".join(line + "\n" for line in lines)


def plain_pair(folder: Path, seed: int, count: int = 300) -> Pair:
    """A warehouse of whole numbers, which Python loads."""
    rows = drawn_rows(PLAIN, random.Random(seed), count)
    (folder / "plain").mkdir()
    with cubetree.open(folder / "plain") as warehouse:
        warehouse.declare(schema_of(PLAIN))
        warehouse.load(rows)
    return Pair(PLAIN, cubetree.connect(folder / "plain"), base_of(PLAIN, rows))


def converted_pair(folder: Path, seed: int, count: int = 300) -> Pair:
    """A warehouse of amounts and dates, which is loaded from a csv file."""
    rows = drawn_rows(CONVERTED, random.Random(seed), count)
    (folder / "converted").mkdir()
    (folder / "schema").write_text(schema_of(CONVERTED))
    with open(folder / "facts.csv", "w", encoding="utf-8", newline="") as file:
        csv.writer(file).writerows([[*CONVERTED.kinds()], *rows])
    words = ["--schema", str(folder / "schema"), "--folder", str(folder / "converted"), "--yes"]
    words += ["--dates", "day,period", "--cents", "fee"]
    load(*words, str(folder / "facts.csv"))
    return Pair(CONVERTED, cubetree.connect(folder / "converted"), base_of(CONVERTED, rows))
