"""A database of SQLite in memory, over what the program has answered."""
from __future__ import annotations

import datetime
import re
import sqlite3
from contextlib import closing
from typing import Any, Iterable, Iterator, Optional, Sequence, Union

from ..errors import Fault, Inexact, Refused
from .core import Asked, Core
from .printer import EXACT, quoted
from .stored import MOST_AMOUNT, MOST_WHOLE, Stored, storer, type_of_column

ALLOWED = (sqlite3.SQLITE_SELECT, sqlite3.SQLITE_READ, sqlite3.SQLITE_FUNCTION)
DATES = {"date": 0, "time": 0, "datetime": 0, "julianday": 0, "unixepoch": 0, "strftime": 1}
STEPS = 200_000  # of SQLite between two looks at whether the query was stopped
MONTH = re.compile(r"\d{4}-\d{2}", re.ASCII)
DAY = re.compile(r"\d{4}-\d{2}-\d{2}", re.ASCII)
MOST_PLACES = 18
SHORT = 18  # characters of a whole number that surely has at most 63 bits


class Memory:
    """A database in memory, with the functions of queries. What one of them finds wrong is in
    `fault`, since SQLite tells only that it failed."""

    def __init__(self) -> None:
        self.fault: Optional[Fault] = None
        self.database = sqlite3.connect(":memory:", isolation_level=None)
        self.database.text_factory = text_of
        self.database.create_function(EXACT, 1, self.exact, deterministic=True)
        self.database.create_function("day_text", 1, day_text, deterministic=True)
        for place, name in enumerate(("year", "month", "day")):
            self.database.create_function(name, 1, part_of_date(place), deterministic=True)
        for places in range(1, MOST_PLACES + 1):
            self.database.create_aggregate(f"exact_sum{places}", 1, self.summing(places))
        self.database.set_progress_handler(lambda: 0, STEPS)

    def close(self) -> None:
        """Drops the database."""
        self.database.close()

    def fail(self, text: str) -> Fault:
        """Keeps what is wrong, and gives it to be raised."""
        self.fault = Inexact(text)
        return self.fault

    def exact(self, value: Stored) -> Stored:
        """A number, unless it is so great that SQLite may have rounded a whole number."""
        if isinstance(value, float) and abs(value) >= MOST_WHOLE:
            raise self.fail("a number has more than the 63 bits of a whole number of SQLite")
        return value

    def summing(self, places: int) -> type:
        """What sums amounts of so many decimals."""
        memory, scale = self, 10**places

        class Sum:
            """A sum of amounts, in units of the last decimal; no amount gives none."""

            def __init__(self) -> None:
                self.units: Optional[int] = None

            def step(self, value: Stored) -> None:
                """Adds an amount."""
                if isinstance(value, (int, float)):
                    self.units = (self.units or 0) + round(value * scale)

            def finalize(self) -> Optional[float]:
                """The sum."""
                if self.units is not None and abs(self.units) >= MOST_AMOUNT:
                    raise memory.fail("a sum of amounts has more than 53 bits")
                return None if self.units is None else self.units / scale

        return Sum

    def fill(self, core: Core, records: Sequence[Sequence[str]]) -> None:
        """Makes the table of what the program has answered."""
        columns = core.columns()
        types = [
            f"{quoted(name)} {type_of_column(each.is_number, each.kind)}"
            for name, each in columns.items()
        ]
        self.database.execute(f"CREATE TABLE {core.name} ({', '.join(types)})")
        rows = list(stored_rows(list(columns.values()), records))
        marks = ", ".join("?" * len(columns))
        self.database.execute("BEGIN")
        try:
            self.database.executemany(f"INSERT INTO {core.name} VALUES ({marks})", rows)
        except UnicodeEncodeError:
            marks = ", ".join("CAST(? AS TEXT)" if is_text(type_) else "?" for type_ in types)
            coded = ([bytes_of(cell) for cell in row] for row in rows)
            self.database.execute(f"DELETE FROM {core.name}")
            self.database.executemany(f"INSERT INTO {core.name} VALUES ({marks})", coded)
        self.database.execute("COMMIT")

    def seal(self) -> None:
        """Allows nothing but to read from now on."""
        self.database.set_authorizer(
            lambda action, *_: sqlite3.SQLITE_OK if action in ALLOWED else sqlite3.SQLITE_DENY
        )

    def rows(self, text: str) -> list[tuple[Any, ...]]:
        """The rows of a query; a Fault says what is wrong with it."""
        try:
            with closing(self.database.execute(text)) as cursor:
                return cursor.fetchall()
        except (sqlite3.Error, sqlite3.Warning, ValueError, OverflowError) as error:
            if str(error) == "interrupted":  # A signal came while SQLite was at work.
                raise KeyboardInterrupt from error
            raise self.fault or fault_of(str(error)) from error


def stored_rows(
    columns: Sequence[Asked], records: Sequence[Sequence[str]]
) -> Iterator[tuple[Stored, ...]]:
    """Rows of the program as SQLite holds them. A column is taken at once."""
    cells = zip(*records)
    return zip(*(stored_column(column, own) for column, own in zip(columns, cells)))


def stored_column(column: Asked, cells: Sequence[str]) -> Iterable[Stored]:
    """The cells of a column as SQLite holds them."""
    if not column.is_number:
        return cells
    if column.kind is None and max(map(len, cells)) <= SHORT:
        return map(int, cells)
    return map(storer(True, column.kind), cells)


def fault_of(said: str) -> Fault:
    """What SQLite says as a fault."""
    if said == "integer overflow":
        return Inexact("a sum has more than the 63 bits of a whole number of SQLite")
    return Refused("refused sql query", said)


def is_text(column: str) -> bool:
    """Whether the declaration of a column is one of texts."""
    return column.endswith(" TEXT")


def text_of(content: bytes) -> str:
    """A text that perhaps is not UTF-8."""
    return content.decode("utf-8", "surrogateescape")


def bytes_of(cell: Stored) -> Union[Stored, bytes]:
    """The bytes of a text, and other values as they are."""
    return cell.encode("utf-8", "surrogateescape") if isinstance(cell, str) else cell


# ---- dates


def day_text(value: Stored) -> Stored:
    """What SQLite takes as a date: 20250314 and 2025-03 become texts of days."""
    if isinstance(value, str) and MONTH.fullmatch(value):
        return f"{value}-01"
    if isinstance(value, int) and 10_000_000 <= value <= 99_999_999:
        try:
            return datetime.date(value // 10_000, value // 100 % 100, value % 100).isoformat()
        except ValueError:
            return None
    return value


def part_of_date(place: int) -> Any:
    """What gives the year, the month or the day of a date."""

    def part(value: Stored) -> Optional[int]:
        """The number, or None where there is no date."""
        text = day_text(value)
        if not isinstance(text, str) or not DAY.match(text):
            return None
        return int(text.split("-")[place][:2] if place else text[:4])

    return part
