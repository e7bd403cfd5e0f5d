"""What SQLite holds of the values of a warehouse, and back.

Whole numbers are integers, amounts are floating-point numbers, days and months are texts such as
2025-03-14 and 2025-03. A value that SQLite would round is an Inexact.
"""
from __future__ import annotations

from datetime import date
from typing import Callable, Optional, Union

from ..errors import Inexact
from ..values import Kind, Value

Stored = Union[str, int, float, None]
MOST_WHOLE = 1 << 63  # in magnitude
MOST_AMOUNT = 10**15  # In units of the last decimal: a double tells decimals of 15 digits apart.


def type_of_column(is_number: bool, kind: Optional[Kind]) -> str:
    """The type with which SQLite declares a column."""
    if not is_number or is_date(kind):
        return "TEXT"
    return "REAL" if kind and kind.name == "decimal" else "INTEGER"


def is_date(kind: Optional[Kind]) -> bool:
    """Whether a column has days or months."""
    return kind is not None and kind.name in ("day", "month")


def storer(is_number: bool, kind: Optional[Kind]) -> Callable[[str], Stored]:
    """What makes the value in SQLite of a cell of the program."""
    if not is_number:
        return str
    if kind is None or kind.name == "whole":
        return stored_whole
    if kind.name != "decimal":
        shown = kind.shown
        return lambda cell: shown(int(cell))
    scale = 10**kind.places
    return lambda cell: stored_amount(cell, scale)


def stored_whole(cell: str) -> int:
    """A whole number of at most 63 bits."""
    number = int(cell)
    if -MOST_WHOLE <= number < MOST_WHOLE:
        return number
    raise Inexact(f"{cell} has more than the 63 bits of a whole number of SQLite")


def stored_amount(cell: str, scale: int) -> float:
    """An amount of which no decimal is lost."""
    number = int(cell)
    if abs(number) < MOST_AMOUNT:
        return number / scale
    raise Inexact(f"an amount of {cell} units has more than the 15 digits of a number of SQLite")


def value_of(stored: Stored, kind: Optional[Kind]) -> Union[Value, float, None]:
    """The value of a column of this kind that SQLite has held."""
    if kind and kind.name == "decimal" and isinstance(stored, float):
        return kind.value(round(stored * 10**kind.places))
    if kind and kind.name == "day" and isinstance(stored, str):
        try:
            return date.fromisoformat(stored)
        except ValueError:  # as the 0 of a cell without a day
            return int(stored)
    return stored
