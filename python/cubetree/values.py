"""What the cells of a column mean, and the whole numbers that stand for them in the program.

The program counts in whole numbers. It keeps a decimal of P places times 10^P, so 12.50 as 1250,
the day 2025-03-14 as 20250314 and the month 2025-03 as 202503.
"""
from __future__ import annotations

import datetime
import operator
import re
from dataclasses import dataclass
from decimal import Decimal, InvalidOperation
from typing import Union

DECIMAL = re.compile(r"([+-]?)([0-9]*)(?:[.,]([0-9]*))?", re.ASCII)
EXPONENT = re.compile(r"[+-]?(?:[0-9]+\.?[0-9]*|\.[0-9]+)[eE][+-]?[0-9]{1,3}", re.ASCII)
WHOLE = re.compile(r"[+-]?[0-9]+", re.ASCII)
MONTHS = ("jan", "feb", "mar", "apr", "may", "jun", "jul", "aug", "sep", "oct", "nov", "dec")
TIME = r"(?:[T ]\d{1,2}:\d{2}(?::\d{2}(?:\.\d+)?)?(?: ?[AaPp][Mm])?(?:Z|[+-]\d{2}:?\d{2})?)?"
NUMBERS = r"(\d{1,4})[-/. ](\d{1,2}|[A-Za-z]{3,9})[-/. ](\d{1,4})"
NAMED = r"([A-Za-z]{3,9})\.? (\d{1,2}),? (\d{4})"
PARTED = re.compile(NUMBERS + TIME, re.ASCII)
WORDED = re.compile(NAMED + TIME, re.ASCII)
COMPACT = re.compile(r"(\d{4})(\d{2})(\d{2})", re.ASCII)
MONTH = re.compile(r"(\d{4})[-/]?(\d{2})", re.ASCII)
DATE_OF_ISO = re.compile(r"\d{4}-?\d{2}-?\d{2}", re.ASCII)
MOST_PLACES = 18
ORDERS = ("YMD", "DMY", "MDY")
Value = Union[str, int, Decimal, datetime.date]


@dataclass(frozen=True)
class Kind:
    """What a column has: `text`, `whole` numbers, or one of these that become whole numbers.

    A `decimal` has some `places`; a `day` has its year, month and day in an `order`, which is YMD,
    DMY or MDY, and perhaps a time of day, which is dropped; a `month` is a year and a month.
    """

    name: str
    places: int = 0
    order: str = ""

    def __str__(self) -> str:
        """The kind as it stands in files and messages: `decimal 2`, `day YMD`."""
        detail = f" {self.places}" if self.name == "decimal" else f" {self.order}"
        return self.name + (detail if self.name in ("decimal", "day") else "")

    def is_number(self) -> bool:
        """Whether its cells are whole numbers in the program."""
        return self.name != "text"

    def kept(self, cell: str) -> str:
        """What the program keeps of a cell; a ValueError says what is wrong with it."""
        if self.name == "decimal":
            return scaled(cell, self.places)
        if self.name == "day":
            return f"{day_of(cell, self.order):%Y%m%d}"
        return month_of(cell) if self.name == "month" else cell

    def shown(self, number: int) -> str:
        """A number of the program as it is shown."""
        if self.name == "decimal":
            return decimal_text(number, self.places)
        if self.name == "day" and 10_000_000 <= number <= 99_999_999:
            return f"{number // 10_000}-{number // 100 % 100:02}-{number % 100:02}"
        if self.name == "month" and 100_000 <= number <= 999_999:
            return f"{number // 100}-{number % 100:02}"
        return str(number)

    def value(self, number: int) -> Value:
        """A number of the program as Python has it: a Decimal, a date, or a month as a text. What
        is no date, as the 0 of a cell without one, stays a number."""
        if self.name == "decimal":
            digits = tuple(map(int, str(abs(number))))
            return Decimal((int(number < 0), digits, -self.places))
        if self.name == "day":
            try:
                return datetime.date(number // 10_000, number // 100 % 100, number % 100)
            except ValueError:
                return number
        return self.shown(number) if self.name == "month" else number

    def given(self, value: object) -> str:
        """What the program keeps of a value of Python; a ValueError says what is wrong with it."""
        if isinstance(value, datetime.date) and self.name in ("day", "month"):
            return f"{value:%Y%m%d}" if self.name == "day" else f"{value:%Y%m}"
        if self.name == "decimal" and isinstance(value, (Decimal, float)):
            return self.kept(format(value, "f") if isinstance(value, Decimal) else repr(value))
        is_text = isinstance(value, str)
        text = str(value if is_text else operator.index(value))  # type: ignore[arg-type]
        if self.name == "day" and DATE_OF_ISO.fullmatch(text):
            return f"{day_of(text, 'YMD'):%Y%m%d}"
        return self.kept(text)


TEXT, WHOLE_NUMBER = Kind("text"), Kind("whole")


def kind_in(text: str) -> Kind:
    """The kind that a text names, as `str` writes it; a ValueError if it names none."""
    name, _, detail = text.partition(" ")
    if name == "decimal" and detail.isdecimal() and 1 <= int(detail) <= MOST_PLACES:
        return Kind(name, places=int(detail))
    if name == "day" and detail in ORDERS:
        return Kind(name, order=detail)
    if text in ("text", "whole", "month"):
        return Kind(text)
    raise ValueError(f"no kind of column: {text}")


# ---- decimals


def scaled(cell: str, places: int) -> str:
    """A decimal times 10^places, as a whole number."""
    like = "no amount like 12." + "50"[:places].ljust(places, "0")
    found = DECIMAL.fullmatch(cell)
    if found and (found[2] or found[3]):
        digits = (found[3] or "").rstrip("0")
        if len(digits) > places:
            raise ValueError(f"no amount of {places} decimals")
        number = int((found[2] or "0") + digits.ljust(places, "0"))
        return str(-number if found[1] == "-" else number)
    if EXPONENT.fullmatch(cell):
        return scaled_exponent(cell, places)
    raise ValueError(like)


def scaled_exponent(cell: str, places: int) -> str:
    """A number with an exponent, such as 1e-05, times 10^places."""
    try:
        number = Decimal(cell).scaleb(places)
        if number != number.to_integral_value():
            raise ValueError(f"no amount of {places} decimals")
        return str(int(number))
    except InvalidOperation as error:
        raise ValueError(f"no amount of {places} decimals") from error


def decimal_text(number: int, places: int) -> str:
    """A whole number as a decimal: 1250 of two places as 12.50."""
    units, rest = divmod(abs(number), 10**places)
    return f"{'-' if number < 0 else ''}{units}.{rest:0{places}}"


# ---- dates


def day_of(cell: str, order: str) -> datetime.date:
    """The day of a cell whose parts stand in this order; names of months are English."""
    year, month, day = parts_of_day(cell, order)
    try:
        return datetime.date(year, month, day)
    except ValueError as error:
        raise ValueError("a day that does not exist") from error


def parts_of_day(cell: str, order: str) -> tuple[int, int, int]:
    """The year, month and day of a cell, which perhaps do not exist."""
    found = COMPACT.fullmatch(cell) if order == "YMD" else None
    found = found or PARTED.fullmatch(cell) or (WORDED.fullmatch(cell) if order == "MDY" else None)
    if not found:
        raise ValueError(f"no date like {EXAMPLES[order]}")
    parts = dict(zip(order, found.groups()))
    if len(parts["Y"]) != 4 or len(parts["D"]) > 2 or len(parts["M"]) > 2 and parts["M"].isdigit():
        raise ValueError(f"no date like {EXAMPLES[order]}")
    return int(parts["Y"]), month_number(parts["M"]), int(parts["D"])


EXAMPLES = {"YMD": "2025-03-14", "DMY": "14.3.2025", "MDY": "3/14/2025"}


def month_number(text: str) -> int:
    """The number of a month, which may be written as a word."""
    if text.isdigit():
        return int(text)
    short = text[:3].lower()
    if short not in MONTHS:
        raise ValueError(f"no date: there is no month {text}")
    return MONTHS.index(short) + 1


def month_of(cell: str) -> str:
    """A month as a number: 2025-03 as 202503."""
    found = MONTH.fullmatch(cell)
    if not found or not 1 <= int(found[2]) <= 12:
        raise ValueError("no month like 2025-03")
    return found[1] + found[2]
