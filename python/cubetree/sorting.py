"""Sorts the rows of an answer by its columns, and keeps the first of them: --sort and --top."""
from __future__ import annotations

import re
from datetime import date
from decimal import Decimal
from math import inf
from typing import NamedTuple, Optional, Sequence, Union

from .codec import Answer
from .errors import Fault
from .sql import is_query
from .ui import shown
from .values import Value

MOST_DIGITS = 18  # of the number of --top


class Key(NamedTuple):
    """A column to sort by, and whether its greatest values come first."""

    column: str
    descends: bool


class Order(NamedTuple):
    """The keys of --sort, and the most rows by --top; None means all rows."""

    keys: tuple[Key, ...]
    most: Optional[int]


UNSORTED = Order((), None)


class Top(Answer):
    """The first rows of an answer, and how many rows the whole answer has."""

    def __init__(self, answer: Answer, most: int) -> None:
        super().__init__(answer.columns, answer.numeric, ())
        self.extend(answer[:most])
        self.whole = len(answer)


def keys_of(text: str) -> tuple[Key, ...]:
    """The keys in the argument of --sort, such as `sum(qty) desc,part`."""
    keys = tuple(key_of(part.split()) for part in text.split(","))
    if not all(key.column for key in keys):
        form = "type columns with commas between them, as in --sort 'sum(qty) desc,part'"
        raise Fault(f"--sort: a column has no name in '{shown(text)}': {form}")
    return keys


def key_of(words: Sequence[str]) -> Key:
    """The key of these words: a column, and perhaps `asc` or `desc` after it."""
    way = words[-1].lower() if len(words) > 1 else ""
    is_way = way in ("asc", "desc")
    return Key(" ".join(words[:-1] if is_way else words), way == "desc")


def most_of(text: str) -> int:
    """The number of rows in the argument of --top."""
    if not re.fullmatch(f"[0-9]{{1,{MOST_DIGITS}}}", text) or int(text) == 0:
        form = f"type 1 or more in at most {MOST_DIGITS} digits, as in --top 10"
        raise Fault(f"--top: '{shown(text)}' is not a number of rows: {form}")
    return int(text)


def arranged(answer: Answer, text: str, order: Order) -> Answer:
    """The answer to the question of this text in an order, and cut to its most rows.

    Rows that are equal by all keys stay as the program ordered them. If there is a cut and no key,
    and the question asks for one count, sum, minimum or maximum, its greatest values come first.
    """
    keys = [(place_of(key.column, answer, text), key.descends) for key in order.keys]
    if order.most is not None and not keys:
        numbers = places_of_numbers(answer, text)
        keys = [(place, True) for place in numbers if len(numbers) == 1]
    for place, descends in reversed(keys):
        sort_by(answer, place, descends)
    return answer if order.most is None or len(answer) <= order.most else Top(answer, order.most)


def sort_by(answer: Answer, place: int, descends: bool) -> None:
    """Sorts the rows by one column."""
    answer.sort(key=lambda row: comparable(row[place]), reverse=descends)


def comparable(value: Optional[Value]) -> tuple[Union[int, float, Decimal], bytes]:
    """What a value is compared by: a number or an amount by its size, a date by its number as the
    program keeps it, such as 20250314, and a text by its bytes. NULL comes first."""
    if value is None:
        return -inf, b""
    if isinstance(value, str):
        return 0, value.encode("utf-8", "surrogateescape")
    if isinstance(value, date):
        return value.year * 10_000 + value.month * 100 + value.day, b""
    return value, b""


def places_of_numbers(answer: Answer, text: str) -> Sequence[int]:
    """The places of the counts, sums, minima and maxima among the columns.

    A slice names them before its first space, and its answer has them after the groups.
    """
    if answer.keys is not None:
        numbers = enumerate(answer.numeric)
        return [place for place, is_number in numbers if is_number and place not in answer.keys]
    if is_query(text):
        return [place for place, column in enumerate(answer.columns) if column.endswith(")")]
    count = len(text.partition(" ")[0].split(","))
    return range(len(answer.columns) - count, len(answer.columns))


def place_of(name: str, answer: Answer, text: str) -> int:
    """The place of the column with this name, in upper or lower case.

    An attribute may have the name `count`: of several columns with one name the last is taken.
    """
    places = [place for place, each in enumerate(answer.columns) if plain(each) == plain(name)]
    if not places:
        raise Fault(f"{no_column(name, answer)}\n  {shown(text)}")
    return places[-1]


def plain(name: str) -> str:
    """A name of a column without spaces and in lower case, by which a slice and SQL agree."""
    small = "".join(name.split()).lower()
    return "count" if small == "count(*)" else small


def no_column(name: str, answer: Answer) -> str:
    """The message that no column has this name, with the columns that there are."""
    there = f"there {'is' if len(answer.columns) == 1 else 'are'} {', '.join(answer.columns)}"
    if name.startswith("-") and plain(name[1:]) in map(plain, answer.columns):
        there += f"; for descending order type --sort '{shown(name[1:])} desc'"
    return f"--sort: no column of the answer has the name {shown(name)}; {there}"
