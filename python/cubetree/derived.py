"""Columns and groups that are worked out of an answer: means, ratios, months and years.

A question may have columns such as `avg(qty)`, `sum(fee)/count` and `sum(fee)/sum(parcels)`, and
may group by `month(day)` and `year(day)` of a column of dates. The program knows none of these. It
is asked for the sums, counts and days that they need, and its rows are joined here: counts and sums
add up, and least and greatest values are compared, in whole numbers of any size.
"""
from __future__ import annotations

import re
from dataclasses import dataclass
from typing import Callable, Iterable, List, Mapping, NamedTuple, Optional, Sequence, Tuple

from .codec import Answer, kind_of_value
from .dates import Sent, replaced
from .errors import Fault
from .questions import question_of
from .schema import Schema
from .values import Kind

HEAD = re.compile(r"(?P<columns>[^ ]+)(?: by (?P<groups>[^ ]+))?", re.DOTALL)
BASE = r"(?:count|(?:sum|min|max)\([^()/,]+\))"
MEAN = re.compile(r"avg(?=\([^()/,]+\)$)")
RATIO = re.compile(rf"(?P<above>{BASE})/(?P<below>{BASE})")
PART = re.compile(r"(?P<part>month|year)\((?P<name>[^()]+)\)")
QUOTED = r'="(?:[^"]|"")*"'  # a value in which nothing is a condition
BOUND = r"(?:(?<= where )|(?<= and ))(?P<part>month|year)\((?P<name>[^()=]+)\)=(?P<value>[^ ]*)"
CONDITION = re.compile(f"{QUOTED}|{BOUND}")
YEAR, MONTH = "[0-9]{4}", "[0-9]{4}(?:-(?:0[1-9]|1[0-2]))?"
VALUES = {
    part: re.compile(rf"0|{date}(?:\.\.{date})?")  # 0 for cells without a date
    for part, date in (("month", MONTH), ("year", YEAR))
}
FORMS = {
    "month": "months: 2025-03, 2025, or 2025-03..2025-06",
    "year": "years: 2025, or 2024..2025",
}
MORE_PLACES = 4  # decimals that a mean or a ratio has more than what it is worked out of
Record = Sequence[str]


class Column(NamedTuple):
    """A column of the answer: its text, and the columns of the program that it is worked out of,
    one or two by their places."""

    text: str
    above: int
    below: Optional[int] = None


class Group(NamedTuple):
    """What rows are grouped by: its text, an attribute or a level, and which part of a date."""

    text: str
    name: str
    part: str = ""


class Condition(NamedTuple):
    """A condition on a part of a date: its column, and its value."""

    group: Group
    value: str


@dataclass
class Derived:
    """A question with such columns and groups, and the plain one that the program is asked."""

    sent: Sent
    columns: List[Column]
    groups: List[Group]

    def is_plain(self) -> bool:
        """Whether the program answers the question as it stands."""
        return all(each.below is None for each in self.columns) and not self.has_parts()

    def has_parts(self) -> bool:
        """Whether rows are grouped by parts of dates."""
        return any(group.part for group in self.groups)


def plain(text: str) -> Derived:
    """A question that goes to the program as it stands."""
    return Derived(Sent(text), [], [])


def derived(text: str, kinds: Mapping[str, Kind]) -> Derived:
    """A question as the program can answer it; a fault if a part is not one of a date."""
    question, conditions = taken_apart(text)
    expect_dates([*question.groups, *(each.group for each in conditions)], kinds)
    for group, value in conditions:
        if not VALUES[group.part].fullmatch(value):
            raise Fault(f"{group.text}={value}: {group.text} has {FORMS[group.part]}")
    return question


def taken_apart(text: str) -> Tuple[Derived, List[Condition]]:
    """A question, and its conditions on parts of dates."""
    parts: List[Tuple[int, int, str]] = []
    conditions: List[Condition] = []
    head = HEAD.match(text)
    if not head:
        return plain(text), conditions
    columns = columns_in(head["columns"], parts)
    groups = groups_in(head["groups"] or "", head.start("groups"), parts)
    for found in CONDITION.finditer(text, head.end()):
        if not found["part"]:
            continue
        begin, end = found.span("name")
        parts += [(found.start(), begin, ""), (end, end + 1, "")]
        group = Group(text[found.start() : end + 1], found["name"], found["part"])
        conditions.append(Condition(group, found["value"]))
    return Derived(replaced(text, parts), columns, groups), conditions


def attributes_in(text: str) -> List[str]:
    """The attributes and levels that a question names; none if it has not the form of one."""
    try:
        return question_of(taken_apart(text)[0].sent.text).attributes()
    except Fault:
        return []


def columns_in(text: str, parts: List[Tuple[int, int, str]]) -> List[Column]:
    """The columns of a question. What the program is asked instead goes to `parts`: `sum` for
    `avg`, a comma between the two columns of a ratio, and one count at the end for all means."""
    columns, place, asked, means = [], 0, 0, []
    for column in text.split(","):
        mean, ratio = MEAN.match(column), RATIO.fullmatch(column)
        if ratio:
            slash = place + ratio.end("above")
            parts.append((slash, slash + 1, ","))
            columns.append(Column(column, asked, asked + 1))
        elif mean:
            parts.append((place, place + mean.end(), "sum"))
            means.append(len(columns))
            columns.append(Column(column, asked))
        else:
            columns.append(Column(column, asked))
        asked += 2 if ratio else 1
        place += len(column) + 1
    if means:
        parts.append((len(text), len(text), ",count"))
    for mean_at in means:
        columns[mean_at] = columns[mean_at]._replace(below=asked)
    return columns


def groups_in(text: str, begin: int, parts: List[Tuple[int, int, str]]) -> List[Group]:
    """The groups of a question. The program is asked for the column of a date once; it refuses a
    group that is repeated."""
    groups: List[Group] = []
    place = begin
    for text_of_group in text.split(",") if text else ():
        found = PART.fullmatch(text_of_group)
        group = Group(text_of_group, found["name"], found["part"]) if found else None
        group = group or Group(text_of_group, text_of_group)
        end = place + len(text_of_group)
        if group not in groups and any(each.name == group.name for each in groups):
            parts.append((place - 1, end, ""))
        elif found:
            parts.append((place, place + found.start("name"), ""))
            parts.append((place + found.end("name"), end, ""))
        groups.append(group)
        place = end + 1
    return groups


def expect_dates(groups: Iterable[Group], kinds: Mapping[str, Kind]) -> None:
    """A fault if a part of a date is asked of a column that has none."""
    for group in groups:
        kind = kinds.get(group.name)
        if group.part and (kind is None or kind.name not in ("day", "month")):
            dates = [name for name, each in kinds.items() if each.name in ("day", "month")]
            there = f"columns of dates: {', '.join(dates)}" if dates else "no column has dates here"
            raise Fault(f"{group.text}: {group.name} is no column of dates; {there}")


# ---- rows


def derived_answer(
    question: Derived, schema: Schema, records: Iterable[Record], kinds: Mapping[str, Kind]
) -> Answer:
    """The answer to a question, of the rows of the plain one."""
    asked = question_of(question.sent.text)
    places = {name: place for place, name in enumerate(asked.groups)}
    if question.has_parts():
        records = joined(question.groups, places, asked.columns, records, schema, kinds)
        first = len(question.groups)
    else:
        first = len(asked.groups)
    columns = [worked_out(column, asked.columns, kinds) for column in question.columns]
    rows = ([*record[:first], *(make(record[first:]) for make, _ in columns)] for record in records)
    own = [kind_of_group(group, kinds) for group in question.groups]
    numeric = [group.name in schema.numbers for group in question.groups] + [True] * len(columns)
    names = [group.text for group in question.groups] + [each.text for each in question.columns]
    return Answer(names, numeric, rows, [*own, *(kind for _, kind in columns)])


def kind_of_group(group: Group, kinds: Mapping[str, Kind]) -> Optional[Kind]:
    """The kind of a column of groups; a year is a plain number."""
    if not group.part:
        return kinds.get(group.name)
    return Kind("month") if group.part == "month" else None


def joined(
    groups: Sequence[Group],
    places: Mapping[str, int],
    columns: Sequence[str],
    records: Iterable[Record],
    schema: Schema,
    kinds: Mapping[str, Kind],
) -> List[Record]:
    """The rows by groups that have parts of dates, in ascending order."""
    takers = [taker_of(group, places[group.name], kinds) for group in groups]
    first = len(places)
    joins = [JOINS.get(column.partition("(")[0], sum_of) for column in columns]
    found: dict[tuple[str, ...], list[int]] = {}
    for record in records:
        key = tuple(take(record) for take in takers)
        cells = list(map(int, record[first:]))
        known = found.get(key)
        if known is None:
            found[key] = cells
        else:
            found[key] = [join(a, b) for join, a, b in zip(joins, known, cells)]
    is_number = [group.name in schema.numbers for group in groups]

    def order(key: tuple[str, ...]) -> list[tuple[int, bytes]]:
        """What a row is sorted by: numbers by size, texts by their bytes."""
        return [
            (int(cell), b"") if number else (0, cell.encode("utf-8", "surrogateescape"))
            for cell, number in zip(key, is_number)
        ]

    return [[*key, *map(str, found[key])] for key in sorted(found, key=order)]


def sum_of(one: int, other: int) -> int:
    """The sum of two."""
    return one + other


JOINS: Mapping[str, Callable[[int, int], int]] = {"min": min, "max": max}


def taker_of(group: Group, place: int, kinds: Mapping[str, Kind]) -> Callable[[Record], str]:
    """What takes a group out of a row of the program."""
    if not group.part:
        return lambda record: record[place]
    digits = {"day": {"month": 100, "year": 10_000}, "month": {"month": 1, "year": 100}}
    divisor = digits[kinds[group.name].name][group.part]
    return lambda record: str(int(record[place]) // divisor)


def worked_out(
    column: Column, asked: Sequence[str], kinds: Mapping[str, Kind]
) -> Tuple[Callable[[Record], str], Optional[Kind]]:
    """What makes the cell of a column of the cells of a row, and the kind of the column."""
    kind, above, below = kind_of_value(asked[column.above], kinds), column.above, column.below
    if below is None:
        return (lambda cells: cells[above]), kind
    divided_by: int = below
    other = kind_of_value(asked[below], kinds)
    places = places_of(kind) + MORE_PLACES
    scale = 10 ** (MORE_PLACES + places_of(other))

    def quotient(cells: Record) -> str:
        """The quotient as a whole number of its last place, rounded half to even; an empty cell
        if there is none."""
        divisor = int(cells[divided_by])
        return str(rounded(int(cells[above]) * scale, divisor)) if divisor else ""

    return quotient, Kind("decimal", places=places)


def places_of(kind: Optional[Kind]) -> int:
    """The decimals of a column."""
    return kind.places if kind and kind.name == "decimal" else 0


def rounded(above: int, below: int) -> int:
    """A quotient as a whole number, rounded half to even."""
    if below < 0:
        above, below = -above, -below
    whole, rest = divmod(above, below)
    return whole + (2 * rest > below or 2 * rest == below and whole % 2 == 1)
