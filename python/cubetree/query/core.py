"""What the program is asked for a table of a query: its rows by group, that meet some tests."""
from __future__ import annotations

import re
from dataclasses import dataclass, field
from functools import cached_property
from typing import NamedTuple, Optional

from ..values import Kind
from .tables import Table

COUNT = "#count"
WORDS = set("SELECT FROM WHERE GROUP BY AND IN BETWEEN COUNT SUM MIN MAX".split())
MOST_OF_TESTS = 50_000  # bytes of a query for the program, which takes 65,000


class Asked(NamedTuple):
    """A column that the program is asked for, whether it has numbers, and its kind."""

    text: str
    is_number: bool
    kind: Optional[Kind]


@dataclass
class Core:
    """A part of a query that the program answers. Its columns have names by which the rest of the
    query finds them: those of the table, and `#sum_qty` for sums of facts."""

    number: int
    table: Table
    groups: dict[str, Asked] = field(default_factory=dict)
    values: dict[str, Asked] = field(default_factory=dict)
    tests: list[str] = field(default_factory=list)
    tested: list[str] = field(default_factory=list)
    used: int = 0  # bytes of tests

    @property
    def name(self) -> str:
        """The name of its rows in SQLite."""
        return f"core{self.number}"

    @cached_property
    def takes_tests(self) -> bool:
        """Whether no name is a word of SQL, so that the program takes a query with tests."""
        asked = " ".join(column.asked for column in self.table.columns())
        return WORDS.isdisjoint(re.findall(r"\w+(?!\w*\()", asked.upper()))

    def group(self, name: str) -> None:
        """Groups by an attribute."""
        for column in self.table.attributes:
            if column.name == name:
                self.groups[name] = Asked(column.asked, column.is_number, column.kind)

    def ask(self, word: str, measure: str = "") -> str:
        """Asks for the facts that were counted, or the sum, least or greatest value of a measure,
        and gives the name of that column."""
        if not measure:
            self.values[COUNT] = Asked("COUNT(*)", True, None)
            return COUNT
        name = f"#{word}_{measure}"
        kind = next(each.kind for each in self.table.values if each.name == measure)
        self.values[name] = Asked(f"{word.upper()}({measure})", True, kind)
        return name

    def take(self, name: str) -> None:
        """Takes a column of a view."""
        for column in self.table.values:
            if column.name == name:
                self.values[name] = Asked(column.asked, column.is_number, column.kind)

    def test(self, attribute: str, text: str) -> bool:
        """Adds a test of an attribute, and tells whether there was room for it."""
        size = len(text.encode("utf-8", "surrogateescape")) + len(" AND ")
        if self.used + size > MOST_OF_TESTS or not self.takes_tests:
            return False
        self.used += size
        self.tests.append(text)
        self.tested.append(attribute)
        return True

    def columns(self) -> dict[str, Asked]:
        """The columns of its rows. One of them has numbers, so that no row is `rows 2`, which ends
        a reply of the program."""
        return {**self.groups, **(self.values or {COUNT: Asked("COUNT(*)", True, None)})}

    def asked(self) -> list[Asked]:
        """The columns behind the attributes."""
        return list(self.columns().values())[len(self.groups) :]

    def needs(self) -> list[str]:
        """The attributes that a view has to have for it."""
        return list(dict.fromkeys([*self.groups, *self.tested]))

    def command(self) -> str:
        """The command for the program: a query, or a slice where there are no tests. A slice may
        have any names, and a query has none that are words of SQL."""
        names = ",".join(self.groups)
        if not self.tests:
            asked = [each.text.lower().replace("count(*)", "count") for each in self.asked()]
            return f"slice {','.join(asked)}" + (f" by {names}" if names else "")
        items = ", ".join([*self.groups, *(each.text for each in self.asked())])
        group = f" GROUP BY {names}" if names else ""
        return f"sql SELECT {items} FROM facts WHERE {' AND '.join(self.tests)}{group}"
