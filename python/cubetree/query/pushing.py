"""Finds the tests of a query that the program can make itself."""
from __future__ import annotations

import datetime
from decimal import Decimal
from typing import Callable, Optional, Union

from ..values import Kind
from .core import Core
from .expressions import COMPARED, EQUAL
from .names import Scope
from .stored import is_date
from .syntax import Call, Chain, In, Inner, Name, Node, Query, Star, Test, walk
from .tables import Column
from .tokens import refuse

TURNED = {"<": ">", "<=": ">=", ">": "<", ">=": "<=", "=": "=", "==": "=", "IS": "="}
MOST_BYTES = 255  # of a text
Constant = Union[str, int, float, None]
Evaluate = Callable[[Node], Constant]


class Pusher:
    """Takes tests of a table for the program."""

    def __init__(self, scope: Scope, core: Core, evaluate: Evaluate) -> None:
        self.scope, self.core, self.evaluate = scope, core, evaluate
        self.columns = {column.name: column for column in core.table.attributes}

    def take(self, node: Node) -> bool:
        """Takes a test, and tells whether the program makes it."""
        made: Optional[tuple[Column, str]] = None
        if isinstance(node, Chain) and len(node.items) == 2 and node.level in (EQUAL, COMPARED):
            made = self.compared(node.items[0], node.signs[0], node.items[1])
            made = made or self.compared(
                node.items[1], TURNED.get(node.signs[0], ""), node.items[0]
            )
        elif isinstance(node, Test) and node.word == "BETWEEN" and not node.is_not:
            made = self.between(*node.items)
        elif isinstance(node, In) and not node.is_not and isinstance(node.among, list):
            made = self.among(node.item, node.among)
        return made is not None and self.core.test(made[0].name, made[1])

    def attribute(self, node: Node) -> Optional[Column]:
        """The attribute of this table that an expression is."""
        column = self.scope.find(node) if isinstance(node, Name) else None
        if not column or column.seen.core is not self.core:
            return None
        return self.columns.get(column.output.name)

    def compared(self, node: Node, sign: str, other: Node) -> Optional[tuple[Column, str]]:
        """A comparison of an attribute with a constant."""
        column, own = self.attribute(node), "=" if sign in ("==", "IS") else sign
        if not column or own not in TURNED or own != "=" and not column.is_number:
            return None
        value = self.literal(column, other)
        return (column, f"{column.asked} {own} {value}") if value else None

    def between(self, node: Node, low: Node, high: Node) -> Optional[tuple[Column, str]]:
        """A range of a number."""
        column = self.attribute(node)
        if not column or not column.is_number:
            return None
        ends = [self.literal(column, low), self.literal(column, high)]
        return (column, f"{column.asked} BETWEEN {ends[0]} AND {ends[1]}") if all(ends) else None

    def among(self, node: Node, values: list[Node]) -> Optional[tuple[Column, str]]:
        """A list of values."""
        column = self.attribute(node)
        if not column or not values:
            return None
        found = [self.literal(column, value) for value in values]
        inside = ", ".join(each for each in found if each)
        return (column, f"{column.asked} IN ({inside})") if all(found) else None

    def literal(self, column: Column, node: Node) -> Optional[str]:
        """A constant as the program takes it for an attribute; None if it takes none such."""
        if not is_constant(node):
            return None
        value = self.evaluate(node)
        if not column.is_number:
            if isinstance(value, (int, float)):
                hint = f"{column.name} has texts: put the value in quotes"
                refuse("value", self.scope.text, node.begin, hint)
            return text_literal(value)
        if isinstance(value, str) and not is_date(column.kind) and not is_numeral(value):
            refuse("value", self.scope.text, node.begin, f"{column.name} has numbers")
        return number_literal(value, column.kind)


def is_constant(node: Node) -> bool:
    """Whether an expression has the same value for each row."""
    varies = (Name, Star, Inner)
    return not any(
        isinstance(each, varies)
        or isinstance(each, Call)
        and (each.over or each.where or each.name.lower() == "random")
        or isinstance(each, In)
        and isinstance(each.among, Query)
        for each in walk(node)
    )


def is_numeral(text: str) -> bool:
    """Whether a text is a number as SQLite compares it with one."""
    try:
        float(text)
    except ValueError:
        return False
    return True


def text_literal(value: Constant) -> Optional[str]:
    """A text in quotes, if the program takes it."""
    if not isinstance(value, str) or "\n" in value or "\0" in value:
        return None
    if len(value.encode("utf-8", "surrogateescape")) > MOST_BYTES:
        return None
    return "'" + value.replace("'", "''") + "'"


def number_literal(value: Constant, kind: Optional[Kind]) -> Optional[str]:
    """A number, if the program can compare with it and the result is that of SQLite."""
    if value is None or isinstance(value, bool):
        return None
    if is_date(kind) and kind:
        return date_literal(value, kind)
    if kind and kind.name == "decimal":
        try:
            text = kind.given(Decimal(repr(value)) if isinstance(value, float) else value)
        except ValueError:
            return None
        return text
    return str(value) if isinstance(value, int) else None


def date_literal(value: Constant, kind: Kind) -> Optional[str]:
    """The number of a day or a month that is written in full."""
    if isinstance(value, int):
        return str(value) if kind.shown(value) != str(value) else None
    text = f"{value}-01" if kind.name == "month" else str(value)
    try:
        found = datetime.date.fromisoformat(text)
    except ValueError:
        return None
    return f"{found:%Y%m%d}"[: 8 if kind.name == "day" else 6]
