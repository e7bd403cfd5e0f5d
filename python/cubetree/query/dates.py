"""Dates in queries: SQLite has them as texts such as 2025-03-14."""
from __future__ import annotations

from typing import Callable

from .expressions import COMPARED, EQUAL, PRODUCT, SUM
from .kinds import kind_of
from .names import Scope
from .stored import is_date
from .syntax import Call, Chain, In, Literal, Made, Name, Node, Prefix, Test
from .tokens import refuse

# The place of the date among the arguments of each function of dates.
PLACES = {"DATE": 0, "TIME": 0, "DATETIME": 0, "JULIANDAY": 0, "UNIXEPOCH": 0, "STRFTIME": 1}


def settle_dates(node: Node, scope: Scope) -> None:
    """Has an expression take dates as texts, and refuses one that reckons with them as numbers."""
    if isinstance(node, Call) and len(node.items) > PLACES.get(node.name.upper(), 99):
        place = PLACES[node.name.upper()]
        node.items[place] = Made(["day_text(", node.items[place], ")"])
    elif is_arithmetic(node):
        expect_no_dates(node, scope)
    elif is_comparison(node):
        kinds = [kind_of(part, scope) for part in node.parts()]
        kind = next((each for each in kinds if each and is_date(each)), None)
        if kind:
            shown = kind.shown
            node.replace(lambda part: dated(part, shown))


def is_arithmetic(node: Node) -> bool:
    """Whether an expression takes numbers."""
    is_signed = isinstance(node, Prefix) and node.sign != "NOT"
    return is_signed or isinstance(node, Chain) and node.level in (SUM, PRODUCT)


def is_comparison(node: Node) -> bool:
    """Whether an expression compares its parts."""
    is_sign = isinstance(node, Chain) and node.level in (EQUAL, COMPARED)
    return is_sign or isinstance(node, (In, Test))


def expect_no_dates(node: Node, scope: Scope) -> None:
    """A refusal if a part of an expression is a column of dates."""
    for part in node.parts():
        if isinstance(part, Name) and is_date(kind_of(part, scope)):
            hint = f"{part.name} has dates: take a part by strftime('%Y', {part.name})"
            refuse("value", scope.text, part.begin, hint)


def dated(node: Node, shown: Callable[[int], str]) -> Node:
    """A number of a date as the text of it."""
    if not isinstance(node, Literal) or node.kind != "whole" or len(node.text) not in (6, 8):
        return node
    text = shown(int(node.text))
    return node if text == node.text else Literal(f"'{text}'", "text").at(node)
