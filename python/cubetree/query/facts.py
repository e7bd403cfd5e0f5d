"""Rewrites a SELECT over single facts as one over groups of them.

The program answers by groups of attributes, with the facts that were counted, and sums, least and
greatest values of measures. Over these groups COUNT(*) is a sum of counts, and the sum of an
expression over attributes is taken once for each fact of the group. A sum of an expression that is
linear in measures is that of their sums.
"""
from __future__ import annotations

from typing import Callable, Iterator, Optional

from .core import Core
from .expressions import PRODUCT, SUM
from .kinds import kind_of
from .names import Scope
from .printer import EXACT
from .syntax import (
    Call,
    Case,
    Cast,
    Chain,
    Literal,
    Made,
    Name,
    Node,
    Prefix,
    Select,
    Star,
    Term,
    walk,
)
from .tokens import refuse

AGGREGATES = ("COUNT", "SUM", "TOTAL", "AVG", "MIN", "MAX")
OF_SINGLE = ("GROUP_CONCAT", "STRING_AGG", "JSON_GROUP_ARRAY", "JSON_GROUP_OBJECT")
REALS = ("REAL", "FLOAT", "DOUBLE", "DOUBLE PRECISION", "NUMERIC", "DECIMAL")
CHOOSING = ("COALESCE", "IFNULL")


def is_aggregate(node: Node) -> bool:
    """Whether an expression is a function over rows of a group."""
    if not isinstance(node, Call) or node.over:
        return False
    word = node.name.upper()
    is_of_rows = word in ("MIN", "MAX") and len(node.items) == 1
    return word in AGGREGATES[:4] or is_of_rows or word in OF_SINGLE


def grouped_items(chain: Chain, keys: list[Node]) -> int:
    """How many items at the front of a chain are one that is grouped by. Signs of one level are
    taken from the left, so `year * 2` is a part of `year * 2 % 3`."""
    fronts = [key for key in keys if isinstance(key, Chain) and key.level == chain.level]
    sizes = [
        len(key.items)
        for key in fronts
        if key.items == chain.items[: len(key.items)] and key.signs == chain.signs[: len(key.signs)]
    ]
    return max(sizes, default=0)


class Facts:
    """The SELECT of a scope, whose table is `facts`."""

    def __init__(self, scope: Scope, core: Core) -> None:
        self.scope, self.core = scope, core

    def rewrite_select(self, select: Select, order: list[Term]) -> None:
        """Rewrites all parts of a SELECT but its tests, and the terms of its order."""
        outer = [item.item for item in select.items] + [term.item for term in order]
        outer += [select.having] if select.having else []
        aggregates = any(is_aggregate(each) for node in outer for each in walk(node))
        if not select.groups and not aggregates:
            self.expect_distinct(select, outer)
        else:
            keys = list(self.keys(select))
            for node in [*outer, *self.scope.correlated]:
                self.expect_grouped(node, keys)
        for item in select.items:
            item.item = self.rewrite(item.item)
        select.groups = [self.rewrite(node) for node in select.groups]
        select.having = self.rewrite(select.having) if select.having else None
        for term in order:
            term.item = self.rewrite(term.item)

    def expect_distinct(self, select: Select, outer: list[Node]) -> None:
        """Refuses a SELECT that would have a row for each fact."""
        windows = any(isinstance(each, Call) and each.over for node in outer for each in walk(node))
        if not select.is_distinct or windows:
            hint = "group by attributes, or ask for SUM and the like"
            self.scope.refuse_single(outer[0].begin, "this asks for a row of each fact", hint)

    def keys(self, select: Select) -> Iterator[Node]:
        """What a SELECT groups by, where a number or a name stands for one of its items."""
        items = {item.alias.lower(): item.item for item in select.items if item.alias is not None}
        for node in select.groups:
            if isinstance(node, Literal) and node.text.isdecimal():
                place = int(node.text[:9])
                yield select.items[place - 1].item if 0 < place <= len(select.items) else node
            elif isinstance(node, Name) and node.table is None:
                yield items.get(node.name.lower(), node)
            else:
                yield node

    def expect_grouped(self, node: Node, keys: list[Node]) -> None:
        """Refuses an attribute that is asked for, and is not grouped by."""
        if node in keys or is_aggregate(node):
            return
        output = self.scope.own(node)
        if output and not output.is_measure:
            refuse("group", self.scope.text, node.begin, f"{output.name} is not in GROUP BY")
        parts = node.parts()
        if isinstance(node, Chain):
            parts = node.items[grouped_items(node, keys) :]
        for part in parts:
            self.expect_grouped(part, keys)

    # ---- expressions

    def rewrite(self, node: Node) -> Node:
        """An expression over facts as one over groups."""
        if is_aggregate(node) and isinstance(node, Call):
            return self.aggregated(node)
        output = self.scope.own(node)
        if output and output.is_measure:
            hint = f"ask for SUM({output.name}), MIN, MAX, AVG or COUNT(*)"
            self.scope.refuse_single(node.begin, f"{output.name} is a measure", hint)
        if output:
            self.core.group(output.name)
        return node.replace(self.rewrite)

    def aggregated(self, call: Call) -> Node:
        """A function of facts as one of groups."""
        word = call.name.upper()
        where = self.rewrite(call.where) if call.where else None
        if word in OF_SINGLE:
            self.scope.refuse_single(call.begin, f"{call.name} would take each fact")
        if word == "COUNT" and (not call.items or isinstance(call.items[0], Star)):
            return self.count(None, where)
        if len(call.items) != 1:
            self.scope.refuse_single(call.begin, f"{call.name} takes one argument")
        item = call.items[0]
        if call.is_distinct:
            return Call(call.name, [self.rewrite(item)], True, where)
        if word == "COUNT":
            return self.count(item, where)
        if word in ("MIN", "MAX"):
            return Call(word, [self.extreme(item, word.lower())], False, where)
        if word != "AVG":
            return self.sum(word, item, where)
        above, below = self.sum("SUM", item, where), self.count(item, where)
        return Made(["(", above, " * 1.0 / NULLIF(", below, ", 0))"])

    def count(self, item: Optional[Node], where: Optional[Node]) -> Node:
        """How many facts there are, for which an expression has a value."""
        counted: Node = Name(None, self.core.ask("count"))
        if item and not self.scope.is_measure(item):
            test = self.rewrite(self.weighted(item, is_tested=True))
            counted = Made(["CASE WHEN (", test, ") IS NULL THEN 0 ELSE ", counted, " END"])
        return Made(["COALESCE(", Call("SUM", [counted], False, where), ", 0)"])

    def sum(self, word: str, item: Node, where: Optional[Node]) -> Node:
        """The sum of an expression over facts."""
        kind = kind_of(item, self.scope)
        is_amount = kind is not None and kind.name == "decimal" and word == "SUM"
        name = f"exact_sum{kind.places}" if is_amount and kind else word
        return Call(name, [self.weighted(item)], False, where)

    def extreme(self, node: Node, word: str) -> Node:
        """The least or greatest value in a group of an expression that chooses a value."""
        if not self.scope.has_measure(node):
            return self.rewrite(node)
        output = self.scope.own(node)
        if output:
            return self.measure(word, output.name)
        return self.chosen(node, lambda value: self.extreme(value, word), word.upper())

    def weighted(self, node: Node, is_tested: bool = False) -> Node:
        """The sum of an expression over the facts of a group. If it is only tested, this has a
        value where the expression has one."""
        if not self.scope.has_measure(node):
            if is_tested:
                return node
            count = Name(None, self.core.ask("count"))
            return Made([f"{EXACT}(", self.rewrite(node), " * ", count, ")"])
        output = self.scope.own(node)
        if output:
            return Literal("1", "whole") if is_tested else self.measure("sum", output.name)

        def inner(part: Node) -> Node:
            """The same of a part of the expression."""
            return self.weighted(part, is_tested)

        if isinstance(node, Prefix) and node.sign in "+-":
            return Prefix(node.sign, inner(node.item))
        if isinstance(node, Chain) and node.level == SUM:
            return Chain(SUM, [inner(item) for item in node.items], node.signs)
        if isinstance(node, Chain) and node.level == PRODUCT and self.is_linear(node):
            items = [
                (
                    inner(each)
                    if self.scope.has_measure(each)
                    else each if is_tested else self.rewrite(each)
                )
                for each in node.items
            ]
            return Chain(PRODUCT, items, node.signs)
        if isinstance(node, Cast) and node.name.upper() in REALS:
            return Cast(inner(node.item), node.word, node.name)
        return self.chosen(node, inner, "SUM")

    def measure(self, word: str, name: str) -> Node:
        """A column of the core that has the sum, least or greatest value of a measure."""
        return Name(None, self.core.ask(word, name))

    def is_linear(self, node: Chain) -> bool:
        """Whether one factor has measures, and is divided only as a floating-point number."""
        factors = [place for place, item in enumerate(node.items) if self.scope.has_measure(item)]
        place = factors[0]
        for at, sign in enumerate(node.signs, 1):
            is_real = any(self.is_real(item) for item in node.items[:at])
            if sign == "%" and place <= at or sign == "/" and place == at:
                return False
            if sign == "/" and place < at and not is_real:
                return False
        return len(factors) == 1

    def is_real(self, node: Node) -> bool:
        """Whether an expression is a floating-point number in SQLite."""
        kind = kind_of(node, self.scope)
        is_literal = isinstance(node, Literal) and node.kind == "real"
        is_cast = isinstance(node, Cast) and node.name.upper() in REALS[:4]
        return is_literal or is_cast or kind is not None and kind.name == "decimal"

    def chosen(self, node: Node, inner: Callable[[Node], Node], word: str) -> Node:
        """An expression that chooses one of several by attributes alone, with each of these
        changed."""
        if isinstance(node, Case):
            base = self.rewrite(node.base) if node.base else None
            whens = [(self.rewrite(test), inner(value)) for test, value in node.whens]
            return Case(base, whens, inner(node.otherwise) if node.otherwise else None)
        if isinstance(node, Call) and node.name.upper() == "IIF" and len(node.items) == 3:
            test, *values = node.items
            return Call("IIF", [self.rewrite(test), *map(inner, values)])
        if isinstance(node, Call) and node.name.upper() in CHOOSING:
            if self.scope.is_measure(node.items[0]):
                return inner(node.items[0])
        self.scope.refuse_single(node.begin, f"{word} takes no such expression of measures")
        return node
