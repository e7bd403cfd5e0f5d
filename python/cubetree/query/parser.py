"""Parses a query: its SELECTs, and what they take their rows from."""
from __future__ import annotations

from typing import Optional

from .expressions import MOST_ITEMS, RESERVED, Expressions
from .syntax import Item, Node, Query, Select, Source
from .tokens import name_of, refuse

UNIONS = ("UNION", "EXCEPT", "INTERSECT")
MOST_NAMED = 500  # queries of WITH
JOINS = ("NATURAL", "LEFT", "RIGHT", "FULL", "OUTER", "INNER", "CROSS")


class Parser(Expressions):
    """Parses one query."""

    def whole(self) -> Query:
        """The query of the whole text."""
        found = self.query()
        if self.token.kind != "end":
            self.fail()
        return found

    def query(self) -> Query:
        """A query with what may stand around its SELECTs."""
        self.nest()
        named = self.named() if self.take("WITH") else []
        selects, unions = [self.select()], []
        while self.token.word in UNIONS:
            unions.append(self.token.word + (" ALL" if self.word_after() == "ALL" else ""))
            self.at += len(unions[-1].split())
            selects.append(self.select())
        order = self.order() if self.take("ORDER", "BY") else []
        limit, offset = self.limits() if self.take("LIMIT") else (None, None)
        self.nested -= 1
        return Query(named, selects, unions, order, limit, offset)

    def named(self) -> list[tuple[str, list[str], Query]]:
        """The queries of WITH, by their names."""
        if self.token.word == "RECURSIVE":
            refuse(
                "syntax", self.text, self.token.begin, "queries with recursion are not supported"
            )
        found = [self.one_named()]
        while self.take(","):
            found.append(self.one_named())
            self.expect_few(len(found), MOST_NAMED, "queries behind WITH")
        return found

    def one_named(self) -> tuple[str, list[str], Query]:
        """A query of WITH: its name, the names of its columns, and the query."""
        name = self.name()
        columns = self.names() if self.token.word == "(" else []
        self.expect("AS")
        if not self.take("NOT", "MATERIALIZED"):
            self.take("MATERIALIZED")
        self.expect("(")
        query = self.query()
        self.expect(")")
        return name, columns, query

    def names(self) -> list[str]:
        """Names in brackets."""
        self.expect("(")
        found = [self.name()]
        while self.take(","):
            found.append(self.name())
        self.expect(")")
        return found

    def limits(self) -> tuple[Node, Optional[Node]]:
        """What stands behind LIMIT: how many rows, and how many are passed over."""
        limit = self.expression()
        if self.take("OFFSET"):
            return limit, self.expression()
        if self.take(","):
            return self.expression(), limit
        return limit, None

    def select(self) -> Select:
        """One SELECT."""
        found = Select(self.token.begin)
        self.expect("SELECT")
        found.is_distinct = self.take("DISTINCT")
        if not found.is_distinct:
            self.take("ALL")
        found.items = [self.item()]
        while self.take(","):
            found.items.append(self.item())
            self.expect_few(len(found.items), MOST_ITEMS, "columns")
        if self.take("FROM"):
            found.sources = self.sources()
        if self.take("WHERE"):
            found.where = self.expression()
        if self.take("GROUP", "BY"):
            found.groups = self.list_of(self.expression)
            self.expect_few(len(found.groups), MOST_ITEMS, "terms of GROUP BY")
        if self.take("HAVING"):
            found.having = self.expression()
        return found

    def item(self) -> Item:
        """An expression of SELECT, and its name."""
        if self.token.word == "*":
            return Item(self.star(), None)
        return Item(self.expression(), self.alias())

    def alias(self) -> Optional[str]:
        """The name behind AS, or without it."""
        if self.take("AS"):
            return self.name(is_alias=True)
        token = self.token
        if token.kind in ("quoted", "text") or token.kind == "name" and token.word not in RESERVED:
            return self.name(is_alias=True)
        return None

    def sources(self) -> list[Source]:
        """The tables of FROM."""
        found = [self.source("")]
        while joined := self.joined():
            found.append(self.source(joined))
            if self.take("ON"):
                found[-1].on = self.expression()
            elif self.take("USING"):
                found[-1].using = self.names()
        return found

    def joined(self) -> str:
        """The words that join a table to those before it."""
        if self.take(","):
            return ","
        begin = self.at
        while self.token.word in JOINS:
            self.at += 1
        if self.at == begin and self.token.word != "JOIN":
            return ""
        self.expect("JOIN")
        return " ".join(token.word for token in self.tokens[begin : self.at])

    def source(self, joined: str) -> Source:
        """A table or a query, with its name."""
        place = self.token.begin
        if self.take("("):
            if self.token.word not in ("SELECT", "WITH"):
                self.fail()
            query = self.query()
            self.expect(")")
            return Source(joined, None, query, self.alias(), None, [], place)
        table = self.name()
        if table.lower() == "main" and self.take("."):
            place, table = self.token.begin, self.name()
        if name_of(self.token) is None and self.token.word == "(":
            self.fail()
        return Source(joined, table, None, self.alias(), None, [], place)


def parsed(text: str) -> Query:
    """The query of a text; it is refused at the place where it is wrong."""
    return Parser(text).whole()
