"""Finds out what a query asks for: which columns its names are, and what the program is asked."""
from __future__ import annotations

from typing import Mapping, Optional

from .core import Core
from .dates import settle_dates
from .expressions import AND
from .facts import Facts
from .kinds import kind_of
from .names import Output, Scope, Seen
from .printer import quoted
from .pushing import Evaluate, Pusher
from .syntax import (
    Call,
    Chain,
    In,
    Inner,
    Item,
    Literal,
    Made,
    Name,
    Node,
    Query,
    Select,
    Source,
    Star,
    Term,
    queries_in,
    walk,
)
from .tables import Table
from .tokens import refuse

Named = Mapping[str, list[Output]]
MOST_TABLES = 64  # as SQLite has it for one FROM
MEASURED = ("SUM", "MIN", "MAX")


class Analysis:
    """A query over these tables, with what the program is asked for it."""

    def __init__(self, text: str, tables: Mapping[str, Table], evaluate: Evaluate) -> None:
        self.text, self.tables, self.evaluate = text, tables, evaluate
        self.cores: list[Core] = []
        self.kept_tests = 0  # tests of tables that the program does not make

    def query(self, query: Query, parent: Optional[Scope] = None, named: Named = {}) -> None:
        """Analyses a query, whose columns stand in `outputs` then."""
        known = named
        if query.named:
            known = own = dict(named)
            for name, columns, inner in query.named:
                self.query(inner, parent, own)
                own[name.lower()] = renamed(inner.outputs, columns)
        is_one = len(query.selects) == 1
        found = [
            self.select(select, query.order if is_one else [], parent, known)
            for select in query.selects
        ]
        kinds = [
            {outputs[place].kind for outputs in found if place < len(outputs)}
            for place in range(len(found[0]))
        ]
        query.outputs = [
            output._replace(kind=output.kind if len(own) == 1 else None)
            for output, own in zip(found[0], kinds)
        ]

    def select(
        self, select: Select, order: list[Term], parent: Optional[Scope], named: Named
    ) -> list[Output]:
        """Analyses a SELECT, and the order of its rows; gives its columns."""
        scope = Scope(select, parent, self.text)
        for source in select.sources:
            scope.seen.append(self.seen(source, parent, named))
        if len(scope.seen) > 1 and any(is_facts(seen) for seen in scope.seen):
            hint = "facts cannot be joined: join tables of views, such as by_part"
            refuse("table", self.text, select.sources[1].place, hint)
        for source in select.sources:
            self.take_joined(source, scope)
        self.spread(scope)
        for term in order:
            if isinstance(term.item, Name) and scope.alias(term.item) is not None:
                term.item = alias_node(scope.alias(term.item) or "")
        outer = [item.item for item in select.items] + [term.item for term in order]
        outer += [select.having] if select.having else []
        tests = [select.where] if select.where else []
        joins = [source.on for source in select.sources if source.on]
        self.inspect([*tests, *joins, *select.groups], scope, named)
        scope.correlated = self.inspect(outer, scope, named)
        outputs = [self.output(item, scope) for item in select.items]
        self.rewrite(scope, order)
        return outputs

    def seen(self, source: Source, parent: Optional[Scope], named: Named) -> Seen:
        """What a table of FROM is."""
        if source.query:
            self.query(source.query, parent, named)
            return Seen(source.alias or "", source.query.outputs)
        name = (source.table or "").lower()
        alias = source.alias or source.table or ""
        if name in named:
            return Seen(alias, named[name])
        table = self.tables.get(name)
        if table is None:
            there = f"there are {', '.join(self.tables)}"
            refuse(
                "table", self.text, source.place, f"no table has the name {source.table}; {there}"
            )
        if len(self.cores) == MOST_TABLES:
            refuse("table", self.text, source.place, f"more than {MOST_TABLES} tables")
        core = Core(len(self.cores), table)
        self.cores.append(core)
        source.table, source.alias = core.name, alias
        for column in table.attributes if not table.is_facts else ():
            core.group(column.name)
        own = [Output(column.name, column.kind, is_key=True) for column in table.attributes]
        values = [Output(column.name, column.kind, table.is_facts) for column in table.values]
        return Seen(alias, own + values, core)

    def take_joined(self, source: Source, scope: Scope) -> None:
        """Takes the columns of views by which a table is joined without naming its column."""
        is_natural = "NATURAL" in source.joined
        names = {name.lower() for name in source.using}
        for seen in scope.seen if names or is_natural else ():
            for output in seen.outputs:
                if seen.core and (is_natural or output.name.lower() in names):
                    seen.core.take(output.name)

    def spread(self, scope: Scope) -> None:
        """Puts the columns in place of each `*` of SELECT."""
        items: list[Item] = []
        for item in scope.select.items:
            if isinstance(item.item, Star):
                items += self.all_columns(item.item, scope)
            else:
                items.append(item)
        scope.select.items = items

    def all_columns(self, star: Star, scope: Scope) -> list[Item]:
        """The columns that a `*` stands for."""
        wanted = [
            (seen, source)
            for seen, source in zip(scope.seen, scope.select.sources)
            if star.table is None or star.table.lower() == seen.alias.lower()
        ]
        if not wanted:
            refuse("syntax", self.text, star.begin, "no table stands for this `*`")
        if is_facts(wanted[0][0]):
            hint = "name attributes and group by them, or ask for all columns of a view"
            scope.refuse_single(star.begin, "this asks for a row of each fact", hint)
        found: list[Item] = []
        for seen, source in wanted:
            joined = {name.lower() for name in source.using} if star.table is None else set()
            if "NATURAL" in source.joined and star.table is None:
                joined = {item.alias.lower() for item in found if item.alias}
            for output in seen.outputs:
                if output.name.lower() not in joined:
                    found.append(Item(Name(seen.alias, output.name).at(star), output.name))
        return found

    # ---- names

    def inspect(self, nodes: list[Node], scope: Scope, named: Named) -> list[Name]:
        """Finds the columns of expressions, and analyses the queries within them. The names in
        these queries that are columns of this scope are the result."""
        before = len(scope.correlated)
        for node in nodes:
            for each in walk(node):
                if isinstance(each, Name):
                    self.settle(each, scope)
            for each in walk(node):
                settle_dates(each, scope)
                drop_repetitions(each)
            for inner in queries_in(node):
                self.query(inner, scope, named)
        return scope.correlated[before:]

    def settle(self, name: Name, scope: Scope) -> None:
        """Names the table of a column, and notes what the program is asked for it."""
        column = scope.find(name)
        if column is None:
            if scope.alias(name) is None:
                scope.refuse_name(name)
            return
        self.expect_one(name, column.scope)
        seen, output = column.seen, column.output
        name.table, name.name = seen.alias, output.name
        if column.scope is not scope:
            column.scope.correlated.append(name)
        if not seen.core:
            return
        if not seen.core.table.is_facts:
            seen.core.take(output.name)
        elif column.scope is not scope and output.is_measure:
            scope.refuse_single(name.begin, f"{output.name} is a measure")
        elif column.scope is not scope:
            seen.core.group(output.name)

    def expect_one(self, name: Name, scope: Scope) -> None:
        """Refuses a name without a table that several tables have."""
        if name.table is not None:
            return
        lower = name.name.lower()
        having = [
            source
            for seen, source in zip(scope.seen, scope.select.sources)
            if lower in seen.by_name
        ]
        others = [
            source
            for source in having[1:]
            if "NATURAL" not in source.joined and lower not in map(str.lower, source.using)
        ]
        if others:
            refuse(
                "name", self.text, name.begin, f"several tables have {name.name}: name the table"
            )

    # ---- columns

    def output(self, item: Item, scope: Scope) -> Output:
        """The column of an item, which gets a name if it has none."""
        node = item.item
        if item.alias is None:
            as_written = self.text[node.begin : node.end]
            item.alias = node.name if isinstance(node, Name) else as_written
        item.column = column_of(node, scope)
        column = scope.find(node) if isinstance(node, Name) else None
        is_key = column.output.is_key if column else self.is_grouped(item, scope.select)
        return Output(item.alias, kind_of(node, scope), is_key=is_key)

    def is_grouped(self, item: Item, select: Select) -> bool:
        """Whether a SELECT groups by one of its items: by its text, its name or its number."""
        number = str(select.items.index(item) + 1)
        forms = (item.item, Name(None, item.alias or ""), Literal(number, "whole"))
        return any(node in forms for node in select.groups)

    def rewrite(self, scope: Scope, order: list[Term]) -> None:
        """Lets the program make the tests that it can, and rewrites what is asked of facts."""
        select, core = scope.select, scope.facts
        left: list[Node] = []
        for test in conjuncts(select.where):
            pushed = any(
                Pusher(scope, seen.core, self.evaluate).take(test)
                for seen in scope.seen
                if seen.core
            )
            if not pushed or not core:
                left.append(test)
            self.kept_tests += not pushed
        if core:
            facts = Facts(scope, core)
            left = [facts.rewrite(test) for test in left]
            facts.rewrite_select(select, order)
        else:
            self.sum_exactly(select, order, scope)
        select.where = Chain(AND, left, ["AND"] * (len(left) - 1)) if left else None

    def sum_exactly(self, select: Select, order: list[Term], scope: Scope) -> None:
        """Sums amounts without rounding."""
        nodes = [item.item for item in select.items] + [term.item for term in order]
        for node in [*nodes, *([select.having] if select.having else [])]:
            for each in walk(node):
                if isinstance(each, Call) and each.name.upper() == "SUM" and not each.over:
                    kind = kind_of(each, scope)
                    each.name = f"exact_sum{kind.places}" if kind else each.name


def is_facts(seen: Seen) -> bool:
    """Whether this is the table of single facts."""
    return seen.core is not None and seen.core.table.is_facts


def alias_node(alias: str) -> Made:
    """The name of an item in ORDER BY."""
    return Made([quoted(alias)])


def renamed(outputs: list[Output], names: list[str]) -> list[Output]:
    """Columns with other names, if there are some."""
    if not names:
        return outputs
    return [output._replace(name=name) for output, name in zip(outputs, names)]


def drop_repetitions(node: Node) -> None:
    """Lets a query behind IN or EXISTS have each row once, which changes nothing there."""
    query = node.among if isinstance(node, In) and isinstance(node.among, Query) else None
    if isinstance(node, Inner) and node.is_exists:
        query = node.query
    if query and query.limit is None:
        for select in query.selects:
            select.is_distinct = True


def conjuncts(node: Optional[Node]) -> list[Node]:
    """The tests that all have to hold."""
    if node is None:
        return []
    if isinstance(node, Chain) and node.level == AND:
        return [each for item in node.items for each in conjuncts(item)]
    return [node]


def column_of(node: Node, scope: Scope) -> Optional[str]:
    """The column of the program's answer that an expression is, if the only table of this scope is
    one of the program."""
    core = scope.seen[0].core if len(scope.seen) == 1 else None
    output = scope.own(node)
    if core and output and not output.is_measure:
        return output.name
    if not core or not core.table.is_facts or not isinstance(node, Call):
        return None
    if node.is_distinct or node.where or node.over or len(node.items) != 1:
        return None
    word, item = node.name.upper(), node.items[0]
    if word == "COUNT" and (isinstance(item, Star) or scope.is_measure(item)):
        return "#count"
    measure = scope.own(item)
    if word in MEASURED and measure and measure.is_measure:
        return f"#{word.lower()}_{measure.name}"
    return None
