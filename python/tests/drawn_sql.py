"""Drawn queries in SQLite's language over `facts` and the tables of views.

Each is one that sqlite3 answers in one way only: rows in a determined order, or a set of rows.
"""
from __future__ import annotations

import random
import re
from typing import Any, List, NamedTuple, Optional, Sequence, Tuple

from tests.drawn_facts import Shape
from tests.drawn_terms import Column, Source, Term, in_brackets, with_parameters
from tests.drawn_windows import Windows

QUOTED = re.compile(r"('(?:[^']|'')*'|\"[^\"]*\"| )")
COMMENTS = ("\n", "  ", "\t", " /* x, 'y' */ ", " -- it's; \n", " /**/ ")


class Query(NamedTuple):
    """A query with its parameters: whether the order of its rows is determined, the kinds of its
    columns that are bare, the names of those that have one, and whether a view covers it."""

    text: str
    parameters: List[Any]
    is_ordered: bool
    kinds: List[Optional[str]]
    names: List[Optional[str]]
    is_covered: bool = True


class Item(NamedTuple):
    """A column of a SELECT: its term and its name, perhaps None, and values that it has."""

    term: Term
    name: Optional[str]
    values: Sequence[Any] = ()

    def written(self) -> str:
        """The item as it stands in the SELECT."""
        return f"{self.term.text} AS {self.name}" if self.name else self.term.text


class Select(NamedTuple):
    """A SELECT without an order, and its columns. A compound one has one order for its parts."""

    text: str
    items: Sequence[Item]
    is_compound: bool = False


class Queries(Windows):
    """Draws queries."""

    def query(self) -> Query:
        """A query."""
        self.parameters, self.number, self.has_marks = [], 0, True
        if self.chance(0.03):
            return self.uncovered()
        select = self.select(self.pick([1, 2, 2, 3]), False)
        text, is_ordered = self.ordered(select, self.chance(0.75))
        text, parameters = with_parameters(text, self.parameters, self.decorated)
        kinds = [
            item.term.kind if item.term.is_bare and not select.is_compound else None
            for item in select.items
        ]
        return Query(text, parameters, is_ordered, kinds, [item.name for item in select.items])

    def uncovered(self) -> Query:
        """A query that no view covers."""
        names = self.some([*self.shape.attributes], 2, 4)
        while self.shape.is_covered(names):
            names = self.some([*self.shape.attributes], 2, 4)
        own, last = ", ".join(names[:-1]), names[-1]
        value = self.literal(self.pick(self.shape.values[last]))
        text = self.pick(
            [
                f"SELECT {own}, COUNT(*) FROM facts WHERE {last} = {value} GROUP BY {own}",
                f"SELECT {own}, SUM(qty) FROM facts WHERE {last} <> {value} GROUP BY {own}",
                f"SELECT {own}, COUNT(DISTINCT {last}) AS n FROM facts GROUP BY {own} ORDER BY n",
                f"SELECT DISTINCT {own}, {last} FROM facts LIMIT 5",
            ]
        )
        text, parameters = with_parameters(text, self.parameters, self.decorated)
        return Query(text, parameters, False, [], [], False)

    # ---- orders

    def ordered(self, select: Select, is_total: bool) -> Tuple[str, bool]:
        """A SELECT with an order and perhaps a limit, and whether the order is determined."""
        if not is_total:
            return select.text, False
        orders = [self.order_of(select, place) for place in range(len(select.items))]
        self.draw.shuffle(orders)
        if not select.is_compound and self.chance(0.2):
            item = self.pick(select.items)
            orders.insert(0, self.directed(self.reference(item)))
        limit = ""
        if self.chance(0.35):
            limit = f" LIMIT {self.literal(self.draw.randint(1, 9))}"
            limit += f" OFFSET {self.literal(self.draw.randrange(3))}" if self.chance(0.4) else ""
        return f"{select.text} ORDER BY {', '.join(orders)}{limit}", True

    def order_of(self, select: Select, place: int) -> str:
        """An order by a column: its number, its name or its term."""
        item = select.items[place]
        if select.is_compound:
            return (item.name or str(place + 1)) + self.pick(["", " ASC", " DESC"])
        if self.chance(0.4):
            return self.directed(str(place + 1))
        return self.directed(item.name or self.sortable(item, place))

    def sortable(self, item: Item, place: int) -> str:
        """The term of an item as an order; its number where the term is a literal."""
        return (
            str(place + 1)
            if re.fullmatch(r"[-\d.']+|\ue000.*", item.term.text)
            else (item.term.text)
        )

    def reference(self, item: Item) -> str:
        """A term over an item as an order before the others."""
        name = item.name or item.term.text
        if "OVER" in name or "\ue000" in name or "(" in name:
            return "1"
        name = in_brackets(name)
        more = [f"-({name})", f"{name} % 3"] if item.term.kind in ("whole", "amount") else []
        return self.pick([f"LENGTH({name})", f"{name} IS NULL", f"{name} || 'x'", *more])

    def directed(self, term: str) -> str:
        """An order with a direction."""
        nulls = self.pick([" NULLS FIRST", " NULLS LAST"]) if self.chance(0.1) else ""
        collation = " COLLATE BINARY" if self.chance(0.1) and in_brackets(term) == term else ""
        return term + collation + self.pick(["", "", " ASC", " DESC"]) + nulls

    # ---- SELECTs

    def select(self, depth: int, has_names: bool) -> Select:
        """A SELECT, perhaps with others in it, to a depth."""
        ways = [self.facts_grouped] * 7 + [self.facts_whole] * 3 + [self.facts_distinct]
        ways += [self.view_rows] * 2 + [self.rows_grouped, self.joined]
        if depth > 1:
            ways += [self.compound] * 2 + [self.with_tables] * 2 + [self.over_derived] * 4
        return self.pick(ways)(depth, has_names)

    def facts_grouped(self, depth: int, has_names: bool) -> Select:
        """Groups of facts."""
        return self.grouped(self.facts(1), depth, has_names)

    def facts_whole(self, depth: int, has_names: bool) -> Select:
        """Aggregates of facts without groups."""
        return self.whole(self.facts(0), depth, has_names)

    def facts_distinct(self, depth: int, has_names: bool) -> Select:
        """The different values of attributes of facts."""
        source = self.facts(1)
        terms = [self.any_term(source, 1) for _ in range(self.draw.randint(1, 3))]
        items = [self.item(term, has_names) for term in terms]
        where = self.where(source, depth)
        return Select(f"SELECT DISTINCT {listed(items)} FROM {source.text}{where}", items)

    def view_rows(self, depth: int, has_names: bool) -> Select:
        """Rows of the table of a view."""
        return self.rows(self.view(), depth, has_names)

    def rows_grouped(self, depth: int, has_names: bool) -> Select:
        """Groups of rows of the table of a view, or all of them."""
        make = self.grouped if self.chance(0.7) else self.whole
        return make(self.view(1), depth, has_names)

    def joined(self, depth: int, has_names: bool) -> Select:
        """Rows or groups of a join of tables of views."""
        return self.pick([self.rows, self.grouped])(self.join(), depth, has_names)

    def over_derived(self, depth: int, has_names: bool) -> Select:
        """Rows, groups or aggregates of a subquery after FROM."""
        make = self.pick([self.rows, self.rows, self.grouped, self.whole])
        return make(self.derived(depth - 1), depth - 1, has_names)

    def with_tables(self, depth: int, has_names: bool) -> Select:
        """A SELECT over a common table expression, perhaps beside a second one."""
        first, second = self.alias("c"), self.alias("c")
        select = self.select(depth - 1, True)
        text, _ = self.ordered(select, self.chance(0.3))
        names = [self.alias("k") for _ in select.items]
        has_list = self.chance(0.3)
        head = f"{first}({', '.join(names)})" if has_list else first
        own = names if has_list else [item.name or "" for item in select.items]
        front = f"WITH {head} AS ({text})"
        if self.chance(0.3):
            front += f", {second} AS (SELECT * FROM {first})"
            first = second
        source = Source(first, columns_of(select, own, first))
        make = self.pick([self.rows, self.grouped, self.whole])
        found = make(source, depth - 1, has_names)
        return found._replace(text=f"{front} {found.text}")

    # ---- sources

    def facts(self, least: int) -> Source:
        """`facts`, with some attributes that a view has together, at least so many."""
        views = [view for view in self.shape.views if len(view) >= least]
        names = self.some(self.pick(views), least, 3)
        return self.facts_of(names, self.alias("f") if self.chance(0.25) else None)

    def facts_of(self, names: Sequence[str], alias: Optional[str]) -> Source:
        """`facts` with these attributes."""
        table, kinds = alias or "facts", self.shape.kinds()
        word = self.pick([" AS ", " "])
        return Source(
            f"facts{word}{alias}" if alias else self.pick(["facts", "facts", '"facts"']),
            [Column(name, kinds[name], table, False, self.shape.values[name]) for name in names],
            [Column(name, kinds[name], table) for name in self.shape.measures],
            True,
        )

    def view(self, least: int = 0, name: str = "", is_qualified: bool = False) -> Source:
        """The table of a view, which has at least so many attributes."""
        tables = self.shape.tables()
        name = name or self.pick([each for each, view in tables.items() if len(view) >= least])
        has_alias = is_qualified or self.chance(0.2)
        alias = self.alias("v") if has_alias else name
        columns = [
            Column(each, kind, alias, is_qualified, self.shape.values.get(each, ()))
            for each, kind in self.shape.columns_of(tables[name]).items()
        ]
        return Source(f"{name} AS {alias}" if has_alias else name, columns)

    def join(self) -> Source:
        """Two tables of views, joined by an attribute that both have."""
        tables = self.shape.tables()
        shared = self.pick([name for name in self.shape.attributes if self.views_with(name)[1:]])
        one, other = self.draw.sample(self.views_with(shared), 2)
        left, right = self.view(0, one, True), self.view(0, other, True)
        names = [source.columns[0].table for source in (left, right)]
        on = f"{names[0]}.{shared} = {names[1]}.{shared}"
        if self.chance(0.2):
            both = [name for name in tables[one] if name in tables[other]]
            on = " AND ".join(f"{names[0]}.{name} = {names[1]}.{name}" for name in both)
        text = self.pick(
            [
                f"{left.text} JOIN {right.text} ON {on}",
                f"{left.text} INNER JOIN {right.text} ON {on} AND {names[1]}.count > 1",
                f"{left.text} LEFT JOIN {right.text} ON {on} AND {names[1]}.sum_qty > 40",
                f"{left.text} JOIN {right.text} USING ({shared})",
                f"{left.text}, {right.text}",
                f"{left.text} CROSS JOIN total AS t",
            ]
        )
        columns = [*left.columns, *(right.columns if right.text in text else ())]
        return Source(text, columns)

    def views_with(self, attribute: str) -> List[str]:
        """The tables of views that have an attribute."""
        return [name for name, view in self.shape.tables().items() if attribute in view]

    def derived(self, depth: int) -> Source:
        """A subquery after FROM."""
        select, alias = self.select(depth, True), self.alias("d")
        text, _ = self.ordered(select, self.chance(0.3))
        names = [item.name or "" for item in select.items]
        word = self.pick(["AS ", ""])
        return Source(f"({text}) {word}{alias}", columns_of(select, names, alias))

    # ---- parts of a SELECT

    def item(self, term: Term, has_name: bool, values: Sequence[Any] = ()) -> Item:
        """A term as a column, with a name or not."""
        has_name = has_name or self.chance(0.4)
        return Item(term, self.alias(self.pick("abkns")) if has_name else None, values)

    def where(self, source: Source, depth: int) -> str:
        """A condition of rows, or none."""
        if not source.columns or self.chance(0.45):
            return ""
        return f" WHERE {self.test(source, depth)}"

    def rows(self, source: Source, depth: int, has_names: bool) -> Select:
        """Rows of a source."""
        if self.chance(0.15) and not has_names and not source.columns[0].is_qualified:
            items = [
                Item(Term(each.name, each.kind, each.is_own), each.name, each.values)
                for each in source.columns
            ]
            return Select(f"SELECT * FROM {source.text}{self.where(source, depth)}", items)
        terms = [self.any_term(source, depth - 1) for _ in range(self.draw.randint(1, 4))]
        if self.chance(0.2):
            terms.append(self.window_of_rows(source))
        if self.chance(0.15):
            terms.append(self.scalar(source.columns, depth))
        items = [self.item(term, has_names) for term in terms]
        word = "DISTINCT " if self.chance(0.15) else ""
        where = self.where(source, depth)
        return Select(f"SELECT {word}{listed(items)} FROM {source.text}{where}", items)

    def whole(self, source: Source, depth: int, has_names: bool) -> Select:
        """Aggregates of all rows of a source."""
        terms = [self.one_aggregate(source, depth) for _ in range(self.draw.randint(1, 4))]
        if self.chance(0.1):
            terms.append(self.scalar([], depth))
        items = [self.item(term, has_names) for term in terms]
        return Select(
            f"SELECT {listed(items)} FROM {source.text}{self.where(source, depth)}", items
        )

    def one_aggregate(self, source: Source, depth: int) -> Term:
        """An aggregate, or a term of some."""
        if self.chance(0.75):
            return self.aggregate(source, min(depth, 2))
        return self.of_aggregates(source, min(depth, 2))

    def grouped(self, source: Source, depth: int, has_names: bool) -> Select:
        """Groups of a source."""
        keys = self.keys(source)
        bare = [column for _, column in keys if column]
        groups = Source("", bare)
        items = [
            self.item(term, has_names, column.values if column else ())
            for term, column in keys
            if self.chance(0.85)
        ]
        terms = [self.one_aggregate(source, depth) for _ in range(self.draw.randrange(0, 4))]
        if self.chance(0.2):
            terms.append(self.window_of_groups(source, [term for term, _ in keys]))
        if bare and self.chance(0.15):
            terms.append(self.any_term(groups, 1))
        if self.chance(0.12):
            terms.append(self.scalar(bare, depth))
        items += [self.item(term, has_names) for term in terms]
        items = items or [self.item(Term("COUNT(*)", "whole"), has_names)]
        self.draw.shuffle(items)
        group = ", ".join(self.group_of(term, items) for term, _ in keys)
        having = f" HAVING {self.having(source, groups, depth)}" if self.chance(0.3) else ""
        word = "DISTINCT " if self.chance(0.05) else ""
        where = self.where(source, depth)
        text = f"SELECT {word}{listed(items)} FROM {source.text}{where} GROUP BY {group}{having}"
        return Select(text, items)

    def keys(self, source: Source) -> List[Tuple[Term, Optional[Column]]]:
        """What is grouped by, each with the column that it is, if it is one."""
        self.has_marks = False
        attributes = [each for each in source.columns if each.kind != "amount"] or source.columns
        bare = self.some(attributes, 1, 3)
        keys: List[Tuple[Term, Optional[Column]]] = [
            (Term(self.named(column), column.kind, column.is_own), column) for column in bare
        ]
        if self.chance(0.35):
            narrow = Source("", [*bare])
            keys[-1] = (self.any_term(narrow, 1)._replace(is_bare=False), None)
        self.has_marks = True
        return keys

    def group_of(self, term: Term, items: Sequence[Item]) -> str:
        """A key as it stands in GROUP BY: its term, its number or its name."""
        for place, item in enumerate(items, 1):
            if item.term is term and self.chance(0.4):
                return item.name or str(place) if self.chance(0.6) else str(place)
        return term.text

    def having(self, source: Source, groups: Source, depth: int) -> str:
        """A test of groups."""
        if groups.columns and self.chance(0.25):
            return self.test(groups, 1)
        if depth > 1 and self.chance(0.15):
            return f"COUNT(*) > {self.scalar([], depth, ['COUNT(*)']).text} / 20"
        return self.aggregate_test(source, 1)

    # ---- compounds

    def compound(self, depth: int, has_names: bool) -> Select:
        """Two or three SELECTs whose rows go together."""
        attribute = self.pick([*self.shape.attributes])
        has_sum, word = self.chance(0.5), self.alias("k")
        parts = [self.part(attribute, has_sum, depth) for _ in range(self.draw.randint(2, 3))]
        words = ["UNION ALL", "UNION", "EXCEPT", "INTERSECT"] if not has_sum else ["UNION ALL"]
        first = f"SELECT {attribute} AS {word}"
        if not parts[0].startswith(("SELECT DISTINCT", "SELECT MAX")):
            parts[0] = parts[0].replace(f"SELECT {attribute}", first, 1)
        text = parts[0]
        for part in parts[1:]:
            text += f" {self.pick(words)} {part}"
        is_named = parts[0].startswith(first)
        if not is_named or has_sum:
            text, is_named = f"SELECT * FROM ({text})", False
        kind = self.shape.attributes[attribute]
        items = [Item(Term(attribute, kind), word if is_named else None)]
        items += [Item(Term("2", "whole"), None)] if has_sum else []
        return self.renamed(Select(text, items, True), has_names)

    def renamed(self, select: Select, has_names: bool) -> Select:
        """A compound SELECT whose columns have names, where they have to."""
        if not has_names or all(item.name for item in select.items):
            return select
        names = [self.alias("u") for _ in select.items]
        table = self.alias("t")
        items = [Item(Term(name, item.term.kind), name) for name, item in zip(names, select.items)]
        text = f"WITH {table}({', '.join(names)}) AS ({select.text}) SELECT * FROM {table}"
        return Select(text, items, True)

    def part(self, attribute: str, has_sum: bool, depth: int) -> str:
        """A part of a compound SELECT, of an attribute and perhaps a sum."""
        if self.chance(0.5):
            source = self.view(0, self.pick(self.views_with(attribute)))
            more = f", {self.pick(['sum_qty', 'count', 'max_qty'])}" if has_sum else ""
            word = "DISTINCT " if not has_sum and self.chance(0.3) else ""
            return f"SELECT {word}{attribute}{more} FROM {source.text}{self.where(source, 1)}"
        source = self.facts_of(self.attributes_beside(attribute), None)
        where = self.where(source, depth - 1)
        more = f", {self.pick(['SUM(qty)', 'COUNT(*)', 'MIN(qty)'])}" if has_sum else ""
        if self.chance(0.2):
            return f"SELECT MAX({attribute}){more} FROM {source.text}{where}"
        return f"SELECT {attribute}{more} FROM {source.text}{where} GROUP BY {attribute}"

    def attributes_beside(self, attribute: str) -> List[str]:
        """An attribute with others that a view has beside it."""
        view = self.pick([view for view in self.shape.views if attribute in view])
        return [attribute, *self.some([name for name in view if name != attribute], 0, 2)]

    # ---- subqueries in expressions

    def scalar(
        self, outer: Sequence[Column], depth: int, asked: Optional[Sequence[str]] = None
    ) -> Term:
        """A subquery of one value, which may name a column of the SELECT around it."""
        item = self.pick(asked or ["SUM(qty)", "COUNT(*)", "MAX(qty)", "MIN(year)", "AVG(qty)"])
        own = [each for each in outer if each.name in self.shape.attributes]
        kind = "real" if item.startswith("AVG") else "whole"
        if own and self.chance(0.6):
            column = self.pick(own)
            needed = [column.name] + (["year"] if "year" in item else [])
            if self.shape.is_covered(needed):
                table = self.alias("g")
                on = f"{table}.{column.name} = {column.table}.{column.name}"
                return Term(f"(SELECT {item} FROM facts AS {table} WHERE {on})", kind)
        if self.chance(0.5):
            name = self.pick([*self.shape.tables()])
            return Term(f"(SELECT MAX(sum_qty) FROM {name})", "whole")
        names = ["year"] if "year" in item else self.some(self.pick(self.shape.views), 0, 2)
        source = self.facts_of(names, None)
        return Term(f"(SELECT {item} FROM facts{self.where(source, depth - 1)})", kind)

    def subquery_test(self, source: Source, depth: int) -> Optional[str]:
        """A test with a subquery; None where no column is an attribute."""
        own = [each for each in source.columns if each.name in self.shape.attributes]
        if not own:
            return None
        column = self.pick(own)
        name, way = self.named(column), self.draw.randrange(5)
        if way == 0:
            return f"{name} {self.pick(['IN', 'NOT IN'])} ({self.one_column(column.name, depth)})"
        if way == 1:
            word = self.pick(["MIN", "MAX"])
            inner = self.facts_of([column.name], None)
            where = self.where(inner, 0)
            sign = self.pick(["=", "<", ">=", "<>"])
            return f"{name} {sign} (SELECT {word}({column.name}) FROM facts{where})"
        if way == 2 and column.kind == "whole":
            return f"{name} > {self.scalar([], depth, ['AVG(year)', 'MIN(year)']).text}"
        table = self.alias("v")
        view = self.pick(self.views_with(column.name))
        on = f"{table}.{column.name} = {column.table}.{column.name}"
        more = f" AND {table}.{self.pick(['sum_qty > 30', 'count > 3', 'min_qty < 0'])}"
        word = self.pick(["EXISTS", "EXISTS", "NOT EXISTS"])
        return f"{word} (SELECT 1 FROM {view} AS {table} WHERE {on}{more})"

    def one_column(self, attribute: str, depth: int) -> str:
        """A subquery of values of an attribute."""
        if self.chance(0.4):
            source = self.view(0, self.pick(self.views_with(attribute)))
            return f"SELECT {attribute} FROM {source.text}{self.where(source, depth - 1)}"
        source = self.facts_of(self.attributes_beside(attribute), None)
        where = self.where(source, depth - 1)
        if self.chance(0.4):
            return f"SELECT DISTINCT {attribute} FROM {source.text}{where}"
        having = f" HAVING {self.aggregate_test(source, 0)}" if self.chance(0.5) else ""
        order = f" ORDER BY {attribute} LIMIT 3" if self.chance(0.3) else ""
        return f"SELECT {attribute} FROM {source.text}{where} GROUP BY {attribute}{having}{order}"

    # ---- what changes no answer

    def decorated(self, text: str) -> str:
        """The query as it may be written: with comments, in small letters, with semicolons."""
        pieces = QUOTED.split(text)
        if self.chance(0.4):
            pieces = [piece if piece[:1] in ("'", '"') else piece.lower() for piece in pieces]
        if self.chance(0.3):
            pieces = [
                self.pick(COMMENTS) if piece == " " and self.chance(0.15) else piece
                for piece in pieces
            ]
        return "".join(pieces) + self.pick(["", "", "", ";", " ; ", "; -- end"])


def listed(items: Sequence[Item]) -> str:
    """The items of a SELECT."""
    return ", ".join(item.written() for item in items)


def columns_of(select: Select, names: Sequence[str], table: str) -> List[Column]:
    """The columns of a subquery as a SELECT around it may name them."""
    return [
        Column(name, item.term.kind, table, False, item.values, False)
        for name, item in zip(names, select.items)
    ]


def drawn_query(shape: Shape, draw: random.Random) -> Query:
    """A drawn query over the facts of a shape."""
    return Queries(shape, draw).query()
