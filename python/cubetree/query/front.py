"""Answers any SELECT over a warehouse.

The program answers what it can: groups of attributes that meet tests, with sums, counts, least and
greatest values. SQLite does the rest on these rows, in memory. Whole numbers are exact: SQLite has
63 bits of them, and what is greater is a Fault. A query that only names, sorts and cuts the rows of
the program does not need SQLite, and has numbers of any size.
"""
from __future__ import annotations

from contextlib import closing
from typing import Any, Callable, Mapping, Optional, Sequence

from ..codec import Answer, reader_of
from ..errors import Inexact
from ..schema import Schema
from ..values import Kind
from .analysis import Analysis, alias_node
from .core import Core
from .memory import Memory
from .parser import parsed
from .printer import written, written_query
from .pushing import Constant
from .stored import value_of
from .syntax import Item, Literal, Node, Prefix, Query, Term
from .tables import tables_of

MOST_DIGITS = 60  # of a number in a query
Records = Sequence[Sequence[str]]
Ask = Callable[[Core], Records]  # asks the program


def asked(text: str, schema: Schema, kinds: Mapping[str, Kind], ask: Ask) -> Callable[[], Answer]:
    """Asks the program for the parts of a query, one after another. What makes the answer of them
    is given, and does not need the program."""
    query, memory = parsed(text), Memory()
    try:
        analysis = Analysis(text, tables_of(schema, kinds), lambda node: constant(memory, node))
        analysis.query(query)
        direct = Direct.of(query, analysis)
        records = [ask(core) for core in analysis.cores]
    except BaseException:
        memory.close()
        raise

    def answer() -> Answer:
        """The answer, after which the database in memory is gone."""
        with closing(memory):
            if direct:
                return direct.answer(records[0])
            for core, found in zip(analysis.cores, records):
                memory.fill(core, found)
            memory.seal()
            return answer_of(query, memory.rows(written_query(query)))

    return answer


def constant(memory: Memory, node: Node) -> Constant:
    """The value of an expression without columns."""
    if isinstance(node, Literal) and node.kind == "whole":
        return whole_number(node)
    if isinstance(node, Literal) and node.kind == "text":
        return node.text[1:-1].replace("''", "'")
    if isinstance(node, Prefix) and node.sign == "-" and isinstance(node.item, Literal):
        value = constant(memory, node.item)
        return -value if isinstance(value, (int, float)) else None
    value = memory.rows(f"SELECT {written(node)}")[0][0]
    return None if isinstance(value, bytes) else value


def whole_number(node: Literal) -> int:
    """The number of a literal, which has at most the digits of a number of the program."""
    if len(node.text) > MOST_DIGITS:
        raise Inexact(f"a number of {len(node.text):,} digits: the program has 127 bits")
    return int(node.text)


def answer_of(query: Query, rows: list[tuple[Any, ...]]) -> Answer:
    """The answer of rows that SQLite has given."""
    kinds = [output.kind for output in query.outputs]
    names = [output.name for output in query.outputs]
    numeric = [is_numeric([row[place] for row in rows]) for place in range(len(names))]
    answer = Answer(names, numeric, (), kinds)
    answer.keys = keys_of(query)
    if any(kinds):
        rows = [tuple(value_of(cell, kind) for cell, kind in zip(row, kinds)) for row in rows]
    answer.extend(rows)
    return answer


def keys_of(query: Query) -> frozenset[int]:
    """The places of the columns that rows are grouped by."""
    return frozenset(place for place, output in enumerate(query.outputs) if output.is_key)


def is_numeric(cells: list[Any]) -> bool:
    """Whether a column has numbers alone."""
    there = [cell for cell in cells if cell is not None]
    return bool(there) and all(isinstance(cell, (int, float)) for cell in there)


class Direct:
    """A query that names, sorts and cuts the rows of the program, and does nothing else."""

    def __init__(self, core: Core, query: Query, keys: list[tuple[int, bool]]) -> None:
        self.core, self.query, self.keys = core, query, keys
        self.items = query.selects[0].items

    @staticmethod
    def of(query: Query, analysis: Analysis) -> Optional[Direct]:
        """The query as such a one; None if it is none."""
        select = query.selects[0]
        is_more = query.named or query.unions or select.is_distinct or select.having
        if is_more or len(analysis.cores) != 1 or len(select.sources) != 1:
            return None
        core = analysis.cores[0]
        keys = [key_of(term, select.items) for term in query.order]
        counts = [number_of(query.limit), number_of(query.offset)]
        has_all = all(item.column for item in select.items) and all(keys) and None not in counts
        if not has_all or analysis.kept_tests or select.sources[0].query:
            return None
        names = {getattr(node, "name", None) for node in select.groups}
        if names != (set(core.groups) if core.table.is_facts else set()):
            return None
        if core.table.is_facts and not names:
            return None
        return Direct(core, query, [key for key in keys if key])

    def answer(self, records: Records) -> Answer:
        """The answer of the rows of the program."""
        columns = self.core.columns()
        places = {name: place for place, name in enumerate(columns)}
        own = [columns[item.column or ""] for item in self.items]
        answer = Answer(
            [item.alias or "" for item in self.items],
            [each.is_number for each in own],
            (),
            [each.kind for each in own],
        )
        answer.keys = keys_of(self.query)
        chosen = [places[item.column or ""] for item in self.items]
        reads = [reader_of(each.is_number, each.kind) for each in own]
        rows = self.cut(self.sorted(records, chosen))
        answer.extend(tuple(read(row[place]) for read, place in zip(reads, chosen)) for row in rows)
        return answer

    def sorted(self, records: Records, chosen: list[int]) -> Records:
        """The rows in their order."""
        columns = list(self.core.columns().values())
        rows = list(records)
        for item, descends in reversed(self.keys):
            place = chosen[item]
            is_number = columns[place].is_number
            rows.sort(key=sort_key(place, is_number), reverse=descends)
        return rows

    def cut(self, rows: Records) -> Records:
        """The rows that LIMIT and OFFSET leave."""
        first = number_of(self.query.offset) or 0 if self.query.offset else 0
        most = number_of(self.query.limit) if self.query.limit else None
        return rows[first:] if most is None or most < 0 else rows[first : first + most]


def sort_key(place: int, is_number: bool) -> Callable[[Sequence[str]], Any]:
    """What rows are sorted by: the number or the bytes of a cell."""
    if is_number:
        return lambda row: int(row[place])
    return lambda row: row[place].encode("utf-8", "surrogateescape")


def number_of(node: Optional[Node]) -> Optional[int]:
    """The number of LIMIT or OFFSET; -1 where none is given, None where it is no plain number."""
    if node is None:
        return -1
    return whole_number(node) if isinstance(node, Literal) and node.kind == "whole" else None


def key_of(term: Term, items: list[Item]) -> Optional[tuple[int, bool]]:
    """The item that a term of ORDER BY is, and whether it descends; None if it is none."""
    if "NULLS" in term.ways:
        return None
    descends, node = term.ways == "DESC", term.item
    if isinstance(node, Literal) and node.kind == "whole":
        place = int(node.text[:9]) - 1
        return (place, descends) if 0 <= place < len(items) else None
    for place, item in enumerate(items):
        if node == item.item or node == alias_node(item.alias or ""):
            return place, descends
    return None
