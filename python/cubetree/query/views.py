"""The views of a warehouse as tables, at one moment between two batches."""
from __future__ import annotations

from typing import Mapping, Optional, Sequence

from ..codec import Answer
from ..errors import Fault, Refused
from ..questions import sent
from ..schema import Schema
from ..session import Session
from ..ui import shown
from ..values import Kind
from .tables import Table, tables_of


class Views:
    """The views of a schema, as tables by their names."""

    def __init__(self, schema: Optional[Schema], kinds: Mapping[str, Kind]) -> None:
        tables = tables_of(schema, kinds).values() if schema else ()
        self.tables = {table.name: table for table in tables if not table.is_facts}
        self.is_declared = schema is not None

    def find(self, name: str) -> Optional[Table]:
        """The view of a name, which is that of its table, or its attributes as `part,year`."""
        views = {called(table): table for table in self.tables.values()}
        return self.tables.get(name) or views.get(name)

    def missing(self, name: str) -> Fault:
        """The fault of a name that no view has."""
        if not self.is_declared:
            return Fault("no schema is declared in the folder")
        there = "; ".join(map(called, self.tables.values()))
        return Fault(f"no view has the name {shown(name)}; there are {there}")

    def named(self, names: Sequence[str]) -> list[Table]:
        """The views of these names, or all views without names; a fault if one is not there, or is
        there twice."""
        if not self.is_declared:
            raise self.missing("")
        found: dict[str, Table] = {}
        for name in names:
            table = self.find(name)
            if table is None:
                raise self.missing(name)
            if table.name in found:
                raise Fault(f"the view {called(table)} is named twice")
            found[table.name] = table
        return list(found.values()) if names else list(self.tables.values())


def called(table: Table) -> str:
    """A view as you name it."""
    return ",".join(column.name for column in table.attributes) or table.name


def slice_of(table: Table) -> str:
    """The slice of all rows of a view. It may have any names, where a query in SQL has no words of
    SQL as names."""
    columns = [column.asked.lower().replace("count(*)", "count") for column in table.values]
    groups = ",".join(column.name for column in table.attributes)
    return ",".join(columns) + (f" by {groups}" if groups else "")


class Moment:
    """The views of one run of the program, and how many facts there are meanwhile."""

    def __init__(self, session: Session, kinds: Mapping[str, Kind]) -> None:
        self._session, self.views = session, Views(session.schema, kinds)
        self.facts = int(session.ask(b"status\n").split()[1]) if session.schema else 0

    def records(self, table: Table) -> list[list[str]]:
        """The rows of a view, as the program writes them."""
        records, last = self._session.answer(b"slice " + sent(slice_of(table)))
        if last.startswith("refused "):
            raise Refused(last)
        return records

    def answer(self, table: Table) -> Answer:
        """The rows of a view, as Python has them."""
        columns = table.columns()
        return Answer(
            [column.name for column in columns],
            [column.is_number for column in columns],
            self.records(table),
            [column.kind for column in columns],
        )
