"""The tables that SQL finds in a warehouse: `facts`, and one for each view.

`facts` has the attributes and the measures of the schema. The view of part and year is the table
`by_part_year`: it has these attributes, `count`, and `sum_qty`, `min_qty` and `max_qty` for each
measure `qty`. The view of no attribute is `total`.
"""
from __future__ import annotations

from itertools import count
from typing import Container, Mapping, NamedTuple, Optional

from ..schema import Schema
from ..values import Kind

FACTS = "facts"
OF_MEASURES = ("sum", "min", "max")


class Column(NamedTuple):
    """A column of a table: what the program is asked for it, whether it has numbers, and its kind.
    A measure of `facts` cannot be asked for by itself: `asked` is its name."""

    name: str
    asked: str
    is_number: bool
    kind: Optional[Kind]


class Table(NamedTuple):
    """A table: its name, the attributes that it has a row for each combination of, and its other
    columns. The rows of `facts` are not kept."""

    name: str
    attributes: tuple[Column, ...]
    values: tuple[Column, ...]

    @property
    def is_facts(self) -> bool:
        """Whether this is the table of single facts."""
        return self.name == FACTS

    def columns(self) -> tuple[Column, ...]:
        """All columns."""
        return self.attributes + self.values

    def query(self) -> str:
        """The query for all rows of a view, as the program takes it."""
        own = [column.asked for column in self.attributes]
        items = own + [column.asked for column in self.values]
        group = f" GROUP BY {', '.join(own)}" if own else ""
        return f"SELECT {', '.join(items)} FROM facts{group}"


def tables_of(schema: Schema, kinds: Mapping[str, Kind]) -> dict[str, Table]:
    """The tables by their names."""
    measures = tuple(Column(name, name, True, kinds.get(name)) for name in schema.measures)
    facts = Table(FACTS, attributes_of(schema.attributes, schema, kinds), measures)
    tables = {FACTS: facts}
    for view in schema.views:
        names = view.split(",") if view else []
        name = free_name("by_" + "_".join(names) if names else "total", tables)
        own = attributes_of(names, schema, kinds)
        tables[name] = Table(name, own, values_of(names, schema, kinds))
    return tables


def attributes_of(
    names: list[str], schema: Schema, kinds: Mapping[str, Kind]
) -> tuple[Column, ...]:
    """The columns of attributes."""
    return tuple(Column(name, name, name in schema.numbers, kinds.get(name)) for name in names)


def values_of(taken: list[str], schema: Schema, kinds: Mapping[str, Kind]) -> tuple[Column, ...]:
    """The columns of a view beside these attributes."""
    names = list(taken)
    found = [Column(free_name("count", names), "COUNT(*)", True, None)]
    for measure in schema.measures:
        for word in OF_MEASURES:
            names.append(found[-1].name)
            name = free_name(f"{word}_{measure}", names)
            found.append(Column(name, f"{word.upper()}({measure})", True, kinds.get(measure)))
    return tuple(found)


def free_name(name: str, taken: Container[str]) -> str:
    """A name that is not taken: itself, or with a number behind it."""
    others = (f"{name}_{number}" for number in count(2))
    return name if name not in taken else next(each for each in others if each not in taken)
