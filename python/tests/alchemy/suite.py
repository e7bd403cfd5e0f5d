"""The tests of SQLAlchemy's suite for dialects that a store which only reads can pass.

They read one table of whole numbers and texts, which the harness makes a view of a warehouse, and
the rows that a test would insert are its facts. Left out is what needs more of a store:

- what creates tables, indexes, schemas or sequences, and looks at them: the tests of DDL, of
  identities and computed columns, and of reflection (python/tests/test_sqlalchemy.py has that);
- what inserts, updates or deletes within a test: also the round trips of types;
- nulls, as in the tests of IS DISTINCT FROM, and in the tree of the tests of WITH;
- two tables of one store, as in the tests of joins: the facts of one would be rows of the other;
- a table by its name in a text of SQL, as the views have other names.

The requirements leave out what is not in the SQL of SQLite: tuples in IN, FETCH, brackets in UNION,
and regular expressions.
"""
from __future__ import annotations

import os
from typing import Any, Iterable, Mapping

from sqlalchemy import Integer
from sqlalchemy.testing import config, suite

import cubetree

ROOM = "folders"  # for the warehouses; `w` is a link to that of the class whose turn it is


class Keeper:
    """What stands for the connection on which a test inserts its rows."""

    def __init__(self) -> None:
        self.rows: dict[Any, list[Mapping[str, Any]]] = {}

    def execute(self, statement: Any, rows: Iterable[Mapping[str, Any]]) -> None:
        """Keeps the rows of an INSERT."""
        self.rows.setdefault(statement.table, []).extend(rows)


def kept(value: Any) -> Any:
    """What is loaded: the one null of the tests of LIKE, which it does not match, as nothing."""
    return "" if value is None else value


class Kept:
    """Makes the table of a class of tests a view of a warehouse."""

    run_create_tables, run_inserts, run_deletes = None, "once", None

    @classmethod
    def define_tables(cls, metadata: Any) -> None:
        """Gives the table the name of its view."""
        super().define_tables(metadata)  # type: ignore[misc]
        for table in metadata.tables.values():
            table.name = table.fullname = "by_" + "_".join(table.columns.keys())

    @classmethod
    def _setup_once_inserts(cls) -> None:
        """Loads the rows into a new warehouse."""
        keeper = Keeper()
        cls.insert_data(keeper)  # type: ignore[attr-defined]
        ((table, rows),) = keeper.rows.items()
        columns = table.columns
        folder = os.path.join(ROOM, cls.__name__)
        os.makedirs(folder)
        with cubetree.open(folder) as warehouse:
            kinds = ["number" if isinstance(each.type, Integer) else "text" for each in columns]
            lines = [f"attr {each.name} {kind}" for each, kind in zip(columns, kinds)]
            warehouse.declare([*lines, "measure m", f"view {','.join(columns.keys())}"])
            own = [[kept(row[name]) for name in columns.keys()] for row in rows]
            warehouse.load([*row, 1] for row in own)
        if os.path.islink("w"):
            os.remove("w")
        os.symlink(folder, "w")
        config.db.dispose()


class OrderByLabelTest(Kept, suite.OrderByLabelTest):
    """Labels in ORDER BY."""


class FetchLimitOffsetTest(Kept, suite.FetchLimitOffsetTest):
    """LIMIT and OFFSET."""


class CompoundSelectTest(Kept, suite.CompoundSelectTest):
    """UNION."""


class PostCompileParamsTest(Kept, suite.PostCompileParamsTest):
    """Parameters that stand in the query as literals."""


class ExpandingBoundInTest(Kept, suite.ExpandingBoundInTest):
    """IN, also of nothing."""


class LikeFunctionsTest(Kept, suite.LikeFunctionsTest):
    """LIKE, with what it escapes."""


class ExistsTest(Kept, suite.ExistsTest):
    """EXISTS."""


class NumericTest(suite.NumericTest):
    """Decimals as parameters and back."""


DistinctOnTest = suite.DistinctOnTest
IsolationLevelTest = suite.IsolationLevelTest

for name in dir(NumericTest):
    if name.startswith("test_") and "coerce" not in name:
        setattr(NumericTest, name, None)
for name in ("test_typed_str_in", "test_untyped_str_in"):
    setattr(ExpandingBoundInTest, name, None)
for name in (
    "test_compile",
    "test_compile_literal_binds",
    "test_execute",
    "test_execute_expanding_plus_literal_execute",
):
    setattr(PostCompileParamsTest, name, None)
