"""The dialect `cubetree` of SQLAlchemy 1.4 and 2: `cubetree:///folder`, or `cubetree:////folder`
for one from the root. With `?wait=no` a query is an error where it would wait for another run.

Queries are compiled as for SQLite. The tables are `facts` and one for each view, and SQL only reads
them: what would write is a NotSupportedError. Each query is of one moment between two batches, so
the isolation level is READ COMMITTED. A connection holds no lock between two queries.
"""
from __future__ import annotations

import os
import re
from decimal import Decimal
from typing import Any, Mapping, Optional, Sequence

from sqlalchemy import exc, types
from sqlalchemy.dialects.sqlite.base import (
    SQLiteCompiler,
    SQLiteIdentifierPreparer,
    SQLiteTypeCompiler,
)
from sqlalchemy.engine.default import DefaultDialect

from .. import dbapi
from ..errors import Fault
from ..query.tables import Column, Table

LEVELS = ("READ COMMITTED", "AUTOCOMMIT")
FIRST_WORD = re.compile(r"(?:[\s(;]|--[^\n]*|/\*.*?\*/)*(\w*)", re.DOTALL)
READS = ("SELECT", "WITH", "VALUES", "")
MOST_DIGITS = 39  # of a sum
SCALE = 10  # decimals of an expression that says none
WORDS = {
    "COUNT": "how many facts there are",
    "SUM": "the sum of {}",
    "MIN": "the least {}",
    "MAX": "the greatest {}",
}
FORMS = "cubetree:///folder, or cubetree:////folder from the root"
CACHED = "tables of cubetree"  # by an inspector
Reflected = dict[str, Any]


class Amount(types.Numeric):
    """An amount, which is a Decimal also where an expression is a floating-point number."""

    def result_processor(self, dialect: Any, coltype: Any) -> Any:
        """What makes a value of what a cursor has."""
        if not self.asdecimal:
            return super().result_processor(dialect, coltype)
        scale = self.decimal_return_scale or self.scale or SCALE
        return lambda value: (Decimal(f"{value:.{scale}f}") if isinstance(value, float) else value)


class CubetreeDialect(DefaultDialect):
    """How SQLAlchemy asks a warehouse."""

    name = driver = "cubetree"
    statement_compiler = SQLiteCompiler
    type_compiler = type_compiler_cls = SQLiteTypeCompiler
    preparer = SQLiteIdentifierPreparer
    colspecs = {types.Numeric: Amount}
    default_paramstyle = "qmark"
    supports_statement_cache = True
    supports_native_decimal = True
    supports_alter = False
    supports_empty_insert = False
    supports_comments = True
    supports_cast = True
    div_is_floordiv = True

    def __init__(self, isolation_level: Optional[str] = None, **words: Any) -> None:
        super().__init__(**words)
        if isolation_level is not None:
            checked_level(isolation_level)

    @classmethod
    def import_dbapi(cls) -> Any:
        """The module of PEP 249."""
        return dbapi

    @classmethod
    def dbapi(cls) -> Any:
        """The same, by its name before SQLAlchemy 2."""
        return dbapi

    # ---- connections

    def create_connect_args(self, url: Any) -> tuple[list[Any], Reflected]:
        """What `cubetree.connect` is called with for a URL."""
        if url.username or url.password or url.host or url.port:
            raise exc.ArgumentError(f"{url} names a machine or a user: write {FORMS}")
        unknown = sorted(set(url.query) - {"wait"})
        wait = url.query.get("wait", "yes")
        if unknown or wait not in ("yes", "no"):
            wrong = unknown[0] if unknown else f"wait={wait}"
            raise exc.ArgumentError(
                f"{url} has {wrong} behind `?`: there may be wait=yes or wait=no"
            )
        return [url.database or "."], {"wait": wait == "yes"}

    def initialize(self, connection: Any) -> None:
        """Asks nothing, so that the first connection waits for no run."""
        self.server_version_info = self.default_schema_name = None
        self.default_isolation_level = LEVELS[0]

    def do_ping(self, dbapi_connection: Any) -> bool:
        """Whether a connection from the pool may be used."""
        return os.path.isdir(dbapi_connection.warehouse.folder)

    def get_isolation_level(self, dbapi_connection: Any) -> str:
        """That of the connection."""
        level: str = getattr(dbapi_connection, "isolation_level", LEVELS[0])
        return level

    def set_isolation_level(self, dbapi_connection: Any, level: str) -> None:
        """Takes a level, by which nothing changes."""
        dbapi_connection.isolation_level = checked_level(level)

    def get_isolation_level_values(self, dbapi_connection: Any) -> list[str]:
        """The levels that there are."""
        return list(LEVELS)

    # ---- statements

    def do_execute(
        self, cursor: Any, statement: str, parameters: Sequence[Any], context: Any = None
    ) -> None:
        """Executes a query; what would write is refused by its first word."""
        check_reads(statement)
        cursor.execute(statement, parameters)

    def do_execute_no_params(self, cursor: Any, statement: str, context: Any = None) -> None:
        """The same, for a query without parameters."""
        check_reads(statement)
        cursor.execute(statement)

    def do_executemany(
        self, cursor: Any, statement: str, parameters: Sequence[Any], context: Any = None
    ) -> None:
        """Refuses it in the same way."""
        check_reads(statement)
        cursor.executemany(statement, parameters)

    # ---- reflection

    def _tables(self, connection: Any, more: Reflected) -> Mapping[str, Table]:
        """The tables by their names, which an inspector asks for once."""
        cache: Optional[Reflected] = more.get("info_cache")
        if cache and CACHED in cache:
            kept: Mapping[str, Table] = cache[CACHED]
            return kept
        try:
            found: Mapping[str, Table] = connection.connection.dbapi_connection.warehouse.tables
        except (Fault, OSError) as fault:
            error = dbapi.error_of(fault, "")
            raise exc.OperationalError("reflection", None, error) from fault
        if cache is not None:
            cache[CACHED] = found
        return found

    def _table(self, connection: Any, name: str, schema: Optional[str], more: Reflected) -> Table:
        """A table; an error where it is not there."""
        found: Optional[Table] = None if schema else self._tables(connection, more).get(name)
        if found is None:
            raise exc.NoSuchTableError(f"{schema}.{name}" if schema else name)
        return found

    def get_schema_names(self, connection: Any, **more: Any) -> list[str]:
        """There are no schemas beside the one without a name."""
        return []

    def get_table_names(
        self, connection: Any, schema: Optional[str] = None, **more: Any
    ) -> list[str]:
        """`facts`, and the tables of the views."""
        return [] if schema else list(self._tables(connection, more))

    def has_table(
        self, connection: Any, table_name: str, schema: Optional[str] = None, **more: Any
    ) -> bool:
        """Whether a table is there."""
        return table_name in self.get_table_names(connection, schema, **more)

    def get_columns(
        self, connection: Any, table_name: str, schema: Optional[str] = None, **more: Any
    ) -> list[Reflected]:
        """The columns of a table."""
        table = self._table(connection, table_name, schema, more)
        return [
            {
                "name": column.name,
                "type": type_of(column),
                "nullable": False,
                "default": None,
                "autoincrement": False,
                "comment": comment_of(column, table),
            }
            for column in table.columns()
        ]

    def get_pk_constraint(
        self, connection: Any, table_name: str, schema: Optional[str] = None, **more: Any
    ) -> Reflected:
        """The attributes of a view; `facts` has no key."""
        table = self._table(connection, table_name, schema, more)
        names = [] if table.is_facts else [column.name for column in table.attributes]
        return {"constrained_columns": names, "name": None}

    def get_table_comment(
        self, connection: Any, table_name: str, schema: Optional[str] = None, **more: Any
    ) -> Reflected:
        """What a table is."""
        table = self._table(connection, table_name, schema, more)
        names = ",".join(column.name for column in table.attributes) or "no attribute"
        facts = "facts, of which there are groups alone"
        return {"text": facts if table.is_facts else f"the view of {names}"}

    def _nothing(
        self, connection: Any, table_name: str, schema: Optional[str] = None, **more: Any
    ) -> list[Reflected]:
        """A table has no indexes and no constraints beside its key."""
        self._table(connection, table_name, schema, more)
        return []

    get_indexes = get_foreign_keys = _nothing
    get_unique_constraints = get_check_constraints = _nothing

    def _none(self, connection: Any, schema: Optional[str] = None, **more: Any) -> list[str]:
        """There are neither views in the sense of SQL, nor sequences, nor tables for a while."""
        return []

    get_view_names = get_materialized_view_names = get_sequence_names = _none
    get_temp_table_names = get_temp_view_names = _none

    def get_view_definition(
        self, connection: Any, view_name: str, schema: Optional[str] = None, **more: Any
    ) -> str:
        """There is none."""
        raise exc.NoSuchTableError(view_name)


def checked_level(level: str) -> str:
    """An isolation level; an error if there is none of this name."""
    found = level.upper().replace("_", " ")
    if found not in LEVELS:
        raise exc.ArgumentError(f"no isolation level {level}; there are {' and '.join(LEVELS)}")
    return found


def check_reads(statement: str) -> None:
    """An error if a statement is none that reads."""
    found = FIRST_WORD.match(statement)
    word = found[1].upper() if found else ""
    if word not in READS:
        hint = "SQL only reads, and Warehouse.load appends facts"
        raise dbapi.NotSupportedError(f"{word} is not supported: {hint}", statement)


def type_of(column: Column) -> Any:
    """The type of a column in SQLAlchemy."""
    if not column.is_number or column.kind and column.kind.name == "month":
        return types.Text()
    if column.kind and column.kind.name == "day":
        return types.Date()
    if column.kind and column.kind.name == "decimal":
        return types.Numeric(MOST_DIGITS, column.kind.places)
    return types.BigInteger()


def comment_of(column: Column, table: Table) -> str:
    """What a column has."""
    if column in table.attributes:
        return "an attribute"
    if table.is_facts:
        return "a measure: ask for its SUM, MIN or MAX"
    word, _, name = column.asked.rstrip(")").partition("(")
    return WORDS[word].format(name)
