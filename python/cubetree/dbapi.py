"""The database interface of Python (PEP 249) to a warehouse, for queries in SQL.

    with cubetree.connect("folder") as connection:
        cursor = connection.cursor()
        cursor.execute("SELECT part, SUM(qty) FROM facts WHERE year = ? GROUP BY part", [1997])
        print(cursor.fetchall())

pandas.read_sql takes such a connection, and SQLAlchemy has an address, `cubetree:///folder`. It
only reads: a Warehouse loads the facts, and there is nothing to commit. Queries are in SQL as
SQLite has it, over the tables of cubetree.query.tables.

You pass a str, a number, a date or None for each question mark, in a list or a tuple; a mapping or
a str is an error. Comments (`-- ..` to the end of the line, and `/* .. */`, which do not nest) and
a semicolon at the end are left out. A question mark in a comment or in quotes is no parameter.

An error has in `query` the text that you executed, comments included. If the parameters fit, they
stand in it as literals. If the query was refused, `reply` is the refusal in the words of the
program, and `byte` its place: it counts the bytes of `query` in UTF-8, from 1.
"""
from __future__ import annotations

import datetime
import os
from contextlib import suppress
from operator import length_hint
from types import TracebackType
from typing import Iterator, Optional, Sequence, Union

from .errors import Fault, Inexact, Refused, told
from .sql import Parameter, Statement, statement_of, type_name
from .values import Kind, Value
from .warehouse import Warehouse

apilevel, threadsafety, paramstyle = "2.0", 2, "qmark"
STRING, NUMBER, DATETIME = str, int, datetime.date  # the types of columns
BINARY, ROWID = bytes, object  # Required by PEP 249; no column has one of these types.
# Required by PEP 249; their values cannot be parameters.
Date, Time, Timestamp, Binary = datetime.date, datetime.time, datetime.datetime, bytes
Row = tuple[Value, ...]
Column = tuple[str, type, None, None, None, None, None]


def DateFromTicks(ticks: float) -> datetime.date:
    """The local date of a time in seconds since the epoch."""
    return datetime.date.fromtimestamp(ticks)


def TimeFromTicks(ticks: float) -> datetime.time:
    """The local time of day of a time in seconds since the epoch."""
    return datetime.datetime.fromtimestamp(ticks).time()


def TimestampFromTicks(ticks: float) -> datetime.datetime:
    """The local date and time of a time in seconds since the epoch."""
    return datetime.datetime.fromtimestamp(ticks)


class Warning(Exception):
    """Required by PEP 249; never raised."""


class Error(Exception):
    """Base class of all errors of this interface."""

    def __init__(
        self, text: str, query: Optional[str] = None, refused: Optional[Refused] = None
    ) -> None:
        super().__init__(text)
        self.query = query
        self.reply = refused.reply if refused else None
        self.byte = refused.byte if refused else None


class InterfaceError(Error):
    """Required by PEP 249; never raised."""


class DatabaseError(Error):
    """Base class of the errors that are raised."""


class DataError(DatabaseError):
    """An attribute does not take a value of the query, as a text for a number."""


class OperationalError(DatabaseError):
    """The folder or the program cannot be used."""


class IntegrityError(DatabaseError):
    """Required by PEP 249; never raised."""


class InternalError(DatabaseError):
    """Required by PEP 249; never raised."""


class ProgrammingError(DatabaseError):
    """The query or its parameters are wrong, or a call came too early or after `close`."""


class NotSupportedError(DatabaseError):
    """The warehouse cannot do this."""


class Connection:
    """A connection to a warehouse. Threads may share it, each with its own cursor."""

    Warning, Error, InterfaceError = Warning, Error, InterfaceError
    DatabaseError, DataError, OperationalError = DatabaseError, DataError, OperationalError
    IntegrityError, InternalError = IntegrityError, InternalError
    ProgrammingError, NotSupportedError = ProgrammingError, NotSupportedError

    def __init__(self, warehouse: Warehouse) -> None:
        self._warehouse: Optional[Warehouse] = warehouse

    def __enter__(self) -> Connection:
        return self

    def __exit__(
        self,
        kind: Optional[type[BaseException]],
        fault: Optional[BaseException],
        trace: Optional[TracebackType],
    ) -> None:
        self.close()

    @property
    def warehouse(self) -> Warehouse:
        """The warehouse. It is an error to ask for it once the connection is closed."""
        if self._warehouse is None:
            raise ProgrammingError("the connection is closed")
        return self._warehouse

    def cursor(self) -> Cursor:
        """A new cursor, which executes queries."""
        self.warehouse
        return Cursor(self)

    def commit(self) -> None:
        """Changes nothing, since queries only read."""
        self.warehouse

    def rollback(self) -> None:
        """Changes nothing, since queries only read."""
        self.warehouse

    def close(self) -> None:
        """Lets other runs into the folder. Its cursors end too; you may close it again."""
        warehouse, self._warehouse = self._warehouse, None
        if warehouse:
            warehouse.close()


class Cursor:
    """Executes queries and fetches their rows."""

    arraysize = 1
    lastrowid: None = None  # No query inserts a row.

    def __init__(self, connection: Connection) -> None:
        self.connection = connection
        self.description: Optional[list[Column]] = None
        self.rowcount = -1
        self._is_closed = False
        self._rows: Optional[Iterator[Row]] = None

    def __enter__(self) -> Cursor:
        return self

    def __exit__(
        self,
        kind: Optional[type[BaseException]],
        fault: Optional[BaseException],
        trace: Optional[TracebackType],
    ) -> None:
        self.close()

    def execute(self, operation: str, parameters: Optional[Sequence[Parameter]] = None) -> Cursor:
        """Executes a query with a parameter for each question mark, and returns the cursor."""
        warehouse = self._open()
        self.description, self.rowcount, self._rows = None, -1, None
        statement = bound(operation, parameters)
        try:
            answer = warehouse.sql(statement.sent)
        except (Fault, OSError) as fault:
            raise error_of(fault, statement.shown) from fault
        self.description = [
            (name, type_of(is_number, kind), None, None, None, None, None)
            for name, is_number, kind in zip(answer.columns, answer.numeric, answer.kinds)
        ]
        self.rowcount, self._rows = len(answer), iter(answer)
        return self

    def executemany(self, operation: str, parameters: Sequence[Sequence[Parameter]]) -> None:
        """Raises NotSupportedError, since each query has rows and none loads facts."""
        hint = "call execute for each query, and Warehouse.load to load facts"
        raise NotSupportedError(f"executemany is not supported: {hint}", operation)

    def fetchone(self) -> Optional[Row]:
        """The next row, or None after the last one."""
        return next(self._left(), None)

    def fetchmany(self, size: Optional[int] = None) -> list[Row]:
        """The next `size` rows, or `arraysize` rows without a size; fewer at the end."""
        rows = self._left()
        return [row for _, row in zip(range(self.arraysize if size is None else size), rows)]

    def fetchall(self) -> list[Row]:
        """All rows that were not fetched yet."""
        return list(self._left())

    def __iter__(self) -> Cursor:
        return self

    def __next__(self) -> Row:
        return next(self._left())

    @property
    def rownumber(self) -> Optional[int]:
        """The index of the next row, from 0, or None if there are no rows to fetch from."""
        return None if self._rows is None else self.rowcount - length_hint(self._rows)

    def setinputsizes(self, sizes: Sequence[object]) -> None:
        """Required by PEP 249; changes nothing."""
        self._open()

    def setoutputsize(self, size: int, column: Optional[int] = None) -> None:
        """Required by PEP 249; changes nothing."""
        self._open()

    def close(self) -> None:
        """Drops the rows. You may close it again, but not execute or fetch."""
        self._is_closed, self._rows = True, None

    def _open(self) -> Warehouse:
        """The warehouse. It is an error to ask for it once the cursor or connection is closed."""
        if self._is_closed:
            raise ProgrammingError("the cursor is closed")
        return self.connection.warehouse

    def _left(self) -> Iterator[Row]:
        """The rows that were not fetched yet."""
        self._open()
        if self._rows is None:
            raise ProgrammingError("there are no rows: execute a query first")
        return self._rows


def bound(operation: str, parameters: Optional[Sequence[Parameter]]) -> Statement:
    """The statement of an operation with these parameters."""
    if not isinstance(operation, str):
        raise ProgrammingError(f"the query is of the type {type_name(operation)}: pass a str")
    try:
        statement = statement_of(operation, in_order(parameters))
    except Fault as fault:
        refused = fault if isinstance(fault, Refused) else None
        raise ProgrammingError(str(fault), operation, refused) from fault
    return statement


def in_order(parameters: Optional[Sequence[Parameter]]) -> list[Parameter]:
    """The parameters as a list; a fault if they are no sequence, or a text."""
    if parameters is None:
        return []
    is_text = isinstance(parameters, (str, bytes, bytearray, memoryview))
    is_sequence = hasattr(parameters, "__getitem__") and hasattr(parameters, "__len__")
    if is_sequence and not is_text and not hasattr(parameters, "keys"):
        with suppress(TypeError):  # A numpy array without dimensions is no sequence.
            return list(parameters)
    hint = "pass a list or a tuple, in the order of the question marks"
    raise Fault(f"the parameters are of the type {type_name(parameters)}: {hint}")


def type_of(is_number: bool, kind: Optional[Kind]) -> type:
    """The type object of a column."""
    if kind and kind.name == "day":
        return DATETIME
    return NUMBER if is_number else STRING


def error_of(fault: Union[Fault, OSError], query: str) -> DatabaseError:
    """The error to raise for a fault."""
    if isinstance(fault, Inexact):
        return DataError(str(fault), query)
    if isinstance(fault, Refused):
        kind = DataError if fault.reply.startswith("refused sql value") else ProgrammingError
        return kind(str(fault), query, fault)
    return OperationalError(told(fault), query)


def connect(folder: Union[str, os.PathLike[str]] = ".", *, wait: bool = True) -> Connection:
    """A connection to the warehouse in a folder.

    If another run holds the folder, a query waits for it, or is an error without `wait`.
    """
    try:
        return Connection(Warehouse(folder, wait=wait))
    except Fault as fault:
        raise OperationalError(str(fault)) from fault
