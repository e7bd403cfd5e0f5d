"""Cubetree warehouses from Python: you append facts in batches, and ask for sums, counts and
extremes of them by group.

    import cubetree

    with cubetree.open("folder") as warehouse:
        warehouse.load([("bolt", 1997, 5), ("nut", 1997, -2)])
        answer = warehouse.slice("sum(qty),count by part where year=1997")
        print(answer.columns, list(answer))

A row has a str or an int for each attribute and measure of the schema, in order of declaration. An
answer is a list of tuples of str and int, with the names of its columns: a table of pandas is
pandas.DataFrame(answer, columns=answer.columns). Texts may be any bytes: those that are not UTF-8
are surrogates, as in names of files (os.fsencode gives the bytes).

If a csv file with amounts or dates was loaded, the folder keeps what its columns are. Then answers
have a Decimal for an amount, a date for a day and a text such as "2025-03" for a month, rows may
have them too, and slices name days, months and years: "sum(fee) by day where day=2025-03". With
cubetree.open("folder", raw=True) there are whole numbers alone.

Queries are in SQL as SQLite has it: warehouse.sql("SELECT part, AVG(qty) AS mean FROM facts GROUP
BY part ORDER BY mean"), or cubetree.connect("folder"), which is the interface of databases to
Python (PEP 249). SQLAlchemy has the address cubetree:///folder. All rows of a view come from
warehouse.view("part,year").

A level gives values of an attribute a parent each, as long as the warehouse is open. After
warehouse.level("kind", "part", {"bolt": "steel"}) you may ask warehouse.rollup("count by kind").

What goes wrong is a Fault. Refused has the reply of the program and the place that it names.
Changed says that a numbered batch was loaded with other rows before. Busy says that another run is
in the way of one that is not to wait. Ended has the status of a program that ended early, and
Damaged the file and the offset as well.
"""
from .audits import Audit
from .codec import Answer
from .dbapi import (
    BINARY,
    DATETIME,
    NUMBER,
    ROWID,
    STRING,
    Binary,
    Connection,
    Cursor,
    DatabaseError,
    DataError,
    Date,
    DateFromTicks,
    Error,
    IntegrityError,
    InterfaceError,
    InternalError,
    NotSupportedError,
    OperationalError,
    ProgrammingError,
    Time,
    TimeFromTicks,
    Timestamp,
    TimestampFromTicks,
    Warning,
    apilevel,
    connect,
    paramstyle,
    threadsafety,
)
from .design.views import Choice
from .errors import Busy, Changed, Damaged, Ended, Fault, Refused
from .format.visits import Visits
from .schema import Schema
from .version import __version__
from .warehouse import Status, Warehouse, open

__all__ = [
    "__version__",
    "Answer",
    "Audit",
    "Busy",
    "Changed",
    "Choice",
    "Damaged",
    "Ended",
    "Fault",
    "Refused",
    "Schema",
    "Status",
    "Visits",
    "Warehouse",
    "open",
    "BINARY",
    "DATETIME",
    "NUMBER",
    "ROWID",
    "STRING",
    "Binary",
    "Connection",
    "Cursor",
    "DatabaseError",
    "DataError",
    "Date",
    "DateFromTicks",
    "Error",
    "IntegrityError",
    "InterfaceError",
    "InternalError",
    "NotSupportedError",
    "OperationalError",
    "ProgrammingError",
    "Time",
    "TimeFromTicks",
    "Timestamp",
    "TimestampFromTicks",
    "Warning",
    "apilevel",
    "connect",
    "paramstyle",
    "threadsafety",
]
