"""Views as tables of an SQLite file, or as files of csv. All of them are of one moment between two
batches, and appear whole or not at all.

A column of whole numbers, amounts or texts is INTEGER, REAL or TEXT, and days and months are texts.
If SQLite would round a number of a column, the column has no type, and texts for such numbers.
"""
from __future__ import annotations

import os
import shutil
import sqlite3
import time
from contextlib import closing
from typing import Callable, NamedTuple, Sequence, Union

from .copies import rename
from .errors import Fault
from .output import csv_lines
from .query.stored import storer, type_of_column
from .query.tables import Column, Table
from .query.views import Moment
from .rooms import room_for, sync
from .values import WHOLE_NUMBER
from .version import __version__
from .warehouse import Warehouse

HEADER = b"SQLite format 3\0"
OF_WRITERS = ("-journal", "-wal")  # what SQLite has beside a file that is written
Cell = Union[str, int, float, bytes, None]


class Written(NamedTuple):
    """What was written: how many tables and rows, from how many facts, and the columns in which
    texts stand for numbers."""

    tables: int
    rows: int
    facts: int
    loose: list[str]


# ---- an SQLite file


def export(warehouse: Warehouse, path: str, names: Sequence[str] = ()) -> Written:
    """Writes views, by default all, as tables of an SQLite file in place of the one there."""
    target = os.path.realpath(path)
    check_file(target, path)
    with room_for(target) as made:
        with warehouse.moment() as moment:
            try:
                written = write_file(moment, made, names, os.path.abspath(warehouse.folder))
            except sqlite3.Error as error:
                raise Fault(f"{path}: {error}") from error
        if os.path.exists(target):
            shutil.copymode(target, made)
        sync(made)
        check_file(target, path)
        os.replace(made, target)
        sync(os.path.dirname(target))
    return written


def check_file(target: str, path: str) -> None:
    """A fault if a file cannot take the place of what is there."""
    for name in (target + end for end in OF_WRITERS):
        if os.path.lexists(name):
            raise Fault(f"{name} is there: something else writes {path}")
    if not os.path.lexists(target):
        return
    if not os.path.isfile(target):
        raise Fault(f"{path} is no file")
    with open(target, "rb") as file:
        head = file.read(len(HEADER))
    if head not in (b"", HEADER):
        raise Fault(f"{path} is no SQLite file, and stays: remove it, or name another file")


def write_file(moment: Moment, path: str, names: Sequence[str], folder: str) -> Written:
    """Writes an SQLite file, which is not synced."""
    began, rows, loose = time.gmtime(), 0, list[str]()
    tables = moment.views.named(names)
    with closing(sqlite3.connect(path)) as database:
        database.execute("PRAGMA journal_mode = OFF")
        database.execute("PRAGMA synchronous = OFF")
        for table in tables:
            records = moment.records(table)
            loose += write_table(database, table, records)
            rows += len(records)
        written = time.strftime("%Y-%m-%dT%H:%M:%SZ", began)
        about = (os.fsencode(folder), moment.facts, written, __version__)
        database.execute(
            "CREATE TABLE _about (folder TEXT, facts INTEGER, written TEXT, version TEXT)"
        )
        database.execute("INSERT INTO _about VALUES (CAST(? AS TEXT), ?, ?, ?)", about)
        database.commit()
    return Written(len(tables), rows, moment.facts, loose)


def write_table(database: sqlite3.Connection, table: Table, records: list[list[str]]) -> list[str]:
    """Writes the rows of a view as a table; its columns in which texts stand for numbers."""
    columns, cells = table.columns(), list(zip(*records)) or [()] * len(table.columns())
    held = [stored(column, own) for column, own in zip(columns, cells)]
    types = [kind for kind, _ in held]
    lines = [f"{quoted(each.name)} {kind} NOT NULL" for each, kind in zip(columns, types)]
    keys = ", ".join(quoted(each.name) for each in table.attributes)
    key = f", PRIMARY KEY ({keys})) WITHOUT ROWID" if keys else ")"
    database.execute(f"CREATE TABLE {quoted(table.name)} ({', '.join(lines)}{key}")
    marks = ", ".join("CAST(? AS TEXT)" if kind == "TEXT" else "?" for kind in types)
    rows = zip(*(own for _, own in held))
    database.executemany(f"INSERT INTO {quoted(table.name)} VALUES ({marks})", rows)
    return [f"{table.name}.{each.name}" for each, kind in zip(columns, types) if not kind]


def quoted(name: str) -> str:
    """A name as SQLite takes any."""
    return '"' + name.replace('"', '""') + '"'


def stored(column: Column, cells: Sequence[str]) -> tuple[str, list[Cell]]:
    """The type of a column and its values, as SQLite has them."""
    if not column.is_number:
        return "TEXT", [cell.encode("utf-8", "surrogateescape") for cell in cells]
    store = storer(True, column.kind)
    try:
        return type_of_column(True, column.kind), [store(cell) for cell in cells]
    except Fault:
        return "", list(map(with_texts(column, store), cells))


def with_texts(column: Column, store: Callable[[str], Cell]) -> Callable[[str], Cell]:
    """What makes the values of a column, with texts for what SQLite would round."""
    kind = column.kind or WHOLE_NUMBER

    def value(cell: str) -> Cell:
        """The value of a cell."""
        try:
            return store(cell)
        except Fault:
            return kind.shown(int(cell))

    return value


# ---- files of csv


def export_csv(warehouse: Warehouse, path: str, names: Sequence[str] = ()) -> Written:
    """Writes views, by default all, as csv files of a new folder, which are named as the tables."""
    target = os.path.realpath(path)
    if os.path.lexists(target) and (not os.path.isdir(target) or os.listdir(target)):
        raise Fault(f"{path} is there, and is no empty folder")
    with room_for(target) as made:
        os.mkdir(made)
        with warehouse.moment() as moment:
            tables = moment.views.named(names)
            rows = sum(write_csv(moment, table, made) for table in tables)
        if os.path.exists(target):
            shutil.copymode(target, made)
        sync(made)
        rename(made, target)
        sync(os.path.dirname(target))
    return Written(len(tables), rows, moment.facts, [])


def write_csv(moment: Moment, table: Table, folder: str) -> int:
    """Writes the file of a view, and syncs it; how many rows it has."""
    answer = moment.answer(table)
    with open(os.path.join(folder, f"{table.name}.csv"), "wb") as file:
        for line in csv_lines(answer):
            file.write(line.encode("utf-8", "surrogateescape") + b"\n")
        file.flush()
        os.fsync(file.fileno())
    return len(answer)
