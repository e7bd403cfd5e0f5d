"""A folder to export, and what SQLite finds in an exported file."""
from __future__ import annotations

import os
import sqlite3
from contextlib import closing
from pathlib import Path
from typing import Any, List, Tuple

import pytest

import cubetree
from tests.helpers import CUBE, load

EXPORT = CUBE, "export"
SCHEMA = "attr part text\nattr year number\nmeasure qty\nview part,year\nview year\nview\n"
FACTS = [("bolt", 1997, 5), ("nut", 1997, -2), ("bolt", 1998, 4), ("bolt", 1997, 1)]
COUNTS = '"count" INTEGER NOT NULL'
OF_QTY = ", ".join(f'"{word}_qty" INTEGER NOT NULL' for word in ("sum", "min", "max"))
BY_PART_YEAR = [
    ("bolt", 1997, 2, 6, 1, 5),
    ("bolt", 1998, 1, 4, 4, 4),
    ("nut", 1997, 1, -2, -2, -2),
]
BY_YEAR = [(1997, 3, 4, -2, 5), (1998, 1, 4, 4, 4)]
TOTAL = [(4, 8, -2, 5)]


@pytest.fixture(name="room", autouse=True)
def room_of(tmp_path: Path, monkeypatch: pytest.MonkeyPatch) -> Path:
    """A folder `w` with four facts, in the current folder."""
    monkeypatch.chdir(tmp_path)
    made("w", SCHEMA, FACTS)
    return tmp_path


def made(folder: str, schema: str, facts: Any) -> None:
    """Makes a warehouse with these facts."""
    os.mkdir(folder)
    with cubetree.open(folder) as warehouse:
        warehouse.declare(schema)
        if facts:
            warehouse.load(facts)


def loaded(folder: str, content: str, *words: str) -> None:
    """Makes a warehouse of a csv file."""
    os.mkdir(folder)
    Path("f.csv").write_text(content)
    load("f.csv", "--folder", folder, "--yes", *words)


def rows(path: str, query: str) -> List[Tuple[Any, ...]]:
    """What SQLite answers from a file; texts that are no UTF-8 are bytes."""

    def read(text: bytes) -> Any:
        """A text as SQLite has it."""
        try:
            return text.decode()
        except UnicodeDecodeError:
            return text

    with closing(sqlite3.connect(path)) as database:
        database.text_factory = read
        return database.execute(query).fetchall()


def tables(path: str) -> List[str]:
    """The names of the tables of a file."""
    return [name for (name,) in rows(path, "SELECT name FROM sqlite_master WHERE type = 'table'")]


def made_by(path: str, table: str) -> str:
    """How a table was made."""
    found: str = rows(path, f"SELECT sql FROM sqlite_master WHERE name = '{table}'")[0][0]
    return found


def is_sound(path: str) -> bool:
    """Whether SQLite finds a file sound."""
    return rows(path, "PRAGMA integrity_check") == [("ok",)]
