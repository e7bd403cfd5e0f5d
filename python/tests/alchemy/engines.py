"""Engines of SQLAlchemy for two folders. It skips the tests that import it where there is no
SQLAlchemy."""
from __future__ import annotations

import os
import warnings
from pathlib import Path
from typing import Any, Iterator, List

import pytest

import cubetree
from tests.helpers import load

sqlalchemy = pytest.importorskip("sqlalchemy")
import cubetree.sqlalchemy  # isort: skip  # noqa: E402,F401

exc, func, select, text = sqlalchemy.exc, sqlalchemy.func, sqlalchemy.select, sqlalchemy.text
types = sqlalchemy.types
SCHEMA = "attr part text\nattr year number\nmeasure qty\nview part,year\nview year\nview\n"
FACTS = [("bolt", 1997, 5), ("nut", 1997, -2), ("bolt", 1998, 4), ("bolt", 1997, 1)]
FEES = "part,day,month,fee\na,2025-03-14,2025-03,12.50\nb,2025-03-15,2025-04,-0.05\na,,2025-04,1\n"
OF_QTY = ["sum_qty", "min_qty", "max_qty"]


@pytest.fixture(name="room", autouse=True)
def room_of(tmp_path: Path, monkeypatch: pytest.MonkeyPatch) -> Iterator[Path]:
    """A folder `w` with four facts, and `v` with amounts and days, in the current folder. What
    SQLAlchemy warns of is an error."""
    monkeypatch.chdir(tmp_path)
    made("w", SCHEMA, FACTS)
    (tmp_path / "v").mkdir()
    Path("f.csv").write_text(FEES)
    load("f.csv", "--folder", "v", "--yes", "--cents", "fee", "--na", "")
    with warnings.catch_warnings():
        warnings.simplefilter("error", exc.SAWarning)
        yield tmp_path


def made(folder: str, schema: str, facts: Any) -> None:
    """Makes a warehouse with these facts."""
    os.mkdir(folder)
    with cubetree.open(folder) as warehouse:
        warehouse.declare(schema)
        if facts:
            warehouse.load(facts)


@pytest.fixture(name="engine")
def engine_of() -> Iterator[Any]:
    """An engine for `w`."""
    engine = sqlalchemy.create_engine("cubetree:///w")
    yield engine
    engine.dispose()


@pytest.fixture(name="fees")
def engine_of_fees() -> Iterator[Any]:
    """An engine for `v`."""
    engine = sqlalchemy.create_engine("cubetree:///v")
    yield engine
    engine.dispose()


def table(engine: Any, name: str) -> Any:
    """A table as it is reflected."""
    return sqlalchemy.Table(name, sqlalchemy.MetaData(), autoload_with=engine)


def rows(engine: Any, query: Any) -> List[Any]:
    """The rows of a query."""
    with engine.connect() as connection:
        return [tuple(row) for row in connection.execute(query)]
