"""Tests of the dialect of SQLAlchemy: what is refused, connections, its suite, and pandas."""
from __future__ import annotations

import fcntl
import os
import re
import sys
import threading
import zipfile
from decimal import Decimal
from pathlib import Path
from typing import Any, List

import pytest

import cubetree
from cubetree.export import export
from cubetree.process import program
from cubetree.version import __version__
from tests.alchemy.engines import (  # noqa: F401
    SCHEMA,
    engine_of,
    engine_of_fees,
    exc,
    func,
    made,
    room_of,
    rows,
    select,
    sqlalchemy,
    table,
    text,
    types,
)
from tests.helpers import PACKAGES, TOP, run, until

# ---- what is refused


@pytest.mark.parametrize(
    "statement",
    [
        "INSERT INTO facts VALUES ('x', 1, 1)",
        "/* a */ -- b\n  update facts SET qty = 1",
        "delete from by_year",
        "CREATE TABLE t (a)",
        "DROP TABLE facts",
        "PRAGMA user_version",
        "SAVEPOINT a",
    ],
)
def test_writes(engine: Any, statement: str) -> None:
    """What is no query is refused by its word."""
    word = next(each for each in statement.upper().split() if each.isalpha() and len(each) > 1)
    said = f"{word} is not supported: SQL only reads, and Warehouse.load appends facts"
    with engine.connect() as connection:
        with pytest.raises(exc.NotSupportedError, match=said):
            connection.execute(text(statement))


def test_writes_of_expressions(engine: Any) -> None:
    """So are those of SQLAlchemy, and nothing is changed."""
    facts = table(engine, "facts")
    row = {"part": "x", "year": 1, "qty": 1}
    with engine.connect() as connection:
        for statement in (facts.insert(), facts.update(), facts.delete()):
            with pytest.raises(exc.NotSupportedError, match=" is not supported: SQL only reads"):
                connection.execute(statement, {} if statement.is_delete else row)
        with pytest.raises(exc.NotSupportedError, match="^.*INSERT is not supported"):
            connection.execute(facts.insert(), [row, row])
    metadata = sqlalchemy.MetaData()
    sqlalchemy.Table("t", metadata, sqlalchemy.Column("a", types.Integer))
    with pytest.raises(exc.NotSupportedError, match="CREATE is not supported"):
        metadata.create_all(engine)
    assert rows(engine, select(table(engine, "total").c.count)) == [(4,)]


def test_errors(engine: Any) -> None:
    """They have the classes of PEP 249, by way of SQLAlchemy."""
    with pytest.raises(exc.ProgrammingError) as raised:
        rows(engine, text("SELECT nope FROM by_year"))
    assert isinstance(raised.value.orig, cubetree.ProgrammingError)
    with pytest.raises(exc.ProgrammingError):
        rows(engine, text("SELECT COUNT(*) FROM nope"))
    with pytest.raises(exc.DBAPIError):
        rows(engine, text("SELECT"))
    with pytest.raises(exc.OperationalError, match="no such folder: nope"):
        sqlalchemy.create_engine("cubetree:///nope").connect()


def test_damage() -> None:
    """A damaged folder is an OperationalError, in a query and in reflection."""
    made("x", SCHEMA, [(f"part {n}", n, n) for n in range(4000)])
    engine = sqlalchemy.create_engine("cubetree:///x")
    for path in Path("x").glob("side?"):
        path.write_bytes(b"\xff" * path.stat().st_size)
    with pytest.raises(exc.OperationalError, match="the program ended with the status 6.*damaged"):
        rows(engine, text("SELECT part, COUNT(*) FROM facts GROUP BY part"))
    os.remove("x/names")
    with pytest.raises(exc.OperationalError, match="the program ended with the status"):
        sqlalchemy.inspect(engine).get_table_names()
    engine.dispose()


@pytest.mark.parametrize(
    "url, said",
    [
        ("cubetree://w", "names a machine or a user: write cubetree:///folder"),
        ("cubetree://me@/w", "names a machine or a user"),
        ("cubetree:///w?wait=maybe", "has wait=maybe behind `\\?`: there may be wait=yes or"),
        ("cubetree:///w?timeout=3&wait=no", "has timeout behind `\\?`"),
    ],
)
def test_urls(url: str, said: str) -> None:
    """A URL that cannot be meant is refused."""
    with pytest.raises(exc.ArgumentError, match=said):
        sqlalchemy.create_engine(url).connect()


def test_folders(room: Path, monkeypatch: pytest.MonkeyPatch) -> None:
    """A folder may be named from the current one or from the root, or be the current one."""
    monkeypatch.chdir("w")
    count = text("SELECT COUNT(*) FROM facts")
    for url in (f"cubetree:///{room}/w", "cubetree:///../w", "cubetree://", "cubetree:///."):
        engine = sqlalchemy.create_engine(url)
        assert rows(engine, count) == [(4,)]
        engine.dispose()


# ---- connections


def test_turns(engine: Any) -> None:
    """With wait=no a query is an error while another run is in the folder, and works after."""
    impatient = sqlalchemy.create_engine("cubetree:///w?wait=no")
    held = os.open("w", os.O_RDONLY)
    fcntl.flock(held, fcntl.LOCK_EX)
    with impatient.connect() as connection:
        with pytest.raises(exc.OperationalError, match="another run is in w"):
            connection.execute(text("SELECT COUNT(*) FROM facts"))
        with pytest.raises(exc.OperationalError, match="another run is in w"):
            sqlalchemy.inspect(connection).get_table_names()
        os.close(held)
        assert connection.execute(text("SELECT COUNT(*) FROM facts")).scalar() == 4
    impatient.dispose()


def is_free(folder: str) -> bool:
    """Whether no run is in a folder."""
    descriptor = os.open(folder, os.O_RDONLY)
    try:
        fcntl.flock(descriptor, fcntl.LOCK_EX | fcntl.LOCK_NB)
        return True
    except BlockingIOError:
        return False
    finally:
        os.close(descriptor)


def test_locks(engine: Any) -> None:
    """A connection holds no lock a while after its query, be it in use or in the pool."""
    with engine.connect() as connection:
        connection.execute(text("SELECT COUNT(*) FROM facts"))
        until(lambda: is_free("w"))
        with cubetree.open("w", wait=False) as warehouse:
            warehouse.load([("nut", 1999, 1)])
        assert connection.execute(text("SELECT COUNT(*) FROM facts")).scalar() == 5
    until(lambda: is_free("w"))
    assert rows(engine, text("SELECT COUNT(*) FROM facts")) == [(5,)]


def test_dispose(engine: Any) -> None:
    """It closes the connections of the pool at once."""
    with engine.connect() as connection:
        own = connection.connection.dbapi_connection
        connection.execute(text("SELECT COUNT(*) FROM facts"))
    engine.dispose()
    assert is_free("w")
    with pytest.raises(cubetree.ProgrammingError, match="the connection is closed"):
        own.cursor()
    assert rows(engine, text("SELECT COUNT(*) FROM facts")) == [(4,)]


def test_isolation(engine: Any) -> None:
    """Each query is of one moment; a level that is not there is refused."""
    with engine.connect() as connection:
        assert connection.get_isolation_level() == "READ COMMITTED"
        assert connection.default_isolation_level == "READ COMMITTED"
        own = connection.execution_options(isolation_level="AUTOCOMMIT")
        assert own.get_isolation_level() == "AUTOCOMMIT"
    with engine.connect() as connection:
        assert connection.get_isolation_level() == "READ COMMITTED"
        with pytest.raises(exc.ArgumentError, match="SERIALIZABLE.*READ COMMITTED and AUTOCOMMIT"):
            connection.execution_options(isolation_level="SERIALIZABLE")
    other = sqlalchemy.create_engine("cubetree:///w", isolation_level="AUTOCOMMIT")
    assert rows(other, text("SELECT COUNT(*) FROM facts")) == [(4,)]
    with pytest.raises(exc.ArgumentError, match="no isolation level CHAOS"):
        sqlalchemy.create_engine("cubetree:///w", isolation_level="CHAOS")


def test_ping() -> None:
    """A connection of the pool is tried before it is used, which asks nothing of the folder."""
    engine = sqlalchemy.create_engine("cubetree:///w", pool_pre_ping=True)
    assert rows(engine, text("SELECT COUNT(*) FROM facts")) == [(4,)]
    until(lambda: is_free("w"))
    with engine.connect():
        assert is_free("w")
    engine.dispose()


def test_transactions(engine: Any) -> None:
    """They may be begun and ended, and change nothing."""
    with engine.begin() as connection:
        assert connection.execute(text("SELECT COUNT(*) FROM facts")).scalar() == 4
    with engine.connect() as connection:
        transaction = connection.begin()
        connection.execute(text("SELECT COUNT(*) FROM facts"))
        transaction.rollback()


def test_sessions(engine: Any) -> None:
    """An object of a mapped view is found by its key."""
    orm = pytest.importorskip("sqlalchemy.orm")
    base = orm.declarative_base()

    class Year(base):  # type: ignore[misc,valid-type]
        """A row of the view of year."""

        __table__ = table(engine, "by_year")

    with orm.Session(engine) as session:
        assert session.get(Year, 1997).sum_qty == 4
        assert session.query(Year).filter(Year.max_qty == 4).one().year == 1998
        session.add(Year(year=2000, count=1, sum_qty=1, min_qty=1, max_qty=1))
        with pytest.raises(exc.NotSupportedError, match="INSERT is not supported"):
            session.flush()


def test_threads(engine: Any) -> None:
    """Threads may share an engine, beside loads."""
    wrong: List[Any] = []

    def ask() -> None:
        """Asks for the sums by year, which are of whole batches."""
        query = text("SELECT COUNT(*), SUM(qty) FROM facts")
        for _ in range(15):
            ((count, total),) = rows(engine, query)
            if count < 4 or (count - 4) % 3 or total != 8 + count - 4:
                wrong.append((count, total))

    threads = [threading.Thread(target=ask) for _ in range(8)]
    for thread in threads:
        thread.start()
    with cubetree.open("w") as warehouse:
        for number in range(20):
            warehouse.load([("nut", 1999, 1)] * 3)
    for thread in threads:
        thread.join()
    assert wrong == [] and rows(engine, text("SELECT COUNT(*) FROM facts")) == [(64,)]


# ---- as others see it


SETTINGS = """[sqla_testing]
requirement_cls = tests.alchemy.requirements:Requirements
profile_file = profiles
[db]
default = cubetree:///w
"""


def test_suite(room: Path) -> None:
    """The suite of SQLAlchemy passes, as far as python/tests/alchemy/suite.py has it. It runs by
    itself, since its plugin changes how pytest finds tests."""
    os.makedirs("folders")
    os.rename("w", "folders/w")
    os.symlink("folders/w", "w")
    Path("setup.cfg").write_text(SETTINGS)
    Path("pytest.ini").write_text("[pytest]\npython_files = suite.py\n")
    words = "-q --noconftest -c pytest.ini --rootdir . -p no:cacheprovider".split()
    words += ["-p", "tests.alchemy.plugin", str(TOP / "python/tests/alchemy/suite.py")]
    own = dict(os.environ, PYTHONPATH=os.pathsep.join([PACKAGES, str(TOP / "python")]))
    printed = run(sys.executable, "-m", "pytest", *words, status=None, env=own)[0]
    found = re.search(r"\n(\d+) passed, \d+ skipped in ", printed)
    assert found and int(found[1]) >= 60, printed


@pytest.mark.skipif(not (TOP / "python" / "backend.py").exists(), reason="no checkout")
def test_entry_point(room: Path) -> None:
    """An installed package registers the dialect by itself, be it a wheel or that of a system."""
    sys.path.insert(0, str(TOP / "python"))
    import backend

    os.mkdir("wheel")
    with zipfile.ZipFile(backend.build_wheel(str(room))) as wheel:
        wheel.extractall("wheel")
    os.mkdir("system")
    os.symlink(os.path.join(PACKAGES, "cubetree"), "system/cubetree")
    backend.write_info("system")
    asks = (
        "import importlib.metadata, sqlalchemy\n"
        "engine = sqlalchemy.create_engine('cubetree:///w')\n"
        "print(sqlalchemy.inspect(engine).get_table_names(), end=' ')\n"
        "print(importlib.metadata.version('cubetree'))\n"
    )
    for folder in ("wheel", "system"):
        own = dict(os.environ, PYTHONPATH=folder, CUBETREE=program())
        printed = run(sys.executable, "-c", asks, env=own)[0]
        assert printed == f"['facts', 'by_part_year', 'by_year', 'total'] {__version__}\n"


# ---- pandas


def test_read_sql(engine: Any, fees: Any) -> None:
    """Queries and tables are frames."""
    pandas = pytest.importorskip("pandas")
    frame = pandas.read_sql("SELECT part, SUM(qty) AS q FROM facts GROUP BY part", engine)
    assert frame.sort_values("part").values.tolist() == [["bolt", 10], ["nut", -2]]
    facts = table(engine, "facts")
    frame = pandas.read_sql(select(func.sum(facts.c.qty).label("q")), engine)
    assert frame.to_dict("list") == {"q": [8]}
    frame = pandas.read_sql_table("by_year", engine, index_col="year")
    assert str(frame["sum_qty"].dtype) == str(frame["count"].dtype) == "int64"
    assert frame.sort_index()["min_qty"].to_dict() == {1997: -2, 1998: 4}
    frame = pandas.read_sql_table("by_month", fees)
    assert frame.sort_values("month")["sum_fee"].tolist() == [12.5, 0.95]
    frame = pandas.read_sql("SELECT month, sum_fee FROM by_month", fees, coerce_float=False)
    assert sorted(frame["sum_fee"]) == [Decimal("0.95"), Decimal("12.50")]
    frame = pandas.read_sql_table("by_day", fees).sort_values("sum_fee")
    days = [pandas.Timestamp("2025-03-15"), pandas.Timestamp("2025-03-14")]
    assert frame["day"].isna().tolist() == [False, True, False]
    assert [frame["day"][n] for n in frame.index if n != frame.index[1]] == days
    frame = pandas.read_sql("by_part", fees, columns=["part", "sum_fee"])
    assert dict(zip(frame["part"], frame["sum_fee"])) == {"a": 13.5, "b": -0.05}


def test_frames_are_not_written(engine: Any) -> None:
    """A frame cannot become a table."""
    pandas = pytest.importorskip("pandas")
    with pytest.raises(exc.NotSupportedError, match="CREATE is not supported"):
        pandas.DataFrame({"a": [1]}).to_sql("t", engine)


def test_same_as_the_export(engine: Any) -> None:
    """A table has the rows that `cube export` writes, as SQLite reads them."""
    with cubetree.open("w") as warehouse:
        export(warehouse, "w.db")
    other = sqlalchemy.create_engine("sqlite:///w.db")
    for name in ("by_part_year", "by_year", "total"):
        own = [tuple(map(str, row)) for row in rows(engine, select(table(engine, name)))]
        assert sorted(own) == sorted(
            tuple(map(str, row)) for row in rows(other, text(f"SELECT * FROM {name}"))
        )
