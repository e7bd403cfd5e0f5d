"""The checks of dbapi20, the well-known compliance test of PEP 249, and what cubetree adds.

The checks have the names of dbapi20, and some more that follow from the text of PEP 249. dbapi20
fills its tables by SQL; here a Warehouse has loaded them. The checks `test_sql_writes_..` are for
what dbapi20 does by INSERT and CREATE. PASSED_OVER lists the checks that cubetree fails on purpose,
with reasons. Each of them tests what happens instead.
"""
from __future__ import annotations

import datetime
from array import array
from collections import OrderedDict, deque, namedtuple
from decimal import Decimal
from pathlib import Path
from typing import Any, Callable, Iterator, List

import pytest

import cubetree as driver

SAMPLES = ["Carlton Cold", "Carlton Draft", "Mountain Goat", "Redback", "Victoria Bitter", "XXXX"]
FACTS = [(name, 2000 + index, index) for index, name in enumerate(SAMPLES)]
SCHEMA = "attr name text\nattr year number\nmeasure qty\nview name,year\nview year\nview\n"

COUNT = "select count(*) from facts"
NAMES = "select name from facts group by name"
NO_NAMES = "select name from facts where name = 'none' group by name"
BY_NAME = "select name from facts where name = ? group by name"
BY_YEAR = "select name from facts where year = ? group by name"

ERRORS = (
    "DataError",
    "OperationalError",
    "IntegrityError",
    "InternalError",
    "ProgrammingError",
    "NotSupportedError",
)
PASSED_OVER = {
    "test_sql_writes_insert": "a connection only reads; Warehouse.load adds facts",
    "test_sql_writes_executemany": "each query has rows, so there is nothing to execute for many",
    "test_sql_writes_ddl": "a connection only reads; Warehouse.declare declares the table",
    "test_sql_writes_None": "a connection only reads, and an attribute has no NULL",
    "test_non_idempotent_close": "you may close a connection again, as you may close a file again",
}


@pytest.fixture(scope="module")
def folder(tmp_path_factory: pytest.TempPathFactory) -> Path:
    """A warehouse with the samples, which all checks read."""
    path = tmp_path_factory.mktemp("warehouse")
    with driver.open(path) as warehouse:
        warehouse.declare(SCHEMA)
        warehouse.load(FACTS)
    return path


@pytest.fixture
def cursor(folder: Path) -> Iterator[driver.Cursor]:
    """A cursor of a new connection."""
    with driver.connect(folder) as connection:
        yield connection.cursor()


def first_of(rows: Any) -> List[Any]:
    """The first value of each row."""
    return [row[0] for row in rows]


def error_of(cursor: driver.Cursor, query: Any, parameters: Any = None) -> driver.ProgrammingError:
    """The ProgrammingError of a query, after which there are no rows."""
    with pytest.raises(driver.ProgrammingError) as caught:
        cursor.execute(query, parameters)
    assert cursor.description is None
    with pytest.raises(driver.Error):
        cursor.fetchone()
    return caught.value


def closed(*calls: Callable[[], object]) -> None:
    """Each of these calls is an error."""
    for call in calls:
        with pytest.raises(driver.Error):
            call()


def test_passed_over() -> None:
    """Each check that is passed over is there, and has its reason."""
    for name, reason in PASSED_OVER.items():
        assert callable(globals()[name]) and reason


# ---- the module


def test_apilevel() -> None:
    assert driver.apilevel == "2.0"


def test_threadsafety() -> None:
    assert driver.threadsafety == 2


def test_paramstyle() -> None:
    assert driver.paramstyle == "qmark"


def test_Exceptions() -> None:
    assert issubclass(driver.Warning, Exception)
    assert issubclass(driver.Error, Exception)
    assert issubclass(driver.InterfaceError, driver.Error)
    assert issubclass(driver.DatabaseError, driver.Error)
    for name in ERRORS:
        assert issubclass(getattr(driver, name), driver.DatabaseError)


def test_ExceptionsAsConnectionAttributes(cursor: driver.Cursor) -> None:
    for name in ("Warning", "Error", "InterfaceError", "DatabaseError", *ERRORS):
        assert getattr(cursor.connection, name) is getattr(driver, name)


# ---- connections


def test_connect(folder: Path) -> None:
    driver.connect(folder).close()
    with pytest.raises(driver.OperationalError) as caught:
        driver.connect(folder / "none")
    error = caught.value
    assert (error.query, error.reply, error.byte) == (None, None, None)


def test_commit(cursor: driver.Cursor) -> None:
    cursor.connection.commit()


def test_rollback(cursor: driver.Cursor) -> None:
    cursor.connection.rollback()


def test_cursor(cursor: driver.Cursor) -> None:
    assert isinstance(cursor.connection.cursor(), driver.Cursor)


def test_cursor_isolation(cursor: driver.Cursor) -> None:
    other = cursor.connection.cursor()
    cursor.execute(COUNT)
    other.execute(NAMES)
    assert first_of(other.fetchall()) == SAMPLES
    assert cursor.fetchall() == [(6,)]


def test_close(cursor: driver.Cursor) -> None:
    connection = cursor.connection
    connection.close()
    closed(connection.cursor, connection.commit, connection.rollback, lambda: cursor.execute(COUNT))


def test_close_fetch(cursor: driver.Cursor) -> None:
    """No cursor of a closed connection works, nor does an iteration that has begun."""
    rows = iter(cursor.execute(NAMES))
    assert next(rows) == ("Carlton Cold",)
    cursor.connection.close()
    closed(cursor.fetchone, cursor.fetchmany, cursor.fetchall, cursor.__next__, rows.__next__)


def test_cursor_close(cursor: driver.Cursor) -> None:
    cursor.execute(NAMES)
    cursor.close()
    cursor.close()
    closed(cursor.fetchone, cursor.fetchmany, cursor.fetchall, cursor.__next__)
    closed(lambda: cursor.execute(COUNT), lambda: cursor.executemany(COUNT, []))
    closed(lambda: cursor.setinputsizes([25]), lambda: cursor.setoutputsize(25))


def test_non_idempotent_close(cursor: driver.Cursor) -> None:
    cursor.connection.close()
    cursor.connection.close()
    with pytest.raises(driver.Error):
        cursor.connection.commit()


# ---- description and rowcount


def test_description(cursor: driver.Cursor) -> None:
    assert cursor.description is None
    cursor.execute(NAMES)
    assert cursor.description == [("name", driver.STRING, None, None, None, None, None)]


def test_description_number(cursor: driver.Cursor) -> None:
    cursor.execute("select year, sum(qty) from facts group by year")
    kinds = [(column[0], column[1]) for column in cursor.description or []]
    assert kinds == [("year", driver.NUMBER), ("sum(qty)", driver.NUMBER)]


def test_rowcount(cursor: driver.Cursor) -> None:
    assert cursor.rowcount == -1
    assert cursor.execute(NAMES).rowcount == 6


def test_failed_execute_leaves_no_rows(cursor: driver.Cursor) -> None:
    cursor.execute(NAMES)
    error_of(cursor, "selekt")
    assert (cursor.rowcount, cursor.rownumber) == (-1, None)


# ---- execute


def test_execute_parameters(cursor: driver.Cursor) -> None:
    cursor.execute("select name from facts where name in (?) group by name", ("Redback",))
    assert cursor.fetchall() == [("Redback",)]


def test_execute_list_parameters(cursor: driver.Cursor) -> None:
    assert cursor.execute(BY_NAME, ["Redback"]).fetchall() == [("Redback",)]


def test_parameter_None(cursor: driver.Cursor) -> None:
    """None is NULL, which no name is."""
    assert cursor.execute(BY_NAME, (None,)).fetchall() == []


def test_parameter_float_bytes(cursor: driver.Cursor) -> None:
    """A float is compared as a number."""
    assert cursor.execute(BY_YEAR, (2003.5,)).fetchall() == []
    assert cursor.execute(BY_YEAR, (2003.0,)).fetchall() == [("Redback",)]
    error = error_of(cursor, BY_YEAR, (b"x",))
    assert str(error) == "parameter 1 is of the type bytes: pass a str, a number, a date or None"


def test_parameter_mapping(cursor: driver.Cursor) -> None:
    """A mapping has no order. Its keys are no parameters, even if one is a name."""
    for mapping in ({"a": "Redback"}, {"Redback": 1}, {0: "Redback"}, OrderedDict(Redback=1)):
        kind = "dict" if type(mapping) is dict else "collections.OrderedDict"
        assert f"the parameters are of the type {kind}:" in str(error_of(cursor, BY_NAME, mapping))
    assert "type dict: pass a list or a tuple" in str(error_of(cursor, COUNT, {}))


def test_parameter_str(cursor: driver.Cursor) -> None:
    """A str is a sequence of letters, and surely not meant as one."""
    for text in ("Redback", "R", "", b"R", bytearray(b"R"), memoryview(b"R")):
        kind = type(text).__name__
        assert f"the parameters are of the type {kind}:" in str(error_of(cursor, BY_NAME, text))


def test_execute_parameters_None(cursor: driver.Cursor) -> None:
    """SQLAlchemy, pandas and Superset may pass None."""
    assert cursor.execute(COUNT, None).fetchall() == [(6,)]
    assert cursor.execute(COUNT, parameters=None).fetchall() == [(6,)]


def test_semicolon(cursor: driver.Cursor) -> None:
    """BI tools end queries with a semicolon."""
    for end in (";", " ; ", ";\n", ";;", "; -- the end", "/* the end */;", ";\r\n/* ; */ ;"):
        assert cursor.execute(COUNT + end).fetchall() == [(6,)]


def test_comment(cursor: driver.Cursor) -> None:
    """BI tools write comments before queries."""
    assert cursor.execute("-- a\n/* b */ " + COUNT).fetchall() == [(6,)]


def test_no_rows_aggregate(cursor: driver.Cursor) -> None:
    for item, value in (("count(*)", 0), ("sum(qty)", None)):
        cursor.execute(f"select {item} from facts where year > 9999")
        assert (cursor.rowcount, cursor.fetchall()) == (1, [(value,)])
        assert first_of(cursor.description or []) == [item]


def test_wrong_is_ProgrammingError(cursor: driver.Cursor) -> None:
    assert error_of(cursor, "selekt").reply == "refused sql syntax 1"


def test_empty_operation(cursor: driver.Cursor) -> None:
    for nothing in ("", " \n", ";", "-- nothing", "/* nothing */ ;"):
        error = error_of(cursor, nothing)
        assert (error.query, error.byte) == (nothing, 1)


def test_executemany(cursor: driver.Cursor) -> None:
    with pytest.raises(driver.NotSupportedError, match="call execute for each query"):
        cursor.executemany(BY_NAME, [["Redback"], ["XXXX"]])


def test_sql_writes_insert(cursor: driver.Cursor) -> None:
    with pytest.raises(driver.ProgrammingError):
        cursor.execute("insert into facts values ('Emu', 1999, 1)")
    assert cursor.execute(COUNT).fetchall() == [(6,)]


def test_sql_writes_executemany(cursor: driver.Cursor) -> None:
    rows = [("Emu", 1999, 1), ("Swan", 1999, 2)]
    with pytest.raises(driver.NotSupportedError, match="Warehouse.load to load facts"):
        cursor.executemany("insert into facts values (?, ?, ?)", rows)
    assert cursor.execute(COUNT).fetchall() == [(6,)]


def test_sql_writes_ddl(cursor: driver.Cursor) -> None:
    with pytest.raises(driver.ProgrammingError):
        cursor.execute("create table booze (name varchar(20))")


def test_sql_writes_None(cursor: driver.Cursor) -> None:
    with pytest.raises(driver.ProgrammingError):
        cursor.execute("insert into facts values (NULL, 1999, 1)")
    assert cursor.execute(COUNT).fetchall() == [(6,)]


# ---- fetch


def test_fetchone(cursor: driver.Cursor) -> None:
    with pytest.raises(driver.Error):
        cursor.fetchone()
    cursor.execute(NO_NAMES)
    assert (cursor.rowcount, cursor.fetchone()) == (0, None)
    cursor.execute(BY_NAME, ["XXXX"])
    assert [cursor.fetchone(), cursor.fetchone()] == [("XXXX",), None]


def test_fetchmany(cursor: driver.Cursor) -> None:
    with pytest.raises(driver.Error):
        cursor.fetchmany(4)
    assert len(cursor.execute(NAMES).fetchmany()) == 1
    cursor.arraysize = 10
    assert [len(cursor.fetchmany(size)) for size in (3, 4, 4)] == [3, 2, 0]
    cursor.arraysize = 4
    cursor.execute(NAMES)
    assert [len(cursor.fetchmany()) for _ in range(3)] == [4, 2, 0]
    cursor.arraysize = 6
    assert first_of(cursor.execute(NAMES).fetchmany()) == SAMPLES
    assert cursor.execute(NO_NAMES).fetchmany() == []


def test_fetchmany_keyword(cursor: driver.Cursor) -> None:
    assert first_of(cursor.execute(NAMES).fetchmany(size=2)) == SAMPLES[:2]


def test_fetchall(cursor: driver.Cursor) -> None:
    with pytest.raises(driver.Error):
        cursor.fetchall()
    assert first_of(cursor.execute(NAMES).fetchall()) == SAMPLES
    assert cursor.fetchall() == []
    assert cursor.execute(NO_NAMES).fetchall() == []


def test_mixedfetch(cursor: driver.Cursor) -> None:
    cursor.execute(NAMES)
    rows = [cursor.fetchone(), *cursor.fetchmany(2), cursor.fetchone(), *cursor.fetchall()]
    assert first_of(rows) == SAMPLES


def test_iter(cursor: driver.Cursor) -> None:
    assert iter(cursor) is cursor
    assert first_of(cursor.execute(NAMES)) == SAMPLES
    assert list(cursor) == []


def test_next(cursor: driver.Cursor) -> None:
    with pytest.raises(driver.Error):
        next(cursor)
    cursor.execute(BY_NAME, ["XXXX"])
    assert next(cursor) == ("XXXX",)
    with pytest.raises(StopIteration):
        next(cursor)


def test_arraysize(cursor: driver.Cursor) -> None:
    assert cursor.arraysize == 1


def test_setinputsizes(cursor: driver.Cursor) -> None:
    cursor.setinputsizes((25,))
    cursor.execute("select count(*) from facts where name = ?", ("XXXX",))
    assert cursor.fetchone() == (1,)


def test_setoutputsize_basic(cursor: driver.Cursor) -> None:
    cursor.setoutputsize(1000)
    cursor.setoutputsize(2000, 0)


def test_callproc(cursor: driver.Cursor) -> None:
    """PEP 249 prefers no method at all to one that never works."""
    assert not hasattr(cursor, "callproc")


def test_nextset(cursor: driver.Cursor) -> None:
    """PEP 249 prefers no method at all to one that never works."""
    assert not hasattr(cursor, "nextset")


def test_rownumber(cursor: driver.Cursor) -> None:
    """The index of the next row, from 0."""
    before = cursor.rownumber
    assert (before, cursor.execute(NAMES).rownumber) == (None, 0)
    assert (cursor.fetchone(), cursor.rownumber) == ((SAMPLES[0],), 1)
    assert (len(cursor.fetchmany(2)), cursor.rownumber) == (2, 3)
    assert (next(cursor), cursor.rownumber) == ((SAMPLES[3],), 4)
    assert (len(cursor.fetchall()), cursor.rownumber) == (2, 6)
    assert (cursor.fetchone(), cursor.rownumber) == (None, 6)
    assert cursor.execute(COUNT).rownumber == 0
    cursor.close()
    assert cursor.rownumber is None


def test_lastrowid(cursor: driver.Cursor) -> None:
    """SQLAlchemy reads it."""
    assert cursor.lastrowid is None
    assert cursor.execute(COUNT).lastrowid is None


def test_connection_attribute(folder: Path) -> None:
    with driver.connect(folder) as connection:
        assert connection.cursor().connection is connection


# ---- types


def test_STRING(cursor: driver.Cursor) -> None:
    kind = (cursor.execute(NAMES).description or [])[0][1]
    others = (driver.BINARY, driver.NUMBER, driver.DATETIME, driver.ROWID)
    assert kind == driver.STRING and kind not in others


def test_NUMBER(cursor: driver.Cursor) -> None:
    kind = (cursor.execute(COUNT).description or [])[0][1]
    others = (driver.STRING, driver.BINARY, driver.DATETIME, driver.ROWID)
    assert kind == driver.NUMBER and kind not in others


# ---- parameters, which dbapi20 does not check further

Pair = namedtuple("Pair", "low high")
BETWEEN = "select year from facts where year between ? and ? group by year"


class Unmeasured:
    """Two years by their index, and no length."""

    def __getitem__(self, index: int) -> int:
        return (2001, 2002)[index]


@pytest.mark.parametrize(
    "parameters",
    [
        [2001, 2002],
        (2001, 2002),
        Pair(2001, 2002),
        range(2001, 2003),
        deque([2001, 2002]),
        array("i", [2001, 2002]),
    ],
    ids=lambda parameters: type(parameters).__name__,
)
def test_sequences(cursor: driver.Cursor, parameters: Any) -> None:
    """Whatever has an order, a length and items by their index is a sequence."""
    assert cursor.execute(BETWEEN, parameters).fetchall() == [(2001,), (2002,)]


def test_numpy_and_pandas(cursor: driver.Cursor) -> None:
    numpy, pandas = pytest.importorskip("numpy"), pytest.importorskip("pandas")
    years = [(2001,), (2002,)]
    assert cursor.execute(BETWEEN, numpy.array([2001, 2002])).fetchall() == years
    assert cursor.execute(BETWEEN, pandas.Index([2001, 2002])).fetchall() == years
    assert cursor.execute(BETWEEN, [numpy.int64(2001), numpy.uint16(2002)]).fetchall() == years
    assert cursor.execute(BETWEEN, numpy.array([2001, 2002.0])).fetchall() == years
    assert cursor.execute(BY_NAME, numpy.array(["XXXX"])).fetchall() == [("XXXX",)]
    for parameters, kind in (
        ([2001, numpy.datetime64("2002-01-01")], "parameter 2 is of the type numpy.datetime64:"),
        (numpy.array([[2001, 2002]] * 2), "parameter 1 is of the type numpy.ndarray:"),
        (numpy.array(2001), "the parameters are of the type numpy.ndarray:"),
        (pandas.Series([2001, 2002]), "the parameters are of the type pandas.core.series.Series:"),
    ):
        assert kind in str(error_of(cursor, BETWEEN, parameters))


@pytest.mark.parametrize(
    "parameters, kind",
    [
        ({2001, 2002}, "set"),
        (frozenset([2001, 2002]), "frozenset"),
        ({2001: 1, 2002: 2}.keys(), "dict_keys"),
        ({1: 2001, 2: 2002}.values(), "dict_values"),
        (iter([2001, 2002]), "list_iterator"),
        ((year for year in (2001, 2002)), "generator"),
        (Unmeasured(), "tests.test_pep249.Unmeasured"),
        (2001, "int"),
        (0, "int"),
        (False, "bool"),
        (list, "type"),
    ],
)
def test_no_sequences(cursor: driver.Cursor, parameters: Any, kind: str) -> None:
    """What has no order or no length, or is used up by reading it, is an error."""
    error = error_of(cursor, BETWEEN, parameters)
    hint = "pass a list or a tuple, in the order of the question marks"
    assert str(error) == f"the parameters are of the type {kind}: {hint}"
    assert (error.query, error.reply, error.byte) == (BETWEEN, None, None)


@pytest.mark.parametrize(
    "value, kind",
    [
        (datetime.time(1), "datetime.time"),
        (datetime.datetime(2001, 1, 1), "datetime.datetime"),
        (float("inf"), "float"),
        (Decimal("NaN"), "decimal.Decimal"),
        (b"2001", "bytes"),
        ([2001], "list"),
    ],
)
def test_values_of_other_types(cursor: driver.Cursor, value: Any, kind: str) -> None:
    """The message has the place of the parameter, from 1, and its type."""
    for place, parameters in ((1, [value, 2002]), (2, [2001, value])):
        error = error_of(cursor, BETWEEN, parameters)
        expected = f"parameter {place} is of the type {kind}: pass a str, a number, a date or None"
        assert (str(error), error.query, error.byte) == (expected, BETWEEN, None)


def test_numbers_dates_and_None(cursor: driver.Cursor) -> None:
    """A number is compared as a number, and nothing is NULL. A year is no date."""
    assert cursor.execute(BETWEEN, [Decimal(2001), 2001.5]).fetchall() == [(2001,)]
    assert cursor.execute(BETWEEN, [None, 2002]).fetchall() == []
    with pytest.raises(driver.DataError, match="year has numbers"):
        cursor.execute(BETWEEN, [datetime.date(2001, 1, 1), 2002])


def test_bool_is_an_int(cursor: driver.Cursor) -> None:
    """FACTS has a year 2001 and no year 1."""
    assert cursor.execute(BY_YEAR, [True]).fetchall() == []
    assert cursor.execute(BY_YEAR, [2000 + True]).fetchall() == [("Carlton Draft",)]
    cursor.execute("select count(*) from facts where year >= ? and year > ?", [False, True])
    assert cursor.fetchall() == [(6,)]


def test_number_of_parameters(cursor: driver.Cursor) -> None:
    message = "pass one parameter for each `?`: 2 in the query, {} passed"
    assert str(error_of(cursor, BETWEEN)) == message.format(0)
    assert str(error_of(cursor, BETWEEN, [])) == message.format(0)
    assert str(error_of(cursor, BETWEEN, [2001])) == message.format(1)
    assert str(error_of(cursor, BETWEEN, [2001, 2002, 2003])) == message.format(3)


def test_values_out_of_range(cursor: driver.Cursor) -> None:
    """A number has a magnitude below 2^127. Python writes no int of over 4,300 digits."""
    with pytest.raises(driver.DataError):
        cursor.execute(BY_YEAR, [2**127])
    assert cursor.execute(BY_YEAR, [1 - 2**127]).fetchall() == []
    with pytest.raises(driver.DatabaseError) as caught:
        cursor.execute(BETWEEN, [2001, 10**5000])
    assert str(caught.value).startswith(("parameter 2 is out of range:", "refused sql value "))


def test_half_of_a_surrogate_pair(cursor: driver.Cursor) -> None:
    """U+DC80 is the byte 80, as in names of files. U+D800 and U+DFFF are no byte."""
    assert cursor.execute(BY_NAME, ["\udc80"]).fetchall() == []
    error = error_of(cursor, BY_NAME, ["\udc80\ud800"])
    assert str(error) == "parameter 1 has half of a surrogate pair: U+D800 at character 2"
    error = error_of(cursor, BETWEEN, [2001, "\udfff"])
    assert str(error) == "parameter 2 has half of a surrogate pair: U+DFFF at character 1"
    error = error_of(cursor, "select '\ud800'")
    assert str(error) == "the query has half of a surrogate pair: U+D800 at character 9"


def test_operation_is_a_text(cursor: driver.Cursor) -> None:
    for operation, kind in ((None, "NoneType"), (COUNT.encode(), "bytes"), (Path("x"), "pathlib")):
        assert f"the query is of the type {kind}" in str(error_of(cursor, operation))
