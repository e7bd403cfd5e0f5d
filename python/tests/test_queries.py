"""Tests of queries in SQL, and of the interface of databases to Python."""
import datetime
import json
import threading
import warnings
from decimal import Decimal
from pathlib import Path
from typing import Any, Iterator, List, Optional

import pytest

import cubetree
from cubetree.columns import Columns
from cubetree.sql import items_of, statement_of
from cubetree.values import Kind
from tests.helpers import SCHEMA, Case, ask

FACTS = [("bolt", 1997, 5), ("nut", 1997, -2), ("bolt", 1998, 4)]
REFUSED = [
    ("select part from facts", "refused sql group 8"),
    ("select count(*) from parts", "refused sql table 22"),
    ("select sum(cost) from facts", "refused sql name 12"),
    ("select count(*) from facts where year = 'x'", "refused sql value 41"),
    ("select part, year from facts group by part", "refused sql group 14"),
    ("select part from facts group by part having", "refused sql syntax 44"),
    ("select part", "refused sql name 8"),
    ("select part ,", "refused sql syntax 14"),
    ("select part from facts where part = 'x", "refused sql syntax 37"),
    ("select count(*) from facts where part = 5", "refused sql value 41"),
    ("", "refused sql syntax 1"),
]


class Queries(Case):
    """SQL, over three facts."""

    def setUp(self) -> None:
        super().setUp()
        with cubetree.open("w") as warehouse:
            warehouse.declare(SCHEMA)
            warehouse.load(FACTS)

    def test_sql(self) -> None:
        with cubetree.open("w") as warehouse:
            for text, columns, rows in [
                (
                    (
                        "SELECT part, SUM(qty) FROM facts WHERE year >= 1997 AND year < 1998 GROUP"
                        " BY part"
                    ),
                    ("part", "SUM(qty)"),
                    [("bolt", 5), ("nut", -2)],
                ),
                (
                    "select year, max(qty) from facts where part in ('bolt','saw') group by year",
                    ("year", "max(qty)"),
                    [(1997, 5), (1998, 4)],
                ),
                ("select count(*) from facts", ("count(*)",), [(3,)]),
                (
                    (
                        "Select Count ( * ) , part\tFrom facts\nWhere year between 1998 and 2000"
                        " Group By part"
                    ),
                    ("Count ( * )", "part"),
                    [(1, "bolt")],
                ),
                ("select year from facts group by year", ("year",), [(1997,), (1998,)]),
                ("select part from facts group by part", ("part",), [("bolt",), ("nut",)]),
                ("select sum(qty) from facts where part = 'it''s'", ("sum(qty)",), [(None,)]),
            ]:
                with self.subTest(text):
                    answer = warehouse.sql(text)
                    self.assertEqual((answer.columns, answer), (columns, rows))

    def test_odd_texts(self) -> None:
        """A row of one text may look like the end of a reply."""
        odd = [
            "",
            "refused sql syntax 1",
            "rows 0",
            "rows 3",
            "x,y",
            'a "b"',
            "a\nb",
            "\udcff",
            "it's",
        ]
        with cubetree.open("w") as warehouse:
            warehouse.load((text, 2000, 1) for text in odd)
            rows = warehouse.sql("select part from facts where year = 2000 group by part")
            self.assertEqual(rows, sorted((text,) for text in odd))
            self.assertEqual(
                warehouse.sql("select part,count(*) from facts where part = 'it''s' group by part"),
                [("it's", 1)],
            )

    def test_refusals(self) -> None:
        with cubetree.open("w") as warehouse:
            for text, reply in REFUSED:
                with self.subTest(text), self.assertRaises(cubetree.Refused) as caught:
                    warehouse.sql(text)
                self.assertEqual(
                    (caught.exception.reply, caught.exception.byte), (reply, int(reply.split()[-1]))
                )

    def test_items(self) -> None:
        for text, items in [
            ("select a, count( * ),sum(b) from", ["a", "count( * )", "sum(b)"]),
            (" SELECT a FROM x", ["a"]),
            ("selecta from x", []),
            ("select afrom x", []),
            ("select a b from x", []),
            ("select from x", []),
            ("", []),
        ]:
            self.assertEqual([item.text for item in items_of(text)], items)

    def test_ask(self) -> None:
        self.assertEqual(
            ask("--in", "w", "SELECT part, SUM(qty) FROM facts GROUP BY part")[0],
            "part  SUM(qty)\n----  --------\nbolt         9\nnut         -2\n(2 rows)\n",
        )
        told = ask(
            "--in",
            "w",
            "--json",
            given=b"sql select year, count(*) from facts where year > 1997 group by year\ncount\n",
        )[0]
        self.assertEqual(
            [json.loads(line) for line in told.split("\n\n")],
            [{"year": 1998, "count(*)": 1}, {"count": 3}],
        )
        said = ask("--in", "w", "select colour from facts", status=1)[1]
        self.assertEqual(
            said,
            (
                "cube ask: refused sql name 8: no column has the name colour; there are part, year,"
                " qty\n  select colour from facts\n         ^\n"
            ),
        )


class Databases(Case):
    """PEP 249."""

    def setUp(self) -> None:
        super().setUp()
        with cubetree.open("w") as warehouse:
            warehouse.declare(SCHEMA)
            warehouse.load(FACTS)

    def test_rows(self) -> None:
        self.assertEqual(
            (cubetree.apilevel, cubetree.threadsafety, cubetree.paramstyle), ("2.0", 2, "qmark")
        )
        with cubetree.connect("w") as connection, connection.cursor() as cursor:
            self.assertEqual((cursor.description, cursor.rowcount, cursor.arraysize), (None, -1, 1))
            cursor.execute("SELECT part, year, SUM(qty) FROM facts GROUP BY part, year")
            self.assertEqual(
                [column[:2] for column in cursor.description or []],
                [
                    ("part", cubetree.STRING),
                    ("year", cubetree.NUMBER),
                    ("SUM(qty)", cubetree.NUMBER),
                ],
            )
            self.assertEqual([len(column) for column in cursor.description or []], [7, 7, 7])
            self.assertEqual(cursor.rowcount, 3)
            self.assertEqual(
                (cursor.fetchone(), cursor.fetchmany(), cursor.fetchmany(5)),
                (("bolt", 1997, 5), [("bolt", 1998, 4)], [("nut", 1997, -2)]),
            )
            self.assertEqual(
                (cursor.fetchone(), cursor.fetchmany(), cursor.fetchall()), (None, [], [])
            )
            cursor.arraysize = 2
            self.assertEqual(
                len(cursor.execute("SELECT year FROM facts GROUP BY year").fetchmany()), 2
            )
            self.assertEqual(
                list(cursor.execute("SELECT COUNT(*) FROM facts WHERE year > 2000")), [(0,)]
            )
            self.assertEqual(
                list(connection.cursor().execute("SELECT COUNT(*) FROM facts")), [(3,)]
            )
            connection.commit()
            connection.rollback()

    def test_parameters(self) -> None:
        with cubetree.connect("w") as connection:
            cursor = connection.cursor()
            query = (
                "SELECT part, SUM(qty) FROM facts WHERE part IN (?, ?, 'a?') AND year BETWEEN ? AND"
                " ? GROUP BY part"
            )
            self.assertEqual(
                cursor.execute(query, ("bolt", "it's", 1998, True + 1998)).fetchall(), [("bolt", 4)]
            )
            for parameters, kind in [
                ((), cubetree.ProgrammingError),
                ((1, 2, 3), cubetree.ProgrammingError),
                (("a", "b", b"1", 2), cubetree.ProgrammingError),
                (("a", 7, 1997, 1998), cubetree.DataError),
            ]:
                with self.subTest(parameters), self.assertRaises(kind):
                    cursor.execute(query, parameters)  # type: ignore[arg-type]
                with self.assertRaises(cubetree.ProgrammingError):
                    cursor.fetchone()
        statement = statement_of("a ? 'it''s ?' ? /*?*/ ;", ["'?", -5])
        self.assertEqual(statement.shown, "a '''?' 'it''s ?' -5 /*?*/ ;")
        self.assertEqual(statement.sent, "a '''?' 'it''s ?' -5")

    def test_errors(self) -> None:
        connection = cubetree.connect("w")
        cursor = connection.cursor()
        for text, reply in REFUSED:
            with self.subTest(text), self.assertRaises(cubetree.DatabaseError) as caught:
                cursor.execute(text)
            error = caught.exception
            self.assertEqual(
                (error.reply, error.byte, error.query), (reply, int(reply.split()[-1]), text)
            )
            self.assertEqual(
                type(error), cubetree.DataError if " value " in reply else cubetree.ProgrammingError
            )
            self.assertEqual(type(error.__cause__), cubetree.Refused)
        with self.assertRaises(cubetree.NotSupportedError):
            cursor.executemany("select count(*) from facts", [])
        with self.assertRaises(cubetree.OperationalError):
            cubetree.connect("nowhere")
        cursor.close()
        with self.assertRaises(cubetree.ProgrammingError):
            cursor.execute("select count(*) from facts")
        connection.close()
        connection.close()
        for call in (connection.cursor, connection.commit, connection.rollback):
            with self.assertRaises(connection.ProgrammingError):
                call()
        for kind in (
            cubetree.DataError,
            cubetree.OperationalError,
            cubetree.IntegrityError,
            cubetree.InternalError,
            cubetree.ProgrammingError,
            cubetree.NotSupportedError,
        ):
            self.assertTrue(issubclass(kind, cubetree.DatabaseError))
        self.assertTrue(
            issubclass(cubetree.DatabaseError, cubetree.Error)
            and issubclass(cubetree.InterfaceError, cubetree.Error)
        )

    def test_busy(self) -> None:
        """Another run in the folder is an error where the connection does not wait."""
        with cubetree.open("w") as warehouse, cubetree.connect("w", wait=False) as connection:
            warehouse.begin(FACTS)
            with self.assertRaises(cubetree.OperationalError):
                connection.cursor().execute("select count(*) from facts")

    def test_threads(self) -> None:
        """Threads may share a connection, each with a cursor of its own."""
        told: "list[Any]" = []
        with cubetree.connect("w") as connection:
            asked = [
                threading.Thread(
                    target=lambda: told.append(
                        connection.cursor().execute("select count(*) from facts").fetchall()
                    )
                )
                for _ in range(8)
            ]
            for thread in asked:
                thread.start()
            for thread in asked:
                thread.join()
        self.assertEqual(told, [[(3,)]] * 8)

    def test_pandas(self) -> None:
        try:
            import pandas  # type: ignore[import]
        except ImportError:
            self.skipTest("no pandas")
        with cubetree.connect("w") as connection, warnings.catch_warnings():
            warnings.simplefilter("ignore")  # that pandas has not tested this connection
            frame = pandas.read_sql(
                "SELECT part, SUM(qty) FROM facts WHERE year >= ? GROUP BY part",
                connection,
                params=[1997],
            )
            self.assertEqual(list(frame.columns), ["part", "SUM(qty)"])
            self.assertEqual(frame.set_index("part")["SUM(qty)"].to_dict(), {"bolt": 9, "nut": -2})
            self.assertEqual(frame.dtypes.map(str).tolist(), ["object", "int64"])
            with self.assertRaises(Exception):
                pandas.read_sql("SELECT colour FROM facts", connection)


# ---- comments, quotes and semicolons in what a cursor executes

BETWEEN = "year between ? and ? group by year"


@pytest.fixture
def cursor(tmp_path: Path) -> Iterator[cubetree.Cursor]:
    """A cursor over the three facts."""
    with cubetree.open(tmp_path) as warehouse:
        warehouse.declare(SCHEMA)
        warehouse.load(FACTS)
    with cubetree.connect(tmp_path) as connection:
        yield connection.cursor()


def error_of(
    cursor: cubetree.Cursor, query: str, parameters: Optional[List[Any]] = None
) -> cubetree.ProgrammingError:
    """The ProgrammingError of a query."""
    with pytest.raises(cubetree.ProgrammingError) as caught:
        cursor.execute(query, parameters)
    return caught.value


def rest_of(error: cubetree.Error) -> bytes:
    """The query of an error from its place on."""
    assert error.query is not None and error.byte is not None
    return error.query.encode()[error.byte - 1 :]


@pytest.mark.parametrize(
    "query",
    [
        "-- of years\r\nselect year from facts where " + BETWEEN,
        "select year -- of ? and ;\nfrom facts where " + BETWEEN,
        "select year--\rfrom facts where " + BETWEEN,
        "select/**/year/* ' */from/* é */facts where " + BETWEEN + ' /* " */',
        "select year from facts where year between/*a*/?/*b*/and--c\n?--d\ngroup by year --",
        "/* -- */ select year from facts where " + BETWEEN + " /*;*/ ; --;",
        "/* of\n\ryears ?\n*/select year from facts where " + BETWEEN,
        "/* it's; /* ** // */\nselect year from facts where " + BETWEEN + ";\n;",
        "-- /*\nselect year from facts where " + BETWEEN + " -- */",
    ],
)
def test_comments(cursor: cubetree.Cursor, query: str) -> None:
    """A comment is as a space, and a question mark in it is no parameter."""
    assert cursor.execute(query, [1998, 2000]).fetchall() == [(1998,)]
    assert cursor.description == [("year", cubetree.NUMBER, None, None, None, None, None)]


def test_quotes_keep_all_characters(cursor: cubetree.Cursor) -> None:
    """Between quotes there are no comments, no ends and no parameters."""
    odd = ["--", "-- a\r", "/* a */", "/*", "*/", "a;b", ";", "a?", "?", "it's", "'", '"', "';--"]
    with cubetree.open(cursor.connection.warehouse.folder) as warehouse:
        warehouse.load([(part, 2000, number) for number, part in enumerate(odd)])
    for number, part in enumerate(odd):
        quoted = part.replace("'", "''")
        literal = f"select sum(qty) from facts where part = '{quoted}';"
        assert cursor.execute(literal).fetchall() == [(number,)]
        query = f"select sum(qty) from facts where part in ('{quoted}', ?) and year = ? -- ?"
        assert cursor.execute(query, [part, 2000]).fetchall() == [(number,)]


@pytest.mark.parametrize(
    "query, parameters",
    [
        ("select count(*) from facts where part = 'a\n-- b'", []),
        ("select count(*) from facts where part = ?", ["a\nb"]),
    ],
)
def test_line_feed_in_quotes(cursor: cubetree.Cursor, query: str, parameters: List[str]) -> None:
    """The program takes no line feed within a query, so that SQLite makes the test."""
    assert cursor.execute(query, parameters).fetchall() == [(0,)]


@pytest.mark.parametrize(
    "query, rest",
    [
        ("select count(*) from facts; select count(*) from facts", "; select count(*) from facts"),
        ("select count(*) from facts where part = 'é;';\n-- b\n;select", ";\n-- b\n;select"),
        ("select count(*) from facts;'a'", ";'a'"),
        ("select count(*) from facts;?", ";?"),
        (";select count(*) from facts", ";select count(*) from facts"),
        ("/* é; */; - ;", "; - ;"),
    ],
)
def test_one_statement(cursor: cubetree.Cursor, query: str, rest: str) -> None:
    """A second statement is an error at the semicolon before it."""
    error = error_of(cursor, query)
    assert (error.query, rest_of(error)) == (query, rest.encode())
    assert error.reply == f"refused sql syntax {error.byte}"
    assert str(error).endswith("text follows this `;`: execute one statement at a time")


@pytest.mark.parametrize(
    "query, byte, what",
    [
        ("select count(*) from facts /* where year = ?", 28, "comment"),
        ("select count(*) from facts /*/ ", 28, "comment"),
        ("/* é */ /* select count(*) from facts", 10, "comment"),
        ("select count(*) from facts where part = 'x and year = ?", 41, "quote"),
        ("select count(*) from facts where part = 'it''s -- '';", 41, "quote"),
        ("select count(*) from facts where part = '''", 41, "quote"),
        ("select count(*) from facts where part in ('é', 'x)", 49, "quote"),
        ('select "part from facts', 8, "quote"),
        ("select count(*) from facts; /* ; ", 29, "comment"),
    ],
)
def test_open_comments_and_quotes(
    cursor: cubetree.Cursor, query: str, byte: int, what: str
) -> None:
    """What is not closed swallows nothing: it is an error where it begins."""
    for parameters in (None, [1997]):
        error = error_of(cursor, query, parameters)
        message = f"refused sql syntax {byte}: a {what} begins here and is not closed"
        assert (str(error), error.query, error.byte) == (message, query, byte)


@pytest.mark.parametrize(
    "query, rest",
    [
        ("year = 199?", "?"),
        ("year = ?7", "?7"),
        ("year = ??", "??"),
        ("part = 'a'?", "?"),
        ("part = ?'a'", "?'a'"),
        ("year?= 1", "?= 1"),
        ("part = 'é' and year = 1?", "?"),
    ],
)
def test_touching_question_marks(cursor: cubetree.Cursor, query: str, rest: str) -> None:
    """`199?` with 7 is not 1997, and `'a'?` with 'b' is not the text a'b."""
    text = "select count(*) from facts where " + query
    passed: List[List[Any]] = [[7], [7, 7], ["b"]]
    for parameters in passed:
        error = error_of(cursor, text, parameters)
        assert "put spaces around this `?`" in str(error)
        assert (error.query, rest_of(error)) == (text, rest.encode())


def test_sign_before_a_question_mark(cursor: cubetree.Cursor) -> None:
    """`-` and a negative parameter make no comment of the rest."""
    query = "select count(*) from facts where year > -? and\npart = 'bolt'"
    assert cursor.execute(query, [5]).fetchall() == [(2,)]
    assert cursor.execute(query, [-1997]).fetchall() == [(1,)]


@pytest.mark.parametrize(
    "query, parameters, shown, word, rest",
    [
        ("select colour from facts;", [], None, "name", "colour from facts;"),
        ("/* é */ select colour from facts -- ?", [], None, "name", "colour from facts -- ?"),
        (
            "select part/* ? */ from facts where part = ? and colour = ?",
            ["é'", 1],
            "select part/* ? */ from facts where part = 'é''' and colour = 1",
            "name",
            "colour = 1",
        ),
        (
            "/*é*/select part --é\nfrom facts\twhere year = ? group by year; --",
            [1997],
            "/*é*/select part --é\nfrom facts\twhere year = 1997 group by year; --",
            "group",
            "part --é\nfrom facts\twhere year = 1997 group by year; --",
        ),
        (
            "/* é */ select count(*) from facts where part = ? and year = ? -- x",
            ["é", "x"],
            "/* é */ select count(*) from facts where part = 'é' and year = 'x' -- x",
            "value",
            "'x' -- x",
        ),
        ('select "a--;?" from facts', [], None, "name", '"a--;?" from facts'),
        ("select part, -- é", [], None, "syntax", " -- é"),
        ("select part,;", [], None, "syntax", ";"),
    ],
)
def test_places(
    cursor: cubetree.Cursor,
    query: str,
    parameters: List[Any],
    shown: Optional[str],
    word: str,
    rest: str,
) -> None:
    """The place of a refusal counts the bytes of the executed text, comments and all."""
    with pytest.raises(cubetree.DatabaseError) as caught:
        cursor.execute(query, parameters)
    error = caught.value
    assert (error.query, rest_of(error)) == (shown or query, rest.encode())
    assert error.reply == f"refused sql {word} {error.byte}"
    assert str(error).startswith(f"{error.reply}: ")


def test_types_of_days_and_amounts(tmp_path: Path) -> None:
    """A column of days is of the type DATETIME, and one of amounts a NUMBER."""
    with cubetree.open(tmp_path) as warehouse:
        warehouse.declare("attr day number\nattr part text\nmeasure price\nview day,part\n")
        warehouse.load([(20250314, "bolt", 1250)])
    kinds = {"day": Kind("day", order="YMD"), "price": Kind("decimal", places=2)}
    Columns(kinds=kinds).write(str(tmp_path))
    with cubetree.connect(tmp_path) as connection:
        cursor = connection.cursor()
        query = "select day, part, sum(price) from facts where day = ? group by day, part -- é"
        cursor.execute(query, ["2025-03-14"])
        types = [column[1] for column in cursor.description or []]
        assert types == [cubetree.DATETIME, cubetree.STRING, cubetree.NUMBER]
        assert cursor.fetchall() == [(datetime.date(2025, 3, 14), "bolt", Decimal("12.50"))]
        query = "/* é */ select count(*) from facts where day = ? and colour = ?;"
        assert rest_of(error_of(cursor, query, ["2025-03-14", 1])) == b"colour = 1;"
