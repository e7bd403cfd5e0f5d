"""What queries in SQL refuse: what no view has, what writes, and numbers beyond 63 bits."""
from __future__ import annotations

import time
from typing import Any, Callable, Iterator, List, Tuple

import pytest

import cubetree

SCHEMA = (
    "attr part text\nattr year number\nattr area text\nmeasure qty\nmeasure fee\n"
    "view part,year\nview area,year\nview year\nview\n"
)
GREAT = 2**62
TABLES = ("facts", "by_part_year", "by_area_year", "by_year", "total")
COLUMNS = ("part", "year", "area", "qty", "fee")
LONGEST = 10.0  # seconds of processor time of a query of a megabyte
MEGABYTE = 1_000_000

# Queries, each with what its message has to say.
REFUSED: List[Tuple[str, Tuple[str, ...]]] = [
    # single facts
    ("SELECT part FROM facts", ("single facts",)),
    ("SELECT * FROM facts", ("single facts",)),
    ("SELECT qty FROM facts LIMIT 1", ("single facts",)),
    ("SELECT COUNT(*) FROM (SELECT part FROM facts)", ("single facts",)),
    ("SELECT SUM(qty) OVER () FROM facts", ("single facts",)),
    ("SELECT COUNT(*) FROM facts WHERE qty > 3", ("single facts",)),
    ("SELECT qty, COUNT(*) FROM facts GROUP BY qty", ("single facts",)),
    ("SELECT COUNT(DISTINCT qty) FROM facts", ("single facts",)),
    ("SELECT SUM(qty * qty) FROM facts", ("single facts",)),
    ("SELECT SUM(qty / 2) FROM facts", ("single facts",)),
    # joins of facts
    ("SELECT COUNT(*) FROM facts JOIN by_year USING (year)", ("join",)),
    ("SELECT COUNT(*) FROM by_year, facts", ("join",)),
    ("SELECT COUNT(*) FROM facts AS a, facts AS b", ("join",)),
    # what is no SELECT
    ("INSERT INTO facts VALUES ('a', 1, 'b', 1, 1)", ()),
    ("UPDATE facts SET qty = 1", ()),
    ("DELETE FROM facts", ()),
    ("ATTACH 'x' AS y", ()),
    ("PRAGMA user_version", ()),
    ("CREATE TABLE t (a)", ()),
    ("DROP TABLE facts", ()),
    ("VACUUM", ()),
    ("EXPLAIN SELECT COUNT(*) FROM facts", ()),
    ("", ()),
    ("-- nothing", ()),
    # recursion, and statements
    (
        "WITH RECURSIVE c(n) AS (SELECT 1 UNION ALL SELECT n + 1 FROM c) SELECT n FROM c LIMIT 3",
        ("recursion",),
    ),
    ("WITH c(n) AS (SELECT 1 UNION ALL SELECT n + 1 FROM c) SELECT n FROM c LIMIT 3", ("c",)),
    ("SELECT COUNT(*) FROM facts; SELECT COUNT(*) FROM facts", ("one statement",)),
    ("SELECT COUNT(*) FROM facts; DROP TABLE facts", ("one statement",)),
    # names
    ("SELECT COUNT(*) FROM nothing", ("nothing", *TABLES)),
    ("SELECT COUNT(*) FROM sqlite_master", ("sqlite_master", *TABLES)),
    ("SELECT SUM(colour) FROM facts", ("colour", *COLUMNS)),
    ("SELECT COUNT(*) FROM facts WHERE colour = 'red'", ("colour", *COLUMNS)),
    ("SELECT qty FROM by_year", ("qty", "year", "count", "sum_qty", "min_qty", "max_qty")),
    ("SELECT f.part, COUNT(*) FROM facts AS g GROUP BY 1", ("f.part",)),
    ("SELECT load_extension('x') FROM by_year", ()),
    ("SELECT readfile('/etc/passwd') FROM by_year", ()),
    # views
    (
        "SELECT part, area, COUNT(*) FROM facts GROUP BY part, area",
        ("refused notcovered", "part,year", "area,year", "a view of"),
    ),
    (
        "SELECT part, SUM(qty) AS s FROM facts WHERE area LIKE 'N%' GROUP BY part ORDER BY s",
        ("refused notcovered", "part,year", "area,year", "a view of"),
    ),
    # forms
    ("SELECT SUM(qty FROM facts", ("refused sql syntax",)),
    ("SELECT COUNT(*) FROM facts WHERE part = 'a", ("not closed",)),
    ("SELECT COUNT(*) FROM facts /* a", ("not closed",)),
    ("SELECT COUNT(*) FROM facts WHERE", ("refused sql syntax",)),
    ("SELECT part, COUNT(*) FROM facts GROUP BY part ORDER BY 3", ()),
    # what SQLite would round
    ("SELECT SUM(qty) + 1 FROM facts WHERE year = 2", ("63 bits",)),
    ("SELECT SUM(qty) * 4 FROM facts WHERE part = 'a'", ("63 bits",)),
    ("SELECT AVG(qty) FROM facts WHERE SUM(qty) > 1", ()),
    ("SELECT MAX(s) FROM (SELECT part, SUM(qty) AS s FROM facts GROUP BY part)", ("63 bits",)),
    ("SELECT 9223372036854775808 + COUNT(*) FROM facts", ("63 bits",)),
]
# Queries of a megabyte, each by the way in which it is made.
LONG = {
    "conditions": lambda: (
        "SELECT COUNT(*) FROM facts WHERE " + " AND ".join(["year > 1"] * (MEGABYTE // 13))
    ),
    "alternatives": lambda: (
        "SELECT COUNT(*) FROM facts WHERE " + " OR ".join(["year = 1"] * (MEGABYTE // 12))
    ),
    "a list": lambda: f"SELECT COUNT(*) FROM facts WHERE year IN ({'1, ' * (MEGABYTE // 3)}1)",
    "brackets": lambda: f"SELECT {'(' * (MEGABYTE // 2)}1{')' * (MEGABYTE // 2)} FROM facts",
    "a text": lambda: f"SELECT COUNT(*) FROM facts WHERE part = '{'x' * MEGABYTE}'",
    "commas": lambda: "SELECT " + "," * MEGABYTE,
    "open brackets": lambda: "SELECT " + "(" * MEGABYTE,
    "subqueries": lambda: "SELECT COUNT(*) FROM " + "(SELECT * FROM " * (MEGABYTE // 15),
    "signs": lambda: f"SELECT {'- ' * (MEGABYTE // 2)}1 FROM by_year",
    "a sum": lambda: f"SELECT {'1 + ' * (MEGABYTE // 4)}1 FROM by_year",
    "NOT": lambda: f"SELECT COUNT(*) FROM facts WHERE {'NOT ' * (MEGABYTE // 4)}1",
    "CASE": lambda: "SELECT " + "CASE WHEN " * (MEGABYTE // 10),
    "unions": lambda: " UNION ALL ".join(["SELECT 1"] * (MEGABYTE // 19)),
    "columns": lambda: f"SELECT {'COUNT(*), ' * (MEGABYTE // 10)}COUNT(*) FROM facts",
    "a number": lambda: f"SELECT COUNT(*) FROM facts WHERE year = {'1' * MEGABYTE}",
    "a comment": lambda: f"SELECT COUNT(*) /* {'x' * MEGABYTE} */ FROM facts",
    "spaces": lambda: f"SELECT COUNT(*) {' ' * MEGABYTE} FROM facts",
    "quotes": lambda: f"SELECT COUNT(*) FROM facts WHERE part = {chr(39) * MEGABYTE}",
}


@pytest.fixture(scope="module")
def connection(tmp_path_factory: pytest.TempPathFactory) -> Iterator[cubetree.Connection]:
    """A connection to a warehouse whose sums have more than 63 bits."""
    folder = tmp_path_factory.mktemp("warehouse")
    with cubetree.open(folder) as warehouse:
        warehouse.declare(SCHEMA)
        warehouse.load([("a", 1, "N", GREAT, 1)] * 3 + [("b", 2, "S", -GREAT, 2)] * 5)
    with cubetree.connect(folder) as opened:
        yield opened


def rows(connection: cubetree.Connection, text: str, parameters: Any = ()) -> List[Any]:
    """The rows of an answer."""
    return connection.cursor().execute(text, parameters).fetchall()


@pytest.mark.parametrize(("text", "words"), REFUSED, ids=[text[:60] for text, _ in REFUSED])
def test_refused(connection: cubetree.Connection, text: str, words: Tuple[str, ...]) -> None:
    """Each of these is an error whose message has these words. The warehouse stays usable."""
    with pytest.raises(cubetree.DatabaseError) as caught:
        rows(connection, text)
    missing = [word for word in words if word.lower() not in str(caught.value).lower()]
    assert not missing, f"{caught.value} does not say {missing}"
    assert rows(connection, "SELECT COUNT(*) FROM facts") == [(8,)]


EXACT = [
    ("SELECT SUM(qty) FROM facts WHERE part = 'a'", [(3 * GREAT,)]),
    ("SELECT SUM(qty) AS s FROM facts WHERE part = 'a' GROUP BY part", [(3 * GREAT,)]),
    (
        "SELECT part, SUM(qty) AS s FROM facts GROUP BY part ORDER BY s",
        [("b", -5 * GREAT), ("a", 3 * GREAT)],
    ),
    (
        "SELECT part p, SUM(qty) FROM facts GROUP BY part ORDER BY 2 DESC LIMIT 1",
        [("a", 3 * GREAT)],
    ),
    (
        "SELECT SUM(qty), year FROM facts GROUP BY year ORDER BY year LIMIT 1 OFFSET 1",
        [(-5 * GREAT, 2)],
    ),
    ("SELECT year, sum_qty AS s FROM by_year ORDER BY s LIMIT 1", [(2, -5 * GREAT)]),
    ("SELECT MAX(qty), MIN(qty) FROM facts", [(GREAT, -GREAT)]),
]


@pytest.mark.parametrize(("text", "due"), EXACT, ids=[text for text, _ in EXACT])
def test_exact(connection: cubetree.Connection, text: str, due: List[Any]) -> None:
    """A query that names, sorts and cuts has sums of more than 63 bits, to the last digit."""
    assert rows(connection, text) == due


@pytest.mark.parametrize("made", LONG.values(), ids=LONG)
def test_long(connection: cubetree.Connection, made: Callable[[], str]) -> None:
    """A query of a megabyte is answered or refused, in little time."""
    text, begun = made(), time.process_time()
    try:
        assert len(rows(connection, text)) < MEGABYTE
    except cubetree.Error as error:
        assert len(str(error)) < 2000
    assert time.process_time() - begun < LONGEST
    assert rows(connection, "SELECT COUNT(*) FROM facts") == [(8,)]
