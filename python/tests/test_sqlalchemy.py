"""Tests of the dialect of SQLAlchemy: reflection and queries."""
from __future__ import annotations

import datetime
import os
from decimal import Decimal
from pathlib import Path
from typing import Any, List

import pytest

import cubetree
from tests.alchemy.engines import (  # noqa: F401
    OF_QTY,
    SCHEMA,
    engine_of,
    engine_of_fees,
    exc,
    func,
    made,
    room_of,
    rows,
    select,
    sqlalchemy,
    table,
    text,
    types,
)
from tests.helpers import load

# ---- reflection


def test_tables(engine: Any) -> None:
    """They are the facts, and one for each view."""
    inspector = sqlalchemy.inspect(engine)
    assert inspector.get_table_names() == ["facts", "by_part_year", "by_year", "total"]
    assert inspector.has_table("by_year") and not inspector.has_table("by_part")
    assert not inspector.has_table("by_year", schema="main")
    assert inspector.get_table_names(schema="main") == []
    assert (inspector.get_schema_names(), inspector.get_view_names()) == ([], [])
    metadata = sqlalchemy.MetaData()
    metadata.reflect(engine)
    assert list(metadata.tables) == ["facts", "by_part_year", "by_year", "total"]


def test_columns(engine: Any) -> None:
    """Each has its type and a comment, and none is null."""
    columns = sqlalchemy.inspect(engine).get_columns("by_part_year")
    assert [column["name"] for column in columns] == ["part", "year", "count", *OF_QTY]
    assert [column["nullable"] for column in columns] == [False] * 6
    assert table(engine, "by_year").c.year.autoincrement is False
    part, year, count, *values = [column["type"] for column in columns]
    assert isinstance(part, types.Text)
    assert {type(each) for each in (year, count, *values)} == {types.BigInteger}
    assert [column["comment"] for column in columns] == [
        "an attribute",
        "an attribute",
        "how many facts there are",
        "the sum of qty",
        "the least qty",
        "the greatest qty",
    ]
    facts = sqlalchemy.inspect(engine).get_columns("facts")
    assert [column["name"] for column in facts] == ["part", "year", "qty"]
    assert facts[2]["comment"] == "a measure: ask for its SUM, MIN or MAX"


def test_kinds(fees: Any) -> None:
    """Amounts are numbers with decimals, days are dates, and months are texts."""
    own = {name: column.type for name, column in table(fees, "facts").columns.items()}
    assert isinstance(own["day"], types.Date) and isinstance(own["month"], types.Text)
    assert (own["fee"].precision, own["fee"].scale, own["fee"].asdecimal) == (39, 2, True)
    total = table(fees, "total").c
    assert total.sum_fee.type.scale == total.min_fee.type.scale == 2
    assert isinstance(total.count.type, types.BigInteger)


def test_places() -> None:
    """An amount has as many decimals as its column."""
    os.mkdir("x")
    Path("f.csv").write_text("part,weight\na,1.125\nb,0.5\n")
    load("f.csv", "--folder", "x", "--yes", "--decimals", "weight=3")
    engine = sqlalchemy.create_engine("cubetree:///x")
    total = table(engine, "total").c.sum_weight
    assert total.type.scale == 3 and rows(engine, select(total)) == [(Decimal("1.625"),)]
    engine.dispose()


def test_keys(engine: Any) -> None:
    """The attributes are the key of a view; there are no other constraints."""
    inspector = sqlalchemy.inspect(engine)
    keys = {name: table(engine, name).primary_key for name in inspector.get_table_names()}
    assert {name: [column.name for column in key] for name, key in keys.items()} == {
        "facts": [],
        "by_part_year": ["part", "year"],
        "by_year": ["year"],
        "total": [],
    }
    for name in keys:
        assert inspector.get_indexes(name) == inspector.get_foreign_keys(name) == []
        assert inspector.get_unique_constraints(name) == inspector.get_check_constraints(name) == []
    assert inspector.get_table_comment("by_part_year") == {"text": "the view of part,year"}
    assert inspector.get_table_comment("total") == {"text": "the view of no attribute"}
    assert inspector.get_table_comment("facts")["text"].startswith("facts, of which there are gr")


@pytest.mark.parametrize(
    "name",
    "get_columns get_pk_constraint get_indexes get_foreign_keys get_table_comment"
    " get_unique_constraints get_check_constraints get_view_definition".split(),
)
def test_missing_table(engine: Any, name: str) -> None:
    """It is named as such."""
    for schema in (None, "main"):
        with pytest.raises(exc.NoSuchTableError, match="^(main.)?nope$"):
            getattr(sqlalchemy.inspect(engine), name)("nope", schema=schema)
    with pytest.raises(exc.NoSuchTableError):
        getattr(sqlalchemy.inspect(engine), name)("by_year", schema="main")


def test_one_run_for_reflection(engine: Any, monkeypatch: pytest.MonkeyPatch) -> None:
    """An inspector asks once, and a new one sees what is new."""
    asked: List[int] = []
    own: Any = cubetree.Warehouse.tables
    monkeypatch.setattr(
        cubetree.Warehouse, "tables", property(lambda self: asked.append(1) or own.fget(self))
    )
    sqlalchemy.MetaData().reflect(engine)
    assert len(asked) == 1
    os.mkdir("new")
    engine = sqlalchemy.create_engine("cubetree:///new")
    assert sqlalchemy.inspect(engine).get_table_names() == []
    with cubetree.open("new") as warehouse:
        warehouse.declare(SCHEMA)
    assert sqlalchemy.inspect(engine).has_table("total")
    engine.dispose()


# ---- queries


def test_groups_of_facts(engine: Any) -> None:
    """Expressions of SQLAlchemy ask for groups of facts."""
    facts = table(engine, "facts")
    total = func.sum(facts.c.qty).label("total")
    query = select(facts.c.part, total).group_by(facts.c.part).order_by(total.desc())
    assert rows(engine, query) == [("bolt", 10), ("nut", -2)]
    assert rows(engine, query.limit(1)) == [("bolt", 10)]
    assert rows(engine, query.limit(5).offset(1)) == [("nut", -2)]
    assert rows(engine, query.having(total < 0)) == [("nut", -2)]
    assert rows(engine, query.where(facts.c.year.in_([1998, 1999]))) == [("bolt", 4)]
    assert rows(engine, query.where(facts.c.year.between(1990, 1997))) == [("bolt", 6), ("nut", -2)]
    assert rows(engine, query.where(facts.c.part.like("n%"))) == [("nut", -2)]
    assert rows(engine, query.where(~facts.c.part.startswith("n"))) == [("bolt", 10)]
    assert rows(engine, query.where(facts.c.part.in_([]))) == []
    assert rows(engine, query.where(facts.c.part.not_in([]))) == [("bolt", 10), ("nut", -2)]
    both = sqlalchemy.or_(facts.c.part == "nut", facts.c.year == 1998)
    assert rows(engine, query.where(both)) == [("bolt", 4), ("nut", -2)]
    assert rows(engine, select(func.count()).select_from(facts)) == [(4,)]


def test_views(engine: Any) -> None:
    """A view is a table, which can be joined, cut, united and asked within a query."""
    view, years = table(engine, "by_part_year"), table(engine, "by_year")
    bolts = [("bolt", 1997, 2, 6, 1, 5), ("bolt", 1998, 1, 4, 4, 4)]
    own = select(view).where(view.c.part == "bolt").order_by(view.c.year)
    assert rows(engine, own) == bolts
    inner = select(view.c.part, view.c.count).where(view.c.count > 1).subquery()
    assert rows(engine, select(inner.c.part)) == [("bolt",)]
    named = select(years.c.year.label("y")).cte("named")
    assert rows(engine, select(named.c.y).order_by(named.c.y.desc())) == [(1998,), (1997,)]
    joined = select(view.c.part, years.c.count).join(years, view.c.year == years.c.year)
    joined = joined.where(years.c.year == 1997).order_by(view.c.part)
    assert rows(engine, joined) == [("bolt", 3), ("nut", 3)]
    united = select(view.c.part).union(select(sqlalchemy.literal("all"))).order_by("part")
    assert rows(engine, united) == [("all",), ("bolt",), ("nut",)]
    case = sqlalchemy.case((years.c.year > 1997, "new"), else_="old").label("age")
    assert rows(engine, select(case).order_by(case)) == [("new",), ("old",)]
    cast = sqlalchemy.cast(years.c.year, types.Text)
    assert rows(engine, select(cast).where(years.c.year == 1997)) == [("1997",)]
    ranks = func.rank().over(order_by=years.c.sum_qty.desc(), partition_by=years.c.year)
    assert rows(engine, select(ranks).distinct()) == [(1,)]


def test_values(fees: Any) -> None:
    """Amounts are Decimals, days dates and months texts, in rows and in parameters."""
    view = table(fees, "by_day")
    query = select(view.c.day, view.c.sum_fee).order_by(view.c.sum_fee)
    day = datetime.date(2025, 3, 14)
    assert rows(fees, query) == [
        (datetime.date(2025, 3, 15), Decimal("-0.05")),
        (0, Decimal("1.00")),
        (day, Decimal("12.50")),
    ]
    assert str(rows(fees, query)[2][1]) == "12.50"
    assert rows(fees, query.where(view.c.day == day)) == [(day, Decimal("12.50"))]
    dear = query.where(view.c.sum_fee >= Decimal("1.00"), view.c.day > datetime.date(2025, 1, 1))
    assert rows(fees, dear) == [(day, Decimal("12.50"))]
    facts = table(fees, "facts")
    months = select(facts.c.month, func.sum(facts.c.fee)).group_by(facts.c.month)
    assert rows(fees, months.where(facts.c.month == "2025-04")) == [("2025-04", Decimal("0.95"))]
    total = select(func.sum(facts.c.fee)).where(facts.c.day.in_([day]))
    assert rows(fees, total) == [(Decimal("12.50"),)]


def test_words_of_sqlite(fees: Any) -> None:
    """What databases say in their own ways is said as SQLite does."""
    view = table(fees, "by_part")
    query = select(view.c.part).where(view.c.part.is_distinct_from("a"))
    assert rows(fees, query) == [("b",)]
    days = table(fees, "by_day")
    month = sqlalchemy.extract("month", days.c.day)
    query = select(month).where(days.c.day >= datetime.date(2025, 3, 15))
    assert rows(fees, query) == [(3,)]


def test_parameters(fees: Any) -> None:
    """They go as they are: a Decimal with all its digits, and a date."""
    sent: List[Any] = []
    sqlalchemy.event.listen(
        fees, "before_cursor_execute", lambda *words: sent.extend(words[3]), named=False
    )
    view, amount = table(fees, "by_day"), Decimal("9007199254740993.05")
    day = datetime.date(2025, 3, 14)
    own = select(view.c.day).where(view.c.sum_fee < amount, view.c.day == day)
    assert rows(fees, own) == [(day,)]
    assert sent == [amount, day] and isinstance(sent[0], Decimal)


def test_decimals_of_expressions(fees: Any) -> None:
    """An expression of amounts is a Decimal, of as many decimals as its type says."""
    total = table(fees, "total").c
    ((double, half, number),) = rows(
        fees,
        select(
            total.sum_fee * 2,
            sqlalchemy.cast(total.sum_fee / 2, types.Numeric(9, 3)),
            sqlalchemy.cast(total.sum_fee, types.Float),
        ),
    )
    assert (double, str(half), number) == (Decimal("26.90"), "6.725", 13.45)
    assert [type(double), type(half), type(number)] == [Decimal, Decimal, float]


def test_great_sums() -> None:
    """A sum of more than 63 bits has all its digits."""
    made("great", SCHEMA, [("x", 1, 2**80), ("x", 1, 1)])
    engine = sqlalchemy.create_engine("cubetree:///great")
    assert rows(engine, select(table(engine, "total").c.sum_qty)) == [(2**80 + 1,)]
    engine.dispose()


def test_hostile_names() -> None:
    """Names that are words of SQL, or have its signs in their values, are asked for too."""
    schema = "attr select text\nattr values text\nmeasure group\nview select,values\nview values\n"
    made("x", schema, [("it's", "100%", 3), ('"', ":a ?", 4)])
    engine = sqlalchemy.create_engine("cubetree:///x")
    view = table(engine, "by_select_values")
    query = select(view.c.select, view.c.sum_group).where(view.c.select == "it's")
    assert rows(engine, query) == [("it's", 3)]
    named = select(view.c["values"].label("glob")).order_by("glob")
    assert rows(engine, named) == [("100%",), (":a ?",)]
    facts = table(engine, "facts")
    query = select(facts.c["values"], func.max(facts.c.group)).group_by(facts.c["values"])
    assert sorted(rows(engine, query)) == [("100%", 3), (":a ?", 4)]
    assert rows(engine, query.where(facts.c["values"] == ":a ?")) == [(":a ?", 4)]
    assert rows(engine, query.where(facts.c["values"].like("100\\%", escape="\\"))) == [("100%", 3)]
    engine.dispose()


def test_text(engine: Any) -> None:
    """SQL that is written by hand has parameters by name."""
    query = text("SELECT part, SUM(qty) FROM facts WHERE year = :year GROUP BY part ORDER BY part")
    assert rows(engine, query.bindparams(year=1997)) == [("bolt", 6), ("nut", -2)]


def test_no_parameters(engine: Any) -> None:
    """A text may go as it is, unless it would write."""
    with engine.connect().execution_options(no_parameters=True) as connection:
        found = connection.exec_driver_sql("SELECT COUNT(*) FROM facts WHERE part LIKE 'b%'")
        assert found.scalar() == 3
        with pytest.raises(exc.NotSupportedError, match="DELETE is not supported"):
            connection.exec_driver_sql("DELETE FROM facts")


def test_compiled_once(engine: Any) -> None:
    """A query of the same form is compiled once."""
    view, compiled = table(engine, "by_year"), []
    sqlalchemy.event.listen(
        engine,
        "before_cursor_execute",
        lambda *words: compiled.append(words[4].compiled),
    )
    for year in (1997, 1998):
        assert rows(engine, select(view.c.year).where(view.c.year == year)) == [(year,)]
    assert len(compiled) == 2 and compiled[0] is compiled[1]
