"""A warehouse for SQLAlchemy, and so for what is built on it, such as pandas.read_sql_table.

    from sqlalchemy import create_engine, select, func, MetaData, Table

    engine = create_engine("cubetree:///sales")
    facts = Table("facts", MetaData(), autoload_with=engine)
    with engine.connect() as connection:
        query = select(facts.c.part, func.sum(facts.c.qty)).group_by(facts.c.part)
        print(connection.execute(query).all())

The installed package registers the dialect. Without that, as in a checkout, import this module.
"""
from __future__ import annotations

from sqlalchemy.dialects import registry

registry.register("cubetree", "cubetree.sqlalchemy.dialect", "CubetreeDialect")
