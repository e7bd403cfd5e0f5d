"""Whether a warehouse answers a drawn query as sqlite3 does over the raw facts."""
from __future__ import annotations

import datetime
from decimal import Decimal
from typing import Any, List, Optional, Sequence

import cubetree
from tests.drawn_facts import Pair, Row
from tests.drawn_sql import Query


def plain_value(value: Any) -> Any:
    """A value as sqlite3 has it."""
    if isinstance(value, Decimal):
        return float(value)
    return value.isoformat() if isinstance(value, datetime.date) else value


def plain_values(values: Sequence[Any]) -> List[Any]:
    """Values as sqlite3 has them."""
    return [plain_value(value) for value in values]


def are_same(one: Any, other: Any) -> bool:
    """Whether two values are the same to nine digits. They have one type, but for an amount of
    Python, which may be the whole number 0 in sqlite3."""
    has_amount = isinstance(one, Decimal) and isinstance(other, int)
    one, other = plain_value(one), float(other) if has_amount else other
    if isinstance(one, float) and isinstance(other, float):
        return abs(one - other) <= 1e-9 * max(abs(one), abs(other), 1e-3)
    return type(one) is type(other) and bool(one == other)


def same_rows(got: Sequence[Row], wanted: Sequence[Row], is_ordered: bool) -> bool:
    """Whether two answers have the same rows, in the same order where it is determined."""
    if len(got) != len(wanted):
        return False
    if not is_ordered:
        got, wanted = in_order(got), in_order(wanted)
    return all(
        len(one) == len(other) and all(map(are_same, one, other)) for one, other in zip(got, wanted)
    )


def in_order(rows: Sequence[Row]) -> List[Row]:
    """The rows in an order of their own, in which a number counts to nine digits."""
    return sorted(rows, key=lambda row: [place_of(plain_value(value)) for value in row])


def place_of(value: Any) -> str:
    """What a value is sorted by."""
    return f"{value + 0.0:.9g}" if isinstance(value, (int, float)) else repr(value)


def wrong_type(kinds: Sequence[Optional[str]], rows: Sequence[Row]) -> Optional[str]:
    """What is wrong with the type of a column that is a bare column of amounts or days."""
    wanted = {"amount": Decimal, "day": datetime.date}
    for place, kind in enumerate(kinds):
        due = wanted.get(kind or "")
        found = {type(row[place]) for row in rows if row[place] is not None}
        if due and not found <= {due}:
            return f"column {place + 1} has {found}, and not {due}"
    return None


def difference(pair: Pair, query: Query) -> Optional[str]:
    """What is different in the answer of the warehouse; None where nothing is."""
    wanted = pair.base.execute(query.text, plain_values(query.parameters)).fetchall()
    cursor = pair.connection.cursor()
    try:
        got = cursor.execute(query.text, query.parameters).fetchall()
    except cubetree.Error as error:
        is_due = not query.is_covered and "refused notcovered" in str(error)
        return None if is_due else f"refused: {error}\n  wanted {wanted[:5]}"
    names = [column[0] for column in cursor.description or ()]
    if not query.is_covered:
        return f"answered, though no view covers it: {got[:5]}"
    if not same_rows(got, wanted, query.is_ordered):
        return f"got    {got[:5]}\n  wanted {wanted[:5]}"
    if any(due is not None and due != name for name, due in zip(names, query.names)):
        return f"the columns are called {names}, and not {query.names}"
    return wrong_type(query.kinds, got)
